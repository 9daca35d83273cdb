/* Reads all that an area holds: its terms and bindings, its lines and entries, and the report.

   Build sheets of a sorter stand in a book. Two lines are added and two choices are fixed, and then everything is printed that a
   program may read: terms, bindings and lines by fit_area.h, entries by fit_entry, and the report by fit_report. The area's entries and
   the report's are numbered apart: an entry of the area keeps its number, while each report numbers its own afresh, and one report
   entry stands for all entries with the same two values. An entry gives terms as they were given; the report gives names, the lowest term that
   has the value.

   There is no malloc here. docs/C-API.md says how to build it, include/fit.h what the numbers mean. */
#include "fit_area.h"

#include <stdio.h>
#include <stdlib.h>

#define SMALL_CAPACITY 4 /* too small for these steps, on purpose */
#define LARGE_CAPACITY 16

/* The book: the number of terms; then for each term 0 for a variable, or symbol plus 1, the number of arguments, the arguments. */
static const uint8_t book[] = {
    10,
    1, 0,       /* 0: steel */
    2, 0,       /* 1: rubber */
    0,          /* 2: the liner, an open choice */
    0,          /* 3: the spare liner, an open choice */
    3, 1, 0,    /* 4: tray(steel) */
    3, 1, 2,    /* 5: tray(liner) */
    3, 1, 3,    /* 6: tray(spare) */
    4, 2, 4, 1, /* 7: sheet A, sorter(tray(steel), rubber) */
    4, 2, 5, 2, /* 8: sheet B, sorter(tray(liner), liner) */
    4, 2, 6, 0, /* 9: sheet C, sorter(tray(spare), steel) */
};

enum { RUBBER = 1, LINER = 2, SPARE = 3, SHEET_A = 7, SHEET_B = 8, SHEET_C = 9 };

static const char *const symbols[] = {"steel", "rubber", "tray", "sorter"};

#define SYMBOLS (sizeof symbols / sizeof *symbols)

/* The steps are kept, so that they can be made again in a larger area. */
enum step_name { LINE, CHOICE };

static const struct {
    enum step_name name;
    uint32_t a, b;
} steps[] = {{LINE, SHEET_A, SHEET_B}, {LINE, SHEET_A, SHEET_C}, {CHOICE, SPARE, LINER}, {CHOICE, LINER, RUBBER}};

static uint8_t area[FIT_AREA_BYTES(LARGE_CAPACITY)];

static void stop(const char *what, const char *why)
{
    fprintf(stderr, "%s: %s\n", what, why);
    exit(EXIT_FAILURE);
}

/* Every call returns 0 or the number of a refusal. */
static void expect(const char *what, uint32_t refusal)
{
    if (refusal != FIT_OK)
        stop(what, fit_refusal(refusal));
}

/* Opens the book and makes all steps, up to the first that is refused. */
static uint32_t make_steps(uint32_t capacity)
{
    uint32_t entry, turned, appended, refusal = fit_open(capacity, book, sizeof book, area, sizeof area);
    size_t i;
    for (i = 0; refusal == FIT_OK && i < sizeof steps / sizeof *steps; i++)
        if (steps[i].name == LINE)
            refusal = fit_add(area, sizeof area, steps[i].a, steps[i].b, &entry);
        else
            refusal = fit_bind(area, sizeof area, steps[i].a, steps[i].b, &turned, &appended);
    return refusal;
}

/* An argument of a symbol: the number of a term, of an entry, or of a report entry. */
static void print_argument(uint32_t k, uint32_t count, const char *what, uint32_t number)
{
    printf("%s%s %u%s", k == 0 ? "(" : ", ", what, (unsigned)number, k + 1 == count ? ")" : "");
}

/* The terms as the book has them; a variable that is bound, with the term that it was given and the last of the chain. */
static void print_terms(void)
{
    uint32_t t, k;
    printf("terms of the book, by fit_area.h\n");
    for (t = 0; t < fit_area_terms(area); t++) {
        if (!fit_area_is_variable(area, t)) {
            printf("  term %u: %s", (unsigned)t, symbols[fit_area_symbol(area, t)]);
            for (k = 0; k < fit_area_count(area, t); k++)
                print_argument(k, fit_area_count(area, t), "term", fit_area_argument(area, t, k));
            printf("\n");
        } else if (fit_area_bound_to(area, t) == FIT_UNBOUND) {
            printf("  term %u: a free variable\n", (unsigned)t);
        } else {
            printf("  term %u: a variable, bound to term %u, stands for term %u\n", (unsigned)t, (unsigned)fit_area_bound_to(area, t),
                   (unsigned)fit_area_stands_for(area, t));
        }
    }
}

static void print_lines(void)
{
    uint32_t j;
    printf("lines, by fit_area.h\n");
    for (j = 0; j < fit_area_lines(area); j++)
        printf("  line %u: entry %u\n", (unsigned)j, (unsigned)fit_area_line(area, j));
}

/* The entries by fit_entry, which tests the area each time; fit_area_entry gives the same numbers without. */
static void print_entries(void)
{
    uint32_t fields[FIT_FIELDS], i, k;
    printf("entries, by fit_entry: %u of at most %u\n", (unsigned)fit_area_entries(area), (unsigned)fit_area_capacity(area));
    for (i = 0; i < fit_area_entries(area); i++) {
        expect("fit_entry", fit_entry(area, sizeof area, i, fields));
        printf("  entry %u: left term %u, right term %u, ", (unsigned)i, (unsigned)fields[FIT_LEFT], (unsigned)fields[FIT_RIGHT]);
        if (fields[FIT_KIND] == FIT_OPEN_PLACE)
            printf("open place");
        else
            printf("common, %s", symbols[fields[FIT_SYMBOL]]);
        for (k = 0; k < fields[FIT_COUNT]; k++)
            print_argument(k, fields[FIT_COUNT], "entry", fields[FIT_ARGUMENT + k]);
        printf("; same as %u\n", (unsigned)fields[FIT_SAME_AS]);
    }
}

/* Bytes that are still to be read. */
struct reader {
    const uint8_t *next;
    size_t left;
};

/* The next number, which is to be below a limit: seven bits a byte, the lowest first, 80 set in each byte but the last. It reads at
   most three bytes and none behind the last, and what it gives can be used as the place in an array of that limit. */
static uint32_t number_below(struct reader *reader, uint32_t limit)
{
    uint32_t value = 0, shift;
    for (shift = 0; shift < 21 && reader->left > 0; shift += 7) {
        uint8_t byte = *reader->next++;
        reader->left--;
        value |= (uint32_t)(byte & 0x7F) << shift;
        if (byte < 0x80) {
            if (value >= limit)
                break;
            return value;
        }
    }
    stop("report", "a number that is cut or out of range");
    return 0;
}

/* The entries that are one report entry: those whose same-as is this entry. */
static void print_class(uint32_t lowest)
{
    uint32_t i;
    printf(" (of entry %u", (unsigned)lowest);
    for (i = lowest + 1; i < fit_area_entries(area); i++)
        if (fit_area_field(area, i, FIT_SAME_AS) == lowest)
            printf(" and %u", (unsigned)i);
    printf(")");
}

/* A report entry: the names of its two values, then 0 for an open place or symbol plus 1, the count and the arguments. Which entry of the
   area an argument is of, stands in the same place of the entry that this one is of. */
static void print_report_entry(struct reader *reader, uint32_t i, uint32_t count_of_all, uint32_t entry_of[])
{
    uint32_t left = number_below(reader, fit_area_terms(area));
    uint32_t right = number_below(reader, fit_area_terms(area));
    uint32_t symbol_plus_1 = number_below(reader, SYMBOLS + 1), count, k;
    printf("  report entry %u", (unsigned)i);
    print_class(entry_of[i]);
    printf(": left name %u, right name %u, ", (unsigned)left, (unsigned)right);
    if (symbol_plus_1 == 0) {
        printf("open place\n");
        return;
    }
    printf("common, %s", symbols[symbol_plus_1 - 1]);
    count = number_below(reader, FIT_MAX_ARGUMENTS + 1);
    for (k = 0; k < count; k++) {
        uint32_t argument = number_below(reader, count_of_all);
        uint32_t entry = fit_area_field(area, entry_of[i], FIT_ARGUMENT + k);
        entry_of[argument] = fit_area_field(area, entry, FIT_SAME_AS);
        print_argument(k, count, "report entry", argument);
    }
    printf("\n");
}

/* The report. It has no numbers of the area's entries; the lines, and then the arguments, tell which entries each report entry is of. */
static void print_report(void)
{
    static uint8_t bytes[FIT_REPORT_BYTES_AT(LARGE_CAPACITY)];
    static uint32_t entry_of_line[FIT_MAX_LINES], entry_of[LARGE_CAPACITY];
    struct reader reader = {bytes, 0};
    uint32_t written, lines, entries, i;
    expect("fit_report", fit_report(area, sizeof area, bytes, sizeof bytes, &written));
    reader.left = written;
    lines = number_below(&reader, FIT_MAX_LINES + 1);
    for (i = 0; i < lines; i++) {
        entry_of_line[i] = number_below(&reader, LARGE_CAPACITY);
        entry_of[entry_of_line[i]] = fit_area_field(area, fit_area_line(area, i), FIT_SAME_AS);
    }
    entries = number_below(&reader, LARGE_CAPACITY + 1);
    printf("report, by fit_report: %u bytes, %u report entries\n", (unsigned)written, (unsigned)entries);
    for (i = 0; i < lines; i++)
        printf("  line %u: report entry %u\n", (unsigned)i, (unsigned)entry_of_line[i]);
    for (i = 0; i < entries; i++)
        print_report_entry(&reader, i, entries, entry_of);
    if (reader.left > 0)
        stop("report", "bytes left over");
}

int main(void)
{
    uint32_t refusal = make_steps(SMALL_CAPACITY);
    /* An area does not grow. After FIT_FULL it is as it was before that step; all steps are made again in a larger one. */
    if (refusal == FIT_FULL) {
        printf("capacity %u: %s; once more at %u\n", (unsigned)SMALL_CAPACITY, fit_refusal(refusal), (unsigned)LARGE_CAPACITY);
        refusal = make_steps(LARGE_CAPACITY);
    }
    expect("steps", refusal);
    print_terms();
    print_lines();
    print_entries();
    print_report();
    return EXIT_SUCCESS;
}
