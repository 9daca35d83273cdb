/* Fit lines of three build sheets, printed while two open choices are fixed.

   A sheet is a term of a book: a symbol over smaller terms, with a variable where a choice is open. For each pair of sheets the
   library keeps the narrowest pattern that covers both, the fit line. This program opens a book, adds a line for each pair, and
   prints the lines from the report; then it fixes the choices, one after the other, and prints them again.

   docs/C-API.md says how to build it and what each call promises, include/fit.h what the numbers mean. */
#include "fit.h"

#include <stdio.h>
#include <stdlib.h>

#define CAPACITY 64 /* entries; any number from 1 to FIT_MAX_CAPACITY */

/* Of a pattern at most so many symbols and open places are printed. Entries share their parts, and printing writes a part out wherever it
   stands: a pattern of 50 levels, each twice over the one below, would have 2 to the 50th symbols. */
#ifndef MOST_SYMBOLS
#define MOST_SYMBOLS 1000
#endif

/* The book: the number of terms; then for each term 0 for a variable, or symbol plus 1, the number of arguments, the arguments.
   All numbers here are below 128 and take one byte each. */
static const uint8_t book[] = {
    10,
    1, 0,       /* 0: steel */
    2, 0,       /* 1: rubber */
    0,          /* 2: the liner, an open choice */
    0,          /* 3: the insert, an open choice */
    3, 1, 0,    /* 4: tray(steel) */
    3, 1, 1,    /* 5: tray(rubber) */
    3, 1, 2,    /* 6: tray(liner) */
    4, 2, 4, 0, /* 7: sheet A, sorter(tray(steel), steel) */
    4, 2, 5, 0, /* 8: sheet B, sorter(tray(rubber), steel) */
    4, 2, 3, 0, /* 9: sheet C, sorter(insert, steel) */
};

enum { RUBBER = 1, LINER = 2, INSERT = 3, TRAY_WITH_LINER = 6, SHEET_A = 7, SHEET_B = 8, SHEET_C = 9 };

static const char *const symbols[] = {"steel", "rubber", "tray", "sorter"};
static const char *const terms[] = {"steel", "rubber", "liner", "insert", "tray(steel)", "tray(rubber)", "tray(liner)", "A", "B", "C"};

static const struct {
    uint32_t left, right;
} pairs[] = {{SHEET_A, SHEET_B}, {SHEET_A, SHEET_C}, {SHEET_B, SHEET_C}};

#define PAIRS (sizeof pairs / sizeof *pairs)

/* An entry of the report. Left and right are the terms that name its two values; such a term may be a bound variable. */
struct entry {
    uint32_t left, right;
    uint32_t symbol_plus_1; /* 0 for an open place */
    uint32_t count;
    uint32_t arguments[FIT_MAX_ARGUMENTS];
};

struct report {
    uint32_t lines, entries;
    uint32_t line[PAIRS]; /* each line's entry */
    struct entry entry[CAPACITY];
};

/* Every call returns 0 or the number of a refusal. */
static void expect(const char *what, uint32_t refusal)
{
    if (refusal) {
        fprintf(stderr, "%s: refused with %u, %s\n", what, (unsigned)refusal, fit_refusal(refusal));
        exit(EXIT_FAILURE);
    }
}

/* The next number: seven bits a byte, the lowest first, 80 set in each byte but the last. */
static uint32_t next_number(const uint8_t **bytes)
{
    uint32_t value = 0;
    int shift = 0;
    for (;;) {
        uint8_t byte = *(*bytes)++;
        value |= (uint32_t)(byte & 0x7F) << shift;
        if (byte < 0x80)
            return value;
        shift += 7;
    }
}

/* Asks for the report and reads its numbers. */
static void read_report(const uint8_t *area, size_t area_length, struct report *report)
{
    static uint8_t bytes[FIT_REPORT_BYTES_AT(CAPACITY)];
    const uint8_t *next = bytes;
    uint32_t written, i, k;
    expect("fit_report", fit_report(area, area_length, bytes, sizeof bytes, &written));
    report->lines = next_number(&next);
    for (i = 0; i < report->lines; i++)
        report->line[i] = next_number(&next);
    report->entries = next_number(&next);
    for (i = 0; i < report->entries; i++) {
        struct entry *entry = &report->entry[i];
        entry->left = next_number(&next);
        entry->right = next_number(&next);
        entry->symbol_plus_1 = next_number(&next);
        entry->count = entry->symbol_plus_1 ? next_number(&next) : 0;
        for (k = 0; k < entry->count; k++)
            entry->arguments[k] = next_number(&next);
    }
}

/* An entry as a pattern. An open place is printed by its entry: the same place everywhere has the same number. Of the budget one is
   taken for each symbol and open place; where it is used up, ".." is printed and nothing more. Gives whether all was printed. */
static int print_pattern(const struct report *report, uint32_t i, uint32_t *budget)
{
    const struct entry *entry = &report->entry[i];
    uint32_t k;
    if (*budget == 0) {
        printf("..");
        return 0;
    }
    --*budget;
    if (!entry->symbol_plus_1) {
        printf("?%u", (unsigned)i);
        return 1;
    }
    printf("%s", symbols[entry->symbol_plus_1 - 1]);
    for (k = 0; k < entry->count; k++) {
        printf(k ? ", " : "(");
        if (!print_pattern(report, entry->arguments[k], budget))
            return 0;
    }
    if (entry->count)
        printf(")");
    return 1;
}

/* The fit lines, and what stands at each open place: on the left sheet, or on the right one. */
static void print_lines(const uint8_t *area, size_t area_length)
{
    static struct report report;
    uint32_t i;
    read_report(area, area_length, &report);
    for (i = 0; i < report.lines; i++) {
        uint32_t budget = MOST_SYMBOLS;
        printf("  %s and %s: ", terms[pairs[i].left], terms[pairs[i].right]);
        print_pattern(&report, report.line[i], &budget);
        printf("\n");
    }
    for (i = 0; i < report.entries; i++)
        if (!report.entry[i].symbol_plus_1)
            printf("    ?%u: %s or %s\n", (unsigned)i, terms[report.entry[i].left], terms[report.entry[i].right]);
}

static void fix_choice(uint8_t *area, size_t area_length, uint32_t variable, uint32_t term)
{
    uint32_t turned, appended;
    expect("fit_bind", fit_bind(area, area_length, variable, term, &turned, &appended));
    printf("%s is %s: %u turned, %u appended\n", terms[variable], terms[term], (unsigned)turned, (unsigned)appended);
    print_lines(area, area_length);
}

int main(void)
{
    static uint8_t area[FIT_AREA_BYTES(CAPACITY)];
    size_t area_length = sizeof area, i;
    uint32_t entry, turned, appended;

    expect("fit_open", fit_open(CAPACITY, book, sizeof book, area, area_length));
    for (i = 0; i < PAIRS; i++)
        expect("fit_add", fit_add(area, area_length, pairs[i].left, pairs[i].right, &entry));
    printf("both choices open\n");
    print_lines(area, area_length);

    fix_choice(area, area_length, INSERT, TRAY_WITH_LINER);
    fix_choice(area, area_length, LINER, RUBBER);

    /* A refusal is a number and changes nothing. */
    printf("the liner once more: refused with %u\n", (unsigned)fit_bind(area, area_length, LINER, RUBBER, &turned, &appended));
    return EXIT_SUCCESS;
}
