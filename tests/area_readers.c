/* The readers of include/fit_area.h against the library, on many random areas. Of each area the header is compared with the steps that
   were made, the entries with fit_entry, the book with fit_write and with the bytes it was opened from, the bindings with the
   choices, the kinds of the entries with what the readers give of their two sides, and a report made of nothing but the readers' numbers
   with fit_report. In some books a symbol has several counts. Every area is made from its own seed, which is printed where something
   differs. It counts kinds of areas, and fails where one never occurred. `tests/run area_readers`; SEED and TIMES in the environment are as
   for the other comparisons. */
#include "fit_area.h"

#include <inttypes.h>
#include <stdio.h>
#include <stdlib.h>
#include <string.h>

#define AREAS 20000u
#define OWN_SEED UINT64_C(0xA4EAD00000000000)
#define MIDDLE_EVERY 100u /* one area in so many has up to 200 terms */
#define LARGE_EVERY 2500u /* one in so many has the most terms and the largest capacity */
#define CHAIN_EVERY 5000u /* one in so many, a large one, has a chain of all its variables; the other large ones get a full table */
#define MOST_SYMBOLS 8    /* of a book */
#define MOST_PRINTED 10   /* differences */

/* A repeatable source of numbers (SplitMix64). */
static uint64_t state;

static uint64_t next_random(void)
{
    uint64_t z = state += UINT64_C(0x9E3779B97F4A7C15);
    z = (z ^ z >> 30) * UINT64_C(0xBF58476D1CE4E5B9);
    z = (z ^ z >> 27) * UINT64_C(0x94D049BB133111EB);
    return z ^ z >> 31;
}

/* A number below n, which is not 0. */
static uint32_t below(uint32_t n)
{
    return (uint32_t)(next_random() % n);
}

static uint32_t between(uint32_t least, uint32_t most)
{
    return least + below(most - least + 1);
}

/* Kinds of what areas are made of: a name and a text for each, and how often it occurred. */
#define KINDS(X) \
    X(EMPTY_BOOK, "books without terms") \
    X(MOST_TERMS, "books of 1,024 terms") \
    X(SYMBOL_0, "terms of symbol 0") \
    X(SYMBOL_ABOVE_127, "terms of a symbol above 127") \
    X(HIGHEST_SYMBOL, "terms of symbol 4,095") \
    X(MOST_ARGUMENTS, "terms of eight arguments") \
    X(OTHER_COUNT, "terms of a symbol that a lower term has with another count") \
    X(FREE, "free variables") \
    X(BOUND, "bound variables") \
    X(BOUND_TO_0, "variables bound to term 0") \
    X(BOUND_TO_HIGHER, "variables bound to a higher term") \
    X(CHAIN, "chains of 2 bindings or more") \
    X(LONG_CHAIN, "chains of 100 bindings or more") \
    X(NO_ENTRIES, "areas without entries") \
    X(OPEN, "open entries") \
    X(UNLIKE_COUNTS, "open entries whose sides stand for one symbol with unlike counts") \
    X(UNLIKE_BY_CHOICE, "of these, entries with a bound variable on a side") \
    X(COMMON, "common entries") \
    X(COMMON_OTHER_COUNT, "common entries of a symbol that a lower common entry has with another count") \
    X(COMMON_MOST_ARGUMENTS, "common entries of eight arguments") \
    X(OWN_SAME_AS, "entries whose same-as is their own number") \
    X(LOWER_SAME_AS, "entries whose same-as is lower") \
    X(CLASS_OF_3, "entries that are the third of their class, or a later one") \
    X(ARGUMENT_NOT_LOWEST, "argument entries that are not the lowest of their class") \
    X(LOWER_NAME, "entries with a value that a lower term names") \
    X(FULL_TABLE, "tables that are full") \
    X(MOST_ENTRIES, "tables of 2,048 entries") \
    X(LARGEST_CAPACITY, "areas of capacity 2,048") \
    X(MOST_LINES, "areas of 256 lines") \
    X(LINE_AGAIN, "lines that share an entry with an older line") \
    X(FEWER_IN_REPORT, "reports with fewer entries than the area") \
    X(BOOK_TWO_BYTES, "numbers of two bytes in a book") \
    X(REPORT_TWO_BYTES, "numbers of two bytes in a report") \
    X(NOT_ALIGNED, "areas at an address that no word may have") \
    X(LINE_TAKEN, "lines accepted") \
    X(LINE_NAMES_NOTHING, "lines refused with FIT_NAMES_NOTHING") \
    X(LINE_FULL, "lines refused with FIT_FULL") \
    X(LINE_TOO_MANY, "lines refused with FIT_TOO_MANY_LINES") \
    X(CHOICE_TAKEN, "choices accepted") \
    X(CHOICE_NAMES_NOTHING, "choices refused with FIT_NAMES_NOTHING") \
    X(CHOICE_NOT_FREE, "choices refused with FIT_NOT_FREE") \
    X(CHOICE_OCCURS, "choices refused with FIT_OCCURS") \
    X(CHOICE_FULL, "choices refused with FIT_FULL")

#define KIND_NAME(name, text) name,
#define KIND_TEXT(name, text) text,
enum kind { KINDS(KIND_NAME) KIND_COUNT };
static const char *const kind_texts[] = {KINDS(KIND_TEXT)};
static uint64_t occurred[KIND_COUNT];

static void count_if(enum kind kind, int holds)
{
    occurred[kind] += holds != 0;
}

/* What differed in the last area that did not agree. */
static char difference[120];

static int differs(const char *what, uint32_t number)
{
    snprintf(difference, sizeof difference, "%s %" PRIu32, what, number);
    return 0;
}

/* Bytes that are written. What is put behind the last is counted only. */
struct bytes {
    uint8_t at[FIT_REPORT_BYTES];
    size_t length;
};

static void put(struct bytes *bytes, uint32_t number)
{
    do {
        uint8_t byte = (uint8_t)(number % 128 + (number > 127 ? 128 : 0));
        if (bytes->length < sizeof bytes->at)
            bytes->at[bytes->length] = byte;
        bytes->length++;
        number /= 128;
    } while (number > 0);
}

static int same_bytes(const struct bytes *one, const struct bytes *other)
{
    return one->length == other->length && one->length <= sizeof one->at && memcmp(one->at, other->at, one->length) == 0;
}

/* How many numbers have two bytes, of which the first is above 127; none has three. */
static uint64_t of_two_bytes(const struct bytes *bytes)
{
    uint64_t count = 0;
    size_t i;
    for (i = 0; i < bytes->length; i++)
        count += bytes->at[i] > 127;
    return count;
}

/* What an area was made of: its book as it was opened, with symbol and count of each term, and the steps that were accepted. */
struct term {
    uint32_t symbol_plus_1, count;
};

static struct term terms[FIT_MAX_TERMS];
static struct bytes book;
static uint32_t capacity, term_count, bound_to[FIT_MAX_TERMS], line_count;
static struct {
    uint32_t left, right, entry;
} lines[FIT_MAX_LINES];

static uint8_t store[3 + FIT_AREA_BYTES(FIT_MAX_CAPACITY)], *area;
static size_t area_length;

/* How many symbols, arguments of each, terms and steps an area is made of. */
struct size {
    uint32_t symbols, least_arguments, most_arguments, terms, capacity, steps;
};

/* Symbols are all different, so each has one count, or in one book of three any, so that one may have several. Low ones, any, and the
   highest. */
static void make_symbols(struct term symbols[], const struct size *size)
{
    uint32_t base = below(4) == 0 ? 0 : below(FIT_MAX_SYMBOL + 2 - size->symbols), different = below(3), i;
    if (below(8) == 0)
        base = FIT_MAX_SYMBOL + 1 - size->symbols;
    for (i = 0; i < size->symbols; i++) {
        symbols[i].symbol_plus_1 = base + 1 + (different ? i : below(size->symbols));
        symbols[i].count = i == 0 ? 0 : between(size->least_arguments, size->most_arguments);
    }
}

/* Terms over these symbols; about one in four is a variable. */
static void make_book(const struct size *size)
{
    static struct term symbols[MOST_SYMBOLS];
    uint32_t t, k;
    make_symbols(symbols, size);
    term_count = size->terms;
    book.length = 0;
    put(&book, term_count);
    for (t = 0; t < term_count; t++) {
        terms[t] = symbols[t == 0 ? 0 : below(size->symbols)];
        if (below(4) == 0)
            terms[t].symbol_plus_1 = terms[t].count = 0;
        put(&book, terms[t].symbol_plus_1);
        if (terms[t].symbol_plus_1 != 0)
            put(&book, terms[t].count);
        for (k = 0; k < terms[t].count; k++)
            put(&book, below(4) == 0 ? t - 1 : below(t));
    }
}

/* A number that mostly names a term: any, or out of range. */
static uint32_t some_term(void)
{
    return term_count == 0 || below(64) == 0 ? term_count + below(3) : below(term_count);
}

static int is_variable(uint32_t t)
{
    return terms[t].symbol_plus_1 == 0;
}

static int has_arguments(uint32_t t)
{
    return terms[t].count > 0;
}

/* A number that mostly names a term of this kind. */
static uint32_t some_term_that(int (*holds)(uint32_t))
{
    uint32_t t = some_term(), tries;
    for (tries = 0; tries < 8 && t < term_count && !holds(t); tries++)
        t = some_term();
    return t;
}

static void add_line(uint32_t l, uint32_t r)
{
    uint32_t entry, refusal = fit_add(area, area_length, l, r, &entry);
    count_if(LINE_TAKEN, refusal == FIT_OK);
    count_if(LINE_NAMES_NOTHING, refusal == FIT_NAMES_NOTHING);
    count_if(LINE_FULL, refusal == FIT_FULL);
    count_if(LINE_TOO_MANY, refusal == FIT_TOO_MANY_LINES);
    if (refusal == FIT_OK) {
        lines[line_count].left = l;
        lines[line_count].right = r;
        lines[line_count++].entry = entry;
    }
}

/* Adds a line: of any terms, of two variables, of two terms with arguments, or an old one once more. */
static void make_line(void)
{
    uint32_t l = some_term(), r = some_term(), kind = below(8);
    if (kind < 2) {
        l = some_term_that(is_variable);
        r = some_term_that(is_variable);
    } else if (kind < 5) {
        l = some_term_that(has_arguments);
        r = some_term_that(has_arguments);
    } else if (kind == 5 && line_count > 0) {
        uint32_t j = below(line_count);
        l = lines[j].left;
        r = lines[j].right;
    }
    add_line(l, r);
}

/* Adds lines until the table is full: of terms with arguments, and then of variables, which need one entry. */
static void fill_table(void)
{
    uint32_t i, l, r;
    for (i = 0; i < 600 && line_count < FIT_MAX_LINES && fit_area_entries(area) < capacity; i++) {
        l = some_term_that(i < 200 ? has_arguments : is_variable);
        r = some_term_that(i < 200 ? has_arguments : is_variable);
        add_line(l, r);
    }
}

static void fix_choice(uint32_t v, uint32_t t)
{
    uint32_t turned, appended, refusal = fit_bind(area, area_length, v, t, &turned, &appended);
    count_if(CHOICE_TAKEN, refusal == FIT_OK);
    count_if(CHOICE_NAMES_NOTHING, refusal == FIT_NAMES_NOTHING);
    count_if(CHOICE_NOT_FREE, refusal == FIT_NOT_FREE);
    count_if(CHOICE_OCCURS, refusal == FIT_OCCURS);
    count_if(CHOICE_FULL, refusal == FIT_FULL);
    if (refusal == FIT_OK)
        bound_to[v] = t;
}

/* Fixes a choice, as any term or as another variable. */
static void make_choice(void)
{
    uint32_t v = some_term_that(is_variable);
    uint32_t t = below(2) == 0 ? some_term() : some_term_that(is_variable);
    fix_choice(v, t);
}

/* Binds each variable to the one before it: one chain of them all. */
static void make_chain(void)
{
    uint32_t t, last = FIT_UNBOUND;
    for (t = 0; t < term_count; t++)
        if (is_variable(t)) {
            if (last != FIT_UNBOUND)
                fix_choice(t, last);
            last = t;
        }
}

/* How large the area of this number is. */
static struct size size_of(uint64_t number)
{
    struct size size = {MOST_SYMBOLS, 0, FIT_MAX_ARGUMENTS, FIT_MAX_TERMS, FIT_MAX_CAPACITY, 600};
    int large = number % LARGE_EVERY == 0, middle = number % MIDDLE_EVERY == 0;
    if (large && number % CHAIN_EVERY != 0) {
        size.symbols = 2;
        size.least_arguments = FIT_MAX_ARGUMENTS;
    }
    if (large)
        return size;
    size.symbols = between(1, 6);
    size.most_arguments = below(8) == 0 ? FIT_MAX_ARGUMENTS : 3;
    size.terms = middle ? between(20, 200) : below(25);
    size.capacity = middle ? between(1, 600) : between(1, 60);
    size.steps = middle ? between(0, 80) : below(25);
    return size;
}

/* Opens a book and makes steps. The area is at any address, on bytes that held something. */
static int make_area(uint64_t number)
{
    struct size size = size_of(number);
    uint32_t i, choices = between(0, 8);
    make_book(&size);
    capacity = size.capacity;
    line_count = 0;
    memset(bound_to, 0xFF, sizeof bound_to);
    memset(store, 0xEE, sizeof store);
    area = store + below(4);
    area_length = fit_area_length(capacity);
    if (area_length != FIT_AREA_BYTES(capacity) || area_length != 4 * (FIT_AREA_ENTRY_PART + (size_t)FIT_FIELDS * capacity))
        return differs("the length at capacity", capacity);
    if (fit_open(capacity, book.at, book.length, area, area_length) != FIT_OK)
        return differs("opening at capacity", capacity);
    if (number % CHAIN_EVERY == 0)
        make_chain();
    else if (number % LARGE_EVERY == 0)
        fill_table();
    for (i = 0; i < size.steps; i++)
        if (below(16) >= choices)
            make_line();
        else
            make_choice();
    return 1;
}

/* All four bytes of a word count; in a sound area the two highest are always 0. */
static int words_agree(void)
{
    static const uint8_t bytes[] = {0x01, 0x02, 0x03, 0x04, 0xFC, 0xFD, 0xFE, 0xFF};
    return fit_area_word(bytes, 0) == 0x04030201 && fit_area_word(bytes, 1) == 0xFFFEFDFC;
}

/* The header has what was done, and the entries end where it says. */
static int header_agrees(void)
{
    uint32_t fields[FIT_FIELDS], entries = fit_area_entries(area);
    if (fit_area_capacity(area) != capacity)
        return differs("capacity", fit_area_capacity(area));
    if (fit_area_terms(area) != term_count)
        return differs("number of terms", fit_area_terms(area));
    if (fit_area_lines(area) != line_count)
        return differs("number of lines", fit_area_lines(area));
    if (fit_entry(area, area_length, entries, fields) != FIT_NAMES_NOTHING)
        return differs("number of entries", entries);
    if (entries > 0 && fit_entry(area, area_length, entries - 1, fields) != FIT_OK)
        return differs("number of entries", entries);
    return 1;
}

/* Every field of every entry is the one that fit_entry gives, and each line has the entry that fit_add gave. */
static int entries_agree(void)
{
    uint32_t given[FIT_FIELDS], fields[FIT_FIELDS], i, field;
    for (i = 0; i < fit_area_entries(area); i++) {
        if (fit_entry(area, area_length, i, given) != FIT_OK)
            return differs("refused: entry", i);
        fit_area_entry(area, i, fields);
        if (memcmp(fields, given, sizeof given) != 0)
            return differs("all fields of entry", i);
        for (field = 0; field < FIT_FIELDS; field++)
            if (fit_area_field(area, i, field) != given[field])
                return differs("a field of entry", i);
    }
    for (i = 0; i < line_count; i++)
        if (fit_area_line(area, i) != lines[i].entry)
            return differs("the entry of line", i);
    return 1;
}

/* Whether both terms, which are not bound, have a symbol, and the same one. */
static int same_symbol(uint32_t t, uint32_t other)
{
    return !fit_area_is_variable(area, t) && !fit_area_is_variable(area, other) && fit_area_symbol(area, t) == fit_area_symbol(area, other);
}

/* Whether both have the same symbol, with as many arguments. */
static int alike(uint32_t t, uint32_t other)
{
    return same_symbol(t, other) && fit_area_count(area, t) == fit_area_count(area, other);
}

/* An entry is common exactly where its sides stand for terms that are alike, and then has their symbol and count. */
static int kinds_agree(void)
{
    uint32_t fields[FIT_FIELDS], i, l, r;
    int common;
    for (i = 0; i < fit_area_entries(area); i++) {
        fit_area_entry(area, i, fields);
        l = fit_area_stands_for(area, fields[FIT_LEFT]);
        r = fit_area_stands_for(area, fields[FIT_RIGHT]);
        common = alike(l, r);
        if (fields[FIT_KIND] != (uint32_t)(common ? FIT_COMMON : FIT_OPEN_PLACE))
            return differs("the kind of entry", i);
        if (fields[FIT_SYMBOL] != (common ? fit_area_symbol(area, l) : 0) || fields[FIT_COUNT] != (common ? fit_area_count(area, l) : 0))
            return differs("symbol or count of entry", i);
    }
    return 1;
}

/* The bytes that the readers of terms give are those that fit_write gives, and those the area was opened from. */
static int book_agrees(void)
{
    static struct bytes read, written;
    uint32_t length, t, k;
    read.length = 0;
    put(&read, fit_area_terms(area));
    for (t = 0; t < fit_area_terms(area); t++) {
        put(&read, fit_area_is_variable(area, t) ? 0 : fit_area_symbol(area, t) + 1);
        if (!fit_area_is_variable(area, t))
            put(&read, fit_area_count(area, t));
        for (k = 0; k < fit_area_count(area, t); k++)
            put(&read, fit_area_argument(area, t, k));
        if (fit_area_is_variable(area, t) && fit_area_symbol(area, t) + fit_area_count(area, t) != 0)
            return differs("symbol or count of the variable", t);
    }
    if (fit_write(area, area_length, written.at, sizeof written.at, &length) != FIT_OK)
        return differs("refused: fit_write", length);
    written.length = length;
    if (!same_bytes(&read, &written))
        return differs("the book that was written, of bytes", length);
    return same_bytes(&read, &book) ? 1 : differs("the book that was opened, of bytes", (uint32_t)book.length);
}

/* Bindings are the choices that were accepted. */
static int bindings_agree(void)
{
    uint32_t t, last;
    for (t = 0; t < term_count; t++)
        if (fit_area_bound_to(area, t) != bound_to[t])
            return differs("the binding of term", t);
    for (t = 0; t < term_count; t++) {
        for (last = t; bound_to[last] != FIT_UNBOUND; last = bound_to[last])
            ;
        if (fit_area_stands_for(area, t) != last)
            return differs("what the term stands for:", t);
    }
    return 1;
}

/* Of each term, another with the same value, one for all that have it; and the lowest of them, the name of the value. */
static uint32_t class_of[FIT_MAX_TERMS], name_of[FIT_MAX_TERMS];

/* Whether two terms are alike and have arguments of the same classes, which are known. */
static int same_value(uint32_t t, uint32_t other)
{
    uint32_t k;
    if (!alike(t, other))
        return 0;
    for (k = 0; k < fit_area_count(area, t); k++)
        if (class_of[fit_area_argument(area, t, k)] != class_of[fit_area_argument(area, other, k)])
            return 0;
    return 1;
}

/* Finds the class of a term, after those of its arguments. A variable that is free is alone with those bound to it. */
static void classify(uint32_t t)
{
    uint32_t last = fit_area_stands_for(area, t), other, k;
    if (class_of[last] == FIT_UNBOUND && !fit_area_is_variable(area, last)) {
        for (k = 0; k < fit_area_count(area, last); k++)
            classify(fit_area_argument(area, last, k));
        for (other = 0; other < term_count && class_of[last] == FIT_UNBOUND; other++)
            if (class_of[other] == other && same_value(last, other))
                class_of[last] = other;
    }
    if (class_of[last] == FIT_UNBOUND)
        class_of[last] = last;
    class_of[t] = class_of[last];
}

static void name_values(void)
{
    uint32_t t;
    for (t = 0; t < term_count; t++)
        class_of[t] = name_of[t] = FIT_UNBOUND;
    for (t = 0; t < term_count; t++)
        classify(t);
    for (t = 0; t < term_count; t++)
        if (name_of[class_of[t]] == FIT_UNBOUND)
            name_of[class_of[t]] = t;
}

static uint32_t name(uint32_t t)
{
    return name_of[class_of[t]];
}

/* The classes of entries that a report has, by their lowest entries, in the order of their new numbers. */
static uint32_t numbered[FIT_MAX_CAPACITY], number_count, new_number[FIT_MAX_CAPACITY];

static void number_class(uint32_t entry)
{
    uint32_t lowest = fit_area_field(area, entry, FIT_SAME_AS);
    if (new_number[lowest] == FIT_UNBOUND) {
        new_number[lowest] = number_count;
        numbered[number_count++] = lowest;
    }
}

static uint32_t number_of(uint32_t entry)
{
    return new_number[fit_area_field(area, entry, FIT_SAME_AS)];
}

/* All lines first; then the arguments of the classes in the order of their numbers. */
static void number_classes(void)
{
    uint32_t j, n, k;
    number_count = 0;
    memset(new_number, 0xFF, sizeof new_number);
    for (j = 0; j < fit_area_lines(area); j++)
        number_class(fit_area_line(area, j));
    for (n = 0; n < number_count; n++)
        for (k = 0; k < fit_area_field(area, numbered[n], FIT_COUNT); k++)
            number_class(fit_area_field(area, numbered[n], FIT_ARGUMENT + k));
}

static void put_class(struct bytes *report, uint32_t entry)
{
    uint32_t fields[FIT_FIELDS], k;
    fit_area_entry(area, entry, fields);
    put(report, name(fields[FIT_LEFT]));
    put(report, name(fields[FIT_RIGHT]));
    if (fields[FIT_KIND] == FIT_OPEN_PLACE) {
        put(report, 0);
        return;
    }
    put(report, fields[FIT_SYMBOL] + 1);
    put(report, fields[FIT_COUNT]);
    for (k = 0; k < fields[FIT_COUNT]; k++)
        put(report, number_of(fields[FIT_ARGUMENT + k]));
}

/* The report that the readers alone give is the library's. */
static int report_agrees(void)
{
    static struct bytes read, given;
    uint32_t length, j, n;
    name_values();
    number_classes();
    read.length = 0;
    put(&read, fit_area_lines(area));
    for (j = 0; j < fit_area_lines(area); j++)
        put(&read, number_of(fit_area_line(area, j)));
    put(&read, number_count);
    for (n = 0; n < number_count; n++)
        put_class(&read, numbered[n]);
    if (fit_report(area, area_length, given.at, FIT_REPORT_BYTES_AT(capacity), &length) != FIT_OK)
        return differs("refused: fit_report", length);
    given.length = length;
    occurred[REPORT_TWO_BYTES] += of_two_bytes(&given);
    return same_bytes(&read, &given) ? 1 : differs("the report, of bytes", length);
}

/* The counts that a symbol was met with: one bit for each. */
static uint32_t counts_met[FIT_MAX_SYMBOL + 1];

/* Whether the symbol was met with another count, before it is met with this one. */
static int meets_another(uint32_t symbol, uint32_t count)
{
    uint32_t before = counts_met[symbol], own = UINT32_C(1) << count;
    counts_met[symbol] |= own;
    return (before & ~own) != 0;
}

/* The kinds of the terms and bindings of an area that agreed. */
static void count_terms(void)
{
    uint32_t t, last, steps;
    memset(counts_met, 0, sizeof counts_met);
    for (t = 0; t < term_count; t++) {
        for (last = t, steps = 0; bound_to[last] != FIT_UNBOUND; steps++)
            last = bound_to[last];
        count_if(SYMBOL_0, terms[t].symbol_plus_1 == 1);
        count_if(SYMBOL_ABOVE_127, terms[t].symbol_plus_1 > 128);
        count_if(HIGHEST_SYMBOL, terms[t].symbol_plus_1 == FIT_MAX_SYMBOL + 1);
        count_if(MOST_ARGUMENTS, terms[t].count == FIT_MAX_ARGUMENTS);
        count_if(OTHER_COUNT, !is_variable(t) && meets_another(terms[t].symbol_plus_1 - 1, terms[t].count));
        count_if(FREE, is_variable(t) && steps == 0);
        count_if(BOUND, steps > 0);
        count_if(BOUND_TO_0, bound_to[t] == 0);
        count_if(BOUND_TO_HIGHER, steps > 0 && bound_to[t] > t);
        count_if(CHAIN, steps >= 2);
        count_if(LONG_CHAIN, steps >= 100);
    }
}

/* The kinds of its entries. */
static void count_entries(void)
{
    static uint32_t in_class[FIT_MAX_CAPACITY];
    uint32_t fields[FIT_FIELDS], i, k, l, r;
    int unlike;
    memset(in_class, 0, sizeof in_class);
    memset(counts_met, 0, sizeof counts_met);
    for (i = 0; i < fit_area_entries(area); i++) {
        fit_area_entry(area, i, fields);
        l = fit_area_stands_for(area, fields[FIT_LEFT]);
        r = fit_area_stands_for(area, fields[FIT_RIGHT]);
        unlike = fields[FIT_KIND] == FIT_OPEN_PLACE && same_symbol(l, r) && !alike(l, r);
        count_if(OPEN, fields[FIT_KIND] == FIT_OPEN_PLACE);
        count_if(UNLIKE_COUNTS, unlike);
        count_if(UNLIKE_BY_CHOICE, unlike && (l != fields[FIT_LEFT] || r != fields[FIT_RIGHT]));
        count_if(COMMON, fields[FIT_KIND] == FIT_COMMON);
        count_if(COMMON_OTHER_COUNT, fields[FIT_KIND] == FIT_COMMON && meets_another(fields[FIT_SYMBOL], fields[FIT_COUNT]));
        count_if(COMMON_MOST_ARGUMENTS, fields[FIT_COUNT] == FIT_MAX_ARGUMENTS);
        count_if(OWN_SAME_AS, fields[FIT_SAME_AS] == i);
        count_if(LOWER_SAME_AS, fields[FIT_SAME_AS] < i);
        count_if(CLASS_OF_3, ++in_class[fields[FIT_SAME_AS]] > 2);
        count_if(LOWER_NAME, name(fields[FIT_LEFT]) < fields[FIT_LEFT] || name(fields[FIT_RIGHT]) < fields[FIT_RIGHT]);
        for (k = 0; k < fields[FIT_COUNT]; k++)
            count_if(ARGUMENT_NOT_LOWEST, fit_area_field(area, fields[FIT_ARGUMENT + k], FIT_SAME_AS) < fields[FIT_ARGUMENT + k]);
    }
}

/* All its kinds. */
static void count_area(void)
{
    static uint8_t has_line[FIT_MAX_CAPACITY];
    uint32_t entries = fit_area_entries(area), j;
    memset(has_line, 0, sizeof has_line);
    for (j = 0; j < line_count; j++) {
        count_if(LINE_AGAIN, has_line[lines[j].entry]);
        has_line[lines[j].entry] = 1;
    }
    count_if(EMPTY_BOOK, term_count == 0);
    count_if(MOST_TERMS, term_count == FIT_MAX_TERMS);
    count_if(NO_ENTRIES, entries == 0);
    count_if(FULL_TABLE, entries == capacity);
    count_if(MOST_ENTRIES, entries == FIT_MAX_CAPACITY);
    count_if(LARGEST_CAPACITY, capacity == FIT_MAX_CAPACITY);
    count_if(MOST_LINES, line_count == FIT_MAX_LINES);
    count_if(FEWER_IN_REPORT, number_count < entries);
    count_if(NOT_ALIGNED, (uintptr_t)area % 4 != 0);
    occurred[BOOK_TWO_BYTES] += of_two_bytes(&book);
    count_terms();
    count_entries();
}

/* Makes the area of this number and compares. Each comparison relies on those before it, so the first that fails is the last made. */
static int area_agrees(uint64_t number, uint64_t seed)
{
    state = seed;
    if (!make_area(number) || !header_agrees() || !entries_agree() || !book_agrees() || !bindings_agree() || !kinds_agree() || !report_agrees())
        return 0;
    count_area();
    return 1;
}

/* A number that the environment gives, or else the usual one. */
static uint64_t environment(const char *variable, uint64_t usual)
{
    const char *text = getenv(variable);
    if (!text)
        return usual;
    if (*text == '\0' || strlen(text) > 9 || text[strspn(text, "0123456789")] != '\0') {
        printf("%s is '%s' and no number of at most nine digits\n", variable, text);
        exit(EXIT_FAILURE);
    }
    return strtoul(text, NULL, 10);
}

int main(void)
{
    /* Two SEEDs have no area in common: the first seed is moved by so many times 2 to the 32nd. */
    uint64_t first = OWN_SEED + (environment("SEED", 0) << 32), areas = AREAS * environment("TIMES", 1), passed = 0, failed = 0, i;
    int kind;
    printf("%" PRIu64 " areas from seed 0x%016" PRIX64 "\n", areas, first);
    if (words_agree()) {
        passed++;
    } else {
        printf("fit_area_word differs\n");
        failed++;
    }
    for (i = 0; i < areas; i++) {
        if (area_agrees(i, first + i))
            passed++;
        else if (failed++ < MOST_PRINTED)
            printf("area of seed 0x%016" PRIX64 " differs: %s\n", first + i, difference);
    }
    for (kind = 0; kind < KIND_COUNT; kind++) {
        printf("%10" PRIu64 " %s%s\n", occurred[kind], kind_texts[kind], occurred[kind] > 0 ? "" : ": failed, there are none");
        if (occurred[kind] > 0)
            passed++;
        else
            failed++;
    }
    printf("%" PRIu64 " passed, %" PRIu64 " failed\n", passed, failed);
    return failed == 0 ? EXIT_SUCCESS : EXIT_FAILURE;
}
