/* The C interface as a C program meets it, through include/fit.h: the samples of docs/SPEC.md, a book of no bytes, books in which a symbol
   has two counts, every refusal of every call, and each number of the header against the library or the definitions. What is lent lies
   between guard bytes. An accepted call may write its part alone, a refused one no byte, and every number that a refused call answers is 0.
   Prints how many tests passed. */
#include "fit.h"

#include "definitions.h" /* made by tests/definitions */

#include <stdio.h>
#include <string.h>

#define GUARD 64
#define CAPACITY 1024
#define MOST 103440 /* bytes: the area of that capacity */
#define FILLING 0xEE
#define UNSET 0xEEEEEEEEu

/* A run of bytes to lend, and what the store held before the call. */
struct lent {
    uint8_t store[GUARD + MOST + GUARD];
    uint8_t before[GUARD + MOST + GUARD];
};

static struct lent area, out;
static uint32_t guarded[1 + FIT_FIELDS + 1]; /* the answer's numbers, between guards */
static uint32_t *const numbers = guarded + 1;

static uint8_t *bytes_of(struct lent *b)
{
    return b->store + GUARD;
}

/* Whether only the first n bytes that were lent may have changed. */
static int kept_after(const struct lent *b, size_t n)
{
    size_t rest = GUARD + n;
    return memcmp(b->store, b->before, GUARD) == 0 && memcmp(b->store + rest, b->before + rest, sizeof b->store - rest) == 0;
}

/* Whether the numbers are these, and those after them unset: a call writes its own alone. */
static int numbers_are(const uint32_t *expected, size_t count)
{
    size_t i;
    for (i = 0; i < FIT_FIELDS; i++)
        if (numbers[i] != (i < count ? expected[i] : UNSET))
            return 0;
    return guarded[0] == UNSET && guarded[1 + FIT_FIELDS] == UNSET;
}

enum name { OPEN, ADD, BIND, ENTRY, REPORT, WRITE, COPY };

static const char *const names[] = {"fit_open", "fit_add", "fit_bind", "fit_entry", "fit_report", "fit_write", "fit_copy_book"};
static const size_t answers[] = {0, 1, 2, FIT_FIELDS, 1, 1, 1};
static const uint32_t zeros[FIT_FIELDS];

/* A book, as bytes and their number. */
struct book {
    const uint8_t *bytes;
    size_t length;
};

#define BYTES(...) {(const uint8_t[]){__VA_ARGS__}, sizeof((const uint8_t[]){__VA_ARGS__})}
#define NO_BYTES {(const uint8_t *)"\xEE", 0} /* before a byte that is no book */

/* How often a call has given 6, which none gives any more. */
static int two_counts_given;

static uint32_t noted(uint32_t refusal)
{
    two_counts_given += refusal == FIT_TWO_COUNTS;
    return refusal;
}

static uint32_t call(enum name name, const struct book *book, uint32_t a, uint32_t b, size_t area_length, size_t out_length)
{
    uint8_t *lent_area = bytes_of(&area), *lent_out = bytes_of(&out);
    switch (name) {
    case OPEN:
        return fit_open(a, book->bytes, book->length, lent_area, area_length);
    case ADD:
        return fit_add(lent_area, area_length, a, b, &numbers[0]);
    case BIND:
        return fit_bind(lent_area, area_length, a, b, &numbers[0], &numbers[1]);
    case ENTRY:
        return fit_entry(lent_area, area_length, a, numbers);
    case REPORT:
        return fit_report(lent_area, area_length, lent_out, out_length, &numbers[0]);
    case WRITE:
        return fit_write(lent_area, area_length, lent_out, out_length, &numbers[0]);
    default:
        return fit_copy_book(book->bytes, book->length, lent_out, out_length, &numbers[0]);
    }
}

/* Makes a call: a and b are its two numbers, or the capacity. */
static uint32_t make(enum name name, const struct book *book, uint32_t a, uint32_t b, size_t area_length, size_t out_length)
{
    memcpy(area.before, area.store, sizeof area.store);
    memcpy(out.before, out.store, sizeof out.store);
    memset(guarded, FILLING, sizeof guarded);
    return noted(call(name, book, a, b, area_length, out_length));
}

/* Refused with this number, zeros for all else, and no byte changed. */
static int refuses(uint32_t refusal, enum name name, const struct book *book, uint32_t a, uint32_t b, size_t area_length, size_t out_length)
{
    return make(name, book, a, b, area_length, out_length) == refusal && numbers_are(zeros, answers[name]) && kept_after(&area, 0)
        && kept_after(&out, 0);
}

/* Opens a book in bytes that held something else; beyond the needed length they keep it. */
static int opens(const struct book *book, uint32_t capacity)
{
    size_t needed = fit_area_length(capacity);
    memset(area.store, FILLING, sizeof area.store);
    memset(out.store, FILLING, sizeof out.store);
    return make(OPEN, book, capacity, 0, needed, 0) == 0 && numbers_are(zeros, 0) && kept_after(&area, needed) && kept_after(&out, 0);
}

/* A step, its refusal or 0, and the numbers that it answers. */
struct step {
    enum name name;
    uint32_t a, b, refusal, answer[2];
};

static int takes(const struct step *step, uint32_t capacity)
{
    size_t needed = fit_area_length(capacity);
    if (step->refusal)
        return refuses(step->refusal, step->name, NULL, step->a, step->b, needed, 0);
    return make(step->name, NULL, step->a, step->b, needed, 0) == 0 && numbers_are(step->answer, answers[step->name])
        && kept_after(&area, needed) && kept_after(&out, 0);
}

/* A report, a book, or the copy of this one is these bytes: 13 into any shorter output, and nothing behind them in a longer one. */
static int puts_bytes(enum name name, const struct book *book, const struct book *expected, size_t needed)
{
    uint32_t written = (uint32_t)expected->length;
    size_t length;
    for (length = 0; length < expected->length; length++)
        if (!refuses(FIT_TOO_SHORT, name, book, 0, 0, needed, length))
            return 0;
    for (; length < expected->length + 3; length++) {
        memset(out.store, FILLING, sizeof out.store);
        if (make(name, book, 0, 0, needed, length) != 0 || !numbers_are(&written, 1) || !kept_after(&out, written)
            || memcmp(bytes_of(&out), expected->bytes, written) != 0 || !kept_after(&area, 0))
            return 0;
    }
    return 1;
}

#define BOOK_A BYTES(6, 0, 4, 0, 2, 1, 0, 2, 1, 1, 3, 2, 2, 0, 3, 2, 3, 1)
#define BOOK_B BYTES(5, 0, 0, 4, 0, 2, 1, 1, 2, 1, 2)

/* The symbol 0, and over it once more: the example that 6 had. */
#define TWO_COUNTS BYTES(2, 1, 0, 1, 1, 0)
/* a, b, f(a), f(a, b), g(f(a)), g(f(a, b)): docs/C-API.md has it. */
#define BOOK_F BYTES(6, 1, 0, 2, 0, 3, 1, 0, 3, 2, 0, 1, 4, 1, 2, 4, 1, 3)
/* a, b, x, f(a), f(a, b), f(b, a) */
#define CHOICE_F BYTES(6, 1, 0, 2, 0, 0, 3, 1, 0, 3, 2, 0, 1, 3, 2, 1, 0)
/* a, b, f(a), f(b), f(a, b), f(b, a) */
#define BOTH_F BYTES(6, 1, 0, 2, 0, 3, 1, 0, 3, 1, 1, 3, 2, 0, 1, 3, 2, 1, 0)

static const struct book book_a = BOOK_A, book_b = BOOK_B, two_counts = TWO_COUNTS, no_terms = BYTES(0), no_bytes = NO_BYTES;

/* What is written for a book that opens: its bytes, but 00 where it has none. */
static const struct book *as_written(const struct book *book)
{
    return book->length == 0 ? &no_terms : book;
}

/* A sample: its steps, the report afterwards, and all entries. */
struct sample {
    const char *name;
    struct book book;
    uint32_t capacity;
    int steps;
    struct step step[3];
    struct book report;
    uint32_t entries;
    uint32_t fields[5][FIT_FIELDS];
};

static const struct sample samples[] = {
    {"A1", BOOK_A, CAPACITY, 1, {{ADD, 4, 5, FIT_OK, {0}}}, BYTES(1, 0, 3, 4, 5, 3, 2, 1, 2, 2, 3, 2, 1, 2, 0, 1, 0),
     3, {{4, 5, 1, 2, 2, 1, 2}, {2, 3, 1, 1, 1, 2, [FIT_SAME_AS] = 1}, {0, 1, [FIT_SAME_AS] = 2}}},
    {"A2", BOOK_A, CAPACITY, 2, {{ADD, 4, 5, FIT_OK, {0}}, {BIND, 0, 1, FIT_OK, {1, 0}}}, BYTES(1, 0, 3, 4, 4, 3, 2, 1, 2, 2, 2, 2, 1, 2, 0, 0, 4, 0),
     3, {{4, 5, 1, 2, 2, 1, 2}, {2, 3, 1, 1, 1, 2, [FIT_SAME_AS] = 1}, {0, 1, 1, 3, [FIT_SAME_AS] = 2}}},
    {"A3", BOOK_A, CAPACITY, 3, {{ADD, 0, 3, FIT_OK, {0}}, {ADD, 1, 3, FIT_OK, {1}}, {BIND, 0, 1, FIT_OK, {0, 0}}}, BYTES(2, 0, 0, 1, 0, 2, 0),
     2, {{0, 3}, {1, 3}}},
    {"A4", BOOK_A, CAPACITY, 1, {{BIND, 0, 2, FIT_OCCURS, {0}}}, BYTES(0, 0), 0, {{0}}},
    {"B1", BOOK_B, CAPACITY, 2, {{ADD, 0, 4, FIT_OK, {0}}, {BIND, 0, 3, FIT_OK, {1, 1}}}, BYTES(1, 0, 2, 0, 4, 2, 1, 1, 1, 2, 0),
     2, {{0, 4, 1, 1, 1, 1}, {1, 2, [FIT_SAME_AS] = 1}}},
    {"B2", BOOK_B, 1, 2, {{ADD, 0, 4, FIT_OK, {0}}, {BIND, 0, 3, FIT_FULL, {0}}}, BYTES(1, 0, 1, 0, 4, 0), 1, {{0, 4}}},
    {"B3", BOOK_B, CAPACITY, 3, {{ADD, 0, 4, FIT_OK, {0}}, {BIND, 0, 3, FIT_OK, {1, 1}}, {BIND, 1, 2, FIT_OK, {1, 0}}},
     BYTES(1, 0, 2, 0, 0, 2, 1, 1, 1, 1, 4, 0), 2, {{0, 4, 1, 1, 1, 1}, {1, 2, 1, 3, [FIT_SAME_AS] = 1}}},
    {"B4", BOOK_B, CAPACITY, 1, {{ADD, 1, 1, FIT_OK, {0}}}, BYTES(1, 0, 1, 1, 1, 0), 1, {{1, 1}}},
    {"B5", BOOK_B, CAPACITY, 2, {{BIND, 0, 1, FIT_OK, {0, 0}}, {BIND, 1, 0, FIT_OCCURS, {0}}}, BYTES(0, 0), 0, {{0}}},
    {"Z1", BYTES(0), CAPACITY, 0, {{OPEN, 0, 0, FIT_OK, {0}}}, BYTES(0, 0), 0, {{0}}},
    {"Z1 of no bytes", NO_BYTES, CAPACITY, 0, {{OPEN, 0, 0, FIT_OK, {0}}}, BYTES(0, 0), 0, {{0}}},
    /* one symbol with unlike counts is an open place: at the root */
    {"6's example", TWO_COUNTS, CAPACITY, 1, {{ADD, 0, 1, FIT_OK, {0}}}, BYTES(1, 0, 1, 0, 1, 0), 1, {{0, 1}}},
    {"6's example, sides exchanged", TWO_COUNTS, 1, 1, {{ADD, 1, 0, FIT_OK, {0}}}, BYTES(1, 0, 1, 1, 0, 0), 1, {{1, 0}}},
    /* below a common symbol, of which the open place is the argument */
    {"F1", BOOK_F, CAPACITY, 1, {{ADD, 4, 5, FIT_OK, {0}}}, BYTES(1, 0, 2, 4, 5, 4, 1, 1, 2, 3, 0),
     2, {{4, 5, 1, 3, 1, 1}, {2, 3, [FIT_SAME_AS] = 1}}},
    /* no entry is needed for arguments below it */
    {"F1 in two entries", BOOK_F, 2, 2, {{ADD, 4, 5, FIT_OK, {0}}, {ADD, 2, 3, FIT_OK, {1}}}, BYTES(2, 0, 1, 2, 4, 5, 4, 1, 1, 2, 3, 0),
     2, {{4, 5, 1, 3, 1, 1}, {2, 3, [FIT_SAME_AS] = 1}}},
    /* x bound to f(a, b) stays open against f(a), and turns against f(b, a) */
    {"F2", CHOICE_F, CAPACITY, 3, {{ADD, 2, 3, FIT_OK, {0}}, {ADD, 2, 5, FIT_OK, {1}}, {BIND, 2, 4, FIT_OK, {1, 2}}},
     BYTES(2, 0, 1, 4, 2, 3, 0, 2, 5, 3, 2, 2, 3, 0, 1, 0, 1, 0, 0),
     4, {{2, 3}, {2, 5, 1, 2, 2, 2, 3, [FIT_SAME_AS] = 1}, {0, 1, [FIT_SAME_AS] = 2}, {1, 0, [FIT_SAME_AS] = 3}}},
    /* x bound to f(a) turns against f(a) itself, and stays open against f(b, a) */
    {"F3", CHOICE_F, CAPACITY, 3, {{ADD, 3, 2, FIT_OK, {0}}, {ADD, 5, 2, FIT_OK, {1}}, {BIND, 2, 3, FIT_OK, {1, 1}}},
     BYTES(2, 0, 1, 3, 2, 2, 3, 1, 2, 5, 2, 0, 0, 0, 1, 0),
     3, {{3, 2, 1, 2, 1, 2}, {5, 2, [FIT_SAME_AS] = 1}, {0, 0, 1, 0, [FIT_SAME_AS] = 2}}},
    /* one symbol is common with one argument, common with two, and open between these */
    {"F4", BOTH_F, CAPACITY, 3, {{ADD, 2, 3, FIT_OK, {0}}, {ADD, 4, 5, FIT_OK, {2}}, {ADD, 2, 4, FIT_OK, {4}}},
     BYTES(3, 0, 1, 2, 5, 2, 3, 3, 1, 3, 4, 5, 3, 2, 3, 4, 2, 4, 0, 0, 1, 0, 1, 0, 0),
     5, {{2, 3, 1, 2, 1, 1}, {0, 1, [FIT_SAME_AS] = 1}, {4, 5, 1, 2, 2, 1, 3, [FIT_SAME_AS] = 2}, {1, 0, [FIT_SAME_AS] = 3},
         {2, 4, [FIT_SAME_AS] = 4}}},
    /* a, f(a), f(a, a): all arguments are term 0, and the values of f(a) and f(a, a) are two */
    {"F5", BYTES(3, 1, 0, 2, 1, 0, 2, 2, 0, 0), CAPACITY, 3, {{ADD, 1, 0, FIT_OK, {0}}, {ADD, 2, 0, FIT_OK, {1}}, {ADD, 1, 2, FIT_OK, {2}}},
     BYTES(3, 0, 1, 2, 3, 1, 0, 0, 2, 0, 0, 1, 2, 0),
     3, {{1, 0}, {2, 0, [FIT_SAME_AS] = 1}, {1, 2, [FIT_SAME_AS] = 2}}},
};

static int holds_sample(const struct sample *sample)
{
    size_t needed = fit_area_length(sample->capacity);
    uint32_t i;
    int step;
    if (!opens(&sample->book, sample->capacity))
        return 0;
    for (step = 0; step < sample->steps; step++)
        if (!takes(&sample->step[step], sample->capacity))
            return 0;
    for (i = 0; i < sample->entries; i++)
        if (make(ENTRY, NULL, i, 0, needed, 0) != 0 || !numbers_are(sample->fields[i], FIT_FIELDS) || !kept_after(&area, 0))
            return 0;
    return refuses(FIT_NAMES_NOTHING, ENTRY, NULL, sample->entries, 0, needed, 0) && puts_bytes(REPORT, NULL, &sample->report, needed)
        && puts_bytes(WRITE, NULL, as_written(&sample->book), needed);
}

/* Books that are refused, by opening and by copying: numbers 1 to 5, with each of the ranges of 4. */
static const struct {
    struct book book;
    uint32_t refusal;
} refused_books[] = {
    {BYTES(0x01), FIT_CUT},
    {BYTES(0x80), FIT_CUT}, /* within the first number */
    {BYTES(0x80, 0x80), FIT_CUT},
    {BYTES(0x02, 0x00), FIT_CUT},              /* before the second term */
    {BYTES(0x80, 0x00), FIT_BAD_NUMBER},       /* not the shortest form */
    {BYTES(0x80, 0x80, 0x80), FIT_BAD_NUMBER}, /* 80 set in the third byte */
    {BYTES(0x80, 0x80, 0x04), FIT_BAD_NUMBER}, /* 65,536 */
    {BYTES(0x00, 0x05), FIT_LEFT_OVER},
    {BYTES(0x81, 0x08), FIT_OUT_OF_RANGE},             /* 1,025 terms */
    {BYTES(0x01, 0x81, 0x20, 0x00), FIT_OUT_OF_RANGE}, /* symbol 4,096 */
    {BYTES(0x01, 0x01, 0x09), FIT_OUT_OF_RANGE},       /* nine arguments */
    {BYTES(0x01, 0x01, 0x01, 0x00), FIT_NOT_LOWER},
    /* a second count of symbol 0 is no fault: what is behind it decides, or its range */
    {BYTES(0x02, 0x01, 0x00, 0x01, 0x01), FIT_CUT},
    {BYTES(0x03, 0x01, 0x00, 0x01, 0x01, 0x00), FIT_CUT},
    {BYTES(0x02, 0x01, 0x00, 0x01, 0x01, 0x80, 0x00), FIT_BAD_NUMBER},
    {BYTES(0x02, 0x01, 0x00, 0x01, 0x01, 0x00, 0x00), FIT_LEFT_OVER},
    {BYTES(0x02, 0x01, 0x00, 0x01, 0x09), FIT_OUT_OF_RANGE},
    {BYTES(0x02, 0x01, 0x00, 0x01, 0x01, 0x01), FIT_NOT_LOWER},
};

/* The other refusals of opening. */
static const struct {
    uint32_t capacity;
    size_t area_length;
    uint32_t refusal;
} refused_openings[] = {
    {0, MOST, FIT_OUT_OF_RANGE},
    {FIT_MAX_CAPACITY + 1, MOST, FIT_OUT_OF_RANGE},
    {4294967295u, MOST, FIT_OUT_OF_RANGE},
    {1, 0, FIT_NOT_SOUND},
    {1, 46151, FIT_NOT_SOUND},
    {CAPACITY, MOST - 1, FIT_NOT_SOUND},
};

/* Calls on a sound area that are refused, after up to two steps. */
static const struct {
    struct book book;
    uint32_t capacity;
    int steps;
    struct step step[2];
    struct step refused;
} refused_calls[] = {
    {BYTES(2, 0, 0), 1, 0, {{0}}, {ADD, 2, 0, FIT_NAMES_NOTHING, {0}}},
    {BYTES(2, 0, 0), 1, 0, {{0}}, {ADD, 0, 4294967295u, FIT_NAMES_NOTHING, {0}}},
    {BOOK_A, 1, 0, {{0}}, {ADD, 4, 5, FIT_FULL, {0}}}, /* its walk needs three entries */
    {BOOK_A, 1, 1, {{ADD, 0, 0, FIT_OK, {0}}}, {ADD, 0, 1, FIT_FULL, {0}}}, /* it needs one itself */
    {BYTES(2, 0, 0), 1, 0, {{0}}, {BIND, 9, 0, FIT_NAMES_NOTHING, {0}}},
    {BYTES(2, 0, 0), 1, 0, {{0}}, {BIND, 0, 2, FIT_NAMES_NOTHING, {0}}},
    {BYTES(1, 1, 0), 1, 0, {{0}}, {BIND, 0, 0, FIT_NOT_FREE, {0}}}, /* a symbol */
    {BYTES(2, 0, 0), 1, 1, {{BIND, 0, 1, FIT_OK, {0}}}, {BIND, 0, 1, FIT_NOT_FREE, {0}}}, /* bound already */
    {BYTES(1, 0), 1, 0, {{0}}, {BIND, 0, 0, FIT_OCCURS, {0}}},
    {BOOK_A, 1, 0, {{0}}, {BIND, 0, 4, FIT_OCCURS, {0}}}, /* below a symbol */
    {BOOK_B, 1, 1, {{BIND, 0, 3, FIT_OK, {0}}}, {BIND, 1, 0, FIT_OCCURS, {0}}}, /* through a binding */
    {BOOK_B, 1, 1, {{ADD, 0, 4, FIT_OK, {0}}}, {BIND, 0, 3, FIT_FULL, {0}}},
    {BOOK_A, 4, 0, {{0}}, {ENTRY, 0, 0, FIT_NAMES_NOTHING, {0}}},
    {BOOK_A, 4, 1, {{ADD, 4, 5, FIT_OK, {0}}}, {ENTRY, 3, 0, FIT_NAMES_NOTHING, {0}}},
    {BOOK_A, 4, 1, {{ADD, 4, 5, FIT_OK, {0}}}, {ENTRY, 4294967295u, 0, FIT_NAMES_NOTHING, {0}}},
    {BOOK_A, 4, 1, {{ADD, 4, 5, FIT_OK, {0}}}, {REPORT, 0, 0, FIT_TOO_SHORT, {0}}}, /* into length 0 */
    {BOOK_A, 4, 1, {{ADD, 4, 5, FIT_OK, {0}}}, {WRITE, 0, 0, FIT_TOO_SHORT, {0}}},
};

static int passed, failed;

static void test(const char *what, size_t row, int holds)
{
    if (holds) {
        passed++;
    } else {
        printf("failed: %s, row %u\n", what, (unsigned)row);
        failed++;
    }
}

#define COUNT(table) (sizeof(table) / sizeof *(table))

static int refuses_opening(size_t i, const struct book *book)
{
    return refuses(refused_openings[i].refusal, OPEN, book, refused_openings[i].capacity, 0, refused_openings[i].area_length, 0);
}

/* A book of no bytes leaves the area that the book 00 leaves. */
static int opens_as_no_terms(uint32_t capacity)
{
    static uint8_t other[sizeof area.store];
    if (!opens(&no_terms, capacity))
        return 0;
    memcpy(other, area.store, sizeof other);
    return opens(&no_bytes, capacity) && memcmp(other, area.store, sizeof other) == 0;
}

static void test_books(void)
{
    const struct book *book;
    size_t i;
    memset(area.store, FILLING, sizeof area.store);
    memset(out.store, FILLING, sizeof out.store);
    for (i = 0; i < COUNT(refused_books); i++) {
        book = &refused_books[i].book;
        test("refused by fit_open", i, refuses(refused_books[i].refusal, OPEN, book, CAPACITY, 0, MOST, 0));
        test("refused by fit_copy_book", i, refuses(refused_books[i].refusal, COPY, book, 0, 0, 0, MOST));
    }
    for (i = 0; i < COUNT(refused_openings); i++)
        test("refused opening", i, refuses_opening(i, &book_a) && refuses_opening(i, &no_bytes));
    test("copied", 0, puts_bytes(COPY, &book_a, &book_a, 0));
    test("copied", 1, puts_bytes(COPY, &no_terms, &no_terms, 0));
    test("copied", 2, puts_bytes(COPY, &no_bytes, &no_terms, 0));
    test("copied", 3, puts_bytes(COPY, &two_counts, &two_counts, 0));
    test("no bytes opened", 1, opens_as_no_terms(1));
    test("no bytes opened", CAPACITY, opens_as_no_terms(CAPACITY));
}

static void test_calls(void)
{
    size_t i;
    int holds, step;
    for (i = 0; i < COUNT(refused_calls); i++) {
        holds = opens(&refused_calls[i].book, refused_calls[i].capacity);
        for (step = 0; step < refused_calls[i].steps; step++)
            holds = holds && takes(&refused_calls[i].step[step], refused_calls[i].capacity);
        test(names[refused_calls[i].refused.name], i, holds && takes(&refused_calls[i].refused, refused_calls[i].capacity));
    }
}

/* So many lines are accepted, and one more is not. */
static int counts_lines(void)
{
    static const struct step line = {ADD, 1, 1, FIT_OK, {0}}, too_many = {ADD, 1, 1, FIT_TOO_MANY_LINES, {0}};
    int i, holds = opens(&book_b, 1);
    for (i = 0; i < FIT_MAX_LINES; i++)
        holds = holds && takes(&line, 1);
    return holds && takes(&too_many, 1);
}

/* 7 from every call on an area: too short, of length 0, and with one word of any part far out of range (docs/LAYOUT.md). */
static void test_unsound(void)
{
    static const struct step line = {ADD, 4, 5, FIT_OK, {0}};
    static const size_t spoiled[] = {3, 7, 11, 15, 19, 40979, 45075, 46099};
    size_t i, needed = fit_area_length(4);
    int name, holds;
    for (name = ADD; name <= WRITE; name++) {
        holds = opens(&book_a, 4) && takes(&line, 4) && refuses(FIT_NOT_SOUND, (enum name)name, NULL, 0, 0, needed - 1, MOST)
            && refuses(FIT_NOT_SOUND, (enum name)name, NULL, 0, 0, 0, MOST);
        for (i = 0; i < COUNT(spoiled); i++) {
            bytes_of(&area)[spoiled[i]] ^= 0x80;
            holds = holds && refuses(FIT_NOT_SOUND, (enum name)name, NULL, 0, 0, needed, MOST);
            bytes_of(&area)[spoiled[i]] ^= 0x80;
        }
        test(names[name], 7, holds);
    }
}

/* Entry 0 with another kind, count and second argument than its sides ask, in books in which a symbol has two counts. */
static const struct {
    struct book book;
    struct step line;
    uint8_t kind, count, second_argument;
} wrong_entries[] = {
    {TWO_COUNTS, {ADD, 0, 1, FIT_OK, {0}}, FIT_COMMON, 0, 0}, /* common, with the count of its left side */
    {TWO_COUNTS, {ADD, 0, 1, FIT_OK, {0}}, FIT_COMMON, 1, 0}, /* of its right side */
    {BOTH_F, {ADD, 2, 3, FIT_OK, {0}}, FIT_COMMON, 2, 1},     /* two arguments, where each side has one */
    {BOTH_F, {ADD, 4, 5, FIT_OK, {0}}, FIT_COMMON, 1, 0},     /* one, where each has two */
};

/* 7 from every call on such an area, and from none before. */
static void test_wrong_entries(void)
{
    uint8_t *entry = bytes_of(&area) + 46096; /* docs/LAYOUT.md */
    size_t i, needed = fit_area_length(4);
    int name, holds;
    for (i = 0; i < COUNT(wrong_entries); i++) {
        holds = opens(&wrong_entries[i].book, 4) && takes(&wrong_entries[i].line, 4) && make(ENTRY, NULL, 0, 0, needed, 0) == FIT_OK;
        entry[4 * FIT_KIND] = wrong_entries[i].kind;
        entry[4 * FIT_COUNT] = wrong_entries[i].count;
        entry[4 * (FIT_ARGUMENT + 1)] = wrong_entries[i].second_argument;
        for (name = ADD; name <= WRITE; name++)
            holds = holds && refuses(FIT_NOT_SOUND, (enum name)name, NULL, 0, 0, needed, MOST);
        test("wrong entry", i, holds);
    }
}

/* Bytes that are made here, number by number. */
struct made {
    uint8_t bytes[FIT_BOOK_BYTES];
    size_t length;
};

static void put_number(struct made *made, uint32_t n)
{
    for (; n > 127; n /= 128)
        made->bytes[made->length++] = (uint8_t)(n % 128 + 128);
    made->bytes[made->length++] = (uint8_t)n;
}

static struct book all_of(const struct made *made)
{
    struct book book = {made->bytes, made->length};
    return book;
}

/* A book of so many variables, and behind them a term of a symbol over so many of the first of them. */
static struct book book_of(uint32_t variables, uint32_t symbol, uint32_t count)
{
    static struct made made;
    uint32_t i;
    made.length = 0;
    put_number(&made, variables + 1);
    for (i = 0; i < variables; i++)
        put_number(&made, 0);
    put_number(&made, symbol + 1);
    put_number(&made, count);
    for (i = 0; i < count; i++)
        put_number(&made, i);
    return all_of(&made);
}

static int refuses_book(uint32_t variables, uint32_t symbol, uint32_t count)
{
    struct book book = book_of(variables, symbol, count);
    return refuses(FIT_OUT_OF_RANGE, OPEN, &book, 1, 0, MOST, 0);
}

static int opens_book(uint32_t variables, uint32_t symbol, uint32_t count)
{
    struct book book = book_of(variables, symbol, count);
    return opens(&book, 1);
}

/* The limits of the header are the library's: at each a call is accepted, and behind it refused. */
static void test_limits(void)
{
    uint32_t capacity;
    int lengths = 1;
    test("FIT_MAX_TERMS", 0, opens_book(FIT_MAX_TERMS - 1, 0, 0) && refuses_book(FIT_MAX_TERMS, 0, 0));
    test("FIT_MAX_SYMBOL", 0, opens_book(0, FIT_MAX_SYMBOL, 0) && refuses_book(0, FIT_MAX_SYMBOL + 1, 0));
    test("FIT_MAX_ARGUMENTS", 0, opens_book(9, 0, FIT_MAX_ARGUMENTS) && refuses_book(9, 0, FIT_MAX_ARGUMENTS + 1));
    test("FIT_MAX_LINES", 0, counts_lines());
    test("FIT_MAX_CAPACITY", 0, fit_area_length(FIT_MAX_CAPACITY) != 0 && fit_area_length(FIT_MAX_CAPACITY + 1) == 0);
    for (capacity = 1; capacity <= FIT_MAX_CAPACITY; capacity++)
        lengths = lengths && fit_area_length(capacity) == FIT_AREA_BYTES(capacity);
    test("FIT_AREA_BYTES", 0, lengths);
    test("area lengths", 0, fit_area_length(0) == 0 && fit_area_length(1) == 46152 && fit_area_length(CAPACITY) == MOST
        && fit_area_length(FIT_MAX_CAPACITY) == 160784 && fit_area_length(4294967295u) == 0);
}

/* STORING AND RESTORING, which use no area. What is read lies between guard bytes too, so that it is seen to stay. */
static struct lent given, list;

/* Fills a store, with these bytes at the front of what is lent. */
static void fill(struct lent *b, const struct book *bytes)
{
    memset(b->store, FILLING, sizeof b->store);
    memcpy(bytes_of(b), bytes->bytes, bytes->length);
    memcpy(b->before, b->store, sizeof b->store);
}

static uint32_t store(const struct book *book, size_t out_length, size_t list_length)
{
    fill(&given, book);
    fill(&out, &no_bytes);
    fill(&list, &no_bytes);
    memset(guarded, FILLING, sizeof guarded);
    return noted(fit_store_book(bytes_of(&given), book->length, bytes_of(&out), out_length, bytes_of(&list), list_length, &numbers[0],
                                &numbers[1]));
}

static uint32_t restore(const struct book *book, const struct book *listed, size_t out_length)
{
    fill(&given, book);
    fill(&list, listed);
    fill(&out, &no_bytes);
    memset(guarded, FILLING, sizeof guarded);
    return noted(fit_restore_book(bytes_of(&given), book->length, bytes_of(&list), listed->length, bytes_of(&out), out_length, &numbers[0]));
}

/* Refused with this number, zeros for all else, and no byte changed. */
static int refuses_to_store(uint32_t refusal, const struct book *book, size_t out_length, size_t list_length)
{
    return store(book, out_length, list_length) == refusal && numbers_are(zeros, 2) && kept_after(&given, 0) && kept_after(&out, 0)
        && kept_after(&list, 0);
}

static int refuses_to_restore(uint32_t refusal, const struct book *book, const struct book *listed, size_t out_length)
{
    return restore(book, listed, out_length) == refusal && numbers_are(zeros, 1) && kept_after(&given, 0) && kept_after(&list, 0)
        && kept_after(&out, 0);
}

/* Accepted: these bytes, their lengths, and nothing behind them changed. */
static int stores(const struct book *book, const struct book *stored, const struct book *listed, size_t out_length, size_t list_length)
{
    const uint32_t lengths[] = {(uint32_t)stored->length, (uint32_t)listed->length};
    return store(book, out_length, list_length) == FIT_OK && numbers_are(lengths, 2) && kept_after(&given, 0)
        && kept_after(&out, stored->length) && kept_after(&list, listed->length)
        && memcmp(bytes_of(&out), stored->bytes, stored->length) == 0 && memcmp(bytes_of(&list), listed->bytes, listed->length) == 0;
}

static int restores(const struct book *book, const struct book *listed, const struct book *restored, size_t out_length)
{
    const uint32_t length = (uint32_t)restored->length;
    return restore(book, listed, out_length) == FIT_OK && numbers_are(&length, 1) && kept_after(&given, 0) && kept_after(&list, 0)
        && kept_after(&out, length) && memcmp(bytes_of(&out), restored->bytes, length) == 0;
}

/* Restored as these bytes, in an output of just their length, in longer ones and in one that always suffices, and in no shorter one. */
static int restores_in_any(const struct book *book, const struct book *listed, const struct book *restored)
{
    size_t length;
    int holds = restores(book, listed, restored, restored->length) && restores(book, listed, restored, restored->length + 1)
        && restores(book, listed, restored, FIT_BOOK_BYTES);
    for (length = 0; length < restored->length; length++)
        holds = holds && refuses_to_restore(FIT_TOO_SHORT, book, listed, length);
    return holds;
}

/* The book is stored as these bytes, in such outputs too, and restored from them. */
static int stored_and_restored(const struct book *book, const struct book *stored, const struct book *listed)
{
    size_t length;
    int holds = stores(book, stored, listed, stored->length, listed->length) && stores(book, stored, listed, stored->length + 1, listed->length)
        && stores(book, stored, listed, stored->length, listed->length + 3) && stores(book, stored, listed, FIT_BOOK_BYTES, FIT_LIST_BYTES);
    for (length = 0; length < stored->length; length++)
        holds = holds && refuses_to_store(FIT_TOO_SHORT, book, length, listed->length);
    for (length = 0; length < listed->length; length++)
        holds = holds && refuses_to_store(FIT_TOO_SHORT, book, stored->length, length) && refuses_to_store(FIT_TOO_SHORT, book, 0, length);
    return holds && restores_in_any(stored, listed, as_written(book));
}

static const struct {
    struct book book, stored, listed;
} archive_samples[] = {
    {BYTES(4, 1, 0, 2, 1, 0, 0, 3, 2, 1, 2), BYTES(4, 0, 1, 0, 2, 1, 1, 3, 2, 2, 0), BYTES(2, 0, 1, 3)}, /* three terms in a ring */
    {BYTES(5, 0, 4, 0, 0, 2, 1, 2, 0), BYTES(5, 0, 0, 0, 4, 0, 2, 1, 1), BYTES(0, 2, 4, 1, 3)},          /* three variables, two others */
    {BOOK_A, BOOK_A, BYTES(0, 1, 2, 3, 4, 5)},                                                           /* variables first already */
    {BYTES(2, 0, 0), BYTES(2, 0, 0), BYTES(0, 1)},
    {BYTES(2, 1, 0, 2, 1, 0), BYTES(2, 1, 0, 2, 1, 0), BYTES(0, 1)}, /* no variables */
    {BYTES(0), BYTES(0), NO_BYTES},                                  /* no terms: a list of no bytes, in an output of length 0 */
    {NO_BYTES, BYTES(0), NO_BYTES},                                  /* no bytes: the same */
    {TWO_COUNTS, TWO_COUNTS, BYTES(0, 1)},                           /* a symbol with two counts */
    {BYTES(3, 1, 0, 0, 1, 1, 1), BYTES(3, 0, 1, 0, 1, 1, 0), BYTES(1, 0, 2)}, /* the same, the second over a variable that moves */
};

/* Lists of the book of a variable, a constant, and a symbol over that constant, which are refused, with an output of any length. */
static const struct book three_terms = BYTES(3, 0, 1, 0, 2, 1, 1);

static const struct {
    struct book listed;
    uint32_t refusal;
} refused_lists[] = {
    {NO_BYTES, FIT_CUT},
    {BYTES(1, 0), FIT_CUT},
    {BYTES(1, 0, 0x80), FIT_CUT}, /* within a number */
    {BYTES(1, 0, 0x80, 0x80), FIT_CUT},
    {BYTES(9, 9), FIT_CUT}, /* and no term */
    {BYTES(1, 1), FIT_CUT}, /* and a term named twice */
    {BYTES(1, 0, 0x80, 0x00), FIT_BAD_NUMBER},
    {BYTES(1, 0, 0x80, 0x80, 0x80), FIT_BAD_NUMBER},
    {BYTES(1, 0, 0x80, 0x80, 0x04), FIT_BAD_NUMBER},
    {BYTES(0x80, 0x00), FIT_BAD_NUMBER},          /* before the end, which is too early */
    {BYTES(9, 0x80, 0x00), FIT_BAD_NUMBER},       /* behind a number that is no term */
    {BYTES(0x80, 0x00, 0, 2, 1), FIT_BAD_NUMBER}, /* and a number too many */
    {BYTES(1, 1, 0x80, 0x00), FIT_BAD_NUMBER},    /* behind a term named twice */
    {BYTES(1, 0, 2, 0), FIT_LEFT_OVER},
    {BYTES(1, 0, 2, 0x80), FIT_LEFT_OVER},       /* half a number */
    {BYTES(1, 0, 2, 0x80, 0x00), FIT_LEFT_OVER}, /* a bad number */
    {BYTES(9, 9, 9, 9), FIT_LEFT_OVER},          /* and no term */
    {BYTES(1, 1, 1, 1), FIT_LEFT_OVER},          /* and a term named twice */
    {BYTES(0, 2, 1, 1), FIT_LEFT_OVER},          /* and an argument that would not be lower */
    {BYTES(1, 0, 3), FIT_NAMES_NOTHING},
    {BYTES(0xFF, 0xFF, 0x03, 0, 2), FIT_NAMES_NOTHING}, /* the largest number */
    {BYTES(1, 1, 3), FIT_NAMES_NOTHING},                /* behind a term named twice */
    {BYTES(1, 0, 1), FIT_NAMED_TWICE},
    {BYTES(2, 2, 2), FIT_NAMED_TWICE},
    {BYTES(2, 2, 0), FIT_NAMED_TWICE}, /* and an argument would not be lower */
    {BYTES(0, 2, 1), FIT_NOT_LOWER},
};

/* The lists of that book that restore one. */
static const struct {
    struct book listed, restored;
} accepted_lists[] = {
    {BYTES(0, 1, 2), BYTES(3, 0, 1, 0, 2, 1, 1)},
    {BYTES(1, 0, 2), BYTES(3, 1, 0, 0, 2, 1, 0)},
    {BYTES(2, 0, 1), BYTES(3, 1, 0, 2, 1, 0, 0)},
};

/* Lists that no book without terms has: a byte is left over, whatever it is. */
static const struct book left_over[] = {BYTES(0), BYTES(1), BYTES(0x80), BYTES(0x80, 0x00), BYTES(0x80, 0x80, 0x80), BYTES(0, 0)};

/* A book without terms, as one byte or as none, is restored by a list of no bytes alone. */
static int restores_no_terms(const struct book *book)
{
    size_t i;
    int holds = restores_in_any(book, &no_bytes, &no_terms);
    for (i = 0; i < COUNT(left_over); i++)
        holds = holds && refuses_to_restore(FIT_LEFT_OVER, book, &left_over[i], MOST) && refuses_to_restore(FIT_LEFT_OVER, book, &left_over[i], 0);
    return holds;
}

/* Where a book that opens breaks off after a byte or more, every call that takes a book refuses what is left as cut. */
static int refuses_fronts(const struct book *book)
{
    struct book front = {book->bytes, 1};
    int holds = 1;
    for (; front.length < book->length; front.length++)
        holds = holds && refuses(FIT_CUT, OPEN, &front, CAPACITY, 0, MOST, 0) && refuses(FIT_CUT, COPY, &front, 0, 0, 0, MOST)
            && refuses_to_store(FIT_CUT, &front, MOST, MOST) && refuses_to_restore(FIT_CUT, &front, &no_bytes, MOST);
    return holds;
}

/* What a list of three numbers from 0 to 3 is refused with: the constant takes its second number, the symbol over it the third. */
static uint32_t refusal_of(const uint8_t n[3])
{
    if (n[0] == 3 || n[1] == 3 || n[2] == 3)
        return FIT_NAMES_NOTHING;
    if (n[0] == n[1] || n[0] == n[2] || n[1] == n[2])
        return FIT_NAMED_TWICE;
    return n[2] < n[1] ? FIT_NOT_LOWER : FIT_OK;
}

static int tries_all_lists(void)
{
    uint8_t bytes[3];
    const struct book listed = {bytes, 3};
    uint32_t i, refusal;
    int holds = 1, accepted = 0;
    for (i = 0; i < 64; i++) {
        bytes[0] = (uint8_t)(i % 4);
        bytes[1] = (uint8_t)(i / 4 % 4);
        bytes[2] = (uint8_t)(i / 16);
        refusal = refusal_of(bytes);
        if (refusal == FIT_OK)
            accepted += restore(&three_terms, &listed, MOST) == FIT_OK;
        else
            holds = holds && refuses_to_restore(refusal, &three_terms, &listed, MOST);
    }
    return holds && accepted == (int)COUNT(accepted_lists);
}

/* A constant, so many terms of a symbol over it alone, and so many variables; and what is stored for it, in which the number of the
   constant is that of the variables. The book has the first of these lengths, what is stored the second, the list the third. */
static int grows(uint32_t terms, uint32_t symbol, uint32_t count, uint32_t variables, const size_t lengths[3])
{
    static struct made made[3];
    struct book book, stored, listed;
    uint32_t i, k, total = 1 + terms + variables;
    made[0].length = made[1].length = made[2].length = 0;
    put_number(&made[0], total);
    put_number(&made[1], total);
    for (i = 0; i < variables; i++) {
        put_number(&made[1], 0);
        put_number(&made[2], 1 + terms + i);
    }
    for (k = 0; k < 2; k++) {
        put_number(&made[k], 1);
        put_number(&made[k], 0);
    }
    for (i = 0; i < terms * (count + 2); i++)
        for (k = 0; k < 2; k++)
            put_number(&made[k], i % (count + 2) == 0 ? symbol + 1 : i % (count + 2) == 1 ? count : k * variables);
    for (i = 0; i < variables; i++)
        put_number(&made[0], 0);
    for (i = 0; i <= terms; i++)
        put_number(&made[2], i);
    book = all_of(&made[0]);
    stored = all_of(&made[1]);
    listed = all_of(&made[2]);
    if (book.length != lengths[0] || stored.length != lengths[1] || listed.length != lengths[2])
        return 0;
    return stored_and_restored(&book, &stored, &listed);
}

static void test_archive(void)
{
    static const size_t grown[] = {603, 753, 472}, longest[] = {9977, 17137, 1920};
    const struct book bad_list = BYTES(0x80, 0x00);
    const struct book *book;
    size_t i;
    for (i = 0; i < COUNT(archive_samples); i++)
        test("stored and restored", i, stored_and_restored(&archive_samples[i].book, &archive_samples[i].stored, &archive_samples[i].listed));
    /* a book's refusals come before the outputs' and the list's */
    for (i = 0; i < COUNT(refused_books); i++) {
        book = &refused_books[i].book;
        test("refused by fit_store_book", i, refuses_to_store(refused_books[i].refusal, book, MOST, MOST)
            && refuses_to_store(refused_books[i].refusal, book, 0, 0));
        test("refused by fit_restore_book", i, refuses_to_restore(refused_books[i].refusal, book, &no_bytes, MOST)
            && refuses_to_restore(refused_books[i].refusal, book, &bad_list, 0));
    }
    for (i = 0; i < COUNT(refused_lists); i++)
        test("refused list", i, refuses_to_restore(refused_lists[i].refusal, &three_terms, &refused_lists[i].listed, MOST)
            && refuses_to_restore(refused_lists[i].refusal, &three_terms, &refused_lists[i].listed, 0));
    test("list of no terms", 0, restores_no_terms(&no_terms));
    test("list of no terms", 1, restores_no_terms(&no_bytes));
    test("fronts of a book", 0, refuses_fronts(&book_a));
    test("fronts of a book", 1, refuses_fronts(&book_b));
    test("fronts of a book", 2, refuses_fronts(&two_counts));
    for (i = 0; i < COUNT(accepted_lists); i++)
        test("accepted list", i, restores(&three_terms, &accepted_lists[i].listed, &accepted_lists[i].restored, 7)
            && restores(&three_terms, &accepted_lists[i].listed, &accepted_lists[i].restored, MOST)
            && refuses_to_restore(FIT_TOO_SHORT, &three_terms, &accepted_lists[i].listed, 6));
    test("every list", 0, tries_all_lists());
    /* numbers of two bytes: 4 + 150 * 3 + 149 bytes, then 4 + 150 * 4 + 149, and 128 + 172 * 2 */
    test("a longer book stored", 0, grows(150, 1, 1, 149, grown));
    /* as many terms as can be: 4 + 895 * 11 + 128 bytes, then 4 + 895 * 19 + 128, and 128 + 896 * 2 */
    test("a longer book stored", 1, grows(895, FIT_MAX_SYMBOL, FIT_MAX_ARGUMENTS, 128, longest));
}

/* The same numbers, and those that no call shows, are the definitions'. */
static void test_definitions(void)
{
    test("FIT_MAX_TERMS", 1, FIT_MAX_TERMS == DEFINED_max_terms);
    test("FIT_MAX_CAPACITY", 1, FIT_MAX_CAPACITY == DEFINED_max_capacity);
    test("FIT_MAX_LINES", 1, FIT_MAX_LINES == DEFINED_max_lines);
    test("FIT_MAX_ARGUMENTS", 1, FIT_MAX_ARGUMENTS == DEFINED_max_arity);
    test("FIT_MAX_SYMBOL", 1, FIT_MAX_SYMBOL == DEFINED_max_symbol);
    test("FIT_BOOK_BYTES", 0, FIT_BOOK_BYTES == DEFINED_longest_book);
    test("FIT_LIST_BYTES", 0, FIT_LIST_BYTES == DEFINED_longest_list);
    test("FIT_REPORT_BYTES", 0, FIT_REPORT_BYTES == DEFINED_longest_report);
    /* by a term for each entry and one for all else, so two places tell all */
    test("FIT_REPORT_BYTES_AT", 0, FIT_REPORT_BYTES_AT(FIT_MAX_CAPACITY) == DEFINED_longest_report
        && FIT_REPORT_BYTES_AT(DEFINED_session_capacity) == DEFINED_longest_session_report);
}

/* The fields of an entry by their names: entry 5, in which all numbers but 0 differ. */
static void test_fields(void)
{
    const struct book book = BYTES(5, 0, 0, 0, 10, 2, 0, 1, 10, 2, 1, 2);
    static const struct step lines[] = {
        {ADD, 0, 0, FIT_OK, {0}}, {ADD, 1, 1, FIT_OK, {1}}, {ADD, 2, 2, FIT_OK, {2}},
        {ADD, 0, 2, FIT_OK, {3}}, {ADD, 2, 0, FIT_OK, {4}}, {ADD, 3, 4, FIT_OK, {5}},
    };
    size_t i;
    int holds = opens(&book, 8);
    for (i = 0; i < COUNT(lines); i++)
        holds = holds && takes(&lines[i], 8);
    holds = holds && make(ENTRY, NULL, 5, 0, fit_area_length(8), 0) == FIT_OK;
    test("fields", 5, holds && numbers[FIT_LEFT] == 3 && numbers[FIT_RIGHT] == 4 && numbers[FIT_KIND] == FIT_COMMON
        && numbers[FIT_SYMBOL] == 9 && numbers[FIT_COUNT] == 2 && numbers[FIT_ARGUMENT] == 6 && numbers[FIT_ARGUMENT + 1] == 7
        && numbers[FIT_SAME_AS] == 5);
    holds = holds && make(ENTRY, NULL, 6, 0, fit_area_length(8), 0) == FIT_OK;
    test("fields", 6, holds && numbers[FIT_KIND] == FIT_OPEN_PLACE && numbers[FIT_SYMBOL] == 0);
}

/* The texts of all refusals, by their numbers (docs/SPEC.md, "Turned down"), and of any other number. */
static void test_texts(void)
{
    static const char *const texts[] = {
        "accepted",
        "the bytes end within a number, or before one",
        "a number not in shortest form, of more than three bytes, or above 65,535",
        "bytes after the last term of the book, or after the list",
        "a number of terms, a symbol, a count or a capacity out of range",
        "an argument that is not lower than its term",
        "a symbol with two counts, refused before interface 3 only",
        "an area that is too short or not sound",
        "a number that names no term or entry",
        "a variable that is bound already, or a symbol in its place",
        "a variable that occurs in the value it is bound to",
        "more entries than the capacity",
        "a line too many",
        "an output that is too short",
        "a list that names a term twice",
        "not a number of this interface",
    };
    uint32_t i;
    for (i = 0; i < COUNT(texts); i++)
        test("text", i, strcmp(fit_refusal(i), texts[i]) == 0);
    test("text", i, strcmp(fit_refusal(4294967295u), texts[COUNT(texts) - 1]) == 0);
}

int main(void)
{
    size_t i;
    for (i = 0; i < COUNT(samples); i++)
        test(samples[i].name, i, holds_sample(&samples[i]));
    test_books();
    test_calls();
    test_unsound();
    test_wrong_entries();
    test_limits();
    test_archive();
    test_definitions();
    test_fields();
    test_texts();
    test("FIT_TWO_COUNTS", 0, two_counts_given == 0);
    printf("interface %d\n", FIT_INTERFACE);
    printf("%d passed, %d failed\n", passed, failed);
    return failed > 0;
}
