/* Fuzzing of the whole C interface; tests/fuzz builds and runs it. An input is a capacity (two bytes, the lower first), the length of a
   book (two bytes), the book, and calls: a call's number and two numbers, of a byte each, or of two where WIDE is added to the call's
   number. Some calls damage a word of the area, and some lend only the front of it. Each call is made by the library and by the second
   implementation (second.rs), which must answer and leave the same; neither may give 6. What is lent to the library ends where a page begins
   that no one may touch, and has guard bytes before it. At the end the accepted choices and then the accepted lines are done on a fresh
   area, where none may be refused and the report must be the same.
   Of storing the numbers are the lengths of its two outputs, of restoring that of the list, whose bytes come next in the input, and of
   the output. Beside the comparison what is stored is tested by what makes it the only book and list, a list's refusal by its numbers, what
   is restored by restoring again; a book's refusal is that of fit_copy_book. */
#include "fit.h"

#include <stdio.h>
#include <stdlib.h>
#include <string.h>
#include <sys/mman.h>

#define PAGE 4096u
#define GUARD 64u
#define GUARD_BYTE 0xC3
#define FIELDS 14
#define UNSET 0xA5A5A5A5u
#define MOST_BOOK 4096u
#define MOST_AREA 160784u /* bytes: the area of capacity 2,048 */
#define MOST_OUT 47620u   /* bytes: the longest report */
#define MOST_LIST 4096u
#define FILLING 0x3C
#define MOST_STEPS 512
#define MOST_STORED 16 /* calls of an input that store or restore */
#define WIDE 128

enum name { OPEN, ADD, BIND, ENTRY, REPORT, WRITE, COPY, DAMAGE, CUT, STORE, RESTORE, NAMES };

struct bytes {
    uint8_t *start;
    size_t length;
};

uint32_t second_store(struct bytes book, struct bytes out, struct bytes list, uint32_t *numbers);
uint32_t second_restore(struct bytes book, struct bytes list, struct bytes out, uint32_t *number);
uint32_t second(uint32_t name, uint32_t a, uint32_t b, struct bytes book, struct bytes area, struct bytes out, uint32_t *numbers);

static void fail(const char *what, enum name name, uint32_t a, uint32_t b)
{
    fprintf(stderr, "fuzz: call %d (%u, %u): %s\n", (int)name, (unsigned)a, (unsigned)b, what);
    abort();
}

/* Room for so many bytes, whose end is where a page begins that no one may touch. */
static uint8_t *room(size_t most)
{
    size_t size = (most + GUARD + PAGE - 1) / PAGE * PAGE;
    uint8_t *start = mmap(NULL, size + PAGE, PROT_READ | PROT_WRITE, MAP_PRIVATE | MAP_ANONYMOUS, -1, 0);
    if (start == MAP_FAILED || mprotect(start + size, PAGE, PROT_NONE) != 0)
        exit(2);
    return start + size;
}

/* The last bytes before an end, with guard bytes before them. */
static struct bytes lend(uint8_t *end, size_t length)
{
    struct bytes b = {end - length, length};
    memset(b.start - GUARD, GUARD_BYTE, GUARD);
    return b;
}

static int guarded(struct bytes b)
{
    size_t i;
    for (i = 1; i <= GUARD; i++)
        if (b.start[-(ptrdiff_t)i] != GUARD_BYTE)
            return 0;
    return 1;
}

static int same(const void *a, const void *b, size_t length)
{
    return length == 0 || memcmp(a, b, length) == 0;
}

static void copy(void *to, const void *from, size_t length)
{
    if (length != 0)
        memcpy(to, from, length);
}

/* The ends of what is lent to the library; the area and the output as the second implementation has them; and a fresh area. */
static uint8_t *book_end, *area_end, *out_end, *fresh_end;
static uint8_t second_area[MOST_AREA], second_out[MOST_OUT], before_area[MOST_AREA], before_out[MOST_OUT];

static const size_t answers[] = {0, 1, 2, FIELDS, 1, 1, 1};

static uint32_t library(enum name name, uint32_t a, uint32_t b, struct bytes book, struct bytes area, struct bytes out, uint32_t *numbers)
{
    switch (name) {
    case OPEN:
        return fit_open(a, book.start, book.length, area.start, area.length);
    case ADD:
        return fit_add(area.start, area.length, a, b, &numbers[0]);
    case BIND:
        return fit_bind(area.start, area.length, a, b, &numbers[0], &numbers[1]);
    case ENTRY:
        return fit_entry(area.start, area.length, a, numbers);
    case REPORT:
        return fit_report(area.start, area.length, out.start, out.length, &numbers[0]);
    case WRITE:
        return fit_write(area.start, area.length, out.start, out.length, &numbers[0]);
    default:
        return fit_copy_book(book.start, book.length, out.start, out.length, &numbers[0]);
    }
}

/* Makes a call on both, and compares all that they answer and leave. Gives the refusal. */
static uint32_t call(enum name name, uint32_t a, uint32_t b, struct bytes book, struct bytes area, struct bytes out)
{
    uint32_t ours[1 + FIELDS + 1], theirs[FIELDS], refusal;
    uint8_t book_before[MOST_BOOK];
    struct bytes their_area = {second_area, area.length}, their_out = {second_out, out.length};
    size_t i;
    for (i = 0; i < 1 + FIELDS + 1; i++)
        ours[i] = UNSET;
    memset(out.start, (int)(a & 0xFF), out.length);
    copy(book_before, book.start, book.length);
    copy(before_area, area.start, area.length);
    copy(before_out, out.start, out.length);
    copy(second_area, area.start, area.length);
    copy(second_out, out.start, out.length);
    refusal = library(name, a, b, book, area, out, ours + 1);
    if (refusal == FIT_TWO_COUNTS)
        fail("6, which no call gives any more", name, a, b);
    if (refusal != second(name, a, b, book, their_area, their_out, theirs))
        fail("another refusal", name, a, b);
    for (i = 0; i < FIELDS; i++)
        if (ours[1 + i] != (i < answers[name] ? theirs[i] : UNSET))
            fail("another number", name, a, b);
    if (ours[0] != UNSET || ours[1 + FIELDS] != UNSET || !guarded(book) || !guarded(area) || !guarded(out))
        fail("a byte beside what was lent", name, a, b);
    if (!same(book_before, book.start, book.length))
        fail("another book", name, a, b);
    if (!same(second_area, area.start, area.length) || !same(second_out, out.start, out.length))
        fail("another byte", name, a, b);
    if (refusal != 0)
        for (i = 0; i < answers[name]; i++)
            if (ours[1 + i] != 0)
                fail("a refusal answers a number", name, a, b);
    if ((refusal != 0 || name >= ENTRY) && !same(before_area, area.start, area.length))
        fail("the area is altered", name, a, b);
    if (refusal != 0 && !same(before_out, out.start, out.length))
        fail("the output is altered by a refusal", name, a, b);
    return refusal;
}

struct step {
    enum name name;
    uint32_t a, b;
};

/* Does the accepted choices and then the accepted lines on a fresh area, and compares the reports. */
static void do_over(uint32_t capacity, struct bytes book, struct bytes area, const struct step *steps, size_t count)
{
    struct bytes fresh = lend(fresh_end, area.length), out = lend(out_end, MOST_OUT);
    static uint8_t report[MOST_OUT];
    static const enum name order[] = {BIND, ADD};
    uint32_t written = 0, again = 0, numbers[2];
    size_t i, part;
    memset(fresh.start, 0, fresh.length);
    if (fit_open(capacity, book.start, book.length, fresh.start, fresh.length) != 0)
        fail("a fresh area is refused", OPEN, capacity, 0);
    for (part = 0; part < 2; part++)
        for (i = 0; i < count; i++)
            if (steps[i].name == order[part] && library(order[part], steps[i].a, steps[i].b, book, fresh, out, numbers) != 0)
                fail("refused in the other order", order[part], steps[i].a, steps[i].b);
    if (fit_report(area.start, area.length, out.start, out.length, &written) != 0)
        fail("no report", REPORT, 0, 0);
    copy(report, out.start, written);
    if (fit_report(fresh.start, fresh.length, out.start, out.length, &again) != 0 || again != written || !same(report, out.start, written))
        fail("another report in the other order", REPORT, 0, 0);
}

/* The ends of what is lent to storing and restoring alone, and which refusal each has given: libFuzzer goes by it too. */
static uint8_t *stored_end, *list_end;
static uint8_t refusals[2][FIT_NAMED_TWICE + 1] __attribute__((section("__libfuzzer_extra_counters")));

static void note(enum name name, uint32_t a, uint32_t b, uint32_t refusal)
{
    if (refusal > FIT_NAMED_TWICE || refusal == FIT_NOT_SOUND || refusal == FIT_TWO_COUNTS)
        fail("no refusal of this call", name, a, b);
    refusals[name == RESTORE][refusal] = 1;
}

/* Bytes that are kept beside what is lent. */
struct kept {
    uint8_t bytes[FIT_BOOK_BYTES];
    size_t length;
};

static void keep(struct kept *kept, struct bytes b, size_t length)
{
    kept->length = length;
    copy(kept->bytes, b.start, length);
}

static struct bytes lend_kept(uint8_t *end, const struct kept *kept)
{
    struct bytes b = lend(end, kept->length);
    copy(b.start, kept->bytes, kept->length);
    return b;
}

static struct bytes lend_filled(uint8_t *end, size_t length)
{
    struct bytes b = lend(end, length);
    memset(b.start, FILLING, length);
    return b;
}

/* The same for the second implementation, which is lent other bytes. */
static uint8_t others[2][MOST_OUT];

static struct bytes filled(uint8_t *start, size_t length)
{
    struct bytes b = {start, length};
    memset(start, FILLING, length);
    return b;
}

/* Whether an output that was filled has so many bytes, and is as it was behind them. */
static int filled_behind(struct bytes b, size_t written)
{
    if (written > b.length)
        return 0;
    while (written < b.length && b.start[written] == FILLING)
        written++;
    return written == b.length && guarded(b);
}

/* Stores a book into outputs of a and b bytes; both are filled behind what was written. Gives the refusal and keeps what was written. */
static uint32_t store(const struct kept *book, size_t a, size_t b, struct kept *stored, struct kept *listed)
{
    struct bytes lent = lend_kept(book_end, book), out = lend_filled(out_end, a), list = lend_filled(list_end, b);
    uint32_t written[] = {UNSET, UNSET, UNSET, UNSET};
    uint32_t refusal = fit_store_book(lent.start, lent.length, out.start, out.length, list.start, list.length, &written[1], &written[2]);
    note(STORE, (uint32_t)a, (uint32_t)b, refusal);
    if (written[0] != UNSET || written[3] != UNSET || !guarded(lent) || !same(lent.start, book->bytes, book->length))
        fail("another byte than the outputs'", STORE, (uint32_t)a, (uint32_t)b);
    if (refusal != 0 && (written[1] != 0 || written[2] != 0))
        fail("a refusal answers a number", STORE, (uint32_t)a, (uint32_t)b);
    if (!filled_behind(out, written[1]) || !filled_behind(list, written[2]))
        fail("a byte behind what was written", STORE, (uint32_t)a, (uint32_t)b);
    struct bytes other_out = filled(others[0], a), other_list = filled(others[1], b);
    uint32_t numbers[2];
    if (second_store(lent, other_out, other_list, numbers) != refusal || numbers[0] != written[1] || numbers[1] != written[2]
        || !same(out.start, other_out.start, a) || !same(list.start, other_list.start, b))
        fail("the second implementation differs", STORE, (uint32_t)a, (uint32_t)b);
    keep(stored, out, written[1]);
    keep(listed, list, written[2]);
    return refusal;
}

/* Restores a book by a list into an output of so many bytes, in the same way. */
static uint32_t restore(const struct kept *book, const struct kept *listed, size_t length, struct kept *restored)
{
    struct bytes lent = lend_kept(stored_end, book), list = lend_kept(list_end, listed), out = lend_filled(out_end, length);
    uint32_t written[] = {UNSET, UNSET, UNSET};
    uint32_t refusal = fit_restore_book(lent.start, lent.length, list.start, list.length, out.start, out.length, &written[1]);
    note(RESTORE, (uint32_t)list.length, (uint32_t)length, refusal);
    if (written[0] != UNSET || written[2] != UNSET || !guarded(lent) || !guarded(list) || !same(lent.start, book->bytes, book->length)
        || !same(list.start, listed->bytes, listed->length))
        fail("another byte than the output's", RESTORE, (uint32_t)list.length, (uint32_t)length);
    if (refusal != 0 && written[1] != 0)
        fail("a refusal answers a number", RESTORE, (uint32_t)list.length, (uint32_t)length);
    if (!filled_behind(out, written[1]))
        fail("a byte behind what was written", RESTORE, (uint32_t)list.length, (uint32_t)length);
    struct bytes other = filled(others[0], length);
    uint32_t number;
    if (second_restore(lent, list, other, &number) != refusal || number != written[1] || !same(out.start, other.start, length))
        fail("the second implementation differs", RESTORE, (uint32_t)list.length, (uint32_t)length);
    keep(restored, out, written[1]);
    return refusal;
}

static int equal(const struct kept *a, const struct kept *b)
{
    return a->length == b->length && same(a->bytes, b->bytes, a->length);
}

/* What is written for a book that opens: its bytes, but 00 where it has none. */
static const struct kept *as_written(const struct kept *book)
{
    static const struct kept no_terms = {{0}, 1};
    return book->length == 0 ? &no_terms : book;
}

/* The refusal of a book; one that is accepted is copied as it is written, and one of no bytes is accepted. */
static uint32_t refusal_of(const struct kept *book)
{
    struct bytes lent = lend_kept(stored_end, book), out = lend(out_end, MOST_OUT);
    const struct kept *copied = as_written(book);
    uint32_t written, refusal = fit_copy_book(lent.start, lent.length, out.start, out.length, &written);
    if (refusal == 0 && (written != copied->length || !same(out.start, copied->bytes, written)))
        fail("copied as another book", COPY, 0, MOST_OUT);
    if (refusal != 0 && book->length == 0)
        fail("a book of no bytes is refused", COPY, 0, MOST_OUT);
    if (refusal > FIT_NOT_LOWER)
        fail("no refusal of a book", COPY, 0, MOST_OUT);
    return refusal;
}

/* Reads a number: gives 0, or its refusal. */
static uint32_t read_number(const struct kept *from, size_t *at, uint32_t *number)
{
    uint32_t shift;
    *number = 0;
    for (shift = 0; shift < 21; shift += 7) {
        uint8_t byte;
        if (*at == from->length)
            return FIT_CUT;
        byte = from->bytes[(*at)++];
        *number |= (uint32_t)(byte & 0x7F) << shift;
        if (byte < 0x80)
            return *number > 65535 || (shift > 0 && byte == 0) ? FIT_BAD_NUMBER : FIT_OK;
    }
    return FIT_BAD_NUMBER;
}

static void put_number(struct kept *to, uint32_t number)
{
    for (; number > 0x7F; number >>= 7)
        to->bytes[to->length++] = (uint8_t)(number | 0x80);
    to->bytes[to->length++] = (uint8_t)number;
}

/* A book that opens and a list for it: how many terms there are, which of them have a symbol, the list's numbers, and for each of
   those its place. */
static struct {
    uint32_t terms;
    uint8_t symbol[FIT_MAX_TERMS];
    uint32_t list[FIT_MAX_TERMS], places[FIT_MAX_TERMS];
} taken;

/* The refusal of the list, with the book's terms for rule 5; where it is 0 or 5, both are taken. */
static uint32_t refusal_of_list(const struct kept *book, const struct kept *listed)
{
    size_t at = 0, list_at = 0;
    uint32_t t, symbol, count, argument, refusal;
    int lower = 1;
    read_number(book, &at, &taken.terms);
    for (t = 0; t < taken.terms; t++)
        if ((refusal = read_number(listed, &list_at, &taken.list[t])) != 0)
            return refusal;
    if (list_at < listed->length)
        return FIT_LEFT_OVER;
    for (t = 0; t < taken.terms; t++)
        if (taken.list[t] >= taken.terms)
            return FIT_NAMES_NOTHING;
    memset(taken.places, 0xFF, sizeof taken.places);
    for (t = 0; t < taken.terms; t++) {
        if (taken.places[taken.list[t]] != UINT32_MAX)
            return FIT_NAMED_TWICE;
        taken.places[taken.list[t]] = t;
    }
    for (t = 0; t < taken.terms; t++) {
        read_number(book, &at, &symbol);
        taken.symbol[t] = symbol != 0;
        count = 0;
        if (symbol != 0)
            read_number(book, &at, &count);
        for (; count > 0; count--) {
            read_number(book, &at, &argument);
            lower &= taken.list[argument] < taken.list[t];
        }
    }
    return lower ? FIT_OK : FIT_NOT_LOWER;
}

/* Storing: the book's refusals, then 13 exactly where an output is shorter than what is written to longer ones. What is stored opens and
   restores the book; its variables are first, and they and the other terms are in their old order. */
static void store_all(uint32_t a, uint32_t b, const struct kept *book)
{
    static struct kept stored, listed, again, listed_again, restored;
    const struct kept *first = as_written(book);
    uint32_t expected = refusal_of(book), t;
    if (store(book, FIT_BOOK_BYTES, FIT_LIST_BYTES, &stored, &listed) != expected)
        fail("another refusal than the book's", STORE, a, b);
    if (expected == 0 && (a < stored.length || b < listed.length))
        expected = FIT_TOO_SHORT;
    if (store(book, a, b, &again, &listed_again) != expected)
        fail("another refusal in other outputs", STORE, a, b);
    if (expected == 0 && (!equal(&stored, &again) || !equal(&listed, &listed_again)))
        fail("other bytes in other outputs", STORE, a, b);
    if (expected != 0 && expected != FIT_TOO_SHORT)
        return;
    if (refusal_of(&stored) != 0 || refusal_of_list(&stored, &listed) != 0)
        fail("a book that does not open is stored", STORE, a, b);
    for (t = 1; t < taken.terms; t++)
        if (taken.symbol[t - 1] > taken.symbol[t] || (taken.symbol[t - 1] == taken.symbol[t] && taken.list[t - 1] > taken.list[t]))
            fail("stored in another order", STORE, a, b);
    if (restore(&stored, &listed, first->length, &restored) != 0 || !equal(&restored, first))
        fail("not restored", STORE, a, b);
    if (restore(&stored, &listed, first->length - 1, &restored) != FIT_TOO_SHORT)
        fail("restored in less", STORE, a, b);
}

/* Restoring: the book's refusals, then the list's, then 13 exactly where the output is shorter than what is written to a longer one.
   What is restored opens, and the inverse of the list restores the book from it. */
static void restore_all(uint32_t b, const struct kept *book, const struct kept *listed)
{
    static struct kept restored, again, inverse;
    const struct kept *first = as_written(book);
    uint32_t a = (uint32_t)listed->length, expected = refusal_of(book), t;
    if (expected == 0)
        expected = refusal_of_list(first, listed);
    if (restore(book, listed, FIT_BOOK_BYTES, &restored) != expected)
        fail("another refusal than the book's or the list's", RESTORE, a, b);
    if (restore(book, listed, b, &again) != (expected == 0 && b < restored.length ? (uint32_t)FIT_TOO_SHORT : expected))
        fail("another refusal in another output", RESTORE, a, b);
    if (expected != 0)
        return;
    if (b >= restored.length && !equal(&restored, &again))
        fail("other bytes in another output", RESTORE, a, b);
    if (refusal_of(&restored) != 0)
        fail("what is restored does not open", RESTORE, a, b);
    inverse.length = 0;
    for (t = 0; t < taken.terms; t++)
        put_number(&inverse, taken.places[t]);
    if (restore(&restored, &inverse, first->length, &again) != 0 || !equal(&again, first))
        fail("not restored by the inverse", RESTORE, a, b);
}

static uint32_t two_bytes(const uint8_t *at)
{
    return at[0] + 256u * at[1];
}

int LLVMFuzzerTestOneInput(const uint8_t *data, size_t size)
{
    static struct kept whole_book, listed;
    struct step steps[MOST_STEPS];
    struct bytes book, area;
    size_t count = 0, stored = 0, length;
    uint32_t capacity;
    int whole;
    if (size < 4)
        return 0;
    if (book_end == NULL) {
        book_end = room(MOST_BOOK);
        area_end = room(MOST_AREA);
        out_end = room(MOST_OUT);
        fresh_end = room(MOST_AREA);
        stored_end = room(FIT_BOOK_BYTES);
        list_end = room(MOST_LIST);
    }
    capacity = two_bytes(data);
    length = two_bytes(data + 2) % (MOST_BOOK + 1);
    data += 4;
    size -= 4;
    if (length > size)
        length = size;
    book = lend(book_end, length);
    copy(book.start, data, length);
    keep(&whole_book, book, length);
    data += length;
    size -= length;
    length = fit_area_length(capacity);
    area = lend(area_end, length != 0 ? length : capacity % 100);
    memset(area.start, 0x5A, area.length);
    whole = call(OPEN, capacity, 0, book, area, lend(out_end, 0)) == 0;
    while (size >= 3 && count < MOST_STEPS && stored < MOST_STORED) {
        enum name name = (enum name)(data[0] % WIDE % NAMES);
        uint32_t a = data[1], b = data[2];
        size_t used = 3;
        if (data[0] >= WIDE && size >= 5) {
            a = two_bytes(data + 1);
            b = two_bytes(data + 3);
            used = 5;
        }
        data += used;
        size -= used;
        if (name == DAMAGE) {
            if (4 * (size_t)a + 4 <= area.length) {
                uint8_t word[4] = {(uint8_t)b, (uint8_t)(b >> 8), 0, 0};
                copy(area.start + 4 * (size_t)a, word, 4);
                whole = 0;
            }
        } else if (name == CUT) {
            struct bytes part = lend(fresh_end, a % (area.length + 1));
            copy(part.start, area.start, part.length);
            call(REPORT, a, b, book, part, lend(out_end, b % MOST_OUT));
        } else if (name == STORE) {
            store_all(a % MOST_OUT, b % MOST_LIST, &whole_book);
            stored++;
        } else if (name == RESTORE) {
            listed.length = a % MOST_LIST < size ? a % MOST_LIST : size;
            copy(listed.bytes, data, listed.length);
            data += listed.length;
            size -= listed.length;
            restore_all(b % MOST_OUT, &whole_book, &listed);
            stored++;
        } else {
            size_t room_out = name == REPORT || name == WRITE || name == COPY ? b % MOST_OUT : 0;
            uint32_t refusal;
            if (name == OPEN)
                a = capacity;
            refusal = call(name, a, b, book, area, lend(out_end, room_out));
            if (refusal == 0 && name == OPEN) {
                whole = 1;
                count = 0;
            }
            if (refusal == 0 && (name == ADD || name == BIND)) {
                steps[count].name = name;
                steps[count].a = a;
                steps[count].b = b;
                count++;
            }
        }
    }
    if (whole)
        do_over(capacity, book, area, steps, count);
    return 0;
}
