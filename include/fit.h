/* The fit table's C interface: libfit.a, for x86-64 Linux, in C99 or C++11. This header is enough to write a program; docs/C-API.md has
   the reasons, worked bytes and advice, docs/SPEC.md the rules.

   A book is a list of terms, numbered from 0: variables (open choices), and symbols over terms of lower numbers; one symbol may have
   different counts of arguments in one book. An area is a run of bytes that the caller lends; it holds a book, its bindings (choices that
   were fixed), and a table of entries. A line is a pair of terms; its entry is read as a pattern, the narrowest one that covers both: a
   common entry is a symbol over its argument entries, an open place is where the two sides have no common symbol with as many arguments.
   So f(a) and f(a, b) have nothing in common at that place, no more than f(a) and g(a) have. A free variable has no symbol, so one free
   variable on both sides is an open place too. A bound variable has the value of its term. Two terms have the same value where, with
   bindings followed, they are one free variable, or have one symbol and as many arguments, of the same values: so two different free
   variables never have.

   - Every call returns 0 (FIT_OK) or the number of a refusal; fit_area_length alone returns a length. Numbers are never truncated:
     one that is out of range is refused.
   - A refusal changes no byte of a book, a list, an area or an output, and sets every answer (*entry, *turned, *appended, *written,
     *list_written, all fields) to 0. An accepted call sets every answer. They need not be set before.
   - No pointer is null, also where the length is 0: pass the address of any byte. No two buffers or answers of one call overlap: no book
     is copied, stored or restored in place, and two outputs or two answers are never one. Nothing in C can check this.
   - An area has no pointers and needs no alignment: copy it, move it, save it, load it as bytes. It may be longer than it needs; what is
     behind is never touched. A program reads it (fit_area.h), and never writes it.
   - Every call but opening tests the area whole: on any bytes it is safe, and it refuses what is too short or not sound. But an area that
     was altered may still be sound: what is saved or sent needs a checksum, and FIT_INTERFACE beside it.
   - A call needs no heap and keeps nothing between calls. Give a thread that makes calls 1 MB of stack, besides its thread-local storage.
     Several threads may call fit_entry, fit_report and fit_write on one area at the same time, and read it by fit_area.h; while one of
     them calls fit_open, fit_add or fit_bind on it, no other uses it. */
#ifndef FIT_H
#define FIT_H

#include <stddef.h>
#include <stdint.h>

#ifdef __cplusplus
extern "C" {
#endif

/* The number of this interface. It changes with every change that may break a program: a call, a refusal and when it is given, a limit, a
   field, the bytes of a book, a list, a report or an area. CHANGELOG.md says what of an older number can still be read. */
#define FIT_INTERFACE 3

/* What a call returns. Of the tests of a call the first that fails decides; each call below lists its own in their order. */
enum {
    FIT_OK = 0,              /* accepted */
    FIT_CUT = 1,             /* a book of a byte or more, or a list, ends before a number, or after one or two bytes of an unfinished one */
    FIT_BAD_NUMBER = 2,      /* a number of a book or list is not in shortest form, has 0x80 set in its third byte, or is above 65,535 */
    FIT_LEFT_OVER = 3,       /* bytes after the last term of a book, or after the last number of a list */
    FIT_OUT_OF_RANGE = 4,    /* a number of terms, a symbol, a count of arguments or a capacity is out of range */
    FIT_NOT_LOWER = 5,       /* an argument is its own term or a higher one, in a book or in the book that is restored */
    FIT_TWO_COUNTS = 6,      /* not given since interface 3, which accepts a symbol with two counts; the number is not used again */
    FIT_NOT_SOUND = 7,       /* the area is too short, or its parts do not agree; what an accepted call leaves is sound */
    FIT_NAMES_NOTHING = 8,   /* there is no such term, or no such entry */
    FIT_NOT_FREE = 9,        /* what is to be bound has a symbol, or is bound already */
    FIT_OCCURS = 10,         /* the value of the term contains the variable, or is it */
    FIT_FULL = 11,           /* the step needs more entries than the capacity */
    FIT_TOO_MANY_LINES = 12, /* the area has FIT_MAX_LINES lines */
    FIT_TOO_SHORT = 13,      /* an output is too short for the bytes to be written */
    FIT_NAMED_TWICE = 14,    /* a list names a term twice */
};

/* A refusal in a line of text. */
static inline const char *fit_refusal(uint32_t refusal)
{
    switch (refusal) {
    case FIT_OK:
        return "accepted";
    case FIT_CUT:
        return "the bytes end within a number, or before one";
    case FIT_BAD_NUMBER:
        return "a number not in shortest form, of more than three bytes, or above 65,535";
    case FIT_LEFT_OVER:
        return "bytes after the last term of the book, or after the list";
    case FIT_OUT_OF_RANGE:
        return "a number of terms, a symbol, a count or a capacity out of range";
    case FIT_NOT_LOWER:
        return "an argument that is not lower than its term";
    case FIT_TWO_COUNTS:
        return "a symbol with two counts, refused before interface 3 only";
    case FIT_NOT_SOUND:
        return "an area that is too short or not sound";
    case FIT_NAMES_NOTHING:
        return "a number that names no term or entry";
    case FIT_NOT_FREE:
        return "a variable that is bound already, or a symbol in its place";
    case FIT_OCCURS:
        return "a variable that occurs in the value it is bound to";
    case FIT_FULL:
        return "more entries than the capacity";
    case FIT_TOO_MANY_LINES:
        return "a line too many";
    case FIT_TOO_SHORT:
        return "an output that is too short";
    case FIT_NAMED_TWICE:
        return "a list that names a term twice";
    default:
        return "not a number of this interface";
    }
}

/* The largest of each: a book has 0 to so many terms, an area a capacity of 1 to so many entries and 0 to so many lines, a symbol
   0 to so many arguments; symbols are 0 to FIT_MAX_SYMBOL. */
#define FIT_MAX_TERMS 1024
#define FIT_MAX_CAPACITY 2048
#define FIT_MAX_LINES 256
#define FIT_MAX_ARGUMENTS 8
#define FIT_MAX_SYMBOL 4095

/* The bytes of an area of a capacity from 1 to FIT_MAX_CAPACITY, as a constant: what fit_area_length gives. */
#define FIT_AREA_BYTES(capacity) (46096 + 56 * (size_t)(capacity))

/* Bytes that always suffice, each by theorems of the repository (theory Lengths.antt). For any book, stored or restored too:
   room-for-book, room-for-copy, room-to-store, room-to-restore. */
#define FIT_BOOK_BYTES 19458

/* For any list: room-to-store. */
#define FIT_LIST_BYTES 2048

/* For any report: room-for-report. */
#define FIT_REPORT_BYTES 47620

/* For any report of an area of this capacity: room-at-capacity. */
#define FIT_REPORT_BYTES_AT(capacity) (516 + 23 * (size_t)(capacity))

/* The places of an entry's fields. */
enum {
    FIT_LEFT = 0,     /* the term on the left, as given or as the book has it: bindings are not followed */
    FIT_RIGHT = 1,    /* the term on the right */
    FIT_KIND = 2,     /* FIT_OPEN_PLACE or FIT_COMMON */
    FIT_SYMBOL = 3,   /* of a common entry the symbol of both sides, else 0 */
    FIT_COUNT = 4,    /* of a common entry how many arguments that symbol has on both sides, else 0 */
    FIT_ARGUMENT = 5, /* the first of FIT_MAX_ARGUMENTS places: the argument entries, left to right, then 0 */
    FIT_SAME_AS = 13, /* the lowest entry with the same two values; open places with one same-as are one open place */
    FIT_FIELDS = 14,  /* the number of fields */
};

/* The kinds of an entry. */
enum { FIT_OPEN_PLACE = 0, FIT_COMMON = 1 };

/* The bytes of a book are numbers: the number of terms; for each term 0 for a variable, or symbol plus 1, the count of its arguments
   and their term numbers. The count is the term's own: another term of the same symbol may have another. A number is written seven bits to
   a byte, the lowest first, with 0x80 set in each byte but the last: one byte below 128, two below 16,384, at most three, always as few as
   will do.

   A book of no bytes, such as an empty file, is the book without terms, as the book 00 is: no test of a book refuses it. Its length is 0,
   its pointer not null all the same: an empty file is read into an array of at least one byte. A read that fails may give no bytes too,
   which would be taken for this book, or for its list: test for that (fopen, ferror) before the call. fit_write, fit_copy_book,
   fit_store_book and fit_restore_book each write 00 for it. So this is the one book that, written back, copied, or stored and restored, comes
   back with other bytes than were read. */

/* The length in bytes that an area of this capacity needs; 0 for a capacity that is not 1 to FIT_MAX_CAPACITY. */
size_t fit_area_length(uint32_t capacity);

/* Opens a book in an area, whatever that held, with no entries, no lines and nothing bound. Refuses with FIT_OUT_OF_RANGE (the
   capacity), FIT_NOT_SOUND (the area is too short), then the book: its numbers are read one by one, and the first bad one decides,
   FIT_CUT, FIT_BAD_NUMBER, FIT_OUT_OF_RANGE, for an argument FIT_NOT_LOWER; after the last FIT_LEFT_OVER. A book of no bytes has no
   numbers, and leaves the area that the book 00 leaves. */
uint32_t fit_open(uint32_t capacity, const uint8_t *book, size_t book_length, uint8_t *area, size_t area_length);

/* Adds the line of the terms l and r, in this order; lines are numbered from 0 as they are added. Gives the line's entry in *entry: the
   lowest with these two values, left and right, whose FIT_LEFT and FIT_RIGHT may be other terms than l and r, or a new one. The same pair
   added again is a further line, with the same entry unless a choice in between has given a lower one these values. Refuses with
   FIT_NOT_SOUND, FIT_NAMES_NOTHING, FIT_TOO_MANY_LINES, FIT_FULL. */
uint32_t fit_add(uint8_t *area, size_t area_length, uint32_t l, uint32_t r, uint32_t *entry);

/* Fixes a choice: binds the variable v to the term t, once and for all; to try a step, copy the area before it. A variable that is bound
   to a free variable is bound: to fix the choice further, bind the one that it stands for. Gives in *turned how many open entries that were
   there before turned common, each counted, and in *appended how many entries were appended, of either kind. Refuses with
   FIT_NOT_SOUND, FIT_NAMES_NOTHING, FIT_NOT_FREE, FIT_OCCURS, FIT_FULL. */
uint32_t fit_bind(uint8_t *area, size_t area_length, uint32_t v, uint32_t t, uint32_t *turned, uint32_t *appended);

/* Reads entry i into FIT_FIELDS numbers. Entries are numbered from 0 and keep their numbers; so the first i that is refused with
   FIT_NAMES_NOTHING is how many there are. Refuses with FIT_NOT_SOUND, FIT_NAMES_NOTHING. */
uint32_t fit_entry(const uint8_t *area, size_t area_length, uint32_t i, uint32_t fields[FIT_FIELDS]);

/* Writes the report to the front of out, and in *written how many bytes it has. It is numbers, as a book's bytes are: the number of
   lines; each line's report entry; the number of report entries; for each of these the name of its left value, the name of its right
   value, then 0 for an open place, or symbol plus 1, the count and the report entries of the arguments. A value's name is the lowest
   term that has it, which may be a bound variable. One report entry stands for all entries with the same two values. They are numbered
   for this report alone: those of the lines first, in the order of the lines, then the arguments of each in rising number, left to right;
   none other is in it. Refuses with FIT_NOT_SOUND, FIT_TOO_SHORT. */
uint32_t fit_report(const uint8_t *area, size_t area_length, uint8_t *out, size_t out_length, uint32_t *written);

/* Writes the area's book, the bytes from which it was opened (00 for a book of no bytes), to the front of out, and in *written how many;
   bindings are not among them. Refuses with FIT_NOT_SOUND, FIT_TOO_SHORT. */
uint32_t fit_write(const uint8_t *area, size_t area_length, uint8_t *out, size_t out_length, uint32_t *written);

/* Reads a book and writes it to the front of out, with no area, and in *written how many bytes were written: the book's own bytes, so its
   length is enough for out, but for a book of no bytes, whose copy is 00 and needs one byte. Refuses the book as fit_open does, then with
   FIT_TOO_SHORT: so with out_length 0 that is the answer for every book that would open. */
uint32_t fit_copy_book(const uint8_t *book, size_t book_length, uint8_t *out, size_t out_length, uint32_t *written);

/* Stores a book, with no area: writes to the front of out the book with its variables first, in their old order, then its other terms in
   theirs, arguments renumbered; and to the front of list, for each new number in turn, the old one, as numbers of the same form and
   nothing else. Gives in *written how many bytes the stored book has, in *list_written how many the list. The stored book opens; it can be
   longer than the book (603 bytes became 753, and a book of no bytes becomes the byte 00), whose length is therefore not enough for out.
   Refuses the book as fit_open does, then with FIT_TOO_SHORT where either output is too short: neither is written then. */
uint32_t fit_store_book(const uint8_t *book, size_t book_length, uint8_t *out, size_t out_length, uint8_t *list, size_t list_length,
                        uint32_t *written, uint32_t *list_written);

/* Restores a book, with no area: writes to the front of out the book in which each term of the given one has its old number, which is
   the number that the list has in its place, arguments renumbered; and in *written how many bytes it has. From what fit_store_book wrote,
   with the two lengths that it gave, these are the bytes of the book that was stored (00 for a book of no bytes). Any other book that opens
   and list that names each of its terms once will do, exactly where the restored book opens; so an altered list, or another book's, may be
   accepted, and a stored book and its list get one checksum. Refuses the book as fit_open does; then the list, of which as many numbers are
   read, one by one, as the book has terms, with FIT_CUT, FIT_BAD_NUMBER; after the last with FIT_LEFT_OVER; then with FIT_NAMES_NOTHING
   where any of them is no term, FIT_NAMED_TWICE, FIT_NOT_LOWER (in the restored book), FIT_TOO_SHORT. The list of a book without terms has
   length 0, and a pointer that is not null all the same; any byte beside such a book is left over. What fit_store_book wrote has at least one
   byte: a stored book of no bytes was lost or not read, which this call cannot tell. */
uint32_t fit_restore_book(const uint8_t *book, size_t book_length, const uint8_t *list, size_t list_length, uint8_t *out, size_t out_length,
                          uint32_t *written);

#ifdef __cplusplus
}
#endif

#endif
