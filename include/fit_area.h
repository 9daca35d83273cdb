/* Readers of an area's layout (docs/LAYOUT.md), so that no program writes offsets by hand. C99 or C++11.

   They are not proved; they are tested against fit_entry, fit_write and the report on many areas (tests/area_readers.c of the
   repository). They test nothing themselves: call them only on a sound area, which is one that the last call accepted, or refused with
   another number than FIT_NOT_SOUND (a refused fit_open has not looked at it), with numbers of terms, lines and entries that are below
   their counts, and places of arguments below the count of their term. */
#ifndef FIT_AREA_H
#define FIT_AREA_H

#include "fit.h"

/* What fit_area_bound_to gives for a term that is not bound. No term has this number. */
#define FIT_UNBOUND UINT32_MAX

/* Offsets in words, for the readers below: of the header's numbers, in the row of a term, and of the first word of each part. An entry's
   row has the FIT_FIELDS words of fit.h. */
enum {
    FIT_AREA_CAPACITY = 0,
    FIT_AREA_TERMS = 1,
    FIT_AREA_ENTRIES = 2,
    FIT_AREA_LINES = 3,
    FIT_AREA_HEADER_WORDS = 4,

    FIT_AREA_TERM_SYMBOL_PLUS_1 = 0, /* 0 for a variable */
    FIT_AREA_TERM_COUNT = 1,
    FIT_AREA_TERM_ARGUMENT = 2,
    FIT_AREA_TERM_WORDS = FIT_AREA_TERM_ARGUMENT + FIT_MAX_ARGUMENTS,

    FIT_AREA_TERM_PART = FIT_AREA_HEADER_WORDS,
    /* a word for each term: the term that it is bound to plus 1, or 0 */
    FIT_AREA_BINDING_PART = FIT_AREA_TERM_PART + FIT_AREA_TERM_WORDS * FIT_MAX_TERMS,
    FIT_AREA_LINE_PART = FIT_AREA_BINDING_PART + FIT_MAX_TERMS,
    FIT_AREA_ENTRY_PART = FIT_AREA_LINE_PART + FIT_MAX_LINES,
};

/* Word i of the area: four bytes, the lowest first, at any address. */
static inline uint32_t fit_area_word(const uint8_t *area, size_t i)
{
    const uint8_t *p = area + 4 * i;
    return (uint32_t)p[0] | (uint32_t)p[1] << 8 | (uint32_t)p[2] << 16 | (uint32_t)p[3] << 24;
}

/* The capacity that the area was opened with. */
static inline uint32_t fit_area_capacity(const uint8_t *area)
{
    return fit_area_word(area, FIT_AREA_CAPACITY);
}

/* How many terms the book has. */
static inline uint32_t fit_area_terms(const uint8_t *area)
{
    return fit_area_word(area, FIT_AREA_TERMS);
}

/* How many entries there are. */
static inline uint32_t fit_area_entries(const uint8_t *area)
{
    return fit_area_word(area, FIT_AREA_ENTRIES);
}

/* How many lines were added. */
static inline uint32_t fit_area_lines(const uint8_t *area)
{
    return fit_area_word(area, FIT_AREA_LINES);
}

/* A word of the row of term t, by its place in the row. */
static inline uint32_t fit_area_term_word(const uint8_t *area, uint32_t t, uint32_t place)
{
    return fit_area_word(area, FIT_AREA_TERM_PART + (size_t)FIT_AREA_TERM_WORDS * t + place);
}

/* Whether term t is a variable, as the book has it: 1 for a bound one too. */
static inline int fit_area_is_variable(const uint8_t *area, uint32_t t)
{
    return fit_area_term_word(area, t, FIT_AREA_TERM_SYMBOL_PLUS_1) == 0;
}

/* The symbol of term t; 0 for a variable, but a symbol may be 0 too: ask fit_area_is_variable. */
static inline uint32_t fit_area_symbol(const uint8_t *area, uint32_t t)
{
    uint32_t symbol_plus_1 = fit_area_term_word(area, t, FIT_AREA_TERM_SYMBOL_PLUS_1);
    return symbol_plus_1 == 0 ? 0 : symbol_plus_1 - 1;
}

/* How many arguments term t has; 0 for a variable. */
static inline uint32_t fit_area_count(const uint8_t *area, uint32_t t)
{
    return fit_area_term_word(area, t, FIT_AREA_TERM_COUNT);
}

/* The term that is argument k of term t, from 0, as the book has it: it may be a bound variable. */
static inline uint32_t fit_area_argument(const uint8_t *area, uint32_t t, uint32_t k)
{
    return fit_area_term_word(area, t, FIT_AREA_TERM_ARGUMENT + k);
}

/* The term that the variable t is bound to, as it was given; FIT_UNBOUND for a free variable and for a term with a symbol. */
static inline uint32_t fit_area_bound_to(const uint8_t *area, uint32_t t)
{
    uint32_t term_plus_1 = fit_area_word(area, (size_t)FIT_AREA_BINDING_PART + t);
    return term_plus_1 == 0 ? FIT_UNBOUND : term_plus_1 - 1;
}

/* The term that t stands for (dereference): bindings are followed to the last term, a free variable or one with a symbol. On an area
   that is not sound it may never return. */
static inline uint32_t fit_area_stands_for(const uint8_t *area, uint32_t t)
{
    uint32_t next;
    while ((next = fit_area_bound_to(area, t)) != FIT_UNBOUND)
        t = next;
    return t;
}

/* The entry of line j. */
static inline uint32_t fit_area_line(const uint8_t *area, uint32_t j)
{
    return fit_area_word(area, (size_t)FIT_AREA_LINE_PART + j);
}

/* A field of entry i by its place, FIT_LEFT to FIT_SAME_AS. */
static inline uint32_t fit_area_field(const uint8_t *area, uint32_t i, uint32_t field)
{
    return fit_area_word(area, FIT_AREA_ENTRY_PART + (size_t)FIT_FIELDS * i + field);
}

/* All fields of entry i, the numbers that fit_entry gives, without its test of the area. */
static inline void fit_area_entry(const uint8_t *area, uint32_t i, uint32_t fields[FIT_FIELDS])
{
    uint32_t field;
    for (field = 0; field < FIT_FIELDS; field++)
        fields[field] = fit_area_field(area, i, field);
}

#endif
