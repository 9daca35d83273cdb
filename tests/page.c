/* Runs the pieces of C that docs/C-API.md has, which tests/run puts into page.h: a number as bytes, compared with the page's own
   examples and those at each length; the page's book in two files, which have the page's bytes, and back from them, files that are too
   long, and those of a refused book, which are empty; a book of no bytes in two files; and the first program, which prints its line. */
#define main first_program
#include "page.h"
#undef main

#include <string.h>

static const struct {
    uint32_t number;
    size_t length;
    uint8_t bytes[3];
} numbers[] = {
    {0, 1, {0x00}}, {127, 1, {0x7F}}, {128, 2, {0x80, 0x01}}, {300, 2, {0xAC, 0x02}}, {16383, 2, {0xFF, 0x7F}},
    {16384, 3, {0x80, 0x80, 0x01}}, {65535, 3, {0xFF, 0xFF, 0x03}},
};

/* Whether a file has just these bytes; it is left at its beginning. */
static int has(FILE *file, const uint8_t *bytes, size_t length)
{
    uint8_t found[16];
    rewind(file);
    if (fread(found, 1, sizeof found, file) != length || memcmp(found, bytes, length) != 0)
        return 0;
    rewind(file);
    return 1;
}

static int kept_in_files(void)
{
    static const uint8_t book[] = {4, 1, 0, 2, 1, 0, 0, 3, 2, 1, 2}, as_stored[] = {4, 0, 1, 0, 2, 1, 1, 3, 2, 2, 0}, as_list[] = {2, 0, 1, 3};
    static uint8_t out[FIT_BOOK_BYTES];
    uint32_t written, i;
    FILE *stored_file = tmpfile(), *list_file = tmpfile();
    if (stored_file == NULL || list_file == NULL)
        return 0;
    if (store_in_files(book, sizeof book - 1, stored_file, list_file) != FIT_CUT || !has(stored_file, book, 0) || !has(list_file, book, 0)
        || restore_from_files(stored_file, list_file, out, &written) != NOT_READ || written != 0)
        return 0;
    rewind(stored_file);
    rewind(list_file);
    if (store_in_files(book, sizeof book, stored_file, list_file) != FIT_OK || !has(stored_file, as_stored, sizeof as_stored)
        || !has(list_file, as_list, sizeof as_list))
        return 0;
    if (restore_from_files(stored_file, list_file, out, &written) != FIT_OK || written != sizeof book || memcmp(out, book, written) != 0)
        return 0;
    for (i = 0; i < FIT_LIST_BYTES; i++)
        putc(0, list_file);
    rewind(stored_file);
    rewind(list_file);
    if (restore_from_files(stored_file, list_file, out, &written) != FIT_LEFT_OVER)
        return 0;
    for (i = 0; i < FIT_BOOK_BYTES; i++)
        putc(0, stored_file);
    rewind(stored_file);
    rewind(list_file);
    return restore_from_files(stored_file, list_file, out, &written) == FIT_LEFT_OVER && written == 0;
}

/* A book of no bytes is kept as the byte 00, beside a list of no bytes. */
static int no_bytes_in_files(void)
{
    static const uint8_t byte = 0xEE, no_terms = 0;
    static uint8_t out[FIT_BOOK_BYTES] = {0xEE};
    uint32_t written;
    FILE *stored_file = tmpfile(), *list_file = tmpfile();
    return stored_file != NULL && list_file != NULL && store_in_files(&byte, 0, stored_file, list_file) == FIT_OK
        && has(stored_file, &no_terms, 1) && has(list_file, &byte, 0)
        && restore_from_files(stored_file, list_file, out, &written) == FIT_OK && written == 1 && out[0] == 0;
}

int main(void)
{
    size_t i;
    for (i = 0; i < sizeof numbers / sizeof *numbers; i++) {
        uint8_t bytes[3];
        size_t length = (size_t)(put_number(bytes, numbers[i].number) - bytes);
        if (length != numbers[i].length || memcmp(bytes, numbers[i].bytes, length) != 0) {
            printf("put_number(.., %u) differs\n", (unsigned)numbers[i].number);
            return 1;
        }
    }
    if (!kept_in_files() || !no_bytes_in_files()) {
        printf("a book in two files differs\n");
        return 1;
    }
    return first_program();
}
