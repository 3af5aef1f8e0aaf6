/* For those who keep pools: stores a pool in the archive's order, and gives it back.
 *
 *     archive pack POOL COLUMNS
 *     archive unpack COLUMNS POOL
 *
 * Both are files; the first is read, the second is written. POOL is a pool file. COLUMNS has the words of its table column
 * after column, each but the first of a column as the difference from the row above. A word is four bytes, the low one
 * first, on every machine. A pool without rows gives a file without bytes. Neighbouring words are alike in COLUMNS, so it
 * is what to give to a compressor.
 *
 * It prints the number of rows. What was packed is unpacked to the same pool file, byte for byte. The library packs any
 * rows, but only those of an accepted table can be written as a pool file again, so the table is checked first, both ways.
 * If something is refused, nothing is written, and the status is 1.
 */
#include "files.h"

#include <stdio.h>
#include <stdlib.h>
#include <string.h>

enum {
    WORD_BYTES = 4,
    FILE_WORDS = FILE_BYTES / WORD_BYTES /* of any file that is read, also of more rows than a table may have */
};

static uint8_t bytes[FILE_BYTES];
static uint32_t table[FILE_WORDS];
static uint32_t columns[FILE_WORDS];

static uint32_t get_word(const uint8_t *from)
{
    return (uint32_t)from[0] | (uint32_t)from[1] << 8 | (uint32_t)from[2] << 16 | (uint32_t)from[3] << 24;
}

static void put_word(uint8_t *to, uint32_t word)
{
    for (size_t i = 0; i < WORD_BYTES; i++) {
        to[i] = (uint8_t)(word >> 8 * i);
    }
}

/* Returns the number of words. */
static size_t load_columns(const char *path)
{
    size_t length = load_bytes(path, bytes);
    if (length % WORD_BYTES != 0) {
        fprintf(stderr, "%s: %zu bytes are not whole words of %d bytes\n", path, length, WORD_BYTES);
        exit(refused_status);
    }
    for (size_t i = 0; i < length / WORD_BYTES; i++) {
        columns[i] = get_word(bytes + WORD_BYTES * i);
    }
    return length / WORD_BYTES;
}

static void save_columns(const char *path, size_t length)
{
    for (size_t i = 0; i < length; i++) {
        put_word(bytes + WORD_BYTES * i, columns[i]);
    }
    save_bytes(path, bytes, WORD_BYTES * length);
}

/* Both return the number of rows. */

static size_t pack(const char *from, const char *to)
{
    size_t length = load_pool(from, table);
    size_t rows = accepted(gabzeril_check_table(table, length), from);
    save_columns(to, accepted(gabzeril_to_columns(table, length, columns, FILE_WORDS), from));
    return rows;
}

/* What is refused is called by the name of the file that was read, also where writing refuses the table. */
static size_t unpack(const char *from, const char *to)
{
    size_t length = load_columns(from);
    length = accepted(gabzeril_from_columns(columns, length, table, FILE_WORDS), from);
    save_bytes(to, bytes, accepted(gabzeril_write_pool(table, length, bytes, sizeof bytes), from));
    return length / GABZERIL_ROW_WORDS;
}

int main(int argc, char **argv)
{
    int packs = argc == 4 && strcmp(argv[1], "pack") == 0;
    int unpacks = argc == 4 && strcmp(argv[1], "unpack") == 0;
    if (!packs && !unpacks) {
        fprintf(stderr, "usage: %s pack POOL COLUMNS\n       %s unpack COLUMNS POOL\n", argv[0], argv[0]);
        return 2;
    }
    printf("rows %zu\n", packs ? pack(argv[2], argv[3]) : unpack(argv[2], argv[3]));
    return 0;
}
