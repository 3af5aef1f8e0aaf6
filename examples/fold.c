/* For those who feed tables: folds the blocks that a switch lists twice.
 *
 *     fold TABLE [FOLDED]
 *
 * TABLE is a pool file with the rows of one device. Of two siblings with the same name and value the later one goes, and
 * its children move under the earlier one, until there are no such two. The folded pool file goes to the file FOLDED or
 * to standard output. Its table is accepted, so that parts can be made of it.
 *
 * Standard error gets a line for each row that goes or moves, in the table's order and indented by its depth, and the
 * numbers of rows last. A row that is not named there is as it was. Where nothing is folded, the file comes back byte for
 * byte.
 *
 * If something is refused, nothing is written, and the status is 1. The row at fault is printed with its line in TABLE.
 */
#include "files.h"

#include <stdio.h>

static uint32_t table[GABZERIL_TABLE_WORDS];
static uint32_t folded[GABZERIL_TABLE_WORDS];

static const uint32_t *row_of(size_t place)
{
    return table + GABZERIL_ROW_WORDS * place;
}

static void print_fault(gabzeril_answer answer, const char *path, size_t rows)
{
    print_refused(answer, path);
    if (answer.place < rows) {
        const uint32_t *row = row_of(answer.place);
        fprintf(stderr, "line %zu:", answer.place + 2); /* the first line has the names */
        for (size_t column = 0; column < GABZERIL_VALUE; column++) {
            fprintf(stderr, " %u", (unsigned)row[column]);
        }
        fprintf(stderr, " %d\n", (int)gabzeril_value(row[GABZERIL_VALUE]));
    }
}

/* What became of the rows: the row of the folded table that each is now, itself or the one that it went into. */
static const uint32_t *became[GABZERIL_ROW_LIMIT];

/* The at of the row that this row's parent is now; 0 for a root. A parent is an earlier row. */
static uint32_t up_now(size_t place)
{
    uint32_t up = row_of(place)[GABZERIL_UP];
    for (size_t earlier = 0; earlier < place; earlier++) {
        if (row_of(earlier)[GABZERIL_AT] == up) {
            return became[earlier][GABZERIL_AT];
        }
    }
    return 0;
}

/* The one row of the folded table with this parent, name and value. */
static const uint32_t *find_left(uint32_t up, const uint32_t *row)
{
    const uint32_t *left = folded;
    while (left[GABZERIL_UP] != up || left[GABZERIL_NAME] != row[GABZERIL_NAME] ||
           left[GABZERIL_VALUE] != row[GABZERIL_VALUE]) {
        left += GABZERIL_ROW_WORDS;
    }
    return left;
}

static void print_row(const uint32_t *row)
{
    int indent = 2 * (int)row[GABZERIL_DEEP];
    fprintf(stderr, "%*s%u/%u ", indent, "", (unsigned)row[GABZERIL_DEVICE], (unsigned)row[GABZERIL_AT]);
    fprintf(stderr, "name %u value %d", (unsigned)row[GABZERIL_NAME], (int)gabzeril_value(row[GABZERIL_VALUE]));
}

static void print_report(size_t rows, size_t left)
{
    size_t moved = 0;
    for (size_t place = 0; place < rows; place++) {
        const uint32_t *row = row_of(place);
        unsigned device = row[GABZERIL_DEVICE], before = row[GABZERIL_UP], now = up_now(place);
        became[place] = find_left(now, row);
        if (became[place][GABZERIL_AT] != row[GABZERIL_AT]) {
            print_row(row);
            fprintf(stderr, " goes into %u/%u\n", device, (unsigned)became[place][GABZERIL_AT]);
        } else if (now != before) {
            print_row(row);
            fprintf(stderr, " moves from %u/%u to %u/%u\n", device, before, device, now);
            moved++;
        }
    }
    fprintf(stderr, "rows %zu, gone %zu, moved %zu, left %zu\n", rows, rows - left, moved, left);
}

int main(int argc, char **argv)
{
    if (argc < 2 || argc > 3) {
        fprintf(stderr, "usage: %s TABLE [FOLDED]\n", argv[0]);
        return 2;
    }
    size_t length = load_pool(argv[1], table);
    size_t rows = length / GABZERIL_ROW_WORDS;
    gabzeril_answer answer = gabzeril_fold(table, length, folded, GABZERIL_TABLE_WORDS);
    if (answer.number != GABZERIL_ACCEPTED) {
        print_fault(answer, argv[1], rows);
        return refused_status;
    }
    save_pool(argc == 3 ? argv[2] : NULL, folded, GABZERIL_ROW_WORDS * answer.value);
    print_report(rows, answer.value);
    return 0;
}
