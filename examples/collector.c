/* A collector: joins the parts of the switches and checks the rule on the joined table.
 *
 *     collector RULE PART...
 *
 * RULE and each PART are files; the parts stand in the order of their devices. It prints the number of rows
 * joined, the verdict, the number of marked rows, and these in the table's order: device/at, name and value,
 * indented by two spaces for each level of depth. A row has its depth in a word of its own, so it stands
 * where it belongs though rows around it are not printed.
 */
#include "files.h"

#include <stdio.h>

static uint32_t rule[GABZERIL_RULE_WORDS];
static uint32_t pool[GABZERIL_TABLE_WORDS];
static uint32_t part[GABZERIL_TABLE_WORDS];
static uint8_t marks[GABZERIL_ROW_LIMIT];

/* The words of the pool with this part behind its first `used`. */
static size_t add_part(size_t used, const char *path)
{
    size_t length = load_pool(path, part);
    return accepted(gabzeril_join(pool, GABZERIL_TABLE_WORDS, used, part, length), path);
}

static size_t count_marked(size_t rows)
{
    size_t marked = 0;
    for (size_t row = 0; row < rows; row++) {
        marked += marks[row];
    }
    return marked;
}

/* The depth is less than GABZERIL_ROW_LIMIT, as the table is accepted. */
static void print_row(const uint32_t *row)
{
    int indent = 2 * (int)row[GABZERIL_DEEP];
    printf("%*s%u/%u ", indent, "", (unsigned)row[GABZERIL_DEVICE], (unsigned)row[GABZERIL_AT]);
    printf("name %u value %d\n", (unsigned)row[GABZERIL_NAME], (int)gabzeril_value(row[GABZERIL_VALUE]));
}

static void print_marked(size_t rows)
{
    printf("marked %zu\n", count_marked(rows));
    for (size_t row = 0; row < rows; row++) {
        if (marks[row] == 1) {
            print_row(pool + GABZERIL_ROW_WORDS * row);
        }
    }
}

int main(int argc, char **argv)
{
    if (argc < 2) {
        fprintf(stderr, "usage: %s RULE PART...\n", argv[0]);
        return 2;
    }
    size_t rule_length = load_rule(argv[1], rule);
    size_t used = 0;
    for (int i = 2; i < argc; i++) {
        used = add_part(used, argv[i]);
    }
    gabzeril_answer answer = gabzeril_marks(rule, rule_length, pool, used, marks, sizeof marks);
    size_t verdict = accepted(answer, "rule or pool");
    size_t rows = used / GABZERIL_ROW_WORDS;
    printf("rows %zu\n", rows);
    printf("verdict %s\n", verdict == 1 ? "true" : "false");
    print_marked(rows);
    return 0;
}
