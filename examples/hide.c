/* For a pool that is sent elsewhere: hides the values that do not matter for a rule.
 *
 *     hide RULE POOL OUT
 *
 * All are files. The verdict rests on the values of the marked rows alone, so OUT is the pool with another value
 * in each row that is not marked. Devices, numbers, parents, depths and names stay: they tell which rows the rule
 * takes. The new values are 0, 1, 2 and so on in the order of the rows, but for those that a marked row has. So no
 * row that is not marked has the value of any other row, and the table is accepted.
 *
 * It prints the verdict, how many values of how many rows are hidden, and the verdict on the table that it wrote,
 * which is the same. Were it not, nothing would be written, and the status would be 1.
 */
#include "files.h"

#include <stdio.h>

static uint32_t rule[GABZERIL_RULE_WORDS];
static uint32_t pool[GABZERIL_TABLE_WORDS];
static uint8_t marks[GABZERIL_ROW_LIMIT];

static uint32_t *value_of(size_t row)
{
    return pool + GABZERIL_ROW_WORDS * row + GABZERIL_VALUE;
}

static int is_marked_value(uint32_t value, size_t rows)
{
    for (size_t row = 0; row < rows; row++) {
        if (marks[row] == 1 && *value_of(row) == value) {
            return 1;
        }
    }
    return 0;
}

/* The least value from this one on that no marked row has. */
static uint32_t free_value(uint32_t value, size_t rows)
{
    while (is_marked_value(value, rows)) {
        value++;
    }
    return value;
}

/* Returns how many values are hidden. */
static size_t hide_values(size_t rows)
{
    size_t hidden = 0;
    uint32_t next = 0;
    for (size_t row = 0; row < rows; row++) {
        if (marks[row] == 0) {
            uint32_t value = free_value(next, rows);
            *value_of(row) = value;
            next = value + 1;
            hidden++;
        }
    }
    return hidden;
}

static const char *verdict_text(size_t verdict)
{
    return verdict == 1 ? "true" : "false";
}

int main(int argc, char **argv)
{
    if (argc != 4) {
        fprintf(stderr, "usage: %s RULE POOL OUT\n", argv[0]);
        return 2;
    }
    size_t rule_length = load_rule(argv[1], rule);
    size_t length = load_pool(argv[2], pool);
    size_t rows = length / GABZERIL_ROW_WORDS;
    size_t before = accepted(gabzeril_marks(rule, rule_length, pool, length, marks, sizeof marks), "rule or pool");
    size_t hidden = hide_values(rows);
    size_t after = accepted(gabzeril_verdict(rule, rule_length, pool, length), "the pool with hidden values");
    if (after != before) {
        fprintf(stderr, "the verdict would be another: %s, not %s\n", verdict_text(after), verdict_text(before));
        return 1;
    }
    save_pool(argv[3], pool, length);
    printf("verdict %s\n", verdict_text(before));
    printf("hidden %zu of %zu\n", hidden, rows);
    printf("verdict with hidden values %s\n", verdict_text(after));
    return 0;
}
