/* A switch: makes its part of a rule and writes it as a pool file.
 *
 *     switch RULE TABLE MODE [PART]
 *
 * RULE and TABLE are files. MODE is 1 (all rows), 2 (branch) or 3 (full). The part goes to the file PART or
 * to standard output.
 */
#include "files.h"

#include <stdio.h>

static uint32_t rule[GABZERIL_RULE_WORDS];
static uint32_t table[GABZERIL_TABLE_WORDS];
static uint32_t part[GABZERIL_TABLE_WORDS];

/* 0, which the library refuses, if the argument is not one digit. */
static uint32_t mode_of(const char *argument)
{
    int digit = argument[0] >= '0' && argument[0] <= '9' && argument[1] == '\0';
    return digit ? (uint32_t)(argument[0] - '0') : 0;
}

int main(int argc, char **argv)
{
    if (argc < 4 || argc > 5) {
        fprintf(stderr, "usage: %s RULE TABLE MODE [PART]\n", argv[0]);
        return 2;
    }
    size_t rule_length = load_rule(argv[1], rule);
    size_t table_length = load_pool(argv[2], table);
    gabzeril_answer made =
        gabzeril_part(rule, rule_length, table, table_length, mode_of(argv[3]), part, GABZERIL_TABLE_WORDS);
    size_t part_length = GABZERIL_ROW_WORDS * accepted(made, "part");
    save_pool(argc == 5 ? argv[4] : NULL, part, part_length);
    return 0;
}
