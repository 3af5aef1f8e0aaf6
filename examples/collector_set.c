/* A collector: joins the parts that the switches made for a set of rules and checks all rules at once.
 *
 *     collector_set RULE... -- PART...
 *
 * RULE and PART are files; the parts stand in the order of their devices. It prints the number of rows joined
 * and a line for each rule: true, or false and its marked rows, if there are any, as device/at.
 */
#include "files.h"

#include <stdio.h>

static struct set set;
static uint32_t pool[GABZERIL_TABLE_WORDS];
static uint8_t verdicts[GABZERIL_SET_LIMIT];
static uint8_t marks[GABZERIL_ROW_LIMIT];

/* Marks are made for one rule: `rule` is where its words begin within the set's. A false rule may mark
 * no row, as "for some" over no rows does; then nothing is printed. */
static void print_marked(const uint32_t *rule, size_t rule_length, size_t used)
{
    const char *before = ", marked ";
    accepted(gabzeril_marks(rule, rule_length, pool, used, marks, sizeof marks), "rule or pool");
    for (size_t i = 0; i < used / GABZERIL_ROW_WORDS; i++) {
        const uint32_t *row = pool + GABZERIL_ROW_WORDS * i;
        if (marks[i] == 1) {
            printf("%s%u/%u", before, (unsigned)row[GABZERIL_DEVICE], (unsigned)row[GABZERIL_AT]);
            before = " ";
        }
    }
}

static void print_verdicts(char **paths, size_t used)
{
    const uint32_t *rule = set.rules;
    for (size_t i = 0; i < set.counts_length; i++) {
        size_t rule_length = GABZERIL_ENTRY_WORDS * (size_t)set.counts[i];
        printf("%s: %s", paths[i], verdicts[i] == 1 ? "true" : "false");
        if (verdicts[i] == 0) {
            print_marked(rule, rule_length, used);
        }
        printf("\n");
        rule += rule_length;
    }
}

int main(int argc, char **argv)
{
    char **paths = argv + 1;
    char **parts = argc < 2 ? NULL : behind_dashes(paths);
    if (parts == NULL) {
        fprintf(stderr, "usage: %s RULE... -- PART...\n", argv[0]);
        return 2;
    }
    load_set(paths, &set);
    size_t used = load_pools(parts, (size_t)(argv + argc - parts), pool);
    gabzeril_answer answer = gabzeril_set_verdicts(set.rules, set.rules_length, set.counts, set.counts_length,
                                                   pool, used, verdicts, sizeof verdicts);
    accepted(answer, "set or pool");
    printf("rows %zu\n", used / GABZERIL_ROW_WORDS);
    print_verdicts(paths, used);
    return 0;
}
