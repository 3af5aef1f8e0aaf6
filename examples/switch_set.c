/* A switch: makes one full part for a set of rules and writes it as a pool file.
 *
 *     switch_set TABLE RULE... -- PART
 *
 * TABLE and each RULE are files that are read, PART is written. It stands alone behind "--", so that no rule
 * file is written over where it is forgotten. The collector must check the same rules, or some of them.
 */
#include "files.h"

#include <stdio.h>

static struct set set;
static uint32_t table[GABZERIL_TABLE_WORDS];
static uint32_t part[GABZERIL_TABLE_WORDS];

int main(int argc, char **argv)
{
    char **written = argc < 3 ? NULL : behind_dashes(argv + 2);
    if (written == NULL || written[0] == NULL || written[1] != NULL) {
        fprintf(stderr, "usage: %s TABLE RULE... -- PART\n", argv[0]);
        return 2;
    }
    size_t table_length = load_pool(argv[1], table);
    load_set(argv + 2, &set);
    gabzeril_answer made =
        gabzeril_set_part(set.rules, set.rules_length, set.counts, set.counts_length,
                          table, table_length, GABZERIL_FULL, part, GABZERIL_TABLE_WORDS);
    size_t part_length = GABZERIL_ROW_WORDS * accepted(made, "part");
    save_pool(written[0], part, part_length);
    return 0;
}
