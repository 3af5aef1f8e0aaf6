/* For those who ship one rule to many sites: fills a template with the parameters of a site.
 *
 *     fill TEMPLATE POOL OUT [PARAMETER...]
 *
 * TEMPLATE, POOL and OUT are files. A template is a rule file in which b of a comparison may be 2: its c is then the
 * number of a parameter, from 0. The parameters are written as values are, -2147483648 to 2147483647, the one with
 * number 0 first. Each blank gets its parameter as constant, and OUT is the rule of the site, for its switches and its
 * collector. It is written whatever its verdict on the site's pool is.
 *
 * It prints the number of parameters and the verdict; if that is false also the marked rows, if there are any, as
 * device/at. If something is refused, nothing is written, and the status is 1. A parameter too few is 21 at the entry
 * that asks for it, one too many is 22.
 *
 * house-template.txt, with the names of the manual: on every device some interface has the VLAN of the site, parameter
 * 0; no interface has another; and none receives less than the site's threshold in dBm, parameter 1.
 */
#include "files.h"

#include <stdio.h>
#include <stdlib.h>

enum { FIRST_PARAMETER = 4 }; /* among the arguments */

static uint32_t template_words[GABZERIL_RULE_WORDS];
static uint32_t rule[GABZERIL_RULE_WORDS];
static uint32_t pool[GABZERIL_TABLE_WORDS];
static uint8_t marks[GABZERIL_ROW_LIMIT];

/* However many there are: the library tells if they are too many. */
static uint32_t *read_parameters(char **texts, size_t count)
{
    uint32_t *parameters = calloc(count + 1, sizeof *parameters);
    if (parameters == NULL) {
        fprintf(stderr, "no memory for the parameters\n");
        exit(refused_status);
    }
    for (size_t i = 0; i < count; i++) {
        if (!read_number(texts[i], 1, &parameters[i])) {
            fprintf(stderr, "parameter %zu, \"%s\", is not a number from %d to %d", i, texts[i], GABZERIL_VALUE_LEAST,
                    GABZERIL_VALUE_LIMIT);
            fprintf(stderr, ", in digits without leading zeros; 0 has no sign\n");
            exit(refused_status);
        }
    }
    return parameters;
}

static void print_marked(size_t rows)
{
    const char *before = ", marked ";
    for (size_t i = 0; i < rows; i++) {
        const uint32_t *row = pool + GABZERIL_ROW_WORDS * i;
        if (marks[i] == 1) {
            printf("%s%u/%u", before, (unsigned)row[GABZERIL_DEVICE], (unsigned)row[GABZERIL_AT]);
            before = " ";
        }
    }
}

int main(int argc, char **argv)
{
    if (argc < FIRST_PARAMETER) {
        fprintf(stderr, "usage: %s TEMPLATE POOL OUT [PARAMETER...]\n", argv[0]);
        return 2;
    }
    size_t count = (size_t)(argc - FIRST_PARAMETER);
    size_t template_length = load_rule(argv[1], template_words);
    size_t pool_length = load_pool(argv[2], pool);
    uint32_t *parameters = read_parameters(argv + FIRST_PARAMETER, count);
    gabzeril_answer filled =
        gabzeril_fill(template_words, template_length, parameters, count, rule, GABZERIL_RULE_WORDS);
    size_t rule_length = accepted(filled, argv[1]);
    size_t verdict = accepted(gabzeril_marks(rule, rule_length, pool, pool_length, marks, sizeof marks), argv[2]);
    save_rule(argv[3], rule, rule_length);
    printf("parameters %zu\n", count);
    printf("verdict %s", verdict == 1 ? "true" : "false");
    if (verdict == 0) {
        print_marked(pool_length / GABZERIL_ROW_WORDS);
    }
    printf("\n");
    free(parameters);
    return 0;
}
