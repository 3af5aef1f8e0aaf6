/* A planner: tries a plan on a pool and prints what each step does to the verdicts of a set of rules.
 *
 *     plan RULE... -- POOL... -- PLAN
 *
 * All are files. The pool is one file, or a file for each switch in the order of their devices, with all rows of
 * the switches and not their parts. plan_file.h tells what a plan looks like. No file is written.
 *
 * It prints the rules with their numbers, then a line for the pool as it is now and one for each step, with the
 * verdict of each rule; a star stands behind a verdict that is not that of the line above. Then come the rules
 * that a step turned false, where and why the plan was stopped if it was, the number of steps done, the number of
 * rows that the pool has then, and the rules that are false then. Steps count from 1; the library counts from 0.
 *
 * The status is 0 if every step is done and none turns a rule false; 1 if every step is done and some step turns
 * a rule false, though a later one may turn it back; 2 for all else: a refused step, a file that cannot be read
 * or is refused, wrong arguments. A rule that is false now and stays so is no fault of the plan.
 */
#include "files.h"
#include "plan_file.h"

#include <stdio.h>
#include <stdlib.h>

static struct set set;
static uint32_t pool[GABZERIL_TABLE_WORDS];
static uint32_t table[GABZERIL_TABLE_WORDS];
static uint8_t now[GABZERIL_SET_LIMIT];
static uint8_t *verdicts; /* of each step, a byte for each rule */
static struct plan plan;
static gabzeril_trial trial;

/* Takes set, pool and plan; the answer is in now, table, verdicts and trial. All buffers are long enough, and the
 * set and the pool were accepted for `now`: what gabzeril_try may refuse is a step. */
static void try_plan(size_t used)
{
    size_t rules = set.counts_length;
    accepted(gabzeril_set_verdicts(set.rules, set.rules_length, set.counts, rules, pool, used, now, sizeof now),
             "set or pool");
    verdicts = plan.steps == 0 ? NULL : calloc(plan.steps, rules);
    if (verdicts == NULL && plan.steps > 0) {
        fprintf(stderr, "no memory for the verdicts\n");
        exit(refused_status);
    }
    trial = gabzeril_try(set.rules, set.rules_length, set.counts, rules, pool, used, plan.words,
                         GABZERIL_STEP_WORDS * plan.steps, table, GABZERIL_TABLE_WORDS, verdicts,
                         plan.steps * rules);
}

/* The verdict of a rule after so many steps. */
static int is_true(size_t steps, size_t rule)
{
    return (steps == 0 ? now[rule] : verdicts[(steps - 1) * set.counts_length + rule]) == 1;
}

static int turns_false(size_t step, size_t rule)
{
    return is_true(step - 1, rule) && !is_true(step, rule);
}

/* The table. */

struct widths {
    int step, text;
};

static int larger(int a, int b)
{
    return a < b ? b : a;
}

/* How wide the columns with the steps' numbers and texts are: the words above them fit too. */
static struct widths find_widths(void)
{
    char text[STEP_BYTES];
    struct widths widths = {larger(4, snprintf(NULL, 0, "%zu", plan.steps)), 4};
    for (size_t i = 0; i < plan.steps; i++) {
        widths.text = larger(widths.text, step_text(plan.words + GABZERIL_STEP_WORDS * i, text));
    }
    return widths;
}

/* No spaces stand at the end of a line. */
static void print_cell(size_t rule, const char *text)
{
    int last = rule + 1 == set.counts_length;
    printf("  %-*s%s", last ? 0 : 6, text, last ? "\n" : "");
}

/* The verdicts after so many steps. */
static void print_verdicts(size_t steps)
{
    for (size_t rule = 0; rule < set.counts_length; rule++) {
        int after = is_true(steps, rule), before = steps == 0 ? after : is_true(steps - 1, rule);
        const char *same = after ? "true" : "FALSE", *turned = after ? "true*" : "FALSE*";
        print_cell(rule, after == before ? same : turned);
    }
}

static void print_heading(char **paths, struct widths widths)
{
    for (size_t rule = 0; rule < set.counts_length; rule++) {
        printf("rule %zu: %s\n", rule + 1, paths[rule]);
    }
    printf("\n%-*s  %*s", widths.step, "step", widths.text, "rule");
    for (size_t rule = 0; rule < set.counts_length; rule++) {
        char number[24];
        snprintf(number, sizeof number, "%zu", rule + 1);
        print_cell(rule, number);
    }
}

/* The steps done, and the refused one if there is one. */
static void print_steps(struct widths widths)
{
    size_t lines = trial.steps + (trial.number != GABZERIL_ACCEPTED);
    printf("%-*s  %-*s", widths.step, "now", widths.text, "");
    print_verdicts(0);
    for (size_t step = 1; step <= lines; step++) {
        char text[STEP_BYTES];
        step_text(plan.words + GABZERIL_STEP_WORDS * (step - 1), text);
        printf("%-*zu  %-*s", widths.step, step, widths.text, text);
        if (step <= trial.steps) {
            print_verdicts(step);
        } else {
            printf("  refused\n");
        }
    }
}

/* What follows the table. */

/* The rules that a step turned false; returns how often that was. */
static size_t print_turns(char **paths)
{
    size_t turns = 0;
    for (size_t step = 1; step <= trial.steps; step++) {
        for (size_t rule = 0; rule < set.counts_length; rule++) {
            if (turns_false(step, rule)) {
                printf("step %zu turns rule %zu false: %s\n", step, rule + 1, paths[rule]);
                turns++;
            }
        }
    }
    return turns;
}

/* As each step finds an accepted table, a row that is not above the one before it can only be there twice. */
static const char *reason(uint32_t number)
{
    return number == GABZERIL_REFUSED_ORDER ? "the row to add is there already" : gabzeril_refusal_text(number);
}

static void print_refusal(const char *path)
{
    if (trial.number != GABZERIL_ACCEPTED) {
        unsigned number = trial.number;
        printf("stopped at step %zu, line %zu of %s: ", trial.place + 1, plan.lines[trial.place], path);
        printf("refused, number %u: %s\n", number, reason(number));
    }
}

static void print_end(char **paths)
{
    size_t found = 0;
    printf("steps done %zu of %zu\n", trial.steps, plan.steps);
    printf("rows %zu\n", trial.rows);
    for (size_t rule = 0; rule < set.counts_length; rule++) {
        if (!is_true(trial.steps, rule)) {
            printf("false at the end: rule %zu, %s\n", rule + 1, paths[rule]);
            found++;
        }
    }
    if (found == 0) {
        printf("false at the end: none\n");
    }
}

int main(int argc, char **argv)
{
    char **paths = argv + 1;
    char **pools = argc < 2 ? NULL : behind_dashes(paths);
    char **plans = pools == NULL ? NULL : behind_dashes(pools);
    if (plans == NULL || plans[0] == NULL || plans[1] != NULL) {
        fprintf(stderr, "usage: %s RULE... -- POOL... -- PLAN\n", argv[0]);
        return 2;
    }
    refused_status = 2;
    load_set(paths, &set);
    size_t used = load_pools(pools, (size_t)(plans - 1 - pools), pool);
    load_plan(plans[0], &plan);
    try_plan(used);
    struct widths widths = find_widths();
    print_heading(paths, widths);
    print_steps(widths);
    printf("\n");
    size_t turns = print_turns(paths);
    print_refusal(plans[0]);
    print_end(paths);
    if (fflush(stdout) != 0 || ferror(stdout)) {
        perror("standard output");
        return 2;
    }
    return trial.number != GABZERIL_ACCEPTED ? 2 : turns > 0;
}
