/* What damaged files, values, damaged sets, damaged plans, damaged templates, runs of columns and tables to fold share. */
#ifndef HOSTILE_H
#define HOSTILE_H

#include "gabzeril.h"

#include <stdio.h>

enum {
    ROW_WORDS = GABZERIL_ROW_WORDS,
    FILLED = 0xa5 /* every byte of an output before the call */
};

/* Random numbers. */

uint64_t draw(void);
uint32_t below(size_t limit);
int chance(uint32_t percent);

/* Memory between two pages without access. */

struct area {
    uint8_t *start;
    size_t size;
};

struct area new_area(size_t bytes);

/* So many bytes of the area, at its end or at its start. An empty run is at times NULL. */
void *run_of(struct area area, size_t length);

/* A read-only copy in the area. */
const void *lend(struct area area, const void *bytes, size_t length);

/* An output with every byte filled. */
void *output(struct area area, size_t bytes);

int all_filled(const uint8_t *bytes, size_t length);

/* Rules. At most four quantifiers, so that no case takes long. */

struct rule {
    uint32_t entries, quantifiers;
    uint32_t words[GABZERIL_RULE_WORDS];
};

void set_entry(struct rule *rule, uint32_t at, uint32_t kind, uint32_t a, uint32_t b, uint32_t c);

/* Adds a formula that stands under `bound` quantifiers. Connectives nest at most `depth` deep. */
void add_formula(struct rule *rule, uint32_t depth, uint32_t bound);

/* A quantifier over roots around a comparison: for tables with many rows. */
void quick_rule(struct rule *rule);

/* Quantifiers around one another, as many as may be or one more. */
void deep_rule(struct rule *rule);

/* A value or constant. Few of them, from 0 on or on both sides of it; at times the least or the largest, or near. */
uint32_t some_value(uint32_t spread);

/* Tables. */

struct table {
    uint32_t rows;
    uint32_t words[(GABZERIL_ROW_LIMIT + 8) * ROW_WORDS];
};

/* Rows of rising devices and places; few names and values, so that all checks are met. A row is in so many
 * cases of a hundred the first of another device. */
void add_rows(struct table *table, uint32_t rows, uint32_t next_device);

/* About as many rows as a table may have: distinct roots, children of one root, or each under the last. */
void add_many_rows(struct table *table);

/* Begins a line about the running case, with the numbers that run it again. */
void print_case(FILE *stream);

/* Prints what is wrong with the running case unless it is good. */
int agrees(int good, const char *what);

/* Values: hostile_values.c. */

void make_areas_of_values(void);

/* A text in the place of a number: mostly one that no column takes, or some do not. */
const char *odd_spelling(void);

/* Whether reading the file gives what it must, and what is accepted comes back when it is written. */
int reading_agrees(const uint8_t *file, size_t length, int is_rule);

/* Tries every odd spelling in every column, and words of all sizes; how many are not as they should be. */
unsigned long count_wrong_values(void);

void print_seen_by_values(void);

/* Compares two values by all calls; 1 if all is as it should be. */
int run_order(void);

/* Sets: hostile_sets.c. */

void make_areas_of_sets(void);

/* A word that is often just in or out of a range. */
uint32_t odd_number(void);

/* The set and the table of a case, as read-only copies. */
struct lent {
    const uint32_t *rules, *counts, *pool;
    size_t rules_length, counts_length, pool_length;
};

/* Makes a set and a table; in so many cases of a hundred they are damaged. */
struct lent lend_set(uint32_t damaged);

/* Runs the set of a case; 1 if all is as it should be. */
int run_set(void);

void print_seen_by_sets(void);

/* How many answers of each call on sets no case gave. */
unsigned long count_unseen_by_sets(void);

/* Plans: hostile_trial.c. */

void make_areas_of_plans(void);

/* Runs the plan of a case; 1 if all is as it should be. */
int run_plan(void);

void print_seen_by_plans(void);

/* How many answers of the call on plans no case gave. */
unsigned long count_unseen_by_plans(void);

/* Templates: hostile_templates.c. */

void make_areas_of_templates(void);

/* Runs the template of a case; 1 if all is as it should be. */
int run_template(void);

void print_seen_by_templates(void);

/* How many answers of the call on templates, and verdicts of filled rules, no case gave. */
unsigned long count_unseen_by_templates(void);

/* Runs for the archive: hostile_archive.c. */

void make_areas_of_archives(void);

/* Runs the calls of the archive's order on the words of a case; 1 if all is as it should be. */
int run_archive(void);

void print_seen_by_archives(void);

/* How many answers of the two calls, and kinds of runs, no case gave. */
unsigned long count_unseen_by_archives(void);

/* Tables to fold: hostile_fold.c. */

void make_areas_of_folds(void);

/* Folds the table of a case; 1 if all is as it should be. */
int run_fold(void);

void print_seen_by_folds(void);

/* How many answers of the call, kinds of tables, and verdicts on folded ones, no case gave. */
unsigned long count_unseen_by_folds(void);

#endif
