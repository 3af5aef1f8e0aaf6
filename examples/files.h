/* What the examples need: reading and writing whole files, and what to do with an answer. */
#ifndef FILES_H
#define FILES_H

#include "gabzeril.h"

/* The longest file of an accepted rule or table. */
enum { FILE_BYTES = GABZERIL_POOL_FILE_BYTES };

/* Rules end to end, and the number of entries of each. */
struct set {
    uint32_t rules[GABZERIL_SET_WORDS];
    size_t rules_length; /* words in use */
    uint32_t counts[GABZERIL_SET_LIMIT];
    size_t counts_length; /* the number of rules */
};

/* The status with which a program ends if a file cannot be read or something is refused: 1, unless the program
 * sets another. */
extern int refused_status;

/* The bytes of any file that has at most FILE_BYTES; returns how many. It ends the program if the file cannot be read or is
 * longer. */
size_t load_bytes(const char *path, uint8_t bytes[FILE_BYTES]);

/* The words of a rule file and of a pool file. Each ends the program if the file cannot be read. */
size_t load_rule(const char *path, uint32_t rule[GABZERIL_RULE_WORDS]);
size_t load_pool(const char *path, uint32_t table[GABZERIL_TABLE_WORDS]);

/* The words of so many pool files joined, in the order given. It ends the program if one cannot be read or
 * joined. */
size_t load_pools(char **paths, size_t count, uint32_t pool[GABZERIL_TABLE_WORDS]);

/* The arguments behind the first "--"; NULL if there is none. */
char **behind_dashes(char **arguments);

/* The rule files `paths[0]` and so on, up to "--" or NULL, as a set. It ends the program if one cannot be
 * read, if there are too many, or if the set is refused. 1 to 7 name the rule file, and the place is within it;
 * 20, no rules, names the set, as there is no file. */
void load_set(char **paths, struct set *set);

/* Write so many bytes, a rule as a rule file, and a table as a pool file, to `path`, or to standard output if it is NULL.
 * Each ends the program if that fails. */
void save_bytes(const char *path, const uint8_t *bytes, size_t length);
void save_rule(const char *path, const uint32_t *rule, size_t rule_length);
void save_pool(const char *path, const uint32_t *table, size_t table_length);

/* Puts the word of a decimal number without leading zeros into `word` and returns 1; returns 0 if the text is no such number.
 * With `is_value` it is -2147483648 to 2147483647, with a minus sign below zero, and -0 is none; else 0 to 4294967295. */
int read_number(const char *text, int is_value, uint32_t *word);

/* Prints a refusal; `subject` is what was refused. */
void print_refused(gabzeril_answer answer, const char *subject);

/* The value of an accepted answer. A refused one is printed and ends the program. */
size_t accepted(gabzeril_answer answer, const char *subject);

#endif
