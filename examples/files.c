#include "files.h"

#include <stdio.h>
#include <stdlib.h>
#include <string.h>

int refused_status = 1;

static uint8_t file[FILE_BYTES];

size_t load_bytes(const char *path, uint8_t bytes[FILE_BYTES])
{
    FILE *stream = fopen(path, "rb");
    if (stream == NULL) {
        perror(path);
        exit(refused_status);
    }
    size_t length = fread(bytes, 1, FILE_BYTES, stream);
    int whole = !ferror(stream) && fgetc(stream) == EOF;
    fclose(stream);
    if (!whole) {
        fprintf(stderr, "%s: not read, or longer than %d bytes\n", path, FILE_BYTES);
        exit(refused_status);
    }
    return length;
}

size_t load_rule(const char *path, uint32_t rule[GABZERIL_RULE_WORDS])
{
    size_t length = load_bytes(path, file);
    return accepted(gabzeril_read_rule(file, length, rule, GABZERIL_RULE_WORDS), path);
}

size_t load_pool(const char *path, uint32_t table[GABZERIL_TABLE_WORDS])
{
    size_t length = load_bytes(path, file);
    return accepted(gabzeril_read_pool(file, length, table, GABZERIL_TABLE_WORDS), path);
}

size_t load_pools(char **paths, size_t count, uint32_t pool[GABZERIL_TABLE_WORDS])
{
    static uint32_t part[GABZERIL_TABLE_WORDS];
    size_t used = 0;
    for (size_t i = 0; i < count; i++) {
        size_t length = load_pool(paths[i], part);
        used = accepted(gabzeril_join(pool, GABZERIL_TABLE_WORDS, used, part, length), paths[i]);
    }
    return used;
}

/* Puts a rule file behind the rules that the set has. */
static void add_rule(struct set *set, const char *path)
{
    if (set->counts_length == GABZERIL_SET_LIMIT) {
        fprintf(stderr, "%s: a set has at most %d rules\n", path, GABZERIL_SET_LIMIT);
        exit(refused_status);
    }
    size_t length = load_rule(path, set->rules + set->rules_length);
    set->rules_length += length;
    set->counts[set->counts_length++] = (uint32_t)(length / GABZERIL_ENTRY_WORDS);
}

/* Refusals 1 to 7 are of one rule: the place within the set becomes a rule and a place within that. The
 * counts are right, as they are made here: 20 is a set without rules. */
static void check_set(const struct set *set, char **paths)
{
    gabzeril_answer answer =
        gabzeril_check_set(set->rules, set->rules_length, set->counts, set->counts_length);
    size_t rule = 0;
    if (answer.number < GABZERIL_REFUSED_RULE_LENGTH || answer.number > GABZERIL_REFUSED_VARIABLE) {
        accepted(answer, "set");
        return;
    }
    while (answer.place > 0 && answer.place >= set->counts[rule]) {
        answer.place -= set->counts[rule++];
    }
    accepted(answer, paths[rule]);
}

static int is_dashes(const char *argument)
{
    return strcmp(argument, "--") == 0;
}

char **behind_dashes(char **arguments)
{
    while (*arguments != NULL && !is_dashes(*arguments)) {
        arguments++;
    }
    return *arguments == NULL ? NULL : arguments + 1;
}

void load_set(char **paths, struct set *set)
{
    set->rules_length = 0;
    set->counts_length = 0;
    for (size_t i = 0; paths[i] != NULL && !is_dashes(paths[i]); i++) {
        add_rule(set, paths[i]);
    }
    check_set(set, paths);
}

static const char *name_of(const char *path)
{
    return path == NULL ? "standard output" : path;
}

void save_bytes(const char *path, const uint8_t *bytes, size_t length)
{
    FILE *stream = path == NULL ? stdout : fopen(path, "wb");
    if (stream == NULL || fwrite(bytes, 1, length, stream) != length || fclose(stream) != 0) {
        perror(name_of(path));
        exit(refused_status);
    }
}

/* What is written, so many bytes of `file`. */
static void save_file(const char *path, gabzeril_answer written)
{
    save_bytes(path, file, accepted(written, name_of(path)));
}

void save_rule(const char *path, const uint32_t *rule, size_t rule_length)
{
    save_file(path, gabzeril_write_rule(rule, rule_length, file, sizeof file));
}

void save_pool(const char *path, const uint32_t *table, size_t table_length)
{
    save_file(path, gabzeril_write_pool(table, table_length, file, sizeof file));
}

/* Ten digits are below 2 to the power of 34, so nothing wraps. */
int read_number(const char *text, int is_value, uint32_t *word)
{
    int minus = is_value && text[0] == '-';
    int64_t sum = 0, least = is_value ? GABZERIL_VALUE_LEAST : 0, most = is_value ? GABZERIL_VALUE_LIMIT : UINT32_MAX;
    const char *digits = text + minus;
    size_t length = strspn(digits, "0123456789");
    if (length == 0 || length > 10 || digits[length] != '\0' || (digits[0] == '0' && (minus || length > 1))) {
        return 0;
    }
    for (size_t i = 0; i < length; i++) {
        sum = 10 * sum + (digits[i] - '0');
    }
    sum = minus ? -sum : sum;
    if (sum < least || sum > most) {
        return 0;
    }
    *word = is_value ? gabzeril_word((int32_t)sum) : (uint32_t)sum;
    return 1;
}

void print_refused(gabzeril_answer answer, const char *subject)
{
    const char *text = gabzeril_refusal_text(answer.number);
    unsigned number = answer.number;
    fprintf(stderr, "%s: refused, number %u, place %zu: %s\n", subject, number, answer.place, text);
}

size_t accepted(gabzeril_answer answer, const char *subject)
{
    if (answer.number != GABZERIL_ACCEPTED) {
        print_refused(answer, subject);
        exit(refused_status);
    }
    return answer.value;
}
