#include "plan_file.h"

#include "files.h"

#include <stdio.h>
#include <stdlib.h>
#include <string.h>

/* What a line may be: a word, and numbers for these columns of the row. They stand in the order of the kinds. */
struct form {
    const char *word;
    uint32_t kind;
    size_t count;
    int columns[GABZERIL_ROW_WORDS];
    const char *text;
};

static const struct form forms[] = {
    {"set", GABZERIL_STEP_SET, 3, {GABZERIL_DEVICE, GABZERIL_AT, GABZERIL_VALUE}, "set DEVICE AT VALUE"},
    {"add",
     GABZERIL_STEP_ADD,
     6,
     {GABZERIL_DEVICE, GABZERIL_AT, GABZERIL_UP, GABZERIL_DEEP, GABZERIL_NAME, GABZERIL_VALUE},
     "add DEVICE AT UP DEEP NAME VALUE"},
    {"remove", GABZERIL_STEP_REMOVE, 2, {GABZERIL_DEVICE, GABZERIL_AT}, "remove DEVICE AT"},
};

enum { FORMS = sizeof forms / sizeof forms[0] };

static const char *const column_names[GABZERIL_ROW_WORDS] = {"DEVICE", "AT", "UP", "DEEP", "NAME", "VALUE"};

static const char no_number[] = " is not a number up to 4294967295, in digits without leading zeros";
static const char no_value[] =
    " is not a number from -2147483648 to 2147483647, in digits without leading zeros; 0 has no sign";

/* The words of a line. No good line has more words, and no good word more bytes: what is beyond is counted or
 * dropped, and the line is wrong. */
enum { LINE_WORDS = 1 + GABZERIL_ROW_WORDS, WORD_BYTES = 12 };

struct line {
    size_t number; /* from 1 */
    size_t count;  /* of all words */
    char words[LINE_WORDS][WORD_BYTES + 1];
};

/* Room for one more item behind `count` items of that size: it is doubled where the count is a power of two. */
static void *grown(void *items, size_t count, size_t size)
{
    if ((count & (count - 1)) != 0) {
        return items;
    }
    size_t room = count == 0 ? 1 : 2 * count;
    void *more = room > SIZE_MAX / 2 / size ? NULL : realloc(items, room * size);
    if (more == NULL) {
        fprintf(stderr, "no memory for the plan\n");
        exit(refused_status);
    }
    return more;
}

/* Adds a byte to the last word. A byte 0 would end the word early: it becomes one that no good word has. */
static void add_byte(struct line *line, int byte)
{
    if (line->count <= LINE_WORDS) {
        char *word = line->words[line->count - 1];
        size_t length = strlen(word);
        if (length < WORD_BYTES) {
            word[length] = byte == 0 ? '?' : (char)byte;
        }
    }
}

/* Reads the next line, with or without an end; 0 if there is none. */
static int read_line(FILE *stream, struct line *line)
{
    int inside = 0, comment = 0, byte = getc(stream), some = byte != EOF;
    line->number++;
    line->count = 0;
    memset(line->words, 0, sizeof line->words);
    for (; byte != EOF && byte != '\n'; byte = getc(stream)) {
        comment |= byte == '#';
        if (comment || byte == ' ' || byte == '\t' || byte == '\r') {
            inside = 0;
            continue;
        }
        line->count += !inside;
        inside = 1;
        add_byte(line, byte);
    }
    return some;
}

static _Noreturn void refuse_line(const char *path, const struct line *line, const char *what, const char *of)
{
    fprintf(stderr, "%s, line %zu: %s%s\n", path, line->number, what, of);
    exit(refused_status);
}

static const struct form *form_of(const char *path, const struct line *line)
{
    for (size_t i = 0; i < FORMS; i++) {
        if (strcmp(line->words[0], forms[i].word) == 0) {
            return &forms[i];
        }
    }
    refuse_line(path, line, "a step begins with set, add or remove", "");
}

/* The words that the line does not give are 0; the library does not look at them. */
static void read_step(const char *path, const struct line *line, uint32_t step[GABZERIL_STEP_WORDS])
{
    const struct form *form = form_of(path, line);
    memset(step, 0, GABZERIL_STEP_WORDS * sizeof *step);
    step[0] = form->kind;
    if (line->count != 1 + form->count) {
        refuse_line(path, line, line->count <= form->count ? "too few numbers for " : "too many numbers for ",
                    form->text);
    }
    for (size_t i = 0; i < form->count; i++) {
        int column = form->columns[i];
        if (!read_number(line->words[1 + i], column == GABZERIL_VALUE, &step[1 + column])) {
            refuse_line(path, line, column_names[column], column == GABZERIL_VALUE ? no_value : no_number);
        }
    }
}

static void add_step(const char *path, const struct line *line, struct plan *plan)
{
    plan->words = grown(plan->words, plan->steps, GABZERIL_STEP_WORDS * sizeof *plan->words);
    plan->lines = grown(plan->lines, plan->steps, sizeof *plan->lines);
    read_step(path, line, plan->words + GABZERIL_STEP_WORDS * plan->steps);
    plan->lines[plan->steps++] = line->number;
}

void load_plan(const char *path, struct plan *plan)
{
    struct line line = {0};
    FILE *stream = fopen(path, "rb");
    *plan = (struct plan){NULL, NULL, 0};
    if (stream == NULL) {
        perror(path);
        exit(refused_status);
    }
    while (read_line(stream, &line)) {
        if (line.count > 0) {
            add_step(path, &line, plan);
        }
    }
    if (ferror(stream)) {
        perror(path);
        exit(refused_status);
    }
    fclose(stream);
}

int step_text(const uint32_t *step, char text[STEP_BYTES])
{
    const struct form *form = &forms[step[0] - GABZERIL_STEP_SET];
    int length = snprintf(text, STEP_BYTES, "%s", form->word);
    for (size_t i = 0; i < form->count; i++) {
        int column = form->columns[i];
        uint32_t word = step[1 + column];
        long long number = column == GABZERIL_VALUE ? (long long)gabzeril_value(word) : (long long)word;
        length += snprintf(text + length, STEP_BYTES - (size_t)length, " %lld", number);
    }
    return length;
}
