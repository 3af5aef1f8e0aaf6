/* Gabzeril: a checker of Configuration Logic rules over a pool of switches.
 *
 * This header is the reference of the calls. docs/MANUAL.md has rows, rules, files and refusals.
 *
 * Rules and tables are runs of 32-bit words that the caller lends: a rule has four words an entry
 * (kind a b c), a table six words a row (device at up deep name value). A set is rules laid end to end, and
 * a word for each that counts its entries. A plan has seven words a step, a kind and the words of a row. A
 * template is a rule with blanks, and parameters are a word each. Columns are a table in the archive's order, as
 * many words.
 * Words are numbers from 0 up, but for the value of a row, the constant of a comparison and a parameter: there a
 * word from 2147483648 up stands for a number below zero, the word less 4294967296; see gabzeril_word and
 * gabzeril_value.
 * Lengths are in words for rules, templates, parameters, counts, tables, columns and plans, in bytes for files,
 * marks and verdicts. NULL with length 0 is an empty run. The library keeps no pointer, allocates nothing and has no
 * state: calls on different buffers may run side by side. Buffers of one call must not overlap.
 *
 * A refused call changes no byte of any buffer. An accepted call writes its answer at the start of its
 * output and leaves what lies past it. gabzeril_try is the exception: stopped at a step, it names the refusal and
 * keeps what the steps before gave; and the words of its table past the answer may be changed.
 *
 * Stack on the largest inputs of the tests, in KiB: gabzeril_verdict 36, gabzeril_marks 44, gabzeril_part 44,
 * gabzeril_set_verdicts 36, gabzeril_set_part 44, gabzeril_try 60, gabzeril_check_files 62, gabzeril_report 71,
 * every other call below 9. The tests run each in a thread of 128 KiB; that is no promise.
 */
#ifndef GABZERIL_H
#define GABZERIL_H

#include <stddef.h>
#include <stdint.h>

#ifdef __cplusplus
extern "C" {
#endif

/* The Makefile reads the version from this line. */
#define GABZERIL_VERSION "0.10.0"

/* Limits. */

#define GABZERIL_ENTRY_WORDS 4      /* of an entry */
#define GABZERIL_ROW_WORDS 6        /* of a row */
#define GABZERIL_STEP_WORDS 7       /* of a step: its kind, then a row */
#define GABZERIL_ENTRY_LIMIT 128    /* a rule has 1 to so many entries */
#define GABZERIL_ROW_LIMIT 1024     /* a table has 0 to so many rows */
#define GABZERIL_NESTING_LIMIT 6    /* so many quantifiers stand around one another at most */
#define GABZERIL_SET_LIMIT 32       /* a set has 1 to so many rules */
#define GABZERIL_PARAMETER_LIMIT 16 /* a template is filled with 0 to so many parameters */

#define GABZERIL_NAME_LIMIT 65535              /* device, at and name are 1 to this; a quantifier's name too, or GABZERIL_ANY_NAME */
#define GABZERIL_ANY_NAME 0                    /* a quantifier with this name takes rows of any name; no row has it */
#define GABZERIL_VALUE_LIMIT 2147483647        /* the largest value, and the largest constant */
#define GABZERIL_VALUE_LEAST (-2147483647 - 1) /* the least; every word stands for one from this to the largest */

/* Buffers that are never too short. A part and a folded table have at most the words of the device's table, columns
 * have as many as their table, which may be longer than an accepted one; marks have a byte for each row of the pool,
 * verdicts and counts of a set have at most GABZERIL_SET_LIMIT, verdicts of a trial as many for each step. */

#define GABZERIL_RULE_WORDS (GABZERIL_ENTRY_LIMIT * GABZERIL_ENTRY_WORDS) /* any rule */
#define GABZERIL_SET_WORDS (GABZERIL_SET_LIMIT * GABZERIL_RULE_WORDS)     /* the rules of any set */
#define GABZERIL_TABLE_WORDS (GABZERIL_ROW_LIMIT * GABZERIL_ROW_WORDS)    /* any table, joined ones too */
#define GABZERIL_RULE_FILE_BYTES 2315     /* the file of any rule: its first line, and 18 bytes an entry */
#define GABZERIL_POOL_FILE_BYTES 42013    /* the file of any table: its first line, and 41 bytes a row */
#define GABZERIL_PROGRAM_FILE_BYTES 65536 /* the longest file that gabzeril_report and the program take */
#define GABZERIL_REPORT_BYTES 64          /* any text of gabzeril_report */

/* The columns of a row and of an entry. deep is 0 at a root, else one more than the parent's. */
enum gabzeril_row_column {
    GABZERIL_DEVICE,
    GABZERIL_AT,
    GABZERIL_UP,
    GABZERIL_DEEP,
    GABZERIL_NAME,
    GABZERIL_VALUE
};
enum gabzeril_entry_column { GABZERIL_KIND, GABZERIL_A, GABZERIL_B, GABZERIL_C };

/* The kinds of entry. */
enum gabzeril_kind {
    GABZERIL_NOT = 1,
    GABZERIL_AND = 2,
    GABZERIL_OR = 3,
    GABZERIL_IMPLIES = 4,
    GABZERIL_EVERY = 5,
    GABZERIL_SOME = 6,
    GABZERIL_EQUAL = 7,
    GABZERIL_LESS = 8,
    GABZERIL_AT_MOST = 9
};

/* b of a quantifier: over roots, or over the rows whose parent is the row of that variable. Its c is the name of these
 * rows, or GABZERIL_ANY_NAME. */
#define GABZERIL_ROOTS 0
#define GABZERIL_UNDER(variable) (1 + (variable))

/* b of a comparison: what c is. GABZERIL_PARAMETER stands in templates only, and c is a parameter's number then. */
#define GABZERIL_VARIABLE 0
#define GABZERIL_CONSTANT 1
#define GABZERIL_PARAMETER 2

/* The word that stands for a value or constant, 4294967295 for -1, and the value or constant that a word stands for.
 * Comparisons follow the order of the values and not that of the words. Both functions belong to this header and not
 * to the library. Where C asks for a constant expression, as in a static table, a cast gives the word: (uint32_t)-24. */
static inline uint32_t gabzeril_word(int32_t value)
{
    return (uint32_t)value;
}

static inline int32_t gabzeril_value(uint32_t word)
{
    return word <= GABZERIL_VALUE_LIMIT ? (int32_t)word : -1 - (int32_t)(UINT32_MAX - word);
}

/* What a device sends. */
enum gabzeril_mode { GABZERIL_ALL = 1, GABZERIL_BRANCH = 2, GABZERIL_FULL = 3 };

/* The kinds of step. */
enum gabzeril_step { GABZERIL_STEP_SET = 1, GABZERIL_STEP_ADD = 2, GABZERIL_STEP_REMOVE = 3 };

/* The numbers of the refusals. 15 and 27 are not used. A table is tested for 8, 9, 10, 11, 26 and 12, in
 * this order; these are called "8 to 12 with 26" below. */
enum gabzeril_refusal {
    GABZERIL_ACCEPTED = 0,
    GABZERIL_REFUSED_RULE_LENGTH = 1,
    GABZERIL_REFUSED_KIND = 2,
    GABZERIL_REFUSED_WORD = 3,
    GABZERIL_REFUSED_CHILD = 4,
    GABZERIL_REFUSED_NAMING = 5,
    GABZERIL_REFUSED_NESTING = 6,
    GABZERIL_REFUSED_VARIABLE = 7,
    GABZERIL_REFUSED_TABLE_LENGTH = 8,
    GABZERIL_REFUSED_RANGE = 9,
    GABZERIL_REFUSED_ORDER = 10,
    GABZERIL_REFUSED_PARENT = 11,
    GABZERIL_REFUSED_SIBLING = 12,
    GABZERIL_REFUSED_MODE = 13,
    GABZERIL_REFUSED_DEVICE = 14,
    GABZERIL_REFUSED_JOIN = 16,
    GABZERIL_REFUSED_SHORT_OUTPUT = 17,
    GABZERIL_REFUSED_FIRST_LINE = 18,
    GABZERIL_REFUSED_LINE = 19,
    GABZERIL_REFUSED_COUNTS = 20,
    GABZERIL_REFUSED_BLANK = 21,
    GABZERIL_REFUSED_PARAMETERS = 22,
    GABZERIL_REFUSED_STEP = 23,
    GABZERIL_REFUSED_ABSENT = 24,
    GABZERIL_REFUSED_REMOVAL = 25,
    GABZERIL_REFUSED_DEPTH = 26,
    GABZERIL_REFUSED_ROWS = 28
};

/* A refusal in words, for a message or a log. It belongs to this header and not to the library. */
static inline const char *gabzeril_refusal_text(uint32_t number)
{
    static const char *const texts[] = {
        /* 0 */ "accepted",
        /* 1 */ "the rule is empty, too long or not whole entries",
        /* 2 */ "unknown kind",
        /* 3 */ "a word that must be 0 is not, b of a comparison is too high, or a name is out of range",
        /* 4 */ "a child is not a later entry of the rule",
        /* 5 */ "an entry other than 0 is not the child of exactly one place",
        /* 6 */ "too many quantifiers around one another",
        /* 7 */ "a variable that is not bound there",
        /* 8 */ "the table is too long or not whole rows",
        /* 9 */ "device, at or name out of range",
        /* 10 */ "the row is not above the row before it",
        /* 11 */ "no earlier row of the device is the parent",
        /* 12 */ "an earlier sibling has the same name and value",
        /* 13 */ "unknown mode",
        /* 14 */ "a row of another device",
        /* 15 */ "not used",
        /* 16 */ "the second table's first device is not above the first table's last",
        /* 17 */ "the output is shorter than the answer",
        /* 18 */ "the file's first line is wrong or not ended",
        /* 19 */ "a line of the file is not ended, or has a number too few or too many, out of range or written wrongly",
        /* 20 */ "the counts are none, too many or do not add up to the entries",
        /* 21 */ "a parameter number has no parameter",
        /* 22 */ "there are too many parameters, or one is never used",
        /* 23 */ "unknown kind of step, or the last step lacks words",
        /* 24 */ "the row to set or remove is not there",
        /* 25 */ "the row to remove has rows under it",
        /* 26 */ "deep is not 0 at a root, or not one more than the parent's",
        /* 27 */ "not used",
        /* 28 */ "the words are not a whole number of rows",
    };
    return number < sizeof texts / sizeof texts[0] ? texts[number] : "unknown number";
}

/* What a call answers. */
typedef struct gabzeril_answer {
    uint32_t number; /* 0: accepted; else the number of the refusal */
    size_t place;    /* where the fault is: entries and rows from 0, lines from 1; 0 for the rest */
    size_t value;    /* what an accepted call answers; 0 in a refusal */
} gabzeril_answer;

/* What gabzeril_try answers. */
typedef struct gabzeril_trial {
    uint32_t number; /* 0: every step is done; else the number of the refusal */
    size_t place;    /* the refused step, from 0; of a refusal before the first step its own place; else 0 */
    size_t steps;    /* how many steps are done */
    size_t rows;     /* rows of the working table; 0 if refused before the first step */
} gabzeril_trial;

/* A run of words within a table. */
typedef struct gabzeril_span {
    size_t start;  /* words before it */
    size_t length; /* its words */
} gabzeril_span;

/* Refusals 1 to 7. Value: the number of entries. */
gabzeril_answer gabzeril_check_rule(const uint32_t *rule, size_t rule_length);

/* Templates. A template is a rule in which a comparison may have GABZERIL_PARAMETER as its b: a blank. Its c is the
 * number of a parameter, from 0; several blanks may have the same. A quantifier or connective with b = 2 is no
 * blank, and names can't be left open. A parameter may be any word, as a constant may.
 *
 * gabzeril_fill puts the parameters into the template: each blank gets GABZERIL_CONSTANT as its b and the
 * parameter as its c, and all else is the template's. What is written is an ordinary rule of as many entries. Its
 * verdict on any pool is that of the template with each parameter read in its place. With no parameters, a
 * template without blanks is filled to itself.
 *
 * Refusals 1 to 7 of the template, where 3 allows blanks, with any c; 21 at the first blank whose number has no
 * parameter; 22, place 0, if there are more than GABZERIL_PARAMETER_LIMIT parameters or one whose number no blank
 * has, so that only numbers from 0 on without a gap, below the limit, can be filled; 17 if `rule` is shorter than
 * the template; it must be another buffer. Value: the number of words written, as many as the template has.
 *
 * Every other call that checks a rule refuses a blank with 3, gabzeril_write_rule too; gabzeril_read_rule does not
 * check, and reads a template's file. */
gabzeril_answer gabzeril_fill(const uint32_t *template_words, /* `template` is a keyword of C++ */
                              size_t template_length,
                              const uint32_t *parameters, size_t parameters_length,
                              uint32_t *rule, size_t rule_length);

/* Refusals 8 to 12 with 26. Value: the number of rows. */
gabzeril_answer gabzeril_check_table(const uint32_t *table, size_t table_length);

/* Folding, for a switch whose firmware lists the same block twice, before its part is made. Equal siblings are two
 * rows under the same parent, or two roots, with the same name and value; elsewhere they are 12. Here the later of the
 * two goes, and its children hang under the earlier one. Children of both may then be equal siblings: this repeats
 * until there are none. In which order does not matter.
 *
 * The rows left are written to `folded`, in their order and with all their words but up as they were. They are a table
 * that gabzeril_check_table accepts. One without equal siblings comes through word for word, so folding twice is
 * folding once. The verdict of a rule on the folded table is what the rule means on all rows as they were listed, if
 * rows with the same names and values from the root down to them are taken for one.
 *
 * Refusals: 8, 9, 10, 11 and 26 of the table, in this order, and never 12; 14 at the first row whose device is not the
 * first row's; 17, place 0, if `folded` is shorter than the folded table, which may be shorter than the given one. 8
 * counts the rows given. A table without rows is accepted. The output must be another buffer. Value: the number of
 * rows left; the folded table has GABZERIL_ROW_WORDS times as many words.
 *
 * Fold the table of each device first, then make parts and join: parts and dump are compared after the folding. Equal
 * roots of different devices are never folded and stay 12 in gabzeril_join, and so does an equal sibling that a step
 * of gabzeril_try would leave. */
gabzeril_answer gabzeril_fold(const uint32_t *table, size_t table_length,
                              uint32_t *folded, size_t folded_length);

/* Puts the table `second` behind the table that the first `used` words of `pool` hold. Refusals: 8 to 12
 * with 26 of the first table, the same of the second, 16, 8 and 12 of the joined one, 17 if `pool` is too
 * short; `used` beyond `pool_length` is 8 at place 0. Value: the words of the joined table, `used` of the
 * next call.
 *
 * The place is a row of the table at fault: of the first, of the second, or of the joined one, which counts
 * from the first table's first row. Where the first table is accepted, as after a joining, 9, 10, 11 and 26
 * are the second's, and gabzeril_check_table on `second` alone tells whether 8 and 12 are its own too. 12 of
 * the joined table is at a root of the second. Equal siblings of one device can be folded first, by gabzeril_fold;
 * equal roots of two devices can't. */
gabzeril_answer gabzeril_join(uint32_t *pool, size_t pool_length, size_t used,
                              const uint32_t *second, size_t second_length);

/* Where the rows of one device stand in the table; start and length are 0 if it has none or the table has
 * a fault. This call alone gives no number. */
gabzeril_span gabzeril_device_rows(const uint32_t *table, size_t table_length, uint32_t device);

/* The archive's order. A table's words stand column after column, in the order of a row: the device of every row,
 * then the at of every row, then up, deep, name and value. The first word of a column stands as it is; each further
 * one is replaced by its difference from the row above, wrapping at 32 bits. Neighbouring words are then alike, so
 * that archives compress better.
 *
 * gabzeril_to_columns writes the words of `table` in that order, and gabzeril_from_columns gives back the table. Each
 * undoes the other, whatever the words are: neither checks a table, and there is no limit to the number of rows.
 * Without rows nothing is written. Refusals, both at place 0: 28 if the words are not a whole number of rows, then
 * 17. Value: the number of words written, as many as are given. The output must be another buffer. */
gabzeril_answer gabzeril_to_columns(const uint32_t *table, size_t table_length,
                                    uint32_t *columns, size_t columns_length);
gabzeril_answer gabzeril_from_columns(const uint32_t *columns, size_t columns_length,
                                      uint32_t *table, size_t table_length);

/* Reading a file gives words only; every other call but the two of the archive's order checks its tables. Refusals 18,
 * 19, 17. Value: the number of words. With a buffer of GABZERIL_RULE_WORDS or GABZERIL_TABLE_WORDS, 17 is a file with
 * more lines than a rule or a table may have.
 *
 * In a file a value is GABZERIL_VALUE_LEAST to GABZERIL_VALUE_LIMIT, with a minus sign below zero, and so is c where
 * the kind is 7, 8 or 9 and b is 1. All other numbers are 0 to 4294967295 and have no sign. */
gabzeril_answer gabzeril_read_rule(const uint8_t *file, size_t file_length,
                                   uint32_t *rule, size_t rule_length);
gabzeril_answer gabzeril_read_pool(const uint8_t *file, size_t file_length,
                                   uint32_t *table, size_t table_length);

/* Writing a file, with the same signs. Refusals: those of the rule or table, then 17. Value: the number of
 * bytes. */
gabzeril_answer gabzeril_write_rule(const uint32_t *rule, size_t rule_length,
                                    uint8_t *file, size_t file_length);
gabzeril_answer gabzeril_write_pool(const uint32_t *table, size_t table_length,
                                    uint8_t *file, size_t file_length);

/* The verdict of the rule on the pool. Refusals 1 to 7, 8 to 12 with 26. Value: 1 true, 0 false. */
gabzeril_answer gabzeril_verdict(const uint32_t *rule, size_t rule_length,
                                 const uint32_t *pool, size_t pool_length);

/* The same, and a byte for each row of the pool: 1 if it is marked, else 0. Refusals 1 to 7, 8 to 12 with 26,
 * 17.
 *
 * "Look here and nowhere else": with other values in rows that are not marked, in any number of them, the verdict
 * stays as it is, true or false, as long as the table is accepted and all its other words are as before. The
 * marks may then be others. */
gabzeril_answer gabzeril_marks(const uint32_t *rule, size_t rule_length,
                               const uint32_t *pool, size_t pool_length,
                               uint8_t *marks, size_t marks_length);

/* The rows that one device sends: all (mode 1), its branch part (2), its full part (3). Refusals 1 to 7, 8 to
 * 12 with 26, 13, 14, 17. Value: the number of rows sent; the part has GABZERIL_ROW_WORDS times as many
 * words. A table with blocks that are listed twice is 12: give what gabzeril_fold makes of it. */
gabzeril_answer gabzeril_part(const uint32_t *rule, size_t rule_length,
                              const uint32_t *table, size_t table_length, uint32_t mode,
                              uint32_t *part, size_t part_length);

/* Sets. `rules` has the words of 1 to GABZERIL_SET_LIMIT rules, one rule right behind the other; `counts` has a
 * word for each rule: its number of entries. Children are numbered within their own rule, from 0.
 *
 * 20, place 0, if there are no counts, more than GABZERIL_SET_LIMIT, or counts that do not add up to the whole
 * entries of `rules`; a word left over is 20 too. 1 to 7 follow, all of them of one rule before those of the
 * next. Their place counts from the first entry of the set; that of 1, a count of 0 or above
 * GABZERIL_ENTRY_LIMIT, is where the rule begins. The rule that a place of 1 to 7 lies in, and the entry there:
 *
 *     size_t rule = 0, entry = answer.place;
 *     while (entry > 0 && entry >= counts[rule])
 *         entry -= counts[rule++];
 *
 * Marks are made for one rule at a time: gabzeril_marks with the rule's own words, rules + 4 * e and the length
 * 4 * counts[i], where e is the sum of the counts before it. */

/* Refusals 20, 1 to 7. Value: the number of rules. */
gabzeril_answer gabzeril_check_set(const uint32_t *rules, size_t rules_length,
                                   const uint32_t *counts, size_t counts_length);

/* The verdict of each rule on the pool, as a byte in the order of the rules: 1 true, 0 false. Refusals 20, 1
 * to 7, 8 to 12 with 26, 17 if there are fewer bytes than rules. Value: the number of rules. */
gabzeril_answer gabzeril_set_verdicts(const uint32_t *rules, size_t rules_length,
                                      const uint32_t *counts, size_t counts_length,
                                      const uint32_t *pool, size_t pool_length,
                                      uint8_t *verdicts, size_t verdicts_length);

/* The rows that one device sends for the whole set, with the modes of gabzeril_part. Mode 2: the rows that some
 * rule reaches, if all their ancestors are reached too, each by any rule. Mode 3: the rows that are not spare
 * for the set and have no ancestor that is; spare for the set is a row that is spare for each rule. That may be
 * more rows than the rules' own parts have together. Refusals 20, 1 to 7, 8 to 12 with 26, 13, 14, 17; the set
 * is checked in mode 1 too. Value: the number of rows sent. */
gabzeril_answer gabzeril_set_part(const uint32_t *rules, size_t rules_length,
                                  const uint32_t *counts, size_t counts_length,
                                  const uint32_t *table, size_t table_length, uint32_t mode,
                                  uint32_t *part, size_t part_length);

/* Trying a change. `steps` is the plan: GABZERIL_STEP_WORDS words for each step, its kind and then the words of a
 * row in the order of the columns. There is no limit to the number of steps.
 *
 *     GABZERIL_STEP_SET      the row of that device and at gets that value; up, deep and name are not looked at
 *     GABZERIL_STEP_ADD      the row is put in its place by device and at; all its words count
 *     GABZERIL_STEP_REMOVE   the row of that device and at is taken out; the other words are not looked at
 *
 * The pool is copied to `table`, the working table, which the steps change; `pool` itself stays as it is. After
 * each step the verdict of each rule on the working table is written behind those of the step before, as
 * gabzeril_set_verdicts would give it: byte i + k * counts_length is rule i after step k, both from 0. There are
 * none for the given pool. A plan without steps is accepted: `table` is then the pool, and there are no verdicts.
 * Try a plan on all rows of the devices, not on parts: a row that was spare may matter after a step.
 *
 * Before the first step: 20 and 1 to 7, with the places of gabzeril_check_set; 8 to 12 with 26 of the pool, at
 * its row; 17, place 0, if `table` is shorter than the pool. Then no buffer is changed, and steps and rows are 0.
 *
 * Of a step, in this order; the place is always the step's number from 0:
 *
 *     23               its kind is unknown, or fewer than its seven words are there, whatever its kind needs
 *     24               the row to set or remove is not there
 *     25               the row to remove has rows under it
 *     8 to 12 with 26  of the table that the step would leave; adding a row that is there already is 10
 *     17               `table` is too short for that table, or `verdicts` for the bytes up to this step
 *
 * The first refused step ends the trial, and nothing of it is done. Whether or not there is one, the first
 * rows * GABZERIL_ROW_WORDS words of `table` are the table after the steps that are done, and the first
 * steps * counts_length bytes of `verdicts` are their verdicts; the words of `table` past these may be anything,
 * the bytes of `verdicts` past these are as they came. To have the table after an earlier step, try fewer steps.
 *
 * Number and place of a refusal before the first step can be those of a refused step 0. With a pool that has
 * words, it was before the first step if steps and rows are 0; with one that has none, if the number is 20 or 1
 * to 7. */
gabzeril_trial gabzeril_try(const uint32_t *rules, size_t rules_length,
                            const uint32_t *counts, size_t counts_length,
                            const uint32_t *pool, size_t pool_length,
                            const uint32_t *steps, size_t steps_length,
                            uint32_t *table, size_t table_length,
                            uint8_t *verdicts, size_t verdicts_length);

/* The verdict of a rule file on a pool file: 0 false, 1 true, or 100 plus the refusal. Refusals in the
 * order: rule file (18, 19), rule (1 to 7), pool file (18, 19), pool (8 to 12 with 26); a file with too
 * many lines is 1 or 8 after its 19. */
uint32_t gabzeril_check_files(const uint8_t *rule_file, size_t rule_file_length,
                              const uint8_t *pool_file, size_t pool_file_length);

/* The text that the program prints for a rule file and a pool file. A file over GABZERIL_PROGRAM_FILE_BYTES is
 * 1 or 8, place 0, before its 18. The number of bytes written is returned: at most GABZERIL_REPORT_BYTES, 0 if
 * `text_length` is shorter than the text; nothing is written then. */
size_t gabzeril_report(const uint8_t *rule_file, size_t rule_file_length,
                       const uint8_t *pool_file, size_t pool_file_length,
                       uint8_t *text, size_t text_length);

#ifdef __cplusplus
}
#endif

#endif
