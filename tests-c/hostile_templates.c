/* Damaged templates through gabzeril_fill.
 *
 * Which entries are blanks, 21, 22, 17 and the filled rule are told by hand. 1 to 7 are asked of the rule in which each
 * blank is a comparison with a constant, by gabzeril_check_rule, which knows no templates. The verdict of the filled rule
 * must be that of the template, by an evaluator of the harness that looks up each parameter where its number stands. The
 * calls on rules must refuse the template itself, with 3 at the first blank if nothing before that is wrong.
 */
#include "hostile.h"

#include <string.h>

enum {
    TEMPLATE_WORDS = GABZERIL_RULE_WORDS + 4 * GABZERIL_ENTRY_WORDS, /* of the longest template made here */
    MOST_PARAMETERS = 300,                                           /* so many at most are made here */
    MOST_ROOM = 2 * TEMPLATE_WORDS
};

static struct area template_area, parameters_area, table_area, rule_area, file_area;

void make_areas_of_templates(void)
{
    template_area = new_area(TEMPLATE_WORDS * sizeof(uint32_t));
    parameters_area = new_area(MOST_PARAMETERS * sizeof(uint32_t));
    table_area = new_area(sizeof((struct table *)NULL)->words);
    rule_area = new_area(MOST_ROOM * sizeof(uint32_t));
    file_area = new_area(GABZERIL_RULE_FILE_BYTES);
}

/* The template, its parameters and the table of a case. The pointers are to read-only copies. */

static struct {
    uint32_t words[TEMPLATE_WORDS];
    size_t length;
    uint32_t parameters[MOST_PARAMETERS];
    size_t count;
} made;

static struct table table;

static const uint32_t *template_words, *parameters, *pool;

static int is_comparison(const uint32_t *entry)
{
    return entry[GABZERIL_KIND] >= GABZERIL_EQUAL && entry[GABZERIL_KIND] <= GABZERIL_AT_MOST;
}

static int is_blank(const uint32_t *entry)
{
    return is_comparison(entry) && entry[GABZERIL_B] == GABZERIL_PARAMETER;
}

/* Making. */

/* Some root is one of many things: about as many entries as may be, every second of them a comparison. */
static void make_long(struct rule *rule)
{
    uint32_t comparisons = chance(50) ? GABZERIL_ENTRY_LIMIT / 2 : 14 + below(8);
    set_entry(rule, 0, GABZERIL_SOME, 1, 0, 1);
    rule->entries = 2 * comparisons;
    for (uint32_t at = 1; at + 1 < rule->entries; at += 2) {
        set_entry(rule, at, GABZERIL_OR, at + 1, at + 2, 0);
        set_entry(rule, at + 1, GABZERIL_EQUAL + below(3), 0, GABZERIL_CONSTANT, some_value(5));
    }
    set_entry(rule, rule->entries - 1, GABZERIL_EQUAL, 0, GABZERIL_CONSTANT, some_value(5));
}

/* A connective whose right child is entry 2: its b is that of a blank. */
static void make_right_child_2(struct rule *rule)
{
    set_entry(rule, 0, GABZERIL_EVERY + below(2), 1, 0, 1);
    set_entry(rule, 1, GABZERIL_AND + below(3), 3, 2, 0);
    set_entry(rule, 2, GABZERIL_EQUAL + below(3), 0, GABZERIL_CONSTANT, some_value(5));
    rule->entries = 3;
    rule->quantifiers = 1;
    add_formula(rule, below(4), 1);
}

static void make_rule(void)
{
    static struct rule rule;
    uint32_t which = below(100);
    rule.entries = rule.quantifiers = table.rows = 0;
    if (which < 15) {
        make_long(&rule);
    } else if (which < 20) {
        deep_rule(&rule);
    } else if (which < 35) {
        make_right_child_2(&rule);
    } else {
        add_formula(&rule, 1 + below(5), 0);
    }
    made.length = 4 * (size_t)rule.entries;
    memcpy(made.words, rule.words, made.length * sizeof *made.words);
    add_rows(&table, below(which < 20 ? 4 : 9), 25);
}

/* Makes blanks of some comparisons or of all. Their numbers go round from 0 on, so that all are used; there are no more
 * of them than blanks. */
static void make_blanks(void)
{
    uint32_t percent = chance(60) ? 100 : below(100), limit = 1 + below(chance(40) ? 20 : 4), blanks = 0;
    for (size_t at = 0; at < made.length; at += 4) {
        uint32_t *entry = made.words + at;
        if (is_comparison(entry) && (entry[GABZERIL_B] == GABZERIL_PARAMETER || chance(percent))) {
            entry[GABZERIL_B] = GABZERIL_PARAMETER;
            entry[GABZERIL_C] = blanks++ % limit;
        }
    }
    made.count = blanks < limit ? blanks : limit;
    for (size_t i = 0; i < made.count; i++) {
        made.parameters[i] = chance(70) ? some_value(5) : chance(50) ? odd_number() : (uint32_t)draw();
    }
}

/* Damage. */

static void change_parameters(void)
{
    size_t count = made.count;
    switch (below(5)) {
    case 0:
        made.count = 0;
        break;
    case 1:
        made.count -= made.count > 0;
        break;
    case 2:
        made.count += 1 + below(3);
        break;
    case 3:
        made.count = 256 + below(20);
        break;
    default:
        made.count = below(40);
    }
    for (; count < made.count; count++) {
        made.parameters[count] = odd_number();
    }
}

/* A number that may have no parameter, or leave one unused; another b. */
static void change_comparison(uint32_t *entry)
{
    uint32_t next = entry[GABZERIL_C] + 1;
    if (is_comparison(entry) && chance(60)) {
        entry[GABZERIL_C] = chance(50) ? next : odd_number();
    } else if (is_comparison(entry)) {
        entry[GABZERIL_B] = below(5);
    }
}

static void damage_template(void)
{
    uint32_t *entry = made.words + 4 * below(made.length / 4);
    switch (below(8)) {
    case 0:
        made.length -= 1 + below(4);
        break;
    case 1:
        while (made.length < TEMPLATE_WORDS && chance(70)) {
            made.words[made.length++] = odd_number();
        }
        break;
    case 2:
        made.length = chance(20) ? 0 : made.length;
        break;
    case 3:
        entry[below(4)] = odd_number();
        break;
    case 4:
    case 5:
        change_comparison(entry);
        break;
    default:
        change_parameters();
    }
}

/* What the answers must be. */

/* Whether the header lists the number for gabzeril_fill. */
static int is_listed(uint32_t number)
{
    return number <= 7 || number == GABZERIL_REFUSED_SHORT_OUTPUT || number == GABZERIL_REFUSED_BLANK ||
           number == GABZERIL_REFUSED_PARAMETERS;
}

static unsigned long seen[GABZERIL_REFUSED_DEPTH + 1], seen_verdicts[2], refused_by_rules;

static gabzeril_answer refused(uint32_t number, size_t place)
{
    return (gabzeril_answer){number, place, 0};
}

static int same_answer(gabzeril_answer a, gabzeril_answer b)
{
    return a.number == b.number && a.place == b.place && a.value == b.value;
}

/* The template with each blank as a comparison with the number, a constant. */
static gabzeril_answer check_without_blanks(void)
{
    static uint32_t words[TEMPLATE_WORDS];
    memcpy(words, made.words, made.length * sizeof *words);
    for (size_t at = 0; at + 4 <= made.length; at += 4) {
        if (is_blank(words + at)) {
            words[at + GABZERIL_B] = GABZERIL_CONSTANT;
        }
    }
    return gabzeril_check_rule(words, made.length);
}

/* The first entry from this one on that is a blank; the number of entries if none is. */
static size_t next_blank(size_t entry)
{
    while (4 * entry + 4 <= made.length && !is_blank(made.words + 4 * entry)) {
        entry++;
    }
    return entry;
}

static int is_used(size_t parameter)
{
    for (size_t entry = next_blank(0); entry < made.length / 4; entry = next_blank(entry + 1)) {
        if (made.words[4 * entry + GABZERIL_C] == parameter) {
            return 1;
        }
    }
    return 0;
}

static gabzeril_answer expected_fill(size_t room)
{
    gabzeril_answer check = check_without_blanks();
    if (check.number != 0) {
        return check;
    }
    for (size_t entry = next_blank(0); entry < made.length / 4; entry = next_blank(entry + 1)) {
        if (made.words[4 * entry + GABZERIL_C] >= made.count) {
            return refused(GABZERIL_REFUSED_BLANK, entry);
        }
    }
    if (made.count > GABZERIL_PARAMETER_LIMIT) {
        return refused(GABZERIL_REFUSED_PARAMETERS, 0);
    }
    for (size_t i = 0; i < made.count; i++) {
        if (!is_used(i)) {
            return refused(GABZERIL_REFUSED_PARAMETERS, 0);
        }
    }
    return room < made.length ? refused(GABZERIL_REFUSED_SHORT_OUTPUT, 0) : (gabzeril_answer){0, 0, made.length};
}

/* The rule differs from the template in its blanks alone. */
static int is_filled(const uint32_t *rule)
{
    for (size_t at = 0; at < made.length; at += 4) {
        uint32_t entry[4];
        memcpy(entry, made.words + at, sizeof entry);
        if (is_blank(entry)) {
            entry[GABZERIL_B] = GABZERIL_CONSTANT;
            entry[GABZERIL_C] = made.parameters[entry[GABZERIL_C]];
        }
        if (memcmp(rule + at, entry, sizeof entry) != 0) {
            return 0;
        }
    }
    return 1;
}

static gabzeril_answer fill(uint32_t *rule, size_t room)
{
    return gabzeril_fill(template_words, made.length, parameters, made.count, rule, room);
}

/* With about as much room as it takes, or with any. Where nothing is past the rule, `rule` may be NULL, to which not even 0
 * may be added. */
static int fill_agrees(void)
{
    size_t room = chance(60) ? made.length + 1 - below(made.length > 0 ? 3 : 2) : below(MOST_ROOM);
    uint32_t *rule = output(rule_area, room * sizeof *rule);
    gabzeril_answer expected = expected_fill(room), found = fill(rule, room);
    size_t words = found.value;
    if (!same_answer(expected, found) || words > room) {
        return 0;
    }
    seen[found.number]++;
    return (words == room || all_filled((const uint8_t *)(rule + words), (room - words) * sizeof *rule)) &&
           (found.number != 0 || is_filled(rule));
}

/* The meaning of a template. */

static int64_t value_of(size_t row)
{
    return gabzeril_value(table.words[ROW_WORDS * row + GABZERIL_VALUE]);
}

/* `rows` has the row of each variable. */
static int compares(const uint32_t *entry, const size_t *rows)
{
    int64_t left = value_of(rows[entry[GABZERIL_A]]), right;
    if (entry[GABZERIL_B] == GABZERIL_VARIABLE) {
        right = value_of(rows[entry[GABZERIL_C]]);
    } else {
        int is_constant = entry[GABZERIL_B] == GABZERIL_CONSTANT;
        right = gabzeril_value(is_constant ? entry[GABZERIL_C] : parameters[entry[GABZERIL_C]]);
    }
    return entry[GABZERIL_KIND] == GABZERIL_EQUAL  ? left == right
           : entry[GABZERIL_KIND] == GABZERIL_LESS ? left < right
                                                   : left <= right;
}

static int ranges_over(const uint32_t *quantifier, size_t place, const size_t *rows)
{
    const uint32_t *row = table.words + ROW_WORDS * place;
    if (quantifier[GABZERIL_C] != GABZERIL_ANY_NAME && quantifier[GABZERIL_C] != row[GABZERIL_NAME]) {
        return 0;
    }
    if (quantifier[GABZERIL_B] == GABZERIL_ROOTS) {
        return row[GABZERIL_UP] == 0;
    }
    const uint32_t *parent = table.words + ROW_WORDS * rows[quantifier[GABZERIL_B] - 1];
    return row[GABZERIL_DEVICE] == parent[GABZERIL_DEVICE] && row[GABZERIL_UP] == parent[GABZERIL_AT];
}

/* The verdict of an entry with so many variables bound. The template and the table are accepted. */
static int holds(uint32_t place, size_t bound, size_t *rows)
{
    const uint32_t *entry = template_words + 4 * place;
    uint32_t kind = entry[GABZERIL_KIND], a = entry[GABZERIL_A], b = entry[GABZERIL_B];
    switch (kind) {
    case GABZERIL_NOT:
        return !holds(a, bound, rows);
    case GABZERIL_AND:
        return holds(a, bound, rows) && holds(b, bound, rows);
    case GABZERIL_OR:
        return holds(a, bound, rows) || holds(b, bound, rows);
    case GABZERIL_IMPLIES:
        return !holds(a, bound, rows) || holds(b, bound, rows);
    case GABZERIL_EVERY:
    case GABZERIL_SOME:
        for (rows[bound] = 0; rows[bound] < table.rows; rows[bound]++) {
            if (ranges_over(entry, rows[bound], rows) && holds(a, bound + 1, rows) != (kind == GABZERIL_EVERY)) {
                return kind == GABZERIL_SOME;
            }
        }
        return kind == GABZERIL_EVERY;
    default:
        return compares(entry, rows);
    }
}

/* Of an accepted request: the filled rule is accepted, and has the template's verdict if the table is accepted. */
static int meaning_agrees(void)
{
    size_t rows[GABZERIL_NESTING_LIMIT], length = ROW_WORDS * (size_t)table.rows;
    uint32_t *rule = output(rule_area, made.length * sizeof *rule);
    if (fill(rule, made.length).number != 0) {
        return 1;
    }
    gabzeril_answer check = gabzeril_check_rule(rule, made.length);
    gabzeril_answer verdict = gabzeril_verdict(rule, made.length, pool, length);
    if (check.number != 0 || check.value != made.length / 4) {
        return 0;
    }
    if (gabzeril_check_table(pool, length).number != 0) {
        return verdict.number != 0;
    }
    seen_verdicts[verdict.value == 1]++;
    return verdict.number == 0 && verdict.value == (size_t)holds(0, 0, rows);
}

/* What the calls on rules must say of the template; number 0 if it is accepted as a rule. */
static gabzeril_answer expected_check(void)
{
    gabzeril_answer check = check_without_blanks();
    size_t blank = next_blank(0);
    int comes_before = check.number == GABZERIL_REFUSED_RULE_LENGTH || check.number == GABZERIL_REFUSED_KIND ||
                       (check.number == GABZERIL_REFUSED_WORD && check.place < blank);
    return blank < made.length / 4 && !comes_before ? refused(GABZERIL_REFUSED_WORD, blank) : check;
}

static int rules_agree(void)
{
    gabzeril_answer expected = expected_check();
    gabzeril_answer check = gabzeril_check_rule(template_words, made.length);
    uint8_t *file = output(file_area, GABZERIL_RULE_FILE_BYTES);
    gabzeril_answer written = gabzeril_write_rule(template_words, made.length, file, GABZERIL_RULE_FILE_BYTES);
    gabzeril_answer verdict = gabzeril_verdict(template_words, made.length, NULL, 0);
    if (expected.number == 0) {
        return same_answer(expected, check) && written.number == 0 && verdict.number == 0;
    }
    refused_by_rules += expected.number == GABZERIL_REFUSED_WORD;
    return same_answer(expected, check) && same_answer(expected, written) && same_answer(expected, verdict) &&
           all_filled(file, GABZERIL_RULE_FILE_BYTES);
}

/* One case. */

int run_template(void)
{
    make_rule();
    make_blanks();
    for (uint32_t times = chance(30) ? 0 : 1 + below(2); times > 0 && made.length >= 4; times--) {
        damage_template();
    }
    template_words = lend(template_area, made.words, made.length * sizeof *template_words);
    parameters = lend(parameters_area, made.parameters, made.count * sizeof *parameters);
    pool = lend(table_area, table.words, ROW_WORDS * sizeof *pool * table.rows);
    return agrees(fill_agrees(), "filling of a template") && agrees(meaning_agrees(), "meaning of a template") &&
           agrees(rules_agree(), "template as a rule");
}

void print_seen_by_templates(void)
{
    printf("fill:");
    for (uint32_t number = 0; number <= GABZERIL_REFUSED_DEPTH; number++) {
        if (seen[number] > 0) {
            printf(" %u:%lu", (unsigned)number, seen[number]);
        }
    }
    printf("\nverdicts of filled rules: 0:%lu 1:%lu, templates refused as rules: %lu\n", seen_verdicts[0],
           seen_verdicts[1], refused_by_rules);
}

unsigned long count_unseen_by_templates(void)
{
    unsigned long unseen = 0;
    for (uint32_t number = 0; number <= GABZERIL_REFUSED_DEPTH; number++) {
        if (is_listed(number) && seen[number] == 0) {
            printf("no case gave %u by fill\n", (unsigned)number);
            unseen++;
        }
    }
    for (unsigned verdict = 0; verdict <= 1; verdict++) {
        if (seen_verdicts[verdict] == 0) {
            printf("no filled rule had the verdict %u\n", verdict);
            unseen++;
        }
    }
    return unseen;
}
