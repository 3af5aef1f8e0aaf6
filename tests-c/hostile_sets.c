/* Damaged sets of rules through gabzeril_check_set, gabzeril_set_verdicts and gabzeril_set_part.
 *
 * Each answer is compared with what the calls on one rule say of the set's rules, one after the other. Of a
 * part in mode 3 these calls tell only what it must have and may have. What it has is told by the part of one
 * rule, the conjunction of the set's rules; a set may be too long for that. The parts of all devices are joined
 * too: each rule must have its verdict on the whole table, and mark no row that is not marked there.
 */
#include "hostile.h"

#include <string.h>

enum {
    SET_LIMIT = GABZERIL_SET_LIMIT,
    SET_WORDS = (SET_LIMIT + 2) * (GABZERIL_RULE_WORDS + 8), /* of the longest set made here */
    MOST_COUNTS = 2 * SET_LIMIT,                             /* so many at most are made here */
    TABLE_WORDS = GABZERIL_TABLE_WORDS
};

static struct area rules_area, counts_area, table_area, verdicts_area, part_area, joined_area;

void make_areas_of_sets(void)
{
    rules_area = new_area(SET_WORDS * sizeof(uint32_t));
    counts_area = new_area(MOST_COUNTS * sizeof(uint32_t));
    table_area = new_area(sizeof((struct table *)NULL)->words);
    verdicts_area = new_area(2 * SET_LIMIT);
    part_area = new_area(2 * TABLE_WORDS * sizeof(uint32_t)); /* also as long as a table that is too long */
    joined_area = new_area(TABLE_WORDS * sizeof(uint32_t));
}

/* The set and the table of a case. The pointers are to read-only copies. */

static struct {
    uint32_t words[SET_WORDS];
    size_t length;
    uint32_t counts[MOST_COUNTS];
    size_t counts_length;
} made;

static struct table table;
static size_t table_length;

static const uint32_t *rules, *counts, *pool;

/* Making. */

static void add_rule(const uint32_t *words, uint32_t entries)
{
    memcpy(made.words + made.length, words, 4 * sizeof *words * entries);
    made.length += 4 * (size_t)entries;
    made.counts[made.counts_length++] = entries;
}

/* As many entries as a rule may have, or one more or less: nots around a quick rule. */
static void add_long_rule(void)
{
    static uint32_t words[4 * (GABZERIL_ENTRY_LIMIT + 1)];
    uint32_t entries = GABZERIL_ENTRY_LIMIT - 1 + below(3), at = 0;
    for (; at + 2 < entries; at++) {
        memcpy(words + 4 * at, (uint32_t[4]){GABZERIL_NOT, at + 1, 0, 0}, 4 * sizeof *words);
    }
    memcpy(words + 4 * at, (uint32_t[4]){GABZERIL_SOME, at + 1, 0, 1}, 4 * sizeof *words);
    memcpy(words + 4 * at + 4, (uint32_t[4]){GABZERIL_EQUAL, 0, 1, some_value(5)}, 4 * sizeof *words);
    add_rule(words, entries);
}

/* The longer the set or the table, the quicker the rules. */
static void make_set(void)
{
    static struct rule rule;
    uint32_t which = below(100);
    uint32_t count = which < 4 ? SET_LIMIT - 1 + below(3) : 1 + below(4);
    int long_rules = chance(2);
    made.length = made.counts_length = table.rows = 0;
    for (uint32_t i = 0; i < count; i++) {
        rule.entries = rule.quantifiers = 0;
        if (long_rules) {
            add_long_rule();
            continue;
        }
        if (which < 5) {
            quick_rule(&rule);
        } else if (which < 8) {
            deep_rule(&rule);
        } else {
            add_formula(&rule, 1 + below(4), 0);
        }
        add_rule(rule.words, rule.entries);
    }
    if (which == 4 && chance(40)) {
        add_many_rows(&table);
    } else {
        add_rows(&table, below(which < 8 ? 4 : 11), chance(60) ? 0 : 25);
    }
    table_length = ROW_WORDS * (size_t)table.rows;
}

/* Damage. */

uint32_t odd_number(void)
{
    static const uint32_t numbers[] = {0, 1, 2, 3, 4, 5, 6, 7, 8, 9, 10, 127, 128, 129, 65535, 65536, 1u << 30,
                                       (1u << 30) + 1, (1u << 31) - 1, 1u << 31, 3u << 30, UINT32_MAX};
    return numbers[below(sizeof numbers / sizeof numbers[0])];
}

/* The first entry of the rule and its number of entries; none of the counts is damaged yet. */
static uint32_t some_rule(uint32_t *entries)
{
    uint32_t rule = below(made.counts_length), start = 0;
    for (uint32_t i = 0; i < rule; i++) {
        start += made.counts[i];
    }
    *entries = made.counts[rule];
    return start;
}

static void damage_rules(void)
{
    uint32_t entries, start = some_rule(&entries);
    uint32_t *entry = made.words + 4 * (start + below(entries));
    switch (below(6)) {
    case 0:
        do {
            made.words[made.length++] = odd_number();
        } while (chance(60) && made.length < SET_WORDS);
        break;
    case 1:
        made.length -= 1 + below(4);
        break;
    case 2:
        made.length = 0;
        break;
    case 3:
        entry[GABZERIL_A] += start; /* a child counted from the first entry of the set */
        break;
    default:
        entry[below(4)] = odd_number();
    }
}

static void insert_count(uint32_t count)
{
    size_t at = below(made.counts_length + 1);
    memmove(made.counts + at + 1, made.counts + at, (made.counts_length - at) * sizeof *made.counts);
    made.counts[at] = count;
    made.counts_length++;
}

static void random_counts(void)
{
    made.counts_length = below(MOST_COUNTS);
    for (size_t i = 0; i < made.counts_length; i++) {
        made.counts[i] = odd_number();
    }
}

static void damage_counts(void)
{
    uint32_t *count = made.counts + below(made.counts_length);
    uint32_t *other = made.counts + below(made.counts_length), change = 1 + below(3);
    switch (below(11)) {
    case 0: /* the sum stays, or is 2 to the power of 32 more */
    case 1:
        *count -= change;
        *other += change;
        break;
    case 2:
        *count += 1u << 31; /* the same if it is another count */
        *other += 1u << 31;
        break;
    case 3:
        *count += change << 30; /* the words, in 32 bits, stay */
        break;
    case 4:
        *count = odd_number();
        break;
    case 5:
        made.counts_length = 0;
        break;
    case 6:
        made.counts_length--;
        break;
    case 7:
        insert_count(odd_number());
        break;
    case 8:
        insert_count(0);
        break;
    case 9: /* two rules as one */
        if (made.counts_length > 1) {
            uint32_t last = made.counts[--made.counts_length];
            made.counts[made.counts_length - 1] += last;
        }
        break;
    default:
        random_counts();
    }
}

static void damage_table(void)
{
    if (chance(10) || table_length == 0) {
        table.words[table_length++] = odd_number();
    } else if (chance(60)) {
        table.words[below(table_length)] = chance(50) ? odd_number() : below(12);
    } else {
        size_t from = ROW_WORDS * below(table.rows), to = ROW_WORDS * below(table.rows);
        memmove(table.words + to, table.words + from, ROW_WORDS * sizeof *table.words);
    }
}

static void damage_set(void)
{
    uint32_t which = below(10);
    if (which < 3 || which == 8) {
        damage_rules();
    }
    if (which >= 2 && which < 5) {
        damage_counts();
    }
    if (which >= 5 && which < 9 && chance(60)) {
        damage_table();
    }
}

/* What the answers must be. */

enum call { CHECK_SET, SET_VERDICTS, SET_PART, CALLS };

static const char *const call_names[CALLS] = {"check_set", "set_verdicts", "set_part"};

/* Whether the header lists the number for the call. */
static int is_listed(enum call call, uint32_t number)
{
    int of_set = number <= 7 || number == GABZERIL_REFUSED_COUNTS;
    int of_table = (number >= 8 && number <= 12) || number == GABZERIL_REFUSED_DEPTH;
    int of_part = number == GABZERIL_REFUSED_MODE || number == GABZERIL_REFUSED_DEVICE;
    int of_output = number == GABZERIL_REFUSED_SHORT_OUTPUT;
    return of_set || (call != CHECK_SET && (of_table || of_output)) || (call == SET_PART && of_part);
}

static unsigned long seen[CALLS][GABZERIL_REFUSED_DEPTH + 1];

static gabzeril_answer accepted(size_t value)
{
    return (gabzeril_answer){GABZERIL_ACCEPTED, 0, value};
}

static gabzeril_answer refused(uint32_t number, size_t place)
{
    return (gabzeril_answer){number, place, 0};
}

static int same_answer(enum call call, gabzeril_answer expected, gabzeril_answer found)
{
    int same = is_listed(call, found.number) && found.number == expected.number &&
               found.place == expected.place && found.value == expected.value;
    if (same) {
        seen[call][found.number]++;
    }
    return same;
}

/* The words of a rule of an accepted set. */
static const uint32_t *rule_words(size_t rule)
{
    const uint32_t *words = rules;
    for (size_t i = 0; i < rule; i++) {
        words += 4 * counts[i];
    }
    return words;
}

static gabzeril_answer expected_check(void)
{
    uint64_t entries = 0, start = 0;
    if (made.counts_length < 1 || made.counts_length > SET_LIMIT) {
        return refused(GABZERIL_REFUSED_COUNTS, 0);
    }
    for (size_t i = 0; i < made.counts_length; i++) {
        entries += counts[i];
    }
    if (4 * entries != made.length) {
        return refused(GABZERIL_REFUSED_COUNTS, 0);
    }
    for (size_t i = 0; i < made.counts_length; i++) {
        const uint32_t *words = made.length == 0 ? NULL : rules + 4 * start;
        gabzeril_answer check = gabzeril_check_rule(words, 4 * (size_t)counts[i]);
        if (check.number != 0) {
            return refused(check.number, (size_t)start + check.place);
        }
        start += counts[i];
    }
    return accepted(made.counts_length);
}

static gabzeril_answer expected_verdicts(size_t room)
{
    gabzeril_answer set = expected_check(), check = gabzeril_check_table(pool, table_length);
    if (set.number != 0 || check.number != 0) {
        return set.number != 0 ? set : refused(check.number, check.place);
    }
    return room < set.value ? refused(GABZERIL_REFUSED_SHORT_OUTPUT, 0) : set;
}

/* But for 17. How many rows an accepted call sends is not told here: it is given. */
static gabzeril_answer expected_part(uint32_t mode, size_t rows)
{
    gabzeril_answer before = expected_verdicts(SIZE_MAX);
    if (before.number != 0) {
        return before;
    }
    if (mode < GABZERIL_ALL || mode > GABZERIL_FULL) {
        return refused(GABZERIL_REFUSED_MODE, 0);
    }
    for (size_t row = 0; row < table_length / ROW_WORDS; row++) {
        if (pool[ROW_WORDS * row + GABZERIL_DEVICE] != pool[GABZERIL_DEVICE]) {
            return refused(GABZERIL_REFUSED_DEVICE, row);
        }
    }
    return accepted(rows);
}

/* gabzeril_set_verdicts with as much room as there may be at most. */
static gabzeril_answer verdicts_on(const uint32_t *words, size_t length, uint8_t verdicts[SET_LIMIT])
{
    return gabzeril_set_verdicts(rules, made.length, counts, made.counts_length, words, length, verdicts,
                                 SET_LIMIT);
}

static int check_agrees(void)
{
    gabzeril_answer found = gabzeril_check_set(rules, made.length, counts, made.counts_length);
    return same_answer(CHECK_SET, expected_check(), found);
}

static int verdicts_agree(void)
{
    size_t room = chance(50) ? below(2 * SET_LIMIT) : made.counts_length - (made.counts_length > 0 && chance(30));
    uint8_t *verdicts = output(verdicts_area, room);
    gabzeril_answer found = gabzeril_set_verdicts(rules, made.length, counts, made.counts_length, pool,
                                                  table_length, verdicts, room);
    if (!same_answer(SET_VERDICTS, expected_verdicts(room), found) ||
        (found.value < room && !all_filled(verdicts + found.value, room - found.value))) {
        return 0;
    }
    for (size_t i = 0; i < found.value; i++) {
        gabzeril_answer one = gabzeril_verdict(rule_words(i), 4 * counts[i], pool, table_length);
        if (one.number != 0 || verdicts[i] != one.value) {
            return 0;
        }
    }
    return 1;
}

/* Parts. */

/* Which rows of the table are in the part; 0 if one is not, or they stand in another order. */
static int rows_sent(const uint32_t *words, size_t length, const uint32_t *part, size_t rows, uint8_t *sent)
{
    size_t found = 0;
    for (size_t row = 0; row < length / ROW_WORDS; row++) {
        sent[row] = found < rows && memcmp(words + ROW_WORDS * row, part + ROW_WORDS * found,
                                           ROW_WORDS * sizeof *part) == 0;
        found += sent[row];
    }
    return found == rows;
}

/* The rows that some rule's own part has. */
static int rows_of_rules(uint32_t mode, uint8_t some[GABZERIL_ROW_LIMIT])
{
    static uint32_t part[TABLE_WORDS];
    uint8_t sent[GABZERIL_ROW_LIMIT];
    memset(some, 0, GABZERIL_ROW_LIMIT);
    for (size_t i = 0; i < made.counts_length; i++) {
        const uint32_t *rule = rule_words(i);
        gabzeril_answer one = gabzeril_part(rule, 4 * counts[i], pool, table_length, mode, part, TABLE_WORDS);
        if (one.number != 0 || !rows_sent(pool, table_length, part, one.value, sent)) {
            return 0;
        }
        for (size_t row = 0; row < table_length / ROW_WORDS; row++) {
            some[row] |= sent[row];
        }
    }
    return 1;
}

/* Adds a rule of the set behind the entries that there are. Its children are counted from its first entry, so
 * they are shifted; its variables stay, as no quantifier is put around it. */
static void add_shifted(struct rule *conjunction, size_t rule)
{
    const uint32_t *entry = rule_words(rule);
    uint32_t start = conjunction->entries;
    for (uint32_t at = start; at < start + counts[rule]; at++, entry += 4) {
        uint32_t kind = entry[GABZERIL_KIND], a = entry[GABZERIL_A], b = entry[GABZERIL_B];
        a += kind <= GABZERIL_SOME ? start : 0;
        b += kind >= GABZERIL_AND && kind <= GABZERIL_IMPLIES ? start : 0;
        set_entry(conjunction, at, kind, a, b, entry[GABZERIL_C]);
    }
    conjunction->entries += counts[rule];
}

/* The rules of an accepted set as one: ands in front, each of a rule and the next and, the last of two rules.
 * 0 if that is more entries than a rule may have. */
static int make_conjunction(struct rule *conjunction)
{
    uint32_t ands = (uint32_t)made.counts_length - 1;
    if (made.length / 4 + ands > GABZERIL_ENTRY_LIMIT) {
        return 0;
    }
    conjunction->entries = ands;
    for (uint32_t i = 0; i <= ands; i++) {
        uint32_t start = conjunction->entries;
        add_shifted(conjunction, i);
        if (i < ands) {
            set_entry(conjunction, i, GABZERIL_AND, start, i + 1 < ands ? i + 1 : conjunction->entries, 0);
        }
    }
    return 1;
}

static unsigned long conjunctions[GABZERIL_FULL + 1]; /* of two rules or more that were asked, by mode */

/* Whether a device's part for the set is that for the conjunction, to the word. The quantifiers are the same,
 * and so are their bodies: a row is reached if some rule reaches it, and spare if it is spare for each rule. */
static int agrees_with_conjunction(const uint32_t *words, size_t length, uint32_t mode, const uint32_t *part,
                                   size_t rows)
{
    static struct rule conjunction;
    static uint32_t own[TABLE_WORDS];
    if (!make_conjunction(&conjunction)) {
        return 1;
    }
    conjunctions[mode] += made.counts_length > 1;
    gabzeril_answer one =
        gabzeril_part(conjunction.words, 4 * (size_t)conjunction.entries, words, length, mode, own, TABLE_WORDS);
    return one.number == 0 && one.value == rows &&
           (rows == 0 || memcmp(part, own, ROW_WORDS * rows * sizeof *part) == 0);
}

/* Modes 1 and 2 have the rows of the rules' own parts. Mode 3 has at least these, and none that mode 2 has not;
 * the conjunction tells which, if it is not too long. */
static int part_is_right(uint32_t mode, const uint32_t *part, size_t rows)
{
    uint8_t sent[GABZERIL_ROW_LIMIT], own[GABZERIL_ROW_LIMIT], branch[GABZERIL_ROW_LIMIT];
    if (!rows_sent(pool, table_length, part, rows, sent) || !rows_of_rules(mode, own) ||
        !rows_of_rules(GABZERIL_BRANCH, branch) || gabzeril_check_table(part, ROW_WORDS * rows).number != 0) {
        return 0;
    }
    int exact = mode != GABZERIL_FULL;
    for (size_t row = 0; row < table_length / ROW_WORDS; row++) {
        if (sent[row] < own[row] || (exact && sent[row] != own[row]) || (!exact && sent[row] > branch[row])) {
            return 0;
        }
    }
    return agrees_with_conjunction(pool, table_length, mode, part, rows);
}

static gabzeril_answer make_part(uint32_t mode, uint32_t *part, size_t room)
{
    return gabzeril_set_part(rules, made.length, counts, made.counts_length, pool, table_length, mode, part, room);
}

/* With so much room: as it must be, and nothing written past the part. Where nothing is past it, `part` may be
 * NULL, to which not even 0 may be added. */
static int part_fits(uint32_t mode, gabzeril_answer expected, uint32_t *part, size_t room)
{
    gabzeril_answer found = make_part(mode, part, room);
    size_t words = ROW_WORDS * found.value;
    return same_answer(SET_PART, expected, found) && words <= room &&
           (words == room || all_filled((const uint8_t *)(part + words), (room - words) * sizeof *part)) &&
           (found.number != 0 || part_is_right(mode, part, found.value));
}

/* With room for any part, then with as many words as it takes, one more or one less. */
static int part_agrees(void)
{
    uint32_t mode = chance(90) ? 1 + below(3) : odd_number();
    size_t room = table_length + below(10);
    size_t rows = make_part(mode, output(part_area, room * sizeof(uint32_t)), room).value;
    gabzeril_answer expected = expected_part(mode, rows);
    if (!part_fits(mode, expected, output(part_area, room * sizeof(uint32_t)), room)) {
        return 0;
    }
    size_t words = ROW_WORDS * expected.value;
    room = words + 1 - below(words > 0 ? 3 : 2);
    if (expected.number == 0 && room < words) {
        expected = refused(GABZERIL_REFUSED_SHORT_OUTPUT, 0);
    }
    return part_fits(mode, expected, output(part_area, room * sizeof(uint32_t)), room);
}

/* The parts of all devices, joined; SIZE_MAX if something is refused or a part is wrong. */
static size_t join_parts(uint32_t *joined)
{
    size_t used = 0, start = 0;
    while (start < table_length) {
        gabzeril_span rows = gabzeril_device_rows(pool, table_length, pool[start + GABZERIL_DEVICE]);
        uint32_t *part = run_of(part_area, rows.length * sizeof *part);
        uint32_t mode = 1 + below(3);
        gabzeril_answer sent = gabzeril_set_part(rules, made.length, counts, made.counts_length, pool + rows.start,
                                                 rows.length, mode, part, rows.length);
        gabzeril_answer join = gabzeril_join(joined, TABLE_WORDS, used, part, ROW_WORDS * sent.value);
        if (sent.number != 0 || join.number != 0 || rows.start != start || rows.length == 0 ||
            !agrees_with_conjunction(pool + rows.start, rows.length, mode, part, sent.value)) {
            return SIZE_MAX;
        }
        used = join.value;
        start += rows.length;
    }
    return used;
}

/* Whether each row that a rule marks on the joined parts is marked on the table. */
static int marks_agree(size_t rule, const uint32_t *joined, size_t used, const uint8_t *sent)
{
    uint8_t marks[GABZERIL_ROW_LIMIT], marks_of_parts[GABZERIL_ROW_LIMIT];
    const uint32_t *words = rule_words(rule);
    size_t length = 4 * counts[rule], row_of_parts = 0;
    gabzeril_answer whole = gabzeril_marks(words, length, pool, table_length, marks, sizeof marks);
    gabzeril_answer parts = gabzeril_marks(words, length, joined, used, marks_of_parts, sizeof marks_of_parts);
    int agree = whole.number == 0 && parts.number == 0 && whole.value == parts.value;
    for (size_t row = 0; agree && row < table_length / ROW_WORDS; row++) {
        agree = !sent[row] || marks_of_parts[row_of_parts++] <= marks[row];
    }
    return agree;
}

static int joined_parts_agree(void)
{
    uint8_t whole[SET_LIMIT], parts[SET_LIMIT], sent[GABZERIL_ROW_LIMIT];
    uint32_t *joined = run_of(joined_area, TABLE_WORDS * sizeof *joined);
    if (verdicts_on(pool, table_length, whole).number != 0) {
        return 1;
    }
    size_t used = join_parts(joined);
    if (used == SIZE_MAX || verdicts_on(joined, used, parts).value != made.counts_length ||
        memcmp(whole, parts, made.counts_length) != 0 ||
        !rows_sent(pool, table_length, joined, used / ROW_WORDS, sent)) {
        return 0;
    }
    for (size_t i = 0; i < made.counts_length; i++) {
        if (!marks_agree(i, joined, used, sent)) {
            return 0;
        }
    }
    return 1;
}

/* One case. */

struct lent lend_set(uint32_t damaged)
{
    make_set();
    if (chance(damaged)) {
        damage_set();
    }
    rules = lend(rules_area, made.words, made.length * sizeof *rules);
    counts = lend(counts_area, made.counts, made.counts_length * sizeof *counts);
    pool = lend(table_area, table.words, table_length * sizeof *pool);
    return (struct lent){rules, counts, pool, made.length, made.counts_length, table_length};
}

int run_set(void)
{
    lend_set(100);
    return agrees(check_agrees(), "check of a set") && agrees(verdicts_agree(), "verdicts of a set") &&
           agrees(part_agrees(), "part of a set") && agrees(joined_parts_agree(), "joined parts of a set");
}

void print_seen_by_sets(void)
{
    for (int call = 0; call < CALLS; call++) {
        printf("%s:", call_names[call]);
        for (uint32_t number = 0; number <= GABZERIL_REFUSED_DEPTH; number++) {
            if (seen[call][number] > 0) {
                printf(" %u:%lu", (unsigned)number, seen[call][number]);
            }
        }
        printf("\n");
    }
    printf("parts of conjunctions:");
    for (int mode = GABZERIL_ALL; mode <= GABZERIL_FULL; mode++) {
        printf(" %d:%lu", mode, conjunctions[mode]);
    }
    printf("\n");
}

static unsigned long count_modes_unseen(void)
{
    unsigned long unseen = 0;
    for (int mode = GABZERIL_ALL; mode <= GABZERIL_FULL; mode++) {
        if (conjunctions[mode] == 0) {
            printf("no case asked for a conjunction's part in mode %d\n", mode);
            unseen++;
        }
    }
    return unseen;
}

unsigned long count_unseen_by_sets(void)
{
    unsigned long unseen = count_modes_unseen();
    for (int call = 0; call < CALLS; call++) {
        for (uint32_t number = 0; number <= GABZERIL_REFUSED_DEPTH; number++) {
            if (is_listed((enum call)call, number) && seen[call][number] == 0) {
                printf("no case gave %u by %s\n", (unsigned)number, call_names[call]);
                unseen++;
            }
        }
    }
    return unseen;
}
