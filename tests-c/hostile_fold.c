/* Tables through gabzeril_fold.
 *
 * A case is one table, mostly of one device and with so few names and values that much of it folds; at times of as many rows
 * as a table may have, or some more; damaged in many cases. Answer and every word of both buffers are told by hand: the
 * tests of the table one after another, then equal siblings folded one pair after another, in an order that is drawn.
 *
 * What is folded must be accepted, and come back when it is folded again; a table that is accepted as it is must come
 * through. A rule's verdict on the folded table must be what the rule means on the rows as they were listed, read by their
 * paths of names and values.
 */
#include "hostile.h"

#include <string.h>

enum {
    MOST_ROWS = GABZERIL_ROW_LIMIT,
    TABLE_ROWS = MOST_ROWS + 8, /* that a table made here has room for */
    TABLE_WORDS = TABLE_ROWS * ROW_WORDS,
    FEW_ROWS = 14,
    MOST_SPARE = 64 /* words of an output past the answer */
};

static struct area table_area, folded_area, again_area;

void make_areas_of_folds(void)
{
    table_area = new_area(TABLE_WORDS * sizeof(uint32_t));
    folded_area = new_area((TABLE_WORDS + MOST_SPARE) * sizeof(uint32_t));
    again_area = new_area(TABLE_WORDS * sizeof(uint32_t));
}

/* The table of a case. */

static struct {
    uint32_t words[TABLE_WORDS];
    size_t rows, length; /* the length is in words; damage may leave it other than whole rows */
} made;

static const uint32_t *given; /* a read-only copy */

static uint32_t *row_of(size_t place)
{
    return made.words + ROW_WORDS * place;
}

/* Making. */

static uint32_t made_device, widest_gap;

/* Where there is no parent. */
static const size_t NONE = SIZE_MAX;

static void add_child(size_t parent, uint32_t name, uint32_t value)
{
    uint32_t *row = row_of(made.rows);
    row[GABZERIL_DEVICE] = made_device;
    row[GABZERIL_AT] = 1 + below(widest_gap) + (made.rows == 0 ? 0 : row_of(made.rows - 1)[GABZERIL_AT]);
    row[GABZERIL_UP] = parent == NONE ? 0 : row_of(parent)[GABZERIL_AT];
    row[GABZERIL_DEEP] = parent == NONE ? 0 : row_of(parent)[GABZERIL_DEEP] + 1;
    row[GABZERIL_NAME] = name;
    row[GABZERIL_VALUE] = value;
    made.rows++;
}

/* Any earlier row; often a late one, so that there are long branches. */
static size_t some_parent(uint32_t roots)
{
    if (made.rows == 0 || chance(roots)) {
        return NONE;
    }
    size_t back = below(made.rows);
    return made.rows - 1 - (chance(50) ? back : back % 3);
}

static void add_any(uint32_t rows, uint32_t names, uint32_t spread)
{
    uint32_t roots = chance(50) ? 10 : 40;
    while (rows-- > 0) {
        add_child(some_parent(roots), 1 + below(names), some_value(spread));
    }
}

/* Entering the rows from `first` on once more, up to `end`. Those whose parent is among them hang under its copy. */
static void add_copies(size_t first, size_t end)
{
    size_t copies = made.rows;
    for (size_t place = first; place < end; place++) {
        const uint32_t *row = row_of(place);
        size_t parent = NONE;
        for (size_t earlier = 0; earlier < place; earlier++) {
            if (row_of(earlier)[GABZERIL_AT] == row[GABZERIL_UP]) {
                parent = earlier < first ? earlier : copies + (earlier - first);
            }
        }
        add_child(parent, row[GABZERIL_NAME], row[GABZERIL_VALUE]);
    }
}

static void add_doubled(uint32_t rows)
{
    add_any(rows / 2, 3, chance(50) ? 5 : 2000);
    add_copies(0, made.rows);
}

/* The same path again and again. */
static void add_paths(uint32_t rows, uint32_t length)
{
    for (uint32_t row = 0; row < rows; row++) {
        uint32_t deep = row % length;
        add_child(deep == 0 ? NONE : made.rows - 1, 1 + deep % 3, deep);
    }
}

/* A root, children of it that differ, and rows under these that are all alike: at times one child has two of them. */
static void add_alike(uint32_t rows)
{
    uint32_t children = 1 + rows / 2;
    add_child(NONE, 1, 11);
    for (uint32_t row = 1; row < rows; row++) {
        if (row < children) {
            add_child(0, 1, row);
        } else {
            add_child(1 + (row - children) % (children > 1 ? children - 1 : 1), 2, 7);
        }
    }
}

/* Blocks as a firmware lists them: few of them differ, and what is under them mostly does, so that it moves. Some stand
 * within another block. */
static void add_blocks(uint32_t rows)
{
    size_t block = NONE;
    add_child(NONE, 1, 11);
    for (uint32_t row = 1; row < rows; row++) {
        if (block == NONE || chance(40)) {
            add_child(block != NONE && chance(40) ? block : chance(90) ? 0 : NONE, 3, below(2));
            block = made.rows - 1;
        } else {
            add_child(block, 4 + below(3), some_value(12));
        }
    }
}

/* Values that differ in some bits alone, under one parent. */
static void add_close(uint32_t rows)
{
    uint32_t shift = below(32), names = 1 + below(3);
    add_child(NONE, 1, 11);
    for (uint32_t row = 1; row < rows; row++) {
        add_child(0, 1 + below(names), below(4) << shift);
    }
}

/* The last row alone has an equal sibling. */
static void add_last_twin(uint32_t rows)
{
    add_child(NONE, 1, 11);
    for (uint32_t row = 1; row + 1 < rows; row++) {
        add_child(0, 1, row);
    }
    if (rows > 2) {
        add_child(0, 1, 1 + below(rows - 2));
    }
}

static void add_shape(uint32_t rows)
{
    switch (below(11)) {
    case 0:
        add_any(rows, 1 + below(3), 1 + below(3));
        break;
    case 1:
        add_any(rows, 3, 2000);
        break;
    case 2:
        add_doubled(rows);
        break;
    case 3:
        add_paths(rows, 1 + below(rows + 1));
        break;
    case 4:
        add_paths(rows, 1 + below(4));
        break;
    case 5:
        add_alike(rows);
        break;
    case 6:
        add_close(rows);
        break;
    case 7:
    case 8:
        add_blocks(rows);
        break;
    case 9:
        add_last_twin(rows);
        break;
    default:
        add_any(rows / 2, 2, 3);
        add_copies(made.rows / 3, made.rows);
        break;
    }
}

/* Roots of another device; at times one is equal to a root of the first. */
static void add_other_device(uint32_t rows)
{
    made_device += made_device < GABZERIL_NAME_LIMIT;
    while (rows-- > 0) {
        add_child(NONE, 1 + below(2), 11 + below(2));
    }
}

static void make_table(void)
{
    uint32_t which = below(10000);
    made.rows = 0;
    made_device = chance(90) ? 1 + below(3) : GABZERIL_NAME_LIMIT - below(2);
    widest_gap = chance(50) ? 1 : 1 + below(60);
    if (which < 10) {
        static struct table table;
        table.rows = 0;
        add_many_rows(&table);
        made.rows = table.rows;
        memcpy(made.words, table.words, made.rows * ROW_WORDS * sizeof *made.words);
    } else if (which < 50) {
        add_shape(MOST_ROWS - 2 + below(5));
    } else {
        add_shape(below(FEW_ROWS));
        add_other_device(chance(6) ? 1 + below(2) : 0);
    }
    made.length = ROW_WORDS * made.rows;
}

/* Another word, another length, another device from some row on, or two rows exchanged. */
static void damage_table(void)
{
    uint32_t which = below(8);
    size_t one = made.rows == 0 ? 0 : below(made.rows), other = made.rows == 0 ? 0 : below(made.rows);
    if (made.rows == 0 || which == 0) {
        made.length = below(2) * made.length + (made.rows < TABLE_ROWS ? below(ROW_WORDS) : 0);
    } else if (which == 1) {
        uint32_t swapped[ROW_WORDS];
        memcpy(swapped, row_of(one), sizeof swapped);
        memcpy(row_of(one), row_of(other), sizeof swapped);
        memcpy(row_of(other), swapped, sizeof swapped);
    } else if (which < 4) {
        for (size_t place = one; place < made.rows; place++) {
            row_of(place)[GABZERIL_DEVICE]++;
        }
    } else if (which < 6) {
        row_of(one)[below(ROW_WORDS)] = odd_number();
    } else {
        uint32_t column = GABZERIL_AT + below(3);
        row_of(one)[column] += 1 - 2 * below(2);
    }
}

/* What the answer must be. */

/* An earlier row of the same device with this at; NONE if there is none. */
static size_t parent_of(size_t place)
{
    const uint32_t *row = row_of(place);
    for (size_t earlier = 0; earlier < place; earlier++) {
        if (row_of(earlier)[GABZERIL_DEVICE] == row[GABZERIL_DEVICE] && row_of(earlier)[GABZERIL_AT] == row[GABZERIL_UP]) {
            return earlier;
        }
    }
    return NONE;
}

static int in_range(uint32_t word)
{
    return word >= 1 && word <= GABZERIL_NAME_LIMIT;
}

static int is_out_of_range(size_t place)
{
    const uint32_t *row = row_of(place);
    return !in_range(row[GABZERIL_DEVICE]) || !in_range(row[GABZERIL_AT]) || !in_range(row[GABZERIL_NAME]);
}

static int is_out_of_order(size_t place)
{
    if (place == 0) {
        return 0;
    }
    const uint32_t *row = row_of(place), *above = row_of(place - 1);
    return row[GABZERIL_DEVICE] < above[GABZERIL_DEVICE] ||
           (row[GABZERIL_DEVICE] == above[GABZERIL_DEVICE] && row[GABZERIL_AT] <= above[GABZERIL_AT]);
}

static int lacks_parent(size_t place)
{
    return row_of(place)[GABZERIL_UP] != 0 && parent_of(place) == NONE;
}

/* Tested where no row lacks its parent. */
static int is_wrong_depth(size_t place)
{
    const uint32_t *row = row_of(place);
    uint32_t right = row[GABZERIL_UP] == 0 ? 0 : row_of(parent_of(place))[GABZERIL_DEEP] + 1;
    return row[GABZERIL_DEEP] != right;
}

static int is_other_device(size_t place)
{
    return row_of(place)[GABZERIL_DEVICE] != row_of(0)[GABZERIL_DEVICE];
}

static const struct {
    uint32_t number;
    int (*fails)(size_t place);
} row_tests[] = {
    {GABZERIL_REFUSED_RANGE, is_out_of_range},  {GABZERIL_REFUSED_ORDER, is_out_of_order},
    {GABZERIL_REFUSED_PARENT, lacks_parent},    {GABZERIL_REFUSED_DEPTH, is_wrong_depth},
    {GABZERIL_REFUSED_DEVICE, is_other_device},
};

/* The tests before 17. */
static gabzeril_answer tested(void)
{
    size_t rows = made.length / ROW_WORDS;
    if (made.length % ROW_WORDS != 0 || rows > MOST_ROWS) {
        return (gabzeril_answer){GABZERIL_REFUSED_TABLE_LENGTH, 0, 0};
    }
    for (size_t test = 0; test < sizeof row_tests / sizeof row_tests[0]; test++) {
        for (size_t place = 0; place < rows; place++) {
            if (row_tests[test].fails(place)) {
                return (gabzeril_answer){row_tests[test].number, place, 0};
            }
        }
    }
    return (gabzeril_answer){GABZERIL_ACCEPTED, 0, 0};
}

/* Folding pair after pair. */

static struct {
    uint32_t words[TABLE_WORDS];
    size_t rows;
} expected;

static unsigned long pairs_folded, most_folded;

static int are_equal_siblings(size_t one, size_t other)
{
    const uint32_t *row = expected.words + ROW_WORDS * one, *twin = expected.words + ROW_WORDS * other;
    return row[GABZERIL_UP] == twin[GABZERIL_UP] && row[GABZERIL_NAME] == twin[GABZERIL_NAME] &&
           row[GABZERIL_VALUE] == twin[GABZERIL_VALUE];
}

/* The later row goes, and its children hang under the earlier one. */
static void fold_pair(size_t earlier, size_t later)
{
    uint32_t *gone = expected.words + ROW_WORDS * later;
    uint32_t from = gone[GABZERIL_AT], to = expected.words[ROW_WORDS * earlier + GABZERIL_AT];
    expected.rows--;
    memmove(gone, gone + ROW_WORDS, ROW_WORDS * (expected.rows - later) * sizeof *gone);
    for (size_t place = 0; place < expected.rows; place++) {
        uint32_t *up = expected.words + ROW_WORDS * place + GABZERIL_UP;
        *up = *up == from ? to : *up;
    }
    pairs_folded++;
}

/* Each of these returns whether there was a pair. The first two go once through all rows and fold what they meet. */

static int fold_forwards(void)
{
    int met = 0;
    for (size_t earlier = 0; earlier < expected.rows; earlier++) {
        for (size_t later = earlier + 1; later < expected.rows;) {
            if (are_equal_siblings(earlier, later)) {
                fold_pair(earlier, later);
                met = 1;
            } else {
                later++;
            }
        }
    }
    return met;
}

static int fold_backwards(void)
{
    int met = 0;
    for (size_t later = expected.rows; later-- > 1;) {
        size_t earlier = later;
        while (earlier > 0 && !are_equal_siblings(earlier - 1, later)) {
            earlier--;
        }
        if (earlier > 0) {
            fold_pair(earlier - 1, later);
            met = 1;
        }
    }
    return met;
}

/* Folds one of all pairs. */
static int fold_drawn(void)
{
    size_t pairs = 0, drawn[2] = {0, 0};
    for (size_t later = 1; later < expected.rows; later++) {
        for (size_t earlier = 0; earlier < later; earlier++) {
            if (are_equal_siblings(earlier, later) && below(++pairs) == 0) {
                drawn[0] = earlier;
                drawn[1] = later;
            }
        }
    }
    if (pairs > 0) {
        fold_pair(drawn[0], drawn[1]);
    }
    return pairs > 0;
}

/* Drawing each pair takes long on large tables. */
static void fold_by_hand(void)
{
    static int (*const ways[])(void) = {fold_forwards, fold_backwards, fold_drawn};
    int (*fold)(void) = ways[below(made.rows > FEW_ROWS ? 2 : 3)];
    expected.rows = made.rows;
    memcpy(expected.words, made.words, made.length * sizeof *made.words);
    while (fold()) {
    }
}

/* The call. */

static unsigned long seen[GABZERIL_REFUSED_ROWS + 1];

/* About as much as it takes, what the given table takes, or any. */
static size_t some_room(size_t needed)
{
    size_t more = needed + below(5);
    if (chance(60)) {
        return more < 2 ? 0 : more - 2;
    }
    return chance(30) ? made.length : below((made.length < TABLE_WORDS ? made.length : TABLE_WORDS) + MOST_SPARE);
}

static int same_words(const uint32_t *one, const uint32_t *other, size_t words)
{
    return words == 0 || memcmp(one, other, words * sizeof *one) == 0;
}

static int same_answer(gabzeril_answer one, gabzeril_answer other)
{
    return one.number == other.number && one.place == other.place && one.value == other.value;
}

/* Where nothing is past the answer, `words` may be NULL, to which not even 0 may be added. */
static int call_agrees(gabzeril_answer answer)
{
    size_t needed = answer.number == 0 ? ROW_WORDS * expected.rows : made.length, room = some_room(needed);
    uint32_t *words = output(folded_area, room * sizeof *words);
    gabzeril_answer found = gabzeril_fold(given, made.length, words, room);
    size_t written = 0;
    if (answer.number == 0 && room < needed) {
        answer = (gabzeril_answer){GABZERIL_REFUSED_SHORT_OUTPUT, 0, 0};
    } else if (answer.number == 0) {
        answer.value = expected.rows;
        written = needed;
    }
    if (!same_answer(found, answer)) {
        return 0;
    }
    seen[found.number]++;
    return same_words(words, expected.words, written) && same_words(given, made.words, made.length) &&
           (written == room || all_filled((const uint8_t *)(words + written), (room - written) * sizeof *words));
}

/* A fault that the table has but for 12 is the one that the check of tables finds. */
static int check_agrees(gabzeril_answer answer)
{
    gabzeril_answer checked = gabzeril_check_table(given, made.length);
    if (checked.number != GABZERIL_ACCEPTED && checked.number != GABZERIL_REFUSED_SIBLING) {
        return same_answer(checked, answer);
    }
    return answer.number == GABZERIL_ACCEPTED
               ? (checked.number == GABZERIL_ACCEPTED) == (ROW_WORDS * expected.rows == made.length)
               : answer.number == GABZERIL_REFUSED_DEVICE;
}

/* What is folded is accepted, and comes through once more without a word to spare. */
static int comes_back(void)
{
    size_t length = ROW_WORDS * expected.rows;
    const uint32_t *folded = lend(table_area, expected.words, length * sizeof *folded);
    uint32_t *again = output(again_area, length * sizeof *again);
    gabzeril_answer accepted = {GABZERIL_ACCEPTED, 0, expected.rows};
    return same_answer(gabzeril_check_table(folded, length), accepted) &&
           same_answer(gabzeril_fold(folded, length, again, length), accepted) && same_words(again, folded, length);
}

/* What a rule means on the rows as they are listed: a variable stands for a path of names and values. */

static size_t path_of[MOST_ROWS], up_path_of[MOST_ROWS]; /* the first row with the path of this row, and of its parent */

static void find_paths(void)
{
    for (size_t place = 0; place < made.rows; place++) {
        const uint32_t *row = row_of(place);
        size_t parent = parent_of(place), first = 0;
        up_path_of[place] = parent == NONE ? NONE : path_of[parent];
        while (up_path_of[first] != up_path_of[place] || row_of(first)[GABZERIL_NAME] != row[GABZERIL_NAME] ||
               row_of(first)[GABZERIL_VALUE] != row[GABZERIL_VALUE]) {
            first++;
        }
        path_of[place] = first;
    }
}

static size_t bound_rows[GABZERIL_NESTING_LIMIT];

static int compares(const uint32_t *entry)
{
    int32_t left = gabzeril_value(row_of(bound_rows[entry[1]])[GABZERIL_VALUE]);
    int32_t right =
        gabzeril_value(entry[2] == GABZERIL_CONSTANT ? entry[3] : row_of(bound_rows[entry[3]])[GABZERIL_VALUE]);
    return entry[0] == GABZERIL_EQUAL ? left == right : entry[0] == GABZERIL_LESS ? left < right : left <= right;
}

static int means(const struct rule *rule, uint32_t at, size_t bound)
{
    const uint32_t *entry = rule->words + 4 * at;
    switch (entry[0]) {
    case GABZERIL_NOT:
        return !means(rule, entry[1], bound);
    case GABZERIL_AND:
        return means(rule, entry[1], bound) && means(rule, entry[2], bound);
    case GABZERIL_OR:
        return means(rule, entry[1], bound) || means(rule, entry[2], bound);
    case GABZERIL_IMPLIES:
        return !means(rule, entry[1], bound) || means(rule, entry[2], bound);
    case GABZERIL_EVERY:
    case GABZERIL_SOME:
        break;
    default:
        return compares(entry);
    }
    size_t up_path = entry[2] == GABZERIL_ROOTS ? NONE : path_of[bound_rows[entry[2] - 1]];
    for (size_t place = 0; place < made.rows; place++) {
        if (up_path_of[place] == up_path && (entry[3] == GABZERIL_ANY_NAME || entry[3] == row_of(place)[GABZERIL_NAME])) {
            bound_rows[bound] = place;
            if (means(rule, entry[1], bound + 1) == (entry[0] == GABZERIL_SOME)) {
                return entry[0] == GABZERIL_SOME;
            }
        }
    }
    return entry[0] == GABZERIL_EVERY;
}

static unsigned long seen_verdicts[2];

static int verdict_agrees(void)
{
    static struct rule rule;
    rule.entries = rule.quantifiers = 0;
    if (made.rows > FEW_ROWS) {
        quick_rule(&rule);
    } else {
        add_formula(&rule, 4, 0);
    }
    for (uint32_t at = 0; at < rule.entries; at++) {
        uint32_t *entry = rule.words + 4 * at;
        entry[3] = (entry[0] == GABZERIL_EVERY || entry[0] == GABZERIL_SOME) && chance(30) ? GABZERIL_ANY_NAME : entry[3];
    }
    if (gabzeril_check_rule(rule.words, 4 * rule.entries).number != GABZERIL_ACCEPTED) {
        return 1;
    }
    find_paths();
    gabzeril_answer found = gabzeril_verdict(rule.words, 4 * rule.entries, expected.words, ROW_WORDS * expected.rows);
    size_t meant = (size_t)means(&rule, 0, 0);
    seen_verdicts[meant] += expected.rows < made.rows;
    return same_answer(found, (gabzeril_answer){GABZERIL_ACCEPTED, 0, meant});
}

/* One case. Kinds of accepted tables are counted: a run of many cases must have each. */

enum { NO_ROWS, NOTHING_FOLDED, SOME_FOLDED, INTO_ONE_ROW, ROOTS_FOLDED, MOVED, MANY_ROWS, MANY_FOLDED, KINDS };

static const char *const kind_names[KINDS] = {"without rows",       "nothing folded", "some folded",
                                              "into one row",       "roots folded",   "children moved",
                                              "over 1,000 rows",    "over 500 rows folded"};
static unsigned long seen_kinds[KINDS];

static size_t count_roots(const uint32_t *words, size_t rows)
{
    size_t roots = 0;
    for (size_t place = 0; place < rows; place++) {
        roots += words[ROW_WORDS * place + GABZERIL_UP] == 0;
    }
    return roots;
}

/* Whether a row that is left has another parent than it had. */
static int some_moved(void)
{
    size_t left = 0;
    for (size_t place = 0; place < made.rows && left < expected.rows; place++) {
        const uint32_t *row = row_of(place), *now = expected.words + ROW_WORDS * left;
        if (row[GABZERIL_AT] == now[GABZERIL_AT]) {
            if (row[GABZERIL_UP] != now[GABZERIL_UP]) {
                return 1;
            }
            left++;
        }
    }
    return 0;
}

static void count_kinds(void)
{
    size_t gone = made.rows - expected.rows;
    seen_kinds[made.rows == 0 ? NO_ROWS : gone == 0 ? NOTHING_FOLDED : SOME_FOLDED]++;
    seen_kinds[INTO_ONE_ROW] += gone > 0 && expected.rows == 1;
    seen_kinds[ROOTS_FOLDED] += count_roots(expected.words, expected.rows) < count_roots(made.words, made.rows);
    seen_kinds[MOVED] += some_moved();
    seen_kinds[MANY_ROWS] += made.rows > 1000;
    seen_kinds[MANY_FOLDED] += gone > 500;
    most_folded = gone > most_folded ? gone : most_folded;
}

int run_fold(void)
{
    make_table();
    for (uint32_t damages = chance(45) ? 1 + below(3) : 0; damages > 0; damages--) {
        damage_table();
    }
    given = lend(table_area, made.words, made.length * sizeof *given);
    gabzeril_answer answer = tested();
    expected.rows = 0;
    if (answer.number == GABZERIL_ACCEPTED) {
        made.rows = made.length / ROW_WORDS;
        fold_by_hand();
        count_kinds();
    }
    return agrees(call_agrees(answer), "folding") && agrees(check_agrees(answer), "folding and the check of the table") &&
           (answer.number != GABZERIL_ACCEPTED || (agrees(comes_back(), "folding twice") &&
                                                   agrees(verdict_agrees(), "verdict on a folded table")));
}

/* The numbers that the header lists for this call. */
static const uint32_t listed[] = {
    GABZERIL_ACCEPTED,       GABZERIL_REFUSED_TABLE_LENGTH, GABZERIL_REFUSED_RANGE,        GABZERIL_REFUSED_ORDER,
    GABZERIL_REFUSED_PARENT, GABZERIL_REFUSED_DEVICE,       GABZERIL_REFUSED_SHORT_OUTPUT, GABZERIL_REFUSED_DEPTH};

enum { LISTED = sizeof listed / sizeof listed[0] };

void print_seen_by_folds(void)
{
    printf("fold:");
    for (size_t i = 0; i < LISTED; i++) {
        printf(" %u:%lu", (unsigned)listed[i], seen[listed[i]]);
    }
    printf("; verdicts on folded rows 0:%lu 1:%lu\n", seen_verdicts[0], seen_verdicts[1]);
    printf("tables folded by hand:");
    for (size_t kind = 0; kind < KINDS; kind++) {
        printf("%s %s %lu", kind == 0 ? "" : ",", kind_names[kind], seen_kinds[kind]);
    }
    printf("; pairs %lu, most rows gone %lu\n", pairs_folded, most_folded);
}

unsigned long count_unseen_by_folds(void)
{
    unsigned long unseen = 0;
    for (size_t i = 0; i < LISTED; i++) {
        if (seen[listed[i]] == 0) {
            printf("no case gave %u by fold\n", (unsigned)listed[i]);
            unseen++;
        }
    }
    for (size_t kind = 0; kind < KINDS; kind++) {
        if (seen_kinds[kind] == 0) {
            printf("no table to fold was of these: %s\n", kind_names[kind]);
            unseen++;
        }
    }
    for (size_t verdict = 0; verdict < 2; verdict++) {
        if (seen_verdicts[verdict] == 0) {
            printf("no rule had the verdict %zu on folded rows\n", verdict);
            unseen++;
        }
    }
    return unseen;
}
