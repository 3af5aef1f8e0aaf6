/* Damaged plans through gabzeril_try.
 *
 * Each step is done here once more, by hand, and the calls on tables and sets are asked about the table that it
 * leaves. Answer, working table and verdicts must be those of the steps up to the first refused one, whatever
 * room there is. Then the plan is tried up to some earlier step: table and verdicts must be those of that step,
 * and so must the verdicts on the parts that the devices make of that table.
 */
#include "hostile.h"

#include <string.h>

enum {
    STEP_WORDS = GABZERIL_STEP_WORDS,
    TABLE_WORDS = GABZERIL_TABLE_WORDS,
    MOST_STEPS = 48, /* so many at most are made here */
    MOST_BYTES = 2 * MOST_STEPS * GABZERIL_SET_LIMIT /* of verdicts; some damaged sets have too many counts */
};

static struct area steps_area, table_area, verdicts_area, part_area, joined_area;

void make_areas_of_plans(void)
{
    steps_area = new_area((MOST_STEPS + 1) * STEP_WORDS * sizeof(uint32_t));
    table_area = new_area(2 * TABLE_WORDS * sizeof(uint32_t));
    verdicts_area = new_area(MOST_BYTES + 8);
    part_area = new_area(TABLE_WORDS * sizeof(uint32_t));
    joined_area = new_area(TABLE_WORDS * sizeof(uint32_t));
}

/* The set, the pool and the plan of a case. */

static struct lent lent;

static struct {
    uint32_t words[(MOST_STEPS + 1) * STEP_WORDS];
    size_t length;
} made;

static const uint32_t *steps; /* a read-only copy */

/* Doing a step by hand. `state` is the table so far, `after` what the step leaves. */

static struct table state, after;

static void start(void)
{
    state.rows = (uint32_t)(lent.pool_length / ROW_WORDS);
    if (state.rows > 0) {
        memcpy(state.words, lent.pool, ROW_WORDS * sizeof *state.words * state.rows);
    }
}

static uint32_t *row_of(struct table *table, uint32_t row)
{
    return table->words + ROW_WORDS * row;
}

/* How many rows stand before that device and at. */
static uint32_t place_of(uint32_t device, uint32_t at)
{
    uint32_t place = 0;
    while (place < state.rows && (row_of(&state, place)[GABZERIL_DEVICE] < device ||
                                  (row_of(&state, place)[GABZERIL_DEVICE] == device &&
                                   row_of(&state, place)[GABZERIL_AT] < at))) {
        place++;
    }
    return place;
}

static int is_there(uint32_t place, uint32_t device, uint32_t at)
{
    const uint32_t *row = row_of(&state, place);
    return place < state.rows && row[GABZERIL_DEVICE] == device && row[GABZERIL_AT] == at;
}

static int has_rows_under(uint32_t device, uint32_t at)
{
    for (uint32_t i = 0; i < state.rows; i++) {
        const uint32_t *row = row_of(&state, i);
        if (row[GABZERIL_DEVICE] == device && row[GABZERIL_UP] == at) {
            return 1;
        }
    }
    return 0;
}

/* The rows from one place on move to another. */
static void move_rows(uint32_t from, uint32_t to)
{
    memmove(row_of(&after, to), row_of(&after, from), ROW_WORDS * sizeof *after.words * (after.rows - from));
    after.rows = after.rows - from + to;
}

static void change(uint32_t kind, const uint32_t *row, uint32_t place)
{
    after.rows = state.rows;
    memcpy(after.words, state.words, ROW_WORDS * sizeof *after.words * state.rows);
    if (kind == GABZERIL_STEP_SET) {
        row_of(&after, place)[GABZERIL_VALUE] = row[GABZERIL_VALUE];
    } else if (kind == GABZERIL_STEP_ADD) {
        move_rows(place, place + 1);
        memcpy(row_of(&after, place), row, ROW_WORDS * sizeof *row);
    } else {
        move_rows(place + 1, place);
    }
}

/* The number that a step of so many words is refused with but for 17, or 0. */
static uint32_t do_step(const uint32_t *step, size_t words)
{
    if (words < STEP_WORDS || step[0] < GABZERIL_STEP_SET || step[0] > GABZERIL_STEP_REMOVE) {
        return GABZERIL_REFUSED_STEP;
    }
    const uint32_t *row = step + 1;
    uint32_t device = row[GABZERIL_DEVICE], at = row[GABZERIL_AT], place = place_of(device, at);
    if (step[0] != GABZERIL_STEP_ADD && !is_there(place, device, at)) {
        return GABZERIL_REFUSED_ABSENT;
    }
    if (step[0] == GABZERIL_STEP_REMOVE && has_rows_under(device, at)) {
        return GABZERIL_REFUSED_REMOVAL;
    }
    change(step[0], row, place);
    return gabzeril_check_table(after.words, ROW_WORDS * (size_t)after.rows).number;
}

static void keep(void)
{
    state.rows = after.rows;
    memcpy(state.words, after.words, ROW_WORDS * sizeof *after.words * after.rows);
}

/* Making. */

/* A row to add: under a row of the table or a root. Few numbers, so that all checks are met; in a long table
 * nearly always one that is accepted, behind the last. */
static void make_row(uint32_t *row)
{
    int many = state.rows > GABZERIL_ROW_LIMIT / 2;
    uint32_t near = many ? state.rows - 1 : below(state.rows + (size_t)1);
    const uint32_t *other = row_of(&state, near);
    int under = near < state.rows && chance(70);
    uint32_t up = under ? other[GABZERIL_AT] : 0, deep = under ? other[GABZERIL_DEEP] + 1 : 0;
    uint32_t device = near < state.rows && chance(80) ? other[GABZERIL_DEVICE] : 1 + below(6);
    uint32_t at = up + 1 + below(many || chance(50) ? 1 : 8);
    uint32_t value = many ? 5000 + below(100000) : some_value(chance(50) ? 5 : 2000);
    memcpy(row, (uint32_t[ROW_WORDS]){device, at, up, deep, 1 + below(3), value}, ROW_WORDS * sizeof *row);
    if (chance(8)) {
        row[GABZERIL_DEEP] += 1 - 2 * below(2);
    }
}

/* Words that a kind does not need are whatever they are. At 0 no row stands, though roots have it as their up. */
static void make_step(uint32_t *step)
{
    uint32_t which = below(state.rows > GABZERIL_ROW_LIMIT / 2 ? 300 : 100);
    for (size_t i = 0; i < STEP_WORDS; i++) {
        step[i] = odd_number();
    }
    if (which >= 60) {
        step[0] = GABZERIL_STEP_ADD;
        make_row(step + 1);
    } else if (which >= 3) {
        step[0] = which < 35 ? GABZERIL_STEP_SET : GABZERIL_STEP_REMOVE;
        if (state.rows > 0 && chance(95)) {
            memcpy(step + 1, row_of(&state, below(state.rows)), 2 * sizeof *step);
            step[1 + GABZERIL_AT] *= !chance(3);
        }
        if (chance(95)) {
            step[1 + GABZERIL_VALUE] = some_value(chance(50) ? 5 : 2000);
        }
    }
    if (chance(3)) {
        step[below(STEP_WORDS)] = odd_number();
    }
}

/* Adds a step that fits the table as it is then; in so many tries of a good one the last is taken as it is. */
static void add_step(uint32_t tries)
{
    uint32_t *step = made.words + made.length, number;
    do {
        make_step(step);
        number = do_step(step, STEP_WORDS);
    } while (number != 0 && --tries > 0);
    if (number == 0) {
        keep();
    }
    made.length += STEP_WORDS;
}

/* Steps behind a refused one fit what was there before it. Plans are longer where the rules are quick. */
static void make_plan(void)
{
    int quick = lent.rules_length <= 8 * lent.counts_length;
    uint32_t count = below(quick && chance(20) ? MOST_STEPS + 1 : 8), tries = chance(60) ? 8 : 1;
    int accepted = gabzeril_check_table(lent.pool, lent.pool_length).number == 0;
    made.length = state.rows = 0;
    if (accepted) {
        start();
    }
    for (uint32_t i = 0; i < count; i++) {
        add_step(i + 1 < count ? tries : 1);
    }
    if (chance(10)) { /* the last step lacks words */
        make_step(made.words + made.length);
        made.length += 1 + below(STEP_WORDS - 1);
    }
}

/* What the answer must be. */

static uint8_t expected_bytes[MOST_STEPS * GABZERIL_SET_LIMIT];

static gabzeril_trial before_steps(uint32_t number, size_t place)
{
    return (gabzeril_trial){number, place, 0, 0};
}

/* The verdicts on `state`. */
static void find_verdicts(uint8_t *verdicts)
{
    gabzeril_set_verdicts(lent.rules, lent.rules_length, lent.counts, lent.counts_length, state.words,
                          ROW_WORDS * (size_t)state.rows, verdicts, lent.counts_length);
}

/* Leaves the last table in `state` and the verdicts in `expected_bytes`. */
static gabzeril_trial expected_steps(size_t length, size_t table_room, size_t verdicts_room)
{
    size_t step = 0;
    start();
    for (; STEP_WORDS * step < length; step++) {
        uint32_t number = do_step(steps + STEP_WORDS * step, length - STEP_WORDS * step);
        if (number == 0 && (ROW_WORDS * (size_t)after.rows > table_room ||
                            lent.counts_length * (step + 1) > verdicts_room)) {
            number = GABZERIL_REFUSED_SHORT_OUTPUT;
        }
        if (number != 0) {
            return (gabzeril_trial){number, step, step, state.rows};
        }
        keep();
        find_verdicts(expected_bytes + lent.counts_length * step);
    }
    return (gabzeril_trial){GABZERIL_ACCEPTED, 0, step, state.rows};
}

/* `*before` tells whether the refusal comes before the first step. */
static gabzeril_trial expected_trial(size_t length, size_t table_room, size_t verdicts_room, int *before)
{
    gabzeril_answer set = gabzeril_check_set(lent.rules, lent.rules_length, lent.counts, lent.counts_length);
    gabzeril_answer check = gabzeril_check_table(lent.pool, lent.pool_length);
    *before = 1;
    if (set.number != 0 || check.number != 0) {
        return set.number != 0 ? before_steps(set.number, set.place) : before_steps(check.number, check.place);
    }
    if (table_room < lent.pool_length) {
        return before_steps(GABZERIL_REFUSED_SHORT_OUTPUT, 0);
    }
    *before = 0;
    return expected_steps(length, table_room, verdicts_room);
}

/* What the header says of telling the two apart. */
static int was_before(gabzeril_trial trial)
{
    int of_set = trial.number == GABZERIL_REFUSED_COUNTS || (trial.number >= 1 && trial.number <= 7);
    return lent.pool_length > 0 ? trial.number != 0 && trial.steps == 0 && trial.rows == 0 : of_set;
}

static int is_table_refusal(uint32_t number)
{
    return (number >= 8 && number <= 12) || number == GABZERIL_REFUSED_DEPTH;
}

/* Whether the header lists the number for that time. */
static int is_listed(int before, uint32_t number)
{
    int of_set = number == GABZERIL_REFUSED_COUNTS || (number >= 1 && number <= 7);
    int of_step = number == 0 || (number >= GABZERIL_REFUSED_STEP && number <= GABZERIL_REFUSED_REMOVAL);
    return is_table_refusal(number) || number == GABZERIL_REFUSED_SHORT_OUTPUT || (before ? of_set : of_step);
}

static unsigned long seen[2][GABZERIL_REFUSED_DEPTH + 1];

static int same_trial(gabzeril_trial expected, gabzeril_trial found, int before)
{
    int same = found.number == expected.number && found.place == expected.place &&
               found.steps == expected.steps && found.rows == expected.rows &&
               is_listed(before, found.number) && was_before(found) == before;
    if (same) {
        seen[before][found.number]++;
    }
    return same;
}

/* Calling. */

static uint32_t *table;
static uint8_t *verdicts;

static gabzeril_trial try_steps(size_t length, size_t table_room, size_t verdicts_room)
{
    table = output(table_area, table_room * sizeof *table);
    verdicts = output(verdicts_area, verdicts_room);
    return gabzeril_try(lent.rules, lent.rules_length, lent.counts, lent.counts_length, lent.pool,
                        lent.pool_length, steps, length, table, table_room, verdicts, verdicts_room);
}

/* The working table is `state`; the verdicts are those expected, and the bytes past them are as they came. */
static int outputs_agree(gabzeril_trial trial, size_t verdicts_room)
{
    size_t words = ROW_WORDS * trial.rows, bytes = lent.counts_length * trial.steps;
    return (words == 0 || memcmp(table, state.words, words * sizeof *table) == 0) &&
           (bytes == 0 || memcmp(verdicts, expected_bytes, bytes) == 0) &&
           (bytes == verdicts_room || all_filled(verdicts + bytes, verdicts_room - bytes));
}

/* Before the first step nothing is written. */
static int trial_agrees(size_t length, size_t table_room, size_t verdicts_room)
{
    int before;
    gabzeril_trial expected = expected_trial(length, table_room, verdicts_room, &before);
    gabzeril_trial found = try_steps(length, table_room, verdicts_room);
    if (!same_trial(expected, found, before)) {
        return 0;
    }
    return before ? all_filled((const uint8_t *)table, table_room * sizeof *table) &&
                        all_filled(verdicts, verdicts_room)
                  : outputs_agree(found, verdicts_room);
}

/* Often just enough for the pool, for a row or two more, or for the verdicts of some steps. */
static size_t room_for_table(void)
{
    uint32_t which = below(10);
    if (which < 6) {
        return TABLE_WORDS + below(8);
    }
    size_t room = lent.pool_length + (which < 9 ? below(20) : 0);
    return which == 9 && room > 0 ? room - 1 - below(room) : room;
}

static size_t room_for_verdicts(void)
{
    size_t room = lent.counts_length * ((made.length + STEP_WORDS - 1) / STEP_WORDS);
    room = room < MOST_BYTES ? room : MOST_BYTES;
    return chance(80) ? room + below(8) : below(room + 1);
}

/* The parts of all devices of the working table, joined; SIZE_MAX if something is refused. */
static size_t join_parts(size_t length, uint32_t *joined)
{
    size_t used = 0, next = 0;
    while (next < length) {
        gabzeril_span rows = gabzeril_device_rows(table, length, table[next + GABZERIL_DEVICE]);
        uint32_t *part = run_of(part_area, rows.length * sizeof *part);
        gabzeril_answer sent =
            gabzeril_set_part(lent.rules, lent.rules_length, lent.counts, lent.counts_length, table + rows.start,
                              rows.length, 1 + below(3), part, rows.length);
        gabzeril_answer join = gabzeril_join(joined, TABLE_WORDS, used, part, ROW_WORDS * sent.value);
        if (sent.number != 0 || join.number != 0 || rows.start != next || rows.length == 0) {
            return SIZE_MAX;
        }
        used = join.value;
        next += rows.length;
    }
    return used;
}

/* Tries some of the steps that are done, at least one. Their parts must have the last verdicts. */
static int earlier_step_agrees(size_t done)
{
    uint8_t of_parts[GABZERIL_SET_LIMIT];
    uint32_t *joined = run_of(joined_area, TABLE_WORDS * sizeof *joined);
    size_t count = 1 + below(done), bytes = lent.counts_length * count;
    if (!trial_agrees(STEP_WORDS * count, TABLE_WORDS, bytes)) {
        return 0;
    }
    size_t used = join_parts(ROW_WORDS * (size_t)state.rows, joined);
    if (used == SIZE_MAX) {
        return 0;
    }
    gabzeril_answer answer =
        gabzeril_set_verdicts(lent.rules, lent.rules_length, lent.counts, lent.counts_length, joined, used,
                              of_parts, sizeof of_parts);
    return answer.number == 0 &&
           memcmp(of_parts, verdicts + bytes - lent.counts_length, lent.counts_length) == 0;
}

/* One case. */

static unsigned long steps_done, longest;

int run_plan(void)
{
    lent = lend_set(25);
    make_plan();
    steps = lend(steps_area, made.words, made.length * sizeof *steps);
    if (!agrees(trial_agrees(made.length, room_for_table(), room_for_verdicts()), "trial of a plan")) {
        return 0;
    }
    size_t enough = lent.counts_length * MOST_STEPS;
    size_t done = try_steps(made.length, TABLE_WORDS, enough < MOST_BYTES ? enough : MOST_BYTES).steps;
    steps_done += done;
    longest = done > longest ? done : longest;
    return done == 0 || agrees(earlier_step_agrees(done), "trial up to an earlier step");
}

void print_seen_by_plans(void)
{
    for (int before = 1; before >= 0; before--) {
        printf(before ? "try, before the first step:" : "try:");
        for (uint32_t number = 0; number <= GABZERIL_REFUSED_DEPTH; number++) {
            if (seen[before][number] > 0) {
                printf(" %u:%lu", (unsigned)number, seen[before][number]);
            }
        }
        printf("\n");
    }
    printf("steps done: %lu, at most %lu in a plan\n", steps_done, longest);
}

unsigned long count_unseen_by_plans(void)
{
    unsigned long unseen = 0;
    for (int before = 0; before <= 1; before++) {
        for (uint32_t number = 0; number <= GABZERIL_REFUSED_DEPTH; number++) {
            if (is_listed(before, number) && seen[before][number] == 0) {
                printf("no case gave %u by try%s\n", (unsigned)number, before ? " before the first step" : "");
                unseen++;
            }
        }
    }
    return unseen;
}
