/* Runs of words through gabzeril_to_columns and gabzeril_from_columns.
 *
 * A case is one run: the rows of a table, accepted or not, or any words, of whole rows or not, at times of more rows than a
 * table may have. Each call takes it, the one as a table and the other as columns. The answer and every word of the output
 * are told by hand: columns by the differences between rows, a table by adding up each column. Then the run must come
 * back, both ways round.
 */
#include "hostile.h"

#include <string.h>

enum {
    MANY_ROWS = GABZERIL_ROW_LIMIT + 100, /* of a run that is long at times */
    MOST_ROWS = 65536 + 8,                /* of one that is so seldom: more than 16 bits can count */
    MOST_DAMAGE = 2 * ROW_WORDS,          /* words that damage may add or take */
    MANY_WORDS = MANY_ROWS * ROW_WORDS + MOST_DAMAGE,
    MOST_WORDS = MOST_ROWS * ROW_WORDS + MOST_DAMAGE,
    MOST_SPARE = 64 /* words of an output past the answer */
};

/* The longest runs have areas of their own: changing the access to so many pages in each case would take long. */
static struct areas {
    struct area run, output, back;
} usual_areas, large_areas, *areas;

static struct areas new_areas(size_t words)
{
    size_t size = words * sizeof(uint32_t), spare = MOST_SPARE * sizeof(uint32_t);
    return (struct areas){new_area(size), new_area(size + spare), new_area(size)};
}

void make_areas_of_archives(void)
{
    usual_areas = new_areas(MANY_WORDS);
    large_areas = new_areas(MOST_WORDS);
}

/* The run of a case. */

static struct {
    uint32_t words[MOST_WORDS];
    size_t length;
} made;

static const uint32_t *run; /* a read-only copy */

/* Making. */

/* Any word; most are near 0, where 4294967295 is near too, or near 2147483648. */
static uint32_t some_word(void)
{
    uint64_t drawn = draw();
    uint32_t which = drawn % 8, small = (uint32_t)(drawn >> 8) % 7 - 3;
    return which == 0   ? (uint32_t)(drawn >> 32)
           : which == 1 ? odd_number()
           : which < 5  ? small + (1u << 31)
                        : small;
}

static void add_words(size_t words)
{
    while (words-- > 0) {
        made.words[made.length++] = some_word();
    }
}

/* Any words, or rows as a table has them, which are accepted in many cases. */
static void make_run(void)
{
    static struct table table;
    uint32_t which = below(10000);
    made.length = table.rows = 0;
    if (which < 3) {
        add_words(ROW_WORDS * (size_t)(MOST_ROWS - below(4)));
    } else if (which < 50) {
        add_words(ROW_WORDS * (size_t)(MANY_ROWS - below(200)));
    } else if (which < 5000) {
        add_words(ROW_WORDS * (size_t)below(11));
    } else if (which < 5020) {
        add_many_rows(&table);
    } else {
        add_rows(&table, below(11), 25);
    }
    if (table.rows > 0) {
        made.length = ROW_WORDS * (size_t)table.rows;
        memcpy(made.words, table.words, made.length * sizeof *made.words);
    }
}

/* Words fewer, words more, or another word. */
static void damage_run(void)
{
    uint32_t words = 1 + below(MOST_DAMAGE), which = below(4);
    if (which == 0) {
        made.length -= words < made.length ? words : made.length;
    } else if (which == 1) {
        add_words(words);
    } else if (made.length > 0) {
        made.words[below(made.length)] = some_word();
    }
}

/* What the answers must be. */

static gabzeril_answer expected_answer(size_t room)
{
    uint32_t number = made.length % ROW_WORDS != 0 ? GABZERIL_REFUSED_ROWS
                      : room < made.length         ? GABZERIL_REFUSED_SHORT_OUTPUT
                                                   : GABZERIL_ACCEPTED;
    return (gabzeril_answer){number, 0, number == GABZERIL_ACCEPTED ? made.length : 0};
}

/* Whether these are the columns of the run. */
static int are_columns(const uint32_t *columns)
{
    size_t rows = made.length / ROW_WORDS;
    for (size_t column = 0; column < ROW_WORDS; column++) {
        for (size_t row = 0; row < rows; row++) {
            const uint32_t *word = made.words + ROW_WORDS * row + column;
            if (*columns++ != (row == 0 ? *word : *word - *(word - ROW_WORDS))) {
                return 0;
            }
        }
    }
    return 1;
}

/* Whether the run is the columns of this table. */
static int is_table(const uint32_t *table)
{
    size_t rows = made.length / ROW_WORDS;
    for (size_t column = 0; column < ROW_WORDS; column++) {
        uint32_t sum = 0;
        for (size_t row = 0; row < rows; row++) {
            sum += made.words[rows * column + row];
            if (table[ROW_WORDS * row + column] != sum) {
                return 0;
            }
        }
    }
    return 1;
}

/* The calls. */

typedef gabzeril_answer reorder(const uint32_t *, size_t, uint32_t *, size_t);

struct call {
    const char *name;
    reorder *reorder;
    int (*is_right)(const uint32_t *); /* of what an accepted call wrote */
    unsigned long seen[GABZERIL_REFUSED_ROWS + 1];
};

static struct call to_columns = {"to_columns", gabzeril_to_columns, are_columns, {0}};
static struct call from_columns = {"from_columns", gabzeril_from_columns, is_table, {0}};

/* About as much as it takes, the whole rows of it, or any. */
static size_t some_room(void)
{
    size_t more = made.length + below(5);
    if (chance(60)) {
        return more < 2 ? 0 : more - 2;
    }
    return chance(30) ? made.length / ROW_WORDS * ROW_WORDS : below(made.length + MOST_SPARE);
}

/* Where nothing is past the answer, `words` may be NULL, to which not even 0 may be added. */
static int call_agrees(struct call *call)
{
    size_t room = some_room();
    uint32_t *words = output(areas->output, room * sizeof *words);
    gabzeril_answer expected = expected_answer(room), found = call->reorder(run, made.length, words, room);
    size_t written = expected.value;
    if (found.number != expected.number || found.place != expected.place || found.value != expected.value) {
        return 0;
    }
    call->seen[found.number]++;
    return (written == room || all_filled((const uint8_t *)(words + written), (room - written) * sizeof *words)) &&
           (found.number != 0 || call->is_right(words));
}

/* Whole rows are given back when the one call's words go through the other, without a word to spare. */
static int comes_back(reorder *there, reorder *back)
{
    size_t size = made.length * sizeof *run;
    uint32_t *words = output(areas->output, size);
    if (there(run, made.length, words, made.length).number != 0) {
        return made.length % ROW_WORDS != 0;
    }
    uint32_t *again = output(areas->back, size);
    return back(words, made.length, again, made.length).number == 0 &&
           (size == 0 || memcmp(again, made.words, size) == 0);
}

/* One case. Kinds of runs of whole rows are counted: a run of many cases must have each. */

enum { ACCEPTED_TABLE, NO_ACCEPTED_TABLE, NO_ROWS, OVER_1024_ROWS, OVER_65535_ROWS, KINDS };

static const char *const kind_names[KINDS] = {"accepted tables", "others", "without rows", "over 1,024 rows",
                                              "over 65,535 rows"};
static unsigned long seen_kinds[KINDS];

static void count_kinds(void)
{
    size_t rows = made.length / ROW_WORDS;
    if (made.length % ROW_WORDS == 0) {
        int is_accepted = gabzeril_check_table(run, made.length).number == 0;
        seen_kinds[rows == 0 ? NO_ROWS : is_accepted ? ACCEPTED_TABLE : NO_ACCEPTED_TABLE]++;
        seen_kinds[OVER_1024_ROWS] += rows > GABZERIL_ROW_LIMIT;
        seen_kinds[OVER_65535_ROWS] += rows > UINT16_MAX;
    }
}

int run_archive(void)
{
    make_run();
    if (chance(50)) {
        damage_run();
    }
    areas = made.length <= MANY_WORDS ? &usual_areas : &large_areas;
    run = lend(areas->run, made.words, made.length * sizeof *run);
    count_kinds();
    return agrees(call_agrees(&to_columns), "columns of a table") &&
           agrees(call_agrees(&from_columns), "table of columns") &&
           agrees(comes_back(gabzeril_to_columns, gabzeril_from_columns), "table that comes back") &&
           agrees(comes_back(gabzeril_from_columns, gabzeril_to_columns), "columns that come back");
}

/* The numbers that the header lists for these calls. */
static const uint32_t listed[] = {GABZERIL_ACCEPTED, GABZERIL_REFUSED_SHORT_OUTPUT, GABZERIL_REFUSED_ROWS};

enum { LISTED = sizeof listed / sizeof listed[0] };

static void print_seen_by(const struct call *call)
{
    printf("%s:", call->name);
    for (size_t i = 0; i < LISTED; i++) {
        printf(" %u:%lu", (unsigned)listed[i], call->seen[listed[i]]);
    }
    printf("\n");
}

void print_seen_by_archives(void)
{
    print_seen_by(&to_columns);
    print_seen_by(&from_columns);
    printf("runs of whole rows:");
    for (size_t kind = 0; kind < KINDS; kind++) {
        printf("%s %s %lu", kind == 0 ? "" : ",", kind_names[kind], seen_kinds[kind]);
    }
    printf("\n");
}

unsigned long count_unseen_by_archives(void)
{
    unsigned long unseen = 0;
    for (size_t i = 0; i < LISTED; i++) {
        if (to_columns.seen[listed[i]] == 0 || from_columns.seen[listed[i]] == 0) {
            printf("no case gave %u by to_columns or by from_columns\n", (unsigned)listed[i]);
            unseen++;
        }
    }
    for (size_t kind = 0; kind < KINDS; kind++) {
        if (seen_kinds[kind] == 0) {
            printf("no run of whole rows was of these: %s\n", kind_names[kind]);
            unseen++;
        }
    }
    return unseen;
}
