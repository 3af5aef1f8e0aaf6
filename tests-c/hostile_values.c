/* Values below zero: odd spellings in files, the words of values, and their order.
 *
 * A reader of its own tells what reading a file must give; every odd spelling is tried in every column, with the
 * file cut off behind each of its bytes. What is read and accepted must be the same bytes again when it is
 * written. All comparisons of two values must follow their order, whichever call gives the verdict.
 */
#include "hostile.h"

#include <string.h>

enum {
    MOST_READ = 50000,    /* words of the longest file made here */
    LINE_BYTES = 128,     /* of the lines with an odd spelling */
    RULES_OF_ORDER = 6,   /* three kinds, with a variable and with a constant */
    WORDS_OF_RULE = 3 * 4 /* of the longest of them */
};

static struct area file_area, words_area, text_area;

void make_areas_of_values(void)
{
    file_area = new_area(LINE_BYTES);
    words_area = new_area(GABZERIL_TABLE_WORDS * sizeof(uint32_t));
    text_area = new_area(GABZERIL_POOL_FILE_BYTES + 8);
}

/* Odd spellings. */

static const char *const spellings[] = {
    "0", "1", "-1", "9", "-9", "10", "-10", "2147483646", "2147483647", "2147483648", "2147483649", "-2147483646",
    "-2147483647", "-2147483648", "-2147483649", "4294967294", "4294967295", "4294967296", "-4294967295",
    "-4294967296", "6442450944", "-6442450944", "9999999999", "-9999999999", "-21474836480", "42949672950",
    "18446744073709551615", "18446744073709551616", "-18446744073709551615", "-9223372036854775808", "", "-", "--",
    "--1", "---1", "-0", "-00", "00", "-01", "01", "--0", "+", "+0", "+1", "+-1", "-+1", "1-", "1-1", "-1-", "0-", "- 1",
    "-\t1", "-\n1", "\n-", "-\r", "-a", "-.1", "-1.0", "-1e1", "-0x1", "\xe2\x88\x92" "1", "\xad" "1", "(1)", "-:", "-/"};

enum { SPELLINGS = sizeof spellings / sizeof spellings[0] };

const char *odd_spelling(void)
{
    return spellings[below(SPELLINGS)];
}

/* Reading. */

static const char *const first_lines[2] = {"device at up deep name value\n", "kind a b c\n"};

static size_t columns_of(int is_rule)
{
    return is_rule ? GABZERIL_ENTRY_WORDS : ROW_WORDS;
}

/* Whether the next number of a line is a value or a constant, which may be below zero. */
static int may_have_sign(int is_rule, size_t column, const uint32_t *before)
{
    int compares = is_rule && column == GABZERIL_C && before[GABZERIL_KIND] >= GABZERIL_EQUAL &&
                   before[GABZERIL_KIND] <= GABZERIL_AT_MOST;
    return is_rule ? compares && before[GABZERIL_B] == GABZERIL_CONSTANT : column == GABZERIL_VALUE;
}

/* 0 if the bytes are no such number. */
static int number_of(const uint8_t *bytes, size_t length, int may_be_below, uint32_t *word)
{
    size_t sign = may_be_below && length > 0 && bytes[0] == '-';
    int64_t sum = 0;
    if (length == sign || length - sign > 10 || (bytes[sign] == '0' && length > 1)) {
        return 0;
    }
    for (size_t i = sign; i < length; i++) {
        if (bytes[i] < '0' || bytes[i] > '9') {
            return 0;
        }
        sum = 10 * sum + (bytes[i] - '0');
    }
    *word = (uint32_t)(sign ? -sum : sum);
    return sum <= (!may_be_below ? UINT32_MAX : INT32_MAX + (int64_t)sign);
}

/* The words of a line without its end; 0 if it is no such line. */
static int words_of_line(const uint8_t *line, size_t length, int is_rule, uint32_t *words)
{
    size_t start = 0, column = 0;
    for (size_t end = 0; end <= length; end++) {
        if (end < length && line[end] != ' ') {
            continue;
        }
        if (column == columns_of(is_rule) ||
            !number_of(line + start, end - start, may_have_sign(is_rule, column, words), &words[column])) {
            return 0;
        }
        column++;
        start = end + 1;
    }
    return column == columns_of(is_rule);
}

static uint32_t words_read[MOST_READ + ROW_WORDS];

/* What reading must answer. The words are in `words_read`. */
static gabzeril_answer expected_reading(const uint8_t *file, size_t length, int is_rule, size_t room)
{
    size_t start = strlen(first_lines[is_rule]), words = 0;
    if (length < start || memcmp(file, first_lines[is_rule], start) != 0) {
        return (gabzeril_answer){GABZERIL_REFUSED_FIRST_LINE, 1, 0};
    }
    for (size_t line = 2; start < length; line++) {
        const uint8_t *end = memchr(file + start, '\n', length - start);
        if (end == NULL || words > MOST_READ ||
            !words_of_line(file + start, (size_t)(end - file) - start, is_rule, words_read + words)) {
            return (gabzeril_answer){GABZERIL_REFUSED_LINE, line, 0};
        }
        words += columns_of(is_rule);
        start = (size_t)(end - file) + 1;
    }
    return room < words ? (gabzeril_answer){GABZERIL_REFUSED_SHORT_OUTPUT, 0, 0} : (gabzeril_answer){0, 0, words};
}

static int same_answer(gabzeril_answer a, gabzeril_answer b)
{
    return a.number == b.number && a.place == b.place && a.value == b.value;
}

static gabzeril_answer read_file(const uint8_t *file, size_t length, int is_rule, uint32_t *words, size_t room)
{
    return is_rule ? gabzeril_read_rule(file, length, words, room) : gabzeril_read_pool(file, length, words, room);
}

static gabzeril_answer write_file(const uint32_t *words, size_t length, int is_rule, uint8_t *file, size_t room)
{
    return is_rule ? gabzeril_write_rule(words, length, file, room) : gabzeril_write_pool(words, length, file, room);
}

/* Whether accepted words give the file's bytes, with just enough room, some more, or a byte too little. */
static int comes_back(const uint8_t *file, size_t length, int is_rule, const uint32_t *words, size_t words_length)
{
    size_t room = length - 1 + below(9);
    uint8_t *text = output(text_area, room);
    gabzeril_answer written = write_file(words, words_length, is_rule, text, room);
    if (room < length) {
        return same_answer(written, (gabzeril_answer){GABZERIL_REFUSED_SHORT_OUTPUT, 0, 0}) && all_filled(text, room);
    }
    return same_answer(written, (gabzeril_answer){0, 0, length}) && memcmp(text, file, length) == 0 &&
           all_filled(text + length, room - length);
}

int reading_agrees(const uint8_t *file, size_t length, int is_rule)
{
    size_t most = is_rule ? GABZERIL_RULE_WORDS : GABZERIL_TABLE_WORDS, room = chance(70) ? most : below(most);
    gabzeril_answer expected = expected_reading(file, length, is_rule, room);
    uint32_t *words = output(words_area, room * sizeof *words);
    if (!same_answer(read_file(file, length, is_rule, words, room), expected)) {
        return 0;
    }
    size_t count = expected.value;
    if ((count > 0 && memcmp(words, words_read, count * sizeof *words) != 0) ||
        (count < room && !all_filled((const uint8_t *)(words + count), (room - count) * sizeof *words))) {
        return 0;
    }
    gabzeril_answer check = is_rule ? gabzeril_check_rule(words, count) : gabzeril_check_table(words, count);
    return expected.number != 0 || check.number != 0 || comes_back(file, length, is_rule, words, count);
}

/* Every odd spelling in every column. */

static unsigned long lines_tried, lines_read;

/* The first line and a line of these words, but with that spelling in one column, cut off behind each byte. */
static int spelling_agrees(int is_rule, const uint32_t *words, size_t column, const char *spelling)
{
    char bytes[LINE_BYTES];
    size_t length = (size_t)snprintf(bytes, sizeof bytes, "%s", first_lines[is_rule]), first = length;
    for (size_t i = 0; i < columns_of(is_rule); i++) {
        char number[16];
        snprintf(number, sizeof number, "%u", (unsigned)words[i]);
        length += (size_t)snprintf(bytes + length, sizeof bytes - length, "%s%c", i == column ? spelling : number,
                                   i + 1 < columns_of(is_rule) ? ' ' : '\n');
    }
    for (size_t cut = first; cut <= length; cut++) {
        const uint8_t *file = lend(file_area, bytes, cut);
        if (!reading_agrees(file, cut, is_rule)) {
            printf("%s: column %zu, spelling %s, %zu bytes\n", is_rule ? "rule" : "pool", column, spelling, cut);
            return 0;
        }
        lines_tried++;
        lines_read += cut > first && expected_reading(file, cut, is_rule, SIZE_MAX).number == 0;
    }
    return 1;
}

static unsigned long count_wrong_spellings(int is_rule, const uint32_t *words)
{
    unsigned long wrong = 0;
    for (size_t column = 0; column < columns_of(is_rule); column++) {
        for (size_t i = 0; i < SPELLINGS; i++) {
            wrong += !spelling_agrees(is_rule, words, column, spellings[i]);
        }
    }
    return wrong;
}

/* Kinds that are known and not, with all that b may be in a comparison and one more. */
static unsigned long count_wrong_lines(void)
{
    unsigned long wrong = count_wrong_spellings(0, (uint32_t[ROW_WORDS]){1, 1, 0, 0, 1, 1});
    for (uint32_t kind = 0; kind <= GABZERIL_AT_MOST + 1; kind++) {
        for (uint32_t b = 0; b <= 2; b++) {
            wrong += count_wrong_spellings(1, (uint32_t[4]){kind, 0, b, 1});
        }
    }
    return wrong;
}

/* Words. */

/* What a word stands for, apart from the header's own way. */
static int64_t meaning(uint32_t word)
{
    return word < 1u << 31 ? (int64_t)word : (int64_t)word - (INT64_C(1) << 32);
}

/* The header's functions, and that value and constant may be any word. */
static int word_agrees(uint32_t word)
{
    uint32_t row[ROW_WORDS] = {1, 1, 0, 0, 1, word}, rule[8] = {GABZERIL_SOME, 1, 0, 1, GABZERIL_EQUAL, 0, 1, word};
    char text[LINE_BYTES];
    int length = snprintf(text, sizeof text, "%s1 1 0 0 1 %lld\n", first_lines[0], (long long)meaning(word));
    uint8_t *file = output(text_area, (size_t)length);
    return gabzeril_value(word) == meaning(word) && gabzeril_word((int32_t)meaning(word)) == word &&
           gabzeril_word(gabzeril_value(word)) == word && gabzeril_value(word) >= GABZERIL_VALUE_LEAST &&
           same_answer(gabzeril_check_table(row, ROW_WORDS), (gabzeril_answer){0, 0, 1}) &&
           same_answer(gabzeril_check_rule(rule, 8), (gabzeril_answer){0, 0, 2}) &&
           same_answer(gabzeril_verdict(rule, 8, row, ROW_WORDS), (gabzeril_answer){0, 0, 1}) &&
           gabzeril_write_pool(row, ROW_WORDS, file, (size_t)length).value == (size_t)length &&
           memcmp(file, text, (size_t)length) == 0;
}

static unsigned long count_wrong_words(void)
{
    unsigned long wrong = 0;
    for (uint32_t bit = 0; bit < 32; bit++) {
        for (uint32_t near = 0; near < 5; near++) {
            wrong += !word_agrees((1u << bit) + near - 2);
            wrong += !word_agrees(near - 2 - (1u << bit));
        }
    }
    for (uint32_t power = 1; power < 1000000000; power *= 10) {
        for (uint32_t near = 0; near < 2; near++) {
            wrong += !word_agrees(power - near);
            wrong += !word_agrees(near - power);
        }
    }
    return wrong;
}

/* Every bit set in all words: the first check that looks at a range refuses them. */
static int all_bits_agree(void)
{
    uint32_t words[4 * ROW_WORDS];
    memset(words, 0xff, sizeof words);
    uint32_t *lent = output(words_area, sizeof words);
    memcpy(lent, words, sizeof words);
    gabzeril_answer rule = gabzeril_check_rule(lent, 4 * ROW_WORDS);
    gabzeril_answer table = gabzeril_check_table(lent, 4 * ROW_WORDS);
    gabzeril_answer set = gabzeril_check_set(lent, 2 * ROW_WORDS, lent + 2 * ROW_WORDS, 2 * ROW_WORDS);
    gabzeril_span rows = gabzeril_device_rows(lent, 4 * ROW_WORDS, UINT32_MAX);
    return same_answer(rule, (gabzeril_answer){GABZERIL_REFUSED_KIND, 0, 0}) &&
           same_answer(table, (gabzeril_answer){GABZERIL_REFUSED_RANGE, 0, 0}) &&
           same_answer(set, (gabzeril_answer){GABZERIL_REFUSED_COUNTS, 0, 0}) && rows.length == 0 &&
           memcmp(lent, words, sizeof words) == 0;
}

unsigned long count_wrong_values(void)
{
    unsigned long lines = count_wrong_lines(), words = count_wrong_words() + !all_bits_agree();
    if (lines + words > 0) {
        printf("%lu spellings and %lu words are not as they should be\n", lines, words);
    }
    return lines + words;
}

void print_seen_by_values(void)
{
    printf("lines with odd spellings: %lu, of them read %lu\n", lines_tried, lines_read);
}

/* The order of two values. */

static int holds(uint32_t kind, uint32_t left, uint32_t right)
{
    int64_t a = meaning(left), b = meaning(right);
    return kind == GABZERIL_EQUAL ? a == b : kind == GABZERIL_LESS ? a < b : a <= b;
}

struct order {
    uint32_t rules[RULES_OF_ORDER * WORDS_OF_RULE];
    uint32_t counts[RULES_OF_ORDER];
    size_t length;
    uint8_t verdicts[RULES_OF_ORDER];
    uint32_t pool[2 * ROW_WORDS]; /* a root named 1 with the left value, one named 2 with the right value */
};

/* Some root named 1 stands so to some root named 2, or to the constant. */
static void make_order(struct order *order, uint32_t left, uint32_t right)
{
    uint32_t pool[] = {1, 1, 0, 0, 1, left, 1, 2, 0, 0, 2, right};
    memcpy(order->pool, pool, sizeof pool);
    order->length = 0;
    for (uint32_t i = 0; i < RULES_OF_ORDER; i++) {
        uint32_t kind = GABZERIL_EQUAL + i / 2, constant = i % 2;
        uint32_t with_variable[] = {GABZERIL_SOME, 1, 0, 1, GABZERIL_SOME, 2, 0, 2, kind, 0, 0, 1};
        uint32_t with_constant[] = {GABZERIL_SOME, 1, 0, 1, kind, 0, 1, right};
        order->counts[i] = constant ? 2 : 3;
        memcpy(order->rules + order->length, constant ? with_constant : with_variable,
               4 * sizeof pool[0] * order->counts[i]);
        order->length += 4 * (size_t)order->counts[i];
        order->verdicts[i] = (uint8_t)holds(kind, left, right);
    }
}

/* By the calls on one rule: verdict, marks, the full part with a constant, and the files. A "for some" marks every
 * row that it ranges over, if there is one. */
static int rule_agrees(const struct order *order, const uint32_t *rule, size_t length, size_t verdict)
{
    static uint8_t rule_file[GABZERIL_RULE_FILE_BYTES], pool_file[GABZERIL_POOL_FILE_BYTES];
    uint8_t marks[2];
    uint32_t part[2 * ROW_WORDS];
    int constant = length == 8;
    gabzeril_answer answer = {0, 0, verdict}, sent = {0, 0, constant ? verdict : 2};
    size_t rule_bytes = gabzeril_write_rule(rule, length, rule_file, sizeof rule_file).value;
    size_t pool_bytes = gabzeril_write_pool(order->pool, 2 * ROW_WORDS, pool_file, sizeof pool_file).value;
    return same_answer(gabzeril_verdict(rule, length, order->pool, 2 * ROW_WORDS), answer) &&
           same_answer(gabzeril_marks(rule, length, order->pool, 2 * ROW_WORDS, marks, 2), answer) && marks[0] == 1 &&
           marks[1] == !constant &&
           same_answer(gabzeril_part(rule, length, order->pool, 2 * ROW_WORDS, GABZERIL_FULL, part, 2 * ROW_WORDS), sent) &&
           gabzeril_check_files(rule_file, rule_bytes, pool_file, pool_bytes) == verdict;
}

/* By the calls on the set: the verdicts, and those after steps that exchange the values and put them back. */
static int set_agrees(const struct order *order, const struct order *exchanged)
{
    uint32_t left = order->pool[GABZERIL_VALUE], right = exchanged->pool[GABZERIL_VALUE];
    uint32_t steps[] = {GABZERIL_STEP_SET, 1, 1, 0, 0, 0, right, GABZERIL_STEP_SET, 1, 2, 0, 0, 0, left,
                        GABZERIL_STEP_SET, 1, 2, 0, 0, 0, right, GABZERIL_STEP_SET, 1, 1, 0, 0, 0, left};
    uint8_t verdicts[4 * RULES_OF_ORDER];
    uint32_t table[2 * ROW_WORDS];
    gabzeril_answer now = gabzeril_set_verdicts(order->rules, order->length, order->counts, RULES_OF_ORDER, order->pool,
                                                2 * ROW_WORDS, verdicts, sizeof verdicts);
    if (now.value != RULES_OF_ORDER || memcmp(verdicts, order->verdicts, RULES_OF_ORDER) != 0) {
        return 0;
    }
    gabzeril_trial trial =
        gabzeril_try(order->rules, order->length, order->counts, RULES_OF_ORDER, order->pool, 2 * ROW_WORDS, steps,
                     sizeof steps / sizeof steps[0], table, 2 * ROW_WORDS, verdicts, sizeof verdicts);
    int turned = 1;
    for (size_t i = 0; i < RULES_OF_ORDER; i += 2) { /* the rules with a variable */
        turned = turned && verdicts[RULES_OF_ORDER + i] == exchanged->verdicts[i];
    }
    return trial.number == 0 && trial.steps == 4 && turned &&
           memcmp(verdicts + 3 * RULES_OF_ORDER, order->verdicts, RULES_OF_ORDER) == 0 &&
           memcmp(table, order->pool, sizeof table) == 0;
}

int run_order(void)
{
    struct order order, exchanged;
    uint32_t left = chance(50) ? odd_number() : some_value(5), right = chance(50) ? odd_number() : some_value(5);
    const uint32_t *rule = order.rules;
    make_order(&order, left, right);
    make_order(&exchanged, right, left);
    int good = set_agrees(&order, &exchanged);
    for (size_t i = 0; i < RULES_OF_ORDER; i++) {
        size_t length = 4 * (size_t)order.counts[i];
        good = good && rule_agrees(&order, rule, length, order.verdicts[i]);
        rule += length;
    }
    return agrees(good, "order of two values");
}
