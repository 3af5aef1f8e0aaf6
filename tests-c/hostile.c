/* Damaged rule and pool files through gabzeril_check_files and gabzeril_report; signs and the order of values, in
 * hostile_values.c, through the calls that read, write and compare; damaged sets of rules, in hostile_sets.c,
 * through the three calls on sets; damaged plans, in hostile_trial.c, through gabzeril_try; damaged templates, in
 * hostile_templates.c, through gabzeril_fill; runs of words, in hostile_archive.c, through the two calls of the archive's
 * order; tables with equal siblings, in hostile_fold.c, through gabzeril_fold.
 *
 *     hostile [CASES [SEED [FIRST]]]
 *
 * Case number n from FIRST on depends on SEED and n alone, so that one case can be run again. It is two files,
 * two values to compare, a set if n is even, else a plan, a template, a run of words in either order, and a table to
 * fold.
 *
 * A sanitizer sees only code that was compiled with it, and the library is not. So every buffer
 * lies against a page without access, at its end or at its start, and inputs are on pages that are read-only
 * during the call: an access outside a buffer, or a write to an input, ends the program. That this happens is
 * tried first, in child processes. The sanitizers watch this harness itself.
 *
 * Each answer is compared with the calls that it stands for: reading, checking, verdict. Reading is compared with
 * a reader of the harness. A run of many cases must meet every answer that there is.
 */
#define _DEFAULT_SOURCE

#include "hostile.h"

#include <fcntl.h>
#include <stdlib.h>
#include <string.h>
#include <sys/mman.h>
#include <sys/wait.h>
#include <unistd.h>

#ifdef __SANITIZE_ADDRESS__
#include <sanitizer/common_interface_defs.h>
#endif

enum {
    RULE_WORDS = GABZERIL_RULE_WORDS,
    POOL_WORDS = GABZERIL_TABLE_WORDS,
    PROGRAM_BYTES = GABZERIL_PROGRAM_FILE_BYTES,
    TEXT_BYTES = GABZERIL_REPORT_BYTES,
    FILE_BYTES = 100000, /* the longest file made here */
    MANY_CASES = 50000   /* so many must meet every answer */
};

static const char rule_line[] = "kind a b c\n";
static const char pool_line[] = "device at up deep name value\n";
static const char pool_row[] = "1 1 0 0 1 1\n";

/* Random numbers: splitmix64. */

static uint64_t random_state, case_seed;
static unsigned long case_number;

uint64_t draw(void)
{
    uint64_t mixed = random_state += 0x9e3779b97f4a7c15u;
    mixed = (mixed ^ (mixed >> 30)) * 0xbf58476d1ce4e5b9u;
    mixed = (mixed ^ (mixed >> 27)) * 0x94d049bb133111ebu;
    return mixed ^ (mixed >> 31);
}

uint32_t below(size_t limit)
{
    return (uint32_t)(draw() % limit);
}

int chance(uint32_t percent)
{
    return below(100) < percent;
}

/* Memory between two pages without access. */

static struct area rule_area, pool_area, text_area, rule_words_area, pool_words_area;

static void stop(const char *what)
{
    perror(what);
    exit(2);
}

static void set_access(struct area area, int access)
{
    if (mprotect(area.start, area.size, access) != 0) {
        stop("mprotect");
    }
}

struct area new_area(size_t bytes)
{
    size_t page = (size_t)sysconf(_SC_PAGESIZE);
    size_t size = (bytes + page - 1) / page * page;
    uint8_t *pages = mmap(NULL, size + 2 * page, PROT_NONE, MAP_PRIVATE | MAP_ANONYMOUS, -1, 0);
    if (pages == MAP_FAILED) {
        stop("mmap");
    }
    struct area area = {pages + page, size};
    set_access(area, PROT_READ | PROT_WRITE);
    return area;
}

void *run_of(struct area area, size_t length)
{
    if (length == 0 && chance(50)) {
        return NULL;
    }
    return chance(70) ? area.start + area.size - length : area.start;
}

const void *lend(struct area area, const void *bytes, size_t length)
{
    set_access(area, PROT_READ | PROT_WRITE);
    void *run = run_of(area, length);
    if (length > 0) {
        memcpy(run, bytes, length);
    }
    set_access(area, PROT_READ);
    return run;
}

void *output(struct area area, size_t bytes)
{
    void *run = run_of(area, bytes);
    if (bytes > 0) {
        memset(run, FILLED, bytes);
    }
    return run;
}

/* Files. */

struct file {
    size_t length;
    uint8_t bytes[FILE_BYTES];
};

static struct file rule_file, pool_file;

static void add_bytes(struct file *file, const void *bytes, size_t length)
{
    if (length <= FILE_BYTES - file->length) {
        memcpy(file->bytes + file->length, bytes, length);
        file->length += length;
    }
}

/* A line of words; the last of them has a sign if it is below zero, where it is a value or a constant. */
static void add_words(struct file *file, const uint32_t *words, size_t count, int is_value)
{
    for (size_t i = 0; i < count; i++) {
        char text[16];
        int last = i + 1 == count;
        long long number = last && is_value ? (long long)gabzeril_value(words[i]) : (long long)words[i];
        int length = snprintf(text, sizeof text, "%lld%c", number, last ? '\n' : ' ');
        add_bytes(file, text, (size_t)length);
    }
}

static void start_file(struct file *file, const char *first_line)
{
    file->length = 0;
    add_bytes(file, first_line, strlen(first_line));
}

/* Rules. */

void set_entry(struct rule *rule, uint32_t at, uint32_t kind, uint32_t a, uint32_t b, uint32_t c)
{
    uint32_t words[4] = {kind, a, b, c};
    memcpy(rule->words + 4 * at, words, sizeof words);
}

/* With a variable or a constant; at times a blank, which only templates may have. */
static void set_comparison(struct rule *rule, uint32_t at, uint32_t bound)
{
    uint32_t b = chance(1) ? GABZERIL_PARAMETER : below(2);
    uint32_t variables = bound == 0 || chance(2) ? bound + 1 : bound;
    uint32_t left = below(variables), right = b == GABZERIL_CONSTANT ? some_value(5) : below(variables);
    set_entry(rule, at, GABZERIL_EQUAL + below(3), left, b, right);
}

void add_formula(struct rule *rule, uint32_t depth, uint32_t bound)
{
    uint32_t at = rule->entries++;
    uint32_t choice = depth == 0 ? 9 : below(10), deeper = depth == 0 ? 0 : depth - 1;
    if ((choice < 4 || bound == 0) && rule->quantifiers < 4) {
        rule->quantifiers++;
        set_entry(rule, at, GABZERIL_EVERY + below(2), at + 1, below(bound + 1), 1 + below(3));
        add_formula(rule, deeper, bound + 1);
    } else if (choice == 4) {
        set_entry(rule, at, GABZERIL_NOT, at + 1, 0, 0);
        add_formula(rule, deeper, bound);
    } else if (choice < 8 && depth > 0) {
        uint32_t kind = GABZERIL_AND + below(3);
        add_formula(rule, deeper, bound);
        set_entry(rule, at, kind, at + 1, rule->entries, 0);
        add_formula(rule, deeper, bound);
    } else {
        set_comparison(rule, at, bound);
    }
}

void quick_rule(struct rule *rule)
{
    set_entry(rule, 0, 5 + below(2), 1, 0, 1 + below(3));
    set_entry(rule, 1, 7 + below(3), 0, 1, some_value(5));
    rule->entries = 2;
}

void deep_rule(struct rule *rule)
{
    uint32_t depth = GABZERIL_NESTING_LIMIT + below(2);
    for (uint32_t i = 0; i < depth; i++) {
        set_entry(rule, i, 5 + below(2), i + 1, chance(50) ? 0 : i, 1 + below(3));
    }
    set_entry(rule, depth, 7, below(depth), 1, some_value(5));
    rule->entries = depth + 1;
}

/* Rows. */

uint32_t some_value(uint32_t spread)
{
    static const uint32_t ends[] = {GABZERIL_VALUE_LIMIT - 1, GABZERIL_VALUE_LIMIT, 1u << 31, (1u << 31) + 1, UINT32_MAX};
    if (chance(5)) {
        return ends[below(sizeof ends / sizeof ends[0])];
    }
    return below(spread) - (chance(50) ? spread / 2 : 0);
}

static void add_row(struct table *table, uint32_t device, uint32_t at, uint32_t up, uint32_t deep, uint32_t value)
{
    uint32_t words[ROW_WORDS] = {device, at, up, deep, 1 + below(3), value};
    memcpy(table->words + ROW_WORDS * table->rows++, words, sizeof words);
}

void add_rows(struct table *table, uint32_t rows, uint32_t next_device)
{
    uint32_t deep[GABZERIL_ROW_LIMIT + 1]; /* of the device's rows, by at */
    uint32_t device = 1, at = 0, spread = chance(50) ? 5 : 2000;
    for (uint32_t row = 0; row < rows; row++) {
        if (chance(next_device)) {
            device += 1 + below(2);
            at = 0;
        }
        at++;
        uint32_t up = chance(30) ? 0 : below(at);
        deep[at] = up == 0 ? 0 : deep[up] + 1;
        add_row(table, device, at, up, deep[at], some_value(spread));
    }
}

void add_many_rows(struct table *table)
{
    uint32_t rows = GABZERIL_ROW_LIMIT - 4 + below(8), shape = below(3), below_zero = chance(50) ? rows / 2 : 0;
    for (uint32_t row = 0; row < rows; row++) {
        uint32_t up = shape == 0 || row == 0 ? 0 : shape == 1 ? 1 : row;
        uint32_t deep = up; /* in all three */
        add_row(table, 1, row + 1, up, deep, row - below_zero);
    }
}

/* Damage. */

static const char *const pieces[] = {" ", "  ", "\n", "\n\n", "\r\n", "\t", "\0", "0", "9", "-", "-1", "+1",
                                     "4294967295", "4294967296", "18446744073709551616", "2147483648",
                                     "-2147483648", "-2147483649", "-0", "65536", "00", "1 1 1 1\n", "1 1 0 1 1\n",
                                     "1 1 0 0 1 -1\n", "7 0 1 -1\n", "7 0 0 -1\n", "7 0 2 0\n", "7 0 2 -1\n",
                                     "7 0 2 4294967295\n", pool_row, rule_line, pool_line};

/* What a file may end with. */
static const char *const endings[] = {"-", " -", "-\n", "-1", "1 1 0 0 1 -", "1 1 0 0 1 -1", "1 1 0 0 1 -\n", "7 0 1 -",
                                      "7 0 1 -1", "7 0 1 -\n", "7 0 0 -", "7 0 0 -1\n", "-7 0 1 1\n"};

static void remove_bytes(struct file *file, size_t at, size_t length)
{
    memmove(file->bytes + at, file->bytes + at + length, file->length - at - length);
    file->length -= length;
}

static void insert_bytes(struct file *file, size_t at, const void *bytes, size_t length)
{
    if (length <= FILE_BYTES - file->length) {
        memmove(file->bytes + at + length, file->bytes + at, file->length - at);
        memcpy(file->bytes + at, bytes, length);
        file->length += length;
    }
}

/* The line around a byte, with its end. */
static void line_around(const struct file *file, size_t inside, size_t *start, size_t *length)
{
    size_t end = inside;
    *start = inside;
    while (*start > 0 && file->bytes[*start - 1] != '\n') {
        --*start;
    }
    while (end < file->length && file->bytes[end++] != '\n') {
    }
    *length = end - *start;
}

static void repeat_line(struct file *file, size_t inside)
{
    uint8_t line[256];
    size_t start, length;
    line_around(file, inside, &start, &length);
    if (length <= sizeof line) {
        memcpy(line, file->bytes + start, length);
        insert_bytes(file, below(file->length + 1), line, length);
    }
}

static void insert_piece(struct file *file, size_t at)
{
    const char *piece = pieces[below(sizeof pieces / sizeof pieces[0])];
    insert_bytes(file, at, piece, strlen(piece) + (piece[0] == '\0'));
}

/* Another number in a line, often the fourth: the depth of a row, c of an entry. */
static void change_number(struct file *file, size_t inside)
{
    static const char *const numbers[] = {"0", "1", "2", "3", "1023", "4294967295"};
    const char *number = chance(50) ? odd_spelling() : numbers[below(sizeof numbers / sizeof numbers[0])];
    size_t start, length, first = 0, spaces = 0, before = chance(50) ? 3 : below(ROW_WORDS);
    line_around(file, inside, &start, &length);
    while (first < length && spaces < before) {
        spaces += file->bytes[start + first++] == ' ';
    }
    size_t end = first;
    while (end < length && file->bytes[start + end] != ' ' && file->bytes[start + end] != '\n') {
        end++;
    }
    if (spaces == before) {
        remove_bytes(file, start + first, end - first);
        insert_bytes(file, start + first, number, strlen(number));
    }
}

static void random_bytes(struct file *file)
{
    file->length = below(300);
    for (size_t i = 0; i < file->length; i++) {
        file->bytes[i] = chance(60) ? (uint8_t)" \n-0123456789"[below(13)] : (uint8_t)draw();
    }
}

static void damage_once(struct file *file)
{
    size_t at = below(file->length + 1), start, length;
    const char *ending = endings[below(sizeof endings / sizeof endings[0])];
    int inside = at < file->length;
    switch (below(14)) {
    case 0:
        random_bytes(file);
        break;
    case 1:
        file->length = at;
        break;
    case 2:
        file->length -= file->length > 0;
        break;
    case 3:
    case 4:
        insert_piece(file, at);
        break;
    case 5:
        repeat_line(file, at);
        break;
    case 6:
        line_around(file, at, &start, &length);
        remove_bytes(file, start, length);
        break;
    case 7:
        if (inside) {
            remove_bytes(file, at, 1);
        }
        break;
    case 8:
        if (inside) {
            file->bytes[at] = (uint8_t)draw();
        }
        break;
    case 9:
        change_number(file, at);
        break;
    case 10:
        insert_bytes(file, file->length, ending, strlen(ending));
        break;
    default:
        if (inside && file->bytes[at] >= '0' && file->bytes[at] <= '9') {
            file->bytes[at] = (uint8_t)('0' + below(10));
        }
    }
}

static void damage(struct file *file)
{
    do {
        damage_once(file);
    } while (chance(25));
}

/* Whole lines until the file is about as long as the program takes. */
static void lengthen(struct file *file, const char *line)
{
    size_t length = PROGRAM_BYTES - 1 + below(3);
    while (file->length < length) {
        add_bytes(file, line, strlen(line));
    }
    if (chance(80)) {
        file->length = length;
    }
}

/* The files of a case: nearly always with one of them damaged or both. */

static void make_files(void)
{
    static struct rule rule;
    static struct table table;
    uint32_t which = below(100);
    rule.entries = rule.quantifiers = table.rows = 0;
    start_file(&rule_file, rule_line);
    start_file(&pool_file, pool_line);
    if (which < 2) {
        quick_rule(&rule);
        add_many_rows(&table);
    } else if (which < 5) {
        deep_rule(&rule);
        add_rows(&table, below(4), 25);
    } else {
        add_formula(&rule, 1 + below(5), 0);
        add_rows(&table, below(11), 25);
    }
    for (uint32_t at = 0; at < rule.entries; at++) {
        const uint32_t *entry = rule.words + 4 * at;
        add_words(&rule_file, entry, 4, entry[GABZERIL_KIND] >= GABZERIL_EQUAL && entry[GABZERIL_B] == 1);
    }
    for (uint32_t row = 0; row < table.rows; row++) {
        add_words(&pool_file, table.words + ROW_WORDS * row, ROW_WORDS, 1);
    }
    if (chance(1)) {
        lengthen(chance(50) ? &rule_file : &pool_file, chance(50) ? "1 2 0 0\n" : pool_row);
    }
}

static void damage_files(void)
{
    uint32_t which = below(10);
    if (which < 4 || which == 8) {
        damage(&rule_file);
    }
    if (which >= 4 && which < 9) {
        damage(&pool_file);
    }
}

/* What the answer must be. */

/* Checks a file's words; gives 100 plus the refusal, or 0. Too many lines are refusal `length_number`. */
static uint32_t refusal(gabzeril_answer read, gabzeril_answer check, uint32_t length_number)
{
    int too_long = read.number == GABZERIL_REFUSED_SHORT_OUTPUT;
    uint32_t number = too_long ? length_number : read.number != 0 ? read.number : check.number;
    return number == 0 ? 0 : 100 + number;
}

/* The answer by the separate calls; a file over `most_bytes` is refusal 1 or 8 before all others. */
static uint32_t separate_calls(const void *rule_bytes, const void *pool_bytes, size_t most_bytes)
{
    uint32_t *rule = run_of(rule_words_area, RULE_WORDS * sizeof *rule);
    uint32_t *pool = run_of(pool_words_area, POOL_WORDS * sizeof *pool);
    if (rule_file.length > most_bytes) {
        return 101;
    }
    gabzeril_answer read = gabzeril_read_rule(rule_bytes, rule_file.length, rule, RULE_WORDS);
    size_t rule_length = read.value;
    uint32_t refused = refusal(read, gabzeril_check_rule(rule, rule_length), GABZERIL_REFUSED_RULE_LENGTH);
    if (refused != 0 || pool_file.length > most_bytes) {
        return refused != 0 ? refused : 108;
    }
    read = gabzeril_read_pool(pool_bytes, pool_file.length, pool, POOL_WORDS);
    refused = refusal(read, gabzeril_check_table(pool, read.value), GABZERIL_REFUSED_TABLE_LENGTH);
    if (refused != 0) {
        return refused;
    }
    gabzeril_answer verdict = gabzeril_verdict(rule, rule_length, pool, read.value);
    return verdict.number == 0 ? (uint32_t)verdict.value : 100 + verdict.number;
}

int all_filled(const uint8_t *bytes, size_t length)
{
    for (size_t i = 0; i < length; i++) {
        if (bytes[i] != FILLED) {
            return 0;
        }
    }
    return 1;
}

/* Whether the report begins as the answer says, and leaves the bytes past it. */
static int report_agrees(const void *rule_bytes, const void *pool_bytes)
{
    char begin[80];
    uint32_t answer = separate_calls(rule_bytes, pool_bytes, PROGRAM_BYTES);
    const char *names = answer < 2 ? "verdict rows branch full marks" : "refused place";
    int begin_length = snprintf(begin, sizeof begin, "%s\n%u ", names, (unsigned)answer % 100);
    size_t room = below(2 * TEXT_BYTES);
    uint8_t *text = run_of(text_area, room);
    if (room > 0) {
        memset(text, FILLED, room);
    }
    size_t length = gabzeril_report(rule_bytes, rule_file.length, pool_bytes, pool_file.length, text, room);
    if (length == 0) {
        return room < TEXT_BYTES && all_filled(text, room);
    }
    return length <= room && length <= TEXT_BYTES && length > (size_t)begin_length &&
           memcmp(text, begin, (size_t)begin_length) == 0 && text[length - 1] == '\n' &&
           all_filled(text + length, room - length);
}

static int is_answer(uint32_t answer)
{
    return answer <= 1 || (answer >= 101 && answer <= 112) || answer == 118 || answer == 119 || answer == 126;
}

void print_case(FILE *stream)
{
    fprintf(stream, "seed %llu, case %lu: ", (unsigned long long)case_seed, case_number);
}

int agrees(int good, const char *what)
{
    if (!good) {
        print_case(stdout);
        printf("%s\n", what);
    }
    return good;
}

static unsigned long seen[127];

/* Runs the files of a case; 1 if all is as it should be. */
static int run_files(void)
{
    make_files();
    damage_files();
    const void *rule_bytes = lend(rule_area, rule_file.bytes, rule_file.length);
    const void *pool_bytes = lend(pool_area, pool_file.bytes, pool_file.length);
    uint32_t answer = gabzeril_check_files(rule_bytes, rule_file.length, pool_bytes, pool_file.length);
    if (!is_answer(answer) || answer != separate_calls(rule_bytes, pool_bytes, SIZE_MAX)) {
        print_case(stdout);
        printf("answer %u\n", (unsigned)answer);
        return 0;
    }
    seen[answer]++;
    return agrees(report_agrees(rule_bytes, pool_bytes), "report") &&
           agrees(reading_agrees(rule_bytes, rule_file.length, 1), "reading of the rule") &&
           agrees(reading_agrees(pool_bytes, pool_file.length, 0), "reading of the pool");
}

static int run_case(uint64_t seed, unsigned long number)
{
    case_seed = seed;
    case_number = number;
    random_state = (seed << 32) + number;
    int good_files = run_files(), good_order = run_order();
    random_state = ~random_state;
    int good_rules = number % 2 == 0 ? run_set() : run_plan();
    int good_template = run_template(), good_archive = run_archive();
    return run_fold() && good_files && good_order && good_rules && good_template && good_archive;
}

/* The harness itself. */

static void read_past_the_end(void)
{
    uint8_t *rule = rule_area.start + rule_area.size - (sizeof rule_line - 1);
    memcpy(rule, rule_line, sizeof rule_line - 1);
    gabzeril_check_files(rule, sizeof rule_line, NULL, 0);
}

static void write_to_an_input(void)
{
    set_access(text_area, PROT_READ);
    gabzeril_report(NULL, 0, NULL, 0, text_area.start, TEXT_BYTES);
}

/* Whether a child process that does this is ended. */
static int is_noticed(void (*fault)(void))
{
    int status = 0;
    fflush(stdout);
    pid_t child = fork();
    if (child == 0) {
        dup2(open("/dev/null", O_WRONLY), STDERR_FILENO);
        fault();
        _exit(0);
    }
    if (child < 0 || waitpid(child, &status, 0) != child) {
        stop("child");
    }
    return status != 0;
}

#ifdef __SANITIZE_ADDRESS__
static void print_last_case(void)
{
    print_case(stderr);
    fprintf(stderr, "ended the program\n");
}
#endif

static void make_areas(void)
{
    rule_area = new_area(FILE_BYTES);
    pool_area = new_area(FILE_BYTES);
    text_area = new_area(2 * TEXT_BYTES);
    rule_words_area = new_area(RULE_WORDS * sizeof(uint32_t));
    pool_words_area = new_area(POOL_WORDS * sizeof(uint32_t));
    make_areas_of_values();
    make_areas_of_sets();
    make_areas_of_plans();
    make_areas_of_templates();
    make_areas_of_archives();
    make_areas_of_folds();
}

static void print_seen(void)
{
    printf("answers:");
    for (size_t answer = 0; answer < sizeof seen / sizeof seen[0]; answer++) {
        if (seen[answer] > 0) {
            printf(" %zu:%lu", answer, seen[answer]);
        }
    }
    printf("\n");
}

/* How many answers no case gave. */
static unsigned long count_unseen(void)
{
    unsigned long unseen = 0;
    for (uint32_t answer = 0; answer < sizeof seen / sizeof seen[0]; answer++) {
        if (is_answer(answer) && seen[answer] == 0) {
            printf("no case gave the answer %u\n", (unsigned)answer);
            unseen++;
        }
    }
    return unseen;
}

int main(int argc, char **argv)
{
    unsigned long cases = argc > 1 ? strtoul(argv[1], NULL, 10) : 100000;
    uint64_t seed = argc > 2 ? strtoull(argv[2], NULL, 10) : 1;
    unsigned long first = argc > 3 ? strtoul(argv[3], NULL, 10) : 0;
    unsigned long passed = 0, failed = 0;
    make_areas();
    failed += !is_noticed(read_past_the_end);
    failed += !is_noticed(write_to_an_input);
    if (failed > 0) {
        printf("the harness does not notice a fault\n");
    }
#ifdef __SANITIZE_ADDRESS__
    __sanitizer_set_death_callback(print_last_case);
#endif
    failed += count_wrong_values();
    for (unsigned long i = 0; i < cases; i++) {
        int good = run_case(seed, first + i);
        passed += (unsigned long)good;
        failed += (unsigned long)!good;
    }
    print_seen();
    print_seen_by_values();
    print_seen_by_sets();
    print_seen_by_plans();
    print_seen_by_templates();
    print_seen_by_archives();
    print_seen_by_folds();
    if (cases >= MANY_CASES) {
        failed += count_unseen() + count_unseen_by_sets() + count_unseen_by_plans() + count_unseen_by_templates() +
                  count_unseen_by_archives() + count_unseen_by_folds();
    }
    printf("hostile: %lu passed, %lu failed\n", passed, failed);
    return failed != 0 || passed == 0;
}
