/* The rules of src/pair_inputs.rs as plain nested loops: what a C program does that knows its rule. Their instructions
 * are counted beside those of the library's calls, with the lists of children, which each function makes anew.
 *
 * Tables are taken as accepted: nothing is checked. Each function returns the verdict, 1 true or 0 false, and
 * stops where it is decided. Those with marks write a byte for each row, and the marks are complete where the verdict
 * is true.
 *
 * The last function folds a table by comparing each row with all that are left before it.
 */
#include "lists.h"

#include <string.h>

/* Names of rows, and a mode, as in src/pair_inputs.rs. */
enum {
    DEVICE = 1,
    MODE = 2,
    INTERFACE = 3,
    ADDRESS = 4,
    LIST = 21,
    ENTRY = 22,
    LOW = 23,
    HIGH = 24,
    ROUTE = 25,
    NEXT_HOP = 26
};
enum { SERVER = 2 };

uint32_t loops_interfaces_share(const uint32_t *pool, size_t length)
{
    struct table table;
    list_children(&table, pool, length);
    EACH(d, &table.top, DEVICE) {
        EACH(i, d, INTERFACE) {
            EACH(j, d, INTERFACE) {
                EACH(a, i, ADDRESS) {
                    EACH(b, j, ADDRESS) {
                        if (a->value == b->value && i->value != j->value) {
                            return 0;
                        }
                    }
                }
            }
        }
    }
    return 1;
}

uint32_t loops_devices_share(const uint32_t *pool, size_t length)
{
    struct table table;
    list_children(&table, pool, length);
    EACH(d, &table.top, DEVICE) {
        EACH(e, &table.top, DEVICE) {
            EACH(i, d, INTERFACE) {
                EACH(j, e, INTERFACE) {
                    EACH(a, i, ADDRESS) {
                        EACH(b, j, ADDRESS) {
                            if (a->value == b->value && d->value != e->value) {
                                return 0;
                            }
                        }
                    }
                }
            }
        }
    }
    return 1;
}

/* Whether the one entry ends before the other begins. */
static int is_before(const struct row *one, const struct row *other)
{
    EACH(high, one, HIGH) {
        EACH(low, other, LOW) {
            if (high->value >= low->value) {
                return 0;
            }
        }
    }
    return 1;
}

uint32_t loops_entries_overlap(const uint32_t *pool, size_t length)
{
    struct table table;
    list_children(&table, pool, length);
    EACH(d, &table.top, DEVICE) {
        EACH(l, d, LIST) {
            EACH(e, l, ENTRY) {
                EACH(f, l, ENTRY) {
                    if (e->value != f->value && !is_before(e, f) && !is_before(f, e)) {
                        return 0;
                    }
                }
            }
        }
    }
    return 1;
}

static int some_at_most(const struct row *interface, const struct row *hop)
{
    EACH(low, interface, LOW) {
        if (low->value <= hop->value) {
            return 1;
        }
    }
    return 0;
}

static int some_at_least(const struct row *interface, const struct row *hop)
{
    EACH(high, interface, HIGH) {
        if (hop->value <= high->value) {
            return 1;
        }
    }
    return 0;
}

static int in_some_range(const struct row *device, const struct row *hop)
{
    EACH(i, device, INTERFACE) {
        if (some_at_most(i, hop) && some_at_least(i, hop)) {
            return 1;
        }
    }
    return 0;
}

uint32_t loops_next_hops(const uint32_t *pool, size_t length)
{
    struct table table;
    list_children(&table, pool, length);
    EACH(d, &table.top, DEVICE) {
        EACH(r, d, ROUTE) {
            EACH(h, r, NEXT_HOP) {
                if (!in_some_range(d, h)) {
                    return 0;
                }
            }
        }
    }
    return 1;
}

/* A true "for every" marks each row that it ranges over. The comparisons mark no others. */
uint32_t loops_mark_interfaces_share(const uint32_t *pool, size_t length, uint8_t *marks)
{
    struct table table;
    list_children(&table, pool, length);
    memset(marks, 0, length / GABZERIL_ROW_WORDS);
    EACH(d, &table.top, DEVICE) {
        marks[d - table.rows] = 1;
        EACH(i, d, INTERFACE) {
            marks[i - table.rows] = 1;
            EACH(j, d, INTERFACE) {
                marks[j - table.rows] = 1;
                EACH(a, i, ADDRESS) {
                    marks[a - table.rows] = 1;
                    EACH(b, j, ADDRESS) {
                        marks[b - table.rows] = 1;
                        if (a->value == b->value && i->value != j->value) {
                            return 0;
                        }
                    }
                }
            }
        }
    }
    return 1;
}

/* Whether some mode of the device is a server's. If none is, the modes are the reason for it. */
static int is_server(const struct table *table, const struct row *device, uint8_t *marks)
{
    EACH(mode, device, MODE) {
        if (mode->value == SERVER) {
            return 1;
        }
    }
    EACH(mode, device, MODE) {
        marks[mode - table->rows] = 1;
    }
    return 0;
}

static int some_two_equal(const struct row *const *devices, int count)
{
    for (int one = 0; one < count; one++) {
        for (int other = one + 1; other < count; other++) {
            if (devices[one]->value == devices[other]->value) {
                return 1;
            }
        }
    }
    return 0;
}

/* The loops from the one over the device `bound` on, of `count` around one another. A device that is no server decides
 * whatever those further in are; they are the same devices, so the outermost loop marks them all. */
static int mark_servers(const struct table *table, const struct row **devices, int bound, int count, uint8_t *marks)
{
    if (bound == count) {
        return some_two_equal(devices, count);
    }
    EACH(d, &table->top, DEVICE) {
        marks[d - table->rows] = 1;
        devices[bound] = d;
        if (is_server(table, d, marks) && !mark_servers(table, devices, bound + 1, count, marks)) {
            return 0;
        }
    }
    return 1;
}

static uint32_t mark_at_most(int servers, const uint32_t *pool, size_t length, uint8_t *marks)
{
    struct table table;
    const struct row *devices[GABZERIL_NESTING_LIMIT];
    list_children(&table, pool, length);
    memset(marks, 0, length / GABZERIL_ROW_WORDS);
    return (uint32_t)mark_servers(&table, devices, 0, servers + 1, marks);
}

uint32_t loops_mark_two_servers(const uint32_t *pool, size_t length, uint8_t *marks)
{
    return mark_at_most(2, pool, length, marks);
}

uint32_t loops_mark_four_servers(const uint32_t *pool, size_t length, uint8_t *marks)
{
    return mark_at_most(4, pool, length, marks);
}

static int is_row(const uint32_t *row, uint32_t up, uint32_t name, uint32_t value)
{
    return row[GABZERIL_UP] == up && row[GABZERIL_NAME] == name && row[GABZERIL_VALUE] == value;
}

/* The table of one device, without a fault but equal siblings; `folded` has room for all its rows. Returns how many are
 * left. */
size_t loops_fold(const uint32_t *table, size_t length, uint32_t *folded)
{
    uint16_t now[GABZERIL_NAME_LIMIT + 1]; /* by at: the row itself, or the one that it went into */
    uint32_t *end = folded;
    for (const uint32_t *row = table; row < table + length; row += GABZERIL_ROW_WORDS) {
        uint32_t up = row[GABZERIL_UP] == 0 ? 0 : now[row[GABZERIL_UP]], *left = folded;
        while (left < end && !is_row(left, up, row[GABZERIL_NAME], row[GABZERIL_VALUE])) {
            left += GABZERIL_ROW_WORDS;
        }
        if (left == end) {
            memcpy(left, row, GABZERIL_ROW_WORDS * sizeof *row);
            left[GABZERIL_UP] = up;
            end += GABZERIL_ROW_WORDS;
        }
        now[row[GABZERIL_AT]] = (uint16_t)left[GABZERIL_AT];
    }
    return (size_t)(end - folded) / GABZERIL_ROW_WORDS;
}
