/* The rows of a table as lists of children, for loops.c. The table is taken as accepted. */
#ifndef LISTS_H
#define LISTS_H

#include "gabzeril.h"

struct row {
    uint32_t name;
    int32_t value;
    struct row *first, *last; /* its children, in the table's order */
    struct row *next;         /* the next child of the same parent */
};

struct table {
    struct row rows[GABZERIL_ROW_LIMIT];
    struct row top; /* its children are the roots */
};

static void hang(struct row *parent, struct row *row)
{
    if (parent->first == NULL) {
        parent->first = row;
    } else {
        parent->last->next = row;
    }
    parent->last = row;
}

static void list_children(struct table *table, const uint32_t *words, size_t length)
{
    /* By at; a parent is an earlier row of the same device, so what other devices left is not looked at. */
    uint16_t places[GABZERIL_NAME_LIMIT + 1];
    table->top = (struct row){.first = NULL};
    for (size_t place = 0; place < length / GABZERIL_ROW_WORDS; place++) {
        const uint32_t *word = words + GABZERIL_ROW_WORDS * place;
        struct row *row = table->rows + place;
        *row = (struct row){.name = word[GABZERIL_NAME], .value = gabzeril_value(word[GABZERIL_VALUE])};
        places[word[GABZERIL_AT]] = (uint16_t)place;
        uint32_t up = word[GABZERIL_UP];
        hang(up == 0 ? &table->top : table->rows + places[up], row);
    }
}

/* The first row of this name in the rest of a list. */
static const struct row *named(const struct row *row, uint32_t name)
{
    while (row != NULL && row->name != name) {
        row = row->next;
    }
    return row;
}

/* A loop over the rows of a name under a parent. */
#define EACH(bound, parent, name) \
    for (const struct row *bound = named((parent)->first, name); bound != NULL; bound = named(bound->next, name))

#endif
