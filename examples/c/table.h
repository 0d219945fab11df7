/* A table over stores from malloc, for the examples. */
#ifndef TABLE_H
#define TABLE_H

#include <mouldgrey.h>

#include <stdio.h>
#include <stdlib.h>

struct table {
    struct mouldgrey_header header;
    uint32_t *rows, *keys, *sorts, *pending, *base;
    uint64_t *live;
    size_t rows_len, keys_len, sorts_len, pending_len, words_len;
};

/* Ends the program if a call is refused. */
static inline void check(const char *call, uint32_t number) {
    if (number != MOULDGREY_ACCEPTED) {
        fprintf(stderr, "%s: refused %u, %s\n", call, (unsigned)number, mouldgrey_refusal_text(number));
        exit(1);
    }
}

static inline void *words(size_t count, size_t size) {
    void *memory = malloc(count * size);
    if (memory == NULL) {
        fprintf(stderr, "no memory\n");
        exit(1);
    }
    return memory;
}

static inline void table_open(struct table *t, struct mouldgrey_opening opening, size_t pending_len) {
    t->rows_len = MOULDGREY_ROWS_WORDS(opening.capacity, opening.columns);
    t->keys_len = MOULDGREY_KEYS_WORDS(opening.capacity);
    t->sorts_len = MOULDGREY_SORTS_WORDS(opening.capacity);
    t->words_len = MOULDGREY_COMPACTION_WORDS(opening.capacity);
    t->pending_len = pending_len;
    t->rows = (uint32_t *)words(t->rows_len, sizeof *t->rows);
    t->keys = (uint32_t *)words(t->keys_len, sizeof *t->keys);
    t->sorts = (uint32_t *)words(t->sorts_len, sizeof *t->sorts);
    t->pending = (uint32_t *)words(t->pending_len, sizeof *t->pending);
    t->live = (uint64_t *)words(t->words_len, sizeof *t->live);
    t->base = (uint32_t *)words(t->words_len, sizeof *t->base);
    check("open", mouldgrey_open_table(&opening, &t->header, t->rows, t->rows_len, t->keys, t->keys_len, t->sorts,
                                       t->sorts_len, t->pending, t->pending_len));
}

static inline void table_close(struct table *t) {
    free(t->rows);
    free(t->keys);
    free(t->sorts);
    free(t->pending);
    free(t->live);
    free(t->base);
}

static inline void table_insert(struct table *t, const uint32_t *cells) {
    check("insert", mouldgrey_stage_insert(&t->header, t->pending, t->pending_len, cells, t->header.columns));
}

/* A merge that may stop; the caller looks at the status. */
static inline struct mouldgrey_merged table_try_merge(struct table *t) {
    struct mouldgrey_merged merged;
    check("merge", mouldgrey_merge(&t->header, t->rows, t->rows_len, t->keys, t->keys_len, t->sorts, t->sorts_len,
                                   t->pending, t->pending_len, t->live, t->words_len, t->base, t->words_len, &merged));
    return merged;
}

/* Ends the program if a merge stops. */
static inline void table_merge(struct table *t) {
    struct mouldgrey_merged merged = table_try_merge(t);
    if (merged.status != 0) {
        fprintf(stderr, "merge: stopped at insert %u, %s\n", (unsigned)merged.place,
                mouldgrey_refusal_text(merged.status));
        exit(1);
    }
}

/* Prints the live rows. Row n begins at rows[n * columns]. */
static inline void table_print(const struct table *t) {
    for (uint32_t row = 0; row < t->header.rows; row++) {
        const uint32_t *cells = t->rows + (size_t)row * t->header.columns;
        if (cells[0] == MOULDGREY_DEAD) {
            continue;
        }
        printf("row %u:", (unsigned)row);
        for (uint32_t column = 0; column < t->header.columns; column++) {
            printf(" %u", (unsigned)cells[column]);
        }
        printf("\n");
    }
}

#endif
