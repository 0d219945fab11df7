/*
 * A first program: opens a table, stages, merges, queries and checks soundness, and shows what is refused.
 * Columns: modem, side (1 before the diplexer, 2 after), level, stamp. Modem and side are the key.
 */
#include "table.h"

enum { LEVEL = 2, STAMP = 3 };

static uint32_t insert(struct table *t, uint32_t modem, uint32_t side, uint32_t level, uint32_t stamp) {
    const uint32_t cells[4] = {modem, side, level, stamp};
    return mouldgrey_stage_insert(&t->header, t->pending, t->pending_len, cells, 4);
}

static void merge(struct table *t) {
    const struct mouldgrey_merged merged = table_try_merge(t);
    printf("merge: status %u, place %u, added %u\n", (unsigned)merged.status, (unsigned)merged.place,
           (unsigned)merged.added);
}

static void print_version(const struct table *t) {
    struct mouldgrey_version version;
    check("version", mouldgrey_table_version(&t->header, &version));
    printf("version: generation %u, %u rows\n", (unsigned)version.generation, (unsigned)version.rows);
}

static void print_level(const struct table *t, uint32_t modem, uint32_t side) {
    const uint32_t key[2] = {modem, side};
    struct mouldgrey_cell level;
    check("one cell",
          mouldgrey_get_row_column(&t->header, t->rows, t->rows_len, t->keys, t->keys_len, key, 2, LEVEL, &level));
    if (level.found) {
        printf("level of modem %u, side %u: %u\n", (unsigned)modem, (unsigned)side, (unsigned)level.cell);
    } else {
        printf("level of modem %u, side %u: none\n", (unsigned)modem, (unsigned)side);
    }
}

/* The rows with a stamp, first as a fast range, then the live ones of it. */
static void print_stamped(const struct table *t, uint32_t stamp) {
    const struct mouldgrey_constraint condition = {MOULDGREY_EQUAL, STAMP, stamp};
    struct mouldgrey_range range;
    check("fast range", mouldgrey_fast_subset(&t->header, t->sorts, t->sorts_len, &condition, &range));
    printf("stamp %u: rows %u..%u", (unsigned)stamp, (unsigned)range.start, (unsigned)range.end);
    const struct mouldgrey_subset subset = {1, range.start, range.end};
    uint32_t output[100];
    struct mouldgrey_subset live;
    check("refine", mouldgrey_refine_one(&t->header, t->rows, t->rows_len, &subset, NULL, 0, &condition, output, 100,
                                         &live));
    if (live.dense) {
        printf(", live %u..%u\n", (unsigned)live.start, (unsigned)live.end);
    } else {
        printf(", live: %u ids\n", (unsigned)live.end);
    }
}

static void print_soundness(const struct table *t) {
    uint32_t sound;
    check("soundness", mouldgrey_is_sound(&t->header, t->rows, t->rows_len, t->keys, t->keys_len, t->sorts,
                                          t->sorts_len, t->pending, t->pending_len, &sound));
    printf("sound: %s\n", sound ? "yes" : "no");
}

static void print_common(void) {
    const struct mouldgrey_subset first = {0, 0, 0}, second = {1, 3, 8};
    const uint32_t ids[4] = {1, 3, 5, 8};
    uint32_t output[4];
    struct mouldgrey_subset common;
    check("intersect", mouldgrey_intersect(&first, ids, 4, &second, NULL, 0, output, 4, &common));
    printf("{1, 3, 5, 8} with 3..8:");
    for (uint32_t place = 0; place < common.end; place++) {
        printf(" %u", (unsigned)output[place]);
    }
    printf("\n");
}

int main(void) {
    struct table t;
    const struct mouldgrey_opening opening = {4, 2, STAMP, MOULDGREY_TAKE_NEW, 100, 0};
    table_open(&t, opening, 256);
    check("insert", insert(&t, 7, 1, 160, 10));
    check("insert", insert(&t, 7, 2, 148, 10));
    merge(&t);
    check("insert", insert(&t, 7, 1, 163, 12));
    const uint32_t after[2] = {7, 2};
    check("removal", mouldgrey_stage_remove(&t.header, t.pending, t.pending_len, after, 2));
    merge(&t);
    print_version(&t);
    table_print(&t);
    print_level(&t, 7, 1);
    print_level(&t, 7, 2);
    print_stamped(&t, 10);
    print_stamped(&t, 12);
    print_common();
    print_soundness(&t);

    /* An old stamp stops a merge. What the batch did before would stay; here there is nothing. */
    check("insert", insert(&t, 8, 1, 150, 11));
    merge(&t);

    /* Refusals change nothing. */
    const uint32_t short_row[3] = {1, 2, 3};
    printf("three cells: %s\n",
           mouldgrey_refusal_text(mouldgrey_stage_insert(&t.header, t.pending, t.pending_len, short_row, 3)));
    printf("short key store: %s\n", mouldgrey_refusal_text(mouldgrey_clear(&t.header, t.keys, t.keys_len - 1)));

    check("compact", mouldgrey_compact(&t.header, t.rows, t.rows_len, t.keys, t.keys_len, t.sorts, t.sorts_len, t.live,
                                       t.words_len, t.base, t.words_len));
    print_version(&t);
    table_print(&t);

    /* A changed level is still a sound table: keep a checksum. A changed stamp is not. */
    t.rows[LEVEL] = 164;
    print_soundness(&t);
    t.rows[STAMP] = 13;
    print_soundness(&t);
    table_close(&t);
    return 0;
}
