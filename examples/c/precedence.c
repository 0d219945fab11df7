/*
 * A level after the diplexer (side 2) counts only if the level before it (side 1) is on file by then. Columns: modem, side,
 * level, stamp; the side is key column 1.
 */
#include "table.h"

static void report(const struct table *t) {
    const uint32_t pairs[2] = {2, 1};
    struct mouldgrey_failure failure;
    check("precedence",
          mouldgrey_check_precedence(&t->header, t->rows, t->rows_len, t->keys, t->keys_len, 1, pairs, 2, &failure));
    if (failure.found) {
        printf("row %u fails pair %u\n", (unsigned)failure.row, (unsigned)failure.pair);
    } else {
        printf("every row meets its pairs\n");
    }
}

int main(void) {
    struct table t;
    const struct mouldgrey_opening opening = {4, 2, 3, MOULDGREY_TAKE_NEW, 100, 0};
    table_open(&t, opening, 256);
    const uint32_t rows[3][4] = {{7, 1, 160, 10}, {7, 2, 148, 11}, {8, 2, 150, 12}};
    table_insert(&t, rows[0]);
    table_insert(&t, rows[1]);
    table_merge(&t);
    report(&t);
    table_insert(&t, rows[2]);
    table_merge(&t);
    report(&t);
    table_close(&t);
    return 0;
}
