/*
 * A diplexer type is renumbered: all rows that mention it get a new stamp. The merge that follows can stop; the program shows
 * how to see that and what is lost then. Columns: modem, diplexer type, stamp.
 */
#include "table.h"

enum { CAPACITY = 4, TYPE = 1 };

int main(void) {
    struct table t;
    const struct mouldgrey_opening opening = {3, 1, 2, MOULDGREY_TAKE_NEW, CAPACITY, 0};
    table_open(&t, opening, 256);
    const uint32_t rows[3][3] = {{7, 40, 10}, {8, 41, 10}, {9, 40, 11}};
    for (int row = 0; row < 3; row++) {
        table_insert(&t, rows[row]);
    }
    table_merge(&t);

    /* The index store is new if its first word is 0. It stays with this table. */
    uint32_t index[MOULDGREY_INDEX_WORDS(CAPACITY, 1)];
    index[0] = 0;
    const uint32_t columns[1] = {TYPE}, values[1] = {41};
    uint32_t staged;
    check("refresh", mouldgrey_refresh_rows_for_values(&t.header, t.rows, t.rows_len, t.pending, t.pending_len, index,
                                                       MOULDGREY_INDEX_WORDS(CAPACITY, 1), columns, 1, values, 1, 12,
                                                       &staged));
    printf("type 41: %s\n", staged ? "staged" : "no row");
    table_merge(&t);
    table_print(&t);

    /* The table is full now: row 1 is dead, and four rows are in the store. A refresh of two rows cannot append them. */
    const uint32_t others[1] = {40};
    check("refresh", mouldgrey_refresh_rows_for_values(&t.header, t.rows, t.rows_len, t.pending, t.pending_len, index,
                                                       MOULDGREY_INDEX_WORDS(CAPACITY, 1), columns, 1, others, 1, 13,
                                                       &staged));
    const struct mouldgrey_merged merged = table_try_merge(&t);
    printf("type 40: status %u at insert %u, %s\n", (unsigned)merged.status, (unsigned)merged.place,
           mouldgrey_refusal_text(merged.status));
    table_print(&t);
    printf("the removals took effect: compact before such a refresh, or grow the table\n");
    table_close(&t);
    return 0;
}
