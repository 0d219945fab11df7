/* Copies the live rows of a full table into a new, larger one. Row numbers and the largest sort value are not kept, so the new table
 * gets a generation that the old one never had. To grow a table and keep them, use an image: see image.c. */
#include "table.h"

static void move_rows(const struct table *from, struct table *to) {
    for (uint32_t row = 0; row < from->header.rows; row++) {
        const uint32_t *cells = from->rows + (size_t)row * from->header.columns;
        if (cells[0] != MOULDGREY_DEAD) {
            table_insert(to, cells);
        }
    }
    table_merge(to);
}

int main(void) {
    struct table small, large;
    struct mouldgrey_opening opening = {2, 1, 1, MOULDGREY_TAKE_NEW, 2, 5};
    table_open(&small, opening, 64);
    const uint32_t rows[3][2] = {{7, 10}, {8, 10}, {9, 11}};
    for (int row = 0; row < 3; row++) {
        table_insert(&small, rows[row]);
    }
    const struct mouldgrey_merged merged = table_try_merge(&small);
    printf("insert %u: %s\n", (unsigned)merged.place, mouldgrey_refusal_text(merged.status));

    opening.capacity = 4;
    opening.generation = small.header.generation + 1;
    table_open(&large, opening, 64);
    move_rows(&small, &large);
    table_insert(&large, rows[2]);
    table_merge(&large);
    table_print(&large);
    table_close(&small);
    table_close(&large);
    return 0;
}
