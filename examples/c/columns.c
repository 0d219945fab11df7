/* Rows in column order, each cell but a column's first as its difference from the cell above: and back. */
#include "table.h"

static void print(const char *name, const uint32_t *cells, size_t count) {
    printf("%s:", name);
    for (size_t place = 0; place < count; place++) {
        printf(" %u", (unsigned)cells[place]);
    }
    printf("\n");
}

int main(void) {
    const uint32_t rows[6] = {7, 160, 7, 163, 8, 158};
    uint32_t columns[6], again[6];
    check("to columns", mouldgrey_to_columns(2, rows, 6, columns, 6));
    check("from columns", mouldgrey_from_columns(2, columns, 6, again, 6));
    print("rows", rows, 6);
    print("columns", columns, 6);
    print("rows", again, 6);
    printf("five cells: %s\n", mouldgrey_refusal_text(mouldgrey_to_columns(2, rows, 5, columns, 6)));
    return 0;
}
