/* A table as a listing, read again, converted, and a laboratory's answers about it checked. */
#include "table.h"

static uint8_t text[4096], other[4096];
static uint32_t cells[2048];

int main(void) {
    struct table t;
    const struct mouldgrey_opening opening = {3, 1, 2, MOULDGREY_TAKE_NEW, 40, 0};
    table_open(&t, opening, 256);
    const uint32_t rows[3][3] = {{7, 160, 10}, {8, 148, 10}, {7, 163, 12}};
    for (int row = 0; row < 3; row++) {
        table_insert(&t, rows[row]);
    }
    table_merge(&t);

    uint64_t length;
    check("write", mouldgrey_write_listing(&t.header, t.rows, t.rows_len, 1, text, sizeof text, &length));
    printf("%.*s", (int)length, (const char *)text);

    struct mouldgrey_numbered_listing listing;
    check("read", mouldgrey_read_numbered(text, length, cells, 2048, &listing));
    printf("%u of %u rows\n", (unsigned)listing.listed, (unsigned)listing.count);
    for (uint32_t row = 0; row < listing.listed; row++) {
        const uint32_t *line = cells + (size_t)row * (listing.columns + 1);
        printf("row %u: %u %u %u\n", (unsigned)line[0], (unsigned)line[1], (unsigned)line[2], (unsigned)line[3]);
    }

    /* Row 0 is dead, so that the old form cannot keep the numbers. */
    uint64_t converted;
    printf("to the old form: %s\n",
           mouldgrey_refusal_text(mouldgrey_from_numbered(text, length, other, sizeof other, &converted)));

    /* A laboratory's tool found rows 1 and 2 for "level at least 150". */
    const struct mouldgrey_constraint condition = {MOULDGREY_AT_LEAST, 1, 150};
    const uint32_t given[2] = {1, 2};
    struct mouldgrey_verdict verdict;
    check("check", mouldgrey_check_answers(text, length, &condition, 1, given, 2, &verdict));
    printf("verdict: kind %u, number %u\n", (unsigned)verdict.kind, (unsigned)verdict.number);
    table_close(&t);
    return 0;
}
