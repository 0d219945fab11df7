/* All rows of a level and a stamp, a page of three places at a time; then the rows since a noted version. */
#include "table.h"

enum { LEVEL = 1, STAMP = 2 };

int main(void) {
    struct table t;
    const struct mouldgrey_opening opening = {3, 1, STAMP, MOULDGREY_TAKE_NEW, 100, 0};
    table_open(&t, opening, 256);
    for (uint32_t modem = 0; modem < 8; modem++) {
        const uint32_t cells[3] = {modem, 140 + 5 * modem, 10 + modem / 2};
        table_insert(&t, cells);
    }
    table_merge(&t);
    struct mouldgrey_version noted;
    check("version", mouldgrey_table_version(&t.header, &noted));
    const uint32_t corrected[3] = {6, 171, 14};
    table_insert(&t, corrected);
    table_merge(&t);

    const struct mouldgrey_constraint conditions[2] = {{MOULDGREY_AT_LEAST, LEVEL, 155}, {MOULDGREY_AT_LEAST, STAMP, 11}};
    const struct mouldgrey_subset all = {1, 0, t.header.rows};
    uint32_t output[3];
    struct mouldgrey_page page = {0, 0, 1, 0};
    while (page.has_next) {
        const uint32_t place = page.next;
        check("page", mouldgrey_read_page(&t.header, t.rows, t.rows_len, &all, NULL, 0, place, 3, conditions, 2, output, 3,
                                          &page));
        printf("from place %u: %u dead, rows", (unsigned)place, (unsigned)page.dead);
        for (uint32_t id = 0; id < page.written; id++) {
            printf(" %u", (unsigned)output[id]);
        }
        printf("\n");
    }

    struct mouldgrey_range since;
    check("since", mouldgrey_rows_since_version(&t.header, &noted, &since));
    printf("rows since the note: %u..%u\n", (unsigned)since.start, (unsigned)since.end);
    check("compact", mouldgrey_compact(&t.header, t.rows, t.rows_len, t.keys, t.keys_len, t.sorts, t.sorts_len, t.live,
                                       t.words_len, t.base, t.words_len));
    printf("after a compaction: %s\n",
           mouldgrey_refusal_text(mouldgrey_rows_since_version(&t.header, &noted, &since)));
    table_close(&t);
    return 0;
}
