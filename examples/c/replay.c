/* A list of calls and a list of queries, each in one call of the library. */
#include "table.h"

int main(void) {
    const struct mouldgrey_opening opening = {2, 1, 1, MOULDGREY_TAKE_NEW, 10, 0};
    const uint32_t calls[] = {
        MOULDGREY_CALL_INSERT, 2, 7, 10, MOULDGREY_CALL_INSERT,  2, 8, 10,
        MOULDGREY_CALL_MERGE,  0,        MOULDGREY_CALL_REFRESH, 4, 1, 0, 12, 8,
        MOULDGREY_CALL_MERGE,  0,
    };
    struct mouldgrey_header header;
    uint32_t rows[20], keys[20], sorts[20], pending[64], base[1], index[MOULDGREY_INDEX_WORDS(10, 1)] = {0};
    uint64_t live[1];
    check("replay", mouldgrey_replay(&opening, &header, calls, sizeof calls / sizeof calls[0], rows, 20, keys, 20, sorts, 20,
                                     pending, 64, live, 1, base, 1, index, MOULDGREY_INDEX_WORDS(10, 1)));
    printf("%u rows, %u dead\n", (unsigned)header.rows, (unsigned)header.dead);

    const uint32_t queries[] = {
        MOULDGREY_QUERY_INTERSECT_FAST, 3, MOULDGREY_AT_LEAST, 1, 10,
        MOULDGREY_QUERY_REFINE_ONE,     3, MOULDGREY_EQUAL,    0, 8,
    };
    const struct mouldgrey_subset all = {1, 0, header.rows};
    uint32_t first[10], second[10];
    struct mouldgrey_query_result left;
    check("queries", mouldgrey_run_queries(&header, rows, 20, sorts, 20, &all, NULL, 0, queries,
                                           sizeof queries / sizeof queries[0], first, 10, second, 10, &left));
    printf("left: %s %u..%u, %u queries taken\n", left.dense ? "range" : "list", (unsigned)left.start, (unsigned)left.end,
           (unsigned)left.taken);
    return 0;
}
