/*
 * Mouldgrey: an embedded table of uint32_t cells for archives. Rows are found by key, recorded in the
 * order of a sort column, and kept in memory that the caller provides. The library is written in
 * Rattle, a language in which every function is proved to meet its contract. It allocates nothing,
 * keeps no state of its own and calls nothing but memcpy and memset.
 *
 * Link with -lmouldgrey (libmouldgrey.a or libmouldgrey.so).
 *
 *
 * A TABLE is a header and four stores:
 *
 *   header    struct mouldgrey_header
 *   rows      at least MOULDGREY_ROWS_WORDS(capacity, columns) words. Row n begins at rows[n * columns].
 *   keys      at least MOULDGREY_KEYS_WORDS(capacity) words, the key index
 *   sorts     at least MOULDGREY_SORTS_WORDS(capacity) words, the sort entries
 *   pending   any number of words, the staged records. An insert takes columns + 2 words, a removal by
 *             key keys + 2, a removal by row keys + 3.
 *
 * Merge and compact also need compaction words: MOULDGREY_COMPACTION_WORDS(capacity) of uint64_t and as
 * many of uint32_t. They hold nothing between two calls. A refresh needs an index store, which it keeps.
 *
 * A store is passed as a pointer and its length in words. It may be longer than needed; words beyond
 * those needed are never written. A pointer may be null where its length is 0. Headers and answers are
 * structs, passed by pointer without a length.
 *
 * REFUSALS. A function returns 0 if the call is accepted, else the number of the refusal: the first that
 * applies, in the order listed with the function. A refused call has changed nothing: no header, no
 * store, no output, no answer. mouldgrey_refusal_text gives a sentence for each number. In the lists below,
 * 1 alone means a header number out of bounds, and 2 alone a store that is too short.
 *
 * SAFETY. Every call ends and does nothing undefined, whatever numbers the header and the stores hold:
 * no check is needed before a call, not even of a header or of stores that come from elsewhere. The
 * meaning of answers is guaranteed for sound tables: those that mouldgrey_open_table and later calls
 * have left, and those that mouldgrey_is_sound accepts.
 *
 * The caller must ensure what no proof can:
 *
 *   - A pointer with a length above 0 is valid for that many words and aligned for them. A pointer without
 *     a length (to a struct or a single answer) is valid, aligned and not null.
 *   - An answer does not overlap an argument.
 *   - Stores that are passed to one call do not overlap if one of them may be written (no const).
 *   - While a call writes a header, a store or an output, no other thread reads or writes it. Calls that
 *     take the header and all stores as const may run concurrently on one table, each with its own outputs.
 *   - The thread has enough stack: about 600 KiB for mouldgrey_check_image and mouldgrey_read_image.
 *
 * HOW TO SAVE AND LOAD. Save an IMAGE of the table: mouldgrey_write_image writes header, rows, sort entries
 * and staged records as one array of 32-bit words, with a text of your own and a checksum. The array is
 * the file: write its bytes. Only words in use are in it, so stores need not be cleared, and the key index
 * is not in it. To load, read the file into an array of words (a file whose length is no multiple of four
 * is no image), call mouldgrey_check_image, which gives the header, make stores for its numbers, with room
 * for more in pending, and call mouldgrey_read_image.
 *
 * An image is accepted only if its lengths and its checksum are right and its table is sound. A change
 * within four neighbouring bytes is always refused; other changes escape the checksum with probability
 * 2^-32. Words have their lowest byte first, which is the order in memory on x86-64. docs/FORMAT.md
 * describes every word.
 *
 * The file must be replaced as a whole: write a second file beside it, fsync it, and rename it over the
 * first. The program mouldgrey does so (docs/GUIDE.md).
 *
 * HOW TO GROW. Write an image, and read it with a larger capacity into stores of that capacity. Row
 * numbers, generation, largest sort value and staged records stay as they are. Index stores must be new.
 */
#ifndef MOULDGREY_H
#define MOULDGREY_H

#include <stddef.h>
#include <stdint.h>

#ifdef __cplusplus
extern "C" {
#endif

/* The version of this header: major * 1000000 + minor * 1000 + patch. */
#define MOULDGREY_VERSION 1000

/* The version of the library that is linked; equal to MOULDGREY_VERSION if header and library match. */
uint32_t mouldgrey_library_version(void);

/* ------------------------------------------------------------------------------------- refusals -- */

/* The call was accepted. */
#define MOULDGREY_ACCEPTED 0
/* A number of the opening or the header, or a width, is outside its bounds, or more pending words are in
 * use than the pending store has. */
#define MOULDGREY_OUT_OF_BOUNDS 1
/* A store or an output is shorter than needed. */
#define MOULDGREY_TOO_SHORT 2
/* The number of cells is not the number of columns, or of key columns. */
#define MOULDGREY_WRONG_WIDTH 3
/* A range starts above its end; a list does not rise strictly or has more than 65536 ids. */
#define MOULDGREY_MALFORMED_SUBSET 4
/* A row number, the end of a subset or a start place is past the row count or the subset's size. */
#define MOULDGREY_PAST_THE_ROWS 5
/* No such column, or no key column where one is needed; an unknown kind of condition. */
#define MOULDGREY_NO_SUCH_COLUMN 6
/* Fewer free pending words than the record takes, or than all records of a refresh take. */
#define MOULDGREY_PENDING_FULL 7
/* A merge stops: a row must be appended and the table is full. */
#define MOULDGREY_TABLE_FULL 8
/* A merge stops: a row must be appended and its sort value is below the largest one appended. A refresh
 * is refused: its stamp is below that value. */
#define MOULDGREY_OLD_SORT_VALUE 9
/* The generation is 4294967295 and cannot rise. */
#define MOULDGREY_LAST_GENERATION 10
/* The text is no listing of the form that the function reads. */
#define MOULDGREY_NO_LISTING 11
/* More than eight columns are named. */
#define MOULDGREY_TOO_MANY_COLUMNS 12
/* The number of cells is not a multiple of the width. */
#define MOULDGREY_BROKEN_ROW 13
/* The number of pairs is outside 1 to 16. */
#define MOULDGREY_PAIR_COUNT 14
/* A sequence has more than six steps, or a step above 6. */
#define MOULDGREY_UNKNOWN_SEQUENCE 15
/* The position is past that of the last sequence, 137256. */
#define MOULDGREY_PAST_THE_LAST 16
/* A number below the listing's row count has no row. */
#define MOULDGREY_MISSING_ROW 17
/* The noted version has another generation or more rows than the table. */
#define MOULDGREY_OLD_NOTE 18
/* The words are no image. */
#define MOULDGREY_NO_IMAGE 19
/* The words are an image of a table that is not sound. */
#define MOULDGREY_UNSOUND_IMAGE 20
/* A text has more than 4096 bytes. */
#define MOULDGREY_TEXT_TOO_LONG 21

/* A sentence in English for a number above, without a newline; "unknown refusal" for any other number. The string is static. */
const char *mouldgrey_refusal_text(uint32_t number);

/* --------------------------------------------------------------------------------------- limits -- */

#define MOULDGREY_MOST_COLUMNS 8
#define MOULDGREY_MOST_ROWS 65536
/* The most ids in a list. */
#define MOULDGREY_LONGEST_LIST 65536
/* The most bytes of the text in an image. */
#define MOULDGREY_LONGEST_TEXT 4096
/* The first cell of a dead row. In any other column this is an ordinary value. */
#define MOULDGREY_DEAD 4294967295u

/* Words that a store needs. */
#define MOULDGREY_ROWS_WORDS(capacity, columns) ((size_t)(capacity) * (size_t)(columns))
#define MOULDGREY_KEYS_WORDS(capacity) (2 * (size_t)(capacity))
#define MOULDGREY_SORTS_WORDS(capacity) (2 * (size_t)(capacity))
#define MOULDGREY_COMPACTION_WORDS(capacity) (((size_t)(capacity) + 63) / 64)
/* An index store for this many named columns; a column that is named twice counts twice. */
#define MOULDGREY_INDEX_WORDS(capacity, named) (16 + 3 * (size_t)(capacity) * (size_t)(named))
/* Pending words of a staged record; a refresh takes a removal by row and an insert for each row. */
#define MOULDGREY_INSERT_WORDS(columns) ((size_t)(columns) + 2)
#define MOULDGREY_REMOVE_WORDS(keys) ((size_t)(keys) + 2)
#define MOULDGREY_REMOVE_ROW_WORDS(keys) ((size_t)(keys) + 3)

/* Outputs that are always long enough. */
/* mouldgrey_read_listing and mouldgrey_read_numbered, in words, for a text of so many bytes. */
#define MOULDGREY_LISTING_WORDS(text_len) ((size_t)(text_len) / 2)
/* mouldgrey_to_numbered, in bytes. mouldgrey_from_numbered needs no more bytes than its text has. */
#define MOULDGREY_NUMBERED_BYTES(text_len) (3 * (size_t)(text_len))
/* mouldgrey_write_listing, in bytes, in either form, for so many rows (header.rows). */
#define MOULDGREY_LISTING_BYTES(rows, columns)                                                         \
    (68 + (size_t)(rows) * (2 + 11 * ((size_t)(columns) + 1)))
/* mouldgrey_write_image, in words: exactly as many as the image has. rows, columns, entries and pending are
 * the header's; text_len is in bytes. */
#define MOULDGREY_IMAGE_WORDS(rows, columns, entries, pending, text_len)                               \
    (16 + ((size_t)(text_len) + 3) / 4 + (size_t)(rows) * (size_t)(columns) + 2 * (size_t)(entries) +  \
     (size_t)(pending))

/* -------------------------------------------------------------------------------------- structs -- */

/* What a table is opened with. */
struct mouldgrey_opening {
    uint32_t columns;    /* 1 to 8 */
    uint32_t keys;       /* the first 1 to `columns` columns are the key */
    uint32_t sort;       /* the sort column; it may be a key column */
    uint32_t rule;       /* the merge rule, 0 to 3 */
    uint32_t capacity;   /* the most rows, dead ones included: 1 to 65536 */
    uint32_t generation; /* the first generation */
};

/* Merge rules: what becomes of a known key's row when a new row with that key is inserted. Key cells are
 * equal; the sort cell of a row that is made is the new row's. "Such a cell" is one outside keys and
 * sort column. If no such cell changes, the old row stays as it is, with its old sort cell. */
#define MOULDGREY_KEEP_OLD 0     /* the old row stays */
#define MOULDGREY_TAKE_NEW 1     /* such cells are the new row's */
#define MOULDGREY_TAKE_SMALLER 2 /* the smaller of each such cell, as int32_t: 4294967295 is -1 */
#define MOULDGREY_TAKE_LARGER 3  /* the larger of each such cell, as int32_t */

/* A header. The first five numbers are the opening's. */
struct mouldgrey_header {
    uint32_t columns;
    uint32_t keys;
    uint32_t sort;
    uint32_t rule;
    uint32_t capacity;
    uint32_t rows;       /* rows in the row store, dead ones included */
    uint32_t dead;       /* dead rows among them */
    uint32_t entries;    /* sort entries: pairs of words in use in sorts */
    uint32_t pending;    /* words in use in pending */
    uint32_t generation; /* rises with each compaction, and with a clear that drops rows */
    /* The largest sort value appended since opening or the last clear that dropped rows. */
    uint32_t has_largest; /* 1 if there is one, else 0 */
    uint32_t largest;     /* the value; 0 and not looked at if there is none */
};

/* What a merge returns. */
struct mouldgrey_merged {
    uint32_t status;  /* 0; or why it stopped: MOULDGREY_TABLE_FULL or MOULDGREY_OLD_SORT_VALUE */
    uint32_t place;   /* which of all staged inserts, from 0, it stopped at; 0 if it did not stop */
    uint32_t added;   /* 1 if a row was appended, else 0 */
    uint32_t kept;    /* rows that its own compaction kept; 0 if it did not compact */
    uint32_t dropped; /* rows that its own compaction dropped; 0 if it did not compact */
};

/* A row number, if found is 1; found and row are 0 if there is no such row. */
struct mouldgrey_row {
    uint32_t found;
    uint32_t row;
};

/* A cell, if found is 1; found and cell are 0 if there is no such row. */
struct mouldgrey_cell {
    uint32_t found;
    uint32_t cell;
};

/* The rows from start to end, end not included, if found is 1; all three are 0 if there is no range. */
struct mouldgrey_range {
    uint32_t found;
    uint32_t start;
    uint32_t end;
};

/* A version of a table. */
struct mouldgrey_version {
    uint32_t generation;
    uint32_t rows; /* the row count */
};

/* A condition on a row: a kind, a column, and a column (kind 0) or a value. Comparisons are unsigned. A
 * dead row meets no condition. */
struct mouldgrey_constraint {
    uint32_t kind;
    uint32_t column;
    uint32_t value;
};

#define MOULDGREY_EQUAL_COLUMNS 0 /* the cell equals that of column `value` */
#define MOULDGREY_EQUAL 1
#define MOULDGREY_LESS 2
#define MOULDGREY_GREATER 3
#define MOULDGREY_AT_MOST 4
#define MOULDGREY_AT_LEAST 5

/* A set of row numbers: a range, or a strictly rising list of at most 65536 ids.
 *
 *   dense not 0   the range start..end, end not included
 *   dense 0       a list. As an argument: the ids that are passed beside it; start and end are not
 *                 looked at. As an answer: start is 0, end is the number of ids, and they are the first
 *                 words of the output.
 *
 * So an answer can be passed on: the struct as it is, with the output and `end` as ids and ids_len. */
struct mouldgrey_subset {
    uint32_t dense;
    uint32_t start;
    uint32_t end;
};

/* What a page returns. */
struct mouldgrey_page {
    uint32_t written;  /* ids written to the output */
    uint32_t dead;     /* visited ids whose row is dead; live rows that fail a condition are not counted */
    uint32_t has_next; /* 1 if ids remain after those visited, else 0 */
    uint32_t next;     /* the place to go on from; 0 if none remain */
};

/* The lowest row that fails a precedence check and the first pair that it fails, from 0, if found is 1;
 * all three are 0 if no row fails. */
struct mouldgrey_failure {
    uint32_t found;
    uint32_t row;
    uint32_t pair;
};

/* A step of a short history. */
struct mouldgrey_step {
    uint32_t kind;  /* 0 insert, 1 removal by key, 2 merge */
    uint32_t key;   /* of an insert or removal, else 0 */
    uint32_t stamp; /* of an insert, else 0 */
    uint32_t level; /* the third cell of an insert, else 0 */
};

/* How many steps were written, if found is 1; both are 0 if there is no such sequence. */
struct mouldgrey_sequence {
    uint32_t found;
    uint32_t steps;
};

/* The head of a listing in the old form, and how many rows it lists. */
struct mouldgrey_listing {
    uint32_t columns;
    uint32_t keys;
    uint32_t sort;
    uint32_t rule;
    uint32_t generation;
    uint32_t listed;
};

/* The head of a listing in the new form, and how many rows it lists. */
struct mouldgrey_numbered_listing {
    uint32_t columns;
    uint32_t keys;
    uint32_t sort;
    uint32_t rule;
    uint32_t generation;
    uint32_t count; /* the row count; each row number is below it */
    uint32_t listed;
};

/* The result of a check of answers. */
struct mouldgrey_verdict {
    uint64_t kind;   /* 0 right; 1 misplaced; 2 wrong */
    uint64_t number; /* 0; the place of the first number not above the one before; the lowest row number
                        wrongly present or absent */
};

/* What a list of queries leaves. */
struct mouldgrey_query_result {
    uint32_t dense;   /* 1: the ids left are the range start..end; 0: they are a list */
    uint32_t start;   /* of a range; without meaning for a list */
    uint32_t end;     /* of a range; without meaning for a list */
    uint32_t count;   /* of list 1 or 2: how many of its first ids are left; 0 if list is 0 */
    uint32_t list;    /* where a list is: 1 first, 2 second; 0: all of ids are left, nothing was dropped */
    uint32_t refined; /* 1 if some accepted query refines, else 0 */
    uint32_t taken;   /* queries taken from the list, refused ones too; 4294967295 also if more */
};

/* ------------------------------------------------------------------------- calls that change a table */

#if defined(__has_attribute)
#if __has_attribute(access)
/* An argument that is looked at for its length alone: its words need not be initialized. */
#define MOULDGREY_LENGTH_ONLY(place) __attribute__((access(none, place)))
#endif
#endif
#ifndef MOULDGREY_LENGTH_ONLY
#define MOULDGREY_LENGTH_ONLY(place)
#endif

/*
 * Makes an empty table. What header, rows, sorts and pending hold does not matter: rows, sorts and
 * pending are only checked for their lengths.
 *
 * Writes header, and words among the first 2 * capacity of keys.
 * Refuses: 1, a number of the opening is outside its bounds; 2, a store is too short.
 */
MOULDGREY_LENGTH_ONLY(3)
MOULDGREY_LENGTH_ONLY(7)
MOULDGREY_LENGTH_ONLY(9)
uint32_t mouldgrey_open_table(const struct mouldgrey_opening *opening, struct mouldgrey_header *header,
                              const uint32_t *rows, size_t rows_len, uint32_t *keys, size_t keys_len,
                              const uint32_t *sorts, size_t sorts_len, const uint32_t *pending,
                              size_t pending_len);

/*
 * Stages a row for insertion at the next merge.
 *
 * cells: one for each column. An insert whose first cell is MOULDGREY_DEAD is skipped by the merge.
 * Writes header (pending) and the next columns + 2 words of pending.
 * Refuses: 1; 3, not as many cells as columns; 7, not enough free pending words.
 */
uint32_t mouldgrey_stage_insert(struct mouldgrey_header *header, uint32_t *pending, size_t pending_len,
                                const uint32_t *cells, size_t cells_len);

/*
 * Stages the removal of the live row with this key; no effect if there is none at merge time.
 *
 * Writes header (pending) and the next keys + 2 words of pending.
 * Refuses: 1; 3, not as many cells as key columns; 7.
 */
uint32_t mouldgrey_stage_remove(struct mouldgrey_header *header, uint32_t *pending, size_t pending_len,
                                const uint32_t *key, size_t key_len);

/*
 * Stages the removal of a row by its number; no effect unless, at merge time, that row exists, is live
 * and has this key.
 *
 * Writes header (pending) and the next keys + 3 words of pending.
 * Refuses: 1; 3; 5, the row number is not below the row count; 7.
 */
uint32_t mouldgrey_stage_remove_row(struct mouldgrey_header *header, uint32_t *pending,
                                    size_t pending_len, uint32_t row, const uint32_t *key,
                                    size_t key_len);

/*
 * Applies what is staged: all removals by key, then all removals by row, then all inserts, each in
 * staging order; then pending is empty. A new key's row is appended. A known key goes through the merge
 * rule; a row so made is appended and the old row dies.
 *
 * A merge STOPS at the first insert that must be appended and cannot be: the table is full (8, tested
 * first), or the sort value is below the largest one appended (9). Work done before the stop remains;
 * this insert and all later ones are dropped; the old row of its key stays live. A stop is no refusal:
 * the function returns 0, so check merged->status.
 *
 * If it did not stop and the dead rows outnumber the larger of 16 and half the row count (rounded down),
 * the table compacts as by mouldgrey_compact, except at generation 4294967295.
 *
 * Writes header, rows, keys, sorts, merged; live and base only if it compacts.
 * Refuses: 1; 2.
 */
uint32_t mouldgrey_merge(struct mouldgrey_header *header, uint32_t *rows, size_t rows_len,
                         uint32_t *keys, size_t keys_len, uint32_t *sorts, size_t sorts_len,
                         const uint32_t *pending, size_t pending_len, uint64_t *live, size_t live_len,
                         uint32_t *base, size_t base_len, struct mouldgrey_merged *merged);

/*
 * Drops the dead rows. Live rows move down and are renumbered in order; the generation rises by one.
 * Staged records stay.
 *
 * Writes header, rows, keys, sorts, live, base.
 * Refuses: 1; 2; 10, the generation cannot rise.
 */
uint32_t mouldgrey_compact(struct mouldgrey_header *header, uint32_t *rows, size_t rows_len,
                           uint32_t *keys, size_t keys_len, uint32_t *sorts, size_t sorts_len,
                           uint64_t *live, size_t live_len, uint32_t *base, size_t base_len);

/*
 * Drops what is staged. If there are rows, live or dead, drops them all, forgets the largest sort value, and
 * raises the generation by one. Without rows the generation and the largest sort value stay.
 *
 * Writes header, and words among the first 2 * capacity of keys.
 * Refuses: 1; 2, keys is too short; 10, if there are rows.
 */
uint32_t mouldgrey_clear(struct mouldgrey_header *header, uint32_t *keys, size_t keys_len);

/*
 * Refreshes rows that mention a value. Each live row that holds one of the values in one of the named
 * columns is staged, in rising row order, for removal by row and then for insertion with the stamp as
 * its sort cell. A row is staged once however often it matches, and also if it has the stamp already.
 *
 * columns: up to eight column numbers, in any order, repeats allowed. values: any number of values.
 * index: a store of at least MOULDGREY_INDEX_WORDS(capacity, columns_len) words that stays with this
 * table. It is an index from values to rows at the version at which it was last passed; the next refresh
 * goes on from there, and starts afresh if the generation or the columns differ. A store whose first
 * word is 0 is new, whatever its other words are; a store that was written never has 0 there.
 * staged: 1 if a row was staged, else 0.
 *
 * Writes header (pending), pending, index, staged.
 * Refuses: 1; 2, rows is too short; 12, more than eight columns; 6, no such column; 2, index is too
 * short; 9, the stamp is below the largest sort value appended, also if nothing would be staged; 7, not
 * enough free pending words for all records together.
 *
 * Before you use it:
 *
 *   - The merge that follows can still lose rows, since the removals take effect and an insert may not:
 *     the merge may stop because the table is full (8) or an insert staged earlier has a larger sort
 *     value (9); with sort column 0 and stamp 4294967295 the insert is skipped; if the sort column is a
 *     key column, two rows may become one. Check merged->status.
 *   - An index belongs to one table. If it was not new when this table first used it since its opening,
 *     or if anything but a refresh of this table has written it since, a refresh may miss rows. What is
 *     staged are still whole records of live rows that hold one of the values, and a sound table stays
 *     sound. To reuse an index for another table, or after opening the table again, set its first word
 *     to 0.
 */
uint32_t mouldgrey_refresh_rows_for_values(struct mouldgrey_header *header, const uint32_t *rows,
                                           size_t rows_len, uint32_t *pending, size_t pending_len,
                                           uint32_t *index, size_t index_len, const uint32_t *columns,
                                           size_t columns_len, const uint32_t *values,
                                           size_t values_len, uint32_t stamp, uint32_t *staged);

/* ------------------------------------------------------------------------------- reading a table -- */

/*
 * Checks that header and stores are a sound table: the dead count is the number of dead rows; live keys
 * differ; sort entries rise strictly, lie below the row count, begin at row 0 if there is a row and agree
 * with the sort cells of live rows; the key index leads to exactly the live rows; pending records are
 * whole; no sort entry exceeds the largest value of the header.
 *
 * sound: 1 if they are, else 0.
 * Writes sound.
 * Refuses: 1; 2.
 */
uint32_t mouldgrey_is_sound(const struct mouldgrey_header *header, const uint32_t *rows,
                            size_t rows_len, const uint32_t *keys, size_t keys_len,
                            const uint32_t *sorts, size_t sorts_len, const uint32_t *pending,
                            size_t pending_len, uint32_t *sound);

/*
 * Finds the live row with a key.
 *
 * Writes row.
 * Refuses: 1; 2; 3, not as many cells as key columns.
 */
uint32_t mouldgrey_get_row(const struct mouldgrey_header *header, const uint32_t *rows, size_t rows_len,
                           const uint32_t *keys, size_t keys_len, const uint32_t *key, size_t key_len,
                           struct mouldgrey_row *row);

/*
 * Reads one cell of the live row with a key.
 *
 * Writes cell.
 * Refuses: 1; 2; 3; 6, no such column.
 */
uint32_t mouldgrey_get_row_column(const struct mouldgrey_header *header, const uint32_t *rows,
                                  size_t rows_len, const uint32_t *keys, size_t keys_len,
                                  const uint32_t *key, size_t key_len, uint32_t column,
                                  struct mouldgrey_cell *cell);

/*
 * The range of all rows that meet a condition on the sort column, found without a scan. Dead rows may lie
 * in it. There is no range (found is 0) for kind 0 and for any column but the sort column.
 *
 * Writes range.
 * Refuses: 1; 2; 6, an unknown kind or no such column.
 */
uint32_t mouldgrey_fast_subset(const struct mouldgrey_header *header, const uint32_t *sorts,
                               size_t sorts_len, const struct mouldgrey_constraint *condition,
                               struct mouldgrey_range *range);

/*
 * The rows from a row number on: the range row..row count.
 *
 * Writes range; found is 1.
 * Refuses: 1; 5, row is above the row count.
 */
uint32_t mouldgrey_updates_since(const struct mouldgrey_header *header, uint32_t row,
                                 struct mouldgrey_range *range);

/*
 * The version of a table: generation and row count.
 *
 * Writes version.
 * Refuses: 1.
 */
uint32_t mouldgrey_table_version(const struct mouldgrey_header *header,
                                 struct mouldgrey_version *version);

/*
 * The rows since a version that was noted: the range version->rows..row count.
 *
 * If the call is accepted, each row below version->rows has the cells that it had when the version was
 * noted, or is dead; and the live rows are the noted ones that are still live, together with the live
 * rows of the range. This holds from one opening to the next: after the table was opened anew, or an older
 * image of it was loaded, a note taken before may be accepted and means nothing.
 *
 * Writes range; found is 1.
 * Refuses: 1; 18, another generation, or more rows than the table has.
 */
uint32_t mouldgrey_rows_since_version(const struct mouldgrey_header *header,
                                      const struct mouldgrey_version *version,
                                      struct mouldgrey_range *range);

/*
 * Checks that each row of one kind has an earlier row of another kind: each live row with a pair's first
 * value in a key column needs a live row with the pair's second value in that column, the same other key cells, and a sort cell no larger. A row that
 * several pairs name must meet them all; a pair of two equal values is met by the row itself.
 *
 * pairs: two words for each of 1 to 16 pairs, the first value and the second.
 * Writes failure.
 * Refuses: 1; 2; 6, the column is no key column; 14, the pairs are not 1 to 16, or pairs_len is odd.
 *
 * Only live rows count. A row that is corrected under a later stamp dies and is appended again: a row
 * that needs it and met its pair before may then fail.
 */
uint32_t mouldgrey_check_precedence(const struct mouldgrey_header *header, const uint32_t *rows,
                                    size_t rows_len, const uint32_t *keys, size_t keys_len,
                                    uint32_t column, const uint32_t *pairs, size_t pairs_len,
                                    struct mouldgrey_failure *failure);

/* -------------------------------------------------------------------------------------- queries -- */

/*
 * The live rows of a subset that meet one condition. The answer is a range if these rows are neighbours
 * and the subset is a range (0..0 if there are none), else a list.
 *
 * subset, ids: the subset; ids is not looked at if it is a range.
 * output: at least as many words as the subset has ids. A range as answer writes none.
 * Writes answer, and the ids of a list to output; output beyond them is unchanged.
 * Refuses: 1; 2, rows is too short; 4, a malformed subset; 5, its end is past the row count; 6, an
 * unknown kind or no such column; 2, output is shorter than the subset.
 */
uint32_t mouldgrey_refine_one(const struct mouldgrey_header *header, const uint32_t *rows,
                              size_t rows_len, const struct mouldgrey_subset *subset,
                              const uint32_t *ids, size_t ids_len,
                              const struct mouldgrey_constraint *condition, uint32_t *output,
                              size_t output_len, struct mouldgrey_subset *answer);

/*
 * The live rows of a subset that meet all conditions of a list; every live row meets an empty list. The
 * answer is the same range if all of a range is kept, else a list.
 *
 * Arguments, writes and refusals as for mouldgrey_refine_one.
 */
uint32_t mouldgrey_refine_ref(const struct mouldgrey_header *header, const uint32_t *rows,
                              size_t rows_len, const struct mouldgrey_subset *subset,
                              const uint32_t *ids, size_t ids_len,
                              const struct mouldgrey_constraint *conditions, size_t conditions_len,
                              uint32_t *output, size_t output_len, struct mouldgrey_subset *answer);

/*
 * Whether some live row of a subset meets all conditions of a list.
 *
 * matched: 1 if one does, else 0.
 * Writes matched.
 * Refuses: 1; 2; 4; 5; 6.
 */
uint32_t mouldgrey_contains_match(const struct mouldgrey_header *header, const uint32_t *rows,
                                  size_t rows_len, const struct mouldgrey_subset *subset,
                                  const uint32_t *ids, size_t ids_len,
                                  const struct mouldgrey_constraint *conditions,
                                  size_t conditions_len, uint32_t *matched);

/*
 * Reads a page of a subset: visits n ids, from a place counted from 0, and writes the ids of those live
 * rows that meet all conditions of a list. Go on from page->next while page->has_next is 1. With n = 0
 * nothing is visited and next is the place itself, if ids remain.
 *
 * output: at least as many words as the smaller of n and the ids that remain from the place on.
 * Writes page, and the ids to output; output beyond them is unchanged.
 * Refuses: 1; 2; 4; 5, also if the place is above the subset's size; 6; 2, output is too short.
 */
uint32_t mouldgrey_read_page(const struct mouldgrey_header *header, const uint32_t *rows,
                             size_t rows_len, const struct mouldgrey_subset *subset,
                             const uint32_t *ids, size_t ids_len, uint32_t place, size_t n,
                             const struct mouldgrey_constraint *conditions, size_t conditions_len,
                             uint32_t *output, size_t output_len, struct mouldgrey_page *page);

/*
 * The ids that two subsets have in common; needs no table. Two ranges give a range, which starts and ends
 * at the larger start if they do not meet. A range first and a list second give a list, or 0..0 if
 * nothing is common. A list first gives a list.
 *
 * output: at least as many words as the first list has ids, or the second where the first is a range; two
 * ranges need none.
 * Writes subset, and the ids of a list to output; output beyond them is unchanged.
 * Refuses: 4, for either; 2, output is too short.
 */
uint32_t mouldgrey_intersect(const struct mouldgrey_subset *first, const uint32_t *first_ids,
                             size_t first_ids_len, const struct mouldgrey_subset *second,
                             const uint32_t *second_ids, size_t second_ids_len, uint32_t *output,
                             size_t output_len, struct mouldgrey_subset *subset);

/*
 * The same for two ranges, given by their ends: no output, and faster.
 *
 * Writes subset.
 * Refuses: 4, a range starts above its end.
 */
uint32_t mouldgrey_intersect_ranges(uint32_t start, uint32_t end, uint32_t other_start,
                                    uint32_t other_end, struct mouldgrey_subset *subset);

/* --------------------------------------------------------------------------------- column order -- */

/*
 * Rearranges rows: all cells of the first column, then the second, and so on, each cell but a column's
 * first as its difference from the cell above, modulo 2^32. Needs no table.
 *
 * cells: rows of this width, one after another; any number, also none.
 * Writes cells_len words of output; output beyond them is unchanged.
 * Refuses: 1, a width outside 1 to 8; 13, cells_len is not a multiple of the width; 2, output is shorter
 * than cells.
 */
uint32_t mouldgrey_to_columns(uint32_t width, const uint32_t *cells, size_t cells_len, uint32_t *output,
                              size_t output_len);

/*
 * The inverse of mouldgrey_to_columns: either after the other restores the cells.
 *
 * Writes and refusals as for mouldgrey_to_columns.
 */
uint32_t mouldgrey_from_columns(uint32_t width, const uint32_t *cells, size_t cells_len,
                                uint32_t *output, size_t output_len);

/* -------------------------------------------------------------------------------- short histories -- */

/*
 * A sequence is a list of 0 to 6 steps, each numbered 0 to 6. All sequences are ordered: shorter before
 * longer, equal lengths by their first differing step. The position of a sequence counts from 0 to
 * 137256. Needs no table.
 */

/*
 * What a step does, on a table of three columns, one key and sort column 1.
 *
 * Writes answer.
 * Refuses: 15.
 */
uint32_t mouldgrey_step_at(uint32_t step, struct mouldgrey_step *answer);

/*
 * The position of a sequence.
 *
 * Writes position.
 * Refuses: 15.
 */
uint32_t mouldgrey_position_of(const uint32_t *sequence, size_t sequence_len, uint32_t *position);

/*
 * The sequence at a position.
 *
 * Writes answer (found is 1) and the steps to output; output beyond them is unchanged.
 * Refuses: 16; 2, output is shorter than the sequence. Six words are always enough.
 */
uint32_t mouldgrey_sequence_at(uint32_t position, uint32_t *output, size_t output_len,
                               struct mouldgrey_sequence *answer);

/*
 * The sequence after this one; found is 0 after the last, and output is unchanged then.
 *
 * Writes answer and the steps to output; output beyond them is unchanged.
 * Refuses: 15; 2, output is shorter than the next sequence. Six words are always enough.
 */
uint32_t mouldgrey_next_sequence(const uint32_t *sequence, size_t sequence_len, uint32_t *output,
                                 size_t output_len, struct mouldgrey_sequence *answer);

/* ------------------------------------------------------------------------------------- listings -- */

/*
 * A listing is a text of bytes, without a 0 at its end. Each line is a letter and decimals up to
 * 4294967295 without leading zeros, a comma before each, and ends in one newline, also the last.
 *
 * Old form:
 *   T,columns,keys,sort,rule,generation
 *   D,cells                               for each live row
 *
 * New form; row numbers rise strictly and are below the count:
 *   U,columns,keys,sort,rule,generation,count
 *   D,number,cells                        for each live row
 *
 * The numbers of the head are within the bounds of mouldgrey_opening. There are at most 65536 rows, and
 * the count is at most 65536; each row has one cell for each column and does not begin with
 * MOULDGREY_DEAD.
 */

/*
 * Writes a listing of a table: in the old form if numbered is 0, else in the new form.
 *
 * output: MOULDGREY_LISTING_BYTES(header->rows, header->columns) bytes are always enough.
 * length: how many bytes the listing has.
 * Writes length and the text to output; output beyond it is unchanged.
 * Refuses: 1; 2, rows is too short; 2, output is shorter than the text.
 */
uint32_t mouldgrey_write_listing(const struct mouldgrey_header *header, const uint32_t *rows,
                                 size_t rows_len, uint32_t numbered, uint8_t *output,
                                 size_t output_len, uint64_t *length);

/*
 * Reads a listing in the old form.
 *
 * output: MOULDGREY_LISTING_WORDS(text_len) words are always enough.
 * Writes head, and the cells of each row in turn to output; output beyond them is unchanged.
 * Refuses: 11, no listing in the old form; 2, output is shorter than the cells.
 */
uint32_t mouldgrey_read_listing(const uint8_t *text, size_t text_len, uint32_t *output,
                                size_t output_len, struct mouldgrey_listing *head);

/*
 * Reads a listing in the new form.
 *
 * output: MOULDGREY_LISTING_WORDS(text_len) words are always enough.
 * Writes head, and for each row in turn its number and then its cells to output; output beyond them is
 * unchanged.
 * Refuses: 11, no listing in the new form; 2, output is too short.
 */
uint32_t mouldgrey_read_numbered(const uint8_t *text, size_t text_len, uint32_t *output,
                                 size_t output_len, struct mouldgrey_numbered_listing *head);

/*
 * Converts a listing from the old form to the new one; rows are numbered from 0.
 *
 * output: MOULDGREY_NUMBERED_BYTES(text_len) bytes are always enough.
 * Writes length, the number of bytes written, and the text to output; output beyond it is unchanged.
 * Refuses: 11; 2, output is too short.
 */
uint32_t mouldgrey_to_numbered(const uint8_t *text, size_t text_len, uint8_t *output, size_t output_len,
                               uint64_t *length);

/*
 * Converts a listing from the new form to the old one.
 *
 * output: text_len bytes are always enough.
 * Writes length, the number of bytes written, and the text to output; output beyond it is unchanged.
 * Refuses: 11; 17, some number below the count has no row; 2, output is too short.
 */
uint32_t mouldgrey_from_numbered(const uint8_t *text, size_t text_len, uint8_t *output,
                                 size_t output_len, uint64_t *length);

/*
 * Checks row numbers from another program: whether the numbers given are, rising and each once, those of the rows
 * of a listing in the new form that meet all conditions of a list. A number without a row in the listing
 * is wrongly present.
 *
 * verdict: kind 0 if they are. Kind 1 if they do not rise strictly, with the place, from 0, of the first
 * number that is not above the one before. Else kind 2 with the lowest row number that is wrongly present
 * or absent.
 * Writes verdict.
 * Refuses: 11, no listing in the new form; 6, an unknown kind or no such column.
 */
uint32_t mouldgrey_check_answers(const uint8_t *text, size_t text_len,
                                 const struct mouldgrey_constraint *conditions, size_t conditions_len,
                                 const uint32_t *given, size_t given_len,
                                 struct mouldgrey_verdict *verdict);

/* --------------------------------------------------------------------------------------- images -- */

/*
 * An image is an array of 32-bit words that stands alone: the bytes "MGTB", the number 1, the header's
 * twelve words, the length of the text in bytes, the text, four bytes in each word, the rows, sort
 * entries and pending words that are in use, and the CRC-32 of all bytes before it. A table and a text have
 * one image. It does not hold the key index, the index store of refreshes, or words not in use.
 */

/*
 * How many words the image of a table has, with a text of so many bytes. This is
 * MOULDGREY_IMAGE_WORDS of the header's numbers.
 *
 * Writes words.
 * Refuses: 1; 21, text_len is above MOULDGREY_LONGEST_TEXT.
 */
uint32_t mouldgrey_image_size(const struct mouldgrey_header *header, size_t text_len, uint64_t *words);

/*
 * Writes the image of a table, with a text.
 *
 * text: any bytes, such as the names and units of the columns; text_len may be 0.
 * image: at least as many words as mouldgrey_image_size gives.
 * words: how many words the image has.
 * Writes words, and the image to the start of image; image beyond it is unchanged.
 * Refuses: 1, also if more pending words are in use than pending_len; 2, rows or sorts is too short; 21, the
 * text is too long; 2, image is shorter than the image.
 */
uint32_t mouldgrey_write_image(const struct mouldgrey_header *header, const uint32_t *rows,
                               size_t rows_len, const uint32_t *sorts, size_t sorts_len,
                               const uint32_t *pending, size_t pending_len, const uint8_t *text,
                               size_t text_len, uint32_t *image, size_t image_len, uint64_t *words);

/*
 * Checks that words are the image of a sound table, and gives its header, to make stores by.
 *
 * image, image_len: all words of the file, and no others. A length other than the image's own is
 * refused.
 * Writes header.
 * Refuses: 19, the words are no image: first bytes, format number, bounds, length, text or checksum are
 * wrong; 20, an image of a table that is not sound.
 * Uses about 600 KiB of stack.
 */
uint32_t mouldgrey_check_image(const uint32_t *image, size_t image_len, struct mouldgrey_header *header);

/*
 * Reads an image into stores; the key index is built anew. The words are checked as
 * mouldgrey_check_image does, so that no check is needed before.
 *
 * capacity: that of the table that is made. 0 is the image's own; a larger one is how a full table grows.
 * It may also be smaller, down to the row count.
 * rows, keys, sorts: as long as a table of that capacity needs. pending: at least header->pending words of
 * the image; further words are room for staging.
 * Writes header, the words in use at the start of rows, sorts and pending, and words among the first
 * 2 * capacity of keys; the rest of rows, sorts and pending is unchanged.
 * Refuses: 19; 20; 1, capacity is above 65536 or below the row count; 2, a store is too short.
 * Uses about 600 KiB of stack.
 */
uint32_t mouldgrey_read_image(const uint32_t *image, size_t image_len, uint32_t capacity,
                              struct mouldgrey_header *header, uint32_t *rows, size_t rows_len,
                              uint32_t *keys, size_t keys_len, uint32_t *sorts, size_t sorts_len,
                              uint32_t *pending, size_t pending_len);

/*
 * Reads the text of an image. The table need not be sound.
 *
 * text: MOULDGREY_LONGEST_TEXT bytes are always enough.
 * bytes: how many bytes the text has.
 * Writes bytes, and the text to the start of text; text beyond it is unchanged.
 * Refuses: 19; 2, text is shorter than the image's text.
 */
uint32_t mouldgrey_read_image_text(const uint32_t *image, size_t image_len, uint8_t *text,
                                   size_t text_len, uint64_t *bytes);

/* --------------------------------------------------------------------- lists of calls and queries -- */

/*
 * A list of calls or of queries is a list of words: for each item a kind, a count, and so many words. An
 * item of an unknown kind or with words that do not fit its kind is skipped; an item that is cut off ends
 * the list.
 */

/* Kinds of calls, and their words. */
#define MOULDGREY_CALL_INSERT 0     /* the cells */
#define MOULDGREY_CALL_REMOVE 1     /* the key */
#define MOULDGREY_CALL_REMOVE_ROW 2 /* the row number, then the key */
#define MOULDGREY_CALL_MERGE 3      /* not looked at */
#define MOULDGREY_CALL_COMPACT 4    /* not looked at */
#define MOULDGREY_CALL_CLEAR 5      /* not looked at */
#define MOULDGREY_CALL_REFRESH 6    /* the number of columns, the columns, the stamp, then the values */

/*
 * Opens a table as mouldgrey_open_table does and makes the calls of a list on it, in order, each with the
 * stores as they are passed here. A call that is refused changes nothing, and the next one is made; so it
 * is after a merge that stops. index is the index store of all refreshes of the list; length 0 will do if
 * there is none. If live or base is too short, every merge and compact of the list is refused. Nothing
 * returned shows which calls were refused: compare the header and the rows with what you expect.
 *
 * Writes header, rows, keys, sorts, pending, index; live and base if something is compacted.
 * Refuses: as mouldgrey_open_table, 1 and 2; no call is made then.
 */
uint32_t mouldgrey_replay(const struct mouldgrey_opening *opening, struct mouldgrey_header *header,
                          const uint32_t *calls, size_t calls_len, uint32_t *rows, size_t rows_len,
                          uint32_t *keys, size_t keys_len, uint32_t *sorts, size_t sorts_len,
                          uint32_t *pending, size_t pending_len, uint64_t *live, size_t live_len,
                          uint32_t *base, size_t base_len, uint32_t *index, size_t index_len);

/* Kinds of queries, and their words. */
#define MOULDGREY_QUERY_REFINE_ONE 0      /* kind, column, value of a condition */
#define MOULDGREY_QUERY_REFINE_LIST 1     /* those of at most 16 conditions */
#define MOULDGREY_QUERY_INTERSECT_LIST 2  /* the ids */
#define MOULDGREY_QUERY_INTERSECT_RANGE 3 /* start and end */
#define MOULDGREY_QUERY_INTERSECT_FAST 4  /* kind, column, value: the range of mouldgrey_fast_subset */

/*
 * Makes the queries of a list on a subset, in order, each on the ids that the last accepted one left. A
 * query that is refused, and an INTERSECT_FAST without a range, changes nothing. If some accepted query
 * refines, the ids left are exactly the live rows of the starting subset that lie in every accepted
 * subset and meet every accepted condition, those of ranges too, rising, each once.
 *
 * first, second: work space; each query has room for as many ids as the shorter of them holds, and is
 * refused where that is too few. Always enough are as many words as the starting subset has ids, or the
 * longest list of ids among the queries if that is longer.
 * Writes answer, and words of first and second up to the length of the shorter.
 * Refuses: nothing; queries on a header or stores that refuse them are refused one by one.
 */
uint32_t mouldgrey_run_queries(const struct mouldgrey_header *header, const uint32_t *rows,
                               size_t rows_len, const uint32_t *sorts, size_t sorts_len,
                               const struct mouldgrey_subset *subset, const uint32_t *ids,
                               size_t ids_len, const uint32_t *queries, size_t queries_len,
                               uint32_t *first, size_t first_len, uint32_t *second, size_t second_len,
                               struct mouldgrey_query_result *answer);

/* ------------------------------------------------------------------------------------- layout -- */

#if defined(__cplusplus) && __cplusplus >= 201103L
#define MOULDGREY_HAS_SIZE(name, bytes) static_assert(sizeof(struct name) == bytes, #name)
#elif defined(__STDC_VERSION__) && __STDC_VERSION__ >= 201112L
#define MOULDGREY_HAS_SIZE(name, bytes) _Static_assert(sizeof(struct name) == bytes, #name)
#endif
#ifdef MOULDGREY_HAS_SIZE
MOULDGREY_HAS_SIZE(mouldgrey_opening, 24);
MOULDGREY_HAS_SIZE(mouldgrey_header, 48);
MOULDGREY_HAS_SIZE(mouldgrey_merged, 20);
MOULDGREY_HAS_SIZE(mouldgrey_row, 8);
MOULDGREY_HAS_SIZE(mouldgrey_cell, 8);
MOULDGREY_HAS_SIZE(mouldgrey_range, 12);
MOULDGREY_HAS_SIZE(mouldgrey_version, 8);
MOULDGREY_HAS_SIZE(mouldgrey_constraint, 12);
MOULDGREY_HAS_SIZE(mouldgrey_subset, 12);
MOULDGREY_HAS_SIZE(mouldgrey_page, 16);
MOULDGREY_HAS_SIZE(mouldgrey_failure, 12);
MOULDGREY_HAS_SIZE(mouldgrey_step, 16);
MOULDGREY_HAS_SIZE(mouldgrey_sequence, 8);
MOULDGREY_HAS_SIZE(mouldgrey_listing, 24);
MOULDGREY_HAS_SIZE(mouldgrey_numbered_listing, 28);
MOULDGREY_HAS_SIZE(mouldgrey_verdict, 16);
MOULDGREY_HAS_SIZE(mouldgrey_query_result, 28);
#undef MOULDGREY_HAS_SIZE
#endif

#ifdef __cplusplus
}
#endif

#endif
