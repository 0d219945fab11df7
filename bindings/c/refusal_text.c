/* The sentences for the numbers of refusals and stops. It is the one part of the library that is not proved. */
#include "mouldgrey.h"

const char *mouldgrey_refusal_text(uint32_t number) {
    switch (number) {
    case MOULDGREY_ACCEPTED:
        return "accepted";
    case MOULDGREY_OUT_OF_BOUNDS:
        return "a number of the opening or the header, or a width, is outside its bounds";
    case MOULDGREY_TOO_SHORT:
        return "a store or an output is shorter than needed";
    case MOULDGREY_WRONG_WIDTH:
        return "wrong number of cells";
    case MOULDGREY_MALFORMED_SUBSET:
        return "malformed or overlong subset";
    case MOULDGREY_PAST_THE_ROWS:
        return "a row or a place is past what there is";
    case MOULDGREY_NO_SUCH_COLUMN:
        return "no such column or kind of condition";
    case MOULDGREY_PENDING_FULL:
        return "no room in the pending store";
    case MOULDGREY_TABLE_FULL:
        return "the table is full";
    case MOULDGREY_OLD_SORT_VALUE:
        return "a sort value below the largest one appended";
    case MOULDGREY_LAST_GENERATION:
        return "the generation cannot rise";
    case MOULDGREY_NO_LISTING:
        return "no listing of the form that is read";
    case MOULDGREY_TOO_MANY_COLUMNS:
        return "more than eight columns are named";
    case MOULDGREY_BROKEN_ROW:
        return "not a multiple of the width";
    case MOULDGREY_PAIR_COUNT:
        return "a number of pairs outside 1 to 16";
    case MOULDGREY_UNKNOWN_SEQUENCE:
        return "more than six steps, or an unknown step";
    case MOULDGREY_PAST_THE_LAST:
        return "a position past the last";
    case MOULDGREY_MISSING_ROW:
        return "a number below the row count has no row";
    case MOULDGREY_OLD_NOTE:
        return "a noted version of another generation or of more rows";
    case MOULDGREY_NO_IMAGE:
        return "words that are no image";
    case MOULDGREY_UNSOUND_IMAGE:
        return "an image of a table that is not sound";
    case MOULDGREY_TEXT_TOO_LONG:
        return "a text of more than 4096 bytes";
    default:
        return "unknown refusal";
    }
}
