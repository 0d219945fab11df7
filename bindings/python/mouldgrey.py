"""A table for archives: rows of 32-bit cells, found by key and recorded in the order of a sort column.

One file over ctypes and libmouldgrey.so, with nothing but the standard library. The shared library is looked for in the folder that
the environment variable MOULDGREY_LIBRARIES names, then in target/lib of the repository, then where the system looks.

    >>> from mouldgrey import Condition, Rule, Table
    >>> table = Table(columns=4, keys=2, sort=3, rule=Rule.TAKE_NEW, capacity=100)
    >>> table.stage_insert([7, 1, 160, 10])
    >>> table.merge().added
    True
    >>> table.get_row([7, 1])
    Row(id=0, cells=(7, 1, 160, 10))
    >>> table.refine(table.all(), [Condition.ge(2, 150)])
    range(0, 1)

    >>> data = table.save("modem, side, level, stamp")
    >>> Table.load(data).get_cell([7, 1], 2)
    160

A refused call raises Refused and has changed nothing. "Refused by 7" means refusal number 7; docs/GUIDE.md, "Refusals", lists all
numbers. A merge that stops raises Stopped. Do not use a table in one thread while another thread changes it. A negative level goes in as `level & 0xFFFFFFFF`.
"""

import ctypes
import enum
import operator
import os
from ctypes import POINTER, byref, c_size_t, c_uint8, c_uint32, c_uint64
from typing import NamedTuple

__all__ = [
    "DEAD",
    "LONGEST_TEXT",
    "Comparison",
    "Condition",
    "Header",
    "Listing",
    "Merged",
    "Page",
    "Refused",
    "Row",
    "Rule",
    "Stopped",
    "Table",
    "ValueIndex",
    "Verdict",
    "Version",
    "check_answers",
    "check_image",
    "from_columns",
    "from_numbered",
    "image_text",
    "intersect",
    "library_version",
    "read_listing",
    "read_numbered",
    "refusal_text",
    "to_columns",
    "to_numbered",
]

DEAD = 0xFFFFFFFF
"""The first cell of a dead row."""

LONGEST_TEXT = 4096
"""The most bytes of the text in an image."""


def _load():
    here = os.path.dirname(os.path.abspath(__file__))
    folders = [os.environ.get("MOULDGREY_LIBRARIES"), os.path.join(here, "..", "..", "target", "lib")]
    for folder in filter(None, folders):
        path = os.path.join(folder, "libmouldgrey.so")
        if os.path.isfile(path):
            return ctypes.CDLL(path)
    try:
        return ctypes.CDLL("libmouldgrey.so.0")
    except OSError:
        raise ImportError(
            "libmouldgrey.so is missing: run `make` in the repository, or name the library's folder in MOULDGREY_LIBRARIES"
        ) from None


_lib = _load()


def _struct(name, *fields, word=c_uint32):
    return type(name, (ctypes.Structure,), {"_fields_": [(field, word) for field in fields]})


_Opening = _struct("_Opening", "columns", "keys", "sort", "rule", "capacity", "generation")
Header = _struct(
    "Header",
    "columns",
    "keys",
    "sort",
    "rule",
    "capacity",
    "rows",
    "dead",
    "entries",
    "pending",
    "generation",
    "has_largest",
    "largest",
)
_Merged = _struct("_Merged", "status", "place", "added", "kept", "dropped")
_Row = _struct("_Row", "found", "row")
_Cell = _struct("_Cell", "found", "cell")
_Range = _struct("_Range", "found", "start", "end")
_Version = _struct("_Version", "generation", "rows")
_Constraint = _struct("_Constraint", "kind", "column", "value")
_Subset = _struct("_Subset", "dense", "start", "end")
_Page = _struct("_Page", "written", "dead", "has_next", "next")
_Failure = _struct("_Failure", "found", "row", "pair")
_Listing = _struct("_Listing", "columns", "keys", "sort", "rule", "generation", "listed")
_NumberedListing = _struct("_NumberedListing", "columns", "keys", "sort", "rule", "generation", "count", "listed")
_Verdict = _struct("_Verdict", "kind", "number", word=c_uint64)

_WORDS = (POINTER(c_uint32), c_size_t)
_LONG_WORDS = (POINTER(c_uint64), c_size_t)
_BYTES = (POINTER(c_uint8), c_size_t)
_CONDITIONS = (POINTER(_Constraint), c_size_t)


def _declare(name, *arguments):
    function = getattr(_lib, "mouldgrey_" + name)
    flat = []
    for argument in arguments:
        flat.extend(argument if isinstance(argument, tuple) else (argument,))
    function.argtypes = flat
    function.restype = c_uint32
    return function


_H = POINTER(Header)
_library_version = _declare("library_version")
_open_table = _declare("open_table", POINTER(_Opening), _H, _WORDS, _WORDS, _WORDS, _WORDS)
_stage_insert = _declare("stage_insert", _H, _WORDS, _WORDS)
_stage_remove = _declare("stage_remove", _H, _WORDS, _WORDS)
_stage_remove_row = _declare("stage_remove_row", _H, _WORDS, c_uint32, _WORDS)
_merge = _declare("merge", _H, _WORDS, _WORDS, _WORDS, _WORDS, _LONG_WORDS, _WORDS, POINTER(_Merged))
_compact = _declare("compact", _H, _WORDS, _WORDS, _WORDS, _LONG_WORDS, _WORDS)
_clear = _declare("clear", _H, _WORDS)
_refresh = _declare(
    "refresh_rows_for_values", _H, _WORDS, _WORDS, _WORDS, _WORDS, _WORDS, c_uint32, POINTER(c_uint32)
)
_is_sound = _declare("is_sound", _H, _WORDS, _WORDS, _WORDS, _WORDS, POINTER(c_uint32))
_get_row = _declare("get_row", _H, _WORDS, _WORDS, _WORDS, POINTER(_Row))
_get_row_column = _declare("get_row_column", _H, _WORDS, _WORDS, _WORDS, c_uint32, POINTER(_Cell))
_fast_subset = _declare("fast_subset", _H, _WORDS, POINTER(_Constraint), POINTER(_Range))
_updates_since = _declare("updates_since", _H, c_uint32, POINTER(_Range))
_table_version = _declare("table_version", _H, POINTER(_Version))
_rows_since_version = _declare("rows_since_version", _H, POINTER(_Version), POINTER(_Range))
_check_precedence = _declare("check_precedence", _H, _WORDS, _WORDS, c_uint32, _WORDS, POINTER(_Failure))
_refine_one = _declare(
    "refine_one", _H, _WORDS, POINTER(_Subset), _WORDS, POINTER(_Constraint), _WORDS, POINTER(_Subset)
)
_refine_ref = _declare("refine_ref", _H, _WORDS, POINTER(_Subset), _WORDS, _CONDITIONS, _WORDS, POINTER(_Subset))
_contains_match = _declare(
    "contains_match", _H, _WORDS, POINTER(_Subset), _WORDS, _CONDITIONS, POINTER(c_uint32)
)
_read_page = _declare(
    "read_page", _H, _WORDS, POINTER(_Subset), _WORDS, c_uint32, c_size_t, _CONDITIONS, _WORDS, POINTER(_Page)
)
_intersect = _declare(
    "intersect", POINTER(_Subset), _WORDS, POINTER(_Subset), _WORDS, _WORDS, POINTER(_Subset)
)
_to_columns = _declare("to_columns", c_uint32, _WORDS, _WORDS)
_from_columns = _declare("from_columns", c_uint32, _WORDS, _WORDS)
_write_listing = _declare("write_listing", _H, _WORDS, c_uint32, _BYTES, POINTER(c_uint64))
_read_listing = _declare("read_listing", _BYTES, _WORDS, POINTER(_Listing))
_read_numbered = _declare("read_numbered", _BYTES, _WORDS, POINTER(_NumberedListing))
_to_numbered = _declare("to_numbered", _BYTES, _BYTES, POINTER(c_uint64))
_from_numbered = _declare("from_numbered", _BYTES, _BYTES, POINTER(c_uint64))
_check_answers = _declare("check_answers", _BYTES, _CONDITIONS, _WORDS, POINTER(_Verdict))
_image_size = _declare("image_size", _H, c_size_t, POINTER(c_uint64))
_write_image = _declare("write_image", _H, _WORDS, _WORDS, _WORDS, _BYTES, _WORDS, POINTER(c_uint64))
_check_image = _declare("check_image", _WORDS, _H)
_read_image = _declare("read_image", _WORDS, c_uint32, _H, _WORDS, _WORDS, _WORDS, _WORDS)
_read_image_text = _declare("read_image_text", _WORDS, _BYTES, POINTER(c_uint64))
_lib.mouldgrey_refusal_text.argtypes = [c_uint32]
_lib.mouldgrey_refusal_text.restype = ctypes.c_char_p


def library_version():
    """The library's version: major * 1000000 + minor * 1000 + patch."""
    return _library_version()


def refusal_text(number):
    """The sentence for the number of a refusal or a stop."""
    return _lib.mouldgrey_refusal_text(number).decode()


class Refused(Exception):
    """A call was refused, and has changed nothing. `number` is the number of the refusal."""

    def __init__(self, number):
        super().__init__(number)
        self.number = number

    def __str__(self):
        return f"refused {self.number}: {refusal_text(self.number)}"


class Stopped(Exception):
    """A merge stopped at the insert at `place`, from 0: earlier work remains, this insert and all later ones are dropped."""

    def __init__(self, number, place):
        super().__init__(number, place)
        self.number = number
        self.place = place

    def __str__(self):
        return f"stopped {self.number} at insert {self.place}: {refusal_text(self.number)}"


class Rule(enum.IntEnum):
    """What becomes of a known key's row when a new row with that key is inserted."""

    KEEP_OLD = 0
    TAKE_NEW = 1
    TAKE_SMALLER = 2
    TAKE_LARGER = 3


class Comparison(enum.IntEnum):
    """How a condition compares a cell; comparisons are unsigned."""

    EQUAL_COLUMNS = 0
    EQUAL = 1
    LESS = 2
    GREATER = 3
    AT_MOST = 4
    AT_LEAST = 5


class Condition(NamedTuple):
    """A condition on a row. A dead row meets none."""

    comparison: int
    column: int
    value: int

    @classmethod
    def eq_columns(cls, column, other):
        return cls(Comparison.EQUAL_COLUMNS, column, other)

    @classmethod
    def eq(cls, column, value):
        return cls(Comparison.EQUAL, column, value)

    @classmethod
    def lt(cls, column, value):
        return cls(Comparison.LESS, column, value)

    @classmethod
    def gt(cls, column, value):
        return cls(Comparison.GREATER, column, value)

    @classmethod
    def le(cls, column, value):
        return cls(Comparison.AT_MOST, column, value)

    @classmethod
    def ge(cls, column, value):
        return cls(Comparison.AT_LEAST, column, value)


class Row(NamedTuple):
    """A live row."""

    id: int
    cells: tuple


class Version(NamedTuple):
    """A table's version."""

    generation: int
    rows: int


class Merged(NamedTuple):
    """What a merge did: whether it appended a row, and how many rows its own compaction kept and dropped."""

    added: bool
    kept: int
    dropped: int


class Page(NamedTuple):
    """A page: ids found, how many visited rows are dead, and the next place, or None."""

    ids: list
    dead: int
    next: int


class Listing(NamedTuple):
    """A listing: the head's numbers, the row count (None in the old form), and rows; in the new form a row number comes first."""

    columns: int
    keys: int
    sort: int
    rule: int
    generation: int
    count: int
    rows: list


class Verdict(NamedTuple):
    """kind 0: right; 1: the number at place `number` is not above the one before; 2: row `number` is wrongly present or absent."""

    kind: int
    number: int


def _check(number):
    if number:
        raise Refused(number)


def _word(value):
    value = operator.index(value)
    if not 0 <= value <= DEAD:
        raise OverflowError(f"{value} is no 32-bit word")
    return value


def _constraint(condition):
    return _Constraint(*map(_word, Condition(*condition)))


def _words(values):
    values = list(values)
    return (c_uint32 * len(values))(*map(_word, values)), len(values)


def _bytes(text):
    return (c_uint8 * len(text)).from_buffer_copy(text), len(text)


def _store(words):
    return words, len(words)


_NO_IMAGE = 19


def _image(data):
    """The words of a file. A length that is no multiple of four is that of no image."""
    if len(data) % 4:
        raise Refused(_NO_IMAGE)
    return _store((c_uint32 * (len(data) // 4)).from_buffer_copy(data))


def _conditions(conditions):
    conditions = list(conditions)
    return (_Constraint * len(conditions))(*map(_constraint, conditions)), len(conditions)


def _subset(subset):
    """A subset as the C functions take it: a range without a step, or any other iterable of ids."""
    if isinstance(subset, range) and subset.step == 1:
        return _Subset(1, _word(subset.start), _word(subset.stop)), _words([]), max(0, subset.stop - subset.start)
    ids = _words(subset)
    return _Subset(0, 0, 0), ids, ids[1]


def _answered(answer, output):
    if answer.dense:
        return range(answer.start, answer.end)
    return list(output[: answer.end])


class ValueIndex:
    """An index from values to rows for Table.refresh. It belongs to the table that used it first; forget() makes it new."""

    def __init__(self):
        self._words = (c_uint32 * 0)()

    def forget(self):
        """Makes it new again, for any table."""
        if len(self._words):
            self._words[0] = 0

    def _grown(self, words):
        if len(self._words) >= words:
            return self._words
        grown = (c_uint32 * words)()
        ctypes.memmove(grown, self._words, ctypes.sizeof(self._words))
        return grown


class Table:
    """A table that keeps its stores. Rows are staged for insertion and removal, and applied by merge()."""

    def __init__(self, *, columns, keys, sort, rule, capacity, generation=0, pending_words=65536):
        opening = _Opening(*map(_word, (columns, keys, sort, rule, capacity, generation)))
        self.header = Header()
        self._pending = (c_uint32 * pending_words)()
        none = (c_uint32 * 0)()
        empty = _store(none)
        number = _open_table(byref(opening), byref(self.header), *empty, *empty, *empty, *_store(self._pending))
        if number != 2:
            # Numbers outside their bounds; with numbers inside them, stores of no length are too short.
            _check(number)
        words = (capacity + 63) // 64
        self._rows = (c_uint32 * (capacity * columns))()
        self._keys = (c_uint32 * (2 * capacity))()
        self._sorts = (c_uint32 * (2 * capacity))()
        self._live = (c_uint64 * words)()
        self._base = (c_uint32 * words)()
        _check(
            _open_table(
                byref(opening),
                byref(self.header),
                *_store(self._rows),
                *_store(self._keys),
                *_store(self._sorts),
                *_store(self._pending),
            )
        )

    def row(self, number):
        """The row with this number, or None if it is dead."""
        number = operator.index(number)
        if not 0 <= number < self.header.rows:
            raise IndexError(f"no row {number}")
        row = self._row(number)
        return None if row.cells[0] == DEAD else row

    def stores(self):
        """Header and stores as bytes: 12 header words, capacity * columns words of rows, 2 * capacity of keys, 2 * capacity of sorts,
        and the pending words in use. They have no checksum; the bytes that save() gives have one."""
        return b"".join(bytes(part) for part in (self.header, self._rows, self._keys, self._sorts)) + bytes(
            self._pending
        )[: 4 * self.header.pending]

    @classmethod
    def from_stores(cls, data, pending_words=65536):
        """The table whose bytes stores() gave. Raises Refused (1) if a header word is out of bounds, and ValueError if bytes are missing
        or left over or the table is not sound."""
        header = Header.from_buffer_copy(data)
        _check(_table_version(byref(header), byref(_Version())))
        table = cls(
            columns=header.columns,
            keys=header.keys,
            sort=header.sort,
            rule=header.rule,
            capacity=header.capacity,
            pending_words=max(pending_words, min(header.pending, len(data) // 4)),
        )
        at = 0
        for part, size in [(p, ctypes.sizeof(p)) for p in (table.header, table._rows, table._keys, table._sorts)] + [
            (table._pending, 4 * header.pending)
        ]:
            if len(data) < at + size:
                raise ValueError("too few bytes")
            ctypes.memmove(byref(part), data[at : at + size], size)
            at += size
        if at != len(data) or not table.is_sound():
            raise ValueError("the stores are not sound")
        return table

    def save(self, text=""):
        """The table as the bytes of a file, its image, with a text (str, or bytes) for its readers. Refused by 21, a text of more
        than LONGEST_TEXT bytes."""
        text = _bytes(text.encode() if isinstance(text, str) else text)
        words = c_uint64()
        _check(_image_size(byref(self.header), text[1], byref(words)))
        image = (c_uint32 * words.value)()
        _check(
            _write_image(
                byref(self.header),
                *_store(self._rows),
                *_store(self._sorts),
                *_store(self._pending),
                *text,
                *_store(image),
                byref(words),
            )
        )
        return bytes(image)

    @classmethod
    def load(cls, data, capacity=0, pending_words=65536):
        """The table whose image these bytes are, with this capacity, or with 0 the image's own: a larger one is how a full table
        grows. Refused by 19, bytes that are no image; 20, an image of a table that is not sound; 1, a capacity above 65,536 or
        below the row count."""
        header = check_image(data)
        if capacity:
            header.capacity = _word(capacity)
        _check(_table_version(byref(header), byref(_Version())))
        table = cls(
            columns=header.columns,
            keys=header.keys,
            sort=header.sort,
            rule=header.rule,
            capacity=header.capacity,
            pending_words=max(pending_words, header.pending),
        )
        _check(
            _read_image(
                *_image(data),
                header.capacity,
                byref(table.header),
                *_store(table._rows),
                *_store(table._keys),
                *_store(table._sorts),
                *_store(table._pending),
            )
        )
        return table

    def stage_insert(self, cells):
        """Stages a row for insertion at the next merge. Refused by 3 and 7."""
        _check(_stage_insert(byref(self.header), *_store(self._pending), *_words(cells)))

    def stage_remove(self, key):
        """Stages the removal of the live row with this key. Refused by 3 and 7."""
        _check(_stage_remove(byref(self.header), *_store(self._pending), *_words(key)))

    def stage_remove_row(self, row, key):
        """Stages the removal of a row that has this key at merge time. Refused by 3, 5 and 7."""
        _check(_stage_remove_row(byref(self.header), *_store(self._pending), _word(row), *_words(key)))

    def merge(self):
        """Applies what is staged. Raises Stopped if an insert must be appended and cannot be."""
        merged = _Merged()
        _check(
            _merge(
                byref(self.header),
                *_store(self._rows),
                *_store(self._keys),
                *_store(self._sorts),
                *_store(self._pending),
                *_store(self._live),
                *_store(self._base),
                byref(merged),
            )
        )
        if merged.status:
            raise Stopped(merged.status, merged.place)
        return Merged(bool(merged.added), merged.kept, merged.dropped)

    def compact(self):
        """Drops the dead rows; live rows are renumbered in order. Refused by 10."""
        _check(
            _compact(
                byref(self.header),
                *_store(self._rows),
                *_store(self._keys),
                *_store(self._sorts),
                *_store(self._live),
                *_store(self._base),
            )
        )

    def clear(self):
        """Drops what is staged. If there are rows, drops them all, forgets the largest sort value, and raises the generation by one.
        Refused by 10, if there are rows."""
        _check(_clear(byref(self.header), *_store(self._keys)))

    def refresh(self, index, columns, values, stamp):
        """Stages each live row that holds one of the values in one of the columns, with the stamp as its sort cell; whether there
        was one. Refused by 12, 6, 9 and 7; the index is as it was then."""
        columns = list(columns)
        words = index._grown(16 + 3 * self.header.capacity * min(len(columns), 8))
        staged = c_uint32()
        _check(
            _refresh(
                byref(self.header),
                *_store(self._rows),
                *_store(self._pending),
                *_store(words),
                *_words(columns),
                *_words(values),
                _word(stamp),
                byref(staged),
            )
        )
        index._words = words
        return bool(staged.value)

    def is_sound(self):
        """Whether header and stores are a sound table."""
        sound = c_uint32()
        _check(
            _is_sound(
                byref(self.header),
                *_store(self._rows),
                *_store(self._keys),
                *_store(self._sorts),
                *_store(self._pending),
                byref(sound),
            )
        )
        return bool(sound.value)

    def version(self):
        """Generation and row count."""
        version = _Version()
        _check(_table_version(byref(self.header), byref(version)))
        return Version(version.generation, version.rows)

    def rows_since(self, version):
        """The rows since a version that this table had. Refused by 18."""
        found = _Range()
        _check(_rows_since_version(byref(self.header), byref(_Version(*map(_word, Version(*version)))), byref(found)))
        return range(found.start, found.end)

    def updates_since(self, row):
        """The rows from this number on. Refused by 5."""
        found = _Range()
        _check(_updates_since(byref(self.header), _word(row), byref(found)))
        return range(found.start, found.end)

    def _row(self, row):
        columns = self.header.columns
        return Row(row, tuple(self._rows[row * columns : (row + 1) * columns]))

    def rows(self):
        """The live rows, rising."""
        for row in range(self.header.rows):
            if self._rows[row * self.header.columns] != DEAD:
                yield self._row(row)

    __iter__ = rows

    def get_row(self, key):
        """The live row with a key, or None. Refused by 3."""
        row = _Row()
        _check(_get_row(byref(self.header), *_store(self._rows), *_store(self._keys), *_words(key), byref(row)))
        return self._row(row.row) if row.found else None

    def get_cell(self, key, column):
        """One cell of the live row with a key, or None. Refused by 3 and 6."""
        cell = _Cell()
        _check(
            _get_row_column(
                byref(self.header), *_store(self._rows), *_store(self._keys), *_words(key), _word(column), byref(cell)
            )
        )
        return cell.cell if cell.found else None

    def fast_range(self, condition):
        """The range of all rows that meet a condition on the sort column, or None. Dead rows may lie in it. Refused by 6."""
        found = _Range()
        condition = _constraint(condition)
        _check(_fast_subset(byref(self.header), *_store(self._sorts), byref(condition), byref(found)))
        return range(found.start, found.end) if found.found else None

    def all(self):
        """All row numbers, dead rows among them."""
        return range(self.header.rows)

    def refine_one(self, subset, condition):
        """The live rows of a subset that meet a condition: a range or a list. Refused by 4, 5 and 6."""
        subset, ids, size = _subset(subset)
        output = (c_uint32 * min(size, self.header.rows))()
        answer = _Subset()
        condition = _constraint(condition)
        _check(
            _refine_one(
                byref(self.header),
                *_store(self._rows),
                byref(subset),
                *ids,
                byref(condition),
                *_store(output),
                byref(answer),
            )
        )
        return _answered(answer, output)

    def refine(self, subset, conditions):
        """The live rows of a subset that meet all conditions: the range if all of it is kept, else a list. Refused by 4, 5, 6."""
        subset, ids, size = _subset(subset)
        output = (c_uint32 * min(size, self.header.rows))()
        answer = _Subset()
        _check(
            _refine_ref(
                byref(self.header),
                *_store(self._rows),
                byref(subset),
                *ids,
                *_conditions(conditions),
                *_store(output),
                byref(answer),
            )
        )
        return _answered(answer, output)

    def contains_match(self, subset, conditions):
        """Whether some live row of a subset meets all conditions. Refused by 4, 5 and 6."""
        subset, ids, _ = _subset(subset)
        matched = c_uint32()
        _check(
            _contains_match(
                byref(self.header),
                *_store(self._rows),
                byref(subset),
                *ids,
                *_conditions(conditions),
                byref(matched),
            )
        )
        return bool(matched.value)

    def read_page(self, subset, place, n, conditions=()):
        """Visits n ids of a subset from a place on: the ids of live rows that meet all conditions. Refused by 4, 5 and 6."""
        subset, ids, size = _subset(subset)
        n = min(operator.index(n), 2**32)
        if n < 0:
            raise ValueError("a page of fewer than 0 ids")
        output = (c_uint32 * min(n, size, self.header.rows))()
        page = _Page()
        _check(
            _read_page(
                byref(self.header),
                *_store(self._rows),
                byref(subset),
                *ids,
                _word(place),
                n,
                *_conditions(conditions),
                *_store(output),
                byref(page),
            )
        )
        return Page(list(output[: page.written]), page.dead, page.next if page.has_next else None)

    def check_precedence(self, column, pairs):
        """The lowest row that fails a pair of values in a key column and the place of that pair, or None. Refused by 6, 14."""
        failure = _Failure()
        words = _words(value for first, second in pairs for value in (first, second))
        _check(
            _check_precedence(
                byref(self.header), *_store(self._rows), *_store(self._keys), _word(column), *words, byref(failure)
            )
        )
        return (failure.row, failure.pair) if failure.found else None

    def listing(self, numbered=True):
        """A listing of the live rows as bytes, with row numbers in the new form."""
        rows, columns = self.header.rows, self.header.columns
        text = (c_uint8 * (68 + rows * (2 + 11 * (columns + 1))))()
        length = c_uint64()
        _check(
            _write_listing(byref(self.header), *_store(self._rows), int(numbered), *_store(text), byref(length))
        )
        return bytes(text[: length.value])


def check_image(data):
    """The header of the table whose image these bytes are. Refused by 19, bytes that are no image, and 20, an image of a table that
    is not sound."""
    header = Header()
    _check(_check_image(*_image(data), byref(header)))
    return header


def image_text(data):
    """The text of an image, as bytes. Refused by 19."""
    text = (c_uint8 * LONGEST_TEXT)()
    length = c_uint64()
    _check(_read_image_text(*_image(data), *_store(text), byref(length)))
    return bytes(text[: length.value])


def intersect(first, second):
    """The ids that two subsets have in common. Refused by 4."""
    first, first_ids, _ = _subset(first)
    second, second_ids, _ = _subset(second)
    output = (c_uint32 * max(first_ids[1], second_ids[1]))()
    answer = _Subset()
    _check(_intersect(byref(first), *first_ids, byref(second), *second_ids, *_store(output), byref(answer)))
    return _answered(answer, output)


def _rearranged(function, width, cells):
    cells = _words(cells)
    output = (c_uint32 * cells[1])()
    _check(function(_word(width), *cells, *_store(output)))
    return list(output)


def to_columns(width, cells):
    """Rows in column order, each cell but a column's first as its difference from the cell above. Refused by 1 and 13."""
    return _rearranged(_to_columns, width, cells)


def from_columns(width, cells):
    """The inverse of to_columns. Refused by 1 and 13."""
    return _rearranged(_from_columns, width, cells)


def read_listing(text):
    """A listing in the old form. Refused by 11."""
    output = (c_uint32 * (len(text) // 2))()
    head = _Listing()
    _check(_read_listing(*_bytes(text), *_store(output), byref(head)))
    rows = [tuple(output[at * head.columns : (at + 1) * head.columns]) for at in range(head.listed)]
    return Listing(head.columns, head.keys, head.sort, head.rule, head.generation, None, rows)


def read_numbered(text):
    """A listing in the new form. Refused by 11."""
    output = (c_uint32 * (len(text) // 2))()
    head = _NumberedListing()
    _check(_read_numbered(*_bytes(text), *_store(output), byref(head)))
    width = head.columns + 1
    rows = [tuple(output[at * width : (at + 1) * width]) for at in range(head.listed)]
    return Listing(head.columns, head.keys, head.sort, head.rule, head.generation, head.count, rows)


def _converted(function, text, room):
    output = (c_uint8 * room)()
    length = c_uint64()
    _check(function(*_bytes(text), *_store(output), byref(length)))
    return bytes(output[: length.value])


def to_numbered(text):
    """A listing in the old form as bytes in the new one; rows are numbered from 0. Refused by 11."""
    return _converted(_to_numbered, text, 3 * len(text))


def from_numbered(text):
    """A listing in the new form as bytes in the old one. Refused by 11 and 17."""
    return _converted(_from_numbered, text, len(text))


def check_answers(text, conditions, given):
    """Checks the row numbers that another program has found for the rows of a listing in the new form that meet all conditions. Refused by
    11 and 6."""
    verdict = _Verdict()
    _check(_check_answers(*_bytes(text), *_conditions(conditions), *_words(given), byref(verdict)))
    return Verdict(verdict.kind, verdict.number)
