"""Reads an image: a table of Mouldgrey in one file.

    python3 mouldgrey_image.py FILE

prints the text block, the header, whether the table is sound, and the live rows as a listing. Exit status: 0 for an image of a
sound table, 1 for a file that is no image or an image whose table is not sound, 2 for wrong usage or a file that cannot be read.

It follows the chapter "Images" of docs/FORMAT.md. It uses three modules of Python's standard library and nothing of Mouldgrey,
so that it can be ported from this file and that chapter alone. struct.unpack("<I") reads a word, lowest byte first; zlib.crc32 is
the checksum that the chapter defines. All other numbers are plain integers, which do not overflow in Python.
"""

import struct
import sys
import zlib

MAGIC = b"MGTB"
FORMAT = 1
FIXED_WORDS = 16
"""Magic, format number, twelve header words, text length, checksum."""
TEXT_PLACE = 60
"""The byte at which the text begins."""
MOST_TEXT = 4096
MOST_COLUMNS = 8
MOST_RULE = 3
MOST_CAPACITY = 65536
DEAD = 0xFFFFFFFF
"""The first cell of a dead row."""

FIELDS = (
    "columns",
    "keys",
    "sort",
    "rule",
    "capacity",
    "rows",
    "dead",
    "entries",
    "pending",
    "generation",
    "has_largest",
    "largest",
)
"""The header's twelve words, in their order."""

CLAUSES = {
    "dead-counted": "the dead count is the number of dead rows",
    "keys-differ": "no two live rows have the same key",
    "entries-rise": "sort entries rise strictly, their rows are below the row count, and row 0, if there is one, has the first",
    "sorted": "each live row's sort cell is the value of the last entry at or below its row",
    "largest-kept": "where there is an entry, a largest value is known, and no entry's value is above it",
    "pending-whole": "the pending words are whole records, each with its key's hash",
}
"""The clauses of soundness, in the order in which check() reports them."""


class NotAnImage(Exception):
    """The bytes are no image. `reason` is magic, format, length, header bounds, padding or checksum."""

    def __init__(self, reason, detail):
        super().__init__(reason, detail)
        self.reason = reason
        self.detail = detail

    def __str__(self):
        return f"{self.reason}: {self.detail}"


class Header:
    """The header: one attribute for each name in FIELDS."""

    def __init__(self, words):
        (
            self.columns,
            self.keys,
            self.sort,
            self.rule,
            self.capacity,
            self.rows,
            self.dead,
            self.entries,
            self.pending,
            self.generation,
            self.has_largest,
            self.largest,
        ) = words

    def words(self):
        """The twelve words again."""
        return tuple(getattr(self, name) for name in FIELDS)


class Image:
    """What an image contains: header, text in bytes, rows (dead ones too), entries as pairs (value, first row), pending words."""

    def __init__(self, header, text, rows, entries, pending):
        self.header = header
        self.text = text
        self.rows = rows
        self.entries = entries
        self.pending = pending


def read(data):
    """The image that bytes are. Raises NotAnImage for the first test that fails."""
    if data[:4] != MAGIC:
        raise NotAnImage("magic", "the first four bytes are not 4d 47 54 42")
    if len(data) >= 8 and struct.unpack_from("<I", data, 4)[0] != FORMAT:
        raise NotAnImage("format", f"the format number is {struct.unpack_from('<I', data, 4)[0]}, not {FORMAT}")
    if len(data) % 4 != 0:
        raise NotAnImage("length", f"{len(data)} bytes are not whole words")
    words = struct.unpack(f"<{len(data) // 4}I", data)
    if len(words) < FIXED_WORDS:
        raise NotAnImage("length", f"{len(words)} words, fewer than {FIXED_WORDS}")
    header = Header(words[2:14])
    text_length = words[14]
    if text_length > MOST_TEXT:
        raise NotAnImage("length", f"a text of {text_length} bytes, more than {MOST_TEXT}")

    # Where each part begins. Up to here the numbers may be anything: a product of two words has up to 64 bits.
    rows_place = FIXED_WORDS - 1 + (text_length + 3) // 4
    entries_place = rows_place + header.rows * header.columns
    pending_place = entries_place + 2 * header.entries
    checksum_place = pending_place + header.pending
    if len(words) != checksum_place + 1:
        raise NotAnImage("length", f"{len(words)} words, where the header needs {checksum_place + 1}")
    _test_bounds(header)

    text_end = TEXT_PLACE + text_length
    if any(data[text_end : 4 * rows_place]):
        raise NotAnImage("padding", "a byte between the text and the rows is not 0")
    checksum = zlib.crc32(data[: 4 * checksum_place])
    if words[checksum_place] != checksum:
        raise NotAnImage("checksum", f"the last word is {words[checksum_place]:08x}, the CRC-32 is {checksum:08x}")

    width = header.columns
    return Image(
        header,
        bytes(data[TEXT_PLACE:text_end]),
        [words[at : at + width] for at in range(rows_place, entries_place, width)],
        [words[at : at + 2] for at in range(entries_place, pending_place, 2)],
        words[pending_place:checksum_place],
    )


def _test_bounds(header):
    """Raises NotAnImage for a header word outside its bounds."""
    bounds = (
        ("columns", 1, MOST_COLUMNS),
        ("keys", 1, header.columns),
        ("sort", 0, header.columns - 1),
        ("rule", 0, MOST_RULE),
        ("capacity", 1, MOST_CAPACITY),
        ("rows", 0, header.capacity),
        ("dead", 0, header.rows),
        ("entries", 0, header.rows),
        ("has_largest", 0, 1),
    )
    for name, least, most in bounds:
        value = getattr(header, name)
        if not least <= value <= most:
            raise NotAnImage("header bounds", f"{name} is {value}, not {least} to {most}")
    if header.has_largest == 0 and header.largest != 0:
        raise NotAnImage("header bounds", f"largest is {header.largest} beside a has_largest of 0")


def is_live(row):
    """Whether a row, given by its cells, is live."""
    return row[0] != DEAD


def rows(image):
    """The live rows, rising: pairs of a row's number and its cells."""
    for number, row in enumerate(image.rows):
        if is_live(row):
            yield number, row


def check(image):
    """The names of the clauses of soundness that fail, in the order of CLAUSES. An image of a sound table gives an empty list."""
    tests = {
        "dead-counted": _dead_counted,
        "keys-differ": _keys_differ,
        "entries-rise": _entries_rise,
        "sorted": _sorted,
        "largest-kept": _largest_kept,
        "pending-whole": _pending_whole,
    }
    return [name for name in CLAUSES if not tests[name](image)]


def _dead_counted(image):
    return image.header.dead == sum(not is_live(row) for row in image.rows)


def _keys_differ(image):
    seen = set()
    for _, row in rows(image):
        key = row[: image.header.keys]
        if key in seen:
            return False
        seen.add(key)
    return True


def _entries_rise(image):
    if not image.entries:
        return image.header.rows == 0
    if image.entries[0][1] != 0:
        return False
    for (value, row), (next_value, next_row) in zip(image.entries, image.entries[1:]):
        if value >= next_value or row >= next_row:
            return False
    return all(row < image.header.rows for _, row in image.entries)


def _sorted(image):
    # The entry for a row: from the first entry on, go to the next one while its first row is not above the row's number. Row
    # numbers rise, so the search for each row goes on from where the last one ended. Without entries the value is 0.
    at = 0
    for number, row in rows(image):
        while at + 1 < len(image.entries) and image.entries[at + 1][1] <= number:
            at += 1
        value = image.entries[at][0] if image.entries else 0
        if row[image.header.sort] != value:
            return False
    return True


def _largest_kept(image):
    header = image.header
    return all(header.has_largest == 1 and value <= header.largest for value, _ in image.entries)


def _pending_whole(image):
    columns, keys, words = image.header.columns, image.header.keys, image.pending
    at = 0
    while at < len(words):
        # The record's length, and how many words come before its key.
        if words[at] == 0:
            length, before = columns + 2, 2
        elif words[at] == 1:
            length, before = keys + 2, 2
        elif words[at] == 2:
            length, before = keys + 3, 3
        else:
            return False
        if at + length > len(words):
            return False
        if words[at + 1] != key_hash(words[at + before : at + before + keys]):
            return False
        at += length
    return True


def key_hash(key):
    """The hash of a key, a number of 32 bits."""
    result = 0
    for cell in key:
        total = (result + cell + 2654435761) % 2**32
        exchanged = total % 2**16 * 2**16 + total // 2**16
        product = total * exchanged
        result = (product // 2**31 + product % 2**32) % 2**32
    return result


def listing(image):
    """The live rows as text, in the form U of the program levels."""
    header = image.header
    head = (header.columns, header.keys, header.sort, header.rule, header.generation, header.rows)
    lines = ["U," + ",".join(map(str, head))]
    for number, row in rows(image):
        lines.append(f"D,{number}," + ",".join(map(str, row)))
    return "".join(line + "\n" for line in lines)


def describe(image, failing):
    """What the command line prints of an image and the clauses that fail. The listing's lines are those without a # in front."""
    text = image.text.decode("utf-8", "backslashreplace").split("\n")
    if text[-1] == "":
        text.pop()
    lines = [f"text: {len(image.text)} bytes"]
    lines += ["  " + _printable(line) for line in text]
    lines += [f"{name}: {getattr(image.header, name)}" for name in FIELDS]
    lines += [f"not sound: {name}: {CLAUSES[name]}" for name in failing]
    if not failing:
        lines.append("sound")
    return "".join(f"# {line}\n" for line in lines) + listing(image)


def _printable(line):
    """A line without control characters, which could change what a terminal shows."""
    return "".join(c if c.isprintable() else c.encode("unicode_escape").decode() for c in line)


def main(arguments):
    if len(arguments) != 1 or arguments[0].startswith("-"):
        print("usage: python3 mouldgrey_image.py FILE", file=sys.stderr)
        return 2
    try:
        with open(arguments[0], "rb") as file:
            data = file.read()
    except OSError as error:
        print(f"{arguments[0]}: {error.strerror}", file=sys.stderr)
        return 2
    try:
        image = read(data)
    except NotAnImage as error:
        print(f"{arguments[0]}: not an image: {error}", file=sys.stderr)
        return 1
    failing = check(image)
    sys.stdout.reconfigure(errors="backslashreplace", newline="\n")
    sys.stdout.write(describe(image, failing))
    return 1 if failing else 0


if __name__ == "__main__":
    sys.exit(main(sys.argv[1:]))
