"""Tests of the reader of images: python3 -m unittest in this folder. The library is needed for the last class alone."""

import ast
import copy
import ctypes
import os
import random
import re
import struct
import subprocess
import sys
import tempfile
import unittest
import zlib

import mouldgrey_image as reader

HERE = os.path.dirname(os.path.abspath(__file__))
DEAD = 0xFFFFFFFF
RESIDUE = 0x2144DF1C
"""The CRC-32 of every image, its checksum included."""


# ---- a writer, for tests alone: it shares no code with the reader


def pack(words):
    return struct.pack(f"<{len(words)}I", *words)


def sealed(body):
    """Bytes with their CRC-32 behind them."""
    return body + pack([zlib.crc32(body)])


def write(header, rows, sorts, pending, text):
    """The image of twelve header words, rows, pairs, pending words and a text, whether they fit together or not."""
    body = b"MGTB" + pack([1, *header, len(text)]) + text + bytes(-len(text) % 4)
    for part in (*rows, *sorts, pending):
        body += pack(part)
    return sealed(body)


def hashed(key):
    value = 0
    for cell in key:
        value = (value + cell + 0x9E3779B1) & 0xFFFFFFFF
        product = value * (value >> 16 | (value & 0xFFFF) << 16)
        value = ((product >> 31) + product) & 0xFFFFFFFF
    return value


def insert(keys, cells):
    return [0, hashed(cells[:keys]), *cells]


def remove(key):
    return [1, hashed(key), *key]


def remove_row(row, key):
    return [2, hashed(key), row, *key]


class Sample:
    """A table in parts that a test changes. The counts of a new one are right."""

    def __init__(self, columns, keys, sort, rows, sorts, pending=(), text=b"", largest=None, rule=1, capacity=100, generation=0):
        self.columns, self.keys, self.sort, self.rule = columns, keys, sort, rule
        self.capacity, self.generation = capacity, generation
        self.rows = [list(row) for row in rows]
        self.sorts = [list(pair) for pair in sorts]
        self.pending = [word for record in pending for word in record]
        self.text = text
        if largest is None and self.sorts:
            largest = self.sorts[-1][0]
        self.has_largest, self.largest = (0, 0) if largest is None else (1, largest)
        self.recount()

    def recount(self):
        self.counts = [len(self.rows), sum(row[0] == DEAD for row in self.rows), len(self.sorts), len(self.pending)]

    def header(self):
        opening = [self.columns, self.keys, self.sort, self.rule, self.capacity]
        return [*opening, *self.counts, self.generation, self.has_largest, self.largest]

    def image(self):
        return write(self.header(), self.rows, self.sorts, self.pending, self.text)

    def changed(self, change, recount=True):
        """The image after a change of a copy. The counts follow, unless the change is about them."""
        other = copy.deepcopy(self)
        change(other)
        if recount:
            other.recount()
        return other.image()


def worked():
    """The table of the chapter's dump."""
    return Sample(
        columns=4,
        keys=2,
        sort=3,
        rows=[[DEAD, 1, 160, 10], [7, 2, 148, 10], [7, 1, 163, 12]],
        sorts=[[10, 0], [12, 2]],
        pending=[remove([7, 2])],
        text=b"modem, side, level in 0.1 dB, stamp in s from 2020",
    )


def empty():
    return Sample(columns=1, keys=1, sort=0, rows=[], sorts=[], capacity=1)


def mixed():
    """All kinds of pending records, and a key that is the sort column."""
    return Sample(
        columns=3,
        keys=1,
        sort=0,
        rows=[[5, DEAD, 0], [DEAD, 1, 1], [9, 2, DEAD], [DEAD, DEAD, DEAD]],
        sorts=[[5, 0], [7, 1], [9, 2]],
        pending=[insert(1, [9, 1, 1]), remove([5]), remove_row(7000, [9]), insert(1, [DEAD, 0, 0]), remove([DEAD])],
        text=b"\xff\x00",
        largest=DEAD,
        rule=3,
        generation=DEAD,
    )


# ---- random images


def random_sample(rng):
    """A random sound table."""
    columns = rng.randint(1, 8)
    keys, sort = rng.randint(1, columns), rng.randrange(columns)
    count = rng.choice((0, 1, rng.randint(2, 6), rng.randint(0, 30)))
    values = (0, 1, 2, 3, DEAD, rng.randrange(1 << 32))
    stamp = rng.choice((0, 10, 1 << 31))
    rows, sorts = [], []
    for number in range(count):
        stamp = min(DEAD, stamp + rng.choice((0, 0, 1, 7, 1 << 27)))
        cells = rng.choices(values, k=columns)
        cells[sort] = stamp
        if not sorts or sorts[-1][0] < stamp:
            sorts.append([stamp, number])
        rows.append(cells)
    # Some rows die. Of rows with the same key the last one lives.
    seen = set()
    for row in reversed(rows):
        key = tuple(row[:keys])
        if key in seen or rng.random() < 0.2:
            row[0] = DEAD
        elif row[0] != DEAD:
            seen.add(key)
    pending = []
    for _ in range(rng.choice((0, 0, 1, 3))):
        cells = rng.choices(values, k=columns)
        kind = rng.randrange(3)
        record = (insert(keys, cells), remove(cells[:keys]), remove_row(rng.choice(values), cells[:keys]))
        pending.append(record[kind])
    return Sample(
        columns,
        keys,
        sort,
        rows,
        sorts,
        pending,
        text=bytes(rng.choices(range(256), k=rng.choice((0, 1, 2, 3, 4, 21, 40)))),
        largest=rng.choice((None, rng.randint(sorts[-1][0] if sorts else 0, DEAD))),
        rule=rng.randrange(4),
        capacity=rng.choice((max(1, count), 100, 65536)),
        generation=rng.choice((0, DEAD, rng.randrange(1 << 32))),
    )


def flipped(rng, data):
    """One to three bits changed."""
    data = bytearray(data)
    for place in rng.sample(range(8 * len(data)), rng.randint(1, 3)):
        data[place // 8] ^= 1 << place % 8
    return bytes(data)


def four_changed(rng, data):
    """Four neighbouring bytes replaced by random ones."""
    place = rng.randrange(len(data) - 3)
    new = data[place : place + 4]
    while new == data[place : place + 4]:
        new = pack([rng.getrandbits(32)])
    return data[:place] + new + data[place + 4 :]


def other_word(rng, sample):
    """A word of one part changed, the checksum made right."""
    data = bytearray(sample.image()[:-4])
    text = 60 + len(sample.text) + -len(sample.text) % 4
    sorts = text + 4 * len(sample.rows) * sample.columns
    pending = sorts + 8 * len(sample.sorts)
    parts = [(0, 60), (60, text), (text, sorts), (text, sorts), (sorts, pending), (pending, len(data))]
    first, last = rng.choice([part for part in parts if part[0] < part[1]])
    place = rng.randrange(first, last, 4)
    (word,) = struct.unpack_from("<I", data, place)
    (another,) = struct.unpack_from("<I", data, rng.randrange(first, last, 4))
    word = rng.choice((word + 1, word - 1, 0, DEAD, another, another, rng.randrange(1 << 32))) % 2**32
    struct.pack_into("<I", data, place, word)
    return sealed(bytes(data))


def other_key(rng, sample):
    """The key of a live row copied to another one, whole or but for one cell, the checksum made right."""
    other = copy.deepcopy(sample)
    live = [row for row in other.rows if row[0] != DEAD]
    if len(live) < 2:
        return other_word(rng, sample)
    first, second = rng.sample(live, 2)
    for column in range(other.keys):
        if column != other.sort:
            second[column] = first[column]
    if rng.random() < 0.3:
        second[rng.randrange(other.columns)] ^= 1 << rng.randrange(32)
    other.recount()
    return other.image()


def other_counts(rng, sample):
    """A header with words at and past their bounds, a body of the length that it needs and a right checksum."""
    other = copy.deepcopy(sample)
    del other.rows[3:]
    del other.sorts[rng.randint(0, 3) :]
    for _ in range(rng.choice((1, 1, 2))):
        name = rng.choice(("columns", "keys", "sort", "rule", "capacity", "has_largest", "largest", "sorts", "text"))
        if name == "sorts":
            other.sorts += [[other.largest, 0]] * rng.randint(1, 3)
        elif name == "text":
            other.text = bytes(rng.choice((4095, 4096, 4097, 4100)))
        else:
            near = {"columns": (0, 8, 9), "rule": (3, 4), "capacity": (0, 65536, 65537, len(other.rows)), "largest": (0, 1)}
            setattr(other, name, rng.choice(near.get(name, (0, 1, 2, other.columns, other.columns + 1))))
    other.rows = [(row + [0, 0])[: other.columns] if other.columns else [] for row in other.rows]
    other.counts = [len(other.rows), sum(row[:1] == [DEAD] for row in other.rows), len(other.sorts), len(other.pending)]
    if rng.random() < 0.3:
        other.counts[1] = len(other.rows) + rng.randint(0, 1)
    return other.image()


def other_length(rng, data):
    """Words cut off or put behind, the checksum made right or not."""
    if rng.random() < 0.5:
        cut = data[: 4 * rng.randrange(len(data) // 4)]
    else:
        cut = data + pack([rng.getrandbits(32) for _ in range(rng.randint(1, 4))])
    return cut if rng.random() < 0.5 or len(cut) < 4 else sealed(cut[:-4])


def random_images(seed, rounds):
    """Pairs of a kind and an image: eight for each round."""
    rng = random.Random(seed)
    for _ in range(rounds):
        sample = random_sample(rng)
        data = sample.image()
        yield "sound", data
        yield "damaged", flipped(rng, data)
        yield "damaged", four_changed(rng, data)
        yield "word", other_word(rng, sample)
        yield "word", other_word(rng, sample)
        yield "key", other_key(rng, sample)
        yield "counts", other_counts(rng, sample)
        yield "length", other_length(rng, data)


def refusal(data):
    """What the reader makes of bytes: 0, 19 or 20, and why."""
    try:
        failing = reader.check(reader.read(data))
    except reader.NotAnImage as error:
        return 19, error.reason
    return (20, failing[0]) if failing else (0, "")


# ---- tests without the library


class Reading(unittest.TestCase):
    def not_an_image(self, reason, data):
        with self.assertRaises(reader.NotAnImage) as caught:
            reader.read(data)
        self.assertEqual(caught.exception.reason, reason, str(caught.exception))

    def test_round_trip(self):
        for sample in (worked(), empty(), mixed()):
            image = reader.read(sample.image())
            self.assertEqual(list(image.header.words()), sample.header())
            self.assertEqual(image.text, sample.text)
            self.assertEqual([list(row) for row in image.rows], sample.rows)
            self.assertEqual([list(entry) for entry in image.entries], sample.sorts)
            self.assertEqual(list(image.pending), sample.pending)
            self.assertEqual(reader.check(image), [])
            self.assertEqual(zlib.crc32(sample.image()), RESIDUE)
        self.assertEqual(list(reader.rows(reader.read(worked().image()))), [(1, (7, 2, 148, 10)), (2, (7, 1, 163, 12))])
        self.assertEqual(list(reader.rows(reader.read(empty().image()))), [])

    def test_largest_table(self):
        rows = [[number, number // 2] for number in range(65536)]
        sorts = [[number, 2 * number] for number in range(32768)]
        full = Sample(2, 1, 1, rows, sorts, text=bytes(4096), capacity=65536)
        image = reader.read(full.image())
        self.assertEqual(reader.check(image), [])
        self.assertEqual(reader.check(reader.read(full.changed(lambda s: s.rows[65535].__setitem__(0, 0)))), ["keys-differ"])

    def test_bit_flips(self):
        for sample in (worked(), empty(), mixed()):
            data = sample.image()
            for place in range(8 * len(data)):
                flip = bytearray(data)
                flip[place // 8] ^= 1 << place % 8
                self.assertNotEqual(zlib.crc32(flip), RESIDUE)
                with self.assertRaises(reader.NotAnImage):
                    reader.read(bytes(flip))

    def test_flips_that_the_checksum_alone_finds(self):
        sample = worked()
        data = sample.image()
        for place in range(60 + len(sample.text) + -len(sample.text) % 4, len(data)):
            self.not_an_image("checksum", data[:place] + bytes([data[place] ^ 1]) + data[place + 1 :])

    def test_lengths(self):
        for sample in (worked(), empty(), mixed()):
            data = sample.image()
            for length in range(4):
                self.not_an_image("magic", data[:length])
            for length in range(4, len(data)):
                self.not_an_image("length", data[:length])
            for more in (b"\0", b"\0\0", b"\0\0\0", bytes(4), data[-4:], data):
                self.not_an_image("length", data + more)
            for words in range(5, len(data) // 4):
                self.not_an_image("length", sealed(data[: 4 * words - 4]))
            self.not_an_image("length", sealed(data))
        self.not_an_image("length", worked().changed(lambda s: setattr(s, "text", bytes(4097))))
        self.assertEqual(refusal(worked().changed(lambda s: setattr(s, "text", bytes(4096)))), (0, ""))

    def test_header_bounds(self):
        def both(name, inside, outside):
            for value in inside:
                self.assertEqual(refusal(empty().changed(lambda s: setattr(s, name, value))), (0, ""), (name, value))
            for value in outside:
                self.not_an_image("header bounds", empty().changed(lambda s: setattr(s, name, value)))

        both("columns", (1, 8), (0, 9, DEAD))
        both("keys", (1,), (0, 2, DEAD))
        both("sort", (0,), (1, DEAD))
        both("rule", (0, 1, 2, 3), (4, DEAD))
        both("capacity", (1, 65536), (0, 65537, DEAD))
        both("generation", (0, DEAD), ())
        both("has_largest", (0, 1), (2, DEAD))
        both("largest", (0,), (1, DEAD))
        one = Sample(1, 1, 0, [[5]], [[5, 0]], capacity=1)
        self.assertEqual(refusal(one.image()), (0, ""))
        self.not_an_image("header bounds", one.changed(lambda s: s.rows.append([6])))
        self.not_an_image("header bounds", one.changed(lambda s: s.sorts.append([6, 1])))
        self.not_an_image("header bounds", one.changed(lambda s: s.counts.__setitem__(1, 2), recount=False))
        self.assertEqual(refusal(one.changed(lambda s: setattr(s, "has_largest", 0) or setattr(s, "largest", 0)))[0], 20)

    def test_padding(self):
        for length in range(1, 9):
            text = b"x" * length
            data = worked().changed(lambda s: setattr(s, "text", text))
            self.assertEqual(reader.read(data).text, text)
            for place in range(60 + length, 60 + length + -length % 4):
                self.not_an_image("padding", sealed(data[:place] + b"\1" + data[place + 1 : -4]))

    def test_order_of_reasons(self):
        # All tests fail at first. Each is mended in turn, and the next one is reported.
        def data(magic, number, spare, rule, pad, crc):
            header = [1, 1, 0, rule, 1, 0, 0, 0, 0, 0, 0, 0]
            body = magic + pack([number, *header, 1]) + b"x" + pad + bytes(spare)
            return body + (pack([zlib.crc32(body)]) if crc else pack([zlib.crc32(body) ^ 1]))

        wrong = [b"MGTC", 2, 4, 4, b"\0\1\0", False]
        right = [b"MGTB", 1, 0, 1, b"\0\0\0", True]
        for place, reason in enumerate(("magic", "format", "length", "header bounds", "padding", "checksum")):
            self.not_an_image(reason, data(*right[:place], *wrong[place:]))
        self.assertEqual(refusal(data(*right)), (0, ""))

    def test_random_images(self):
        found = {}
        for kind, data in random_images(1, 700):
            number, why = refusal(data)
            found[why] = found.get(why, 0) + 1
            if kind == "sound":
                self.assertEqual((number, why), (0, ""), data.hex())
            if kind in ("damaged", "length"):
                self.assertEqual(number, 19, data.hex())
        # The other kinds lead to every reason and to every clause.
        for why in ("magic", "format", "length", "header bounds", "padding", "checksum", *reader.CLAUSES):
            self.assertGreater(found.get(why, 0), 5, (why, found))


class Soundness(unittest.TestCase):
    def fails(self, clause, sample, change=lambda s: None, recount=True):
        """Of a changed table with a right checksum, this clause fails and no other."""
        self.assertEqual(reader.check(reader.read(sample.changed(change, recount))), [clause])

    def test_dead_counted(self):
        for dead in (0, 2, 3):
            self.fails("dead-counted", worked(), lambda s: s.counts.__setitem__(1, dead), recount=False)

    def test_keys_differ(self):
        self.fails("keys-differ", worked(), lambda s: s.rows[1].__setitem__(1, 1))
        # dead rows have no key
        dead = worked()
        dead.rows += [[DEAD, 1, 0, 0], [DEAD, 1, 0, 0]]
        dead.recount()
        self.assertEqual(refusal(dead.image()), (0, ""))

    def test_entries_rise(self):
        def sample(stamps, sorts):
            rows = [[number, stamp] for number, stamp in enumerate(stamps)]
            return Sample(2, 1, 1, rows, sorts, largest=20)

        self.assertEqual(refusal(sample([10, 10, 12], [[10, 0], [12, 2]]).image()), (0, ""))
        # values: equal, falling
        self.fails("entries-rise", sample([10, 10, 12], [[10, 0], [10, 1], [12, 2]]))
        self.fails("entries-rise", sample([12, 10, 10], [[12, 0], [10, 1]]))
        # first rows: equal, falling
        self.fails("entries-rise", sample([12, 12, 12], [[10, 0], [12, 0]]))
        self.fails("entries-rise", sample([10, 10, 12], [[10, 0], [11, 2], [12, 1]]))
        # not below the row count; the first one not 0; none, with live rows or dead ones
        self.fails("entries-rise", sample([10, 10, 10], [[10, 0], [12, 3]]))
        self.fails("entries-rise", sample([10, 10, 10], [[10, 1]]))
        self.fails("entries-rise", sample([0, 0, 0], []))
        self.fails("entries-rise", Sample(1, 1, 0, [[DEAD]], []))

    def test_sorted(self):
        self.fails("sorted", worked(), lambda s: s.rows[1].__setitem__(3, 11))
        self.fails("sorted", worked(), lambda s: s.rows[2].__setitem__(3, 10))
        self.fails("sorted", worked(), lambda s: s.sorts[1].__setitem__(1, 1))
        # the sort cell of a dead row is free
        self.assertEqual(refusal(worked().changed(lambda s: s.rows[0].__setitem__(3, 99))), (0, ""))

    def test_largest_kept(self):
        def without(sample):
            sample.has_largest = sample.largest = 0

        self.fails("largest-kept", worked(), lambda s: setattr(s, "largest", 11))
        self.fails("largest-kept", worked(), without)
        self.fails("largest-kept", Sample(1, 1, 0, [[0]], [[0, 0]]), without)
        self.assertEqual(refusal(worked().changed(lambda s: setattr(s, "largest", 13))), (0, ""))
        self.assertEqual(refusal(Sample(1, 1, 0, [], [], largest=7).image()), (0, ""))

    def test_pending_whole(self):
        for length in range(1, len(mixed().pending)):
            cut = mixed()
            del cut.pending[length:]
            cut.recount()
            if length in (5, 8, 12, 17):
                self.assertEqual(refusal(cut.image()), (0, ""))
            else:
                self.fails("pending-whole", cut)
        for place in (0, 1, 5, 6, 8, 9, 12, 13, 17, 18):
            self.fails("pending-whole", mixed(), lambda s: s.pending.__setitem__(place, s.pending[place] ^ 4))
        self.fails("pending-whole", worked(), lambda s: s.pending.append(0))
        self.fails("pending-whole", worked(), lambda s: s.pending.extend(remove([7])))
        self.fails("pending-whole", worked(), lambda s: s.pending.extend(insert(1, [7, 1, 1, 1])))

    def test_all_clauses(self):
        def spoil(sample):
            sample.rows[1] = [7, 1, 0, 0]
            sample.sorts[0][1] = 1
            sample.largest = 1
            sample.pending[0] = 3
            sample.counts[1] = 0

        self.assertEqual(reader.check(reader.read(worked().changed(spoil, recount=False))), list(reader.CLAUSES))


class Page(unittest.TestCase):
    """The chapter "Images" of docs/FORMAT.md."""

    @classmethod
    def setUpClass(cls):
        with open(os.path.join(HERE, "..", "..", "docs", "FORMAT.md"), encoding="utf-8") as page:
            chapters = re.split(r"^## ", page.read(), flags=re.MULTILINE)
        (cls.chapter,) = [chapter for chapter in chapters if chapter.startswith("Images\n")]

    def fenced(self, head):
        return self.chapter.split(f"```{head}\n")[1].split("```")[0]

    def test_dump(self):
        lines = self.fenced("dump image").splitlines()[1:]
        shown = b"".join(bytes.fromhex(line[10:]) for line in lines)
        self.assertEqual([int(line[:8], 16) for line in lines], list(range(0, len(shown), 16)))
        self.assertEqual(shown, worked().image())
        self.assertIn(f"0x{zlib.crc32(shown[:-4]):08x}", self.chapter)
        self.assertIn(f"{RESIDUE:08x}", self.chapter)

    def test_names(self):
        for name in reader.CLAUSES:
            self.assertIn(f". `{name}`: ", self.chapter)
        for reason in ("magic", "format", "length", "header bounds", "padding", "checksum"):
            self.assertIn(f"**{reason}**", self.chapter)

    def test_printed(self):
        image = reader.read(worked().image())
        self.assertEqual(self.fenced("printed"), reader.describe(image, []))


class CommandLine(unittest.TestCase):
    def run_reader(self, *arguments):
        command = [sys.executable, "-B", os.path.join(HERE, "mouldgrey_image.py"), *arguments]
        return subprocess.run(command, capture_output=True, check=False)

    def run_on(self, data):
        with tempfile.TemporaryDirectory() as folder:
            path = os.path.join(folder, "image")
            with open(path, "wb") as file:
                file.write(data)
            return self.run_reader(path)

    def test_sound(self):
        result = self.run_on(worked().image())
        self.assertEqual((result.returncode, result.stderr), (0, b""))
        listing = b"".join(line for line in result.stdout.splitlines(True) if not line.startswith(b"#"))
        self.assertEqual(listing, b"U,4,2,3,1,0,3\nD,1,7,2,148,10\nD,2,7,1,163,12\n")
        self.assertIn(b"#   modem, side, level in 0.1 dB, stamp in s from 2020\n", result.stdout)

    def test_unsound(self):
        result = self.run_on(worked().changed(lambda s: s.rows[1].__setitem__(1, 1)))
        self.assertEqual((result.returncode, result.stderr), (1, b""))
        self.assertIn(b"# not sound: keys-differ: ", result.stdout)
        self.assertIn(b"\nD,1,7,1,148,10\n", result.stdout)

    def test_control_characters(self):
        result = self.run_on(worked().changed(lambda s: setattr(s, "text", b"a\x1b[2J\r\nU,1\xff\n")))
        self.assertIn(b"# text: 12 bytes\n#   a\\x1b[2J\\r\n#   U,1\\xff\n# columns: 4\n", result.stdout)

    def test_no_image(self):
        result = self.run_on(worked().image()[:-1])
        self.assertEqual((result.returncode, result.stdout), (1, b""))
        self.assertIn(b"not an image: length: ", result.stderr)

    def test_usage(self):
        for arguments in ((), ("a", "b"), ("--help",), (HERE,), (os.path.join(HERE, "no such file"),)):
            result = self.run_reader(*arguments)
            self.assertEqual((result.returncode, result.stdout), (2, b""), arguments)
            self.assertNotIn(b"Traceback", result.stderr)

    def test_imports(self):
        with open(os.path.join(HERE, "mouldgrey_image.py"), encoding="utf-8") as file:
            tree = ast.parse(file.read())
        imports = [node for node in ast.walk(tree) if isinstance(node, (ast.Import, ast.ImportFrom))]
        self.assertEqual([[name.name for name in node.names] for node in imports], [["struct"], ["sys"], ["zlib"]])


# ---- the reader beside the library


def library_check():
    """The library's check of an image, and its header struct. None if there is no library, or none with this function."""
    try:
        import mouldgrey

        kind = ctypes.CFUNCTYPE(
            ctypes.c_uint32, ctypes.POINTER(ctypes.c_uint32), ctypes.c_size_t, ctypes.POINTER(mouldgrey.Header)
        )
        return kind(("mouldgrey_check_image", mouldgrey._lib)), mouldgrey.Header
    except (ImportError, AttributeError):
        return None


class BesideTheLibrary(unittest.TestCase):
    def setUp(self):
        found = library_check()
        if found is None:
            self.skipTest("libmouldgrey.so is not built or has no mouldgrey_check_image")
        self.function, self.header = found

    def compare(self, data):
        words = (ctypes.c_uint32 * (len(data) // 4)).from_buffer_copy(data)
        header = self.header()
        number, why = refusal(data)
        self.assertEqual(self.function(words, len(words), ctypes.byref(header)), number, (why, data.hex()))
        if number == 0:
            self.assertEqual(bytes(header), data[8:56], data.hex())
        return number

    def test_random_images(self):
        counts = {0: 0, 19: 0, 20: 0}
        for _, data in random_images(2, 3000):
            counts[self.compare(data)] += 1
        self.assertGreaterEqual(sum(counts.values()), 20000)
        self.assertGreater(min(counts.values()), 2000, counts)

    def test_bit_flips(self):
        for sample in (worked(), empty(), mixed()):
            data = sample.image()
            for place in range(8 * len(data)):
                flip = bytearray(data)
                flip[place // 8] ^= 1 << place % 8
                self.assertEqual(self.compare(bytes(flip)), 19)


if __name__ == "__main__":
    unittest.main()
