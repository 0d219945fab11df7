"""Tests of the Python binding: python3 -m unittest in this folder."""

import doctest
import pickle
import unittest

import mouldgrey
from mouldgrey import Condition, Refused, Rule, Stopped, Table, ValueIndex


def twenty():
    """Twenty rows, keys 0 to 19, sort values 0 to 9."""
    table = Table(columns=3, keys=1, sort=2, rule=Rule.TAKE_NEW, capacity=40, generation=5, pending_words=200)
    for key in range(20):
        table.stage_insert([key, key % 3, key // 2])
    table.merge()
    return table


class Refusing(unittest.TestCase):
    def refused(self, number, call, *arguments):
        with self.assertRaises(Refused) as caught:
            call(*arguments)
        self.assertEqual(caught.exception.number, number)


class Calls(Refusing):
    def test_openings(self):
        with self.assertRaises(Refused) as caught:
            Table(columns=9, keys=1, sort=0, rule=0, capacity=1)
        self.assertEqual(caught.exception.number, 1)
        self.assertEqual(mouldgrey.library_version(), 1000)

    def test_stagings(self):
        table = twenty()
        self.refused(3, table.stage_insert, [1, 2])
        self.refused(5, table.stage_remove_row, 20, [1])
        with self.assertRaises(OverflowError):
            table.stage_insert([1, 2, 1 << 32])
        table.stage_remove_row(3, [3])
        table.stage_remove([4])
        self.assertFalse(table.merge().added)
        self.assertIsNone(table.get_row([3]))
        self.assertEqual(table.get_row([5]).cells, (5, 2, 2))
        self.assertTrue(table.is_sound())

    def test_stops(self):
        table = twenty()
        table.stage_insert([60, 0, 9])
        table.stage_insert([61, 0, 8])
        with self.assertRaises(Stopped) as caught:
            table.merge()
        self.assertEqual((caught.exception.number, caught.exception.place), (9, 1))
        self.assertEqual(table.version(), (5, 21))

    def test_refreshes(self):
        table, index = twenty(), ValueIndex()
        self.refused(9, table.refresh, index, [1], [2], 8)
        self.assertEqual(len(index._words), 0)
        self.assertTrue(table.refresh(index, [1], [2], 9))
        table.merge()
        self.assertEqual(table.version().rows, 26)
        self.assertFalse(table.refresh(index, [1], [7], 9))

    def test_compaction_and_clear(self):
        table = twenty()
        noted = table.version()
        self.assertEqual(table.rows_since(noted), range(20, 20))
        table.stage_remove([0])
        table.merge()
        table.compact()
        self.refused(18, table.rows_since, noted)
        self.assertEqual([row.id for row in table], list(range(19)))
        table.clear()
        self.assertEqual(list(table), [])


    def test_stores(self):
        table = twenty()
        data = table.stores()
        again = Table.from_stores(data)
        self.assertEqual(list(again), list(table))
        again.stage_insert([50, 0, 9])
        for damaged in (data[:-1], data + b"0", b"", data[:48], bytes([9]) + data[1:], data[:48] + bytes([1]) + data[49:]):
            with self.assertRaises((ValueError, Refused)):
                Table.from_stores(damaged)

    def test_wrong_inputs(self):
        table = twenty()
        for wrong in (1.5, "1", None, -1, 1 << 32):
            with self.assertRaises((TypeError, OverflowError)):
                table.stage_insert([wrong, 0, 0])
        with self.assertRaises(TypeError):
            table.refine(table.all(), [(5, 2)])
        with self.assertRaises(ValueError):
            table.check_precedence(0, [(2, 1, 3)])
        with self.assertRaises(ValueError):
            table.read_page(table.all(), 0, -1)
        self.assertIsNone(table.read_page(table.all(), 0, 1 << 64).next)
        with self.assertRaises(IndexError):
            table.row(20)
        self.assertEqual(table.row(3).cells, (3, 0, 1))
        refused = pickle.loads(pickle.dumps(Refused(3)))
        self.assertEqual((refused.number, str(refused)), (3, "refused 3: wrong number of cells"))


class Images(Refusing):
    def staged(self):
        """Twenty rows, one of them dead, and a staged record."""
        table = twenty()
        table.stage_remove([3])
        table.merge()
        table.stage_insert([50, 0, 9])
        return table

    def test_round_trip(self):
        table = self.staged()
        data = table.save("levels")
        self.assertEqual(data[:4], b"MGTB")
        self.assertEqual(bytes(mouldgrey.check_image(data)), bytes(table.header))
        again = Table.load(data)
        self.assertEqual(list(again), list(table))
        self.assertEqual(again.save("levels"), data)
        self.assertTrue(again.is_sound())
        self.assertEqual(again.merge(), table.merge())
        self.assertEqual(again.save(), table.save())

    def test_growth(self):
        table = twenty()
        data = table.save()
        larger = Table.load(data, capacity=1000)
        self.assertEqual(larger.header.capacity, 1000)
        self.assertEqual((list(larger), larger.version()), (list(table), table.version()))
        for key in range(100, 200):
            larger.stage_insert([key, 0, 9])
        larger.merge()
        self.assertEqual(larger.version().rows, 120)
        self.assertEqual(Table.load(data, 20).save(), Table.load(data, capacity=20).save())
        for capacity in (19, 65537, 0xFFFFFFFF):
            self.refused(1, Table.load, data, capacity)
        with self.assertRaises(OverflowError):
            Table.load(data, 1 << 32)

    def test_damage(self):
        data = self.staged().save("text")
        for bit in range(8 * len(data)):
            damaged = bytearray(data)
            damaged[bit // 8] ^= 1 << bit % 8
            self.refused(19, mouldgrey.check_image, damaged)
        for damaged in (b"", data[:-1], data[:-4], data + b"0", data + bytes(4)):
            self.refused(19, mouldgrey.check_image, damaged)
            self.refused(19, mouldgrey.image_text, damaged)
            self.refused(19, Table.load, damaged)

    def test_unsound(self):
        table = self.staged()
        table._rows[6] = 0
        data = table.save("not sound")
        self.refused(20, Table.load, data)
        self.assertEqual(mouldgrey.image_text(data), b"not sound")

    def test_texts(self):
        table = twenty()
        self.assertEqual(mouldgrey.image_text(table.save()), b"")
        self.assertEqual(mouldgrey.image_text(table.save("Pegel \u00fc")), "Pegel \u00fc".encode())
        longest = bytes(range(256)) * 16
        self.assertEqual(mouldgrey.image_text(table.save(longest)), longest)
        self.refused(21, table.save, longest + b"1")
        with self.assertRaises(TypeError):
            table.save(None)


class Queries(unittest.TestCase):
    def test_lookups(self):
        table = twenty()
        self.assertEqual(table.get_cell([7], 1), 1)
        self.assertIsNone(table.get_cell([77], 1))
        self.assertEqual(table.fast_range(Condition.eq(2, 4)), range(8, 10))
        self.assertIsNone(table.fast_range(Condition.eq(1, 0)))
        self.assertEqual(table.updates_since(18), range(18, 20))
        self.assertEqual(table.check_precedence(0, [(7, 3), (3, 7)]), (3, 1))

    def test_refining(self):
        table = twenty()
        third = Condition.eq(1, 0)
        self.assertEqual(table.refine_one(table.all(), third), [0, 3, 6, 9, 12, 15, 18])
        self.assertEqual(table.refine_one(range(5, 8), Condition.gt(0, 5)), range(6, 8))
        self.assertEqual(table.refine([1, 3, 6, 7], [third, Condition.lt(2, 3)]), [3])
        self.assertTrue(table.contains_match(range(4, 7), [third]))
        with self.assertRaises(Refused):
            table.refine_one([2, 1], third)

    def test_pages(self):
        table = twenty()
        table.stage_remove([3])
        table.merge()
        found, dead, place = [], 0, 0
        while place is not None:
            page = table.read_page(table.all(), place, 7, [Condition.eq(1, 0)])
            found, dead, place = found + page.ids, dead + page.dead, page.next
        self.assertEqual((found, dead), ([0, 6, 9, 12, 15, 18], 1))

    def test_intersections(self):
        self.assertEqual(mouldgrey.intersect([1, 3, 5, 8], range(3, 8)), [3, 5])
        self.assertEqual(mouldgrey.intersect(range(2, 6), range(6, 9)), range(6, 6))
        self.assertEqual(mouldgrey.intersect(range(4, 6), [1, 6]), range(0, 0))


class Texts(unittest.TestCase):
    def test_listings(self):
        table = twenty()
        table.stage_remove([0])
        table.merge()
        new = mouldgrey.read_numbered(table.listing())
        self.assertEqual((new.count, new.rows[0]), (20, (1, 1, 1, 0)))
        old = mouldgrey.read_listing(table.listing(numbered=False))
        self.assertEqual((old.count, old.rows[0]), (None, (1, 1, 0)))
        with self.assertRaises(Refused) as caught:
            mouldgrey.from_numbered(table.listing())
        self.assertEqual(caught.exception.number, 17)
        table.compact()
        self.assertEqual(mouldgrey.to_numbered(table.listing(numbered=False)), table.listing())
        verdict = mouldgrey.check_answers(table.listing(), [Condition.le(0, 2)], [0])
        self.assertEqual(verdict, (2, 1))

    def test_columns(self):
        columns = mouldgrey.to_columns(2, [7, 160, 7, 163, 6, 170])
        self.assertEqual(columns, [7, 0, 0xFFFFFFFF, 160, 3, 7])
        self.assertEqual(mouldgrey.from_columns(2, columns), [7, 160, 7, 163, 6, 170])


def load_tests(loader, tests, pattern):
    tests.addTests(doctest.DocTestSuite(mouldgrey))
    return tests


if __name__ == "__main__":
    unittest.main()
