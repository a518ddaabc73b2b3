"""Tests of the module prep: python3 -m unittest test_prep, in this folder."""

import copy
import pathlib
import pickle
import re
import unittest

import prep

RADIO, TELEVISION = prep.Desk
TEMPLATE = [2, 2, 10, 17, 2, 256, 1, 1, 1, 257, 0, 0, 1, 1, 0]
SCRIPT = [3, 3, 0, 0, 2, 0, 1, 1, 1, 0, 0]
# An item points at guests, and a guest is pointed at by items.
GUESTS = [1, 2, 4, 256, 1, 1, 65535, 4, 320, 0, 1, 65535]
# An open shape that wants one link of kind 0 to the other shape, which is nothing.
TOLERANT = [2, 2, 5, 18, 256, 1, 1, 1, 1, 0]


def include() -> pathlib.Path:
    """The folder with prep.h: above this one, in the sources as in a package."""
    folders = [above / "include" for above in pathlib.Path(__file__).resolve().parents]
    return next(folder for folder in folders if (folder / "prep.h").exists())


class Words(unittest.TestCase):
    """Refusals, versions and words that are none."""

    def refused(self, number, place, call, *parameters):
        with self.assertRaises(prep.Refused) as caught:
            call(*parameters)
        self.assertEqual((caught.exception.number, caught.exception.place), (number, place))
        return caught.exception

    def test_template_is_refused(self):
        self.refused(1, 0, prep.Template, [])
        self.refused(2, 0, prep.Template, [0, 1, 1, 0])
        told = self.refused(5, 3, prep.Template, [1, 1, 1, 4])
        self.assertEqual(str(told), "a part of the template has an unknown code (refusal 5, word 3)")
        self.assertEqual(told.file, "template")

    def test_codes_are_refused(self):
        for kinds, code in ((1, 320), (64, 383)):
            self.assertEqual(prep.Template([kinds, 1, 4, code, 0, 0, 1]).kinds, kinds)
        self.refused(7, 3, prep.Template, [1, 1, 4, 321, 0, 0, 1])
        self.refused(5, 3, prep.Template, [64, 1, 4, 384, 0, 0, 1])
        self.assertEqual(prep.Template([1, 1, 10, 17, 2, 256, 0, 0, 1, 320, 0, 0, 1]).shapes, 1)
        self.refused(8, 9, prep.Template, [1, 1, 10, 17, 2, 320, 0, 0, 1, 320, 0, 0, 1])

    def test_open_shapes_are_refused(self):
        self.assertEqual(prep.Template([1, 1, 2, 18, 0]).shapes, 1)
        self.refused(4, 4, prep.Template, [1, 1, 1, 18])
        self.refused(64, 4, prep.Template, [1, 1, 3, 1, 18, 0])
        self.refused(11, 4, prep.Template, [1, 1, 4, 17, 18, 0, 0])
        self.refused(12, 8, prep.Template, [1, 1, 6, 18, 256, 0, 1, 1, 0])
        told = self.refused(64, 4, prep.Template, [1, 1, 3, 18, 18, 0])
        words = "the code of an open shape is not the first word of a shape"
        self.assertEqual(str(told), f"{words} (refusal 64, word 4)")
        self.assertEqual(told.file, "template")

    def test_script_is_refused(self):
        template = prep.Template(TEMPLATE)
        self.refused(20, 0, prep.Script, template, [])
        self.refused(21, 0, prep.Script, template, [1025, 0])
        self.refused(23, 4, prep.Script, template, [2, 1, 0, 0, 2])
        self.refused(25, 5, prep.Script, template, [1, 2, 0, 0, 0, 0, 0, 0])

    def test_counts_are_refused(self):
        template = prep.Template(TEMPLATE)
        self.refused(42, 0, template.fits, 2, [])
        for length in (0, 1, 2, 3, 5):
            self.refused(41, 0, template.fits, 0, [8193] * length)
        self.refused(43, 1, template.fits, 0, [0, 8193, 0, 8193])
        self.refused(43, 2, template.fits, 0, [0, 0, 8193, 0])
        guests = prep.Template(GUESTS)
        self.refused(41, 0, guests.fits, 0, [1])
        self.refused(43, 1, guests.fits, 0, [1, 8193])

    def test_bookings_are_refused(self):
        script = prep.Script(prep.Template(TEMPLATE), SCRIPT)
        for desk in (RADIO, TELEVISION, 2):
            self.refused(66, 1, script.smallest, [(2, 9, 9)], desk)
            self.refused(66, 4, script.both, [(RADIO, 2, 1), (65535, 9, 9)], desk)
            self.refused(32, 2, script.smallest, [(RADIO, 3, 1)], desk)
            self.refused(33, 6, script.both, [(RADIO, 0, 0), (TELEVISION, 0, 2)], desk)
            self.refused(31, 0, script.both, [(RADIO, 0, 0)] * 1025, desk)
            self.refused(31, 0, script.smallest, [(RADIO, 0, 0)] * 70000, desk)

    def test_no_bookings(self):
        script = prep.Script(prep.Template(TEMPLATE), SCRIPT)
        for call in (script.smallest, script.both, lambda listed, desk: script.judge(listed, desk, [])):
            for listed in ([(2, 1)], [(RADIO, 2, 1), ()], [(0, 0, 0, 1), (1, 0)]):
                self.assertRaises(ValueError, call, listed, RADIO)
        for stored in ([(RADIO, 2, 1)], [(2,)], [(2, 1, 0), (0,)]):
            self.assertRaises(ValueError, script.tidy_bookings, stored)

    def test_repeats_are_refused(self):
        script = prep.Script(prep.Template(TEMPLATE), SCRIPT)
        for call in (script.smallest, script.both, lambda listed, desk: script.judge(listed, desk, [])):
            told = self.refused(65, 5, call, [(RADIO, 2, 1), (RADIO, 2, 1)], TELEVISION)
            self.assertEqual(str(told), "a desk books a pair a second time (refusal 65, word 5)")
            self.assertEqual(told.file, "bookings")
            self.refused(65, 8, call, [(RADIO, 2, 1), (RADIO, 0, 0), (RADIO, 2, 1)], RADIO)
            self.refused(65, 8, call, [(RADIO, 2, 1), (TELEVISION, 2, 1), (RADIO, 2, 1)], RADIO)
            self.refused(65, 5, call, [(RADIO, 2, 1), (RADIO, 2, 1), (9, 9, 9)], RADIO)
            self.refused(33, 6, call, [(RADIO, 2, 1), (RADIO, 2, 2)], RADIO)
        # One card with two shapes is no repeat.
        self.assertRaises(prep.NotMet, script.smallest, [(RADIO, 0, 0), (RADIO, 0, 1)], RADIO)

    def test_desks_are_refused(self):
        script = prep.Script(prep.Template(TEMPLATE), SCRIPT)
        for call in (script.smallest, script.both, lambda listed, desk: script.judge(listed, desk, [2])):
            told = self.refused(66, 0, call, [(RADIO, 2, 1)], 2)
            self.assertEqual(str(told), "the desk asked for is neither radio, 0, nor television, 1 (refusal 66)")
            self.assertEqual(told.file, "nothing")
            told = self.refused(66, 1, call, [(2, 2, 1)], 2)
            self.assertEqual(str(told), "a desk is neither radio, 0, nor television, 1 (refusal 66, word 1)")
            self.assertEqual(told.file, "bookings")
            self.refused(66, 0, call, [], 65535)
            self.assertRaises(ValueError, call, [], -1)
        self.refused(40, 0, script.judge, [(RADIO, 2, 1)], TELEVISION, [2])

    def test_tidying_is_refused(self):
        script = prep.Script(prep.Template(TEMPLATE), SCRIPT)
        self.refused(31, 0, script.tidy_bookings, [(0, 0)] * 1025)
        self.refused(31, 0, script.tidy_bookings, [(0, 0)] * 70000)
        self.refused(32, 5, script.tidy_bookings, [(2, 1), (2, 1), (3, 9)])
        self.refused(33, 2, script.tidy_bookings, [(2, 2)])
        self.assertRaises(ValueError, script.tidy_bookings, [(2, 65536)])

    def test_grids_are_refused(self):
        script = prep.Script(prep.Template(TEMPLATE), SCRIPT)
        self.refused(31, 0, script.judge, [(RADIO, 0, 0)] * 1025, RADIO, [])
        self.refused(32, 2, script.judge, [(RADIO, 3, 0)], RADIO, [])
        self.refused(33, 6, script.judge, [(RADIO, 0, 0), (RADIO, 0, 2)], RADIO, [])
        told = self.refused(40, 0, script.judge, [(RADIO, 2, 1)], RADIO, [2, 1, 1, 0, 0])
        self.assertEqual(str(told), "the grid has not cards x shapes bytes (refusal 40, byte 0)")
        told = self.refused(61, 5, script.judge, [(RADIO, 1, 0)], RADIO, [0, 1, 0, 0, 0, 2])
        self.assertEqual(str(told), "a byte of the grid is over 1 (refusal 61, byte 5)")
        told = self.refused(63, 5, script.judge, [(RADIO, 2, 1), (RADIO, 0, 0)], RADIO, [0, 0, 0, 0, 0, 1])
        self.assertEqual(str(told), "a booked pair is not in the grid (refusal 63, word 5)")
        self.assertEqual(told.file, "bookings")

    def test_pairs_are_refused(self):
        script = prep.Script(prep.Template(TEMPLATE), SCRIPT)
        told = self.refused(prep.GRID_NOT_MET, 0, script.judge, [(RADIO, 0, 0)], RADIO, [0, 0, 1, 1, 0, 1])
        self.assertIsInstance(told, prep.GridNotMet)
        self.assertIsInstance(told, prep.PairRefused)
        self.assertEqual((told.card, told.shape, told.file), (1, 0, "nothing"))
        self.assertEqual(str(told), "a pair of the grid is not met under it (refusal 62, card 1, shape 0)")

    def test_no_words(self):
        template = prep.Template(TEMPLATE)
        for numbers in ([1, 1, 1, -1], [1, 1, 1, 65536]):
            self.assertRaises(ValueError, prep.Template, numbers)
        self.assertRaises(ValueError, template.fits, -1, [0, 0])
        for numbers in ([0, 0, 0, 0, 0, -1], [0, 0, 0, 0, 0, 256]):
            self.assertRaises(ValueError, prep.Script(template, SCRIPT).judge, [], RADIO, numbers)

    def test_bytes_are_no_words(self):
        template = prep.Template(TEMPLATE)
        for made in (bytes, bytearray):
            self.assertRaises(TypeError, template.fits, 0, made(8))
            self.assertRaises(TypeError, prep.Template, made([1, 1, 1, 0]))
            self.assertRaises(TypeError, prep.Script, template, made(2))
            # The bytes of a grid are its numbers.
            self.assertIsNone(prep.Script(template, SCRIPT).judge([], RADIO, made(6)))

    def test_table(self):
        table = (include() / "prep_refusals.def").read_text()
        rows = re.findall(r'^PREP_REFUSAL\((\d+), \w+, (\w+), "(.*)"\)$', table, re.M)
        self.assertGreater(len(rows), 20)
        for number, file, words in rows:
            refused = prep.Refused(int(number), 1)
            self.assertEqual((refused.reason, refused.file), (words, file.lower()))

    def test_version(self):
        header = (include() / "prep.h").read_text()
        numbers = re.findall(r"^#define PREP_VERSION_\w+ (\d+)$", header, re.M)
        self.assertEqual(prep.version(), tuple(map(int, numbers)))
        self.assertEqual(prep.version()[:2], (prep.MAJOR, prep.MINOR))
        project = (pathlib.Path(__file__).resolve().parent / "pyproject.toml").read_text()
        self.assertIn('\nversion = "{}.{}.{}"\n'.format(*prep.version()), project)

    def test_structs(self):
        header = (include() / "prep.h").read_text()
        structs = re.findall(r"^struct prep_(\w+)_answer \{(.*?)^\};", header, re.M | re.S)
        self.assertEqual(len(structs), 8)
        sizes = {"uint16_t": 2, "size_t": 8}
        for name, fields in structs:
            declared = [(field, sizes[kind]) for kind, field in re.findall(r"(\w+) (\w+);", fields)]
            ours = getattr(prep, f"_{name.capitalize()}Answer")
            self.assertEqual([(field, getattr(ours, field).size) for field, _ in ours._fields_], declared)

    def test_names(self):
        public = {name for name, value in vars(prep).items() if getattr(value, "__module__", "") == "prep"}
        self.assertLessEqual({name for name in public if not name.startswith("_")}, set(prep.__all__))
        self.assertTrue(all(hasattr(prep, name) for name in prep.__all__))


class Answers(unittest.TestCase):
    """What the operations answer on the worked sheet."""

    def setUp(self):
        self.template = prep.Template(TEMPLATE)
        self.script = prep.Script(self.template, SCRIPT)

    def test_counts(self):
        self.assertEqual((self.template.kinds, self.template.shapes), (2, 2))
        self.assertIs(self.template.fits(0, [1, 1, 0, 0]), True)
        self.assertIs(self.template.fits(0, [2, 1, 0, 0]), False)
        self.assertIs(self.template.fits(1, [0, 0, 8192, 8192]), True)

    def test_arriving_counts(self):
        guests = prep.Template(GUESTS)
        self.assertIs(guests.fits(1, [0, 1]), True)
        self.assertIs(guests.fits(1, [0, 0]), False)
        self.assertIs(guests.fits(1, [1, 1]), False)
        self.assertIs(guests.fits(0, [1, 7]), True)

    def test_largest(self):
        largest = self.script.largest()
        self.assertEqual((largest.rounds, largest.struck, largest.bare), (4, 5, 2))
        self.assertEqual(largest.typing.grid, bytes([0, 0, 0, 0, 0, 1]))
        self.assertFalse(largest.typing.has(3, 0) or largest.typing.has(1, 3) or largest.typing.has(-1, 1))

    def test_smallest(self):
        smallest = self.script.smallest([(RADIO, 2, 1)], RADIO)
        self.assertEqual((smallest.pairs, smallest.typing.shapes_of(2)), (1, [1]))
        with self.assertRaises(prep.NotMet) as caught:
            self.script.smallest([(RADIO, 0, 0)], RADIO)
        self.assertEqual((caught.exception.card, caught.exception.shape), (0, 1))
        self.assertEqual(str(caught.exception), "the bookings are not met (refusal 50, card 0, shape 1)")

    def test_both(self):
        both = self.script.both([(RADIO, 2, 1)], RADIO)
        self.assertEqual((both.largest.rounds, both.smallest.pairs, both.not_met), (4, 1, None))
        both = self.script.both([(RADIO, 0, 0)], RADIO)
        self.assertEqual((both.largest.bare, both.smallest, both.not_met.number), (2, None, prep.NOT_MET))

    def test_desks(self):
        self.assertEqual(list(prep.Desk), [0, 1])
        for one, other in ((RADIO, TELEVISION), (TELEVISION, RADIO)):
            self.assertEqual(self.script.smallest([(one, 2, 1)], one).typing.grid, bytes([0, 0, 0, 0, 0, 1]))
            smallest = self.script.smallest([(one, 2, 1)], other)
            self.assertEqual((smallest.pairs, smallest.typing.grid), (0, bytes(6)))
            # The same pair by both desks, and a pair of the other one that is not met.
            self.assertEqual(self.script.smallest([(one, 2, 1), (other, 2, 1)], one).pairs, 1)
            bookings = [(other, 0, 0), (one, 2, 1)]
            self.assertEqual(self.script.both(bookings, one).smallest.pairs, 1)
            self.assertRaises(prep.NotMet, self.script.smallest, bookings, other)
            self.assertIsNone(self.script.judge(bookings, one, [0, 0, 0, 0, 0, 1]))
            for desk, place in ((other, 2), (one, 5)):
                with self.assertRaises(prep.Refused) as caught:
                    self.script.judge(bookings, desk, bytes(6))
                self.assertEqual((caught.exception.number, caught.exception.place), (63, place))

    def test_guests(self):
        script = prep.Script(prep.Template(GUESTS), [2, 1, 0, 0, 1])
        booked = [(TELEVISION, 1, 1)]
        both = script.both(booked, TELEVISION)
        self.assertEqual((both.largest.rounds, both.largest.struck, both.largest.bare), (2, 2, 0))
        self.assertEqual((both.smallest.pairs, both.smallest.typing.grid), (2, bytes([1, 0, 0, 1])))
        self.assertEqual(both.largest.typing.grid, both.smallest.typing.grid)
        self.assertIsNone(script.judge(booked, TELEVISION, both.smallest.typing.grid))
        self.assertRaises(prep.GridNotMet, script.judge, booked, TELEVISION, [0, 0, 0, 1])
        # Nobody points at card 2.
        with self.assertRaises(prep.NotMet) as caught:
            prep.Script(prep.Template(GUESTS), [3, 1, 0, 0, 1]).smallest([(RADIO, 2, 1)], RADIO)
        self.assertEqual((caught.exception.card, caught.exception.shape), (2, 1))

    def test_open(self):
        template = prep.Template(TOLERANT)
        self.assertIs(template.fits(0, [1, 7, 0, 0]), True)
        self.assertIs(template.fits(0, [2, 7, 0, 0]), False)
        script = prep.Script(template, [3, 2, 0, 0, 1, 0, 1, 2])
        both = script.both([(RADIO, 0, 0)], RADIO)
        self.assertEqual((both.largest.rounds, both.largest.struck, both.largest.bare), (2, 3, 0))
        self.assertEqual(both.largest.typing.grid, bytes([1, 0, 0, 1, 0, 1]))
        self.assertEqual((both.smallest.pairs, both.smallest.typing.grid), (2, bytes([1, 0, 0, 1, 0, 0])))
        self.assertIsNone(script.judge([(RADIO, 0, 0)], RADIO, both.smallest.typing.grid))
        self.assertEqual(len(script.links_of(0)), 2)

    def test_judge(self):
        booked = [(RADIO, 2, 1)]
        self.assertIsNone(self.script.judge(booked, RADIO, [0, 0, 0, 0, 0, 1]))
        self.assertIsNone(self.script.judge(booked, TELEVISION, bytes(6)))
        self.script.judge([], RADIO, self.script.largest().typing.grid)
        self.script.judge(booked, RADIO, self.script.smallest(booked, RADIO).typing.grid)

    def test_judge_between(self):
        script = prep.Script.of(prep.Template.of(1, [prep.link(0, 0, 0, 1)]), 2, [(0, 0, 1)])
        both = script.both([], RADIO)
        self.assertEqual((both.smallest.typing.grid, both.largest.typing.grid), (bytes(2), bytes([1, 1])))
        for grid in (bytes(2), bytes([0, 1]), bytearray([1, 1])):
            script.judge([], RADIO, grid)
        self.assertRaises(prep.GridNotMet, script.judge, [], RADIO, bytes([1, 0]))

    def test_tidy_bookings(self):
        tidy = self.script.tidy_bookings
        self.assertEqual(tidy([]), [])
        self.assertEqual(tidy([(2, 1), (0, 0), (2, 1)]), [(RADIO, 2, 1), (RADIO, 0, 0)])
        several = [(RADIO, 0, 0), (RADIO, 0, 1), (RADIO, 1, 0)]
        self.assertEqual(tidy([(0, 0), (0, 1), (0, 0), (0, 1), (1, 0)]), several)
        self.assertEqual(tidy([(2, 1)] * 1024), [(RADIO, 2, 1)])
        tidied = tidy(pair for pair in [(2, 1), (2, 1)])
        self.assertIs(tidied[0][0], RADIO)
        self.assertEqual(self.script.smallest(tidied, RADIO).pairs, 1)
        self.assertEqual(self.script.smallest(tidied, TELEVISION).pairs, 0)

    def test_tidied_words(self):
        lent = prep._lend(self.template._words, self.script._words, prep._words([3, 2, 1, 0, 0, 2, 1]))
        for number, words, left in (
            (0, 7, [2, 0, 2, 1, 0, 0, 0, 7, 7, 7]),
            (40, 0, [7] * 7),
            (40, 0, [7] * 9),
            (40, 0, [7] * 11),
        ):
            tidied = prep._words([7] * len(left))
            answer = prep._library.prep_tidy_bookings(*lent, *prep._lend(tidied))
            self.assertEqual((answer.number, answer.place, answer.written), (number, 0, words))
            self.assertEqual(list(tidied), left)

    def test_no_cards(self):
        script = prep.Script(self.template, [0, 0])
        both = script.both([], RADIO)
        self.assertEqual((both.largest.rounds, both.smallest.pairs, both.largest.typing.grid), (1, 0, b""))
        self.assertIsNone(script.judge([], RADIO, b""))


class Copies(unittest.TestCase):
    """What goes from one process to another."""

    def setUp(self):
        self.script = prep.Script(prep.Template(TEMPLATE), SCRIPT)

    def copies(self, one):
        """The same by pickling and by copying."""
        return pickle.loads(pickle.dumps(one)), copy.deepcopy(one)

    def test_refusals(self):
        for call, parameters in (
            (prep.Template, ([1, 1, 1, 4],)),
            (self.script.smallest, ([(RADIO, 0, 0)], RADIO)),
            (self.script.judge, ([(RADIO, 2, 1)], 2, [])),
            (self.script.judge, ([(RADIO, 0, 0)], RADIO, [0, 0, 1, 1, 0, 1])),
        ):
            with self.assertRaises(prep.Refused) as caught:
                call(*parameters)
            for other in self.copies(caught.exception):
                self.assertIs(type(other), type(caught.exception))
                self.assertEqual((str(other), vars(other)), (str(caught.exception), vars(caught.exception)))

    def test_scripts(self):
        for other in self.copies(self.script):
            self.assertEqual((other.words, other.template.words), (tuple(SCRIPT), tuple(TEMPLATE)))
            self.assertEqual(other.largest(), self.script.largest())
            self.assertEqual(other.links_of(0), self.script.links_of(0))
        for template in self.copies(self.script.template):
            self.assertIs(template.fits(0, [1, 1, 0, 0]), True)

    def test_answers(self):
        both = self.script.both([(RADIO, 2, 1)], RADIO)
        for other in self.copies(both):
            self.assertEqual(other, both)

    def test_typings(self):
        largest = self.script.largest().typing
        self.assertEqual(largest, self.script.smallest([(RADIO, 2, 1)], RADIO).typing)
        self.assertNotEqual(largest, self.script.smallest([], RADIO).typing)
        self.assertNotEqual(largest, prep.Typing(largest.grid, 2, 3))
        self.assertEqual(repr(largest), "Typing(grid=b'\\x00\\x00\\x00\\x00\\x00\\x01', cards=3, shapes=2)")
        self.assertEqual(len({largest, self.script.largest().typing}), 1)


class Builders(unittest.TestCase):
    """Templates from parts, scripts from links."""

    def test_template(self):
        parts = [prep.all_of(prep.link(0, 1, 1, 1), prep.link(1, 0, 0, 1)), prep.nothing()]
        self.assertEqual(list(prep.Template.of(2, parts).words), TEMPLATE)
        part = prep.choice(prep.star(prep.link(0, 0, 2)), prep.plus(prep.nothing()))
        template = prep.Template.of(2, [prep.optional(prep.nothing()), part])
        self.assertEqual(list(template.words), [2, 2, 2, 3, 0, 9, 16, 2, 1, 256, 0, 2, 65535, 2, 0])
        guests = prep.Template.of(1, [prep.link(0, 1, 1), prep.incoming(0, 0, 1)])
        self.assertEqual(list(guests.words), GUESTS)
        tolerant = prep.Template.of(2, [prep.open_shape(prep.link(0, 1, 1, 1)), prep.nothing()])
        self.assertEqual(list(tolerant.words), TOLERANT)
        with self.assertRaises(prep.Refused) as caught:
            prep.Template.of(2, [prep.star(prep.open_shape(prep.nothing()))])
        self.assertEqual((caught.exception.number, caught.exception.place), (64, 4))

    def test_no_kinds(self):
        for kind in (-1, 64, 128):
            for part in (prep.link(kind, 0, 1), prep.incoming(kind, 0, 1)):
                with self.assertRaises(prep.Refused) as caught:
                    prep.Template.of(64, [part])
                self.assertEqual((caught.exception.number, caught.exception.place), (5, 3))

    def test_script(self):
        links = [(1, 0, 0), (0, 1, 1), (0, 0, 2), (0, 1, 1)]
        self.assertEqual(list(prep.Script.of(prep.Template(TEMPLATE), 3, links).words), SCRIPT)

    def test_links_are_the_library_s(self):
        template = prep.Template(TEMPLATE)
        script = prep.Script.of(template, 60, [(i * 7 % 53, i % 2, i * 11 % 60) for i in range(400)])
        for card in range(61):
            words = prep._words([0] * len(script.words))
            lent = prep._lend(template._words, script._words)
            count = prep._library.prep_links_of_card(*lent, card, *prep._lend(words))
            self.assertEqual([word for link in script.links_of(card) for word in link], list(words)[:count])


if __name__ == "__main__":
    unittest.main()
