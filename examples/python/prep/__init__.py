"""Prep sheet shapes by the proved library: templates, scripts, their two typings, grids to judge, bookings to tidy.

    import prep

    template = prep.Template([2, 2, 10, 17, 2, 256, 1, 1, 1, 257, 0, 0, 1, 1, 0])
    script = prep.Script(template, [3, 3, 0, 0, 2, 0, 1, 1, 1, 0, 0])
    bookings = [(prep.Desk.RADIO, 2, 1), (prep.Desk.TELEVISION, 0, 0)]
    try:
        typing = script.smallest(bookings, prep.Desk.RADIO).typing
    except prep.NotMet as unmet:
        print(unmet.card, unmet.shape)
    grid = bytes([0, 0, 0, 0, 0, 1])
    script.judge(bookings, prep.Desk.RADIO, grid)  # returns: the grid is a sound typing that holds the radio's booking

Two desks book in one list. Each call that reads it says for which desk it asks, and what the other one books changes
no typing.

Or from parts and links, so that nobody counts words:

    template = prep.Template.of(2, [prep.all_of(prep.link(0, 1, 1, 1), prep.link(1, 0, 0, 1)), prep.nothing()])
    script = prep.Script.of(template, 3, [(1, 0, 0), (0, 1, 1), (0, 0, 2)])

A shape may also name links that arrive. Here an item points at guests, and a guest is one at whom items point:

    template = prep.Template.of(1, [prep.link(0, 1, 1), prep.incoming(0, 0, 1)])

And a shape may be open, so that links of kinds that it does not name may start at its cards:

    template = prep.Template.of(2, [prep.open_shape(prep.link(0, 1, 1, 1)), prep.nothing()])

A desk books a pair once. A list that was stored without desks, where pairs may stand several times, is tidied and is
then the radio's:

    bookings = script.tidy_bookings([(2, 1), (0, 0), (2, 1)])  # [(Desk.RADIO, 2, 1), (Desk.RADIO, 0, 0)]

What the library turns down is a Refused, which says in words what is wrong and where. Templates, scripts, answers and
refusals can be pickled, so that they go from one process to another. The library is libprep.so in the folder that
PREP_LIB_DIR names, or the one that was installed with this module, or that of the package in which it stands, or
where the system looks. Python 3.8 or later; nothing but the standard library. Other threads run while the library
works.
"""

import array
import ctypes
import dataclasses
import enum
import os
from typing import Iterable, List, NamedTuple, Optional, Sequence, Tuple

__all__ = [
    "Booking",
    "Both",
    "Desk",
    "GridNotMet",
    "GRID_NOT_MET",
    "Largest",
    "Link",
    "MAJOR",
    "MINOR",
    "NotMet",
    "NOT_MET",
    "PairRefused",
    "Part",
    "Refused",
    "Script",
    "Smallest",
    "Template",
    "Typing",
    "all_of",
    "choice",
    "incoming",
    "link",
    "nothing",
    "open_shape",
    "optional",
    "plus",
    "star",
    "version",
]

# The versions that this file is for: this major one, with this minor one or a later one.
MAJOR = 6
MINOR = 0

# The refusals that have a card and a shape instead of a place.
NOT_MET = 50
GRID_NOT_MET = 62

_SIZE = ctypes.c_size_t
_WORD = ctypes.c_uint16
_BYTE = ctypes.c_uint8
_FILES = ("nothing", "template", "script", "bookings", "counts", "grid", "input", "tidied")

# The call for whose refusals words are asked, PREP_CALL_JUDGE. What means one thing in one call and another in another
# is only ever this call's here, or told alike: the others are lent grids and words of the right length.
_CALL = 7


def _answer(name: str, *fields: str) -> type:
    """A struct of prep.h. Places and counts that may pass a word are size_t, all else is words."""
    sizes = ("place", "rounds", "struck", "bare", "pairs", "written")
    kinds = [(field, _SIZE if field in sizes else _WORD) for field in fields]
    return type(name, (ctypes.Structure,), {"_fields_": kinds})


_TemplateAnswer = _answer("_TemplateAnswer", "number", "kinds", "shapes", "place")
_FitAnswer = _answer("_FitAnswer", "number", "fits", "place")
_ScriptAnswer = _answer("_ScriptAnswer", "number", "cards", "links", "place")
_LargestAnswer = _answer("_LargestAnswer", "number", "place", "rounds", "struck", "bare")
_SmallestAnswer = _answer("_SmallestAnswer", "number", "card", "shape", "place", "pairs")
_BothAnswer = _answer("_BothAnswer", "number", "card", "shape", "place", "rounds", "struck", "bare", "pairs")
_JudgeAnswer = _answer("_JudgeAnswer", "number", "card", "shape", "place")
_WrittenAnswer = _answer("_WrittenAnswer", "number", "place", "written")


def _library_path() -> str:
    """The library's file, or its name for the system to find."""
    folder = os.environ.get("PREP_LIB_DIR")
    if folder:
        return os.path.join(folder, "libprep.so")
    here = os.path.dirname(os.path.abspath(__file__))
    package = os.path.normpath(os.path.join(here, "..", "..", "..", "lib"))
    files = [os.path.join(folder, "libprep.so") for folder in (here, package)]
    return next((file for file in files if os.path.exists(file)), f"libprep.so.{MAJOR}")


def _load() -> ctypes.CDLL:
    """The library, with the functions of prep.h declared."""
    path = _library_path()
    try:
        library = ctypes.CDLL(path)
    except OSError as error:
        raise ImportError(
            f"the library {path} cannot be loaded ({error}); PREP_LIB_DIR names the folder that has libprep.so"
        ) from error
    major, minor = _version_of(library)[:2]
    if major != MAJOR or minor < MINOR:
        raise ImportError(f"the library {path} is {major}.{minor}; {MAJOR}.{MINOR} or a later {MAJOR}.x is wanted")
    lent = [ctypes.c_void_p, _SIZE]
    for name, result, parameters in (
        ("prep_read_template", _TemplateAnswer, lent),
        ("prep_fit_counts", _FitAnswer, lent + [_WORD] + lent),
        ("prep_read_script", _ScriptAnswer, lent * 2),
        ("prep_links_of_card", _SIZE, lent * 2 + [_WORD] + lent),
        ("prep_largest", _LargestAnswer, lent * 3),
        ("prep_smallest", _SmallestAnswer, lent * 3 + [_WORD] + lent),
        ("prep_both_typings", _BothAnswer, lent * 3 + [_WORD] + lent * 2),
        ("prep_judge", _JudgeAnswer, lent * 3 + [_WORD] + lent),
        ("prep_tidy_bookings", _WrittenAnswer, lent * 4),
        ("prep_reason", ctypes.c_char_p, [_WORD]),
        ("prep_file_of", ctypes.c_uint, [_WORD]),
        ("prep_call_reason", ctypes.c_char_p, [ctypes.c_uint, _WORD, _SIZE]),
        ("prep_call_file", ctypes.c_uint, [ctypes.c_uint, _WORD, _SIZE]),
    ):
        function = getattr(library, name)
        function.restype, function.argtypes = result, parameters
    return library


def _version_of(library: ctypes.CDLL) -> Tuple[int, int, int]:
    """A library's version: major, minor and patch."""
    function = library.prep_version
    function.restype, function.argtypes = ctypes.c_uint32, []
    number = function()
    return number // 10000, number // 100 % 100, number % 100


_library = _load()


def version() -> Tuple[int, int, int]:
    """The library's version: major, minor and patch."""
    return _version_of(_library)


class Refused(Exception):
    """What the library turns down: a number, a place and the file that the place is counted in, or a grid's byte."""

    def __init__(self, number: int, place: int):
        super().__init__(number, place)
        self.number = number
        self.place = place
        self.reason: str = _library.prep_call_reason(_CALL, number, place).decode()
        file = _library.prep_call_file(_CALL, number, place)
        self.file = _FILES[file] if file < len(_FILES) else "nothing"

    def __str__(self) -> str:
        return f"{self.reason} (refusal {self.number}{self._where()})"

    def _where(self) -> str:
        if self.file == "nothing":
            return ""
        return f", {'byte' if self.file == 'grid' else 'word'} {self.place}"


class PairRefused(Refused):
    """A refusal with a card and a shape instead of a place: a NotMet or a GridNotMet."""

    NUMBER = 0

    def __init__(self, card: int, shape: int):
        super().__init__(self.NUMBER, 0)
        self.args = (card, shape)
        self.card = card
        self.shape = shape

    def _where(self) -> str:
        return f", card {self.card}, shape {self.shape}"


class NotMet(PairRefused):
    """Refusal 50: the bookings ask for a card to have a shape, and it cannot."""

    NUMBER = NOT_MET


class GridNotMet(PairRefused):
    """Refusal 62: a card has a shape in a grid that is judged, and that is not met under the grid."""

    NUMBER = GRID_NOT_MET


_PAIRED = {refusal.NUMBER: refusal for refusal in (NotMet, GridNotMet)}


def _array(code: str, element: type, limits: str, numbers: Iterable[int]) -> ctypes.Array:
    """An array of such elements; ValueError for a number that none of them holds."""
    try:
        checked = array.array(code, numbers)
    except OverflowError as error:
        raise ValueError(f"{limits}: {error}") from error
    return (element * len(checked)).from_buffer_copy(checked)


def _words(numbers: Iterable[int]) -> ctypes.Array:
    """An array of 16-bit words; ValueError for a number that no word holds, TypeError for the bytes of a file."""
    if isinstance(numbers, (bytes, bytearray)):
        raise TypeError("numbers are wanted, not bytes; struct.iter_unpack('<H', data) gives the words of a file")
    return _array("H", _WORD, "a word is 0 to 65,535", numbers)


def _word(number: int) -> int:
    """The number, if a word holds it; ValueError for any other."""
    (word,) = _words([number])
    return word


def _bytes(numbers: Iterable[int]) -> ctypes.Array:
    """An array of bytes; ValueError for a number that no byte holds."""
    return _array("B", _BYTE, "a byte is 0 to 255", numbers)


def _lend(*arrays: ctypes.Array) -> list:
    """Each array and its length, as parameters. A parameter lives as long as the call."""
    return [parameter for one in arrays for parameter in (one, len(one))]


def _accept(answer):
    """The answer, if nothing is refused."""
    if answer.number in _PAIRED:
        raise _PAIRED[answer.number](answer.card, answer.shape)
    if answer.number != 0:
        raise Refused(answer.number, answer.place)
    return answer


Part = List[int]


def nothing() -> Part:
    """No links."""
    return [0]


def star(part: Part) -> Part:
    """The part zero or more times."""
    return [1] + part


def plus(part: Part) -> Part:
    """The part one or more times."""
    return [2] + part


def optional(part: Part) -> Part:
    """Nothing or the part."""
    return [3] + part


def choice(*parts: Part) -> Part:
    """One of the parts."""
    return [16, len(parts)] + [word for part in parts for word in part]


def all_of(*parts: Part) -> Part:
    """Each of the parts."""
    return [17, len(parts)] + [word for part in parts for word in part]


def _code(first: int, kind: int) -> int:
    """The code of a link, from that of kind 0 the same way; the greatest word, which is refused, if there is none."""
    return first + kind if 0 <= kind < 64 else 65535


def link(kind: int, shape: int, low: int, high: int = 65535) -> Part:
    """Low to high links of a kind, each to a card of a shape; no limit without a high."""
    return [_code(256, kind), shape, low, high]


def incoming(kind: int, shape: int, low: int, high: int = 65535) -> Part:
    """Low to high links of a kind that arrive, each from a card of a shape; no limit without a high. Those of a kind
    that a shape does not name so are ignored."""
    return [_code(320, kind), shape, low, high]


def open_shape(part: Part) -> Part:
    """A shape with this part that ignores links of kinds that the part does not name, where they start at its cards.
    Only a whole shape can be open: as a part of another it is refused."""
    return [18] + part


@dataclasses.dataclass(frozen=True)
class Typing:
    """Which shapes each card has: a byte for each pair, 1 where card n has shape t, at place n * shapes + t, else 0."""

    grid: bytes
    cards: int
    shapes: int

    def has(self, card: int, shape: int) -> bool:
        """Whether a card has a shape; not if there is no such card or shape."""
        inside = 0 <= card < self.cards and 0 <= shape < self.shapes
        return inside and self.grid[card * self.shapes + shape] == 1

    def shapes_of(self, card: int) -> List[int]:
        """The shapes of a card, ascending."""
        return [shape for shape in range(self.shapes) if self.has(card, shape)]


class Desk(enum.IntEnum):
    """Whose a booking is, and for whom a call asks."""

    RADIO = 0
    TELEVISION = 1


# A booking: its desk, its card and its shape. The library refuses what is none.
Booking = Tuple[int, int, int]


class Link(NamedTuple):
    """A link of a script. Links are ordered as in a file."""

    start: int
    kind: int
    to: int


class Largest(NamedTuple):
    """The largest typing, its rounds, the pairs struck and the cards with some link and no shape."""

    typing: Typing
    rounds: int
    struck: int
    bare: int


class Smallest(NamedTuple):
    """The smallest typing and the number of its pairs."""

    typing: Typing
    pairs: int


class Both(NamedTuple):
    """Both typings. Where the bookings are not met, `smallest` is None and `not_met` says which pair is not."""

    largest: Largest
    smallest: Optional[Smallest]
    not_met: Optional[NotMet]


class Template:
    """A template that was read: shapes, and the links that a card of each must have."""

    def __init__(self, words: Iterable[int]):
        """Reads a template's words. Refusals: 1 to 12 and 64."""
        self._words = _words(words)
        answer = _accept(_library.prep_read_template(*_lend(self._words)))
        self.words, self.kinds, self.shapes = tuple(self._words), answer.kinds, answer.shapes

    def __reduce__(self):
        return type(self), (self.words,)

    @classmethod
    def of(cls, kinds: int, shapes: Sequence[Part]) -> "Template":
        """A template of so many kinds, and for each shape its part, or the open shape of it."""
        counted = [word for part in shapes for word in [len(part)] + part]
        return cls([kinds, len(shapes)] + counted)

    def fits(self, shape: int, counts: Iterable[int]) -> bool:
        """Whether counts of links fit a shape: for each kind those that start at a card, then for each kind those that
        arrive there. A kind that the shape does not name has to count 0 as outgoing if the shape is closed, and is
        ignored otherwise. Refusals: 42, 41 if there are not two counts for each kind, 43."""
        answer = _library.prep_fit_counts(*_lend(self._words), _word(shape), *_lend(_words(counts)))
        return _accept(answer).fits == 1


class Script:
    """A script that was read with its template: cards, and links between them."""

    def __init__(self, template: Template, words: Iterable[int]):
        """Reads a script's words. Refusals: 20 to 25."""
        self.template = template
        self._words = _words(words)
        answer = _accept(_library.prep_read_script(*_lend(template._words, self._words)))
        self.words, self.cards = tuple(self._words), answer.cards
        self.links = [Link(*self.words[at : at + 3]) for at in range(2, len(self.words), 3)]
        self._of: List[List[Link]] = [[] for _ in range(self.cards)]
        for one in self.links:
            self._of[one.start].append(one)

    def __reduce__(self):
        return type(self), (self.template, self.words)

    @classmethod
    def of(cls, template: Template, cards: int, links: Iterable[Tuple[int, int, int]]) -> "Script":
        """A script of so many cards, and links (from, kind, to) in any order; one given twice is there once."""
        ascending = sorted({Link(*one) for one in links})
        return cls(template, [cards, len(ascending)] + [word for one in ascending for word in one])

    def links_of(self, card: int) -> List[Link]:
        """The links that start at a card, ascending, not those that arrive there; none if there is no such card. They
        are looked up here, in the words that the library accepted; its own prep_links_of_card answers the same."""
        return list(self._of[card]) if 0 <= card < self.cards else []

    def largest(self) -> Largest:
        """The largest typing: the one that has every pair of every sound typing."""
        grid = self._grid()
        answer = _accept(_library.prep_largest(*_lend(self.template._words, self._words, grid)))
        return Largest(self._typing(grid), answer.rounds, answer.struck, answer.bare)

    def smallest(self, bookings: Iterable[Booking], desk: int) -> Smallest:
        """The smallest sound typing that has the pairs of card and shape that the desk books. Refusals: 31 to 33, 65
        where a desk books a pair a second time, 66 for a number that is no desk, at place 0 if the call's own; or
        NotMet. ValueError for a booking that is no triple, here and below."""
        grid = self._grid()
        answer = _accept(_library.prep_smallest(*self._booked(bookings, desk), *_lend(grid)))
        return Smallest(self._typing(grid), answer.pairs)

    def both(self, bookings: Iterable[Booking], desk: int) -> Both:
        """Both typings in one call; the largest is the same for either desk. Refusals: 31 to 33, 65, 66; bookings that
        are not met are no exception here."""
        small, large = self._grid(), self._grid()
        answer = _library.prep_both_typings(*self._booked(bookings, desk), *_lend(small, large))
        smallest = not_met = None
        if answer.number == NOT_MET:
            not_met = NotMet(answer.card, answer.shape)
        else:
            smallest = Smallest(self._typing(small), _accept(answer).pairs)
        return Both(Largest(self._typing(large), answer.rounds, answer.struck, answer.bare), smallest, not_met)

    def judge(self, bookings: Iterable[Booking], desk: int, grid: Iterable[int]) -> None:
        """Returns if a grid of bytes, such as a typing's, is a sound typing that has the pairs that the desk books.
        Refusals: 31 to 33, 65, 66, 40, 61, 63; or GridNotMet."""
        _accept(_library.prep_judge(*self._booked(bookings, desk), *_lend(_bytes(grid))))

    def tidy_bookings(self, stored: Iterable[Tuple[int, int]]) -> List[Booking]:
        """The first booking of each pair, in the list's order, as the radio's. This is for lists that were stored
        without desks: pairs of card and shape, which may stand there several times. Refusals: 31 to 33. ValueError for
        what is no pair."""
        listed = list(stored)
        tidied = (_WORD * (1 + 3 * len(listed)))()
        lent = _lend(self.template._words, self._words, _list_words(listed, 2), tidied)
        words = tidied[1 : _accept(_library.prep_tidy_bookings(*lent)).written]
        return [(Desk(desk), card, shape) for desk, card, shape in zip(words[::3], words[1::3], words[2::3])]

    def _booked(self, bookings: Iterable[Booking], desk: int) -> list:
        """The template, the script, the bookings and the desk, as parameters; ValueError for a booking that is no
        triple."""
        return _lend(self.template._words, self._words, _list_words(bookings, 3)) + [_word(desk)]

    def _grid(self) -> ctypes.Array:
        return (_BYTE * (self.cards * self.template.shapes))()

    def _typing(self, grid: ctypes.Array) -> Typing:
        return Typing(bytes(grid), self.cards, self.template.shapes)


def _list_words(bookings: Iterable[Tuple[int, ...]], width: int) -> ctypes.Array:
    """The count of a list and its bookings' numbers, so many for each; ValueError for a booking of any other length. A
    count that no word holds is refused as any over 1,024 is."""
    listed = [tuple(booking) for booking in bookings]
    wrong = next((booking for booking in listed if len(booking) != width), None)
    if wrong is not None:
        raise ValueError(f"a booking has {width} numbers here, and {wrong!r} has {len(wrong)}")
    return _words([min(len(listed), 65535)] + [number for booking in listed for number in booking])
