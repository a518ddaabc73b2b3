"""The cases of the sheet printer, by the Python wrapper."""

import struct
from typing import List

import prep
from lists import bookings_of
from sections import Stream


def split(data: bytes) -> List[List[int]]:
    """Template, script and bookings, each after its count of words."""
    words = [word for (word,) in struct.iter_unpack("<H", data[: len(data) // 2 * 2])]
    files, at = [], 0
    for _ in range(3):
        if at >= len(words) or at + 1 + words[at] > len(words):
            raise prep.Refused(60, 0)
        files.append(words[at + 1 : at + 1 + words[at]])
        at += 1 + words[at]
    if 2 * at != len(data) or len(data) > 65536:
        raise prep.Refused(60, 0)
    return files


def card_lines(typing: prep.Typing) -> List[str]:
    """A line for each card: its shapes, ascending."""
    return [f"card {card}:" + "".join(f" {t}" for t in typing.shapes_of(card)) for card in range(typing.cards)]


def smallest_lines(both: prep.Both) -> List[str]:
    """The lines of a desk's smallest typing, or the pair that is not met."""
    if both.not_met:
        return [f"smallest no {both.not_met.card} {both.not_met.shape}"]
    return [f"smallest {both.smallest.pairs}"] + card_lines(both.smallest.typing)


def sheet_text(stream: Stream) -> str:
    """The lines of a sheet."""
    template, script, words = split(stream.section())
    read, bookings = prep.Script(prep.Template(template), script), bookings_of(words, 3)
    desks = [read.both(bookings, desk) for desk in prep.Desk]
    largest = desks[0].largest
    lines = [f"largest {largest.rounds} {largest.struck} {largest.bare}"] + card_lines(largest.typing)
    return "\n".join(lines + [line for both in desks for line in smallest_lines(both)])
