"""The bookings of a list, as the Python wrapper takes them instead of words."""

from typing import List

import prep


def bookings_of(words: List[int], each: int) -> List[tuple]:
    """The bookings of a list, of so many words each. 30 and 31 are refused here."""
    if not words:
        raise prep.Refused(30, 0)
    if words[0] > 1024:
        raise prep.Refused(31, 0)
    if len(words) != 1 + each * words[0]:
        raise prep.Refused(30, 0)
    return [tuple(words[at : at + each]) for at in range(1, len(words), each)]
