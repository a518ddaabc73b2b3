"""The cases of judging a grid, by the Python wrapper."""

import prep
from lists import bookings_of
from sections import Stream


def judge_text(stream: Stream) -> str:
    """`accepted`; what is refused is an exception."""
    template, script, bookings = (stream.words() for _ in range(3))
    desk, grid = stream.number(), stream.section()
    prep.Script(prep.Template(template), script).judge(bookings_of(bookings, 3), desk, grid)
    return "accepted"
