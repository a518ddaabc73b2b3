"""The cases of tidying a stored list, by the library that the Python wrapper loads. The wrapper lends a buffer of the
right length, so unless that of the case has another one it has to answer the same."""

import sys
from typing import List, Tuple

import prep
from lists import bookings_of
from sections import Stream


def by_wrapper(template: List[int], script: List[int], stored: List[int]) -> Tuple[str, List[int]]:
    """What the wrapper answers, and the words of the list that it gives."""
    try:
        tidied = prep.Script(prep.Template(template), script).tidy_bookings(bookings_of(stored, 2))
    except prep.Refused as refused:
        return f"refused {refused.number} {refused.place}", []
    words = [len(tidied)] + [word for booking in tidied for word in booking]
    return f"written {len(words)}", words


def tidy_text(stream: Stream) -> str:
    """`written WORDS` or what is refused, and the buffer."""
    files = [stream.words() for _ in range(3)]
    buffer = prep._words([7] * stream.number())
    answer = prep._library.prep_tidy_bookings(*prep._lend(*map(prep._words, files), buffer))
    if answer.number == 0:
        told = f"written {answer.written}"
    else:
        told = f"refused {answer.number} {answer.place}"
    if answer.number != 40 and by_wrapper(*files) != (told, buffer[: answer.written]):
        sys.exit(f"the wrapper tidies in another way, where the library answers {told}")
    return f"{told} :" + "".join(f" {word}" for word in buffer)
