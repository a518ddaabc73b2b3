"""Answers cases by the Python wrapper: a line for each, or the text of a sheet, goes to standard output, and how many
there were to standard error."""

import sys

import prep
from judge import judge_text
from readers import fit_text, links_text, script_text, template_text
from sections import Stream
from sheets import sheet_text
from tidy import tidy_text

# What a tag asks, from 1 on.
OPERATIONS = [template_text, fit_text, script_text, links_text, sheet_text, judge_text, tidy_text]


def answer(stream: Stream) -> str:
    """What the next case is answered by. A function of an operation reads all sections before it asks."""
    try:
        return OPERATIONS[stream.tag() - 1](stream)
    except prep.PairRefused as refused:
        return f"refused {refused.number} {refused.card} {refused.shape}"
    except prep.Refused as refused:
        return f"refused {refused.number} {refused.place}"


if __name__ == "__main__":
    cases, count = Stream(sys.stdin.buffer.read()), 0
    while cases.goes_on():
        print(answer(cases))
        count += 1
    print(count, file=sys.stderr)
