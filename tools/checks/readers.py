"""The cases of reading templates and scripts, of counts and of the links of a card, by the Python wrapper."""

import prep
from sections import Stream


def template_text(stream: Stream) -> str:
    """The counts of kinds and shapes."""
    template = prep.Template(stream.words())
    return f"counts {template.kinds} {template.shapes}"


def fit_text(stream: Stream) -> str:
    """Whether counts fit a shape."""
    words, shape, counts = stream.words(), stream.number(), stream.words()
    return "yes" if prep.Template(words).fits(shape, counts) else "no"


def script_text(stream: Stream) -> str:
    """The counts of cards and links."""
    template, words = stream.words(), stream.words()
    script = prep.Script(prep.Template(template), words)
    return f"counts {script.cards} {len(script.links)}"


def links_text(stream: Stream) -> str:
    """The links of a card; none where a file is refused."""
    template, words, card = stream.words(), stream.words(), stream.number()
    try:
        links = prep.Script(prep.Template(template), words).links_of(card)
    except prep.Refused:
        links = []
    return "links" + "".join(f" {word}" for link in links for word in link)
