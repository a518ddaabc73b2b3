"""Prints the sheet that FORMAT.md works through, for bookings of the radio desk that are met and for some that are
not. The television desk books nothing."""

import prep


def print_cards(typing: prep.Typing) -> None:
    """A line for each card: its shapes, ascending."""
    for card in range(typing.cards):
        print(f"card {card}:" + "".join(f" {shape}" for shape in typing.shapes_of(card)))


def print_smallest(both: prep.Both) -> None:
    """A desk's smallest typing, or the pair that is not met."""
    if both.not_met:
        print("smallest no", both.not_met.card, both.not_met.shape)
    else:
        print("smallest", both.smallest.pairs)
        print_cards(both.smallest.typing)


def print_sheet(script: prep.Script, bookings: list) -> None:
    """The largest typing, which is the same for both desks, and the smallest of each."""
    desks = [script.both(bookings, desk) for desk in prep.Desk]
    largest = desks[0].largest
    print("largest", largest.rounds, largest.struck, largest.bare)
    print_cards(largest.typing)
    for both in desks:
        print_smallest(both)


TEMPLATE = prep.Template.of(2, [prep.all_of(prep.link(0, 1, 1, 1), prep.link(1, 0, 0, 1)), prep.nothing()])
SCRIPT = prep.Script.of(TEMPLATE, 3, [(1, 0, 0), (0, 1, 1), (0, 0, 2)])

if __name__ == "__main__":
    print_sheet(SCRIPT, [(prep.Desk.RADIO, 2, 1)])
    print_sheet(SCRIPT, [(prep.Desk.RADIO, 0, 0)])
