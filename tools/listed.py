"""What the listing program printed, taken apart."""

import re
from typing import NamedTuple

REFUSED = re.compile(rb"refused ([0-9]+)(?: at ([0-9]+))?\n")
LISTING = re.compile(
    rb"total ([0-9]+)\n((?:[0-9]+(?: [0-9]+)*\n)*)"
    rb"low ([0-9]+) high ([0-9]+) steps ([0-9]+) (done|more|31|32|33)\n")


class Refused(NamedTuple):
    """A file or a question that was refused; the place is None with a
    question."""
    number: int
    place: object


class Line(NamedTuple):
    weight: int
    atoms: tuple


class Listed(NamedTuple):
    """A listing.  The answer is the last word: done, more or a number."""
    total: int
    lines: tuple
    low: int
    high: int
    steps: int
    answer: str


def take_apart(printed):
    """A Listed or a Refused, or None if the bytes are neither."""
    refused = REFUSED.fullmatch(printed)
    if refused:
        number, place = refused.groups()
        return Refused(int(number), None if place is None else int(place))
    listed = LISTING.fullmatch(printed)
    if not listed:
        return None
    total, lines, low, high, steps, answer = listed.groups()
    return Listed(int(total), tuple(map(line_of, lines.splitlines())),
                  int(low), int(high), int(steps), answer.decode("ascii"))


def line_of(text):
    weight, *atoms = map(int, text.split())
    return Line(weight, tuple(atoms))
