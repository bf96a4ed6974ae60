"""How an item of a container is written and read, and what all lines share.

A container is a sequence of items up to the end of the file.  Each item begins
with a board file, a PART.  What follows it is said by the container's TAIL: for
each value the count of its bytes, or a Form.  Numbers of more than one byte
are written low byte first.
"""

from typing import Callable, NamedTuple

import enumerator as en

MOST_IN_ITEM = 8192
FAR = 2 ** 32 - 1           # the largest number of four bytes


def refused(number, place=None):
    """The line of a refusal; "A refused yes-or-no or share returns its number
    alone." """
    if place is None:
        return "refused %d" % number
    return "refused %d at %d" % (number, place)


def body_places(body):
    """ "8 places for body atoms; 255 is an empty place" """
    return tuple(body) + (en.EMPTY_PLACE,) * (en.MAX_BODY - len(body))


class Form(NamedTuple):
    """The bytes of a value, and the value that a function `take` gives, which
    takes the next so many bytes."""
    put: Callable
    taken: Callable


def number(size):
    """A number of so many bytes."""
    return Form(lambda value: value.to_bytes(size, "little"),
                lambda take: int.from_bytes(take(size), "little"))


def counted(form):
    """A byte with a count, and so many values."""
    return Form(
        lambda values: bytes([len(values)]) + b"".join(map(form.put, values)),
        lambda take: tuple(form.taken(take) for _ in range(take(1)[0])))


def part_bytes(part):
    if len(part) > MOST_IN_ITEM:
        raise ValueError("a part of %d bytes" % len(part))
    return len(part).to_bytes(2, "little") + part


# A two-byte length and that many bytes; atoms; allowances.
PART = Form(part_bytes, lambda take: take(number(2).taken(take)))
ATOMS = counted(number(1))
ALLOWANCES = counted(number(2))


def forms(tail):
    """Those of an item."""
    return (PART, *(form if isinstance(form, Form) else number(form)
                    for form in tail))


def put_together(items, tail):
    """The bytes of a container.  An item has a name, a board file and the
    values that follow it."""
    return b"".join(form.put(value) for _, *values in items
                    for form, value in zip(forms(tail), values))


def taken_apart(container, tail):
    """The items of a container, without names, read as the program reads
    them."""
    place = 0

    def take(count):
        nonlocal place
        if place + count > len(container):
            raise ValueError("the container stops within an item")
        place += count
        return container[place - count:place]

    while place < len(container):
        yield tuple(form.taken(take) for form in forms(tail))
