"""Items of changed.bin: openings, runs and shares over a changed table.

A field of the table is set: mostly to what no file loads to, which is 20,
before 21 to 23, before 34 and before 36; and to what is another table, over
which the search may be well formed or not.
"""

import random
from functools import lru_cache

import boards
import enumerator as en
from containers.acts import TAIL, lines  # noqa: F401
from containers.acts import (Item, Open, SetSearch, SetTable, Share,
                             carried_out, runs)
from containers.arrays import (ATOM, ATOMS, BODY, DECLARATION, HEAD,
                               HYPOTHESES, RULES, WEIGHT, Arrays,
                               loaded_arrays)
from containers.bases import bases
from containers.fields import ENTRIES, LINES, WORD
from containers.tables_bin import random_change
from random_boards import random_board, random_question

MOST = 100_000              # it has fewer bytes than this

# The fields of the table of the 001 board: what no file loads to.  7 from 0 5
# is its first rule; its hypotheses are 0, 1 and 2, 3, 4.
NO_TABLES = (
    (ATOMS, 0, 0), (ATOMS, 0, 7), (ATOMS, 0, 129), (ATOMS, 0, WORD - 1),
    (HYPOTHESES, 0, 4), (HYPOTHESES, 0, 6), (HYPOTHESES, 0, 129),
    (HYPOTHESES, 0, WORD - 1), (RULES, 0, 6), (RULES, 0, 8), (RULES, 0, 257),
    (RULES, 0, 2 ** 32 + 7), (DECLARATION, 0, 1), (DECLARATION, 4, 3),
    (ATOM, 0, 1), (ATOM, 4, 7), (ATOM, 5, 5), (WEIGHT, 0, 0),
    (WEIGHT, 2, 2 ** 24), (WEIGHT, 127, 1), (HEAD, 0, 0), (HEAD, 0, 5),
    (HEAD, 255, 1), (BODY, 0, 5), (BODY, 1, 7), (BODY, 7, 0), (BODY, 2047, 1))

# What is another table: more atoms, other weights, rules that lead elsewhere,
# a hypothesis of the other declaration.
OTHER_TABLES = (
    (ATOMS, 0, 9), (ATOMS, 0, 128), (WEIGHT, 0, 4), (WEIGHT, 1, 6),
    (WEIGHT, 4, 16777215), (HEAD, 1, 7), (HEAD, 2, 7), (HEAD, 6, 6),
    (BODY, 1, 6), (BODY, 8, 0), (BODY, 16, 2), (BODY, 49, 1), (BODY, 41, 4),
    (DECLARATION, 2, 0), (ATOM, 0, 0))


def shown(change):
    field, index, value = change
    return "%s[%d] = %d" % (Arrays._fields[field], index, value)


def fixed_changes():
    """An opening before and after; runs; shares of a line that is and of one
    that is not there, over a search that is well formed and one that is
    not."""
    file = boards.file_of(boards.BOARD_001)
    spoil = SetSearch(ENTRIES, 0, 513)
    for change in NO_TABLES:
        yield Item("no table, " + shown(change), file, (
            Open((7,)), *runs(19), SetTable(*change), *runs(1, 0), Share(1),
            Share(3), Open((7,)), Open(()), Open((200, 1))))
        yield Item("no table and no search, " + shown(change), file, (
            Open((7,)), *runs(16), spoil, SetTable(*change), *runs(65535),
            Share(1), Share(0)))
    for change in OTHER_TABLES:
        yield Item("another table, " + shown(change), file, (
            Open((7,)), *runs(16), SetTable(*change), *runs(1), Share(1),
            Share(2), *runs(65535), Share(1), Open((7,)), *runs(65535),
            Share(1)))
    # There and back.
    for change, back in (((ATOMS, 0, 0), (ATOMS, 0, 8)),
                         ((WEIGHT, 2, 0), (WEIGHT, 2, 6)),
                         ((BODY, 1, 7), (BODY, 1, 5))):
        yield Item("%s and back" % shown(change), file, (
            Open((7,)), *runs(16), SetTable(*change), *runs(3),
            SetTable(*back), *runs(3), Share(1), spoil, *runs(1), Share(1),
            SetTable(*change), *runs(1), Share(1), SetTable(*back), Share(9),
            SetSearch(ENTRIES, 0, 3), *runs(65535), Share(9), Share(4)))


def unopened():
    """The table of a refused file has every field zero; a search with every
    field zero is well formed over each table."""
    file = boards.file_of(boards.BOARD_001)
    for title, spoiled in (("the empty file", b""), ("cut off", file[:-1]),
                           ("kind", b"\5" + file[1:])):
        yield Item(title, spoiled, (
            *runs(0, 1), Share(0), Share(1), SetSearch(LINES, 0, 300),
            *runs(1), Share(1), Open((7,)), *runs(1)))
        yield Item(title + ", then a table", spoiled, (
            SetTable(ATOMS, 0, 3), Open((2,)), *runs(1, 1), Share(1),
            SetTable(RULES, 0, 1), *runs(1)))
    yield Item("nothing opened", file, (*runs(0, 1, 65535), Share(0),
                                        Share(1)))
    yield Item("a refused opening, then runs", file, (
        Open((7, 8)), *runs(1), Share(1), Open((7,)), *runs(100),
        Open((9,)), *runs(1)))
    yield Item("opened anew", file, (
        Open((7,)), *runs(19), Open((6,)), *runs(3), Open((5, 6)),
        *runs(100), Share(1), Open(()), *runs(7)))


def large_changes():
    """Over stores and lists that are full."""
    for name in ("brimful", "stopped", "done"):
        base = bases()[name]
        arrays = loaded_arrays(base.file)
        last = arrays.hypotheses - 1
        for change in ((ATOMS, 0, arrays.atoms - 1), (ATOMS, 0, 128),
                       (HYPOTHESES, 0, last), (RULES, 0, arrays.rules + 1),
                       (WEIGHT, last, 2), (WEIGHT, last, 0),
                       (HEAD, 0, arrays.atoms - 1), (BODY, 2047, 1),
                       (DECLARATION, last, 32)):
            yield Item("%s, %s" % (base.title, shown(change)), base.file, (
                *base.acts, SetTable(*change), *runs(1), Share(1), Share(256),
                Share(257)))


def random_changes():
    """Random boards with a random change after some steps: so many where no
    file loads to what comes out, so many where the search is not well formed
    over it, and so many where it is."""
    rng = random.Random(20261106)
    wanted = {20: 40, 34: 25, 0: 40}
    number = 0
    while sum(wanted.values()):
        file = boards.file_of(random_board(rng))
        arrays = loaded_arrays(file)
        field = rng.choice((ATOMS, HYPOTHESES, RULES, DECLARATION, ATOM,
                            WEIGHT, WEIGHT, HEAD, BODY, BODY))
        change = SetTable(field, *random_change(rng, arrays, field))
        acts = (Open(random_question(rng, en.load(file).table)),
                *runs(rng.choice((0, 2, 5, 9))), change,
                *runs(rng.choice((1, 3, 65535))))
        done = list(carried_out(file, acts))
        kind = done[-1].answer.answer
        kind = kind if kind in (20, 34) else 0
        # Over what is left of a search that is done little is to be seen.
        if wanted[kind] and done[-1].before.entries:
            wanted[kind] -= 1
            number += 1
            yield Item("random change %d" % number, file, (*acts, Share(1)))


@lru_cache(maxsize=None)
def items():
    """All items, in order."""
    return (*fixed_changes(), *unopened(), *large_changes(),
            *random_changes())
