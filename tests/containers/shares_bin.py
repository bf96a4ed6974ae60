"""Items of shares.bin: the share of a line, of searches after runs and of
searches handed in.

"The share of a line is its weight × 1000, divided by the low end, rounded
down"; "the share 20, 34, 36".
"""

import random
from functools import lru_cache

import boards
import enumerator as en
from containers.acts import TAIL, lines  # noqa: F401
from containers.acts import Item, Open, SetSearch, Share, runs
from containers.bases import base_of, bases, differing, lines_of
from containers.fields import (ENTRIES, LINE_WEIGHT, LINES, PENDING_LOW,
                               WEIGHT, WORD, fields_of)
from random_boards import random_board, random_question, random_search

MOST = 100_000              # it has fewer bytes than this

FAR = (257, 258, 65536, 65537, 2 ** 32, 2 ** 32 + 1, 2 ** 63, WORD - 1)


def shares_of(title, file, acts, *lines):
    """An item that asks for the share of each of these lines."""
    return Item(title, file, (*acts, *(Share(line) for line in lines)))


def around(count):
    """Line numbers: none, all from the first to the last if they are few, one
    past, and large ones."""
    some = range(1, count + 1) if count <= 16 else (
        1, 2, 3, count // 2, count - 1, count)
    return (0, *some, count + 1, count + 2, 255, 256, *FAR)


def shares_after_runs():
    """C11, and searches after other runs: without lines, with few and with
    256."""
    file = boards.file_of(boards.BOARD_001)
    yield shares_of("C11", file, (Open((7,)), *runs(100)), 1)
    for allowance, count in ((0, 0), (15, 0), (16, 1), (19, 2), (21, 2),
                             (22, 3), (23, 4), (65535, 4)):
        yield shares_of("001 board after %d" % allowance, file,
                        (Open((7,)), *runs(allowance)), *around(count))
    for name in ("brimful", "stopped", "wide", "done"):
        base = bases()[name]
        yield shares_of(base.title, base.file, base.acts,
                        *around(base.fields.lines))
    for title, board, asked in (
            ("C8 after 32", boards.BOARD_C8, (4,)),
            ("C9", boards.BOARD_C9, (0,)), ("C10", boards.BOARD_C10, (0,)),
            ("either", boards.BOARD_EITHER, (2,)),
            ("W 10^15", boards.board_with_totals([1000] * 5), (0, 4))):
        yield shares_of(title, boards.file_of(board), (
            Open(asked), *runs(65535)), 0, 1, 2, 3)
    yield shares_of("nothing opened", file, (), 0, 1, 2, WORD - 1)
    yield shares_of("a refused opening", file, (Open((8,)),), 0, 1)
    yield shares_of("a share between runs", file, (
        Open((7,)), *runs(16), Share(1), *runs(3), Share(1), Share(2),
        *runs(4)), 1, 2, 3, 4)


def weighted_shares():
    """Shares of lines that exclude one another, of given weights: rounded
    down, large, and such that weight × 1000 takes more than 32 bits, or more
    than 53."""
    largest = 16777215
    for weights in ((1, 1), (1, 2), (1, 1, 1), (1, 2, 3), (999, 1), (1000, 1),
                    (1001, 1), (1, 998), (333, 333, 334), (334, 333, 333),
                    (1, largest), (largest, largest), (largest,) * 16,
                    tuple(range(1, 17)), (7,) * 7, (3, 3, 1), (2, 1) * 8,
                    (1999, 1), (2001, 1)):
        count = len(weights)
        board = (count + 1, [list(enumerate(weights))],
                 [(count, (atom,)) for atom in range(count)])
        yield shares_of("weights %s" % " ".join(map(str, weights)),
                        boards.file_of(board),
                        (Open((count,)), *runs(65535)), *range(count + 2))
    # Sums near 10^15: two declarations beside, that no line touches.
    for weights, more in (((1, 2, 4), (11930464, 11974)),
                          ((49, 51), (10 ** 7, 10 ** 6)),
                          ((1, 999), (10 ** 6, 10 ** 6)),
                          ((333333, 666667), (10 ** 5, 10 ** 4))):
        count = len(weights)
        board = (count + 3, [list(enumerate(weights)), [(count, more[0])],
                             [(count + 1, more[1])]],
                 [(count + 2, (atom,)) for atom in range(count)])
        yield shares_of("weights %s times %d times %d" % (
            " ".join(map(str, weights)), *more), boards.file_of(board),
            (Open((count + 2,)), *runs(65535)), *range(count + 2))


def refused_shares():
    """34 before 36: changes that the search does not bear, and lines that are
    and that are not there."""
    for name in ("opened", "small", "two lines", "listed", "stopped"):
        base = bases()[name]
        fields = base.fields
        for title, change in (
                ("513 entries", SetSearch(ENTRIES, 0, 513)),
                ("257 lines", SetSearch(LINES, 0, 257)),
                ("an entry less", SetSearch(ENTRIES, 0,
                                            max(fields.entries - 1, 0))),
                ("a line less", SetSearch(LINES, 0, max(fields.lines - 1, 0))),
                ("a line more", SetSearch(LINES, 0, fields.lines + 1)),
                ("room of lines", SetSearch(LINE_WEIGHT, 255, 1)),
                ("room of entries", SetSearch(PENDING_LOW, 511, 1)),
                ("the first line heavier", SetSearch(
                    LINE_WEIGHT, 0, fields.line_weight[0] + 1)),
                ("an entry heavier", SetSearch(WEIGHT, 0,
                                               fields.weight[0] + 1))):
            yield shares_of("%s, %s" % (base.title, title), base.file,
                            (*base.acts, change), 0, 1, fields.lines,
                            fields.lines + 1, WORD - 1)


def handed_shares():
    """Lines handed in, that no run leads to."""
    base = bases()["opened"]
    for sets in (((),), ((0,), (1,)), ((2,), (3,), (4,)), ((0, 2), (1, 2)),
                 ((0,), (2,)), ((0, 2), (0, 3), (1,))):
        search = en.Search((), lines_of(base.table, *sets))
        yield shares_of("lines %s" % ", ".join(map(repr, sets)), base.file, (
            *base.acts, *differing(base.fields, fields_of(search))),
            *range(len(sets) + 2))


def random_shares():
    """Random boards after random runs, and random searches."""
    rng = random.Random(20261105)
    for number in range(1, 61):
        board = random_board(rng)
        file = boards.file_of(board)
        table = en.load(file).table
        base = base_of("random board %d" % number, file,
                       random_question(rng, table),
                       rng.choice((3, 9, 30, 65535)))
        acts, count = base.acts, base.fields.lines
        if number % 3 == 0:
            search = random_search(rng, table)
            acts += tuple(differing(base.fields, fields_of(search)))
            count = len(search.lines)
        yield shares_of("random %d" % number, file, acts,
                        *range(min(count, 12) + 2))


@lru_cache(maxsize=None)
def items():
    """All items, in order."""
    return (*shares_after_runs(), *weighted_shares(), *refused_shares(),
            *handed_shares(), *random_shares())
