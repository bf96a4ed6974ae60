"""Items of driven.bin: a board file, a question and allowances to drive with.

After the file: a byte with the count of the question's atoms and these atoms,
and a byte with the count of the allowances and these, two bytes each.  The
lines of an item are those of loading and of opening (see `acts`), `no run` or
the line of the last run, and those of the search that is left.  No run is made
where the file or the question is refused.
"""

import random
from functools import lru_cache
from typing import NamedTuple

import boards
import enumerator as en
from containers import acts
from containers.acts import Open, act_lines, runs, search_lines
from containers.common import ALLOWANCES, ATOMS
from random_boards import (random_allowances, random_board, random_question,
                           spread_over)

TAIL = (ATOMS, ALLOWANCES)
MOST = 100_000              # it has fewer bytes than this


class Item(NamedTuple):
    name: str
    file: bytes
    asked: tuple
    allowances: tuple


def carried_out(file, asked, allowances):
    """What loading, opening and the runs answer, one by one."""
    done = list(acts.carried_out(file, (Open(asked), *runs(*allowances))))
    return done[:2] if done[1].answer else done


def lines_of(done):
    """The lines of what was answered."""
    loaded, opened, *ran = done
    return [*act_lines(loaded), act_lines(opened)[0],
            act_lines(ran[-1])[0] if ran else "no run",
            *search_lines(done[-1].after)]


def lines(*item):
    return lines_of(carried_out(*item))


def driven_of(title, board, asked, *sequences):
    """An item of one board and question for each sequence of allowances."""
    file = board if isinstance(board, bytes) else boards.file_of(board)
    for allowances in sequences:
        yield Item("%s asked %s: %s" % (
            title, shown(asked, "atoms"), shown(allowances, "allowances")),
            file, tuple(asked), tuple(allowances))


def shown(numbers, what):
    """Numbers in a name; of many how many there are."""
    if 0 < len(numbers) <= 12:
        return " ".join(map(str, numbers))
    return "%d %s" % (len(numbers), what)


def documented():
    """C1 to C10: in one run, in parts, with no run, and on after done."""
    yield from driven_of(
        "C1 to C5, 001 board", boards.BOARD_001, (7,),
        (), (0,), (100,), (16,), (19,), (21,), (22,), (23,), (65535,),
        (16, 3), (16, 3, 2), (0, 0, 0), (0, 16, 0), (22, 0), (22, 1),
        (23, 0, 0), (65535, 65535, 1), (1,) * 16, (1,) * 23, (1,) * 40,
        (0, 1) * 24, (2,) * 11, (2,) * 12, (0,) * 255, (1,) * 254)
    for asked in ((0,), (5, 6, 7), (0, 1), tuple(range(8))):
        yield from driven_of("001 board", boards.BOARD_001, asked, (),
                             (65535,), (1, 2, 3))
    for title, board, asked in (("C8", boards.BOARD_C8, (4,)),
                                ("C9", boards.BOARD_C9, (0,)),
                                ("C10", boards.BOARD_C10, (0,))):
        yield from driven_of(title, board, asked, (), (0,), (100,), (1, 1, 1),
                             (100, 0, 1))
    totals = boards.board_with_totals
    yield from driven_of("C7", totals([1000] * 5), (0, 1, 2, 3, 4), (3, 9))
    yield from driven_of("C7, one more of 2", totals([1000] * 5 + [2]),
                         (0, 5), (), (1,), (1,) * 9)


def refused():
    """Files and questions: "Opening checks 20 to 23 in that order." """
    right = boards.file_of(boards.BOARD_001)
    for title, file in (("the empty file", b""), ("cut off", right[:-1]),
                        ("a byte after the end", right + b"\4"),
                        ("no atoms", b"\1\0\4"), ("kind", b"\5" + right[1:])):
        for asked in ((7,), (), (1, 0)):
            yield from driven_of(title, file, asked, (), (0, 5, 65535))
    for asked in ((), (0,) * 9, (0,) * 255, tuple(range(9)), (8,), (255,),
                  (0, 8), (8, 0), (7, 7), (7, 6), (0, 2, 1), (0, 0) * 4,
                  (9,) * 9):
        yield from driven_of("001 board", right, asked, (), (0,), (100, 1))


def stopped():
    """Runs up to 31, 32 and 33 and after them, over a full store and a full
    list: what is refused is refused again, but not with an allowance of 0."""
    product, heads = boards.product_board((16, 16, 2))
    yield from driven_of("product", product, heads, (33,), (65535,),
                         (65535, 0), (65535, 65535), (65535, 1, 0, 65535),
                         (0, 30, 5, 700, 1100, 1), (100,) * 30)
    for fan, each, last in ((128, 4, 1), (128, 4, 2), (73, 7, 3)):
        board, asked = boards.brimful_board(fan, each, last)
        yield from driven_of("brimful %d %d %d" % (fan, each, last), board,
                             asked, (1 + fan,), (1 + fan, 1, 1, 1),
                             (65535, 65535), (65535, 0), (50,) * 20)
    for asked, allowances in (((4,), (100, 100)), ((4,), (100, 0)),
                              ((4,), (3, 1, 1, 1)), ((0, 4), (65535, 1)),
                              ((4,), (1,) * 30)):
        yield from driven_of("overlap, C8", boards.BOARD_C8, asked,
                             allowances)
    board, asked = boards.all_chosen_board()
    yield from driven_of("32 choices", board, asked, (10, 20, 65535),
                         (65535,))
    board, asked = boards.spread_board()
    yield from driven_of("both words", board, asked, (), (500,), (100,) * 24)


def random_items():
    """Small random boards, for which `checks` has the true weights, some
    spread over both words."""
    rng = random.Random(20261104)
    for number in range(1, 121):
        board = random_board(rng)
        if number > 80:
            board = spread_over(rng, board, rng.choice((64, 65, 100, 128)))
        asked = random_question(rng, en.load(boards.file_of(board)).table)
        last = rng.choice(((), (0,), (1,), (65535,), (65535, 0, 1)))
        yield from driven_of("random board %d" % number, board, asked,
                             (*random_allowances(rng), *last))


@lru_cache(maxsize=None)
def items():
    """All items, in order."""
    return (*documented(), *refused(), *stopped(), *random_items())
