"""Items of runs.bin: a board file, an opening and runs one after the other.

Document 01's boards and limits, ladders, equal weights, random boards, and the
boards of the benchmark.
"""

import random
from functools import lru_cache
from math import prod

import boards
import enumerator as en
from containers.acts import TAIL, lines  # noqa: F401
from containers.acts import Item, Open, TrueWeight, runs
from containers.states_bin import (APART, both_below, eight_below,
                                   either_below, facts)
from random_boards import (large_board, random_allowances, random_board,
                           random_question, spread_over, tied_board)

MOST = 260_000              # it has fewer bytes than this


def runs_of(title, board, asked, *sequences):
    """An item of one board and question for each sequence of allowances."""
    file = board if isinstance(board, bytes) else boards.file_of(board)
    for allowances in sequences:
        shown = " ".join(map(str, allowances)) or "no run"
        if len(allowances) > 12:
            shown = "%d runs" % len(allowances)
        yield Item("%s asked %s: %s" % (title, " ".join(map(str, asked)),
                                        shown),
                   file, (Open(tuple(asked)), *runs(*allowances)))


def weighed(items):
    """The items, each with the true weight of its question after its runs."""
    for item in items:
        yield item._replace(acts=(*item.acts, TrueWeight()))


def documented_runs():
    """C1 to C10, also in parts, after done and after a refusal."""
    yield from weighed(runs_of(
        "C1 to C5, 001 board", boards.BOARD_001, (7,),
        (100,), (16,), (19,), (21,), (0,), (), (1,) * 25, (22,), (23,), (24,),
        (65535,), (65535, 65535, 0, 1), (16, 3, 2, 0, 100, 1), (0, 0, 1, 0),
        (22, 0, 1, 0)))
    for asked in ((0,), (5,), (6,), (0, 2), (0, 1), (1, 5), (5, 6, 7),
                  (2, 3), (3, 7), (0, 1, 2, 3, 4, 5, 6, 7), (4, 6), (2, 6)):
        yield from weighed(runs_of("001 board", boards.BOARD_001, asked,
                                   (65535,), (1, 2, 3, 4, 5, 6)))
    yield from runs_of("C6, the empty file", b"", (0,), (0, 1, 65535))
    yield from runs_of("a byte after the end",
                       boards.file_of(boards.BOARD_001) + b"\4", (7,), (3, 0))
    totals = boards.board_with_totals
    yield from weighed(runs_of("C7", totals([1000] * 5), (0, 1, 2, 3, 4),
                               (3, 9)))
    yield from runs_of("C7, one more of 1", totals([1000] * 5 + [1]),
                       (0, 5), (1, 1, 1, 1))
    yield from runs_of("C7, one more of 2", totals([1000] * 5 + [2]),
                       (0, 5), (1,))
    yield from weighed((
        *runs_of("C8", boards.BOARD_C8, (4,), (100,), (3,), (4,), (5, 0, 1),
                 (65535, 65535), (1,) * 6),
        *runs_of("C8", boards.BOARD_C8, (0, 4), (100, 1)),
        *runs_of("C9", boards.BOARD_C9, (0,), (100,), (1,), (2, 0, 9)),
        *runs_of("C10", boards.BOARD_C10, (0,), (100,), (0,), (1, 1))))


def refused_openings():
    """ "Opening checks 20 to 23 in that order." """
    for title, board, questions in (
            ("001 board", boards.BOARD_001, (
                (), (0,) * 9, tuple(range(9)), (9,) * 9, tuple(range(8)),
                (8,), (255,), (0, 8), (8, 0), (7, 8), (7, 7), (7, 6), (1, 0),
                (0, 1, 1), (0, 2, 1), (6, 7, 5), (5, 4, 200), (0, 0) * 4,
                tuple(range(7, -1, -1)), (0, 1, 2, 3, 4, 5, 7, 6))),
            ("128 atoms", (128, [], []), (
                (127,), (128,), (127, 128), (126, 127), (127, 126),
                tuple(range(120, 128)), tuple(range(119, 128)),
                tuple(range(121, 129)), (0, 63, 64, 127), (63, 64, 64))),
            ("a refused file", b"\1\0\4", ((), (0,), (255,), (1, 0)))):
        for asked in questions:
            yield from runs_of(title, board, asked, (1, 2))


def product_runs():
    """ "512 explanations from declarations of 16, 16 and 2 choices, which
    reach 33", and what is near."""
    long_runs = (0, 30, 5, 700, 1100, 1, 0, 65535, 3)
    for sizes in ((16, 16, 2), (2, 16, 16), (16, 2, 16)):
        board, heads = boards.product_board(sizes)
        yield from runs_of("product %r" % (sizes,), board, heads, long_runs)
    board, heads = boards.product_board((16, 16, 2))
    yield from runs_of("product in hundreds", board, heads, (100,) * 19)
    for title, sizes, more in (
            ("repeated rule", (16, 16, 2), [(34, (0,))]),
            ("a 17th body", (16, 16, 2), [(34, (0, 1))]),
            ("768 explanations", (16, 16, 3), ()),
            ("256 explanations", (16, 16), ()),
            ("257 explanations and more", (16, 16, 1), [(34, ())]),
            ("5 declarations", (4, 4, 4, 4, 2), ()),
            ("9 of 2", (2,) * 8, ())):
        board, heads = boards.product_board(sizes, more)
        yield from runs_of(title, board, heads, (33, 1, 1, 400, 65535, 1))


def weighed_products():
    """Board states as many as the program goes through, and the next number
    of them that there can be, 4,116, in which it goes through none."""
    for sizes in ((16, 16, 16), (12, 7, 7, 7)):
        board, heads = boards.product_board(sizes)
        for asked in ((0, heads[1]), heads):
            yield from weighed(runs_of("%d states" % prod(sizes), board,
                                       asked, (65535,)))


def brimful_runs():
    """ "31 | store full | after removing the entry, held and new entries,
    equal ones counted once, would pass 512": a last expansion to just 512 and
    to 513, where one new entry is held already or new twice, and where the
    store had 512 before."""
    for fan, each, last in ((128, 4, 1), (128, 4, 2), (73, 7, 1), (73, 7, 2),
                            (73, 7, 3), (170, 3, 2), (170, 3, 3),
                            (170, 3, 4)):
        for more, title in enumerate(("", ", one held", ", one repeated")):
            board, asked = boards.brimful_board(fan, each, last, more)
            yield from runs_of("brimful %d %d %d%s" % (fan, each, last, title),
                               board, asked, (1 + fan, 1, 1, 1, 65535, 1))
    # 512 entries of 16 * 62,500,000,000,000 = 10^15 each.
    board, asked = boards.brimful_board(128, 4, 1, beside=(6250000, 10000000))
    yield from runs_of("brimful, W 10^15", board, asked,
                       (129, 100, 65535))


def overlap_runs():
    """ "32 goes before 33": the list is full, and the next finished entry is
    compatible with all lines, with none, or contains one."""
    for title, kind in (("overlap", "apart"), ("no overlap", "against"),
                        ("contained", "inside")):
        board, asked = boards.late_board(kind)
        yield from runs_of("256 lines, then " + title, board, asked,
                           (65535, 1, 0), (1000, 100, 1, 65535))


def tied_runs():
    """Equal weights: size, dictionary and pending decide."""
    yield from runs_of("sure hypothesis", boards.BOARD_SURE, (3,), (65535,),
                       (1,) * 7)
    yield from runs_of("either", boards.BOARD_EITHER, (2,), (65535,), (1,) * 6)
    yield from runs_of("256 equal rules", (1, [], [(0, ())] * 256), (0,),
                       (1, 65535))
    yield from runs_of("equal by what is pending too", (
        4, [[(0, 1)], [(1, 2), (2, 3)]],
        [(3, (0,)), (3, ()), (3, (0, 1)), (3, (1,))]), (0, 1, 3), (1, 65535))
    rng = random.Random(20261101)
    for number in range(1, 61):
        board = tied_board(rng)
        if number > 30:
            board = spread_over(rng, board, 128)
        table = en.load(boards.file_of(board)).table
        asked = random_question(rng, table)
        yield from weighed(runs_of(
            "equal weights %d" % number, board, asked,
            (rng.randint(1, 6), rng.randint(1, 6), rng.randint(1, 20),
             65535)))


def ladder_runs():
    """128 atoms, with rules that lead from each atom to those right below."""
    for title, declarations, rules, asked, allowances in (
            ("both below, facts", [], facts(2) + both_below(127), (127,),
             (5, 60, 65535)),
            ("both below, one fact", [], facts(1) + both_below(127), (127,),
             (100, 65535)),
            ("both below, sure", [[(0, 1)], [(1, 1)]], both_below(127),
             (127,), (63, 1, 65535)),
            ("both below, never both", [[(0, 1), (1, 1)]], both_below(127),
             (126, 127), (65535,)),
            ("both below, apart", APART, both_below(125), (125, 127),
             (1, 1, 65535)),
            ("both below, apart", APART, both_below(125), (125,), (65535,)),
            ("either below, apart", APART, either_below(125), (125,),
             (9, 9, 65535)),
            ("either below, apart", APART, either_below(125), (60, 125),
             (99, 65535)),
            ("either below, apart", APART, either_below(125), (125, 126),
             (65535,)),
            ("eight below, facts", [], (facts(8) + eight_below(127))[::-1],
             (127,), (65, 65535)),
            ("eight below, sure", [[(n, 1)] for n in range(8)],
             eight_below(127), (120, 127), (65, 65535)),
            ("chain", [[(0, 1), (127, 4)]], [(n, (n - 1,))
                                             for n in range(1, 127)],
             (63, 64, 126), (64, 65535))):
        yield from runs_of(title, (128, declarations, rules), asked,
                           allowances)


def full_runs():
    """256 rules with 8 body atoms each; W near its limit."""
    yield from runs_of("full board", boards.full_board(1), (127,),
                       (1, 300, 65535))
    yield from runs_of("full board, W near the limit",
                       boards.full_board(7198646), (0, 24, 126, 127),
                       (1, 300, 1000, 65535))
    yield from runs_of("full board, 255 rules", boards.full_board(5, 255),
                       (127,), (65535,))
    yield from runs_of("wide board", boards.wide_board(), (104, 127),
                       (10, 100, 65535))
    yield from runs_of("wide board", boards.wide_board(), (110, 115, 120),
                       (50, 65535))
    board, asked = boards.all_chosen_board()
    yield from runs_of("32 choices", board, asked, (1,) * 12, (10, 20, 65535))
    yield from weighed(runs_of(
        "W 10^15 of 32 totals", boards.board_with_totals(
            [2] * 15 + [1] + [5] * 15 + [1]), tuple(range(24, 32)),
        (1, 2, 3, 65535)))


def random_runs():
    """Small random boards, for which `checks` has the true weights, some
    spread over both words, with random allowances, and then to the end; last
    the program's own true weight."""
    rng = random.Random(20261102)
    for number in range(1, 161):
        board = random_board(rng)
        if number > 100:
            board = spread_over(rng, board, rng.choice((64, 65, 100, 128)))
        table = en.load(boards.file_of(board)).table
        asked = random_question(rng, table)
        yield from weighed(runs_of("random board %d" % number, board, asked,
                                   (*random_allowances(rng), 65535)))


def large_runs():
    """Random boards of 20 to 60 atoms, some of 128, with many allowances: of
    those that go on for 100 steps 30, of those for 1000 steps 20."""
    rng = random.Random(20261103)
    wanted = {100: 30, 1000: 20}
    number = 0
    while sum(wanted.values()):
        board = large_board(rng)
        table = en.load(boards.file_of(board)).table
        asked = random_question(rng, table)
        allowances = [rng.choice((0, 1, 2, 5, 10, 50, 200))
                      for _ in range(rng.randint(2, 6))]
        steps = en.run(table, en.open_search(table, asked).search, 1000).steps
        kind = max((least for least in wanted if steps >= least), default=0)
        if wanted.get(kind, 0):
            wanted[kind] -= 1
            number += 1
            yield from runs_of("large board %d" % number, board, asked,
                               (*allowances, 1500, 1))


def bench_runs():
    """The boards of the benchmark to their end, some in parts: near what one
    byte and what 15 bits hold, and with all of the allowance's 16."""
    of_board = {"ladder": [(0, 1, 500, 20000, 65535)],
                "listed": [(12345, 65535)],
                "relay": [(65535, 3), (32767, 1, 65535)]}
    for name, (file, asked) in boards.bench_boards().items():
        yield from runs_of("bench, " + name, file, asked,
                           *of_board.get(name, [(255, 256, 65535, 1)]))


@lru_cache(maxsize=None)
def items():
    """All items, in order."""
    return (*documented_runs(), *refused_openings(), *product_runs(),
            *weighed_products(), *brimful_runs(), *overlap_runs(),
            *tied_runs(), *ladder_runs(), *full_runs(), *random_runs(),
            *large_runs(), *bench_runs())
