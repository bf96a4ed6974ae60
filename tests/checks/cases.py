"""The cases C1 to C11 as document 01 has them, and small questions."""

import boards
import enumerator as en
from boards import file_of
from checks.tally import loaded, opened, run_for, section, typed

# "For bytes 1, 7, 100, 0 it prints"
LISTED_001 = (b"total 100\n42 1 2\n18 0 2\n9 0 3\n3 0 4\n"
              b"low 72 high 72 steps 23 done\n")


def documented_listings():
    """C1 to C10: file, input and the text that document 01 has, or that it
    leaves no choice about."""
    whole = 10 ** 15
    sure = b"total %d\n%d 0\nlow %d high %d steps 2 done\n" % ((whole,) * 4)
    totals = boards.board_with_totals
    for name, board, atom, allowance, text in (
            ("C1", boards.BOARD_001, 7, 100, LISTED_001),
            ("C2", boards.BOARD_001, 7, 16,
             b"total 100\n42 1 2\nlow 42 high 100 steps 16 more\n"),
            ("C3", boards.BOARD_001, 7, 19,
             b"total 100\n42 1 2\n18 0 2\nlow 60 high 89 steps 19 more\n"),
            ("C4", boards.BOARD_001, 7, 21,
             b"total 100\n42 1 2\n18 0 2\nlow 60 high 72 steps 21 more\n"),
            ("C5", boards.BOARD_001, 7, 0,
             b"total 100\nlow 0 high 100 steps 0 more\n"),
            ("C7", totals([1000] * 5), 0, 100, sure),
            # The end record follows a count and six hypotheses.
            ("C7, one more of 2", totals([1000] * 5 + [2]), 0, 100,
             b"refused 8 at 38\n"),
            ("C7, one more of 1", totals([1000] * 5 + [1]), 0, 100, sure),
            ("C8", boards.BOARD_C8, 4, 100,
             b"total 4\n2 0\nlow 2 high 4 steps 4 32\n"),
            ("C9", boards.BOARD_C9, 0, 100,
             b"total 1\n1\nlow 1 high 1 steps 2 done\n"),
            ("C10", boards.BOARD_C10, 0, 100,
             b"total 1\nlow 0 high 0 steps 1 done\n")):
        yield name, file_of(board), typed((atom,), allowance), text
    yield "C6", b"", typed((7,), 100), b"refused 1 at 0\n"


@section("board cases C1 to C11")
def board_cases(tally):
    file = file_of(boards.BOARD_001)
    tally.same("the 001 board's length", len(file), 103)
    table = loaded(boards.BOARD_001)
    for name, allowance, low, high in (("C2", 16, 42, 100),
                                       ("C3", 19, 60, 89),
                                       ("C4", 21, 60, 72),
                                       ("C5", 0, 0, 100)):
        tally.same(name, run_for(table, (7,), allowance)[1:],
                   (en.MORE, allowance, low, high))
    # "Leaving the high end uncapped: C2 would show 140."
    at_16 = run_for(table, (7,), 16).search
    tally.same("C2 uncapped", en.uncapped_end(at_16), 140)
    tally.same("C6", en.load(b""), (1, 0, en.Table(0, (), ())))
    for totals, wanted in (([1000] * 5, 0), ([1000] * 5 + [2], 8),
                           ([1000] * 5 + [1], 0)):
        answer = en.load(file_of(boards.board_with_totals(totals)))
        tally.same("C7 %r" % totals, answer.refusal, wanted)
    for name, board, atom, wanted in (
            ("C8", boards.BOARD_C8, 4, (32, 4, 2, 4)),
            ("C9", boards.BOARD_C9, 0, (en.DONE, 2, 1, 1)),
            ("C10", boards.BOARD_C10, 0, (en.DONE, 1, 0, 0))):
        tally.same(name, run_for(loaded(board), (atom,), 100)[1:], wanted)
    tally.same("C8, true weight",
               en.true_weight(loaded(boards.BOARD_C8), (4,)), 3)
    for name, file, keyed, wanted in documented_listings():
        tally.same(name + " listed", en.listing(file, keyed), wanted)
    search = run_for(table, (7,), 100).search
    tally.same("C11", en.share(table, search, 1), (0, 583))
    tally.same("share of line 4", en.share(table, search, 4), (0, 41))
    for number in (0, 5, 256, 257):
        tally.same("share of line %d" % number,
                   en.share(table, search, number), (36, None))
    tally.same("share before any line",
               en.share(table, opened(table, (7,)), 1), (36, None))


@section("yes-or-no and opening")
def yes_and_opening(tally):
    table = loaded(boards.BOARD_001)
    for state, atom, wanted in (
            ((0, 2), 7, (0, True)), ((0, 3), 7, (0, True)),
            ((1, 2), 5, (0, True)), ((1, 3), 7, (0, False)),
            ((1, 3), 1, (0, True)), ((1, 3), 0, (0, False)),
            ((0, 2), 8, (22, None)), ((0, 2), 255, (22, None)),
            ((0,), 7, (25, None)), ((), 7, (25, None)),
            ((0, 2, 2), 7, (25, None)), ((2, 0), 7, (25, None)),
            ((0, 1), 7, (25, None)), ((0, 5), 7, (25, None)),
            ((0, 200), 7, (25, None)), ((0, 1), 200, (25, None))):
        tally.same("yes-or-no %r %d" % (state, atom),
                   en.yes_or_no(table, state, atom), wanted)
    bare = loaded(boards.BOARD_C9)
    tally.same("no declaration", en.yes_or_no(bare, (), 0), (0, True))
    tally.same("a choice too many", en.yes_or_no(bare, (0,), 0), (25, None))

    for asked, wanted in (
            ((), 21), (tuple(range(8)), 0), (tuple(range(9)), 21),
            ((200,) * 9, 21), ((8,), 22), ((255,), 22), ((7, 8, 7), 22),
            ((3, 3), 23), ((4, 3), 23), ((0, 7, 5), 23), ((0,), 0)):
        entries = () if wanted else (en.Entry(100, (), asked),)
        tally.same("opening %r" % (asked,), en.open_search(table, asked),
                   (wanted, (entries, ())))
