"""Stores and lists of full size, and searches that are handed in."""

import boards
import enumerator as en
from checks.demand3 import Truth, hold_run, hold_sequence
from checks.tally import loaded, run_for, section


def hold_whole(tally, what, sizes, more_rules, wanted):
    """A run to its end over a product board.  Gives the truth and the run."""
    board, heads = boards.product_board(sizes, more_rules)
    truth = Truth(loaded(board), heads)
    ran = run_for(truth.table, heads, 65535)
    tally.same(what, ran[1:], wanted)
    hold_run(tally, what, truth, ran, en.Limits())
    return truth, ran


@section("full-size stores and lists")
def full_size(tally):
    limits = en.Limits()
    # 512 explanations: the store is filled to the last place, the list
    # passes 256.  Expanded from the highest head down, the declarations of
    # 16, 16 and 2 cost 1 + 2 + 32 steps, of 2, 16 and 16 1 + 16 + 256 and of
    # 16, 2 and 16 1 + 16 + 32; then 512 entries take 3 hypotheses each, and
    # 256 lines are listed.
    for sizes, opening_steps in (((16, 16, 2), 35), ((2, 16, 16), 273),
                                 ((16, 2, 16), 49)):
        what = "%r" % (sizes,)
        truth, _ = hold_whole(tally, what, sizes, (), (
            33, opening_steps + 3 * 512 + 256, 256, 512))
        tally.same(what + ": explanations", len(truth.minimal), 512)
        tally.same(what + ": true weight", truth.weight, 512)
        filled = run_for(truth.table, truth.asked, opening_steps)
        tally.same(what + ": store filled", len(filled.search.entries), 512)
        hold_run(tally, what + " filled", truth, filled, limits)
        hold_sequence(tally, what + " in parts", truth,
                      [0, 30, 5, 700, 1100, 1, 0, 65535, 3], limits, {})

    # A repeated rule gives equal entries, counted once: still 33.
    hold_whole(tally, "repeated rule", (16, 16, 2), [(34, (0,))], (
        33, 35 + 1536 + 256, 256, 512))
    # One more rule for the atom expanded last: 30 of the 32 entries give 17
    # each, which makes 512; the next would make 511 + 17.
    _, ran = hold_whole(tally, "a 17th body", (16, 16, 2), [(34, (0, 1))], (
        31, 3 + 30, 0, 512))
    tally.same("a 17th body: store", len(ran.search.entries), 512)
    # 768 explanations pass the store: 1 + 3 steps make 48 entries; from
    # there each step adds 15 to the store, and 48 + 15 n is at most 512 up
    # to n = 30.
    truth, ran = hold_whole(tally, "768 explanations", (16, 16, 3), (), (
        31, 4 + 30, 0, 768))
    tally.same("768 explanations: store", len(ran.search.entries), 498)
    hold_sequence(tally, "768 in parts", truth, [4, 29, 1, 0, 1, 65535],
                  limits, {})
    # 256 explanations fill the list and end the search.
    truth, ran = hold_whole(tally, "256 explanations", (16, 16), (), (
        en.DONE, 1 + 16 + 512 + 256, 256, 256))
    for number, wanted in ((256, (0, 3)), (257, (36, None))):
        tally.same("share of line %d" % number,
                   en.share(truth.table, ran.search, number), wanted)


@section("equal weights, and small limits")
def small_limits(tally):
    # "Breaking equal weights by age, so that a set with a sure hypothesis
    # more is listed before its own subset."
    ran = run_for(loaded(boards.BOARD_SURE), (3,), 100)
    tally.same("sure hypothesis: lines", ran.search.lines, ((2, (1,)),))
    tally.same("sure hypothesis", ran[1:], (en.DONE, 6, 2, 2))
    # 32 goes before 33, and 33 comes with the line after the last.
    for name, board, atom, limits, wanted in (
            ("32 before 33", boards.BOARD_C8, 4, (8, 1), (32, 4, 2, 4)),
            ("one line too many", boards.BOARD_EITHER, 2, (8, 1),
             (33, 4, 1, 2)),
            ("room for two lines", boards.BOARD_EITHER, 2, (2, 2),
             (en.DONE, 5, 2, 2)),
            ("room for one entry", boards.BOARD_EITHER, 2, (1, 2),
             (31, 0, 0, 2))):
        ran = run_for(loaded(board), (atom,), 100, en.Limits(*limits))
        tally.same(name, ran[1:], wanted)


@section("searches that are not well formed")
def not_well_formed(tally):
    table = loaded(boards.BOARD_001)
    good = run_for(table, (7,), 19).search
    entries, lines = good.entries, good.lines
    tally.same("a good one", en.broken_clause(table, good), None)
    entry, line = en.Entry, en.Line
    spoiled = [
        ("entries exchanged", (entries[1], entries[0]) + entries[2:], lines),
        ("an entry twice", (entries[0],) + entries, lines),
        ("lines exchanged", entries, (lines[1], lines[0])),
        ("a line twice", entries, lines + lines[-1:]),
        ("a wrong weight", (), (line(43, (1, 2)),)),
        ("a wrong entry weight", (entry(9, (0, 2), (7,)),), ()),
        ("a pending atom too high", (entry(100, (), (8,)),), ()),
        ("a choice that is none", (entry(100, (5,), ()),), ()),
        ("two choices in one", (entry(210, (0, 1), ()),), ()),
        ("compatible lines", (), (line(70, (1,)), line(42, (1, 2)))),
        ("a line behind an entry", (entry(100, (), (7,)),), lines),
        ("a line as an entry", (entry(18, (0, 2), ()),), lines[1:]),
        ("a line with more pending", (entry(18, (0, 2), (0,)),), lines[1:]),
    ]
    for name, held, listed in spoiled:
        search = en.Search(tuple(held), tuple(listed))
        tally.true(name, en.broken_clause(table, search) is not None)
        tally.same(name + ": run", en.run(table, search, 5),
                   (search, 34, 0, 0, 0))
        tally.same(name + ": share", en.share(table, search, 1), (34, None))
    tally.true("too many entries", en.broken_clause(
        table, good, en.Limits(len(entries) - 1, 256)) is not None)
    tally.true("too many lines", en.broken_clause(
        table, good, en.Limits(512, 1)) is not None)
    tally.same("just room enough", en.broken_clause(
        table, good, en.Limits(len(entries), 2)), None)
    tally.same("a search with nothing in it",
               en.run(table, en.empty_search(), 9),
               (en.empty_search(), en.DONE, 0, 0, 0))


@section("steps from searches handed in")
def steps_handed_in(tally):
    """Single steps by hand.  In a search that opening and runs lead to, an
    atom of D is never pending again: all that is pending lies below it.  A
    search handed in may still have it so."""
    table = loaded(boards.BOARD_001)
    entry, line = en.Entry, en.Line
    for name, entries, lines, wanted, limits in (
            ("already in D", [entry(30, (0,), (0,))], [],
             (0, [entry(30, (0,), ())], []), en.Limits(1, 1)),
            ("already in D, and the outcome held",
             [entry(30, (0,), (0,)), entry(30, (0,), ())], [],
             (0, [entry(30, (0,), ())], []), en.Limits()),
            ("D chose another", [entry(30, (0,), (1,))], [],
             (0, [], []), en.Limits()),
            ("declaration untouched", [entry(30, (0,), (2,))], [],
             (0, [entry(18, (0, 2), ())], []), en.Limits(1, 1)),
            ("highest pending atom", [entry(100, (), (0, 2, 5))], [],
             (0, [entry(100, (), (0, 2, 4)), entry(100, (), (0, 2, 3)),
                  entry(100, (), (0, 1, 2))], []), en.Limits(3, 1)),
            ("no room for three", [entry(100, (), (0, 2, 5))], [],
             (31, [entry(100, (), (0, 2, 5))], []), en.Limits(2, 1)),
            ("the outcome of a rule held",
             [entry(100, (), (0, 5)), entry(100, (), (0, 3))], [],
             (0, [entry(100, (), (0, 4)), entry(100, (), (0, 3)),
                  entry(100, (), (0, 1, 2))], []), en.Limits(3, 1)),
            ("two rules", [entry(100, (), (7,))], [],
             (0, [entry(100, (), (2, 6)), entry(100, (), (0, 5))], []),
             en.Limits()),
            ("contains a listed set, finished",
             [entry(42, (1, 2), ())], [line(70, (1,))],
             (0, [], [line(70, (1,))]), en.Limits(1, 1)),
            ("contains a listed set, something pending",
             [entry(42, (1, 2), (7,))], [line(70, (1,))],
             (0, [], [line(70, (1,))]), en.Limits(1, 1)),
            ("overlap", [entry(60, (2,), ())], [line(70, (1,))],
             (32, [entry(60, (2,), ())], [line(70, (1,))]), en.Limits(1, 1)),
            ("listed", [entry(30, (0,), ())], [line(42, (1, 2))],
             (0, [], [line(42, (1, 2)), line(30, (0,))]), en.Limits(1, 2)),
            ("list full", [entry(30, (0,), ())], [line(42, (1, 2))],
             (33, [entry(30, (0,), ())], [line(42, (1, 2))]),
             en.Limits(1, 1))):
        search = en.Search(tuple(entries), tuple(lines))
        tally.same(name + ": well formed",
                   en.broken_clause(table, search, limits), None)
        refusal, held, listed = wanted
        tally.same(name, en.step(table, search, limits),
                   (refusal, (tuple(held), tuple(listed))))
        ran = en.run(table, search, 1, limits)
        tally.same(name + ": run", (ran.search, ran.steps),
                   ((tuple(held), tuple(listed)), 0 if refusal else 1))
        tally.same(name + ": answer", ran.answer, refusal or (
            en.MORE if held else en.DONE))
