"""Items of handed.bin: searches handed in.

An opening and runs lead to a search, fields of it are set, and a run is over
what comes out: refused with 34, clause by clause of "Well formed means" (see
`clauses`), or, where the search is well formed all the same, taken.
"""

import random
from functools import lru_cache

import boards
import enumerator as en
from containers.acts import TAIL, lines  # noqa: F401
from containers.acts import SetSearch
from containers.bases import base_of, bases, changed, differing, handed
from containers.clauses import broken_clauses
from containers.fields import (ENTRIES, LINE_WEIGHT, LINES, OF_ENTRIES,
                               OF_LINES, WEIGHT, fields_of, search_of)
from random_boards import (random_board, random_question, random_search,
                           spread_over)

MOST = 260_000              # it has fewer bytes than this


def single_steps():
    """Well formed, and not what runs lead to: an atom of D pending again,
    another choice pending, lines that are no explanations."""
    base = bases()["opened"]
    entry, line = en.Entry, en.Line
    for title, entries, lines in (
            ("already in D", [entry(30, (0,), (0,))], []),
            ("already in D, and the outcome held",
             [entry(30, (0,), (0,)), entry(30, (0,), ())], []),
            ("D chose another", [entry(30, (0,), (1,))], []),
            ("declaration untouched", [entry(30, (0,), (2,))], []),
            ("highest pending atom", [entry(100, (), (0, 2, 5))], []),
            ("the outcome of a rule held",
             [entry(100, (), (0, 5)), entry(100, (), (0, 3))], []),
            ("two rules", [entry(100, (), (7,))], []),
            ("contains a listed set, finished",
             [entry(42, (1, 2), ())], [line(70, (1,))]),
            ("contains a listed set, something pending",
             [entry(42, (1, 2), (7,))], [line(70, (1,))]),
            ("overlap", [entry(60, (2,), ())], [line(70, (1,))]),
            ("overlap with the second line",
             [entry(10, (4,), ())], [line(70, (1,)), line(18, (0, 2))]),
            ("overlap, and another pending",
             [entry(60, (2,), (0,))], [line(70, (1,))]),
            ("listed", [entry(30, (0,), ())], [line(42, (1, 2))]),
            ("the empty set listed", [entry(42, (1, 2), ())], [line(100, ())]),
            ("the empty set finished", [entry(100, (), ())], []),
            ("all pending", [entry(100, (), tuple(range(8)))], []),
            ("nothing", [], [])):
        yield handed(title, base, en.Search(tuple(entries), tuple(lines)),
                     1, 1, 65535)


def shortened():
    """Well formed with one entry or line less, or with an entry more."""
    for name in ("small", "two lines", "listed", "brimful", "stopped",
                 "wide", "done"):
        base = bases()[name]
        search = search_of(base.fields)
        held, lines = search
        # Of many, those after which few stand in the arrays.
        of_entries, of_lines = (0, 1, 2), (len(lines) - 1, len(lines) - 2)
        if len(held) + len(lines) < 9:
            of_entries, of_lines = range(len(held)), range(len(lines))
        for at in of_entries if held else ():
            yield handed("without entry %d" % at, base, search._replace(
                entries=held[:at] + held[at + 1:]), 5)
        for at in of_lines if lines else ():
            yield handed("without line %d" % at, base, search._replace(
                lines=lines[:at] + lines[at + 1:]), 5, 65535)
        # One more at the front, where there are few lines.
        if held and not lines:
            more = en.new_entry(base.table, (), (0, 1, 2, 3))
            if len(held) < 512 and en.entry_order(more) < en.entry_order(
                    held[0]):
                yield handed("one entry more", base, search._replace(
                    entries=(more, *held)), 1, 65535)


def random_handed():
    """Random searches over random boards, some spread over both words, well
    formed, run to their end; and such with one word changed."""
    rng = random.Random(20261104)
    for number in range(1, 181):
        board = random_board(rng)
        if number > 120:
            board = spread_over(rng, board, rng.choice((64, 65, 100, 128)))
        file = boards.file_of(board)
        table = en.load(file).table
        base = base_of("random board %d" % number, file,
                       random_question(rng, table))
        search = random_search(rng, table)
        if number % 2:
            yield handed("a random search", base, search,
                         rng.choice((1, 2, 5)), 65535)
            continue
        wanted = fields_of(search)
        yield changed("a random change", base, (
            *differing(base.fields, wanted), random_word(rng, wanted)), 3)


def random_word(rng, fields):
    """One word of the used room, or right after it, changed a little."""
    field = rng.choice((ENTRIES, LINES, *OF_ENTRIES, *OF_LINES))
    if field in (ENTRIES, LINES):
        return SetSearch(field, 0, max(0, fields[field] + rng.choice(
            (-1, 1, 1, 2))))
    used = fields.entries if field in OF_ENTRIES else fields.lines
    index = rng.randrange(used + 1)
    old = fields[field][index]
    if field in (WEIGHT, LINE_WEIGHT):
        return SetSearch(field, index, max(0, old + rng.choice((-1, 1))))
    return SetSearch(field, index, old ^ (1 << rng.choice(
        (0, 1, 2, 3, 4, 5, 6, 7, 8, rng.randrange(64)))))


@lru_cache(maxsize=None)
def items():
    """All items, in order."""
    return (*broken_clauses(), *single_steps(), *shortened(),
            *random_handed())
