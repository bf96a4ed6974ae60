"""Searches that break one clause of "Well formed means", or hardly do not.

Clause by clause: changes after which a run is refused with 34, and beside them
some of the same kind that leave the search well formed.
"""

from functools import lru_cache

import boards
import enumerator as en
from containers.bases import (base_of, bases, changed, entries_of, handed,
                              lines_of, set_to)
from containers.fields import (ENTRIES, LINE_WEIGHT, LINES, OF_ENTRIES,
                               OF_LINES, WEIGHT, WORD, search_of)

FAR = (2 ** 16, 2 ** 32, 2 ** 63, WORD - 1)


def counts():
    """ "at most 512 entries and 256 lines".  A smaller count leaves room that
    is not zero, a larger one takes zeros for an entry or a line."""
    for name in ("small", "brimful", "stopped"):
        base = bases()[name]
        entries, lines = base.fields.entries, base.fields.lines
        yield from set_to(base, ENTRIES, 0, *sorted({
            0, entries - 1, entries, entries + 1, 511, 512, 513, 514, 1024,
            *FAR, entries + 2 ** 32}))
        yield from set_to(base, LINES, 0, *sorted({
            0, max(lines - 1, 0), lines, lines + 1, 255, 256, 257, 258, 512,
            *FAR, lines + 2 ** 32}))


def unused_room():
    """ "all unused room zero": the first unused element of each array, the
    last, and one between; an index past the end sets nothing."""
    for name in ("opened", "two lines", "listed", "stopped", "wide"):
        base = bases()[name]
        for field in (*OF_ENTRIES, *OF_LINES):
            used = base.fields.entries if field in OF_ENTRIES else (
                base.fields.lines)
            last = len(base.fields[field]) - 1
            if used > last:
                continue
            yield from set_to(base, field, used, 1)
            yield from set_to(base, field, last, WORD - 1)
            if name in ("opened", "listed"):
                yield from set_to(base, field, (used + last) // 2, 2 ** 63)
                yield from set_to(base, field, last + 1, 1)


def with_entry(search, at, entry):
    """The search with this entry in place of the one at `at`."""
    return search._replace(
        entries=search.entries[:at] + (entry,) + search.entries[at + 1:])


def atoms():
    """ "every atom below the count": one pending more, in the first entry,
    which goes before the others all the more; one in D or in a line."""
    small = bases()["small"]
    search = search_of(small.fields)
    first = search.entries[0]
    for atom in (4, 6, 7, 8, 9, 31, 62, 63, 64, 65, 126, 127):
        yield handed("pending %d too" % atom, small, with_entry(
            search, 0, first._replace(pending=(*first.pending, atom))))
    for atom in (8, 63, 64, 127):
        yield handed("%d in D too" % atom, small, with_entry(
            search, 4, search.entries[4]._replace(chosen=(4, atom))))
        yield handed("%d in a line too" % atom, small, search._replace(
            lines=(en.Line(42, (1, 2, atom)),)))
    # Counts near the words' limit: the atom at the count is the first not
    # below it.
    for count in (62, 63, 64, 65, 66, 100, 127, 128):
        board = (count, [[(0, 1), (1, 2)]], [(count - 1, (0,))])
        base = base_of("%d atoms" % count, boards.file_of(board),
                       (count - 1,))
        for atom in sorted({count - 2, count, 63, 64, 127} & set(range(128))):
            yield handed("pending %d too" % atom, base, en.Search((en.Entry(
                3, (), tuple(sorted({atom, count - 1}))),), ()))


def only_entry(base, weight, chosen, pending=()):
    """A search of one entry."""
    return en.Search((en.Entry(weight, chosen, pending),), ())


def choices():
    """ "at most one choice per declaration, of that declaration": two of one,
    with each weight that it might be taken to have, and choices that are
    none, which leave the weight as it is."""
    base = bases()["opened"]
    for chosen, weights in (
            ((0, 1), (21 * 10, 30, 70, 100, 210, 21, 10)),
            ((2, 3), (18 * 10, 60, 30, 100)), ((2, 3, 4), (18 * 10, 60, 10)),
            ((0, 1, 2), (3 * 7 * 6, 18, 42, 60)),
            ((0, 1, 2, 3, 4), (3 * 7 * 6 * 3, 100)),
            ((5,), (100,)), ((6,), (100,)), ((7,), (100,)),
            ((0, 5), (30,)), ((2, 6), (60,)), ((1, 2, 7), (42,)),
            ((5, 6, 7), (100,))):
        shown = " ".join(map(str, chosen))
        for weight in dict.fromkeys(weights):
            yield handed("one entry %s weighs %d" % (shown, weight), base,
                         only_entry(base, weight, chosen))
        yield handed("one entry %s, more pending" % shown, base,
                     only_entry(base, weights[0], chosen, (0, 7)))
        yield handed("one line %s" % shown, base,
                     en.Search((), (en.Line(weights[0], chosen),)))


def weights():
    """ "every weight as defined": the first entry and line heavier, the last
    lighter, so that the order stays; one in the middle; words of weights."""
    for name in ("small", "two lines", "wide", "stopped", "brimful"):
        base = bases()[name]
        fields = base.fields
        for field, used in ((WEIGHT, fields.entries),
                            (LINE_WEIGHT, fields.lines)):
            if not used:
                continue
            # The entry that goes first stands at the highest used index.
            first, last = (used - 1, 0) if field == WEIGHT else (0, used - 1)
            yield from set_to(base, field, first, fields[field][first] + 1)
            yield from set_to(base, field, last, fields[field][last] - 1)
            yield from set_to(base, field, used // 2,
                              fields[field][used // 2] + 2 ** 32)
        yield from set_to(base, WEIGHT, 1, 0, WORD - 1)
    base = bases()["opened"]
    for chosen, weight in (((), 10), ((), 1), ((), 99), ((0,), 3), ((0,), 70),
                           ((0, 2), 180), ((1, 4), 70), ((4,), 1)):
        yield handed("one entry %s weighs %d" % (
            " ".join(map(str, chosen)) or "empty", weight), base,
            only_entry(base, weight, chosen, (7,)))
        yield handed("one line %s weighs %d" % (
            " ".join(map(str, chosen)) or "empty", weight), base,
            en.Search((), (en.Line(weight, chosen),)))


# Four sure hypotheses, 0, 1, 64 and 65, and two of weight 1 and 2: sets that
# weigh the same, in both words.
BOARD_TIED = (128, [[(0, 1)], [(64, 1)], [(1, 1)], [(65, 1)],
                    [(2, 1), (66, 2)], [(3, 1), (67, 1)]],
              [(127, (0, 2)), (127, (64, 66)), (126, (3,)), (126, (67,)),
               (125, (1, 65))])


@lru_cache(maxsize=None)
def tied_base():
    return base_of("equal weights", boards.file_of(BOARD_TIED), (126, 127))


# Pairs of an entry that goes before and one right after it.
PAIRS = (
    # by weight
    (((), (0,)), ((66,), (127,))), (((66,), (0,)), ((2,), (127,))),
    # by size
    (((), (0,)), ((0,), (127,))), (((65,), ()), ((0, 1), (127,))),
    (((66,), ()), ((0, 66), (1, 2))), (((0, 1, 64), ()), ((0, 1, 64, 65), ())),
    # by dictionary
    (((0,), ()), ((1,), (127,))), (((1,), ()), ((64,), (127,))),
    (((64,), ()), ((65,), (127,))), (((0, 65), ()), ((1, 64), (127,))),
    (((0, 64), ()), ((0, 65), (127,))), (((0, 1), ()), ((0, 64), (5,))),
    (((1, 64), ()), ((1, 65), ())), (((3,), (0,)), ((67,), (1,))),
    # by pending
    (((), (127,)), ((), (126,))), (((0,), (64,)), ((0,), (0, 1, 63))),
    (((65,), (1,)), ((65,), (0,))), (((65,), (0,)), ((65,), ())),
    (((0, 1), (2, 64)), ((0, 1), (1, 64))), (((), (5, 64)), ((), (64,))),
    (((2,), (63, 65)), ((2,), (62, 65))), (((), (0, 1, 2)), ((), (0, 2))))


def orders():
    """ "entries and lines each in strict order": pairs of entries in order,
    exchanged, and one of them twice; lines exchanged and doubled."""
    base = tied_base()
    for number, pair in enumerate(PAIRS, 1):
        before, after = entries_of(base.table, *pair)
        for title, entries in (("in order", (before, after)),
                               ("exchanged", (after, before)),
                               ("doubled", (before, before, after))):
            yield handed("pair %d %s" % (number, title), base,
                         en.Search(entries, ()), 1)
    for name in ("two lines", "wide", "brimful", "stopped"):
        base = bases()[name]
        search = search_of(base.fields)
        held = search.entries
        for at in sorted({0, len(held) // 2, len(held) - 2}):
            yield handed("entries %d and %d exchanged" % (at, at + 1), base,
                         search._replace(entries=exchanged(held, at)))
            yield handed("entry %d in place of the next" % at, base,
                         search._replace(entries=doubled(held, at)))
    for name in ("two lines", "listed", "stopped", "done"):
        base = bases()[name]
        search = search_of(base.fields)
        lines = search.lines
        for at in sorted({0, len(lines) // 2 - 1, len(lines) - 2}):
            yield handed("lines %d and %d exchanged" % (at, at + 1), base,
                         search._replace(lines=exchanged(lines, at)))
            yield handed("line %d in place of the next" % at, base,
                         search._replace(lines=doubled(lines, at)))


def exchanged(row, at):
    return (*row[:at], row[at + 1], row[at], *row[at + 2:])


def doubled(row, at):
    return (*row[:at + 1], row[at], *row[at + 2:])


def compatible_lines():
    """ "any two lines are not compatible", in order but compatible; and some
    that are not compatible."""
    for base, choices_of_lines in (
            (bases()["opened"], (
                ((0,), (2,)), ((1,), (1, 2)), ((), (0,)), ((0, 2), (1, 2)),
                ((1, 2), (2,)), ((0, 2), (0, 3), (1,)), ((1, 2), (0, 3)),
                ((1, 2), (0, 2), (0, 3), (0, 4)), ((1, 2), (0, 2), (3,)),
                ((1, 2), (0, 2), (4,), (0, 3)), ((1,), (0, 3), (4,)),
                ((), (1, 2)), ((1, 2), (0,), (1, 3), (1, 4)))),
            (tied_base(), (
                ((2,), (66,)), ((2, 3), (66,)), ((2, 3), (66, 67)),
                ((0,), (1,)), ((0, 64), (1, 65)), ((66,), (67,)),
                ((2, 3), (2, 67), (66,)), ((2, 3), (2, 67), (66, 67)),
                ((2, 67), (3, 66), (0, 1)), ((0, 2), (0, 66), (3,))))):
        for sets in choices_of_lines:
            shown = ", ".join(" ".join(map(str, chosen)) or "empty"
                              for chosen in sets)
            yield handed("lines %s" % shown, base,
                         en.Search((), lines_of(base.table, *sets)))
    # The first of 256 lines with a choice less, so heavier, and compatible
    # with others.
    for name in ("stopped", "done"):
        base = bases()[name]
        search = search_of(base.fields)
        whole = search.lines[0].chosen
        for chosen in ((), whole[:1], whole[1:], whole[:-1]):
            yield handed("the first line is %r" % (chosen,), base,
                         search._replace(lines=(
                             *lines_of(base.table, chosen),
                             *search.lines[1:])))


def lines_and_entries():
    """ "each line, taken as an entry with nothing pending, goes before every
    entry held": by weight, size, dictionary and pending, not so, or just."""
    base = tied_base()
    for lines, entry in (
            (((66,),), ((), ())), (((66,),), ((0,), (127,))),
            (((66,),), ((66,), ())), (((66,),), ((66,), (0,))),
            (((66,),), ((66,), (127,))), (((66,),), ((0, 66), (127,))),
            (((66,),), ((2,), (127,))), (((0, 66),), ((66,), ())),
            (((1, 66),), ((0, 66), ())), (((0, 66),), ((1, 66), ())),
            (((2,),), ((66,), ())),
            (((65, 66),), ((64, 66), ())), (((64, 66),), ((65, 66), ())),
            (((66,), (2,)), ((66,), ())), (((66,), (2,)), ((2,), ())),
            (((66,), (2,)), ((2,), (0,))), (((66,), (2,)), ((0, 2), (0,))),
            (((66,), (2,)), ((3,), ())), (((66,), (2,)), ((3, 66), (2,))),
            (((66, 67), (2, 67)), ((2, 3), ())),
            (((66, 67), (2, 67)), ((2, 67), (3,))),
            (((3, 66), (2, 67)), ((66, 67), ()))):
        search = en.Search(entries_of(base.table, entry),
                           lines_of(base.table, *lines))
        yield handed("lines %r, entry %r" % (lines, entry), base, search, 3)
    for name in ("small", "two lines", "stopped"):
        base = bases()[name]
        search = search_of(base.fields)
        heavy = en.new_entry(base.table, (), (0,))
        yield handed("a heavy entry before the others", base,
                     search._replace(entries=(heavy, *search.entries[:511])))
        as_entry = en.Entry(*search.lines[-1], ())
        yield handed("the last line as an entry", base, search._replace(
            entries=(as_entry, *search.entries)))
        yield handed("the last line as an entry, unlisted", base,
                     search._replace(entries=(as_entry, *search.entries),
                                     lines=search.lines[:-1]), 1, 65535)


def broken_clauses():
    """All of these, in order."""
    return (*counts(), *unused_room(), *atoms(), *choices(), *weights(),
            *orders(), *compatible_lines(), *lines_and_entries())
