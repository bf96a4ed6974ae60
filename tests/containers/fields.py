"""A search as it is handed in, in arrays: what it means, its sum, its lines.

The containers number these fields.  `crates/search` has their words in its
struct `Search`, the five of an entry together, and so has the C header: the
entry that goes first stands at the highest used index, the lines in their
order from index 0, a set of atoms is two words, and "all unused room zero".
"""

from functools import lru_cache
from typing import NamedTuple

import enumerator as en

WORD = 2 ** 64
ENTRY_ROOM, LINE_ROOM = 512, 256    # "at most 512 entries and 256 lines"


class Fields(NamedTuple):
    """Two counts and eight arrays of words."""
    entries: int
    lines: int
    weight: tuple           # those of the entries: 512 each
    chosen_low: tuple
    chosen_high: tuple
    pending_low: tuple
    pending_high: tuple
    line_weight: tuple      # those of the lines: 256 each
    line_low: tuple
    line_high: tuple


(ENTRIES, LINES, WEIGHT, CHOSEN_LOW, CHOSEN_HIGH, PENDING_LOW, PENDING_HIGH,
 LINE_WEIGHT, LINE_LOW, LINE_HIGH) = range(10)
OF_ENTRIES = (WEIGHT, CHOSEN_LOW, CHOSEN_HIGH, PENDING_LOW, PENDING_HIGH)
OF_LINES = (LINE_WEIGHT, LINE_LOW, LINE_HIGH)

# "the search whose every field is zero"
ZERO = Fields(0, 0, *((0,) * ENTRY_ROOM for _ in OF_ENTRIES),
              *((0,) * LINE_ROOM for _ in OF_LINES))


def words_of(atoms):
    """The two words of a set, "the sum of 2^atom", the low one first."""
    number = sum(2 ** atom for atom in atoms)
    return number % WORD, number // WORD


def atoms_of(low, high):
    """The set of two words, ascending."""
    digits = bin(low + WORD * high)[:1:-1]
    return tuple(atom for atom, digit in enumerate(digits) if digit == "1")


def column(values, room):
    """The values, and zeros up to the room."""
    return tuple(values) + (0,) * (room - len(values))


def fields_of(search):
    """The arrays of a search."""
    rows = [(entry.weight, *words_of(entry.chosen), *words_of(entry.pending))
            for entry in reversed(search.entries)]
    lines = [(line.weight, *words_of(line.chosen)) for line in search.lines]
    return Fields(
        len(rows), len(lines),
        *(column([row[i] for row in rows], ENTRY_ROOM) for i in range(5)),
        *(column([line[i] for line in lines], LINE_ROOM) for i in range(3)))


def with_word(fields, field, index, value):
    """The arrays with one field set, or one element of an array; an index past
    the array's end, or a field that is none, sets nothing."""
    if field >= len(fields):
        return fields
    if field not in (ENTRIES, LINES):
        array = fields[field]
        if index >= len(array):
            return fields
        value = array[:index] + (value,) + array[index + 1:]
    return fields._replace(**{Fields._fields[field]: value})


def room_fault(fields):
    """ "at most 512 entries and 256 lines, all unused room zero": what of it
    does not hold, or None."""
    if fields.entries > ENTRY_ROOM:
        return "too many entries"
    if fields.lines > LINE_ROOM:
        return "too many lines"
    if any(any(fields[field][fields.entries:]) for field in OF_ENTRIES):
        return "unused room of entries not zero"
    if any(any(fields[field][fields.lines:]) for field in OF_LINES):
        return "unused room of lines not zero"
    return None


def search_of(fields):
    """The search that the arrays hold in their used room."""
    entries, lines = [], []
    for i in reversed(range(fields.entries)):
        weight, *words = (fields[field][i] for field in OF_ENTRIES)
        entries.append(en.Entry(weight, atoms_of(*words[:2]),
                                atoms_of(*words[2:])))
    for i in range(fields.lines):
        weight, *words = (fields[field][i] for field in OF_LINES)
        lines.append(en.Line(weight, atoms_of(*words)))
    return en.Search(tuple(entries), tuple(lines))


@lru_cache(maxsize=64)          # asked again and again of one search
def faults(table, fields):
    """The clauses of "Well formed means" that the arrays break."""
    fault = room_fault(fields)
    if fault:
        return frozenset((fault,))
    return frozenset(en.broken_clauses(table, search_of(fields)))


def sums(fields):
    """Two sums over all words in the order of the fields, unused room too,
    both without what passes 64 bits: that of the words, and that of the first
    sum after each word."""
    sum_of_words = sum_of_sums = 0
    for field in fields:
        for word in (field,) if isinstance(field, int) else field:
            sum_of_words = (sum_of_words + word) % WORD
            sum_of_sums = (sum_of_sums + sum_of_words) % WORD
    return sum_of_words, sum_of_sums
