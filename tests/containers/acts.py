"""Items that are a board file and acts on its table, and what each act prints.

The acts stand after their length in two bytes.  The file is loaded, and the search is the one whose every field
is zero; then the acts follow, each a byte with its kind and what it needs,
numbers low byte first:

    1  open     a count in one byte, and so many atoms
    2  run      an allowance in two bytes
    3  share    a line's number in eight bytes
    4  set      a field's number in one byte, an index in two, a value in
                eight: sets a field of the search (see `fields`)
    5  set      the same for a field of the table (see `arrays`)
    6  true     goes through all board states and sums the weights of those in
                which the question last opened holds

The first line of an item is `board` or `refused N at P`.  An opening prints
`open` or `open refused N`, a run `done`, `more` or `refused N` and then `steps
N low N high N`; both then print the search that they leave:

    entries N lines N sum A B
    line W A A ..
    entry W A A .. pending A A ..

with the sums of `fields.sums`, the lines in their order and the entries, the
first one first.  More than 16 lines are not printed, nor more than 16 entries;
the sums stand for them.  A share prints `share N` or `share refused N`, the
true weight `true W`, or `states too many` of more than 4,096.
"""

from functools import lru_cache
from math import prod
from typing import NamedTuple

import enumerator as en
from containers.arrays import (Arrays, arrays_of, file_of_arrays,
                               some_file_loads_to, with_value)
from containers.common import PART, Form, refused
from containers.fields import (ZERO, faults, fields_of, search_of, sums,
                               with_word)

MOST_PRINTED = 16
MOST_STATES = 4096


class Open(NamedTuple):
    asked: tuple


class Run(NamedTuple):
    allowance: int


class Share(NamedTuple):
    line: int


class SetSearch(NamedTuple):
    field: int
    index: int
    value: int


class SetTable(NamedTuple):
    field: int
    index: int
    value: int


class TrueWeight(NamedTuple):
    pass


KINDS = {1: Open, 2: Run, 3: Share, 4: SetSearch, 5: SetTable, 6: TrueWeight}
NUMBERS = {Run: (2,), Share: (8,), SetSearch: (1, 2, 8), SetTable: (1, 2, 8),
           TrueWeight: ()}


class Item(NamedTuple):
    name: str
    file: bytes
    acts: tuple


def runs(*allowances):
    """A run for each of the allowances."""
    return tuple(Run(allowance) for allowance in allowances)


# How acts are written and read.

def act_bytes(act):
    """The bytes of an act."""
    kind = next(kind for kind in KINDS if KINDS[kind] is type(act))
    if isinstance(act, Open):
        return bytes([kind, len(act.asked), *act.asked])
    return bytes([kind]) + b"".join(
        number.to_bytes(size, "little")
        for number, size in zip(act, NUMBERS[type(act)]))


def acts_in(script):
    """The acts that the bytes are."""
    place = 0
    while place < len(script):
        act = KINDS[script[place]]
        place += 1
        if act is Open:
            count = script[place]
            yield Open(tuple(script[place + 1:place + 1 + count]))
            place += 1 + count
            continue
        numbers = []
        for size in NUMBERS[act]:
            numbers.append(int.from_bytes(script[place:place + size],
                                          "little"))
            place += size
        yield act(*numbers)
    if place != len(script):
        raise ValueError("the acts stop within an act")


TAIL = (Form(lambda acts: PART.put(b"".join(map(act_bytes, acts))),
             lambda take: tuple(acts_in(PART.taken(take)))),)


# What acts do.

# "A refused load returns the table whose every field is zero."
NO_BOARD = Arrays(0, 0, 0, *((0,) * 128,) * 3, (0,) * 256, (0,) * 2048)


@lru_cache(maxsize=None)
def table_in(arrays):
    """The table in the arrays; None if no file loads to it, which is 20."""
    if not some_file_loads_to(arrays):
        return None
    return en.load(file_of_arrays(arrays)).table


def opening(table, asked):
    """ "Opening checks 20 to 23 in that order." """
    if table is None:
        return 20, ZERO
    answer = en.open_search(table, asked)
    return answer.refusal, fields_of(answer.search)


@lru_cache(maxsize=256)         # many items begin with the same runs
def run(table, fields, allowance):
    """ "A run checks 20, 34, then steps"; "with 20 or 34 that is the one
    handed in, and its steps and ends are given as 0" """
    if table is None:
        return en.RunAnswer(fields, 20, 0, 0, 0)
    if faults(table, fields):
        return en.RunAnswer(fields, 34, 0, 0, 0)
    answer = en.run_well_formed(table, search_of(fields), allowance)
    return answer._replace(search=fields_of(answer.search))


def share(table, fields, line):
    """ "the share 20, 34, 36" """
    if table is None:
        return en.ShareAnswer(20, None)
    if faults(table, fields):
        return en.ShareAnswer(34, None)
    return en.share_well_formed(search_of(fields), line)


def true_weight(table, asked):
    """ "Its true weight is the sum over board states in which it holds."  None
    where the board states are too many.  Asked only of a table that a file
    loads to."""
    if table is None:
        raise ValueError("the true weight over a table that no file loads to")
    if prod(map(len, table.declarations)) > MOST_STATES:
        return None
    return en.true_weight(table, asked)


class Done(NamedTuple):
    """What an act was done with, what it answered and what it left."""
    act: object
    table: object           # a Table, or None
    before: object          # Fields
    answer: object
    after: object           # Fields


def carried_out(file, acts):
    """The acts one by one, with what they answer.  The first is None, whose
    answer is that of loading."""
    loaded = en.load(file)
    arrays = NO_BOARD if loaded.refusal else arrays_of(loaded.table)
    fields, asked = ZERO, ()
    yield Done(None, None, fields, loaded, fields)
    for act in acts:
        before, answer = fields, None
        if isinstance(act, SetTable):
            arrays = with_value(arrays, *act)
        table = table_in(arrays)
        if isinstance(act, Open):
            asked = act.asked
            answer, fields = opening(table, asked)
        elif isinstance(act, Run):
            answer = run(table, fields, act.allowance)
            fields = answer.search
        elif isinstance(act, Share):
            answer = share(table, fields, act.line)
        elif isinstance(act, TrueWeight):
            answer = true_weight(table, asked)
        elif isinstance(act, SetSearch):
            fields = with_word(fields, *act)
        yield Done(act, table, before, answer, fields)


# What acts print.

def search_lines(fields):
    """The lines of a search."""
    lines = ["entries %d lines %d sum %d %d" % (
        fields.entries, fields.lines, *sums(fields))]
    few = fields._replace(
        entries=fields.entries if fields.entries <= MOST_PRINTED else 0,
        lines=fields.lines if fields.lines <= MOST_PRINTED else 0)
    held = search_of(few)
    lines += [" ".join(map(str, ("line", line.weight, *line.chosen)))
              for line in held.lines]
    lines += [" ".join(map(str, ("entry", entry.weight, *entry.chosen,
                                 "pending", *entry.pending)))
              for entry in held.entries]
    return lines


def act_lines(done):
    """The lines of one act."""
    answer = done.answer
    if done.act is None:
        if answer.refusal:
            return [refused(answer.refusal, answer.place)]
        return ["board"]
    if isinstance(done.act, Open):
        return ["open " + refused(answer) if answer else "open",
                *search_lines(done.after)]
    if isinstance(done.act, Run):
        word = answer.answer
        if isinstance(word, int):
            word = refused(word)
        return ["%s steps %d low %d high %d" % (
            word, answer.steps, answer.low, answer.high),
            *search_lines(done.after)]
    if isinstance(done.act, Share):
        return ["share " + (refused(answer.refusal) if answer.refusal
                            else str(answer.share))]
    if isinstance(done.act, TrueWeight):
        return ["states too many" if answer is None else "true %d" % answer]
    return []


def lines_of(done):
    """The lines of acts carried out."""
    return [line for one in done for line in act_lines(one)]


def lines(file, acts):
    """The lines of an item."""
    return lines_of(carried_out(file, acts))
