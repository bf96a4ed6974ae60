"""Searches to change, and items that hand in what comes out.

An opening and runs lead to a search; fields of it are set, and a run is over
what comes out.
"""

from functools import lru_cache
from typing import NamedTuple

import boards
import enumerator as en
from containers.acts import Item, Open, SetSearch, carried_out, runs
from containers.fields import ENTRIES, LINES, Fields, fields_of


class Base(NamedTuple):
    """A board and the acts that lead to a search."""
    title: str
    file: bytes
    acts: tuple
    table: object
    fields: Fields          # the search that they lead to


@lru_cache(maxsize=None)
def base_of(title, file, asked, *allowances):
    """The search after an opening and these runs."""
    acts = (Open(asked), *runs(*allowances))
    last = list(carried_out(file, acts))[-1]
    reached = "after " + " ".join(map(str, allowances))
    return Base("%s %s" % (title, reached if allowances else "opened"), file,
                acts, last.table, last.after)


@lru_cache(maxsize=None)
def bases():
    """Searches to change: few entries and many, few lines and many, atoms in
    both words, and one with nothing in it."""
    file_001 = boards.file_of(boards.BOARD_001)
    product, heads = boards.product_board((16, 16, 2))
    large = boards.file_of(product)
    board, asked = boards.spread_board()
    spread = boards.file_of(board)
    return {
        "opened": base_of("001 board", file_001, (7,)),
        "small": base_of("001 board", file_001, (7,), 16),
        "two lines": base_of("001 board", file_001, (7,), 19),
        "listed": base_of("001 board", file_001, (7,), 65535),
        "brimful": base_of("product", large, heads, 35),
        "stopped": base_of("product", large, heads, 65535),
        "wide": base_of("spread board", spread, asked, 500),
        "done": base_of("spread board", spread, asked, 65535),
    }


def differing(before, after):
    """What has to be set to come from these fields to those."""
    for number, (old, new) in enumerate(zip(before, after)):
        if isinstance(old, int):
            old, new = (old,), (new,)
        for index, (was, value) in enumerate(zip(old, new)):
            if was != value:
                yield SetSearch(number, index, value)


def changed(title, base, changes, *allowances):
    """An item with these changes, and runs over what comes out."""
    return Item("%s, %s" % (base.title, title), base.file,
                (*base.acts, *changes, *runs(*allowances or (2,))))


def handed(title, base, search, *allowances):
    """An item that hands in this search."""
    return changed(title, base,
                   tuple(differing(base.fields, fields_of(search))),
                   *allowances)


def set_to(base, field, index, *values):
    """Items in which one field is set to each of the values."""
    name = Fields._fields[field]
    if field not in (ENTRIES, LINES):
        name += "[%d]" % index
    for value in values:
        yield changed("%s = %d" % (name, value), base,
                      (SetSearch(field, index, value),))


def entries_of(table, *pairs):
    return tuple(en.new_entry(table, chosen, pending)
                 for chosen, pending in pairs)


def lines_of(table, *sets):
    return tuple(sorted((en.Line(en.set_weight(table, chosen), chosen)
                         for chosen in sets), key=en.line_order))
