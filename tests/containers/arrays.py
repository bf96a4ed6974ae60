"""A table as it is handed in, in arrays, and whether some file loads to it.

"20 | table | a table handed in that no file loads to"
"""

from functools import lru_cache
from typing import NamedTuple

import enumerator as en
from containers.common import body_places


class Arrays(NamedTuple):
    """ "The table keeps the records' order", so it is the file without its
    kind bytes.  A count, and an array for each field of a hypothesis or of a
    rule; room past a count is zero."""
    atoms: int
    hypotheses: int
    rules: int
    declaration: tuple      # 128, of a byte each
    atom: tuple             # 128, of a byte each
    weight: tuple           # 128, of four bytes each
    head: tuple             # 256, of a byte each
    body: tuple             # 2048, of a byte each, 8 a rule, 255 if empty


ATOMS, HYPOTHESES, RULES, DECLARATION, ATOM, WEIGHT, HEAD, BODY = range(8)
HELD_IN = {DECLARATION: 256, ATOM: 256, WEIGHT: 2 ** 32, HEAD: 256, BODY: 256}


def with_room(entries, length):
    """The entries, and zeros up to the length."""
    return tuple(entries) + (0,) * (length - len(entries))


@lru_cache(maxsize=None)
def arrays_of(table):
    """The arrays of a table that was loaded."""
    hypotheses = [(number, atom, weight)
                  for number, declaration in enumerate(table.declarations)
                  for atom, weight in declaration]
    return Arrays(
        table.atom_count, len(hypotheses), len(table.rules),
        *(with_room([hypothesis[i] for hypothesis in hypotheses],
                    en.MAX_ATOMS) for i in range(3)),
        with_room([head for head, _ in table.rules], en.MAX_RULES),
        with_room([place for _, body in table.rules
                   for place in body_places(body)],
                  en.MAX_BODY * en.MAX_RULES))


def used_of(arrays):
    """How many elements of each array are in use."""
    return {DECLARATION: arrays.hypotheses, ATOM: arrays.hypotheses,
            WEIGHT: arrays.hypotheses, HEAD: arrays.rules,
            BODY: en.MAX_BODY * arrays.rules}


def with_value(arrays, field, index, value):
    """The arrays with one field set, or one element of an array."""
    if field in HELD_IN:
        array = arrays[field]
        if index >= len(array):
            return arrays
        value = array[:index] + (value % HELD_IN[field],) + array[index + 1:]
    return arrays._replace(**{Arrays._fields[field]: value})


def file_of_arrays(arrays):
    """The file of which these arrays are all but the kind bytes, or None if an
    entry does not fit its bytes or a count its array.  There is no other: the
    arrays say every byte of it."""
    if (arrays.atoms > 255 or arrays.hypotheses > len(arrays.atom)
            or arrays.rules > len(arrays.head)
            or max(arrays.weight[:arrays.hypotheses], default=0) >= 2 ** 24):
        return None
    parts = [en.atoms_record(arrays.atoms)]
    for i in range(arrays.hypotheses):
        parts.append(en.hypothesis_record(
            arrays.declaration[i], arrays.atom[i], arrays.weight[i]))
    for i in range(arrays.rules):
        first = en.MAX_BODY * i
        parts.append(en.rule_record(
            arrays.head[i], arrays.body[first:first + en.MAX_BODY]))
    return b"".join(parts + [en.end_record()])


@lru_cache(maxsize=None)
def loaded_arrays(file):
    """What a file loads to, None if it is refused."""
    loaded = en.load(file)
    return None if loaded.refusal else arrays_of(loaded.table)


def some_file_loads_to(arrays):
    """The contrary of 20."""
    file = file_of_arrays(arrays)
    return file is not None and loaded_arrays(file) == arrays
