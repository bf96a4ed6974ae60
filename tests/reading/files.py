"""The board file: writing one, reading one record, loading."""

from typing import NamedTuple

from reading.tables import (MAX_ATOMS, MAX_BODY, MAX_DECLARATIONS,
                            MAX_HYPOTHESES, MAX_RULES, MAX_W, Table,
                            empty_table, whole_weight)

EMPTY_PLACE = 255

# Kinds of record, and how many bytes the body of each has.
ATOMS, HYPOTHESIS, RULE, END = 1, 2, 3, 4
BODY_BYTES = {ATOMS: 1, HYPOTHESIS: 5, RULE: 9, END: 0}


def atoms_record(atom_count):
    """ "1 | 1 | atom count; the first record, once" """
    return bytes([ATOMS, atom_count])


def hypothesis_record(declaration, atom, weight):
    """ "2 | 5 | declaration, atom, weight in 3 bytes, low byte first" """
    return (bytes([HYPOTHESIS, declaration, atom])
            + weight.to_bytes(3, "little"))


def rule_record(head, body):
    """ "3 | 9 | head, then 8 places for body atoms; 255 is an empty place"

    The body is written as it comes and filled up with 255, so a body with a
    255 in its midst, or one out of order, can be written on purpose.
    """
    places = list(body) + [EMPTY_PLACE] * (MAX_BODY - len(body))
    if len(places) != MAX_BODY:
        raise ValueError("a rule record has room for 8 body atoms")
    return bytes([RULE, head] + places)


def end_record():
    """ "4 | 0 | end; nothing follows" """
    return bytes([END])


def build_file(atom_count, declarations, rules):
    """Write a board file: "Each record is one byte of kind, then a body."

    "All kind 2 records precede all kind 3 records.  Declaration numbers begin
    at 0".  Nothing is tested here: what is wrong in the structure is wrong in
    the file, and loading finds it.
    """
    parts = [atoms_record(atom_count)]
    for number, declaration in enumerate(declarations):
        for atom, weight in declaration:
            parts.append(hypothesis_record(number, atom, weight))
    for head, body in rules:
        parts.append(rule_record(head, body))
    parts.append(end_record())
    return b"".join(parts)


def file_of_table(table):
    """The file that `build_file` writes for a table."""
    return build_file(*table.fields())


class Record(NamedTuple):
    kind: int
    body: bytes


class ReadAnswer(NamedTuple):
    """refusal 0: the record, and place is the place of the next record;
    refusal 1 or 2: no record, and place is the place of the refusal."""
    refusal: int
    place: int
    record: object


def read_record(file, place):
    """ "Reading one record gives the record and the place of the next, or
    refusal 1 or 2 and its place, a place past the file's end taken as the
    file's length"

    "The place is the record's first byte, or the file's length if no byte is
    left."
    """
    place = min(place, len(file))
    if place == len(file):
        return ReadAnswer(1, place, None)
    kind = file[place]
    if kind not in BODY_BYTES:
        return ReadAnswer(2, place, None)
    after = place + 1 + BODY_BYTES[kind]
    if after > len(file):
        return ReadAnswer(1, place, None)
    return ReadAnswer(0, after, Record(kind, bytes(file[place + 1:after])))


class LoadAnswer(NamedTuple):
    """refusal 0: accepted, place None; else the refusal, its place and the
    table whose every field is zero."""
    refusal: int
    place: object
    table: Table


def is_misplaced(kind, seen):
    """ "3 | misplaced | first record not kind 1, a second kind 1, kind 2 after
    kind 3, a byte after the end"

    `seen` has the kinds of the records before.  A byte after the end is
    tested in `load`, since it needs no known kind.
    """
    if not seen:
        return kind != ATOMS
    return kind == ATOMS or (kind == HYPOTHESIS and RULE in seen)


def fault_in_atoms(body):
    """ "4 | atom | count 0 or over 128" """
    return 4 if body[0] == 0 or body[0] > MAX_ATOMS else 0


def fault_in_hypothesis(body, atom_count, declarations):
    """The field checks of a kind 2 record "in ascending number":

    "4 | atom | ... an atom (255 in a body place excepted) not below the count"
    "5 | declaration | number over 31, or not the last one or the next"
    "6 | hypothesis | atom already a hypothesis, or the 17th in its
    declaration"
    "7 | weight | weight 0"
    """
    number, atom, weight = body[0], body[1], int.from_bytes(body[2:], "little")
    next_number = len(declarations)
    last_number = next_number - 1           # -1 if there is none yet
    if atom >= atom_count:
        return 4
    if number >= MAX_DECLARATIONS or number not in (last_number, next_number):
        return 5
    if any(atom == other for decl in declarations for other, _ in decl):
        return 6
    if number == last_number and len(declarations[number]) == MAX_HYPOTHESES:
        return 6
    if weight == 0:
        return 7
    return 0


def filled_places(body):
    """ "head, then 8 places for body atoms; 255 is an empty place" """
    return tuple(place for place in body[1:] if place != EMPTY_PLACE)


def fault_in_rule(body, atom_count, declarations, rules):
    """The field checks of a kind 3 record "in ascending number":

    "4 | atom | ... an atom (255 in a body place excepted) not below the count"
    "9 | body | a filled place after an empty one, or not strictly ascending"
    "10 | head | head is a hypothesis"
    "11 | level | a body atom not below the head"
    "12 | rules | the 257th rule"
    """
    head, filled = body[0], filled_places(body)
    if head >= atom_count or any(atom >= atom_count for atom in filled):
        return 4
    if tuple(body[1:1 + len(filled)]) != filled:
        return 9
    if any(low >= high for low, high in zip(filled, filled[1:])):
        return 9
    if any(head == atom for decl in declarations for atom, _ in decl):
        return 10
    if any(atom >= head for atom in filled):
        return 11
    if len(rules) == MAX_RULES:
        return 12
    return 0


def fault_in_end(atom_count, declarations, rules):
    """ "8 | product | W would pass 1,000,000,000,000,000"
    "Refusal 8 is checked at the end record." """
    table = Table(atom_count, declarations, rules)
    return 8 if whole_weight(table) > MAX_W else 0


def refused_load(number, place):
    """ "A refused load returns the table whose every field is zero." """
    return LoadAnswer(number, place, empty_table())


def load(file):
    """ "Order in loading, at one record: no byte left, 1; unknown kind, 2;
    wrong place, 3; body too short, 1; then the field checks in ascending
    number.  A byte after the end record is 3, even if its kind is unknown.
    The first failing record decides.  Refusal 8 is checked at the end record.
    The place is the record's first byte, or the file's length if no byte is
    left." """
    atom_count, declarations, rules = 0, [], []
    seen = set()
    place = 0
    while True:
        if place == len(file):
            return refused_load(1, place)
        kind = file[place]
        if kind not in BODY_BYTES:
            return refused_load(2, place)
        if is_misplaced(kind, seen):
            return refused_load(3, place)
        answer = read_record(file, place)
        if answer.refusal:
            return refused_load(answer.refusal, answer.place)
        body = answer.record.body

        if kind == ATOMS:
            fault = fault_in_atoms(body)
        elif kind == HYPOTHESIS:
            fault = fault_in_hypothesis(body, atom_count, declarations)
        elif kind == RULE:
            fault = fault_in_rule(body, atom_count, declarations, rules)
        else:
            fault = fault_in_end(atom_count, declarations, rules)
        if fault:
            return refused_load(fault, place)

        seen.add(kind)
        place = answer.place
        if kind == ATOMS:
            atom_count = body[0]
        elif kind == HYPOTHESIS:
            if body[0] == len(declarations):
                declarations.append([])
            weight = int.from_bytes(body[2:], "little")
            declarations[body[0]].append((body[1], weight))
        elif kind == RULE:
            rules.append((body[0], filled_places(body)))
        else:
            if place < len(file):
                return refused_load(3, place)
            return LoadAnswer(0, None, Table(atom_count, declarations, rules))
