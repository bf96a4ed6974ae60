"""Items of tables.bin: board files, and what is set to what in the table.

After the file: a field's number in one byte (0 atoms, 1 hypotheses, 2 rules, 3
declaration, 4 atom, 5 weight, 6 head, 7 body), an index in two bytes and a
value in four.  The board file loads, and in its table that field, or of an
array the element at the index, is set to the value, which is reduced to what
the element has room for; an index that is not within the array sets nothing.
The line for an item is `table` if some file loads to what comes out, else `no
table`.
"""

import random
from functools import lru_cache
from typing import NamedTuple

import boards
from containers.arrays import (ATOM, ATOMS, BODY, DECLARATION, HEAD, HELD_IN,
                               HYPOTHESES, RULES, WEIGHT, Arrays,
                               loaded_arrays, some_file_loads_to, used_of,
                               with_value)
from containers.common import FAR
from random_boards import random_board, spread_over

TAIL = (1, 2, 4)
MOST = 250_000              # it has fewer bytes than this

TABLE, NO_TABLE = "table", "no table"


class Item(NamedTuple):
    name: str
    file: bytes
    field: int
    index: int
    value: int


def line(file, field, index, value):
    """ `table` or `no table` """
    arrays = with_value(loaded_arrays(file), field, index, value)
    return TABLE if some_file_loads_to(arrays) else NO_TABLE


def lines(*item):
    return [line(*item)]


def changes_of(title, board, *cases):
    """Items of one board.  A case has the field, the index and the values."""
    file = boards.file_of(board)
    number = 0
    for field, index, *values in cases:
        name = Arrays._fields[field]
        if field in HELD_IN:
            name += "[%d]" % index
        for value in values:
            number += 1
            yield Item("%s %d: %s = %d" % (title, number, name, value),
                       file, field, index, value)


def unchanged_cases(arrays):
    """Each field set to what it is, at the first and the last element in use,
    and at a room that is zero; a value that a byte has no room for is
    reduced, and an index past the array's end sets nothing."""
    for field in (ATOMS, HYPOTHESES, RULES):
        yield field, 0, arrays[field]
    for field, used in used_of(arrays).items():
        array = arrays[field]
        for index in sorted({0, max(used - 1, 0), len(array) - 1}):
            yield field, index, array[index]
        if HELD_IN[field] == 256:
            yield field, 0, array[0] + 256
            yield field, len(array) - 1, array[-1] + 2 ** 32 - 256
        for index in (len(array), 65535):
            yield field, index, 1


def room_cases(arrays):
    """ "all unused room zero": the first and the last unused element of each
    array made 1, and the last also as large as can be."""
    for field, used in used_of(arrays).items():
        last = len(arrays[field]) - 1
        if used <= last:
            yield field, used, 1
            yield field, last, 1, HELD_IN[field] - 1, 16777216


def count_cases(arrays):
    """The three counts.  The atoms may be any that are more than the highest
    in use, up to 128.  A hypothesis more would have weight 0, a rule more the
    body 0 0; one less would leave its weight or its places unused."""
    yield ATOMS, 0, *sorted({
        0, 1, 8, 9, 127, 128, 129, 255, 256, 264, 300, 65536, 2 ** 24,
        2 ** 31, FAR, arrays.atoms - 1, arrays.atoms + 1, arrays.atoms + 256})
    for field, most in ((HYPOTHESES, 128), (RULES, 256)):
        held = arrays[field]
        yield field, 0, *sorted({
            0, 1, held - 1, held + 1, held + 256, held + 65536, most - 1, most,
            most + 1, 2 * most, 2 ** 24, 2 ** 31, FAR} - {-1, held})


# No declaration: rules with no body, one and two body atoms; atom 0 and those
# from 5 on have no rule.
BOARD_BARE = (8, [], [(1, (0,)), (2, ()), (3, (2,)), (4, (2, 3)), (4, (0,)),
                      (2, ())])


def small_tables():
    """The counts, the room and no change, of small boards."""
    for title, board in (
            ("001 board", boards.BOARD_001), ("C8", boards.BOARD_C8),
            ("no declaration", BOARD_BARE), ("C10", boards.BOARD_C10)):
        arrays = loaded_arrays(boards.file_of(board))
        for what, cases in (("no change", unchanged_cases),
                            ("room", room_cases), ("counts", count_cases)):
            yield from changes_of("%s, %s" % (title, what), board,
                                  *cases(arrays))


def hypothesis_tables():
    """Single entries of hypotheses."""
    weights = (0, 1, 2, 255, 256, 65536, 16777214, 16777215, 16777216,
               16777217, 2 ** 25 - 1, 2 ** 31, FAR)
    for title, board, index in (
            ("001 board, weight 0", boards.BOARD_001, 0),
            ("001 board, weight 4", boards.BOARD_001, 4),
            ("C8, last weight", boards.BOARD_C8, 3)):
        yield from changes_of(title, board, (WEIGHT, index, *weights))
    # Declarations 0 0 1 1 1.
    yield from changes_of(
        "001 board, declaration", boards.BOARD_001,
        (DECLARATION, 0, 1, 255, 256), (DECLARATION, 1, 1, 2, 32, 255),
        (DECLARATION, 2, 0, 2, 257), (DECLARATION, 3, 0, 2),
        (DECLARATION, 4, 0, 2, 3, 31, 32, 33, 254, 255, 256, 258))
    # Declarations 0 to 31 and 31 again: 32 would be the next.
    board = (40, [[(d, 1)] for d in range(31)] + [[(31, 1), (32, 1)]], [])
    yield from changes_of(
        "32 declarations", board,
        (DECLARATION, 32, 31, 30, 32, 33), (DECLARATION, 31, 30, 32))
    # 16 and 17 in one declaration; the 17th has a declaration to itself.
    board = (20, [[(a, 1) for a in range(16)], [(16, 1), (17, 1)]], [])
    yield from changes_of(
        "16 hypotheses", board, (DECLARATION, 16, 0, 1),
        (DECLARATION, 15, 1), (DECLARATION, 17, 0, 2))
    board = (20, [[(a, 1) for a in range(15)], [(15, 1), (16, 1)]], [])
    yield from changes_of("15 hypotheses", board, (DECLARATION, 15, 0))
    # All atoms of the 001 board are in use, and 5, 6, 7 are heads.
    yield from changes_of(
        "001 board, atom", boards.BOARD_001, (ATOM, 0, *range(1, 10)),
        (ATOM, 4, 0, 3, 5, 7, 8, 127, 128, 255, 260))
    yield from changes_of("C8, atom", boards.BOARD_C8,
                          (ATOM, 1, 0, 2, 3, 4, 5))
    # Atoms that are left: any may be a hypothesis but those and the heads.
    board = (128, [[(0, 1), (1, 2)], [(100, 3)]], [(50, (0, 1))])
    yield from changes_of(
        "atoms left", board,
        (ATOM, 0, 1, 2, 49, 50, 51, 99, 100, 127, 128, 255, 257, 258),
        (ATOM, 2, 0, 1, 2))


def product_tables():
    """ "W ... at most 1,000,000,000,000,000", passed or not by a weight."""
    totals = boards.board_with_totals
    yield from changes_of(
        "five totals of 1000", totals([1000] * 5),
        (WEIGHT, 0, 999, 1001), (WEIGHT, 4, 1, 1001, 16777215, FAR))
    yield from changes_of(
        "five totals of 1000 and 1", totals([1000] * 5 + [1]),
        (WEIGHT, 5, 1, 2, 0))
    # 16,777,215^2 is 281,474,943,156,225, so 4 times that passes and 3 not.
    yield from changes_of(
        "largest weights", totals([16777215] * 2 + [1]),
        (WEIGHT, 2, 2, 3, 4, 65536, 131072))
    # 10^8 is 5 * 16,777,215 + 16,113,925.  With a declaration apart: 5 weights
    # and then 16,113,925 * 10^7.
    board = (7, [[(i, 16777215) for i in range(5)] + [(5, 16113925)],
                 [(6, 10000000)]], [])
    yield from changes_of(
        "sums", board, (WEIGHT, 5, 16113924, 16113926),
        (WEIGHT, 6, 9999999, 10000001), (DECLARATION, 5, 1))
    # W 2^64 and 2^65, of which the last 64 bits are 0.
    for factors, index, value in (([2 ** 12, 2 ** 16, 2 ** 16, 1], 3, 2 ** 20),
                                  ([2 ** 23, 2 ** 23, 1], 2, 2 ** 19)):
        yield from changes_of("powers of 2, %d" % value, totals(factors),
                              (WEIGHT, index, value, 1))


def rule_tables():
    """Single entries of rules."""
    # 7 from 0 5; 7 from 2 6; 6 from 5; 6 from 0 2; 5 from 0 3; 5 from 1 2;
    # 5 from 0 4.
    yield from changes_of(
        "001 board, head", boards.BOARD_001,
        (HEAD, 0, 0, 4, 5, 6, 8, 255, 262), (HEAD, 1, 5, 6), (HEAD, 2, 5, 7),
        (HEAD, 6, 0, 3, 4, 6, 7, 8, 127, 128, 255))
    yield from changes_of(
        "001 board, body", boards.BOARD_001,
        # 7 from 0 5.
        (BODY, 0, 1, 4, 5, 6, 255, 8),
        (BODY, 1, 0, 1, 6, 7, 8, 128, 254, 255, 256),
        (BODY, 2, 0, 4, 5, 6, 7, 8, 254), (BODY, 3, 6, 0),
        (BODY, 7, 6, 0, 254, 511),
        # 6 from 5.
        (BODY, 16, 0, 4, 6, 7, 255), (BODY, 17, 0, 5, 6),
        # 5 from 0 4, the last.
        (BODY, 48, 3, 4, 255), (BODY, 49, 3, 5, 6, 255), (BODY, 50, 0, 5),
        (BODY, 55, 0, 4))
    yield from changes_of(
        "C8, rules", boards.BOARD_C8, (HEAD, 1, 0, 3, 5),
        (BODY, 8, 0, 3, 4, 255), (BODY, 9, 0, 2, 3, 4))
    # 1 from 0; 2; 3 from 2; 4 from 2 3; 4 from 0; 2.
    yield from changes_of(
        "no declaration, rules", BOARD_BARE, (HEAD, 0, 0, 7, 8),
        (HEAD, 1, 0, 7, 8, 255), (HEAD, 3, 2, 3, 5),
        # An empty place turned 0: well where no place is filled.
        (BODY, 8, 0, 1, 2, 3), (BODY, 9, 0, 1), (BODY, 15, 0, 1),
        (BODY, 24, 0, 3, 255), (BODY, 25, 2, 255), (BODY, 40, 0, 2),
        (BODY, 47, 0))
    yield from changes_of(
        "C9, rules", boards.BOARD_C9, (BODY, 0, 0, 1, 255), (BODY, 7, 0, 255),
        (HEAD, 0, 1, 256), (ATOMS, 0, 0, 2, 128), (RULES, 0, 0, 2))
    # 8 body atoms, with room between them.
    body = (10, 20, 30, 40, 50, 60, 70, 80)
    near = [(BODY, place, *(atom + step for step in (-9, -10, 9, 10)
                            if atom + step))
            for place, atom in enumerate(body)]
    yield from changes_of(
        "8 body atoms", (128, [[(5, 1)]], [(90, body)]), *near,
        (BODY, 0, 0, 255), (BODY, 6, 255), (BODY, 7, 255, 127),
        (HEAD, 0, 5, 80, 81, 127, 128))


def full_tables():
    """No room left: 127 or 128 hypotheses, 256 rules; see `full_board`."""
    yield from changes_of(
        "full board", boards.full_board(7198646),
        (ATOMS, 0, 128, 127, 129, FAR),
        (HYPOTHESES, 0, 127, 126, 128, 129, FAR),
        (RULES, 0, 256, 0, 255, 257, FAR),
        (DECLARATION, 126, 31, 30, 32), (DECLARATION, 127, 1),
        (ATOM, 126, 126, 125, 127, 0, 128), (ATOM, 127, 1),
        (WEIGHT, 0, 7198646, 7198647, 7198645), (WEIGHT, 126, 0, 2),
        (WEIGHT, 127, 1), (HEAD, 255, 127, 126, 128), (HEAD, 256, 1),
        # The last body: 0 1 2 3 4 27 45 59.
        (BODY, 2040, 255), (BODY, 2046, 59, 58),
        (BODY, 2047, 59, 45, 126, 127, 255, 0), (BODY, 2048, 0))
    # 16 declarations of 8: W is 8^16, some 2.8 * 10^14.
    yield from changes_of(
        "128 hypotheses", boards.even_board(16, 8),
        (ATOMS, 0, 128, 127, 129), (HYPOTHESES, 0, 128, 127, 129, FAR),
        (RULES, 0, 1), (DECLARATION, 127, 15, 16, 14, 17),
        (ATOM, 127, 126, 0, 128), (WEIGHT, 127, 0, 20, 22), (HEAD, 0, 1),
        (BODY, 0, 255))


def random_tables():
    """Random boards with a random change, so many of each field and answer.
    With another count of hypotheses or rules there is no table."""
    rng = random.Random(20260108)
    of_each = {(field, answer): 16 for field in (ATOMS, *HELD_IN)
               for answer in (TABLE, NO_TABLE)}
    of_each.update({(field, NO_TABLE): 8 for field in (HYPOTHESES, RULES)})
    number = 0
    while sum(of_each.values()):
        file = boards.file_of(spread(rng, random_board(rng)))
        arrays = loaded_arrays(file)
        field = rng.choice((ATOMS, HYPOTHESES, RULES, *HELD_IN))
        index, value = random_change(rng, arrays, field)
        answer = line(file, field, index, value)
        if (of_each.get((field, answer), 0)
                and with_value(arrays, field, index, value) != arrays):
            of_each[field, answer] -= 1
            number += 1
            yield Item("random table %d" % number, file, field, index, value)


def spread(rng, board):
    """The board with its atoms further apart, so that some are left over."""
    return spread_over(rng, board, board[0] + rng.choice((0, 0, 1, 2, 5)))


def random_change(rng, arrays, field):
    """An index and a value near to what stands there or elsewhere."""
    if field not in HELD_IN:
        old = arrays[field]
        return 0, rng.choice((max(old - 1, 0), old + 1, old + 2, 0, 128, 129,
                              rng.randrange(140), rng.randrange(2 ** 32)))
    array = arrays[field]
    used = used_of(arrays)[field]
    index = rng.randrange(len(array)) if rng.random() < 0.1 or not used else (
        rng.randrange(used))
    old = array[index]
    near = [max(old - 1, 0), old + 1, old + 256, 0, 255,
            rng.choice(array[:used + 1]), rng.randrange(arrays.atoms + 2),
            rng.randrange(arrays.atoms + 2), rng.randrange(2 ** 32)]
    if field == WEIGHT:
        near += [rng.randrange(2 ** 24), 2 ** 24 + rng.randrange(2)]
    return index, rng.choice(near)


@lru_cache(maxsize=None)
def items():
    """All items, in order."""
    return (*small_tables(), *hypothesis_tables(), *product_tables(),
            *rule_tables(), *full_tables(), *random_tables())
