"""Items of records.bin: board files, and a place at which a record is read.

The place has four bytes.  The line for an item is that of the record there,
`count N next P`, `hypothesis D A W next P`, `rule H P1 .. P8 next P` (255 for
an empty place) or `end next P`, P the place of the next; or `refused N at P`.
"""

import random
from functools import lru_cache
from typing import NamedTuple

import boards
import enumerator as en
from containers.common import FAR, refused
from random_boards import random_bytes

TAIL = (4,)
MOST = 120_000              # it has fewer bytes than this


class Item(NamedTuple):
    name: str
    file: bytes
    place: int


def line(file, place):
    """The line of the record at the place."""
    answer = en.read_record(file, place)
    if answer.refusal:
        return refused(answer.refusal, answer.place)
    kind, body = answer.record
    if kind == en.HYPOTHESIS:
        fields = body[0], body[1], int.from_bytes(body[2:], "little")
    else:
        fields = body
    word = {en.ATOMS: "count", en.HYPOTHESIS: "hypothesis", en.RULE: "rule",
            en.END: "end"}[kind]
    return " ".join(map(str, (word, *fields, "next", answer.place)))


def lines(*item):
    return [line(*item)]


def read_at(title, file, places):
    """Items of one file."""
    for place in places:
        yield Item("%s, place %d" % (title, place), file, place)


def board_001_records():
    """Every place of the 001 board, and a few past its end."""
    yield from read_at("001 board", boards.file_of(boards.BOARD_001),
                       range(107))


def far_records():
    """ "a place past the file's end taken as the file's length" """
    for place in (200, 255, 256, 358, 359, 65535, 65536, 65638, 65639, 2 ** 24,
                  2 ** 31 - 1, 2 ** 31, 2 ** 31 + 32, FAR - 103, FAR - 1, FAR):
        yield Item("001 board, far place %d" % place,
                   boards.file_of(boards.BOARD_001), place)
    yield from read_at("the empty file", b"", (0, 1, 2, 256, 65536, FAR))
    for byte in (0, 1, 4, 255):
        yield from read_at("the byte %d alone" % byte, bytes([byte]),
                           (1, 2, 256, FAR))


def single_byte_records():
    """A file of one byte, for each byte."""
    for byte in range(256):
        yield Item("the byte %d alone" % byte, bytes([byte]), 0)


def cut_records():
    """A record of each kind, cut to every length, alone and after bytes that
    are no kind.  Whole, it ends the file or has a byte after it."""
    weight = 9 + 8 * 256 + 7 * 65536
    for kind, record in (("count", en.atoms_record(6)),
                         ("hypothesis", en.hypothesis_record(5, 6, weight)),
                         ("rule", en.rule_record(77, range(11, 19))),
                         ("end", en.end_record())):
        for place in (0, 3, 300):
            for length in range(len(record) + 2):
                yield Item("%s at %d cut to %d" % (kind, place, length),
                           bytes(place) + (record + b"\2")[:length], place)


def unchecked_records():
    """Fields that loading would refuse: reading does not look at them."""
    records = [en.atoms_record(count)
               for count in (0, 1, 4, 127, 128, 129, 254, 255)]
    records += [en.hypothesis_record(*fields) for fields in (
        (0, 0, 0), (31, 127, 1), (32, 128, 16777215), (255, 255, 0),
        (255, 0, 1), (0, 255, 1), (1, 2, 3), (2, 1, 4), (254, 253, 252))]
    # Each byte of the weight distinct: 1 is the low byte of 197121.
    records += [en.hypothesis_record(7, 9, weight) for weight in (
        1 + 2 * 256 + 3 * 65536, 3 + 2 * 256 + 1 * 65536,
        2 + 3 * 256 + 1 * 65536, 255 + 128 * 256 + 1 * 65536,
        1 + 255 * 256 + 128 * 65536, 128 + 1 * 256 + 255 * 65536,
        255, 255 * 256, 255 * 65536, 256, 65536, 16777214)]
    records += [en.rule_record(head, body) for head, body in (
        (9, (1, 2, 3, 4, 5, 6, 7, 8)), (9, (8, 7, 6, 5, 4, 3, 2, 1)),
        (200, (10, 20, 30, 40, 50, 60, 70, 80)),
        (100, (254, 3, 253, 2, 252, 1, 251, 0)),
        (0, (128, 129, 130, 131, 132, 133, 134, 135)),
        (255, (255,) * 8), (0, (0,) * 8), (255, (0,) * 8), (0, ()),
        (127, (126,)), (3, (3,)), (4, (5, 6)), (7, (255, 1)),
        (7, (255,) * 7 + (1,)), (7, (1,) + (255,) * 6 + (2,)),
        (7, (1, 2, 3, 4, 5, 6, 7, 255)), (7, (255, 1, 2, 3, 4, 5, 6, 7)),
        (1, (2, 2, 2, 2, 3, 3, 3, 3)))]
    for number, record in enumerate(records, 1):
        yield Item("unchecked %d: %s" % (number, line(record, 0)), record, 0)


def order_records():
    """Records where loading would find them misplaced, in a file that is none:
    end, rule, hypothesis, count, end.  Then those of the full board, which has
    127 hypotheses and 256 rules, so ends at 3324."""
    yield from read_at("no board", (
        en.end_record() + en.rule_record(2, (5,))
        + en.hypothesis_record(9, 8, 70000) + en.atoms_record(0)
        + en.end_record()), (0, 1, 11, 17, 19, 20))
    yield from read_at("full board",
                       boards.file_of(boards.full_board(7198646)),
                       (2, 8, 758, 764, 3314, 3324, 3325, 3326, FAR))


def random_records():
    """Random bytes at random places: at half of the places any byte, at the
    other half a kind.  Some places are past the end."""
    rng = random.Random(20260107)
    for number in range(1, 161):
        file = bytearray(random_bytes(rng, rng.randrange(40)))
        place = rng.randrange(len(file) + 1)
        if rng.random() < 0.5 and place < len(file):
            file[place] = rng.choice((1, 2, 2, 3, 3, 3, 4))
        if rng.random() < 0.05:
            place = rng.choice((rng.randrange(2 ** 32), len(file) + 256))
        yield Item("random bytes %d" % number, bytes(file), place)


@lru_cache(maxsize=None)
def items():
    """All items, in order."""
    return (*board_001_records(), *far_records(), *single_byte_records(),
            *cut_records(), *unchecked_records(), *order_records(),
            *random_records())
