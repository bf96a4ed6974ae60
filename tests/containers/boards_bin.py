"""Items of boards.bin: board files, whole and spoiled.

Nothing follows the board file.  The line for an item is `accepted W` or
`refused N at P`.
"""

import random
from functools import lru_cache
from typing import NamedTuple

import boards
import enumerator as en
from malformed import malformed_files
from random_boards import mutated, random_board

TAIL = ()
MOST = 250_000              # it has fewer bytes than this


class Item(NamedTuple):
    name: str
    file: bytes


def line(file):
    """ `accepted W` or `refused N at P` """
    return en.load_line(file)


def lines(*item):
    return [line(*item)]


def fixed_files():
    """The files that load, and those that are refused."""
    for name, file in boards.accepted_files():
        yield Item(name, file)
    for name, file, _ in malformed_files():
        yield Item(name, file)


def single_byte_files():
    """A file of one byte, for each byte."""
    for byte in range(256):
        yield Item("the byte %d alone" % byte, bytes([byte]))


def cut_files():
    """The 001 board cut to every length."""
    file = boards.file_of(boards.BOARD_001)
    for length in range(len(file) + 1):
        yield Item("001 board cut to %d" % length, file[:length])


def struck_files():
    """The 001 board with one byte replaced by 255, for each byte."""
    file = boards.file_of(boards.BOARD_001)
    for at in range(len(file)):
        yield Item("001 board, 255 at %d" % at,
                   file[:at] + bytes([255]) + file[at + 1:])


def spoiled_files():
    """Random boards, spoiled.  Of any answer only so many are taken, since
    most would be 2, 3 and 4; no file is taken twice."""
    rng = random.Random(20260105)
    of_each, wanted, large = 16, 160, 400
    sources = [file for _, file in boards.accepted_files()
               if len(file) <= large]
    taken, met = set(), {}
    while len(taken) < wanted:
        if rng.random() < 0.3:
            source = rng.choice(sources)
        else:
            source = boards.file_of(random_board(rng))
        file = mutated(rng, source)
        answer = en.load(file)
        if (len(file) <= large and file not in taken
                and met.get(answer.refusal, 0) < of_each):
            met[answer.refusal] = met.get(answer.refusal, 0) + 1
            taken.add(file)
            yield Item("spoiled board %d" % len(taken), file)


@lru_cache(maxsize=None)
def items():
    """All items, in order."""
    return (*fixed_files(), *single_byte_files(), *cut_files(),
            *struck_files(), *spoiled_files())
