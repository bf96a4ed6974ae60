"""The functions under C names: tests/firmware.c and examples/firmware.c,
linked to the archive, against the enumerator's answers."""

import os
from itertools import zip_longest
from typing import NamedTuple

import boards
import enumerator as en
from boards import file_of
from checks.cases import LISTED_001
from checks.compiled import (
    ARCHIVE, BUILT, EXAMPLE, FLAGS, TOP, archive_made, compiler, ran, succeeds)
from checks.tally import section, typed
from containers import boards_bin, runs_bin
from containers.acts import Open, Run
from replay import FILES

SOURCES = [os.path.join("tests", name) for name in (
    "firmware.c", "firmware/calls.c", "firmware/container.c",
    "firmware/searches.c")]
TEXT = 37203                # bytes that every listing fits into
FILE = 3334                 # bytes of a file that decide

# The sizes of the header, as document 01 has them, and those two.
SIZES = (b"atoms 128\ndeclarations 32\nrules 256\nbody 8\nasked 8\n"
         b"entries 512\nlines 256\nfile 3334\ntext 37203\n")


# Listings: items with a board file, an input and the room for the text.

class Item(NamedTuple):
    name: str
    file: bytes
    typed: bytes
    room: int = TEXT


def longest_board():
    """24 declarations of a sure hypothesis and 8 of two; each of the asked
    atoms follows from three of the sure ones and either of two: 256 lines of
    32 atoms.  Gives the board and the question."""
    sure, heads = range(80, 104), tuple(range(120, 128))
    either = [[(104 + 2 * i, 37), (105 + 2 * i, 37)] for i in range(8)]
    rules = [(head, (*sure[3 * i:3 * i + 3], atom))
             for i, head in enumerate(heads) for atom, _ in either[i]]
    return (128, [[(atom, 1)] for atom in sure] + either, rules), heads


def fixed_listings():
    """C1 to C10, questions and inputs that are refused, and short room."""
    c1 = file_of(boards.BOARD_001)
    for allowance in (100, 16, 19, 21, 0, 22, 23, 65535):
        yield Item("001 board, %d" % allowance, c1, typed((7,), allowance))
    yield Item("C6", b"", typed((7,), 100))
    for totals in ([1000] * 5, [1000] * 5 + [2], [1000] * 5 + [1]):
        yield Item("C7 %d" % len(totals),
                   file_of(boards.board_with_totals(totals)), typed((0,), 9))
    for name, board, atom in (("C8", boards.BOARD_C8, 4),
                              ("C9", boards.BOARD_C9, 0),
                              ("C10", boards.BOARD_C10, 0)):
        yield Item(name, file_of(board), typed((atom,), 100))
    for name, (board, asked) in (
            ("256 lines of 32 atoms", longest_board()),
            ("512 explanations", boards.product_board((16, 16, 2)))):
        yield Item(name, file_of(board), typed(asked, 65535))
    for keyed in ([], [1], [1, 7], [1, 7, 100], [1, 99, 100], [0], [0, 100, 0],
                  [255, 7, 100, 0], [9, *range(9), 100, 0], [1, 8, 100, 0],
                  [1, 255, 100, 0], [2, 7, 6, 100, 0], [2, 7, 7, 100, 0],
                  [2, 8, 7, 100, 0], [1, 7, 100, 0, 1, 2, 3]):
        yield Item("001 board, input %r" % keyed, c1, bytes(keyed))
        yield Item("no board, input %r" % keyed, c1[:-1], bytes(keyed))
    for room in (0, 1, 79, TEXT - 1, TEXT + 1, 65535):
        for name, file in (("001 board", c1), ("no board", c1[:9])):
            yield Item("%s, room %d" % (name, room), file, typed((7,), 100),
                       room)


def listing_items():
    """Those, all files of boards.bin, and the first runs of runs.bin."""
    yield from fixed_listings()
    for item in boards_bin.items():
        yield Item("boards.bin, " + item.name, item.file, typed((0,), 20))
    for item in runs_bin.items():
        opened, *rest = item.acts
        if (isinstance(opened, Open) and rest and isinstance(rest[0], Run)
                and rest[0].allowance <= 1000):
            yield Item("runs.bin, " + item.name, item.file,
                       typed(opened.asked, rest[0].allowance))


def listed(item):
    """What is printed of an item: how many bytes, and the bytes."""
    text = en.listing(item.file, item.typed) if item.room >= TEXT else b""
    return b"bytes %d\n" % len(text) + text


def listings_bin(items):
    """The container: file and input, each after its length in two bytes, and
    the room in two bytes, low byte first."""
    return b"".join(
        b"".join(len(part).to_bytes(2, "little") + part
                 for part in (item.file, item.typed))
        + item.room.to_bytes(2, "little") for item in items)


# What tests/firmware.c prints, against what it should.

def hold_lines(tally, what, wanted, *words):
    """The program prints these bytes, line by line."""
    status, got, said = ran(os.path.join(BUILT, "test"), *words)
    tally.true("%s: %s" % (what, said), status == 0)
    lines = zip_longest(got.split(b"\n"), wanted.split(b"\n"))
    for number, (line, right) in enumerate(lines, 1):
        tally.same("%s, line %d" % (what, number), line, right)


def replayed():
    """The lines of the program replay but those of records.bin: reading one
    record has no C name.  The first containers have a line for each item."""
    lines = en.file_bytes(os.path.join(
        TOP, "crates", "replay", "stdout")).splitlines(keepends=True)
    boards_and_states, records = (
        sum(len(FILES[name].items()) for name in names)
        for names in (("boards.bin", "states.bin"), ("records.bin",)))
    del lines[boards_and_states:boards_and_states + records]
    return b"".join(lines)


def hold_listings(tally):
    items = list(listing_items())
    container = os.path.join(BUILT, "listings.bin")
    with open(os.path.join(TOP, container), "wb") as handle:
        handle.write(listings_bin(items))
    wanted = [listed(item) for item in items]
    hold_lines(tally, "listings", b"".join(wanted), "listings", container)
    last = {text.split()[-1] for text in wanted if b"total" in text}
    tally.true("listings end in %r" % last,
               last >= {b"done", b"more", b"31", b"32", b"33"})
    met = {int(text.split()[3]) for text in wanted if b"refused" in text}
    tally.same("refused listings", met, {*range(1, 13), 21, 22, 23})
    longest = max(map(len, wanted))
    tally.true("a listing of some 31,000 bytes", longest > 31000)
    print("  %d listings, the longest of %d bytes" % (len(items), longest))


def hold_sizes(tally):
    """The sizes of the header; and files of which the last byte decides that
    need be read, the last place of a 257th rule."""
    before = file_of(boards.full_board(1))[:-1]
    items, wanted = [], [SIZES]
    for last, number in ((126, 12), (255, 12), (127, 11), (6, 9), (128, 4)):
        file = before + en.rule_record(127, (*range(7), last))
        tally.same("bytes of a file with a 257th rule", len(file), FILE)
        refused = b"refused %d at 3324\n" % number
        items.append(len(file).to_bytes(2, "little") + file)
        wanted.append(refused + b"refused 1 at 3324\n"
                      b"bytes %d\n%sbytes 0\n" % (len(refused), refused))
    container = os.path.join(BUILT, "sizes.bin")
    with open(os.path.join(TOP, container), "wb") as handle:
        handle.write(b"".join(items))
    hold_lines(tally, "sizes", b"".join(wanted), "sizes", container)


def hold_programs(tally, command):
    """tests/firmware.c and examples/firmware.c, linked to the archive."""
    built = [*command, "-std=c99", *FLAGS]
    if succeeds(tally, "tests/firmware.c", *built, *SOURCES, ARCHIVE, "-o",
                os.path.join(BUILT, "test")):
        hold_lines(tally, "replay", replayed(), "replay",
                   "crates/replay/data")
        hold_listings(tally)
        hold_sizes(tally)
    example = os.path.join(BUILT, "example")
    if succeeds(tally, EXAMPLE, *built, "-Iinclude", EXAMPLE, ARCHIVE, "-o",
                example):
        tally.same(EXAMPLE, ran(example), (0, LISTED_001, ""))


@section("the functions under C names")
def functions(tally):
    command = compiler("CC", "cc")
    if command is None:
        print("  no C compiler: the functions are not tried")
    elif archive_made(tally):
        hold_programs(tally, command)
