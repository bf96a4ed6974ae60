"""The listing program, as function and as command."""

import os
import random
import re
import subprocess
import sys
import tempfile

import boards
import enumerator as en
from boards import file_of
from checks.cases import LISTED_001
from checks.tally import TESTS, section, typed
from random_boards import (mutated, random_board, random_bytes,
                           random_question)

LISTING_LINE = re.compile(
    rb"\A(refused [0-9]+( at [0-9]+)?\n"
    rb"|total [0-9]+\n([0-9]+( [0-9]+)*\n)*"
    rb"low [0-9]+ high [0-9]+ steps [0-9]+ (done|more|31|32|33)\n)\Z")


@section("the listing program, fixed inputs")
def listing_fixed(tally):
    file = file_of(boards.BOARD_001)
    at_22 = LISTED_001.replace(b"3 0 4\n", b"").replace(
        b"low 72 high 72 steps 23 done", b"low 69 high 72 steps 22 more")
    for wanted, given, inputs in (
            # A file that will not open; "the question is not looked at".
            (b"refused 1 at 0\n", None, ([1, 7, 100, 0], [])),
            (b"refused 1 at 102\n", file[:-1], ([1, 7, 100, 0], [9])),
            (b"refused 3 at 103\n", file + b"\0", ([9],)),
            # Too short for its count and allowance; a count of 0, of 9.
            (b"refused 21\n", file, (
                [], [1], [1, 7], [1, 7, 100], [1, 99, 100], [255, 7, 100, 0],
                [0], [0, 100, 0], [9, *range(9), 100, 0])),
            (b"refused 22\n", file, ([1, 8, 100, 0],)),
            (b"refused 23\n", file, ([2, 7, 6, 100, 0], [2, 7, 7, 100, 0])),
            # "input beyond the allowance is ignored"
            (LISTED_001, file, (
                [1, 7, 100, 0, 1, 2, 3], [1, 7, 0, 1], [1, 7, 255, 255],
                [1, 7, 23, 0])),
            (at_22, file, ([1, 7, 22, 0],))):
        for keyed in inputs:
            tally.same("listing for %r" % keyed,
                       en.listing(given, bytes(keyed)), wanted)


@section("the listing program, random boards")
def listing_random(tally):
    rng = random.Random(20260104)
    kinds = {"refused file": 0, "refused question": 0, "listed": 0}
    for number in range(800):
        file = file_of(random_board(rng))
        if rng.random() < 0.3:
            file = mutated(rng, file)
        answer = en.load(file)
        if rng.random() < 0.3 or answer.refusal:
            keyed = random_bytes(rng, rng.randrange(8))
        else:
            keyed = typed(random_question(rng, answer.table),
                          rng.choice((0, 1, 5, 30, 300, 65535)))
            keyed += random_bytes(rng, rng.randrange(3))
        out = en.listing(file, keyed)
        tally.true("listing %d has the stated form" % number,
                   LISTING_LINE.match(out))
        if answer.refusal:
            kinds["refused file"] += 1
            tally.same("listing %d" % number, out, b"refused %d at %d\n"
                       % (answer.refusal, answer.place))
        elif out.startswith(b"refused"):
            kinds["refused question"] += 1
            tally.true("listing %d: a question's number" % number,
                       out in (b"refused 21\n", b"refused 22\n",
                               b"refused 23\n"))
        else:
            kinds["listed"] += 1
            count = keyed[0]
            asked = tuple(keyed[1:1 + count])
            minimal = en.minimal_explanations(answer.table, asked)
            listed = out.split(b"\n")[1:-2]
            tally.same("listing %d: lines" % number, listed,
                       [" ".join(map(str, (line.weight,) + line.chosen))
                        .encode() for line in minimal[:len(listed)]])
    for name, count in kinds.items():
        tally.true("listings met: %s" % name, count > 0)


@section("the command line")
def command_line(tally):
    script = os.path.join(TESTS, "enumerator.py")

    def called(arguments, keyed, folder):
        return subprocess.run([sys.executable, "-B", script] + arguments,
                              input=keyed, stdout=subprocess.PIPE,
                              cwd=folder, timeout=20, check=False).stdout

    with tempfile.TemporaryDirectory() as folder:
        with open(os.path.join(folder, "board.pha"), "wb") as handle:
            handle.write(file_of(boards.BOARD_001))
        with open(os.path.join(folder, "cut.pha"), "wb") as handle:
            handle.write(file_of(boards.BOARD_001)[:40])
        tally.same("listing", called(
            ["listing", "board.pha"], bytes([1, 7, 100, 0]), folder),
            LISTED_001)
        tally.same("listing without a file", called(
            ["listing", "none.pha"], bytes([1, 7, 100, 0]), folder),
            b"refused 1 at 0\n")
        tally.same("load", called(
            ["load", "board.pha", "cut.pha", "none.pha"], b"", folder),
            b"accepted 100\nrefused 1 at 32\nrefused 1 at 0\n")
    # The command on the example that ships with the project.
    example = os.path.join(os.path.dirname(TESTS), "examples", "001")
    with open(os.path.join(example, "input"), "rb") as handle:
        tally.same("listing of examples/001", called(
            ["listing", "board.pha"], handle.read(), example), LISTED_001)
