#!/usr/bin/env python3
"""The enumerator: a second, separately written reading of document 01.

It is meant to be slow and plain.  Where document 01 defines something by
"all" or "no other", it tries all of them.  It shares no code with anything it
is compared to, and needs only the standard library.

    python3 enumerator.py listing BOARDFILE < input    prints the listing
    python3 enumerator.py load FILE...                 prints one line a file

The sections of document 01 are modules of `reading`, whose names can all be
had from here; the listing and the commands follow below.
"""

import sys
from typing import NamedTuple

sys.dont_write_bytecode = True

from reading.tables import *  # noqa: E402,F401,F403
from reading.files import *  # noqa: E402,F401,F403
from reading.explanations import *  # noqa: E402,F401,F403
from reading.search import *  # noqa: E402,F401,F403


class Question(NamedTuple):
    asked: tuple
    allowance: int


def read_question(typed):
    """ "from standard input a count byte, the atoms and a two-byte allowance,
    low byte first"; "input beyond the allowance is ignored".

    None if the input is "too short for its count and allowance".
    """
    if len(typed) < 1 or len(typed) < 1 + typed[0] + 2:
        return None
    count = typed[0]
    return Question(tuple(typed[1:1 + count]),
                    typed[1 + count] + 256 * typed[2 + count])


def listing(file, typed, limits=Limits()):
    """The bytes that the listing program prints; `file` is None if the file
    will not open.

    "Every line ends in a line feed, and single blanks stand only between its
    parts.  The first line is W.  Each further line is a weight and the set's
    atoms, ascending.  The last has the ends, the steps of this run, then done,
    more or the refusal's number.  A refused file prints only `refused`, the
    number, `at`, the place, and the question is not looked at; a refused
    question prints only `refused` and the number.  A file that will not open
    counts as empty; input beyond the allowance is ignored; input too short for
    its count and allowance is refused with 21."
    """
    loaded = load(b"" if file is None else file)
    if loaded.refusal:
        return printed([("refused", loaded.refusal, "at", loaded.place)])
    question = read_question(typed)
    if question is None:
        return printed([("refused", 21)])
    table = loaded.table
    opened = open_search(table, question.asked)
    if opened.refusal:
        return printed([("refused", opened.refusal)])
    ran = run(table, opened.search, question.allowance, limits)
    return printed(
        [("total", whole_weight(table))]
        + [(line.weight,) + line.chosen for line in ran.search.lines]
        + [("low", ran.low, "high", ran.high, "steps", ran.steps, ran.answer)])


def printed(lines):
    """ "Every line ends in a line feed, and single blanks stand only between
    its parts." """
    return "".join(" ".join(str(part) for part in line) + "\n"
                   for line in lines).encode("ascii")


def file_bytes(name):
    """The bytes of a file, or None if it "will not open"."""
    try:
        with open(name, "rb") as handle:
            return handle.read()
    except OSError:
        return None


def load_line(file):
    """One line of `load`: `accepted W` or `refused N at P`."""
    loaded = load(b"" if file is None else file)
    if loaded.refusal:
        return "refused %d at %d" % (loaded.refusal, loaded.place)
    return "accepted %d" % whole_weight(loaded.table)


def main(arguments):
    if len(arguments) == 2 and arguments[0] == "listing":
        typed = sys.stdin.buffer.read()
        sys.stdout.buffer.write(listing(file_bytes(arguments[1]), typed))
        return 0
    if len(arguments) >= 2 and arguments[0] == "load":
        for name in arguments[1:]:
            print(load_line(file_bytes(name)))
        return 0
    sys.stderr.write("use: enumerator.py listing BOARDFILE < input\n"
                     "     enumerator.py load FILE...\n")
    return 2


if __name__ == "__main__":
    sys.exit(main(sys.argv[1:]))
