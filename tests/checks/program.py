"""The program listing: target/bin/listing, run beside a board.pha.

What it prints is held byte for byte to the enumerator's listing; its exit
status is to be 0, and it says nothing on standard error.
"""

import glob
import os
import subprocess
import tempfile
import time
from itertools import zip_longest

import enumerator as en
from checks.cases import LISTED_001
from checks.program_cases import DECIDING, FILE_001, GROUPS
from checks.project import ROOT, built, command
from checks.tally import section, typed

LISTING = command.LISTING
LONGEST = 20                    # seconds that a call may take


def called(folder, **given):
    """The exit status of a call in a folder, and what it writes to standard
    output and to standard error."""
    done = subprocess.run([LISTING], cwd=folder, timeout=LONGEST, check=False,
                          stdout=subprocess.PIPE, stderr=subprocess.PIPE,
                          **given)
    return done.returncode, done.stdout, done.stderr


def called_slowly(folder, keyed):
    """The same; the input comes byte by byte, with pauses."""
    with subprocess.Popen([LISTING], cwd=folder, stdin=subprocess.PIPE,
                          stdout=subprocess.PIPE,
                          stderr=subprocess.PIPE) as process:
        for byte in keyed:
            try:
                process.stdin.write(bytes([byte]))
                process.stdin.flush()
            except BrokenPipeError:             # it needs no more
                break
            time.sleep(0.01)
        out, said = process.communicate(timeout=LONGEST)
    return process.returncode, out, said


def hold(tally, name, got, wanted):
    """One check: what a call gave is what is to be printed, and no more."""
    tally.checks += 1
    if got == (0, wanted, b""):
        return
    status, out, said = got
    if status or said:
        tally.fail("listing, %s: exit status %d, standard error %r" % (
            name, status, said[-200:]))
        return
    lines = zip_longest(out.splitlines(True), wanted.splitlines(True))
    tally.fail("listing, %s: line %d: got %r, wanted %r" % (name, *next(
        (number, *pair) for number, pair in enumerate(lines, 1)
        if pair[0] != pair[1])))


def ending(out):
    """ `refused` and the number, or the last word. """
    words = out.decode("ascii").split()
    return " ".join(words[:2]) if words[0] == "refused" else words[-1]


def shown(title, outs):
    """Prints how many cases a group has, and how they end."""
    met = {}
    for out in outs:
        met[ending(out)] = met.get(ending(out), 0) + 1
    print("  %s: %d cases: %s" % (title, len(outs), ", ".join(
        "%s %d" % (word, met[word]) for word in sorted(
            met, key=lambda word: (len(word), word)))), flush=True)


@section("the program listing")
def program(tally):
    present = built()
    tally.true("listing is not built", present)
    if not present:
        return
    every = []
    with tempfile.TemporaryDirectory() as folder:
        for title, cases in GROUPS:
            listed = [(case, held_case(tally, folder, case))
                      for case in cases()]
            shown(title, [out for _, out in listed])
            every += listed
        hold_slow(tally, folder)
        tally.same("listing leaves its folder as it is", os.listdir(folder),
                   ["board.pha"])
    hold_odd_files(tally)
    hold_examples(tally)
    hold_met(tally, every)
    hold_places(tally, every)


def held_case(tally, folder, case):
    """Runs a case; gives what is to be printed."""
    with open(os.path.join(folder, "board.pha"), "wb") as handle:
        handle.write(case.file)
    wanted = en.listing(case.file, case.keyed)
    if case.text is not None:
        tally.same("enumerator, " + case.name, wanted, case.text)
    if len(case.file) > DECIDING:
        tally.same("enumerator, %s: no later byte matters" % case.name,
                   en.listing(case.file[:DECIDING], case.keyed), wanted)
    hold(tally, case.name, called(folder, input=case.keyed), wanted)
    return wanted


def hold_slow(tally, folder):
    """Input that comes in pieces is the same input."""
    with open(os.path.join(folder, "board.pha"), "wb") as handle:
        handle.write(FILE_001)
    inputs = [typed((7,), 100), typed((7,), 100) + b"\1\7",
              typed(tuple(range(8)), 16), typed((7,), 100)[:-1],
              typed((6, 7), 300)[:-1], b"\1", typed((7, 6), 100), bytes(3)]
    for keyed in inputs:
        hold(tally, "slow input %r" % keyed, called_slowly(folder, keyed),
             en.listing(FILE_001, keyed))
    print("  input in pieces: %d cases" % len(inputs))


def link_to_nothing(path):
    os.symlink("nothing.pha", path)


def link_to_board(path):
    with open(path + ".other", "wb") as handle:
        handle.write(FILE_001)
    os.symlink("board.pha.other", path)


def other_name(path):
    with open(path + ".other", "wb") as handle:
        handle.write(FILE_001)


def unreadable(path):
    with open(path, "wb") as handle:
        handle.write(FILE_001)
    os.chmod(path, 0)


def hold_odd_files(tally):
    """ "A file that will not open counts as empty" """
    empty = b"refused 1 at 0\n"
    made = [("no file", lambda path: None, empty),
            ("only a file of another name", other_name, empty),
            ("a folder", os.mkdir, empty),
            ("an empty file", lambda path: open(path, "wb").close(), empty),
            ("a link to nothing", link_to_nothing, empty),
            ("a link to a board", link_to_board, LISTED_001)]
    if os.geteuid() == 0:
        print("  a file without permission: left out, root reads it")
    else:
        made.append(("a file without permission", unreadable, empty))
    for name, make, wanted in made:
        with tempfile.TemporaryDirectory() as folder:
            path = os.path.join(folder, "board.pha")
            make(path)
            asked = typed((7,), 100)
            tally.same("enumerator, " + name,
                       en.listing(en.file_bytes(path), asked), wanted)
            hold(tally, name, called(folder, input=asked), wanted)
            hold(tally, name + ", no input", called(folder, input=b""),
                 en.listing(en.file_bytes(path), b""))
    print("  files that are odd: %d cases" % (2 * len(made)))


def hold_examples(tally):
    """The examples, as the README has it: in their folders, the input from a
    file."""
    folders = sorted(glob.glob(os.path.join(ROOT, "examples", "*", "")))
    tally.true("there are examples", folders)
    outs = []
    for folder in folders:
        file = en.file_bytes(os.path.join(folder, "board.pha"))
        with open(os.path.join(folder, "input"), "rb") as handle:
            outs.append(en.listing(file, handle.read()))
            handle.seek(0)
            hold(tally, os.path.relpath(folder, ROOT),
                 called(folder, stdin=handle), outs[-1])
    shown("examples", outs)


def hold_met(tally, every):
    """Every way to end was met more than once, and so were the longest list,
    the longest line and the largest weight."""
    ends = [ending(out) for _, out in every]
    for end in ("done", "more", "31", "32", "33", "refused 21", "refused 22",
                "refused 23", *("refused %d" % n for n in range(1, 13))):
        tally.true("cases that end with %s" % end, ends.count(end) >= 4)
    lines = [out.decode("ascii").split("\n")[1:-2] for _, out in every]
    tally.true("256 lines of 32 atoms met", any(
        len(listed) == 256 and all(line.count(" ") == 32 for line in listed)
        for listed in lines))
    tally.true("a line of 10^15 and 32 atoms met", any(
        line.startswith("%d " % 10 ** 15) and line.count(" ") == 32
        for listed in lines for line in listed))
    tally.true("65,535 steps met", any(
        out.endswith(b" steps 65535 more\n") for _, out in every))


def hold_places(tally, every):
    """Refused files: places at the first byte, within, at the last byte and
    where no byte is left, wherever that can be."""
    met = set()
    for case, out in every:
        words = out.split()
        if words[2:3] == [b"at"]:
            place, length = int(words[3]), len(case.file)
            where = {length: "none left", length - 1: "last", 0: "first"}
            met.add((int(words[1]), where.get(place, "within")))
    wanted = {(number, "within") for number in range(1, 13)}
    wanted |= {(number, "first") for number in (1, 2, 3, 4)}
    wanted |= {(number, "last") for number in (1, 2, 3, 8)}
    wanted |= {(1, "none left")}
    tally.same("numbers and places met", wanted - met, set())
