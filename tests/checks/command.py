"""The command: what it says to its arguments, and what it says of listings."""

import os
import re
import subprocess
import sys

from checks.cases import LISTED_001
from checks.examples import asker
from checks.project import (ROOT, building, command, listed, page_of, stored,
                            words)
from checks.tally import section

COMMAND = os.path.join(ROOT, "vilthomm")


@section("the command: what it says no to")
def command_refusals(tally):
    board = os.path.join("examples", "001", "board.pha")
    for arguments, wanted in (
            ([], "no board file given"),
            (["plot"], "no board file given"),
            ([board], "a question is 1 to 8 atoms, and 0 are given"),
            (["plot", board], "a question is 1 to 8 atoms, and 0 are given"),
            ([board] + ["1"] * 256, "1 to 8 atoms, and 256 are given"),
            ([board, "x"], "not 'x'"), ([board, "7.0"], "not '7.0'"),
            ([board, "256"], "not '256'"), ([board, "-1"], "not '-1'"),
            ([board, "9" * 5000], "an atom is a whole number, 0 to 127 at "
             "most, not '999"),
            ([board, "7", "--steps"], "--steps takes a whole number"),
            ([board, "7", "--steps", "65536"], "not '65536'"),
            ([board, "7", "--steps=many"], "not 'many'"),
            ([board, "7", "--step", "5"], "no option '--step'"),
            (["none.pha", "7"], "there is no file none.pha"),
            (["plot", "none.pha", "7"], "there is no file none.pha"),
            (["polt", board, "7"], "there is no command and no board file "
             "'polt'; did you mean 'plot'?"),
            (["polt"], "there is no command and no board file 'polt'; did you "
             "mean 'plot'?"),
            (["hlep"], "there is no command and no board file 'hlep'; see "
             "./vilthomm --help"),
            (["Plot", board, "7"], "did you mean 'plot'?"),
            (["plto"], "did you mean 'plot'?"),
            (["list", board, "7"], "there is no command and no board file "
             "'list'; see ./vilthomm --help"),
            (["plot.pha", "7"], "there is no file plot.pha"),
            (["examples", "7"], "examples is a folder"),
            ([board + "/none", "7"],
             "vilthomm: %s/none cannot be read: Not a directory\n" % board)):
        done = subprocess.run([sys.executable, COMMAND] + arguments, cwd=ROOT,
                              stdout=subprocess.PIPE, stderr=subprocess.PIPE,
                              timeout=20, check=False)
        what = "vilthomm " + " ".join(arguments)[:60]
        said = done.stderr.decode("utf-8")
        tally.same(what + ": status and output",
                   (done.returncode, done.stdout), (2, b""))
        tally.true("%s: says %s, not %s" % (what, wanted, said), (
            said.startswith("vilthomm: ") and said.count("\n") == 1
            and wanted in said))
    done = subprocess.run([sys.executable, COMMAND, "--help"], cwd=ROOT,
                          stdout=subprocess.PIPE, timeout=20, check=False)
    tally.same("--help: status", done.returncode, 0)
    tally.true("--help: an example", b"Example: " in done.stdout)


@section("the command: its version")
def command_version(tally):
    done = subprocess.run([sys.executable, COMMAND, "--version"], cwd=ROOT,
                          stdout=subprocess.PIPE, timeout=20, check=False)
    number = re.search(r"^## (\S+)", page_of("CHANGELOG.md"), re.MULTILINE)
    tally.same("--version: the newest of CHANGELOG.md",
               (done.returncode, done.stdout.decode("ascii")),
               (0, "vilthomm %s\n" % number.group(1)))


@section("the command: what the listing is made of")
def command_sources(tally):
    tally.same("a crate alone", building.crates_of("sets"), {"sets"})
    tally.same("a library", building.crates_of("holding"),
               {"holding", "files", "board", "sets"})
    tally.same("a program",
               building.crates_of("listing"), {
                   "listing", "text", "bounds", "running", "opening",
                   "wellformed", "prepared", "search", "files", "board",
                   "sets"})
    sources = list(building.sources())
    for path, wanted in (
            (("sets", "src", "lib.rt"), True),
            (("listing", "src", "main.rt"), True),
            (("search", "specs", "Order.antt"), True),
            (("search", "proofs", "Laws", "Order.antt"), True),
            (("listing", "stdout"), False),
            (("holding", "src", "lib.rt"), False)):
        tally.same("a source: " + "/".join(path), os.path.join(
            ROOT, "crates", *path) in sources, wanted)
    for path, name in (("examples/001/board.pha", "001"),
                       ("examples/amplifier/mended.pha", "amplifier/mended"),
                       ("mended.pha", "mended"), ("/board.pha", "board")):
        tally.same("name of " + path, command.board_name(path), name)


@section("the command: what refusals and endings mean")
def command_words(tally):
    file = stored("examples", "001", "board.pha")
    for number in range(1, 13):
        tally.true("refusal %d" % number, words.of_refusal(
            listed.Refused(number, 40), (7,), file).startswith(
                "board file, byte 40: " + words.OF_A_FILE[number]))
    for asked, wanted in (
            (tuple(range(9)), "a question is 1 to 8 atoms, and this one has "
             "9"),
            ((3, 8), "this board has no atom 8; its atoms are 0 to 7"),
            ((7, 3, 7), "asked atoms must ascend, each once: 3 7")):
        refused = asker(file, asked)(100)
        tally.same("sentence for %r" % (asked,),
                   words.of_refusal(refused, asked, file), wanted)
    answer = asker(file, (7,))(100)
    for ending, said in (("31", "no room"), ("32", "true together"),
                         ("33", "256 lines")):
        tally.true("sentence for " + ending, said in words.of_ending(
            answer._replace(answer=ending), 100))
    tally.same("nothing to say", words.of_ending(answer, 100), None)
    tally.true("no line", "explains this reading" in words.of_ending(
        answer._replace(lines=()), 100))
    tally.true("the most steps", "65,535" in words.of_ending(
        answer._replace(answer="more"), 65535))


@section("listings taken apart")
def taken_apart(tally):
    answer = listed.take_apart(LISTED_001)
    tally.same("the 001 board", answer, listed.Listed(
        100, ((42, (1, 2)), (18, (0, 2)), (9, (0, 3)), (3, (0, 4))),
        72, 72, 23, "done"))
    tally.same("a line without atoms", listed.take_apart(
        b"total 1\n1\nlow 1 high 1 steps 2 done\n").lines, ((1, ()),))
    tally.same("a refused file", listed.take_apart(b"refused 1 at 0\n"),
               (1, 0))
    tally.same("a refused question", listed.take_apart(b"refused 22\n"),
               (22, None))
    for spoiled in (b"", LISTED_001[:-1], LISTED_001 + b"\n",
                    LISTED_001.replace(b" ", b"  "), LISTED_001[10:],
                    LISTED_001.replace(b"done", b"20")):
        tally.same("%r" % spoiled, listed.take_apart(spoiled), None)
