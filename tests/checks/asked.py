"""The command asked, from the question to the listing or the picture."""

import contextlib
import os
import resource
import subprocess
import sys
import tempfile

from boards import file_of
from checks.cases import LISTED_001
from checks.examples import shown_on_pages
from checks.program_cases import long_board
from checks.project import ROOT, built, command, stored, words
from checks.tally import section

BOARD = os.path.join("examples", "001", "board.pha")
LONGEST = 20                    # seconds that a call may take


def script(text):
    return "#!/usr/bin/env python3\nimport os, signal, sys, time\n" + text


def write_script(path, text):
    with open(path, "w", encoding="utf-8") as handle:
        handle.write(script(text))
    os.chmod(path, 0o755)


@contextlib.contextmanager
def path_with(rt=None):
    """A folder for the PATH: python3, and a command rt if one is given."""
    with tempfile.TemporaryDirectory() as folder:
        os.symlink(sys.executable, os.path.join(folder, "python3"))
        if rt is not None:
            write_script(os.path.join(folder, "rt"), rt)
        yield folder


def called(folder, path, *arguments, **given):
    """Status, output and what is said, of the command in a folder; Python's
    own variables, which change how it writes, are not handed on."""
    given.setdefault("stdout", subprocess.PIPE)
    kept = {name: value for name, value in os.environ.items()
            if not name.startswith("PYTHON")}
    done = subprocess.run(
        [os.path.join(folder, "vilthomm"), *arguments], cwd=folder,
        env={**kept, "PATH": path}, stdin=subprocess.DEVNULL,
        stderr=subprocess.PIPE, timeout=LONGEST, check=False, **given)
    return done.returncode, done.stdout, done.stderr.decode("utf-8")


@section("the command: questions put to the listing")
def questions(tally):
    present = built()
    tally.true("the listing is not built", present)
    if not present:
        return
    before = os.stat(command.LISTING).st_mtime_ns
    with path_with() as path:           # no rt, so that nothing is built
        hold_pages(tally, path)
        hold_refused(tally, path)
        hold_picture(tally, path)
        hold_no_room(tally, path)
        hold_closed(tally, path)
    tally.same("the listing's time", os.stat(command.LISTING).st_mtime_ns,
               before)


def hold_pages(tally, path):
    """What README's and the examples' pages show is what is printed and
    said."""
    for name, commands in shown_on_pages():
        for arguments, shown in commands:
            said = [line for line in shown if line.startswith("vilthomm: ")]
            printed = shown[:len(shown) - len(said)]
            tally.same("%s, %s" % (name, " ".join(arguments)),
                       called(ROOT, path, *arguments),
                       (0, "".join(printed).encode("ascii"), "".join(said)))


def hold_refused(tally, path):
    """Refused files and questions: the listing's line, a sentence, 1."""
    with tempfile.TemporaryDirectory() as folder:
        cut = os.path.join(folder, "cut.pha")
        with open(cut, "wb") as handle:
            handle.write(stored(BOARD)[:-1])
        for arguments, line, sentence in (
                ((cut, "7"), "refused 1 at 102", "board file, byte 102: "
                 + words.OF_A_FILE[1]),
                ((BOARD, "200"), "refused 22",
                 "this board has no atom 200; its atoms are 0 to 7"),
                ((BOARD, "7", "3"), "refused 23",
                 "asked atoms must ascend, each once: 3 7")):
            for drawn in (False, True):
                wanted = b"" if drawn else line.encode("ascii") + b"\n"
                tally.same("refused: %s, drawn %r" % (line, drawn),
                           called(ROOT, path, *["plot"] * drawn, *arguments),
                           (1, wanted, "vilthomm: %s\n" % sentence))


def hold_picture(tally, path):
    status, drawn, said = called(ROOT, path, "plot",
                                 "examples/supply/board.pha", "36")
    tally.same("the picture: status and what is said", (status, said),
               (0, ""))
    tally.true("the picture is docs/bound.svg",
               drawn == stored("docs", "bound.svg"))
    board, asked = long_board()
    with tempfile.TemporaryDirectory() as folder:
        file = os.path.join(folder, "long.pha")
        with open(file, "wb") as handle:
            handle.write(file_of(board))
        status, drawn, said = called(ROOT, path, "plot", file, *map(
            str, asked), "--steps", "401")
    tally.same("a picture of many runs: status and what is said",
               (status, said), (0, "vilthomm: drawing 401 steps takes some "
                                "time: up to 300 runs of the listing\n"))
    tally.true("a picture of many runs", drawn.endswith(b"</svg>\n"))


def no_file_grows():
    resource.setrlimit(resource.RLIMIT_FSIZE, (0, 0))


def hold_no_room(tally, path):
    """Where nothing can be written the command says so, in one line."""
    for arguments in ((BOARD, "7"), ("plot", BOARD, "7"), ("--help",)):
        with open("/dev/full", "wb") as full:
            tally.same("no room for the output: %r" % (arguments,),
                       called(ROOT, path, *arguments, stdout=full),
                       (2, None, "vilthomm: cannot go on: No space left on "
                        "device\n"))
    status, printed, said = called(ROOT, path, BOARD, "7",
                                   preexec_fn=no_file_grows)
    tally.same("no temporary folder", (status, printed), (2, b""))
    tally.true("no temporary folder: " + said, said.count("\n") == 1
               and said.startswith("vilthomm: cannot go on: No usable temp"))


def without(*numbers):
    """What closes these streams in a call."""
    return lambda: [os.close(number) for number in numbers]


def hold_closed(tally, path):
    """A closed standard output is told in one line, and nothing is said where
    standard error is closed or takes nothing; the answer is the same."""
    for arguments in ((BOARD, "7"), ("plot", BOARD, "7"), ("--help",),
                      ("--version",)):
        tally.same("closed output: %r" % (arguments,), called(
            ROOT, path, *arguments, preexec_fn=without(1)),
            (2, b"", "vilthomm: the answer goes to standard output, and that "
             "is closed\n"))
        tally.same("all closed: %r" % (arguments,), called(
            ROOT, path, *arguments, preexec_fn=without(0, 1, 2)),
            (2, b"", ""))
    for arguments, wanted in (((BOARD, "7"), (0, LISTED_001)),
                              ((BOARD, "8"), (1, b"refused 22\n")),
                              ((BOARD, "x"), (2, b""))):
        for numbers in ((2,), (0, 2)):
            tally.same("closed: %r, %r" % (numbers, arguments), called(
                ROOT, path, *arguments, preexec_fn=without(*numbers)),
                (*wanted, ""))
        with open("/dev/full", "wb") as full:
            tally.same("no room for what is said: %r" % (arguments,), called(
                ROOT, path, *arguments,
                preexec_fn=lambda: os.dup2(full.fileno(), 2)), (*wanted, ""))
