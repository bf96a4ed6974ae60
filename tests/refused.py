#!/usr/bin/env python3
"""Whether the must-fail edits are refused, each where it should be: those of
must-fail/CRATE beside this file, and those of crates/CRATE/must-fail, which
`rt ci` tries too.

    python3 refused.py                 of all crates
    python3 refused.py --only CRATE    of one of them
    python3 refused.py --errors        prints what fails first with each edit
    python3 refused.py --write         writes that into its line `at:`

An edit is written as `rt must-fail` reads it, with one line more:

    at: proofs/mask/Mask/subset/Answers.antt returns
    at: src/lib.rt file_bytes returns

That is where the first fact stands that is not proved: the file, and the goal
or the law that the prover names there, if it names one; of a goal of a
function without answers the file of src/, the function and the goal.

So an edit that makes a fact false is told from one after which a proof names
what is no longer there, or a goal has another name than its answer, or a
tactic gives up.  A goal that is still true and whose answer no longer fits is
for whoever writes the `at:` line to see: the same change with the right
meaning, as `a / 128` for `a / 127`, is to be proved.

All are tried by one run of `rt must-fail`, in a copy of the repository where
the edits of both folders stand side by side.  It keeps on this machine what
an edit came to, as `rt ci` does, and tries again only what changed; a check
begins with what checks of the same crate kept here.

Exit status 0 only if nothing failed.  RT_JOBS edits are tried at a time, or as
many as there are processors and memory.
"""

import argparse
import glob
import os
import re
import shutil
import subprocess
import sys
import tempfile
import time
from typing import NamedTuple

TESTS = os.path.dirname(os.path.abspath(__file__))
ROOT = os.path.dirname(TESTS)
EDITS = os.path.join(TESTS, "must-fail")
READ = ("src", "specs", "proofs")       # what a check of a crate reads
MOST_BY_CI = 4                  # edits of a crate that `rt ci` is to try
SHOWN = 300                     # characters of a line, where it is printed

# What `rt must-fail` says of an edit, and of a crate that it could not check
# without one.
CAME = re.compile(r"rt: must-fail (\w+)/(\S+)\.edit: (.*)")
REFUSED = re.compile(r"refused, as it must be(?:: |$)")
NO_CHECK = "rt: %s: the check that its must-fail edits begin with did not end"

# An answer or a law that fails; a goal that nothing answers.  What `rt` shows
# of a line may end within the name.
FAILING = re.compile(r"(?:\./)?(proofs/[^:\s]+):(\d+):\d+: error"
                     r"(?:: `([^`]+)(`:|$))?")
OPEN = re.compile(r"note: (?:\./)?(src/[^:\s]+):(\d+):\d+: it is not proved "
                  r"that (?:.*\(`([^`]+)(`\)|$))?")
FUNCTION = re.compile(r'\s*(?:pub(?:\([^)]*\))? )?(?:extern "C" )?fn (\w+)')
IMPL = re.compile(r"impl(?:<'\w+>)? (?:(\w+)(?:<[^>]+>)? for )?(\w+|\[)")
# A fact that hangs on one that failed; a proof that names what the edited code
# or definition no longer has.
HANGS = re.compile("was not admitted|was rejected, (?:was|were) not checked")
UNFIT = re.compile("can be named from here|is not in scope|has no field|"
                   "has no `|cannot be unfolded")
# A tactic that gave up says nothing of the fact; values at which a goal fails
# say all.
LIMIT = re.compile("stopped at its own limit|gave up at one of its limits")
VALUES = "the facts known there allow values"


class Bad(Exception):
    """What is wrong with an edit or with what came of it, and lines that show
    it."""

    def __init__(self, what, lines=()):
        super().__init__(what)
        self.lines = lines


class Edit(NamedTuple):
    path: str                   # of the file
    by_ci: bool                 # whether `rt ci` tries it too


class Failing(NamedTuple):
    """The first fact that is not proved: where, and what the prover said."""
    at: str
    cut: bool                   # the name goes on
    line: str


class Report:
    """What came of the edits of a crate, as it is printed and counted."""

    def __init__(self, title):
        self.title = title
        self.lines = []
        self.passed = 0
        self.failed = 0

    def say(self, line, more=()):
        self.lines += ["  " + line, *("    " + one[:SHOWN] for one in more)]

    def fail(self, name, bad):
        self.failed += 1
        name = "/".join(filter(None, (self.title, name)))
        self.say("FAILURE %s: %s" % (name, bad), bad.lines)

    def ended(self):
        self.lines.append("%s: %d edits refused" % (self.title, self.passed))
        return self


# The edits.

def crates_listed():
    """The names of the crates, in the order of crates.txt."""
    with open(os.path.join(ROOT, "crates.txt"), encoding="utf-8") as handle:
        lines = [line.partition("#")[0].partition(":")[0].split()
                 for line in handle]
    return [words[0] for words in lines if words]


def names_in(folder):
    """The names of a folder that need not be there."""
    return sorted(os.listdir(folder)) if os.path.isdir(folder) else []


def edits_of(crate, report):
    """The edits of a crate, by their names; those that cannot be tried are
    reported."""
    of_crate = os.path.join(ROOT, "crates", crate, "must-fail")
    if len(names_in(of_crate)) > MOST_BY_CI:
        report.fail("", Bad("%d edits, and `rt ci` is to try at most %d" % (
            len(names_in(of_crate)), MOST_BY_CI)))
    found = {}
    for folder, by_ci in ((of_crate, True), (os.path.join(EDITS, crate),
                                             False)):
        for file in names_in(folder):
            path, name = os.path.join(folder, file), file.removesuffix(".edit")
            try:
                if file == name:
                    raise Bad("its name does not end in .edit")
                if name in found:
                    raise Bad("there are two of this name")
                hold_files(path)
                found[name] = Edit(path, by_ci)
            except Bad as bad:
                report.fail(name, bad)
    return found


def lines_of(path):
    with open(path, encoding="utf-8") as handle:
        return handle.read().splitlines(keepends=True)


def hold_files(path):
    """An edit is one of code or of a definition, since one of a proof shows
    nothing."""
    for line in lines_of(path):
        word, _, text = line.partition(":")
        if word == "file" and not re.match(" (?:src|specs)/", text):
            raise Bad("'%s' is no file of src or specs" % line.strip())


def at_line_of(path):
    """What the line `at:` says."""
    return "".join(line.partition(":")[2].strip() for line in lines_of(path)
                   if line.startswith("at:"))


def write_at_line(path, at):
    lines = [line for line in lines_of(path) if not line.startswith("at:")]
    with open(path, "w", encoding="utf-8") as handle:
        handle.writelines([*lines, "at: %s\n" % at])


# The copy.

def copy_to(top, edits):
    """A copy of the repository with these edits.  Those that `rt ci` tries are
    the same bytes, since it keeps what they came to; the others go without
    their lines `at:`, which `rt` does not read."""
    shutil.copy(os.path.join(ROOT, "crates.txt"), top)
    for crate in crates_listed():
        was, now = (os.path.join(one, "crates", crate) for one in (ROOT, top))
        for part in READ:
            if os.path.isdir(os.path.join(was, part)):
                shutil.copytree(os.path.join(was, part),
                                os.path.join(now, part))
        os.mkdir(os.path.join(now, "must-fail"))
        for name, edit in edits.get(crate, {}).items():
            path = os.path.join(now, "must-fail", name + ".edit")
            with open(path, "w", encoding="utf-8") as handle:
                handle.writelines(
                    line for line in lines_of(edit.path)
                    if edit.by_ci or not line.startswith("at:"))


def said_by(command, folder):
    ran = subprocess.run(command, cwd=folder, stdin=subprocess.DEVNULL,
                         stdout=subprocess.PIPE, stderr=subprocess.STDOUT,
                         encoding="utf-8", errors="replace", check=False)
    return ran.returncode, ran.stdout


def tried(edits):
    """What `rt must-fail` said of each edit, as lines, by crate and name; and
    the crates that are not proved as they stand, with lines that show it."""
    with tempfile.TemporaryDirectory() as top:
        copy_to(top, edits)
        _, said = said_by(["rt", "must-fail", *edits], top)
        came = {}
        for line in said.splitlines():
            found = CAME.match(line)
            if found:
                lines = came[found[1], found[2]] = [found[3]]
            elif came and not line.startswith("rt: "):
                lines.append(line)
        if not came:
            sys.exit("rt must-fail tried none:\n" + said[-4000:])
        # Without a check of the crate as it stands nothing says that it is
        # proved; of one edit alone `rt` makes none.
        unproved = {}
        for crate in edits:
            if NO_CHECK % crate in said or len(edits[crate]) == 1:
                status, told = said_by(["rt", "check", crate], os.path.join(
                    top, "crates", crate))
                if status:
                    unproved[crate] = [
                        line for line in told.splitlines()
                        if FAILING.match(line) or OPEN.match(line)][:4]
        return came, unproved


# What came of an edit.

def first_failing(crate, lines):
    """The first fact that is not proved, after what `rt` said of an edit."""
    if lines is None:
        raise Bad("`rt must-fail` said nothing of it")
    refused = REFUSED.match(lines[0])
    if not refused:
        raise Bad(lines[0], lines[1:5])
    line = lines[0][refused.end():]
    if not line:
        raise Bad("refused, and no error is named")
    found = FAILING.match(line) or OPEN.match(line)
    if not found or HANGS.search(line) or UNFIT.search(line):
        raise Bad("no fact fails first, but a file is unfit", [line])
    if LIMIT.search(line):
        raise Bad("a tactic that gave up is all that refuses it", [line])
    file, number, name, ends = found.groups()
    owner, function = function_at(crate, file, int(number))
    if function and VALUES not in line and has_answers(crate, file, owner,
                                                       function):
        raise Bad("a goal that nothing answers fails first, of a function "
                  "with answers: it may have another name, and no more",
                  [line])
    at = [file, function, name]
    return Failing(" ".join(filter(None, at)), ends == "", line)


def function_at(crate, file, number):
    """The function in which that line of src/ stands, after the type whose
    method it is; an edit moves none."""
    if not file.startswith("src/"):
        return None, None
    lines = lines_of(os.path.join(ROOT, "crates", crate, file))
    while lines[number - 1].lstrip().startswith("#["):      # it begins there
        number += 1
    above = lines[number - 1::-1]
    head = next(filter(None, map(FUNCTION.match, above)), None)
    if not head:
        return None, None
    impl = head[0][0].isspace() and next(filter(None, map(IMPL.match, above)))
    owner = impl and impl[2].replace("[", "Array*") + (impl[1] or "")
    return owner or "", head[1]


def has_answers(crate, file, owner, function):
    """Whether a proof file answers goals of a function.  The folder of a
    method stands in one named after its type, then its trait, if any: in that
    of the module, or of the one that declares the type.  Functions that call
    each other share a folder, which is named after them all."""
    module = file.removeprefix("src/").removesuffix(".rt")
    path = [] if module in ("lib", "main") else module.split("/")
    if owner:
        path = ["**", owner + "*"]
    return any(glob.glob(os.path.join(ROOT, "crates", crate, "proofs", *path,
                                      folder, "Answers.antt"), recursive=True)
               for folder in (function, "+*%s*" % function))


def held(edit, failing):
    """The first failing fact is what the edit says."""
    at = at_line_of(edit.path)
    if not at:
        raise Bad("it has no line 'at: %s'" % failing.at, [failing.line])
    if at != failing.at and not (failing.cut and at.startswith(failing.at)):
        raise Bad("wanted at: %s, came at: %s" % (at, failing.at),
                  [failing.line])


def report_on(report, edits, came, options):
    """Holds what came of the edits of a crate to their lines `at:`, or writes
    these."""
    for name, edit in edits.items():
        try:
            failing = first_failing(report.title,
                                    came.get((report.title, name)))
            if options.errors:
                report.say("%s/%s at: %s" % (report.title, name, failing.at),
                           [failing.line])
            if options.write and at_line_of(edit.path) != failing.at:
                write_at_line(edit.path, failing.at)
            held(edit, failing)
            report.passed += 1
        except Bad as bad:
            report.fail(name, bad)


def reports(options):
    """All reports, each ended."""
    listed = crates_listed()
    folders = set(names_in(EDITS))
    for name in sorted(folders - set(listed)):
        report = Report(name)
        report.fail("", Bad("crates.txt lists no such crate"))
        yield report.ended()
    reported = {crate: Report(crate) for crate in (
        [options.only] if options.only else listed)}
    edits = {crate: edits_of(crate, report)
             for crate, report in reported.items()}
    came, unproved = tried({crate: found for crate, found in edits.items()
                            if found})
    for crate, report in reported.items():
        if crate in unproved:
            report.fail("", Bad("it is not proved as it stands, so its edits "
                                "show nothing", unproved[crate]))
        else:
            report_on(report, edits[crate], came, options)
        if edits[crate] or report.failed:
            yield report.ended()


def main():
    parser = argparse.ArgumentParser()
    parser.add_argument("--only", metavar="CRATE", choices=crates_listed())
    parser.add_argument("--errors", action="store_true")
    parser.add_argument("--write", action="store_true")
    began, passed, failed = time.time(), 0, 0
    for report in reports(parser.parse_args()):
        print("\n".join(report.lines), flush=True)
        passed += report.passed
        failed += report.failed
    print("must-fail: %d edits refused, %d failures, %.0f s" % (
        passed, failed, time.time() - began))
    return 1 if failed or not passed else 0


if __name__ == "__main__":
    sys.exit(main())
