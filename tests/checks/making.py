"""Copies of the command where the listing is not built, or fails.

They stand in temporary folders, with a command rt and a listing of the checks'
own.
"""

import contextlib
import os
import re
import shutil
import tempfile

from checks.asked import BOARD, called, path_with, script, write_script
from checks.cases import LISTED_001
from checks.project import ROOT, building
from checks.tally import section

CRATES = os.path.join(ROOT, "crates")
BUILDING = "vilthomm: building the listing: "
BUILT = re.compile("vilthomm: built in [0-9]+ s")

# Commands rt: one that fails, one that does nothing, one that "builds" and
# runs what it built, one that takes its time with the first two crates.
FAILING = """
print(*range(1, 31), sep="\\n", file=sys.stderr)
sys.exit(3)
"""
IDLE = ""
BUILDER = """
if (sys.argv[1:] != %r
        or not os.getcwd().endswith(os.path.join("crates", "listing"))):
    sys.exit(1)
os.makedirs("out", exist_ok=True)
with open("out/listing", "w") as handle:
    handle.write(%%r)
os.chmod("out/listing", 0o755)
print("rt: running out/listing", file=sys.stderr)
print("for nobody", sys.stdin.read())
""" % building.RUN[1:]
SLOW = """
for name in ("sets", "board"):
    print("rt: chose --jobs 2 for " + name, file=sys.stderr, flush=True)
    time.sleep(%r)
""" % (1.5 * building.QUIET)

# Listings.
PRINTING = "sys.stdout.write(%r)\n" % LISTED_001.decode("ascii")
MUTE = "sys.stdin.read()\n"
ENDING = PRINTING + "sys.exit(7)\n"
CRASHING = "os.kill(os.getpid(), signal.SIGSEGV)\n"


def rt_that_builds(listing):
    return BUILDER % script(listing)


def without_built(folder, names):
    """What a copy of the crates leaves out: what the toolchain built."""
    return ["out"] if os.path.dirname(folder) == CRATES else []


@contextlib.contextmanager
def copied():
    """A copy of what the command needs, without anything built; of the crates
    too, since rt builds in their folders."""
    with tempfile.TemporaryDirectory() as folder:
        for name in ("vilthomm", "crates.txt"):
            shutil.copy(os.path.join(ROOT, name), folder)
        for name, make in (("tools", shutil.copytree),
                           ("crates", copy_of_crates),
                           ("examples", os.symlink)):
            make(os.path.join(ROOT, name), os.path.join(folder, name))
        yield folder


def copy_of_crates(was, now):
    shutil.copytree(was, now, ignore=without_built)


@section("the command: where the listing is not built")
def not_built(tally):
    hold_without_rt(tally)
    hold_failed_build(tally)
    hold_building(tally)
    hold_progress(tally)
    hold_contents(tally)
    for name, listing, said in (
            ("prints nothing", MUTE, "printed no listing: remove the folder "
             "target and ask again"),
            ("ends with 7", ENDING, "failed: it ended with status 7"),
            ("crashes", CRASHING, "failed: it was ended by SIGSEGV")):
        with copied() as folder, path_with(rt_that_builds(listing)) as path:
            for drawn in (False, True):
                status, printed, told = called(
                    folder, path, *["plot"] * drawn, BOARD, "7")
                tally.same("a listing that %s, drawn %r" % (name, drawn),
                           (status, printed, told.splitlines()[-1]),
                           (2, b"", "vilthomm: target/bin/listing " + said))


def hold_without_rt(tally):
    with copied() as folder, path_with() as path:
        before = sorted(os.listdir(folder))
        tally.same("no rt", called(folder, path, BOARD, "7"), (
            2, b"", "vilthomm: the listing is not built from what is here, "
            "and the toolchain's command rt is not on the PATH\n"))
        tally.same("no rt: nothing is written", sorted(os.listdir(folder)),
                   before)


def hold_failed_build(tally):
    """The last lines of rt are shown, and an old listing does not stay."""
    with copied() as folder, path_with(FAILING) as path:
        old = os.path.join(folder, "target", "bin", "listing")
        os.makedirs(os.path.dirname(old))
        write_script(old, PRINTING)
        status, printed, said = called(folder, path, BOARD, "7")
        first, *shown, last = said.splitlines()
        tally.same("rt fails", (status, printed, shown, last), (
            2, b"", [str(number) for number in range(11, 31)],
            "vilthomm: the listing could not be built: 'rt run listing' "
            "ended with status 3 (target/vilthomm.log)"))
        tally.true("rt fails: %s" % first, first.startswith(BUILDING))
        tally.true("rt fails: no listing stays", not os.path.exists(old))
    with copied() as folder, path_with(IDLE) as path:
        status, printed, said = called(folder, path, BOARD, "7")
        tally.same("rt does nothing", (status, printed), (2, b""))
        tally.true("rt does nothing: " + said, said.endswith(
            "left no crates/listing/out/listing: remove crates/listing/out "
            "and ask again\n"))
    with copied() as folder, path_with(IDLE) as path:
        stands = os.path.join(folder, "target")
        open(stands, "wb").close()
        status, printed, said = called(folder, path, BOARD, "7")
        tally.same("no folder target", (status, printed), (2, b""))
        tally.same("no folder target: sentence", said, (
            "vilthomm: the listing is not built from what is here and cannot "
            "be built: %s: File exists\n" % os.path.realpath(stands)))


def hold_building(tally):
    """The listing is built once; one of unknown origin is built again."""
    with copied() as folder, path_with(rt_that_builds(PRINTING)) as path:
        for what, builds in (("not built", True), ("built", False),
                             ("unknown", True), ("built again", False)):
            if what == "unknown":
                os.remove(os.path.join(folder, "target", "vilthomm.made"))
            status, printed, said = called(folder, path, BOARD, "7")
            tally.same(what + ": status and output", (status, printed),
                       (0, LISTED_001))
            told = said.splitlines()
            tally.true("%s: %s" % (what, said), (
                len(told) == 2 and told[0].startswith(BUILDING)
                and BUILT.fullmatch(told[1]) if builds else not told))


def hold_progress(tally):
    """Which crates are being proved, of how many."""
    count = len(building.to_prove())
    slow = SLOW + rt_that_builds(PRINTING)
    with copied() as folder, path_with(slow) as path:
        status, printed, said = called(folder, path, BOARD, "7")
        first, *told, last = said.splitlines()
        tally.same("a slow build", (status, printed, told), (0, LISTED_001, [
            "vilthomm: proving %s; %d of %d crates are proved" % (
                name, proved, count)
            for proved, name in enumerate(("sets", "board"))]))
        tally.true("a slow build: %s, %s" % (first, last), (
            first.startswith(BUILDING + "this proves the %d crates " % count)
            and BUILT.fullmatch(last)))
    for printed, wanted in (
            (b"rt: sets: begins with what a check kept elsewhere\n"
             b"rt: chose --jobs 2 for search\nfn search::bench: proved\n",
             "proving search; 2 of %d crates are proved" % count),
            (b"rt: chose --jobs 4 for search\n"
             b"rt: chose --jobs 1 for files\n",
             "proving files; 3 of %d crates are proved" % count),
            (b"rt: chose --jobs 2 for listing\n",
             "proving listing; %d of %d crates are proved" % (
                 count - 1, count)),
            (b"rt: chose --jobs 2 for holding\n", None), (b"", None)):
        tally.same("after %r" % printed, building.proving(printed), wanted)


def content_of(path):
    """The bytes of a file, None if there is none."""
    if not os.path.exists(path):
        return None
    with open(path, "rb") as handle:
        return handle.read()


def put(path, content):
    """Makes a file have these bytes, or be away."""
    if content is None:
        os.remove(path)
        return
    with open(path, "wb") as handle:
        handle.write(content)
    os.chmod(path, 0o755)           # as the listing has to be


def append(path, text=b"\n"):
    put(path, (content_of(path) or b"") + text)


def left_by_editors(source):
    """Files that editors leave beside a source, and a link to nothing."""
    folder, name = os.path.split(source)
    for other in (name + "~", "#%s#" % name, ".%s.swp" % name, "._" + name,
                  name + ".orig"):
        append(os.path.join(folder, other))
    os.symlink("someone@somewhere.1", os.path.join(folder, ".#" + name))


def hold_contents(tally):
    """What is no source is no reason to build again, and neither is a time; a
    changed source is one.  What is built is used where there is no rt."""
    with copied() as folder, path_with() as path:
        with path_with(rt_that_builds(PRINTING)) as building_path:
            tally.same("built", called(folder, building_path, BOARD, "7")[:2],
                       (0, LISTED_001))
        for what, change in harmless(folder):
            change()
            tally.same(what, called(folder, path, BOARD, "7"),
                       (0, LISTED_001, ""))
        for what, changed in telling(folder):
            before = {name: content_of(name) for name in changed}
            for name, content in changed.items():
                put(name, content)
            status, printed, said = called(folder, path, BOARD, "7")
            tally.same("changed: " + what, (status, printed), (2, b""))
            tally.true("changed: %s: %s" % (what, said), said.startswith(
                "vilthomm: the listing is not built from what is here, "))
            for name, content in before.items():
                put(name, content)
            tally.same("put back: " + what, called(folder, path, BOARD, "7"),
                       (0, LISTED_001, ""))


def harmless(folder):
    """Changes in a folder after which the listing is still made from what is
    there."""
    def at(*names):
        return os.path.join(folder, *names)

    library = at("crates", "text", "src", "lib.rt")
    yield "a later time", lambda: os.utime(library)
    yield "an earlier time of the listing", lambda: os.utime(
        at("target", "bin", "listing"), (0, 0))
    yield "what editors leave", lambda: left_by_editors(library)
    yield "and beside definitions", lambda: left_by_editors(
        at("crates", "search", "specs", "Order.antt"))
    yield "an edit that must fail", lambda: append(
        at("crates", "sets", "must-fail", "a.edit"))
    yield "what the toolchain leaves", lambda: append(
        at("crates", "listing", "out", "listing.rt"))
    yield "what the program is to print", lambda: append(
        at("crates", "listing", "stdout"))
    yield "a crate that the listing is not made of", lambda: append(
        at("crates", "holding", "src", "lib.rt"))
    yield "another crate in crates.txt", lambda: append(
        at("crates.txt"), b"# a remark\nanother: sets\n")


def telling(folder):
    """Files that are changed, as they then are, after which it is not."""
    def at(*names):
        return os.path.join(folder, *names)

    library, spec, listing, listed = (
        at("crates", "text", "src", "lib.rt"),
        at("crates", "search", "specs", "Order.antt"),
        at("target", "bin", "listing"), at("crates.txt"))
    for what, path in (("code", library), ("a definition", spec),
                       ("another listing", listing)):
        yield what, {path: content_of(path)[:-1] + b" "}
    yield "a file more", {at("crates", "sets", "proofs", "More.antt"): b""}
    yield "a file less", {spec: None}
    yield "another name", {
        spec: None, spec.replace("Order", "Other"): content_of(spec)}
    yield "no listing", {listing: None}
    needs = content_of(listed)
    yield "what a crate needs", {
        listed: needs.replace(b"\nboard: sets\n", b"\nboard:\n")}
