"""Whether the program listing is made from what is here, and making it.

That goes by contents: `target/vilthomm.made` keeps a digest of the sources
that the listing was made from, and one of the listing.

The toolchain builds in the crates' folders `out`, and runs what it built; the
listing that is asked is a copy.
"""

import hashlib
import os
import re
import select
import shutil
import subprocess
import time

from saying import Trouble, cause_of, say, show

ROOT = os.path.dirname(os.path.dirname(os.path.realpath(__file__)))
LISTING = os.path.join(ROOT, "target", "bin", "listing")
CRATE = os.path.join(ROOT, "crates", "listing")
PROGRAM = os.path.join(CRATE, "out", "listing")
MADE = os.path.join(ROOT, "target", "vilthomm.made")
BUILD_LOG = os.path.join(ROOT, "target", "vilthomm.log")
LOG_LINES_SHOWN = 20
QUIET = 1               # seconds without a word of rt before it is said why

SOURCES = {"src": ".rt", "specs": ".antt", "proofs": ".antt"}

# What is called in the folder CRATE, for a program that every x86-64 runs; and
# the line with which it begins a crate.
RUN = ["rt", "run", "listing", "--cpu=x86-64"]
BEGUN = re.compile(rb"^rt: chose --jobs \d+ for (\w+)$", re.MULTILINE)


def needed():
    """By crate: the crates that it needs, as crates.txt has it."""
    found = {}
    with open(os.path.join(ROOT, "crates.txt"), encoding="utf-8") as handle:
        for line in handle:
            crate, _, others = line.partition("#")[0].partition(":")
            if crate.split():       # its kind may stand behind the name
                found[crate.split()[0]] = others.split()
    return found


def crates_of(name):
    """The crates that a crate is made of, itself and those of the toolchain
    among them."""
    needs, found, left = needed(), set(), [name]
    while left:
        crate = left.pop()
        if crate not in found:
            found.add(crate)
            left += needs.get(crate, [])
    return found


def to_prove():
    """By crate: what it needs, of those of the project that the listing is
    made of."""
    needs = needed()
    own = crates_of("listing") & set(needs)
    return {crate: [other for other in needs[crate] if other in own]
            for crate in sorted(own)}


def sources():
    """The files that the listing is made of, in order; no other file of a
    crate is one, as those that editors leave."""
    for crate in to_prove():
        for part, ending in SOURCES.items():
            for folder, _, names in sorted(os.walk(
                    os.path.join(ROOT, "crates", crate, part))):
                for name in sorted(names):
                    path = os.path.join(folder, name)
                    if (name.endswith(ending) and name[0] != "."
                            and os.path.isfile(path)):
                        yield path


def digest_of_sources():
    digest = hashlib.sha256(repr(to_prove()).encode("utf-8"))
    for path in sources():
        with open(path, "rb") as handle:
            content = handle.read()
        digest.update(b"%s %d\n" % (
            os.fsencode(os.path.relpath(path, ROOT)), len(content)))
        digest.update(content)
    return digest.hexdigest()


def made_from(digest):
    """What is kept of a listing that was made from sources of this digest."""
    with open(LISTING, "rb") as handle:
        program = hashlib.sha256(handle.read()).hexdigest()
    return ("sources %s\nlisting %s\n" % (digest, program)).encode("ascii")


def is_built():
    """Whether the listing is there and made from what is here."""
    try:
        with open(MADE, "rb") as handle:
            kept = handle.read()
        return kept == made_from(digest_of_sources())
    except OSError:
        return False


def build():
    """Proves and builds the listing.  A build that failed leaves none."""
    try:
        build_by_rt()
    except OSError as error:
        raise Trouble("the listing is not built from what is here and cannot "
                      "be built: %s" % cause_of(error)) from None


def build_by_rt():
    if shutil.which("rt") is None:
        raise Trouble("the listing is not built from what is here, and the "
                      "toolchain's command rt is not on the PATH")
    os.makedirs(os.path.dirname(BUILD_LOG), exist_ok=True)
    began, digest = time.monotonic(), digest_of_sources()
    say("building the listing: this proves the %d crates that it is made of, "
        "as far as they changed" % len(to_prove()))
    with open(BUILD_LOG, "wb") as log:
        status = run_rt(log)
    if status:
        if os.path.exists(LISTING):
            os.remove(LISTING)
        with open(BUILD_LOG, encoding="utf-8", errors="replace") as log:
            show(log.readlines()[-LOG_LINES_SHOWN:])
        raise Trouble("the listing could not be built: 'rt run listing' "
                      "ended with status %d (target/vilthomm.log)" % status)
    if not os.path.isfile(PROGRAM):
        raise Trouble("'rt run listing' left no crates/listing/out/listing: "
                      "remove crates/listing/out and ask again")
    copy_program()
    with open(MADE, "wb") as handle:
        handle.write(made_from(digest))
    say("built in %d s" % (time.monotonic() - began))


def copy_program():
    """Puts what rt built into the place of the listing, whole."""
    os.makedirs(os.path.dirname(LISTING), exist_ok=True)
    beside = LISTING + ".new"
    shutil.copy(PROGRAM, beside)
    os.replace(beside, LISTING)


def run_rt(log):
    """The status of rt; what it says goes to the log.  The program that it
    runs in the end gets no input, and what that prints is for nobody."""
    with subprocess.Popen(
            RUN, cwd=CRATE, stdin=subprocess.DEVNULL,
            stdout=subprocess.DEVNULL, stderr=subprocess.PIPE) as process:
        try:
            follow(process.stderr.fileno(), log)
        except BaseException:
            process.kill()
            raise
    return process.returncode


def follow(pipe, log):
    """Keeps what comes out of a pipe, and says what is being proved wherever
    that takes longer than a moment."""
    printed, told = b"", None
    while True:
        if not select.select([pipe], [], [], QUIET)[0]:
            sentence = proving(printed)
            if sentence not in (None, told):
                say(sentence)
                told = sentence
            select.select([pipe], [], [])
        piece = os.read(pipe, 65536)
        if not piece:
            return
        log.write(piece)
        log.flush()
        printed += piece


def proving(printed):
    """What rt is proving, after what it said: the crate that it began last.
    What that one needs is proved, and so is what it began before.  None where
    it has begun none."""
    crates = set(to_prove())
    begun = [name.decode("ascii") for name in BEGUN.findall(printed)]
    begun = [name for name in begun if name in crates]
    if not begun:
        return None
    reached = {crate for name in begun for crate in crates_of(name)}
    proved = reached & crates - {begun[-1]}
    return "proving %s; %d of %d crates are proved" % (
        begun[-1], len(proved), len(crates))
