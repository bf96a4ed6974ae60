"""What the checks of header, archive and functions under C names share: the
commands they run, and the archive.

What is built stands in target/firmware.  CC and CXX name the compilers, NM and
OBJCOPY those of the binutils.
"""

import functools
import os
import shlex
import shutil
import subprocess

from checks.tally import TESTS

TOP = os.path.dirname(TESTS)
BUILT = os.path.join("target", "firmware")
PROVED = os.path.join("crates", "firmware", "out", "libfirmware.a")
ARCHIVE = os.path.join("target", "libvilthomm.a")
HEADER = os.path.join("include", "vilthomm.h")
EXAMPLE = os.path.join("examples", "firmware.c")
FLAGS = ["-Wall", "-Wextra", "-Werror", "-pedantic"]


def ran(*words, **variables):
    """A command at the top of the repository: its status and its output."""
    done = subprocess.run(words, cwd=TOP, capture_output=True, timeout=3600,
                          env={**os.environ, **variables}, check=False)
    return done.returncode, done.stdout, done.stderr.decode(errors="replace")


def compiler(variable, default):
    """The words of a compiler's command, or None."""
    words = shlex.split(os.environ.get(variable, default))
    return words if words and shutil.which(words[0]) else None


def succeeds(tally, what, *words):
    status, _, said = ran(*words)
    tally.true("%s: %s" % (what, said[-2000:]), status == 0)
    return status == 0


def fails(tally, what, wanted, *words):
    """The command fails, and what it says has these words."""
    status, _, said = ran(*words)
    tally.true("%s: %s" % (what, said[-2000:] or "status %d" % status),
               status != 0 and wanted in said)


def header_text():
    with open(os.path.join(TOP, HEADER), encoding="ascii") as handle:
        return handle.read()


def write_header(name, text):
    """Another header of this text; gives the folder that it stands in."""
    folder = os.path.join(BUILT, name)
    os.makedirs(os.path.join(TOP, folder), exist_ok=True)
    path = os.path.join(TOP, folder, "vilthomm.h")
    with open(path, "w", encoding="ascii") as handle:
        handle.write(text)
    return folder


@functools.lru_cache(maxsize=None)      # two sections ask
def archive_made(tally):
    """Whether the archive was made, of what is proved here."""
    os.makedirs(os.path.join(TOP, BUILT), exist_ok=True)
    for tool in ("rt", os.environ.get("NM", "nm"),
                 os.environ.get("OBJCOPY", "objcopy")):
        if shutil.which(tool) is None:
            print("  %s is not installed: no archive" % tool)
            return False
    return proved(tally) and succeeds(tally, "tools/archive", "tools/archive")


def proved(tally):
    """Whether the toolchain made its archive, the one that PROVED names."""
    return succeeds(tally, "tools/staticlib firmware", "tools/staticlib",
                    "firmware")
