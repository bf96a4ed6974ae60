"""The archive of the functions under C names: its names, that it is made the
same twice, that a header of another layout does not link to it, and that it is
found where it is installed."""

import os
import re
import shutil
import tempfile

import enumerator as en
from checks.cases import LISTED_001
from checks.compiled import (
    ARCHIVE, BUILT, EXAMPLE, FLAGS, HEADER, PROVED, TOP, archive_made,
    compiler, fails, header_text, proved, ran, succeeds, write_header)
from checks.header import defined
from checks.tally import section


def bytes_of(path):
    return en.file_bytes(os.path.join(TOP, path))


def linked_names(text, layout):
    """The functions of the header as the linker has them."""
    return ["%s_layout_%s" % (name, layout) for name in re.findall(
        r"^\w+ (vilthomm_\w+)\(", text, re.MULTILINE)]


def hold_symbols(tally, text, layout):
    """The archive has the functions of the header and no other name, nothing
    of the driver, and needs memcpy and memset alone."""
    status, said, _ = ran(os.environ.get("NM", "nm"), "-P", ARCHIVE)
    found = re.findall(r"^(\S+) ([A-Za-z])\b", said.decode(), re.MULTILINE)
    for what, kind, wanted in (
            ("functions", "T", linked_names(text, layout)),
            ("needs", "U", ["memcpy", "memset"])):
        tally.same("the archive's " + what,
                   sorted(name for name, one in found if one == kind),
                   sorted(wanted))
    tally.true("the archive has nothing of the driver",
               status == 0 and b"drive" not in said)


def hold_made_again(tally):
    """Made anew, from the compilation on, it has the same bytes."""
    first, again = bytes_of(ARCHIVE), os.path.join(BUILT, "again.a")
    os.remove(os.path.join(TOP, PROVED))
    if proved(tally) and succeeds(tally, "tools/archive", "tools/archive",
                                  PROVED, again):
        tally.true("the archive made again", bytes_of(again) == first)


def hold_links(tally, command, text, layout):
    """Header and archive link only where both have the same number."""
    other = str(int(layout) - 1)
    older = re.sub(r"^#define vilthomm_.*\n", "", text, flags=re.MULTILINE)
    numbered = text.replace("#define VILTHOMM_LAYOUT " + layout,
                            "#define VILTHOMM_LAYOUT " + other)
    for what, folder, archive, missed in (
            ("a header of layout %s" % other,
             write_header("numbered", numbered), ARCHIVE,
             r"vilthomm_load_layout_%s\b" % other),
            ("a header of no number", write_header("older", older), ARCHIVE,
             r"vilthomm_load\b"),
            ("an archive of no number", os.path.dirname(HEADER), PROVED,
             r"vilthomm_load_layout_%s\b" % layout)):
        status, _, said = ran(
            *command, "-std=c99", *FLAGS, "-I" + folder, EXAMPLE, archive,
            "-o", os.path.join(BUILT, "unlinked"))
        tally.true("%s: %s" % (what, said[-2000:]),
                   status != 0 and "undefined" in said
                   and re.search(missed, said))


def hold_installed(tally, command, text):
    """`make install` puts header, archive and pkg-config's file to where a
    program is compiled and linked by what pkg-config says."""
    for tool in ("make", "pkg-config"):
        if shutil.which(tool) is None:
            print("  %s is not installed: installing is not tried" % tool)
            return
    with tempfile.TemporaryDirectory() as root:
        if not succeeds(tally, "make install", "make", "install",
                        "DESTDIR=" + root, "PREFIX=/opt/scope"):
            return
        found = sorted(os.path.relpath(os.path.join(folder, name), root)
                       for folder, _, names in os.walk(root) for name in names)
        tally.same("what is installed", found, [
            "opt/scope/include/vilthomm.h", "opt/scope/lib/libvilthomm.a",
            "opt/scope/lib/pkgconfig/vilthomm.pc"])
        variables = {
            "PKG_CONFIG_SYSROOT_DIR": root, "PKG_CONFIG_LIBDIR":
            os.path.join(root, "opt", "scope", "lib", "pkgconfig")}
        tally.same("pkg-config --modversion", ran(
            "pkg-config", "--modversion", "vilthomm", **variables),
            (0, defined(text, "VILTHOMM_VERSION").encode() + b"\n", ""))
        status, flags, said = ran("pkg-config", "--cflags", "--libs",
                                  "vilthomm", **variables)
        tally.true("pkg-config: " + said, status == 0)
        example = os.path.join(root, "example")
        if succeeds(tally, "the example by pkg-config", *command, "-std=c99",
                    *FLAGS, EXAMPLE, *flags.decode().split(), "-o", example):
            tally.same("the example by pkg-config", ran(example),
                       (0, LISTED_001, ""))


@section("the archive of the C names")
def archive(tally):
    if not archive_made(tally):
        return
    text = header_text()
    layout = defined(text, "VILTHOMM_LAYOUT")
    hold_symbols(tally, text, layout)
    hold_made_again(tally)
    fails(tally, "an archive with other functions", "has other functions",
          "tools/archive", ARCHIVE, os.path.join(BUILT, "again.a"))
    command = compiler("CC", "cc")
    if command is None:
        print("  no C compiler: linking and installing are not tried")
        return
    hold_links(tally, command, text, layout)
    hold_installed(tally, command, text)
