"""include/vilthomm.h by itself: its refusals, the languages that it is valid
in, what it stops the compilation for, and the number of its layout."""

import hashlib
import os
import re

from checks.compiled import (
    BUILT, FLAGS, HEADER, TOP, compiler, fails, header_text, succeeds,
    write_header)
from checks.tally import section

# "What the scope says no to"
REFUSALS = {
    1: "cut off", 2: "kind", 3: "misplaced", 4: "atom", 5: "declaration",
    6: "hypothesis", 7: "weight", 8: "product", 9: "body", 10: "head",
    11: "level", 12: "rules", 20: "table", 21: "length", 22: "asked atom",
    23: "asked order", 25: "board state", 31: "store full", 32: "overlap",
    33: "list full", 34: "search", 36: "line"}

# By the number of a layout: the version that it came with, and a digest of the
# structs and asserts that it stands for.  A changed struct takes the next
# number and a new version: it gets a row of its own here, and none changes.
LAYOUTS = {
    2: ("0.2", "54ef091c8a6a820f3a3b859b6598a000"
        "8644736e7e03cf33955fed7763450a2e"),
}

# Compilers that make other code, as flags have it, and what they are told.
OTHERS = (
    ("-U__x86_64__", "is for x86-64"),
    ("-D_WIN32", "calling convention of Linux"),
    ("-U__BYTE_ORDER__ -D__BYTE_ORDER__=__ORDER_BIG_ENDIAN__",
     "are little-endian"),
    ("-mx32 -ffreestanding", "a size_t of 64 bits"))

# What is told of another layout: a sentence, or the name of a type where the
# language has no asserts.
OTHERWISE = {"c99": "vilthomm_layout_of_search_entry_row",
             "c++98": "vilthomm_layout_of_search_entry_row"}
SENTENCE = "lays a struct out in another way"


def hold_numbers(tally, text):
    """The header has every refusal, by its number and its word."""
    numbers = {int(number): (name.replace("_", " ").lower(), word)
               for name, number, word in re.findall(
                   r"VILTHOMM_REFUSED_(\w+) = (\d+),? +/\* ([a-z ]+):", text)}
    tally.same("refusals of the header", numbers,
               {number: (word, word) for number, word in REFUSALS.items()})


def defined(text, name):
    """What a line of the header defines a name to be."""
    return re.search(r'^#define %s "?([0-9.]+)"?$' % name, text,
                     re.MULTILINE).group(1)


def layout_in(text):
    """Structs and asserts of the header, without comments and blanks, and
    without how an assert is written."""
    _, structs = text.split("/* ---- structs */")
    structs, functions = structs.split("/* ---- functions */")
    asserts = re.findall(r"^VILTHOMM_\w+\(.*$", functions, re.MULTILINE)
    return re.sub(r"/\*.*?\*/|\s", "", structs + "".join(asserts),
                  flags=re.DOTALL)


def hold_layout(tally, text):
    """The layout is that of its number, and each has a version of its own."""
    version = [int(part) for part in defined(
        text, "VILTHOMM_VERSION").split(".")]
    came, digest = LAYOUTS.get(int(defined(text, "VILTHOMM_LAYOUT")),
                               ("0", None))
    tally.same("the layout of this number: a changed struct raises it, and "
               "the version", hashlib.sha256(
                   layout_in(text).encode("ascii")).hexdigest(), digest)
    versions = [[int(part) for part in came.split(".")]
                for _, (came, _) in sorted(LAYOUTS.items())]
    tally.true("each layout has a version of its own", all(
        one < other for one, other in zip(versions, versions[1:])))
    tally.true("the version is not older than the layout",
               versions[-1] <= version)


def hold_languages(tally, command, language, *standards):
    """The header is valid in these standards of a language, and stops the
    compilation for other processors and other structs."""
    turned = header_text().replace(
        "entry[VILTHOMM_MOST_ENTRIES][VILTHOMM_ENTRY_WORDS]",
        "entry[VILTHOMM_ENTRY_WORDS][VILTHOMM_MOST_ENTRIES]")
    turned = os.path.join(write_header("turned", turned), "vilthomm.h")
    for standard in standards:
        words = [*command, "-std=" + standard, *FLAGS, "-fsyntax-only", "-x",
                 language]
        succeeds(tally, "the header as " + standard, *words, HEADER)
        for flags, told in OTHERS:
            fails(tally, "the header as %s, %s" % (standard, flags), told,
                  *words, *flags.split(), HEADER)
        fails(tally, "another struct as " + standard,
              OTHERWISE.get(standard, SENTENCE), *words, turned)


@section("the header of the C names")
def header(tally):
    text = header_text()
    hold_numbers(tally, text)
    hold_layout(tally, text)
    os.makedirs(os.path.join(TOP, BUILT), exist_ok=True)
    for name, command, language, standards in (
            ("C", compiler("CC", "cc"), "c", ("c99", "c11")),
            ("C++", compiler("CXX", "c++"), "c++",
             ("c++98", "c++11", "c++17"))):
        if command is None:
            print("  no %s compiler: the header is not tried in it" % name)
        else:
            hold_languages(tally, command, language, *standards)
