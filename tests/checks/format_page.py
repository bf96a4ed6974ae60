"""docs/FORMAT.md: its bytes, refusals, limits, inputs and listings, held to
the enumerator and to the program listing."""

import os
import re
import subprocess
import sys
import tempfile

import boards
import enumerator as en
from boards import file_of
from checks import program
from checks.cases import LISTED_001
from checks.examples import question_in, shown_in
from checks.header import REFUSALS
from checks.program_cases import FILE_001
from checks.project import built, listed, page_of, stored, words
from checks.tally import run_for, section, typed

FENCE = re.compile(r"^```(\w*)\n(.*?)^```$", re.DOTALL | re.MULTILINE)
TIMES = re.compile(r"(\d+)\*(?:\(([^()]*)\)|([0-9a-f]{2}))")


def parts_of_page():
    """The sections of the page, by their headings."""
    _, *parts = page_of("docs", "FORMAT.md").split("\n## ")
    return dict(part.split("\n", 1) for part in parts)


def blocks_in(text):
    """The fenced blocks of a text, each with its language."""
    return FENCE.findall(text)


def columns_of(block):
    """The lines of a block, cut where two blanks or more stand."""
    for line in block.splitlines():
        first, *rest = re.split(r" {2,}", line.strip())
        yield first, rest


def rows_of(text):
    """The rows of a text's tables, without heads and rules."""
    for block in re.findall(r"(?:^\|.*\n)+", text, re.MULTILINE):
        for row in block.splitlines()[2:]:
            yield [cell.strip() for cell in row.strip("|").split("|")]


def bytes_in(text):
    """Bytes as the page writes them: `no bytes`, hex, and `7*ff` or `2*(01
    02)` for bytes that are repeated."""
    if text == "no bytes":
        return b""
    while "*" in text:
        text = TIMES.sub(lambda found: " ".join(
            [found[2] or found[3]] * int(found[1])), text, 1)
    return bytes.fromhex(text)


def number_in(text):
    return int(text.replace(",", ""))


@section("FORMAT: the bytes of a file")
def page_bytes(tally):
    part = parts_of_page()["The bytes"]
    kinds = {int(row[0].strip("`"), 16): int(row[1])
             for row in rows_of(part) if row[0].startswith("`")}
    tally.same("kinds and bytes after them", kinds, en.BODY_BYTES)
    (_, block), = blocks_in(part)
    file = b""
    for place, (written, remark) in columns_of(block):
        tally.same("place " + place, int(place), len(file))
        file += bytes_in(written)
        answer = en.read_record(FILE_001, int(place))
        tally.same("the record at " + place, (answer.place, remark),
                   (len(file), remark_on(answer.record)))
    tally.same("the bytes of the 001 board", file, FILE_001)
    tally.same("those that are stored", file,
               stored("examples", "001", "board.pha"))


def remark_on(record):
    kind, body = record
    if kind == en.ATOMS:
        return "%d atoms" % body[0]
    if kind == en.HYPOTHESIS:
        return "declaration %d: atom %d, weight %d" % (
            body[0], body[1], int.from_bytes(body[2:], "little"))
    if kind == en.RULE:
        return "%d from %s" % (
            body[0], " ".join(map(str, en.filled_places(body))))
    return "end"


@section("FORMAT: limits and numbers")
def page_numbers(tally):
    parts = parts_of_page()
    limits = {row[0]: tuple(map(number_in, row[1:]))
              for row in rows_of(parts["The bytes"])
              if not row[0].startswith("`")}
    held = en.Limits()
    tally.same("limits", limits, {
        "atoms": (1, en.MAX_ATOMS),
        "declarations": (0, en.MAX_DECLARATIONS),
        "hypotheses of a declaration": (1, en.MAX_HYPOTHESES),
        "weight of a hypothesis": (1, 2 ** 24 - 1),
        "W": (1, en.MAX_W),
        "rules": (0, en.MAX_RULES),
        "body atoms of a rule": (0, en.MAX_BODY),
        "atoms of a question": (1, en.MAX_QUESTION),
        "allowance of a run, in steps": (0, words.MOST_STEPS),
        "partial proofs that a search holds": (0, held.entries),
        "lines of a list": (0, held.lines),
        "bytes of a file that loads": (
            len(file_of((1, [], []))), len(file_of(boards.full_board(1))))})
    header, page = page_of("include", "vilthomm.h"), "\n".join(parts.values())
    for name, text in (("FILE", "the first %s bytes decide"),
                       ("TEXT", "has at most %s bytes")):
        number = re.search(r"VILTHOMM_%s_BYTES (\d+)" % name, header)[1]
        text %= format(int(number), ",")
        tally.true(text, text in page)
    numbers = [row[0].split(" ", 1) for row in rows_of(page)
               if re.match(r"\d+ [a-z]", row[0])]
    tally.same("refusals and their words",
               sorted((int(number), word) for number, word in numbers),
               sorted(REFUSALS.items()))


@section("FORMAT: files, inputs and calls")
def page_answers(tally):
    present = built()
    tally.true("listing is not built", present)
    parts = parts_of_page()
    with tempfile.TemporaryDirectory() as folder:
        def hold(what, file, keyed, wanted):
            """The last line that is printed is the one of the page."""
            printed = en.listing(file, keyed)
            tally.same("enumerator, " + what,
                       printed.decode("ascii").splitlines()[-1], wanted)
            if present:
                with open(os.path.join(folder, "board.pha"), "wb") as handle:
                    handle.write(file)
                program.hold(tally, what, program.called(
                    folder, input=keyed), printed)

        met = set()
        (_, block), = blocks_in(parts["What is refused in a file"])
        for text, (wanted, *_) in columns_of(block):
            hold(text, bytes_in(text), typed((0,), 100), wanted)
            met.add(int(wanted.split()[1]))
        tally.same("refusals shown", met, set(range(1, 13)))
        (_, command), (_, block) = blocks_in(parts["The listing"])
        tally.same("the listing", shown_in(command), (
            ["examples/001/board.pha", "7"],
            LISTED_001.decode("ascii").splitlines(keepends=True)))
        for text, (wanted, *_) in columns_of(block):
            hold("input " + text, FILE_001, bytes_in(text), wanted)
        hold_made(tally, hold, parts["Making a file"])
    hold_calls(tally, parts["What is refused in other calls"])


def hold_made(tally, hold, part):
    """The script makes the files that the commands after it ask."""
    (language, script), *shown = blocks_in(part)
    tally.same("language of the script", language, "python")
    with tempfile.TemporaryDirectory() as folder:
        subprocess.run([sys.executable, "-c", script], cwd=folder, timeout=20,
                       check=True)
        tally.same("files made", sorted(os.listdir(folder)),
                   sorted({shown_in(block)[0][0] for _, block in shown}))
        for _, block in shown:
            arguments, lines = shown_in(block)
            name, asked, steps = question_in(arguments)
            file = en.file_bytes(os.path.join(folder, name))
            keyed = typed(asked, steps)
            answer = listed.take_apart(en.listing(file, keyed))
            sentence = words.of_ending(answer, steps)
            said = ["vilthomm: %s\n" % sentence] if sentence else []
            printed = lines[:len(lines) - len(said)]
            tally.same("%s: what is said" % name, lines[len(printed):], said)
            tally.same("%s: what is printed" % name, "".join(printed),
                       en.listing(file, keyed).decode("ascii"))
            hold(name, file, keyed, printed[-1].rstrip("\n"))


def hold_calls(tally, part):
    """The yes-or-no and the share on the 001 board, after its whole search."""
    table = en.load(FILE_001).table
    search = run_for(table, (7,), 100).search
    (_, block), = blocks_in(part)
    for call, (wanted, *_) in columns_of(block):
        numbers = list(map(int, re.findall(r"\d+", call)))
        if call.startswith("share of line "):
            refusal, value = en.share(table, search, *numbers)
        else:
            refusal, holds = en.yes_or_no(table, numbers[1:], numbers[0])
            value = "yes" if holds else "no"
        tally.same(call, "refused %d" % refusal if refusal else str(value),
                   wanted)
