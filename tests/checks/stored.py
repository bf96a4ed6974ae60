"""The containers of board files for the program replay, and how files are
written and compared."""

import contextlib
import io
import os
import random
import subprocess
import sys
import tempfile

import enumerator as en
from checks.loads import hold_load
from checks.tally import TESTS, section
from containers.arrays import Arrays, loaded_arrays, with_value
from containers.common import taken_apart
from containers.states_bin import NO, YES
from containers.tables_bin import NO_TABLE, TABLE
from replay import OF_FILES as PROGRAM

ROOM = 262_144              # what the program has for a container


def hold_container(tally, program, name):
    """A container, whose bytes are taken apart into its items; gives both."""
    container = program.containers[name]
    written, items = program.written(container), container.items()
    tally.true("%s is below %d bytes" % (name, container.MOST),
               len(written) < container.MOST <= ROOM)
    tally.same(name + " taken apart",
               list(taken_apart(written, container.TAIL)),
               [item[1:] for item in items])
    tally.same(name + ": no name twice",
               len({item.name for item in items}), len(items))
    return written, items


@section("board files for the program replay")
def board_files(tally):
    stored = PROGRAM.stored_files()
    lines = stored["stdout"].decode("ascii").split("\n")
    counts = [len(container.items())
              for container in PROGRAM.containers.values()]
    tally.same("a line for each item, and a line feed at the end",
               (len(lines), lines[-1]), (sum(counts) + 1, ""))
    began = 0
    for name in PROGRAM.containers:
        written, items = hold_container(tally, PROGRAM, name)
        answered = list(zip(items, lines[began:]))
        met = {}
        for _, line in answered:
            answer = answer_of(line)
            met[answer] = met.get(answer, 0) + 1
        ANSWERS_OF[name](tally, answered, met)
        print("  %s: %d items, %d bytes: %s" % (
            name, len(items), len(written), counted(met)))
        began += len(items)


def answer_of(line):
    """A line without what differs from item to item: of `accepted` and of a
    record the first word, of a refusal the number too."""
    if " next " in line or line.startswith("accepted"):
        return line.partition(" ")[0]
    return line.partition(" at ")[0]


def answers_of_boards(tally, answered, met):
    rng = random.Random(20260110)
    for item, line in answered:
        answer = hold_load(tally, "boards.bin, " + item.name, item.file, rng)
        tally.same("boards.bin, %s: line" % item.name, answer_of(line),
                   "refused %d" % answer.refusal if answer.refusal
                   else "accepted")
    for answer in ("accepted", *("refused %d" % n for n in range(1, 13))):
        tally.true("boards.bin: three times " + answer,
                   met.get(answer, 0) >= 3)


def answers_of_states(tally, answered, met):
    for item, line in answered:
        if line in (YES, NO):
            table = en.load(item.file).table
            tally.same("states.bin, %s: chained" % item.name, line == YES,
                       item.atom in en.derived_atoms(table, item.state))
    tally.same("states.bin: answers", set(met),
               {YES, NO, "refused 20", "refused 22", "refused 25"})


def answers_of_records(tally, answered, met):
    tally.same("records.bin: answers", set(met),
               {"count", "hypothesis", "rule", "end", "refused 1",
                "refused 2"})
    for answer, count in met.items():
        tally.true("records.bin: ten times " + answer, count >= 10)
    for item, line in answered:
        # The place of the next, or that of the refusal, as the line has it.
        place = int(line.split(" ")[-1])
        start = min(item.place, len(item.file))
        what = "records.bin, " + item.name
        tally.same(what + ": kind", answer_of(line) == "refused 2",
                   item.file[start:start + 1] not in (b"", *KINDS))
        if line.startswith("refused"):
            tally.same(what + ": place", place, start)
            continue
        # The bytes of the record are those that the line has.
        word, *numbers = line.split(" ")[:-2]
        numbers = [int(number) for number in numbers]
        record = {"count": en.atoms_record,
                  "hypothesis": en.hypothesis_record,
                  "rule": lambda head, *body: en.rule_record(head, body),
                  "end": en.end_record}[word](*numbers)
        tally.same(what + ": bytes", item.file[start:place], record)


# "2 | kind | kind byte not 1 to 4"
KINDS = (b"\1", b"\2", b"\3", b"\4")


def answers_of_tables(tally, answered, met):
    tally.same("tables.bin: answers", set(met), {TABLE, NO_TABLE})
    of_field = {}
    for item, line in answered:
        tally.same("tables.bin, %s: loads" % item.name,
                   en.load(item.file).refusal, 0)
        arrays = loaded_arrays(item.file)
        if with_value(arrays, *item[2:]) == arrays:
            tally.same("tables.bin, %s: no change" % item.name, line, TABLE)
            line = "no change"
        of_field.setdefault(item.field, {}).setdefault(line, []).append(item)
    for field, name in enumerate(Arrays._fields):
        wanted = {TABLE, NO_TABLE, "no change"}
        if name in ("hypotheses", "rules"):     # another count is no table
            wanted.remove(TABLE)
        tally.same("tables.bin: answers for " + name,
                   set(of_field.get(field, {})), wanted)
        for line, items in of_field.get(field, {}).items():
            tally.true("tables.bin: three times %s for %s" % (line, name),
                       len(items) >= 3)


ANSWERS_OF = {
    "boards.bin": answers_of_boards, "states.bin": answers_of_states,
    "records.bin": answers_of_records, "tables.bin": answers_of_tables,
}


def counted(met):
    """The answers and how many there are of each, in the order of numbers."""
    def order(answer):
        word, _, number = answer.rpartition(" ")
        return (word == "refused", int(number) if number.isdigit() else 0,
                answer)
    return ", ".join("%s %d" % (answer.replace("refused ", ""), met[answer])
                     for answer in sorted(met, key=order))


def told(*arguments):
    """The exit status of replay.py and what it prints, with the containers of
    board files alone."""
    said = io.StringIO()
    with contextlib.redirect_stdout(said):
        status = PROGRAM.main(list(arguments))
    return status, said.getvalue()


@section("files for the program replay, written and compared")
def replay_command_line(tally):
    used = subprocess.run([sys.executable, "-B", os.path.join(
        TESTS, "replay.py"), "--other"], capture_output=True, timeout=60)
    tally.same("a use that is none", (used.returncode, used.stdout,
                                      used.stderr[:5]), (2, b"", b"use: "))
    with tempfile.TemporaryDirectory() as folder:
        status, said = told("--stale", folder)
        tally.same("nothing there", (status, said.count("missing")), (1, 5))
        tally.same("written", told(folder), (0, ""))
        tally.same("written and compared", told("--stale", folder), (0, ""))
        for name, wanted in PROGRAM.stored_files().items():
            path = os.path.join(folder, name)
            tally.same("written: " + name, en.file_bytes(path), wanted)
            for what, spoiled in (
                    ("a byte more", wanted + b"\n"),
                    ("a byte less", wanted[:-1]),
                    ("another byte", bytes([wanted[0] ^ 1]) + wanted[1:])):
                with open(path, "wb") as handle:
                    handle.write(spoiled)
                status, said = told("--stale", folder)
                tally.same("%s: %s" % (name, what),
                           (status, said.split("\n")[0]),
                           (1, path + " is stale"))
            with open(path, "wb") as handle:
                handle.write(wanted)
            tally.same(name + " put right", told("--stale", folder), (0, ""))
