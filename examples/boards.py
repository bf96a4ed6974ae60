#!/usr/bin/env python3
"""The example boards by the names of their parts, and their files.

    python3 examples/boards.py            writes the files of all examples
    python3 examples/boards.py --stale    says which stored file is another

A part is a declaration: the states it can be in, each with its weight.  The
atoms of a board are numbered as they are named here: first every state of
every part, then the readings.  A reading holds if one of its rules holds, and
a rule names only atoms that are numbered before its reading.
"""

import os
import sys
from typing import NamedTuple

HERE = os.path.dirname(os.path.abspath(__file__))


class Board(NamedTuple):
    parts: dict         # by a part's name: its states and their weights
    readings: list      # their names, in order
    rules: list         # a reading and all that it follows from, in file order


class Example(NamedTuple):
    boards: dict        # by file name
    asked: list         # the reading that is put to it, as names
    steps: int


def atoms_of(board):
    """The names of all atoms, each at its number."""
    return [state for states in board.parts.values()
            for state in states] + board.readings


def board_file(board):
    """The bytes of a board file, as document 01 has them."""
    atoms = atoms_of(board)
    written = bytes([1, len(atoms)])
    for number, states in enumerate(board.parts.values()):
        for state, weight in states.items():
            written += bytes([2, number, atoms.index(state)])
            written += weight.to_bytes(3, "little")
    for head, *body in board.rules:
        places = sorted(atoms.index(name) for name in body)
        written += bytes([3, atoms.index(head), *places])
        written += bytes([255] * (8 - len(places)))
    return written + bytes([4])


def input_file(board, asked, steps):
    """A question as the listing program reads it: a count, the atoms and the
    allowance, low byte first."""
    atoms = sorted(atoms_of(board).index(name) for name in asked)
    return bytes([len(atoms), *atoms]) + steps.to_bytes(2, "little")


# Document 01, "The 001 board, whole".
BOARD_001 = Board(
    parts={
        "first": {"b": 3, "c": 7},
        "second": {"e": 6, "f": 3, "g": 1},
    },
    readings=["h", "q", "a"],
    rules=[
        ("a", "b", "h"),
        ("a", "e", "q"),
        ("q", "h"),
        ("q", "b", "e"),
        ("h", "b", "f"),
        ("h", "c", "e"),
        ("h", "b", "g"),
    ],
)

# A 12 V supply.  Every rule of a reading excludes the others: each later one
# says that what the earlier ones blame is good.
SUPPLY = Board(
    parts={
        "F1, fuse": {"F1 good": 8, "F1 blown": 2},
        "T1, transformer": {
            "T1 good": 96, "T1 primary open": 3, "T1 secondary open": 1},
        "BR1, bridge of four diodes": {
            "BR1 good": 80, "BR1 one diode open": 10, "BR1 diode shorted": 6,
            "BR1 dead": 4},
        "C1, smoothing capacitor": {
            "C1 good": 6, "C1 dried out": 3, "C1 shorted": 1},
        "U1, regulator": {
            "U1 good": 8, "U1 dead": 1, "U1 shorted through": 1},
        "R1, resistor of the LED": {"R1 good": 97, "R1 open": 3},
        "D5, LED": {"D5 good": 9, "D5 open": 1},
    },
    readings=[
        "T1 open", "BR1 no short", "C1 no short",
        "short behind T1", "no short behind T1",
        "TP1 AC", "TP1 dead",
        "TP2 smooth", "TP2 ripple, 100 Hz", "TP2 ripple, 50 Hz",
        "TP2 ripple", "TP2 alive", "TP2 dead",
        "TP3 12 V", "TP3 hum", "TP3 17 V", "TP3 alive", "TP3 dead",
        "LED lit", "LED flickers", "LED glares", "LED dark",
    ],
    rules=[
        ("T1 open", "T1 primary open"),
        ("T1 open", "T1 secondary open"),
        ("BR1 no short", "BR1 good"),
        ("BR1 no short", "BR1 one diode open"),
        ("BR1 no short", "BR1 dead"),
        ("C1 no short", "C1 good"),
        ("C1 no short", "C1 dried out"),
        ("short behind T1", "C1 shorted"),
        ("short behind T1", "C1 no short", "BR1 diode shorted"),
        ("no short behind T1", "C1 no short", "BR1 no short"),
        ("TP1 AC", "F1 good", "T1 good", "no short behind T1"),
        ("TP1 dead", "F1 blown"),
        ("TP1 dead", "F1 good", "T1 open"),
        ("TP1 dead", "F1 good", "T1 good", "short behind T1"),
        ("TP2 smooth", "TP1 AC", "BR1 good", "C1 good"),
        ("TP2 ripple, 100 Hz", "TP1 AC", "BR1 good", "C1 dried out"),
        ("TP2 ripple, 50 Hz", "TP1 AC", "BR1 one diode open"),
        ("TP2 ripple", "TP2 ripple, 100 Hz"),
        ("TP2 ripple", "TP2 ripple, 50 Hz"),
        ("TP2 alive", "TP2 smooth"),
        ("TP2 alive", "TP2 ripple"),
        ("TP2 dead", "TP1 dead"),
        ("TP2 dead", "TP1 AC", "BR1 dead"),
        ("TP3 12 V", "TP2 smooth", "U1 good"),
        ("TP3 hum", "TP2 ripple", "U1 good"),
        ("TP3 17 V", "TP2 alive", "U1 shorted through"),
        ("TP3 alive", "TP3 12 V"),
        ("TP3 alive", "TP3 hum"),
        ("TP3 alive", "TP3 17 V"),
        ("TP3 dead", "TP2 dead"),
        ("TP3 dead", "TP2 alive", "U1 dead"),
        ("LED lit", "TP3 12 V", "R1 good", "D5 good"),
        ("LED flickers", "TP3 hum", "R1 good", "D5 good"),
        ("LED glares", "TP3 17 V", "R1 good", "D5 good"),
        ("LED dark", "TP3 dead"),
        ("LED dark", "TP3 alive", "R1 open"),
        ("LED dark", "TP3 alive", "R1 good", "D5 open"),
    ],
)

# A microphone amplifier.  The third rule of "TP2 quiet" does not say that C2
# passes, so it and the second can hold together.
OVERLAPPING = ("TP2 quiet", "TP1 signal", "P1 wiper open")
APART = ("TP2 quiet", "TP1 signal", "C2 passes", "P1 wiper open")

AMPLIFIER = Board(
    parts={
        "B1, battery": {"B1 good": 7, "B1 weak": 2, "B1 flat": 1},
        "M1, microphone": {"M1 good": 9, "M1 open": 1},
        "Q1, transistor of the first stage": {
            "Q1 good": 8, "Q1 open": 1, "Q1 shorted": 1},
        "C2, coupling capacitor": {
            "C2 good": 90, "C2 open": 6, "C2 leaky": 4},
        "P1, volume control": {
            "P1 good": 7, "P1 scratchy": 2, "P1 wiper open": 1},
        "U1, amplifier chip": {
            "U1 good": 80, "U1 dead": 15, "U1 oscillates": 5},
        "C5, output capacitor": {"C5 good": 9, "C5 open": 1},
        "LS1, loudspeaker": {
            "LS1 good": 92, "LS1 coil open": 6, "LS1 cone torn": 2},
    },
    readings=[
        "rail up", "Q1 stuck", "C2 passes", "P1 passes", "LS1 moves",
        "TP1 signal", "TP1 quiet",
        "TP2 signal", "TP2 quiet",
        "TP3 signal", "TP3 howl", "TP3 alive", "TP3 quiet",
        "TP4 alive", "TP4 quiet",
        "LS1 howls", "LS1 scratches", "LS1 rasps", "LS1 silent",
    ],
    rules=[
        ("rail up", "B1 good"),
        ("rail up", "B1 weak"),
        ("Q1 stuck", "Q1 open"),
        ("Q1 stuck", "Q1 shorted"),
        ("C2 passes", "C2 good"),
        ("C2 passes", "C2 leaky"),
        ("P1 passes", "P1 good"),
        ("P1 passes", "P1 scratchy"),
        ("LS1 moves", "LS1 good"),
        ("LS1 moves", "LS1 cone torn"),
        ("TP1 signal", "rail up", "M1 good", "Q1 good"),
        ("TP1 quiet", "B1 flat"),
        ("TP1 quiet", "rail up", "M1 open"),
        ("TP1 quiet", "rail up", "M1 good", "Q1 stuck"),
        ("TP2 signal", "TP1 signal", "C2 passes", "P1 passes"),
        ("TP2 quiet", "TP1 quiet"),
        ("TP2 quiet", "TP1 signal", "C2 open"),
        OVERLAPPING,
        ("TP3 signal", "TP2 signal", "U1 good"),
        ("TP3 howl", "rail up", "U1 oscillates"),
        ("TP3 alive", "TP3 signal"),
        ("TP3 alive", "TP3 howl"),
        ("TP3 quiet", "U1 dead"),
        ("TP3 quiet", "U1 oscillates", "B1 flat"),
        ("TP3 quiet", "U1 good", "TP2 quiet"),
        ("TP4 alive", "TP3 alive", "C5 good"),
        ("TP4 quiet", "TP3 quiet"),
        ("TP4 quiet", "TP3 alive", "C5 open"),
        ("LS1 howls", "TP3 howl", "C5 good", "LS1 moves"),
        ("LS1 scratches", "TP3 signal", "P1 scratchy", "C5 good",
         "LS1 moves"),
        ("LS1 rasps", "TP4 alive", "LS1 cone torn"),
        ("LS1 silent", "TP4 quiet"),
        ("LS1 silent", "TP4 alive", "LS1 coil open"),
    ],
)

MENDED = AMPLIFIER._replace(rules=[
    APART if rule == OVERLAPPING else rule for rule in AMPLIFIER.rules])

EXAMPLES = {
    "001": Example({"board.pha": BOARD_001}, ["a"], 100),
    "supply": Example({"board.pha": SUPPLY}, ["TP3 dead"], 65535),
    "amplifier": Example(
        {"board.pha": AMPLIFIER, "mended.pha": MENDED}, ["TP2 quiet"], 65535),
}


def stored_files():
    """What is stored: the bytes of each file, by its path below here."""
    stored = {}
    for folder, example in EXAMPLES.items():
        for name, board in example.boards.items():
            stored[os.path.join(folder, name)] = board_file(board)
        stored[os.path.join(folder, "input")] = input_file(
            example.boards["board.pha"], example.asked, example.steps)
    return stored


def stale_files():
    """The paths whose stored bytes are missing or others."""
    stale = []
    for path, wanted in stored_files().items():
        try:
            with open(os.path.join(HERE, path), "rb") as handle:
                found = handle.read()
        except OSError:
            found = None
        if found != wanted:
            stale.append(path)
    return stale


def write_files():
    for path, wanted in stored_files().items():
        os.makedirs(os.path.join(HERE, os.path.dirname(path)), exist_ok=True)
        with open(os.path.join(HERE, path), "wb") as handle:
            handle.write(wanted)


def main(arguments):
    if arguments == ["--stale"]:
        stale = stale_files()
        for path in stale:
            print("examples/%s is stale" % path)
        return 1 if stale else 0
    if arguments:
        sys.stderr.write("use: boards.py\n     boards.py --stale\n")
        return 2
    write_files()
    return 0


if __name__ == "__main__":
    sys.exit(main(sys.argv[1:]))
