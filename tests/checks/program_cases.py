"""Cases for the program listing, in groups: a board file and an input.

What is to be printed is the enumerator's listing.  Where a case has the text
itself, from document 01, the enumerator is held to that.
"""

import random
from typing import NamedTuple

import boards
import enumerator as en
from boards import file_of
from checks.cases import LISTED_001, documented_listings
from checks.tally import loaded, run_for, typed
from containers.boards_bin import cut_files, struck_files
from malformed import malformed_files
from random_boards import (large_board, mutated, random_board, random_bytes,
                           random_question, spread_over, tied_board)


class Case(NamedTuple):
    name: str
    file: bytes
    keyed: bytes                # standard input
    text: object = None         # what is printed, where it is known


FILE_001 = file_of(boards.BOARD_001)


def documented():
    """C1 to C10, with the text of each."""
    for name, file, keyed, text in documented_listings():
        yield Case(name, file, keyed, text)


def refused_files():
    """ "A refused file prints only `refused`, the number, `at`, the place, and
    the question is not looked at" """
    for name, file, _ in malformed_files():
        for keyed in (typed((0,), 100), b""):
            yield Case("%s, %d bytes of input" % (name, len(keyed)), file,
                       keyed)
    # Most of these are refused.
    for name, file in (*cut_files(), *struck_files()):
        yield Case(name, file, typed((7,), 100))
    for byte in range(8):
        yield Case("the byte %d alone" % byte, bytes([byte]), bytes([9]))


def refused_questions():
    """ "a refused question prints only `refused` and the number"; "Opening
    checks 20 to 23 in that order." """
    questions_001 = {
        21: ((), tuple(range(9)), (0,) * 9, (200,) * 9, (7,) * 10,
             (8,) + tuple(range(8)), (0,) * 16, (7,) * 255, (255,) * 255,
             tuple(range(255))),
        22: ((8,), (255,), (128,), (7, 8), (8, 7), (8, 8), (7, 8, 7),
             (255, 0), (200, 3, 3), (3, 3, 200), tuple(range(1, 9)),
             (7, 6, 5, 4, 3, 2, 1, 8), (9, 0, 1, 2, 3, 4, 5, 6)),
        23: ((7, 7), (7, 6), (0, 0), (1, 0), (0, 7, 5), (0, 5, 5), (5, 5, 7),
             tuple(range(8))[::-1], (0, 1, 2, 3, 4, 5, 6, 6),
             (0, 0, 1, 2, 3, 4, 5, 6), (0, 1, 2, 3, 4, 5, 7, 6))}
    questions_128 = {
        21: (tuple(range(119, 128)),),
        22: ((128,), (127, 128), (129, 128), tuple(range(121, 129))),
        23: ((127, 126), (127, 127), (63, 64, 64), (64, 63))}
    bare = file_of((128, [], []))
    for file, questions in ((FILE_001, questions_001), (bare, questions_128)):
        for number, asked_ones in questions.items():
            for asked in asked_ones:
                shown = " ".join(map(str, asked[:9]))
                yield Case("%d asked: %s" % (len(asked), shown), file,
                           typed(asked, 100), b"refused %d\n" % number)
    for asked in ((127,), tuple(range(120, 128)), (0, 63, 64, 127)):
        yield Case("accepted: %r" % (asked,), bare, typed(asked, 100))


def short_inputs():
    """ "input too short for its count and allowance is refused with 21": every
    shorter length, whatever the atoms are."""
    short = b"refused 21\n"
    for asked, allowance in (((7,), 100), ((7,), 0), ((5, 7), 65535),
                             (tuple(range(8)), 100), ((8,), 100), ((7, 7), 1),
                             ((200, 3, 3), 513), ((7,) * 8, 256)):
        whole = typed(asked, allowance)
        for length in range(len(whole)):
            yield Case("%r cut to %d" % (whole, length), FILE_001,
                       whole[:length], short)
    for count in (0, 1, 8, 9, 255):
        for length in range(1, count + 3):
            for byte in (0, 255):
                keyed = bytes([count]) + bytes([byte]) * (length - 1)
                yield Case("count %d, %d bytes, all %d" % (
                    count, length, byte), FILE_001, keyed, short)


def longer_inputs():
    """ "input beyond the allowance is ignored" """
    for file, keyed, text in (
            (FILE_001, typed((7,), 100), LISTED_001),
            (FILE_001, typed((7,), 16), None),
            (FILE_001, typed(tuple(range(8)), 100), None),
            (FILE_001, typed((), 100), b"refused 21\n"),
            (FILE_001, typed((8,), 100), b"refused 22\n"),
            (FILE_001, typed((7, 7), 100), b"refused 23\n"),
            (FILE_001, typed((0,) * 255, 100), b"refused 21\n"),
            (FILE_001[:-1], typed((7,), 100), b"refused 1 at 102\n")):
        for more in (b"\0", b"\377", b"\n", keyed, bytes(100), b"\7" * 100,
                     bytes(100_000), b"\377" * 100_000):
            yield Case("%r and %d bytes" % (keyed[:12], len(more)), file,
                       keyed + more, text)


def long_board():
    """More steps than an allowance can have, and no line: 16 hypotheses of
    different weights, for each of them a spread of 128 entries, and for each
    of these a chain of 80 atoms that ends in an atom without a rule.  Gives
    the board and the question."""
    rules = [(head, (head - 1,)) for head in range(8, 88)]
    rules += [(88, (*(low for low in range(7) if bits >> low & 1), 87))
              for bits in range(128)]
    rules += [(105, (atom,)) for atom in range(89, 105)]
    return (106, [[(89 + i, 1 + i) for i in range(16)]], rules), (88, 105)


def allowances():
    """ "a two-byte allowance, low byte first": boards on which the search goes
    on beyond what one byte says, and beyond what two bytes say."""
    for allowance in (0, 1, 2, 16, 19, 21, 22, 23, 24, 100, 255, 256, 257,
                      5888, 65280, 65535):
        yield Case("001 board, allowance %d" % allowance, FILE_001,
                   typed((7,), allowance))
    board, heads = boards.product_board((16, 16, 2))
    for allowance in (0, 1, 2, 4, 16, 19, 21, 100, 127, 128, 254, 255, 256,
                      257, 258, 511, 512, 513, 1023, 1024, 1025, 1279, 1280,
                      1793, 1827, 1828, 2048, 32767, 32768, 65535):
        yield Case("512 explanations, allowance %d" % allowance,
                   file_of(board), typed(heads, allowance))
    board, asked = long_board()
    for allowance in (4096, 32768, 65535):
        yield Case("long board, allowance %d" % allowance, file_of(board),
                   typed(asked, allowance))


# No later byte of a file matters: the count, 127 hypotheses and 256 rules have
# 3,324 bytes, and a 257th rule has 10.
DECIDING = 3334


def largest_files():
    """The largest file that is accepted, 3,325 bytes, and files that differ
    from it from its end record on: cut, and with more behind."""
    most = file_of(boards.full_board(1))
    before, keyed = most[:-1], typed((127,), 300)
    files = {
        "largest": most,
        "257th rule": file_of(boards.full_board(1, 257)),
        "W too large": file_of(boards.full_board(7198647)),
        "W near the limit": file_of(boards.full_board(7198646))}
    # Its last place is the last byte that matters: 4, 9, 11, else 12.
    for last in (128, 254, 6, 0, 127, 126, 255):
        files["257th rule, last place %d" % last] = (
            before + en.rule_record(127, (*range(7), last)))
    for kind in (0, 1, 2, 5, 255):
        files["kind %d in place of the end" % kind] = before + bytes([kind])
    for name, file in files.items():
        yield Case(name, file, keyed)
        for more in (b"\0", b"\4", bytes(9), b"\3" * 10, bytes(1_000_000),
                     b"\4" * 1_000_000):
            yield Case("%s and %d bytes" % (name, len(more)), file + more,
                       keyed)
    for name in ("largest", "257th rule", "W too large"):
        for length in range(3315, 3341):
            yield Case("%s, %d bytes" % (name, length),
                       (files[name] + bytes(20))[:length], keyed)
    for more in (3230, 3231, 3232, 3233, 1_000_000):    # 3,333 to 3,336 bytes
        yield Case("001 board and %d bytes" % more, FILE_001 + bytes(more),
                   keyed, b"refused 3 at 103\n")


def accepted():
    """Boards that load, each asked for its lowest and its highest atom."""
    for name, board in boards.accepted_boards():
        for atom in sorted({0, board[0] - 1}):
            yield Case("%s, asked %d" % (name, atom), file_of(board),
                       typed((atom,), 300))


def sure_board():
    """32 declarations of one hypothesis, W is 10^15: the one explanation has
    all 32 and weighs 10^15.  Gives the board and the question."""
    totals = [2] * 15 + [1] + [5] * 15 + [1]
    rules = [(124 + i, tuple(range(8 * i, 8 * i + 8))) for i in range(4)]
    return (128, [[(atom, total)] for atom, total in enumerate(totals)],
            rules), (124, 125, 126, 127)


def longest_board():
    """28 declarations of one hypothesis and 4 of 4, with atoms of two and of
    three digits: 256 explanations with 32 atoms each.  Gives the board and the
    question."""
    choices = [[(76 + 4 * d + i, 4 + i) for i in range(4)] for d in range(4)]
    sure = [[(96 + d, 3 if d % 2 else 2 if d < 18 else 1)] for d in range(28)]
    rules = [(92 + d, (atom,)) for d, choice in enumerate(choices)
             for atom, _ in choice]
    rules += [(124 + i, tuple(range(96 + 7 * i, 103 + 7 * i)))
              for i in range(4)]
    return (128, choices + sure, rules), (92, 93, 94, 95, 124, 125, 126, 127)


def endings():
    """Boards up to their end: with an allowance of just as many steps, one
    less and one more; and with none."""
    pairs = {
        "C8": (boards.BOARD_C8, (4,)), "C9": (boards.BOARD_C9, (0,)),
        "C10": (boards.BOARD_C10, (0,)), "sure": (boards.BOARD_SURE, (3,)),
        "either": (boards.BOARD_EITHER, (2,)),
        "never both": (boards.BOARD_001, (0, 1)),
        "all of the 001 board": (boards.BOARD_001, tuple(range(8))),
        "full board": (boards.full_board(7198646), (0, 24, 126, 127)),
        "wide board": (boards.wide_board(), (104, 127)),
        "all chosen": boards.all_chosen_board(),
        "spread": boards.spread_board(),
        "32 sure": sure_board(), "longest": longest_board(),
        # 512 entries of 10^15 each; the high end is at most W.
        "brimful, W 10^15": boards.brimful_board(
            128, 4, 1, beside=(6250000, 10000000))}
    for sizes in ((16, 16, 2), (2, 16, 16), (16, 16), (16, 16, 3)):
        pairs["product %r" % (sizes,)] = boards.product_board(sizes)
    for kind in ("apart", "against", "inside"):
        pairs["256 lines, then " + kind] = boards.late_board(kind)
    for shape in ((128, 4, 1), (128, 4, 2), (128, 4, 1, 1), (73, 7, 2),
                  (73, 7, 3), (73, 7, 2, 2), (170, 3, 3), (170, 3, 4, 1)):
        pairs["brimful %r" % (shape,)] = boards.brimful_board(*shape)
    for name, (board, asked) in pairs.items():
        steps = run_for(loaded(board), asked, 65535).steps
        for allowance in sorted({0, steps - 1, steps, steps + 1}):
            yield Case("%s, allowance %d" % (name, allowance), file_of(board),
                       typed(asked, allowance))


def random_ones():
    """Random boards, small ones, ones with equal weights and large ones; and
    spoiled files and inputs."""
    rng = random.Random(20261201)
    for number in range(1, 321):
        if number <= 200:
            board = random_board(rng)
        elif number <= 300:
            board = tied_board(rng)
        else:
            board = large_board(rng)
        if number % 4 == 0 and board[0] <= 64:
            board = spread_over(rng, board, rng.choice((64, 65, 100, 128)))
        file = file_of(board)
        keyed = typed(random_question(rng, en.load(file).table),
                      rng.choice((0, 1, 2, 3, 5, 9, 20, 50, 100, 255, 256,
                                  1000, 1500)))
        keyed += random_bytes(rng, rng.randrange(3))
        yield Case("random board %d" % number, file, keyed)
        if number % 5 == 0:
            yield Case("random board %d, spoiled" % number,
                       mutated(rng, file), keyed)
            yield Case("random board %d, random input" % number, file,
                       bytes([rng.randrange(5)])
                       + bytes(rng.randrange(board[0] + 1)
                               for _ in range(rng.randrange(8))))


GROUPS = (
    ("C1 to C10", documented), ("refused files", refused_files),
    ("refused questions", refused_questions),
    ("inputs too short", short_inputs), ("longer inputs", longer_inputs),
    ("allowances", allowances), ("largest files", largest_files),
    ("accepted boards", accepted), ("endings", endings),
    ("random boards", random_ones))
