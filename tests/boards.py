"""The boards of document 01 and others of fixed shapes, and files that load.

A board is a structure (atom count, declarations, rules), as
`enumerator.build_file` takes it.
"""

import importlib.util
import os
from itertools import combinations

from enumerator import build_file


def file_of(board):
    """The file of a board."""
    return build_file(*board)


# "The 001 board, whole"
BOARD_001 = (
    8,
    [[(0, 3), (1, 7)], [(2, 6), (3, 3), (4, 1)]],
    [(7, (0, 5)), (7, (2, 6)), (6, (5,)), (6, (0, 2)),
     (5, (0, 3)), (5, (1, 2)), (5, (0, 4))],
)

# C8: the two rules for 4 overlap.
BOARD_C8 = (
    5,
    [[(0, 1), (1, 1)], [(2, 1), (3, 1)]],
    [(4, (0,)), (4, (2,))],
)

# C9: one atom, no declaration, a rule for it with no body.
BOARD_C9 = (1, [], [(0, ())])

# C10: atom 0 has neither rule nor declaration.
BOARD_C10 = (1, [], [])

# {0} is sure.  {0, 1} weighs what {1} weighs, and only {1} is minimal.  The
# rule that leads to {0, 1} comes first, and its entry is the older one.
BOARD_SURE = (
    4,
    [[(0, 1)], [(1, 2), (2, 3)]],
    [(3, (0, 1)), (3, (1,))],
)

# Two lines that exclude each other.
BOARD_EITHER = (3, [[(0, 1), (1, 1)]], [(2, (0,)), (2, (1,))])


def board_with_totals(wanted):
    """One declaration of one hypothesis for each wanted total (C7)."""
    return (max(1, len(wanted)),
            [[(number, total)] for number, total in enumerate(wanted)], [])


def board_with_rules(count):
    """`count` rules, all different as long as there are bodies for it: atom
    127 from each set of one or two of the atoms below it, in file order."""
    bodies = [(a,) for a in range(127)]
    bodies += [(a, b) for b in range(1, 40) for a in range(b)]
    return (128, [], [(127, body) for body in bodies[:count]])


def board_with_declarations(count):
    """`count` declarations of one hypothesis each, all weights 1."""
    return (128, [[(number, 1)] for number in range(count)], [])


def board_with_hypotheses(count):
    """One declaration of `count` hypotheses, all weights 1."""
    return (128, [[(atom, 1) for atom in range(count)]], [])


def even_board(count, size, weight=1):
    """`count` declarations of `size` hypotheses, all of this weight."""
    return (count * size, [[(size * d + i, weight) for i in range(size)]
                           for d in range(count)], [])


def product_board(sizes, more_rules=()):
    """Declarations of the given sizes, all weights 1, and for each of them
    one atom with a rule from each of its hypotheses.  Asked for all these
    atoms it has as many explanations as the product of the sizes, no two of
    them compatible.  Gives the board and the question."""
    declarations, rules, atom = [], [], 0
    for size in sizes:
        declarations.append([(atom + i, 1) for i in range(size)])
        atom += size
    heads = tuple(range(atom, atom + len(sizes)))
    for head, declaration in zip(heads, declarations):
        rules += [(head, (hypothesis,)) for hypothesis, _ in declaration]
    return (atom + len(sizes), declarations, rules + list(more_rules)), heads


def spread_board():
    """Declarations of 8, 8 and 4 hypotheses and six of a sure one, over all of
    128 atoms: 256 explanations with nine atoms each.  Gives the board and the
    question, which has atoms that are sure too."""
    atoms = iter(range(1, 128, 4))
    declarations = [[(next(atoms), 7)] for _ in range(3)]
    declarations += [[(next(atoms), 1 + i // 3) for i in range(size)]
                     for size in (8, 8, 4)]
    declarations += [[(next(atoms), 1)] for _ in range(3)]
    heads = tuple(next(atoms) for _ in range(3))
    rules = [(head, (atom,)) for head, declaration in zip(
        heads, declarations[3:6]) for atom, _ in declaration]
    sure = tuple(declaration[0][0] for declaration in declarations
                 if len(declaration) == 1)
    rules += [(127, sure[1:5] + heads)]
    return (128, declarations, rules), (sure[0], sure[5], 127)


def all_chosen_board():
    """32 declarations of two, and one atom that follows from the first
    hypothesis of each: its explanation has 32 atoms.  Atoms of both words, in
    another order than that of the declarations."""
    declarations = [[(37 * d % 64, 1 + d % 3), (64 + d, 1)] for d in range(32)]
    firsts = sorted(declaration[0][0] for declaration in declarations)
    rules = [(100 + i, tuple(firsts[8 * i:8 * i + 8])) for i in range(4)]
    rules += [(127, (100, 101, 102, 103)), (127, (64, 95, 100, 101))]
    return (128, declarations, rules), (127,)


def brimful_board(fan, each, last, more=0, beside=()):
    """A board whose store holds fan * each entries after 1 + fan steps, and
    one step later, if there is room, last - 1 more.

    Asked are p and q.  q has `fan` rules, from sets of one to three of 16
    hypotheses; p has `each` rules, from one atom each, of which z, the
    highest, has `last` rules.  The first atom below z is a fact.  With more =
    1, z has one rule more, from that atom, which gives an entry that is held
    already; with more = 2, its first rule is repeated.  `beside` has the
    totals of declarations that no rule names.  Gives the board and the
    question."""
    bodies = [body for size in (1, 2, 3)
              for body in combinations(range(16), size)][:fan]
    others = range(16, 15 + each)
    ends = range(15 + each, 15 + each + last)
    z = 15 + each + last
    p, q = z + 1, z + 2
    rules = [(q, body) for body in bodies]
    rules += [(p, (atom,)) for atom in (*others, z)]
    rules += [(z, (atom,)) for atom in ends]
    rules += [[], [(z, (16,))], [(z, (15 + each,))]][more] + [(16, ())]
    declarations = [[(atom, 1) for atom in range(16)]]
    declarations += [[(q + 1 + i, total)] for i, total in enumerate(beside)]
    return (q + 1 + len(beside), declarations, rules), (p, q)


def late_board(kind):
    """256 explanations of one choice from each of two declarations of 16; and
    one more, which comes after them: with kind "apart" it is c, compatible
    with all of them, with "against" all 256 have d, which excludes c, and with
    "inside" it has one of the 256 in it.  Gives the board and the question."""
    declarations = [[(16 * d + i, 1) for i in range(16)] for d in range(2)]
    c, d, p, r, q = 32, 33, 34, 35, 36
    declarations.append([(c, 1), (d, 1000)])
    rules = [(p, (atom,)) for atom in range(16)]
    rules += [(r, (atom,)) for atom in range(16, 32)]
    rules += [(q, (d, p, r) if kind == "against" else (p, r)),
              (q, (0, 16, c) if kind == "inside" else (c,))]
    return (37, declarations, rules), (q,)


def board_with_bodies(count):
    """`count` rules with 8 body atoms each, no declaration: the heads 8 to
    127 in turn, from the 8 atoms right below, then from the 8 lowest, then
    from the 7 lowest and the one right below."""
    rules = [(head, tuple(range(head - 8, head))) for head in range(8, 128)]
    rules += [(head, tuple(range(8))) for head in range(9, 128)]
    rules += [(head, tuple(range(7)) + (head - 1,)) for head in range(9, 128)]
    return (128, [], rules[:count])


# Declarations of the full board: 25 of one hypothesis, 4 of 15, 3 of 14, which
# are all atoms but 127.  W is 15^4 * 14^3 = 138,915,000 times the weight of
# atom 0.
FULL_SIZES = (1,) * 25 + (15,) * 4 + (14,) * 3


def full_board(weight, rules=256):
    """32 declarations, 127 hypotheses and 256 rules for atom 127 with 8 body
    atoms each: with a hypothesis more there would be no head left.  Atom 0
    has the given weight, all others weigh 1.

    The declarations 25, 26 and 27 have the atoms 25 to 39, 40 to 54 and 55 to
    69.  Each body has the sure atoms 0 to 4 and one atom of each of the three,
    never its first.  So at most one rule holds in a board state: the first
    with 26, 41, 56, the 256th (255 = 1 * 196 + 4 * 14 + 3) with 27, 45, 59."""
    declarations, atom = [], 0
    for size in FULL_SIZES:
        declarations.append([(atom + i, 1) for i in range(size)])
        atom += size
    declarations[0] = [(0, weight)]
    bodies = [(0, 1, 2, 3, 4, 26 + i // 196, 41 + i // 14 % 14, 56 + i % 14)
              for i in range(rules)]
    return (128, declarations, [(127, body) for body in bodies])


def wide_board():
    """24 declarations of 4 and 8 of 1, all weights 1: W is 4^24.  256 rules
    with 8 body atoms each for the 24 atoms that are left."""
    declarations = [[(4 * d + i, 1) for i in range(4)] for d in range(24)]
    declarations += [[(96 + d, 1)] for d in range(8)]
    rules = []
    for number in range(256):
        head = 104 + number % 24
        start = 37 * number % (head - 7)
        rules.append((head, tuple(range(start, start + 8))))
    return (128, declarations, rules)


def bench_boards():
    """The boards of the benchmark, whose stores stand at some 500 entries for
    thousands of steps: by name the file and the question."""
    path = os.path.join(os.path.dirname(os.path.dirname(
        os.path.abspath(__file__))), "bench", "boards.py")
    spec = importlib.util.spec_from_file_location("bench_boards", path)
    bench = importlib.util.module_from_spec(spec)
    spec.loader.exec_module(bench)
    found = {}
    for name, make in bench.BOARDS.items():
        maker, question = make()
        found[name] = maker.file(), tuple(question)
    return found


def accepted_boards():
    """Boards whose files load."""
    yield "001 board", BOARD_001
    yield "C7, five totals of 1000", board_with_totals([1000] * 5)
    yield "C7, one more of 1", board_with_totals([1000] * 5 + [1])
    yield "C8", BOARD_C8
    yield "C9", BOARD_C9
    yield "C10", BOARD_C10
    yield "sure hypothesis", BOARD_SURE
    yield "256 rules", board_with_rules(256)
    yield "32 declarations", board_with_declarations(32)
    yield "16 hypotheses", board_with_hypotheses(16)
    yield "128 atoms alone", (128, [], [])
    yield "largest weight", (1, [[(0, 16777215)]], [])
    yield "8 body atoms", (9, [], [(8, tuple(range(8)))])
    yield "repeated rule", (2, [], [(1, (0,)), (1, (0,))])
    yield "two rules, one head, no body", (1, [], [(0, ()), (0, ())])
    yield "hypotheses above rule heads", (
        4, [[(3, 2), (1, 5)]], [(2, (0, 1)), (0, ())])
    yield "16 declarations of 8", even_board(16, 8)
    yield "product 16 16 2", product_board((16, 16, 2))[0]

    # The weight's three bytes, low byte first.
    for weight in (1, 255, 256, 257, 65535, 65536, 66051, 16711680):
        yield "weight %d" % weight, (1, [[(0, weight)]], [])
    # W at its limit and near it.
    yield "16 of the largest weight", even_board(1, 16, 16777215)
    yield "W 2^32", even_board(8, 16)
    # 10^8 is 5 * 16,777,215 + 16,113,925.
    yield "W 10^15 of sums", (
        7, [[(i, 16777215) for i in range(5)] + [(5, 16113925)],
            [(6, 10000000)]], [])
    yield "W 10^15 of 32 totals", board_with_totals(
        [2] * 15 + [1] + [5] * 15 + [1])
    yield "W one below the limit", board_with_totals(
        [27, 31, 37, 41, 271, 2906161])
    yield "32 declarations, the last of 16", (
        47, [[(d, 1)] for d in range(31)]
        + [[(31 + i, 1) for i in range(16)]], [])
    # Nothing stands between hypotheses, heads and bare atoms.
    yield "atoms descending", (
        128, [[(127, 1), (126, 2)], [(125, 3), (0, 4)]],
        [(124, ()), (124, (0,)), (1, (0,)), (123, (0, 1, 2))])
    yield "hypothesis between two heads", (
        3, [[(1, 1)]], [(2, (0, 1)), (2, (1,)), (0, ())])
    yield "numbers that look like kinds", (
        5, [[(1, 4), (2, 2 + 3 * 256 + 4 * 65536)]],
        [(4, (1, 2, 3)), (3, (1,)), (4, (2, 3)), (3, (2,))])
    yield "head 127, no body", (128, [], [(127, ())])
    yield "head 127, body 126", (128, [], [(127, (126,))])
    yield "head 0, no body, twice", (128, [], [(0, ()), (0, ())])
    yield "256 equal rules", (1, [], [(0, ())] * 256)
    yield "255 rules", board_with_rules(255)
    yield "256 rules with 8 body atoms", board_with_bodies(256)
    yield "full board", full_board(1)
    yield "full board, W near the limit", full_board(7198646)
    yield "wide board", wide_board()


def accepted_files():
    """The name and the bytes of each file."""
    return [(name, file_of(board)) for name, board in accepted_boards()]
