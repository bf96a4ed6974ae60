"""Items of states.bin: board files, a board state and an asked atom.

After the file: a byte with the count of the state's atoms, these atoms, and a
byte for the atom asked.  The line for an item is `yes`, `no` or `refused N`.
The question is put to the table that loading hands back, which for a refused
file has every field zero and so is one that no file loads to.
"""

import random
from functools import lru_cache
from typing import NamedTuple

import boards
import enumerator as en
from containers.common import ATOMS, refused
from random_boards import random_board

TAIL = (ATOMS, 1)
MOST = 60_000               # it has fewer bytes than this

YES, NO = "yes", "no"


class Item(NamedTuple):
    name: str
    file: bytes
    state: tuple
    atom: int


def line(file, state, atom):
    """ `yes`, `no` or `refused N`; no file loads to the table that a refused
    load hands back, since a count of 0 is refused """
    loaded = en.load(file)
    if loaded.refusal:
        return refused(20)
    answer = en.yes_or_no(loaded.table, tuple(state), atom)
    if answer.refusal:
        return refused(answer.refusal)
    return YES if answer.holds else NO


def lines(*item):
    return [line(*item)]


def asked(states, *atoms):
    """Each of the atoms in each of the states."""
    return [(state, atom) for state in states for atom in atoms]


def asked_of(title, board, cases):
    """Items of one board.  A case has the state and the atom."""
    file = boards.file_of(board)
    for number, (state, atom) in enumerate(cases, 1):
        chosen = " ".join(map(str, state)) or "nothing"
        if len(state) > 8:
            chosen = "%d choices" % len(state)
        yield Item("%s %d: %s, asked %d" % (title, number, chosen, atom),
                   file, tuple(state), atom)


def asked_of_all(title, board):
    """Items for every atom in each of the states of a board."""
    table = en.load(boards.file_of(board)).table
    return asked_of(title, board, asked(en.board_states(table),
                                        *range(table.atom_count)))


def small_states():
    """All board states of the 001 board and of C8, for every atom."""
    yield from asked_of_all("001 board", boards.BOARD_001)
    yield from asked_of_all("C8", boards.BOARD_C8)


def refused_states():
    """ "25 | board state | not one choice per declaration, or a choice from
    elsewhere"; "22 | asked atom | an asked atom not below the count"; "The
    yes-or-no checks 20, 25, 22" """
    yield from asked_of("001 board, refused", boards.BOARD_001, (
        # Too few, too many.
        asked([(), (0,), (2,), (0, 2, 2), (0, 2, 3), (0, 1, 2), (0, 2, 0),
               (0, 2, 5), (0, 2, 255), (0, 2) * 4], 7)
        # From another declaration, also the other way round.
        + asked([(0, 1), (0, 0), (2, 2), (2, 3), (2, 0), (4, 1)], 7)
        # No hypothesis, or no atom.
        + asked([(0, 5), (7, 2), (5, 6), (0, 8), (0, 200), (255, 2),
                 (255, 255)], 7)
        # The asked atom.
        + [((0, 2), 8), ((0, 2), 9), ((1, 3), 127), ((1, 3), 128),
           ((0, 4), 254), ((1, 2), 255)]
        # Both: 25 goes before 22.
        + [((), 8), ((0,), 255), ((0, 2, 3), 8), ((0, 1), 8), ((0, 5), 255),
           ((2, 0), 200), ((255, 255), 255)]
        # A refused state is refused also where the answer would not need it.
        + [((0, 1), 0), ((2, 0), 5)]))
    yield from asked_of("C8, refused", boards.BOARD_C8, (
        asked([(0, 1), (2, 3), (2, 0), (0, 4)], 4)
        + asked([(0, 2), (0, 4)], 5)))
    right = tuple(range(32))
    yield from asked_of(
        "32 declarations", boards.board_with_declarations(32), (
            asked([right], 31, 0, 32, 127, 128)
            + asked([right[:31], right + (32,), right + (31,), right * 7,
                     (right * 8)[:255], (0,) * 32, (1, 0) + right[2:],
                     right[:30] + (31, 30), right[:31] + (30,)], 0)
            + asked([right[:31] + (32,)], 0, 128)))
    yield from asked_of("16 hypotheses", boards.board_with_hypotheses(16), [
        ((0,), 0), ((15,), 15), ((15,), 0), ((0,), 15), ((14,), 15),
        ((16,), 15), ((127,), 0), ((15, 15), 15), ((), 15)])


def unloaded_states():
    """ "A refused load returns the table whose every field is zero."; "20 |
    table | a table handed in that no file loads to"; "The yes-or-no checks
    20, 25, 22" """
    file = boards.file_of(boards.BOARD_001)
    for name, spoiled in (("the empty file", b""), ("cut off", file[:-1]),
                          ("a byte after the end", file + b"\4"),
                          ("kind", b"\5" + file[1:])):
        for state, atom in (((), 0), ((1, 2), 7), ((2, 1), 255)):
            yield Item("refused file, %s: %s, asked %d" % (
                name, " ".join(map(str, state)) or "nothing", atom),
                spoiled, state, atom)


def bare_states():
    """Boards without declarations, rules without body, atoms without rule."""
    yield from asked_of("C9", boards.BOARD_C9, (
        asked([()], 0, 1, 255) + asked([(0,)], 0, 1) + asked([(255,)], 0)))
    yield from asked_of("C10", boards.BOARD_C10, (
        asked([()], 0, 1) + asked([(0,)], 0)))
    yield from asked_of("128 bare atoms", (128, [], []),
                        asked([()], 0, 127, 128))
    yield from asked_of_all("no body, no declaration", (
        5, [], [(1, (0,)), (2, ()), (3, (2,)), (4, (2, 3)), (4, (0,))]))
    yield from asked_of_all("no body among others", (
        5, [[(0, 1), (1, 1)]],
        [(3, (0,)), (3, ()), (4, (1, 3)), (4, (0, 2))]))
    yield from asked_of_all("repeated rules", (
        3, [[(0, 1), (1, 1)]], [(2, (0,)), (2, (0,))]))
    # Declarations not in atom order.
    board = (6, [[(5, 1), (3, 2)], [(0, 1), (4, 3)]], [(1, ()), (2, (0, 1))])
    yield from asked_of_all("hypotheses above the heads", board)
    yield from asked_of("hypotheses above the heads, refused", board,
                        asked([(0, 5), (3, 5), (3, 1)], 2))


def both_below(top, first=2):
    """ "n from n-2, n-1" for every n from `first` up to `top`."""
    return [(n, (n - 2, n - 1)) for n in range(first, top + 1)]


def either_below(top):
    """n from n-1, and n from n-2: two rules for each n up to `top`."""
    return [(n, (below,)) for n in range(2, top + 1)
            for below in (n - 1, n - 2)]


def eight_below(top):
    """n from the 8 atoms right below, for every n up to `top`."""
    return [(n, tuple(range(n - 8, n))) for n in range(8, top + 1)]


def facts(count):
    """A rule with no body for each of the lowest atoms."""
    return [(n, ()) for n in range(count)]


# Declarations for a ladder up to 125: 0 or else 126, 1 or else 127.
APART = [[(0, 1), (126, 1)], [(1, 1), (127, 1)]]


def ladder_states():
    """128 atoms and rules that lead from each atom to those right below it.
    Whoever goes down both ways anew at each atom does not get done."""
    for title, declarations, rules, states, atom in (
            ("both below, facts", [], facts(2) + both_below(127), [()], 127),
            ("both below, one fact", [], facts(1) + both_below(127), [()],
             127),
            ("both below, sure", [[(0, 1)], [(1, 1)]], both_below(127),
             [(0, 1)], 127),
            ("both below, never both", [[(0, 1), (1, 1)]], both_below(127),
             [(0,), (1,)], 127),
            ("both below, apart", APART, both_below(125),
             [(0, 1), (126, 127)], 125),
            # 126 has no rule, so 127 falls with the last of its body; below,
            # all hold.
            ("both below, a gap at 126", [],
             facts(2) + both_below(125) + both_below(127, 127), [()], 127),
            # With 126 and 127 chosen, every way down fails.
            ("either below, apart", APART, either_below(125),
             [(126, 1), (126, 127)], 125),
            ("eight below, facts", [], (facts(8) + eight_below(127))[::-1],
             [()], 127),
            ("eight below, the last fact missing", [],
             facts(7) + eight_below(127), [()], 127),
            # A chain as long as can be.
            ("chain", [[(0, 1)]], [(n, (n - 1,)) for n in range(1, 128)],
             [(0,)], 127)):
        yield from asked_of(title, (128, declarations, rules),
                            asked(states, atom))


def full_states():
    """256 rules, all for atom 127, of which at most one holds (see
    `boards.full_board`): the last, or none, where the 257th would; for each
    the choices from the declarations 25, 26 and 27.  Then 256 rules of which
    only the last differs, and holds."""
    board = boards.full_board(1)
    firsts = tuple(declaration[0][0] for declaration in board[1])
    yield from asked_of("full board", board, asked(
        [firsts[:25] + choices + firsts[28:]
         for choices in ((27, 45, 59), (27, 45, 60))], 127))
    yield from asked_of("255 equal rules", (
        3, [[(0, 1), (1, 1)]], [(2, (0, 1))] * 255 + [(2, (1,))]),
        asked([(1,)], 2))


def random_states():
    """Random boards with a random state and atom, some of them spoiled."""
    rng = random.Random(20260106)
    of_each = {YES: 40, NO: 40, refused(25): 12, refused(22): 8}
    number = 0
    while sum(of_each.values()):
        board = random_board(rng)
        file = boards.file_of(board)
        state = [rng.choice(declaration)[0] for declaration in board[1]]
        heads = [head for head, _ in board[2]]
        atom = rng.randrange(board[0])
        if heads and rng.random() < 0.8:
            atom = rng.choice(heads)
        if rng.random() < 0.2:
            state = spoiled_state(rng, state)
        if rng.random() < 0.2:
            atom = rng.choice((board[0], rng.randrange(256), 255))
        answer = line(file, state, atom)
        if of_each[answer]:
            of_each[answer] -= 1
            number += 1
            yield Item("random state %d" % number, file, tuple(state), atom)


def spoiled_state(rng, state):
    """The state with one choice too many or too few, another choice, or two
    exchanged."""
    state = list(state)
    at = rng.randrange(len(state) + 1)
    way = rng.choice(("more", "less", "other", "swap"))
    if way == "more" or at == len(state):
        state.insert(at, rng.choice((rng.randrange(256), rng.randrange(8))))
    elif way == "less":
        del state[at]
    elif way == "other":
        state[at] = rng.choice((rng.randrange(256), rng.randrange(8)))
    else:
        other = rng.randrange(len(state))
        state[at], state[other] = state[other], state[at]
    return state


@lru_cache(maxsize=None)
def items():
    """All items, in order."""
    return (*small_states(), *refused_states(), *unloaded_states(),
            *bare_states(), *ladder_states(), *full_states(),
            *random_states())
