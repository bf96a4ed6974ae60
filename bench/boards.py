"""The benchmark's boards, by a fixed seed, each with its question.

    python3 bench/boards.py FOLDER

writes for every board `NAME.pha`, the board file, and `NAME.input`: a count
byte, the asked atoms and an allowance of two bytes, low byte first.  The board
of dear steps is written into FOLDER/dear.

A board is a spread over a ladder.  The spread is a few declarations of nearly
equal weights, from which the first rules choose, so that some 500 partial
proofs stand side by side.  The ladder below it is rung under rung, each with
a declaration of its own: a partial proof takes one more hypothesis, loses
weight, and goes back behind others.  So the store stays at its depth, while
its entries take turns, until the ladder ends.  Rules of one head choose
differently in one declaration, so no two explanations are compatible.  Some
boards list what comes at once before the ladder, since a step looks at every
line.

"Body atoms are below the head", and a step takes the highest pending atom: a
board is built from its lowest atom up, and what is built last is asked first.
"""

import itertools
import pathlib
import random
import sys

sys.path.insert(0, str(pathlib.Path(__file__).parent.parent / "tests"))

from reading.files import build_file, load  # noqa: E402

SEED = 20260801
LONGEST = 65535


class Maker:
    """A board while it is built, from its lowest atom up."""

    def __init__(self, name):
        self.random = random.Random(f"{SEED} {name}")
        self.atoms = 0
        self.declarations = []
        self.rules = []

    def atom(self):
        self.atoms += 1
        return self.atoms - 1

    def declare(self, weights):
        """The atoms of a new declaration."""
        atoms = [self.atom() for _ in weights]
        self.declarations.append(list(zip(atoms, weights)))
        return atoms

    def rule(self, head, body):
        self.rules.append((head, tuple(sorted(body))))

    def head(self, *bodies):
        """A new atom, with a rule for each body."""
        atom = self.atom()
        for body in bodies:
            self.rule(atom, body)
        return atom

    def tell_again(self, count, heads):
        """Repeats rules of these heads, which "adds no meaning"."""
        rules = [rule for rule in self.rules if rule[0] in heads]
        self.rules += [self.random.choice(rules) for _ in range(count)]

    def file(self):
        """The rules are told in any order."""
        self.random.shuffle(self.rules)
        file = build_file(self.atoms, self.declarations, self.rules)
        if load(file).refusal:
            raise ValueError(f"refused: {load(file)}")
        return file


def near(maker, count, low, high):
    """Weights that are nearly equal."""
    return [maker.random.randint(low, high) for _ in range(count)]


def pairs(maker, count, threes):
    """The weights of `count` declarations of two: most are even, and
    `threes` of them are not."""
    uneven = [maker.random.choice([(1, 2), (2, 1)]) for _ in range(threes)]
    weights = [(1, 1)] * (count - threes) + uneven
    maker.random.shuffle(weights)
    return weights


def spread(maker, sizes, low, high, below):
    """Rules that choose from declarations of these sizes, one after another,
    the last one first, and then go on to the atoms `below`, in turn.  The
    atom on top, and the atoms of each declaration."""
    chosen = []
    for size in sizes:
        atoms = maker.declare(near(maker, size, low, high))
        bodies = zip(atoms, itertools.cycle(below))
        below = [maker.head(*bodies)]
        chosen.append(atoms)
    return below[0], chosen


def at_once(maker, chosen):
    """Rules that choose from these declarations and are done."""
    top = maker.head(*([atom] for atom in chosen[0]))
    for atoms in chosen[1:]:
        top = maker.head(*([atom, top] for atom in atoms))
    return top


def one_of(maker, weights, ways):
    """What is asked: one of these ways, by a declaration of its own."""
    atoms = maker.declare(weights)
    return maker.head(*zip(atoms, ways))


def two_tracks(maker, weights, below):
    """A ladder with two atoms a rung, each with one rule: it takes one of the
    rung's two hypotheses, and goes on to either atom below."""
    for pair in weights:
        atoms = maker.declare(pair)
        across = maker.random.choice([0, 1])
        below = [maker.head([atoms[n], below[n ^ across]]) for n in (0, 1)]
    return below


def one_track(maker, weights, below):
    """A ladder with one atom a rung and one rule: its first hypothesis."""
    for pair in weights:
        atoms = maker.declare(pair)
        below = maker.head([atoms[0], below])
    return below


def double_rungs(maker, weights, below):
    """A ladder that takes a hypothesis of two declarations at each rung."""
    for first, second in zip(weights[::2], weights[1::2]):
        here = maker.declare(first)
        there = maker.declare(second)
        below = maker.head([here[0], there[0], below])
    return below


def relayed(maker, weights, below):
    """A ladder with a rule between each two rungs that chooses nothing."""
    for pair in weights:
        atoms = maker.declare(pair)
        below = maker.head([maker.head([atoms[0], below])])
    return below


def forks(maker, weights, below, aside):
    """A ladder with two rules a rung: one goes on, the other aside."""
    for pair in weights:
        atoms = maker.declare(pair)
        below = maker.head([atoms[0], below], [atoms[1], aside])
    return below


def ladder():
    """Eight lines early, 64 at the end; done."""
    maker = Maker("ladder")
    end = [maker.head([]), maker.atom()]
    low = two_tracks(maker, pairs(maker, 20, 8), end)
    top, chosen = spread(maker, (8, 8, 8), 5, 9, low[:1] + low[1:] * 7)
    early = at_once(maker, chosen[:1])
    return maker, [one_of(maker, (3, 1), (early, top))]


def early_halves(maker, halved, whole):
    """Two ways that are done at once, each with half of a declaration's
    hypotheses: what they list has no hypothesis in common."""
    half = len(halved) // 2
    return (at_once(maker, [halved[:half], whole]),
            at_once(maker, [halved[half:], whole]))


def listed():
    """A full list early, which no later line joins; done."""
    maker = Maker("listed")
    low = one_track(maker, pairs(maker, 27, 3), maker.head([maker.atom()]))
    top, chosen = spread(maker, (2, 16, 16), 5, 9, [low])
    early = early_halves(maker, *chosen[1:])
    question = one_of(maker, (2, 2, 1), (*early, top))
    maker.tell_again(256 - len(maker.rules), [*early, top])
    return maker, [question]


def forked():
    """Half of the partial proofs end at each rung, in a hypothesis of a
    declaration that chose another, and every third rule of a rung is told
    twice; done."""
    maker = Maker("forked")
    other, last = maker.atom(), maker.head([])
    low = forks(maker, pairs(maker, 24, 0), last, other)
    maker.rules += maker.rules[1::3]
    top, _ = spread(maker, (5, 7, 7), 5, 9, [low])
    maker.declarations[-1].append((other, 7))
    return maker, [top]


def doubled():
    """More than 256 lines at the end: refused by 33."""
    maker = Maker("doubled")
    low = double_rungs(maker, pairs(maker, 28, 3), maker.head([]))
    top, _ = spread(maker, (7, 7, 10), 5, 9, [low])
    return maker, [top]


def relay():
    """The store is full at the end: refused by 31."""
    maker = Maker("relay")
    atoms = maker.declare((1, 1))
    low = maker.head([atoms[0]], [atoms[1]])
    low = relayed(maker, pairs(maker, 22, 3), low)
    top, chosen = spread(maker, (5, 10, 10), 5, 9, [low])
    early = early_halves(maker, *chosen[1:])
    return maker, [one_of(maker, (1, 1, 1), (*early, top))]


BOARDS = {make.__name__: make
          for make in (ladder, listed, forked, doubled, relay)}


def subsets(atoms):
    return [list(some) for count in range(len(atoms) + 1)
            for some in itertools.combinations(atoms, count)]


def steep():
    """Dear steps, again and again: for each of 252 choices of equal weight, 256
    partial proofs have the same atom pending, which has all rules that are
    left, 217, and differ in other atoms that most of its bodies have too.  So
    what the rules give is mostly held: a step looks up 434 entries among some
    500, and adds one or none."""
    maker = Maker("steep")
    dead = [maker.atom() for _ in range(8)]
    atom = maker.atom()
    below = [atom] + [maker.head(*subsets(some))
                      for some in (dead[:3], dead[3:6], dead[6:])]
    for size in (6, 6, 7):
        choices = maker.declare([1] * size)
        below = [maker.head(*([choice, *below] for choice in choices))]
    bodies = [dead[:2] + some for some in subsets(dead[2:])]
    while len(maker.rules) < 256:
        maker.rule(atom, maker.random.choice(bodies))
    return maker, below


def write(folder, make):
    folder.mkdir(parents=True, exist_ok=True)
    maker, question = make()
    (folder / f"{make.__name__}.pha").write_bytes(maker.file())
    (folder / f"{make.__name__}.input").write_bytes(
        bytes([len(question)] + question) + LONGEST.to_bytes(2, "little"))


def main(folder):
    for make in BOARDS.values():
        write(pathlib.Path(folder), make)
    write(pathlib.Path(folder, "dear"), steep)


if __name__ == "__main__":
    main(sys.argv[1])
