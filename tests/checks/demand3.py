"""Demand 3 in small: the step rule, replayed, is held to the brute force."""

import random

import enumerator as en
from checks.tally import loaded, opened, section
from random_boards import random_allowances, random_board, random_question


class Truth:
    """What the brute force says of one question."""

    def __init__(self, table, asked):
        self.table = table
        self.asked = asked
        self.weight = en.true_weight(table, asked)
        self.minimal = tuple(en.minimal_explanations(table, asked))


def hold_search(tally, what, truth, search, limits):
    """What must hold after any sequence of runs, the empty one included."""
    table = truth.table
    low, high = en.low_end(search), en.high_end(table, search)
    tally.true("%s: low %d <= true %d <= high %d"
               % (what, low, truth.weight, high), low <= truth.weight <= high)
    tally.true(what + ": high at most W", high <= en.whole_weight(table))
    tally.same(what + ": lines", search.lines,
               truth.minimal[:len(search.lines)])
    tally.same(what + ": well formed",
               en.broken_clause(table, search, limits), None)


def hold_run(tally, what, truth, ran, limits):
    """What must hold after a run, besides what holds of its search."""
    hold_search(tally, what, truth, ran.search, limits)
    tally.same(what + ": ends", (ran.low, ran.high),
               (en.low_end(ran.search),
                en.high_end(truth.table, ran.search)))
    tally.true("%s: answer %r" % (what, ran.answer),
               ran.answer in (en.DONE, en.MORE, 31, 32, 33))
    tally.same(what + ": done if the store is empty",
               ran.answer == en.DONE, not ran.search.entries)
    if ran.answer == en.DONE:
        tally.same(what + ": done, ends", (ran.low, ran.high),
                   (truth.weight, truth.weight))
        tally.same(what + ": done, all", ran.search.lines, truth.minimal)


def hold_sequence(tally, what, truth, allowances, limits, reached):
    """Runs one sequence and looks after each of its runs.  Gives the search
    that it ends with.  `reached` counts the sequences that met a thing."""
    search = opened(truth.table, truth.asked)
    met = set()
    hold_search(tally, what + " at opening", truth, search, limits)
    for number, allowance in enumerate(allowances):
        before = search
        ran = en.run(truth.table, before, allowance, limits)
        search = ran.search
        here = "%s after run %d" % (what, number)
        hold_run(tally, here, truth, ran, limits)
        tally.true(here + ": steps within the allowance",
                   ran.steps <= allowance)
        if ran.answer == en.MORE:
            tally.same(here + ": more, allowance used", ran.steps, allowance)
        if ran.answer in (31, 32, 33):
            tally.true(here + ": refused before the allowance was used",
                       ran.steps < allowance)
            again = en.run(truth.table, search, 7, limits)
            tally.same(here + ": refused again", again,
                       ran._replace(steps=0))
        if ran.steps == 0:
            tally.same(here + ": no step, same search", search, before)
        met.add(ran.answer)
        if ran.low < truth.weight < ran.high:
            met.add("strictly between")
        if ran.answer == en.DONE and len(search.lines) > 1:
            met.add("done with two lines or more")
    for name in met:
        reached[name] = reached.get(name, 0) + 1
    return search


def hold_split(tally, what, table, search, first, second, limits):
    """A run split in two gives what one run gives."""
    whole = en.run(table, search, first + second, limits)
    one = en.run(table, search, first, limits)
    two = en.run(table, one.search, second, limits)
    tally.same(what + ": split, search", two.search, whole.search)
    tally.same(what + ": split, steps", one.steps + two.steps, whole.steps)
    tally.same(what + ": split, ends", (two.low, two.high),
               (whole.low, whole.high))
    # A run without allowance tries no step, so it cannot meet the refusal.
    if second > 0 or one.answer in (en.DONE, en.MORE):
        tally.same(what + ": split, answer", two.answer, whole.answer)


LIMITS = (en.Limits(), en.Limits(4, 3), en.Limits(8, 4), en.Limits(3, 1),
          en.Limits(12, 2))


@section("random boards against the brute force")
def random_boards(tally):
    rng = random.Random(20260102)
    reached = {}
    for number in range(3000):
        table = loaded(random_board(rng))
        asked = random_question(rng, table)
        truth = Truth(table, asked)
        what = "board %d %r asked %r" % (number, table, asked)

        # One whole run, then some sequences.
        hold_sequence(tally, what, truth, [65535], en.Limits(), reached)
        for limits in (en.Limits(), rng.choice(LIMITS[1:])):
            allowances = random_allowances(rng)
            search = hold_sequence(
                tally, "%s %r %r" % (what, limits, allowances), truth,
                allowances, limits, reached)
            hold_split(tally, what, table, opened(table, asked),
                       rng.randrange(12), rng.randrange(12), limits)
            hold_split(tally, what, table, search,
                       rng.randrange(6), rng.randrange(6), limits)
        shares = [en.share(table, search, line + 1, limits).share
                  for line in range(len(search.lines))]
        if shares:
            tally.true(what + ": shares make 1000, but for the rounding",
                       1000 - len(shares) < sum(shares) <= 1000)
        tally.same(what + ": share of no line", en.share(
            table, search, len(shares) + 1, limits).refusal, 36)
        # Step by step, so that each search on the way is looked at.
        if number % 5 == 0:
            limits = rng.choice(LIMITS)
            hold_sequence(tally, "%s %r by one" % (what, limits), truth,
                          [1] * 40, limits, reached)
    wanted = (en.DONE, en.MORE, 31, 32, 33, "done with two lines or more",
              "strictly between")
    print("  sequences that met: " + ", ".join(
        "%s %d" % (name, reached.get(name, 0)) for name in wanted))
    for name in wanted:
        tally.true("random sequences met %s at least once" % name,
                   reached.get(name, 0) > 0)


@section("random boards, meaning of one state")
def random_states(tally):
    rng = random.Random(20260103)
    said = {True: 0, False: 0}
    for number in range(300):
        table = loaded(random_board(rng))
        states = list(en.board_states(table))
        what = "board %d %r" % (number, table)
        tally.same(what + ": states weigh W",
                   sum(en.state_weight(table, state) for state in states),
                   en.whole_weight(table))
        for state in rng.sample(states, min(6, len(states))):
            chained = en.derived_atoms(table, state)
            for atom in range(table.atom_count):
                answer = en.yes_or_no(table, state, atom)
                tally.same("%s %r %d" % (what, state, atom), answer,
                           (0, atom in chained))
                said[answer.holds] += 1
        # A question holds in a state exactly if the state contains a minimal
        # explanation; so the states counted by the lines are the true ones.
        asked = random_question(rng, table)
        minimal = [set(line.chosen)
                   for line in en.minimal_explanations(table, asked)]
        covered = sum(en.state_weight(table, state) for state in states
                      if any(chosen <= set(state) for chosen in minimal))
        tally.same("%s asked %r: covered" % (what, asked), covered,
                   en.true_weight(table, asked))
    tally.true("both yes and no were said", min(said.values()) > 0)
