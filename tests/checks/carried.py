"""The containers of acts and of runs by `drive` for the program replay, and
what is stored in crates/replay."""

import os
from functools import lru_cache

import enumerator as en
from checks.demand3 import Truth, hold_run
from checks.stored import hold_container
from checks.tally import TESTS, section
from containers import acts, driven_bin
from containers.acts import Open, Run, Share, TrueWeight
from containers.fields import faults, fields_of, room_fault, search_of
from replay import ACTS, FILES, OF_FILES, PROGRAM

# Each clause of "Well formed means", as `fields.faults` names it.
CLAUSES = (
    "too many entries", "too many lines", "unused room of entries not zero",
    "unused room of lines not zero", "an atom not below the count",
    "a choice that is no hypothesis", "two choices in one declaration",
    "a weight not as defined", "entries not in strict order",
    "lines not in strict order", "two compatible lines",
    "a line that does not go before an entry held")


class Met:
    """What the items met, counted."""

    def __init__(self):
        self.answers = {}           # of each container
        self.alone = {}             # clauses that a run broke, and no other
        self.true_weights = 0       # runs that were held to the brute force
        self.at_done = 0            # true weights printed after done

    def answer(self, container, answer):
        answers = self.answers.setdefault(container, {})
        answers[answer] = answers.get(answer, 0) + 1

    def clause(self, broken):
        if len(broken) == 1:
            name, = broken
            self.alone[name] = self.alone.get(name, 0) + 1


def answer_of(done):
    """ `open`, `run`, `share` or `true` and what it answered, or None """
    if isinstance(done.act, Open):
        return "open %s" % (done.answer or "accepted")
    if isinstance(done.act, Run):
        return "run %s" % done.answer.answer
    if isinstance(done.act, Share):
        return "share %s" % (done.answer.refusal or "told")
    if isinstance(done.act, TrueWeight):
        return "true %s" % ("too many" if done.answer is None else "told")
    return None


def few_sets(table):
    """Whether the brute force gets done with this table."""
    sets = 1
    for declaration in table.declarations:
        sets *= len(declaration) + 1
    return sets <= 300


@lru_cache(maxsize=1)
def told_weight(truth):
    """The weights of the board states in which yes-or-no says yes to each
    asked atom, summed."""
    return sum(en.state_weight(truth.table, state)
               for state in en.board_states(truth.table)
               if all(en.yes_or_no(truth.table, state, atom).holds
                      for atom in truth.asked))


def hold_item(tally, what, done, met):
    """What must hold of the acts of an item, answered one by one."""
    truth = None        # of the question, as long as the table stays
    for one in done:
        if isinstance(one.act, Open):
            truth = None
            if not one.answer and few_sets(one.table):
                truth = Truth(one.table, one.act.asked)
        elif isinstance(one.act, Run):
            hold_answer(tally, what, one, met)
            if truth and one.table == truth.table:
                # The search that the run leaves is one of runs alone only if
                # nothing was set between.
                ran = one.answer._replace(search=search_of(one.after))
                hold_run(tally, what, truth, ran, en.Limits())
                met.true_weights += 1
                if ran.answer == en.DONE:
                    tally.same(what + ": yes-or-no by yes-or-no",
                               told_weight(truth), ran.low)
        elif isinstance(one.act, Share):
            tally.same(what + ": a share leaves the search", one.after,
                       one.before)
        elif isinstance(one.act, TrueWeight):
            if truth and one.table == truth.table:
                tally.same(what + ": true weight", one.answer, truth.weight)
        elif one.act is not None:
            truth = None


def hold_true_weights(tally, what, done, met):
    """A printed true weight lies between the ends of the run before it, and is
    both of them where that run answered done.  Only openings and runs, and no
    refusal but 31, 32 and 33, may come before it."""
    for number, one in enumerate(done):
        if isinstance(one.act, TrueWeight):
            opened, *ran = done[1:number]
            tally.same(what + ": an opening and runs",
                       ([type(opened.act), opened.answer],
                        {type(other.act) for other in ran} - {Run}),
                       ([Open, 0], set()))
            tally.same(what + ": a true weight leaves the search", one.after,
                       one.before)
            if ran and one.answer is not None:
                last = ran[-1].answer
                tally.true(what + ": true weight between the ends",
                           last.low <= one.answer <= last.high)
                if last.answer == en.DONE:
                    tally.same(what + ": true weight at done",
                               (one.answer, one.answer),
                               (last.low, last.high))
                    met.at_done += 1


def hold_answer(tally, what, one, met):
    """A run: refused by 20 and 34 as it should be, with what it is to leave;
    a search that was not touched is left with its unused room zero."""
    answer = one.answer
    tally.same(what + ": 20", answer.answer == 20, one.table is None)
    if one.table is not None:
        broken = faults(one.table, one.before)
        tally.same(what + ": 34", answer.answer == 34, bool(broken))
        if broken:
            met.clause(broken)
    if answer.answer in (20, 34):
        tally.same(what + ": handed back", (one.after, *answer[2:]),
                   (one.before, 0, 0, 0))
    else:
        tally.same(what + ": room", room_fault(one.after), None)
        tally.same(what + ": arrays", fields_of(search_of(one.after)),
                   one.after)


def hold_items(tally, name, of_items, met):
    """A container of acts, or of runs by `drive`, as `of_items` has them;
    gives its lines."""
    written, items = hold_container(tally, PROGRAM, name)
    printed = []
    for item in items:
        done = list(of_items.carried_out(*item[1:]))
        printed += of_items.lines_of(done)
        what = "%s, %s" % (name, item.name)
        hold_item(tally, what, done, met)
        hold_true_weights(tally, what, done, met)
        for answer in (driven_answers if of_items is driven_bin
                       else act_answers)(done):
            met.answer(name, answer)
    print("  %s: %d items, %d bytes: %s" % (
        name, len(items), len(written), ", ".join(
            "%s %d" % answer for answer in sorted(met.answers[name].items()))))
    return printed


def act_answers(done):
    """The answer of each act that has one."""
    return filter(None, map(answer_of, done[1:]))


def driven_answers(done):
    """What is handed back: that of opening and that of the last run, and of
    the run before it."""
    _, opened, *ran = done
    yield answer_of(opened)
    yield answer_of(ran[-1]) if ran else "no run"
    if len(ran) > 1:
        yield "after %s" % ran[-2].answer.answer


@section("acts for the program replay, and what is stored in crates/replay")
def replay_files(tally):
    folder = os.path.join(os.path.dirname(TESTS), "crates", "replay")
    met = Met()
    printed = [line for name in FILES for lines in OF_FILES.lines_of()[name]
               for line in lines]
    for name in ACTS:
        printed += hold_items(tally, name, acts, met)
    printed += hold_items(tally, "driven.bin", driven_bin, met)
    for name, container in PROGRAM.containers.items():
        hold_stored(tally, os.path.join(folder, "data", name),
                    PROGRAM.written(container))
    stdout = "".join(line + "\n" for line in printed).encode("ascii")
    hold_stored(tally, os.path.join(folder, "stdout"), stdout)
    print("  stdout: %d lines, %d bytes; %d runs held to the brute force, %d "
          "true weights after done" % (
              len(printed), len(stdout), met.true_weights, met.at_done))
    hold_met(tally, met)


def hold_stored(tally, path, wanted):
    """A stored file is what would be written."""
    tally.true("%s is stale; to write anew: python3 tests/replay.py "
               "crates/replay" % path, en.file_bytes(path) == wanted)


def hold_met(tally, met):
    """Every clause of 34 was broken alone, and every answer met."""
    print("  34 by one clause alone: " + ", ".join(
        "%s %d" % (clause, met.alone.get(clause, 0)) for clause in CLAUSES))
    for clause in CLAUSES:
        tally.true("five times 34 by this alone: " + clause,
                   met.alone.get(clause, 0) >= 5)
    tally.same("no other clause", set(met.alone) - set(CLAUSES), set())
    for container, least, answers in (
            ("runs.bin", 5, (
                "open accepted", "open 20", "open 21", "open 22", "open 23",
                "run done", "run more", "run 20", "run 31", "run 32",
                "run 33", "true told")),
            ("runs.bin", 2, ("true too many",)),
            ("handed.bin", 5, ("run done", "run more", "run 32", "run 33",
                               "run 34")),
            ("shares.bin", 20, ("share told", "share 34", "share 36")),
            ("changed.bin", 20, ("open 20", "run 20", "run 34", "run done",
                                 "run more", "share 20", "share 34",
                                 "share 36", "share told")),
            ("driven.bin", 5, (
                "open accepted", "open 20", "open 21", "open 22", "open 23",
                "no run", "run done", "run more", "run 31", "run 32",
                "run 33", "after done", "after more", "after 32")),
            ("driven.bin", 3, ("after 31", "after 33"))):
        for answer in answers:
            tally.true("%s: %d times %s" % (container, least, answer),
                       met.answers[container].get(answer, 0) >= least)
    tally.true("runs held to the brute force", met.true_weights >= 500)
    tally.true("true weights after done", met.at_done >= 200)
