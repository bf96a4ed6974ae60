"""Wrong readings of document 01, for `telling`: each has a name, and says what
it puts in the place of what.
"""

from bisect import bisect_right
from functools import partial

import enumerator as en
from containers import acts, fields
from reading import search as reading

RIGHT = {name: getattr(reading, name) for name in dir(reading)}
RIGHT_ORDER = reading.entry_order


# The order of entries.

def number_of(atoms):
    return sum(2 ** atom for atom in atoms)


ORDERS = {
    "order: size ignored":
        lambda e: (-e.weight, e.chosen, -number_of(e.pending)),
    "order: larger sets first":
        lambda e: (-e.weight, -len(e.chosen), e.chosen,
                   -number_of(e.pending)),
    "order: dictionary reversed":
        lambda e: (-e.weight, len(e.chosen), tuple(-a for a in e.chosen),
                   -number_of(e.pending)),
    "order: sets as numbers":
        lambda e: (-e.weight, len(e.chosen), number_of(e.chosen),
                   -number_of(e.pending)),
    "order: high word of a set first":
        lambda e: (-e.weight, len(e.chosen),
                   [a for a in e.chosen if a > 63], e.chosen,
                   -number_of(e.pending)),
    "order: pending smaller first":
        lambda e: (-e.weight, len(e.chosen), e.chosen, number_of(e.pending)),
    "order: more pending first":
        lambda e: (-e.weight, len(e.chosen), e.chosen, -len(e.pending),
                   -number_of(e.pending)),
    "order: low word of pending first":
        lambda e: (-e.weight, len(e.chosen), e.chosen,
                   -number_of(a for a in e.pending if a < 64),
                   -number_of(e.pending)),
    "order: weights by 32 bits":
        lambda e: (-(e.weight % 2 ** 32), *RIGHT_ORDER(e)[1:]),
    "order: lighter first":
        lambda e: (e.weight, *RIGHT_ORDER(e)[1:]),
}


def by_age(held, new):
    """Equal weights in the order in which they came."""
    store = list(held)
    for entry in new:
        if entry not in store:
            store.insert(bisect_right(store, -entry.weight,
                                      key=lambda e: -e.weight), entry)
    return store


def equal_ones_twice(held, new):
    return sorted([*held, *new], key=RIGHT_ORDER)


# The step.

def wrong_step(table, search, limits=en.Limits(), *, drops="always",
               finished="right", room="right", after=None):
    """`step` with something wrong in it."""
    first, held = search.entries[0], search.entries[1:]
    chosen = frozenset(first.chosen)
    contains = any(chosen.issuperset(line.chosen) for line in search.lines)
    if contains and (drops == "always" or drops == "if finished"
                     and not first.pending):
        return en.StepAnswer(0, en.Search(held, search.lines))
    if not first.pending:
        overlaps = any(en.compatible(table, first.chosen, line.chosen)
                       for line in search.lines)
        full = len(search.lines) == limits.lines - (finished == "255 lines")
        if finished == "33 first" and full:
            return en.StepAnswer(33, search)
        if overlaps and finished == "overlapping dropped":
            return en.StepAnswer(0, en.Search(held, search.lines))
        if overlaps and finished != "overlapping listed":
            return en.StepAnswer(32, search)
        if full:
            return en.StepAnswer(33, search)
        line = en.Line(first.weight, first.chosen)
        return en.StepAnswer(0, en.Search(held, search.lines + (line,)))
    new = (after or RIGHT["entries_after"])(table, first)
    store = RIGHT["put_in_order"](held, new)
    would = {"right": len(store), "before removal": len(store) + 1,
             "equal ones twice": len(held) + len(new),
             "one more": len(store) - 1}[room]
    if would > limits.entries:
        return en.StepAnswer(31, search)
    return en.StepAnswer(0, en.Search(tuple(store), search.lines))


def lowest_pending(table, entry):
    """The lowest pending atom is taken, not the highest."""
    alone = entry._replace(pending=entry.pending[:1])
    return [en.new_entry(table, found.chosen,
                         {*found.pending, *entry.pending[1:]})
            for found in RIGHT["entries_after"](table, alone)]


def chosen_again(table, entry):
    """A hypothesis that is in D already drops the entry."""
    if max(entry.pending) in entry.chosen:
        return []
    return RIGHT["entries_after"](table, entry)


def first_rule_only(table, entry):
    return RIGHT["entries_after"](table, entry)[:1]


def another_kept(table, entry):
    """If D chose another, the entry stays, without the atom."""
    found = RIGHT["entries_after"](table, entry)
    if not found and max(entry.pending) in table.declaration_of:
        return [entry._replace(pending=entry.pending[:-1])]
    return found


STEPS = {
    "step: listed sets asked only when finished": {"drops": "if finished"},
    "step: listed sets not asked": {"drops": "never"},
    "step: 33 before 32": {"finished": "33 first"},
    "step: overlapping listed": {"finished": "overlapping listed"},
    "step: overlapping dropped": {"finished": "overlapping dropped"},
    "step: 33 at the 256th line": {"finished": "255 lines"},
    "step: store tested before removal": {"room": "before removal"},
    "step: equal entries counted twice for 31": {"room": "equal ones twice"},
    "step: room for 513": {"room": "one more"},
    "step: lowest pending atom": {"after": lowest_pending},
    "step: a choice made again drops the entry": {"after": chosen_again},
    "step: another choice is kept": {"after": another_kept},
    "step: the first rule only": {"after": first_rule_only},
}


# The run and the share.

def changed_run(change, table, search, allowance, limits=en.Limits()):
    """The run, with its answer changed."""
    return change(table, search, RIGHT["run_well_formed"](
        table, search, allowance, limits), allowance)


def lost_entry(table, search, ran, allowance):
    """A refused step has removed the entry all the same."""
    if ran.answer in (31, 32, 33):
        return ran._replace(search=ran.search._replace(
            entries=ran.search.entries[1:]))
    return ran


RUNS = {
    "run: a refused step is counted": lambda table, search, ran, allowance: (
        ran._replace(steps=ran.steps + (ran.answer in (31, 32, 33)))),
    "run: a refused step removes the entry": lost_entry,
    "run: a refused run hands back what it was handed":
        lambda table, search, ran, allowance: ran._replace(
            search=search) if ran.answer in (31, 32, 33) else ran,
    "run: more where the last step emptied the store":
        lambda table, search, ran, allowance: ran._replace(
            answer=en.MORE) if ran.steps == allowance else ran,
    "run: a refusal though the allowance was used":
        lambda table, search, ran, allowance: ran._replace(
            answer=RIGHT["step"](table, ran.search).refusal or en.MORE)
        if ran.answer == en.MORE else ran,
    "run: high end without the low end": lambda table, search, ran, _: (
        ran._replace(high=ran.high - ran.low)),
    "run: low end of the first 255 lines": lambda table, search, ran, _: (
        ran._replace(low=sum(line.weight for line in ran.search.lines[:255]))),
}

ALLOWANCES = {
    "run: one step more": lambda allowance: allowance + 1,
    "run: allowance of one byte": lambda allowance: allowance % 256,
    "run: allowance of 15 bits": lambda allowance: allowance % 2 ** 15,
    "run: allowance 0 is no bound": lambda allowance: allowance or 65535,
}

SHARES = {
    "share: rounded up": lambda weight, low: -(-weight * 1000 // low),
    "share: rounded to the nearest": lambda weight, low: (
        weight * 2000 + low) // (2 * low),
    "share: in hundredths times ten": lambda weight, low: (
        weight * 100 // low * 10),
    "share: low end divided first": lambda weight, low: (
        weight // (low // 1000 or 1)),
    "share: product by 32 bits": lambda weight, low: (
        weight * 1000 % 2 ** 32 // low),
}


def wrong_share(reading_of_it, search, line_number):
    right = RIGHT["share_well_formed"](search, line_number)
    if right.refusal:
        return right
    return right._replace(share=reading_of_it(
        search.lines[line_number - 1].weight, en.low_end(search)))


def share_from_zero(search, line_number):
    return RIGHT["share_well_formed"](search, line_number + 1)


# What is refused, and in which order.

def without_clause(clause, table, held):
    """34 with one clause not asked."""
    return RIGHT_FAULTS(table, held) - {clause}


RIGHT_FAULTS = fields.faults.__wrapped__

CLAUSES = (
    "an atom not below the count", "a choice that is no hypothesis",
    "two choices in one declaration", "a weight not as defined",
    "entries not in strict order", "lines not in strict order",
    "two compatible lines", "a line that does not go before an entry held",
    "unused room of entries not zero", "unused room of lines not zero")


def open_21_after(table, asked):
    """22 and 23 before 21."""
    if any(atom >= table.atom_count for atom in asked):
        return en.OpenAnswer(22, en.empty_search())
    return RIGHT["open_search"](table, asked)


def open_23_first(table, asked):
    """23 before 22."""
    if 1 <= len(asked) <= 8 and any(
            low >= high for low, high in zip(asked, asked[1:])):
        return en.OpenAnswer(23, en.empty_search())
    return RIGHT["open_search"](table, asked)


def open_repeated(table, asked):
    """Asked atoms may be equal."""
    if 1 <= len(asked) <= 8 and list(asked) == sorted(asked):
        return RIGHT["open_search"](table, tuple(sorted(set(asked))))
    return RIGHT["open_search"](table, asked)


def run_34_first(table, held, allowance):
    """34 before 20, as far as a room is not zero."""
    if fields.room_fault(held):
        return en.RunAnswer(held, 34, 0, 0, 0)
    return RIGHT_RUN(table, held, allowance)


def share_36_first(table, held, line):
    """36 before 20 and 34."""
    if not 1 <= line <= held.lines:
        return en.ShareAnswer(36, None)
    return RIGHT_SHARE(table, held, line)


def share_34_first(table, held, line):
    """34 before 20, as far as a room is not zero."""
    if fields.room_fault(held):
        return en.ShareAnswer(34, None)
    return RIGHT_SHARE(table, held, line)


def room_kept(table, held, allowance):
    """What was in a room that is used no more is left there."""
    ran = RIGHT_RUN(table, held, allowance)
    if ran.answer in (20, 34):
        return ran
    kept = {name: tuple(new or old for new, old in zip(after, before))
            for name, after, before in zip(fields.Fields._fields[2:],
                                           ran.search[2:], held[2:])}
    return ran._replace(search=ran.search._replace(**kept))


RIGHT_RUN, RIGHT_SHARE = acts.run, acts.share


def readings():
    """The name of each wrong reading, and what it puts where."""
    for name, order in ORDERS.items():
        yield name, [(reading, "entry_order", order), (
            reading, "line_order",
            lambda line, order=order: order(en.Entry(*line, ())))]
    yield "order: ties by age", [(reading, "put_in_order", by_age)]
    yield "store: an entry held is added twice", [
        (reading, "put_in_order", equal_ones_twice)]
    for name, wrong in STEPS.items():
        yield name, [(reading, "step", partial(wrong_step, **wrong))]
    yield "run: high end uncapped", [
        (reading, "high_end", lambda table, search: en.uncapped_end(search))]
    for name, change in RUNS.items():
        yield name, [(en, "run_well_formed", partial(changed_run, change))]
    for name, other in ALLOWANCES.items():
        yield name, [(acts, "run", lambda table, held, allowance, other=other:
                      RIGHT_RUN(table, held, other(allowance)))]
    for name, wrong in SHARES.items():
        yield name, [(en, "share_well_formed", partial(wrong_share, wrong))]
    yield "share: lines from 0", [(en, "share_well_formed", share_from_zero)]
    for clause in CLAUSES:
        yield "34 not asked: " + clause, [
            (acts, "faults", partial(without_clause, clause))]
    for name, opening in (("open: 22 before 21", open_21_after),
                          ("open: 23 before 22", open_23_first),
                          ("open: equal atoms taken", open_repeated)):
        yield name, [(en, "open_search", opening)]
    yield "run: 34 before 20", [(acts, "run", run_34_first)]
    yield "run: room that was used not zero", [(acts, "run", room_kept)]
    yield "share: 36 before 34", [(acts, "share", share_36_first)]
    yield "share: 34 before 20", [(acts, "share", share_34_first)]
