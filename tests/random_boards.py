"""Random boards, questions and allowances, and files spoiled at random."""

from enumerator import (BODY_BYTES, Line, Search, compatible, entry_order,
                        line_order, new_entry, read_record, set_weight)


def random_board(rng, most_sets=250):
    """A small board, of one of three sorts.  `most_sets` bounds the sets with
    at most one hypothesis per declaration, which the brute force goes
    through."""
    sort = rng.choice((wild_board, tame_board, net_board))
    return sort(rng, most_sets)


def random_bytes(rng, count):
    return (rng.getrandbits(8 * count).to_bytes(count, "little") if count
            else b"")


def random_sizes(rng, most_sets, most=6):
    """Sizes of declarations, with not too many sets."""
    sizes, sets = [], 1
    for _ in range(rng.randint(0, most)):
        size = rng.choice((1, 1, 2, 2, 2, 2, 3, 3, 4))
        if sets * (size + 1) <= most_sets:
            sizes.append(size)
            sets *= size + 1
    return sizes


def random_declarations(rng, sizes, atoms):
    """Declarations of these sizes over the first of these atoms.  No total
    passes 300, and 300^6 is below the limit of W."""
    top_weight = rng.choice((1, 1, 2, 3, 9, 75))
    declarations, used = [], 0
    for size in sizes:
        declarations.append([(atom, rng.randint(1, top_weight))
                             for atom in atoms[used:used + size]])
        used += size
    return declarations


def shaken(rng, rules):
    """The rules, maybe with one repeated, maybe in another order."""
    rules = list(rules)
    if rules and rng.random() < 0.2:
        rules.append(rng.choice(rules))
    if rng.random() < 0.7:
        rng.shuffle(rules)
    return rules


def low_or_any_atoms(rng, hypotheses, others):
    """All atoms, those that are to be hypotheses first: the low ones, or
    any, so that rule heads and bare atoms stand between them."""
    atoms = list(range(hypotheses + others))
    if rng.random() < 0.4:
        rng.shuffle(atoms)
    return atoms


def wild_board(rng, most_sets):
    """Nothing is arranged: rules overlap, some atoms have none."""
    sizes = random_sizes(rng, most_sets)
    others = rng.randint(0 if sizes else 1, 6)
    atoms = low_or_any_atoms(rng, sum(sizes), others)
    declarations = random_declarations(rng, sizes, atoms)
    rules = []
    for head in sorted(atoms[sum(sizes):]):
        for _ in range(rng.choice((0, 1, 2, 2, 3, 4))):
            rules.append((head, random_body(rng, head, (), (0, 1, 1, 1, 1,
                                                           2, 2, 2, 3))))
    return (sum(sizes) + others, declarations, shaken(rng, rules))


def tame_board(rng, most_sets):
    """The rules for one atom differ in their choice from one declaration, so
    that they exclude one another."""
    sizes = random_sizes(rng, most_sets) or [2]
    others = rng.randint(1, 6)
    atoms = low_or_any_atoms(rng, sum(sizes), others)
    declarations = random_declarations(rng, sizes, atoms)
    return (sum(sizes) + others, declarations, shaken(rng, tame_rules(
        rng, declarations, atoms[sum(sizes):])))


def tame_rules(rng, declarations, heads):
    """Rules for these heads, those of one head mostly with different choices
    from one declaration."""
    rules = []
    for head in sorted(heads):
        usable = [[atom for atom, _ in declaration if atom < head]
                  for declaration in declarations]
        usable = [part for part in usable if part]
        if usable and rng.random() < 0.9:
            rules += [(head, random_body(rng, head, (atom,), (0, 0, 1, 1, 2)))
                      for atom in rng.choice(usable) if rng.random() < 0.9]
        else:
            rules.append((head, random_body(rng, head, (), (0, 1, 2))))
    return rules


def tied_board(rng):
    """A tame or a wild board in which most weights are 1 and many hypotheses
    are sure, so that many sets weigh the same."""
    sizes = [rng.choice((1, 1, 1, 2, 2, 3)) for _ in range(rng.randint(3, 8))]
    others = rng.randint(3, 9)
    atoms = low_or_any_atoms(rng, sum(sizes), others)
    used = iter(atoms)
    declarations = [[(next(used), 1) for _ in range(size)] for size in sizes]
    rules = tame_rules(rng, declarations, atoms[sum(sizes):])
    for head in atoms[sum(sizes):]:         # and the same with one more atom
        for body in [body for other, body in rules if other == head]:
            if rng.random() < 0.4:
                rules.append((head, random_body(rng, head, body, (1, 1, 2))))
    return (sum(sizes) + others, declarations, shaken(rng, rules))


def large_board(rng):
    """A tame board of 20 to 128 atoms, mostly up to 60.  Its W is at most
    10^15, and no declaration makes it larger than 9 * 9 times."""
    count = rng.choice((rng.randint(20, 60), rng.randint(20, 60), 128))
    most = rng.choice((count // 3, count // 2, 2 * count // 3))
    top_weight = rng.choice((1, 2, 5, 9))
    atoms = low_or_any_atoms(rng, most, count - most)
    declarations, used, whole = [], 0, 1
    while used < most and len(declarations) < 32 and whole < 10 ** 13:
        size = min(rng.choice((1, 2, 2, 3, 3, 4, 6, 9)), most - used)
        declarations.append([(atom, rng.randint(1, top_weight))
                             for atom in atoms[used:used + size]])
        whole *= sum(weight for _, weight in declarations[-1])
        used += size
    rules = tame_rules(rng, declarations, atoms[used:])
    return (count, declarations, shaken(rng, rules)[:256])


def net_board(rng, most_sets):
    """A chain or tree of two-valued variables, each with a declaration for
    each value of the one that it hangs on: the translation of a small
    network.  The first has a declaration of two or three."""
    first = rng.choice((2, 2, 3))
    sizes, hangs_on = [first], []
    sets = first + 1
    values = [first]                    # how many values each variable has
    while len(hangs_on) < 3:
        parent = rng.randrange(len(values))
        more = 3 ** values[parent]
        if sets * more > most_sets or rng.random() < 0.1:
            break
        sets *= more
        sizes += [2] * values[parent]
        hangs_on.append(parent)
        values.append(2)
    others = 2 * len(hangs_on) + rng.randint(0, 2)
    atoms = list(range(sum(sizes) + others))
    declarations = random_declarations(rng, sizes, atoms)
    value_atoms = [list(range(first))]
    causes = iter(declarations[1:])
    head, rules = sum(sizes), []
    for parent in hangs_on:
        own = [head, head + 1]
        head += 2
        for atom in value_atoms[parent]:
            cause = next(causes)
            for value, (hypothesis, _) in zip(own, cause):
                rules.append((value, tuple(sorted((atom, hypothesis)))))
        value_atoms.append(own)
    while head < len(atoms):            # atoms that several values give
        choices = rng.choice(value_atoms)
        rules += [(head, random_body(rng, head, (atom,), (0, 0, 0, 1)))
                  for atom in choices]
        head += 1
    if rules and rng.random() < 0.2:    # a gap
        rules.remove(rng.choice(rules))
    return (len(atoms), declarations, shaken(rng, rules))


def spread_over(rng, board, wider):
    """The board with its atoms, in their order, anywhere among so many."""
    atom_count, declarations, rules = board
    to = sorted(rng.sample(range(wider), atom_count))
    return (wider,
            [[(to[atom], weight) for atom, weight in declaration]
             for declaration in declarations],
            [(to[head], tuple(to[atom] for atom in body))
             for head, body in rules])


def random_body(rng, head, with_atoms, counts):
    """A body for the head: the given atoms and some others below it, half of
    the time near it."""
    body = set(with_atoms)
    for _ in range(rng.choice(counts)):
        if head:
            body.add(rng.randrange(head) if rng.random() < 0.5
                     else rng.randrange(head // 2, head))
    return tuple(sorted(body))


def random_question(rng, table):
    """One to four atoms, ascending, mostly heads of rules and high ones."""
    heads = [head for head, _ in table.rules]
    asked = set()
    for _ in range(rng.choice((1, 1, 1, 2, 2, 3, 4))):
        if heads and rng.random() < 0.8:
            asked.add(max(rng.choice(heads), rng.choice(heads)))
        else:
            asked.add(rng.randrange(table.atom_count))
    return tuple(sorted(asked))


def random_set(rng, table, often):
    """A set with at most one hypothesis per declaration."""
    return tuple(sorted(rng.choice(declaration)[0]
                        for declaration in table.declarations
                        if rng.random() < often))


def random_search(rng, table):
    """A search that is well formed, though no opening and runs may lead to
    it: lines that are not compatible, and entries that go after them."""
    lines = []
    for _ in range(rng.choice((0, 0, 1, 3, 6))):
        chosen = random_set(rng, table, 0.7)
        if not any(compatible(table, chosen, line.chosen) for line in lines):
            lines.append(Line(set_weight(table, chosen), chosen))
    lines.sort(key=line_order)
    often = rng.random()
    entries = {new_entry(table, random_set(rng, table, often), [
        atom for atom in range(table.atom_count)
        if rng.random() < 1.5 / table.atom_count])
        for _ in range(rng.choice((1, 3, 8, 14)))}
    entries = [entry for entry in sorted(entries, key=entry_order)
               if not lines or line_order(lines[-1]) < entry_order(entry)]
    return Search(tuple(entries), tuple(lines))


def random_allowances(rng):
    """The allowances of a sequence of runs; it may be empty."""
    return [rng.choice((0, 1, 1, 2, 3, 5, 9, 20, 1000, 65535))
            for _ in range(rng.randint(0, 6))]


def records_of(file):
    """The records of a file as byte strings, as far as they can be read."""
    place, parts = 0, []
    while True:
        answer = read_record(file, place)
        if answer.refusal:
            return parts
        parts.append(file[place:answer.place])
        place = answer.place


def mutated(rng, file):
    """The file, spoiled in one to three ways: bytes flipped, cut out, put in,
    or whole records taken away, doubled or exchanged."""
    for _ in range(rng.choice((1, 1, 1, 2, 3))):
        file = mutated_once(rng, file)
    return file


def mutated_once(rng, file):
    way = rng.choice(("flip", "set", "near", "cut", "drop", "insert",
                      "append", "unrecord", "double", "swap", "body"))
    at = rng.randrange(len(file) + 1)
    if way == "append":
        return file + bytes([rng.randrange(256)])
    if way == "insert":
        return file[:at] + bytes([rng.randrange(256)]) + file[at:]
    if way == "cut":
        return file[:at]
    if way in ("unrecord", "double", "swap", "body"):
        parts = records_of(file)
        if len(parts) < 2:
            return file
        which, other = rng.randrange(len(parts)), rng.randrange(len(parts))
        if way == "unrecord":
            del parts[which]
        elif way == "double":
            parts.insert(other, parts[which])
        elif way == "swap":
            parts[which], parts[other] = parts[other], parts[which]
        else:
            kind = parts[which][0]
            parts[which] = bytes([kind] + [
                rng.choice((0, 1, 2, 3, 4, 255, rng.randrange(256)))
                for _ in range(BODY_BYTES[kind])])
        return b"".join(parts)
    if at == len(file):
        return file
    if way == "drop":
        return file[:at] + file[at + 1:]
    if way == "flip":
        new = file[at] ^ (1 << rng.randrange(8))
    elif way == "near":
        new = (file[at] + rng.choice((-1, 1))) % 256
    else:
        new = rng.choice((0, 1, 2, 3, 4, 5, 128, 254, 255, rng.randrange(256)))
    return file[:at] + bytes([new]) + file[at + 1:]
