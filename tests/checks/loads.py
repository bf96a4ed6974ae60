"""Loading by the enumerator: fixed files, and files spoiled at random."""

import random

import enumerator as en
from boards import accepted_files, board_with_rules, file_of
from checks.tally import section
from malformed import malformed_files
from random_boards import mutated, random_board, random_bytes, records_of


def hold_load(tally, what, file, rng):
    """What must hold of the answer to any file; gives the answer."""
    answer = en.load(file)
    if answer.refusal == 0:
        hold_accepted(tally, what, file, answer, rng)
    else:
        hold_refused(tally, what, file, answer, rng)
    return answer


def hold_accepted(tally, what, file, answer, rng):
    tally.same(what + ": place", answer.place, None)
    written = en.file_of_table(answer.table)
    tally.same(what + ": written again", written, file)
    tally.same(what + ": loads to the same table", en.load(written), answer)
    tally.true(what + ": W in range",
               1 <= en.whole_weight(answer.table) <= 10 ** 15)
    cut = rng.randrange(len(file))
    tally.same(what + ": cut short", en.load(file[:cut]).refusal, 1)
    tail = bytes([rng.randrange(256)]) + random_bytes(
        rng, rng.randrange(3))
    tally.same(what + ": byte after the end",
               en.load(file + tail)[:2], (3, len(file)))


def hold_refused(tally, what, file, answer, rng):
    tally.true(what + ": number", 1 <= answer.refusal <= 12)
    tally.true(what + ": place", 0 <= answer.place <= len(file))
    tally.same(what + ": table", answer.table, en.empty_table())
    # The place is the start of a record, or the file's length.
    start = sum(map(len, records_of(file[:answer.place])))
    tally.same(what + ": place of a record", start, answer.place)
    if answer.refusal == 1:
        # Without the record that is cut off, the file is cut off there.
        tally.same(what + ": all before is well",
                   en.load(file[:answer.place])[:2], (1, answer.place))
        return
    # "The first failing record decides": nothing behind it counts.
    kept = answer.place + 1
    if answer.refusal > 3:
        kept += en.BODY_BYTES[file[answer.place]]
    other = file[:kept] + random_bytes(rng, rng.randrange(12))
    tally.same(what + ": first failing record decides",
               en.load(other), answer)


@section("loading, fixed files")
def loading_fixed(tally):
    """The number of a malformed file is its row in "What the scope says no
    to"."""
    rng = random.Random(20260109)
    seen = set()
    for name, file, wanted in (
            [(name, file, 0) for name, file in accepted_files()]
            + list(malformed_files())):
        answer = hold_load(tally, name, file, rng)
        tally.same(name, answer.refusal, wanted)
        seen.add(answer.refusal)
    tally.same("every answer of loading met", seen, set(range(13)))


@section("loading, spoiled files")
def loading_spoiled(tally):
    rng = random.Random(20260101)
    sources = [file for _, file in accepted_files()]
    sources += [file for _, file, _ in malformed_files()]
    sources += [file_of(random_board(rng)) for _ in range(300)]
    most_rules = file_of(board_with_rules(256))
    large = 1500
    met = dict.fromkeys(range(13), 0)
    for number in range(6000):
        source = rng.choice(sources)
        if len(source) > large:                 # slow, so not often
            source = rng.choice(sources[-300:])
        if number % 40 == 0:                    # else 12 would be rare
            source = most_rules
        answer = hold_load(tally, "spoiled file %d" % number,
                           mutated(rng, source), rng)
        met[answer.refusal] += 1
    print("  answers met: " + ", ".join(
        "%s %d" % ("accepted" if number == 0 else number, count)
        for number, count in met.items()))
    for number, count in met.items():
        tally.true("spoiled files answered %d at least once" % number,
                   count > 0)
