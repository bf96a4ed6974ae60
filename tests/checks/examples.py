"""The examples: their files, their pages and what the pages claim."""

import contextlib
import io
import re

import enumerator as en
from checks.project import example_boards, listed, page_of, stored, words
from checks.tally import section, typed

FENCE = re.compile(r"^```\n(.*?)^```$", re.DOTALL | re.MULTILINE)


def asker(file, asked):
    """From an allowance to the listing taken apart, by the enumerator."""
    return lambda steps: listed.take_apart(
        en.listing(file, typed(asked, steps)))


@section("files of the examples")
def example_files(tally):
    for path, wanted in example_boards.stored_files().items():
        found = stored("examples", path)
        tally.true("examples/%s is stale; to write anew: "
                   "python3 examples/boards.py" % path, found == wanted)
        if path.endswith(".pha"):
            tally.same("examples/%s loads" % path, en.load(found).refusal, 0)
    said = io.StringIO()
    with contextlib.redirect_stdout(said):
        status = example_boards.main(["--stale"])
    tally.same("examples/boards.py --stale", (status, said.getvalue()),
               (0, ""))


def shown_in(block):
    """The arguments of the command that a block shows, and the lines that it
    prints and says; None if it shows no command."""
    first, *rest = block.splitlines(keepends=True)
    if first.startswith("$ ./vilthomm "):
        return first.split()[2:], rest
    return None


def shown_commands(page):
    """The commands that a page shows with what they print, and that."""
    return filter(None, map(shown_in, FENCE.findall(page)))


def question_in(arguments):
    """The board, the atoms and the allowance of a command that a page
    shows."""
    board, *rest = arguments
    steps = words.MOST_STEPS
    if "--steps" in rest:
        at = rest.index("--steps")
        steps = int(rest[at + 1])
        del rest[at:at + 2]
    return board, tuple(map(int, rest)), steps


def shown_on_pages():
    """README's and the examples' pages, each with the commands it shows."""
    for path in [("README.md",)] + [("examples", folder, "README.md")
                                    for folder in example_boards.EXAMPLES]:
        yield "/".join(path), list(shown_commands(page_of(*path)))


@section("pages of the examples")
def example_pages(tally):
    for name, commands in shown_on_pages():
        tally.true("%s shows a listing" % name, commands)
        for arguments, shown in commands:
            board, asked, steps = question_in(arguments)
            printed = en.listing(stored(board), typed(asked, steps))
            wanted = printed.decode("ascii")
            sentence = words.of_ending(listed.take_apart(printed), steps)
            if sentence:
                wanted += "vilthomm: %s\n" % sentence
            tally.same("%s, %s" % (name, " ".join(arguments)),
                       "".join(shown), wanted)
    for folder, example in example_boards.EXAMPLES.items():
        page_has_board(tally, folder, example.boards["board.pha"])


def page_has_board(tally, folder, board):
    """A page begins with the stored question, and has every atom."""
    page = page_of("examples", folder, "README.md")
    path, asked, steps = question_in(next(shown_commands(page))[0])
    tally.same("first board of " + folder, path,
               "examples/%s/board.pha" % folder)
    tally.same("first question of " + folder, typed(asked, steps),
               stored("examples", folder, "input"))
    atoms = example_boards.atoms_of(board)
    for part, states in board.parts.items():
        row = "| %s | %s | %d |" % (part, "; ".join(
            "%d %s %d" % (atoms.index(state), state, weight)
            for state, weight in states.items()), sum(states.values()))
        tally.true("%s has the row %s" % (folder, row), row + "\n" in page)
    for reading in board.readings:
        text = "%d %s" % (atoms.index(reading), reading)
        tally.true("%s has the reading %s" % (folder, text),
                   re.search(r"\b%s( \||;|\.)" % re.escape(text), page))


def answer_to(path, *asked):
    return asker(stored("examples", path), asked)(words.MOST_STEPS)


@section("what the pages of the examples claim")
def example_claims(tally):
    supply = answer_to("supply/board.pha", 36)
    tally.same("supply", (supply.answer, len(supply.lines)), ("done", 12))
    overlap = answer_to("amplifier/board.pha", 30)
    mended = answer_to("amplifier/mended.pha", 30)
    tally.same("amplifier", (overlap.answer, len(overlap.lines)), ("32", 5))
    tally.same("amplifier, mended", mended.answer, "done")
    tally.true("amplifier: the true weight is within what was said",
               overlap.low <= mended.low <= overlap.high)
    # "The first that stops with 32 has the rules that overlap."
    for atom in range(22, 30):
        tally.same("amplifier, reading %d" % atom,
                   answer_to("amplifier/board.pha", atom).answer, "done")
    # Every reading of the boards without an overlap comes to its end.
    for path in ("supply/board.pha", "amplifier/mended.pha"):
        for atom in range(41):
            tally.same("%s, atom %d" % (path, atom),
                       answer_to(path, atom).answer, "done")
    # The shares that the page of the supply gives.
    page = page_of("examples", "supply", "README.md")
    for rank, line in enumerate(supply.lines, 1):
        tally.true("supply, share of line %d" % rank, "\n| %d | %d |" % (
            rank, line.weight * 1000 // supply.low) in page)
    # And those that the page of the 001 board gives.
    page = page_of("examples", "001", "README.md")
    whole, narrowed = (answer_to("001/board.pha", *asked)
                       for asked in ((7,), (5, 7)))
    with_e = sum(line.weight for line in whole.lines if 2 in line.atoms)
    for text in ("e is in lines 1 and 2, together %d of 1000" % (
                     with_e * 1000 // whole.low),
                 "line 1, now %d of 1000" % (
                     narrowed.lines[0].weight * 1000 // narrowed.low)):
        tally.true("001: " + text, text in page)
