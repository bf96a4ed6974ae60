"""The count of checks and failures, and what the modules of checks share."""

import os

import enumerator as en
from boards import file_of

TESTS = os.path.dirname(os.path.dirname(os.path.abspath(__file__)))
SHOWN_FAILURES = 20
SECTIONS = []                   # titles and functions, in order of import


def section(title):
    """Puts a function, which will be handed the tally, among the sections."""
    def register(function):
        SECTIONS.append((title, function))
        return function
    return register


class Tally:
    """Counts checks and failures, and shows the first failures."""

    def __init__(self):
        self.checks = 0
        self.failures = 0

    def same(self, what, got, wanted):
        self.checks += 1
        if got != wanted:
            self.fail("%s: got %r, wanted %r" % (what, got, wanted))

    def true(self, what, condition):
        self.checks += 1
        if not condition:
            self.fail(what)

    def fail(self, text):
        self.failures += 1
        if self.failures <= SHOWN_FAILURES:
            print("  FAILURE %s" % text)


def loaded(board):
    """The table of a board structure, by way of its file."""
    answer = en.load(file_of(board))
    assert answer.refusal == 0, answer
    return answer.table


def opened(table, asked):
    """The search that opening gives, of a question that is not refused."""
    answer = en.open_search(table, asked)
    assert answer.refusal == 0, answer
    return answer.search


def run_for(table, asked, allowance, limits=en.Limits()):
    """The answer of one run from the opening on."""
    return en.run(table, opened(table, asked), allowance, limits)


def typed(asked, allowance):
    """Input of the listing program for a question."""
    return bytes([len(asked)]) + bytes(asked) + allowance.to_bytes(2, "little")
