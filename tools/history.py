"""How a listing came about: the listings at smaller allowances."""

from typing import NamedTuple

EVERY = 400             # up to so many steps, every allowance is asked
SAMPLES = 300           # beyond, so many of them, and each line's own step


class History(NamedTuple):
    """The last listing, some listings before it by their steps (the last
    among them), and the step at which each line was listed."""
    last: object
    at: dict
    listed_at: tuple


def history_of(ask, last):
    """What came before a listing; `ask` gives the listing at an allowance."""
    if last.steps <= EVERY:
        allowances = range(last.steps)
    else:
        allowances = sorted({last.steps * i // SAMPLES
                             for i in range(SAMPLES)})
    at = {steps: ask(steps) for steps in allowances}
    at[last.steps] = last
    return History(last, at, tuple(
        step_of_line(ask, at, rank) for rank in range(1, len(last.lines) + 1)))


def step_of_line(ask, at, rank):
    """The least allowance that lists so many lines, by bisection.  What is
    asked for it joins `at`."""
    low = max(steps for steps in at if len(at[steps].lines) < rank)
    high = min(steps for steps in at if len(at[steps].lines) >= rank)
    while high - low > 1:
        middle = (low + high) // 2
        at[middle] = ask(middle)
        if len(at[middle].lines) < rank:
            low = middle
        else:
            high = middle
    return high


def most_runs(last):
    """So many listings are asked for a history of more than EVERY steps, at
    most: the samples, and for each line a bisection between two of them."""
    gap = -(-last.steps // SAMPLES)
    return SAMPLES + len(last.lines) * (gap - 1).bit_length()
