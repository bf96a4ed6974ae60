"""What a refusal, an ending or an end means, in a trainer's words."""

MOST_STEPS = 65535
MOST_ASKED = 8

# Document 01, "What the scope says no to": the refusals of a file.
OF_A_FILE = {
    1: "the file is cut off: it stops within a record or before its end",
    2: "no record begins with this byte; the kinds are 1 to 4",
    3: "a record in the wrong place: the atom count comes first and once, "
       "then all faults, then all rules, then the end and nothing after it",
    4: "an atom that the board does not have, or an atom count that is not 1 "
       "to 128",
    5: "declarations are numbered 0, 1, 2 and so on without a gap, up to 31",
    6: "this atom is a fault already, or the 17th of its declaration",
    7: "a weight of 0",
    8: "the product of all declarations' totals passes "
       "1,000,000,000,000,000: use smaller weights",
    9: "a rule's atoms must ascend, and empty places come last",
    10: "this rule is for a fault; a fault has a weight and no rule",
    11: "a rule may only name atoms below the one that it is for",
    12: "the 257th rule; a board has at most 256",
}

STILL_RIGHT = ("the lines listed are right and in order, and low and high "
               "still bound the likelihood")

STOPPED = {
    "31": "stopped with 31: the search has no room for more than 512 open "
          "proofs; " + STILL_RIGHT,
    "32": "stopped with 32: two explanations of the reading can be true "
          "together; " + STILL_RIGHT
          + "; examples/amplifier/README.md says how to mend the board file",
    "33": "stopped with 33: the list is full, it has 256 lines; "
          + STILL_RIGHT,
}

RIGHT_SO_FAR = STILL_RIGHT[0].upper() + STILL_RIGHT[1:] + "."
DRAWN_ENDINGS = {       # one or two lines below the picture
    "done": ("Done after %s: the list is complete, and both ends are the "
             "exact likelihood.",),
    "more": ("More: the allowance of %s is used up. The likelihood is between "
             "the two ends.",),
    "31": ("Stopped with 31 after %s: no room for more open proofs.",
           RIGHT_SO_FAR),
    "32": ("Stopped with 32 after %s: two explanations can be true together.",
           RIGHT_SO_FAR),
    "33": ("Stopped with 33 after %s: the list is full.", RIGHT_SO_FAR),
}


def of_refusal(refused, asked, file):
    """One sentence on a refused file or question."""
    if refused.place is not None:
        return "board file, byte %d: %s" % (
            refused.place, OF_A_FILE.get(refused.number, "refused"))
    if refused.number == 21:
        return "a question is 1 to %d atoms, and this one has %d" % (
            MOST_ASKED, len(asked))
    if refused.number == 22:
        count = file[1]         # the file was accepted, so it has the count
        return "this board has no atom %d; its atoms are 0 to %d" % (
            next(atom for atom in asked if atom >= count), count - 1)
    if refused.number == 23:
        return "asked atoms must ascend, each once: " + " ".join(
            map(str, sorted(set(asked))))
    return "refused with %d" % refused.number


def of_ending(listed, steps):
    """One sentence on how a listing ended, or None if there is nothing to
    say; `steps` is the allowance."""
    if listed.answer in STOPPED:
        return STOPPED[listed.answer]
    if listed.answer == "more" and steps < MOST_STEPS:
        return "the allowance of %d steps is used up: raise --steps" % steps
    if listed.answer == "more":
        return ("the allowance of 65,535 steps is used up, the most that one "
                "run takes; " + STILL_RIGHT)
    if not listed.lines:
        return "no set of this board's faults explains this reading"
    return None


def of_drawn_ending(listed):
    """The lines below a picture that say how the search ended."""
    first, *rest = DRAWN_ENDINGS[listed.answer]
    steps = "1 step" if listed.steps == 1 else "%d steps" % listed.steps
    return [first % steps, *rest]


def share_text(weight, total, up=False):
    """A share in percent with the digits that matter, rounded down, or up if
    asked.  What is not 0 or 100 is not told as 0 or 100."""
    if 0 < 100_000 * weight < total:
        return "< 0.001 %"
    decimals = 2
    while 0 < weight * 10 ** decimals < total:
        decimals += 1
    unit = 10 ** decimals
    units = (100 * unit * weight + (total - 1 if up else 0)) // total
    if units == 100 * unit and weight < total:
        return "< 100 %"
    digits = "%d.%0*d" % (units // unit, decimals, units % unit)
    return digits.rstrip("0").rstrip(".") + " %"


def ends_text(listed):
    """What is told of the ends: the high one, then the low one, or both in
    one where they are equal."""
    low = share_text(listed.low, listed.total)
    if listed.low == listed.high:
        return ["low = high " + low]
    return ["high " + share_text(listed.high, listed.total, up=True),
            "low " + low]
