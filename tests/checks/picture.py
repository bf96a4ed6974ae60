"""The picture that the command draws, and how its steps are found."""

import random
import xml.etree.ElementTree as ElementTree
from fractions import Fraction

from checks.examples import asker
from checks.project import history, listed, page_of, plot, stored, words
from checks.tally import section

SVG = "{http://www.w3.org/2000/svg}"


@section("the picture")
def picture(tally):
    for name, asked, steps in (("001", (7,), 65535), ("001", (7,), 16),
                               ("001", (7,), 0), ("supply", (36,), 65535),
                               ("supply", (24, 36), 65535),
                               ("supply", (40,), 65535),
                               ("amplifier", (30,), 65535)):
        ask = asker(stored("examples", name, "board.pha"), asked)
        came = history.history_of(ask, ask(steps))
        hold_history(tally, "%s, %r" % (name, asked), ask, came)
        hold_drawing(tally, "%s, %r" % (name, asked), came,
                     plot.drawing(name, asked, came))
        if (name, asked, steps) == ("supply", (36,), 65535):
            tally.true("docs/bound.svg is stale; to write anew: ./vilthomm "
                       "plot examples/supply/board.pha 36 > docs/bound.svg",
                       page_of("docs", "bound.svg")
                       == plot.drawing(name, asked, came))


def hold_history(tally, what, ask, came):
    """The step of each line is the first that lists it."""
    tally.same(what + ": a step for each line", len(came.listed_at),
               len(came.last.lines))
    for rank, steps in enumerate(came.listed_at, 1):
        tally.same("%s: line %d" % (what, rank),
                   (len(ask(steps - 1).lines), len(ask(steps).lines)),
                   (rank - 1, rank))


def hold_drawing(tally, what, came, drawn):
    """The picture is an SVG with both ends, the band and a dot for each
    line, and no text leaves it."""
    root = ElementTree.fromstring(drawn)
    tally.same(what + ": an SVG", root.tag, SVG + "svg")
    for tag in ("title", "desc"):
        tally.true("%s: a %s" % (what, tag), root.findtext(SVG + tag))
    classes = [part.get("class") for part in root.iter()]
    tally.same(what + ": ends, band and dots",
               [classes.count(kind)
                for kind in ("low", "high", "band", "line")],
               [1, 1, 1, len(came.last.lines)])
    for text in root.iter(SVG + "text"):
        tally.true("%s: %s is within the picture" % (what, text.text),
                   0 <= float(text.get("x")) <= plot.WIDTH
                   and 0 <= float(text.get("y")) <= plot.HEIGHT)


@section("the picture of a board's name")
def picture_names(tally):
    ask = asker(stored("examples", "001", "board.pha"), (7,))
    came = history.history_of(ask, ask(100))
    for name in ("a < b & c", "tab\there", "\udcff", "x" * 500):
        root = ElementTree.fromstring(
            plot.drawing(name, (7,), came).encode("utf-8"))
        tally.true("a picture of %r" % name[:20],
                   len(root.findtext(SVG + "title")) < 80)


def ends_near(total):
    """Weights at which a share is 0, 100 or close to a rounded one."""
    for share in (0, 0.001, 0.01, 0.1, 1, 2, 12.34, 50, 99.99, 100):
        near = round(share * total / 100)
        yield from (weight for weight in range(near - 3, near + 4)
                    if 0 <= weight <= total)


@section("the picture: shares")
def picture_shares(tally):
    rng = random.Random(20261202)
    for total in (1, 3, 7, 100, 10 ** 10, 10 ** 15 - 1, 10 ** 15):
        for weight in (*ends_near(total),
                       *(rng.randrange(total + 1) for _ in range(200))):
            hold_share(tally, weight, total)
    for weight, total, texts in (
            (72, 100, ("72 %", "72 %")), (1, 3, ("33.33 %", "33.34 %")),
            (2, 3, ("66.66 %", "66.67 %")), (0, 9, ("0 %", "0 %")),
            (99999, 100000, ("99.99 %", "< 100 %")),
            (1, 10 ** 6, ("< 0.001 %",) * 2),
            (12345, 10 ** 8, ("0.0123 %", "0.0124 %"))):
        tally.same("%d of %d" % (weight, total),
                   tuple(words.share_text(weight, total, up)
                         for up in (False, True)), texts)


def hold_share(tally, weight, total):
    """What is told of a low end is not above it, of a high end not below, and
    0 and 100 are told of these alone."""
    what = "%d of %d" % (weight, total)
    share = Fraction(100 * weight, total)
    for up in (False, True):
        text = words.share_text(weight, total, up)
        told = Fraction(text.rstrip(" %").lstrip("< "))
        if text.startswith("<"):
            tally.true(what + ": less than " + text, 0 < share < told)
            tally.true(what + ": by little", told != 100 or up)
            continue
        tally.true("%s is told as %s, up %r" % (what, text, up),
                   told >= share if up else told <= share)
        tally.true(what + ": near", abs(told - share) <= Fraction(1, 100))
        tally.true(what + ": 0 and 100",
                   told == share or told not in (0, 100))


@section("the picture: ticks")
def picture_ticks(tally):
    for top in [100] + plot.LOWER_TOPS:
        ticks = plot.ticks_of(top, False)
        texts = [plot.tick_text(tick) for tick in ticks]
        tally.true("ticks up to %g" % top, len(set(texts)) == len(ticks) > 3)
        for tick, text in zip(ticks, texts):
            tally.true("the tick %s" % text, abs(
                float(text.rstrip(" %")) - tick) <= tick / 10 ** 6
                and "e" not in text and len(text) <= len("0.0008 %"))


def growing(steps, listed_at):
    """A search of so many steps that lists its lines at these steps."""
    def ask(allowance):
        ran = min(steps, allowance)
        lines = tuple(listed.Line(1, (0,)) for at in listed_at if at <= ran)
        return listed.Listed(1000, lines, len(lines), 1000, ran, "more")
    return ask


@section("the picture: the steps at which lines were listed")
def picture_steps(tally):
    rng = random.Random(20261203)
    for steps, lines in ((0, 0), (1, 0), (2, 1), (400, 3), (401, 0), (401, 1),
                         (401, 256), (599, 256), (1000, 90), (65535, 0),
                         (65535, 1), (65535, 256)):
        for _ in range(3):
            listed_at = sorted(rng.sample(range(1, steps + 1), lines))
            ask, asked = growing(steps, listed_at), []
            came = history.history_of(
                lambda allowance: asked.append(allowance) or ask(allowance),
                ask(65535))
            what = "%d steps, %d lines" % (steps, lines)
            tally.same(what, came.listed_at, tuple(listed_at))
            tally.true("%s: %d runs" % (what, len(asked)), len(asked) <= (
                steps if steps <= history.EVERY
                else history.most_runs(came.last)))
