#!/usr/bin/env python3
"""Whether the cases of the program replay tell: wrong readings of document 01,
one by one in the place of the right one, and the first item that then prints
something else.

    python3 telling.py                    all wrong readings, a minute
    python3 telling.py WORD...            those whose names have one of the
                                          words
    python3 telling.py --count [WORD...]  how many items of each container
                                          print something else; slow

Items of few steps are looked at first.  RT_JOBS readings are tried at a time,
or as many as the machine has processors, at most 4.  Exit status 1 if one
changes nothing, or if the right one, which is tried too, changes something.
"""

import multiprocessing
import os
import re
import sys
import time
from functools import lru_cache, partial

sys.dont_write_bytecode = True

from containers import acts, fields                             # noqa: E402
from replay import OF_ACTS as PROGRAM                           # noqa: E402
from wrong_readings import RIGHT_RUN, readings                  # noqa: E402

RIGHT = "none: the right reading"


def steps_in(lines):
    """How many steps the runs of an item take."""
    return sum(int(steps) for line in lines
               for steps in re.findall(r" steps (\d+) ", line))


@lru_cache(maxsize=None)
def items():
    """All items, each with its container's name and its right lines, those of
    few steps first."""
    right = PROGRAM.lines_of()
    return sorted(((name.partition(".")[0], item, lines)
                   for name, container in PROGRAM.containers.items()
                   for item, lines in zip(container.items(), right[name])),
                  key=lambda found: steps_in(found[2]))


def items_told(patches):
    """The containers' names, each with an item that prints something else
    under a wrong reading."""
    before = [(module, name, getattr(module, name))
              for module, name, _ in patches]
    RIGHT_RUN.cache_clear()
    fields.faults.cache_clear()
    for module, name, wrong in patches:
        setattr(module, name, wrong)
    try:
        for container, item, lines in items():
            if printed(item) != lines:
                yield container, item.name
    finally:
        for module, name, was in before:
            setattr(module, name, was)
        RIGHT_RUN.cache_clear()
        fields.faults.cache_clear()


def printed(item):
    """The lines of an item; None where the wrong reading goes astray."""
    try:
        return acts.lines(item.file, item.acts)
    except Exception:
        return None


def told_by(patches, count):
    """The first item that tells, or how many of each container do; empty if
    none does."""
    told = items_told(patches)
    if not count:
        first = next(told, None)
        told.close()
        return ": ".join(first) if first else ""
    found = {}
    for container, _ in told:
        found[container] = found.get(container, 0) + 1
    return ", ".join("%s %d" % one for one in found.items())


def tried(count, name):
    """What tells the reading of that name, and how long it took."""
    began = time.time()
    return told_by(dict(readings()).get(name, []), count), time.time() - began


def main(words):
    count = words[:1] == ["--count"]
    words = words[count:]
    names = [RIGHT] + [name for name, _ in readings()
                       if not words or any(word in name for word in words)]
    jobs = int(os.environ.get("RT_JOBS") or min(os.cpu_count() or 1, 4))
    items()                     # so that the processes have them
    failures = 0
    with multiprocessing.get_context("fork").Pool(jobs) as pool:
        for name, (told, took) in zip(names, pool.imap(partial(tried, count),
                                                       names)):
            failures += bool(told) == (name == RIGHT)
            print("%-58s %-70s %3.0f s" % (name, told or "NOT TOLD", took),
                  flush=True)
    print("telling: %d wrong readings, %d failures" % (len(names) - 1,
                                                       failures))
    return 1 if failures or len(names) == 1 else 0


if __name__ == "__main__":
    sys.exit(main(sys.argv[1:]))
