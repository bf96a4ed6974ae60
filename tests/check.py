#!/usr/bin/env python3
"""Runs all checks: of the enumerator against document 01 and against itself,
of the files stored for the program replay, of the examples, their pages and
the command, of the C header and its archive, and of the program listing and
the C names against the enumerator.

    python3 check.py                all sections
    python3 check.py --only WORD    those whose titles have this in them

Exit status 0 only if nothing failed.  Seeds are fixed, so two runs do the
same.  A new group of checks is a function with `@section(...)` above it, in a
module of `checks` that is imported below.
"""

import argparse
import sys
import time

sys.dont_write_bytecode = True

from checks.tally import SECTIONS, Tally  # noqa: E402
from checks import asked, carried, cases, command, demand3  # noqa: E402,F401
from checks import examples, listings, loads, program  # noqa: E402,F401
from checks import header, archive, firmware  # noqa: E402,F401
from checks import picture, searches, stored  # noqa: E402,F401
from checks import format_page, making  # noqa: E402,F401


def main():
    parser = argparse.ArgumentParser()
    parser.add_argument("--only", metavar="WORD", default="")
    only = parser.parse_args().only
    tally = Tally()
    for title, function in SECTIONS:
        if only not in title:
            continue
        began, before = time.time(), tally.checks
        try:
            function(tally)
        except Exception as error:              # a crash is a failure too
            tally.checks += 1
            tally.fail("%s stopped: %r" % (title, error))
        print("%s: %d checks, %.1f s" % (
            title, tally.checks - before, time.time() - began), flush=True)
    print("tests: %d checks, %d failures" % (tally.checks, tally.failures))
    return 1 if tally.failures or not tally.checks else 0


if __name__ == "__main__":
    sys.exit(main())
