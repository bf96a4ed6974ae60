#!/usr/bin/env python3
"""The files that the program replay reads, and what it is to print.

    python3 replay.py DIR            writes the containers into DIR/data, and
                                     DIR/stdout
    python3 replay.py --stale DIR    exit status 1 if one of them is not what
                                     would be written
    python3 replay.py --names        each line of stdout with its number, and
                                     the name of its case with the first line
                                     of it

What the items of a container are is said in `containers`.  stdout has the
lines of the containers in the order below: the enumerator's answers.
"""

import sys

sys.dont_write_bytecode = True

from containers import (boards_bin, changed_bin, driven_bin,    # noqa: E402
                        handed_bin, records_bin, runs_bin, shares_bin,
                        states_bin, tables_bin)
from storing import Program                                     # noqa: E402

FILES = {"boards.bin": boards_bin, "states.bin": states_bin,
         "records.bin": records_bin, "tables.bin": tables_bin}
ACTS = {"runs.bin": runs_bin, "handed.bin": handed_bin,
        "shares.bin": shares_bin, "changed.bin": changed_bin}

PROGRAM = Program("replay", {**FILES, **ACTS, "driven.bin": driven_bin})
OF_FILES, OF_ACTS = Program("replay", FILES), Program("replay", ACTS)

if __name__ == "__main__":
    sys.exit(PROGRAM.main(sys.argv[1:]))
