"""How a check of the built program is started by hand, and how it says what failed.

    python3 .ci/manual.py [PROGRAM..]

A check without a program takes the one that `rt build` leaves.
"""

import os
import sys


def all_passed(failures):
    """Prints each failure; returns whether there is none."""
    for it in failures:
        print(f"gate: FAILED: {it}", flush=True)
    return not failures


def start(run):
    """Runs a check over the programs that the command line names, and leaves with its status."""
    top = os.path.dirname(os.path.dirname(os.path.realpath(__file__)))
    given = sys.argv[1:] or [f"{top}/crates/fidl/out/fidl"]
    sys.exit(not run(top, [os.path.abspath(it) for it in given]))
