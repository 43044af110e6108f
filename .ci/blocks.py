#!/usr/bin/env python3
"""The FIDL of the documents: each block of it is compiled.

    .ci/blocks.py [PROGRAM..]        by each of these programs (else by the one that was built last)

A block stands between a line "```fidl" and a line "```". It is a source, or several: a line such as `// a.fidl` begins the next.
It is accepted, or refused by the fault of its first line, as `// refused: types 9 BadConstraint`.
"""
import glob
import os
import re
import sys
import tempfile

sys.dont_write_bytecode = True
sys.path.insert(0, os.path.dirname(os.path.realpath(__file__)))
import by_hand  # noqa: E402
import explained  # noqa: E402

BLOCK = re.compile(r"^```fidl\n(.*?)^```$", re.M | re.S)
REFUSED = re.compile(r"// refused: (\w+ \d+ \w+)")


def blocks_of(root):
    """Returns the blocks of the documents below root, each with the place where it begins."""
    found = []
    for path in sorted(glob.glob(f"{root}/docs/**/*.md", recursive=True)) + [f"{root}/README.md"]:
        if os.path.isfile(path):
            with open(path, encoding="utf-8") as it:
                text = it.read()
            for block in BLOCK.finditer(text):
                line = text.count("\n", 0, block.start()) + 1
                found.append((f"{os.path.relpath(path, root)}:{line}", block[1].splitlines()))
    return found


def what_fails(program, lines):
    """Compiles a block, and returns what is wrong with it, or nothing."""
    refused = REFUSED.fullmatch(lines[0]) if lines else None
    with tempfile.TemporaryDirectory(prefix="gate-block-") as folder:
        ran = explained.compiled(program, folder, lines[1:] if refused else lines)
    if refused:
        is_right = ran.returncode == 1 and ran.stderr.rstrip("\n").endswith(f" {refused[1]}")
    else:
        is_right = ran.returncode == 0
    return "" if is_right else f"status {ran.returncode}, errors {ran.stderr!r}"


def run(root, programs):
    """Compiles all blocks by each program; prints each that fails and how many there are; returns whether none fails."""
    blocks, failed = blocks_of(root), 0
    for program in programs:
        for where, lines in blocks:
            said = what_fails(program, lines)
            if said:
                print(f"gate: {where}: FAILED: {said}", flush=True)
                failed += 1
    print(f"gate: {len(blocks)} blocks of FIDL in the documents, {failed} failed", flush=True)
    return not failed


if __name__ == "__main__":
    by_hand.start(run)
