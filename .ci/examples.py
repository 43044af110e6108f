#!/usr/bin/env python3
"""The runs of the program that the documents show: each has to print just what stands there.

A run is a line `$ ./fidl ..` or `$ python3 examples/..` of an indented block, and what it prints is all lines of the block up to the next such line.
The runs of README.md come first, then those of docs/*.md by their names. All run in one folder, in which examples/ is a copy
of the repository's and fidl is the program that the gate built. `2>&1`, `> FILE` and quotes mean what they do in a shell; a
line `# status N` behind a run says which status it has to exit with, if not 0.
"""
import glob
import os
import re
import shutil
import subprocess
import sys
import tempfile

sys.dont_write_bytecode = True
sys.path.insert(0, os.path.dirname(os.path.realpath(__file__)))
import by_hand  # noqa: E402

STARTS = ("    $ ./fidl ", "    $ python3 examples/")
STATUS = re.compile(r"    # status (\d+)$")


class Run:
    """A command line of a document, and what it has to print."""

    def __init__(self, document, number, line):
        self.where, self.line = f"{document}:{number}", line
        self.status, self.wanted = 0, ""


def runs_of(document, text):
    """Returns the runs that a document shows."""
    found, now = [], None
    for number, line in enumerate(text.split("\n"), 1):
        status = STATUS.match(line)
        if line.startswith(STARTS):
            now = Run(document, number, line.strip()[len("$ ") :])
            found.append(now)
        elif now and status:
            now.status = int(status[1])
        elif now and line.startswith("    "):
            now.wanted += line[4:] + "\n"
        else:
            now = None
    return found


def documents(root):
    """Returns the paths of the documents below root, README.md first."""
    found = sorted(os.path.relpath(it, root) for it in glob.glob(f"{root}/docs/*.md"))
    return [it for it in ("README.md", *found) if os.path.isfile(f"{root}/{it}")]


def all_runs(root):
    found = []
    for document in documents(root):
        with open(f"{root}/{document}", encoding="utf-8") as it:
            found += runs_of(document, it.read())
    return found


def is_right(run, folder):
    """Runs a line in a folder, and returns whether it prints and exits as it has to, and what to say."""
    ran = subprocess.run(["sh", "-c", run.line], cwd=folder, stdin=subprocess.DEVNULL, stdout=subprocess.PIPE, stderr=subprocess.STDOUT, text=True, errors="replace", timeout=120)
    if (ran.stdout, ran.returncode) == (run.wanted, run.status):
        return True, f"gate: {run.where}: prints what stands there: {run.line}"
    return False, f"gate: {run.where}: FAILED: {run.line}\nstatus {ran.returncode}\n{ran.stdout}"


def run(root, program):
    """Runs all that the documents below root show with the program of this path; returns whether all print what stands there."""
    runs, good = all_runs(root), True
    if runs and not os.path.isfile(program):
        print(f"gate: FAILED: there is no program {program} to run the examples with")
        return False
    if not runs:
        return True
    with tempfile.TemporaryDirectory(prefix="gate-examples-") as folder:
        shutil.copytree(f"{root}/examples", f"{folder}/examples")
        shutil.copyfile(program, f"{folder}/fidl")
        os.chmod(f"{folder}/fidl", 0o755)
        for it in runs:
            right, said = is_right(it, folder)
            print(said, flush=True)
            good = good and right
    return good


if __name__ == "__main__":
    by_hand.start(lambda root, programs: all([run(root, it) for it in programs]))
