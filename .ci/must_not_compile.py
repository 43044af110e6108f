#!/usr/bin/env python3
"""Programs that must not compile: each case of .ci/must-not-compile edits a crate, and the compiler has to refuse it.

A case CRATE.NAME.case has a line 'file: PATH' (in the crate), a line 'error: CODE', and pairs of lines 'old: TEXT' and
'new: TEXT'; each TEXT stands in that file exactly once. `rt try --test` of the edited crate, which compiles it and all
below it without a proof, has to end with that error and no other. The crate unedited passes the gate, which checks these
cases after it.
"""
import os
import re
import subprocess
import sys

FOLDER = ".ci/must-not-compile"


class Case:
    """One edit of a crate, and the error that it has to bring."""

    def __init__(self, root, name):
        self.name, self.crate, self.pairs = name, name.partition(".")[0], []
        self.folder = f"{root}/crates/{self.crate}"
        with open(f"{root}/{FOLDER}/{name}", encoding="utf-8") as it:
            for line in it:
                word, _, text = line.rstrip("\n").partition(": ")
                if word == "file":
                    self.path = f"{self.folder}/{text}"
                elif word == "error":
                    self.error = text
                elif word == "old":
                    self.pairs.append((text, ""))
                elif word == "new":
                    self.pairs[-1] = (self.pairs[-1][0], text)
                elif line.strip():
                    raise ValueError(f"{name}: {line!r}")

    def edited(self, text):
        """Returns the file's text with the case's edits, or None where a text doesn't stand in it exactly once."""
        for old, new in self.pairs:
            if text.count(old) != 1:
                return None
            text = text.replace(old, new)
        return text

    def is_refused(self):
        """Returns whether the compiler refuses the edited crate with the case's error alone, and what it prints."""
        with open(self.path, encoding="utf-8") as it:
            before = it.read()
        after = self.edited(before)
        if after is None:
            return False, "a text of it does not stand in the file exactly once"
        try:
            with open(self.path, "w", encoding="utf-8") as it:
                it.write(after)
            ran = subprocess.run(["rt", "try", "--test"], cwd=self.folder, stdin=subprocess.DEVNULL, capture_output=True, text=True)
        finally:
            with open(self.path, "w", encoding="utf-8") as it:
                it.write(before)
        errors = [line for line in (ran.stdout + ran.stderr).splitlines() if "error[" in line]
        refused = ran.returncode != 0 and bool(errors)
        return refused and all(re.search(rf"error\[{self.error}\]", line) for line in errors), (errors or ["no error"])[0]


def cases(root):
    folder = f"{root}/{FOLDER}"
    return [Case(root, it) for it in sorted(os.listdir(folder)) if it.endswith(".case")] if os.path.isdir(folder) else []


def run(root):
    """Tries each case in the repository at root, whose crates are proved; returns whether each was refused."""
    good = True
    for case in cases(root):
        refused, said = case.is_refused()
        print(f"gate: {case.name}: {'does not compile, as it must' if refused else 'FAILED'}: {said}", flush=True)
        good = good and refused
    return good


if __name__ == "__main__":
    sys.exit(not run(os.path.dirname(os.path.dirname(os.path.realpath(__file__)))))
