#!/usr/bin/env python3
"""Whether docs/fidl.1 has the commands and the options that the program's help has, and no others.

    .ci/manual.py [PROGRAM..]        by each of these programs (else by the one that was built last)

A command is a subsection (`.SS`) of the page. Its options and arguments are the lines behind `.TP` in it.
"""
import os
import re
import subprocess
import sys

sys.dont_write_bytecode = True
sys.path.insert(0, os.path.dirname(os.path.realpath(__file__)))
import by_hand  # noqa: E402


def help_of(program, *words):
    return subprocess.run([program, *words, "--help"], stdin=subprocess.DEVNULL, capture_output=True, timeout=120, text=True).stdout


def listed(text, heading):
    """Returns the first words of the lines below a heading, up to an empty line."""
    found = re.search(rf"^{heading}:\n((?:  .*\n)+)", text, re.M)
    return [line.strip() for line in found[1].splitlines()] if found else []


def commands_of(program):
    """Returns the commands of the help, each with its options and arguments as a page of the manual would name them."""
    found = {}
    for line in listed(help_of(program), "Commands"):
        name = line.split()[0]
        text = help_of(program, name) if name != "help" else ""
        options = [re.split(r"  +", it)[0] for it in listed(text, "Options")]
        arguments = [re.split(r"  +", it)[0] for it in listed(text, "Arguments")]
        found[name] = {plain(it) for it in options + arguments}
    return found


def plain(text):
    """Returns a name without brackets, dots and fonts: `--out <OUT>` as `--out OUT`."""
    return re.sub(r"\\f.|[<>\[\]]|\.\.\.", "", text).replace("\\-", "-").strip()


def manual_of(text):
    """Returns the commands of a page of the manual, each with the names behind `.TP` in it."""
    found, now, lines = {}, None, iter(text.splitlines())
    for line in lines:
        if line.startswith(".SS "):
            now = found.setdefault(line[4:].strip(), set())
        elif line.startswith(".SH "):
            now = None
        elif line == ".TP" and now is not None:
            now.add(plain(next(lines)))
    return found


def run(root, programs):
    """Compares the page with the help of each program; prints what differs, and returns whether nothing does."""
    with open(f"{root}/docs/fidl.1", encoding="utf-8") as it:
        manual = manual_of(it.read())
    said = []
    for program in programs:
        if not os.path.isfile(program):
            print(f"gate: FAILED: there is no program {program} to compare docs/fidl.1 with")
            return False
        wanted = commands_of(program)
        for name in sorted(wanted.keys() | manual.keys()):
            both = wanted.get(name), manual.get(name)
            if None in both:
                said.append(f"docs/fidl.1: {name}: only {'the help' if both[0] is not None else 'the page'} has this command")
            else:
                said += [f"docs/fidl.1: {name}: {it}: only the help has it" for it in sorted(both[0] - both[1])]
                said += [f"docs/fidl.1: {name}: {it}: only the page has it" for it in sorted(both[1] - both[0])]
    print(f"gate: docs/fidl.1: {len(manual)} commands, {len(said)} differences", flush=True)
    return by_hand.all_passed(said)


if __name__ == "__main__":
    by_hand.start(run)
