#!/usr/bin/env python3
"""What `fidl explain` says of each fault, tried: the inputs that it shows, its place in the documents, and what it leaves out.

    .ci/explained.py [PROGRAM..]        by each of these programs (else by the one that was built last)

An explanation is a line `STAGE NUMBER NAME` and lines behind blanks. Under `Refused:` stands an input that has the fault, under
`Accepted:` one that has not. An input is the source of a library, of which a line such as `// a.fidl` begins another file; or,
where a library stands under `Of the library:`, a message: a root, hexadecimal digits, and behind `with` its handles. Of the stages
`notation` and `encode` it is a root and the text of a value.
"""
import os
import re
import subprocess
import sys
import tempfile

sys.dont_write_bytecode = True
sys.path.insert(0, os.path.dirname(os.path.realpath(__file__)))
import by_hand  # noqa: E402

STAGES = ("lex", "parse", "names", "const", "types", "layout", "protocol", "table", "decode", "notation", "encode")
TEXTS = ("notation", "encode")
HEADING = re.compile(r"(\w+) (\d+) (\w+)")
RULES = re.compile(r"Rules: (docs/\S+\.md), (\".*\")")
ROW = re.compile(r"^\| (?:\d+ [A-Z]|\d+ \| [A-Z])")


class Entry:
    """What is said of a fault: its line, the document and the sections of its rules, and its inputs by their headings."""

    def __init__(self, lines):
        self.stage, number, self.name = HEADING.fullmatch(lines[0]).groups()
        self.number, self.parts, self.rules = int(number), {}, None
        part = None
        for line in lines[1:]:
            heading = re.fullmatch(r"  (\w[\w ]*):", line)
            rules = RULES.fullmatch(line.strip())
            if heading:
                part = self.parts.setdefault(heading[1], [])
            elif rules:
                self.rules = rules[1], re.findall(r'"([^"]*)"', rules[2])
            elif part is not None:
                part.append(line[4:])

    def __str__(self):
        return f"{self.stage} {self.number} {self.name}"


def ran(program, folder, *words):
    return subprocess.run([program, *words], cwd=folder, stdin=subprocess.DEVNULL, capture_output=True, timeout=120, text=True)


def entries_of(text):
    """Returns the entries of a text, of which each begins with a line that has no blank in front."""
    found = []
    for line in text.splitlines():
        if line.startswith(" "):
            found[-1].append(line)
        else:
            found.append([line])
    return [Entry(it) for it in found]


def guide_of(program, folder):
    """Returns the entries of all faults, stage by stage, by their numbers from 1 on."""
    found = []
    for stage in STAGES:
        number = 1
        while True:
            answer = ran(program, folder, "explain", stage, str(number))
            if answer.returncode:
                break
            found += entries_of(answer.stdout)
            number += 1
    return found


def files_of(lines):
    """Returns the files of an input, by their names."""
    found, name = {}, "a.fidl"
    for line in lines:
        heading = re.fullmatch(r"// (\w+\.fidl)", line)
        if heading:
            name = heading[1]
        else:
            found[name] = found.get(name, "") + f"{line}\n"
    return found


def compiled(program, folder, lines):
    files = files_of(lines)
    for name, text in files.items():
        with open(f"{folder}/{name}", "w", encoding="utf-8") as it:
            it.write(text)
    return ran(program, folder, "compile", "--out", "t.fct", *files)


def decoded(program, folder, lines):
    given, _, handles = lines[0].partition(" with ")
    words = [it for handle in handles.split() for it in ("--handle", handle)]
    return ran(program, folder, "decode", *words, "t.fct", *given.split())


def encoded(program, folder, lines):
    root, _, text = lines[0].partition(" ")
    return ran(program, folder, "encode", "t.fct", root, text)


def what_fails(program, folder, entry):
    """Runs the inputs of an entry, and returns what is wrong with it, or nothing."""
    if "Refused" not in entry.parts:
        return ""
    run = compiled
    if "Of the library" in entry.parts:
        run = encoded if entry.stage in TEXTS else decoded
        if compiled(program, folder, entry.parts["Of the library"]).returncode:
            return "its library is refused"
    refused = run(program, folder, entry.parts["Refused"])
    if refused.returncode != 1 or f"{entry}" not in refused.stderr or refused.stderr.count("\n") != 1:
        return f"its refused input ends with {refused.returncode} and {refused.stderr!r}"
    accepted = run(program, folder, entry.parts["Accepted"])
    if accepted.returncode:
        return f"its accepted input ends with {accepted.returncode} and {accepted.stderr!r}"
    return ""


def sections_of(path):
    with open(path, encoding="utf-8") as it:
        text = it.read()
    return set(re.findall(r"^#+ (.*)$", text, re.M)) | set(re.findall(r"^- \[([^\]]*)\]", text, re.M))


def documented(root):
    """Returns the numbers and names of the faults in the documents' tables: of sources, of tables, of messages, and of texts and values."""
    found = {}
    folder = f"{root}/docs/language"
    chapters = [f"{folder}/{it}" for it in sorted(os.listdir(folder))] if os.path.isdir(folder) else []
    groups = {"sources": [f"{root}/docs/language.md", *chapters], "table": [f"{root}/docs/table.md"], "decode": [f"{root}/docs/decoding.md"]}
    groups |= {"notation": [f"{root}/docs/notation.md"], "encode": [f"{root}/docs/encoding.md"]}
    for group, paths in groups.items():
        found[group] = set()
        for path in paths:
            with open(path, encoding="utf-8") as it:
                for line in it:
                    if ROW.match(line):
                        cells = line.split("|")
                        found[group] |= set(re.findall(r"(\d+)\s+([A-Z]\w+)", " ".join(cells[1:3])))
    return found


def group_of(entry):
    return entry.stage if entry.stage in ("table", "decode", *TEXTS) else "sources"


def what_is_left_out(root, entries):
    """Returns lines that say which faults only the documents or only the program know, and which sections there are not."""
    said, known = [], documented(root)
    for group, rows in known.items():
        explained = {(str(it.number), it.name) for it in entries if group_of(it) == group}
        said += [f"{group} {number} {name}: the program does not explain it" for number, name in sorted(rows - explained)]
        said += [f"{group} {number} {name}: no table of the documents has it" for number, name in sorted(explained - rows)]
    for entry in entries:
        if not entry.rules:
            said.append(f"{entry}: it names no rules")
            continue
        missing = set(entry.rules[1]) - sections_of(f"{root}/{entry.rules[0]}")
        said += [f"{entry}: {entry.rules[0]} has no section {it}" for it in sorted(missing)]
    return said


def run(root, programs):
    """Tries what each program explains; prints what fails and how many entries there are; returns whether nothing fails."""
    said = []
    for program in programs:
        if not os.path.isfile(program):
            print(f"gate: FAILED: there is no program {program} to explain faults with")
            return False
        with tempfile.TemporaryDirectory(prefix="gate-explained-") as folder:
            entries = guide_of(program, folder)
            for entry in entries:
                fails = what_fails(program, folder, entry)
                if fails:
                    said.append(f"{entry}: {fails}")
            for name in {it.name for it in entries}:
                wanted = [str(it) for it in entries if it.name == name]
                if [str(it) for it in entries_of(ran(program, folder, "explain", name).stdout)] != wanted:
                    said.append(f"explain {name}: it does not print {wanted}")
        said += what_is_left_out(root, entries)
        tried = sum("Refused" in it.parts for it in entries)
        print(f"gate: {len(entries)} faults are explained, {tried} of them with inputs, {len(said)} failed", flush=True)
    return by_hand.all_passed(said)


if __name__ == "__main__":
    by_hand.start(run)
