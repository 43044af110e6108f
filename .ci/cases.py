#!/usr/bin/env python3
"""Cases of the program: what a command prints of sources, of a message or of a table, as lines of text files.

    .ci/cases.py [PROGRAM..]        the cases of cases/, by each of these programs (else by the one that was built last)

`cases/compile/*.txt`: a line is what `fidl compile` prints and, behind each `&&`, a source. The sources are the files t.fidl,
u.fidl and so on to z.fidl, then 7.fidl, 8.fidl and so on, in that order; `^` in one is a line feed. In place of what is printed,
`accepted` stands for any line of a written table. A line such as `zx := library zx;` gives a source a name for the lines below
it in the file. `[001..999:TEXT]` stands for TEXT once for each of these numbers, as `{n}` in it, with as many digits as the
first has; `{n-1}` is the number before, `{n+1}` the next.

`cases/decode/*.txt`: a block of lines of hexadecimal digits behind a line `table` is the table of the lines below it. Each of
these is a root, the bytes of a message and, behind the word `with`, its handles; then `->`, the exit status and the line that
is printed, on the output where the status is 0, else on the errors. `00*7` stands for seven bytes 00, and so on.

`cases/table/*.txt`: a line behind the word `of` has the sources of a table, as in a line of `cases/compile`. The lines below it, to
the next of that kind, are printed: `entries ..` by `compile`, all others by `table` of what it wrote, each once, in any order and
beside others. A word `*` stands for any word, and `{x}` for any that is the same at each `{x}` of the case and another than those
of other names. A line behind the word `no` is not printed. `bytes` and hexadecimal digits are the whole table.

`cases/encode/*.txt`: a line behind the word `of` has the sources of a table, as in a line of `cases/compile`. Each line below it, to the next
of that kind, is a root and the text of a value; then `->`, the exit status and what `encode` prints, on the output where the status is 0,
else on the errors; `\\n` in it is a line feed.

`cases/migrate/*.txt`: a block of lines of hexadecimal digits behind a line `table` is a table. A line behind the word `of` has the sources
of the table that `migrate` writes of it, as in a line of `cases/compile`; a block behind a line `to` has the bytes of that table. A line behind
`->` has the exit status and what is printed, on the output where the status is 0, else on the errors, and ends the case.

`cases/command/*.txt`: a line `file NAME` has the bytes of a file behind it, and a line `text NAME` its text, in which `^` is a line
feed; `copy NAME PATH` takes a file of the repository, and `input` has the bytes of the standard input. They hold for the lines below.
Each other line has the words of a command line, then `->`, the exit status and what is printed, on the output where the status is 0,
else on the errors; `\\n` in it is a line feed.

Empty lines, and those that begin with `#`, are remarks. A refused case prints one line on the errors, nothing on the output,
writes no table and exits with 1; an accepted one prints on the output alone, and exits with 0.
"""
import glob
import os
import re
import subprocess
import sys
import tempfile

sys.dont_write_bytecode = True
sys.path.insert(0, os.path.dirname(os.path.realpath(__file__)))
import by_hand  # noqa: E402

LETTERS = "tuvwxyz"
REPEATED = re.compile(r"\[(\d+)\.\.(\d+):(.*?)\]")
WRITTEN = re.compile(r"entries \d+, roots \d+, protocols \d+, methods \d+, bytes \d+")


class Case:
    """A line of a file of cases: the words of its command line, the files that it reads, and what has to come of it."""

    def __init__(self, where, words, files, status, wanted):
        self.where, self.words, self.files, self.status, self.wanted = where, words, files, status, wanted

    def what_fails(self, program, folder):
        """Runs the case in a folder, and returns what is wrong with it, or nothing."""
        for name, data in self.files.items():
            with open(f"{folder}/{name}", "wb") as it:
                it.write(data)
        out = f"{folder}/out.fct"
        ran = subprocess.run([program, *self.words], cwd=folder, stdin=subprocess.DEVNULL, capture_output=True, timeout=120)
        wrote, texts = os.path.exists(out), [ran.stdout.decode(errors="replace"), ran.stderr.decode(errors="replace")]
        if wrote:
            os.remove(out)
        printed, empty = reversed(texts) if self.status else texts
        is_line = WRITTEN.fullmatch(printed.removesuffix("\n")) if self.wanted is None else printed == f"{self.wanted}\n"
        is_right = is_line and not empty and ran.returncode == self.status and wrote == (self.status == 0 and self.words[0] == "compile")
        return "" if is_right else f"status {ran.returncode}, output {texts[0]!r}, errors {texts[1]!r}{', a table' * wrote}"


def remarks_left_out(text):
    """Returns the numbered lines of a file that are no remarks."""
    lines = ((number, line.strip()) for number, line in enumerate(text.split("\n"), 1))
    return [it for it in lines if it[1] and not it[1].startswith("#")]


def repeated(line):
    """Returns a line with each text in brackets as often as its numbers say."""

    def texts(found):
        first, last, text = found.groups()
        padded = lambda number: str(number).zfill(len(first))
        return "".join(
            text.replace("{n}", padded(it)).replace("{n-1}", padded(it - 1)).replace("{n+1}", padded(it + 1)) for it in range(int(first), int(last) + 1)
        )

    return REPEATED.sub(texts, line)


def source_name(number):
    return f"{LETTERS[number] if number < len(LETTERS) else number}.fidl"


def sources_of(text, shared):
    """Returns the files of sources that stand behind one another with `&&` between, of which some may be given by their names."""
    texts = (it.strip() for it in text.split("&&"))
    return {source_name(at): shared.get(it, it).replace("^", "\n").encode() for at, it in enumerate(texts)}


def compile_cases(name, text):
    shared = {}
    for number, line in remarks_left_out(text):
        named = re.fullmatch(r"(\w+) := (.*)", line)
        if named:
            shared[named[1]] = named[2]
            continue
        wanted, _, sources = repeated(line).partition("&&")
        wanted = wanted.strip()
        files = sources_of(sources, shared)
        status = int(wanted != "accepted" and not WRITTEN.fullmatch(wanted))
        yield Case(f"{name}:{number}", ["compile", "--out", "out.fct", *files], files, status, None if wanted == "accepted" else wanted)


def bytes_of(words):
    """Returns the bytes of words such as `02`, `0a0b` and `00*7`, one after the other."""
    found = b""
    for word in words:
        digits, _, count = word.partition("*")
        found += bytes.fromhex(digits) * int(count or 1)
    return found


def handles_of(words):
    """Returns the handles of words such as `1:3:0` and `1:3:0*64`."""
    found = []
    for word in words:
        handle, _, count = word.partition("*")
        found += [handle] * int(count or 1)
    return found


def decode_cases(name, text):
    table, is_table = b"", False
    for number, line in remarks_left_out(text):
        given, arrow, wanted = line.partition(" -> ")
        if line == "table":
            table, is_table = b"", True
        elif not arrow and is_table:
            table += bytes_of(line.split())
        else:
            is_table = False
            status, _, printed = wanted.partition(" ")
            (root, *message), _, handles = ([*it.split()] for it in given.partition(" with "))
            words = [it for handle in handles_of(handles) for it in ("--handle", handle)]
            yield Case(f"{name}:{number}", ["decode", *words, "t.fct", root, bytes_of(message).hex()], {"t.fct": table}, int(status), printed)


class TableCase:
    """Sources, and lines that `fidl table` prints of their table."""

    def __init__(self, where, sources):
        self.where, self.words, self.wanted, self.lines = where, ["table", "of", sources], "a table with its lines", []
        self.files = sources_of(sources, {})

    def what_fails(self, program, folder):
        """Runs the case in a folder, and returns what is wrong with it, or nothing."""
        for name, data in self.files.items():
            with open(f"{folder}/{name}", "wb") as it:
                it.write(data)
        printed = []
        for words in (["compile", "--out", "out.fct", *self.files], ["table", "out.fct"]):
            ran = subprocess.run([program, *words], cwd=folder, stdin=subprocess.DEVNULL, capture_output=True, timeout=120)
            if ran.returncode or ran.stderr:
                return f"{words[0]}: status {ran.returncode}, errors {ran.stderr.decode(errors='replace')!r}"
            printed += ran.stdout.decode(errors="replace").splitlines()
        if not os.path.exists(f"{folder}/out.fct"):
            return "no table is written"
        with open(f"{folder}/out.fct", "rb") as it:
            printed.append(f"bytes {it.read().hex()}")
        wanted = [it.split() for it in self.lines if not it.startswith("no ")]
        missing = unmatched(wanted, [it.split() for it in printed], {})
        if missing:
            return f"{' '.join(missing)} is not printed, with the lines before it, among {printed}"
        extra = [it for it in self.lines if it.startswith("no ") and any(matched(it.split()[1:], line.split(), {}) is not None for line in printed)]
        return f"{extra[0][3:]} is printed" if extra else ""


def matched(wanted, line, known):
    """Returns what the names in braces stand for, by what is known of them, where a line is as it is wanted; else nothing."""
    if len(wanted) != len(line):
        return None
    known = dict(known)
    for want, word in zip(wanted, line):
        if re.fullmatch(r"\{\w+\}", want):
            if known.get(want, word) != word or any(it == word for name, it in known.items() if name != want):
                return None
            known[want] = word
        elif want not in ("*", word):
            return None
    return known


def unmatched(wanted, lines, known):
    """Returns nothing where each wanted line is a line of its own, or else the first that is none, wherever those before it are."""
    if not wanted:
        return None
    deepest = wanted[0]
    for at, line in enumerate(lines):
        now = matched(wanted[0], line, known)
        if now is not None:
            missing = unmatched(wanted[1:], [*lines[:at], *lines[at + 1 :]], now)
            if missing is None:
                return None
            deepest = missing
    return deepest


def table_cases(name, text):
    case = None
    for number, line in remarks_left_out(text):
        if line.startswith("of "):
            if case:
                yield case
            case = TableCase(f"{name}:{number}", repeated(line[3:]))
        elif case:
            case.lines.append(" ".join(line.split()))
        else:
            raise ValueError(f"{name}:{number}: a line before the first sources")
    if case:
        yield case


class CommandCase:
    """A line of a file of command lines, with the files and the standard input that it reads."""

    def __init__(self, where, words, files, given, status, wanted):
        self.where, self.words, self.files, self.given, self.status, self.wanted = where, words, files, given, status, wanted

    def what_fails(self, program, folder):
        """Runs the case in a folder, and returns what is wrong with it, or nothing."""
        for name, data in self.files.items():
            with open(f"{folder}/{name}", "wb") as it:
                it.write(data)
        ran = subprocess.run([program, *self.words], cwd=folder, input=self.given, capture_output=True, timeout=120)
        texts = [ran.stdout.decode(errors="replace"), ran.stderr.decode(errors="replace")]
        printed, empty = reversed(texts) if self.status else texts
        is_right = self.wanted in (None, printed) and not empty and ran.returncode == self.status
        return "" if is_right else f"status {ran.returncode}, output {texts[0]!r}, errors {texts[1]!r}"


def command_cases(name, text):
    files, given = {}, b""
    for number, line in remarks_left_out(text):
        word, _, rest = line.partition(" ")
        words, arrow, wanted = line.partition(" -> ")
        if word in ("file", "text", "copy"):
            of, _, data = rest.partition(" ")
            files = {**files, of: read_by(word, data)}
        elif word == "input":
            given = bytes_of(rest.split())
        else:
            status, _, printed = wanted.partition(" ")
            lines = printed.replace("\\n", "\n") + "\n" if printed else ""
            yield CommandCase(f"{name}:{number}", words.split(), files, given, int(status), lines)


class EncodeCase(CommandCase):
    """A text that is encoded by the table of sources."""

    def __init__(self, where, sources, root, text, status, wanted):
        super().__init__(where, ["encode", "out.fct", root, "--", text], sources_of(sources, {}), b"", status, wanted)

    def what_fails(self, program, folder):
        """Compiles the sources in a folder and runs the case there, and returns what is wrong with it, or nothing."""
        compiled = CommandCase(self.where, ["compile", "--out", "out.fct", *self.files], self.files, b"", 0, None)
        return compiled.what_fails(program, folder) or super().what_fails(program, folder)


class MigrateCase(CommandCase):
    """A table that is migrated, to the table of sources or to these bytes, where there are any."""

    def __init__(self, where, table, sources, new, status, wanted):
        super().__init__(where, ["migrate", "--out", "out.fct", "t.fct"], {"t.fct": table, **sources}, b"", status, wanted)
        self.sources, self.new = sources, new

    def what_fails(self, program, folder):
        """Runs the case in a folder, and returns what is wrong with it, or nothing."""
        said = super().what_fails(program, folder)
        found, wanted = read_in(folder, "out.fct"), self.new
        if self.sources:
            compiled = CommandCase(self.where, ["compile", "--out", "wanted.fct", *self.sources], {}, b"", 0, None)
            said, wanted = said or compiled.what_fails(program, folder), read_in(folder, "wanted.fct")
        if said or (found is None) == (self.status == 0):
            return said or ("a table is written" if self.status else "no table is written")
        return f"{found.hex()} is written, not {wanted.hex()}" if wanted and found != wanted else ""


def read_in(folder, name):
    """Returns the bytes of a file, or None where there is none."""
    try:
        with open(f"{folder}/{name}", "rb") as it:
            return it.read()
    except OSError:
        return None


def migrate_cases(name, text):
    blocks, sources, block = {}, {}, ""
    for number, line in remarks_left_out(text):
        if line in ("table", "to"):
            blocks, block = ({} if line == "table" else blocks), line
            blocks[block] = b""
        elif line.startswith("of "):
            sources = sources_of(repeated(line[3:]), {})
        elif line.startswith("-> "):
            status, _, printed = line[3:].partition(" ")
            yield MigrateCase(f"{name}:{number}", blocks["table"], sources, blocks.get("to"), int(status), f"{printed}\n")
            sources = {}
        else:
            blocks[block] += bytes_of(line.split())


def encode_cases(name, text):
    sources = ""
    for number, line in remarks_left_out(text):
        if line.startswith("of "):
            sources = repeated(line[3:])
        else:
            given, _, wanted = repeated(line).partition(" -> ")
            root, _, value = given.partition(" ")
            status, _, printed = wanted.partition(" ")
            yield EncodeCase(f"{name}:{number}", sources, root, value, int(status), printed.replace("\\n", "\n") + "\n")


def read_by(word, data):
    """Returns the bytes that a line gives a file: hexadecimal words, a text, or those of a file of the repository."""
    if word == "file":
        return bytes_of(data.split())
    if word == "text":
        return data.replace("^", "\n").encode()
    with open(f"{os.path.dirname(os.path.dirname(os.path.realpath(__file__)))}/{data}", "rb") as it:
        return it.read()


READERS = {
    "compile": compile_cases,
    "migrate": migrate_cases,
    "decode": decode_cases,
    "encode": encode_cases,
    "table": table_cases,
    "command": command_cases,
}


def files_of(root):
    """Returns the files of cases below root, each with its cases."""
    found = []
    for command, reader in READERS.items():
        for path in sorted(glob.glob(f"{root}/cases/{command}/*.txt")):
            with open(path, encoding="utf-8") as it:
                name = os.path.relpath(path, root)
                found.append((name, list(reader(name, it.read()))))
    return found


def run(root, programs):
    """Runs all cases below root by each program, prints a line for each file and each case that fails, and returns whether none does."""
    good, files = True, files_of(root)
    missing = [it for it in programs if not os.path.isfile(it)]
    if files and missing:
        print(f"gate: FAILED: there is no program {missing[0]} to run the cases with")
        return False
    for name, cases in files:
        failed = 0
        for program in programs:
            for case in cases:
                with tempfile.TemporaryDirectory(prefix="gate-case-") as folder:
                    said = case.what_fails(program, folder)
                if said:
                    print(f"gate: {case.where}: FAILED: {' '.join(case.words)[:200]}: {case.wanted or 'accepted'} is wanted: {said[:400]}", flush=True)
                    failed += 1
        print(f"gate: {name}: {len(cases)} cases by {len(programs)} builds of the program, {failed} failed", flush=True)
        good = good and bool(cases) and not failed
    return good


if __name__ == "__main__":
    by_hand.start(run)
