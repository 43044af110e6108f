#!/usr/bin/env python3
"""The gate of each change.

It proves every crate from nothing and runs every test and program by `rt ci`, and then tries the wrong bodies
(crates/NAME/must-fail) of each crate that .ci/tried does not name at its very sources: each by the check of the function that it
changes (.ci/wrong_bodies.py), which takes seconds where a check of the crate takes a minute.

    .ci/run             the gate
    .ci/run --record    the gate; it adds to .ci/tried each crate whose wrong bodies were all refused, as soon as they were
    .ci/run --record NAME..
                        `rt ci` of these crates and those below them alone, which is not the gate; it adds to .ci/tried as above
    .ci/run --whole     `rt ci` as it is, with every wrong body over its whole crate; where all passes it writes .ci/tried anew

It prints first which wrong bodies it does not try again. After rt ci it runs the examples of the documents (.ci/examples.py) and
the cases of the program (.ci/cases.py), each as two compilers build it, and compares the documents with the program
(.ci/blocks.py, .ci/explained.py, .ci/manual.py). It refuses the program's allocations in turn (.ci/refused_memory.py) and
gives it changed inputs (.ci/fuzz.py), then tries the wrong bodies and the programs that must not compile (.ci/must_not_compile.py). Its last line but one says how long it took, and the last is rt ci's: `N passed, M failed`.

A line of .ci/tried is `NAME KEY KIT`: every wrong body of the crate was refused at that key. The key is a sum of the
toolchain, of HANDLES, of the crate's line in crates.txt, of its sources and wrong bodies, and of the lines and
sources of all crates below it. So an edit of any of these has the wrong bodies tried again. KIT is the toolchain's name,
which decides nothing: a crate has a line for each toolchain that it was tried with, and the key has to be that of this one.
"""
import contextlib
import hashlib
import os
import re
import shutil
import subprocess
import sys
import tempfile
import threading
import time

sys.dont_write_bytecode = True
sys.path.insert(0, os.path.dirname(os.path.realpath(__file__)))
import blocks  # noqa: E402
import cases  # noqa: E402
import examples  # noqa: E402
import explained  # noqa: E402
import fuzz  # noqa: E402
import manual  # noqa: E402
import must_not_compile  # noqa: E402
import refused_memory  # noqa: E402
import wrong_bodies  # noqa: E402

PARTS = ("src", "specs", "proofs")
# The crate of the program that the documents' examples run.
PROGRAM = "fidl"


def digest(path):
    with open(path, "rb") as it:
        return hashlib.sha256(it.read()).hexdigest()


def toolchain():
    """Returns a sum of what judges: the programs of the kit, and the name that it gives itself and its libraries."""
    rt = shutil.which("rt") or sys.exit("gate: there is no rt on PATH")
    programs = os.path.dirname(os.path.realpath(rt))
    kit, total = os.path.dirname(programs), hashlib.sha256()
    files = [f"{programs}/{it}" for it in sorted(os.listdir(programs))]
    files += [f"{kit}/{it}" for it in sorted(os.listdir(kit)) if it == "KIT-ID" or it.startswith("WHAT")]
    for file in filter(os.path.isfile, files):
        total.update(f"{os.path.relpath(file, kit)} {digest(file)}\n".encode())
    return total.hexdigest()


def kit_name():
    """Returns the name that the toolchain gives itself, as `rattle-kit-13f`."""
    ran = subprocess.run(["rt", "version"], stdin=subprocess.DEVNULL, capture_output=True, text=True)
    return (ran.stdout.split() or ["unnamed"])[0]


class Repository:
    """The crates of a repository, and the keys of their wrong bodies."""

    def __init__(self, root, kit, name="kit"):
        self.root, self.kit, self.name = root, kit, name
        self.lines, self.below = {}, {}
        with open(f"{root}/crates.txt", encoding="utf-8") as it:
            for line in it:
                line = line.partition("#")[0].strip()
                if line:
                    self.lines[line.partition(":")[0].split()[0]] = line
        for name, line in self.lines.items():
            self.below[name] = [it for it in line.partition(":")[2].split() if it in self.lines]

    def sum_of(self, name, parts):
        """Returns a sum of all files in these folders of the crate, with their paths."""
        total, crate = hashlib.sha256(), f"{self.root}/crates/{name}"
        for part in parts:
            found = [f"{at}/{file}" for at, _, files in os.walk(f"{crate}/{part}") for file in files]
            for file in sorted(found):
                total.update(f"{os.path.relpath(file, crate)} {digest(file)}\n".encode())
        return total.hexdigest()

    def edits(self, name):
        """Returns the files of a crate's wrong bodies."""
        folder = f"{self.root}/crates/{name}/must-fail"
        return [f"{folder}/{it}" for it in sorted(os.listdir(folder)) if it.endswith(".edit")] if os.path.isdir(folder) else []

    def keys(self):
        """Returns the key of each crate that has wrong bodies."""
        handles = f"{self.root}/HANDLES"
        allowed, proved = digest(handles) if os.path.isfile(handles) else "", {}

        def proof(name):
            if name not in proved:
                text = [self.kit, allowed, self.lines[name], self.sum_of(name, PARTS), *map(proof, self.below[name])]
                proved[name] = hashlib.sha256("\n".join(text).encode()).hexdigest()
            return proved[name]

        def key(name):
            return hashlib.sha256(f"{proof(name)}\n{self.sum_of(name, ['must-fail'])}".encode()).hexdigest()

        return {it: key(it) for it in self.lines if self.edits(it)}

    def up_to(self, names):
        """Returns these crates and all below them."""
        found = set()

        def visit(name):
            if name not in found:
                found.add(name)
                for it in self.below[name]:
                    visit(it)

        for name in names:
            visit(name)
        return found

    def lines_tried(self):
        """Returns the record: a triple of name, key and kit for each line."""
        tried = f"{self.root}/.ci/tried"
        if not os.path.isfile(tried):
            return []
        with open(tried, encoding="utf-8") as it:
            return [(*line.split(), "unnamed")[:3] for line in it if line.strip() and not line.startswith("#")]

    def recorded(self):
        """Returns the keys at which each crate's wrong bodies were refused, by any toolchain."""
        found = {}
        for name, key, _ in self.lines_tried():
            found.setdefault(name, set()).add(key)
        return found

    def record(self, entries):
        """Writes these keys for this toolchain, in place of all that the record has for it; those of others stay."""
        others = [it for it in self.lines_tried() if it[2] != self.name and it[0] in self.lines]
        tried = f"{self.root}/.ci/tried"
        with open(f"{tried}.new", "w", encoding="utf-8") as it:
            it.write("# Written by .ci/run, never by hand: crates whose wrong bodies were all refused, with the key of their sources, by kit.\n")
            it.writelines(f"{name} {key} {kit}\n" for name, key, kit in sorted([*others, *((*it, self.name) for it in entries.items())]))
        os.replace(f"{tried}.new", tried)

    def add(self, name, key):
        """Adds to the record that the wrong bodies of a crate were refused at this key, if its files are still those."""
        if Repository(self.root, self.kit).keys().get(name) == key:
            held = {it[0]: it[1] for it in self.lines_tried() if it[2] == self.name}
            self.record({**held, name: key})

    def files(self):
        """Returns the files of the repository, as git lists them: what is committed or would be, and no out/."""
        words = ["git", "-C", self.root, "ls-files", "-z", "--cached", "--others", "--exclude-standard"]
        listed = subprocess.run(words, stdout=subprocess.PIPE, check=True).stdout.decode().split("\0")
        return sorted({it for it in listed if it and os.path.lexists(f"{self.root}/{it}")})

    def conflicts(self):
        """Returns the files in which a merge left both sides of a conflict, each with the line."""
        found = []
        for file in self.files():
            with open(f"{self.root}/{file}", "rb") as it:
                lines = it.read().split(b"\n") if os.path.isfile(f"{self.root}/{file}") else []
            found += [f"{file}:{number}" for number, line in enumerate(lines, 1) if line.startswith((b"<<<<<<< ", b">>>>>>> "))]
        return found

    def copy(self, room, kept, only):
        """Copies the repository, with only these crates, and without the wrong bodies of those that are kept."""
        for file in self.files():
            crate = file.split("/")[1] if file.startswith("crates/") else None
            is_left_out = crate is not None and crate not in only and crate in self.lines
            if not is_left_out and not any(file.startswith(f"crates/{it}/must-fail/") for it in kept):
                os.makedirs(os.path.dirname(f"{room}/{file}") or room, exist_ok=True)
                shutil.copy2(f"{self.root}/{file}", f"{room}/{file}", follow_symlinks=False)

        with open(f"{room}/crates.txt", "w", encoding="utf-8") as it:
            it.writelines(f"{line}\n" for name, line in self.lines.items() if name in only)

    def copy_edits(self, room, names):
        """Copies the wrong bodies of these crates."""
        for name in names:
            shutil.copytree(f"{self.root}/crates/{name}/must-fail", f"{room}/crates/{name}/must-fail")


def lanes():
    """Returns how many crates are proved side by side: one a core, as far as there are 4 GB for each."""
    memory = os.sysconf("SC_PHYS_PAGES") * os.sysconf("SC_PAGE_SIZE")
    return max(1, min(len(os.sched_getaffinity(0)), memory // 4_000_000_000))


def side_by_side():
    """Returns the environment of `rt ci`. Left to itself it gives a crate several cores while few others are ready, though a proof
    from nothing uses one; those that are ready later then wait for these. So each crate gets one, if RT_JOBS does not say else."""
    return {"RT_JOBS": str(lanes()), **os.environ}


# What `rt ci` prints of a crate that it has proved, or had proved before.
PROVED = re.compile(r"rt: (\w+) (?:proved|is kept: .*)")


def rt_ci(room, proved=lambda name: None):
    """Runs `rt ci` there, and prints what it prints, but for the last line: returns its status and that line. Calls `proved` with the
    name of each crate once it is proved."""
    last, how = None, {"stdin": subprocess.DEVNULL, "stdout": subprocess.PIPE, "text": True, "errors": "replace"}
    with subprocess.Popen(["rt", "ci"], cwd=room, env=side_by_side(), **how) as ran:
        for line in ran.stdout:
            if last is not None:
                print(last, flush=True)
            last = line.rstrip("\n")
            found = PROVED.fullmatch(last)
            if found:
                proved(found[1])
    return ran.returncode, last or "0 passed, 1 failed"


def programs(room):
    """Returns the program as each compiler built it in this room, that of LLVM first."""
    made = f"{room}/crates/{PROGRAM}/out/{PROGRAM}"
    return [made, *filter(os.path.isfile, [f"{made}.by-rattle"])]


def tells_right(room):
    """Runs what the documents and the cases show by the program that this room has, and returns whether all is right."""
    built = programs(room)
    if not all([examples.run(room, it) for it in built]) or not cases.run(room, built):
        return False
    if not os.path.isfile(f"{room}/docs/fidl.1"):
        return True
    return all([it.run(room, built) for it in (blocks, explained, manual, refused_memory, fuzz)])


class Times:
    """How long the parts of a run took, in minutes."""

    def __init__(self):
        self.begun = self.last = time.monotonic()
        self.parts = []

    def ended(self, part):
        now = time.monotonic()
        self.parts.append(f"{part} {(now - self.last) / 60:.0f}")
        self.last = now

    def line(self):
        whole = f"gate: {(self.last - self.begun) / 60:.0f} minutes on {os.cpu_count()} cores"
        return ": ".join([whole, ", ".join(self.parts)])


class ByFunction:
    """The wrong bodies of some crates in a room, tried by their functions: those of a crate as soon as `rt ci` has proved it, beside
    the proofs of others. `refused` is called with the name of each crate whose wrong bodies are all refused."""

    def __init__(self, repository, room, names, refused=lambda name: None):
        self.repository, self.room, self.left = repository, room, set(names)
        self.refused, self.telling = refused, threading.Lock()
        self.tries = wrong_bodies.Tries(wrong_bodies.load(shutil.which("rt")), room, lanes())

    def begin(self, name):
        """Has those of a crate tried that is proved. They never stand in the room, where `rt ci` would try them over the whole crate."""
        if name in self.left:
            self.left.remove(name)
            self.tries.begin(name, self.repository.edits(name)).add_done_callback(lambda done: self.tell(name, done))

    def tell(self, name, done):
        """Tells of a crate whose tries are done, if each of its wrong bodies was refused. Tries of several crates end side by side."""
        if not done.cancelled() and not done.exception() and all(well for well, _ in done.result()):
            with self.telling:
                self.refused(name)

    def ended(self, last):
        """Tries what is left, and returns the status and the last line with all of them. What was not refused is told once more at the
        end, where no other line hides it."""
        names = [*self.tries.begun, *self.left]
        try:
            for name in sorted(self.left):
                self.begin(name)
            self.tries.hurry()
            refused, others = self.tries.told()
            print(*[f"gate: failed: {it}\n" for it in others], sep="", end="", flush=True)
            failed = len(others)
        except (Exception, SystemExit) as error:  # the parts of another rt may be other than they seem
            print(f"gate: wrong bodies can't be tried by their functions here ({type(error).__name__}: {error}), so rt must-fail tries them", flush=True)
            self.repository.copy_edits(self.room, names)
            refused, failed = tried_by_crate(self.room, names)
        return bool(failed), f"{int(last.split()[0]) + refused} passed, {failed} failed"

    def close(self):
        self.tries.close()


def tried_by_crate(room, names):
    """Tries the wrong bodies of these crates by `rt must-fail`, and returns how many were refused and how many not."""
    wanted = sum(len(os.listdir(f"{room}/crates/{it}/must-fail")) for it in names)
    ran = subprocess.run(["rt", "must-fail", *sorted(names)], cwd=room, stdin=subprocess.DEVNULL, stdout=subprocess.PIPE, text=True, errors="replace")
    print(ran.stdout, end="", flush=True)
    refused = sum(" refused, as it must be" in it for it in ran.stdout.splitlines())
    return refused, max(wanted - refused, int(ran.returncode != 0))


def run(repository, mode, names=()):
    now, times = repository.keys(), Times()
    known = {} if mode == "--whole" else repository.recorded()
    kept = [it for it in now if now[it] in known.get(it, ())]
    for name in kept:
        print(f"gate: {name}: its {len(repository.edits(name))} wrong bodies were refused at these very sources, and are not tried again", flush=True)
    asked = repository.up_to(names) if names else set(repository.lines)
    wanted = asked & set(now) - set(kept)
    by_function = mode != "--whole" and wrong_bodies.can_try(shutil.which("rt"))
    add = (lambda name: repository.add(name, now[name])) if mode == "--record" else (lambda name: None)
    # In a copy, so that a run neither reads nor moves what checks keep in out/.
    with tempfile.TemporaryDirectory(prefix="gate-") as room, contextlib.ExitStack() as ends:
        repository.copy(room, now if by_function else kept, asked)
        tries = ends.enter_context(contextlib.closing(ByFunction(repository, room, wanted, add))) if by_function else None
        status, last = rt_ci(room, tries.begin) if tries else rt_ci(room)
        times.ended("rt ci")
        if not status and not names and not tells_right(room):
            status, last = 1, "0 passed, 1 failed"
        times.ended("examples and cases")
        if not status and tries:
            status, last = tries.ended(last)
        times.ended("wrong bodies behind these")
        if not status and not names and not must_not_compile.run(room):
            status, last = 1, "0 passed, 1 failed"
        times.ended("programs that must not compile")
    if not status and Repository(repository.root, repository.kit).keys() != now:
        status, last = 1, "0 passed, 1 failed"
        print("gate: files changed while it ran: run it again")
    if not status and names:
        repository.record({it: now[it] for it in now if it in asked or it in kept})
        print("gate: .ci/tried names these crates and those below them, at these sources")
    elif not status and mode:
        repository.record(now)
        print("gate: .ci/tried names every crate with wrong bodies, at these sources")
    print(times.line())
    print(last, flush=True)
    return int(bool(status))


def main(words):
    root = os.path.dirname(os.path.dirname(os.path.realpath(__file__)))
    repository = Repository(root, toolchain(), kit_name())
    names = words[1:] if words[:1] == ["--record"] else []
    if words[: len(words) - len(names)] not in ([], ["--whole"], ["--record"]) or not set(names) <= set(repository.lines):
        sys.exit(__doc__)
    conflicts = repository.conflicts()
    if conflicts:
        print(*[f"gate: a conflict of a merge stands at {it}" for it in conflicts], "0 passed, 1 failed", sep="\n")
        return 1
    return run(repository, words[0] if words else None, names)


if __name__ == "__main__":
    sys.exit(main(sys.argv[1:]))
