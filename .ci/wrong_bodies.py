#!/usr/bin/env python3
"""Tries the wrong bodies of a crate, function by function.

A wrong body (crates/NAME/must-fail/*.edit) turns the meaning of a function, whose contract stays as it is. So it is the check of
that function that has to refuse it, and `rattle check --only FUNCTION` asks for this check alone, in seconds. `rt must-fail` checks
the whole crate for each.

No proof of a function reads the body of another. So wrong bodies of different functions are tried together, in one check: of each
function, the check then says why it is not proved. That another function is not proved, which it calls, is no refusal.

A crate is tried after `rt ci` has proved it whole, from nothing, over the libraries that this run left:
1. the functions of all its wrong bodies are checked as they are: all are proved;
2. wrong bodies of different functions are checked together, over what step 1 kept: none of these functions is proved, each for a
   reason of its own; those that only lacked a function which they call are checked again, without that one;
3. a wrong body that is not refused so is checked alone: its function is not proved;
4. step 1 again, over what all of these kept: still all are proved.
A wrong body that is not refused so is tried once more over the whole crate, as `rt must-fail` does, and is refused there or fails.

The check itself, how an edit is read and what of an answer is no refusal (an edit that does not compile, say) are those of `rt`.
"""
import difflib
import importlib.machinery
import importlib.util
import os
import re
import sys
import tempfile
import threading
from concurrent.futures import ThreadPoolExecutor

# What an error of a proof says that names what an edit took away; it says little of the contract.
NAMES = r"has no field|is not in scope|has no `|was not admitted"
NEEDS = ("read_edit", "checked", "unread", "must_fail", "free", "processors", "rtlib")


def load(rt):
    """Returns the program rt as a module, or None where it lacks what is used here: then `rt ci` itself tries the wrong bodies."""
    try:
        loader = importlib.machinery.SourceFileLoader("rt_of_the_kit", rt)
        spec = importlib.util.spec_from_loader("rt_of_the_kit", loader)
        made = importlib.util.module_from_spec(spec)
        sys.modules["rt_of_the_kit"] = made
        loader.exec_module(made)
    except (OSError, SyntaxError, ImportError, AttributeError):
        return None
    return made if all(hasattr(made, it) for it in NEEDS) else None


def can_try(rt):
    """Returns whether wrong bodies can be tried function by function with this program rt."""
    return load(rt) is not None


def module_of(path):
    """Returns the module that a file of src/ is: `src/a/b.rt` is a::b, and src/lib.rt none."""
    parts = path[len("src/") : -len(".rt")].split("/")
    return [it for it in parts if it not in ("lib", "main", "mod")]


IMPL = re.compile(r"^(?:unsafe )?impl(?:<[^{]*?>)? +(?:([\w:]+)(?:<(?:'\w+, *)*(\w*)[^{]*>)? for )?(\w+)")
FUNCTION = re.compile(r"\s*(?:pub(?:\([\w: ]+\))? +)?(?:const +)?(?:unsafe +)?fn +(\w+)")
CYCLE = re.compile(r"\s*#\[cycle\((\w+)\)\]")


def function_of(path, old, new):
    """Returns the path below the crate of the function in which the first change of a file stands, or of its module where none is seen."""
    lines, module = old.split("\n"), module_of(path)
    at = next((k for k, (a, b) in enumerate(zip(lines, new.split("\n"))) if a != b), 0)
    name, of = None, None
    for k in range(at, -1, -1):
        found = FUNCTION.match(lines[k])
        if found and name is None:
            name, is_method = found[1], lines[k].startswith(" ")
            if not is_method:
                break
        found = IMPL.match(lines[k])
        if found:
            of = found[3] + (found[1] or "").rpartition("::")[2] + (found[2] or "")
            break
        if lines[k].startswith("}") and k < at:
            break
    return "::".join([*module, *([of] if of else []), name] if name else module)


def cycle_of(old, new):
    """Returns the name of the cycle of calls to which the function belongs in which the first change of a file stands, if to any.
    The functions of a cycle have one proof."""
    lines = old.split("\n")
    at = next((k for k, (a, b) in enumerate(zip(lines, new.split("\n"))) if a != b), 0)
    begun = next((k for k in range(at, -1, -1) if FUNCTION.match(lines[k])), 0)
    for k in range(begun - 1, -1, -1):
        found = CYCLE.match(lines[k])
        if found or not lines[k].lstrip().startswith(("#", "//")):
            return found[1] if found else None
    return None


def changes(old, new):
    """Returns the ranges of lines that differ between two texts of a file, each with the lines that stand there in the new one."""
    lines = old.splitlines(True), new.splitlines(True)
    found = difflib.SequenceMatcher(None, *lines, autojunk=False).get_opcodes()
    return [(i, j, lines[1][k:m]) for tag, i, j, k, m in found if tag != "equal"]


def merged(old, both):
    """Returns the text of a file with the changes of two others made from it, or None where they meet."""
    ranges = sorted(it for new in both for it in changes(old, new))
    if any(next_from <= to for (_, to, _), (next_from, _, _) in zip(ranges, ranges[1:])):
        return None
    lines = old.splitlines(True)
    for i, j, others in reversed(ranges):
        lines[i:j] = others
    return "".join(lines)


class WrongBody:
    """An edit of a crate: the texts that it makes, and the function that it changes. `function` is its path below the crate as the
    source has it, and `path` what the check is asked for: that path, or an end of it, or the module."""

    def __init__(self, rt, crate, file):
        self.name = f"{crate.name}/{os.path.basename(file)}"
        self.file = file
        self.texts, self.why = rt.read_edit(file, crate.folder)
        self.path, self.function, self.cycle, self.old = "", "", None, {}
        for path, text in (self.texts or {}).items():
            with open(f"{crate.folder}/{path}", encoding="utf-8") as it:
                self.old[path] = it.read()
            if path.startswith("src/") and not self.path:
                self.path, self.module = function_of(path, self.old[path], text), "::".join(module_of(path))
                self.function, self.cycle = self.path, cycle_of(self.old[path], text)

    def is_of_a_function(self):
        """Returns whether all that it changes is code, in one function: then no other proof reads it."""
        if not self.path or self.function == self.module or not all(it.startswith("src/") for it in self.texts):
            return False
        ranges = [(path, it) for path in self.texts for it in changes(self.old[path], self.texts[path])]
        return {function_of(path, self.old[path], merged_at(self.old[path], it)) for path, it in ranges} == {self.function}

    def shorten(self, is_shared=False):
        """Has the check asked for a shorter end of the function's path, or for the module: a method of a type of another module
        bears that module's name. An end that several functions share names none of them."""
        self.path = (not is_shared and self.path.partition("::")[2]) or self.module


def merged_at(old, change):
    """Returns the text of a file with one change made in it."""
    lines, (i, j, others) = old.splitlines(True), change
    return "".join([*lines[:i], *others, *lines[j:]])


class Together:
    """Wrong bodies of different functions of a crate, with the texts that they make together."""

    def __init__(self):
        self.bodies, self.texts = [], {}

    def takes(self, body):
        """Adds a wrong body where its function and its cycle have none yet and its changes meet no other, and returns whether it did."""
        if any(it.function == body.function or it.cycle and it.cycle == body.cycle for it in self.bodies):
            return False
        both = {path: merged(body.old[path], [self.texts.get(path, body.old[path]), text]) for path, text in body.texts.items()}
        if None in both.values():
            return False
        self.bodies.append(body)
        self.texts.update(both)
        return True


def put_together(bodies):
    """Returns groups of wrong bodies, in which each is of another function; what is not of one function is in none."""
    groups = []
    for body in bodies:
        if body.is_of_a_function() and not any(it.takes(body) for it in groups):
            groups.append(Together())
            groups[-1].takes(body)
    return groups


class Trial:
    """The wrong bodies of one crate, which these files say, tried in one folder of kept work."""

    def __init__(self, rt, crate, files):
        self.rt, self.crate = rt, crate
        self.bodies = [WrongBody(rt, crate, it) for it in files]

    def ask(self, texts, paths, kept):
        flags = ["--jobs", "1"]
        for path in paths:
            flags += ["--only", path]
        ran = self.rt.checked(self.crate, texts, flags, kept)
        lines = ran.stdout.rstrip("\n").split("\n")
        return ran.returncode, lines

    def are_proved(self, paths, kept):
        status, lines = self.ask({}, paths, kept)
        found = re.match(r"only=(\d+) proved=(\d+)\b", lines[-1])
        return status == 0 and bool(found) and found[1] == found[2]

    def settled_paths(self, kept):
        """Has each wrong body name a function that the check knows, or else its module, and checks these as they are. Returns them."""
        while True:
            paths = sorted({it.path for it in self.bodies if it.path})
            status, lines = self.ask({}, paths, kept)
            unclear = re.search(r"(has no function|several functions are named) `([^`]*)`", "\n".join(lines)) if status == 2 else None
            bodies = [it for it in self.bodies if unclear and it.path == unclear[2] and it.path != it.module]
            if not bodies:
                return paths
            for body in bodies:
                body.shorten(is_shared=unclear[1] != "has no function")

    def refused_together(self, group, kept):
        """Returns the wrong bodies of a group that one check refuses, each for a reason of its own, with what refused them."""
        status, lines = self.ask(group.texts, [it.path for it in group.bodies], kept)
        said = not re.match(r"only=\d+ proved=\d+\b", lines[-1]) or self.rt.rtlib.STALE.search("\n".join(lines))
        if status != 1 or said or any(self.rt.unread(it, group.texts) for it in lines):
            return {}
        found = {}
        for body in group.bodies:
            own = [it for it in lines if re.match(rf"(fn|impl) {self.crate.name}::(\S*::)?{re.escape(body.path)}: ", it)]
            files = re.compile(rf"(\./)?proofs/(\S*/)?{re.escape(body.path.replace('::', '/'))}/[^/]*:\d+:\d+: error")
            errors = [it for it in lines if files.match(it) and not re.search(NAMES, it)]
            reason = re.search(r": no proof: .*`search` did not prove `[^`]*`", own[0]) if len(own) == 1 else None
            if reason or (errors and len(own) == 1 and own[0].endswith(": not proved")):
                found[body] = (reason[0].removeprefix(": ") if reason else errors[0])[:160]
        return found

    def all_refused_together(self, kept):
        """Returns the wrong bodies that checks of many refuse, with what refused each. One whose function calls another that is
        not proved is tried again without that one."""
        refused, left = {}, self.bodies
        while left:
            found = {}
            for group in put_together(left):
                found.update(self.refused_together(group, kept))
            refused.update(found)
            left = [it for it in left if it not in refused] if found else []
        return refused

    def is_refused(self, body, kept):
        """Returns whether the check of its function refuses a wrong body, and by what."""
        if not body.path:
            return False, ""
        status, lines = self.ask(body.texts, [body.path], kept)
        found = re.match(r"only=(\d+) proved=(\d+)\b", lines[-1])
        if any(self.rt.unread(it, body.texts) for it in lines) or self.rt.rtlib.STALE.search("\n".join(lines)):
            return False, ""
        told = [it for it in lines if re.match(r"(\./)?\S+:\d+:\d+: error", it)]
        first = next((it for it in told if not re.match(rf"(\./)?proofs/.*({NAMES})", it)), "")
        by = f"a proof names what the edit took away, which says little of the contract: {told[0]}" if told and not first else first
        return status == 1 and bool(found) and int(found[2]) < int(found[1]), by[:160]

    def run(self):
        """Tries all, and returns for each whether it is refused, and what to say."""
        bad = [it for it in self.bodies if it.why]
        if bad:
            return [(False, f"must-fail {it.name}: BAD EDIT: {it.why}") for it in bad]
        with tempfile.TemporaryDirectory(prefix="gate-kept-") as kept:
            paths = self.settled_paths(kept)
            refused = self.all_refused_together(kept)
            tried = [(True, refused[it]) if it in refused else self.is_refused(it, kept) for it in self.bodies]
            is_sound = self.are_proved(paths, kept)
        return [self.said(*it, is_sound) for it in zip(self.bodies, tried)]

    def said(self, body, tried, is_sound):
        refused, by = tried
        if refused and is_sound:
            return True, f"must-fail {body.name}: {body.path} refused, as it must be{': ' + by if by else ''}"
        kind, text = self.rt.must_fail(self.crate, body.file, ["--jobs", "1"])
        # A toolchain answers whether it is refused, or what a try came to.
        return kind is True or kind in (getattr(self.rt, it, True) for it in ("REFUSED", "AT_LIMIT")), text


class Tries:
    """Tries the wrong bodies of crates of a repository in the background, those of each crate from the moment on that `begin` names it.

    Until `hurry` is called, other work has the processor first: half of the lanes are used, at the lowest priority."""

    def __init__(self, rt, root, lanes):
        rt.rtlib.guarded()  # Its first call sets a signal's handler, which only the main thread may.
        self.rt, self.root, self.home = rt, root, os.getcwd()
        os.chdir(root)
        beside = max(1, lanes // 2)
        self.turn, self.later = threading.Semaphore(beside), lanes - beside
        self.pool = ThreadPoolExecutor(lanes)
        self.begun = {}

    def begin(self, name, files):
        """Has the wrong bodies of a crate tried that is proved, and returns what will hold the answers."""
        if name not in self.begun:
            self.begun[name] = self.pool.submit(self.tried, name, files)
        return self.begun[name]

    def tried(self, name, files):
        with self.turn:
            os.setpriority(os.PRIO_PROCESS, threading.get_native_id(), 19)  # of this thread, and of the checks that it starts
            crate = next(it for it in self.rt.rtlib.crates_below(self.root) if it.name == name)
            return Trial(self.rt, crate, files).run()

    def hurry(self):
        """Gives the tries all lanes."""
        while self.later:
            self.turn.release()
            self.later -= 1

    def told(self):
        """Prints the answer of each try once it is there, and returns how many wrong bodies were refused, and what was said of the others."""
        refused, others = 0, []
        for done in self.begun.values():
            for well, text in done.result():
                print(text, flush=True)
                refused += well
                others += [] if well else [text]
        return refused, others

    def close(self):
        """Ends the tries, those that did not begin yet without an answer."""
        self.hurry()
        self.pool.shutdown(cancel_futures=True)
        os.chdir(self.home)
