#!/usr/bin/env python3
"""Tests of the gate: which edits have a crate's wrong bodies tried again, and what a run prints and records.

They make a small repository and a stand-in for `rt` that proves nothing; `rt` itself is not run."""
import contextlib
import io
import os
import random
import re
import subprocess
import sys
import tempfile
import types
import unittest
import unittest.mock

sys.dont_write_bytecode = True
sys.path.insert(0, os.path.dirname(os.path.realpath(__file__)))
import blocks  # noqa: E402
import cases  # noqa: E402
import explained  # noqa: E402
import fuzz  # noqa: E402
import gate  # noqa: E402
import manual  # noqa: E402
import refused_memory  # noqa: E402
import sentences  # noqa: E402
import wrong_bodies  # noqa: E402

FILES = {
    "HANDLES": "Handles allowed: none.\n",
    ".gitignore": "out/\n",
    "crates.txt": "low:\nhigh: low thiserror\naside:\nplain: low\n",
    "crates/low/src/lib.rt": "low\n",
    "crates/low/specs/Lib.antt": "spec\n",
    "crates/low/must-fail/one.edit": "file: src/lib.rt\n",
    "crates/high/src/lib.rt": "high\n",
    "crates/high/proofs/Lib.antt": "proof\n",
    "crates/high/must-fail/one.edit": "file: src/lib.rt\n",
    "crates/high/must-fail/two.edit": "file: src/lib.rt\n",
    "crates/aside/src/lib.rt": "aside\n",
    "crates/aside/must-fail/one.edit": "file: src/lib.rt\n",
    "crates/plain/src/lib.rt": "plain\n",
}
ALL = {"low", "high", "aside"}
# A stand-in for rt whose functions the gate takes: `rt ci` proves all, and a check refuses an edited function of these names.
RT_BY_FUNCTION = """
import os, re, sys, types
rtlib = types.SimpleNamespace(STALE=re.compile("stale"), guarded=lambda: [])
class Crate:
    def __init__(self, name):
        self.name, self.folder = name, os.path.abspath(f"crates/{name}")
    def count(self, _):
        return 1
rtlib.crates_below = lambda root: [Crate(it) for it in sorted(os.listdir("crates"))]
processors, free, unread = lambda: 2, lambda: 8_000_000_000, lambda line, texts: False
def read_edit(file, folder):
    lines = dict(it.rstrip("\\n").split(": ", 1) for it in open(file))
    text = open(f"{folder}/{lines['file']}").read()
    return {lines["file"]: text.replace(lines["old"], lines["new"])}, None
def checked(crate, texts, flags, kept):
    asked = [it for it in flags if it not in ("--jobs", "1", "--only")]
    bad = [it for it in asked if it in THESE] if texts else ["unedited"] if "unedited" in THESE else []
    text = "src/lib.rt:1:1: error: a goal\\n" * bool(bad) + f"only={len(asked)} proved={len(asked) - len(bad)}\\n"
    return types.SimpleNamespace(returncode=bool(bad), stdout=text)
def must_fail(crate, file, flags):
    return False, f"must-fail {crate.name}/{os.path.basename(file)}: NOT REFUSED"
if __name__ == "__main__":
    print("kit-of-tests" if sys.argv[1] == "version" else "1 passed, 0 failed")
"""
TOOK = f"gate: 0 minutes on {os.cpu_count()} cores: rt ci 0, examples and cases 0, wrong bodies behind these 0, programs that must not compile 0"


class GateTest(unittest.TestCase):
    def setUp(self):
        room = tempfile.TemporaryDirectory(prefix="gate-test-")
        self.addCleanup(room.cleanup)
        self.root = room.name
        for file, text in FILES.items():
            self.write(file, text)
        subprocess.run(["git", "init", "-q", self.root], check=True)
        os.makedirs(f"{self.root}/.ci")

    def write(self, file, text):
        os.makedirs(os.path.dirname(f"{self.root}/{file}"), exist_ok=True)
        with open(f"{self.root}/{file}", "w", encoding="utf-8") as it:
            it.write(text)

    def repository(self, kit="kit"):
        return gate.Repository(self.root, kit)

    def tried_again(self, kit="kit"):
        known, now = self.repository().recorded(), self.repository(kit).keys()
        return {it for it in now if now[it] not in known.get(it, ())}

    def changed(self, file, text):
        """The crates whose wrong bodies are tried again after the change."""
        self.repository().record(self.repository().keys())
        self.assertEqual(self.tried_again(), set())
        self.write(file, text)
        return self.tried_again()

    def test_nothing_is_recorded_at_first(self):
        self.assertEqual(self.tried_again(), ALL)

    def test_a_changed_spec_of_a_lower_crate(self):
        self.assertEqual(self.changed("crates/low/specs/Lib.antt", "other\n"), {"low", "high"})

    def test_a_changed_proof(self):
        self.assertEqual(self.changed("crates/high/proofs/Lib.antt", "other\n"), {"high"})

    def test_a_new_source(self):
        self.assertEqual(self.changed("crates/low/src/more.rt", "more\n"), {"low", "high"})

    def test_a_changed_edit(self):
        self.assertEqual(self.changed("crates/high/must-fail/one.edit", "other\n"), {"high"})

    def test_a_changed_edit_of_a_lower_crate(self):
        self.assertEqual(self.changed("crates/low/must-fail/one.edit", "other\n"), {"low"})

    def test_a_changed_line_of_crates(self):
        self.assertEqual(self.changed("crates.txt", FILES["crates.txt"].replace("low thiserror", "low aside thiserror")), {"high"})

    def test_a_changed_line_of_a_lower_crate(self):
        self.assertEqual(self.changed("crates.txt", FILES["crates.txt"].replace("low:\n", "low: thiserror\n", 1)), {"low", "high"})

    def test_changed_handles(self):
        self.assertEqual(self.changed("HANDLES", "Handles allowed: Threads.\n"), ALL)

    def test_another_toolchain(self):
        self.repository().record(self.repository().keys())
        self.assertEqual(self.tried_again("another kit"), ALL)

    def test_a_comment_in_crates_changes_nothing(self):
        self.assertEqual(self.changed("crates.txt", "# a comment\n" + FILES["crates.txt"]), set())

    def test_a_conflict_of_a_merge_is_found(self):
        self.write("docs/it.md", "one\n<<<<<<" + "< HEAD\ntwo\n=======\nthree\n>>>>>>" + "> other\n")
        self.assertEqual(self.repository().conflicts(), ["docs/it.md:2", "docs/it.md:6"])

    def run_with(self, mode, script, names=()):
        """Runs the gate with this script in the place of rt; returns its status and lines."""
        programs = f"{self.root}/out/bin"
        os.makedirs(programs, exist_ok=True)
        with open(f"{programs}/rt", "w", encoding="utf-8") as it:
            it.write(f"#!{sys.executable}\n{script}\n" if "import" in script else f"#!/bin/sh\n{script}\n")
        os.chmod(f"{programs}/rt", 0o755)
        before, printed = os.environ["PATH"], io.StringIO()
        os.environ["PATH"] = f"{programs}:{before}"
        try:
            with contextlib.redirect_stdout(printed):
                status = gate.run(self.repository(), mode, names)
        finally:
            os.environ["PATH"] = before
        return status, printed.getvalue().splitlines()

    def test_a_run_that_passes_records_only_when_asked(self):
        status, lines = self.run_with(None, 'echo "a line"; echo "9 passed, 0 failed"')
        self.assertEqual((status, lines), (0, ["a line", TOOK, "9 passed, 0 failed"]))
        self.assertEqual(self.tried_again(), ALL)
        status, lines = self.run_with("--record", 'echo "9 passed, 0 failed"')
        self.assertEqual((status, lines[-1]), (0, "9 passed, 0 failed"))
        self.assertEqual(self.tried_again(), set())

    def test_each_crate_gets_one_core(self):
        self.assertGreaterEqual(gate.lanes(), 1)
        for given, wanted in ((None, str(gate.lanes())), ("7", "7")):
            with unittest.mock.patch.dict(os.environ):
                os.environ.pop("RT_JOBS", None)
                os.environ.update({"RT_JOBS": given} if given else {})
                _, lines = self.run_with(None, 'echo "jobs $RT_JOBS"; echo "9 passed, 0 failed"')
            self.assertEqual(lines[0], f"jobs {wanted}")

    def test_a_run_that_fails_records_nothing(self):
        status, lines = self.run_with("--record", 'echo "8 passed, 1 failed"; exit 1')
        self.assertEqual((status, lines[-1]), (1, "8 passed, 1 failed"))
        self.assertEqual(self.tried_again(), ALL)

    def test_recorded_wrong_bodies_are_left_out_and_named(self):
        self.run_with("--record", 'echo "9 passed, 0 failed"')
        self.write("crates/high/must-fail/two.edit", "other\n")
        status, lines = self.run_with(None, 'find crates -name "*.edit" | sort; echo "7 passed, 0 failed"')
        self.assertEqual(status, 0)
        self.assertEqual(lines[2:], ["crates/high/must-fail/one.edit", "crates/high/must-fail/two.edit", TOOK, "7 passed, 0 failed"])
        self.assertTrue(lines[0].startswith("gate: low: its 1 wrong bodies"))
        self.assertTrue(lines[1].startswith("gate: aside: its 1 wrong bodies"))

    def test_a_run_of_one_crate_records_it_and_those_below(self):
        status, lines = self.run_with("--record", 'ls crates; cat crates.txt; echo "2 passed, 0 failed"', ["plain"])
        self.assertEqual((status, lines[:-3], lines[-1]), (0, ["low", "plain", "low:", "plain: low"], "2 passed, 0 failed"))
        self.assertEqual(self.tried_again(), {"high", "aside"})
        self.run_with("--record", 'echo "1 passed, 0 failed"', ["aside"])
        self.assertEqual(self.tried_again(), {"high"})
        self.write("crates/low/src/lib.rt", "other\n")
        self.run_with("--record", 'echo "1 passed, 0 failed"', ["aside"])
        self.assertEqual(self.tried_again(), {"low", "high"})

    def test_a_run_of_one_crate_that_fails_records_nothing(self):
        self.run_with("--record", 'echo "0 passed, 1 failed"; exit 1', ["high"])
        self.assertEqual(self.tried_again(), ALL)

    def test_a_whole_run_tries_all_again(self):
        self.run_with("--record", 'echo "9 passed, 0 failed"')
        _, lines = self.run_with("--whole", 'find crates -name "*.edit" | wc -l; echo "9 passed, 0 failed"')
        self.assertEqual([it.strip() for it in lines][0], "4")

    def run_with_case(self, printed):
        """Runs the gate with a case that edits a source; `rt try` prints this line, and refuses."""
        self.write("crates/plain/src/lib.rt", "plain\n")
        self.write(".ci/must-not-compile/plain.it.case", "file: src/lib.rt\nerror: borrow-e0506\nold: plain\nnew: edited\n")
        refuses = f'grep -q edited src/lib.rt && echo "{printed}" && exit 1'
        return self.run_with(None, f'case $1 in try) {refuses};; ci) echo "9 passed, 0 failed";; esac')

    def test_a_program_that_must_not_compile(self):
        status, lines = self.run_with_case("src/lib.rt:1:1: error[borrow-e0506]: it is borrowed")
        self.assertEqual((status, lines[-1]), (0, "9 passed, 0 failed"))
        self.assertTrue(lines[-3].startswith("gate: plain.it.case: does not compile"))

    def test_a_program_that_is_refused_for_another_error_fails_it(self):
        status, lines = self.run_with_case("src/lib.rt:1:1: error[name]: no such name")
        self.assertEqual((status, lines[-1]), (1, "0 passed, 1 failed"))

    def test_a_program_that_compiles_fails_it(self):
        self.write(".ci/must-not-compile/plain.it.case", "file: src/lib.rt\nerror: borrow-e0506\nold: plain\nnew: edited\n")
        status, lines = self.run_with(None, 'case $1 in ci) echo "9 passed, 0 failed";; esac')
        self.assertEqual((status, lines[-1]), (1, "0 passed, 1 failed"))

    def test_a_case_whose_text_is_gone_fails_it(self):
        self.write("crates/plain/src/lib.rt", "other\n")
        self.write(".ci/must-not-compile/plain.it.case", "file: src/lib.rt\nerror: borrow-e0506\nold: plain\nnew: edited\n")
        status, lines = self.run_with(None, 'case $1 in try) exit 1;; ci) echo "9 passed, 0 failed";; esac')
        self.assertEqual((status, lines[-1]), (1, "0 passed, 1 failed"))

    def run_with_example(self, text, program="echo $1; exit $2"):
        """Runs the gate with a README that has this text, and a program of this script."""
        self.write("README.md", text)
        self.write("examples/a", "a\n")
        made = f"mkdir -p crates/fidl/out; printf '#!/bin/sh\\n{program}\\n' > crates/fidl/out/fidl"
        return self.run_with(None, f'case $1 in ci) {made}; echo "9 passed, 0 failed";; esac')

    def test_an_example_that_prints_what_stands_there(self):
        status, lines = self.run_with_example("Text:\n\n    $ ./fidl one\n    one\n    $ ./fidl two 3\n    # status 3\n    two\n\nText\n")
        self.assertEqual((status, lines[-1]), (0, "9 passed, 0 failed"))
        self.assertEqual(lines[-4:-2], [f"gate: README.md:{at}: prints what stands there: ./fidl {it}" for at, it in ((3, "one"), (5, "two 3"))])

    def test_an_example_that_prints_something_else_fails_it(self):
        for text in ("    $ ./fidl one\n    two\n", "    $ ./fidl one\n", "    $ ./fidl one 1\n    one\n"):
            status, lines = self.run_with_example(text)
            self.assertEqual((status, lines[-1]), (1, "0 passed, 1 failed"))

    def test_an_example_reads_the_examples(self):
        status, lines = self.run_with_example("    $ ./fidl examples/a\n    a\n", "cat $1")
        self.assertEqual((status, lines[-1]), (0, "9 passed, 0 failed"))

    def run_with_cases(self, files, program):
        """Runs the gate with these files of cases, and a program of this script."""
        for name, text in files.items():
            self.write(f"cases/{name}", text)
        self.write("program", f"#!/bin/sh\n{program}\n")
        self.write("README.md", "")
        made = f"mkdir -p crates/fidl/out; cp program crates/fidl/out/fidl; chmod +x crates/fidl/out/fidl"
        return self.run_with(None, f'case $1 in ci) {made}; echo "9 passed, 0 failed";; esac')

    # A stand-in for the program: it accepts sources without a word `no`, and refuses the first other at its line.
    COMPILES = """shift 3
for it in "$@"; do at=$(grep -n no $it | cut -d: -f1); if [ "$at" ]; then echo "$it:$at:1: names 1 No" >&2; exit 1; fi; done
echo made > out.fct; echo entries $#, roots 0, protocols 0, methods 0, bytes 40"""

    def test_cases_of_sources(self):
        text = "# A remark.\n\nentries 2, roots 0, protocols 0, methods 0, bytes 40 && a && b\naccepted && a\nu.fidl:2:1: names 1 No && a && b^no\nx := no\nt.fidl:1:1: names 1 No && x\n"
        status, lines = self.run_with_cases({"compile/a.txt": text}, self.COMPILES)
        self.assertEqual((status, lines[0], lines[-1]), (0, "gate: cases/compile/a.txt: 4 cases by 1 builds of the program, 0 failed", "9 passed, 0 failed"))

    def test_cases_with_repeated_texts(self):
        text = "t.fidl:12:1: names 1 No && [08..10:a{n-1}{n}{n+1}^^^]^^no\n9.fidl:1:1: names 1 No && [1..9:yes && ]no && no\n"
        status, lines = self.run_with_cases({"compile/a.txt": text}, self.COMPILES)
        self.assertEqual((status, lines[-1]), (0, "9 passed, 0 failed"))
        self.assertEqual(cases.repeated("[08..10:a{n-1}{n}{n+1};]"), "a070809;a080910;a091011;")

    def test_a_case_that_ends_otherwise_fails_it(self):
        for text in ("accepted && no\n", "t.fidl:1:1: names 1 No && a\n", "t.fidl:1:1: names 2 No && no\n", "entries 3, roots 0, protocols 0, methods 0, bytes 40 && a\n", "# Nothing.\n"):
            status, lines = self.run_with_cases({"compile/a.txt": text}, self.COMPILES)
            self.assertEqual((status, lines[-1]), (1, "0 passed, 1 failed"), text)

    def test_a_refused_case_that_writes_or_prints_fails_it(self):
        refuses = 'echo "t.fidl:1:1: names 1 No" >&2'
        for more, wanted in (("exit 1", 0), ("echo x > out.fct; exit 1", 1), ("echo x; exit 1", 1), ("exit 2", 1), ("exit 0", 1)):
            status, _ = self.run_with_cases({"compile/a.txt": "t.fidl:1:1: names 1 No && no\n"}, f"{refuses}; {more}")
            self.assertEqual(status, wanted, more)

    def test_cases_of_messages(self):
        program = """case "$*" in "decode t.fct A 010202") [ $(wc -c < t.fct) = 6 ] && echo "{}";; "decode --handle 1:2:3 --handle 1:2:3 t.fct B ") echo "decode 1 No at 0" >&2; exit 1;; esac"""
        text = "table\n  0011*2\n  22 33\n\nA 01 02*2 -> 0 {}\nB with 1:2:3*2 -> 1 decode 1 No at 0\n"
        status, lines = self.run_with_cases({"decode/a.txt": text}, program)
        self.assertEqual((status, lines[0]), (0, "gate: cases/decode/a.txt: 2 cases by 1 builds of the program, 0 failed"))
        status, _ = self.run_with_cases({"decode/a.txt": text.replace("{}", "{x}")}, program)
        self.assertEqual(status, 1)

    # A stand-in for the program: `table` prints the first source in lines, where `/` parts these.
    LISTS = """case $1 in compile) cp $4 out.fct; echo entries 1, roots 0;; table) tr / '\\n' < out.fct; echo;; esac"""

    def test_cases_of_tables(self):
        text = "of a 1 x/b 1/c 2/b 3\n  entries 1, roots 0\n  # A remark.\n  c {c}\n  b {b}\n  a {b} *\n  no d *\n  no b 4\n  bytes 6120*\n"
        text = text.replace("6120*", b"a 1 x/b 1/c 2/b 3".hex()) + "of [1..2:l {n}/]m\nl 2\nl 1\nm\n"
        status, lines = self.run_with_cases({"table/a.txt": text}, self.LISTS)
        self.assertEqual((status, lines[0]), (0, "gate: cases/table/a.txt: 2 cases by 1 builds of the program, 0 failed"))

    def test_a_case_of_a_table_that_lists_something_else_fails_it(self):
        for wanted in ("a 2 x", "a 1", "b 1\nb 1", "a {x} {x}", "a {x} *\nc {x}", "a {x} *\nb {x}\nc {y}\nb {y}", "no c 2", "no b *", "entries 2, roots 0", "bytes 61", "d"):
            status, lines = self.run_with_cases({"table/a.txt": f"of a 1 x/b 1/c 2/b 3\n{wanted}\n"}, self.LISTS)
            self.assertEqual((status, lines[-1]), (1, "0 passed, 1 failed"), wanted)
        for program in ("exit 1", f"{self.LISTS}; echo x >&2"):
            self.assertEqual(self.run_with_cases({"table/a.txt": "of a\na\n"}, program)[0], 1, program)

    # A stand-in for the program: it migrates the table `ok` to `new`, and compiles a source to itself.
    MIGRATES = """case $1 in compile) cp $4 $3;; migrate) grep -q ok t.fct || { echo "table 1 No at 0" >&2; exit 1; }; printf new > out.fct; echo done;; esac"""

    def test_cases_of_migrated_tables(self):
        text = "table\n  6f6b\nof new\n-> 0 done\ntable\n  6f 6b\nto\n  6e65\n  77\n-> 0 done\ntable\n  00\n-> 1 table 1 No at 0\n"
        status, lines = self.run_with_cases({"migrate/a.txt": text}, self.MIGRATES)
        self.assertEqual((status, lines[0]), (0, "gate: cases/migrate/a.txt: 3 cases by 1 builds of the program, 0 failed"))
        for right, wrong in (("of new", "of old"), ("  77", "  78"), ("0 done", "0 other"), ("table\n  00", "table\n  6f6b")):
            status, _ = self.run_with_cases({"migrate/a.txt": text.replace(right, wrong, 1)}, self.MIGRATES)
            self.assertEqual(status, 1, wrong)
        for refuses in ("printf x > out.fct; exit 1", "exit 2"):
            program = f'echo "table 1 No at 0" >&2; {refuses}'
            self.assertEqual(self.run_with_cases({"migrate/a.txt": "table\n  00\n-> 1 table 1 No at 0\n"}, program)[0], 1, refuses)

    def test_cases_without_a_program_fail_it(self):
        self.write("cases/compile/a.txt", "accepted && a\n")
        status, lines = self.run_with(None, 'case $1 in ci) echo "9 passed, 0 failed";; esac')
        self.assertEqual((status, lines[-1]), (1, "0 passed, 1 failed"))

    def test_an_example_without_a_program_fails_it(self):
        self.write("README.md", "    $ ./fidl one\n    one\n")
        status, lines = self.run_with(None, 'case $1 in ci) echo "9 passed, 0 failed";; esac')
        self.assertEqual((status, lines[-1]), (1, "0 passed, 1 failed"))

    def test_each_toolchain_has_a_record_of_its_own(self):
        one, other = gate.Repository(self.root, "one", "kit-one"), gate.Repository(self.root, "other", "kit-other")
        one.record(one.keys())
        other.record(other.keys())
        for it in (one, other):
            self.assertEqual({name for name, key in it.keys().items() if key not in it.recorded()[name]}, set())
        self.write("crates/high/src/lib.rt", "other\n")
        other.record(other.keys())
        self.assertNotIn(one.keys()["high"], one.recorded()["high"])
        self.assertIn(other.keys()["high"], other.recorded()["high"])
        self.assertIn(one.keys()["low"], one.recorded()["low"])

    def run_by_function(self, refused, mode="--record", names=(), script=RT_BY_FUNCTION):
        """Runs the gate with a rt whose check refuses the edited functions of these names alone."""
        self.write("crates/low/src/lib.rt", "pub fn first() {\n    one\n}\n\nimpl Held for Box {\n    fn second() {\n        two\n    }\n}\n")
        self.write("crates/low/must-fail/one.edit", "file: src/lib.rt\nold: one\nnew: other\n")
        self.write("crates/low/must-fail/two.edit", "file: src/lib.rt\nold: two\nnew: other\n")
        return self.run_with(mode, script.replace("THESE", repr(sorted(refused))), names)

    def test_wrong_bodies_are_tried_by_their_functions(self):
        status, lines = self.run_by_function({"first", "BoxHeld::second"}, names=["low"])
        self.assertEqual((status, lines[-1]), (0, "3 passed, 0 failed"))
        self.assertIn("must-fail low/one.edit: first refused, as it must be: src/lib.rt:1:1: error: a goal", lines)
        self.assertIn("must-fail low/two.edit: BoxHeld::second refused, as it must be: src/lib.rt:1:1: error: a goal", lines)
        self.assertEqual(self.tried_again(), {"high", "aside"})

    def test_a_wrong_body_that_is_not_refused_fails_the_gate(self):
        status, lines = self.run_by_function({"first"}, names=["low"])
        self.assertEqual((status, lines[-1]), (1, "2 passed, 1 failed"))
        self.assertIn("must-fail low/two.edit: NOT REFUSED", lines)
        self.assertIn("gate: failed: must-fail low/two.edit: NOT REFUSED", lines[-4:])
        self.assertEqual(self.tried_again(), ALL)

    def test_a_function_that_is_not_proved_unedited_refuses_nothing(self):
        status, lines = self.run_by_function({"first", "BoxHeld::second", "unedited"}, names=["low"])
        self.assertEqual((status, lines[-1]), (1, "1 passed, 2 failed"))

    def test_wrong_bodies_are_tried_once_their_crate_is_proved(self):
        proves = 'print("rt: low proved\\nrt: low: its tests are proved", flush=True)'
        waits = 'import time; tried = lambda: os.path.isfile("tried"); [time.sleep(0.01) for _ in range(500) if not tried()]'
        says = 'print(f"{tried()} {os.path.isdir(\'crates/low/must-fail\')}\\n3 passed, 0 failed")'
        script = RT_BY_FUNCTION.replace('else "1 passed, 0 failed"', 'else ""').replace("    asked =", '    open("tried", "w").close()\n    asked =')
        script += f'    if sys.argv[1] == "ci":\n        {proves}\n        {waits}\n        {says}\n'
        status, lines = self.run_by_function({"first", "BoxHeld::second"}, names=["low"], script=script)
        self.assertEqual((status, lines[-1]), (0, "5 passed, 0 failed"))
        self.assertIn("True False", lines)
        self.assertEqual(sum("refused, as it must be" in it for it in lines), 2)

    def test_wrong_bodies_of_a_run_that_fails_are_not_told(self):
        script = RT_BY_FUNCTION.replace('else "1 passed, 0 failed"', 'else "rt: low proved\\n0 passed, 1 failed"')
        status, lines = self.run_by_function({"first", "BoxHeld::second"}, names=["low"], script=f"{script}    sys.exit(sys.argv[1] == 'ci')\n")
        self.assertEqual((status, lines[-1]), (1, "0 passed, 1 failed"))
        self.assertFalse(any("refused" in it for it in lines))
        self.assertGreaterEqual(self.tried_again(), {"high", "aside"})

    def test_what_was_refused_is_recorded_though_another_crate_fails(self):
        self.write("crates/aside/src/lib.rt", "pub fn third() {\n    three\n}\n")
        self.write("crates/aside/must-fail/one.edit", "file: src/lib.rt\nold: three\nnew: other\n")
        status, _ = self.run_by_function({"first", "BoxHeld::second"}, names=["low", "aside"])
        self.assertEqual((status, self.tried_again()), (1, {"high", "aside"}))

    def test_what_was_refused_at_other_sources_is_not_recorded(self):
        key = self.repository().keys()["low"]
        self.write("crates/low/src/lib.rt", "other\n")
        self.repository().add("low", key)
        self.assertEqual(self.tried_again(), ALL)
        self.repository().add("low", self.repository().keys()["low"])
        self.assertEqual(self.tried_again(), {"high", "aside"})

    def test_a_rt_whose_parts_are_others_tries_whole_crates(self):
        self.write("crates/low/must-fail/two.edit", "file: src/lib.rt\n")
        script = RT_BY_FUNCTION.replace("def checked(crate, texts, flags, kept):", "def checked(crate):").replace("THESE", "[]")
        script = script.replace('print("kit-of-tests"', 'print("must-fail low/one.edit: refused, as it must be\\nmust-fail low/two.edit: refused, as it must be" if sys.argv[1] == "must-fail" else "kit-of-tests"')
        self.write("crates/low/src/lib.rt", "one two\n")
        self.write("crates/low/must-fail/one.edit", "file: src/lib.rt\nold: one\nnew: other\n")
        self.write("crates/low/must-fail/two.edit", "file: src/lib.rt\nold: two\nnew: other\n")
        status, lines = self.run_with("--record", script, ["low"])
        self.assertEqual((status, lines[-1]), (0, "3 passed, 0 failed"))
        self.assertTrue(any("so rt must-fail tries them" in it for it in lines))

    def trial(self, edits, said):
        """A trial of wrong bodies of the crate `low`, by a stand-in for rt whose check of several functions says this of each."""
        text = "pub fn first() {\n    one\n}\n\nimpl Held for Box {\n    fn second() {\n        two\n        three\n    }\n}\nconst FOUR: u8 = 4;\n"
        self.write("crates/low/src/lib.rt", text)
        for name, (old, new) in edits.items():
            self.write(f"crates/low/must-fail/{name}.edit", f"file: src/lib.rt\nold: {old}\nnew: {new}\n")
        asked = []

        def checked(crate, texts, flags, kept):
            paths = [it for it in flags if it not in ("--jobs", "1", "--only")]
            asked.append((texts, paths))
            unknown = [it for it in paths if it in said.get("unknown", ())]
            if unknown:
                return types.SimpleNamespace(returncode=2, stdout=f"rattle: error: `low` has no function `{unknown[0]}`: help")
            shared = [it for it in paths if it in said.get("shared", ())]
            if shared:
                return types.SimpleNamespace(returncode=2, stdout=f"rattle: error: several functions are named `{shared[0]}`: help")
            lines = [f"fn low::{it}: {said.get(it, 'proved')}" for it in paths] if texts else []
            bad = sum(not it.endswith(": proved") for it in lines)
            return types.SimpleNamespace(returncode=int(bad > 0), stdout="\n".join([*lines, f"only={len(paths)} proved={len(paths) - bad}"]))

        names = {"low": f"{self.root}/crates/low"}
        rt = types.SimpleNamespace(rtlib=types.SimpleNamespace(STALE=re.compile("stale")), unread=lambda line, texts: "unread" in line, checked=checked)
        files = [f"{names['low']}/must-fail/{it}.edit" for it in edits]

        def read_edit(file, folder):
            old, new = edits[os.path.basename(file).removesuffix(".edit")]
            return {"src/lib.rt": text.replace(old, new)}, None

        rt.read_edit = read_edit
        rt.must_fail = lambda crate, file, flags: (False, f"NOT REFUSED {os.path.basename(file)}")
        return wrong_bodies.Trial(rt, types.SimpleNamespace(name="low", folder=names["low"]), files), asked

    NO_PROOF = "no proof: expected answers in ./proofs/x/Answers.antt; `search` did not prove `returns`"
    CALLS = "no proof: it calls `low::first`, which is not proved"

    def test_wrong_bodies_of_different_functions_are_tried_together(self):
        trial, asked = self.trial({"a": ("one", "1"), "b": ("two", "2")}, {"first": self.NO_PROOF, "BoxHeld::second": self.NO_PROOF})
        self.assertEqual([it[0] for it in trial.run()], [True, True])
        self.assertEqual([paths for _, paths in asked], [["BoxHeld::second", "first"], ["first", "BoxHeld::second"], ["BoxHeld::second", "first"]])
        self.assertIn("    1\n", asked[1][0]["src/lib.rt"])
        self.assertIn("        2\n", asked[1][0]["src/lib.rt"])

    def test_an_end_that_several_functions_share_gives_way_to_the_module(self):
        said = {"unknown": ["a::BoxHeld::second", "BoxHeld::second"], "shared": ["second"], "a": self.NO_PROOF}
        trial, asked = self.trial({"b": ("two", "2")}, said)
        trial.bodies[0].path, trial.bodies[0].module = "a::BoxHeld::second", "a"
        self.assertEqual(trial.settled_paths(""), ["a"])
        self.assertEqual([paths for _, paths in asked], [["a::BoxHeld::second"], ["BoxHeld::second"], ["second"], ["a"]])

    def test_what_only_the_whole_crate_refuses(self):
        for kind, wanted in ((True, True), ("refused", True), ("limit", True), (False, False), ("missed", False), ("unsure", False)):
            trial, _ = self.trial({"a": ("one", "1")}, {})
            trial.rt.REFUSED, trial.rt.AT_LIMIT = "refused", "limit"
            trial.rt.must_fail = lambda crate, file, flags, kind=kind: (kind, "said")
            self.assertEqual(trial.run(), [(wanted, "said")], kind)

    def test_a_method_of_a_type_of_another_module_is_asked_for_by_its_end(self):
        said = {"unknown": ["BoxHeld::second"], "first": self.NO_PROOF, "second": self.NO_PROOF}
        trial, asked = self.trial({"a": ("one", "1"), "b": ("two", "2")}, said)
        self.assertEqual([it[0] for it in trial.run()], [True, True])
        self.assertEqual([paths for texts, paths in asked if not texts], [["BoxHeld::second", "first"], ["first", "second"], ["first", "second"]])
        self.assertEqual([it.function for it in trial.bodies], ["first", "BoxHeld::second"])

    def test_two_wrong_bodies_of_a_function_are_not_tried_together(self):
        trial, asked = self.trial({"a": ("two", "2"), "b": ("three", "3")}, {"BoxHeld::second": self.NO_PROOF})
        self.assertEqual([it[0] for it in trial.run()], [True, True])
        self.assertEqual([texts["src/lib.rt"].count("two") for texts, _ in asked if texts], [0, 1])

    def test_a_callee_that_is_not_proved_refuses_no_caller(self):
        trial, asked = self.trial({"a": ("one", "1"), "b": ("two", "2")}, {"first": self.NO_PROOF, "BoxHeld::second": self.CALLS})
        self.assertEqual([it[0] for it in trial.all_refused_together("").items()], [trial.bodies[0]])
        self.assertEqual([paths for _, paths in asked], [["first", "BoxHeld::second"], ["BoxHeld::second"]])

    def test_functions_of_one_cycle_are_not_tried_together(self):
        cycle = "/// One.\n#[cycle(all)]\n// Two.\n#[inline]\nfn {}() {{\n    {}\n}}\n\n"
        text = cycle.format("first", "one") + cycle.format("second", "two") + "fn third() {\n    three\n}\n"
        self.assertEqual([wrong_bodies.cycle_of(text, text.replace(it, "0")) for it in ("one", "two", "three")], ["all", "all", None])
        groups = wrong_bodies.Together()
        made = [types.SimpleNamespace(function=it, cycle=of, old={}, texts={}) for it, of in (("a", "all"), ("b", "all"), ("c", None), ("d", None))]
        self.assertEqual([groups.takes(it) for it in made], [True, False, True, True])

    def test_what_is_no_function_is_tried_alone(self):
        trial, _ = self.trial({"a": ("4;", "5;"), "b": ("one", "1"), "c": ("two", "2")}, {})
        self.assertEqual([[it.path for it in group.bodies] for group in wrong_bodies.put_together(trial.bodies)], [["first", "BoxHeld::second"]])

    def test_a_check_that_cannot_read_an_edit_refuses_none_together(self):
        trial, _ = self.trial({"a": ("one", "1"), "b": ("two", "2")}, {"first": self.NO_PROOF, "BoxHeld::second": f"unread {self.NO_PROOF}"})
        self.assertEqual(trial.all_refused_together(""), {})

    def test_wrong_bodies_that_are_proved_together_are_not_refused(self):
        trial, _ = self.trial({"a": ("one", "1"), "b": ("two", "2")}, {"first": self.NO_PROOF})
        self.assertEqual([it[0] for it in trial.run()], [True, False])

    def test_the_function_of_an_edit(self):
        text = "use a;\n\nimpl<'t> Read for Table<'t> {\n    fn one(&self) {\n        1\n    }\n}\n\nfn two() {\n    2\n}\n\nconst X: u8 = 3;\n"
        def of(path, old):
            return wrong_bodies.function_of(path, text, text.replace(old, "0"))
        self.assertEqual(of("src/a/b.rt", "1\n"), "a::b::TableRead::one")
        self.assertEqual(of("src/lib.rt", "2\n"), "two")
        self.assertEqual(of("src/a.rt", "3;"), "a")
        text = "impl From<Low> for High {\n    fn from(of: Low) -> High {\n        1\n    }\n}\nimpl<'t, T: Drop> From<Held<'t, T>> for High {\n    fn from(of: Held<'t, T>) -> High {\n        2\n    }\n}\n"
        self.assertEqual([of("src/a.rt", it) for it in ("1\n", "2\n")], ["a::HighFromLow::from", "a::HighFromHeld::from"])

    def test_a_change_during_the_run_fails_it(self):
        status, lines = self.run_with("--record", f'echo more >> {self.root}/crates/low/src/lib.rt; echo "9 passed, 0 failed"')
        self.assertEqual((status, lines[-1]), (1, "0 passed, 1 failed"))
        self.assertEqual(self.tried_again(), ALL)

    def program(self, script):
        """Writes a program of this script, and returns its path."""
        self.write("fidl", f"#!/bin/sh\n{script}\n")
        os.chmod(f"{self.root}/fidl", 0o755)
        return f"{self.root}/fidl"

    def silently(self, run, *given):
        with contextlib.redirect_stdout(io.StringIO()) as said:
            return run(*given), said.getvalue()

    def test_blocks_of_fidl_are_compiled(self):
        program = self.program('grep -q bad a.fidl && echo "a.fidl:1:1: lex 2 BadByte" >&2 && exit 1; exit 0')
        for text, wanted in (("good", True), ("bad", False), ("// refused: lex 2 BadByte\nbad", True), ("// refused: lex 3 BadIdentifier\nbad", False)):
            self.write("docs/language/a.md", f"Text:\n\n```fidl\n{text}\n```\n")
            self.assertEqual(self.silently(blocks.run, self.root, [program])[0], wanted, text)

    def test_files_of_a_block(self):
        self.assertEqual(explained.files_of(["// a.fidl", "x", "// b.fidl", "y", "z"]), {"a.fidl": "x\n", "b.fidl": "y\nz\n"})
        self.assertEqual(explained.files_of(["// no file", "x"]), {"a.fidl": "// no file\nx\n"})

    def test_an_explanation_whose_input_is_not_refused(self):
        entry = explained.entries_of('lex 2 BadByte\n    It.\n    Rules: docs/a.md, "A"\n  Refused:\n    bad\n  Accepted:\n    good\n')[0]
        self.assertEqual((str(entry), entry.rules, entry.parts), ("lex 2 BadByte", ("docs/a.md", ["A"]), {"Refused": ["bad"], "Accepted": ["good"]}))
        refuses = 'grep -q bad a.fidl && echo "a.fidl:1:1: lex 2 BadByte" >&2 && exit 1; exit 0'
        for script, wanted in ((refuses, True), ("exit 0", False), ('echo "a.fidl:1:1: lex 2 BadByte" >&2; exit 1', False), (refuses.replace("lex 2", "lex 3"), False)):
            self.assertEqual(not explained.what_fails(self.program(script), self.root, entry), wanted, script)

    def test_faults_that_only_the_documents_know(self):
        self.write("docs/language.md", "- [A](a.md)\n| 1 NotUtf8, 2 BadByte | text |\n")
        self.write("docs/table.md", "| 1 | BadMagic | 0 |\n")
        self.write("docs/decoding.md", "| 1 TooLong | text |\n")
        self.write("docs/notation.md", "| 1 | Syntax | text |\n")
        self.write("docs/encoding.md", "| 1 | WrongShape | text |\n")
        known = [explained.Entry([it, '    Rules: docs/language.md, "A"']) for it in ("lex 1 NotUtf8", "table 1 BadMagic", "decode 1 TooLong", "notation 1 Syntax", "encode 1 WrongShape")]
        self.assertEqual(explained.what_is_left_out(self.root, known), ["sources 2 BadByte: the program does not explain it"])

    def test_a_manual_page_without_an_option(self):
        text = "Usage: it\n\nCommands:\n  go  Goes\n"
        help_of = {(): text, ("go",): "Arguments:\n  <FILE>...  The file\n\nOptions:\n      --fast  Fast\n  -h, --help  Print help\n"}
        page = ".SH COMMANDS\n.SS go\n.TP\n\\fIFILE\\fR\nThe file.\n.TP\n\\fB\\-\\-fast\\fR\nFast.\n.TP\n\\fB\\-h\\fR, \\fB\\-\\-help\\fR\nHelp.\n"
        with unittest.mock.patch.object(manual, "help_of", lambda program, *words: help_of[words]):
            for wanted, text in ((True, page), (False, page.replace("fast", "slow")), (False, page.replace(".SS go", ".SS stop"))):
                self.write("docs/fidl.1", text)
                self.assertEqual(self.silently(manual.run, self.root, [self.program("")])[0], wanted)

    def test_an_answer_to_a_changed_input(self):
        right = 'echo "decode 4 Padding at 2" >&2; exit 1'
        for script, wanted in (
            (right, True), ("echo 5", True), ("exit 0", False), ("echo 5; echo 6 >&2", False), ("echo 5; exit 1", False), ("exit 1", False),
            (right.replace("exit 1", "exit 4"), False), (right.replace("decode", "decoder"), False), (right.replace("4", "four"), False), ("kill -SEGV $$", False), ("while :; do :; done", False),
        ):
            answer = fuzz.Answer(self.program(script), [])
            self.assertEqual(not answer.what_fails(fuzz.OTHER_LINE), wanted, script)

    def test_changed_inputs_are_the_same_in_each_run(self):
        def inputs():
            return [fuzz.changed(b"type A = struct { x uint8; };", words, random.Random(it)) for it in range(200) for words in (None, fuzz.WORDS)]

        self.assertEqual(inputs(), inputs())
        self.assertGreater(len(set(inputs())), 250)
        self.assertEqual([fuzz.changed(b"", words, random.Random(1)) is not None for words in (None, fuzz.WORDS)], [True, True])

    def test_answers_without_memory(self):
        whole = (2, b"", b"error: no root; did you mean A?\n")
        for got, wanted in (
            ((refused_memory.MEMORY, refused_memory.OLD), True), ((refused_memory.MEMORY, b"new"), False), ((whole, b"new"), True), ((whole, refused_memory.OLD), False),
            (((2, b"", b"error: no root\n"), b"new"), True), (((1, b"", b"error: no root\n"), b"new"), False), (((2, b"", b"error: no file\n"), b"new"), False),
            (((4, b"x", refused_memory.MEMORY[2]), refused_memory.OLD), False),
        ):
            self.assertEqual(refused_memory.is_right(got, (whole, b"new")), wanted, got)

    def test_the_call_that_is_refused(self):
        for said, wanted in (
            (b"lex: ok\nadd: ok\nx: ok\n", None), (b"lex: Memory\nlex: ok\nadd: ok\nx: ok\n", 0), (b"lex: ok\nadd: Memory\nadd: ok\nx: ok\n", 1),
            (b"lex: ok\nadd: Memory\nlex: ok\nadd: ok\nx: ok\n", -1), (b"lex: ok\nadd: ok\nx: Memory\nlex: ok\nadd: ok\nx: ok\n", 2), (b"lex: ok\n", -1),
            (b"lex: Syntax\nlex: ok\nadd: ok\nx: ok\n", -1), (b"lex: ok\nadd: ok\nx: Memory\nx: ok\n", -1),
        ):
            self.assertEqual(refused_memory.refused_call(said, ["lex", "add", "x"]), wanted, said)

    def test_calls_without_memory(self):
        class Shim:
            def __init__(self, *told):
                self.told = told

            def answer(self, words, refused, root):
                return (0, b"".join(b"%s: %s\n" % it for it in self.told[refused]), b""), b"", 0 if refused else len(self.told) - 1

        done = ((b"lex", b"ok"), (b"add", b"ok"))
        lex, add, late = ((b"lex", b"Memory"), *done), (done[0], (b"add", b"Memory"), done[1]), (*done, (b"lex", b"Memory"))
        for told, wanted, faults in (((done, lex, lex, done), {"lex": 2, "add": 0}, 0), ((done, lex, add), {"lex": 1, "add": 1}, 0), ((done, late), {"lex": 0, "add": 0}, 1), (((),), {}, 1)):
            refused, wrong = refused_memory.check_calls(Shim(*told), "program", self.root)
            self.assertEqual((refused, len(wrong)), (wanted, faults), told)

    def test_transaction_ids_of_frames(self):
        sent = [fuzz.frame(1, txid, 0, b"", ((1, 2, 3),) * count) for txid, count in ((7, 0), (9, 2))]
        self.assertEqual([fuzz.transactions(b"".join(sent)[:it]) for it in (0, 24, 71, 72)], [[], [7], [7], [7, 9]])

    def test_each_allocation_is_refused(self):
        for store in refused_memory.STORE:
            self.write(store, "")
        for ends in ("echo wrong >&2; exit 3", "kill -SEGV $$"):
            program = self.program(f'[ "${{REFUSE:-0}}" = 0 ] && exec /bin/ls /; {ends}')
            passed, said = self.silently(refused_memory.run, self.root, [program], [["--help"]])
            self.assertFalse(passed, ends)
            self.assertRegex(said, r"gate: [1-9]\d* allocations of 1 commands")

    def test_long_sentences(self):
        long = " ".join(["word"] * 26)
        text = f"# {long}\n\n{long}. Short one.\n\n- {long}\n\n    {long}\n\n| {long} | short |\n"
        self.assertEqual([count for _, count, _ in sentences.sentences(text) if count > sentences.MOST], [26, 26, 26])


if __name__ == "__main__":
    result = unittest.TextTestRunner(stream=io.StringIO()).run(unittest.defaultTestLoader.loadTestsFromTestCase(GateTest))
    for _, text in result.failures + result.errors:
        print(text)
    print(f"gate: its own {result.testsRun} tests {'passed' if result.wasSuccessful() else 'FAILED'}")
    sys.exit(not result.wasSuccessful())
