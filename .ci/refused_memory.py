#!/usr/bin/env python3
"""What the program answers where one of its allocations is refused, each in turn.

    .ci/refused_memory.py [PROGRAM..]        by each of these programs (else by the one that was built last)

Each command runs over the examples once for each allocation that it makes, with that one refused (.ci/refuse.c). It then has to end with
status 4, the line of memory on standard error and nothing on standard output, or to answer as it does with ample memory; where it only
leaves a suggestion out, that is the same answer. A `compile` or a `migrate` that ends with status 4 writes no OUT, and leaves an old OUT
as it was.

The program `fidl_refused_memory`, built beside, makes each call of the library once and prints what it answered. It too runs once for
each of its allocations: the call that it is refused to has to answer Memory, and all calls are then done.
"""
import concurrent.futures
import os
import shutil
import subprocess
import sys
import tempfile

sys.dont_write_bytecode = True
sys.path.insert(0, os.path.dirname(os.path.realpath(__file__)))
import by_hand  # noqa: E402

HERE = os.path.dirname(os.path.realpath(__file__))
MEMORY = (4, b"", b"error: out of memory\n")
OLD = b"an old table"
STORE = [f"examples/store/{it}.fidl" for it in ("zx", "types", "store")]
ENTRY = "0300000000000000ffffffffffffffff1800000000000000010000000000010008000000000000000500000000000000ffffffffffffffff612e7478740000002a00000000000000"
REQUESTS = "examples/store/requests.bin"
# The program that makes each call of the library once.
CALLS = "fidl_refused_memory"
# The words of each command; `OUT` stands for a file of its own, `TABLE` for the table of the store, and a last `<FILE` for the standard
# input.
COMMANDS = [
    ["compile", "--out", "OUT", *STORE],
    ["compile", "--snippet", "--out", "OUT", STORE[1]],
    ["migrate", "--out", "OUT", "TABLE"],
    ["migrate", "--out", "OUT", "examples/point.fct"],
    ["table", "TABLE"],
    ["table", "--roots", "TABLE"],
    ["table", "--protocols", "TABLE"],
    ["decode", "TABLE", "demo.store/Entry", ENTRY],
    ["decode", "TABLE", "demo.store/Entri", ENTRY],
    ["encode", "TABLE", "demo.store/Entry", 'table(3) {name: "a.txt", kind: 1, size: 42}'],
    ["encode", "TABLE", "demo.store/Entry", "table(3) {name: 5}"],
    ["dump", "TABLE", "demo.store/Store", REQUESTS],
    ["dump", "TABLE", "demo.store/Stor", REQUESTS],
    ["serve", "TABLE", "examples/store/store.script", f"<{REQUESTS}"],
    ["explain", "names", "2"],
    ["explain", "UnknownLibrari"],
    ["--help"],
]


class Shim:
    """The library that refuses allocations, in a folder."""

    def __init__(self, folder):
        self.path, self.folder = f"{folder}/refuse.so", folder
        subprocess.run(["cc", "-O2", "-shared", "-fPIC", "-o", self.path, f"{HERE}/refuse.c"], check=True)

    def number_in(self, file):
        with open(file, encoding="utf-8") as it:
            return int(it.read())

    def answer(self, words, refused, root):
        """Runs a command with this allocation refused. Returns its answer (status, output, errors) and what stands in OUT; and, where it is 0
        and so none is refused, the number of its allocations."""
        with tempfile.TemporaryDirectory(dir=self.folder) as room:
            out, count = f"{room}/out.fct", f"{room}/count"
            with open(out, "wb") as it:
                it.write(OLD)
            given = [{"OUT": out, "TABLE": f"{self.folder}/store.fct"}.get(it, it) for it in words]
            environment = {**os.environ, "REFUSE": str(refused), "REFUSE_TO": count, "LD_PRELOAD": self.path}
            source = given.pop()[1:] if given[-1].startswith("<") else os.devnull
            with open(os.path.join(root, source), "rb") as data:
                ran = subprocess.run(given, cwd=root, env=environment, stdin=data, capture_output=True, timeout=60)
            with open(out, "rb") as it:
                written = it.read()
            return (ran.returncode, ran.stdout, ran.stderr), written, 0 if refused else self.number_in(count)


def is_right(got, wanted):
    """Whether the answer with an allocation refused is that of memory, or the one with ample memory, with or without its suggestion."""
    (answer, written), (whole, table) = got, wanted
    if answer == MEMORY:
        return written == OLD
    said = whole[2].split(b"; did you mean")[0].rstrip(b"\n")
    is_same = answer[:2] == whole[:2] and answer[2].rstrip(b"\n") in (whole[2].rstrip(b"\n"), said)
    return is_same and written == table


def check(shim, program, words, root):
    """Refuses each allocation of a command in turn. Returns how many there are, and what was answered wrongly."""
    given = [program, *words]
    whole, table, count = shim.answer(given, 0, root)
    wrong = []
    with concurrent.futures.ThreadPoolExecutor(len(os.sched_getaffinity(0))) as pool:
        for number, (answer, written, _) in enumerate(pool.map(lambda it: shim.answer(given, it, root), range(1, count + 1)), 1):
            if not is_right((answer, written), (whole, table)):
                wrong.append(f"{' '.join(words)[:60]}: allocation {number} of {count} refused: status {answer[0]}: {answer[2][:80]}")
    return count, wrong


def refused_call(said, calls):
    """Returns the place of the call that was refused, by what the program of the calls printed; None where none was refused, and -1 where
    the answers are wrong. A call that is refused answers Memory, and then all are done; `add` is done at once after it."""
    lines, wanted = said.decode("utf-8", "replace").splitlines(), [f"{it}: ok" for it in calls]
    if lines == wanted:
        return None
    for place, call in enumerate(calls):
        rest = wanted[place:] if call == "add" else wanted
        if lines == [*wanted[:place], f"{call}: Memory", *rest]:
            return place
    return -1


def check_calls(shim, program, root):
    """Refuses each allocation of the program of the calls in turn. Returns how many were refused to each call, and what was answered wrongly."""
    (status, said, errors), _, count = shim.answer([program], 0, root)
    calls = [it.removesuffix(": ok") for it in said.decode().splitlines()]
    if status or errors or refused_call(said, calls) is not None or not calls:
        return {}, [f"{program}: {said[:200]} {errors[:80]}"]
    refused, wrong = dict.fromkeys(calls, 0), []
    with concurrent.futures.ThreadPoolExecutor(len(os.sched_getaffinity(0))) as pool:
        for number, ((status, said, errors), _, _) in enumerate(pool.map(lambda it: shim.answer([program], it, root), range(1, count + 1)), 1):
            place = refused_call(said, calls)
            if status or errors or place == -1:
                wrong.append(f"{CALLS}: allocation {number} of {count} refused: status {status}: {said[-80:]} {errors[:80]}")
            elif place is not None:
                refused[calls[place]] += 1
    return refused, wrong


def run_calls(root, program):
    """Does so by the program of the calls that stands beside this program, where one does. Returns what was answered wrongly."""
    made = os.path.basename(program).replace("fidl", CALLS, 1)
    beside = f"{os.path.dirname(os.path.dirname(os.path.dirname(program)))}/{CALLS}/out/{made}"
    if not os.path.isfile(beside):
        return []
    with tempfile.TemporaryDirectory(prefix="refused-") as folder:
        refused, wrong = check_calls(Shim(folder), beside, root)
    print(f"gate: allocations refused to each call: {', '.join(f'{call} {count}' for call, count in refused.items())}", flush=True)
    return wrong + [f"{CALLS}: no allocation was refused to {call}" for call, count in refused.items() if not count and call not in ("decode",)]


def run(root, programs, commands=COMMANDS):
    """Refuses each allocation of each command, by each program; prints what is answered wrongly, and returns whether nothing is."""
    wrong, refused = [], 0
    for program in programs:
        if not os.path.isfile(program):
            print(f"gate: FAILED: there is no program {program} whose memory could be refused")
            return False
        with tempfile.TemporaryDirectory(prefix="refused-") as folder:
            shim = Shim(folder)
            subprocess.run([program, "compile", "--out", f"{folder}/store.fct", *STORE], cwd=root, check=True, capture_output=True)
            for words in commands:
                count, found = check(shim, program, words, root)
                refused, wrong = refused + count, wrong + found
        wrong += run_calls(root, program)
    print(f"gate: {refused} allocations of {len(commands)} commands refused in turn, by {len(programs)} builds of the program, {len(wrong)} wrong", flush=True)
    return by_hand.all_passed(wrong[:20])


if __name__ == "__main__":
    if not shutil.which("cc"):
        sys.exit("gate: there is no C compiler to build .ci/refuse.c with")
    by_hand.start(run)
