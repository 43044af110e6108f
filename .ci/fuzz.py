#!/usr/bin/env python3
"""Changed sources, tables, messages, texts, scripts and streams, given to the program.

    .ci/fuzz.py [PROGRAM..]        by each of these programs in turn (else by the one that was built last)

The changes come from a fixed seed, so each run tries the same inputs. Each answer has to come within a second of the processor, with a status of 0 or 1
and the line that the status has: with 0 something on standard output and nothing on the errors, with 1 one line on the errors that names
a stage, a number and a name; of a script and of a stream there may be output in both cases. And where the program accepts an input, what it
printed is given to it again:

- the table that `compile` wrote is accepted by `table`
- each root of an accepted table decodes some messages, or refuses them
- the text that `decode` printed is encoded to the very message, handles included
- the message that `encode` printed is decoded to a text that encodes to the very message
- what `serve` wrote is whole frames: `dump` prints a line for each, with a transaction id of a request, in their order
"""
import concurrent.futures
import glob
import os
import random
import re
import struct
import subprocess
import sys
import tempfile
import time

sys.dont_write_bytecode = True
sys.path.insert(0, os.path.dirname(os.path.realpath(__file__)))
import by_hand  # noqa: E402

# The greatest processor time of an answer, in seconds: a machine that is busy may stop any process for longer.
SEED, INPUTS, SECONDS = 20261128, 20_000, 1
SOURCE_STAGES, STAGES = "lex|parse|names|const|types|layout|protocol", "table|decode|encode|notation|header|script|serve|ended"
SOURCE_LINE = re.compile(rf".+:\d+:\d+: ({SOURCE_STAGES}) \d+ [A-Z]\w*\n")
OTHER_LINE = re.compile(rf"(frame \d+: )?({STAGES}) \d+ [A-Z]\w*( at \d+)?\n")
WORDS = b"library using as const alias type protocol service resource struct table union bits enum strict flexible box array vector string optional compose error client_end server_end open ajar closed ; : , . = | @ ( ) { } < > -> - 0 1 64 65535 4294967295 0x80 \"a\" MAX".split()
MARKS = b"{ } [ ] ( ) , : \" \\ absent true false table union handle unknown in out 0 1 -1 255 4294967296 18446744073709551616 \\u{0} \\u{D800} a b x".split()
# One library with each kind of type.
KINDS = b"""library f;
using zx;
type E = strict enum : uint8 { A = 1; B = 2; };
type G = flexible bits : uint16 { P = 1; Q = 4; };
type S = resource struct { a uint8; b bool; e E; g G; n int64; s string:8; o string:optional; h zx.Handle:<VMO, 3, optional>; v vector<U>:4; r array<uint16, 3>; x box<I>; };
type I = struct { i int32; next box<I>; };
type T = resource table { 1: a uint8; 2: s string; 4: v vector<I>; 5: h zx.Handle; 7: u U; };
type U = flexible union { 1: n uint32; 2: s string; 3: t vector<uint8>; 9: i I; };
"""
# A table of version 1: a strict enum of uint32 with the values 1, 2 and 4.
VERSION_1 = bytes.fromhex(
    "4643543201000000010000000000000003000000010000000000000000000000060000000000000"
    "00b02040004000000000000000300000000000000000000000800000000000000000000000300000"
    "0010000000000000002000000000000000400000000000000030000000300000000000000652f45652f45"
)
ZX = b"""library zx;
type ObjType = enum : uint32 { VMO = 3; CHANNEL = 4; };
resource_definition Handle : uint32 { properties { subtype ObjType; rights uint32; }; };
"""
# A library with a protocol, a script for it, and the bodies and handles of calls.
CALLS = b"""library p;
using zx;
type T = table { 1: a uint8; 2: s string; };
open protocol P {
    strict Get(struct { k uint8; }) -> (struct { v uint8; });
    flexible F() -> ();
    flexible One(resource struct { h zx.Handle; });
    strict Tell(T) -> (resource struct { t T; h vector<zx.Handle>:4; }) error uint32;
    strict -> OnEvent(struct { s string:8; });
};
"""
SCRIPT = b"""# Replies.
protocol p/P
reply p/P.Get {v: 9}
reply p/P.Get {v: 10}

reply p/P.F union(response: {})
reply p/P.Tell union(response: {t: table(2) {a: 1, s: "x"}, h: [handle(1, 3, 3)]})
reply p/P.Tell union(err: 5)
"""
# The name of each method, its transaction id and flags, and its body and handles.
SENT = (
    ("p/P.Get", 1, 0x00, bytes([5]) + bytes(7), ()),
    ("p/P.F", 2, 0x80, b"", ()),
    ("p/P.One", 0, 0x80, b"\xff\xff\xff\xff" + bytes(4), ((7, 3, 3),)),
    ("p/P.Tell", 3, 0x00, bytes([1]) + bytes(7) + b"\xff" * 8 + bytes([4, 0, 0, 0, 0, 0, 1, 0]), ()),
    ("", 4, 0x80, bytes([1, 2, 3]), ()),
    ("p/P.Get", 5, 0x00, bytes([6]) + bytes(7), ()),
    ("p/P.Tell", 6, 0x00, bytes(8) + b"\xff" * 8, ()),
)
TEXTS = {
    "f/S": b'{a: 1, b: true, e: 2, g: 5, n: -9, s: "abc", o: absent, h: handle(7, 3, 3), v: [union(n: 3), union(s: "x")], r: [1, 2, 3], x: {i: -1, next: {i: 2, next: absent}}}',
    "f/T": b'table(7) {a: 1, s: "\\u{e9}\\n", 3: unknown in 01020304 [], v: [{i: 1, next: absent}], h: handle(1, 2, 3), 6: unknown out 0102030405060708 [handle(4, 5, 6)], u: union(t: [1, 2])}',
    "f/U": b"union(i: {i: 5, next: {i: 6, next: absent}})",
    "f/I": b"{i: 2147483647, next: absent}",
}


TOKEN = re.compile(rb'"(?:\\.|[^"\\])*"|[A-Za-z_0-9.]+|->|\s+|.', re.S)


def changed_bytes(data, dice):
    """Returns these bytes with one byte or bit changed, or a few left out, put in twice or cut off."""
    at, some = dice.randint(0, max(len(data) - 1, 0)), dice.choice((1, 1, 4, 8, 8, 16))
    kind = dice.randrange(20)
    if kind == 0:
        return data[:at]
    if kind in (1, 2):
        return data[:at] + data[at + some:]
    if kind in (3, 4):
        return data[:at] + data[at:at + some] + data[at:]
    if kind < 12:
        return data[:at] + bytes([data[at] ^ 1 << dice.randrange(8)]) + data[at + 1:] if data else data
    return data[:at] + bytes([dice.choice((0, 0, 1, 2, 3, 4, 8, 16, 127, 128, 254, 255))]) + data[at + 1:]


def changed_words(data, words, dice):
    """Returns this text with a word left out, put in, taken from another place, moved or written twice, or with another number."""
    tokens = TOKEN.findall(data)
    if not tokens:
        return changed_bytes(data, dice)
    at = dice.choice([it for it, token in enumerate(tokens) if not token.isspace()] or [0])
    other, kind = dice.choice(tokens), dice.randrange(9)
    if kind == 0:
        tokens[at:at + 1] = []
    elif kind == 1:
        tokens[at:at] = [b" ", dice.choice(words), b" "]
    elif kind == 2:
        tokens[at] = dice.choice(words)
    elif kind == 3:
        tokens[at] = other
    elif kind == 4:
        tokens[at:at] = [tokens[at], b" "]
    elif kind == 5:
        to = min(len(tokens), at + dice.randint(2, 12))
        tokens[at:at] = tokens[at:to]
    elif kind == 6:
        numbers = [it for it, token in enumerate(tokens) if token.isdigit()] or [at]
        tokens[dice.choice(numbers)] = str(dice.choice((0, 1, 2, 3, 4, 5, 63, 64, 65, 255, 256, 65535, 65536, 2**31, 2**32 - 1, 2**32, 2**63, 2**64 - 1, 2**64))).encode()
    elif kind == 7:
        names = [it for it, token in enumerate(tokens) if token[:1].isalpha()] or [at]
        tokens[dice.choice(names)] = tokens[dice.choice(names)]
    else:
        return changed_bytes(data, dice)
    return b"".join(tokens)


def changed(data, words, dice):
    """Returns bytes, or a text where there are words for it, with one to three changes."""
    for _ in range(dice.choice((1, 1, 1, 1, 2, 2, 3))):
        data = changed_words(data, words, dice) if words else changed_bytes(data, dice)
    return data


FRAME, HEADER, HANDLE = struct.Struct("<II"), struct.Struct("<IHBBQ"), struct.Struct("<III")


def frame(ordinal, txid, flags, body, handles):
    """Returns the frame of a message (docs/service.md)."""
    message = HEADER.pack(txid, 2, flags, 1, ordinal) + body
    return FRAME.pack(len(message), len(handles)) + message + b"".join(HANDLE.pack(*it) for it in handles)


def transactions(stream):
    """Returns the transaction ids of the whole frames at the front of a stream."""
    found, at = [], 0
    while at + FRAME.size + 4 <= len(stream):
        length, count = FRAME.unpack_from(stream, at)
        end = at + FRAME.size + length + HANDLE.size * count
        if end > len(stream) or length < HEADER.size:
            break
        found.append(struct.unpack_from("<I", stream, at + FRAME.size)[0])
        at = end
    return found


# Runs a command that ends by a signal once it has used its processor time up.
LIMITED = ["sh", "-c", f'ulimit -t {SECONDS}; exec "$@"', "sh"]


class Answer:
    """What a command of the program came to."""

    def __init__(self, program, words, data=b""):
        ran = subprocess.run([*LIMITED, program, *words], input=data, capture_output=True, timeout=120)
        self.words, self.status, self.out, self.errors = words, ran.returncode, ran.stdout, ran.stderr

    def what_fails(self, line, streams=False):
        """Returns what is wrong with the answer, or nothing: its line has to be one of these where it is refused. A command over streams
        may print nothing where it is done, and something where it is refused."""
        said = self.errors.decode("utf-8", "replace")
        if self.status not in (0, 1):
            return f"{self.words}: status {self.status}: {said[:100]}"
        if self.status == 0 and (self.errors or not (self.out or streams)):
            return f"{self.words}: done, with output {self.out[:40]} and errors {said[:100]}"
        if self.status == 1 and ((self.out and not streams) or not line.fullmatch(said)):
            return f"{self.words}: refused by {said[:200]!r}"
        return None


class Fuzzer:
    """The program, the bases of its inputs, and a folder for files."""

    def __init__(self, root, program, folder):
        self.program, self.folder = program, folder
        self.sources = [open(it, "rb").read() for it in sorted(glob.glob(f"{root}/examples/**/*.fidl", recursive=True))] + [KINDS] * 4
        self.zx, self.kinds = self.file("zx.fidl", ZX), self.file("f.fidl", KINDS)
        self.table = f"{folder}/f.fct"
        self.must("compile", "--out", self.table, self.zx, self.kinds)
        self.tables = [*(open(it, "rb").read() for it in (f"{root}/examples/point.fct", self.table)), VERSION_1]
        self.messages = {it: self.must("encode", self.table, it, text.decode()) for it, text in TEXTS.items()}
        self.calls, self.script = f"{folder}/p.fct", self.file("p.script", SCRIPT)
        self.must("compile", "--out", self.calls, self.zx, self.file("p.fidl", CALLS))
        self.frames = b"".join(frame(self.ordinals().get(name, 1), *call) for name, *call in SENT)

    def file(self, name, data):
        with open(f"{self.folder}/{name}", "wb") as it:
            it.write(data)
        return f"{self.folder}/{name}"

    def must(self, *words):
        ran = subprocess.run([self.program, *words], capture_output=True, check=True)
        return ran.stdout

    def ordinals(self):
        """Returns the ordinal of each method of the protocol, by its name."""
        lines = [line.split() for line in self.must("table", self.calls).decode().splitlines()]
        return {line[2]: int(line[1], 16) for line in lines if line[0] == "method"}

    def ask(self, line, *words, data=b"", streams=False):
        """Returns the answer to a command line, and what is wrong with it, or nothing."""
        answer = Answer(self.program, [*words], data)
        return answer, answer.what_fails(line, streams)

    def source(self, number, dice):
        source, out = self.file(f"{number}.fidl", changed(dice.choice(self.sources), WORDS, dice)), f"{self.folder}/{number}.fct"
        answer, wrong = self.ask(SOURCE_LINE, "compile", "--out", out, self.zx, source)
        if not wrong and answer.status == 0:
            again, wrong = self.ask(OTHER_LINE, "table", out)
            wrong = wrong or (again.status and f"{source}: the written table is refused: {again.errors}")
        return wrong

    def coding_table(self, number, dice):
        table = self.file(f"{number}.fct", changed(dice.choice(self.tables), None, dice))
        answer, wrong = self.ask(OTHER_LINE, "table", "--roots", table)
        if wrong and answer.status == 0 and not answer.out and not answer.errors:
            return None  # It has no roots.
        new = f"{self.folder}/{number}.new.fct"
        written = self.ask(OTHER_LINE, "migrate", "--out", new, table)
        wrong = wrong or written[1] or (written[0].status != answer.status and f"{table}: only one of table and migrate refuses it")
        for root in answer.out.decode().split()[:2] if not wrong and answer.status == 0 else []:
            for message in ("", "00" * 8, "04" + "00" * 7, dice.choice([*self.messages.values()]).decode().split("\n")[0]):
                (one, wrong), (other, _) = (self.ask(OTHER_LINE, "decode", it, root, message) for it in (table, new))
                if wrong or (one.out, one.errors) != (other.out, other.errors):
                    return wrong or f"{table}: {root} {message}: its version 2 answers {other.out} {other.errors}"
        return wrong

    def given(self, printed):
        """Returns the words that give `decode` a message that `encode` printed."""
        digits, *handles = printed.decode().splitlines()
        return digits, [it for line in handles for it in ("--handle", line.split()[1])]

    def message(self, number, dice):
        root = dice.choice([*TEXTS])
        digits, handles = self.given(self.messages[root])
        data = changed(bytes.fromhex(digits), None, dice)
        if dice.random() < 0.3:
            handles = handles[2:] if dice.random() < 0.5 else [*handles, "--handle", "1:3:3"]
        answer, wrong = self.ask(OTHER_LINE, "decode", *handles, self.table, root, data.hex())
        if wrong or answer.status:
            return wrong
        again, wrong = self.ask(OTHER_LINE, "encode", self.table, root, answer.out.decode().rstrip("\n"))
        wanted = "".join(f"{it}\n" for it in (data.hex(), *(f"handle {it}" for it in handles[1::2])))
        return wrong or (again.out.decode() != wanted and f"{root}: {data.hex()} {handles} is encoded again as {again.out} {again.errors}")

    def text(self, number, dice):
        root = dice.choice([*TEXTS])
        text = changed(TEXTS[root], MARKS, dice)
        answer, wrong = self.ask(OTHER_LINE, "encode", self.table, root, "-", data=text)
        if wrong or answer.status:
            return wrong
        digits, handles = self.given(answer.out)
        shown, wrong = self.ask(OTHER_LINE, "decode", *handles, self.table, root, digits)
        if wrong or shown.status:
            return wrong or f"{root}: {text} is encoded as {digits}, which is refused: {shown.errors}"
        again, wrong = self.ask(OTHER_LINE, "encode", self.table, root, shown.out.decode().rstrip("\n"))
        return wrong or (again.out != answer.out and f"{root}: {text} is shown as {shown.out}, which is encoded otherwise")

    def served(self, number, script, frames):
        """Serves these frames by a script, and looks at what was written; returns what is wrong, or nothing."""
        answer, wrong = self.ask(OTHER_LINE, "serve", self.calls, script, data=frames, streams=True)
        if wrong or not answer.out:
            return wrong
        replies = self.file(f"{number}.replies", answer.out)
        shown, wrong = self.ask(OTHER_LINE, "dump", "--response", self.calls, "p/P", replies)
        if wrong or shown.status:
            return wrong or f"{script}: {frames.hex()}: the replies are refused: {shown.errors}"
        asked, answered = iter(transactions(frames)), [int(it.split()[0]) for it in shown.out.splitlines()]
        in_order = all(it in asked for it in answered) and answered == transactions(answer.out)
        return None if in_order else f"{script}: {frames.hex()} is answered by {answer.out.hex()}"

    def spoken(self, number, dice):
        """A changed script."""
        return self.served(number, self.file(f"{number}.script", changed(SCRIPT, [*MARKS, b"reply", b"protocol", b"p/P.Get", b"\n", b"#"], dice)), self.frames)

    def stream(self, number, dice):
        """A changed stream, served and dumped."""
        frames = changed(self.frames, None, dice)
        file = self.file(f"{number}.frames", frames)
        options = ["--response"] if dice.random() < 0.2 else []
        _, wrong = self.ask(OTHER_LINE, "dump", *options, self.calls, "p/P", file, streams=True)
        return wrong or self.served(number, self.script, frames)

    def input(self, number):
        """Tries the input of this number. Returns what is wrong, or nothing."""
        dice = random.Random(SEED + number)
        kinds = (self.source, self.coding_table, self.message, self.text, self.stream, self.spoken)
        kind = kinds[number % len(kinds)]
        try:
            return kind(number, dice)
        except subprocess.TimeoutExpired as error:
            return f"{error.cmd}: no answer in {error.timeout} seconds"
        finally:
            for it in glob.glob(f"{self.folder}/{number}.*"):
                os.remove(it)


def run(root, programs, inputs=INPUTS):
    """Tries the inputs, a share by each program; prints what is answered wrongly, and returns whether nothing is."""
    wrong, begun = [], time.monotonic()
    for place, program in enumerate(programs):
        if not os.path.isfile(program):
            print(f"gate: FAILED: there is no program {program} to give changed inputs to")
            return False
        with tempfile.TemporaryDirectory(prefix="fuzz-") as folder, concurrent.futures.ThreadPoolExecutor(len(os.sched_getaffinity(0))) as pool:
            fuzzer = Fuzzer(root, program, folder)
            numbers = range(place * inputs // len(programs), (place + 1) * inputs // len(programs))
            wrong += [f"input {number}: {it}" for number, it in zip(numbers, pool.map(fuzzer.input, numbers)) if it]
    print(f"gate: {inputs} changed inputs by {len(programs)} builds of the program, {len(wrong)} answered wrongly ({time.monotonic() - begun:.0f} seconds)", flush=True)
    return by_hand.all_passed(wrong[:20])


if __name__ == "__main__":
    by_hand.start(run)
