#!/usr/bin/env python3
"""Counts the instructions of decoding messages of shapes that no loop of the decoder was made for (docs/performance.md).

    bench/others.py LIBRARY PROGRAM

LIBRARY is the bench's (crates/fidl_bench/out/libfidl_bench.a, which bench/run builds), and PROGRAM is `fidl`, which writes the
table and the messages. It needs g++ and valgrind. Each line is a message: how many instructions decoding it takes, without the
copy, and how many that are for each of its 24 members or 100 elements."""
import os
import re
import subprocess
import sys
import tempfile

HERE = os.path.dirname(os.path.realpath(__file__))
MEMBERS, ELEMENTS = 24, 100
ITEM, SMALL = '{a: 1, s: "hello"}', "{x: 5}"
DEEP = 'table(4) {t: table(2) {n: 4, s: "hello"}, u: union(s: "hello"), v: [1, 2], i: ' + ITEM + "}"
TYPES = """library others;
type Item = struct { a uint32; s string; };
type Small = struct { x uint64; };
type Choice = union { 1: n uint32; 2: s string; 3: i Small; };
type Few = table { 1: n uint32; 2: s string; };
type Deep = table { 1: t Few; 2: u Choice; 3: v vector<uint32>; 4: i Item; };
"""
# What each member of a struct is: its type, and the text of its value.
STRUCTS = {
    "AbsentVectors": ("vector<Item>:optional", "absent"),
    "EmptyVectors": ("vector<Item>", "[]"),
    "VectorsOfOne": ("vector<Item>", f"[{ITEM}]"),
    "VectorsOfTexts": ("vector<string>", '["hello", "you"]'),
    "AbsentBoxes": ("box<Small>", "absent"),
    "Boxes": ("box<Small>", SMALL),
    "AbsentUnions": ("Choice:optional", "absent"),
    "Unions": ("Choice", "union(n: 7)"),
    "UnionsOfTexts": ("Choice", 'union(s: "hello")'),
    "EmptyTables": ("Few", "table(0) {}"),
    "Tables": ("Few", 'table(2) {n: 4, s: "hello"}'),
    "DeepTables": ("Deep", DEEP),
    "Structs": ("Item", ITEM),
    "Arrays": ("array<string, 2>", '["hello", "you"]'),
    "Numbers": ("uint32", "9"),
}
# What stands between two numbers in each struct of a vector.
BETWEEN = {
    "BoxesBetween": ("box<Small>", SMALL),
    "AbsentBoxesBetween": ("box<Small>", "absent"),
    "VectorsBetween": ("vector<Item>", f"[{ITEM}]"),
    "EmptyVectorsBetween": ("vector<Item>", "[]"),
    "UnionsBetween": ("Choice", "union(n: 7)"),
    "TablesBetween": ("Few", 'table(2) {n: 4, s: "hello"}'),
}
# What each element of a vector is.
VECTORS = {
    "Texts": ("string", '"hello"'),
    "NumberVectors": ("vector<uint32>", "[1, 2, 3]"),
    "TextVectors": ("vector<string>", '["hello", "you"]'),
    "Items": ("Item", ITEM),
    "DeepTables": ("Deep", DEEP),
}
COUNTER = r"""
#include <cstdint>
#include <cstdlib>
#include <fstream>
#include <sstream>
#include <string>
extern "C" uint32_t fidl_bench_decode(const uint8_t*, size_t, const uint8_t*, size_t, const uint8_t*, size_t, uint64_t);
static std::string read(std::string name) {
  std::ifstream file(name, std::ios::binary);
  std::ostringstream bytes;
  bytes << file.rdbuf();
  return bytes.str();
}
static const uint8_t* start(const std::string& bytes) { return reinterpret_cast<const uint8_t*>(bytes.data()); }
int main(int, char** words) {
  std::string table = read("others.fct"), root = std::string("others/") + words[1], message = read(std::string(words[1]) + ".bin");
  return fidl_bench_decode(start(table), table.size(), start(root), root.size(), start(message), message.size(), strtoull(words[2], nullptr, 10));
}
"""


def shapes():
    """Returns the source of all shapes, and of each its name, the text of its message and how many parts that has."""
    source, texts = TYPES, []
    for name, (kind, value) in STRUCTS.items():
        source += f"type {name} = struct {{ {' '.join(f'm{k} {kind};' for k in range(MEMBERS))} }};\n"
        texts.append((name, "{" + ", ".join(f"m{k}: {value}" for k in range(MEMBERS)) + "}", MEMBERS))
    for name, (kind, value) in BETWEEN.items():
        source += f"type {name}Element = struct {{ a uint32; m {kind}; c uint32; }};\n"
        VECTORS[name] = (f"{name}Element", f"{{a: 1, m: {value}, c: 3}}")
    for name, (kind, value) in VECTORS.items():
        source += f"type VectorOf{name} = struct {{ v vector<{kind}>; }};\n"
        texts.append((f"VectorOf{name}", "{v: [" + ", ".join([value] * ELEMENTS) + "]}", ELEMENTS))
    return source, texts


def instructions(name, passes):
    """Returns how many instructions the counter takes for so many passes after the first."""
    run = ["valgrind", "--tool=callgrind", "--callgrind-out-file=/dev/null", "./counter", name, str(passes)]
    ran = subprocess.run(run, capture_output=True, text=True)
    if ran.returncode:
        sys.exit(f"others: {name} is not decoded: {ran.stderr[-300:]}")
    return int(re.search(r"Collected : (\d+)", ran.stderr).group(1))


def main(library, program):
    source, texts = shapes()
    with tempfile.TemporaryDirectory(prefix="fidl-others-") as room:
        os.chdir(room)
        for name, text in [("others.fidl", source), ("counter.cc", COUNTER)]:
            with open(name, "w", encoding="utf-8") as it:
                it.write(text)
        subprocess.run([program, "compile", "--out", "others.fct", "others.fidl"], check=True, stdout=subprocess.DEVNULL)
        kit = os.path.dirname(subprocess.run(["rt", "doc"], capture_output=True, text=True, check=True).stdout.strip())
        subprocess.run(["g++", "-O2", "-o", "counter", "counter.cc", library, f"{kit}/c/liblibc_c.a", "-lpthread"], check=True)
        for name, text, parts in texts:
            with open("text", "w", encoding="utf-8") as it:
                it.write(text)
            said = subprocess.run([program, "encode", "others.fct", f"others/{name}", "@text"], check=True, capture_output=True, text=True)
            message = bytes.fromhex("".join(said.stdout.split()))
            with open(f"{name}.bin", "wb") as it:
                it.write(message)
            copy = len(message) + 15 if len(message) >= 2048 else 80
            each = (instructions(name, 201) - instructions(name, 1)) // 200 - copy
            print(f"{name:28} {len(message):6} bytes {each:8} instructions {each / parts:7.0f} each", flush=True)


if __name__ == "__main__":
    if len(sys.argv) != 3:
        sys.exit(__doc__)
    main(*map(os.path.abspath, sys.argv[1:]))
