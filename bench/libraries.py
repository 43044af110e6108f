#!/usr/bin/env python3
"""Writes the sources of 16 libraries with N declarations in all: bench/libraries.py N FOLDER.

Each library imports the one before. Of ten declarations four are structs, and one each a table, a union, an enum, a constant, an
alias and a protocol; they refer to those before them and to the library before. They need nine entries of a coding table, so
65,000 declarations fit into one.
"""
import os
import sys

LIBRARIES = 16


def declaration(library, number):
    """Returns the declaration of this number, from 1, of a library."""
    far = f"bench.l{library - 1}.S1" if library else "S1"
    first, before = f"S{number - number % 10 + 1}", f"S{number - 1}"
    return [
        f"protocol P{number} {{ M{number}(struct {{ a S1; b {far}; }}); }};",
        f"type S{number} = struct {{ a uint32; b string:64; c {far}; }};" if number > 1 else "type S1 = struct { a uint32; };",
        f"type S{number} = struct {{ a {before}; b uint64; }};",
        f"type S{number} = struct {{ a box<{before}>; b bool; }};",
        f"type S{number} = table {{ 1: a {before}; 2: b string; 4: c {far}; }};",
        f"type S{number} = union {{ 1: a {before}; 2: b uint64; }};",
        f"type S{number} = strict enum : uint8 {{ A = 1; B = 2; C = {number % 200 + 3}; }};",
        f"const C{number} uint32 = {number % 100 + 1};",
        f"alias A{number} = vector<uint8>:C{number - 1};",
        f"type S{number} = struct {{ a A{number - 1}; b {first}; }};",
    ][number % 10]


def main(words):
    count, folder = int(words[0]), words[1]
    os.makedirs(folder, exist_ok=True)
    for library in range(LIBRARIES):
        with open(f"{folder}/l{library:02}.fidl", "w", encoding="utf-8") as it:
            it.write(f"library bench.l{library};\n\n")
            if library:
                it.write(f"using bench.l{library - 1};\n\n")
            for number in range(1, count // LIBRARIES + 1):
                it.write(declaration(library, number) + "\n")


if __name__ == "__main__":
    main(sys.argv[1:])
