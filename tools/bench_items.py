#!/usr/bin/env python3
"""Measures the validator on sections of items with constant expressions, beside reading the same items alone.

usage: tools/bench_items.py [VALIDATOR [READER]]

It makes modules of 10,000 and of 100,000 globals, active element segments and active data segments, each with an `i32.const`, and of one
element segment of 1,000,000 and of 10,000,000 functions. Of each it prints the instructions that an item takes, by valgrind's callgrind,
without what an empty module takes: where it is validated whole (`wasm-validate FILE`), where its items are read and no more
(`test-all --items FILE`), and how much the first is of the second. The programs are those that `bin/prove` has built, and
`rt run` in crates/test_all, where no others are named.
"""
import os
import sys
import tempfile

sys.dont_write_bytecode = True
from wasm_bytes import HEAD, instructions, section, unsigned

ROOT = os.path.dirname(os.path.dirname(os.path.realpath(__file__)))
BUILT = [os.path.join(ROOT, *path) for path in (("out", "wasm-validate", "proved"), ("crates", "test_all", "out", "test_all"))]
VALIDATOR, READER = [*sys.argv[1:3], *BUILT[len(sys.argv) - 1:]][:2]
TYPE = b"\1\4\1\x60\0\0"


def many(number, count, item):
    return section(number, unsigned(count) + item * count)


ONE_FUNCTION = section(3, b"\1\0")
CODE = section(10, b"\1\2\0\x0b")
TABLE, MEMORY = section(4, b"\1\x70\0\1"), section(5, b"\1\0\1")
# what stands before the items, one item's bytes or a call that makes the section, what stands behind, and how many
MODULES = {
    "globals": (b"", lambda n: many(6, n, b"\x7f\0\x41\xe4\0\x0b"), b"", (10_000, 100_000)),
    "active element segments": (TYPE + ONE_FUNCTION + TABLE, lambda n: many(9, n, b"\0\x41\0\x0b\1\0"), CODE, (10_000, 100_000)),
    "active data segments": (MEMORY, lambda n: many(11, n, b"\0\x41\0\x0b\1\0"), b"", (10_000, 100_000)),
    "functions in one segment": (TYPE + ONE_FUNCTION, lambda n: section(9, b"\1\1\0" + unsigned(n) + b"\0" * n), CODE, (1_000_000, 10_000_000)),
}


def main():
    with tempfile.TemporaryDirectory() as room:
        def written(data):
            path = os.path.join(room, "module")
            with open(path, "wb") as file:
                file.write(HEAD + data)
            return path

        empty = {"validated": instructions(VALIDATOR, written(b"")), "read": instructions(READER, "--items", written(b""))}
        for name, (before, items, behind, counts) in MODULES.items():
            for count in counts:
                path = written(before + items(count) + behind)
                whole = (instructions(VALIDATOR, path) - empty["validated"]) / count
                alone = (instructions(READER, "--items", path) - empty["read"]) / count
                print(f"{count:>10} {name:26} validated {whole:8.1f}   read {alone:8.1f}   {whole / alone:5.2f}", flush=True)


main()
