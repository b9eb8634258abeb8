#!/usr/bin/env python3
"""Measures the validator on modules of many types: time and memory, and what a module costs behind many others.

usage: tools/bench_types.py [VALIDATOR]

It makes a module of 1,000,000 different function types of nine parameters, one of 780,000 types in recursion groups of two that refer to each
other, and one of 900,000 structures each of which refers to the one before. Of each it prints the wall time of `wasm-validate FILE` (the least
of three runs), the peak of its memory, and what is left of that beside the input, in bytes for each type. Then it validates lists of 100, 1,000
and 10,000 small modules that share their types, and prints the instructions that each of the last hundred takes, by valgrind's callgrind.
The program is the one that `bin/prove` has built, where no other is named.
"""
import os
import sys
import tempfile
import time

sys.dont_write_bytecode = True
from wasm_bytes import HEAD, instructions, section, unsigned

ROOT = os.path.dirname(os.path.dirname(os.path.realpath(__file__)))
VALIDATOR = sys.argv[1] if len(sys.argv) > 1 else os.path.join(ROOT, "out", "wasm-validate", "proved")
NUMBERS = b"\x7f\x7e\x7d\x7c\x7b"


def signed(n):
    out = bytearray()
    while not 0 <= n < 0x40:
        out.append(n & 0x7F | 0x80)
        n >>= 7
    return bytes(out + bytes([n]))


def in_numbers(n, length):
    """Returns so many number types, other ones for each n."""
    out = bytearray()
    for _ in range(length):
        out.append(NUMBERS[n % 5])
        n //= 5
    return bytes(out)


def type_section(groups):
    contents = unsigned(len(groups)) + b"".join(groups)
    return HEAD + section(1, contents)


def of_nine(count):
    return type_section([b"\x60\x09" + in_numbers(n, 9) + b"\0" for n in range(count)])


def in_pairs(count):
    def pair(n):
        first = b"\x5f\x09" + b"".join(bytes([it, 0]) for it in in_numbers(n, 8)) + b"\x63" + signed(2 * n + 1) + b"\0"
        return b"\x4e\x02" + first + b"\x5e\x63" + signed(2 * n) + b"\0"
    return type_section([pair(n) for n in range(count // 2)])


def in_a_chain(count):
    return type_section([b"\x5f\0"] + [b"\x5f\x01\x63" + signed(n) + b"\0" for n in range(count - 1)])


def small(n):
    """Returns a module of ten types that all such modules have, and a function."""
    types = [b"\x60" + bytes([k]) + b"\x7f" * k + b"\0" for k in range(10)]
    return type_section(types) + b"\3\2\1\0" + b"\x0a\4\1\2\0\x0b"


def timed(path):
    """Returns the seconds and the peak of memory, in bytes."""
    began = time.monotonic()
    child = os.posix_spawn(VALIDATOR, [VALIDATOR, path], os.environ, file_actions=[(os.POSIX_SPAWN_OPEN, 1, os.devnull, os.O_WRONLY, 0)])
    _, status, used = os.wait4(child, 0)
    if status:
        sys.exit(f"{VALIDATOR}: a module was refused")
    return time.monotonic() - began, used.ru_maxrss * 1024


def main():
    with tempfile.TemporaryDirectory() as room:
        def written(name, data):
            path = os.path.join(room, name)
            with open(path, "wb") as file:
                file.write(data)
            return path

        _, empty = timed(written("empty", HEAD))
        for name, make, count in (("of nine parameters", of_nine, 1_000_000), ("in pairs", in_pairs, 780_000), ("in a chain", in_a_chain, 900_000)):
            data = make(count)
            path = written("module", data)
            runs = [timed(path) for _ in range(3)]
            seconds, peak = min(it[0] for it in runs), min(it[1] for it in runs)
            print(f"{count:>10} types {name:20} {seconds:6.2f} s   {peak / 1e6:7.0f} MB   {(peak - empty - len(data)) / count:6.0f} bytes a type", flush=True)
        os.chdir(room)
        files = [os.path.basename(written(str(n), small(n))) for n in range(10_000)]
        for count in (100, 1_000, 10_000):
            last = (instructions(VALIDATOR, *files[:count]) - instructions(VALIDATOR, *files[:count - 100])) / 100
            print(f"{count:>10} modules              the last hundred: {last:9.0f} instructions each", flush=True)


main()
