#!/usr/bin/env python3
"""Measures the validator on whole modules.

usage: tools/bench_modules.py [--beside PROGRAM] FILE..   validates each file, and tells what that took
       tools/bench_modules.py --grow MEGABYTES FILE OUT   writes a module with the functions of FILE over and over, for so many megabytes
       tools/bench_modules.py --of HEX OUT                writes the module that a file of hexadecimal digits stands for

Of each file it prints its bytes and operators; the time (the best of five runs, start-up included) and the speed; the instructions of an
operator, by valgrind's callgrind, without what an empty module takes; the share of operators that fast steps leave to the general way, which are the
calls of `read_op` that callgrind sees; and the most memory that the program held at once, by GNU time, without the input's bytes and what an empty
module takes. With --beside it tells the same of another program, which takes a file's name
too. Operators are counted here, in code as compilers write it: where another one comes, the count is left out. `bin/prove` has to
have built the program before.
"""
import os
import re
import subprocess
import sys
import tempfile
import time

ROOT = os.path.dirname(os.path.dirname(os.path.realpath(__file__)))
PROGRAM = os.path.join(ROOT, "out", "wasm-validate", "proved")
EMPTY = b"\0asm\1\0\0\0"
RUNS = 5


def number(data, at):
    """An unsigned LEB128 number, and where the bytes go on."""
    value = shift = 0
    while True:
        byte = data[at]
        at += 1
        value |= (byte & 127) << shift
        shift += 7
        if byte < 128:
            return value, at


def written(value):
    out = bytearray()
    while value > 127:
        out.append(value & 127 | 128)
        value >>= 7
    out.append(value)
    return bytes(out)


def past(data, at):
    """Where the bytes go on behind a LEB128 number."""
    while data[at] > 127:
        at += 1
    return at + 1


def past_operator(data, at):
    """Where the bytes go on behind an operator."""
    code = data[at]
    at += 1
    if 0x45 <= code <= 0xC4 or code in (0x00, 0x01, 0x05, 0x0B, 0x0F, 0x1A, 0x1B, 0xD1):
        return at
    if 0x20 <= code <= 0x26 or code in (0x02, 0x03, 0x04, 0x0C, 0x0D, 0x10, 0x12, 0x3F, 0x40, 0x41, 0x42, 0xD0, 0xD2):
        return past(data, at)
    if 0x28 <= code <= 0x3E or code in (0x11, 0x13):
        return past(data, past(data, at))
    if code == 0x0E:
        count, at = number(data, at)
        for _ in range(count + 1):
            at = past(data, at)
        return at
    if code == 0x1C:
        count, at = number(data, at)
        for _ in range(count):
            at = past(data, at)
        return at
    if code == 0x43:
        return at + 4
    if code == 0x44:
        return at + 8
    if code == 0xFC:
        kind, at = number(data, at)
        if kind <= 7:
            return at
        if kind in (8, 10, 12, 14):
            return past(data, past(data, at))
        if kind <= 17:
            return past(data, at)
    if code == 0xFD:
        kind, at = number(data, at)
        if kind <= 11 or kind in (92, 93):
            return past(data, past(data, at))
        if kind in (12, 13):
            return at + 16
        if 21 <= kind <= 34:
            return at + 1
        if 84 <= kind <= 91:
            return past(data, past(data, at)) + 1
        return at
    if code == 0xFE:
        kind, at = number(data, at)
        return at + 1 if kind == 3 else past(data, past(data, at))
    raise ValueError(f"an operator that isn't counted here: {code:02x}")


def sections(data):
    """The sections, as pairs of an id and its bytes."""
    at = len(EMPTY)
    while at < len(data):
        kind = data[at]
        size, at = number(data, at + 1)
        yield kind, data[at : at + size]
        at += size


def entries(data):
    """The entries of a section of bodies."""
    count, at = number(data, 0)
    for _ in range(count):
        size, start = number(data, at)
        yield data[start : start + size]
        at = start + size


def operators_of(body):
    groups, at = number(body, 0)
    for _ in range(groups):
        at = past(body, past(body, at))
    count = 0
    while at < len(body):
        at = past_operator(body, at)
        count += 1
    return count


def operators(data):
    known, total = {}, 0
    for kind, content in sections(data):
        if kind == 10:
            for body in entries(content):
                if body not in known:
                    known[body] = operators_of(body)
                total += known[body]
    return total


def section(kind, content):
    return bytes([kind]) + written(len(content)) + content


def grown(data, size):
    """The same module with all its functions over and over, up to this size. Imports, exports and types stay."""
    times = max(1, (size - len(data)) // max(1, sum(len(c) for k, c in sections(data) if k == 10)) + 1)
    out = bytearray(EMPTY)
    for kind, content in sections(data):
        if kind in (3, 10):
            count, at = number(content, 0)
            content = written(count * times) + content[at:] * times
        out += section(kind, content)
    return bytes(out)


def run(program, path):
    """The seconds of a run, which has to accept."""
    start = time.perf_counter()
    if subprocess.run([program, path], stdout=subprocess.DEVNULL).returncode != 0:
        raise SystemExit(f"{program} refuses {path}")
    return time.perf_counter() - start


def most_memory(program, path):
    """The most memory that a run holds at once, in bytes. A child counts what its parent holds when it starts it, so a small program stands between."""
    said = subprocess.run(["/usr/bin/time", "-f", "%M", program, path], stdout=subprocess.DEVNULL, stderr=subprocess.PIPE, text=True).stderr
    return int(said.split()[-1]) * 1024


def calls_of(name, profile):
    """How often a function was called whose name has this part, by the lines of callgrind's profile."""
    total, names, called = 0, {}, ""
    for line in profile:
        said = re.match(r"cfn=\((\d+)\)(?: (.*))?", line)
        if said:
            called = names.setdefault(said.group(1), said.group(2) or "")
        elif line.startswith("fn="):
            said = re.match(r"fn=\((\d+)\)(?: (.*))?", line)
            names.setdefault(said.group(1), said.group(2) or "")
        elif line.startswith("calls=") and name in called:
            total += int(line[6:].split()[0])
    return total


def instructions(program, path):
    """The instructions of a run, and how many operators its general way read."""
    with tempfile.TemporaryDirectory() as folder:
        asked = ["valgrind", "--tool=callgrind", f"--callgrind-out-file={folder}/out", program, path]
        said = subprocess.run(asked, capture_output=True, text=True).stderr
        with open(f"{folder}/out", encoding="utf-8") as profile:
            left = calls_of("::OperatorValidator::read_op", profile)
    return int(re.search(r"Collected : (\d+)", said).group(1)), left


def measure(program, path, data, count, empty):
    seconds = min(run(program, path) for _ in range(RUNS))
    memory = most_memory(program, path) - most_memory(program, empty) - len(data)
    print(f"  {os.path.basename(program)}: {seconds:.3f} s, {len(data) / seconds / 1e6:.1f} MB/s", end="")
    if count:
        (spent, left), (least, _) = instructions(program, path), instructions(program, empty)
        print(f", {(spent - least) / count:.1f} instructions an operator, {100 * left / count:.2f} % left to the general way", end="")
    print(f", {max(0, memory) / 1e6:.2f} MB beside the input, {100 * max(0, memory) / len(data):.1f} %")


def main():
    words = sys.argv[1:]
    if len(words) == 4 and words[0] == "--grow":
        with open(words[2], "rb") as it:
            data = it.read()
        with open(words[3], "wb") as it:
            it.write(grown(data, int(float(words[1]) * 1e6)))
        return
    if len(words) == 3 and words[0] == "--of":
        with open(words[1]) as it:
            data = bytes.fromhex("".join(it.read().split()))
        with open(words[2], "wb") as it:
            it.write(data)
        return
    programs = [PROGRAM]
    if len(words) > 2 and words[0] == "--beside":
        programs.append(words[1])
        words = words[2:]
    if not words or words[0].startswith("-"):
        raise SystemExit(__doc__)
    with tempfile.NamedTemporaryFile(suffix=".wasm") as empty:
        empty.write(EMPTY)
        empty.flush()
        for path in words:
            with open(path, "rb") as it:
                data = it.read()
            try:
                count = operators(data)
            except ValueError as error:
                print(error)
                count = 0
            print(f"{path}: {len(data)} bytes, {count} operators")
            for program in programs:
                measure(program, path, data, count, empty.name)


if __name__ == "__main__":
    if sys.argv[1:2] in (["-h"], ["--help"]):
        print(__doc__.rstrip())
        sys.exit(0)
    main()
