#!/usr/bin/env python3
"""check_texts.py: checks that each text of a refusal is compared by a row or by a test, in a second.

The texts are those that the crates of errors print. A text is compared where a row's wanted answer, or a string in the sources of tests, has
all of it; what is put into it may be anything."""
import glob
import os
import re
import sys

ROOT = os.path.dirname(os.path.dirname(os.path.abspath(__file__)))
SOURCES = ["crates/wasm_readers_errors/src/*.rt", "crates/wasm_readers_features/src/*_rules.rt", "crates/wasm_validator_core/src/error.rt"]
ROWS = "crates/test_all/data/*/*.rows"
TESTS = ["crates/test_*/src/*.rt", "tests/**/*.rt*"]
# What no call of the public ones can make the crates print, and why.
NEVER = {
    "invalid integer": "each integer prints its kind and its fault",
    "atomic access": "each number of an atomic access has a name",
    "control frames remain at end of function body or expression": "reading ends first, where an operator is missing",
}


def read(pattern):
    """The text of all files of this pattern."""
    return "\n".join(open(path, encoding="utf-8").read() for path in sorted(glob.glob(f"{ROOT}/{pattern}", recursive=True)))


def literals(source):
    """The string literals of Rust code, but for those of documentation and of names that are printed for debugging."""
    code = re.sub(r"^\s*//.*$", "", source, flags=re.M)
    code = re.sub(r"impl fmt::Debug for .*?\n}\n", "", code, flags=re.S)
    for found in re.finditer(r'"((?:[^"\\]|\\.|\\\n)*)"', code):
        yield re.sub(r"\\\n\s*", "", found[1]).replace('\\"', '"')


def pattern_of(text):
    """What matches a text, whatever is put into it."""
    return re.compile(".*".join(re.escape(part) for part in re.split(r"\{[^}]*\}", text)))


def wanted_answers():
    """The wanted answers of all rows, and the strings of tests."""
    lines = [line for line in read(ROWS).splitlines() if not line.startswith("#")]
    parts = [part for line in lines for part in line.split(" | ")[1:] if part.startswith("refused")]
    return "\n".join(parts + [text for pattern in TESTS for text in literals(read(pattern))])


def main():
    answers = wanted_answers()
    texts = sorted({text for pattern in SOURCES for text in literals(read(pattern)) if re.search("[a-z]", text)})
    missing = [text for text in texts if text not in NEVER and not pattern_of(text).search(answers)]
    stale = [text for text in NEVER if text not in texts or pattern_of(text).search(answers)]
    for text in missing:
        print(f"no row and no test compares: {text}")
    for text in stale:
        print(f"excused without need: {text}")
    failed = len(missing) + len(stale)
    print(f"{len(texts) - len(missing)} passed, {failed} failed")
    return 1 if failed else 0


if __name__ == "__main__":
    sys.exit(main())
