#!/usr/bin/env python3
"""write_packages.py [--check]: writes what the packages take from include/ruthvelka.h: its table of features, its version and its limits of numbers.

The table becomes a file of each package (Python, Rust, Go), and a block of each completion and of the man page, between a line with `BEGIN features`
and one with `END features`. The version becomes a line of the files that packages are made of. With --check nothing is written: each check is a line
that begins with `ok` or `FAILED`, and the last line is `N passed, M failed`. It also compares the table with what `wasm-check --help` lists, and each
option that the help has with the man page and the completions."""
import os
import re
import sys
import textwrap

sys.dont_write_bytecode = True
TOP = os.path.dirname(os.path.dirname(os.path.realpath(__file__)))
PACKAGES = f"{TOP}/packaging"
HEADER = "include/ruthvelka.h"
HELP = "bin/wasm-check.txt"
# A feature that takes something away from what is accepted. `all` doesn't have it.
TAKES_AWAY = ("CRATE_LIMITS",)
MAN = "packaging/man/wasm-check.1"
COMPLETIONS = ("packaging/completions/wasm-check.bash", "packaging/completions/_wasm-check", "packaging/completions/wasm-check.fish")


def read(path):
    with open(f"{TOP}/{path}", encoding="utf-8") as it:
        return it.read()


class Header:
    """What the header has: the version, the features as (name, bit, what is said of it), and which of them the standard set has."""

    def __init__(self):
        text = read(HEADER)
        number = int(re.search(r"(?m)^#define RUTHVELKA_VERSION (\d+)$", text)[1])
        self.number = number
        self.version = f"{number // 1_000_000}.{number // 1_000 % 1_000}.{number % 1_000}"
        found = re.findall(r"(?m)^#define RUTHVELKA_(\w+) \(UINT64_C\(1\) << (\d+)\)\s+/\* (.*?) \*/$", text)
        self.features = [(name, int(bit), said) for name, bit, said in found]
        if len(found) != len(re.findall(r"(?m)^#define RUTHVELKA_\w+ \(UINT64_C\(1\) <<", text)):
            sys.exit(f"write_packages: a feature of {HEADER} has no comment behind it")
        standard = int(re.search(r"(?m)^#define RUTHVELKA_STANDARD UINT64_C\((\d+)\)$", text)[1])
        self.standard = [name for name, bit, _ in self.features if standard >> bit & 1]
        if sum(1 << bit for name, bit, _ in self.features if name in self.standard) != standard:
            sys.exit(f"write_packages: RUTHVELKA_STANDARD of {HEADER} has a bit that no feature has")
        self.all = [name for name, _, _ in self.features if name not in TAKES_AWAY]


def alone(said):
    """What is said of a feature, where the header's prose doesn't stand above."""
    return said.replace('; see "Gates"', ", for hosts that take modules from strangers")


def filled(names, between, first, width=150):
    """These names as lines, each behind the first with that indentation."""
    rows = textwrap.wrap(between.join(names), width, break_long_words=False)
    return f"\n{first}".join(rows)


# ------------------------------------------------------------------------------------------------- whole files
def python_table(header):
    def union(its):
        return filled(its, " | ", "        | ").replace(" |\n", "\n")

    rows = "".join(f"    {name} = 1 << {bit}  # {alone(said)}\n" for name, bit, said in header.features)
    others = [it for it in header.all if it not in header.standard]
    return (
        '"""The features of include/ruthvelka.h. tools/write_packages.py of the repository writes this file."""\n'
        "from enum import IntFlag\n\n"
        f'VERSION = "{header.version}"\n'
        f"LIBRARY_VERSION = {header.number}\n\n\n"
        'class WasmFeatures(IntFlag):\n    """A set of proposals, which modules may use."""\n\n'
        f"{rows}"
        "    # what is on by default: the Core Specification 3.0 without its operators on vectors other than v128.const; and besides it shared memories\n"
        f"    STANDARD = (\n        {union(header.standard)}\n    )\n"
        f"    # all that grant something\n    ALL = (\n        STANDARD\n        | {union(others)}\n    )\n"
    )


def rust_table(header):
    rows = "".join(f"    /// {alone(said)}\n    pub const {name}: WasmFeatures = WasmFeatures(1 << {bit});\n" for name, bit, said in header.features)
    names = "".join(f'    ("{name}", WasmFeatures::{name}),\n' for name, _, _ in header.features)

    def union(its):
        return "WasmFeatures(\n        " + "\n            | ".join(f"WasmFeatures::{it}.0" for it in its) + ",\n    )"

    return (
        "// tools/write_packages.py of the repository writes this file, from include/ruthvelka.h.\n"
        "use crate::WasmFeatures;\n\n"
        "/// The version of the library that this crate was made for.\n"
        f"pub(crate) const LIBRARY_VERSION: u32 = {header.number};\n\n"
        "impl WasmFeatures {\n"
        f"{rows}"
        "    /// What is on by default: the Core Specification 3.0 without its operators on vectors other than `v128.const`; and besides it shared memories.\n"
        f"    pub const STANDARD: WasmFeatures = {union(header.standard)};\n"
        "    /// All that grant something.\n"
        f"    pub(crate) const ALL: WasmFeatures = {union(header.all)};\n"
        "}\n\n"
        "/// Each feature by its name.\n"
        f"pub(crate) const NAMES: [(&str, WasmFeatures); {len(header.features)}] = [\n{names}];\n"
    )


def go_name(name):
    """A name of the header as Go writes names: `GC_TYPES` is `GCTypes`, and `MEMORY64` is `Memory64`."""
    return "".join(it if it in ("GC", "SIMD") else it.capitalize() for it in name.split("_"))


def go_table(header):
    rows = "".join(f"\t// {go_name(name)}: {alone(said)}.\n\t{go_name(name)} WasmFeatures = 1 << {bit}\n" for name, bit, said in header.features)

    def union(its):
        return " |\n\t\t".join(go_name(it) for it in its)

    width = max(len(name) for name, _, _ in header.features)
    names = "".join(f'\t"{name}":{" " * (width - len(name))} {go_name(name)},\n' for name, _, _ in header.features)
    return (
        "// Code generated by tools/write_packages.py from include/ruthvelka.h. DO NOT EDIT.\n\n"
        "//go:build cgo && linux && amd64\n\n"
        "package ruthvelka\n\n"
        f"const libraryVersion = {header.number}\n\n"
        f"// The features, as bits of a set.\nconst (\n{rows})\n\n"
        "const (\n"
        "\t// Standard is what is on by default: the Core Specification 3.0 without its operators on vectors other than `v128.const`; and besides it shared memories.\n"
        f"\tStandard = {union(header.standard)}\n"
        "\t// All is all that grant something.\n"
        f"\tAll = {union(header.all)}\n)\n\n"
        f"var names = map[string]WasmFeatures{{\n{names}}}\n"
    )


# ------------------------------------------------------------------------------------------------- blocks of files
def with_block(path, lines):
    """The file with these lines between that of `BEGIN features` and that of `END features`."""
    text, count = re.subn(r"(?m)(^.*BEGIN features.*\n)(?:.*\n)*?(^.*END features)", lambda it: it[1] + lines + it[2], read(path))
    if count != 1:
        sys.exit(f"write_packages: {path} has {count} blocks of features in place of one")
    return text


def small(names):
    return [it.lower() for it in names]


def man_block(header):
    rows = [".TP"]
    for name, _, said in header.features:
        text = alone(said)
        # the name of an operator stays as it is
        begun = text if re.match(r"try\b|[a-z]+\.", text) else f"{text[0].upper()}{text[1:]}"
        text = f"{begun}." if name not in header.standard else f"By default: {text}."
        rows += [f".B {name.lower()}", text, ".TP"]
    return "".join(f"{it}\n" for it in rows[:-1])


def shell_block(header, opening, closing):
    rows = textwrap.wrap(" ".join(small(name for name, _, _ in header.features)), 120)
    return f"{opening}\n" + "".join(f"    {it}\n" for it in rows) + f"{closing}\n"


def with_version(path, pattern, version):
    """The file with this version where the pattern has its second group."""
    text, count = re.subn(pattern, lambda it: it[1] + version, read(path))
    if not count:
        sys.exit(f"write_packages: {path} has no version")
    return text


def made(header):
    """Each file by its path, as it has to be."""
    files = {
        "packaging/python/src/ruthvelka/_features.py": python_table(header),
        "packaging/rust/ruthvelka/src/features.rs": rust_table(header),
        "packaging/go/features.go": go_table(header),
        MAN: with_block(MAN, man_block(header)),
        COMPLETIONS[0]: with_block(COMPLETIONS[0], shell_block(header, "_wasm_check_features='", "'")),
        COMPLETIONS[1]: with_block(COMPLETIONS[1], shell_block(header, "features=(", ")")),
        COMPLETIONS[2]: with_block(COMPLETIONS[2], shell_block(header, "set -l features (string split -n ' ' -- (string replace -a \\n ' ' '", "'))")),
    }
    for crate in ("ruthvelka", "ruthvelka-sys"):
        path = f"packaging/rust/{crate}/Cargo.toml"
        files[path] = with_version(path, r'(?m)^(version = ")[\d.]+(?=")', header.version)
    path = "packaging/rust/ruthvelka/Cargo.toml"
    files[path] = re.sub(r'(ruthvelka-sys = \{ version = "=)[\d.]+', lambda it: it[1] + header.version, files[path])
    return files


# ------------------------------------------------------------------------------------------------- checks
def help_features():
    """The features that the help lists: those of `default`, and those that only `all` has."""
    text = read(HELP)
    parts = re.findall(r"(?m)^Features that (?:only )?`(\w+)` has:\n((?:  .*\n)+)", text)
    return {name: rows.upper().split() for name, rows in parts}


def help_options():
    return re.findall(r"(?m)^ +(?:-\w, +)?(--[a-z-]+)", read(HELP))


def checks(header):
    """Each check by its name, with what is wrong, or nothing."""
    for path, text in made(header).items():
        is_there = os.path.isfile(f"{TOP}/{path}")
        yield f"{path} is as {HEADER} has it", "" if is_there and read(path) == text else "run tools/write_packages.py"
    listed = help_features()
    yield f"the default features of {HELP}", "" if listed.get("default") == header.standard else f"{listed.get('default')}"
    others = sorted(it for it in header.all if it not in header.standard)
    yield f"the features that only `all` has, of {HELP}", "" if sorted(listed.get("all", [])) == others else f"{listed.get('all')}"
    for path in (MAN, *COMPLETIONS):
        text = read(path).replace("\\-", "-")
        # fish names a long option without its dashes
        lacks = [it for it in help_options() if it not in text and f"-l {it[2:]} " not in text]
        yield f"the options of {path}", f"it lacks {' '.join(lacks)}" if lacks or not help_options() else ""


def check(header):
    passed = failed = 0
    for name, problem in checks(header):
        print(f"FAILED: {name}: {problem}" if problem else f"ok: {name}")
        passed, failed = passed + (not problem), failed + bool(problem)
    print(f"{passed} passed, {failed} failed")
    return 1 if failed or not passed else 0


def write(header):
    for path, text in made(header).items():
        if not os.path.isfile(f"{TOP}/{path}") or read(path) != text:
            with open(f"{TOP}/{path}", "w", encoding="utf-8") as it:
                it.write(text)
            print(f"wrote {path}")
    return 0


def main(words):
    if words not in ([], ["--check"]):
        print(__doc__, file=sys.stderr)
        return 2
    header = Header()
    return check(header) if words else write(header)


if __name__ == "__main__":
    sys.exit(main(sys.argv[1:]))
