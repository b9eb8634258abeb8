#!/usr/bin/env python3
"""check_crates.py: checks the graph of crates.txt, and the sizes of crates, in a second. bin/test calls it first.

`rt` follows each walk down from a crate through the graph before it checks that crate, so each crate may have at most 3,900 walks,
`wasm_validator_tables` and `ruthvelka_c` 4,900 and 8,800, and `test_all`, which runs the rows and the examples, 8,900. A crate names the layers it uses and passes on what is below
them, by `pub use` lines of its specs/Lib.antt and proofs/Lib.antt and by `pub mod` blocks at the end of its src/lib.rt; each such line must
be used by a crate above, or be in FOR_USERS. A crate of laws (wasm_laws_..) passes on no code."""
import os
import re
import sys

ROOT = os.path.dirname(os.path.dirname(os.path.abspath(__file__)))
MOST_WALKS, MOST_CRATES, MOST_LINES, MOST_FUNCTIONS = 3_900, 77, 1_500, 110
ALL, MOST_WALKS_OF_ALL = "test_all", 8_900
# The side table of a function stands over the validator and over side tables, and the C library over it and over handles.
MORE_WALKS = {"wasm_validator_tables": 4_900, "ruthvelka_c": 8_800}
# What is passed on for users alone: the condition of `FuncValidator::op`, which their contracts name.
FOR_USERS = {("wasm_validator_func", "specs/StackSteps")}
LAYERS = ("wasm_spec", "wasm_readers", "wasm_operators", "wasm_typing", "wasm_items", "wasm_parser", "wasm_validat", "wasm_check", "wasm_laws_", "rows_", "test_all", "examples", "ruthvelka_c")


def read(path):
    with open(path, encoding="utf-8") as it:
        return it.read()


def read_graph():
    """The crates of crates.txt, each with those that it names, of the repository and of the kit."""
    rows = (row.split("#")[0].partition(":") for row in read(f"{ROOT}/crates.txt").split("\n"))
    return {head.split()[0]: words.split() for head, colon, words in rows if colon}


def count_walks(graph):
    """How many walks lead down from each crate, the empty one among them."""
    counts = {}

    def count(name):
        if name not in counts:
            counts[name] = 1 + sum(count(it) for it in graph[name])
        return counts[name]

    for name in graph:
        count(name)
    return counts


def read_sources(name):
    """The text of each file of a crate's src, specs and proofs, by its path in the crate."""
    texts = {}
    for part in ("src", "specs", "proofs"):
        for top, _, files in os.walk(f"{ROOT}/crates/{name}/{part}"):
            texts.update({os.path.relpath(f"{top}/{it}", f"{ROOT}/crates/{name}"): read(f"{top}/{it}") for it in files if it.endswith((".rt", ".antt"))})
    return texts


def passed_on(name, texts):
    """What a crate passes on of others, each with what a crate above writes that names it."""
    found = []
    camel = "".join(it.capitalize() for it in name.split("_"))
    for part in ("specs", "proofs"):
        for row in texts.get(f"{part}/Lib.antt", "").split("\n"):
            use = re.match(r"pub use Rattle\.([\w.]+)(?: as (\w+))?$", row)
            if use:
                what = use[2] or use[1].rsplit(".", 1)[1]
                found.append((f"{part}/{what}", rf"(?:Rattle\.{name}\.{part}|.*\.{part}\.(?:\w+\.)*{camel})\.{what}\b"))
    return found + [(f"code/{it}", rf"{name}::{it}$") for it in re.findall(r"(?m)^pub mod (\w+) \{$", texts.get("src/lib.rt", ""))]


def main():
    words_of = read_graph()
    graph = {name: [it for it in words if it in words_of] for name, words in words_of.items()}
    sources = {name: read_sources(name) for name in graph}
    walks, wrong = count_walks(graph), []
    most = {ALL: MOST_WALKS_OF_ALL, **MORE_WALKS}
    wrong += [f"{name}: {count} walks lead down from it, more than {most.get(name, MOST_WALKS)}" for name, count in walks.items() if count > most.get(name, MOST_WALKS)]
    if len(graph) > MOST_CRATES:
        wrong.append(f"{len(graph)} crates, more than {MOST_CRATES}")
    whole = {name: "\n".join(texts.values()) for name, texts in sources.items()}
    paths = {name: set(re.findall(r"\bRattle\.[\w.]+|\b\w+::\w+", text)) for name, text in whole.items()}
    for name, text in whole.items():
        # whole blocks may be passed on in a list of items
        paths[name].update(f"{it[1]}::{word}" for it in re.finditer(r"\buse (\w+)::\{([^{}]*)\}", text) for word in re.findall(r"\w+", it[2]))
    # each path, with the crates that write it
    writers = {}
    for name, its in paths.items():
        for it in its:
            writers.setdefault(it, set()).add(name)
    count_passed = 0
    for name, texts in sources.items():
        code = [text for path, text in texts.items() if path.startswith("src/")]
        lines, functions = sum(it.count("\n") for it in code), sum(len(re.findall(r"\bfn [a-z_0-9]+", it)) for it in code)
        if not name.startswith(LAYERS):
            wrong.append(f"{name}: its name begins with no layer's")
        if lines > MOST_LINES or functions > MOST_FUNCTIONS:
            wrong.append(f"{name}: {lines} lines and {functions} functions, more than {MOST_LINES} or {MOST_FUNCTIONS}")
        for it in words_of[name]:
            is_named = re.search(rf"\b(?:{it}::|Rattle\.{it}\.)", whole[name])
            if not is_named:
                wrong.append(f"{name}: it names {it}, and no file of it does")
        passed = passed_on(name, texts)
        count_passed += len(passed)
        if name.startswith("wasm_laws_") and any(it.startswith("code/") for it, _ in passed):
            wrong.append(f"{name}: a crate of laws passes on code")
        for it, named in passed:
            if (name, it) not in FOR_USERS and not any(re.match(named, path) for path, by in writers.items() if by != {name}):
                wrong.append(f"{name}: it passes on {it}, which no other crate names")
    worst = max(walks, key=walks.get)
    print(f"{len(graph)} crates, {sum(map(len, graph.values()))} edges, {count_passed} lines that pass on; {walks[worst]} walks at most, from {worst}")
    for it in wrong:
        print(f"check_crates: {it}", file=sys.stderr)
    return 1 if wrong else 0


if __name__ == "__main__":
    sys.exit(main())
