#!/usr/bin/env python3
"""write_docs.py: writes what documents take from the sources, and checks what they say of them.

usage: tools/write_docs.py               writes docs/API.md, docs/api/, docs/LIMITS.md, docs/SPECIFICATION.md, and what documents quote
       tools/write_docs.py --check       writes nothing: says what isn't current, and what a document says that the sources don't
       tools/write_docs.py --selftest    puts false sentences into a copy of the documents, each of which a check must refuse
       tools/write_docs.py --check --selftest    does both; the last lines say of each whether it passed

docs_api.py makes the pages on the public items, docs_limits.py the page on limits, docs_specification.py that on definitions, docs_checks.py has the
checks, and docs_plants.py the false sentences. A quote is a block of code in a document after a line `<!-- from PATH: NAME -->`: it becomes the function or definition NAME as PATH
has it. The status is 1 where a page isn't current, a document is wrong, or a false sentence is let through; bin/test calls it with --check."""
import os
import re
import sys

sys.dont_write_bytecode = True
from docs_api import Pages, write_api
from docs_checks import CHECKS
from docs_files import warnings
from docs_limits import write_limits
from docs_plants import PLANTS
from docs_specification import PAGE, write_specification
from docs_sources import ROOT, Library, Tree, quoted
from docs_texts import documents


def with_quotes(tree, path):
    return re.sub(
        r"(<!-- from (\S+): (\w+) -->\n+```\w*\n).*?(\n```)",
        lambda it: f"{it[1]}{quoted(tree, it[2], it[3])}{it[4]}",
        tree.read(path),
        flags=re.S,
    )


class Made:
    """What is made of the sources alone: each page by its path, and what is to be said of them."""

    def __init__(self, tree):
        library = Library.of(tree)
        items = Pages(library)
        self.pages = {**write_api(items), "docs/LIMITS.md": write_limits(tree, library), PAGE: write_specification(tree)}
        self.warnings = items.unnamed()


def out_of_date(tree, pages):
    """What isn't as it would be written now."""
    wanted = {**pages, **{path: with_quotes(tree, path) for path in documents(tree) if path not in pages}}
    wrong = [path for path, text in wanted.items() if not tree.has(path) or tree.read(path) != text]
    left = [path for path in tree.files("docs/api") if path not in pages]
    return {path: wanted[path] for path in wrong}, left


def find_wrong(tree, pages, names=("current", *CHECKS)):
    """Each wrong thing of the documents that these checks find: the check that says so, and what it says."""
    wrong, left = out_of_date(tree, pages) if "current" in names else ([], [])
    found = [("current", f"{path}: it differs from the sources: run tools/write_docs.py") for path in wrong]
    found += [("current", f"{path}: no page of this name is made") for path in left]
    return found + [(name, text) for name, check in CHECKS.items() if name in names for text in check(tree)]


def write(tree, made):
    wrong, left = out_of_date(tree, made.pages)
    os.makedirs(f"{ROOT}/docs/api", exist_ok=True)
    for path, text in wrong.items():
        with open(f"{ROOT}/{path}", "w", encoding="utf-8") as it:
            it.write(text)
        print(f"wrote {path}")
    for path in left:
        print(f"write_docs: {path} is no page of these: remove it", file=sys.stderr)
    return 1 if left else 0


def check(tree, made, found):
    for name, text in found:
        print(f"write_docs: {text} [{name}]", file=sys.stderr)
    for text in [*warnings(tree), *made.warnings]:
        print(f"write_docs: warning: {text}", file=sys.stderr)
    if not found:
        print(f"write_docs: {len(documents(tree))} documents say what the sources say, by {len(CHECKS) + 1} checks")
    return 1 if found else 0


def selftest(tree, made, found):
    """Each false sentence must be refused by the check that it is for, which must have refused nothing of the kind before."""
    before, missed = set(found), 0
    for what, path, old, new, name in PLANTS:
        old, new = (old, new) if old else (r"\A#.*\n", lambda it, new=new: f"{it[0]}\n{new}\n")
        text = re.sub(old, new, tree.read(path), count=1, flags=re.M)
        if text == tree.read(path):
            print(f"BAD PLANT {what}: {path} has nothing like {old}")
            missed += 1
            continue
        said = [text for by, text in find_wrong(Tree({path: text}), made.pages, (name,)) if (by, text) not in before]
        print(f"refused  {what} [{name}]: {said[0]}" if said else f"LET THROUGH {what}: the check {name} says nothing")
        missed += not said
    print(f"{len(PLANTS) - missed} false sentences refused, {missed} not")
    for name in sorted(set(CHECKS) - {it[4] for it in PLANTS}):
        print(f"no false sentence is for the check {name}")
        missed += 1
    return 1 if missed else 0


TASKS = {"--check": check, "--selftest": selftest}


def main(words):
    if len(set(words)) < len(words) or set(words) - set(TASKS):
        sys.exit(__doc__)
    tree = Tree()
    made = Made(tree)
    if not words:
        return write(tree, made)
    found = find_wrong(tree, made.pages)
    passed = {word: not TASKS[word](tree, made, found) for word in words}
    for word, is_well in passed.items():
        print(f"{word}: {'passed' if is_well else 'failed'}", flush=True)
    return 0 if all(passed.values()) else 1


if __name__ == "__main__":
    sys.exit(main(sys.argv[1:]))
