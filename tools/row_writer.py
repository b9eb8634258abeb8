"""What the tools that write rows have in common: each makes whole files of rows as texts, and this writes or compares them."""
import os
import re
import sys

# All that the tools write. bin/test calls these tools again where one of these files has changed, or what else they read.
WRITTEN = (
    "bodies/aggregates.rows", "bodies/atomics.rows", "bodies/control.rows", "bodies/features.rows", "bodies/legacy_exceptions.rows",
    "bodies/memories.rows", "bodies/numbers.rows", "bodies/references.rows", "bodies/tables.rows", "bodies/variables.rows", "bodies/vectors.rows",
    "modules/bodies.rows", "modules/compact_imports.rows", "modules/constants.rows", "modules/continuations.rows", "modules/descriptors.rows", "modules/fronts.rows", "modules/lists.rows", "modules/shared.rows", "modules/states.rows",
)
HEAD = "modules/modules.rows"
DATA = os.path.join(os.path.dirname(os.path.dirname(os.path.abspath(__file__))), "crates", "test_all", "data")


def head_of_modules():
    """The lines that describe the form of rows of modules: the head of modules.rows."""
    with open(os.path.join(DATA, HEAD), encoding="utf-8") as lines:
        return lines.read().split("\n\n")[0].splitlines()


def difference(kept, made):
    """The first line in which a file that is kept differs from the one that is made."""
    for number, (one, other) in enumerate(zip(kept.split("\n"), made.split("\n")), 1):
        if one != other:
            return f"line {number}: `{one[:200]}` in place of `{other[:200]}`"
    return f"it has {len(kept)} characters in place of {len(made)}" if kept != made else ""


def read(path):
    try:
        with open(path, encoding="utf-8", newline="") as it:
            return it.read()
    except OSError:
        return ""


def wanted_of(answer, title, named, said):
    """What a row wants by the Rust crate's answer, whose texts may differ: `said` has theirs and ours. They name types `$type` alone or not
    at all, where ours have them by number; `named` has the numbers, by what the title has."""
    if answer.verdict != "refused":
        return "ok" if answer.verdict == "ok" else None
    text = (answer.message or "").replace("unknown type:", "unknown type $index:")
    if "$" in text:
        found = next(it for it in ((re.search(has, title), ids) for has, ids in named) if it[0])
        for number in found[0].expand(found[1]).split():
            text = text.replace("$type", f"(id {number})", 1).replace("$index", number)
    for theirs, ours in said:
        match = re.fullmatch(theirs, text)
        text = match.expand(ours) if match else text
    return f"refused {answer.offset} {text}"


def write_cases(path, tool, cases, answers, named, said, words):
    """Writes the file of rows that a tool makes of these cases, as `main` does. A case is a line above others, or a title, features, a module, and what is
    wanted; where that is None, it is what the Rust crate answers, in the words of `named` and `said` (`wanted_of`)."""
    lines, lacking = head_of_modules() + ["#", f"# Written by tools/{tool}, which says where the wanted answers come from."], []
    for it in cases:
        if isinstance(it, str):
            lines += ["", "# " + it]
            continue
        title, features, module, wanted = it
        wanted = wanted or wanted_of(answers.of(module), title, named, said)
        if wanted is None:
            lacking.append(title)
            continue
        lines.append(" | ".join([title, features, "H " + module[8:].hex(), wanted]))
    return main({path: "\n".join(lines) + "\n"}, lacking, words)


def main(files, lacking, words):
    """Writes these files, each text under its path below DATA, or with `--check` compares them with those that are there, and prints for each whether it is
    the same byte for byte. `lacking` names the cases for which no answer is known: they have to name one."""
    passed = failed = 0
    for title in lacking:
        failed += 1
        print(f"FAILED: no answer is known, and the case names none: {title}")
    if words not in ([], ["--check"]):
        print("usage: [--check]", file=sys.stderr)
        return 2
    for path, text in files.items():
        if path not in WRITTEN:
            sys.exit(f"row_writer: WRITTEN lacks {path}")
        if not words:
            with open(os.path.join(DATA, path), "w", encoding="utf-8", newline="") as out:
                out.write(text)
        problem = difference(read(os.path.join(DATA, path)), text)
        passed, failed = passed + (not problem), failed + bool(problem)
        print(f"FAILED: {path}: {problem}" if problem else f"ok: {path}: {sum(1 for it in text.split(chr(10)) if it and it[0] != '#')} rows")
    print(f"{passed} passed, {failed} failed")
    return 1 if failed else 0
