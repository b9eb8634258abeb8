"""What documents say in code and numbers: the code that README shows, counts of rows, crates and lines, limits, features, versions and kits."""
import re

from docs_code import FOREIGN, Code
from docs_specification import Specification
from docs_texts import by_hand, present, ticked

FLAGS = "crates/wasm_readers_features/src/features.rt"
ROWS = "crates/test_all/data"
WORDS = {word: at for at, word in enumerate("zero one two three four five six seven eight nine ten eleven twelve".split())}
DIGITS = r"(\d[\d,]*)"
NUMBER = r"(\d[\d,]*|%s)" % "|".join(WORDS)


class Block:
    """A block of code of a document, fenced or indented: its first line, its language, the paragraph above it, and its rows."""

    def __init__(self, at, language, above):
        self.at, self.language, self.above, self.rows = at, language, above, []


def blocks_of(tree, path):
    found, block, above, is_fenced = [], None, "", False
    for at, row in enumerate(tree.read(path).split("\n"), 1):
        if row.startswith("```"):
            is_fenced = not is_fenced
            block = Block(at + 1, row[3:], above) if is_fenced else None
            found += [block] if block else []
        elif is_fenced:
            block.rows.append(row)
        elif row.startswith("    "):
            block = block or Block(at, "", above)
            block.rows.append(row[4:])
            found += [block] if block not in found else []
        else:
            block, is_new = None, above.endswith("\n")
            above = f"{'' if is_new else above} {row}" if row.strip() else above.rstrip("\n") + "\n"
    return found


def count_below(tree, name):
    """How many crates of the repository `bin/vendor` copies for this one: it and all below it."""
    rows = (row.split("#")[0].partition(":") for row in tree.read("crates.txt").split("\n"))
    graph, found, left = {head.split()[0]: words.split() for head, colon, words in rows if colon}, set(), [name]
    while left:
        crate = left.pop()
        left += [] if crate in found else graph.get(crate, [])
        found |= {crate} & graph.keys()
    return len(found)


def check_code(tree):
    """What README shows: code from a source that it names is there, part by part; what other code calls is a call of some crate; each line of
    `wasm-validate` and of an example that it shows is one that a test expects, the file's name aside; and `bin/vendor` adds as many crates."""
    code = Code.of(tree)
    calls = {it.split("::")[-1] for its in code.functions.values() for it in its}
    tests = [*tree.files("crates", "tests", ending="stdout"), *tree.files("crates/test_programs/src", "crates/examples/src"), *(it for it in tree.files("tools") if "/try_" in it)]
    expected = "\n".join(map(tree.read, tests))
    for block in blocks_of(tree, "README.md"):
        at, language, above, rows = block.at, block.language, block.above, block.rows
        sources = [it for it in re.findall(r"`(crates/[\w/]+\.rt)`", above) if tree.has(it)]
        if language == "rust" and sources:
            for part in "\n".join(rows).split("\n\n"):
                if f"\n{part}\n" not in f"\n{tree.read(sources[-1])}\n":
                    yield f"README.md:{at}: {sources[-1]} has nothing like: {part.splitlines()[0]}"
        for name in re.findall(r"(?:\.|::)([a-z]\w+)\(", "\n".join(rows)) if language == "rust" and not sources else []:
            if name not in calls and f".{name}(" not in expected:
                yield f"README.md:{at}: no crate has the call {name}"
        for row in rows if language != "rust" else []:
            printed = re.search(r"(?:^|: )((?:ok types|refused at|turned away|let in).*)", row)
            if printed and "MESSAGE" not in row and printed[1] not in expected:
                yield f"README.md:{at}: no test expects the line: {row}"
            vendored = re.match(r"vendor: .*?(\d+) crates added.* (\d+) lines of crates.txt added", row)
            if vendored and {*vendored.groups()} != {str(count_below(tree, "wasm_validator"))}:
                yield f"README.md:{at}: bin/vendor adds {count_below(tree, 'wasm_validator')} crates and lines: {row}"


def count_rows(tree, folder):
    return sum(bool(row.strip()) and not row.startswith("#") for path in tree.files(f"{ROWS}/{folder}", ending=".rows") for row in tree.read(path).split("\n"))


def count_lines(tree, *paths):
    return sum(tree.read(it).count("\n") for it in paths)


def specs(tree, *crates):
    return [it for crate in crates for it in tree.files(f"crates/{crate}/specs", ending=".antt")]


def constant(tree, path, name):
    return int(re.search(rf"\b{name}\b[^=\n]*= ([\d_]+)", tree.read(path))[1].replace("_", ""))


def tuple_constant(tree, name):
    """A constant of tools/check_crates.py, which gives several at once: `A, B = 1, 2`."""
    row = re.search(rf"(?m)^([A-Z_, ]*\b{name}\b[A-Z_, ]*) = (.*)$", tree.read("tools/check_crates.py"))
    return int(row[2].split(", ")[row[1].split(", ").index(name)].replace("_", ""))


def walks_of(tree, name):
    """How many walks tools/check_crates.py lets lead down from a crate that may have more than the others."""
    return int(re.search(rf'"{name}": ([\d_]+)', tree.read("tools/check_crates.py"))[1].replace("_", ""))


def counts(tree):
    """Each number that documents say of the sources: how they say it, and the number. A number behind `some` or `over` may be a twentieth more or less."""
    flags = len(flags_of(tree))
    edits = {kind: len([it for it in tree.files("crates", ending=".edit") if f"/{kind}/" in it]) for kind in ("must-fail", "mutants")}
    rows = [count_rows(tree, "modules"), count_rows(tree, "bodies")]
    by_hand_calls = sum(int(it) for it in re.findall(r"(?m)^(\d+) (?:calls|tests) by hand$", "\n".join(map(tree.read, tree.files("crates", "tests", ending="stdout")))))
    limits, spec = "crates/wasm_validator_core/src/limits.rt", "crates/wasm_spec_instructions/specs"
    rules = [f"{spec}/{it}.antt" for it in ("Code", "ValueTypes", "Scopes", "Rules", "Sequences", "Expressions")]
    bodies = [f"crates/wasm_laws_soundness/specs/{it}.antt" for it in ("BodiesByRules", "ModulesByRules")]
    defined = specs(tree, "wasm_spec", "wasm_spec_rules", "wasm_spec_steps", "wasm_spec_instructions", "wasm_spec_validity")
    defined += specs(tree, "wasm_operators_plain", "wasm_operators_vector", "wasm_operators_atomic", "wasm_operators")
    ids = constant(tree, "crates/wasm_readers_values/src/indices.rt", "MAX_IDS")
    return [
        (rf"{DIGITS} rows", {*rows, sum(rows)}),
        (rf"{DIGITS} (?:rows )?of modules,", {rows[0]}),
        (rf"{DIGITS} (?:rows )?of bodies", {rows[1]}),
        (rf"{DIGITS} wrong bodies", {sum(edits.values())}),
        (rf"of which {NUMBER} are in `must-fail/`", {edits["must-fail"]}),
        (rf"{DIGITS} (?:of the |other )?crates\b", {len(tree.crates()), tuple_constant(tree, "MOST_CRATES")}),
        (rf"{DIGITS} (?:tests|calls) by hand", {by_hand_calls}),
        (rf"{DIGITS} (?:features|flags|proposals)\b", {flags}),
        (rf"more than {DIGITS} (?:walks|of them)|at {DIGITS} at most", {tuple_constant(tree, "MOST_WALKS")}),
        (rf"`test_all`(?: no more than)? {DIGITS}", {tuple_constant(tree, "MOST_WALKS_OF_ALL")}),
        (rf"`wasm_validator_tables` {DIGITS}|may have {DIGITS} walks", {walks_of(tree, "wasm_validator_tables")}),
        (rf"`ruthvelka_c`(?: over it)? {DIGITS}", {walks_of(tree, "ruthvelka_c")}),
        (rf"functions and {DIGITS} lines", {tuple_constant(tree, "MOST_LINES")}),
        (rf"{DIGITS} lines in `c/`", {count_lines(tree, *(it for it in tree.files("c", ending=".c") if it.count("/") == 1))}),
        (rf"{DIGITS} lines of \[?definitions", {Specification.of(tree).theorem}),
        (rf"{DIGITS} lines, with laws and examples", {count_lines(tree, *defined)}),
        (rf"`Expressions` \({DIGITS} lines\)", {count_lines(tree, *rules)}),
        (rf"`ModulesByRules` of `wasm_laws_soundness` \({DIGITS} lines\)", {count_lines(tree, *bodies)}),
        (rf"rules of the standard's chapter, some {DIGITS} lines", {count_lines(tree, *rules, *bodies)}),
        (rf"locals \({DIGITS}\)|locals are at most {DIGITS}|than {DIGITS} locals", {constant(tree, "crates/wasm_typing_stacks/src/locals.rt", "MAX_LOCALS")}),
        (rf"items of a segment \({DIGITS}\)|at most {DIGITS} items", {constant(tree, "crates/wasm_validator_segments/src/lists.rt", "MAX_ITEMS")}),
        (rf"ancestors of a type \({DIGITS}\)|at most {DIGITS} (?:proper )?ancestors", {constant(tree, "crates/wasm_validator_type_checks/src/subtypes.rt", "MAX_WASM_SUBTYPING_DEPTH")}),
        (rf"module's type \(below {DIGITS}\)", {constant(tree, "crates/wasm_validator_checks/src/entities.rt", "MAX_EFFECTIVE_SIZE")}),
        (rf"validator's list of {DIGITS}|ids for all types, of which there are {DIGITS}|{DIGITS} (?:types|ids) in all", {ids}),
        (rf"{DIGITS} (?:functions|types) of a module at most", {constant(tree, limits, "MAX_FUNCTIONS")}),
    ]


def check_counts(tree):
    """Numbers of rows, crates, wrong bodies, lines and features, and limits, are those of the sources; and the tests print as many rows."""
    printed = re.findall(r"(?m)^(\d+) rows", tree.read("crates/test_all/stdout"))
    if printed[:2] != [str(count_rows(tree, "modules")), str(count_rows(tree, "bodies"))]:
        yield f"crates/test_all/stdout: it says {' and '.join(printed)} rows, and there are {count_rows(tree, 'modules')} and {count_rows(tree, 'bodies')}"
    table = counts(tree)
    for path in by_hand(tree):
        for at, text in present(tree, path):
            for pattern, values in table if re.search(r"\d|must-fail", text) else []:
                for found in re.finditer(rf"(?<![\w,.])(?:{pattern})", text):
                    word = next(it for it in found.groups() if it)
                    number = WORDS[word] if word in WORDS else int(word.replace(",", ""))
                    before = text[: found.start()]
                    loose = re.search(r"\b(?:some|about|over|more than|almost) $", before)
                    if number not in values and not (loose and any(abs(number - it) * 20 <= it for it in values)):
                        yield f"{path}:{at}: {found[0].strip()}: there are {' or '.join(f'{it:,}' for it in sorted(values))}"


def flags_of(tree):
    """Each feature by its name, with its bit."""
    return {name: int(bit) for name, bit in re.findall(r"(?m)^        const (\w+) = (\d+);", tree.read(FLAGS))}


def check_features(tree):
    """Names in capitals are features or constants; lists and tables of all features have each; the C header has the same bits; and the text of
    `STANDARD` names just the features that it hasn't."""
    flags, code = flags_of(tree), Code.of(tree)
    text = tree.read(FLAGS)
    listed = re.findall(r"(?m)^/// - `(\w+)`:", text)
    if sorted(listed) != sorted(flags):
        yield f"{FLAGS}: the text of WasmFeatures lists not each feature once"
    standard = int(re.search(r"STANDARD: WasmFeatures = WasmFeatures\((\d+)\)", text)[1])
    said = set(re.findall(r"`(\w+)`", re.search(r"((?:    ///.*\n)+)    pub const STANDARD", text)[1]))
    if said != {it for it, bit in flags.items() if not standard & bit}:
        yield f"{FLAGS}: the text of STANDARD names other features than those that it hasn't"
    header = {name: 1 << int(bit) for name, bit in re.findall(r"#define RUTHVELKA_(\w+) \(UINT64_C\(1\) << (\d+)\)", tree.read("include/ruthvelka.h"))}
    if header != flags:
        yield f"include/ruthvelka.h: its features aren't those of {FLAGS}: {' '.join(sorted({name for name, _ in set(header.items()) ^ set(flags.items())}))}"
    if f"RUTHVELKA_STANDARD UINT64_C({standard})" not in tree.read("include/ruthvelka.h"):
        yield "include/ruthvelka.h: STANDARD has another value"
    constants = {it for it in code.names if it.isupper()}
    for path in by_hand(tree):
        table = []
        for at, text in present(tree, path):
            for word in ticked(text):
                for name in re.findall(r"(?<![\w/])(?:WasmFeatures::)?([A-Z][A-Z0-9]*_?[A-Z0-9_]+)(?![\w.])", word):
                    is_known = name in {*flags, "STANDARD"} if f"WasmFeatures::{name}" in word else name in constants | FOREIGN
                    if not is_known and not (path.endswith("DIFFERENCES.md") and text.startswith("|")):
                        yield f"{path}:{at}: there is no feature or constant {name}"
            first = ticked(text.split("|")[1]) if text.startswith("|") else []
            if text.startswith("|"):
                table += [it.upper() for it in first if it.upper() in flags]
            elif table:
                yield from incomplete(path, at, table, flags)
                table = []
        yield from incomplete(path, 0, table, flags)


def incomplete(path, at, table, flags):
    """A table with a row for most features has one for each."""
    if len(set(table)) * 2 > len(flags) and set(table) != set(flags):
        yield f"{path}:{at}: the table of features above has no row for {' '.join(sorted(set(flags) - set(table)))}"


def check_versions(tree):
    """The version is one in all places, and the kits that README names are those that were measured."""
    version = re.search(r"(?m)^## (\d+\.\d+\.\d+)", tree.read("CHANGELOG.md"))[1]
    major, minor, patch = (int(it) for it in version.split("."))
    places = [
        ("README.md", r"version (\d+\.\d+\.\d+)", version),
        ("crates/wasm_check/src/words.rt", r"\.version\(\"([^\"]+)\"\)", version),
        ("bin/build-c", r"(?m)^Version: (\S+)", version),
        ("include/ruthvelka.h", r"#define RUTHVELKA_VERSION (\d+)", str(major * 1_000_000 + minor * 1_000 + patch)),
    ]
    for path, pattern, value in places:
        for found in re.findall(pattern, tree.read(path)):
            if found != value:
                yield f"{path}: it says version {found}, and CHANGELOG.md {version}"
    measured = set(re.findall(r"rattle-kit-\w+", tree.read("docs/MEASUREMENTS.md")))
    for path in by_hand(tree):
        for kit in sorted(set(re.findall(r"rattle-kit-\w+", tree.read(path))) - measured):
            yield f"{path}: docs/MEASUREMENTS.md has no run with {kit}"
