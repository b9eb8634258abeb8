"""Writes docs/SPECIFICATION.md: the definitions that the theorem rests on, in reading order, and those that its other clauses do.

What a contract rests on is what its clauses and the types of its signature name, and what these name in turn, through all crates (spec_names.py,
spec_code.py). A file of the theorem has its chapter below; one that has none, or that nothing of the theorem is in any more, is an error."""
import re

from docs_code import bullets_of_definitions
from docs_sources import Tree, stop, wrap
from docs_texts import ticked
from spec_code import Code
from spec_names import Names, Specs, uses_of

PAGE = "docs/SPECIFICATION.md"
LIST = ("wasm_validator", "crates/wasm_validator/src/list.rt", "validate_list")
RULES = ("wasm_laws_soundness", "crates/wasm_laws_soundness/src/lib.rt", "modules_are_typed")
VALIDATOR = ("wasm_validator_modules", "crates/wasm_validator_modules/src/validator.rt")
SIGNATURE = "the types of its signature"
BINARY, MEMORY = "Binary Format, Instructions, Vector Instructions", "Threads, Binary Format, Instructions, Atomic Memory Instructions"
THREADS = "Threads, Validation, Instructions, Atomic Memory Instructions"

# Each chapter of the theorem: its title, what it is about, and its files in reading order. A file may have its section of the standard, where its
# first comment has none. The files of the algorithm have what only the algorithm needs.
CHAPTERS = [
    (
        "The binary grammar",
        "How types are written, how bytes are read, and how a module is divided into sections and their items.",
        "wasm_spec/Syntax wasm_spec_rules/Attempts wasm_spec/Values wasm_spec/BinaryTypes wasm_spec/BinaryModules wasm_spec/BinarySections "
        "wasm_spec/Framing wasm_spec_rules/Parts",
    ),
    (
        "Types and matching",
        "Which types are valid with which features, when two recursive types are equal, and which types match.",
        "wasm_spec/Features wasm_readers_features/ProposalFlags wasm_spec_rules/FeatureFlags wasm_spec/References wasm_spec/Trees wasm_spec/TypeLaws wasm_spec/Closing "
        "wasm_spec/SupertypeOrder wasm_spec/ValueTypes wasm_spec/Limits wasm_spec/CrateLimits wasm_spec/Defaults wasm_spec/Matching wasm_spec/GroupRules wasm_spec/LinkMatching "
        "wasm_spec/MatchingTests",
    ),
    (
        "Modules and items",
        "The rules of what a module has, apart from its expressions and bodies.",
        "wasm_spec_rules/Signatures wasm_spec_rules/IndexSpaces wasm_spec_rules/ItemRules wasm_spec_rules/LinkRules wasm_spec_rules/SegmentRules "
        "wasm_spec_rules/Limits wasm_spec_rules/Modules wasm_spec_rules/Contexts wasm_spec_rules/Worlds",
    ),
    (
        "Instructions: how they are written",
        "One instruction at the front of the bytes, by family.",
        "wasm_operators_plain/Immediates wasm_operators_plain/Opcodes wasm_operators_plain/Numeric wasm_operators_plain/Constants "
        "wasm_operators_plain/Variables wasm_operators_plain/Calls "
        "wasm_operators_plain/Tables wasm_operators_plain/Memories wasm_operators_plain/Structs wasm_operators_plain/Arrays "
        "wasm_operators_plain/Conversions wasm_operators_vector/Tables wasm_operators_vector/Codes wasm_operators_atomic/Codes wasm_operators_atomic/WideArithmetic "
        "wasm_operators_atomic/SharedCodes wasm_operators_proposals/Accesses wasm_operators_proposals/Continuations wasm_operators_vector/Forms "
        "wasm_operators_atomic/Forms wasm_operators_atomic/SharedForms wasm_operators/FormImmediates "
        "wasm_operators/Control wasm_operators/References wasm_operators/Legacy wasm_operators/Instructions wasm_spec_steps/Sequences",
    ),
    (
        "Instructions: the table",
        "What each instruction checks, takes and gives: once, for the rules and for the algorithm. `Kind`, what opened a frame, is in part 6.",
        "wasm_operators_plain/Signatures wasm_spec_steps/Actions wasm_spec_steps/Forms "
        "wasm_spec_steps/Shapes wasm_spec_steps/ConstantExpressions",
    ),
    (
        "Instructions: what the table's words mean",
        "What both the rules and the algorithm look up in a module.",
        "wasm_spec_steps/Bodies wasm_spec_steps/Matching wasm_spec_steps/Machine wasm_spec_steps/Meanings wasm_spec_steps/ConstantRules "
        "wasm_spec_steps/FunctionBodies",
    ),
    (
        "Instructions: the rules of the standard's chapter",
        "Typing rules of structured code, which read like the standard's.",
        "wasm_spec_instructions/Code wasm_spec_instructions/ValueTypes wasm_spec_instructions/Scopes wasm_spec_instructions/Rules "
        "wasm_spec_instructions/Sequences wasm_spec_instructions/Expressions",
    ),
    (
        "Instructions: the algorithm of the standard's appendix",
        "What only the algorithm needs: two stacks, and the step of each instruction.",
        "wasm_spec_steps/Actions wasm_spec_steps/Machine wasm_spec_steps/Meanings wasm_spec_steps/Steps wasm_spec_steps/ConstantRules "
        "wasm_spec_steps/FunctionBodies",
    ),
    (
        "Validity",
        "When a module is valid: by the algorithm, and by the rules.",
        "wasm_spec_validity/Expressions wasm_spec_validity/Typing wasm_spec_validity/Modules wasm_laws_soundness/BodiesByRules "
        "wasm_laws_soundness/ModulesByRules wasm_laws_soundness/TypingLaws",
    ),
    (
        "What the answers show",
        "The list of types and the index spaces that an accepted module's `Types` show, and what the answers on a list of modules say.",
        "wasm_readers_values/Indices wasm_readers_values/SeenValues wasm_readers_types/SeenTypes wasm_readers_types/Entities wasm_spec/TypeLists "
        "wasm_validator_type_groups/Groups wasm_validator_type_list/ListViews wasm_validator_type_ancestors/Supers wasm_validator_type_list/DeclarationsById "
        "wasm_validator_type_list/DefTypes wasm_validator_type_ancestors/GroupReferences wasm_validator_type_list/GroupOrder wasm_validator_canonical/Indices "
        "wasm_validator_canonical/Sections wasm_spec/TreeCode wasm_validator_canonical/ListPlaces wasm_validator_canonical/TypeTotals wasm_validator_checks/Sizes "
        "wasm_validator_types/Spaces wasm_validator_types/ShownModules wasm_laws_core/ModuleParts wasm_validator_states/ShownModules "
        "wasm_validator_sections/CodeProgress wasm_validator_sections/ModuleNotes wasm_validator_states/ValidatorStages wasm_validator/Lists "
        "wasm_validator/Headline",
    ),
]
ALGORITHM = "Instructions: the algorithm of the standard's appendix"
# What an earlier part may name of a later one: its text says so.
NAMED_BEFORE = {("wasm_spec_steps", "Kind")}
SECTIONS = {
    "wasm_operators_atomic/Codes": MEMORY,
    "wasm_operators_atomic/Forms": THREADS,
    "wasm_operators_atomic/SharedCodes": "Shared-Everything Threads, Binary Format",
    "wasm_operators_atomic/SharedForms": "Shared-Everything Threads, Validation",
    "wasm_operators_proposals/Accesses": "Shared-Everything Threads, Binary Format",
    "wasm_operators_proposals/Continuations": "the stack-switching proposal, Binary Format",
    "wasm_operators_plain/Opcodes": "Binary Format, Instructions",
    "wasm_operators_vector/Tables": BINARY,
    "wasm_operators/Legacy": "the legacy exception-handling proposal, Binary Format",
    "wasm_spec_steps/Actions": "Appendix, Validation Algorithm",
    "wasm_spec_rules/LinkRules": "Validation, Modules, Imports, Exports and Start Function",
    "wasm_laws_soundness/TypingLaws": "Validation, Modules",
}


class Statement:
    """What contracts rest on, part by part: each part has what those before it haven't. A statement of sources of which some are replaced takes from
    that of the sources as they are, `first`, what items use in files that stand and name what stands."""

    def __init__(self, tree, first=None):
        self.tree, self.specs = tree, Specs(tree)
        self.first = first if first and self.specs.has_names_of(first.specs) else None
        self.code = Code(tree, self.specs)
        self.names, self.uses, self.kit, self.kit_of_theorem, self.functions = {}, {}, set(), [], []
        self.contracts, self.parts, seen = {}, [], {}
        for title, about, roots, is_meant in self.roots():
            found = self.closure(roots, is_meant, seen)
            self.parts.append((title, about, found))
            self.kit_of_theorem = self.kit_of_theorem or sorted(self.kit)
            seen.update(found)

    def roots(self):
        """The parts of the statement: a title, a text, and what they begin with."""
        of_list, of_rules = self.clauses(*LIST), self.clauses(*RULES)
        names = re.findall(r"(?m)^    pub fn (\w+)", self.tree.read(VALIDATOR[1]))
        told = [it for name in names for it in self.clauses(*VALIDATOR, name, wanted="told").get("told", [])]
        theorem = [*of_list[SIGNATURE], *of_list["requires"], *of_list["headline"], *(it for its in of_rules.values() for it in its)]
        others = [it for name, its in of_list.items() if name not in ("requires", "headline", SIGNATURE) for it in its]
        return [
            ("The theorem", "", theorem, False),
            ("The other clauses of `validate_list`", OTHERS, others, False),
            ("Which fault is reported", TOLD, told, False),
            ("What values of the code stand for", MEANT, [*theorem, *others, *told], True),
        ]

    def clauses(self, crate, path, name, wanted=None):
        head, found, at = self.code.contract(crate, path, name)
        if wanted is None or wanted in found:
            self.functions.append((crate, path, name, at, [it for it in found if it != SIGNATURE] if wanted is None else [wanted]))
        self.contracts[name] = head
        return found

    def used(self, found, is_meant):
        """What an item or a type uses. Of a type that is `is_meant` also what is said of its values."""
        kind, it = found
        key = (kind, it.key, is_meant)
        if key not in self.uses:
            if kind == "item" and self.first and key in self.first.uses and self.specs.has_file_of(self.first.specs, it):
                self.uses[key] = [self.specs.here(found) for found in self.first.uses[key]]
            elif kind == "item":
                names = self.names.setdefault(it.module.path, Names(self.specs, it.module))
                self.uses[key] = uses_of(names, it)[0]
            else:
                self.uses[key] = self.code.uses_of(it, it.seen + (it.meant if is_meant else []))[0]
        return self.uses[key]

    def closure(self, roots, is_meant=False, without=()):
        """All that some items and types rest on, by kind and key, but for what is known already."""
        left, seen, known = list(roots), {}, set()
        while left:
            found = left.pop()
            if found[0] == "kit":
                self.kit.add(found[1])
            elif found[0] == "rust":
                left.append(("code", self.code.declared(found[1], found[2])))
            elif found[0] != "module" and (found[0], found[1].key) not in known:
                known.add((found[0], found[1].key))
                if (found[0], found[1].key) not in without:
                    seen[found[0], found[1].key] = found[1]
                left += self.used(found, is_meant)
        return seen

    def items(self, part):
        return [it for (kind, _), it in self.parts[part][2].items() if kind == "item"]

    def types(self, *parts):
        """The types and constants of these parts, from the lowest crate."""
        found = [it for part in parts for (kind, _), it in self.parts[part][2].items() if kind == "code" and not it.is_inside]
        return sorted(found, key=lambda it: (self.tree.crates().index(it.crate), it.path, it.at))


OTHERS = (
    "What `decided` and `types` say beyond the theorem: of each module alone what is left of the validator and which body is the first that isn't valid, and "
    "that all ids are ids of the list."
)
TOLD = (
    "What the clauses `told` of the methods of `Validator` say: of calls out of order, and of sections of types, imports, functions, memories, tags and "
    "exports the fault, its offset and the missing proposal (of malformed items less: docs/THEOREM.md)."
)
MEANT = (
    "Contracts see a type with an `impl Model` by its `Value`. Here are the `view` that gives this value, the `invariant` that is proved of each value, and "
    "the ghost fields of types. No claim above rests on them: they say what the words above mean in the code."
)


class Counter:
    """Rows of definitions: each row counts once, and the header of a `module _` with the first item in it that is listed."""

    def __init__(self):
        self.counted = set()

    def of(self, item):
        rows = {(item.module.path, row) for row in item.rows()}
        rows |= {(item.module.path, row) for section in item.sections for row in section.rows()}
        rows |= {(item.module.path, it.row) for it in item.module.fixities.get(item.name, [])}
        new = rows - self.counted
        self.counted |= new
        return len(new)


def sections_named(tree):
    """The section of the standard that docs/DEFINITIONS.md gives for a definition, by crate and name."""
    found = {}
    for _, crates, text in bullets_of_definitions(tree):
        names = []
        for part in re.split(r"(\([^()]*(?:\([^()]*\)[^()]*)*\))", text):
            if not part.startswith("("):
                names += ticked(part)
                continue
            section = re.sub(r"\s+", " ", part[1:-1]).partition("; ")[2]
            found.update({(crate, name): section for crate in crates for name in names if section})
            names = []
    return found


def section_of_file(module):
    """The section of the standard that the first comment of a file names."""
    known = SECTIONS.get(f"{module.crate}/{module.name}")
    if known:
        return known
    text = ""
    for row in module.lines:
        if not row.startswith("--"):
            break
        text += f"{row[2:]} "
    found = re.search(r"Core Specification 3\.0[,:]? (?:\(([^)]*)\)|([A-Z][^.:;]*))", re.sub(r"\s+", " ", text))
    section = (found[1] or found[2]) if found else ""
    return re.split(r",? (?:with|and proposals|and the proposals|has|lists) ", section)[0].strip(" ,")


def rows_of_file(counter, module, items, sections):
    """The heading of a file and its table, and how many lines its definitions have."""
    section, rows, total = section_of_file(module), [], 0
    for item in sorted(items, key=lambda it: it.first()):
        count = counter.of(item)
        total += count
        own = sections.get((module.crate, item.name), "")
        rows.append(f"| [`{item.name}`](../{module.path}#L{item.first() + 1}) | {count} | {own or section} |")
    head = f"### `{module.crate}` [{module.name}](../{module.path}), {total} lines"
    return [head, "", "| Definition | Lines | Section |", "|---|---|---|", *rows, ""], total


def chapters_of(statement):
    """The files of each chapter, each with its items of the theorem."""
    items = statement.items(0)
    by_rules = statement.closure([("item", statement.specs.modules["wasm_laws_soundness", "ModulesByRules"].items["IsValidByRules"])])
    found, left = [], set(items)
    apart = {it for it in items if it.module.crate == "wasm_spec_steps" and ("item", it.key) not in by_rules}
    for title, about, names in CHAPTERS:
        files = []
        for name in names.split():
            crate, _, file = name.partition("/")
            its = [it for it in items if (it.module.crate, it.module.name) == (crate, file) and (it in apart) == (title == ALGORITHM)]
            if not its:
                stop(f"docs_specification.py: nothing of the theorem is in {name} for the chapter {title}")
            files.append((its[0].module, its))
            left -= set(its)
        found.append((title, about, files))
    if left:
        stop(f"docs_specification.py: no chapter has {', '.join(sorted({it.module.path for it in left}))}")
    return found


def named_too_early(statement):
    """Definitions of the theorem that name one in a later file of its reading order, with that one."""
    places = {it.key: place for place, (_, its) in enumerate(one for _, _, files in chapters_of(statement) for one in files) for it in its}
    for it in statement.items(0):
        for kind, used, *_ in statement.used(("item", it), False):
            if kind == "item" and places.get(used.key, 0) > places[it.key] and (used.module.crate, used.name) not in NAMED_BEFORE:
                yield it, used


def files_of(statement, part):
    """The files of a part without chapters, from the lowest crate."""
    found, crates = {}, statement.tree.crates()
    for it in statement.items(part):
        found.setdefault((crates.index(it.module.crate), it.module.name), (it.module, []))[1].append(it)
    return [found[key] for key in sorted(found)]


def write_types(types):
    """Types of the code, with what a contract sees of each, and how many lines say it."""
    out, total = ["| Type or constant | Crate | A contract sees | Lines |", "|---|---|---|---|"], 0
    for it in types:
        values = [re.sub(r"\s+", " ", one[1]) for one in it.seen if isinstance(one[0], dict)]
        if it.has_model:
            sees, count = f"`{values[0]}`", 1
        else:
            sees = {"const": "its value", "enum": "its variants"}.get(it.kind, "its fields")
            count = sum(bool(row.strip()) and not re.match(r" *(//|#\[)", row) for row in it.text)
        total += count
        out.append(f"| [`{it.name}`](../{it.path}#L{it.at + 1}) | `{it.crate}` | {sees} | {count} |")
    return [*out, ""], total


def write_functions(statement):
    out = ["| Function | Crate | Clauses |", "|---|---|---|"]
    for crate, path, name, at, clauses in statement.functions:
        out.append(f"| [`{name}`](../{path}#L{at + 1}) | `{crate}` | {', '.join(f'`{it}`' for it in clauses)} |")
    return [*out, ""]


class Specification:
    """The page, and its numbers: lines of the theorem's definitions, and of all."""

    kept = {}

    def __init__(self, tree, first=None):
        is_same = first and not tree.replaced.keys() & first.asked
        self.statement = first.statement if is_same else Statement(tree, first and first.statement)
        self.asked = {*tree.asked}
        self.counter, self.body, self.table = Counter(), [], []
        self.sections, self.theorem = sections_named(tree), 0
        self.body += ["## The theorem", ""]
        for number, (title, about, files) in enumerate(chapters_of(self.statement), 1):
            self.theorem += self.write(f"{number}. {title}", about, files)
        for part, (title, about, _) in enumerate(self.statement.parts[1:], 1):
            self.write(title, about, files_of(self.statement, part))
        types, self.types = write_types(self.statement.types(0))
        more, _ = write_types(self.statement.types(1, 2, 3))
        self.body += ["## Types and constants that the theorem names", "", *types, "## Types and constants that only the other parts name", "", *more]
        self.body += ["## The functions", "", *write_functions(self.statement)]
        self.whole = sum(it[2] for it in self.table)

    @staticmethod
    def of(tree):
        """The specification of the sources as they are, which is made once, or of ones of which some that it is made of are replaced."""
        if not Specification.kept:
            sources = Tree()
            made = Specification(sources)
            Specification.kept = {"made": made, "asked": sources.asked}
        made = Specification.kept["made"]
        return Specification(tree, made) if tree.replaced.keys() & Specification.kept["asked"] else made

    def write(self, title, about, files):
        rows, total, count = [], 0, 0
        for module, items in files:
            more, lines = rows_of_file(self.counter, module, items, self.sections)
            rows, total, count = rows + more, total + lines, count + len(items)
        mark = "###" if title[0].isdigit() else "##"
        self.body += [f"{mark} {title}", "", *([wrap(about), ""] if about else []), *(re.sub("^###", f"#{mark}", it) for it in rows)]
        self.table.append((title, count, total, len({module.path for module, _ in files})))
        return total

    def text(self):
        crates = {it.module.crate for it in self.statement.items(0)}
        contracts = [row for name in (LIST[2], RULES[2]) for row in ["```", *self.statement.contracts[name], "```", ""]]
        table = ["| Part | Definitions | Lines | Files |", "|---|---|---|---|"]
        table += [f"| {title} | {count:,} | {lines:,} | {files} |" for title, count, lines, files in self.table]
        theorem = sum(it[1] for it in self.table if it[0][0].isdigit())
        head = [it for text in INTRODUCTION for it in (wrap(text.format(self=self, theorem=theorem, crates=len(crates))), "")]
        kit = wrap(f"From the toolchain's libraries the theorem takes {', '.join(f'`{it}`' for it in self.statement.kit_of_theorem)}.")
        return "\n".join(["# The specification", "", *head, *contracts, *table, "", kit, "", *self.body]).rstrip("\n") + "\n"


INTRODUCTION = (
    "Made by `tools/write_docs.py`: the definitions that the contracts below rest on, which is what their clauses and the types in them name, and what "
    "that names in turn, through all crates. They are found by names, as antt reads them, and the toolchain confirms it: `tools/list_specification "
    "--alone` checks a crate in which parts 1 to 10 and the two behind them stand alone, so that none lacks, and no import is one too many. `--why NAME` "
    "says how a contract leads to a definition.",
    "**The theorem** is the clause `headline` of `validate_list`, with its condition, and `modules_are_typed`, by which validity may be compared with the "
    "rules of the standard's chapter. It rests on {theorem:,} definitions in {crates} crates, {self.theorem:,} lines without comments, blank lines and "
    "imports, and on {self.types:,} lines that declare types of the code. Who compares these with the standard, in this order, needs to read nothing else "
    "in the folders `specs`: the other definitions there are laws, examples, and what contracts of other functions say. Parts 7 and 8 say the same twice, "
    "where no type is shared.",
    "A section is one of the WebAssembly Core Specification 3.0; a definition without one is this validator's own. docs/THEOREM.md explains the contract, "
    "and docs/DEFINITIONS.md the definitions, with what each leaves out.",
)


def write_specification(tree):
    return Specification.of(tree).text()


def check_specification(tree):
    """docs/SPECIFICATION.md has each definition that the contracts rest on, and no other, under its file and with its lines."""
    wanted, written = write_specification(tree).split("\n"), tree.read(PAGE).split("\n")
    pattern = re.compile(r"\| \[`([^`]*)`\]\(([^)]*)#L\d+\) \| (.*) \|$")
    wanted_rows = {it[1] + it[2]: it for row in wanted if (it := pattern.match(row))}
    rows = {it[1] + it[2]: it for row in written if (it := pattern.match(row))}
    for key in wanted_rows.keys() - rows.keys():
        yield f"{PAGE}: it leaves out {wanted_rows[key][1]} of {wanted_rows[key][2][3:]}"
    for key in rows.keys() - wanted_rows.keys():
        yield f"{PAGE}: nothing rests on {rows[key][1]} of {rows[key][2][3:]}"
    for key in rows.keys() & wanted_rows.keys():
        if rows[key][3] != wanted_rows[key][3]:
            yield f"{PAGE}: it has {rows[key][3]} of {rows[key][1]}, and it is {wanted_rows[key][3]}"
    for it, later in named_too_early(Specification.of(tree).statement):
        yield f"{PAGE}: {it.name} of {it.module.path} names {later.name}, which stands in a later file"
    if [it for it in wanted if not pattern.match(it)] != [it for it in written if not pattern.match(it)]:
        yield f"{PAGE}: its texts or totals differ from the sources"
