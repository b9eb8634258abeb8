"""Writes docs/LIMITS.md: every limit, with its value and message as the sources have them, and where it is counted.

A row names the constant or the expression that has the value, the variant that has the message, and the file that compares. All three are looked
up in the sources: what isn't found ends this with status 1, and so does a constant MAX_* of a library that no row is about."""
import re

from docs_sources import Item, stop, wrap

# Constants that say how something is stored, and limit nothing that a module may have.
NO_LIMITS = {"MAX_LISTED": "so many ancestors of a type are listed with it, and further ones are looked up"}


class Row:
    """A limit: what it limits; its value, as a `Constant` or `Found`; where it is counted, in words; its message, as a variant; the file that
    compares, of the crate; and the section of the standard that has the limit, where one does."""

    def __init__(self, what, value, counted, message, place, section=""):
        self.what, self.value, self.counted, self.message, self.place, self.section = what, value, counted, message, place, section


class Constant:
    """The value of a constant, and what is said around it."""

    def __init__(self, file, name, words="{}"):
        self.file, self.name, self.words = file, name, words


class Found:
    """What a pattern finds in a file, as values for these words: numbers, and the names of constants of that file."""

    def __init__(self, file, pattern, words):
        self.file, self.pattern, self.words = file, pattern, words


LIMITS = "wasm_validator_core/limits"
PLACES = "wasm_validator_core/items"
CHECKS = "wasm_validator_checks/items"
BOTH = "at the section's count; each import"
SECTION = "at the section's count"

OWN = [
    Row("types, in all recursion groups", Constant(LIMITS, "MAX_TYPES"), "each recursion group", "Counted::Types", "wasm_validator_core/module"),
    Row("recursion groups, after the types so far", Constant(LIMITS, "MAX_TYPES"), SECTION, "Counted::Types", "wasm_validator_sections/plain_items"),
    Row(
        "entries of the import section, after the pairs of names so far (with `COMPACT_IMPORTS` an entry may be several imports, or none)", Constant(LIMITS, "MAX_IMPORTS"), SECTION, "Counted::Imports",
        "wasm_validator_sections/plain_items",
    ),
    Row("functions, with imported ones", Constant(LIMITS, "MAX_FUNCTIONS"), BOTH, "Counted::Functions", PLACES),
    Row(
        "tables, with imported ones",
        Found(LIMITS, r"REFERENCE_TYPES\) \{\s+(\w+)\s+\} else \{\s+(\d+)", "{} with `REFERENCE_TYPES`, else {}"), BOTH, "Counted::Tables",
        PLACES,
    ),
    Row(
        "memories, with imported ones",
        Found(LIMITS, r"MULTI_MEMORY\) \{\s+(\w+)\s+\} else \{\s+(\d+)", "{} with `MULTI_MEMORY`, else {}"), BOTH, "Counted::Memories",
        PLACES,
    ),
    Row("globals, with imported ones", Constant(LIMITS, "MAX_GLOBALS"), BOTH, "Counted::Globals", PLACES),
    Row("tags, with imported ones", Constant(LIMITS, "MAX_TAGS"), BOTH, "Counted::Tags", PLACES),
    Row("exports", Constant(LIMITS, "MAX_EXPORTS"), SECTION, "Counted::Exports", "wasm_validator_sections/plain_items"),
    Row("element segments", Constant(LIMITS, "MAX_ELEMENT_SEGMENTS"), SECTION, "Counted::ElementSegments", "wasm_validator_items/elements"),
    Row(
        "items of an element segment", Constant("wasm_validator_segments/lists", "MAX_ITEMS"), "at the segment's count",
        "ItemRule::ElementCount", "wasm_validator_segments/lists",
    ),
    Row("data segments", Constant(LIMITS, "MAX_DATA_SEGMENTS"), SECTION, "Counted::DataSegments", "wasm_validator_items/data"),
    Row("the number in a data count section", Constant(LIMITS, "MAX_DATA_SEGMENTS"), "where it is read", "ItemRule::DataCountLimit", LIMITS),
    Row(
        "bytes of a function body, with its locals", Constant("wasm_validator_sections/code_state", "MAX_FUNCTION_SIZE"), "each body",
        "Counted::FunctionBodySize", "wasm_validator_states/state",
    ),
    Row(
        "locals of a body, with its parameters", Constant("wasm_typing_stacks/locals", "MAX_LOCALS"), "each declaration",
        "OperatorRule::TooManyLocals", "wasm_typing_stacks/locals",
    ),
    Row(
        "effective size of a module's type", Constant("wasm_validator_checks/entities", "MAX_EFFECTIVE_SIZE", "below {}"),
        "each import and export", "Rule::EffectiveSize", "wasm_validator_checks/entities",
    ),
    Row(
        "proper ancestors of a type", Constant("wasm_validator_type_checks/subtypes", "MAX_WASM_SUBTYPING_DEPTH"), "each type",
        "Fault::SubtypesTooDeep", "wasm_validator_type_checks/subtypes",
    ),
    Row(
        "ids of types in one list of types", Constant("wasm_readers_values/indices", "MAX_IDS"), "each recursion group",
        "Rule::TooManyTypes", "wasm_validator_canonical/intern_rec_group",
    ),
]

TYPES = "wasm_validator_resources/composite_types"
GATES = [
    Row("parameters of a function type", Constant(TYPES, "MAX_WASM_FUNCTION_PARAMS"), "each recursion group", "GroupRule::FunctionParams", TYPES),
    Row("results of a function type", Constant(TYPES, "MAX_WASM_FUNCTION_RETURNS"), "each recursion group", "GroupRule::FunctionReturns", TYPES),
    Row("fields of a structure type", Constant(TYPES, "MAX_WASM_STRUCT_FIELDS"), "each recursion group", "GroupRule::StructFields", TYPES),
    Row(
        "catch clauses of a `try_table`", Constant("wasm_typing_blocks/tries", "MAX_WASM_CATCHES"), "each `try_table`",
        "OperatorRule::CatchCount", "wasm_typing_blocks/tries",
    ),
    Row("bytes of the name of an export, and of each name of an import", Constant("wasm_validator_checks/names", "MAX_STRING_SIZE"), "each", "ItemRule::NameSize", "wasm_validator_checks/names"),
]

VALUES = "Binary Format, Values, Integers"
STANDARD = [
    Row(
        "bytes of a number of 32 bits", Found("wasm_readers_bytes/binary_reader", r"in at most (five) bytes", "5"), "",
        "Malformed::IntegerTooLong", "wasm_readers_bytes/binary_reader", VALUES,
    ),
    Row(
        "bytes of a number of 64 bits", Found("wasm_readers_bytes/binary_reader", r"in at most (ten) bytes", "10"), "",
        "Malformed::IntegerTooLong", "wasm_readers_bytes/binary_reader", VALUES,
    ),
    Row(
        "supertypes of a type", Found("wasm_validator_canonical/type_canonicalizer/sub_types", r"supertype_idxs\.len\(\) > (1)", "{}"), "",
        "GroupRule::MultipleSupertypes", "wasm_validator_canonical/intern_rec_group", "Validation, Types, Sub Types",
    ),
    Row(
        "entries of a table", Found(CHECKS, r"u64::MAX\s+\} else \{\s+u(32)::MAX", "2^{} - 1; of a 64-bit one 2^64 - 1"), "",
        "ItemRule::TableSize", CHECKS, "Validation, Types, Table Types",
    ),
    Row(
        "pages of a memory",
        Found(CHECKS, r"1 << \((32) - log\)\s+\} else if log == 0 \{\s+u64::MAX", "2^{} bytes; of a 64-bit one 2^64 bytes, and 2^64 - 1 pages"),
        "", "Fault::MemorySize", CHECKS, "Validation, Types, Memory Types",
    ),
    Row("bytes of a page, a power of two", Found(CHECKS, r"log <= (16)", "2^{}"), "", "ItemRule::PageSize", CHECKS, "the custom page sizes proposal"),
    Row(
        "exponent of an alignment", Found("wasm_operators_plain/memories", r"flags < (64)", "below {}"), "", "Malformed::Alignment",
        "wasm_operators_plain/memories", "Binary Format, Instructions, Memory Instructions",
    ),
    Row(
        "alignment of a load or store",
        Found("wasm_typing_numbers/accesses", r"arg\.align <= (max_align)\(op\)", "the bytes that it reads or writes"), "",
        "OperatorRule::Alignment", "wasm_typing_numbers/accesses", "Validation, Instructions, Memory Instructions",
    ),
    Row(
        "alignment of an atomic operator",
        Found("wasm_typing_numbers/forms", r"Alignment::Exactly\((_)\) => OperatorRule::AtomicAlignment", "just the bytes that it reads or writes"),
        "", "OperatorRule::AtomicAlignment", "wasm_typing_numbers/forms", "the threads proposal",
    ),
    Row(
        "lane of a vector",
        Found("wasm_typing_numbers/forms", r"bits % 256 < (32)", "below the number of lanes; of `i8x16.shuffle` below {}"), "",
        "OperatorRule::Lane", "wasm_typing_numbers/forms", "Validation, Instructions, Vector Instructions",
    ),
    Row(
        "offset of a load or store",
        Found("wasm_typing_numbers/accesses", r"memory64 \|\| arg\.offset < (4_294_967_296)", "2^32 - 1; of a 64-bit memory 2^64 - 1"),
        "", "OperatorRule::Offset", "wasm_typing_numbers/accesses", "Validation, Instructions, Memory Instructions",
    ),
]

FREE = [
    "the length of a module (offsets are below 2^64), and how many custom sections it has;",
    "without `CRATE_LIMITS` the length of names; with it, that of the names of custom sections;",
    "without it the parameters and results of a function type (but a body has at most as many parameters as locals);",
    "without it the fields of a structure type, and the clauses of a `try_table`;",
    "how deep blocks are nested, how many targets a `br_table` has, and how many handlers a `resume`;",
    "how many modules one validator reads, as long as there are ids for their types.",
]

INTRODUCTION = [
    "# Limits",
    "Made by `tools/write_docs.py`, which takes the values and messages from the sources.",
    "## This validator's own",
    "The standard lets each validator set such limits (Core Specification 3.0, Appendix, Implementation Limitations); the numbers are this validator's. "
    "What passes one isn't valid here: `KeepsLimits` and the other definitions of docs/DEFINITIONS.md have the same numbers.",
    "\"At the section's count\" means that the section is refused before its first item is read, at the offset of its count; any other refusal is at the "
    "offset of the item. A limit on what is in one list counts what earlier sections of the same kind and imports added; the count of a data section is "
    "compared alone. N in a message is a number. A constant that is named is one of `wasm_validator`.",
]


FOR_GATES = [
    "## With `CRATE_LIMITS`",
    "These are the limits of the Rust crate's readers. Only the feature `CRATE_LIMITS` asks for them, which neither `STANDARD` nor `all` has: a gate that "
    "takes modules from strangers switches it on. A refusal by one of them names no missing feature: to leave `CRATE_LIMITS` out is what would lift it.",
    "With it the work on a body is at most a constant times its bytes times 10,000, the limit on the fields of a structure type (`struct.new_default` looks "
    "at each), where a catch clause or a handler counts as an operator, and linear for all that compilers write; without it, it is the product of the "
    "parameters, results and fields of types and the operators and functions that have them. That is read from the code and measured, not proved. The work and the memory "
    "of an entry of several imports (`COMPACT_IMPORTS`) are the product of the length of its module's name and their number. SECURITY.md says what that can "
    "take, and what a host does besides.",
]


def commas(text):
    number = int(text.replace("_", ""))
    return f"{number:,}"


class Limits:
    def __init__(self, tree, library):
        self.tree, self.constants, self.told = tree, {}, set()
        top = library.tops["wasm_validator"]
        for name in [*top.items, *top.passed]:
            it = library.find_name(top, name)
            if isinstance(it, Item) and it.kind == "const":
                self.constants[it.path, it.name] = name
        folders = ("crates/wasm_readers_errors/src", "crates/wasm_readers_features/src")
        self.errors = "\n".join(tree.read(it) for folder in folders for it in tree.files(folder, ending=".rt"))

    def source(self, file):
        crate, _, rest = file.partition("/")
        path = f"crates/{crate}/src/{rest}.rt"
        if not self.tree.has(path):
            stop(f"docs_limits.py: there is no {path}")
        return path, self.tree.read(path)

    def value(self, it):
        path, text = self.source(it.file)
        found = [it.name] if isinstance(it, Constant) else re.search(it.pattern, text)
        if not found:
            stop(f"docs_limits.py: {path} has nothing like {it.pattern}")
        words = found if isinstance(it, Constant) else found.groups()
        return it.words.format(*(self.number(path, text, word) for word in words))

    def number(self, path, text, word):
        """A number as it is written, or as the constant of a file has it."""
        found = re.search(rf"(?m)^pub(?:\(crate\))? const {word}: (?:u32|usize) = ([\d_]+);", text)
        if found:
            self.told.add((path, word))
            return commas(found[1])
        if word.isupper():
            stop(f"docs_limits.py: {path} has no constant {word}")
        return commas(word) if re.fullmatch(r"\d[\d_]*", word) else word

    def message(self, variant, value):
        """The text of a variant, as the crate of errors has it, with N for numbers."""
        family, name = variant.split("::")
        found = re.search(rf'{variant}(?:\([\w, ]*\))? =>\s*(?:write!\(\s*f,\s*)?"([^"]*)"', self.errors)
        if family == "Counted":
            found = re.search(r'"(\{what\} count exceeds limit of \{limit\})"', self.errors), found
            if None in found:
                stop(f"docs_limits.py: the errors have no text for {variant}")
            number = re.match(r"[\d,]+", value)[0].replace(",", "")
            text = found[0][1].replace("{what}", found[1][1]).replace("{limit}", number)
            return f"`{text}`" + (f", or `multiple {found[1][1]}`" if "else" in value else "")
        integer = re.search(rf'{variant}\(integer\) => write_integer\(\s*f,\s*integer\.text\(\),\s*"([^"]*)"', self.errors)
        if integer:
            return f"`invalid var_u32: {integer[1]}` (or `var_u64`, ..)"
        calls = re.search(rf"{variant}\(\w+\) =>\s*(write_(?!variant|pair)\w+)\(", self.errors)
        if calls:
            found = re.search(rf'fn {calls[1]}<[^"]*?\n\) -> fmt::Result \{{\s*write!\(\s*f,\s*"([^"]*)"|fn {calls[1]}<[^"]*?"([^"]*)"', self.errors)
        text = found and next(it for it in found.groups() if it)
        if not text:
            stop(f"docs_limits.py: the errors have no text for {variant}")
        return f"`{re.sub(r'{[^}]*}', 'N', text)}`"

    def place(self, row):
        """The file that compares, which must name the constant or the variant."""
        path, text = self.source(row.place)
        code = "\n".join(it for it in text.split("\n") if not re.match(r" *(//|ghost |ensures|requires|pub const|pub\(crate\) const|use )", it))
        words = [row.value.name] if isinstance(row.value, Constant) else []
        if not any(re.search(rf"\b{it}\b", code) for it in [*words, row.message.split("::")[1]]):
            stop(f"docs_limits.py: {path} names neither {' nor '.join([*words, row.message])}")
        return f"`{row.place.split('/')[0]}` `{row.place.split('/')[1]}.rt`"

    def constant(self, row):
        if not isinstance(row.value, Constant):
            return ""
        name = self.constants.get((self.source(row.value.file)[0], row.value.name))
        return f"`{name}`" if name else ""

    def all_constants(self):
        """The constants of libraries whose names say that they limit something."""
        for path in self.tree.files("crates", ending=".rt"):
            if re.match(r"crates/wasm_\w+/src/", path):
                yield from ((path, it[1]) for it in re.finditer(r"(?m)^pub(?:\(crate\))? const (MAX_\w+): \w+ = \d", self.tree.read(path)))


def write_limits(tree, library):
    limits = Limits(tree, library)
    out = [*(it for text in INTRODUCTION for it in (wrap(text), "")), "| What | At most | Counted | Message | Constant | Compared in |", "|---|---|---|---|---|---|"]
    for row in OWN:
        value = limits.value(row.value)
        out.append(f"| {row.what} | {value} | {row.counted} | {limits.message(row.message, value)} | {limits.constant(row)} | {limits.place(row)} |")
    out += ["", *(it for text in FOR_GATES for it in (wrap(text), "")), "| What | At most | Counted | Message | Compared in |", "|---|---|---|---|---|"]
    for row in GATES:
        out.append(f"| {row.what} | {limits.value(row.value)} | {row.counted} | {limits.message(row.message, '')} | {limits.place(row)} |")
    out += ["", "## The standard's", "", "| What | At most | Message | Section or proposal | Compared in |", "|---|---|---|---|---|"]
    for row in STANDARD:
        out.append(f"| {row.what} | {limits.value(row.value)} | {limits.message(row.message, '')} | {row.section} | {limits.place(row)} |")
    left = [f"{name} of {path}" for path, name in limits.all_constants() if (path, name) not in limits.told and name not in NO_LIMITS]
    if left:
        stop(f"docs_limits.py has no row for {', '.join(left)}")
    return "\n".join([*out, "", "## What has no limit", "", "Only the bytes and the memory that is there limit:", "", *(f"- {it}" for it in FREE)]) + "\n"
