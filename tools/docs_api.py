"""Writes the pages on the public items of `wasm_validator` and of the crates that a tool which only parses uses: docs/API.md and docs/api/.

Each item has a section, with what its source says: its text, the texts of its fields and variants, the traits that it implements, and each
method with its text and its conditions. Names are those that `wasm_validator` gives. GROUPS says on which page an item is, by the file that
declares it; an item without a group, or without a text, ends this with status 1."""
import re

from docs_conditions import conditions
from docs_sources import TRAIT_ITEM, WIDTH, Anchors, Item, body_of, derived_before, has_body, head_of, slug, stop, text_before, without_parameters, wrap

ONLY_READING = ("wasm_readers", "wasm_items", "wasm_parser")
# Traits of the kit that say something to a caller.
KNOWN = "Clone Copy Debug Default Display Eq Ord PartialEq PartialOrd Hash Error Iterator ExactSizeIterator Deref DerefMut Index From Flags".split()

# Each page: its name, its title, what one wants to do, the files of `crates/examples/src` that do it, and what it says first.
PAGES = {
    "parse": (
        "Parse",
        "split a module into sections",
        ["dump.rt"],
        "`Parser::new(alloc, 0).parse_all(bytes)` gives the payloads of a module one after another: its header, its sections, its bodies and its end. "
        "Nothing is copied: a section's payload is a count and the bytes of its items.",
    ),
    "items": (
        "Read items",
        "read the items of sections without validating them",
        ["dump.rt"],
        "`SectionLimited::items` gives the items of a section, each with its offset. What is read here is only well formed: whether it is valid is for "
        "the validator to say.",
    ),
    "operators": (
        "Operators",
        "read operators, and ask for their arity",
        ["dump.rt", "heights.rt"],
        "`FunctionBody::get_operators_reader` and `ConstExpr::get_operators_reader` read one operator after another. `Operator` has a variant for each "
        "family of operators, and each family is an enum of its own.",
    ),
    "validate": (
        "Validate",
        "get a verdict on a module, a list of modules, a section or a body",
        ["gate.rt", "interpreter.rt", "heights.rt", "own_look_ups.rt"],
        "`validate` answers for one module, and `validate_list` for a list that shares ids of types. A `Validator` takes a module payload by payload, "
        "and a `FuncValidator` a body operator by operator. Where a method speaks of a section's start or first byte, that is the first byte of the "
        "section's contents, behind its id and its size.\n\n"
        "Features are combined by the methods of `Flags`: `WasmFeatures::STANDARD.union(WasmFeatures::CRATE_LIMITS)` gives the limits for gates besides, "
        "`difference` takes features away, and `contains` asks for them.\n\n"
        "Look-ups of one's own, for bodies without a `Validator`, implement `WasmModuleResources`: `crates/examples_own_module` does it. References in "
        "what they answer have to be ids (`UnpackedIndex::Id`) and never a module's type indices, and the answers have to stay the same for a whole body.\n\n"
        "Side tables, for interpreters that run code in place, are made by crates of their own, which `bin/vendor FOLDER wasm_validator_tables` copies "
        "too: `validate_with_side_table` of `wasm_validator_side_table` for a body, and `make_tables` of `wasm_validator_tables` for a module. Their "
        "positions are offsets from the start of the input, in 32 bits; `crates/examples_in_place` runs code over them.",
    ),
    "types": (
        "Types and linking",
        "ask for types and index spaces, and link modules",
        ["inspection.rt", "linker.rt", "proved_linker.rt", "interning.rt"],
        "`Types`, which validation returns, shows a module's index spaces. Its types have ids in a `TypeList`, which all modules of one validator share, "
        "and which says whether one type is below another and what may be given for an import. To ask about types of two modules, ask the list of the "
        "one that was validated later, which begins with that of the earlier one. An id of another validator is taken for one of this validator: no call "
        "can tell. What `entity_type_from_import` gives of tables and globals has references as the import writes them, by type indices of the "
        "module; what `core_imports` and `core_exports` give has ids, as `entity_is_subtype` wants them.",
    ),
    "errors": (
        "Errors",
        "find out why and where something was refused",
        ["gate.rt", "interpreter.rt"],
        "`Validator` and the methods of a module return `Error`; readers and validators of bodies return `BodyError`, which is `Copy`; readers that "
        "don't allocate return a `Refusal`. Each has a fault, which prints itself, an offset, and the proposal that is missing, if one is. Behind `//` a variant "
        "has the message that it prints.",
    ),
}

# Each group: its page, its title, and what declares its items: files and folders of crates, or names that end in `*`.
GROUPS = [
    ("parse", "Payloads", ["wasm_parser/parser", "wasm_parser/payload"]),
    ("parse", "Sections", ["wasm_readers/section_limited"]),
    ("parse", "Custom sections", ["wasm_parser/custom_section"]),
    ("parse", "Bytes, numbers and names", ["wasm_readers_bytes"]),
    ("items", "Imports and exports", ["wasm_readers/items", "wasm_readers/imports"]),
    ("items", "Tables, globals and segments", ["wasm_items/tables", "wasm_items/globals", "wasm_items/elements", "wasm_items/data"]),
    ("items", "Bodies and their locals", ["wasm_parser/function_body", "wasm_parser/locals"]),
    ("items", "Single types", ["wasm_readers/types", "wasm_readers/defined_types", "wasm_readers/externs", "wasm_readers/lists"]),
    ("operators", "Expressions", ["wasm_items/const_expr", "wasm_items/operators_reader", "wasm_operators/expressions", "wasm_operators_proposals/lists"]),
    ("operators", "All operators", ["wasm_operators/operators", "wasm_validator_func/next_operator"]),
    ("operators", "Families of operators", ["wasm_operators", "wasm_operators_plain", "wasm_operators_vector", "wasm_operators_atomic", "wasm_operators_proposals"]),
    ("operators", "How many operands an operator takes and gives", ["wasm_typing_arity"]),
    ("validate", "Whole modules and lists of modules", ["wasm_validator_modules/payload", "wasm_validator/list"]),
    ("validate", "Payload by payload", ["wasm_validator_modules"]),
    ("validate", "Features", ["wasm_readers_features/features"]),
    (
        "validate",
        "Bodies",
        ["wasm_validator_func", "wasm_typing_validator", "wasm_typing_stacks", "wasm_typing_checks", "wasm_typing_control/not_taken", "wasm_typing_steps/told"],
    ),
    ("validate", "What bodies and expressions look up", ["wasm_validator_resources", "wasm_validator_core_resources", "wasm_validator_references"]),
    (
        "validate",
        "Item by item",
        [
            *("wasm_validator_sections", "wasm_validator_core", "wasm_validator_items", "wasm_validator_segments", "wasm_validator_constants"),
            *("wasm_validator_checks", "wasm_validator_states"),
        ],
    ),
    ("validate", "Limits", ["MAX_*"]),
    ("validate", "Laws", ["wasm_validator/laws", "wasm_validator_states/lib"]),
    ("types", "Value types", ["wasm_readers_values/values"]),
    ("types", "Defined types", ["wasm_readers_types/types", "wasm_readers_types/items"]),
    ("types", "Types of imports and exports", ["wasm_readers_types/externs"]),
    ("types", "Ids and indices", ["wasm_readers_values/indices", "wasm_validator_type_groups/group_id", "wasm_validator_types/id"]),
    ("types", "The index spaces of a validated module", ["wasm_validator_types", "wasm_validator/conditions"]),
    ("types", "Lists of types", ["wasm_validator_type_list", "wasm_validator_type_groups", "wasm_validator_type_ancestors"]),
    ("types", "Adding types to a list", ["wasm_validator_canonical", "wasm_validator_type_checks"]),
    ("types", "Matching", ["wasm_validator_matches"]),
    ("errors", "Errors and refusals", ["wasm_validator_core/error", "Error", "BodyError", "Refusal", "Fault"]),
    ("errors", "Faults of the format", ["Malformed", "Integer", "OutOfOrder"]),
    ("errors", "Broken rules", ["wasm_readers_errors", "wasm_readers_features/operator_rules", "wasm_readers_features/type_rules"]),
]


def flow(text):
    """A text with its paragraphs and the items of its lists in lines of the pages' width."""
    out, is_code = [], False
    for part in re.split(r"\n{2,}", text):
        if is_code or part.startswith("```"):
            is_code = is_code != (part.count("```") % 2 == 1)
            out.append(part)
        else:
            items = re.split(r"\n(?=- )", part)
            out.append("\n".join(wrap(" ".join(it.split()), "", "  " if it.startswith("- ") else "") for it in items))
    return "\n\n".join(out)


def group_of(name, item):
    """The number of the group of an item, and its place there: of the one that names it, or its file, or its crate, whichever says most."""
    crate, _, file = item.path[len("crates/") : -len(".rt")].partition("/src/")
    place = f"{crate}/{file}"
    found = []
    for at, (_, _, words) in enumerate(GROUPS):
        for order, word in enumerate(words):
            if word == name or word.endswith("*") and name.startswith(word[:-1]):
                found.append((len(place) + 1, at, order))
            elif place == word or place.startswith(f"{word}/"):
                found.append((len(word), at, order))
    if not found:
        stop(f"no group of tools/docs_api.py has `{name}`, of {item.path}")
    return max(found)[1:]


class Pages:
    """The sections on all public items: where each is, and how others name it."""

    def __init__(self, library):
        self.library = library
        top = library.tops["wasm_validator"]
        found = {it: library.find_name(top, it) for it in [*top.items, *top.passed]}
        self.items = {name: it for name, it in found.items() if isinstance(it, Item)}
        self.of_kit = {name: it for name, it in found.items() if isinstance(it, str)}
        self.only_reading, self.names, self.places = {}, {}, {}
        lost = [name for name in found if name not in self.items and name not in self.of_kit]
        lost += [it.name for module in top.modules.values() if module.is_public for it in module.items.values() if it not in self.items.values()]
        if lost:
            stop(f"wasm_validator passes on what isn't found, or has in a module what it doesn't pass on: {' '.join(lost)}")
        self.add_readers()
        for name, it in self.items.items():
            self.names.setdefault(it, []).append(name)
        self.groups = [[] for _ in GROUPS]
        for name, it in sorted(self.items.items(), key=lambda it: (group_of(*it), it[1].path, it[1].at, it[0])):
            self.groups[group_of(name, it)[0]].append(name)
        for page, (title, _, _, _) in PAGES.items():
            self.add_places(page, title)

    def add_places(self, page, title):
        """The anchors of a page's sections, in the order of its headings."""
        anchors = Anchors()
        anchors.of(title)
        for at, (of, group, _) in enumerate(GROUPS):
            if of == page and self.groups[at]:
                anchors.of(group)
                for name in self.groups[at]:
                    self.places[name] = (page, anchors.of(name))
                    for it in self.calls(self.items[name]):
                        # constants are in one list, which has no headings
                        anchor = anchors.of(f"{name}::{it.name}") if it.kind == "fn" else self.places[name][1]
                        self.places[f"{name}::{it.name}"] = (page, anchor)

    def add_readers(self):
        """The readers that `wasm_validator` doesn't pass on, of the crates for tools that only parse."""
        for crate in ONLY_READING:
            top = self.library.tops[crate]
            inner = [(f"{crate}::{name}", module) for name, module in top.modules.items() if module.is_public]
            for path, module in [(crate, top), *inner]:
                for name in [*module.items, *module.passed]:
                    it = self.library.find_name(module, name)
                    if not isinstance(it, Item) or it in self.items.values() or not it.path.startswith(f"crates/{crate}/") or it.path.endswith("/lib.rt"):
                        continue
                    if name in self.items:
                        stop(f"{crate} and wasm_validator both have a `{name}`")
                    self.items[name] = it
                    self.only_reading[name] = f"{path}::{name}"

    def calls(self, item):
        """The public methods of a type, or those of a trait, and the constants of a type."""
        if item.kind in ("struct", "enum"):
            return item.methods
        if item.kind != "trait":
            return []
        found = [(i, TRAIT_ITEM.match(row)) for i, row in enumerate(body_of(item.rows, item.at), item.at)]
        return [Item("fn", it[3], item.module, item.path, item.rows, i) for i, it in found if it and len(it[1]) == 4 and it[2] == "fn"]

    def name_here(self, module, word):
        """The name that `wasm_validator` gives to what a word or path is in a module, or the word itself; what a module renames has its path."""
        path = module.used.get(word, [word])
        if path[0] not in ("crate", "self", "super", *self.library.tops) and path[-1] != word:
            return "::".join(path)
        at = self.library.find(module, word.split("::"))
        names = self.names.get(at, []) if isinstance(at, Item) else []
        last = word.split("::")[-1]
        return word if not names else last if last in names else names[0]

    def with_names(self, module, code):
        """Code with the names that `wasm_validator` gives to what it names."""
        return re.sub(r"\b(?:\w+::)*[A-Z]\w+", lambda it: self.name_here(module, it[0]), code)

    def unnamed(self):
        """What public items name in their declarations and signatures and no user can name, since `wasm_validator` doesn't pass it on."""
        found = {}
        for name, item in self.items.items():
            for it in [item, *self.calls(item)]:
                code = re.sub(r" *///.*", "", declaration(it) if it is item else signature_and_conditions(it.rows, it.at)).partition("requires")[0]
                for word in re.findall(r"(?m)(?<!^    )\b(?:\w+::)*[A-Z]\w+", code):
                    of = self.library.find(it.module, word.split("::"))
                    if isinstance(of, Item) and of not in self.names:
                        found.setdefault(of.name, name)
        return [f"{other} is named by the public item {name}, and not passed on by wasm_validator" for other, name in found.items()]

    def link(self, page, module, word):
        """A name as a link to its section, if it has one."""
        name, double, inner = word.rpartition("::")
        for whole in (self.name_here(module, word), f"{self.name_here(module, name)}{double}{inner}"):
            if whole in self.places:
                other, anchor = self.places[whole]
                return f"[`{whole}`]({'' if other == page else f'{other}.md'}#{anchor})"
        return f"`{word}`"

    def text(self, page, module, rows, lead=""):
        """A doc comment as text of a page: its headings become words, and its links lead to sections."""
        text = "\n".join(rows)
        text = re.sub(r"\[`([^`\]]+)`\](?:\([^)]*\))?", lambda it: self.link(page, module, it[1]), text)
        text = re.sub(r"(?<!\[)`([A-Z]\w+(?:::\w+)*)`(?!\])", lambda it: f"`{self.name_here(module, it[1])}`", text)
        text = re.sub(r"(?m)^#+ (\w+)\n+", r"**\1:** ", text)
        return flow(lead + text.strip())

    def write_item(self, page, name):
        item = self.items[name]
        if not item.text():
            stop(f"`{name}` of {item.path} has no doc comment")
        out = [f"### `{name}`", "", self.text(page, item.module, item.text()), ""]
        where = f"`{item.path}`"
        if name in self.only_reading:
            where += f": not in `wasm_validator`, but `{self.only_reading[name]}`"
        elif item.name != name:
            where += f", as `{item.name}`"
        out += [where, "", "```rust", self.with_names(item.module, declaration(item)), "```", ""]
        out += self.conditions(item.module, signature_and_conditions(item.rows, item.at)) if item.kind == "fn" else []
        traits = self.traits(page, name, item)
        out += [*traits, ""] if traits else []
        calls = self.calls(item)
        wordless = [it.name for it in calls if not it.text()]
        if wordless:
            stop(f"`{name}::{wordless[0]}` of {item.path} has no doc comment")
        constants = [it for it in calls if it.kind == "const"]
        out += [wrap(f"- `{name}::{it.name}`: {' '.join(self.text(page, it.module, it.text()).split())}", "", "  ") for it in constants]
        out += [""] if constants else []
        for it in [it for it in calls if it.kind == "fn"]:
            code = signature_and_conditions(it.rows, it.at)
            provided = item.kind == "trait" and has_body(it.rows, it.at)
            out += [f"#### `{name}::{it.name}`", "", "```rust", self.with_names(it.module, code), "```", ""]
            out += [self.text(page, it.module, it.text(), "Has a body, which an implementation may replace. " if provided else ""), ""]
            out += self.conditions(it.module, code)
        return out

    def conditions(self, module, code):
        words = conditions(self.with_names(module, code))
        return [wrap(words), ""] if words else []

    def traits(self, page, name, item):
        """What a type implements, or by which types a trait is implemented."""
        own, others, plain = [], [], derived_before(item.rows, item.at)
        for it in item.impls:
            trait, parameters = without_parameters(it.trait)
            trait = trait.split("::")[-1]
            if item.kind == "trait":
                if not self.is_of_examples(it):
                    others.append(f"`{self.with_names(it.module, it.owner)}`")
                continue
            if trait not in KNOWN and trait not in self.items:
                continue
            fixed = ", ".join(re.sub(r"^(type|const) ", "", row) for row in it.fixed)
            if not parameters and not fixed and not it.text:
                plain.append(trait)
                continue
            inside = ", ".join(word for word in (parameters[1:-1], fixed) if word)
            whole = f"{trait}<{inside}>" if inside else trait
            of = without_parameters(it.owner)[1]
            whole += f" for {it.owner}" if re.search(r"[A-Z]\w+", of) else ""
            own.append((f"`{self.with_names(it.module, whole)}`", self.text(page, it.module, it.text)))
        names = [f"`{it}`" for it in [*KNOWN, *sorted(set(self.items) - set(KNOWN))] if it in plain]
        out = [wrap(f"Implements {', '.join(names)}.")] if names else []
        if own:
            out += [""] if names else ["Implements:", ""]
            out += [wrap(f"- {trait}{': ' if text else ''}{' '.join(text.split())}", "", "  ") for trait, text in sorted(set(own))]
        return [*out, *([wrap(f"Implemented by {', '.join(sorted(set(others)))}.")] if others else [])]

    def is_of_examples(self, impl):
        return not any(impl.module.top is top for name, top in self.library.tops.items() if name.startswith("wasm_"))

    def first_sentence(self, name):
        item = self.items[name]
        text = " ".join(self.text("", item.module, item.text()).split())
        text = re.sub(r"\[(`[^`]+`)\]\([^)]*\)", r"\1", text)
        text = re.match(r"(?:.*?\.(?= |$)|.*)", re.sub(r" \(Core Specification[^()]*\)", "", text))[0]
        return text if len(text) <= WIDTH else re.split(r"[:;] ", text)[0].rstrip(".") + "."

    def write_page(self, page):
        title, _, _, first = PAGES[page]
        out = [f"# {title}", "", "\n\n".join(map(wrap, first.split("\n\n"))), ""]
        out += ["Made by `tools/write_docs.py` from the sources. [API.md](../API.md) says what holds of all pages, and lists all names.", ""]
        groups = [(group, self.groups[at]) for at, (of, group, _) in enumerate(GROUPS) if of == page and self.groups[at]]
        for group, names in groups:
            links = ", ".join(f"[`{name}`](#{self.places[name][1]})" for name in names)
            out.append(wrap(f"- **[{group}](#{slug(group)})**: {links}", "", "  "))
        out.append("")
        for group, names in groups:
            out += [f"## {group}", ""]
            for name in names:
                out += self.write_item(page, name)
        return "\n".join(out).rstrip("\n") + "\n"

    def write_index(self):
        out = ["# The public items of `wasm_validator`", "", wrap(INTRODUCTION), ""]
        out += ["| Page | What for | Examples in `crates/examples/src` |", "|---|---|---|"]
        for page, (title, task, examples, _) in PAGES.items():
            out.append(f"| [{title}](api/{page}.md) | {task} | {', '.join(f'`{it}`' for it in examples)} |")
        out += ["", "[LIMITS.md](LIMITS.md) has all limits.", "", "## All names", ""]
        for name in sorted(self.items, key=lambda it: (it.lower(), it)):
            page, anchor = self.places[name]
            out.append(wrap(f"- [`{name}`](api/{page}.md#{anchor}): {self.first_sentence(name)}", "", "  "))
        if self.of_kit:
            names = ", ".join(f"`{it}` of `{of}`" for it, of in sorted(self.of_kit.items()))
            out += ["", f"From the kit, as they are there: {names}."]
        return "\n".join(out) + "\n"


INTRODUCTION = (
    "Six pages by what one wants to do, made by `tools/write_docs.py` from the sources, which also have each function's `ensures` clauses. Offsets are in "
    "bytes from the start of the input. A `requires` clause is a condition that the caller must satisfy; its text says in words what it asks. A call "
    "that takes memory returns an error if memory is refused. A name is that of `wasm_validator`; where the source has another one, the line with the file "
    "says so. A tool that only parses finds the same names in `wasm_parser`, `wasm_items`, `wasm_readers` and `wasm_operators`, where `BodyError` is `Error`."
)


def signature_and_conditions(rows, at):
    """The signature, and the `requires` clauses, of a function's head."""
    found, keeps = [], True
    for row in head_of(rows, at):
        clause = re.match(r" *(requires|ensures|ghost)\b", row)
        if clause:
            keeps = clause[1] == "requires"
        if keeps:
            found.append(row)
    least = min(len(it) - len(it.lstrip()) for it in found)
    return "\n".join(it[least:].rstrip() for it in found)


def with_texts(rows, keeps):
    """The rows that are kept, each behind the doc comment above it."""
    found = []
    for at, row in enumerate(rows):
        if keeps(row):
            texts = text_before(rows, at)
            indent = re.match(" *", row)[0]
            found += [f"{indent}/// {it}".rstrip() for it in texts] + [row]
    return found


def declaration(item):
    """An item as code: a signature with its conditions, or the public part of a type or trait with the texts in it."""
    rows, at = item.rows, item.at
    if item.kind == "fn":
        return signature_and_conditions(rows, at)
    whole = body_of(rows, at)
    if item.kind in ("const", "type") or len(whole) == 1:
        return "\n".join(head_of(rows, at)) if item.kind in ("const", "type") else re.sub(r"\((?!.*\bpub ).*\)(?=;$)", "(..)", whole[0])
    if item.kind == "struct":
        inner = with_texts(whole, lambda row: re.match(r"    pub (?!ghost)", row))
        return "\n".join([whole[0], *inner, whole[-1]]) if inner else re.sub(r" *\{$", " { .. }", re.sub(r"\($", "(..);", whole[0]))
    if item.kind == "trait":
        inner = with_texts(whole, lambda row: re.match(r"    (type|const|ghost (?!use)).*;$", row))
        return "\n".join([whole[0], *inner, "    ..", whole[-1]])
    return "\n".join(with_message(item, row.rstrip()) for row in whole if not re.match(r" *(//(?!/)|#\[|ghost )", row))


def with_message(item, row):
    """A variant of a fault with the message that it prints, where that is one text."""
    variant = re.match(r"    (\w+)(?:\([^)]*\))?,$", row)
    is_rule = item.path.startswith(("crates/wasm_readers_errors/", "crates/wasm_readers_features/"))
    found = is_rule and variant and re.search(rf'\b{item.name}::{variant[1]}(?:\(_\))? =>\s*"([^"]*)"', "\n".join(item.rows))
    return f"{row} // {found[1]}" if found else row


def write_api(pages):
    """Each page by its path."""
    return {"docs/API.md": pages.write_index(), **{f"docs/api/{it}.md": pages.write_page(it) for it in PAGES}}
