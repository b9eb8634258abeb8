"""What statements take from code: the contract of a function, and what the types in it mean to contracts.

A contract sees a struct without `impl Model` and an enum by their fields and variants, a struct with one by its `Value`, and a constant as its
value. What `view` and `invariant` of an `impl Model` and ghost fields name tells what values of the code stand for, and what is true of them."""
import re

from docs_sources import Library, body_of, head_of, stop
from spec_items import paths_of, tokens_of
from spec_names import Walk

DECLARED = re.compile(r"^(?:pub(?:\(crate\))? )?(struct|enum|trait|type|const|static) (\w+)")


class CodeNames:
    """The names of the clauses at a place of a file: those of its `ghost use` items, and else those of Rust."""

    def __init__(self, code, crate, path, uses):
        self.code, self.crate, self.path, self.specs = code, crate, path, code.specs
        self.used = dict(uses)
        self.operators = [it for it in self.used if "◌" in it]

    def find(self, name):
        if name in self.used:
            return self.specs.resolve(self.used[name])
        return self.code.type_named(self.crate, self.path, name)

    def is_constructor(self, name):
        return name[:1].isupper() or not name[:1].isalpha()

    def is_operator_part(self, name):
        return any(name in it.split("◌") for it in self.operators)


class Declared:
    """A type or a constant of the code: its rows, what a contract sees of it, and what else is said of its values."""

    def __init__(self, kind, name, crate, path, rows, at, is_inside):
        self.kind, self.name, self.crate, self.path, self.at, self.is_inside = kind, name, crate, path, at, is_inside
        end = next(i for i in range(at, len(rows)) if rows[i].endswith((";", "}", "{")))
        self.text = rows[at : end + 1] if rows[end].endswith(";") else body_of(rows, at)
        self.seen, self.meant, self.has_model = [], [], False

    @property
    def key(self):
        return (self.crate, self.path, self.name, self.is_inside)


class Code:
    """The types and functions of the crates."""

    def __init__(self, tree, specs):
        self.tree, self.specs, self.library, self.types = tree, specs, Library.of(tree), {}

    def file_of(self, crate, modules):
        path = f"crates/{crate}/src/{'/'.join(modules)}.rt" if modules else f"crates/{crate}/src/lib.rt"
        return path if self.tree.has(path) else f"crates/{crate}/src/lib.rt"

    def declared(self, crate, path):
        """The type or the constant that a path below `declared` names."""
        path = [it for it in path if it not in ("declared", "contracts")]
        if "TheVariants" in path:
            path = path[: path.index("TheVariants")]
        if "TheConstants" in path:
            at = path.index("TheConstants")
            return self.type_in(crate, self.file_of(crate, path[:at]), "::".join(path[at + 1 : at + (2 if path[at + 1].isupper() else 3)]))
        modules = [it for it in path if it[0].islower()]
        path = [it for it in path if it != "TheInside"]
        is_inside = path[-1] == "Inside"
        return self.type_in(crate, self.file_of(crate, modules), path[-2] if is_inside else path[-1], is_inside)

    def type_in(self, crate, path, name, is_inside=False):
        key = (crate, path, name, is_inside)
        if key not in self.types:
            rows = self.tree.read(path).split("\n")
            owner, _, plain = name.rpartition("::")
            pattern = re.compile(rf" +(?:pub )?(const) ({plain})\b") if owner else DECLARED
            at = next((i for i, row in enumerate(rows) if (found := pattern.match(row)) and found[2] == plain), None)
            if at is None:
                raise LookupError(f"{path} has no {name}")
            kind = pattern.match(rows[at])[1]
            self.types[key] = Declared(kind, name, crate, path, rows, at, is_inside)
            self.read_type(self.types[key], rows)
        return self.types[key]

    def type_named(self, crate, path, name):
        """What a name of Rust stands for in a file: ("code", type), or None for what is of the toolchain or a parameter."""
        rows = self.tree.read(path).split("\n")
        if any((found := DECLARED.match(row)) and found[2] == name for row in rows):
            return ("code", self.type_in(crate, path, name))
        module = self.library.tops[crate]
        for it in path.split("/src/")[1][: -len(".rt")].split("/"):
            module = module.modules.get(it, module)
        item = self.library.find(module, [name]) if name in module.used else None
        if item is None and module.used.get(name, [""])[0] == "crate":
            where = module.used[name][1:]
            return self.type_named(crate, self.file_of(crate, where[:-1]), where[-1])
        if item is None or isinstance(item, str) or not hasattr(item, "kind"):
            return None
        return ("code", self.type_in(item.path.split("/")[1], item.path, item.name)) if item.kind != "fn" else None

    def read_type(self, it, rows):
        """What a contract sees of a type, and what else is said of its values."""
        model = next((i for i, row in enumerate(rows) if re.match(rf"impl\b.*\bModel for {it.name}\b", row)), None)
        ghosts = ghosts_of(it.text)
        uses = uses_at(rows, it.at)
        (it.seen if model is None else it.meant).extend((uses, text) for _, text in ghosts)
        if model is None or it.is_inside:
            it.seen += self.types_named(it, without_ghosts(it.text))
            return
        body, it.has_model = body_of(rows, model), True
        inner = {**uses_at(rows, model), **uses_in(body)}
        for name, text in ghosts_of(body):
            (it.seen if name == "Value" else it.meant).append((inner, text))
        it.meant += self.types_named(it, without_ghosts(it.text))

    def types_named(self, it, text):
        """The types of the repository that the fields of a type name."""
        plain = "\n".join(re.sub(r"//.*|#\[.*", "", row) for row in text)
        plain = re.sub(r"(?m)^    [A-Z]\w*", "", plain) if it.kind == "enum" else plain
        words = dict.fromkeys(re.findall(r"\b[A-Z]\w*\b", plain))
        found = [self.type_named(it.crate, it.path, word) for word in words if word != it.name]
        return [one for one in found if one and one[1] is not it]

    def uses_of(self, it, parts):
        """What some parts of a type name: types, and what the terms of its ghost items use."""
        found, unknown = [], set()
        for part in parts:
            if part[0] == "code":
                found.append(part)
                continue
            walk = Walk(CodeNames(self, it.crate, it.path, part[0]))
            bound = {"Self", *re.findall(r"\b(\w+):", "\n".join(it.text)), *re.findall(r"[<,] *(\w+)", it.text[0])}
            walk.term(tokens := tokens_of(part[1].split("\n")), 0, len(tokens), bound)
            found += walk.found
            unknown |= walk.unknown
        return found, unknown

    def contract(self, crate, path, name):
        """The contract of a function: its head, and what each clause and its types use."""
        rows = self.tree.read(path).split("\n")
        at = next(i for i, row in enumerate(rows) if re.match(rf" *pub (?:const )?fn {name}\b", row))
        head = head_of(rows, at)
        signature, clauses = clauses_of(head)
        names = CodeNames(self, crate, path, uses_at(rows, at))
        bound = set(re.findall(r"(\w+):", signature)) | set(re.findall(r"[<,] *(\w+)", signature.partition("(")[0])) | {"self", "result"}
        found = {}
        for word in dict.fromkeys(re.findall(r"\b[A-Z]\w*\b", signature)):
            one = self.type_named(crate, path, word)
            if one:
                found.setdefault("the types of its signature", []).append(one)
        for clause, text in clauses:
            walk = Walk(names)
            walk.term(tokens := tokens_of(text.split("\n")), 0, len(tokens), bound)
            found[clause] = walk.found
            if walk.unknown:
                stop(f"{path}: the contract of {name} has unknown names: {' '.join(sorted(walk.unknown))}")
        return head, found, at


def uses_at(rows, at):
    """What the `ghost use` items around a row bring in: those of the file, and those of the block that it is in."""
    block = next((i for i in range(at, -1, -1) if rows[i] and not rows[i].startswith((" ", "/", "#", "}", ")"))), at)
    found = uses_in([row for row in rows if not row.startswith(" ")])
    return {**found, **uses_in(rows[block:at])}


def uses_in(rows):
    found = {}
    for text in re.findall(r"(?m)^ *ghost use ([^;]*);", "\n".join(rows)):
        found.update(paths_of(" ".join(text.split())))
    return found


def ghosts_of(rows):
    """The ghost items and ghost fields of a type, an impl or a trait: the name and the term of each."""
    text, found = "\n".join(rows), []
    for it in re.finditer(r"(?m)^ *(?:pub )?ghost (\w+)(?: =|:) \{", text):
        depth, end = 1, it.end()
        while depth:
            depth += (text[end] == "{") - (text[end] == "}")
            end += 1
        found.append((it[1], text[it.end() : end - 1].strip()))
    return found


def without_ghosts(rows):
    return re.sub(r"(?m)^ *(?:pub )?ghost \w+(?: =|:) \{.*$", "", "\n".join(rows)).split("\n")


def clauses_of(head):
    """A function's signature, and its clauses by their names."""
    text = "\n".join(head)
    first = re.search(r"\b(?:requires|ensures|ghost)\b", text)
    signature, found, at = text[: first.start()] if first else text, [], 0
    for it in re.finditer(r"\b(requires|ensures)\*?(?: (\w+))? \{", text):
        if it.start() < at:
            continue
        depth, end = 1, it.end()
        while depth:
            depth += (text[end] == "{") - (text[end] == "}")
            end += 1
        found.append((it[2] or it[1], text[it.end() : end - 1].strip()))
        at = end
    return signature, found
