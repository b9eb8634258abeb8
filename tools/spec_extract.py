"""Writes a crate that has the listed definitions and types alone, so that a check of it says whether one lacks.

Definitions of the crate `wasm_spec`, say, stand in its folder `specs/WasmSpec`, and types in `src/wasm_spec`. Their texts are those of the
sources, without derived traits; the `use` lines are written anew, and bring in what the listed definitions name, as far as it is listed or is of
the toolchain's libraries."""
import os
import re

from docs_sources import body_of
from spec_code import uses_in

NAME = "specification"
LIBRARIES = "bitflags core indexmap"
KINDS = re.compile(r"^(?:pub(?:\(crate\))? )?(struct|enum|trait|const|type|static)\b")
# Bounds that the type in the place of another one needn't have.
BOUNDS = re.compile(r": (?:Exact|Hash)[ +\w]*")


def camel(crate):
    return "".join(it.capitalize() for it in crate.split("_"))


def place_of(module):
    return f"Rattle.{NAME}.specs.{camel(module.crate)}.{module.name}"


def file_in(it):
    """The file of a type in the folder `src` of its crate, without its ending."""
    return it.path.split("/src/")[1][: -len(".rt")]


class Extract:
    """The files of the crate, made of listed items and types."""

    def __init__(self, statement, items, types):
        self.tree, self.specs, self.code = statement.tree, statement.specs, statement.code
        self.items, self.types = set(items), {it.key[:3]: it for it in types}
        self.files, self.spec_modules, self.modules = {}, {}, {}

    def path_of(self, path):
        """The path by which a name is brought in: where the listed item is now, or none where it isn't listed."""
        found = self.specs.resolve(path)
        if found[0] == "kit":
            return ".".join(path)
        if found[0] == "item":
            return f"{place_of(found[1].module)}.{path[-1]}" if found[1] in self.items else None
        if found[0] == "module":
            module = self.specs.modules[found[1], found[2]]
            return place_of(module) if any(it in self.items for it in module.order) else None
        it = None if "contracts" in found[2] else self.code.declared(found[1], found[2])
        if it is None or it.key[:3] not in self.types:
            return None
        inner = found[2][found[2].index("TheConstants" if "TheConstants" in found[2] else it.name) :]
        file = file_in(it).replace("/", ".")
        return ".".join([f"Rattle.{NAME}.specs.declared.{it.crate}", *([] if file == "lib" else [file]), *inner])

    def uses(self, used, mark=""):
        """The `use` lines, or `ghost use` items, of these names."""
        rows = []
        for name, path in used.items():
            to = self.path_of(path)
            if to:
                front, _, last = to.rpartition(".")
                renamed = f" as {name}" if name != last else ""
                rows.append(f"{mark}use {f'{front}.{{{last}{renamed}}}' if path.is_item else f'{to}{renamed}'}{';' if mark else ''}")
        return rows

    def write_module(self, module):
        named = {name for it in module.order if it in self.items for name in it.named}
        rows, current = self.uses({name: path for name, path in module.used.items() if name in named}), []
        for item in module.order:
            if item not in self.items:
                continue
            for section in item.sections:
                if section not in current:
                    rows += module.lines[section.rows()[0] : section.rows()[-1] + 1]
            current = list(item.sections)
            rows += [module.lines[it] for it in sorted({it.row for it in module.fixities.get(item.name, [])})]
            for part in item.parts:
                rows += module.lines[part[0].row : part[-1].row + 1]
        self.files[f"specs/{camel(module.crate)}/{module.name}.antt"] = rows
        self.spec_modules.setdefault(camel(module.crate), []).append(module.name)

    def write_types(self, path, types):
        """The types of one file."""
        source, crate, file = self.tree.read(path).split("\n"), types[0].crate, file_in(types[0])
        uses = re.findall(r"(?m)^use (?!crate|super|self|wasm_)[^;]*;", "\n".join(source))
        rows = self.uses(uses_in([row for row in source if not row.startswith(" ")]), "ghost ")
        for it in types:
            uses += self.imports(it)
            rows += self.constant_of(it) or self.stand_in(it, source) or [KINDS.sub(r"pub \1", it.text[0]), *it.text[1:]]
        uses += ["use std::marker::Model;", "use crate::Never;"]
        self.files[f"src/{crate}/{file}.rt" if file != "lib" else f"src/{crate}.rt"] = [*dict.fromkeys(uses), *rows]
        self.modules.setdefault(crate, set()).update([file] if file != "lib" else [])

    def imports(self, it):
        """The listed types of other files that a type names."""
        rows = []
        for word in dict.fromkeys(re.findall(r"\b[A-Z]\w*\b", "\n".join(it.text))):
            found = self.code.type_named(it.crate, it.path, word)
            if found and found[1].path != it.path and found[1].key[:3] in self.types:
                of, file = found[1], file_in(found[1]).replace("/", "::")
                rows.append(f"use crate::{of.crate}::{'' if file == 'lib' else f'{file}::'}{of.name}{'' if of.name == word else f' as {word}'};")
        return rows

    @staticmethod
    def constant_of(it):
        """A constant of a type, also one of a set of flags."""
        owner, _, name = it.name.rpartition("::")
        value = re.search(r"= (?:[A-Za-z]+[(])?([0-9_]+)", it.text[0])
        return [f"impl {owner} {{", f"    pub const {name}: {owner} = {owner}({value[1]});", "}"] if owner else None

    def stand_in(self, it, source):
        """In the place of a type with an `impl Model` one without values, which contracts see by the same `Value`."""
        at = next((i for i, row in enumerate(source) if re.match(rf"impl\b.*\bModel for {it.name}\b", row)), None)
        if at is None:
            return None
        body = body_of(source, at)
        text, head = "\n".join(body), BOUNDS.sub("", KINDS.sub(r"pub \1", it.text[0])).partition("{")[0].partition("(u")[0].rstrip()
        lends = re.search(r"<'a", source[at])
        held = ["    lent: &'a A,"] if lends else ["    alloc: A,"] if re.search(r"\bA\b", head) else []
        struct = [f"{head} {{", "    never: Never,", *held, *(["    item: T,"] if re.search(r"\bT\b", head) else []), "}"]
        # One whose values a proof tells apart by codes is named by no definition.
        if "ghost coded" in text:
            return struct
        value = re.search(r"ghost Value = (\{.*?\});", text, re.S)[1]
        uses = (f"    {row}" for row in self.uses(uses_in(body), "ghost "))
        return [*struct, BOUNDS.sub("", body[0]), *uses, f"    ghost Value = {value};", "    ghost view = { λ a. elim a.never [ ] };", "}"]

    def write(self, folder):
        for module in {it.module.path: it.module for it in self.items}.values():
            self.write_module(module)
        for path in sorted({it.path for it in self.types.values()}):
            self.write_types(path, sorted((it for it in self.types.values() if it.path == path), key=lambda it: it.at))
        for crate, names in self.spec_modules.items():
            self.files[f"specs/{crate}.antt"] = [f"pub mod {it}" for it in sorted(names)]
        self.files["specs/Lib.antt"] = [f"pub mod {it}" for it in sorted(self.spec_modules)]
        for crate, names in self.modules.items():
            path = f"src/{crate}.rt"
            self.files[path] = [*(f"pub mod {it};" for it in sorted(names)), *self.files.get(path, [])]
        self.files["src/lib.rt"] = ["#![tactic(auto)]", "pub enum Never {}", *(f"pub mod {it};" for it in sorted(self.modules))]
        for path, rows in self.files.items():
            whole = f"{folder}/crates/{NAME}/{path}"
            os.makedirs(os.path.dirname(whole), exist_ok=True)
            with open(whole, "w", encoding="utf-8") as it:
                it.write("\n".join(rows) + "\n")
        with open(f"{folder}/crates.txt", "w", encoding="utf-8") as it:
            it.write(f"{NAME}: {LIBRARIES}\n")
