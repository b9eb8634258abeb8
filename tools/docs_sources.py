"""What the documents are compared with: the files of the repository, and the public items of its crates."""
import os
import re
import sys
import textwrap

ROOT = os.path.dirname(os.path.dirname(os.path.realpath(__file__)))
WIDTH = 150
ITEM = re.compile(r"^( *)pub (?:unsafe )?(?:const )?(fn|struct|enum|trait|const|type) (\w+)")
CONSTANT = re.compile(r" *(?:pub )?(?:const|type) (?!(?:unsafe )?fn )")
CLAUSE = re.compile(r"\b(?:requires|ensures|ghost)\*?(?: \w+)?\s*$")
TRAIT_ITEM = re.compile(r"^( +)(fn|const|type|ghost) (\w+)")


class Tree:
    """The files of the repository, some of which may be replaced: a self-test reads false documents so. It keeps which were read."""

    kept, listed = {}, {}

    def __init__(self, replaced=None):
        self.replaced, self.asked = replaced or {}, set()

    def read(self, path):
        self.asked.add(path)
        if path in self.replaced:
            return self.replaced[path]
        if path not in self.kept:
            with open(f"{ROOT}/{path}", encoding="utf-8", errors="replace") as it:
                self.kept[path] = it.read()
        return self.kept[path]

    def has(self, path):
        return path in self.replaced or os.path.exists(f"{ROOT}/{path}")

    def files(self, *folders, ending=""):
        """The paths of the files in these folders, and in theirs."""
        if (folders, ending) not in self.listed:
            walks = [(top, inner, names) for it in folders for top, inner, names in os.walk(f"{ROOT}/{it}") if not re.search(r"/(?:out|target|__pycache__)(?:/|$)", top)]
            self.listed[folders, ending] = sorted(os.path.relpath(f"{top}/{it}", ROOT) for top, _, names in walks for it in names if it.endswith(ending))
        return self.listed[folders, ending]

    def crates(self, of="crates.txt"):
        """The crates of crates.txt, in its order."""
        rows = (row.split("#")[0].partition(":") for row in self.read(of).split("\n"))
        return [head.split()[0] for head, colon, _ in rows if colon]

    def crates_of_tests(self):
        """The crates of tests that aren't in crates.txt, where there are some."""
        return self.crates("tests/crates-of-tests.txt") if self.has("tests/crates-of-tests.txt") else []


def stop(why):
    sys.exit(f"write_docs: {why}")


def wrap(text, first="", then=""):
    return textwrap.fill(text, WIDTH, initial_indent=first, subsequent_indent=then, break_long_words=False, break_on_hyphens=False)


def slug(heading):
    """The anchor of a heading, as GitHub makes it."""
    return re.sub(r"[^\w\- ]", "", heading.lower()).replace(" ", "-")


class Anchors:
    """The anchors of a page's headings, in order: one that comes again gets a number."""

    def __init__(self):
        self.counts = {}

    def of(self, heading):
        plain = slug(heading)
        count = self.counts[plain] = self.counts.get(plain, -1) + 1
        return f"{plain}-{count}" if count else plain


def text_before(rows, at):
    """The doc comment above a row, without its marks."""
    found = []
    while at > 0 and re.match(r" *(///|#\[)", rows[at - 1]):
        at -= 1
        if rows[at].lstrip().startswith("///"):
            found.insert(0, re.sub(r"^ */// ?", "", rows[at]))
    return found


def derived_before(rows, at):
    """The traits that the attributes above a row derive."""
    found = []
    while at > 0 and re.match(r" *(///|#\[)", rows[at - 1]):
        at -= 1
        derived = re.match(r" *#\[derive\((.*)\)\]", rows[at])
        found = [*(derived[1].replace(" ", "").split(",") if derived else []), *found]
    return found


def head_of(rows, at):
    """A function's signature and clauses, up to its body or the `;` that ends it; a constant as a whole, without its `;`."""
    found, depth, before = [], 0, ""
    ends = ";" if CONSTANT.match(rows[at]) else ";{"
    for row in rows[at:]:
        for i, it in enumerate(row):
            if not depth and it in ends and not (it == "{" and CLAUSE.search(before + row[:i])):
                return [*found, row[:i].rstrip()] if row[:i].strip() else found
            depth += (it in "([{") - (it in ")]}")
        found.append(row)
        before += f"{row}\n"
    stop(f"this has no end: {rows[at]}")


def has_body(rows, at):
    """Whether a function of a trait has a body, so that whoever implements the trait needn't write it."""
    head = head_of(rows, at)
    after = rows[at + len(head) - 1][len(head[-1]) :] or rows[at + len(head)]
    return after.strip().startswith("{")


def body_of(rows, at):
    """The rows of a struct, an enum, a trait or an impl, up to the brace that closes it."""
    if rows[at].endswith((";", "}")):
        return rows[at : at + 1]
    indent = re.match(" *", rows[at])[0]
    end = next(i for i in range(at, len(rows)) if rows[i].startswith(f"{indent}}}"))
    return rows[at : end + 1]


class Item:
    """A public item, where it is declared, and of a type its public methods and the traits that it implements."""

    def __init__(self, kind, name, module, path, rows, at):
        self.kind, self.name, self.module, self.path, self.rows, self.at = kind, name, module, path, rows, at
        self.methods, self.impls = [], []

    def text(self):
        return text_before(self.rows, self.at)


class Impl:
    """What a type implements: the trait as it is written, for which type, with its constants and types, and what its comment says."""

    def __init__(self, module, trait, owner, fixed, text):
        self.module, self.trait, self.owner, self.fixed, self.text = module, trait, owner, fixed, text


class Module:
    """A module: what it declares, the path of each name that its `use` lines bring in, and the names that it passes on."""

    def __init__(self, above=None, is_public=True):
        self.above, self.top, self.is_public = above, above.top if above else self, bool(is_public)
        self.items, self.modules, self.methods, self.impls, self.used, self.passed = {}, {}, [], [], {}, []


def names_of(text):
    """The names that a `use` brings in, each with its path, or None where it isn't understood: `a::{b, c as d}` brings in b and d."""
    while re.search(r"\{[^{}]*\}", text):
        text = re.sub(r"((?:\w+::)*)\{([^{}]*)\}", lambda it: ",".join(it[1] + one.strip() for one in it[2].split(",") if one.strip()), text)
    found = [re.fullmatch(r"((?:\w+::)*\w+?)(?:::self)?(?: as (\w+))?", it.strip()) for it in text.split(",")]
    return None if None in found else [(it[2] or it[1].split("::")[-1], it[1].split("::")) for it in found]


def without_parameters(text):
    """A type or a trait without what stands between `<` and `>` at its end, and that."""
    name, less, rest = text.partition("<")
    return name.strip(), less + rest.strip()


def behind_parameters(text):
    """A text behind the `<..>` that it begins with, where it does."""
    depth = 0
    for i, it in enumerate(text):
        depth += (it == "<") - (it == ">" and text[i - 1] not in "-=")
        if not depth:
            return text[i + (it == ">") :]
    return text


def read_impl(path, rows, at, module):
    """Reads an impl, of a type or of a trait for a type, and returns its last row."""
    head = []
    for row in rows[at:]:
        head.append(row.strip())
        if "{" in row:
            break
    whole = behind_parameters(" ".join(head).partition("{")[0][len("impl") :]).partition(" where ")[0].strip()
    end = at if rows[at].endswith("{}") else rows.index("}", at)
    trait, word, owner = whole.partition(" for ")
    if not word:
        found = [(i, ITEM.match(rows[i])) for i in range(at, end)]
        name, _ = without_parameters(whole)
        module.methods.append((name.split("::"), [Item(it[2], it[3], module, path, rows, i) for i, it in found if it]))
        return end
    fixed = [re.sub(r" +", " ", rows[i].strip().rstrip(";")) for i in range(at, end) if re.match(r"    (type|const) \w+.*;$", rows[i])]
    module.impls.append(Impl(module, trait.strip(), owner.strip(), fixed, text_before(rows, at)))
    return end


def read_module(tree, path, rows, module):
    """Reads the rows of a module, and the modules in it."""
    at = 0
    while at < len(rows):
        row, end = rows[at], at
        inner, use = re.match(r"(pub )?mod (\w+)( \{|;)$", row), re.match(r"(pub )?use ", row)
        item = ITEM.match(row)
        if inner:
            below = module.modules[inner[2]] = Module(module, inner[1])
            if inner[3] == ";":
                file = f"{path[:-3] if module.above else os.path.dirname(path)}/{inner[2]}.rt"
                read_module(tree, file, tree.read(file).split("\n"), below)
            else:
                below.is_public = below.is_public and not any("Passed on" in it for it in text_before(rows, at))
                end = rows.index("}", at)
                read_module(tree, path, [re.sub("^    ", "", it) for it in rows[at + 1 : end]], below)
        elif use:
            end = next(i for i in range(at, len(rows)) if ";" in rows[i])
            names = names_of(" ".join(rows[at : end + 1])[use.end() :].partition(";")[0])
            if names is None and use[1]:
                stop(f"{path}: this line isn't understood: {row}")
            module.used.update(names or [])
            module.passed += [it for it, _ in names or [] if use[1]]
        elif item and not item[1]:
            module.items[item[3]] = Item(item[2], item[3], module, path, rows, at)
        elif re.match(r"impl\b", row):
            end = read_impl(path, rows, at, module)
        at = end + 1


class Library:
    """The top module of each library of the repository by its name. Methods and impls stand at their types, and at public traits."""

    kept = {}

    @staticmethod
    def of(tree):
        """The library of the sources as they are, which is read once, or of ones of which some that it is made of are replaced."""
        if not Library.kept:
            sources = Tree()
            made = Library(sources)
            Library.kept = {"made": made, "asked": sources.asked}
        return Library(tree) if tree.replaced.keys() & Library.kept["asked"] else Library.kept["made"]

    def __init__(self, tree):
        self.tops = {}
        for name in tree.crates():
            path = f"crates/{name}/src/lib.rt"
            if tree.has(path):
                self.tops[name] = Module()
                read_module(tree, path, tree.read(path).split("\n"), self.tops[name])
        left = list(self.tops.values())
        while left:
            module = left.pop()
            left += module.modules.values()
            self.place(module)

    def place(self, module):
        for owner, methods in module.methods:
            of = self.find(module, owner)
            if isinstance(of, Item):
                of.methods = sorted(of.methods + methods, key=lambda it: (it.path, it.at))
        for impl in module.impls:
            for text in (impl.owner, impl.trait):
                name, _ = without_parameters(text.lstrip("&"))
                of = self.find(module, name.split("::")) if re.fullmatch(r"[\w:]+", name) else None
                if isinstance(of, Item):
                    of.impls.append(impl)

    def find(self, module, path):
        """What a path that is written in a module names: an item, a module, the name of a crate that isn't of the repository, or None."""
        at = {"crate": module.top, "self": module, "super": module.above, **self.tops}.get(path[0]) or self.find_name(module, path[0]) or path[0]
        for it in path[1:]:
            at = self.find_name(at, it) if isinstance(at, Module) else at if isinstance(at, str) else None
        return at

    def find_name(self, module, name):
        """What a name stands for in a module, as `find` has it."""
        path, found = module.used.get(name), module.items.get(name) or module.modules.get(name)
        if found or not path:
            return found
        return name if path[0] == name and name not in self.tops else self.find(module, path)


def quoted(tree, path, name):
    """What a document quotes: the head of a function, or a definition of a file of specs."""
    rows = tree.read(path).split("\n")
    for at, row in enumerate(rows):
        item = ITEM.match(row)
        if path.endswith(".rt") and item and item[3] == name and item[2] == "fn":
            found = head_of(rows, at)
            least = len(found[0]) - len(found[0].lstrip())
            return "\n".join(it[least:].rstrip() for it in found)
        if path.endswith(".antt") and re.match(rf" *{re.escape(name)} [^:]*=", row):
            end = next((i for i in range(at, len(rows)) if not rows[i].strip() or rows[i].startswith("--")), len(rows))
            return "\n".join(rows[at:end])
    stop(f"{path} has no {name}")
