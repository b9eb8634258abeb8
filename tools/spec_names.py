"""What the names of definitions stand for: items of other files, types of Rust code, or what is of the toolchain's libraries.

`Specs` reads all files of specs. `Walk` goes through the words of one item with the names that are bound where each stands."""
from spec_items import KEYWORDS, SpecModule, blocks, closing, top_level

IGNORED = KEYWORDS | {"(", ")", "{", "}", ";", ",", ".", "@"}


class Specs:
    """The files of specs by crate and name."""

    kept = {}

    def __init__(self, tree):
        self.modules = {}
        for crate in tree.crates():
            for path in tree.files(f"crates/{crate}/specs", ending=".antt"):
                name = path[len(f"crates/{crate}/specs/") : -len(".antt")].replace("/", ".")
                self.modules[crate, name] = self.read(crate, name, path, tree.read(path))
        self.crates = {crate for crate, _ in self.modules}

    def read(self, crate, name, path, text):
        """A file of specs, which is read once, also where another file is replaced."""
        if (path, text) not in self.kept:
            self.kept[path, text] = SpecModule(crate, name, path, text.split("\n"))
        return self.kept[path, text]

    def has_names_of(self, others):
        """Whether each name of a file of others stands for the same here, so that what names it there and isn't replaced uses the same here."""
        alike = {*self.modules} == {*others.modules}
        return alike and all(self.modules[key] is it or it.names().items() <= self.modules[key].names().items() for key, it in others.modules.items())

    def has_file_of(self, others, item):
        """Whether this item's file is the one that others have."""
        key = (item.module.crate, item.module.name)
        return self.modules[key] is others.modules[key]

    def here(self, found):
        """What something that a name stood for in other files is in these."""
        return ("item", self.modules[found[1].module.crate, found[1].module.name].items[found[1].name]) if found[0] == "item" else found

    def resolve(self, path):
        """What a path stands for: ("item", item), ("module", crate, name), ("rust", crate, path), or ("kit", name)."""
        if path[0] != "Rattle" or len(path) < 3 or path[1] not in self.crates:
            return ("kit", path[-1])
        return self.below(("module", path[1], "Lib"), path[3:], path)

    def below(self, at, path, whole):
        for i, name in enumerate(path):
            if at[0] == "module" and name in ("declared", "contracts") and at[2] == "Lib":
                return ("rust", at[1], path[i + 1 :])
            at = self.inside(at, name)
            if at is None:
                raise LookupError(".".join(whole))
            if at[0] in ("rust", "kit"):
                return (*at[:2], [*at[2], *path[i + 1 :]]) if at[0] == "rust" else at
        return at

    def inside(self, at, name):
        """What a module has under a name."""
        if at[0] != "module":
            return at if at[0] == "rust" else None
        module = self.modules[at[1], at[2]]
        for item in module.order:
            if name == item.name or name in item.constructors:
                return ("item", item)
        if name in module.passed:
            return self.resolve(module.passed[name])
        if name in module.modules:
            inner = name if at[2] == "Lib" else f"{at[2]}.{name}"
            return ("module", at[1], inner)
        return None

    def name_in(self, module, name):
        """What a name stands for in a file, or None where it has none of that name."""
        if name in module.items:
            return ("item", module.items[name])
        found = next((it for it in module.order if name in it.constructors), None)
        if found:
            return ("item", found)
        return self.resolve(module.used[name]) if name in module.used else None


class Names:
    """The names of a file of specs: what each stands for, and operators by their parts."""

    def __init__(self, specs, module):
        self.specs, self.module, self.kept = specs, module, {}
        self.operators = [it for it in [*module.used, *module.items] if "◌" in it]
        for it in module.order:
            self.operators += [one for one in it.constructors if "◌" in one]

    def find(self, name):
        if name not in self.kept:
            self.kept[name] = self.specs.name_in(self.module, name)
        return self.kept[name]

    def is_constructor(self, name):
        found = self.find(name)
        if found is None:
            return False
        if found[0] == "item":
            return name in found[1].constructors or (name in self.module.used and self.module.used[name][-1] in found[1].constructors)
        return found[0] in ("rust", "kit")

    def is_operator_part(self, name):
        return any(name in it.split("◌") for it in self.operators)


class Walk:
    """The names that the words of an item use, given what is bound around it."""

    def __init__(self, names):
        self.names, self.found, self.named, self.unknown = names, [], set(), set()

    def use(self, name, path=()):
        self.named.add(name)
        found = self.names.find(name)
        if found is None:
            return self.unknown.add(".".join([name, *path]))
        if path and found[0] == "module":
            found = self.names.specs.below(found, list(path), [name, *path])
        elif path and found[0] == "rust":
            found = ("rust", found[1], [*found[2], *path])
        return self.found.append(found)

    def segments(self, tokens, first, last, bound):
        """Terms that `,`, `;` or `|` set apart."""
        cuts = [first - 1, *top_level(tokens, first, last, ",", ";", "|"), last]
        for begin, end in zip(cuts, cuts[1:]):
            self.term(tokens, begin + 1, end, bound)

    def term(self, tokens, first, last, bound):
        at, bound = first, set(bound)
        while at < last:
            word = tokens[at].text
            step = self.STEPS.get(word)
            at = step(self, tokens, at, last, bound) if step else self.name(tokens, at, last, bound)

    def name(self, tokens, at, last, bound):
        word, path, at = tokens[at].text, [], at + 1
        while at + 1 < last and tokens[at].text == "." and tokens[at].is_joined and tokens[at + 1].is_joined:
            path.append(tokens[at + 1].text)
            at += 2
        if word in bound or word in IGNORED or word[0].isdigit() or word.startswith("?"):
            return at
        if self.names.is_operator_part(word) and not self.names.find(word):
            self.operator(word, tokens)
        else:
            found = self.names.find(word)
            self.use(word, path if found and found[0] in ("module", "rust") else ())
        return at

    def operator(self, word, tokens):
        """Each operator with this part whose other parts are there too."""
        texts = {it.text for it in tokens}
        for it in self.names.operators:
            parts = {part for part in it.split("◌") if part}
            if word in parts and parts <= texts:
                self.use(it)

    def group(self, tokens, at, last, bound):
        """`(x y : A)` binds x and y behind it; else it is a term, or several."""
        end = closing(tokens, at, last)
        colon = top_level(tokens, at + 1, end, ":")
        if colon and all(it.text not in IGNORED or it.text == "_" for it in tokens[at + 1 : colon[0]]):
            self.term(tokens, colon[0] + 1, end, bound)
            bound.update(it.text for it in tokens[at + 1 : colon[0]])
            return end + 1
        if tokens[at].text == "{":
            equals = top_level(tokens, at + 1, end, "=")
            if equals:
                self.term(tokens, equals[0] + 1, end, bound)
                return end + 1
            bound.update(it.text for it in tokens[at + 1 : end] if it.text in ("ℓ", "κ"))
        self.segments(tokens, at + 1, end, bound)
        return self.fields(tokens, end + 1, last)

    def fields(self, tokens, at, last):
        """Past the fields behind a bracket."""
        while at + 1 < last and tokens[at].text == "." and tokens[at].is_joined:
            at += 2
        return at

    def bracket(self, tokens, at, last, bound):
        """The cases of an `elim`."""
        end = closing(tokens, at, last)
        cuts = [at, *top_level(tokens, at + 1, end, "|"), end]
        for begin, stop in zip(cuts, cuts[1:]):
            arrow = top_level(tokens, begin + 1, stop, "↦")
            if not arrow:
                self.term(tokens, begin + 1, stop, bound)
                continue
            inner = set(bound)
            self.pattern(tokens, begin + 1, arrow[0], inner)
            self.term(tokens, arrow[0] + 1, stop, inner)
        return end + 1

    def function(self, tokens, at, last, bound):
        at += 1
        while tokens[at].text != ".":
            if tokens[at].text in ("(", "{"):
                end = closing(tokens, at, last)
                colon = top_level(tokens, at + 1, end, ":")
                if colon:
                    self.term(tokens, colon[0] + 1, end, bound)
                    bound.update(it.text for it in tokens[at + 1 : colon[0]])
                else:
                    self.pattern(tokens, at + 1, end, bound)
                at = end + 1
            else:
                bound.add(tokens[at].text)
                at += 1
        return at + 1

    def pattern(self, tokens, first, last, bound):
        """The variables of a pattern are bound, and its constructors used."""
        at = first
        while at < last:
            word = tokens[at].text
            if word == "{" and at + 2 < last and tokens[at + 2].text == "=":
                at += 2
            elif word in ("(", "{", "}", ")", ",", "=") or word in KEYWORDS or word[0].isdigit():
                pass
            elif tokens[at - 1].text == "." and tokens[at].is_joined:
                pass
            elif at + 2 < last and tokens[at + 1].text == "." and tokens[at + 1].is_joined:
                path = [tokens[at + 2].text]
                while at + 4 < last and tokens[at + 3].text == "." and tokens[at + 3].is_joined:
                    path.append(tokens[at + 4].text)
                    at += 2
                self.use(word, path)
            elif self.names.is_constructor(word):
                self.use(word)
            elif self.names.is_operator_part(word):
                self.operator(word, tokens)
            else:
                bound.add(word)
            at += 1

    def let(self, tokens, at, last, bound):
        """`let x : T = e in ..`."""
        depth, end = 0, at
        for end in range(at, last):
            depth += (tokens[end].text == "let") - (tokens[end].text == "in")
            if not depth:
                break
        equals = top_level(tokens, at + 1, end, "=")[0]
        colon = [it for it in top_level(tokens, at + 1, equals, ":")]
        if colon:
            self.term(tokens, colon[0] + 1, equals, bound)
        self.term(tokens, equals + 1, end, bound)
        self.pattern(tokens, at + 1, colon[0] if colon else equals, bound)
        return end + 1

    def literal(self, tokens, at, last, bound):
        """`record { a = e; b = e }` and `record r { a = e }`, whose labels are fields."""
        at += 1
        if tokens[at].text != "{":
            at = self.STEPS["("](self, tokens, at, last, bound) if tokens[at].text == "(" else self.name(tokens, at, last, bound)
        end = closing(tokens, at, last)
        cuts = [at, *top_level(tokens, at + 1, end, ";"), end]
        for begin, stop in zip(cuts, cuts[1:]):
            if stop > begin + 1:
                self.term(tokens, top_level(tokens, begin + 1, stop, "=")[0] + 1, stop, bound)
        return end + 1

    def actions(self, tokens, at, last, bound):
        """`do`, with one action to a row, of which `x ← e` binds x in the rows behind it."""
        self.use("◌>>=◌")
        column, begin = tokens[at + 1].column, at + 1
        rows = [i for i in range(begin, last) if tokens[i].column == column and (i == begin or tokens[i - 1].row < tokens[i].row)]
        for first, end in zip(rows, [*rows[1:], last]):
            arrow = top_level(tokens, first, end, "←")
            self.term(tokens, arrow[0] + 1 if arrow else first, end, bound)
            if arrow:
                self.pattern(tokens, first, arrow[0], bound)
        return last

    STEPS = {"(": group, "{": group, "[": bracket, "λ": function, "let": let, "record": literal, "do": actions}


def bind_header(walk, tokens, bound):
    """The parameters of a `module _`."""
    at = next((i for i, it in enumerate(tokens) if it.text in ("(", "{")), len(tokens))
    walk.term(tokens, at, len(tokens), bound)
    while at < len(tokens):
        end = closing(tokens, at, len(tokens)) if tokens[at].text in ("(", "{") else at
        colon = top_level(tokens, at + 1, end, ":") or [at]
        bound.update(it.text for it in tokens[at + 1 : colon[0]])
        at = end + 1


def walk_type(walk, tokens, item, bound):
    """A `data` or a `record`: its parameters, its kind, and its constructors or fields."""
    colon = top_level(tokens, 0, len(tokens), ":")[0]
    where = top_level(tokens, 0, len(tokens), "where")[0]
    at = next(i for i, it in enumerate(tokens) if it.text == item.name) + 1
    while at < colon:
        if tokens[at].text in ("(", "{"):
            at = walk.group(tokens, at, colon, bound)
        else:
            at += 1
    walk.term(tokens, colon + 1, where, bound)
    for begin, end in blocks(tokens, where + 1, len(tokens)):
        middle = top_level(tokens, begin, end, ":")[0]
        walk.term(tokens, middle + 1, end, bound)
        if item.kind == "record":
            bound.update(it.text for it in tokens[begin:middle] if it.text != "pub")


def walk_definition(walk, tokens, item, bound, is_signature):
    if is_signature:
        return walk.term(tokens, top_level(tokens, 0, len(tokens), ":")[0] + 1, len(tokens), bound)
    equals = top_level(tokens, 0, len(tokens), "=")[0]
    inner, first = set(bound), 0 if "◌" in item.name else 1
    walk.pattern(tokens, first, equals, inner)
    return walk.term(tokens, equals + 1, len(tokens), inner)


def uses_of(names, item):
    """What an item uses, and the names in it that stand for nothing."""
    walk, bound = Walk(names), set()
    for section in item.sections:
        if section.binds:
            bind_header(walk, section.header, bound)
    for at, part in enumerate(item.parts):
        if item.kind == "def":
            walk_definition(walk, part, item, bound, not at)
        else:
            walk_type(walk, part, item, set(bound))
    item.named = walk.named
    return walk.found, walk.unknown
