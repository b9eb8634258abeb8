"""The definitions of the crates, as they are written: the items of a file of specs, and the names that each of them uses.

A file is read by its layout: items begin at the left, those of a `module _` or a `mutual` where that begins. Names are resolved as antt resolves
them: a variable of a pattern, a `λ`, a binder, a field or a `let` hides an item of that name; then come the items of the file, and those that its
`use` lines bring in. No type is looked at, so a name behind a dot is a field unless what stands before it is a module."""
import re

KEYWORDS = set(
    "→ × ↦ = | : λ . data record deriving module where use mod pub package open as unfoldable abbrev axiom unfold unfolding mutual infix infixl infixr "
    "elim let in do Type ℓ _ [ ] ← ⊥ ⊤ₛ Unit tt absurd ¬".split()
)
MARKS = {"pub", "abbrev", "unfoldable", "pattern"}


class Token:
    """A word of a file: its text, its row and column, and whether it stands directly behind the word before it."""

    __slots__ = ("text", "row", "column", "is_joined")

    def __init__(self, text, row, column, is_joined):
        self.text, self.row, self.column, self.is_joined = text, row, column, is_joined


# A space, a comment to the end of its row, the begin of another one, or a word.
PIECE = re.compile(r"\s+|--.*|\{-|«[^»]*»|[(){}.;,@\"]|[^\s(){}.;,@\"]+")


def tokens_of(rows, first=0):
    """The words of these rows, without comments."""
    found, is_comment, match = [], False, PIECE.match
    for row, text in enumerate(rows, first):
        at, end = 0, 0
        while at < len(text):
            if is_comment:
                at = text.find("-}", at)
                is_comment, at = at < 0, len(text) if at < 0 else at + 2
                continue
            begin, piece = at, match(text, at)
            word, at = piece[0], piece.end()
            if word == "{-":
                is_comment, at = True, begin
            elif not word[0].isspace() and not word.startswith("--"):
                found.append(Token(word.strip("«»"), row, begin, begin == end and begin > 0))
                end = at
    return found


def closing(tokens, at, last):
    """The place of the bracket that closes the one at this place."""
    depth, pairs = 0, {"(": ")", "{": "}", "[": "]"}
    close, open_ = pairs[tokens[at].text], tokens[at].text
    for i in range(at, last):
        depth += (tokens[i].text == open_) - (tokens[i].text == close)
        if not depth:
            return i
    return last


def top_level(tokens, first, last, *texts):
    """The places of these words outside of brackets."""
    at, found = first, []
    while at < last:
        if tokens[at].text in texts:
            found.append(at)
        at = closing(tokens, at, last) + 1 if tokens[at].text in ("(", "{", "[") else at + 1
    return found


class Item:
    """A definition: its kind, its names (a type's also those of its constructors), its rows, and the names that it uses."""

    def __init__(self, kind, name, module, sections):
        self.kind, self.name, self.module, self.sections = kind, name, module, sections
        self.parts, self.constructors, self.named = [], [], set()

    @property
    def key(self):
        return (self.module.crate, self.module.name, self.name)

    def rows(self):
        """The rows that it takes, without comments and blank ones."""
        return sorted({it.row for part in self.parts for it in part})

    def first(self):
        return min(it.row for part in self.parts for it in part)

    def last(self):
        return max(it.row for part in self.parts for it in part)


class Path(list):
    """A path of a `use` line; one in braces is an item, and one without a module."""

    is_item = False


class Section:
    """A `module _` or a `mutual`: its header, and the one around it."""

    def __init__(self, header, binds):
        self.header, self.binds = header, binds

    def rows(self):
        return sorted({it.row for it in self.header})


class SpecModule:
    """A file of specs: its items by name, what its `use` lines bring in, what it passes on, and the modules in it."""

    def __init__(self, crate, name, path, rows):
        self.crate, self.name, self.path, self.lines = crate, name, path, rows
        self.items, self.used, self.passed, self.modules, self.fixities = {}, {}, {}, [], {}
        self.order = []
        self.read(tokens_of(rows))

    def read(self, tokens):
        for block in blocks(tokens, 0, len(tokens)):
            self.read_block(tokens, *block, [])

    def names(self):
        """What each name that others may use of it stands for: an item by its name, a path, or a module. Of two items the first counts, and before
        what is passed on and modules."""
        found = {**dict.fromkeys(self.modules, "a module"), **{name: ".".join(path) for name, path in self.passed.items()}}
        for item in reversed(self.order):
            found.update(dict.fromkeys([item.name, *item.constructors], item.name))
        return found

    def read_block(self, tokens, first, last, sections):
        words = [it.text for it in tokens[first : min(first + 6, last)]]
        plain = [it for it in words if it not in MARKS]
        if plain[0] == "use":
            self.read_use(tokens, first, last, words[0] == "pub")
        elif plain[0] == "mod":
            self.modules.append(plain[1])
        elif plain[0] in ("module", "mutual"):
            self.read_section(tokens, first, last, sections, plain[0])
        elif plain[0] in ("data", "record") and "where" in [it.text for it in tokens[first:last]]:
            name = next(it.text for it in tokens[first:last] if it.text not in MARKS | {"data", "record"})
            item = self.add(plain[0], name, sections, tokens[first:last])
            if plain[0] == "data":
                item.constructors = constructors_of(tokens, first, last)
        elif plain[0] in ("infix", "infixl", "infixr"):
            self.fixities[words[-1] if len(words) < 4 else words[2]] = tokens[first:last]
        elif plain[0] == "unfolding":
            pass
        else:
            self.read_definition(tokens, first, last, sections)

    def read_use(self, tokens, first, last, is_passed):
        text = "".join(f" {it.text} " if it.text == "as" else it.text for it in tokens[first:last])
        for name, path in paths_of(text[text.index("use") + 3 :]):
            (self.passed if is_passed else self.used)[name] = path
            self.used[name] = path

    def read_section(self, tokens, first, last, sections, kind):
        inner = first + next(i for i, it in enumerate(tokens[first:last]) if it.text == kind) + 1
        if kind == "module":
            inner = top_level(tokens, first, last, "where")[0] + 1
        section = Section(tokens[first:inner], kind == "module")
        for block in blocks(tokens, inner, last):
            self.read_block(tokens, *block, [*sections, section])

    def read_definition(self, tokens, first, last, sections):
        """A signature, or a clause of an item whose signature stands above it."""
        head = next(i for i in range(first, last) if tokens[i].text not in MARKS)
        name, after = tokens[head].text, tokens[head + 1].text if head + 1 < last else ""
        colon = top_level(tokens, head, last, ":")
        equals = top_level(tokens, head, last, "=")
        is_signature = after == ":" or after == "{" and colon and (not equals or colon[0] < equals[0]) and name not in self.items
        if is_signature:
            self.add("def", name, sections, tokens[first:last])
        elif name in self.items and self.items[name].kind == "def":
            self.items[name].parts.append(tokens[first:last])
        elif self.order and "◌" in self.order[-1].name:
            self.order[-1].parts.append(tokens[first:last])
        else:
            raise SystemExit(f"{self.path}:{tokens[first].row + 1}: this isn't understood: {' '.join(it.text for it in tokens[first:last][:12])}")

    def add(self, kind, name, sections, part):
        item = self.items[name] = Item(kind, name, self, sections)
        item.parts.append(part)
        self.order.append(item)
        return item


def blocks(tokens, first, last):
    """What begins at the column of the first of these words, each up to the next that does."""
    if first >= last:
        return []
    column = tokens[first].column
    is_first = [i == first or tokens[i - 1].row < tokens[i].row for i in range(first, last)]
    begins = [i for i in range(first, last) if is_first[i - first] and tokens[i].column <= column and tokens[i].text not in (")", "}", "]")]
    return list(zip(begins, [*begins[1:], last]))


def constructors_of(tokens, first, last):
    inner = top_level(tokens, first, last, "where")[0] + 1
    found = []
    for begin, end in blocks(tokens, inner, last):
        colon = top_level(tokens, begin, end, ":")[0]
        found += [it.text for it in tokens[begin:colon] if it.text not in MARKS]
    return found


def paths_of(text):
    """The names that a `use` brings in, each with its path: `A.{b, c as d, E.{f}}` and `A.B as C`."""
    text, renamed = text.strip(), None
    brace = text.find(".{")
    if brace < 0:
        path, _, renamed = text.partition(" as ")
        return [((renamed or path.split(".")[-1]).strip(), Path(path.strip().split(".")))]
    front, inner, found = text[:brace].split("."), text[brace + 2 : text.rindex("}")], []
    depth, part = 0, ""
    for it in [*inner, ","]:
        depth += (it == "{") - (it == "}")
        if it == "," and not depth:
            for name, path in paths_of(part) if part.strip() else []:
                found.append((name, Path([*front, *path])))
                found[-1][1].is_item = True
            part = ""
        else:
            part += it
    return found
