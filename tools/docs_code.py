"""What documents say of code: the functions, definitions, files of definitions and crates that they name."""
import re

from docs_sources import behind_parameters, head_of
from docs_texts import by_hand, paragraphs, present, prose, ticked

DEFINITION = re.compile(r"(?m)^(?: *(?:(?:abbrev|unfoldable|record|data|pub|rec|module) )+| +(?=\w+ :)|)([^\W\d]\w*)")
# What a document may name that no source of the repository does: the kit's files, tools of other projects, and what a reader is to replace.
FOREIGN = set(
    "rt stdout SHORTER_PROOFS wasm wabt valgrind callgrind gcc node pkg clap anyhow serde_json bitflags indexmap core hex wasmparser NAME SUBJECT CRATE FILE TEXT "
    "MESSAGE OFFSET FOLDER BUILD must_fail out data start_io start_lib rt1 rt2 Send Sync "
    # operators that are left out
    "suspend resume resume_throw resume_throw_ref switch cont ref br_on_cast_desc_eq br_on_cast_desc_eq_fail".split()
)


class Code:
    """What the crates have: functions with the clauses of their contracts, types, definitions by file, and all names of all sources."""

    kept = {}

    def __init__(self, tree):
        self.tree, self.functions, self.types, self.clauses = tree, {}, {}, {}
        self.names, self.paths, self.definitions = set(), set(), {}
        for path in [*tree.files("crates", ending=".rt"), *tree.files("tests", ending=".rt.test")]:
            self.read_code(path)
        for path in [*tree.files("crates", ending=".antt")]:
            text = tree.read(path)
            self.names.update(re.findall(r"[^\W\d]\w*", text))
            if "/specs/" in path:
                crate, _, rest = path[len("crates/") : -len(".antt")].partition("/specs/")
                self.definitions[crate, rest.split("/")[-1]] = set(DEFINITION.findall(text))
        for path in [*tree.files("c", "include", "bin", "examples", "tests", "tools", ".ci"), "crates.txt"]:
            if not re.search(r"tools/(?:docs_|write_docs)|\.(?:pyc|svg|o|so|a)$", path):
                self.names.update(re.findall(r"[^\W\d]\w*", tree.read(path)))
        self.files = {it.split("/")[-1] for it in tree.files("crates", "tests", "c", "include", "bin", "tools", "examples", "docs", ".ci")}

    @staticmethod
    def of(tree):
        """The code, which is the same for all documents."""
        if not Code.kept:
            Code.kept[0] = Code(tree)
        return Code.kept[0]

    def read_code(self, path):
        crate = path.split("/")[1]
        functions, types = self.functions.setdefault(crate, set()), self.types.setdefault(crate, set())
        rows, owners = self.tree.read(path).split("\n"), []
        self.names.update(re.findall(r"[^\W\d]\w*", self.tree.read(path)))
        self.paths.update(re.findall(r"(?=\b(\w+::\w+))", self.tree.read(path)))
        for at, row in enumerate(rows):
            block = re.match(r"(?:    )?(?:pub )?(impl|trait)\b(.*)", row)
            if block and not row.endswith(";"):
                head = behind_parameters(" ".join(it.strip() for it in rows[at : at + 6]).partition("{")[0].partition(block[1])[2])
                parts = head.partition(" where ")[0].partition(": ")[0].split(" for ")
                owners = [re.sub(r"<.*", "", it).strip(" &").split("::")[-1] for it in parts]
            elif row == "}":
                owners = []
            function = re.match(r" *(?:pub(?:\(crate\))? )?(?:unsafe )?(?:extern \"C\" )?(?:const )?fn (\w+)", row)
            if function:
                functions.update([function[1], *(f"{it}::{function[1]}" for it in owners)])
                self.paths.update(f"{it}::{function[1]}" for it in owners)
                for it in head_of(rows, at):
                    clause = re.match(r" *ensures (\w+) \{", it)
                    if clause:
                        self.clauses.setdefault((crate, function[1]), set()).add(clause[1])
            kind = re.match(r" *(?:pub(?:\(crate\))? )?(?:struct|enum|trait|type) (\w+)", row)
            if kind:
                types.add(kind[1])

    def has_function(self, crate, name):
        """Whether a crate has this function, or these: `read_*` is each that begins so."""
        if name.endswith("*"):
            return any(it.startswith(name[:-1]) for it in self.functions.get(crate, ()))
        return name in self.functions.get(crate, ())

    def has_item(self, crate, name):
        return self.has_function(crate, name) or name in self.types.get(crate, ()) or any(name in its for (of, _), its in self.definitions.items() if of == crate)

    def has_clause(self, crates, name, function=None):
        plain = function and function.split("::")[-1]
        return any(name in its for (crate, of), its in self.clauses.items() if crate in crates and plain in (None, of))


def rows_of_proved(tree):
    """Each row of a table of docs/PROVED.md: its line, its crates, and what states the fact."""
    crates, section = [], []
    for at, row in enumerate(tree.read("docs/PROVED.md").split("\n"), 1):
        if row.startswith("#"):
            section = []
        cells = [it.strip() for it in row.strip().strip("|").split("|")]
        if not row.startswith("|") or len(cells) != 3 or cells[0] == "Crate" or set(cells[0]) == {"-"}:
            continue
        if cells[0]:
            crates = list(section) if cells[0] == "all of these" else ticked(cells[0])
            section += crates
        yield at, crates, cells[2]


def check_functions(tree):
    """docs/PROVED.md: each function, type and definition that a row names is one of its crates, and each clause is one of its function."""
    code = Code.of(tree)
    for at, crates, text in rows_of_proved(tree):
        found = []
        for part in text.split(";"):
            whole = part
            others = [it for it in re.findall(r" of `(\w+)`", part) if it in code.functions]
            part = re.sub(r" of `(?:%s)`" % "|".join(others), "", part) if others else part
            here = others or crates
            of_each = " of each" in part
            for clauses, function in re.findall(r"((?:`\w+`(?:, | and )?)+) of `([\w:]+)`", part):
                for clause in ticked(clauses):
                    is_function = any(code.has_function(it, clause) for it in here)
                    if not is_function and not code.has_clause(here, clause, function):
                        yield f"docs/PROVED.md:{at}: `{function}` of {' '.join(here)} has no clause `{clause}`"
            part = re.sub(r"((?:`\w+`(?:, | and )?)+) of (?=`[\w:]+`)", "", part)
            last = None
            for before, name in re.findall(r"(\(?)`([^`]+)`", part):
                if before or of_each:
                    if not code.has_clause(here, name, None if of_each else last):
                        yield f"docs/PROVED.md:{at}: {last or 'no function'} of {' '.join(here)} has no clause `{name}`"
                    continue
                whole_name = name if not name.startswith("_") or not last else next((it for crate in here for it in code.functions[crate] if it.endswith(name)), name)
                has = [crate for crate in here if code.has_item(crate, whole_name)]
                found += has
                if not has:
                    yield f"docs/PROVED.md:{at}: {' '.join(here)} has no `{name}`"
                last = name
        left = [it for it in crates if found and it not in found and len(crates) < 4 and "each" not in text]
        if left and not re.search(r" of `wasm", whole):
            yield f"docs/PROVED.md:{at}: nothing that it names is of {' '.join(left)}"


def bullets_of_definitions(tree):
    """Each bullet of docs/DEFINITIONS.md up to its colon: its line, the crates of its section, and that text."""
    crates, found = [], []
    for at, text in paragraphs(prose(tree, "docs/DEFINITIONS.md")):
        if text.startswith("#"):
            crates = [it for it in ticked(text) if text.startswith("###")]
        elif text.startswith("- ") and crates:
            depth, end = 0, len(text)
            for i, it in enumerate(text):
                depth += (it == "(") - (it == ")")
                if it == ":" and not depth and text[i + 1 : i + 2] in (" ", ""):
                    end = i
                    break
            found.append((at, crates, text[2:end]))
    return found


def check_definitions(tree):
    """docs/DEFINITIONS.md: each definition is in the file, and the crate, that the brackets behind it name."""
    code = Code.of(tree)
    known = set(tree.crates())
    for at, crates, text in bullets_of_definitions(tree):
        names = []
        for part in re.split(r"(\([^()]*(?:\([^()]*\)[^()]*)*\))", text):
            if not part.startswith("("):
                names += ticked(part)
                continue
            here, files, are_more = list(crates), [], "a file for each" in part
            words = re.sub(r"(`\w+`) of (`\w+`)", r"\2 \1", part)
            for word in ticked(words.split("; Validation")[0].split("; Binary")[0].split("; Structure")[0]):
                if word in known:
                    here = [word]
                else:
                    files += [(crate, word) for crate in here]
            if are_more:
                files += [it for it in code.definitions if it[0] in {*crates, *(word for word in ticked(part) if word in known)}]
            missing = [f"{file}.antt" for file in {it[1] for it in files} if not any(it in code.definitions for it in files if it[1] == file)]
            for file in missing:
                yield f"docs/DEFINITIONS.md:{at}: {' '.join(sorted({it[0] for it in files}))} has no specs/{file}"
            for name in names if files and not missing else []:
                if not any(name in code.definitions.get(it, ()) for it in files):
                    yield f"docs/DEFINITIONS.md:{at}: no `{name}` in {', '.join(sorted({f'{crate}/specs/{file}.antt' for crate, file in files})[:4])}"
            names = []


def check_names(tree):
    """Each name in backticks is a name of some source: a function, a definition, a variant, a feature, a crate or a tool."""
    code = Code.of(tree)
    known = code.names | FOREIGN | {it.split(".")[0] for it in code.files}
    for path in by_hand(tree):
        for at, text in present(tree, path):
            if path == "docs/DIFFERENCES.md" and text.startswith("|"):
                text = text.split(" | ", 1)[-1]
            for word in ticked(text):
                is_name = re.fullmatch(r"[\w:*]+", word) and not re.fullmatch(r"[0-9a-fx]+", word)
                names = re.findall(r"[^\W\d]\w*", word) if is_name else []
                names = [it for it in names if it not in known and not (it[-1] == "_" or it[0] == "_") or it[-1] == "_" and not any(o.startswith(it) for o in known)]
                pairs = [f"{a}::{b}" for a, b in re.findall(r"(?=\b([A-Z]\w+)::(\w+)(?![\w*]))", word)]
                if names or any(it not in code.paths for it in pairs):
                    yield f"{path}:{at}: no source has the name `{word}`"


def check_crates(tree):
    """docs/ARCHITECTURE.md has each crate once, docs/PROVED.md each, and docs/DEFINITIONS.md each that has definitions; layers cover all crates."""
    crates = tree.crates()
    listed, is_list = [], False
    for at, text in present(tree, "docs/ARCHITECTURE.md"):
        if text.startswith("#"):
            is_list = text == "## The crates"
        elif is_list and text.startswith("- "):
            listed += ticked(text.partition(":")[0])
    for name in crates:
        if listed.count(name) != 1:
            yield f"docs/ARCHITECTURE.md: its list of crates has {name} {listed.count(name)} times"
    for name in listed:
        if name not in [*crates, *tree.crates_of_tests()]:
            yield f"docs/ARCHITECTURE.md: crates.txt has no {name}"
    proved = {it for _, its, _ in rows_of_proved(tree) for it in its} - (set(tree.crates_of_tests()) - set(crates))
    for name in sorted(set(crates) ^ proved):
        yield f"docs/PROVED.md: {f'it has no row for {name}' if name in crates else f'crates.txt has no {name}'}"
    text = tree.read("docs/DEFINITIONS.md")
    sections = ticked(" ".join(re.findall(r"(?m)^### (.*)$", text)))
    left_out = set(ticked(text.partition("\n## ")[0])) & set(crates)
    has = {it.split("/")[1] for it in [f for name in crates for f in tree.files(f"crates/{name}/specs", ending=".antt")] if not it.endswith("/Lib.antt")}
    for name in sorted(has - set(sections) - left_out):
        yield f"docs/DEFINITIONS.md: it has no section on {name}, which has definitions"
    for name in sorted(set(sections) - set(crates)):
        yield f"docs/DEFINITIONS.md: crates.txt has no {name}"
    for path in ("README.md", "docs/ARCHITECTURE.md"):
        layers = re.search(r"(?s)## The layers\n+(.*?)\n\n(?!    )", tree.read(path))
        names = [it.rstrip(",") for row in layers[1].split("\n") for it in re.split(r"  +", row.strip())[0].split(" ")] if layers else []
        bare = [it.lstrip("_") for it in names]
        for name in crates if names else []:
            if not any(name.startswith(it) or it and name.endswith(f"_{it}") for it in bare):
                yield f"{path}: no layer has {name}"


def check_rules(tree):
    """docs/ARCHITECTURE.md, "Where each rule lives": each file that is named behind a crate is one of its definitions, proofs or code."""
    code, crates = Code.of(tree), set(tree.crates())
    files = {crate: {it.split("/")[-1].rpartition(".")[0] for it in tree.files(f"crates/{crate}/specs", f"crates/{crate}/proofs")} for crate in crates}
    for path in ("docs/ARCHITECTURE.md", "docs/PROOF.md", "docs/THEOREM.md"):
        for at, text in present(tree, path):
            for crate, names in re.findall(r"`(\w+)`:? ((?:`[A-Z]\w+`(?:, (?=`[A-Z]))?)+)", text):
                for name in ticked(names) if crate in crates else []:
                    if name not in files[crate] and not code.has_item(crate, name):
                        yield f"{path}:{at}: {crate} has no {name}"
            for name in re.findall(r"[(;,] ?`([A-Z]\w+)`(?=[,;)])", text) if path.endswith("PROOF.md") else []:
                if not any(name in its for its in (*files.values(), *code.definitions.values())):
                    yield f"{path}:{at}: no crate has a file {name}"


def check_theorem(tree):
    """docs/THEOREM.md has each field of `Headline` in its table, and README and it name no field that isn't one."""
    text = tree.read("crates/wasm_validator/specs/Headline.antt")
    fields = re.findall(r"(?m)^    pub (\w+) :", text[text.index("pub record Headline") :])
    table = [it for row in tree.read("docs/THEOREM.md").split("\n") if row.startswith("| `") for it in ticked(row.split("|")[1])]
    for name in fields:
        if table.count(name) != 1:
            yield f"docs/THEOREM.md: its table has {name} {table.count(name)} times"
    for name in table:
        if name not in fields:
            yield f"docs/THEOREM.md: Headline has no field {name}"
