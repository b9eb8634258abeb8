"""What documents say of files: the paths, options and links in them, the folders of one machine, and how long their lines are."""
import re

from docs_code import FOREIGN, Code
from docs_sources import Anchors
from docs_texts import HISTORY, by_hand, documents, paragraphs, present, prose, ticked

MOST_README_LINES = 110
# False while README is longer, which is then only a warning.
README_IS_SHORT = True
# Words of the sources that say nothing to others, and the documents for users.
PRIVATE = r"\b(?:told|shown|held|standing|rooms?|worlds?)\b"
FOR_USERS = ("README.md", "SECURITY.md", "CONTRIBUTING.md", "CHANGELOG.md", "docs/THEOREM.md", "docs/LIMITS.md", "docs/API.md")
MOST_COLUMNS = 160
FOLDERS = ("crates", "tests", "docs", "tools", "bin", "c", "include", "examples", "packaging", ".ci")
ENDINGS = "rt antt rows edit py sh c h md txt svg".split()
# A path from the top, a document there, a path in a crate, or the name of a file.
PATH = re.compile(
    rf"(?<![\w/.@-])((?:{'|'.join(re.escape(it) for it in FOLDERS)})/[\w./*-]*\w|[A-Z]\w+\.(?:md|txt)|"
    rf"(?:src|specs|proofs|data)/[\w./-]+\.\w+|\w[\w-]*\.(?:{'|'.join(ENDINGS)}))(?![\w-])"
)


def check_paths(tree):
    """Each file and folder that a document names is there: from the top, in a crate, or by its name; a file behind a crate's name is of that crate."""
    code, crates = Code.of(tree), tree.crates()
    files = {crate: {it.split("/")[-1] for it in tree.files(f"crates/{crate}")} for crate in crates}
    for path in by_hand(tree):
        table = ""
        for at, text in paragraphs(prose(tree, path)):
            named = [it for it in ticked(text) if it in crates]
            table = "" if not text.startswith("|") else table or text
            for crate, file in re.findall(r"`(\w+)`(?:'s)? `([\w/]+\.(?:rt|antt))`", text):
                if crate in files and file.split("/")[-1] not in files[crate]:
                    yield f"{path}:{at}: there is no {file} in {crate}"
            for word in PATH.findall(re.sub(r"\]\([^)]*\)", "]", text)):
                if "*" in word or re.search(r"\b(?:NAME|SUBJECT|X|F|CRATE|my_gate)\b", word) or word.rpartition(".")[0] in FOREIGN or path in HISTORY:
                    continue
                folders = re.findall(r"`(crates/[\w/]+)`", table)
                has = any(tree.has(top + word) for top in ["", *(f"crates/{it}/" for it in crates), "docs/", *(f"{it}/" for it in folders)])
                # a rule's bullet names the crates that its files are in
                here = named if text.startswith("- **") and path.endswith("ARCHITECTURE.md") else crates
                if not has and not folders and "/" not in word:
                    has = any(word in files[it] for it in here) or here == crates and word in code.files
                if not has:
                    yield f"{path}:{at}: there is no {word}" + (f" in {' '.join(here)}" if here and here != crates else "")


def check_options(tree):
    """Each option of a tool or program that a document writes behind its name is in its source."""
    for path in by_hand(tree):
        for at, text in present(tree, path):
            for word in ticked(text):
                tool = re.match(r"(?:\./)?((?:tools|bin)/[\w.-]+)(.*)", word)
                if not tool or not tree.has(tool[1]):
                    continue
                sources = [tool[1]]
                sources += tree.files("crates/wasm_check/src", "crates/wasm_check_reports/src") if "wasm-check" in tool[1] else []
                sources += tree.files("crates/rows_files/src", "crates/test_all/src") if "run_unproved" in tool[1] else []
                text_of = "\n".join(tree.read(it) for it in sources)
                for option in re.findall(r"(?<=\s)--([a-z][\w-]*)", tool[2]):
                    if f"--{option}" not in text_of and not re.search(rf"\b{option.replace('-', '.')}\b", text_of):
                        yield f"{path}:{at}: {tool[1]} has no option --{option}"


def anchors_of(tree, path):
    anchors = Anchors()
    rows, is_code, found = tree.read(path).split("\n"), False, set()
    for row in rows:
        if row.startswith("```"):
            is_code = not is_code
        head = re.match(r"#+ (.*)", row)
        if head and not is_code:
            found.add(anchors.of(re.sub(r"\[([^\]]*)\]\([^)]*\)", r"\1", head[1])))
    return found


def check_links(tree):
    """Each link leads to a file that is there, and to a heading of it; a section that is named in quotes behind a document is one of its headings."""
    kept = {}
    for path in documents(tree):
        folder = path.rpartition("/")[0]
        for at, row in enumerate(tree.read(path).split("\n"), 1):
            for target in re.findall(r"\]\(([^)\s]+)\)", row):
                if re.match(r"https?:|mailto:", target):
                    continue
                file, _, anchor = target.partition("#")
                parts = []
                for it in f"{folder}/{file}".split("/") if file else path.split("/"):
                    parts = parts[:-1] if it == ".." else parts if it in ("", ".") else [*parts, it]
                whole = "/".join(parts)
                if not tree.has(whole):
                    yield f"{path}:{at}: the link {target} leads nowhere"
                elif anchor and whole.endswith(".md"):
                    if whole not in kept:
                        kept[whole] = anchors_of(tree, whole)
                    if anchor not in kept[whole]:
                        yield f"{path}:{at}: {whole} has no heading for #{anchor}"
    yield from sections_named(tree)


def sections_named(tree):
    """Sections that are named by their titles, as `docs/X.md "Title"`, `(see "Title")` or `("Title")`: one of the documents that are named there has it."""
    titles = {path: {it for found in re.findall(r"(?m)^#+ (.*)$|^\*\*(.*?)\*\*", tree.read(path)) for it in found} for path in by_hand(tree)}
    for path in by_hand(tree):
        for at, text in paragraphs(prose(tree, path)):
            named = [path, *(it for it in titles for word in re.findall(r"\b(README|[A-Z]+)\b(?:\.md|'s)", text) if it.endswith(f"{word}.md"))]
            for found in re.finditer(r"(?:README(?:'s)?|[A-Z]+\.md(?:'s)?),? \"([A-Z][^\"]+)\"|\((?:see )?\"([A-Z][^\"]+)\"\)", text):
                title = found[1] or found[2]
                if not any(title in titles[it] for it in named):
                    yield f"{path}:{at}: neither it nor what it names has a section {title}"


def check_machines(tree):
    """No document names a folder of one machine."""
    for path in documents(tree):
        for at, row in enumerate(tree.read(path).split("\n"), 1):
            found = re.search(r"(?<![\w./])/(?:work|tmp|opt|root|home|usr/local|mnt)/[\w.-]*", row)
            if found:
                yield f"{path}:{at}: {found[0]} is a folder of one machine"


def check_width(tree):
    """Lines of documents aren't longer than that, but for rows of tables and lines with links."""
    for path in documents(tree):
        for at, row in enumerate(tree.read(path).split("\n"), 1):
            if len(row) > MOST_COLUMNS and not row.startswith("|") and "](" not in row:
                yield f"{path}:{at}: {len(row)} columns"


def check_words(tree):
    """Documents for users have no private words, but for names in backticks and in links; and README is short."""
    for path in documents(tree):
        for at, text in paragraphs(prose(tree, path)) if path.startswith(FOR_USERS) else []:
            found = re.search(PRIVATE, re.sub(r"`[^`]*`|\]\([^()]*\)", "", text), re.I)
            if found:
                yield f"{path}:{at}: {found[0]} is a private word"
    if README_IS_SHORT:
        yield from warnings(tree)


def warnings(tree):
    lines = tree.read("README.md").count("\n")
    return [f"README.md has {lines} lines, and should have at most {MOST_README_LINES}"] if lines > MOST_README_LINES else []
