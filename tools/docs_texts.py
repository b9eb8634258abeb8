"""The documents, as text: their paragraphs, and what they put in backticks."""
import re

# What was measured on other sources, or decided against.
HISTORY = ("docs/DECISIONS.md", "docs/MEASUREMENTS.md")
OLD_SECTIONS = ("Plants",)
GENERATED = ("docs/API.md", "docs/api/", "docs/LIMITS.md", "docs/SPECIFICATION.md")


def documents(tree):
    """The documents, first those at the top."""
    top = [it for it in ("README.md", "CONTRIBUTING.md", "CHANGELOG.md", "SECURITY.md") if tree.has(it)]
    return [*top, *tree.files("docs", ending=".md")]


def by_hand(tree):
    return [it for it in documents(tree) if not it.startswith(GENERATED)]


def prose(tree, path):
    """A document without its blocks of code, in the same lines."""
    rows, is_code, out = tree.read(path).split("\n"), False, []
    for row in rows:
        fence = row.startswith("```")
        out.append("" if is_code or fence or row.startswith("    ") and not re.match(r" +(?:- |\d+\. )", row) else row)
        is_code = is_code != fence
    return out


def paragraphs(rows):
    """Paragraphs, list items and rows of tables, each as one line, with the number of its first line."""
    found = []
    for at, row in enumerate(rows, 1):
        if not row.strip():
            found.append((at, ""))
        elif re.match(r"\s*(?:- |\d+\. |\||#)", row) or not found or not found[-1][1]:
            found.append((at, row.strip()))
        else:
            found[-1] = (found[-1][0], f"{found[-1][1]} {row.strip()}")
    return [it for it in found if it[1]]


def present(tree, path):
    """The paragraphs of a document that speak of the sources as they are."""
    is_old = path in HISTORY
    for at, text in paragraphs(prose(tree, path)) if not is_old else []:
        if text.startswith("#"):
            is_old = text.lstrip("# ") in OLD_SECTIONS
        if not is_old:
            yield at, text


def ticked(text):
    return re.findall(r"`([^`]+)`", text)
