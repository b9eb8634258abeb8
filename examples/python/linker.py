#!/usr/bin/env python3
"""linker.py EXPORTER IMPORTER: each import of the second module is looked up among the exports of the first by its own name, and linked where what is
found may be given for it. It uses the package of packaging/python."""
import sys

from ruthvelka import Answer, Query, QueryKind, ask, imports_and_exports

WORDS = {Answer.NO: "not linked", Answer.YES: "linked", Answer.UNKNOWN: "not exported"}


def escaped(text):
    """A text that may hold a module's own names: `?` in place of all but the printable characters of ASCII, so that no name ends the line."""
    return "".join(it if " " <= it <= "~" else "?" for it in str(text))


def main():
    if len(sys.argv) != 3:
        print("usage: linker.py EXPORTER IMPORTER", file=sys.stderr)
        sys.exit(2)
    modules = []
    for name in sys.argv[1:]:
        with open(name, "rb") as it:
            modules.append(it.read())
    (_, exports), (imports, _) = map(imports_and_exports, modules)
    places = {it.name: place for place, it in enumerate(exports)}
    queries = [Query(QueryKind.MAY_BE_GIVEN, 0, places.get(it.name, len(exports)), 1, wanted) for wanted, it in enumerate(imports)]
    for it, answer in zip(imports, ask(modules, queries)):
        print(f"{escaped(it.module)}.{escaped(it.name)}: {WORDS[answer]}")


if __name__ == "__main__":
    main()
