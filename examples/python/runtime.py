#!/usr/bin/env python3
"""runtime.py MODULE..: loads modules one after another, as an engine does, and keeps the types of each. Each import is looked up by its own name among
the exports of the modules before, the last one first, and linked where what is found may be given for it. A module that is refused isn't loaded. It uses
the package of packaging/python."""
import sys

from ruthvelka import Refused, Validator, imports_and_exports, validate


def escaped(text):
    """A text that may hold a module's own names: `?` in place of all but the printable characters of ASCII, so that no name ends the line."""
    return "".join(it if " " <= it <= "~" else "?" for it in str(text))


def link(loaded, types, number, name):
    """What becomes of this import of the last module."""
    for given, exports in reversed(loaded):
        for place, it in enumerate(exports):
            if it.name == name:
                return "linked" if given.may_be_given(place, types, number) else "not linked"
    return "not exported"


def load(validator, data, loaded):
    """Loads one module behind the others. The validator sees only what is valid by itself, so only one with more types than ids are left can make it fail."""
    validate(data)
    types = validator.validate(data)
    imports, exports = imports_and_exports(data)
    for number, it in enumerate(imports):
        print(f"{escaped(it.module)}.{escaped(it.name)}: {link(loaded, types, number, it.name)}")
    loaded.append((types, exports))


def main():
    loaded, status = [], 0
    with Validator() as validator:
        for name in sys.argv[1:]:
            with open(name, "rb") as it:
                data = it.read()
            try:
                load(validator, data, loaded)
            except Refused as why:
                print(f"not loaded, for byte {why.offset}")
                status = 1
    return status


if __name__ == "__main__":
    sys.exit(main())
