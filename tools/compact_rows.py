#!/usr/bin/env python3
"""compact_rows.py [--check] [--modules DIR]: writes crates/test_all/data/modules/compact_imports.rows, entries of the import section that have several
imports, or compares what it makes with that file. With --modules it writes the modules whose answers are the Rust crate's into DIR, for
tools/judge_imports.

The verdict, the offset and the text of a row are the Rust crate's, by tools/crate_answers.txt, which tools/judge_imports has asked. By hand are what
that program can't tell: what the index spaces are behind it, bodies, and refusals for want of a feature, since without `COMPACT_IMPORTS` a row is
refused where and as it was before there were such entries, and not with the crate's text."""
import os
import sys

sys.dont_write_bytecode = True
HERE = os.path.dirname(os.path.abspath(__file__))
sys.path.insert(0, HERE)
import row_writer
from crate_answers import Answers
from wasm_bytes import HEAD, section, unsigned

ON = "default+compact_imports"
SAID = [(r"invalid leading byte \(0x[0-9a-f]+\) for external kind", "invalid leading byte for external kind of an import")]
# types: 0 takes and gives nothing, 1 takes an i32, 2 is a structure
TYPES = section(1, bytes.fromhex("03 600000 60017f00 5f00"))
KINDS = {"function": "0000", "function of another type": "0001", "table": "01700001", "memory": "020001", "global": "037f00", "tag": "040001"}
KINDS = {name: bytes.fromhex(it) for name, it in KINDS.items()}
F = KINDS["function"]
CASES = []


def listed(items):
    return unsigned(len(items)) + b"".join(items)


def name(text):
    it = text if isinstance(text, bytes) else text.encode()
    return unsigned(len(it)) + it


def one(module, item, kind=F):
    return name(module) + name(item) + kind


def typed(module, *items):
    """An entry of imports that have a type each: pairs of a name and a type."""
    return name(module) + b"\0\x7f" + listed([name(it) + kind for it, kind in items])


def named(module, kind, *names):
    """An entry of imports of one type."""
    return name(module) + b"\0\x7e" + kind + listed([name(it) for it in names])


def numbered(count):
    """So many names, which are all different: the program that is asked writes modules with one name twice anew, with other offsets."""
    return [f"t{number}" for number in range(count)]


def module(*entries, behind=b"", count=None, more=b"", types=TYPES):
    """A module whose import section has these entries."""
    return HEAD + types + section(2, unsigned(len(entries) if count is None else count) + b"".join(entries) + behind) + more


def heading(text):
    CASES.append(text)


def case(title, made, wanted=None, facts="", features=ON):
    CASES.append((title, features, made, wanted, facts))


def accepted():
    heading("What is accepted, and the imports in their order")
    case("a single import", module(one("a", "b")), facts="imports a b (func (id 0)); functions 0")
    case("two of one module, a type each", module(typed("a", ("b", F), ("c", KINDS["function of another type"]))), facts="functions 0 1; imports a b (func (id 0)), a c (func (id 1))")
    case("two of one module and one type", module(named("a", KINDS["function of another type"], "b", "c")), facts="functions 1 1; imports a b (func (id 1)), a c (func (id 1))")
    for kind, it in KINDS.items():
        case(f"a {kind} alone with its type", module(typed("m", ("x", it))))
        case(f"three of one type, each a {kind}", module(named("m", it, "x", "y", "z") if kind not in ("memory",) else named("m", it, "x")))
        case(f"a {kind} between two functions", module(typed("m", ("x", F), ("y", it), ("z", F))))
    case("one of each kind", module(typed("m", *[(kind[0], it) for kind, it in KINDS.items()])), facts="functions 0 1; tables 1 funcref; memories 1; globals i32; tags 1")
    case("no import, with types", module(typed("a")), facts="functions")
    case("no import, of one type", module(named("a", F)), facts="functions")
    case("no import, of one type that isn't there", module(named("a", b"\0\x07")))
    case("no entry", module())
    case("entries of each form in turn", module(one("a", "b"), typed("c", ("d", F), ("e", KINDS["global"])), one("f", "g", KINDS["function of another type"]), named("h", F, "i", "j"), typed("k")),
         facts="functions 0 0 1 0 0; globals i32; imports a b (func (id 0)), c d (func (id 0)), c e (global i32), f g (func (id 1)), h i (func (id 0)), h j (func (id 0))")
    case("one name twice", module(named("a", F, "b", "b"), one("a", "b")), facts="functions 0 0 0")
    case("empty names", module(typed("", ("", F)), named("", F, "", ""), one("", "")), facts="functions 0 0 0 0")
    case("an empty name in two bytes", module(name("a") + b"\x80\0\x7f" + listed([name("b") + F])), facts="functions 0")
    case("an empty name in five bytes", module(name("a") + b"\x80\x80\x80\x80\0\x7e" + F + listed([name("b")])), facts="functions 0")
    case("a count in three bytes", module(name("a") + b"\0\x7f\x81\x80\0" + name("b") + F), facts="functions 0")
    case("names of two bytes a letter", module(typed("é", ("ü", F)), named("ß", F, "ø")))


def rules():
    heading("Rules of imports: each of 0x7f stands at its item, each of 0x7e at its name")
    for bad, what in ((b"\0\x07", "a type that isn't there"), (b"\0\x02", "a type that is a structure"), (bytes.fromhex("01700101 00"), "a table below its minimum"),
                      (bytes.fromhex("0200 818004"), "a memory with too many pages"), (b"\4\0\7", "a tag's type that isn't there")):
        for at in range(3):
            items = [("a", F), ("bb", F), ("ccc", F)]
            items[at] = (items[at][0], bad)
            case(f"{what}, at {at} of three with types", module(typed("m", *items)))
        case(f"{what}, of two names", module(named("m", bad, "a", "bb")))
        case(f"{what}, of two names behind a single import", module(one("x", "y"), named("m", bad, "a", "bb")))
        case(f"{what}, in an entry between two", module(typed("x", ("y", F)), typed("m", ("a", bad)), named("z", F, "w")))
        case(f"{what}, in a single import", module(typed("x", ("y", F)), one("m", "a", bad)))
    case("a hundred tables of one type", module(named("m", KINDS["table"], *numbered(100))))
    case("a hundred and one tables of one type", module(named("m", KINDS["table"], *numbered(101))))
    case("a hundred and one tables with types", module(typed("m", *[(it, KINDS["table"]) for it in numbered(101)])))
    case("a hundred and one memories of one type", module(named("m", KINDS["memory"], *numbered(101))))
    case("a function behind an export's index", module(named("m", F, "a", "b"), more=section(7, bytes.fromhex("01 0178 0001"))), "ok", "exports x (func (id 0))")
    case("no function behind an export's index", module(named("m", F, "a", "b"), more=section(7, bytes.fromhex("01 0178 0002"))), "refused 37 unknown function 2: exported function index out of bounds")
    body = section(3, b"\1\0") + section(10, bytes.fromhex("01 06 00 1001 1002 0b"))
    case("a body that calls an import and itself", module(named("m", F, "a", "b"), more=body), "ok", "functions 0 0 0")
    case("an import section behind another", module(named("m", F, "a")) + section(2, listed([one("a", "b")])))
    big = section(1, b"\1\x60" + unsigned(999) + b"\x7f" * 999 + b"\0")
    case("imports of one type below the limit of effective sizes", module(named("", F, *numbered(998)), types=big))
    case("imports of one type at the limit of effective sizes", module(named("", F, *numbered(999)), types=big))
    case("imports with types at the limit of effective sizes", module(typed("", *[(it, F) for it in numbered(999)]), types=big))


def format_errors():
    heading("What can't be read")
    for kind in (0x05, 0x1F, 0x21, 0x7D, 0x7E, 0x7F, 0x80, 0xFF):
        bad = bytes([kind]) + b"\0"
        case(f"a kind of {kind:02x} among types", module(typed("m", ("a", F), ("b", bad))))
        case(f"a kind of {kind:02x} of one type", module(named("m", bad, "a")))
        case(f"a kind of {kind:02x} of one type without names", module(named("m", bad)))
        if kind not in (0x7E, 0x7F):
            case(f"a kind of {kind:02x} behind an empty name", module(one("m", "", bad)))
        case(f"a kind of {kind:02x} behind a name", module(one("m", "n", bad)))
    case("a kind that is none behind a type that isn't there", module(typed("m", ("a", b"\0\x07"), ("b", b"\x09\0"))))
    case("a name that isn't UTF-8, with a type", module(typed("m", ("a", F), (b"\xff", F))))
    case("a name that isn't UTF-8, of one type", module(named("m", F, "a", b"\xff")))
    case("a module's name that isn't UTF-8", module(typed(b"\xc0", ("a", F))))
    for what, whole in (("with types", typed("m", ("a", F), ("b", KINDS["memory"]))), ("of one type", named("m", KINDS["global"], "a", "b"))):
        for size in range(len(whole)):
            case(f"the first {size} bytes of two {what}", module(whole[:size], count=1))
        case(f"a byte behind two {what}", module(whole, behind=b"\0"))
        case(f"two {what}, and an entry that isn't there", module(whole, count=2))
        case(f"two {what}, and no entry", module(whole, count=0))
    for count, what in ((b"\x03", "one more"), (b"\x01", "one less"), (b"\xff\xff\xff\xff\x0f", "4,294,967,295"), (b"\xff\xff\xff\xff\x1f", "too large a number"), (b"\x80\x80\x80\x80\x80\0", "six bytes")):
        case(f"a count of items that is {what}", module(name("m") + b"\0\x7f" + count + name("a") + F + name("b") + F))
        case(f"a count of names that is {what}", module(name("m") + b"\0\x7e" + F + count + name("a") + name("b")))


def without():
    heading("Without the feature an entry with several is an import of no kind, as it was before")
    for what, it in (("with types", typed("m", ("a", F))), ("of one type", named("m", F, "a")), ("with types, and none of them", typed("m")), ("of one type, and none of it", named("m", F))):
        for features in ("default", "all-compact_imports", "none"):
            place = len(HEAD) + len(TYPES) + 6
            case(f"an entry {what}, by {features}", module(it, types=TYPES if features != "none" else section(1, bytes.fromhex("03 600000 60017f00 600000"))), f"refused {place if features != 'none' else place + 1} invalid leading byte for external kind of an import",
                 "missing nothing", features)
    case("a kind and a list behind an empty name, single", module(one("m", "", F)), "ok", "", "default")
    case("an entry cut off behind 7f", module(b"\1m\0\x7f", count=1), f"refused {len(HEAD) + len(TYPES) + 6} invalid leading byte for external kind of an import", "", "default")
    heading("Other features beside")
    case("with all features", module(typed("m", ("a", F)), named("m", F, "b")), "ok", "functions 0 0", "all")
    case("with this feature alone", module(typed("m", ("a", F)), types=section(1, b"\1\x60\0\0")), "ok", "functions 0", "none+compact_imports")
    wanted = len(HEAD) + len(TYPES) + 8
    case("a mutable global without mutable_global", module(typed("m", ("a", bytes.fromhex("037f01")))), f"refused {wanted} mutable global support is not enabled", "missing mutable_global", ON + "-mutable_global")
    case("a tag without exceptions", module(typed("m", ("a", KINDS["tag"]))), f"refused {wanted} exceptions proposal not enabled", "missing exceptions", ON + "-exceptions")
    case("an exact function", module(typed("m", ("a", b"\x20\0"))), "ok", "imports m a (func (exact (id 0)))", ON + "+custom_descriptors")


def limits():
    heading("The count of entries has the limit of imports")
    start = len(HEAD) + len(TYPES) + 4
    CASES.append(("a million entries and one, of no imports", ON, None, f"refused {start + 1} imports count exceeds limit of 1000000", ""))


def many(count):
    """The bytes of a module with so many entries without imports, as a row writes them."""
    entry = typed("")
    return f"{TYPES.hex()} 02 {unsigned(len(unsigned(count)) + count * len(entry)).hex()} {unsigned(count).hex()} ({entry.hex()})*{count}"


def write_modules(folder):
    """The modules of all rows that need an answer."""
    for at, it in enumerate(CASES):
        if not isinstance(it, str) and it[2] and not it[3]:
            with open(os.path.join(folder, f"{at}.wasm"), "wb") as out:
                out.write(it[2])


def main():
    for part in (accepted, rules, format_errors, without, limits):
        part()
    words = sys.argv[1:]
    if words[:1] == ["--modules"] and len(words) == 2:
        return write_modules(words[1])
    lines = row_writer.head_of_modules() + ["#", "# Written by tools/compact_rows.py, which says where the wanted answers come from."]
    answers, lacking = Answers(), []
    for it in CASES:
        if isinstance(it, str):
            lines += ["", "# " + it]
            continue
        title, features, made, wanted, facts = it
        wanted = wanted or row_writer.wanted_of(answers.of(made), title, [], SAID)
        if wanted is None:
            lacking.append(title)
            continue
        written = "H " + (made[8:].hex() if made else many(1_000_001))
        lines.append(" | ".join([title, features, written, "; ".join(filter(None, [wanted, facts if wanted == "ok" or "missing" in facts else ""]))]))
    return row_writer.main({"modules/compact_imports.rows": "\n".join(lines) + "\n"}, lacking, words)


if __name__ == "__main__":
    sys.exit(main())
