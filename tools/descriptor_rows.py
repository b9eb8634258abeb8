#!/usr/bin/env python3
"""descriptor_rows.py [--check]: writes crates/test_all/data/modules/descriptors.rows, modules with operators on descriptors (the proposal for custom
descriptors), or compares what it makes with that file.

What the Rust crate answered for a module, all its features on, is in tools/crate_answers.txt, and is what a row wants: its verdict and place, and its
text where ours is the same. Refusals for want of a feature name what they want: these features are ours."""
import os
import sys

sys.dont_write_bytecode = True
sys.path.insert(0, os.path.dirname(os.path.abspath(__file__)))
import row_writer
import wasm_assembler as W
from crate_answers import Answers

# 0: a structure that the next one describes; 1: its descriptor, which the next one describes; 2: the descriptor of that; 3 and 4: a structure below
# the first one, and its descriptor, below the second one, which 5 describes; 6: a structure without a descriptor; 7: a function type.
TYPES = [bytes.fromhex("4e03 5000 4d01 5f00 5000 4c00 4d02 5f00 5000 4c01 5f00"),
         bytes.fromhex("4e03 500100 4d04 5f00 500101 4c03 4d05 5f00 500102 4c04 5f00"), "struct", "func -> i32"]
NTYPES = 8
SERVED = "default+custom_descriptors+descriptor_operators"
# the types that the Rust crate names `$type` alone, by what the titles of such rows have
NAMED = [("that is not there$", "9"), ("for a local of exactly the descriptor", "1 1"), ("for a local of one below", "4 1"), ("for a local of its own descriptor", "2 1"),
         (r"^ref.get_desc of (\w+), which", r"0 \1"), ("^ref.get_desc", "0"), (r"to (exact )?(\d), for a local of .(\d)", r"\3 \2"),
         ("by a descriptor above|to 3 by 1", "4 1"), ("by what is described|to 0 by 0", "1 0"), ("by the descriptor of the descriptor|to 0 by 2", "1 2"), ("", "1")]
# texts of the Rust crate, and ours
SAID = [("constant expression required.*", "constant expression required: non-constant operator"),
        (r"(type mismatch: expected) descriptor of exact type \(ref (\S+ \S+ .*)\) found (.*)", r"\1 (ref null \2), found \3"),
        (r"(type mismatch: expected \(ref null \(exact \(id 1\)\)\), found) \(ref (\(exact .*)", r"\1 (ref null \2"),
        ("type mismatch: casting to type .*|type mismatch: br_on_cast to label .*|type mismatch: expected label .*|type mismatch: expected a reference type, .*",
         "type mismatch: label has other types"),
        ("type mismatch: .* different heap type hierarchies|type mismatch: .* is not a subtype of .*", "type mismatch: cast to a type that is not a subtype"),
        ("invalid cast flags: .*", "malformed cast flags")]
CASTS = [("ref.cast_desc_eq", 35), ("ref.cast_desc_eq to null", 36)]
BRANCHES = [("br_on_cast_desc_eq", 37), ("br_on_cast_desc_eq_fail", 38)]
CASES = []


def heap(text):
    """A heap type, as hexadecimal digits: an index, `exact` and an index, or the name of an abstract one."""
    if text.startswith("exact "):
        return "62" + W.signed(int(text[6:])).hex()
    return W.heap_type(text).hex()


def null(text):
    return "x:d0" + heap(text)


def cast(number, to):
    return f"x:fb{number:02x}" + heap(to)


def case(title, *ops, features=SERVED, wanted=None, locals="", **parts):
    """A module with one function of these operators."""
    CASES.append((title, features, W.build(types=TYPES, ntypes=NTYPES, funcs=[("->", locals, "; ".join(ops))], **parts), wanted))


def branch(number, label, to, from_="any", flags=3):
    """A branch by a descriptor to a label, from one type to another, with flags for null."""
    return f"x:fb{number:02x}{flags:02x}{label:02x}" + heap(from_) + heap(to)


def described(index):
    return "x:fb22" + W.unsigned(index).hex()


def with_local(title, local, *ops):
    """The same with one local of a type that is written as digits."""
    body = b"\1\1" + bytes.fromhex(local) + W.operators("; ".join(ops)) + b"\x0b"

    def put(found):
        return [[it[0], W.listed([W.unsigned(len(body)) + body])] if it[0] == W.KEY["code"] else it for it in found]

    CASES.append((title, SERVED, W.build(types=TYPES, ntypes=NTYPES, funcs=[("->", "", "nop")], post=put), None))


def heading(text):
    CASES.append(text)


def casts():
    """Each cast by a descriptor: what it takes and gives, its immediate, and the features that it needs."""
    for name, number in CASTS:
        heading(name)
        case(f"{name}", null("any"), null("1"), cast(number, "0"), "drop")
        case(f"{name}, of a reference below", null("6"), null("1"), cast(number, "0"), "drop")
        case(f"{name}, by a descriptor below", null("any"), null("4"), cast(number, "0"), "drop")
        case(f"{name}, by an exact descriptor", null("any"), null("exact 1"), cast(number, "0"), "drop")
        case(f"{name}, by null", null("any"), null("none"), cast(number, "0"), "drop")
        case(f"{name}, by a descriptor that is not null", null("any"), null("1"), "ref.as_non_null", cast(number, "0"), "drop")
        case(f"{name}, in code that is not reached", "unreachable", cast(number, "0"), "drop")
        case(f"{name}, to a descriptor", null("any"), null("2"), cast(number, "1"), "drop")
        case(f"{name}, to an exact type", null("any"), null("exact 1"), cast(number, "exact 0"), "drop")
        case(f"{name}, to an exact type by a descriptor that is not exact", null("any"), null("1"), cast(number, "exact 0"), "drop")
        case(f"{name}, to an exact type by an exact descriptor below", null("any"), null("exact 4"), cast(number, "exact 0"), "drop")
        case(f"{name}, to an exact type by null", null("any"), null("none"), cast(number, "exact 0"), "drop")
        case(f"{name}, to a type below by a descriptor above", null("any"), null("1"), cast(number, "3"), "drop")
        case(f"{name}, by what is described", null("any"), null("0"), cast(number, "0"), "drop")
        case(f"{name}, by the descriptor of the descriptor", null("any"), null("2"), cast(number, "0"), "drop")
        case(f"{name}, by a number", null("any"), "i32.const 0", cast(number, "0"), "drop")
        case(f"{name}, of a number", "i32.const 0", null("1"), cast(number, "0"), "drop")
        case(f"{name}, of another hierarchy", null("func"), null("1"), cast(number, "0"), "drop")
        case(f"{name}, of an external reference", null("extern"), null("1"), cast(number, "0"), "drop")
        case(f"{name}, with its operands exchanged", null("1"), null("any"), cast(number, "0"), "drop")
        case(f"{name}, without a descriptor", null("any"), cast(number, "0"), "drop")
        case(f"{name}, with a descriptor alone", null("1"), cast(number, "0"), "drop")
        case(f"{name}, without operands", cast(number, "0"), "drop")
        case(f"{name}, below the operands of the block", null("any"), null("1"), "block _", cast(number, "0"), "drop", "end", "drop", "drop")
        case(f"{name}, to a type without descriptor", "unreachable", cast(number, "6"), "drop")
        case(f"{name}, to the last descriptor", "unreachable", cast(number, "2"), "drop")
        case(f"{name}, to a function type", "unreachable", cast(number, "7"), "drop")
        for to in ("any", "struct", "none", "func"):
            case(f"{name}, to {to}", "unreachable", cast(number, to), "drop")
        case(f"{name}, to a type that is not there", "unreachable", cast(number, "9"), "drop")
        case(f"{name}, to exactly a type that is not there", "unreachable", cast(number, "exact 9"), "drop")
        for to, local in (("0", "!0"), ("0", "?0"), ("exact 0", "!0"), ("0", "!3"), ("3", "!0")):
            case(f"{name}, to {to}, for a local of {local}", "unreachable", cast(number, to), "local.set 0", locals=local)
        case(f"{name}, for exactly what is cast to", null("any"), null("exact 1"), cast(number, "0"), null("exact 1"), cast(number, "exact 0"), "drop")
        case(f"{name} gives one reference", null("any"), null("1"), cast(number, "0"))
        case(f"{name} gives no more than one", null("any"), null("1"), cast(number, "0"), "drop", "drop")
        lacking(name, number)
        case(f"{name} in a constant expression", features=SERVED, globals=[("?any", f"ref.null any; {null('1')}; {cast(number, '0')}")])


def descriptors():
    """The descriptor of a reference: exact where the reference is, null, and in code that isn't reached."""
    heading("ref.get_desc")
    name = "ref.get_desc"
    for of in ("0", "exact 0", "none", "3", "exact 3"):
        case(f"{name} of {of}", null(of), described(0), "drop")
        for local, what in (("6401", "the descriptor"), ("646201", "exactly the descriptor"), ("6404", "one below"), ("6402", "its own descriptor")):
            with_local(f"{name} of {of}, for a local of {what}", local, null(of), described(0), "local.set 0")
    for local, what in (("6401", "the descriptor"), ("646201", "exactly the descriptor")):
        with_local(f"{name} of what is not null, for a local of {what}", local, null("0"), "ref.as_non_null", described(0), "local.set 0")
        with_local(f"{name} of what is exact and not null, for a local of {what}", local, null("exact 0"), "ref.as_non_null", described(0), "local.set 0")
        with_local(f"{name} behind unreachable, for a local of {what}", local, "unreachable", described(0), "local.set 0")
    for of in ("any", "struct", "1", "6", "func"):
        case(f"{name} of {of}, which is no such type", null(of), described(0), "drop")
    case(f"{name} of a number", "i32.const 0", described(0), "drop")
    case(f"{name} without an operand", described(0), "drop")
    case(f"{name} gives one reference", null("0"), described(0))
    case(f"{name} gives no more than one", null("0"), described(0), "drop", "drop")
    case(f"{name} below the operands of the block", null("0"), "block _", described(0), "drop", "end", "drop")
    case(f"{name} twice", null("0"), described(0), described(1), "drop")
    case(f"{name} twice, exactly", null("exact 0"), described(0), described(1), "drop")
    for index, what in ((2, "the last descriptor"), (6, "a type without descriptor"), (7, "a function type"), (9, "a type that is not there"), (0xFFFFFFFF, "the greatest index")):
        case(f"{name} of {what}", "unreachable", described(index), "drop")
    lacking(name, 34)
    case(f"{name} in a constant expression", features=SERVED, globals=[("?any", f"{null('0')}; {described(0)}")])


def branches():
    """Each branch by a descriptor: what it takes, sends and leaves, its immediates, and the features that it needs."""
    for name, number in BRANCHES:
        heading(name)

        def inside(title, label, *ops, behind=("end", "drop")):
            case(f"{name}, {title}", f"block {label}", *ops, *behind)

        both = (null("any"), null("1"))
        inside("to a label of any", "?any", *both, branch(number, 0, "0"))
        for label in ("?0", "!0", "!any", "?struct", "!3", "?func", "i32", "_"):
            inside(f"to a label of {label}", label, *both, branch(number, 0, "0"), "drop", "unreachable", behind=("end",) if label == "_" else ("end", "drop"))
        for flags in range(5):
            inside(f"with the flags {flags}", "?any", *both, branch(number, 0, "0", flags=flags))
            inside(f"with the flags {flags}, of what is not null", "?any", null("any"), "ref.as_non_null", null("1"), branch(number, 0, "0", flags=flags))
            inside(f"with the flags {flags}, to a label without null", "!any", *both, branch(number, 0, "0", flags=flags), "drop", "unreachable")
        for to, by in (("0", "exact 1"), ("exact 0", "exact 1"), ("exact 0", "1"), ("exact 0", "none"), ("0", "none"), ("0", "4"), ("3", "1"), ("3", "4"), ("1", "2"), ("0", "0"), ("0", "2")):
            inside(f"to {to} by {by}", "?any", null("any"), null(by), branch(number, 0, to))
        for from_, to in (("3", "0"), ("0", "3"), ("6", "0"), ("struct", "0"), ("none", "0"), ("func", "0"), ("extern", "0"), ("any", "any"), ("any", "6"), ("any", "2"), ("any", "7"), ("9", "0"),
                          ("any", "9")):
            inside(f"from {from_} to {to}", "?any", "unreachable", branch(number, 0, to, from_))
        inside("of another type", "?any", null("func"), null("1"), branch(number, 0, "0"))
        inside("of a reference above", "?any", null("any"), null("1"), branch(number, 0, "0", "struct"))
        inside("by a number", "?any", null("any"), "i32.const 0", branch(number, 0, "0"))
        inside("without a descriptor", "?any", null("any"), branch(number, 0, "0"))
        inside("with a descriptor alone", "?any", null("1"), branch(number, 0, "0"))
        inside("without operands", "?any", branch(number, 0, "0"))
        inside("to a label that is not there", "?any", *both, branch(number, 5, "0"))
        inside("gives one reference", "?any", *both, branch(number, 0, "0"), "drop")
        inside("behind unreachable", "?any", "unreachable", branch(number, 0, "0"))
        lacking(name, number)
        case(f"{name} in a constant expression", features=SERVED, globals=[("?any", f"{null('any')}; {null('1')}; {branch(number, 0, '0')}")])


def lacking(name, number):
    """Refused for want of each feature in turn, in the order in which they are asked for, in a module without descriptors."""
    written = cast(number, "any") if 34 < number < 37 else described(0) if number == 34 else branch(number, 0, "any")
    small = W.build(funcs=[("->", "", f"unreachable; {written}; drop")])
    place = W.bodies(small)[0][1] + len(b"\0\0")
    opcode = f"illegal opcode 0xfb {number}"
    for features, said, missing in (("default", opcode, "nothing"), ("default+custom_descriptors", opcode, "nothing"), ("all-descriptor_operators", opcode, "nothing"),
                                    ("default+descriptor_operators", "custom descriptors support is not enabled", "custom_descriptors"),
                                    ("all-custom_descriptors", "custom descriptors support is not enabled", "custom_descriptors"),
                                    ("all-gc", "gc support is not enabled", "gc")):
        if number > 34 or features != "all-gc":
            CASES.append((f"{name} with {features}", features, small, f"refused {place} {said}; missing {missing}"))


def main():
    descriptors()
    casts()
    branches()
    return row_writer.write_cases("modules/descriptors.rows", "descriptor_rows.py", CASES, Answers(), NAMED, SAID, sys.argv[1:])


if __name__ == "__main__":
    sys.exit(main())
