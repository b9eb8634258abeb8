#!/usr/bin/env python3
"""continuation_rows.py [--check]: writes crates/test_all/data/modules/continuations.rows, modules with operators on continuations (the stack-switching
proposal), or compares what it makes with that file.

What the Rust crate answered for a module, all its features on, is in tools/crate_answers.txt, and is what a row wants: its verdict and place, and its
text where ours is the same. Refusals for want of a feature name what they want: these features are ours.

Each operator is accepted; and refused where an operand is missing or of another type, where a type or a tag that it names isn't there or is of another
kind, where what a continuation takes or gives isn't what is wanted, from a shared function where its type isn't shared, where a handler's tag or label
isn't there or has a type more, a type less or another one, in constant expressions, and where one of the two features that it needs is off."""
import os
import sys

sys.dont_write_bytecode = True
sys.path.insert(0, os.path.dirname(os.path.abspath(__file__)))
import row_writer
from crate_answers import Answers
from wasm_assembler import HEAD, listed, signed
from wasm_bytes import section, unsigned

NUMBER = {"i32": "7f", "i64": "7e", "f32": "7d", "any": "6e", "eq": "6d", "struct": "6b", "exn": "69", "cont": "68"}
SERVED = "default+stack_switching+stack_switching_operators"
# the types that the Rust crate names `$type` alone, by what the titles of such rows have
NAMED = [(r"type (\d+)$", r"\1"), ("^cont.new of another", "0 2"), ("^cont.new is not exact", "1 1"), ("^cont.new", "0"), ("^cont.bind", "3"), ("^resume of nothing", "1"), ("^resume_throw", "5"), ("^resume", "3"),
         ("^switch", "11")]
# texts of the Rust crate, and ours
SAID = [("constant expression required.*", "constant expression required: non-constant operator"),
        ("type mismatch: (expected a|instruction requires a|instruction requires) continuation reference.*", "type mismatch: expected a continuation reference"),
        (r"type mismatch: \w+|non-continuation type", "type mismatch: expected a continuation reference"),
        ("type mismatch in continuation types?", "type mismatch in continuation types"),
        (r"invalid leading byte \(.*\) for on clause", "invalid leading byte for an on clause"),
        ("shared continuations cannot access .*", "shared functions cannot access what is not shared")]
CASES = []


def value(text):
    """A value type: a number, an abstract reference, `?N` for one to the type of an index, or null, `!N` without null, `?=N` or `!=N` for exactly it."""
    if text in NUMBER:
        return bytes.fromhex(NUMBER[text])
    heap = b"\x62" + unsigned(int(text[2:])) if text[1] == "=" else signed(int(text[1:]))
    return (b"\x63" if text[0] == "?" else b"\x64") + heap


def func(text, shared=False):
    """A function type: parameters, `->` and results."""
    takes, _, gives = text.partition("->")
    return b"\x65" * shared + b"\x60" + listed(map(value, takes.split())) + listed(map(value, gives.split()))


def cont(index, shared=False):
    return b"\x65" * shared + b"\x5d" + unsigned(index)


# 0: nothing; 1: a continuation of it; 2 and 3: i32 to i64; 4 and 5: to i64; 6 and 7: i64 to i64
BASE = [func("->"), cont(0), func("i32 -> i64"), cont(2), func("-> i64"), cont(4), func("i64 -> i64"), cont(6)]
NULL = {n: b"\xd0" + signed(n) for n in range(16)}
I32, I64, F32, DROP, TRAP = b"\x41\0", b"\x42\0", b"\x43" + bytes(4), b"\x1a", b"\0"


def module(code, types=BASE, tags=(), signature="->", shared=False, locals=()):
    """A module with one function of a type of its own, behind these types."""
    types = [*types, func(signature, shared)]
    body = listed([unsigned(1) + value(it) for it in locals]) + code + b"\x0b"
    parts = [section(1, listed(types)), section(3, listed([unsigned(len(types) - 1)]))]
    parts += [section(13, listed([b"\0" + unsigned(it) for it in tags]))] if tags else []
    return HEAD + b"".join(parts) + section(10, listed([unsigned(len(body)) + body]))


def case(title, code, wanted=None, features=SERVED, **parts):
    it = module(code, **parts)
    exact = b"\x63\x62" in it or b"\x64\x62" in it
    CASES.append((title, features + "+custom_descriptors" * exact, it, wanted))


def heading(text):
    CASES.append(text)


def op(opcode, *indices, handlers=None):
    """An operator on continuations, with its handlers: (tag, label), or (tag,) for a switch."""
    written = bytes([opcode]) + b"".join(map(unsigned, indices))
    if handlers is not None:
        written += listed([(b"\0" if len(it) == 2 else b"\1") + b"".join(map(unsigned, it)) for it in handlers])
    return written


NEW, BIND, SUSPEND, RESUME, THROW, THROW_REF, SWITCH = range(0xE0, 0xE7)


def operands(title, operator, given, count, **parts):
    """The operator with these operands; without each, with each of another type, with what it gives left or wanted once more, and unreached."""
    case(title, b"".join(given) + operator + DROP * count, **parts)
    for at in range(len(given)):
        case(f"{title}, without operand {at}", b"".join(given[at + 1:]) + operator + DROP * count, **parts)
        case(f"{title}, with another operand {at}", b"".join([*given[:at], F32 if given[at] != F32 else I64, *given[at + 1:]]) + operator + DROP * count, **parts)
    case(f"{title}, gives no more", b"".join(given) + operator + DROP * (count + 1), **parts)
    if count:
        case(f"{title}, gives no less", b"".join(given) + operator + DROP * (count - 1), **parts)
    case(f"{title}, behind unreachable", TRAP + operator + DROP * count, **parts)
    case(f"{title}, below the operands of the block", b"".join(given) + b"\x02\x40" + operator + DROP * count + b"\x0b" + DROP * len(given), **parts)


def kinds(title, write, count=1, **parts):
    """An index of no type, of another kind of type, and the greatest index."""
    for index in (0, 40, 0xFFFFFFFF):
        case(f"{title} of the type {index}", TRAP + write(index) + DROP * count, **parts)


def plain():
    heading("Continuations that are made, bound and suspended")
    operands("cont.new", op(NEW, 1), [NULL[0]], 1)
    case("cont.new of another function type", NULL[2] + op(NEW, 1) + DROP)
    case("cont.new for a local of its type", NULL[0] + op(NEW, 1) + b"\x21\0", locals=["!1"])
    case("cont.new is not exact", NULL[0] + op(NEW, 1) + b"\x21\0", locals=["!=1"])
    kinds("cont.new", lambda n: op(NEW, n))
    operands("cont.bind of all arguments", op(BIND, 3, 5), [I32, NULL[3]], 1)
    operands("cont.bind of none", op(BIND, 3, 3), [NULL[3]], 1)
    case("cont.bind for a local of its type", I32 + NULL[3] + op(BIND, 3, 5) + b"\x21\0", locals=["!5"])
    case("cont.bind of more arguments than there are", NULL[5] + op(BIND, 5, 3) + DROP)
    case("cont.bind that leaves another argument", NULL[3] + op(BIND, 3, 7) + DROP)
    case("cont.bind of other results", I32 + NULL[3] + op(BIND, 3, 1) + DROP)
    kinds("cont.bind from one", lambda n: op(BIND, n, 5))
    kinds("cont.bind to one", lambda n: op(BIND, 3, n))
    many = BASE + [func("i32 eq i64 -> eq"), cont(8), func("struct i64 -> any"), cont(10), func("any i64 -> any"), cont(12), func("eq i64 -> struct"), cont(14)]
    case("cont.bind to narrower arguments and wider results", I32 + NULL[9] + op(BIND, 9, 11) + DROP, types=many)
    case("cont.bind to wider arguments", I32 + NULL[9] + op(BIND, 9, 13) + DROP, types=many)
    case("cont.bind to narrower results", I32 + NULL[9] + op(BIND, 9, 15) + DROP, types=many)
    operands("suspend", op(SUSPEND, 0), [I32], 1, tags=[2])
    operands("suspend by a tag of nothing", op(SUSPEND, 0), [], 0, tags=[0])
    case("suspend for a local of its result", I32 + op(SUSPEND, 0) + b"\x21\0", tags=[2], locals=["i64"])
    for index in (1, 0xFFFFFFFF):
        case(f"suspend by the tag {index}", TRAP + op(SUSPEND, index) + DROP, tags=[2])


def resumed():
    heading("Continuations that are resumed")
    operands("resume", op(RESUME, 3, handlers=[]), [I32, NULL[3]], 1)
    operands("resume of nothing", op(RESUME, 1, handlers=[]), [NULL[1]], 0)
    case("resume for a local of its result", I32 + NULL[3] + op(RESUME, 3, handlers=[]) + b"\x21\0", locals=["i64"])
    kinds("resume", lambda n: op(RESUME, n, handlers=[]))
    tag = BASE + [func("i32 ->")]
    operands("resume_throw", op(THROW, 5, 0, handlers=[]), [I32, NULL[5]], 1, types=tag, tags=[8])
    case("resume_throw of a continuation with arguments", I32 + NULL[3] + op(THROW, 3, 0, handlers=[]) + DROP, types=tag, tags=[8])
    case("resume_throw by a tag with results", I32 + NULL[5] + op(THROW, 5, 0, handlers=[]) + DROP, tags=[2])
    for index in (1, 0xFFFFFFFF):
        case(f"resume_throw by the tag {index}", TRAP + op(THROW, 5, index, handlers=[]) + DROP, tags=[0])
    kinds("resume_throw", lambda n: op(THROW, n, 0, handlers=[]), tags=[0])
    operands("resume_throw_ref", op(THROW_REF, 5, handlers=[]), [b"\xd0\x69", NULL[5]], 1)
    case("resume_throw_ref of a reference that is not null", b"\xd0\x69\xd4" + NULL[5] + op(THROW_REF, 5, handlers=[]) + DROP)
    kinds("resume_throw_ref", lambda n: op(THROW_REF, n, handlers=[]))


WAYS = [("resume", lambda n, hs: op(RESUME, n, handlers=hs), "arguments"), ("resume_throw", lambda n, hs: op(THROW, n, 0, handlers=hs), "nothing"),
        ("resume_throw_ref", lambda n, hs: op(THROW_REF, n, handlers=hs), "an exception")]


def handled(title, label, handlers, n=3, tag=2, types=BASE):
    """Each operator that resumes, in code that isn't reached, with handlers in a block of these results."""
    types = [*types, func("-> " + label)]
    for name, write, _ in WAYS:
        code = b"\x02" + signed(len(types) - 1) + TRAP + write(n, handlers) + b"\0\x0b" + DROP * len(label.split())
        case(f"{name}, {title}", code, types=types, tags=[0, tag])


def handlers():
    heading("Handlers")
    for last in ("!7", "?7", "?=7", "!=7"):
        handled(f"a handler with the label i32 {last}", f"i32 {last}", [(1, 0)])
    handled("two handlers, and one for a switch", "i32 !7", [(1, 0), (1, 0)])
    for label in ("", "!7", "i32", "i32 i32 !7", "i64 !7", "i32 !7 i32", "i32 !3", "i32 !6", "i32 cont", "i32 i64", "f32 !7"):
        handled(f"a handler with the label `{label}`", label, [(1, 0)])
    handled("a handler with a label that is not there", "i32 !7", [(1, 9)])
    handled("a handler with a tag that is not there", "i32 !7", [(7, 0)])
    handled("a second handler with a tag that is not there", "i32 !7", [(1, 0), (7, 0)])
    more = BASE + [func("eq ->"), func("-> eq"), func("any -> i64"), cont(10), func("struct -> i64"), cont(12), func("eq -> i64"), cont(14)]
    for label in ("any !5", "eq !5", "struct !5"):
        handled(f"a handler of a tag that takes eq, with the label `{label}`", label, [(1, 0)], tag=8, types=more)
    for n, what in ((11, "any"), (13, "struct"), (15, "eq")):
        handled(f"a handler of a tag that gives eq, with a continuation that takes {what}", f"!{n}", [(1, 0)], tag=9, types=more)
    given = BASE + [func("-> eq"), cont(8), func("-> any"), cont(10), func("-> struct"), cont(12)]
    for n, what in ((9, "eq"), (11, "any"), (13, "struct")):
        handled(f"a handler of a continuation that gives eq, with one that gives {what}", f"!{n}", [(1, 0)], n=9, tag=0, types=given)
    for tag, what in ((8, "eq"), (10, "any"), (12, "struct"), (0, "nothing")):
        handled(f"a handler for switches of a continuation that gives eq, by a tag that gives {what}", "", [(1,)], n=9, tag=tag, types=given)
    handled("a handler for switches by a tag that takes something", "", [(1,)])
    handled("a handler for switches by a tag that is not there", "", [(7,)], tag=4)
    for kind in (2, 0x80, 0xFF):
        case(f"resume, a handler of the kind {kind}", TRAP + op(RESUME, 3) + b"\1" + bytes([kind]) + b"\0\0" + DROP)
    case("resume, a count of handlers past the end", TRAP + op(RESUME, 3) + b"\5\1")
    # the crate refuses the count, which its limit of handlers is below
    case("resume, the greatest count of handlers", TRAP + op(RESUME, 3) + b"\xff\xff\xff\xff\x0f", wanted="refused 56 invalid leading byte for an on clause")


def switched(title, code=None, last="?9", gives="i32", others="i32", tag="-> i32", first="f32", **parts):
    """A switch from a continuation of type 11, which takes one of type 9 last, by a tag of type 12."""
    types = BASE + [func(f"i64 -> {others}"), cont(8), func(f"{first} {last} -> {gives}"), cont(10), func(tag)]
    case(title, code or F32 + NULL[11] + op(SWITCH, 11, 0) + DROP, types=types, tags=[12], **parts)


def switches():
    heading("Switches")
    types = BASE + [func("i64 -> i32"), cont(8), func("f32 ?9 -> i32"), cont(10), func("-> i32")]
    operands("switch", op(SWITCH, 11, 0), [F32, NULL[11]], 1, types=types, tags=[12])
    for last in ("!9", "?=9", "!=9", "?8", "!10", "cont", "i32", "f32", "any", ""):
        switched(f"switch to a continuation that gets `{last}` last", TRAP + op(SWITCH, 11, 0) + DROP, last=last)
    switched("switch to a continuation that gets nothing", TRAP + op(SWITCH, 11, 0) + DROP, last="", first="")
    switched("switch by a tag that takes something", tag="i32 -> i32")
    for tag in ("-> i64", "->", "-> i32 i32"):
        switched(f"switch by a tag of type {tag}", tag=tag)
    for gives, tag, others in (("eq", "eq", "eq"), ("eq", "any", "any"), ("struct", "eq", "any"), ("eq", "any", "eq"), ("any", "eq", "eq"), ("eq", "eq", "struct"),
                               ("eq", "eq", "any"), ("i64", "i32", "i32"), ("i32", "i32", "i64")):
        switched(f"switch to what gives {gives}, by {tag}, from what gives {others}", gives=gives, tag=f"-> {tag}", others=others)
    switched("switch for a local of what the other takes", F32 + NULL[11] + op(SWITCH, 11, 0) + b"\x21\0", locals=["i64"])
    switched("switch by a tag that is not there", TRAP + op(SWITCH, 11, 5) + DROP)
    for index in (0, 10, 40):
        switched(f"switch to the type {index}", TRAP + op(SWITCH, index, 0) + DROP)


EACH = [("cont.new", op(NEW, 1), 1), ("cont.bind", op(BIND, 1, 1), 1), ("suspend", op(SUSPEND, 0), 0), ("resume", op(RESUME, 1, handlers=[]), 0),
        ("resume_throw", op(THROW, 1, 0, handlers=[]), 0), ("resume_throw_ref", op(THROW_REF, 1, handlers=[]), 0), ("switch", op(SWITCH, 3, 0), 0)]


def rest():
    heading("What is shared, constant expressions, and features")
    for name, written, count in EACH:
        for shared in (False, True):
            types = [func("->", shared), cont(0, shared), func("?1 ->", shared), cont(2, shared)]
            for function in (False, True):
                what = f"{name}, {'shared' if shared else 'unshared'}, in {'a shared' if function else 'an unshared'} function"
                case(what, TRAP + written + DROP * count, types=types, tags=[0], shared=function, features=SERVED + "+shared_everything_threads")
        types = [func("->"), cont(0), func("?1 ->"), cont(2)]
        constant = HEAD + section(1, listed(types)) + section(13, listed([b"\0\0"])) + section(6, listed([b"\x7f\0" + written + b"\x0b"]))
        CASES.append((f"{name} in a constant expression", SERVED, constant, None))
        it = module(TRAP + written + DROP * count, types=[func("->")], tags=[0])
        at = it.rindex(written)
        for features, said, missing in (("default", f"illegal opcode 0x{written[0]:02x}", "nothing"), ("all-stack_switching_operators", f"illegal opcode 0x{written[0]:02x}", "nothing"),
                                        ("all-stack_switching", "stack switching support is not enabled", "stack_switching"),
                                        ("default+stack_switching_operators", "stack switching support is not enabled", "stack_switching")):
            CASES.append((f"{name} with {features}", features, it, f"refused {at} {said}; missing {missing}"))


def main():
    for part in (plain, resumed, handlers, switches, rest):
        part()
    return row_writer.write_cases("modules/continuations.rows", "continuation_rows.py", CASES, Answers(), NAMED, SAID, sys.argv[1:])


if __name__ == "__main__":
    sys.exit(main())
