"""A small assembler of WebAssembly modules, and readers of their sections, bodies and operators, for the tools that write rows.

`build` makes a module of texts:

- Value types: i32 i64 f32 f64 v128, funcref externref anyref eqref i31ref structref arrayref exnref nullref nullfuncref nullexternref nullexnref;
  `?H` is (ref null H) and `!H` is (ref H), where H is the name of an abstract heap type or a type index. Stored are also i8 and i16.
- Types: `func i32 i64 -> f32`, `struct i32 mut:i8`, `array mut:!1`, behind `sub[..]` or, for final ones, `subf[..]` with supertypes by index in the
  brackets; a list of such texts is one recursion group.
- Operators: `i32.const 1; local.set 0`, by the names and the immediates of OPERATORS; `x:AABB` is these bytes. No `end` is added.
- Limits: `1`, `1 5`, `i64 1 5`; a table's stand behind its type, as in `funcref 1 5`.

Bytes may stand wherever a text may, so what isn't well formed can be written too."""
import os
import struct
import sys

sys.path.insert(0, os.path.dirname(os.path.abspath(__file__)))
from wasm_bytes import HEAD, section, unsigned  # noqa: E402

KEY = {"custom": 0, "types": 1, "imports": 2, "functions": 3, "tables": 4, "memories": 5, "globals": 6, "exports": 7, "start": 8, "elements": 9,
       "code": 10, "data": 11, "data count": 12, "tags": 13}


# ------------------------------------------------------------------------------------------------- numbers, lists and names
def signed(n):
    """The number in signed LEB128."""
    out = bytearray()
    while True:
        byte = n & 0x7F
        n >>= 7
        if n == (-1 if byte & 0x40 else 0):
            return bytes(out + bytes([byte]))
        out.append(byte | 0x80)


def listed(items):
    """The items behind their number."""
    items = list(items)
    return unsigned(len(items)) + b"".join(items)


def named(text):
    """A name, or a string of bytes, behind its length."""
    text = text.encode() if isinstance(text, str) else text
    return unsigned(len(text)) + text


# ------------------------------------------------------------------------------------------------- types
NUMBERS = {"i32": 0x7F, "i64": 0x7E, "f32": 0x7D, "f64": 0x7C, "v128": 0x7B, "i8": 0x78, "i16": 0x77}
HEAPS = {"nocont": 0x75, "noexn": 0x74, "nofunc": 0x73, "noextern": 0x72, "none": 0x71, "func": 0x70, "extern": 0x6F, "any": 0x6E, "eq": 0x6D,
         "i31": 0x6C, "struct": 0x6B, "array": 0x6A, "exn": 0x69, "cont": 0x68}
SHORT = {"funcref": "func", "externref": "extern", "anyref": "any", "eqref": "eq", "i31ref": "i31", "structref": "struct", "arrayref": "array",
         "exnref": "exn", "nullref": "none", "nullfuncref": "nofunc", "nullexternref": "noextern", "nullexnref": "noexn"}


def heap_type(text):
    return bytes([HEAPS[text]]) if text in HEAPS else signed(int(text))


def value_type(text):
    if isinstance(text, bytes):
        return text
    if text in NUMBERS:
        return bytes([NUMBERS[text]])
    if text in SHORT:
        return bytes([HEAPS[SHORT[text]]])
    if text[0] in "?!":
        return (b"\x63" if text[0] == "?" else b"\x64") + heap_type(text[1:])
    raise ValueError(f"no value type: {text}")


def field_type(text):
    return value_type(text.removeprefix("mut:")) + (b"\1" if text.startswith("mut:") else b"\0")


def composite_type(text):
    kind, _, rest = text.strip().partition(" ")
    if kind == "func":
        takes, _, gives = rest.partition("->")
        return b"\x60" + listed(map(value_type, takes.split())) + listed(map(value_type, gives.split()))
    if kind == "struct":
        return b"\x5f" + listed(map(field_type, rest.split()))
    if kind == "array":
        return b"\x5e" + field_type(rest.strip())
    raise ValueError(f"no type: {text}")


def sub_type(text):
    if isinstance(text, bytes):
        return text
    text = text.strip()
    if not text.startswith("sub"):
        return composite_type(text)
    head, _, rest = text.partition("]")
    kind, _, supertypes = head.partition("[")
    return {"sub": b"\x50", "subf": b"\x4f"}[kind] + listed(unsigned(int(it)) for it in supertypes.split()) + composite_type(rest)


def rec_type(text):
    return b"\x4e" + listed(map(sub_type, text)) if isinstance(text, (tuple, list)) else sub_type(text)


def limits(text):
    words = text.split()
    flags = 0
    if words[0] == "i64":
        flags, words = 4, words[1:]
    return bytes([flags | (len(words) > 1)]) + b"".join(unsigned(int(it, 0)) for it in words)


def table_type(text):
    element, _, rest = text.strip().partition(" ")
    return value_type(element) + limits(rest)


def global_type(text):
    return value_type(text.removeprefix("mut:")) + (b"\1" if text.startswith("mut:") else b"\0")


# ------------------------------------------------------------------------------------------------- operators
# By name: the bytes of the opcode, and the kinds of the immediates. `u` is an unsigned number; `bt` a block type: `_` for none, `@1` a type index,
# `=i32` one result; `mem` is ALIGNMENT:OFFSET or ALIGNMENT:OFFSET:MEMORY; `targets` are the labels of a br_table; `catches` are as in
# `[catch:0:1,catch_all:0]`; `cast` is a label and two reference types; `ht` a heap type; `types` some value types.
OPERATORS = {}


def define(prefix, text):
    for line in text.strip().split("\n"):
        code, name, *kinds = line.split()
        OPERATORS[name] = (prefix + (unsigned(int(code)) if prefix else bytes([int(code, 16)])), tuple(kinds))


def define_from(first, names, *kinds):
    for i, name in enumerate(names.split()):
        OPERATORS[name] = (bytes([first + i]), kinds)


define(b"", """
00 unreachable
01 nop
02 block bt
03 loop bt
04 if bt
05 else
08 throw u
0a throw_ref
0b end
0c br u
0d br_if u
0e br_table targets
0f return
10 call u
11 call_indirect u u
12 return_call u
13 return_call_indirect u u
14 call_ref u
15 return_call_ref u
1a drop
1b select
1c select_t types
1f try_table bt catches
20 local.get u
21 local.set u
22 local.tee u
23 global.get u
24 global.set u
25 table.get u
26 table.set u
3f memory.size u
40 memory.grow u
41 i32.const s32
42 i64.const s64
43 f32.const f32
44 f64.const f64
d0 ref.null ht
d1 ref.is_null
d2 ref.func u
d3 ref.eq
d4 ref.as_non_null
d5 br_on_null u
d6 br_on_non_null u
""")
define_from(0x28, """i32.load i64.load f32.load f64.load i32.load8_s i32.load8_u i32.load16_s i32.load16_u
i64.load8_s i64.load8_u i64.load16_s i64.load16_u i64.load32_s i64.load32_u i32.store i64.store f32.store f64.store
i32.store8 i32.store16 i64.store8 i64.store16 i64.store32""", "mem")
define_from(0x45, """i32.eqz i32.eq i32.ne i32.lt_s i32.lt_u i32.gt_s i32.gt_u i32.le_s i32.le_u i32.ge_s i32.ge_u
i64.eqz i64.eq i64.ne i64.lt_s i64.lt_u i64.gt_s i64.gt_u i64.le_s i64.le_u i64.ge_s i64.ge_u
f32.eq f32.ne f32.lt f32.gt f32.le f32.ge f64.eq f64.ne f64.lt f64.gt f64.le f64.ge
i32.clz i32.ctz i32.popcnt i32.add i32.sub i32.mul i32.div_s i32.div_u i32.rem_s i32.rem_u i32.and i32.or i32.xor
i32.shl i32.shr_s i32.shr_u i32.rotl i32.rotr
i64.clz i64.ctz i64.popcnt i64.add i64.sub i64.mul i64.div_s i64.div_u i64.rem_s i64.rem_u i64.and i64.or i64.xor
i64.shl i64.shr_s i64.shr_u i64.rotl i64.rotr
f32.abs f32.neg f32.ceil f32.floor f32.trunc f32.nearest f32.sqrt f32.add f32.sub f32.mul f32.div f32.min f32.max f32.copysign
f64.abs f64.neg f64.ceil f64.floor f64.trunc f64.nearest f64.sqrt f64.add f64.sub f64.mul f64.div f64.min f64.max f64.copysign
i32.wrap_i64 i32.trunc_f32_s i32.trunc_f32_u i32.trunc_f64_s i32.trunc_f64_u i64.extend_i32_s i64.extend_i32_u
i64.trunc_f32_s i64.trunc_f32_u i64.trunc_f64_s i64.trunc_f64_u f32.convert_i32_s f32.convert_i32_u f32.convert_i64_s
f32.convert_i64_u f32.demote_f64 f64.convert_i32_s f64.convert_i32_u f64.convert_i64_s f64.convert_i64_u f64.promote_f32
i32.reinterpret_f32 i64.reinterpret_f64 f32.reinterpret_i32 f64.reinterpret_i64
i32.extend8_s i32.extend16_s i64.extend8_s i64.extend16_s i64.extend32_s""")
define(b"\xfc", """
0 i32.trunc_sat_f32_s
1 i32.trunc_sat_f32_u
2 i32.trunc_sat_f64_s
3 i32.trunc_sat_f64_u
4 i64.trunc_sat_f32_s
5 i64.trunc_sat_f32_u
6 i64.trunc_sat_f64_s
7 i64.trunc_sat_f64_u
8 memory.init u u
9 data.drop u
10 memory.copy u u
11 memory.fill u
12 table.init u u
13 elem.drop u
14 table.copy u u
15 table.grow u
16 table.size u
17 table.fill u
18 memory.discard u
19 i64.add128
20 i64.sub128
21 i64.mul_wide_s
22 i64.mul_wide_u
""")
define(b"\xfb", """
0 struct.new u
1 struct.new_default u
2 struct.get u u
3 struct.get_s u u
4 struct.get_u u u
5 struct.set u u
6 array.new u
7 array.new_default u
8 array.new_fixed u u
9 array.new_data u u
10 array.new_elem u u
11 array.get u
12 array.get_s u
13 array.get_u u
14 array.set u
15 array.len
16 array.fill u
17 array.copy u u
18 array.init_data u u
19 array.init_elem u u
20 ref.test ht
21 ref.test_null ht
22 ref.cast ht
23 ref.cast_null ht
24 br_on_cast cast
25 br_on_cast_fail cast
26 any.convert_extern
27 extern.convert_any
28 ref.i31
29 i31.get_s
30 i31.get_u
34 ref.get_desc u
35 ref.cast_desc_eq ht
36 ref.cast_desc_eq_null ht
37 br_on_cast_desc_eq cast
38 br_on_cast_desc_eq_fail cast
""")
OPERATORS["v128.const"] = (b"\xfd\x0c", ("v128",))
CATCHES = {"catch": 0, "catch_ref": 1, "catch_all": 2, "catch_all_ref": 3}
# By opcode: the name, and the kinds of the immediates.
BY_CODE = {code: (name, kinds) for name, (code, kinds) in OPERATORS.items()}


def block_type(text):
    if text == "_":
        return b"\x40"
    return signed(int(text[1:])) if text[0] == "@" else value_type(text.removeprefix("="))


def memory_argument(text):
    parts = [int(it, 0) for it in text.split(":")]
    if len(parts) == 3:
        return unsigned(parts[0] | 0x40) + unsigned(parts[2]) + unsigned(parts[1])
    return unsigned(parts[0]) + unsigned(parts[1])


def catch_clauses(text):
    clauses = [it.split(":") for it in text.strip("[]").split(",") if it]
    return listed(bytes([CATCHES[it[0]]]) + b"".join(unsigned(int(number)) for number in it[1:]) for it in clauses)


def cast(words):
    label, given, wanted = words
    flags = (given[0] == "?") | (wanted[0] == "?") << 1
    return bytes([flags]) + unsigned(int(label)) + heap_type(given[1:]) + heap_type(wanted[1:])


# Kinds of immediates that take all words that are left.
LISTS = {
    "types": lambda words: listed(map(value_type, words)),
    "targets": lambda words: listed(unsigned(int(it)) for it in words[:-1]) + unsigned(int(words[-1])),
    "catches": lambda words: catch_clauses("".join(words)),
    "cast": cast,
}
# Kinds of one word, with the word where none is written.
SINGLE = {
    "u": (lambda word: unsigned(int(word, 0)), "0"),
    "s32": (lambda word: signed(int(word, 0)), None),
    "s64": (lambda word: signed(int(word, 0)), None),
    "f32": (lambda word: struct.pack("<f", float(word)), None),
    "f64": (lambda word: struct.pack("<d", float(word)), None),
    "ht": (heap_type, None),
    "mem": (memory_argument, "0:0"),
}


def operators(text):
    """The bytes of operators that stand behind each other, between `;` or on lines."""
    if isinstance(text, bytes):
        return text
    out = bytearray()
    for part in text.replace("\n", ";").split(";"):
        words = part.split()
        if not words:
            continue
        if words[0].startswith("x:"):
            out += bytes.fromhex("".join(words)[2:])
            continue
        code, kinds = OPERATORS[words.pop(0)]
        out += code
        for kind in kinds:
            if kind in LISTS:
                out += LISTS[kind](words)
                words = []
            elif kind == "v128":
                out += bytes(16)
            elif kind == "bt":
                out += block_type(words.pop(0)) if words and words[0][0] != "[" else b"\x40"
            else:
                call, otherwise = SINGLE[kind]
                out += call(words.pop(0) if words or otherwise is None else otherwise)
        if words:
            raise ValueError(f"too many immediates: {part}")
    return bytes(out)


# ------------------------------------------------------------------------------------------------- modules
EXTERNALS = {"func": 0, "table": 1, "memory": 2, "global": 3, "tag": 4}


def element(mode="active", table=None, off="i32.const 0", type=None, funcs=None, exprs=None):
    """An element segment: `active`, `passive` or `declared`, of functions by index, or of expressions with their type."""
    offset = operators(off) + b"\x0b"
    if funcs is not None:
        items = listed(unsigned(it) for it in funcs)
        if mode != "active":
            return (b"\1\0" if mode == "passive" else b"\3\0") + items
        return b"\0" + offset + items if table is None else b"\2" + unsigned(table) + offset + b"\0" + items
    items = listed(operators(it) + b"\x0b" for it in exprs)
    if mode != "active":
        return (b"\5" if mode == "passive" else b"\7") + value_type(type) + items
    if table is None and type is None:
        return b"\4" + offset + items
    return b"\6" + unsigned(table or 0) + offset + value_type(type or "funcref") + items


def data_segment(mode="active", mem=None, off="i32.const 0", bytes=b"abc"):
    if mode == "passive":
        return b"\1" + named(bytes)
    if mem is None:
        return b"\0" + operators(off) + b"\x0b" + named(bytes)
    return b"\2" + unsigned(mem) + operators(off) + b"\x0b" + named(bytes)


def table_entry(it):
    if isinstance(it, (tuple, list)):
        return b"\x40\0" + table_type(it[0]) + operators(it[1]) + b"\x0b"
    return it if isinstance(it, bytes) else table_type(it)


def body(locals, ops):
    """A function's body behind its size. The locals are value types, or bytes."""
    declared = listed(unsigned(1) + value_type(it) for it in locals.split()) if isinstance(locals, str) else locals
    return named(declared + operators(ops) + b"\x0b")


class Signatures:
    """The types of functions: by index, or by texts such as `i32 -> i32`, which are added behind the types that are written."""

    def __init__(self, count):
        self.count, self.added = count, []

    def index(self, it):
        if isinstance(it, int) or it.strip().isdigit():
            return int(it)
        if it not in self.added:
            self.added.append(it)
        return self.count + self.added.index(it)


def import_entry(it, signatures):
    """An import of a kind and its type, behind its two names or without them."""
    if isinstance(it, bytes):
        return it
    module, field, kind, type = it if len(it) == 4 else ("m", "f", *it)
    calls = {"func": lambda: unsigned(signatures.index(type)), "table": lambda: table_type(type), "memory": lambda: limits(str(type)),
             "global": lambda: global_type(type), "tag": lambda: b"\0" + unsigned(signatures.index(type))}
    return named(module) + named(field) + bytes([EXTERNALS[kind]]) + calls[kind]()


def build(types=(), imports=(), funcs=(), tables=(), mems=(), tags=(), globals=(), exports=(), start=None,
          elems=(), datacount=None, datas=(), post=None, ntypes=None, magic=HEAD):
    """A module. Functions are (type, locals, operators); imports (kind, type) or (module, field, kind, type); tables a text or (text, initializer);
    globals (text, initializer); exports (name, kind, index); segments what `element` and `data_segment` take. `post` may change the list of sections,
    each [id, contents], and `ntypes` says how many types there are where bytes contain some."""
    types = list(types)
    written = sum(len(it) if isinstance(it, (list, tuple)) else 1 for it in types)
    signatures = Signatures(written if ntypes is None else ntypes)
    functions = [unsigned(signatures.index(it[0])) for it in funcs]
    imported = [import_entry(it, signatures) for it in imports]
    tagged = [b"\0" + unsigned(signatures.index(it)) for it in tags]
    types += ["func " + it for it in signatures.added]
    contents = [
        ("types", listed(map(rec_type, types)) if types else None),
        ("imports", listed(imported) if imported else None),
        ("functions", listed(functions) if functions else None),
        ("tables", listed(map(table_entry, tables)) if tables else None),
        ("memories", listed(it if isinstance(it, bytes) else limits(it) for it in mems) if mems else None),
        ("tags", listed(tagged) if tagged else None),
        ("globals", listed(global_type(it) + operators(init) + b"\x0b" for it, init in globals) if globals else None),
        ("exports", listed(named(name) + bytes([EXTERNALS[kind]]) + unsigned(index) for name, kind, index in exports) if exports else None),
        ("start", unsigned(start) if start is not None else None),
        ("elements", listed(it if isinstance(it, bytes) else element(**it) for it in elems) if elems else None),
        ("data count", unsigned(datacount) if datacount is not None else None),
        ("code", listed(body(it[1], it[2]) for it in funcs) if funcs else None),
        ("data", listed(it if isinstance(it, bytes) else data_segment(**it) for it in datas) if datas else None),
    ]
    found = [[KEY[name], it] for name, it in contents if it is not None]
    if post:
        found = post(found) or found
    return magic + b"".join(it if isinstance(it, bytes) else section(*it) for it in found)


# ------------------------------------------------------------------------------------------------- reading
class Bad(Exception):
    """The bytes are no such number, section or operator."""


def unsigned_at(b, at, bits=32):
    """The unsigned number that is here, and where it ends."""
    value = shift = 0
    while True:
        if at >= len(b) or shift > bits:
            raise Bad("a number that does not end")
        byte = b[at]
        at += 1
        value |= (byte & 0x7F) << shift
        shift += 7
        if byte < 0x80:
            return value, at


def signed_at(b, at):
    """The signed number that is here, and where it ends."""
    value, end = unsigned_at(b, at, 70)
    return value - (1 << 7 * (end - at)) if b[end - 1] & 0x40 else value, end


def sections(b):
    """Each section: its id, where it begins, and where its contents begin and end."""
    at, found = 8, []
    while at < len(b):
        first = at
        size, at = unsigned_at(b, at + 1)
        if at + size > len(b):
            raise Bad("a section that does not end")
        found.append((b[first], first, at, at + size))
        at += size
    return found


def behind_value_type(b, at):
    return signed_at(b, at + 1)[1] if b[at] in (0x63, 0x64) else at + 1


def bodies(b):
    """Each body of the first code section: where its size begins, where it begins and ends, and where its first operator is."""
    found = []
    for id, _, start, _ in sections(b):
        if id != 10:
            continue
        count, at = unsigned_at(b, start)
        for _ in range(count):
            first = at
            size, at = unsigned_at(b, at)
            declarations, inner = unsigned_at(b, at)
            for _ in range(declarations):
                _, inner = unsigned_at(b, inner)
                inner = behind_value_type(b, inner)
            found.append((first, at, at + size, inner))
            at += size
        return found
    return found


# Operators that are left out of OPERATORS, where `operator_at` stops: those of legacy exceptions, and atomic ones.
LEFT_OUT = {0x06, 0x07, 0x09, 0x18, 0x19, 0xFE}
FIXED = {"f32": 4, "f64": 8, "v128": 16}


def behind_block_type(b, at):
    return behind_value_type(b, at) if b[at] in (0x63, 0x64) else signed_at(b, at)[1]


def behind_memory_argument(b, at):
    flags, at = unsigned_at(b, at)
    at = unsigned_at(b, at)[1] if flags & 0x40 else at
    return unsigned_at(b, at, 64)[1]


def behind_many(b, at, behind_one, more=0):
    """Behind a list, and so many items more."""
    count, at = unsigned_at(b, at)
    for _ in range(count + more):
        at = behind_one(b, at)
    return at


def behind_catch(b, at):
    kind, at = b[at], unsigned_at(b, at + 1)[1]
    return unsigned_at(b, at)[1] if kind < 2 else at


def behind_cast(b, at):
    at = unsigned_at(b, at + 1)[1]
    return signed_at(b, signed_at(b, at)[1])[1]


BEHIND = {
    "u": lambda b, at: unsigned_at(b, at)[1],
    "s32": lambda b, at: signed_at(b, at)[1],
    "s64": lambda b, at: signed_at(b, at)[1],
    "ht": lambda b, at: signed_at(b, at)[1],
    "bt": behind_block_type,
    "mem": behind_memory_argument,
    "types": lambda b, at: behind_many(b, at, behind_value_type),
    "targets": lambda b, at: behind_many(b, at, lambda b, at: unsigned_at(b, at)[1], 1),
    "catches": lambda b, at: behind_many(b, at, behind_catch),
    "cast": behind_cast,
}


def operator_at(b, at):
    """The name of the operator that is here, its immediates, each with its kind and where it begins and ends, and where the operator ends. The name is
    None where the operator is one that is left out."""
    code = b[at]
    if code in LEFT_OUT:
        return None, [], at + 1
    key, end = bytes([code]), at + 1
    if code in (0xFB, 0xFC, 0xFD):
        number, end = unsigned_at(b, end)
        key += unsigned(number)
    if code == 0xFD and key not in BY_CODE:
        return None, [], end
    if key not in BY_CODE:
        raise Bad("no operator")
    name, kinds = BY_CODE[key]
    immediates = []
    for kind in kinds:
        start = end
        end = start + FIXED[kind] if kind in FIXED else BEHIND[kind](b, start)
        if end > len(b):
            raise Bad("an operator that does not end")
        immediates.append((kind, start, end))
    return name, immediates, end
