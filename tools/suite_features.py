"""Which proposals a module uses, by its bytes alone: what `tools/suite` writes beside each module.

The names are those of this validator's features, but that operators on vectors count as `simd` and atomic ones as `threads`; `floats` and `gc_types`
are taken for granted. Four proposals that are always on here have names too: relaxed_simd, tail_call, sign_extension and saturating_float_to_int. Of
bytes that are no module this says what is used up to where they stop being one."""
import os
import re
import sys

sys.path.insert(0, os.path.dirname(os.path.abspath(__file__)))
from wasm_assembler import BEHIND, BY_CODE, FIXED, Bad, signed_at, unsigned_at  # noqa: E402

TABLE = os.path.join(os.path.dirname(os.path.abspath(__file__)), "vector_table.txt")
# By the byte of an abstract heap type, what it needs besides `reference_types`.
HEAPS = {0x70: (), 0x6F: (), 0x69: ("exceptions",), 0x74: ("exceptions",), 0x68: ("stack_switching",), 0x75: ("stack_switching",)}
OF_GC = {0x73, 0x72, 0x71, 0x6E, 0x6D, 0x6C, 0x6B, 0x6A}
LEGACY = {0x06: ("bt",), 0x07: ("u",), 0x09: ("u",), 0x18: ("u",), 0x19: ()}
OF_REFERENCES = {"table.get", "table.set", "table.grow", "table.size", "table.fill", "select_t", "ref.null", "ref.is_null", "ref.func"}
OF_FUNCTIONS = {"call_ref", "return_call_ref", "ref.as_non_null", "br_on_null", "br_on_non_null"}
OF_BULK = {"memory.init", "data.drop", "memory.copy", "memory.fill", "table.init", "elem.drop", "table.copy"}
OF_TAILS = {"return_call", "return_call_indirect", "return_call_ref"}
OF_EXCEPTIONS = {"throw", "throw_ref", "try_table"}


def prefixed_immediates():
    """The immediates of the operators behind fd and fe, by both numbers, as tools/vector_table.txt has them."""
    kinds = {}
    with open(TABLE, encoding="utf-8") as lines:
        for line in lines:
            if line.strip() and line[0] != "#":
                code, _, immediates, _, _ = [it.strip() for it in line.split("|")]
                prefix, number = code.split()
                found = ["mem"] * ("memarg" in immediates) + ["byte"] * ("lane<" in immediates or "zero" in immediates)
                found += ["v128"] * bool(re.search(r"bytes16|lanes16", immediates))
                kinds[int(prefix, 16), int(number)] = found
    return kinds


PREFIXED = prefixed_immediates()


class Scan:
    def __init__(self, module):
        self.b, self.at, self.found = module, 8, set()
        # the number of results of each type that is a function's, what is imported, and what there is of each kind
        self.results, self.imported_globals, self.counts, self.mutable = [], 0, {}, []
        self.in_types = False

    def state(self):
        """What is known up to here, but for the bytes."""
        return self.at, set(self.found), list(self.results), self.imported_globals, dict(self.counts), list(self.mutable)

    def take(self, state):
        self.at, found, results, self.imported_globals, counts, mutable = state
        self.found, self.results, self.counts, self.mutable = set(found), list(results), dict(counts), list(mutable)

    def need(self, *names):
        self.found.update(names)

    def number(self, bits=32):
        value, self.at = unsigned_at(self.b, self.at, bits)
        return value

    def byte(self):
        if self.at >= len(self.b):
            raise Bad("the end")
        self.at += 1
        return self.b[self.at - 1]

    def each(self, call):
        for _ in range(self.number()):
            call()

    def text(self):
        size = self.number()
        self.at += size
        return self.b[self.at - size:self.at]

    # ------------------------------------------------------------------------------------------------- types
    def heap(self):
        code = self.b[self.at]
        if code in (0x65, 0x62):
            self.need("shared_everything_threads" if code == 0x65 else "custom_descriptors")
            self.at += 1
            return self.heap()
        value, self.at = signed_at(self.b, self.at)
        if value >= 0:
            # one that isn't before: of the group itself
            self.need("function_references", *(("gc",) if self.in_types and value >= len(self.results) else ()))
        elif code in OF_GC:
            self.need("gc")
        elif code in HEAPS:
            self.need(*HEAPS[code])
        else:
            raise Bad("no heap type")
        return None

    def value(self):
        code = self.b[self.at]
        if code in (0x63, 0x64):
            self.need("reference_types", "function_references")
            self.at += 1
            self.heap()
        elif code in HEAPS or code in OF_GC or code == 0x65:
            self.need("reference_types")
            self.heap()
        else:
            self.at += 1
            if code == 0x7B:
                self.need("simd")
            elif not 0x7C <= code <= 0x7F:
                raise Bad("no value type")

    def field(self):
        if self.b[self.at] in (0x77, 0x78):
            self.at += 1
        else:
            self.value()
        self.byte()

    def composite(self):
        code = self.byte()
        for mark, feature in ((0x65, "shared_everything_threads"), (0x4C, "custom_descriptors"), (0x4D, "custom_descriptors")):
            if code == mark:
                self.need(feature)
                if mark != 0x65:
                    self.number()
                return self.composite()
        results = None
        if code == 0x60:
            self.each(self.value)
            results = self.number()
            for _ in range(results):
                self.value()
            if results > 1:
                self.need("multi_value")
        elif code in (0x5E, 0x5F):
            self.need("gc")
            self.each(self.field) if code == 0x5F else self.field()
        elif code == 0x5D:
            self.need("stack_switching")
            self.heap()
        else:
            raise Bad("no type")
        return self.results.append(results)

    def sub(self):
        if self.b[self.at] in (0x4F, 0x50):
            self.need("gc")
            self.at += 1
            self.each(self.number)
        self.composite()

    def rec(self):
        if self.b[self.at] == 0x4E:
            self.need("gc")
            self.at += 1
            self.each(self.sub)
        else:
            self.sub()

    def limits(self, is_table=False):
        flags = self.byte()
        for bit, feature in ((2, "shared_everything_threads" if is_table else "threads"), (4, "memory64"), (8, "custom_page_sizes")):
            if flags & bit:
                self.need(feature)
        self.number(64)
        if flags & 1:
            self.number(64)
        if flags & 8 and self.number() not in (0, 16):
            self.need("other_page_sizes")

    def count(self, kind, feature, how_many=1):
        self.counts[kind] = self.counts.get(kind, 0) + how_many
        if self.counts[kind] > 1:
            self.need(feature)

    def table(self):
        self.count("table", "reference_types")
        if self.b[self.at] == 0x40:
            self.need("function_references")
            self.at += 2
            self.table_type()
            return self.expression(is_constant=True)
        return self.table_type()

    def table_type(self):
        if self.b[self.at] == 0x70:
            self.at += 1
        else:
            self.value()
        self.limits(is_table=True)

    def memory(self):
        self.count("memory", "multi_memory")
        self.limits()

    def tag(self):
        self.need("exceptions")
        self.byte()
        index = self.number()
        if index < len(self.results) and self.results[index]:
            self.need("stack_switching")

    def global_type(self):
        self.value()
        flags = self.byte()
        self.mutable.append(flags & 1)
        if flags & 2:
            self.need("shared_everything_threads")

    def imported(self):
        self.text()
        before = self.at
        self.text()
        is_unnamed, kind = self.b[before:self.at].strip(b"\x80") in (b"", b"\0"), self.byte()
        if is_unnamed and kind == 0x7F:
            self.need("compact_imports")
            self.each(lambda: (self.text(), self.external(self.byte())))
        elif is_unnamed and kind == 0x7E:
            self.need("compact_imports")
            self.of_one_type()
        else:
            self.external(kind)

    def of_one_type(self):
        """A type, and the names of imports that each have it, or none."""
        before = self.state()
        self.external(self.byte())
        behind, count = self.at, self.number()
        if not count:
            # its type breaks no rule, and asks for nothing
            self.take((behind, before[1] | {"compact_imports"}, *before[2:]))
            self.number()
        for at in range(count):
            self.text()
            if at + 1 < count:
                names, self.at = self.at, before[0]
                self.external(self.byte())
                self.at = names

    def external(self, kind):
        if kind in (0, 0x20):
            self.number()
            self.need(*(("custom_descriptors",) if kind else ()))
        elif kind == 1:
            self.count("table", "reference_types")
            self.table_type()
        elif kind == 2:
            self.memory()
        elif kind == 3:
            self.global_type()
            self.imported_globals += 1
            if self.mutable[-1]:
                self.need("mutable_global")
        elif kind == 4:
            self.tag()
        else:
            raise Bad("no kind")

    def exported(self):
        self.text()
        kind, index = self.byte(), self.number()
        if kind == 3 and index < len(self.mutable) and self.mutable[index]:
            self.need("mutable_global")

    def defined_global(self):
        self.global_type()
        self.expression(is_constant=True)

    # ------------------------------------------------------------------------------------------------- segments
    def element(self):
        flags = self.number()
        if flags & 1 or flags & 4:
            self.need("bulk_memory")
        if flags & 4:
            self.need("reference_types")
        if flags & 2 and not flags & 1:
            self.need("bulk_memory")
            if self.number():
                self.need("reference_types")
        if not flags & 1:
            self.expression(is_constant=True)
        if flags & 3:
            self.value() if flags & 4 else self.byte()
        self.each((lambda: self.expression(is_constant=True)) if flags & 4 else self.number)

    def data(self):
        flags = self.number()
        if flags:
            self.need("bulk_memory")
        if flags == 2 and self.number():
            self.need("multi_memory")
        if flags != 1:
            self.expression(is_constant=True)
        self.text()

    def function_body(self):
        size = self.number()
        end = self.at + size
        self.each(lambda: (self.number(), self.value()))
        self.expression(is_constant=False)
        self.at = max(self.at, end)

    # ------------------------------------------------------------------------------------------------- operators
    def expression(self, is_constant):
        depth = 1
        while depth:
            code = self.byte()
            if code == 0x0B or code == 0x18:
                depth -= 1
            elif code in (0x02, 0x03, 0x04, 0x06, 0x1F):
                depth += 1
            self.operator(code, is_constant)

    def operator(self, code, is_constant):
        if code in LEGACY:
            self.need("legacy_exceptions", "exceptions")
            return self.immediates("legacy", LEGACY[code])
        if 0xE0 <= code <= 0xE6:
            return self.continuation(code)
        key = bytes([code])
        if code in (0xFB, 0xFC, 0xFD, 0xFE):
            start = self.at
            number = self.number()
            if code in (0xFD, 0xFE) or (code, number) in ((0xFB, 0x20), (0xFB, 0x21)):
                return self.prefixed(code, number)
            key += self.b[start:self.at]
            if code == 0xFC and number < 8:
                self.need("saturating_float_to_int")
            if code == 0xFC and number >= 18:
                self.need("memory_control" if number == 18 else "wide_arithmetic")
        if key not in BY_CODE:
            raise Bad("no operator")
        name, kinds = BY_CODE[key]
        for names, features in ((OF_REFERENCES, "reference_types"), (OF_FUNCTIONS, "function_references"), (OF_BULK, "bulk_memory"), (OF_TAILS, "tail_call"),
                                (OF_EXCEPTIONS, "exceptions")):
            if name in names:
                self.need(features)
        if code == 0xFB or name == "ref.eq":
            self.need("gc", "reference_types")
        if name in ("ref.test", "ref.cast", "br_on_cast", "br_on_cast_fail"):
            self.need("function_references")
        if name.startswith(("ref.get_desc", "ref.cast_desc_eq", "br_on_cast_desc_eq")):
            self.need("function_references", "custom_descriptors")
        if 0xC0 <= code <= 0xC4:
            self.need("sign_extension")
        if is_constant and re.fullmatch(r"i\d\d\.(add|sub|mul)", name):
            self.need("extended_const")
        return self.immediates(name, kinds, is_constant)

    def continuation(self, code):
        """An operator on continuations: one index or two, and its handlers."""
        self.need("stack_switching")
        for _ in range(2 if code in (0xE1, 0xE4, 0xE6) else 1):
            self.number()
        if 0xE3 <= code <= 0xE5:
            self.each(lambda: [self.number() for _ in range(2 if self.byte() == 0 else 1)])

    def prefixed(self, code, number):
        if code == 0xFB:
            self.need("gc", "custom_descriptors")
            return self.immediates("struct.new_desc", ("u",))
        if (code, number) == (0xFE, 0x72):
            return self.need("gc", "reference_types", "shared_everything_threads")
        if code == 0xFE and (number == 4 or 0x4F <= number < 0x72):
            # atomic accesses to globals, tables, structures and arrays: an ordering and an index, and a structure's field; `pause` has none
            self.need("shared_everything_threads")
            return self.immediates("", () if number == 4 else ("u", "u", "u") if 0x5C <= number < 0x67 else ("u", "u"))
        if (code, number) not in PREFIXED:
            raise Bad("no operator")
        self.need("threads" if code == 0xFE else "simd")
        if code == 0xFD and number >= 0x100:
            self.need("relaxed_simd")
        return self.immediates("", PREFIXED[code, number])

    def immediates(self, name, kinds, is_constant=False):
        for place, kind in enumerate(kinds):
            if kind == "byte":
                self.byte()
            elif kind in FIXED:
                self.at += FIXED[kind]
            elif kind == "ht":
                self.heap()
            elif kind == "bt":
                self.block_type()
            elif kind == "types":
                self.each(self.value)
            elif kind == "mem":
                if self.b[self.at] & 0x40:
                    self.need("multi_memory")
                self.at = BEHIND["mem"](self.b, self.at)
            elif kind == "cast":
                self.byte()
                self.number()
                self.heap()
                self.heap()
            elif kind == "u":
                self.index(name, place, is_constant)
            else:
                self.at = BEHIND[kind](self.b, self.at)
        if self.at > len(self.b):
            raise Bad("the end")

    def index(self, name, place, is_constant):
        value = self.number()
        of_memory = (name, place) in (("memory.size", 0), ("memory.grow", 0), ("memory.fill", 0), ("memory.init", 1), ("memory.copy", 0), ("memory.copy", 1),
                                      ("memory.discard", 0))
        if value and of_memory:
            self.need("multi_memory")
        if value and (name, place) in (("call_indirect", 1), ("return_call_indirect", 1)):
            self.need("reference_types")
        if name == "global.get" and is_constant and value >= self.imported_globals:
            self.need("gc")

    def block_type(self):
        code = self.b[self.at]
        if code == 0x40:
            self.at += 1
            return
        value, end = signed_at(self.b, self.at)
        if value >= 0 and code not in (0x63, 0x64):
            self.at = end
            self.need("multi_value")
        else:
            self.value()

    # ------------------------------------------------------------------------------------------------- sections
    def section(self, id, end):
        calls = {1: self.rec, 2: self.imported, 4: self.table, 5: self.memory, 13: self.tag, 6: self.defined_global, 7: self.exported, 9: self.element,
                 10: self.function_body, 11: self.data}
        if id == 12:
            self.need("bulk_memory")
        if id == 13:
            self.need("exceptions")
        self.in_types = id == 1
        if id in calls:
            self.each(calls[id])
        self.at = end


# What was found before the bodies of a module, by the bytes up to there: most bodies of rows stand behind the same ones.
FRONTS = {}


def start_of_bodies(module):
    """Where the section of bodies begins, or 0 where there is none or the sections before it can't be told apart."""
    it = Scan(module)
    try:
        while it.at < len(module):
            start = it.at
            if it.byte() == 10:
                return start
            size = it.number()
            it.at += size
    except (Bad, IndexError):
        pass
    return 0


def features_of(module):
    """The proposals that the module uses, in the order of the alphabet, and whether it could be read to its end."""
    bodies = start_of_bodies(module)
    it = Scan(module)
    try:
        if bodies and module[:bodies] in FRONTS:
            it.take(FRONTS[module[:bodies]])
        while it.at < len(module):
            if it.at == bodies:
                FRONTS.setdefault(module[:bodies], it.state())
            id = it.byte()
            size = it.number()
            it.section(id, it.at + size)
    except (Bad, IndexError):
        return sorted(it.found), False
    return sorted(it.found), True
