#!/usr/bin/env python3
"""Writes operators as a compiler mixes them, for the bench of bodies.

    tools/operator_mix.py [--flat] FILE BYTES

FILE gets about so many bytes of operators that leave the stack as they found it, so that the file may stand in a
body any number of times. With --flat each kind of operator is as frequent as any other, as far as operands allow.
They are valid in the module of crates/test_all/src/bench.rt: functions of type [i64 i32] -> [i32], locals as
LOCALS says, a memory, and globals of types i32, i64 and i32. What share each operator has is printed.
The same call writes the same bytes.
"""
import random
import sys

sys.dont_write_bytecode = True
from wasm_bytes import unsigned

I32, I64 = "i32", "i64"
# name: per cent, opcode, what it takes, what it gives
MIX = {
    "local.get": (18, 0x20, None, None),
    "i64.const": (9, 0x42, [], [I64]),
    "end": (8, 0x0B, None, None),
    "i32.const": (8, 0x41, [], [I32]),
    "local.set": (7, 0x21, None, None),
    "i32.wrap_i64": (6, 0xA7, [I64], [I32]),
    "i64.store": (6, 0x37, [I32, I64], []),
    "i64.load": (5, 0x29, [I32], [I64]),
    "i64.add": (5, 0x7C, [I64, I64], [I64]),
    "i64.extend_i32_u": (4, 0xAD, [I32], [I64]),
    "block": (4, 0x02, [], []),
    "local.tee": (3, 0x22, None, None),
    "global.set": (2, 0x24, None, None),
    "global.get": (2, 0x23, None, None),
    "br": (2, 0x0C, [], []),
    "call": (2, 0x10, [I64, I32], [I32]),
    "if": (2, 0x04, [I32], []),
    "i32.sub": (2, 0x6B, [I32, I32], [I32]),
    "loop": (1.4, 0x03, [], []),
    "br_if": (1, 0x0D, [I32], []),
    "i64.eqz": (1, 0x50, [I64], [I32]),
    "i32.eqz": (1, 0x45, [I32], [I32]),
    "drop": (0.3, 0x1A, None, None),
    "i32.load": (0.3, 0x28, [I32], [I32]),
    "i32.store": (0.2, 0x36, [I32, I32], []),
    "i32.load8_u": (0.2, 0x2D, [I32], [I32]),
    "i64.sub": (0.2, 0x7D, [I64, I64], [I64]),
    "i64.mul": (0.1, 0x7E, [I64, I64], [I64]),
    "i64.shl": (0.1, 0x86, [I64, I64], [I64]),
    "i64.eq": (0.1, 0x51, [I64, I64], [I32]),
    "i64.lt_u": (0.1, 0x54, [I64, I64], [I32]),
    "i32.add": (0.1, 0x6A, [I32, I32], [I32]),
    "i32.and": (0.1, 0x71, [I32, I32], [I32]),
    "select": (0.1, 0x1B, None, None),
    "f64.convert_i64_s": (0.05, 0xB9, [I64], None),
}
# operators of one opcode each, for the flat mix: the range of the opcodes, what they take, what they give
F32, F64 = "f32", "f64"
NUMBERS = [
    (0x45, 0x45, [I32], I32), (0x46, 0x4F, [I32, I32], I32), (0x50, 0x50, [I64], I32), (0x51, 0x5A, [I64, I64], I32),
    (0x5B, 0x60, [F32, F32], I32), (0x61, 0x66, [F64, F64], I32), (0x67, 0x69, [I32], I32), (0x6A, 0x78, [I32, I32], I32),
    (0x79, 0x7B, [I64], I64), (0x7C, 0x8A, [I64, I64], I64), (0x8B, 0x91, [F32], F32), (0x92, 0x98, [F32, F32], F32),
    (0x99, 0x9F, [F64], F64), (0xA0, 0xA6, [F64, F64], F64), (0xA7, 0xA7, [I64], I32), (0xA8, 0xA9, [F32], I32),
    (0xAA, 0xAB, [F64], I32), (0xAC, 0xAD, [I32], I64), (0xAE, 0xAF, [F32], I64), (0xB0, 0xB1, [F64], I64),
    (0xB2, 0xB3, [I32], F32), (0xB4, 0xB5, [I64], F32), (0xB6, 0xB6, [F64], F32), (0xB7, 0xB8, [I32], F64),
    (0xB9, 0xBA, [I64], F64), (0xBB, 0xBB, [F32], F64), (0xBC, 0xBC, [F32], I32), (0xBD, 0xBD, [F64], I64),
    (0xBE, 0xBE, [I32], F32), (0xBF, 0xBF, [I64], F64), (0xC0, 0xC1, [I32], I32), (0xC2, 0xC4, [I64], I64),
]
TRUNCATIONS = [(0, 1, [F32], I32), (2, 3, [F64], I32), (4, 5, [F32], I64), (6, 7, [F64], I64)]
# the type of what is loaded or stored, from opcode 28 on, and the most that its alignment may be
LOADS = [(I32, 2), (I64, 3), (F32, 2), (F64, 3), (I32, 0), (I32, 0), (I32, 1), (I32, 1)] + [(I64, n) for n in (0, 0, 1, 1, 2, 2)]
STORES = [(I32, 2), (I64, 3), (F32, 2), (F64, 3), (I32, 0), (I32, 1), (I64, 0), (I64, 1), (I64, 2)]


def flat_mix():
    """Each kind of operator once: those of numbers by their opcodes, and of the others those that the module has a use for."""
    mix = {name: MIX[name] for name in ("local.get", "local.set", "local.tee", "global.get", "global.set", "i32.const", "i64.const", "block", "loop",
                                        "if", "end", "br", "br_if", "call", "drop", "select")}
    mix["f32.const"] = (1, 0x43, [], [F32])
    mix["f64.const"] = (1, 0x44, [], [F64])
    mix["nop"] = (1, 0x01, [], [])
    mix["return"] = (1, 0x0F, [I32], [])
    mix["br_table"] = (1, 0x0E, [I32], [])
    mix["call_indirect"] = (1, 0x11, [I64, I32, I32], [I32])
    mix["memory.size"] = (1, 0x3F, [], [I32])
    mix["memory.grow"] = (1, 0x40, [I32], [I32])
    mix["memory.copy"] = (1, b"\xfc\x0a", [I32, I32, I32], [])
    mix["memory.fill"] = (1, b"\xfc\x0b", [I32, I32, I32], [])
    for first, last, takes, gives in NUMBERS:
        mix.update({f"{code:02x}": (1, code, takes, [gives]) for code in range(first, last + 1)})
    for first, last, takes, gives in TRUNCATIONS:
        mix.update({f"fc {code}": (1, bytes([0xFC, code]), takes, [gives]) for code in range(first, last + 1)})
    for k, (ty, align) in enumerate(LOADS):
        mix[f"load {0x28 + k:02x}"] = (1, 0x28 + k, [I32], [ty])
        ALIGN[f"load {0x28 + k:02x}"] = align
    for k, (ty, align) in enumerate(STORES):
        mix[f"store {0x36 + k:02x}"] = (1, 0x36 + k, [I32, ty], [])
        ALIGN[f"store {0x36 + k:02x}"] = align
    return mix


# how many locals there are of each type, parameters first
LOCALS = [(1, I64), (1, I32), (150, I32), (150, I64)]
TYPES = [ty for count, ty in LOCALS for _ in range(count)]
GLOBALS = [I32, I64, I32]
ALIGN = {"i64.load": 3, "i64.store": 3, "i32.load": 2, "i32.store": 2, "i32.load8_u": 0}


def signed(n):
    out = bytearray()
    while not -64 <= n < 64:
        out.append(n & 0x7F | 0x80)
        n >>= 7
    return bytes(out + bytes([n & 0x7F]))


def number(rng):
    """Of one byte mostly, else of two or three."""
    return rng.choice([rng.randrange(64)] * 6 + [rng.randrange(64, 8192)] * 3 + [rng.randrange(8192, 1000000)])


class Writer:
    def __init__(self, seed, mix):
        self.rng = random.Random(seed)
        self.mix = mix
        self.out = bytearray()
        self.counts = {name: 0 for name in mix}
        self.operands, self.heights = [], []

    def above(self):
        return self.operands[self.heights[-1] if self.heights else 0:]

    def fits(self, name):
        here, takes = self.above(), self.mix[name][2]
        if name in ("br", "br_if") and not self.heights:
            return False
        if name == "end":
            return bool(self.heights) and not here
        if name in ("block", "loop", "if") and len(self.heights) > 8:
            return False
        if name in ("local.set", "local.tee", "global.set", "drop"):
            return bool(here)
        if name == "select":
            return len(here) > 2 and here[-1] == I32 and here[-2] == here[-3]
        if not takes and name in ("local.get", "global.get", "i64.const", "i32.const") and len(here) > 5:
            return False
        return not takes or here[len(here) - len(takes):] == takes and len(here) >= len(takes)

    def write(self, name, ty=None):
        _share, opcode, takes, gives = self.mix[name]
        rng, out = self.rng, self.out
        self.counts[name] += 1
        out += opcode if isinstance(opcode, bytes) else bytes([opcode])
        if name == "f64.convert_i64_s":
            self.operands.pop()
            self.operands.append("f64")
            return self.write("drop")
        if name in ("local.set", "local.tee", "global.set"):
            ty = self.operands[-1]
            types = GLOBALS if name == "global.set" else TYPES
            out += unsigned(self.index(types, ty))
            if name != "local.tee":
                self.operands.pop()
        elif name in ("local.get", "global.get"):
            types = GLOBALS if name == "global.get" else TYPES
            ty = ty or rng.choice([I32, I64])
            out += unsigned(self.index(types, ty))
            self.operands.append(ty)
        elif name == "end":
            self.heights.pop()
        elif name == "drop":
            self.operands.pop()
        elif name == "select":
            del self.operands[-2:]
        else:
            for _ in takes:
                self.operands.pop()
            if name in ("block", "loop", "if"):
                out.append(0x40)
                self.heights.append(len(self.operands))
            elif name in ("br", "br_if"):
                # loops and blocks take nothing where they are branched to
                out += unsigned(rng.randrange(len(self.heights)))
            elif name == "br_table":
                out += b"\x03" + b"".join(unsigned(rng.randrange(len(self.heights))) for _ in range(4))
            elif name == "call":
                out += unsigned(rng.randrange(4))
            elif name == "call_indirect" or name == "memory.copy":
                out += b"\x00\x00"
            elif name in ("memory.size", "memory.grow", "memory.fill"):
                out += b"\x00"
            elif name == "f32.const" or name == "f64.const":
                out += bytes(rng.randrange(256) for _ in range(4 if name == "f32.const" else 8))
            elif name in ALIGN:
                out += unsigned(ALIGN[name]) + unsigned(number(rng))
            elif name == "i32.const" or name == "i64.const":
                out += signed(number(rng) * rng.choice([1, 1, 1, -1]))
            self.operands += gives
        if name in ("br", "br_table", "return"):
            del self.operands[self.heights[-1]:]
            self.write("end")

    def index(self, types, ty):
        places = [i for i, t in enumerate(types) if t == ty]
        return self.rng.choice(places[:12] + places[:12] + places) if len(places) > 12 else self.rng.choice(places)

    def choose(self):
        total = sum(self.counts.values()) + 1
        lacks = {name: MIX[name][0] * total / 100 - self.counts[name] + self.rng.random() for name in MIX if self.fits(name)}
        return max(lacks, key=lacks.get)

    def step(self):
        self.write(self.choose())

    def close(self):
        while self.heights or self.operands:
            if not self.above():
                self.write("end")
            else:
                self.write("local.set" if self.above()[-1] in (I32, I64) else "drop")


class FlatWriter(Writer):
    """Writes the rarest operator so far, behind operands that the rarest operators give."""

    def rarest(self, names):
        return min(names, key=lambda name: (self.counts[name], self.rng.random()))

    def produce(self, ty, depth):
        """An operand of this type."""
        names = [name for name, it in self.mix.items() if it[3] == [ty] and (depth or not it[2])]
        if ty in (I32, I64):
            names += ["local.get", "global.get"] + (["local.tee", "select"] if depth else [])
        name = self.rarest(names)
        for it in {"local.tee": [ty], "select": [ty, ty, I32]}.get(name, self.mix[name][2]) or []:
            self.produce(it, depth - 1)
        self.write(name, ty)

    def step(self):
        name = self.rarest([name for name, it in self.mix.items() if name not in ("end", "drop", "local.set", "global.set") and it[3] is not None])
        if len(self.heights) > 8 or name in ("block", "loop", "if") and len(self.heights) > 6:
            self.write("end")
        if name in ("br", "br_if", "br_table", "return") and not self.heights:
            self.write("block")
        for it in self.mix[name][2]:
            self.produce(it, 3)
        self.write(name)
        while self.above():
            names = ["drop"] + (["local.set", "global.set"] if self.above()[-1] in (I32, I64) else [])
            self.write(self.rarest(names))


def main():
    flat = sys.argv[1] == "--flat"
    path, size = sys.argv[1 + flat:]
    writer = FlatWriter(1, flat_mix()) if flat else Writer(1, MIX)
    while len(writer.out) < int(size):
        writer.step()
    writer.close()
    with open(path, "wb") as file:
        file.write(writer.out)
    total = sum(writer.counts.values())
    print(f"{total} operators, {len(writer.out)} bytes")
    for name, count in sorted(writer.counts.items(), key=lambda it: -it[1]):
        print(f"{name} {100 * count / total:.2f}")


main()
