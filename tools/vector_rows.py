#!/usr/bin/env python3
"""vector_rows.py [--check]: writes vectors.rows and atomics.rows of crates/test_all/data/bodies from the table tools/vector_table.txt, or compares what
it makes with those that are there.

These rows have the context of body_rows.py. The verdict, the offset and the text of a row of a body are the Rust crate's, all its features
on, by tools/crate_answers.txt. By hand are the refusals for want of a feature: the Rust crate has no flags for these operators alone.

Each operator is accepted once, and refused where an operand has another type, where another type is wanted of its result, where its
address has another width, its memory isn't there, its offset is too large for the address, its alignment is greater than the access (an atomic
one's also where it is less) or its lane isn't there, and where one of the two features that it needs is off. A row `operator` shows the bytes
of each, as body_rows.py's does of other operators, under the names that the Rust crate gives them.
"""
import os, re, sys

sys.dont_write_bytecode = True
HERE = os.path.dirname(os.path.abspath(__file__))
sys.path.insert(0, HERE)
import body_rows as B
import row_writer
from crate_answers import Answers
from wasm_bytes import unsigned

CONST = {'i32': b'\x41\x01', 'i64': b'\x42\x01', 'f32': b'\x43\0\0\x80\x3f', 'f64': b'\x44' + bytes(6) + b'\xf0\x3f', 'v128': b'\xfd\x0c' + bytes(16)}
BYTE = {'i32': b'\x7f', 'i64': b'\x7e', 'f32': b'\x7d', 'f64': b'\x7c', 'v128': b'\x7b'}
OTHER = {'i32': 'i64', 'i64': 'i32', 'f32': 'i32', 'f64': 'i64', 'v128': 'i32'}
NEEDS = {'fd': ('vector_operators', 'vector operators are not served', 'simd', 'SIMD support is not enabled'),
         'fe': ('atomic_operators', 'atomic operators are not served', 'threads', 'threads support is not enabled')}


class Operator:
    """A line of the table."""
    def __init__(self, line):
        code, self.name, self.immediates, signature, _ = [it.strip() for it in line.split('|')]
        self.prefix, sub = code.split()
        self.sub = int(sub)
        takes, gives = [it.strip() for it in signature.split('->')]
        self.takes = [] if takes == '-' else takes.split()
        self.gives = None if gives == '-' else gives
        m = re.match(r'memarg(<=|=)(\d+)', self.immediates)
        self.align, self.exact = (int(m[2]), m[1] == '=') if m else (None, False)
        m = re.search(r'lane<(\d+)', self.immediates)
        self.lanes = int(m[1]) if m else None

    def bytes(self, align=None, memory=0, offset=0, lane=0, lanes=bytes([31] * 16)):
        b = bytes([int(self.prefix, 16)]) + unsigned(self.sub)
        if self.align is not None:
            align = self.align if align is None else align
            b += (unsigned(align) if memory == 0 else unsigned(align + 64) + unsigned(memory)) + unsigned(offset)
        if self.lanes is not None:
            b += bytes([lane])
        if self.immediates == 'lanes16<32':
            b += lanes
        if self.immediates == 'zero':
            b += b'\0'
        return b

    def operands(self, address='i32', wrong=None):
        types = [address if it == 'addr' else it for it in self.takes]
        return b''.join(CONST[OTHER[it] if i == wrong else it] for i, it in enumerate(types))

    def body(self, op, operands, gives=None):
        """The operator behind its operands, and its result set as a local."""
        if self.gives is None:
            return b'\0' + operands + op + b'\x0b'
        return b'\1\1' + BYTE[gives or self.gives] + operands + op + b'\x21\0\x0b'

    def printed(self, name):
        """As it prints itself with alignment 1, memory 3, offset 133 and lane 1."""
        arg = 'MemArg { align: 1, offset: 133, memory: 3 }'
        if self.align is not None and self.lanes is not None:
            values = 'MemArgLane(%s, 1)' % arg
        elif self.align is not None:
            values = 'MemArg(%s)' % arg
        elif self.lanes is not None:
            values = 'Lane(1)'
        elif self.immediates == 'lanes16<32':
            values = 'Lanes(V128 { low: 1, high: 2 })'
        else:
            values = 'Nothing'
        return '%s(%s, %s)' % ('Vector' if self.prefix == 'fd' else 'Atomic', name, values)


def names(prefix):
    """The names that the Rust crate gives the operators, by their numbers: those of our own enum."""
    folder = {'fd': 'vector', 'fe': 'atomic'}[prefix]
    with open(os.path.join(HERE, '..', 'crates', 'wasm_operators_' + folder, 'src', 'operators.rt'), encoding='utf-8') as f:
        return {int(m[1]): m[2] for m in re.finditer(r'(\d+) => Some\(\w+::(\w+)\)', f.read())}


def cases(it):
    """(name, features, body, what is wanted, or None where the Rust crate says it)"""
    own, own_text, feature, text = NEEDS[it.prefix]
    plain = it.bytes()
    yield it.name, 'all', it.body(plain, it.operands()), None
    for i, _ in enumerate(it.takes):
        if it.takes[i] != 'addr':
            yield '%s, operand %d of another type' % (it.name, i), 'all', it.body(plain, it.operands(wrong=i)), None
    if it.gives is not None:
        yield '%s gives no other type' % it.name, 'all', it.body(plain, it.operands(), gives=OTHER[it.gives]), None
    if it.align is not None:
        yield '%s, an address of 64 bits' % it.name, 'all', it.body(it.bytes(memory=1), it.operands('i64')), None
        yield '%s, an address of 64 bits for one of 32' % it.name, 'all', it.body(plain, it.operands('i64')), None
        yield '%s, an alignment too large' % it.name, 'all', it.body(it.bytes(align=it.align + 1), it.operands()), None
        if it.exact and it.align > 0:
            yield '%s, an alignment too small' % it.name, 'all', it.body(it.bytes(align=it.align - 1), it.operands()), None
        yield '%s of no memory' % it.name, 'all', it.body(it.bytes(memory=7), it.operands()), None
        yield '%s, an offset of 33 bits' % it.name, 'all', it.body(it.bytes(offset=2 ** 32), it.operands()), None
    if it.lanes is not None:
        yield '%s, the last lane' % it.name, 'all', it.body(it.bytes(lane=it.lanes - 1), it.operands()), None
        yield '%s, a lane too far' % it.name, 'all', it.body(it.bytes(lane=it.lanes), it.operands()), None
    if it.immediates == 'lanes16<32':
        for i in range(16):
            yield '%s, lane %d too far' % (it.name, i), 'all', it.body(it.bytes(lanes=bytes([32 if i == j else 31 for j in range(16)])), it.operands()), None
    if it.immediates == 'zero':
        yield '%s, a byte that is not zero' % it.name, 'all', it.body(plain[:-1] + b'\1', b''), None
    yield '%s without %s' % (it.name, own), 'default', b'\0\0' + plain + b'\x0b', 'refused 2 %s; missing %s' % (own_text, own)
    yield '%s without %s' % (it.name, feature), 'all-' + feature, b'\0\0' + plain + b'\x0b', 'refused 2 %s; missing %s' % (text, feature)


def operator_row(it, name):
    b = it.bytes(align=1, memory=3, offset=133, lane=1, lanes=b'\1' + bytes(7) + b'\2' + bytes(7))
    return 'operator %s | %s' % (b.hex(), it.printed(name))


HEAD = B.HEAD.replace('''# Written by tools/body_rows.py, which says where the wanted answers come from.
''', '''# A row `operator BYTES | WANTED` is of the form that operators.rows tells.
#
# Written by tools/vector_rows.py, which says where the wanted answers come from.
''')


def main():
    with open(os.path.join(HERE, 'vector_table.txt'), encoding='utf-8') as f:
        table = [Operator(line) for line in f if line.strip() and not line.startswith('#')]
    answers, files, lacking = Answers(), {}, []
    for file, prefix in [('vectors', 'fd'), ('atomics', 'fe')]:
        called = names(prefix)
        its = [it for it in table if it.prefix == prefix and it.sub in called]
        assert len(its) == len(called)
        rows = [operator_row(it, called[it.sub]) for it in its]
        for it in its:
            for name, features, body, wanted in cases(it):
                wanted = wanted or B.wanted_of(answers, 0, body, None)
                if wanted is None:
                    lacking.append(name)
                    continue
                rows.append(' | '.join([name, features, '0', body.hex(), wanted]))
        files['bodies/%s.rows' % file] = HEAD + '\n' + '\n'.join(rows) + '\n'
    return row_writer.main(files, lacking, sys.argv[1:])


if __name__ == '__main__':
    sys.exit(main())
