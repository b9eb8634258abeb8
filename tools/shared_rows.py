#!/usr/bin/env python3
"""shared_rows.py [--check]: writes crates/test_all/data/modules/shared.rows, atomic accesses to globals, tables, structures and arrays, or compares what
it makes with that file.

The verdict, the offset and the text of a row are the Rust crate's, all its features on, by tools/crate_answers.txt, its texts put as
tools/module_body_rows.py puts them. By hand are the refusals for want of a feature, since the Rust crate has no flag for these operators alone, and
`pause`, which its version doesn't know.

Each operator is accepted, with each ordering and on each type that it allows; and refused on each other type, where an operand is missing or has
another type, where its result is wanted of another type, where what it reaches isn't there, is of another kind, isn't shared though the function
is, can't be written or is packed, with an ordering that isn't there, and where one of the two features that it needs is off.
"""
import os, re, sys

sys.dont_write_bytecode = True
HERE = os.path.dirname(os.path.abspath(__file__))
sys.path.insert(0, HERE)
import module_body_rows as M
import row_writer
from crate_answers import Answers
from wasm_bytes import unsigned

TYPES = {'i32': '7f', 'i64': '7e', 'f32': '7d', 'f64': '7c', 'v128': '7b', 'any': '6e', 'eq': '6d', 'i31': '6c', 'struct': '6b', 'none': '71', 'func': '70', 'extern': '6f',
         'exn': '69', 'shared any': '63656e', 'shared eq': '63656d', 'shared i31': '63656c', 'shared none': '636571', 'shared func': '636570', 'shared extern': '63656f',
         'i8': '78', 'i16': '77'}
TYPES = {name: bytes.fromhex(it) for name, it in TYPES.items()}
PACKED, NUMBERS = ('i8', 'i16'), {'i32': b'\x41\0', 'i64': b'\x42\0', 'f32': b'\x43' + bytes(4), 'f64': b'\x44' + bytes(8), 'v128': b'\xfd\x0c' + bytes(16), 'i8': b'\x41\0', 'i16': b'\x41\0'}
RMW = ['rmw.add', 'rmw.sub', 'rmw.and', 'rmw.or', 'rmw.xor', 'rmw.xchg', 'rmw.cmpxchg']
TABLE = [('global', 0x4f, ['get', 'set'] + RMW), ('table', 0x58, ['get', 'set'] + RMW[-2:]),
         ('struct', 0x5c, ['get', 'get_s', 'get_u', 'set'] + RMW), ('array', 0x67, ['get', 'get_s', 'get_u', 'set'] + RMW)]
SHARED, HEADER = b'\x65', b'\0asm\1\0\0\0'
CASES = []


def constant(name):
    """A value of this type: a number, or null."""
    it = TYPES[name]
    return NUMBERS.get(name) or b'\xd0' + (it[1:] if it[0] == 0x63 else it)


def listed(items):
    return unsigned(len(items)) + b''.join(items)


def section(number, body):
    return bytes([number]) + unsigned(len(body)) + body


def module(code, result=None, shared=False, types=(), tables=(), globals=()):
    """A module with one function."""
    signature = b'\x60\0' + listed([TYPES[result]] if result else [])
    parts = [section(1, listed([*types, (SHARED if shared else b'') + signature])), section(3, listed([unsigned(len(types))]))]
    parts += [section(4, listed(tables))] if tables else []
    parts += [section(6, listed(globals))] if globals else []
    body = b'\0' + code + b'\x0b'
    return HEADER + b''.join(parts) + section(10, listed([unsigned(len(body)) + body]))


class Operator:
    def __init__(self, place, code, name):
        self.place, self.code, self.name = place, code, f'{place}.atomic.{name}'
        self.is_packed, self.is_get = name in ('get_s', 'get_u'), name.startswith('get')
        self.operands = 0 if self.is_get else 2 if name == 'rmw.cmpxchg' else 1
        self.gives = name != 'set'
        # a type that it allows, and the one of the place
        self.usual = 'i8' if self.is_packed else 'shared eq' if place == 'table' else 'i32'

    def address(self):
        return {'global': [], 'table': [b'\x41\0'], 'struct': [b'\xd0\0'], 'array': [b'\xd0\0', b'\x41\0']}[self.place]

    def written(self, ordering=b'\0', index=0, field=0):
        return bytes([0xfe, self.code]) + ordering + unsigned(index) + (unsigned(field) if self.place == 'struct' else b'')

    def on(self, ty, mutable=True, is_shared=False, is_64=False):
        """What is reached, of this type."""
        it = TYPES[ty]
        if self.place == 'global':
            return {'globals': [it + bytes([mutable + 2 * is_shared]) + constant(ty) + b'\x0b']}
        if self.place == 'table':
            return {'tables': [it + bytes([2 * is_shared + 4 * is_64, 1])]}
        field = it + bytes([mutable])
        return {'types': [(SHARED if is_shared else b'') + (b'\x5f\x01' if self.place == 'struct' else b'\x5e') + field]}

    def code_on(self, ty, before=None, op=None, drop=True):
        operands = self.address() + [constant(ty)] * self.operands
        return b''.join(operands if before is None else before) + (op or self.written()) + (b'\x1a' if drop and self.gives else b'')


def case(title, bytes, features='all', wanted=None):
    CASES.append((title, features, bytes, wanted))


def types_of(op):
    """Each type, where it is stored."""
    for ty in TYPES:
        if ty in PACKED and op.place in ('global', 'table') or ty in NUMBERS and op.place == 'table':
            continue
        case(f'{op.name} on {ty}', module(op.code_on(ty), **op.on(ty)))


def operands_of(op):
    """Each operand missing, and of another type; the result of another type, and as it is."""
    all_there = op.address() + [constant(op.usual)] * op.operands
    for at in range(len(all_there)):
        case(f'{op.name} without operand {at}', module(op.code_on(op.usual, before=all_there[at + 1:]), **op.on(op.usual)))
        case(f'{op.name} with another operand {at}', module(op.code_on(op.usual, before=[*all_there[:at], b'\x43' + bytes(4), *all_there[at + 1:]]), **op.on(op.usual)))
    for result in ('f64', 'i32', 'shared eq'):
        case(f'{op.name} where {result} is wanted', module(op.code_on(op.usual, drop=False), result=result, **op.on(op.usual)))


def immediates_of(op):
    """Orderings, and indices of what isn't there or is of another kind."""
    for ordering in ('00', '01', '02', '8000', '8100', '8200', 'ffffffff0f', '808080808000'):
        code = op.code_on(op.usual, op=op.written(bytes.fromhex(ordering)))
        case(f'{op.name} with the ordering {ordering}', module(code, **op.on(op.usual)))
    case(f'{op.name} with an index past the end', module(op.code_on(op.usual, op=op.written(index=99 if op.place in ('struct', 'array') else 7)), **op.on(op.usual)))
    case(f'{op.name} without its last immediate', module(op.code_on(op.usual, op=op.written()[:-1], drop=False)[:-1], **op.on(op.usual)))
    if op.place in ('struct', 'array'):
        case(f'{op.name} of a function type', module(op.code_on(op.usual, op=op.written(index=1)), **op.on(op.usual)))
    if op.place == 'struct':
        case(f'{op.name} with a field past the end', module(op.code_on(op.usual, op=op.written(field=1)), **op.on(op.usual)))
    if op.place == 'table':
        case(f'{op.name} of a table of 64 bits', module(op.code_on(op.usual, before=[b'\x42\0'] + [constant(op.usual)] * op.operands), **op.on(op.usual, is_64=True)))


def rules_of(op):
    """What is shared, what can be written, and the features."""
    for is_shared in (False, True):
        for function in (False, True):
            what = f'{op.name} {"shared" if is_shared else "unshared"} in {"a shared" if function else "an unshared"} function'
            case(what, module(op.code_on(op.usual), shared=function, **op.on(op.usual, is_shared=is_shared)))
    if op.place != 'table':
        case(f'{op.name} where nothing can be written', module(op.code_on(op.usual), **op.on(op.usual, mutable=False)))
    it = module(op.code_on(op.usual), **op.on(op.usual))
    at = it.rindex(op.written())
    case(f'{op.name} without its feature', it, 'all-shared_atomic_operators', f'refused {at} illegal opcode 0xfe {op.code}; missing nothing')
    if op.place != 'table':
        case(f'{op.name} without shared types', it, 'all-shared_everything_threads', f'refused {at} shared-everything-threads support is not enabled; missing shared_everything_threads')
    case(f'{op.name} with its features alone', it, 'default+shared_everything_threads+shared_atomic_operators')
    constants = HEADER + section(6, listed([b'\x7f\0\x41\0\x0b', b'\x7f\0' + op.written() + b'\x0b']))
    at = constants.rindex(op.written())
    case(f'{op.name} isn\'t constant', constants, 'all', f'refused {at} constant expression required: non-constant operator')
    case(f'{op.name} isn\'t constant, without its feature', constants, 'default', f'refused {at} illegal opcode 0xfe {op.code}; missing nothing')


def pauses():
    it = module(b'\xfe\x04')
    at = it.rindex(b'\xfe\x04')
    case('pause', it, 'all', 'ok')
    case('pause leaves what stands', module(b'\x41\0\xfe\x04', result='i32'), 'all', 'ok')
    case('pause without its feature', it, 'all-shared_atomic_operators', f'refused {at} illegal opcode 0xfe 4; missing nothing')
    case('pause without shared types', it, 'all-shared_everything_threads',
         f'refused {at} shared-everything-threads support is not enabled; missing shared_everything_threads')


def cases():
    if not CASES:
        pauses()
        for place, first, names in TABLE:
            for at, name in enumerate(names):
                for part in (types_of, operands_of, immediates_of, rules_of):
                    part(Operator(place, first + at, name))
    return CASES


def wanted_of(answer, it):
    """What a row wants, by the Rust crate's answer."""
    if answer.verdict == 'refused' and answer.message:
        text = answer.message.replace('shared functions cannot access unshared ', 'shared functions cannot access what is not shared ').split(' what is not shared ')
        answer.message = text[0] + ' what is not shared' if len(text) > 1 else text[0]
        answer.message = re.sub(r'\(shared (\w+)ref\)', r'(ref null (shared \1))', answer.message)
        if answer.message.startswith('invalid var_u32'):
            return 'refused'
    return M.wanted_of(answer, M.Part(it))


def main():
    answers, lacking = Answers(), []
    lines = row_writer.head_of_modules() + ['#', '# Written by tools/shared_rows.py, which says where the wanted answers come from.']
    for title, features, it, wanted in cases():
        wanted = wanted or wanted_of(answers.of(it), it)
        if wanted is None:
            lacking.append(title)
            continue
        lines.append(' | '.join([title, features, M.shown_bytes(it), wanted]))
    return row_writer.main({'modules/shared.rows': '\n'.join(lines) + '\n'}, lacking, sys.argv[1:])


if __name__ == '__main__':
    sys.exit(main())
