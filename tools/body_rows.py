#!/usr/bin/env python3
"""body_rows.py [--check]: writes the rows of crates/test_all/data/bodies, or compares what it makes with those that are there.

Each case is a function's body by its operators, over the context that crates/test_all/src/sample.rt has too. A body is put as the last
one into a module with the context. What the Rust crate answered for that module, all its features on, is in tools/crate_answers.txt; the
verdict and the offset, less where the body begins, are what the row wants. A case whose module has no answer there names what it wants, by
the Core Specification; so do refusals for want of a proposal, whose texts are the crate's `NAME support is not enabled`.

Texts: the operand types of a refusal are printed as the Rust crate does, but types by their numbers. Where our texts are those of a rule
without its types (TEXTS), the row has that rule's; a message without one stands in the row as it came.
"""
import os, re, sys

sys.dont_write_bytecode = True
sys.path.insert(0, os.path.dirname(os.path.abspath(__file__)))
import row_writer
import wasm_assembler as W
from crate_answers import Answers

# ------------------------------------------------------------------------------------------------- the context
TYPES = [
    'func ->',                                              # 0
    'func i32 i32 -> i32',                                  # 1
    'func i32 -> i64 i64',                                  # 2
    'sub[] struct i32 mut:i64 mut:i8',                      # 3
    'array mut:i32',                                        # 4
    'subf[3] struct i32 mut:i64 mut:i8 mut:?4',             # 5
    'array mut:i8',                                         # 6
    'array i64',                                            # 7
    'func i32 ->',                                          # 8
    'func -> i32',                                          # 9
    'func i64 -> i64',                                      # 10
    'array mut:funcref',                                    # 11
    'struct !3',                                            # 12
    'array mut:!3',                                         # 13
    'func i32 -> i32',                                      # 14
    'func -> i32 !exn',                                     # 15
]
FUNCTIONS = [0, 1, 2, 9, 0, 10, 8, 14]
REFERENCES = [1, 2, 6]
TABLES = ['funcref 10 20', 'externref i64 5', 'funcref 10', '?1 10']
MEMORIES = ['1 5', 'i64 1']
GLOBALS = [('i32', 'i32.const 0'), ('mut:i32', 'i32.const 0'), ('i64', 'i64.const 0'), ('mut:i64', 'i64.const 0'),
           ('funcref', 'ref.null func'), ('mut:funcref', 'ref.null func'), ('mut:f32', 'f32.const 0')]
TAGS = [0, 8]
ELEMENTS = [dict(mode='passive', type='funcref', exprs=['ref.func 1']), dict(mode='passive', type='externref', exprs=['ref.null extern']),
            dict(mode='declared', funcs=REFERENCES)]
DATA_COUNT = 2


def module(type_index, body):
    """A module with the context whose last body is this one, and where that begins."""
    def put(sections):
        for s in sections:
            if s[0] == 10:
                s[1] = W.listed([W.unsigned(3) + b'\0\0\x0b'] * len(FUNCTIONS) + [W.unsigned(len(body)) + body])
    b = W.build(types=TYPES, funcs=[(f, '', 'unreachable') for f in FUNCTIONS + [type_index]], tables=TABLES, mems=MEMORIES, tags=TAGS,
                globals=GLOBALS, elems=ELEMENTS, datacount=DATA_COUNT, datas=[dict(mode='passive')] * DATA_COUNT, post=put)
    end = [e for i, _, _, e in W.sections(b) if i == 10][0]
    return b, end - len(body)


# ------------------------------------------------------------------------------------------------- texts
# A message of the Rust crate, and the text of the rule that it tells, where the text is the rule's without its types. The cases name no
# type but 99 that isn't there, and no global but 7.
TEXTS = [
    (r'invalid memop alignment: (alignment must not be larger than natural)', r'\1'),
    (r'unknown memory (\d+)', r'unknown memory \1: memory index out of bounds'),
    (r'unknown data segment (\d+)', r'unknown data segment \1: segment index out of bounds'),
    (r'unknown type: type index out of bounds', 'unknown type 99: type index out of bounds'),
    (r'unknown global: global index out of bounds', 'unknown global 7: global index out of bounds'),
    (r'expected (func|struct|array) type at index (\d+), found .*', r'expected \1 type at index \2'),
    # as the text format writes it
    (r'(type mismatch: expected) \(shared (\w+)ref\), found (\w+)', r'\1 (ref null (shared \2)), found \3'),
    (r'type mismatch: expected (ref but found|a reference type, found) .*', 'type mismatch: expected a reference type'),
    (r'type mismatch: expected subtype of .*, found .*', 'type mismatch: expected a reference of another type'),
    (r'type mismatch: current function requires result type .*', 'type mismatch: callee returns other types than the function'),
    (r'type mismatch: select (only takes integral types|operands have different types)',
     'type mismatch: select only takes two numbers or vectors of one type'),
    (r'type mismatch: indirect calls must go through a table with type <= funcref', 'type mismatch: table has another element type'),
    (r'type mismatch: br_table target labels have different number of types', 'type mismatch: label has other types'),
    (r'type mismatch: (br_on_non_null target|br_on_cast to label with empty types,|expected label result type) .*', 'type mismatch: label has other types'),
    (r'type mismatch: .* and .* have different heap type hierarchies', 'type mismatch: cast to a type that is not a subtype'),
    (r'type mismatch: catch\w* label must have .*', 'type mismatch: catch clause sends other types than its label has'),
    (r'(type mismatch: array.new_data can only create arrays with|invalid array.init_data: array type is not) numeric.*',
     'type mismatch: arrays from data have numeric or vector elements'),
    (r'type mismatch: array.\w+_elem can only create arrays with reference elements', 'type mismatch: elements of another type are expected'),
    (r'invalid array.\w+ instruction: element segment \d+ type mismatch: .*', 'type mismatch: elements of another type are expected'),
    (r'array types do not match: .*', 'type mismatch: elements of another type are expected'),
    (r'invalid `\w+.new_default`: .* field is not defaultable', 'type mismatch: field or element type is not defaultable'),
    (r'invalid cast: cannot cast to a continuation type', 'cannot test or cast continuation references'),
    (r'can only use struct `get` with non-packed storage types', 'can only use struct.get with non-packed storage types'),
    (r'cannot use (struct|array).get_[su] with non-packed storage types', r'cannot use \1.get_s or \1.get_u with non-packed storage types'),
]
# Messages that name types without their numbers, or whose rule has a text of ours that says no more than the name of the rule: the
# row names the place alone.
PLACES = [r'.*\$type.*', r'.*\(id \d+\).*', r'invalid result arity', r'type mismatch']


def shown(message):
    """The message of the row, behind a space, or nothing where the row names the place alone."""
    for pattern, text in TEXTS:
        match = re.fullmatch(pattern, message)
        if match:
            return ' ' + match.expand(text)
    if any(re.fullmatch(pattern, message) for pattern in PLACES):
        return ''
    return ' ' + message


# ------------------------------------------------------------------------------------------------- cases
CASES = {}          # file: [(name, features, type index, body, wanted or None, told or None)]
FILE = None


def subject(name):
    global FILE
    FILE = CASES.setdefault(name, [])


def declared(locals):
    return W.listed(W.unsigned(1) + W.value_type(x) for x in locals.split())


def note(text):
    """A comment in front of the cases that follow."""
    FILE.append(text)


def case(name, text, locals='', ty=0, features='all', wanted=None, raw=None, told=None):
    """A body and what is wanted of it: `wanted`, or what the Rust crate answers. `told` is the message of a refusal where the rule's own
    text isn't found by TEXTS, and '' where the row names the place alone."""
    body = raw if raw is not None else declared(locals) + W.operators(text) + b'\x0b'
    FILE.append((name, features, ty, body, wanted, told))


def off(feature, message, before, op, locals='', ty=0, name=None, after=''):
    """The operator refused for want of a proposal, at its place behind those before it."""
    head = declared(locals) + W.operators(before)
    body = head + W.operators(op) + W.operators(after) + b'\x0b'
    word = name or op.split(';')[0]
    wanted = 'refused %d %s; missing %s' % (len(head), message, feature)
    FILE.append(('%s without %s' % (word, feature), 'all-' + feature, ty, body, wanted, None))


# What value types need of the proposals, and what is said where one is off.
VALUE_TYPES = {
    'floats': 'floating-point support is disabled',
    'simd': 'SIMD support is not enabled',
    'reference_types': 'reference types support is not enabled',
    'gc_types': 'gc types are disallowed but found type which requires gc',
    'function_references': 'function references required for non-nullable types',
    'gc': 'heap types not supported without the gc feature',
    'exceptions': 'exception refs not supported without the exception handling feature',
    'shared_everything_threads': 'shared reference types require the shared-everything-threads proposal',
    'stack_switching': 'continuation refs not supported without the stack switching feature',
}
BY_INDEX = 'function references required for index reference types; missing function_references'
NO_TYPE = 'unknown type 99: type index out of bounds; missing nothing'


def value_type(feature):
    """What is said of a value type without this proposal, and that the proposal is missing."""
    return '%s; missing %s' % (VALUE_TYPES[feature], feature)


# The Rust crate's reader tells of an `else` behind its opcode, where the validator tells of it at its place.
ELSE = 'else found outside of an `if` block'
CONST = {'i': 'i32.const 1', 'l': 'i64.const 1', 'f': 'f32.const 1', 'd': 'f64.const 1'}
NAME = {'i': 'i32', 'l': 'i64', 'f': 'f32', 'd': 'f64'}
OTHER = {'i': 'f', 'l': 'i', 'f': 'd', 'd': 'l'}
FLOATS = 'floating-point support is disabled'
# The opcodes of numeric operators with what they take and give (Core Specification 3.0, Validation, Numeric Instructions).
NUMERIC = '''45 i:i, 46..4f ii:i, 50 l:i, 51..5a ll:i, 5b..60 ff:i, 61..66 dd:i, 67..69 i:i, 6a..78 ii:i, 79..7b l:l, 7c..8a ll:l,
8b..91 f:f, 92..98 ff:f, 99..9f d:d, a0..a6 dd:d, a7 l:i, a8..a9 f:i, aa..ab d:i, ac..ad i:l, ae..af f:l, b0..b1 d:l, b2..b3 i:f,
b4..b5 l:f, b6 d:f, b7..b8 i:d, b9..ba l:d, bb f:d, bc f:i, bd d:l, be i:f, bf l:d, c0..c1 i:i, c2..c4 l:l'''
SATURATING = ['f:i', 'f:i', 'd:i', 'd:i', 'f:l', 'f:l', 'd:l', 'd:l']
BY_CODE = {code: name for name, (code, _) in W.OPERATORS.items()}


def numeric(op, signature):
    takes, gives = signature.split(':')
    push = '; '.join(CONST[x] for x in takes)
    words = ' and '.join(NAME[x] for x in takes)
    wrong = '; '.join([CONST[OTHER[takes[0]]]] + [CONST[x] for x in takes[1:]])
    case('%s takes %s and gives %s' % (op, words, NAME[gives]), 'block =%s; %s; %s; end; drop' % (NAME[gives], push, op))
    case('%s takes no %s' % (op, NAME[OTHER[takes[0]]]), '%s; %s; drop' % (wrong, op))
    if set(signature) & set('fd'):
        off('floats', FLOATS, 'unreachable', op, after='drop')


def numbers():
    subject('numbers')
    for part in NUMERIC.replace('\n', ' ').split(', '):
        codes, signature = part.split()
        first, _, last = codes.partition('..')
        for code in range(int(first, 16), int(last or first, 16) + 1):
            numeric(BY_CODE[bytes([code])], signature)
    for code, signature in enumerate(SATURATING):
        numeric(BY_CODE[b'\xfc' + bytes([code])], signature)
    case('a binary operator finds one operand', 'i32.const 1; i32.add; drop')
    case('a unary operator finds no operand', 'i64.clz; drop')
    case('a binary operator behind unreachable finds what it likes', 'unreachable; i32.add; drop')
    case('a binary operator behind unreachable with one operand', 'unreachable; i64.const 1; i64.add; drop')
    case('a binary operator behind unreachable with a wrong operand', 'unreachable; f32.const 1; i64.add; drop')
    case('what a numeric operator gives is what the next one takes', 'i64.const 1; i32.wrap_i64; i64.extend_i32_u; f64.convert_i64_s; f32.demote_f64; drop')
    case('i32.const of the least number', 'i32.const -2147483648; drop')
    case('i64.const of the least number', 'i64.const -9223372036854775808; drop')
    for bits, code, bytes_before, large, least in [(32, 0x41, 4, 0x08, 0x77), (64, 0x42, 9, 0x01, 0x7e)]:
        case('i%d.const of a number in too many bytes' % bits, '', raw=bytes([0, code] + [0x80] * (bytes_before + 1) + [0, 0x1a, 0x0b]))
        case('i%d.const of a number above the greatest' % bits, '', raw=bytes([0, code] + [0x80] * bytes_before + [large, 0x1a, 0x0b]))
        case('i%d.const of a number below the least' % bits, '', raw=bytes([0, code] + [0x80] * bytes_before + [least, 0x1a, 0x0b]))
    case('a vector operator', '', raw=b'\0\xfd\x0f\x1a\x0b', features='default', wanted='refused 1 vector operators are not served')
    case('an atomic operator', '', raw=b'\0\xfe\x03\0\x0b', features='default', wanted='refused 1 atomic operators are not served')
    case('i32.const gives i32', 'i32.const 1', ty=9)
    case('i32.const gives no i64', 'i32.const 1', locals='', ty=10)
    case('i64.const gives no i32', 'i64.const 1', ty=9)
    case('f32.const gives no i32', 'f32.const 1', ty=9)
    case('f64.const gives no i32', 'f64.const 1', ty=9)
    case('v128.const gives v128', 'v128.const; local.set 0', locals='v128')
    case('v128.const gives no i32', 'v128.const', ty=9)
    off('simd', 'SIMD support is not enabled', '', 'v128.const', after='drop')
    for op in ['f32.const 1', 'f64.const 1']:
        off('floats', FLOATS, '', op, name=op.split()[0], after='drop')


# The operators of the wide-arithmetic proposal, with how many i64 each takes; each gives two.
WIDE = {'i64.add128': 4, 'i64.sub128': 4, 'i64.mul_wide_s': 2, 'i64.mul_wide_u': 2}


def wide():
    subject('numbers')
    for op, count in WIDE.items():
        operands = ['i64.const 1'] * count
        body = '; '.join(operands + [op])
        case('%s gives two i64' % op, body + '; i64.add; drop')
        case('%s gives two i64 to a local each' % op, body + '; local.set 0; local.set 1', locals='i64 i64')
        case('%s gives no more than two' % op, body + '; drop; drop; drop')
        case('%s gives no fewer than two' % op, body + '; drop')
        case('%s gives no i32 on top' % op, body + '; i32.eqz; drop; drop')
        case('%s gives no i32 below' % op, body + '; drop; i32.eqz; drop')
        for place in range(count):
            case('%s with an i32 as operand %d' % (op, place), '; '.join(operands[:place] + ['i32.const 1'] + operands[place + 1:] + [op, 'drop', 'drop']))
        case('%s finds one operand too few' % op, '; '.join(operands[1:] + [op, 'drop', 'drop']))
        case('%s behind unreachable finds what it likes' % op, 'unreachable; %s; i64.add; drop' % op)
        case('%s behind unreachable with a wrong operand' % op, 'unreachable; f64.const 1; %s; drop; drop' % op)
        case('%s with the feature that it needs' % op, body + '; i64.add; drop', features='none+wide_arithmetic', wanted='ok')
        for features in ['all-wide_arithmetic', 'default']:
            case('%s under %s' % (op, features), body + '; i64.add; drop', features=features,
                 wanted='refused %d illegal opcode 0xfc %d; missing nothing' % (1 + 2 * count, W.OPERATORS[op][0][1]))


LOADS = '''i32.load i 2, i64.load l 3, f32.load f 2, f64.load d 3, i32.load8_s i 0, i32.load8_u i 0, i32.load16_s i 1, i32.load16_u i 1,
i64.load8_s l 0, i64.load8_u l 0, i64.load16_s l 1, i64.load16_u l 1, i64.load32_s l 2, i64.load32_u l 2'''
STORES = 'i32.store i 2, i64.store l 3, f32.store f 2, f64.store d 3, i32.store8 i 0, i32.store16 i 1, i64.store8 l 0, i64.store16 l 1, i64.store32 l 2'
BULK = 'bulk memory support is not enabled'


def memories():
    subject('memories')
    for part in LOADS.replace('\n', ' ').split(', '):
        op, t, align = part.split()
        case('%s at its own alignment, and at one byte of the memory of 64 bits' % op,
             'i32.const 1; %s %s:4; drop; i64.const 1; %s 0:4:1; block =%s; unreachable; end; drop; drop' % (op, align, op, NAME[t]))
        case('%s gives %s' % (op, NAME[t]), 'i32.const 1; %s 0:0; local.set 0' % op, locals=NAME[t])
        case('%s has a larger alignment' % op, 'i32.const 1; %s %d:0; drop' % (op, int(align) + 1))
        case('%s of an address of 64 bits' % op, 'i64.const 1; %s 0:0; drop' % op)
    for part in STORES.split(', '):
        op, t, align = part.split()
        case('%s at its own alignment, and at one byte of the memory of 64 bits' % op,
             'i32.const 1; %s; %s %s:4; i64.const 1; %s; %s 0:4:1' % (CONST[t], op, align, CONST[t], op))
        case('%s has a larger alignment' % op, 'i32.const 1; %s; %s %d:0' % (CONST[t], op, int(align) + 1))
        case('%s of another type' % op, 'i32.const 1; %s; %s 0:0' % (CONST[OTHER[t]], op))
        case('%s at an address of 64 bits' % op, 'i64.const 1; %s; %s 0:0' % (CONST[t], op))
    for op in ['f32.load', 'f64.load']:
        off('floats', FLOATS, 'i32.const 1', op + ' 0:0', name=op, after='drop')
    for op in ['f32.store', 'f64.store']:
        off('floats', FLOATS, 'unreachable', op + ' 0:0', name=op)
    case('a load from a memory that is not there', 'i32.const 1; i32.load 0:0:2; drop')
    case('a store to a memory that is not there', 'i32.const 1; i32.const 1; i32.store 0:0:2')
    case('a load without an address', 'i32.load 0:0; drop')
    case('an offset of 32 bits', 'i32.const 1; i32.load 0:0xffffffff; drop')
    case('an offset of 33 bits in a memory of 32 bits', 'i32.const 1; i32.load 0:0x100000000; drop')
    case('an offset of 33 bits in a memory of 64 bits', 'i64.const 1; i32.load 0:0x100000000:1; drop')
    case('memory.size of either memory', 'memory.size 0; i32.eqz; drop; memory.size 1; i64.eqz; drop')
    case('memory.size of 64 bits is no i32', 'memory.size 1; i32.eqz; drop')
    case('memory.size of no memory', 'memory.size 2; drop')
    case('memory.grow of either memory', 'i32.const 1; memory.grow 0; i32.eqz; drop; i64.const 1; memory.grow 1; i64.eqz; drop')
    case('memory.grow by a number of 64 bits', 'i64.const 1; memory.grow 0; drop')
    case('memory.grow of no memory', 'i32.const 1; memory.grow 2; drop')
    case('memory.init of either memory', 'i32.const 1; i32.const 1; i32.const 1; memory.init 0 0; i64.const 1; i32.const 1; i32.const 1; memory.init 1 1')
    case('memory.init with a size of 64 bits', 'i64.const 1; i32.const 1; i64.const 1; memory.init 0 1')
    case('memory.init from no segment', 'i32.const 1; i32.const 1; i32.const 1; memory.init 2 0')
    case('memory.init of no memory', 'i32.const 1; i32.const 1; i32.const 1; memory.init 0 2')
    case('data.drop of either segment', 'data.drop 0; data.drop 1')
    case('data.drop of no segment', 'data.drop 2')
    case('memory.copy within either memory', 'i32.const 1; i32.const 1; i32.const 1; memory.copy 0 0; i64.const 1; i64.const 1; i64.const 1; memory.copy 1 1')
    case('memory.copy from the memory of 64 bits has a size of 32', 'i32.const 1; i64.const 1; i32.const 1; memory.copy 0 1')
    case('memory.copy to the memory of 64 bits has a size of 32', 'i64.const 1; i32.const 1; i32.const 1; memory.copy 1 0')
    case('memory.copy between both with a size of 64 bits', 'i64.const 1; i32.const 1; i64.const 1; memory.copy 1 0')
    case('memory.copy to no memory', 'i32.const 1; i32.const 1; i32.const 1; memory.copy 2 0')
    case('memory.copy from no memory', 'i32.const 1; i32.const 1; i32.const 1; memory.copy 0 2')
    case('memory.fill of either memory', 'i32.const 1; i32.const 1; i32.const 1; memory.fill 0; i64.const 1; i32.const 1; i64.const 1; memory.fill 1')
    case('memory.fill with a value of 64 bits', 'i32.const 1; i64.const 1; i32.const 1; memory.fill 0')
    case('memory.fill of no memory', 'i32.const 1; i32.const 1; i32.const 1; memory.fill 2')
    for op in ['memory.init 0 0', 'memory.copy 0 0', 'memory.fill 0']:
        off('bulk_memory', BULK, 'i32.const 1; i32.const 1; i32.const 1', op, name=op.split()[0])
    off('bulk_memory', BULK, '', 'data.drop 0', name='data.drop')


def discards():
    """`memory.discard` of the memory-control proposal: an address and a length of the memory's address type."""
    subject('memories')
    case('memory.discard of either memory', 'i32.const 1; i32.const 1; memory.discard 0; i64.const 1; i64.const 1; memory.discard 1')
    for mem, right, wrong in [(0, 'i32.const 1', 'i64.const 1'), (1, 'i64.const 1', 'i32.const 1')]:
        case('memory.discard %d at another address' % mem, '%s; %s; memory.discard %d' % (wrong, right, mem))
        case('memory.discard %d of another length' % mem, '%s; %s; memory.discard %d' % (right, wrong, mem))
        case('memory.discard %d without an address' % mem, '%s; memory.discard %d' % (right, mem))
        case('memory.discard %d gives nothing' % mem, '%s; %s; memory.discard %d; drop' % (right, right, mem))
    case('memory.discard of no memory', 'i32.const 1; i32.const 1; memory.discard 2')
    case('memory.discard of the greatest index', 'i32.const 1; i32.const 1; memory.discard 0xffffffff')
    case('memory.discard of an index past 32 bits', '', raw=bytes.fromhex('0041014101fc12ffffffff1f0b'), told='')
    case('memory.discard behind unreachable', 'unreachable; memory.discard 0')
    case('memory.discard needs no bulk_memory', 'i32.const 1; i32.const 1; memory.discard 0', features='all-bulk_memory', wanted='ok')
    for features in ['all-memory_control', 'default']:
        case('memory.discard under %s' % features, 'i32.const 1; i32.const 1; memory.discard 0', features=features,
             wanted='refused 5 illegal opcode 0xfc 18; missing nothing')


REFS = 'reference types support is not enabled'


def tables():
    subject('tables')
    case('table.get of each table', 'i32.const 0; table.get 0; local.set 0; i64.const 0; table.get 1; local.set 1; i32.const 0; table.get 3; local.set 2',
         locals='funcref externref ?1')
    case('table.get at an index of 64 bits', 'i64.const 0; table.get 0; drop')
    case('table.get of the table of 64 bits at an index of 32', 'i32.const 0; table.get 1; drop')
    case('table.get gives what the table holds', 'i32.const 0; table.get 0; local.set 0', locals='externref')
    case('table.get of no table', 'i32.const 0; table.get 4; drop')
    case('table.set of each table', 'i32.const 0; ref.null func; table.set 0; i64.const 0; ref.null extern; table.set 1; i32.const 0; ref.func 1; table.set 3')
    case('table.set of another reference', 'i32.const 0; ref.null extern; table.set 0')
    case('table.set of a function of another type', 'i32.const 0; ref.func 2; table.set 3')
    case('table.set of no table', 'i32.const 0; ref.null func; table.set 4')
    case('table.size of either size', 'table.size 0; i32.eqz; drop; table.size 1; i64.eqz; drop')
    case('table.size of 64 bits is no i32', 'table.size 1; i32.eqz; drop')
    case('table.size of no table', 'table.size 4; drop')
    case('table.grow of either size', 'ref.null func; i32.const 1; table.grow 0; i32.eqz; drop; ref.null extern; i64.const 1; table.grow 1; i64.eqz; drop')
    case('table.grow by a number of 64 bits', 'ref.null func; i64.const 1; table.grow 0; drop')
    case('table.grow with another reference', 'ref.null extern; i32.const 1; table.grow 0; drop')
    case('table.grow of no table', 'ref.null func; i32.const 1; table.grow 4; drop')
    case('table.fill of either size', 'i32.const 1; ref.null func; i32.const 1; table.fill 0; i64.const 1; ref.null extern; i64.const 1; table.fill 1')
    case('table.fill with a size of another width', 'i64.const 1; ref.null extern; i32.const 1; table.fill 1')
    case('table.fill with another reference', 'i32.const 1; ref.null extern; i32.const 1; table.fill 0')
    case('table.fill of no table', 'i32.const 1; ref.null func; i32.const 1; table.fill 4')
    case('table.copy between tables of one type', 'i32.const 1; i32.const 1; i32.const 1; table.copy 0 2; i64.const 1; i64.const 1; i64.const 1; table.copy 1 1')
    case('table.copy from a table of a subtype', 'i32.const 1; i32.const 1; i32.const 1; table.copy 0 3')
    case('table.copy to a table of a subtype', 'i32.const 1; i32.const 1; i32.const 1; table.copy 3 0')
    case('table.copy between other references', 'i32.const 1; i64.const 1; i32.const 1; table.copy 0 1')
    case('table.copy with a size of 64 bits', 'i32.const 1; i32.const 1; i64.const 1; table.copy 0 2')
    case('table.copy to no table', 'i32.const 1; i32.const 1; i32.const 1; table.copy 4 0')
    case('table.copy from no table', 'i32.const 1; i32.const 1; i32.const 1; table.copy 0 4')
    case('table.init of either size', 'i32.const 1; i32.const 1; i32.const 1; table.init 0 0; i64.const 1; i32.const 1; i32.const 1; table.init 1 1')
    case('table.init from a segment of functions', 'i32.const 1; i32.const 1; i32.const 1; table.init 2 0')
    case('table.init with other references', 'i32.const 1; i32.const 1; i32.const 1; table.init 1 0')
    case('table.init of a table of a subtype', 'i32.const 1; i32.const 1; i32.const 1; table.init 0 3')
    case('table.init with a place of 64 bits', 'i64.const 1; i32.const 1; i32.const 1; table.init 0 0')
    case('table.init from no segment', 'i32.const 1; i32.const 1; i32.const 1; table.init 3 0')
    case('table.init of no table', 'i32.const 1; i32.const 1; i32.const 1; table.init 0 4')
    case('elem.drop of each segment', 'elem.drop 0; elem.drop 1; elem.drop 2')
    case('elem.drop of no segment', 'elem.drop 3')
    for before, op in [('i32.const 0', 'table.get 0'), ('unreachable', 'table.set 0'), ('', 'table.size 0'), ('unreachable', 'table.grow 0'),
                       ('unreachable', 'table.fill 0')]:
        off('reference_types', REFS, before, op, name=op.split()[0])
    for op in ['table.copy 0 2', 'table.init 0 0']:
        off('bulk_memory', BULK, 'i32.const 1; i32.const 1; i32.const 1', op, name=op.split()[0])
    off('bulk_memory', BULK, '', 'elem.drop 0', name='elem.drop')


def variables():
    subject('variables')
    case('local.get of a parameter', 'local.get 0; local.get 1; i32.add', ty=1)
    case('local.get of a declared local, behind the parameters', 'local.get 2; i32.wrap_i64', locals='i64', ty=1)
    case('local.get of the wrong type', 'local.get 2', locals='i64', ty=1)
    case('local.get of no local', 'local.get 2; drop', ty=1)
    case('local.get of a local that is not set', 'local.get 0; drop', locals='!3')
    case('local.get of a local that is set', 'struct.new_default 3; local.set 0; local.get 0; drop', locals='!3')
    case('local.get of a local that is set in a block, in it', 'block; struct.new_default 3; local.set 0; local.get 0; drop; end', locals='!3')
    case('local.get of a local that is set in a block, behind it', 'block; struct.new_default 3; local.set 0; end; local.get 0; drop', locals='!3')
    case('local.get of a local that is set before a block, in it', 'struct.new_default 3; local.set 0; block; local.get 0; drop; end; local.get 0; drop', locals='!3')
    case('local.get of a local that is set in the first arm of an if alone', 'i32.const 1; if; struct.new_default 3; local.set 0; else; local.get 0; drop; end',
         locals='!3')
    case('local.get of a local that is set by local.tee', 'struct.new_default 3; local.tee 0; drop; local.get 0; drop', locals='!3')
    case('local.get of a nullable local that is not set', 'local.get 0; drop', locals='?3')
    case('local.set of a local', 'i32.const 1; local.set 0', locals='i32')
    case('local.set of another type', 'i64.const 1; local.set 0', locals='i32')
    case('local.set without an operand', 'local.set 0', locals='i32')
    case('local.set of no local', 'i32.const 1; local.set 1', locals='i32')
    case('local.set of a subtype', 'struct.new_default 5; local.set 0', locals='?3')
    case('local.set of a supertype', 'struct.new_default 3; local.set 0', locals='?5')
    case('local.tee of a local', 'i32.const 1; local.tee 0; i32.eqz; drop', locals='i32')
    case('local.tee of a subtype gives the type of the local', 'struct.new_default 5; local.tee 0; struct.get 5 0; drop', locals='?3')
    case('local.tee of another type', 'f32.const 1; local.tee 0; drop', locals='i32')
    case('local.tee of no local', 'i32.const 1; local.tee 1; drop', locals='i32')
    case('global.get of each global', 'global.get 0; i32.eqz; drop; global.get 1; i32.eqz; drop; global.get 2; i64.eqz; drop; global.get 6; f32.abs; drop')
    case('global.get of a function reference', 'global.get 4; local.set 0; global.get 5; local.set 0', locals='funcref')
    case('global.get of another type', 'global.get 2; i32.eqz; drop')
    case('global.get of no global', 'global.get 7; drop')
    case('global.set of the mutable globals', 'i32.const 1; global.set 1; i64.const 1; global.set 3; ref.func 1; global.set 5; f32.const 1; global.set 6')
    case('global.set of a global that is not mutable', 'i32.const 1; global.set 0')
    case('global.set of another type', 'i64.const 1; global.set 1')
    case('global.set of another reference', 'ref.null extern; global.set 5')
    case('global.set without an operand', 'global.set 1')
    case('global.set of no global', 'i32.const 1; global.set 7')
    # declarations
    case('50,000 locals', '', raw=W.listed([W.unsigned(50000) + b'\x7f']) + b'\x0b')
    case('50,001 locals', '', raw=W.listed([W.unsigned(50001) + b'\x7f']) + b'\x0b')
    case('50,000 locals with the parameters', '', ty=8, raw=W.listed([W.unsigned(49999) + b'\x7f']) + b'\x0b')
    case('50,001 locals with the parameters', '', ty=8, raw=W.listed([W.unsigned(25000) + b'\x7f', W.unsigned(25000) + b'\x7e']) + b'\x0b')
    case('a declaration of no locals', '', raw=W.listed([W.unsigned(0) + b'\x7f']) + b'\x0b')
    case('a declared local of an unknown type', '', locals='i32 ?99', told=NO_TYPE)
    case('a declaration of no locals of an unknown type', '', raw=W.listed([W.unsigned(0) + W.value_type('?99')]) + b'\x0b', told=NO_TYPE)


def control():
    subject('control')
    case('unreachable gives what is wanted', 'unreachable', ty=1)
    case('unreachable, and then what is not wanted', 'unreachable; i64.const 1', ty=1)
    case('unreachable, and then more than is wanted', 'unreachable; i32.const 1; i32.const 1', ty=1)
    case('nop', 'nop; nop')
    case('nop gives nothing', 'nop', ty=9)
    case('a block', 'block; end')
    case('a block that gives a value', 'block =i32; i32.const 1; end', ty=9)
    case('a block that gives too little', 'block =i32; end; drop')
    case('a block that gives another type', 'block =i32; i64.const 1; end; drop')
    case('a block that leaves a value', 'block; i32.const 1; end')
    case('a block does not reach what stands before it', 'i32.const 1; block; drop; end; drop')
    case('a block takes what its type takes', 'i32.const 1; block @14; i32.eqz; end; drop')
    case('a block of two results', 'i32.const 1; block @2; drop; i64.const 1; i64.const 2; end; drop; drop')
    case('a block without what its type takes', 'block @14; i32.eqz; end; drop')
    case('a block with another type than it takes', 'i64.const 1; block @14; i32.eqz; end; drop')
    case('a block of an unknown type', 'block @99; end')
    case('a block of a type that is no function', 'block @3; end')
    case('a block of a reference to a type', 'block =?3; ref.null 3; end; drop')
    case('a block of a reference to an unknown type', 'block =?99; unreachable; end; drop', told=NO_TYPE)
    case('a loop', 'loop; end')
    case('a loop gives a value', 'loop =i32; i32.const 1; end; drop')
    case('a loop that gives too little', 'loop =i32; end; drop')
    case('a label of a loop has what the loop takes', 'i32.const 1; loop @8; br 0; end')
    case('a label of a loop does not have what the loop gives', 'loop =i32; i32.const 1; br 0; end; drop')
    case('a branch to a loop without what it takes', 'i32.const 1; loop @8; drop; br 0; end')
    case('a loop of a type that is no function', 'loop @4; end')
    case('an if', 'i32.const 1; if; end')
    case('an if with else', 'i32.const 1; if =i32; i32.const 1; else; i32.const 2; end; drop')
    case('an if without a condition', 'if; end')
    case('an if whose condition is i64', 'i64.const 1; if; end')
    case('an if without else that gives a value', 'i32.const 1; if =i32; i32.const 1; end; drop', told='type mismatch: an `if` without `else` must give what it takes')
    case('an if without else that gives what it takes', 'i32.const 1; i32.const 1; if @14; i32.eqz; end; drop')
    case('an if whose else gives another type', 'i32.const 1; if =i32; i32.const 1; else; i64.const 2; end; drop')
    case('an if whose first arm gives too little', 'i32.const 1; if =i32; else; i32.const 2; end; drop')
    case('an if whose else takes what it takes', 'i32.const 5; i32.const 1; if @14; i32.eqz; else; i32.clz; end; drop')
    case('else outside of an if', 'block; else; end', wanted='refused 3 ' + ELSE)
    case('else twice', 'i32.const 1; if; else; else; end', wanted='refused 6 ' + ELSE)
    case('else in the body', 'else', wanted='refused 1 ' + ELSE)
    case('an if of a type that is no function', 'i32.const 1; if @4; end')
    case('end behind the last', '', raw=b'\0\x0b\x0b')
    case('an operator behind the last end', '', raw=b'\0\x0b\x01')
    case('a block that does not end', '', raw=b'\0' + W.operators('block; nop') + b'\x0b', told='')
    case('a body without end', '', raw=b'\0\x01', wanted='refused')
    case('a body without bytes', '', raw=b'', wanted='refused')
    case('an unknown opcode', '', raw=b'\0\xff\x0b', wanted='refused 1 illegal opcode 0xff')
    case('an unknown opcode behind a prefix', '', raw=b'\0\xfc\x17\x0b', wanted='refused 1 illegal opcode 0xfc 23')
    case('an opcode behind a prefix whose feature is off', '', features='default', raw=b'\0\xfc\x13\x0b', wanted='refused 1 illegal opcode 0xfc 19')
    case('an opcode that was removed, 06', '', features='default', raw=b'\0\x06\x40\x0b\x0b', wanted='refused 1 illegal opcode 0x06')
    case('an immediate that is cut off', '', raw=b'\0\x41')
    case('a body that leaves a value', 'i32.const 1')
    case('a body that gives too little', 'nop', ty=9)
    case('a body of two results', 'i64.const 1; i64.const 2', ty=2)
    case('a body of two results gives one', 'i64.const 1', ty=2)
    case('br out of a block', 'block; br 0; end')
    case('br with what the label has', 'block =i32; i32.const 1; br 0; end; drop')
    case('br with more than the label has', 'block =i32; i64.const 1; i32.const 1; br 0; end; drop')
    case('br without what the label has', 'block =i32; br 0; end; drop')
    case('br with another type', 'block =i32; f64.const 1; br 0; end; drop')
    case('br to the body', 'i32.const 1; br 0', ty=9)
    case('br to no label', 'block; br 2; end')
    case('code behind br is not reached', 'block =i32; i32.const 1; br 0; f32.add; drop; end; drop')
    case('br_if keeps what the label has', 'block =i32; i32.const 1; i32.const 1; br_if 0; end; drop')
    case('br_if without a condition', 'block; br_if 0; end')
    case('br_if whose condition is i64', 'block; i64.const 1; br_if 0; end')
    case('br_if without what the label has', 'block =i32; i32.const 1; br_if 0; i32.const 1; end; drop')
    case('br_if gives the types of the label', 'block =?3; struct.new_default 5; i32.const 1; br_if 0; struct.get 5 0; drop; ref.null 3; end; drop')
    case('br_if to no label', 'i32.const 1; br_if 1')
    case('br_table to labels that have nothing', 'block; block; i32.const 1; br_table 0 1 2; end; end')
    case('br_table to labels of one type', 'block =i32; block =i32; i32.const 1; i32.const 1; br_table 0 1; end; end; drop')
    case('br_table to labels of other lengths', 'block; block =i32; i32.const 1; i32.const 1; br_table 0 1; end; drop; end')
    case('br_table to labels of other types', 'block =i64; block =i32; i32.const 1; i32.const 1; br_table 0 1; end; drop; i64.const 1; end; drop')
    case('br_table without an index', 'block; br_table 0; end')
    case('br_table whose index is i64', 'block; i64.const 1; br_table 0; end')
    case('br_table with its default alone', 'block; i32.const 1; br_table 0; end')
    case('br_table to no label', 'block; i32.const 1; br_table 0 2 0; end')
    case('br_table whose default is no label', 'block; i32.const 1; br_table 0 2; end')
    case('br_table without what the labels have', 'block =i32; i32.const 1; br_table 0 0; end; drop')
    case('br_table in code that is not reached, to labels of other types', 'block =i64; block =i32; unreachable; br_table 0 1 1; end; drop; i64.const 1; end; drop')
    case('br_table in code that is not reached, to labels of other lengths', 'block; block =i32; unreachable; br_table 0 1; end; drop; end')
    case('return', 'i32.const 1; return', ty=9)
    case('return from within blocks', 'block; loop; i32.const 1; return; end; end; i32.const 1', ty=9)
    case('return with more than the results', 'i64.const 1; i32.const 1; return', ty=9)
    case('return without the results', 'return', ty=9)
    case('return of another type', 'i64.const 1; return', ty=9)
    case('code behind return is not reached', 'return; i32.add; drop')
    # exceptions
    case('throw of a tag without parameters', 'throw 0')
    case('throw of a tag with a parameter', 'i32.const 1; throw 1')
    case('throw without what the tag takes', 'throw 1')
    case('throw with another type', 'i64.const 1; throw 1')
    case('throw of no tag', 'throw 2')
    case('code behind throw is not reached', 'throw 0', ty=9)
    case('throw_ref', 'local.get 0; throw_ref', locals='exnref')
    case('throw_ref of another reference', 'ref.null func; throw_ref')
    case('throw_ref without an operand', 'throw_ref')
    case('try_table without clauses', 'try_table; end')
    case('try_table gives a value', 'try_table =i32; i32.const 1; end; drop')
    case('try_table gives too little', 'try_table =i32; end; drop')
    case('try_table takes what its type takes', 'i32.const 1; try_table @14; i32.eqz; end; drop')
    case('try_table without what its type takes', 'try_table @14; i32.eqz; end; drop')
    case('catch sends what the tag has', 'block =i32; try_table _ [catch:1:0]; end; i32.const 1; end; drop')
    case('catch of a tag without parameters', 'block; try_table _ [catch:0:0]; end; end')
    case('catch sends what the label does not have', 'block; try_table _ [catch:1:0]; end; end')
    case('catch of no tag', 'block; try_table _ [catch:2:0]; end; end')
    case('catch to no label', 'try_table _ [catch:0:1]; end')
    case('catch_ref sends the exception too', 'block @15; try_table _ [catch_ref:1:0]; end; unreachable; end; drop; drop')
    case('catch_ref to a label without the exception', 'block =i32; try_table _ [catch_ref:1:0]; end; i32.const 1; end; drop')
    case('catch_ref of no tag', 'block =exnref; try_table _ [catch_ref:2:0]; end; unreachable; end; drop')
    case('catch_all sends nothing', 'block; try_table _ [catch_all:0]; end; end')
    case('catch_all to a label that has something', 'block =i32; try_table _ [catch_all:0]; end; i32.const 1; end; drop')
    case('catch_all_ref sends the exception', 'block =exnref; try_table _ [catch_all_ref:0]; end; unreachable; end; drop')
    case('catch_all_ref to a label without the exception', 'block; try_table _ [catch_all_ref:0]; end; end')
    case('catch_all to no label', 'try_table _ [catch_all:1]; end')
    case('clauses of try_table see the labels around it', 'block =i32; i32.const 1; try_table @14 [catch:1:0]; br 0; end; end; drop')
    EXN = 'exceptions support is not enabled'
    off('exceptions', EXN, '', 'throw 0', name='throw')
    off('exceptions', EXN, 'unreachable', 'throw_ref')
    off('exceptions', EXN, '', 'try_table; end', name='try_table')
    MULTI = 'blocks, loops, and ifs may only produce a resulttype when multi-value is not enabled'
    off('multi_value', MULTI, 'i32.const 1', 'block @14', name='a block of a function type', after='end; drop')
    off('multi_value', MULTI, '', 'loop @0', name='a loop of a function type', after='end')
    off('multi_value', MULTI, 'i32.const 1', 'if @0', name='an if of a function type', after='end')
    # parametric
    case('drop of a number and of a reference', 'i32.const 1; drop; ref.null func; drop')
    case('drop without an operand', 'drop')
    case('drop behind unreachable', 'unreachable; drop; drop')
    case('select of numbers', 'i32.const 1; i32.const 2; i32.const 3; select; i32.eqz; drop')
    case('select of vectors', 'v128.const; v128.const; i32.const 3; select; drop')
    case('select of two types', 'i32.const 1; i64.const 2; i32.const 3; select; drop')
    case('select of references', 'ref.null func; ref.null func; i32.const 3; select; drop')
    case('select whose condition is i64', 'i32.const 1; i32.const 2; i64.const 3; select; drop')
    case('select without operands', 'select; drop')
    case('select behind unreachable', 'unreachable; select; i32.eqz; drop')
    case('select behind unreachable with one number', 'unreachable; f32.const 1; i32.const 1; select; f32.abs; drop')
    case('select behind unreachable with a reference', 'unreachable; ref.null func; i32.const 1; select; drop')
    case('select with a type', 'f32.const 1; f32.const 2; i32.const 3; select_t f32; drop')
    case('select with a reference type', 'ref.null 5; ref.null 3; i32.const 3; select_t ?3; drop')
    case('select with a type that the operands do not have', 'f32.const 1; f32.const 2; i32.const 3; select_t i64; drop')
    case('select with an unknown type', 'unreachable; select_t ?99; drop', told=NO_TYPE)
    case('select with no types', 'unreachable; select_t; drop')
    case('select with two types', 'unreachable; select_t i32 i32; drop')
    off('reference_types', REFS, 'i32.const 1; i32.const 2; i32.const 3', 'select_t i32', name='select with a type', after='drop')
    # calls
    case('call takes and gives what the function does', 'i32.const 1; i32.const 2; call 1; i32.eqz; drop')
    case('call of two results', 'i32.const 1; call 2; i64.add; drop')
    case('call without an operand', 'i32.const 1; call 1; drop')
    case('call with another type', 'i32.const 1; f32.const 2; call 1; drop')
    case('call of no function', 'call 9')
    case('call_indirect', 'i32.const 1; i32.const 2; i32.const 0; call_indirect 1 0; drop')
    case('call_indirect by a table of one function type', 'i32.const 1; i32.const 2; i32.const 0; call_indirect 1 3; drop')
    case('call_indirect by a table of external references', 'i64.const 0; call_indirect 0 1')
    case('call_indirect of no table', 'i32.const 0; call_indirect 0 4')
    case('call_indirect of an unknown type', 'i32.const 0; call_indirect 99 0')
    case('call_indirect of a type that is no function', 'i32.const 0; call_indirect 3 0')
    case('call_indirect without an index', 'call_indirect 0 0')
    case('call_indirect with an index of 64 bits', 'i64.const 0; call_indirect 0 0')
    case('call_indirect without its operands', 'i32.const 0; call_indirect 8 0')
    case('call_ref', 'i32.const 1; i32.const 2; ref.func 1; call_ref 1; drop')
    case('call_ref of null', 'ref.null 0; call_ref 0')
    case('call_ref of another type', 'i32.const 1; i32.const 2; ref.func 2; call_ref 1; drop')
    case('call_ref of any function', 'ref.null func; call_ref 0')
    case('call_ref of an unknown type', 'unreachable; call_ref 99')
    case('call_ref of a type that is no function', 'unreachable; call_ref 4')
    case('return_call', 'i32.const 1; i32.const 2; return_call 1', ty=9)
    case('return_call of other results', 'i32.const 1; return_call 2', ty=9)
    case('return_call without an operand', 'return_call 1', ty=9)
    case('return_call of no function', 'return_call 9')
    case('code behind return_call is not reached', 'return_call 0; i32.add; drop')
    case('return_call_indirect', 'i32.const 1; i32.const 2; i32.const 0; return_call_indirect 1 0', ty=9)
    case('return_call_indirect of other results', 'i32.const 1; i32.const 0; return_call_indirect 2 0', ty=9)
    case('return_call_indirect by a table of external references', 'i64.const 0; return_call_indirect 0 1')
    case('return_call_indirect of no table', 'i32.const 0; return_call_indirect 0 4')
    case('return_call_indirect of an unknown type', 'i32.const 0; return_call_indirect 99 0')
    case('return_call_indirect of a type that is no function', 'i32.const 0; return_call_indirect 3 0')
    case('return_call_ref', 'i32.const 1; i32.const 2; ref.func 1; return_call_ref 1', ty=9)
    case('return_call_ref of other results', 'i32.const 1; ref.func 2; return_call_ref 2', ty=9)
    case('return_call_ref of another type', 'i32.const 1; i32.const 2; ref.func 2; return_call_ref 1', ty=9)
    case('return_call_ref of an unknown type', 'unreachable; return_call_ref 99')
    FUNCTION = 'function references support is not enabled'
    off('function_references', FUNCTION, 'unreachable', 'call_ref 0', name='call_ref')
    off('function_references', FUNCTION, 'unreachable', 'return_call_ref 0', name='return_call_ref')


GC = 'gc support is not enabled'


def references():
    subject('references')
    for h in ['func', 'extern', 'any', 'eq', 'i31', 'struct', 'array', 'exn', 'none', 'nofunc', 'noextern', 'noexn', '3', '0']:
        case('ref.null %s' % h, 'ref.null %s; local.set 0' % h, locals='?' + h)
    case('ref.null of an unknown type', 'ref.null 99; drop')
    case('ref.null none is below all of its hierarchy', 'ref.null none; local.set 0; ref.null none; local.set 1; ref.null none; local.set 2', locals='anyref ?3 ?4')
    case('ref.null none is below no function', 'ref.null none; local.set 0', locals='funcref')
    case('ref.null nofunc is below functions', 'ref.null nofunc; local.set 0; ref.null nofunc; local.set 1', locals='funcref ?1')
    case('ref.null any is not below eq', 'ref.null any; local.set 0', locals='eqref')
    case('ref.null eq is below any', 'ref.null eq; local.set 0', locals='anyref')
    case('ref.null struct is not below array', 'ref.null struct; local.set 0', locals='arrayref')
    case('ref.null of a type is below its kind', 'ref.null 5; local.set 0; ref.null 4; local.set 1; ref.null 1; local.set 2', locals='structref arrayref funcref')
    case('ref.null of a type is below its supertype', 'ref.null 5; local.set 0', locals='?3')
    case('ref.null of a type is not below its subtype', 'ref.null 3; local.set 0', locals='?5')
    case('ref.is_null of any reference', 'ref.null func; ref.is_null; drop; ref.null 3; ref.is_null; i32.eqz; drop')
    case('ref.is_null of a number', 'i32.const 1; ref.is_null; drop')
    case('ref.is_null without an operand', 'ref.is_null; drop')
    case('ref.is_null behind unreachable', 'unreachable; ref.is_null; drop')
    case('ref.func of a function that is referenced', 'ref.func 1; local.set 0', locals='?1')
    case('ref.func gives no null', 'ref.func 1; local.set 0', locals='!1')
    case('ref.func of a function that nothing refers to', 'ref.func 0; drop')
    case('ref.func of no function', 'ref.func 99; drop')
    case('ref.func of another type', 'ref.func 2; local.set 0', locals='?1')
    case('ref.eq of two references', 'ref.null 3; ref.null 4; ref.eq; drop; ref.null eq; ref.null i31; ref.eq; i32.eqz; drop')
    case('ref.eq of a function', 'ref.null func; ref.null eq; ref.eq; drop')
    case('ref.eq of any', 'ref.null eq; ref.null any; ref.eq; drop')
    case('ref.eq of a number', 'ref.null eq; i32.const 1; ref.eq; drop')
    case('ref.eq of one operand', 'ref.null eq; ref.eq; drop')
    case('ref.as_non_null', 'ref.null 3; ref.as_non_null; local.set 0', locals='!3')
    case('ref.as_non_null of a number', 'i32.const 1; ref.as_non_null; drop')
    case('ref.as_non_null keeps the type', 'ref.null 3; ref.as_non_null; local.set 0', locals='!5')
    case('br_on_null', 'block; ref.null 3; br_on_null 0; local.set 0; end', locals='!3')
    case('br_on_null with what the label has', 'block =i32; i32.const 1; ref.null 3; br_on_null 0; drop; end; drop')
    case('br_on_null without what the label has', 'block =i32; ref.null 3; br_on_null 0; drop; i32.const 1; end; drop')
    case('br_on_null of a number', 'block; i32.const 1; br_on_null 0; drop; end')
    case('br_on_null to no label', 'ref.null 3; br_on_null 1; drop')
    case('br_on_non_null', 'block =!3; ref.null 3; br_on_non_null 0; unreachable; end; drop')
    case('br_on_non_null to a label that has nothing', 'block; ref.null 3; br_on_non_null 0; end')
    case('br_on_non_null to a label of another type', 'block =!4; ref.null 3; br_on_non_null 0; unreachable; end; drop')
    case('br_on_non_null to a label of a number', 'block =i32; ref.null 3; br_on_non_null 0; unreachable; end; drop')
    case('br_on_non_null of a number', 'block =!3; i32.const 1; br_on_non_null 0; unreachable; end; drop')
    case('br_on_non_null to no label', 'ref.null 3; br_on_non_null 1')
    off('reference_types', REFS, '', 'ref.null func', name='ref.null', after='drop')
    off('reference_types', REFS, 'unreachable', 'ref.is_null', after='drop')
    off('reference_types', REFS, '', 'ref.func 1', name='ref.func', after='drop')
    off('gc', GC, 'unreachable', 'ref.eq', after='drop')
    FUNCTION = 'function references support is not enabled'
    off('function_references', FUNCTION, 'unreachable', 'ref.as_non_null', after='drop')
    off('function_references', FUNCTION, 'unreachable', 'br_on_null 0', name='br_on_null', after='drop')
    off('function_references', FUNCTION, 'unreachable', 'br_on_non_null 0', name='br_on_non_null')
    # tests, casts and conversions
    case('ref.test', 'ref.null any; ref.test 3; i32.eqz; drop; ref.null any; ref.test_null i31; drop')
    case('ref.test within one hierarchy', 'ref.null func; ref.test 1; drop; ref.null extern; ref.test_null noextern; drop')
    case('ref.test across hierarchies', 'ref.null any; ref.test func; drop')
    case('ref.test of null across hierarchies', 'ref.null func; ref.test_null 3; drop')
    case('ref.test of a number', 'i32.const 1; ref.test 3; drop')
    case('ref.test of an unknown type', 'ref.null any; ref.test 99; drop')
    case('ref.cast gives no null', 'ref.null any; ref.cast 3; local.set 0', locals='!3')
    case('ref.cast of null', 'ref.null any; ref.cast_null 3; local.set 0', locals='?3')
    case('ref.cast of null may give null', 'ref.null any; ref.cast_null 3; local.set 0', locals='!3')
    case('ref.cast across hierarchies', 'ref.null extern; ref.cast any; drop')
    case('ref.cast of null across hierarchies', 'ref.null func; ref.cast_null extern; drop')
    case('ref.cast to an unknown type', 'ref.null any; ref.cast 99; drop')
    case('ref.cast of exceptions', 'ref.null exn; ref.cast_null noexn; drop')
    case('ref.cast without an operand', 'ref.cast 3; drop')
    case('br_on_cast', 'block =!3; ref.null any; br_on_cast 0 ?any !3; unreachable; end; drop')
    case('br_on_cast leaves what the cast does not take', 'block =?3; ref.null any; br_on_cast 0 ?any ?3; local.set 0; unreachable; end; drop', locals='!any')
    case('br_on_cast keeps null where the cast does not take it', 'block =!3; ref.null any; br_on_cast 0 ?any !3; local.set 0; unreachable; end; drop', locals='!any')
    case('br_on_cast to what is not below', 'block =!func; ref.null any; br_on_cast 0 ?any !func; unreachable; end; drop')
    case('br_on_cast from below to above', 'block =?any; ref.null 3; br_on_cast 0 ?3 ?any; unreachable; end; drop')
    case('br_on_cast to a label of another type', 'block =!4; ref.null any; br_on_cast 0 ?any !3; unreachable; end; drop')
    case('br_on_cast to a label that has nothing', 'block; ref.null any; br_on_cast 0 ?any !3; drop; end')
    case('br_on_cast of another reference', 'block =!3; ref.null func; br_on_cast 0 ?any !3; unreachable; end; drop')
    case('br_on_cast to no label', 'ref.null any; br_on_cast 1 ?any !3; drop')
    case('br_on_cast with an unknown type', 'block =!3; ref.null any; br_on_cast 0 ?any !99; unreachable; end; drop')
    case('br_on_cast_fail', 'block =?any; ref.null any; br_on_cast_fail 0 ?any !3; drop; unreachable; end; drop')
    case('br_on_cast_fail sends what the cast does not take', 'block =!any; ref.null any; br_on_cast_fail 0 ?any ?3; drop; unreachable; end; drop')
    case('br_on_cast_fail to a label without null', 'block =!any; ref.null any; br_on_cast_fail 0 ?any !3; drop; unreachable; end; drop')
    case('br_on_cast_fail to what is not below', 'block =?any; ref.null any; br_on_cast_fail 0 ?any !func; drop; unreachable; end; drop')
    case('br_on_cast_fail to a label that has nothing', 'block; ref.null any; br_on_cast_fail 0 ?any !3; drop; end', told='type mismatch: label has other types')
    case('br_on_cast_fail to no label', 'ref.null any; br_on_cast_fail 1 ?any !3; drop')
    case('any.convert_extern keeps null', 'ref.null extern; any.convert_extern; local.set 0', locals='anyref')
    case('any.convert_extern keeps what is not null', 'ref.null extern; ref.as_non_null; any.convert_extern; local.set 0', locals='!any')
    case('any.convert_extern of null is no reference without', 'ref.null extern; any.convert_extern; local.set 0', locals='!any')
    case('any.convert_extern of another reference', 'ref.null any; any.convert_extern; drop')
    case('any.convert_extern of a number', 'i32.const 1; any.convert_extern; drop')
    case('extern.convert_any', 'ref.null 3; extern.convert_any; local.set 0', locals='externref')
    case('extern.convert_any keeps what is not null', 'ref.null 3; ref.as_non_null; extern.convert_any; local.set 0', locals='!extern')
    case('extern.convert_any of another reference', 'ref.null func; extern.convert_any; drop')
    case('ref.i31', 'i32.const 1; ref.i31; local.set 0', locals='!i31')
    case('ref.i31 of i64', 'i64.const 1; ref.i31; drop')
    case('i31.get_s and i31.get_u', 'i32.const 1; ref.i31; i31.get_s; drop; ref.null i31; i31.get_u; i32.eqz; drop')
    case('i31.get_s of another reference', 'ref.null eq; i31.get_s; drop')
    case('i31.get_u of a number', 'i32.const 1; i31.get_u; drop')
    for before, op in [('unreachable', 'ref.test 3'), ('unreachable', 'ref.test_null 3'), ('unreachable', 'ref.cast 3'), ('unreachable', 'ref.cast_null 3'),
                       ('unreachable', 'br_on_cast 0 ?any !3'), ('unreachable', 'br_on_cast_fail 0 ?any !3'), ('unreachable', 'any.convert_extern'),
                       ('unreachable', 'extern.convert_any'), ('i32.const 1', 'ref.i31'), ('unreachable', 'i31.get_s'), ('unreachable', 'i31.get_u')]:
        off('gc', GC, before, op, name=op.split()[0], after='drop')
    off('shared_everything_threads', 'shared-everything-threads support is not enabled', 'i32.const 1', 'x:fe72', name='ref.i31_shared', after='drop')


# The heap types of each hierarchy, the greatest first. wasmgen has no continuations.
HIERARCHIES = [['any', 'eq', 'i31', 'struct', 'array', 'none'], ['func', 'nofunc'], ['extern', 'noextern'], ['exn', 'noexn'], ['cont', 'nocont']]
CONTINUATIONS = {'cont': 0x68, 'nocont': 0x75}
CASTS = [('ref.test', 0x14, '!'), ('ref.test_null', 0x15, '?'), ('ref.cast', 0x16, '!'), ('ref.cast_null', 0x17, '?')]


def heap(name):
    if name.startswith('shared '):
        return b'\x65' + heap(name[7:])
    return bytes([CONTINUATIONS[name]]) if name in CONTINUATIONS else W.heap_type(name)


def cast(title, top, code, end, given):
    """A null of this type is tested or cast, and what is given goes to a local of this type."""
    local = W.value_type('i32') if code < 0x16 else (b'\x63' if given == '?' else b'\x64') + heap(end)
    case(title, '', raw=b'\x01\x01' + local + b'\xd0' + heap(top) + b'\xfb' + bytes([code]) + heap(end) + b'\x21\x00\x0b')


def abstract_casts():
    """Each abstract heap type, from the top of its hierarchy and from that of the next. Continuations can't be cast."""
    subject('references')
    for number, hierarchy in enumerate(HIERARCHIES):
        other = HIERARCHIES[(number + 1) % len(HIERARCHIES)][0]
        for end in hierarchy:
            for op, code, given in CASTS:
                cast('%s from %s to %s' % (op, hierarchy[0], end), hierarchy[0], code, end, given)
                cast('%s from %s to %s of another hierarchy' % (op, other, end), other, code, end, given)
            for op, code, given in CASTS[2:]:
                for top in ['shared ' + hierarchy[0], hierarchy[0]]:
                    cast('%s from %s to shared %s' % (op, top, end), top, code, 'shared ' + end, given)


def continuation_branches():
    """A branch on a cast asks nothing of the hierarchy but that it is one, also of continuations."""
    subject('references')
    note('References to continuations can be neither tested nor cast (above), and a branch on a cast takes them.')
    for op, code in [('br_on_cast', '18'), ('br_on_cast_fail', '19')]:
        case('%s from cont to nocont' % op, '', raw=bytes.fromhex('00026368d068fb%s010068750b1a0b' % code))
        case('%s from cont to nocont, both may be null' % op, '', raw=bytes.fromhex('00026368d068fb%s030068750b1a0b' % code))
        case('%s from nocont to cont' % op, '', raw=bytes.fromhex('00026368d075fb%s010075680b1a0b' % code))
        case('%s from cont to func' % op, '', raw=bytes.fromhex('00026370d068fb%s010068700b1a0b' % code))
    case('br_on_cast from cont to nocont to a label of func', '', raw=bytes.fromhex('00026370d068fb18010068750b1a0b'), told='type mismatch: label has other types')


def unreached():
    subject('references')
    note('''What isn't reached is converted to a reference that may be shared or not, and a table fits its labels one by one: where one label is shared and one
isn't, no single type matches both, so the standard's rules with shared types have no typing of these bodies, and the Rust crate accepts them.''')
    for name, digits, wanted in [
            ('unreached any.convert_extern before a table of a label and a shared one', '00026e0263656e00fb1a41000e0100010b1ad06e0b1a0b', 'ok'),
            ('unreached any.convert_extern before a table of a shared label and another', '000263656e026e00fb1a41000e0100010b1ad0656e0b1a0b', 'ok'),
            ('unreached any.convert_extern before a table of labels without null', '0002646e0264656e00fb1a41000e0100010b1a000b1a0b', 'ok'),
            ('unreached extern.convert_any before a table of a label and a shared one', '00026f0263656f00fb1b41000e0100010b1ad06f0b1a0b', 'ok')]:
        case(name, '', raw=bytes.fromhex(digits), wanted=wanted)
    note('Their neighbours: where the types have something in common that matches both labels, or where a type is known.')
    for name, digits, wanted in [
            ('unreached any.convert_extern before a table of shared labels', '000263656e0263656e00fb1a41000e0100010b1ad0656e0b1a0b', 'ok'),
            ("unreached any.convert_extern before a table of labels that aren't shared", '00026e026e00fb1a41000e0100010b1ad06e0b1a0b', 'ok'),
            ('what is not reached is of each type at a table of a label and a shared one', '00026e0263656e0041000e0100010b1ad06e0b1a0b', 'ok'),
            ('unreached ref.as_non_null before a table of a label and a shared one', '00026e0263656e00d441000e0100010b1ad06e0b1a0b', 'ok'),
            ('reached any.convert_extern before a table of a label and a shared one', '00026e0263656ed06ffb1a41000e0100010b1ad06e0b1a0b', 'refused 13'),
            ('reached any.convert_extern of a shared one before such a table', '00026e0263656ed0656ffb1a41000e0100010b1ad06e0b1a0b', 'refused 14'),
            ('unreached any.convert_extern before a branch to a shared label and then one to another', '00026e0263656e00fb1a41000d0041000d01000b1ad06e0b1a0b', 'refused 16'),
            ('unreached any.convert_extern before a branch to a shared label and then one to its like', '000263656e0263656e00fb1a41000d0041000d01000b1ad0656e0b1a0b', 'ok'),
            ('unreached any.convert_extern before a table of another hierarchy', '00026e026f00fb1a41000e0100010b1ad06e0b1a0b', 'refused 10'),
            ('unreached any.convert_extern before a table of another hierarchy and a shared label', '000263656e026f00fb1a41000e0100010b1ad0656e0b1a0b', 'refused 12'),
            ('unreached any.convert_extern before a table of a shared label and one below', '00026d0263656e00fb1a41000e0100010b1ad06d0b1a0b', 'refused 12')]:
        case(name, '', raw=bytes.fromhex(digits), wanted=wanted)
    case('a table of a label and a shared one without shared_everything_threads', '',
         raw=bytes.fromhex('00026e0263656e00fb1a41000e0100010b1ad06e0b1a0b'), features='all-shared_everything_threads', wanted='refused')


def aggregates():
    subject('aggregates')
    case('struct.new takes the fields in order', 'i32.const 1; i64.const 2; i32.const 3; struct.new 3; local.set 0', locals='!3')
    case('struct.new without a field', 'i32.const 1; i64.const 2; struct.new 3; drop')
    case('struct.new with another type', 'i32.const 1; i32.const 2; i32.const 3; struct.new 3; drop')
    case('struct.new of a type that is no structure', 'unreachable; struct.new 4; drop')
    case('struct.new of an unknown type', 'unreachable; struct.new 99; drop')
    case('struct.new_default', 'struct.new_default 5; local.set 0', locals='!5')
    case('struct.new_default of a field without default', 'struct.new_default 12; drop')
    case('struct.new_default of a type that is no structure', 'struct.new_default 0; drop')
    case('struct.get', 'ref.null 3; struct.get 3 0; i32.eqz; drop; ref.null 3; struct.get 3 1; i64.eqz; drop')
    case('struct.get of a subtype', 'ref.null 5; struct.get 3 0; drop')
    case('struct.get of a supertype', 'ref.null 3; struct.get 5 0; drop')
    case('struct.get of a packed field', 'ref.null 3; struct.get 3 2; drop')
    case('struct.get of no field', 'ref.null 3; struct.get 3 3; drop')
    case('struct.get of another reference', 'ref.null 4; struct.get 3 0; drop')
    case('struct.get of a type that is no structure', 'ref.null 4; struct.get 4 0; drop')
    case('struct.get_s and struct.get_u of a packed field', 'ref.null 3; struct.get_s 3 2; i32.eqz; drop; ref.null 3; struct.get_u 3 2; drop')
    case('struct.get_s of a field that is not packed', 'ref.null 3; struct.get_s 3 0; drop')
    case('struct.get_u of a field that is not packed', 'ref.null 3; struct.get_u 3 1; drop')
    case('struct.get_s of no field', 'ref.null 3; struct.get_s 3 9; drop')
    case('struct.set', 'ref.null 3; i64.const 1; struct.set 3 1; ref.null 3; i32.const 1; struct.set 3 2')
    case('struct.set of a field that is not mutable', 'ref.null 3; i32.const 1; struct.set 3 0')
    case('struct.set of another type', 'ref.null 3; i32.const 1; struct.set 3 1')
    case('struct.set of no field', 'ref.null 3; i32.const 1; struct.set 3 3')
    case('struct.set of a type that is no structure', 'ref.null 4; i32.const 1; struct.set 4 0')
    case('array.new', 'i32.const 1; i32.const 2; array.new 4; local.set 0; i32.const 1; i32.const 2; array.new 6; drop', locals='!4')
    case('array.new of another type', 'i64.const 1; i32.const 2; array.new 4; drop')
    case('array.new of a type that is no array', 'unreachable; array.new 3; drop')
    case('array.new of an unknown type', 'unreachable; array.new 99; drop')
    case('array.new_default', 'i32.const 2; array.new_default 4; drop')
    case('array.new_default of elements without default', 'i32.const 2; array.new_default 13; drop')
    case('array.new_default of a type that is no array', 'i32.const 2; array.new_default 0; drop')
    case('array.new_fixed', 'i32.const 1; i32.const 2; i32.const 3; array.new_fixed 4 3; drop; array.new_fixed 13 0; drop')
    case('array.new_fixed of fewer operands', 'i32.const 1; i32.const 2; array.new_fixed 4 3; drop')
    case('array.new_fixed of another type', 'i32.const 1; i64.const 2; array.new_fixed 4 2; drop')
    case('array.new_fixed of a type that is no array', 'array.new_fixed 3 0; drop')
    case('array.new_data', 'i32.const 0; i32.const 2; array.new_data 4 0; drop; i32.const 0; i32.const 2; array.new_data 6 1; drop')
    case('array.new_data of references', 'i32.const 0; i32.const 2; array.new_data 11 0; drop')
    case('array.new_data from no segment', 'i32.const 0; i32.const 2; array.new_data 4 2; drop')
    case('array.new_data of a type that is no array', 'i32.const 0; i32.const 2; array.new_data 3 0; drop')
    case('array.new_elem', 'i32.const 0; i32.const 2; array.new_elem 11 0; drop')
    case('array.new_elem of other references', 'i32.const 0; i32.const 2; array.new_elem 11 1; drop')
    case('array.new_elem of numbers', 'i32.const 0; i32.const 2; array.new_elem 4 0; drop')
    case('array.new_elem from no segment', 'i32.const 0; i32.const 2; array.new_elem 11 3; drop')
    case('array.get', 'ref.null 4; i32.const 0; array.get 4; i32.eqz; drop; ref.null 7; i32.const 0; array.get 7; i64.eqz; drop')
    case('array.get of packed elements', 'ref.null 6; i32.const 0; array.get 6; drop')
    case('array.get of another array', 'ref.null 7; i32.const 0; array.get 4; drop')
    case('array.get at an index of 64 bits', 'ref.null 4; i64.const 0; array.get 4; drop')
    case('array.get of a type that is no array', 'unreachable; array.get 3; drop')
    case('array.get_s and array.get_u of packed elements', 'ref.null 6; i32.const 0; array.get_s 6; drop; ref.null 6; i32.const 0; array.get_u 6; i32.eqz; drop')
    case('array.get_s of elements that are not packed', 'ref.null 4; i32.const 0; array.get_s 4; drop')
    case('array.get_u of elements that are not packed', 'ref.null 4; i32.const 0; array.get_u 4; drop')
    case('array.set', 'ref.null 4; i32.const 0; i32.const 1; array.set 4; ref.null 6; i32.const 0; i32.const 1; array.set 6')
    case('array.set of elements that are not mutable', 'ref.null 7; i32.const 0; i64.const 1; array.set 7')
    case('array.set of another type', 'ref.null 4; i32.const 0; i64.const 1; array.set 4')
    case('array.set of a type that is no array', 'unreachable; array.set 3')
    case('array.len', 'ref.null 4; array.len; drop; ref.null array; array.len; i32.eqz; drop')
    case('array.len of another reference', 'ref.null 3; array.len; drop')
    case('array.len of a number', 'i32.const 1; array.len; drop', told='')
    case('array.fill', 'ref.null 4; i32.const 0; i32.const 1; i32.const 2; array.fill 4')
    case('array.fill of elements that are not mutable', 'ref.null 7; i32.const 0; i64.const 1; i32.const 2; array.fill 7')
    case('array.fill of another type', 'ref.null 4; i32.const 0; i64.const 1; i32.const 2; array.fill 4')
    case('array.copy', 'ref.null 4; i32.const 0; ref.null 4; i32.const 0; i32.const 2; array.copy 4 4')
    case('array.copy to elements that are not mutable', 'ref.null 7; i32.const 0; ref.null 7; i32.const 0; i32.const 2; array.copy 7 7')
    case('array.copy of other elements', 'ref.null 4; i32.const 0; ref.null 7; i32.const 0; i32.const 2; array.copy 4 7')
    case('array.copy of packed elements to others', 'ref.null 4; i32.const 0; ref.null 6; i32.const 0; i32.const 2; array.copy 4 6')
    case('array.copy from a type that is no array', 'unreachable; array.copy 4 3')
    case('array.copy to a type that is no array', 'unreachable; array.copy 3 4')
    case('array.init_data', 'ref.null 4; i32.const 0; i32.const 0; i32.const 2; array.init_data 4 0')
    case('array.init_data of elements that are not mutable', 'ref.null 7; i32.const 0; i32.const 0; i32.const 2; array.init_data 7 0')
    case('array.init_data of references', 'ref.null 11; i32.const 0; i32.const 0; i32.const 2; array.init_data 11 0')
    case('array.init_data from no segment', 'ref.null 4; i32.const 0; i32.const 0; i32.const 2; array.init_data 4 2')
    case('array.init_elem', 'ref.null 11; i32.const 0; i32.const 0; i32.const 2; array.init_elem 11 0')
    case('array.init_elem of other references', 'ref.null 11; i32.const 0; i32.const 0; i32.const 2; array.init_elem 11 1')
    case('array.init_elem of numbers', 'ref.null 4; i32.const 0; i32.const 0; i32.const 2; array.init_elem 4 0')
    case('array.init_elem from no segment', 'ref.null 11; i32.const 0; i32.const 0; i32.const 2; array.init_elem 11 3')
    case('array.init_elem without an operand', 'i32.const 0; i32.const 0; i32.const 2; array.init_elem 11 0')
    for op in ['struct.new 3', 'struct.new_default 3', 'struct.get 3 0', 'struct.get_s 3 2', 'struct.get_u 3 2', 'array.new 4', 'array.new_default 4',
               'array.new_fixed 4 0', 'array.new_data 4 0', 'array.new_elem 11 0', 'array.get 4', 'array.get_s 6', 'array.get_u 6', 'array.len']:
        off('gc', GC, 'unreachable', op, name=op.split()[0], after='drop')
    for op in ['struct.set 3 1', 'array.set 4', 'array.fill 4', 'array.copy 4 4', 'array.init_data 4 0', 'array.init_elem 11 0']:
        off('gc', GC, 'unreachable', op, name=op.split()[0])
    off('custom_descriptors', 'custom descriptors support is not enabled', 'unreachable', 'x:fb2003', name='struct.new_desc', after='drop')
    off('custom_descriptors', 'custom descriptors support is not enabled', 'unreachable', 'x:fb2103', name='struct.new_default_desc', after='drop')


def proposals():
    """What needs a proposal and what needs none, by the tables of value types and of operators: asked of nobody."""
    subject('features')
    for name, text in [('i32.add', 'i32.const 1; i32.const 2; i32.add; drop'), ('i64.extend8_s', 'i64.const 1; i64.extend8_s; drop'),
                       ('return_call', 'return_call 0'), ('blocks without a function type', 'block =i32; i32.const 1; end; if; loop; end; end'),
                       ('i32.load', 'i32.const 1; i32.load 0:0; drop'), ('i64.store in the memory of 64 bits', 'i64.const 1; i64.const 1; i64.store 0:0:1'),
                       ('memory.grow', 'i32.const 1; memory.grow 0; drop'), ('select', 'i32.const 1; i32.const 2; i32.const 3; select; drop'),
                       ('call_indirect', 'i32.const 0; call_indirect 0 2'), ('global.set', 'i32.const 1; global.set 1'),
                       ('br_table', 'block; i32.const 1; br_table 0 0; end')]:
        case('%s needs no proposal' % name, text, features='none', wanted='ok')
    for feature, name, text in [('floats', 'f64.add', 'f64.const 1; f64.const 2; f64.add; drop'),
                                ('floats', 'i32.trunc_sat_f32_s', 'f32.const 1; i32.trunc_sat_f32_s; drop'), ('simd', 'v128.const', 'v128.const; drop'),
                                ('multi_value', 'a block of a function type', 'i32.const 1; block @14; end; drop'),
                                ('reference_types', 'ref.null func', 'ref.null func; ref.is_null; drop'),
                                ('reference_types', 'table.size', 'table.size 0; drop'), ('bulk_memory', 'memory.copy', 'i32.const 1; i32.const 1; i32.const 1; memory.copy 0 0'),
                                ('exceptions', 'throw', 'throw 0'), ('exceptions', 'try_table', 'try_table; end')]:
        case('%s needs %s alone' % (name, feature), text, features='none+' + feature, wanted='ok')
    case('ref.null extern needs reference_types and gc_types', 'ref.null extern; ref.is_null; drop', features='none+reference_types+gc_types', wanted='ok')
    case('ref.null extern needs more than reference_types', 'ref.null extern; drop', features='none+reference_types', wanted='refused 1 ' + value_type('gc_types'))
    for name, locals, text in [('structures', '!5', 'struct.new_default 5; local.set 0'), ('arrays', '!4', 'i32.const 1; array.new_default 4; local.set 0'),
                               ('exceptions', 'exnref', 'local.get 0; throw_ref'), ('calls by reference', '', 'i32.const 1; i32.const 2; ref.func 1; call_ref 1; drop'),
                               ('casts', 'anyref', 'local.get 0; ref.test 3; drop'), ('tables of 64 bits', 'externref', 'i64.const 0; table.get 1; local.set 0')]:
        case('%s are among the default proposals' % name, text, locals=locals, features='default', wanted='ok')
    for feature, type in [('floats', 'f32'), ('floats', 'f64'), ('simd', 'v128'), ('reference_types', 'funcref'), ('gc', 'anyref'), ('gc', 'i31ref'),
                          ('exceptions', 'exnref'), ('gc_types', 'externref'), ('function_references', '!func'), ('stack_switching', '?cont')]:
        case('a local of %s without %s' % (type, feature), '', locals=type, features='all-' + feature, wanted='refused 1 ' + value_type(feature))
        case('a block that gives %s without %s' % (type, feature), 'block =%s; unreachable; end; drop' % type, features='all-' + feature,
             wanted='refused 1 ' + value_type(feature))
    case('a local of a type by its index without gc', '', locals='?3', features='all-gc', wanted='ok')
    case('a local of a type by its index without function_references', '', locals='?3', features='all-function_references', wanted='ok')
    case('a local of a type by its index without either', '', locals='?3', features='all-gc-function_references', wanted='refused 1 ' + BY_INDEX)
    # that a wrong answer is told
    case('a valid body is not refused', 'i32.const 1; drop', wanted='not refused')
    case('an unknown local is not accepted', 'local.get 7; drop', wanted='not ok')
    case('an unknown local is not told of another', 'local.get 7; drop', wanted='not refused 1 unknown local 8: local index out of bounds')
    case('an unknown local is not told of elsewhere', 'local.get 7; drop', wanted='not refused 2')
    case('no proposal lifts an unknown local', 'local.get 7; drop', wanted='refused 1 unknown local 7: local index out of bounds; missing nothing')


# The operators of the legacy exception-handling proposal. The Rust crate's reader tells of a `catch`, a `catch_all` and a `delegate` that
# stand elsewhere behind their opcode, where the validator tells of them at their place.
CATCH = 'catch found outside of a `try` block'
CATCH_ALL = 'catch_all found outside of a `try` block'
DELEGATE = 'delegate found outside of a `try` block'
TRY, TRY_I32, END, DROP, I32, I64 = '0640', '067f', '0b', '1a', '4101', '4201'
LEGACY = 'all+legacy_exceptions'


def legacy():
    subject('legacy_exceptions')

    def bytes_of(*parts, locals=''):
        return declared(locals) + bytes.fromhex(''.join(parts)) + b'\x0b'

    def ok(name, *parts, ty=0, locals='', wanted=None):
        case(name, '', raw=bytes_of(*parts, locals=locals), ty=ty, features=LEGACY, wanted=wanted)

    def told(name, rule, head, *rest):
        """Refused by this rule at the last operator of the head."""
        at = 1 + sum(len(x) // 2 for x in head[:-1])
        case(name, '', raw=bytes_of(*head, *rest), features=LEGACY, wanted='refused %d %s' % (at, rule))

    ok('try', TRY, END)
    ok('try with a catch', TRY, '0700', END)
    ok('try with two catches and a catch_all', TRY, '0700', '0701', DROP, '19', END)
    ok('try with a catch_all alone', TRY, '19', END)
    ok('try gives a value', TRY_I32, I32, END, ty=9)
    ok('try gives no value', TRY_I32, END, ty=9)
    ok('try gives another type', TRY_I32, I64, END, ty=9)
    ok('a catch gives what its tag holds', TRY_I32, I32, '0701', END, ty=9)
    ok('a catch leaves what its tag holds', TRY, '0701', END)
    ok('a catch gives too little', TRY_I32, I32, '0700', END, ty=9)
    ok('a catch_all gives too little', TRY_I32, I32, '19', END, ty=9)
    ok('a catch does not have what stood before the try', I32, TRY, '0700', DROP, END, DROP)
    ok('a try takes what its type takes', I32, '0608', DROP, '0701', DROP, END)
    ok('a catch does not have what its try takes', I32, '0608', DROP, '0700', DROP, END)
    ok('a try without what its type takes', '0608', DROP, END)
    ok('a try of an unknown type', '06e300', END)
    ok('a try of a type that is no function', '0603', END)
    ok('code behind a throw in a try', TRY, '0800', '0700', END)
    ok('a catch is reached behind code that is not', TRY, '00', '0700', DROP, END)
    ok('a catch_all is reached behind code that is not', TRY, '00', '19', DROP, END)
    ok('a try before a catch gives too little', TRY_I32, '0701', END, ty=9)
    ok('a try before a catch gives another type', TRY_I32, I64, '0701', END, ty=9)
    ok('a try before a catch leaves a value', TRY, I32, '0700', END)
    ok('a catch before a catch leaves a value', TRY, '0701', '0700', END)
    ok('a catch before a catch_all leaves a value', TRY, '0701', '19', END)
    ok('a catch of a tag that is not there', TRY, '0709', END)
    ok('a local that a try sets is set in it', '4100', DROP, TRY, 'd2012100', '2000', DROP, '0700', END, locals='!func')
    ok('a local that a try sets is not set in a catch', TRY, 'd2012100', '0700', '2000', DROP, END, locals='!func')
    ok('a local that a catch sets is not set in a catch_all', TRY, '0700', 'd2012100', '19', '2000', DROP, END, locals='!func')
    ok('a local that a catch sets is not set behind it', TRY, '0700', 'd2012100', END, '2000', DROP, locals='!func')
    ok('a local that was set before is set in a catch', 'd2012100', TRY, '0700', '2000', DROP, END, locals='!func')
    for name, op, rule in [('catch', '0700', CATCH), ('catch_all', '19', CATCH_ALL), ('delegate', '1800', DELEGATE)]:
        for where, head in [('a body', []), ('a block', ['0240']), ('a loop', ['0340']), ('an if', [I32, '0440']), ('an else', [I32, '0440', '05']),
                            ('a try_table', ['1f4000']), ('a try behind its catch_all', [TRY, '19']), ('a block in a try', [TRY, '0240'])]:
            told('%s in %s' % (name, where), rule, head + [op], END, END)
    told('delegate in a catch', DELEGATE, [TRY, '0700', '1800'], END, END)
    told('else in a try', ELSE, [TRY, '05'], END)
    told('else in a catch', ELSE, [TRY, '0700', '05'], END)
    ok('delegate to the body', TRY, '1800')
    ok('delegate of a try with a value', TRY_I32, I32, '1800', ty=9)
    ok('delegate of a try that gives too little', TRY_I32, '1800', ty=9)
    ok('delegate of a try that leaves a value', TRY, I32, '1800')
    ok('delegate to the try around it', TRY, TRY, '1800', '19', END)
    ok('delegate to the body from a try in a try', TRY, TRY, '1801', '19', END)
    ok('delegate to a block', '0240', TRY, '1800', END)
    ok('delegate behind the body', TRY, '1801')
    ok('delegate behind the body from a try in a try', TRY, TRY, '1802', '19', END)
    ok('delegate ends a try', '0240', TRY, '1800', '0c00', END)
    ok('rethrow in a catch', TRY, '0700', '0900', END)
    ok('rethrow in a catch_all', TRY, '19', '0900', END)
    ok('rethrow from a block in a catch', TRY, '0700', '0240', '0901', END, END)
    ok('code behind a rethrow is not reached', TRY_I32, I32, '19', '0900', END, ty=9)
    ok('a wrong operand behind a rethrow', TRY_I32, I32, '19', '0900', I64, END, ty=9)
    ok('rethrow in a try', TRY, '0900', '19', END)
    ok('rethrow to a block', '0240', '0900', END)
    ok('rethrow to a block in a catch', TRY, '0700', '0240', '0900', END, END)
    ok('rethrow to the body', '0900')
    ok('rethrow to a try_table', '1f4000', '0900', END)
    ok('rethrow behind its try', TRY, '0700', END, '0900')
    ok('rethrow to a label that is not there', TRY, '0700', '0909', END)
    ok('a branch from a try takes what it gives', TRY_I32, I32, '0c00', END, ty=9)
    ok('a branch from a catch takes what it gives', TRY_I32, I32, '0701', '0c00', END, ty=9)
    ok('a branch from a catch without what it gives', TRY_I32, I32, '19', '0c00', END, ty=9)
    ok('a try that is not ended', TRY, wanted='refused 4')
    ok('try_table and try in one body', TRY, '1f40010200', END, '0700', END)
    for name, op in [('try', TRY), ('catch', '0700'), ('rethrow', '0900'), ('delegate', '1800'), ('catch_all', '19')]:
        code = int(op[:2], 16)
        for features, wanted in [('all-legacy_exceptions', 'illegal opcode 0x%02x; missing legacy_exceptions' % code),
                                 ('default', 'illegal opcode 0x%02x; missing legacy_exceptions' % code),
                                 (LEGACY + '-exceptions', 'exceptions support is not enabled; missing exceptions')]:
            case('%s with %s' % (name, features), '', raw=bytes_of(op, END), features=features, wanted='refused 1 ' + wanted)
    case('try with the two features that it needs', '', raw=bytes_of(TRY, '0700', '0900', END), features='none+legacy_exceptions+exceptions', wanted='ok')


HEAD = '''# Each line is a row; blank lines and lines that begin with `#` are passed over. A row's parts stand between ` | `:
#
#     NAME | FEATURES | TYPE | BODY | WANTED
#
# NAME says what the row shows. FEATURES are `default`, `all` or `none`, and then names of features in lower case, each behind
# `+` (on) or `-` (off). TYPE is the index of the function's type in the sample. BODY is the function's body in hexadecimal, its
# declarations of locals first; `-` is no bytes, and `(BYTES)*N` is these bytes N times.
#
# WANTED is `ok`, `refused OFFSET MESSAGE`, `refused OFFSET` where any message will do, or `refused` alone where any place
# will do too. OFFSET counts bytes from the start of the body. What has been refused may be followed by `; missing FEATURE`, the
# feature that is off, or `; missing nothing`. A WANTED behind `not ` says what is not the answer.
#
# Written by tools/body_rows.py, which says where the wanted answers come from.
'''


def scored():
    """What no other row told apart: found by tools/score."""
    subject('control')
    case('a branch in an else without what its label takes', 'i32.const 0; if =i32; i32.const 1; else; br 0; end; drop')
    case('an if without else of a type that takes nothing and gives nothing', 'i32.const 0; if @0; end')
    case('an if without else of a type that gives a number', 'i32.const 0; if @9; i32.const 1; end; drop', told='')
    case('an if without else of a type that takes a number', 'i32.const 1; i32.const 0; if @8; drop; end', told='')
    case('nop keeps an operand', 'i32.const 0; nop; drop')
    case('a branch to a loop that gives a number', 'loop =i32; br 0; end; drop')
    case('select of an integer of 64 bits below a float', 'i64.const 0; f32.const 0; i32.const 0; select; drop')
    case('select of a float below an integer of 64 bits', 'f32.const 0; i64.const 0; i32.const 0; select; drop')
    for op in ('br 1', 'i32.const 0; br_if 1'):
        case('%s to an outer label of a supertype' % op, 'block =?any; block =?func; ref.null none; %s; unreachable; end; drop; unreachable; end; drop' % op)
        case('%s to an outer label of no supertype' % op, 'block =?func; block =?any; ref.null none; %s; unreachable; end; drop; unreachable; end; drop' % op)
    case('an else in a loop', 'loop; else; end', wanted='refused 3 ' + ELSE)
    case('an else in a try_table', 'try_table; else; end', wanted='refused 4 ' + ELSE)
    case('an else in an else', 'i32.const 0; if; else; else; end', wanted='refused 6 ' + ELSE)
    case('catch_all_ref to a block of an empty list', 'block @0; try_table [catch_all_ref:0]; end; end')
    case('catch_ref to a block of an empty list', 'block @0; try_table [catch_ref:0:0]; end; end')
    case('a table that takes nothing, with an unknown label', 'i32.const 0; br_table 9 0')
    case('a label that is cut off', '', raw=b'\0\x0c')
    case('a label behind a condition that is cut off', '', raw=b'\0\x41\0\x0d')
    case('the function of a call that is cut off', '', raw=b'\0\x10')
    subject('variables')
    case('the index of a local that is cut off', '', raw=b'\0\x20')
    case('the index of a local that is set and cut off', '', raw=b'\0\x41\0\x21')
    case('the index of a global that is cut off', '', raw=b'\0\x23')
    case('global.get behind an operand of the type', 'i32.const 0; global.get 1; drop; drop')
    case('a local that is set before one of its type', 'ref.func 1; local.set 0; local.get 0; drop', locals='!func !func')
    case('a local that is not set behind one of its type', 'ref.func 1; local.set 0; local.get 1; drop', locals='!func !func')
    case('a local that is set after a later one', 'ref.func 1; local.set 2; ref.func 1; local.set 0; local.get 2; drop; local.get 0; drop',
         locals='!func !func !func')
    case('the last of 1,025 locals', '', raw=b'\1' + W.unsigned(1025) + b'\x7f\x20' + W.unsigned(1024) + b'\x1a\x0b')
    case('a local behind 1,025', '', raw=b'\1' + W.unsigned(1025) + b'\x7f\x20' + W.unsigned(1025) + b'\x1a\x0b', told='')
    case('the index of a local in three bytes', '', raw=bytes.fromhex('01017f208080001a0b'))
    case('the index of a local in five bytes', '', raw=bytes.fromhex('01017f2080808080001a0b'))
    case('a local that is set again in a block is set behind it', 'ref.func 1; local.set 0; block; ref.func 1; local.set 0; end; local.get 0; drop',
         locals='!func')
    subject('references')
    case('ref.eq of what may be any below eq', 'ref.null any; ref.null eq; ref.eq; drop')
    case('ref.eq of what may be any above eq', 'ref.null eq; ref.null any; ref.eq; drop')
    case('br_on_cast to an outer label of another type', 'block =?array; block =?any; ref.null any; br_on_cast 1 ?any ?i31; end; drop; unreachable; end; drop', told='')
    case('br_on_cast_fail to an outer label of another type', 'block =?i31; block =?any; ref.null any; br_on_cast_fail 1 ?any ?i31; end; drop; unreachable; end; drop')
    for op in ('br_on_non_null 0', 'br_on_cast 0 ?any ?i31; drop', 'br_on_cast_fail 0 ?any ?i31; drop', 'br_on_null 0; drop'):
        case('%s to a block of an empty list' % op.split(';')[0], 'block @0; ref.null any; %s; end' % op, told='')
    for title, before in [('alone', ''), ('behind eq', 'ref.null eq; '), ('behind shared eq', 'x:d0656d; ')]:
        case('unreached ref.eq %s' % title, 'unreachable; %sref.eq; drop' % before)
    # what isn't known of an operand isn't told; the crate tells that it expects an i32
    for title, before in [('what ref.as_non_null gives', 'ref.as_non_null'), ('what any.convert_extern gives', 'any.convert_extern')]:
        case('unreached i32.eqz of %s' % title, 'unreachable; %s; i32.eqz; drop' % before,
             wanted='refused %d type mismatch: an operand of another type is expected' % (3 if 'null' in before else 4))
    for title, before in [('alone', 'any.convert_extern'), ('below eq', 'any.convert_extern; ref.null eq'),
                          ('above eq', 'ref.null eq; unreachable; any.convert_extern')]:
        case('unreached ref.eq of what any.convert_extern gives %s' % title, 'unreachable; %s; ref.eq; drop' % before)
    case('ref.func of its exact type', '', raw=bytes.fromhex('0002646201d2010b1a0b'))
    case('ref.func of a function for a structure', 'block =!struct; ref.func 1; end; drop', told='')
    case('ref.func of a function for one of another type', 'block =!10; ref.func 1; end; drop', told='')
    case('ref.func of a function for one of its type', 'block =!1; ref.func 1; end; drop')
    case('ref.null of a type index with gc alone', 'ref.null 3; drop', features='all-function_references', wanted='ok')
    case('ref.null of a type index with function references alone', 'ref.null 3; drop', features='all-gc', wanted='ok')
    exact = 'custom descriptors required for exact reference types; missing custom_descriptors'
    case('ref.null of an exact type', '', raw=bytes.fromhex('00d062031a0b'))
    case('ref.null of an exact type without custom_descriptors', '', raw=bytes.fromhex('00d062031a0b'), features='all-custom_descriptors', wanted='refused 1 ' + exact)
    case('ref.test of an exact type without custom_descriptors', '', raw=bytes.fromhex('0000fb1462031a0b'), features='all-custom_descriptors',
         wanted='refused 2 ' + exact)
    for name, op in [('a type index', '03'), ('an exact type', '6203')]:
        case('ref.test of %s without reference_types' % name, '', raw=bytes.fromhex('0000fb14%s1a0b' % op), features='all-reference_types',
             wanted='refused 2 ' + value_type('reference_types'))
    subject('features')
    for name, op in [('f32x4.splat', 'fd13'), ('f32x4.extract_lane', 'fd1f00'), ('f32x4.replace_lane', 'fd2000'), ('f64x2.splat', 'fd14'),
                     ('f64x2.extract_lane', 'fd2100'), ('f64x2.replace_lane', 'fd2200')]:
        case('%s without floats' % name, '', raw=bytes.fromhex('0000%s1a0b' % op), features='all-floats', wanted='refused 2 %s; missing floats' % FLOATS)
    for name, op in [('f32x4.add', 'fde401'), ('i32x4.splat', 'fd11'), ('i64x2.splat', 'fd12'), ('i32x4.extract_lane', 'fd1b00'),
                     ('i64x2.extract_lane', 'fd1d00')]:
        case('%s without floats' % name, '', raw=bytes.fromhex('0000%s1a0b' % op), features='all-floats', wanted='ok')
    subject('memories')
    case('an offset of 33 bits with the largest alignment', 'i32.const 0; i32.load 2:4294967296; drop')
    case('v128.load of 64 bits with an offset of 33 bits', '', raw=bytes.fromhex('004200fd00400180808080101a0b'))
    subject('tables')
    case('elem.drop of an unknown segment 7', 'elem.drop 7')
    subject('aggregates')
    case('array.new_elem of numbers, with an unknown segment', 'i32.const 0; i32.const 0; array.new_elem 4 9; drop')
    subject('legacy_exceptions')
    for where, head in [('a try', [TRY_I32]), ('a catch', [TRY_I32, I32, '0700']), ('a catch_all', [TRY_I32, I32, '19'])]:
        case('a branch in legacy %s without what its label takes' % where, '', raw=b'\0' + bytes.fromhex(''.join(head)) + bytes.fromhex('0c000b1a0b'), features=LEGACY)
    case('an else in a catch_all', '', raw=bytes.fromhex('00064019050b0b'), features=LEGACY, wanted='refused 4 ' + ELSE)
    for where, head in [('a loop', '0340'), ('an if', '41000440'), ('an else', '4100044005')]:
        case('rethrow to %s in a catch_all' % where, '', raw=bytes.fromhex('00064019%s09000b0b0b' % head), features=LEGACY)


def wanted_of(answers, type_index, body, told):
    b, start = module(type_index, body)
    it = answers.of(b)
    if it.verdict == 'ok':
        return 'ok'
    if it.verdict != 'refused' or it.offset is None:
        return None
    message = shown(it.message) if told is None else ' ' + told
    return ('refused %d%s' % (it.offset - start, message)).strip()


def main():
    for part in [numbers, wide, memories, discards, tables, variables, control, references, abstract_casts, continuation_branches, unreached, aggregates, proposals, legacy, scored]:
        part()
    answers = Answers()
    files, lacking = {}, []
    for name, cases in CASES.items():
        lines = []
        for it in cases:
            if isinstance(it, str):
                lines += ['# ' + line for line in it.split('\n')]
                continue
            title, features, ty, body, wanted, told = it
            wanted = wanted or wanted_of(answers, ty, body, told)
            if wanted is None:
                lacking.append(title)
                continue
            lines.append(' | '.join([title, features, str(ty), body.hex() or '-', wanted]))
        files['bodies/%s.rows' % name] = HEAD + '\n' + '\n'.join(lines) + '\n'
    return row_writer.main(files, lacking, sys.argv[1:])


if __name__ == '__main__':
    sys.exit(main())
