#!/usr/bin/env python3
"""constant_rows.py [--check]: writes crates/test_all/data/modules/constants.rows, modules whose sections hold constant expressions, or compares what it
makes with that file.

What the Rust crate answered for a module, all its features on, is in tools/crate_answers.txt, and is what a row wants, its texts put as
tools/body_rows.py puts them. A case whose module has no answer there names what it wants; so do refusals for want of a proposal, by the
rules of constant expressions and of segments (Core Specification 3.0, Validation, Modules, and Instructions, Constant Expressions), and
what the Rust crate's older version answers otherwise.
"""
import os, re, sys

sys.dont_write_bytecode = True
sys.path.insert(0, os.path.dirname(os.path.abspath(__file__)))
import row_writer
import wasm_assembler as W
from body_rows import shown
from crate_answers import Answers

CASES = []
# what stands before a module's globals: a function that is imported and two that are defined would need bodies, so all are imported
TYPES = ['func ->', 'func i32 -> i64', 'struct i32 mut:i64', 'array mut:i32', 'struct ?2', 'array !0']
FUNCTIONS = [('m', 'f', 'func', 0), ('m', 'g', 'func', 1)]
GLOBALS = [('m', 'h', 'global', 'i32'), ('m', 'i', 'global', 'mut:i32'), ('m', 'j', 'global', 'funcref'), ('m', 'k', 'global', 'i64')]
CONSTANT = 'constant expression required: non-constant operator'


def case(title, bytes, features='all', wanted=None, facts='', missing=None):
    """A module. `facts` are wanted where it is accepted, and the `missing` feature or `nothing` where it is refused."""
    CASES.append((title, features, bytes, wanted, facts, missing))


def heading(text):
    CASES.append(text)


def module(**parts):
    return W.build(types=TYPES, imports=FUNCTIONS + GLOBALS, **parts)


def at(bytes, id, ahead):
    """The offset of a section's content, and so many bytes more."""
    return [start for i, _, start, _ in W.sections(bytes) if i == id][0] + ahead


# ------------------------------------------------------------------------------------------------- globals
def initializer(title, ty, ops, features='all', wanted=None, more=()):
    case(title, module(globals=[(ty, ops)] + list(more)), features, wanted)


def without(feature, op, ty, before='', name=None):
    """The operator refused for want of a proposal, at its place behind those before it."""
    name = name or op.split()[0]
    bytes = W.build(types=TYPES[:1], globals=[(ty, '; '.join(x for x in (before, op) if x))])
    place = at(bytes, 6, 1 + len(W.global_type(ty)) + len(W.operators(before)))
    wanted = 'refused %d %s: %s; missing %s' % (place, CONSTANT, name, feature)
    case('a global by %s without %s' % (name, feature), bytes, 'all-' + feature, wanted)


OTHER = {'i32': 'i64', 'i64': 'f32', 'f32': 'f64', 'f64': 'i32', 'v128': 'i32'}


def numbers():
    heading('Globals by numbers')
    for ty in ['i32', 'i64', 'f32', 'f64']:
        initializer('a global by %s.const' % ty, ty, ty + '.const 1')
        initializer('a global of another type than %s' % ty, OTHER[ty], ty + '.const 1')
        initializer('a mutable global by %s.const' % ty, 'mut:' + ty, ty + '.const 1')
    initializer('a global by v128.const', 'v128', 'v128.const')
    initializer('a global of another type than v128', 'i32', 'v128.const')
    for ty in ['i32', 'i64']:
        push, wrong = ty + '.const 1', OTHER[ty] + '.const 1'
        for op in ['add', 'sub', 'mul']:
            name = '%s.%s' % (ty, op)
            initializer('a global by %s' % name, ty, '; '.join([push, push, name]))
            initializer('a global by %s with a first operand of another type' % name, ty, '; '.join([wrong, push, name]))
            initializer('a global by %s with a second operand of another type' % name, ty, '; '.join([push, wrong, name]))
            initializer('a global by %s with one operand' % name, ty, '; '.join([push, name]))
            initializer('a global of another type than %s gives' % name, OTHER[ty], '; '.join([push, push, name]))
            without('extended_const', name, ty, before='; '.join([push, push]))
    initializer('a global by a sum of sums', 'i32', 'i32.const 1; i32.const 2; i32.add; i32.const 3; i32.const 4; i32.mul; i32.sub')
    initializer('a global by nothing', 'i32', '')
    initializer('a global by two numbers', 'i32', 'i32.const 1; i32.const 2')
    initializer('a global by three numbers of which two are added', 'i32', 'i32.const 1; i32.const 2; i32.const 3; i32.add')


def with_globals(*items):
    def put(sections):
        for it in sections:
            if it[0] == 6:
                it[1] = W.listed(items)
    return put


def references():
    heading('Globals by references')
    for heap in ['func', 'extern', 'any', 'eq', 'i31', 'struct', 'array', 'none', 'nofunc', 'noextern', 'exn', 'noexn', '2']:
        initializer('a global by ref.null %s' % heap, '?' + heap, 'ref.null ' + heap)
        initializer('a global that may not be null by ref.null %s' % heap, '!' + heap, 'ref.null ' + heap)
    initializer('a global by ref.null of a subtype', 'anyref', 'ref.null none')
    initializer('a global by ref.null of a supertype', '?none', 'ref.null any')
    initializer('a global by ref.null of another hierarchy', 'externref', 'ref.null func')
    initializer('a global by ref.null of a type that is not there', 'anyref', 'ref.null 9')
    initializer('a global by ref.func', 'funcref', 'ref.func 0')
    initializer('a global of references to any function by ref.func', '!func', 'ref.func 1')
    initializer('a global of the type of the function by ref.func', '!0', 'ref.func 0')
    initializer('a global of the type of another function by ref.func', '!0', 'ref.func 1')
    initializer('a global by ref.func of a function that is not there', 'funcref', 'ref.func 2')
    initializer('a global of external references by ref.func', 'externref', 'ref.func 0')
    initializer('a number by ref.func', 'i32', 'ref.func 0')
    # the custom descriptors proposal: an import without `exact` may be of a subtype
    other = 'refused 32 type mismatch: expected (ref (exact (id 0))), found (ref (id 0))'
    for title, imported, wanted in [('a function', ('m', 'f', 'func', 0), other), ('a function that is imported as exact', b'\1m\1f\x20\0', 'ok')]:
        exact = W.build(types=TYPES[:1], imports=[imported], globals=[('i32', '')], post=with_globals(b'\x64\x62\0\0\xd2\0\x0b'))
        case('a global of an exact type by ref.func of %s' % title, exact, wanted=wanted)
    for op, ty, before in [('struct.new 2', '!2', 'i32.const 1; i64.const 2'), ('struct.new_default 2', '!2', ''), ('array.new 3', '!3', 'i32.const 1; i32.const 2'),
                           ('array.new_default 3', '!3', 'i32.const 2'), ('array.new_fixed 3 2', '!3', 'i32.const 1; i32.const 2'), ('ref.i31', '!i31', 'i32.const 1'),
                           ('extern.convert_any', 'externref', 'ref.null any'), ('any.convert_extern', 'anyref', 'ref.null extern')]:
        name = op.split()[0]
        ops = '; '.join(x for x in (before, op) if x)
        initializer('a global by %s' % name, ty, ops)
        initializer('a number by %s' % name, 'i32', ops)
        if before:
            initializer('a global by %s with no operands' % name, ty, op)
            initializer('a global by %s with an operand of another type' % name, ty, '; '.join([*before.split('; ')[:-1], 'f32.const 1', op]))
        if name not in ('extern.convert_any', 'any.convert_extern'):
            without('gc', ' '.join([name] + (['0'] if 'new' in name else []) + (['2'] if 'fixed' in name else [])), 'i32', before=before)
    without('gc', 'any.convert_extern', 'i32', before='ref.null extern')
    # no operand of these can be written without gc
    for name, op in [('extern.convert_any', 'extern.convert_any'), ('struct.new_desc', 'x:fb2000'), ('struct.new_default_desc', 'x:fb2100')]:
        without('gc', op, 'i32', name=name)
    without('shared_everything_threads', 'x:fe72', 'i32', before='i32.const 1', name='ref.i31_shared')
    initializer('a global by array.new_fixed of no items', '!3', 'array.new_fixed 3 0')
    initializer('a global by array.new_fixed with one operand of two', '!3', 'i32.const 1; array.new_fixed 3 2')
    initializer('a global by struct.new_default of a field without default', '!5', 'i32.const 1; array.new_default 5')
    initializer('a global by struct.new of a type that is no structure', '!3', 'struct.new 3')
    initializer('a global by array.new of a type that is no array', '!2', 'i32.const 1; i32.const 1; array.new 2')
    initializer('a global by struct.new of a structure in one', '!4', 'struct.new_default 2; struct.new 4')


# A structure with a descriptor, and that; and a structure without.
DESCRIBED = dict(types=[b'\x4e\x02\x4d\x01\x5f\x00\x4c\x00\x5f\x00'], ntypes=2)
PLAIN = dict(types=['struct'])


def descriptors():
    heading('Globals by structures with descriptors and without')
    for name, code in [('struct.new', 'fb00'), ('struct.new_default', 'fb01'), ('struct.new_desc', 'fb20'), ('struct.new_default_desc', 'fb21')]:
        for which, index, parts in [('a type with a descriptor', 0, DESCRIBED), ('a descriptor', 1, DESCRIBED), ('a type without a descriptor', 0, PLAIN)]:
            before = '' if 'desc' not in name else 'x:fb0101; ' if which == 'a type with a descriptor' else 'ref.null none; '
            bytes = W.build(globals=[('!struct', '%sx:%s%02x' % (before, code, index))], **parts)
            case('a global by %s of %s' % (name, which), bytes, 'default+custom_descriptors', missing='nothing')
        if 'desc' in name:
            bytes = W.build(globals=[('!struct', 'ref.null none; x:%s00' % code)], **PLAIN)
            wanted = 'refused %d custom descriptors support is not enabled; missing custom_descriptors' % at(bytes, 6, 1 + 3 + 2)
            case('a global by %s without custom_descriptors' % name, bytes, 'all-custom_descriptors', wanted)


def reads():
    heading('Globals by other globals')
    initializer('a global by an imported one', 'i32', 'global.get 0')
    initializer('a global by an imported one of another type', 'i64', 'global.get 0')
    initializer('a global by an imported one that is mutable', 'i32', 'global.get 1')
    initializer('a global by an imported reference', 'funcref', 'global.get 2')
    initializer('a global by itself', 'i32', 'global.get 4')
    initializer('a global by the one behind it', 'i32', 'global.get 5', more=[('i32', 'i32.const 1')])
    initializer('a global by one that is not there', 'i32', 'global.get 99')
    initializer('a sum of an imported global and a number', 'i32', 'global.get 0; i32.const 1; i32.add')
    initializer('a global by the one before it', 'i32', 'i32.const 1', more=[('i32', 'global.get 4')])
    initializer('a global by a mutable one before it', 'mut:i32', 'i32.const 1', more=[('i32', 'global.get 4')])
    initializer('a global by the one before it, of another type', 'i32', 'i32.const 1', more=[('i64', 'global.get 4')])
    case('a global by the one before it without gc', W.build(imports=GLOBALS, globals=[('i32', 'i32.const 1'), ('i32', 'global.get 4')]), 'all-gc-function_references-stack_switching-custom_descriptors',
         'refused %d constant expression required: global.get of locally defined global' % (at(W.build(imports=GLOBALS, globals=[('i32', 'i32.const 1'), ('i32', 'global.get 4')]), 6, 1 + 5 + 2)))
    case('a global by an imported one without gc', W.build(imports=GLOBALS, globals=[('i32', 'global.get 0')]), 'all-gc', 'ok')


def others():
    heading('Operators that are never constant')
    for op, before, ty in [('nop', '', 'i32'), ('unreachable', '', 'i32'), ('i32.eqz', 'i32.const 1', 'i32'), ('i32.div_s', 'i32.const 1; i32.const 1', 'i32'),
                           ('i64.and', 'i64.const 1; i64.const 1', 'i64'), ('f32.add', 'f32.const 1; f32.const 1', 'f32'), ('f64.neg', 'f64.const 1', 'f64'),
                           ('i32.wrap_i64', 'i64.const 1', 'i32'), ('drop', 'i32.const 1', 'i32'), ('local.get 0', '', 'i32'), ('call 0', '', 'i32'), ('return', '', 'i32'),
                           ('br 0', '', 'i32'), ('memory.size', '', 'i32'), ('i32.load', 'i32.const 1', 'i32'), ('table.size 0', '', 'i32'), ('global.set 1', 'i32.const 1', 'i32'),
                           ('ref.is_null', 'ref.null func', 'i32'), ('ref.as_non_null', 'ref.null func', '!func'), ('ref.eq', 'ref.null eq; ref.null eq', 'i32'),
                           ('i31.get_s', 'ref.null i31', 'i32'), ('array.len', 'ref.null array', 'i32'), ('struct.get 2 0', 'ref.null 2', 'i32'),
                           ('array.get 3', 'ref.null 3; i32.const 0', 'i32'), ('ref.cast_null 2', 'ref.null any', '?2'), ('ref.test_null 2', 'ref.null any', 'i32'),
                           ('i32.extend8_s', 'i32.const 1', 'i32'), ('i32.trunc_sat_f32_s', 'f32.const 1', 'i32'), ('select', 'i32.const 1; i32.const 1; i32.const 1', 'i32')]:
        bytes = module(globals=[(ty, '; '.join(x for x in (before, op) if x))])
        place = at(bytes, 6, 1 + len(W.global_type(ty)) + len(W.operators(before)))
        case('a global by %s' % op.split()[0], bytes, 'all', 'refused %d %s; missing nothing' % (place, CONSTANT))
    bytes = module(globals=[('i32', 'block =i32; i32.const 1; end')])
    case('a global by block', bytes, 'all', 'refused %d %s; missing nothing' % (at(bytes, 6, 3), CONSTANT))


def raw(id, content):
    return W.build(types=TYPES, imports=FUNCTIONS + GLOBALS) + bytes([id]) + W.unsigned(len(content)) + content


def ends():
    heading('Ends of expressions')
    case('an initializer without its end', raw(6, bytes.fromhex('017f004101')))
    case('an initializer with two ends', raw(6, bytes.fromhex('017f0041010b0b')))
    case('a byte behind the last initializer', raw(6, bytes.fromhex('017f0041010b00')))
    case('an initializer that is cut off in an operator', raw(6, bytes.fromhex('017f0041')), wanted='refused')
    case('an initializer of an unknown operator', raw(6, bytes.fromhex('017f00ff0b')), wanted='refused')
    case('two globals of which one is there', raw(6, bytes.fromhex('027f0041010b')))
    case('no globals', raw(6, bytes.fromhex('00')), facts='globals i32, (mut i32), funcref, i64')
    case('a global of no value type', raw(6, bytes.fromhex('01010041010b')), wanted='refused')
    case('a global of a wrong mutability', raw(6, bytes.fromhex('017f0441010b')), wanted='refused')
    case('globals behind imported ones', module(globals=[('mut:f32', 'f32.const 1'), ('?2', 'ref.null 2')]), facts='globals i32, (mut i32), funcref, i64, (mut f32), (ref null (id 2))')


# ------------------------------------------------------------------------------------------------- tables
def tables():
    heading('Tables with initializers')
    for title, ty, ops in [('null', 'funcref', 'ref.null func'), ('a function', 'funcref', 'ref.func 0'), ('a function, never null', '!func', 'ref.func 0'),
                           ('null, never null', '!func', 'ref.null func'),
                           ('a function, of external references', 'externref', 'ref.func 0'), ('a structure', '?2', 'struct.new_default 2'), ('a structure, never null', '!2', 'struct.new_default 2'),
                           ('a type of its own', '!0', 'ref.func 0'), ('another type than its own', '!1', 'ref.func 0'),
                           ('a number', 'funcref', 'i32.const 1'), ('nothing', 'funcref', '')]:
        case('a table whose entries begin with %s' % title, module(tables=[(ty + ' 1 2', ops)]))
    case('a table of 64-bit addresses whose entries begin with null', module(tables=[('funcref i64 1', 'ref.null func')]), facts='tables i64 1 funcref')
    # what tables see of globals: the imported ones
    begins = at(module(tables=[('funcref 1', 'global.get 2')]), 4, 3 + len(W.table_type('funcref 1')))
    case('a table whose entries begin with an imported global', module(tables=[('funcref 1', 'global.get 2')]), wanted='ok')
    case('a table whose entries begin with an imported number', module(tables=[('funcref 1', 'global.get 0')]), wanted='refused %d type mismatch: expected funcref, found i32' % (begins + 2))
    case('a table whose entries begin with an imported mutable global', module(tables=[('funcref 1', 'global.get 1')]),
         wanted='refused %d constant expression required: global.get of mutable global' % begins)
    case('a table whose entries begin with a global that is not there', module(tables=[('funcref 1', 'global.get 9')]), wanted='refused %d unknown global 9: global index out of bounds' % begins)
    case('a table whose entries begin with a global that is defined', module(tables=[('funcref 1', 'global.get 4')], globals=[('funcref', 'ref.null func')]),
         wanted='refused %d unknown global 4: global index out of bounds' % begins)
    case('tables with and without initializers', module(tables=['funcref 1', ('!func 2', 'ref.func 1'), 'externref 3']), facts='tables 1 funcref, 2 (ref func), 3 externref')
    case('a table with an initializer without function_references', W.build(tables=[('funcref 1', 'ref.null func')]), 'all-function_references',
         'refused %d tables with expression initializers require the function-references proposal; missing function_references' % at(W.build(tables=[('funcref 1', 'ref.null func')]), 4, 1))
    case('a table that may not be null, without an initializer', module(tables=['!func 1']))


# ------------------------------------------------------------------------------------------------- element segments
def element(title, e, tables=('funcref 10',), features='all', wanted=None, facts='', **more):
    case(title, module(tables=list(tables), elems=[e], **more), features, wanted, facts)


def elements():
    heading('Element segments')
    # the place of a type that is not there is the type's
    for mode, words in [('active', {}), ('active', {'table': 0}), ('passive', {}), ('declared', {})]:
        named = {'active': 'an active list' + (' for a table by its index' if words else ''), 'passive': 'a passive list', 'declared': 'a declared list'}[mode]
        element('%s of functions' % named, dict(mode=mode, funcs=[0, 1], **words), facts='elements (ref func)')
        element('%s of no functions' % named, dict(mode=mode, funcs=[], **words), facts='elements (ref func)')
        element('%s of a function that is not there' % named, dict(mode=mode, funcs=[0, 2], **words))
        element('%s of expressions' % named, dict(mode=mode, type=None if mode == 'active' and not words else 'funcref', exprs=['ref.func 0', 'ref.null func'], **words), facts='elements funcref')
        element('%s of an expression of another type' % named, dict(mode=mode, type=None if mode == 'active' and not words else 'funcref', exprs=['ref.func 0', 'ref.null extern'], **words))
        if mode != 'active' or words:
            element('%s of expressions that are never null' % named, dict(mode=mode, type='!func', exprs=['ref.func 0'], **words), facts='elements (ref func)')
            element('%s of an expression that may be null and must not' % named, dict(mode=mode, type='!func', exprs=['ref.null func'], **words))
            element('%s of expressions of a type by its index' % named, dict(mode=mode, type='!0', exprs=['ref.func 0'], **words), facts='elements (ref (id 0))')
            element('%s of expressions of a type that is not there' % named, dict(mode=mode, type='!9', exprs=[], **words), wanted='refused; missing nothing')
    element('an active list for a table that is not there', dict(funcs=[0]), tables=())
    element('an active list for a second table', dict(table=1, funcs=[0]), tables=('externref 1', 'funcref 1'), facts='elements (ref func)')
    element('an active list for a second table that is not there', dict(table=1, funcs=[0]))
    element('an active list of functions for a table of external references', dict(funcs=[0]), tables=('externref 1',))
    element('an active list for a table of a supertype', dict(table=0, type='!0', exprs=['ref.func 0']), facts='elements (ref (id 0))')
    element('an active list for a table of a subtype', dict(table=0, type='funcref', exprs=['ref.func 0']), tables=('?0 1',))
    element('an active list that may be null for a table that may not', dict(table=0, type='funcref', exprs=['ref.func 0']), tables=(('!func 1', 'ref.func 0'),))
    element('an active list of functions for a table that may not be null', dict(funcs=[0]), tables=(('!func 1', 'ref.func 0'),), facts='elements (ref func)')
    element('an offset of 64 bits', dict(off='i64.const 0', funcs=[0]))
    element('an offset of 32 bits for a table of 64-bit addresses', dict(off='i32.const 0', funcs=[0]), tables=('funcref i64 1',))
    element('an offset of 64 bits for a table of 64-bit addresses', dict(off='i64.const 0', funcs=[0]), tables=('funcref i64 1',))
    element('an offset by an imported global', dict(off='global.get 0', funcs=[0]))
    element('an offset by an imported global of another type', dict(off='global.get 3', funcs=[0]))
    element('an offset by a mutable global', dict(off='global.get 1', funcs=[0]))
    element('an offset by a global that is defined', dict(off='global.get 4', funcs=[0]), globals=[('i32', 'i32.const 1')])
    element('an item by a global that is defined', dict(mode='passive', type='funcref', exprs=['global.get 4']), globals=[('funcref', 'ref.func 0')], facts='elements funcref')
    element('an offset by nothing', dict(off='', funcs=[0]))
    element('an offset by two numbers', dict(off='i32.const 0; i32.const 0', funcs=[0]))
    element('an offset by an operator that is never constant', dict(off='i32.const 0; i32.eqz', funcs=[0]))
    for flag in [8, 9, 0x7f]:
        element('an element segment with the flag %d' % flag, bytes([flag]) + b'\x00\x00', wanted='refused')
    element('items of another kind than functions', b'\x01\x01\x00', wanted='refused')
    element('an item list that is cut off', b'\x01\x00\x02\x00', wanted='refused')
    case('three segments', module(tables=['funcref 1'], elems=[dict(mode='passive', funcs=[0]), dict(mode='declared', type='externref', exprs=[]), dict(funcs=[1])]),
         facts='elements (ref func), externref, (ref func)')
    plain = dict(imports=[('m', 'f', 'func', '->')], tables=['funcref 1'])
    for mode in ['passive', 'declared']:
        b = W.build(elems=[dict(mode=mode, funcs=[0])], **plain)
        # behind the segment's flag
        case('a %s list without bulk_memory' % mode, b, 'all-bulk_memory', 'refused %d bulk memory must be enabled; missing bulk_memory' % at(b, 9, 2))
    b = W.build(imports=[('m', 'f', 'func', '->')], elems=[b'\x05\x70\x00'])
    case('a list of expressions without reference_types', b, 'all-reference_types', 'refused; missing reference_types')
    case('an active list of functions without reference_types', W.build(elems=[dict(funcs=[0])], **plain), 'all-reference_types', 'ok')


# ------------------------------------------------------------------------------------------------- data
def stored(title, d, mems=('1',), features='all', wanted=None, **more):
    case(title, module(mems=list(mems), datas=[d], **more), features, wanted)


def data():
    heading('Data segments')
    stored('active data', dict(bytes=b'abc'))
    stored('active data of no bytes', dict(bytes=b''))
    stored('active data for a memory by its index', dict(mem=0))
    stored('active data for a second memory', dict(mem=1), mems=('1', '1'))
    stored('active data for a memory that is not there', dict(), mems=())
    stored('active data for a second memory that is not there', dict(mem=1))
    stored('passive data', dict(mode='passive'))
    stored('passive data without a memory', dict(mode='passive'), mems=())
    stored('data at an offset of 64 bits', dict(off='i64.const 0'))
    stored('data at an offset of 32 bits in a memory of 64-bit addresses', dict(off='i32.const 0'), mems=('i64 1',))
    stored('data at an offset of 64 bits in a memory of 64-bit addresses', dict(off='i64.const 0'), mems=('i64 1',))
    stored('data at an offset by an imported global', dict(off='global.get 0'))
    stored('data at an offset by a global that is defined', dict(off='global.get 4'), globals=[('i32', 'i32.const 1')])
    stored('data at an offset by a mutable global', dict(off='global.get 1'))
    stored('data at an offset by a sum', dict(off='global.get 0; i32.const 1; i32.add'))
    # each function counts as referenced in a constant expression
    stored('data at an offset by a function', dict(off='ref.func 0'), wanted='refused')
    stored('data at an offset by a function behind a number', dict(off='i32.const 0; ref.func 0'), wanted='refused')
    stored('data at an offset by nothing', dict(off=''))
    for flag in [3, 4, 0x7f]:
        stored('data with the flag %d' % flag, bytes([flag]) + b'\x41\x00\x0b\x00', wanted='refused')
    stored('data that are cut off', b'\x01\x05ab', wanted='refused')
    b = W.build(datas=[dict(mode='passive')])
    case('passive data without bulk_memory', b, 'all-bulk_memory',
         'refused %d passive data segments require the bulk-memory proposal; missing bulk_memory' % at(b, 11, 2))
    case('as many data as are counted', W.build(datacount=2, datas=[dict(mode='passive')] * 2))
    case('fewer data than are counted', W.build(datacount=2, datas=[dict(mode='passive')]), wanted='refused')
    case('more data than are counted', W.build(datacount=1, datas=[dict(mode='passive')] * 2), wanted='refused')
    case('counted data that are missing', W.build(datacount=1), wanted='refused')


# Texts of the Rust crate that ours say more shortly
SHORTER = [(r'(constant expression required: non-constant operator): visit_.*', r'\1'), (r'(type mismatch: invalid element type) .*', r'\1')]


def behind_index(b, flag):
    """Behind the flag of the segment that is here, and behind the index of its table or memory, where one is written."""
    return flag + (2 if b[flag] & 2 and not b[flag] & 1 else 1)


def items_of(b, flag):
    """Where the items begin of the element segment whose flag is here: behind its table, its offset, and their kind or type."""
    at = behind_index(b, flag)
    if not b[flag] & 1:
        at = b.index(0x0b, at) + 1
    if b[flag] not in (0, 4):
        at += 2 if b[at] in (0x63, 0x64) else 1
    return at


# What a segment as a whole is refused for, which the Rust crate tells at the segment's first byte, and where ours tells it.
OWN_PLACES = [(r'unknown (table|memory) \d+:', behind_index), (r'type mismatch: invalid element type', items_of)]


def wanted_of(answers, b):
    it = answers.of(b)
    if it.verdict == 'ok':
        return 'ok'
    if it.verdict != 'refused' or it.offset is None:
        return None
    message, place = it.message, it.offset
    for pattern, text in SHORTER:
        message = re.sub('^' + pattern + '$', text, message)
    message = shown(message)
    for pattern, own in OWN_PLACES:
        if re.match(' ' + pattern, message):
            return 'refused %d%s; missing nothing' % (own(b, place), message)
    return 'refused %d%s' % (place, message) if message else 'refused'


def main():
    for part in [numbers, references, descriptors, reads, others, ends, tables, elements, data]:
        part()
    lines = row_writer.head_of_modules() + ['#', '# Written by tools/constant_rows.py, which says where the wanted answers come from.']
    answers, lacking = Answers(), []
    for c in CASES:
        if isinstance(c, str):
            lines += ['', '# ' + c]
            continue
        title, features, b, wanted, facts, missing = c
        wanted = wanted or wanted_of(answers, b)
        if wanted is None:
            lacking.append(title)
            continue
        if facts and wanted == 'ok':
            wanted = 'ok; ' + facts
        if missing and wanted != 'ok':
            wanted += '; missing ' + missing
        lines.append(' | '.join([title, features, 'H ' + b[8:].hex(), wanted]))
    return row_writer.main({'modules/constants.rows': '\n'.join(lines) + '\n'}, lacking, sys.argv[1:])


if __name__ == '__main__':
    sys.exit(main())
