#!/usr/bin/env python3
"""list_rows.py [--check]: writes crates/test_all/data/modules/lists.rows, operators on lists of operands, or compares what it makes with that file.

Each operator that takes or gives the types of a label, a block, a function or a tag is put behind operands that are these types, that differ from them at
one end, that are of a subtype at one end, that are one too few or one too many, and that stand outside of the frame; and in code that isn't reached
behind some of them or none. The wanted answer is that of the Rust crate, as tools/crate_answers.txt has it, its texts put as
tools/module_body_rows.py puts them.
"""
import os
import sys

sys.dont_write_bytecode = True
sys.path.insert(0, os.path.dirname(os.path.abspath(__file__)))
import module_body_rows as M
import row_writer
import wasm_assembler as W
from crate_answers import Answers

# A short list of types, and one of types of every kind; both ends are references, so that a subtype may stand there.
LISTS = [['?any', '?any'], ['?any'] + ['i32', 'i64', 'f32', 'f64'] * 2 + ['?any']]
VALUES = {'?any': 'ref.null any', '?none': 'ref.null none', 'i32': 'i32.const 0', 'i64': 'i64.const 0', 'f32': 'f32.const 0',
          'f64': 'f64.const 0', 'v128': 'v128.const'}
ANOTHER, LOWER = 'i64', '?none'
# Lists of these kinds, some about as long as those that are compared many places at a time.
KINDS = ['i32', 'i64', 'f32', 'f64', 'v128']
LENGTHS = [1, 7, 8, 9, 15, 16, 17, 20]

# Operators on the types L, as `before; OP` with V for the operands, D for what drops as many. The types: 1 gives L, 2 takes L, 3 takes and
# gives L, 4 gives L and a reference that isn't null, 5 gives L and a reference.
OPERATORS = {
    'br': 'block @1; V; br 0; end; D',
    'br_if': 'block @1; V; i32.const 0; br_if 0; end; D',
    'br_if twice': 'block @1; V; i32.const 0; br_if 0; i32.const 0; br_if 0; end; D',
    'br_table': 'block @1; block @1; V; i32.const 0; br_table 0 1 1 0; end; br 0; end; D',
    'return in a block': 'block @1; V; return; end',
    'end of a block': 'block @1; V; end; D',
    'end of a loop': 'loop @1; V; end; D',
    'end of an if': 'i32.const 0; if @1; V; else; unreachable; end; D',
    'else': 'i32.const 0; if @1; V; else; V; end; D',
    'block': 'V; block @3; end; D',
    'loop': 'V; loop @3; br 0; end; D',
    'if': 'V; i32.const 0; if @3; end; D',
    'try_table': 'V; try_table @3 []; end; D',
    'block in a block': 'V; block @3; block @3; end; end; D',
    'call': 'V; call 1',
    'call of what gives the same': 'V; call 2; call 2; D',
    'call_indirect': 'V; i32.const 0; call_indirect 2 0',
    'call_ref': 'V; ref.null 2; call_ref 2',
    'throw': 'V; throw 0',
    'br_on_null': 'block @1; V; ref.null any; br_on_null 0; drop; end; D',
    'br_on_non_null': 'block @4; V; ref.null any; br_on_non_null 0; unreachable; end; drop; D',
    'br_on_cast': 'block @5; V; ref.null any; br_on_cast 0 ?any ?none; unreachable; end; drop; D',
    'br_on_cast_fail': 'block @5; V; ref.null any; br_on_cast_fail 0 ?any !none; unreachable; end; drop; D',
}
# Those whose function gives L, and those that take L out of a frame of their own.
GIVING = {'return': 'V; return', 'end of a function': 'V', 'return_call': 'V; return_call 2'}
INSIDE = {
    'br_if': 'V; block; i32.const 0; br_if 1; end; D', 'block': 'V; block; block @2; D; end; end; D', 'loop': 'V; block; loop @2; D; end; end; D',
    'call': 'V; block; call 1; end; D', 'end of a block': 'V; block @1; end; D; D', 'br_on_null': 'V; block; ref.null any; br_on_null 1; drop; end; D',
    'throw': 'V; block; throw 0; end; D', 'return': 'V; block; return; end; D',
}


def sorts(types):
    """Operands in the place of these types: what they are, and their types."""
    yield 'the types', types
    yield 'another type first', [ANOTHER] + types[1:]
    yield 'another type last', types[:-1] + [ANOTHER]
    yield 'a subtype first', [LOWER] + types[1:]
    yield 'a subtype last', types[:-1] + [LOWER]
    yield 'one too few', types[1:]
    yield 'one too many', ['i32'] + types


def operands(types):
    return '; '.join(VALUES[t] for t in types) or 'nop'


def module(types, ops, given, ty=0, sent=None):
    """A module with these types as L, whose last function has this code."""
    text = ' '.join(types)
    listed = ['func ->', 'func -> ' + text, 'func %s ->' % text, 'func %s -> %s' % (text, text), 'func -> %s !any' % text, 'func -> %s ?any' % text,
              'func %s ->' % ' '.join(sent or types)]
    ops = '; '.join({'V': operands(given), 'D': '; '.join(['drop'] * len(types))}.get(op.strip(), op) for op in ops.split(';'))
    return W.build(types=listed, funcs=[(0, '', ''), (2, '', 'unreachable'), (3, '', 'unreachable'), (ty, '', ops)], tables=['funcref 1'], tags=[2, 6])


def put(name, count, *args, **more):
    M.case('%s, %d of them' % (name, count), module(*args, **more), 'all', beyond=True)


def reached():
    M.heading('Operators behind operands that are the types of a list, or others')
    for types in LISTS:
        for name, ops in list(OPERATORS.items()) + list(GIVING.items()):
            for sort, given in sorts(types):
                put('%s behind %s' % (name, sort), len(types), types, ops, given, ty=1 if name in GIVING or name.startswith('return') else 0)


def outside():
    M.heading('Operators in a frame outside of which the operands stand')
    for types in LISTS:
        for name, ops in INSIDE.items():
            put('%s in a frame outside of which the types stand' % name, len(types), types, ops, types, ty=1 if name in ('br_if', 'return') else 0)


def unreached():
    M.heading('The same in code that is not reached, behind some of the operands or none')
    for types in LISTS:
        some = [('none of the types', []), ('the last of the types', types[-1:]), ('all but the first of the types', types[1:]), ('the types', types),
                ('a subtype as the last', [LOWER]), ('another type as the last', [ANOTHER]), ('one too many', ['i32'] + types)]
        for name, ops in list(OPERATORS.items()) + list(GIVING.items()):
            for sort, given in some:
                put('unreached %s behind %s' % (name, sort), len(types), types, ops.replace('V', 'unreachable; V', 1), given,
                    ty=1 if name in GIVING or name.startswith('return') else 0)


def given_again():
    M.heading('What a branch that is not taken leaves are the types of its label, also where subtypes stood there')
    for types in LISTS:
        lower = [LOWER] + types[1:]
        for name, given in [('the types', types), ('a subtype', lower)]:
            for op in ['i32.const 0; br_if 0', 'ref.null any; br_on_null 0; drop']:
                ops = 'block @1; V; %s; block @6; unreachable; end; unreachable; end; D' % op
                put('a block that takes a subtype behind %s, behind %s' % (op.replace(';', ','), name), len(types), types, ops, given, sent=lower)


def caught():
    M.heading('Catch clauses that send the types of a label, or others')
    for types in LISTS:
        for sort, sent in sorts(types):
            put('catch that sends %s' % sort, len(types), types, 'block @1; try_table _ [catch:1:0]; end; unreachable; end; D', types, sent=sent)


def kinds(count):
    """So many types, of each kind in turn."""
    return [KINDS[i % len(KINDS)] for i in range(count)]


def with_another(types, place):
    """The types with another one in one place; in twenty places each kind stands for each other one."""
    return types[:place] + [KINDS[(place + 1 + place // len(KINDS)) % len(KINDS)]] + types[place + 1:]


def put_in_turn(name, *modules):
    M.row(name, *[M.Part(it, beyond=True) for it in modules], features='all')


# Operators that look at operands as at a list, with those that do it in code that isn't reached.
LOOKING = {
    'br': 'block @1; V; br 0; end; D', 'end of a block': 'block @1; V; end; D', 'call': 'V; call 1', 'return': 'V; return',
    'block': 'V; block @3; end; D',
}


def long_lists():
    M.heading('Long lists of numbers and vectors, and what is another one in each of their places')
    for name, ops in LOOKING.items():
        ty = 1 if name == 'return' else 0
        put_in_turn('%s behind as many values as it takes' % name, *[module(kinds(n), ops, kinds(n), ty) for n in LENGTHS])
        put_in_turn('%s behind a value less' % name, *[module(kinds(n), ops, kinds(n)[1:], ty) for n in LENGTHS])
        types = kinds(20)
        put_in_turn('%s behind twenty values, another one in each place in turn' % name,
                    *[module(types, ops, with_another(types, place), ty) for place in range(20)])
        put_in_turn('%s behind values of which none is as it takes them' % name, *[module(kinds(n), ops, kinds(n + 1)[1:], ty) for n in LENGTHS])


def long_lists_of_references():
    M.heading('The same with references among the values')
    for types in (['?any'] * 9, ['?any'] + kinds(9)):
        for name, ops in LOOKING.items():
            ty, last = 1 if name == 'return' else 0, len(types) - 1
            made = [types, [LOWER] + types[1:], ['v128'] + types[1:], ['i32'] + types[1:], types[:last] + [LOWER], types[:last] + ['i64']]
            put_in_turn('%s behind references and what is none' % name, *[module(types, ops, it, ty) for it in made])
            put_in_turn('unreached %s behind one more than it takes, references and what is none' % name,
                        *[module(types, ops.replace('V', 'unreachable; V', 1), ['i32'] + it, ty) for it in made])


def long_lists_unreached():
    M.heading('The same in code that is not reached')
    types = kinds(20)
    for name, ops in LOOKING.items():
        ty, unreached = 1 if name == 'return' else 0, ops.replace('V', 'unreachable; V', 1)
        put_in_turn('unreached %s behind some of the values that it takes, and one more' % name,
                    *[module(types, unreached, given, ty) for given in [types[20 - n:] for n in LENGTHS] + [['i32'] + types]])
        put_in_turn('unreached %s behind some values, another one in each place in turn' % name,
                    *[module(types, unreached, with_another(types, place)[max(0, place - place % 3):], ty) for place in range(20)])
        put_in_turn('unreached %s behind the first of the values that it takes' % name, *[module(types, unreached, types[:n], ty) for n in LENGTHS[:-1]])
        put_in_turn('unreached %s behind one more, another one in a place' % name,
                    *[module(types, unreached, ['i32'] + with_another(types, place), ty) for place in (0, 7, 8, 16, 19)])


def given(taken, gives, others, before, after):
    """A module whose second function takes and gives these types, whose third one takes the given ones, and whose fourth the others."""
    listed = ['func ->', 'func %s -> %s' % (' '.join(taken), ' '.join(gives)), 'func %s ->' % ' '.join(gives), 'func %s ->' % ' '.join(others)]
    functions = [(0, '', ''), (1, '', 'unreachable'), (2, '', ''), (3, '', '')]
    return W.build(types=listed, funcs=functions + [(0, '', '; '.join([before, 'call 1', after]))])


def long_lists_given():
    M.heading('What stands in the places of operands that were there before, or that are there still')
    types = kinds(20)
    for n in (1, 8, 9, 17):
        for name, taken in [('as many values', n), ('no value', 0), ('one value less', n - 1), ('one value more', n + 1)][:4 if n > 1 else 2]:
            before = [with_another(types[:n], place) + ['i64'] * (taken > n) for place in range(max(0, n - 9), n)]
            made = [given(it[:taken], types[:n], it[:n], operands(it) + '; drop' * max(0, n - taken), 'call %d' % k) for it in before for k in (2, 3)]
            put_in_turn('a call that takes %s and gives %d, where others stood' % (name, n), *made)


def main():
    M.CASES.clear()
    for part in [reached, outside, unreached, given_again, caught, long_lists, long_lists_of_references, long_lists_unreached, long_lists_given]:
        part()
    lines = row_writer.head_of_modules() + ['#', '# Written by tools/list_rows.py, which says where the wanted answers come from.']
    answers, lacking = Answers(), []
    for c in M.CASES:
        if isinstance(c, str):
            lines += ['', '# ' + c]
            continue
        title, features, parts = c
        shown = [M.shown_part(answers, title, p) for p in parts]
        if None in shown:
            lacking.append(title)
            continue
        lines.append(' | '.join([title, features] + shown))
    return row_writer.main({'modules/lists.rows': '\n'.join(lines) + '\n'}, lacking, sys.argv[1:])


if __name__ == '__main__':
    sys.exit(main())
