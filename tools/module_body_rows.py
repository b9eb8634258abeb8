#!/usr/bin/env python3
"""module_body_rows.py [--check]: writes crates/test_all/data/modules/bodies.rows, whole modules whose functions have bodies, or compares what it makes
with that file.

What the Rust crate answered for a module, all its features on, is in tools/crate_answers.txt. Where a case doesn't name what it wants, that
is this answer, its texts put as tools/body_rows.py puts them; a case whose module has no answer there has to name what it wants. Where a
case names what it wants, that follows from a rule (Core Specification 3.0, Validation, Instructions and Modules): a refusal of an operator
stands at the operator's first byte. It is compared with the crate's answer all the same, where there is one, and this program says where
the crate's verdict is another one than the row's. `own` marks the cases where ours is meant to be another one: operators that are left out,
and limits.

tools/programs has the sources of small programs, each with the command that compiled it, and the bytes that clang 14 made of it.

A refusal of a body leaves the validator where it may be reset, and one of a section doesn't: so a body that is refused without a text
wants `can_reset true`.
"""
import os, re, sys

sys.dont_write_bytecode = True
HERE = os.path.dirname(os.path.abspath(__file__))
sys.path.insert(0, HERE)
import row_writer
import wasm_assembler as W
import body_rows as B
from crate_answers import Answers

PROGRAMS = os.path.join(HERE, 'programs')
CASES = []          # a heading, or (name, features, [Part])
HEADER = 'H '
IN_BODY = 'can_reset true'
NAMES = {'i': 'i32', 'l': 'i64', 'f': 'f32', 'd': 'f64'}
NUMBERS = ['i32', 'i64', 'f32', 'f64']


class Part:
    """A module, what is wanted of it (nothing where the Rust crate is asked), facts behind that, and whether ours is another one."""

    def __init__(self, bytes, wanted=None, facts='', own=False, told=None, ids=(), plain=False, beyond=False):
        self.bytes, self.wanted, self.facts, self.own, self.told, self.ids = bytes, wanted, facts, own, told, ids
        # whether the text stands only where it is of numbers or of few rules
        self.plain, self.beyond = plain, beyond


def heading(text):
    CASES.append(text)


def row(title, *parts, features='default'):
    CASES.append((title, features, list(parts)))


def case(title, bytes, features='default', **more):
    row(title, Part(bytes, **more), features=features)


def body_start(b, k=0):
    """Where body k begins: behind its size."""
    return W.bodies(b)[k][1]


def function(ops, locals='', ty='->', **parts):
    """A module with one function, of a type that is written or of one by its index."""
    return W.build(funcs=[(ty, locals, ops)], **parts)


def refusal(bytes, before, message, locals='', k=0):
    """The refusal of the operator behind those before it, in body k."""
    return 'refused %d %s' % (body_start(bytes, k) + len(B.declared(locals)) + len(W.operators(before)), message)


def valid(title, ops, locals='', ty='->', features='default', facts='', **parts):
    """A function that is accepted."""
    case(title, function(ops, locals, ty, **parts), features, wanted='ok', facts=facts)


def asked(title, ops, locals='', ty='->', features='default', told=None, ids=(), own=False, wanted=None, facts='', **parts):
    """A function of which the Rust crate says whether it is accepted."""
    case(title, function(ops, locals, ty, **parts), features, told=told, ids=ids, own=own, wanted=wanted, facts=facts)


def lacking(title, feature, message, before, op, after='', locals='', ty='->', features=None, **parts):
    """An operator refused for want of a proposal."""
    bytes = function('; '.join(x for x in (before, op, after) if x), locals, ty, **parts)
    case(title, bytes, features or 'default-' + feature, wanted='%s; missing %s' % (refusal(bytes, before, message, locals), feature), own=True)


# ------------------------------------------------------------------------------------------------- texts
# What the Rust crate says of operands in code that isn't reached, where ours tells the rule alone.
BOTTOM = r'type mismatch: expected .*, found (heap type|bot|bottom)( type)?'


PLAIN = (r'type mismatch: expected [ifv]\d+(, found [ifv]\d+| but nothing on stack)'
         '|type mismatch: (expected a type but nothing on stack|values remaining on stack at end of block)')
BEYOND = ('|invalid exception type: non-empty tag result type|shared functions cannot access what is not shared'
          r'|type with descriptor requires descriptor allocation: .*|invalid `struct\.new(_default)?_desc`: type \d+ is not described'
          r'|expected (func|struct|array) type at index \d+|unknown type \d+: type index out of bounds')


def text_of(message, ids):
    """The message of a row, or nothing where any will do. `ids` are the types by number that the Rust crate names by `$type` alone."""
    if re.fullmatch(BOTTOM, message) or message.startswith('illegal opcode') or message.startswith('invalid leading byte'):
        return ''
    if '$type' in message and ids:
        message = message.replace('(exact $type)', '$type')
        if message.count('$type') == len(ids):
            for i in ids:
                message = message.replace('$type', f'(id {i})', 1)
            return message
    return B.shown(message).strip()


def wanted_of(answer, part):
    if answer.verdict != 'refused':
        return 'ok' if answer.verdict == 'ok' else None
    text = part.told if part.told is not None else text_of(answer.message or '', part.ids)
    if part.beyond:
        text = re.sub('^shared functions cannot access .*', 'shared functions cannot access what is not shared', text)
    if (part.plain or part.beyond) and not re.fullmatch(PLAIN + BEYOND * part.beyond, text):
        text = ''
    if answer.offset is None or not text:
        return 'refused; ' + IN_BODY if is_in_body(part.bytes, answer.offset) else 'refused'
    return 'refused %d %s' % (answer.offset, text)


def is_in_body(b, offset):
    """Whether a refusal at this offset is that of a body, in a module whose framing is right."""
    try:
        ends = [end for i, _, _, end in W.sections(b) if i == 10]
        found = W.bodies(b)
        return offset is not None and found[-1][2] == ends[0] and any(start <= offset <= end for _, start, end, _ in found)
    except (W.Bad, IndexError):
        return False


def complaint(answer, part):
    """Where the Rust crate decides otherwise, or tells of another place."""
    if part.own or answer.verdict == 'none':
        return ''
    if part.wanted.startswith('ok') != (answer.verdict == 'ok'):
        return 'the Rust crate says %s %s' % (answer.verdict, answer.message)
    place = re.match(r'refused (\d+) ', part.wanted)
    if place and answer.offset != int(place.group(1)):
        return 'the Rust crate refuses at %r: %s' % (answer.offset, answer.message)
    return ''


# ------------------------------------------------------------------------------------------------- writing
REPEATED = re.compile(rb'(.{1,6}?)\1{3,}', re.S)


def hexadecimal(b):
    """Hexadecimal digits, with what is repeated written once."""
    out, start = [], 0
    for match in REPEATED.finditer(b):
        piece = match.group(1)
        if len(match.group()) >= 24:
            out += [b[start:match.start()].hex()] if match.start() > start else []
            out.append('(%s)*%d' % (piece.hex(), len(match.group()) // len(piece)))
            start = match.end()
    out += [b[start:].hex()] if start < len(b) else []
    return ' '.join(out)


def shown_bytes(b):
    if b[:8] == b'\0asm\1\0\0\0':
        return ('H ' + hexadecimal(b[8:])).strip()
    return hexadecimal(b) or '-'


def shown_part(answers, title, part):
    answer = answers.of(part.bytes)
    wanted = part.wanted
    if wanted is None:
        wanted = wanted_of(answer, part)
        if wanted is None:
            return None
    else:
        said = complaint(answer, part)
        if said:
            print('%s: wanted %s, but %s' % (title, wanted, said), file=sys.stderr)
    if part.facts:
        wanted += '; ' + part.facts
    return '%s | %s' % (shown_bytes(part.bytes), wanted)


def main():
    for part in PARTS:
        part()
    lines = row_writer.head_of_modules() + ['#', '# Written by tools/module_body_rows.py, which says where the wanted answers come from.']
    answers, lacking, seen = Answers(), [], set()
    for c in CASES:
        if isinstance(c, str):
            lines += ['', '# ' + c]
            continue
        title, features, parts = c
        if title in seen:
            print('twice: %s' % title, file=sys.stderr)
        seen.add(title)
        shown = [shown_part(answers, title, p) for p in parts]
        if None in shown:
            lacking.append(title)
            continue
        lines.append(' | '.join([title, features] + shown))
    return row_writer.main({'modules/bodies.rows': '\n'.join(lines) + '\n'}, lacking, sys.argv[1:])


# ------------------------------------------------------------------------------------------------- bytes
def whole(digits):
    return b'\0asm\1\0\0\0' + bytes.fromhex(digits)


def given(title, *parts, features='default'):
    """Modules by their digits behind the header, each with what is wanted."""
    row(title, *[Part(whole(digits), wanted) for digits, wanted in parts], features=features)


NO_TYPES = '01 06 01 60 01 7f 01 7c'
EMPTY_RESULT = '01 05 01 60 00 01 7f 03 02 01 00 0a 04 01 02 00 0b'
PAIRS = '01 19 02 4e 02 5f 01 63 01 00 5f 01 63 00 00 4e 02 5f 01 63 03 00 5f 01 63 02 00'
COUNTS = 'function and code section have inconsistent lengths'


def by_bytes():
    heading('Functions and whole modules')
    given('a function that a body alone names is not referenced', ('01 04 01 60 00 00 03 02 01 00 0a 07 01 05 00 d2 00 1a 0b',
          'refused 23 undeclared function reference; missing nothing; can_reset true; has_failed false'))
    given('a function that an export names is referenced', ('01 04 01 60 00 00 03 02 01 00 07 05 01 01 61 00 00 0a 07 01 05 00 d2 00 1a 0b',
                                                            'ok; exports a (func (id 0))'))
    given('a sum of two parameters', ('01 07 01 60 02 7f 7f 01 7f 03 02 01 00 0a 09 01 07 00 20 00 20 01 6a 0b', 'ok; types 0; functions 0'))
    given('a call, an if that gives a reference and a branch',
          ('01 14 03 5f 02 7f 00 7f 00 60 02 7f 7f 01 7f 60 02 7f 7f 01 63 00 03 03 02 01 02 0a 21 02 07 00 20 00'
          '20 01 6a 0b 17 00 20 00 20 01 10 00 04 63 00 20 00 20 01 fb 00 00 05 00 6a 00 0b 0b', 'ok; types 0 1 2; functions 1 2'))
    given('an if without else that takes and gives one type',
          ('01 0c 02 60 02 7e 7f 01 7e 60 01 7e 01 7e 03 02 01 00 0a 0e 01 0c 00 20 00 20 01 04 01 1a 42 7f 0b 0b', 'ok'))
    given('a branch table out of the function', ('01 06 01 60 00 02 7f 7f 03 02 01 00 0a 0e 01 0c 00 41 00 41 01 41 02 0e 01 00 00 0b', 'ok'))
    given('array.new_fixed of the greatest number in code that is not reached',
          ('01 09 02 5e 7f 00 60 00 01 64 00 03 02 01 01 0a 16 01 14 00 00 fb 08 00 ff ff ff ff 0f'
          '00 fb 08 00 ff ff ff ff 0f 0b', 'ok'))
    given('sections without items', ('01 01 00 00 01 00 03 01 00', 'ok; types; functions'))
    given('functions before types', ('03 01 00 01 01 00', 'refused 13 section out of order; can_reset false; has_failed false'))
    given('types twice', ('01 01 00 01 01 00', 'refused 13 section out of order; can_reset false; has_failed false'))
    given('a data count without data', ('0c 01 01', 'refused; can_reset false'))
    given('a function without a body', ('01 04 01 60 00 00 03 02 01 00', 'refused 18 %s; can_reset false; has_failed false' % COUNTS))
    given('a body without a function', ('0a 04 01 02 00 0b', 'refused 10 %s; can_reset false; has_failed false' % COUNTS))
    given('a start function gives nothing', ('01 05 01 60 01 7f 00 03 02 01 00 08 01 00 0a 04 01 02 00 0b',
                                             'refused 21 invalid start function type; has_failed true'))
    given('a body that gives too little, and then another module',
          (EMPTY_RESULT, 'refused 24 type mismatch: expected i32 but nothing on stack; can_reset true; has_failed false'),
          ('', 'ok; types; can_reset true'))
    given('a function in the offset of data', ('01 04 01 60 00 00 03 02 01 00 05 03 01 00 01 0a 04 01 02 00 0b 0b 07 01 00 d2 00 0b 01 78',
                                               'refused; can_reset false; has_failed true'))
    given('one of each item',
          ('01 0c 02 60 02 7f 7e 01 7f 60 02 7e 7f 00 03 02 01 00 04 04 01 70 00 0a 05 04 01 01 01 05 0d 03 01 00 01 06 06 01 7f 01 41 00 0b 09 07 01 05 70 01'
          'd2 00 0b 0a 06 01 04 00 41 00 0b',
          'ok; types 0 1; functions 0; imports; exports; tables 10 funcref; memories 1 5; globals (mut i32); tags 1; elements funcref'))
    given('throw without exceptions', ('01 04 01 60 00 00 03 02 01 00 0a 06 01 04 00 08 00 0b',
          'refused 23 exceptions support is not enabled; missing exceptions; can_reset true'), features='default-exceptions')
    given('a refused body between two modules', (NO_TYPES, 'ok; types 0'),
          (EMPTY_RESULT, 'refused 24 type mismatch: expected i32 but nothing on stack; can_reset true'),
          ('01 09 02 60 00 00 60 01 7f 01 7c', 'ok; types 2 0'))
    given('a type index of the module before is unknown in a body', (PAIRS, 'ok; types 0 1 0 1'),
          ('01 04 01 60 00 00 03 02 01 00 0a 07 01 05 00 d0 01 1a 0b',
           'refused 23 unknown type 1: type index out of bounds; missing nothing; can_reset true; has_failed false'))


def on_one_validator():
    heading('Bodies one after another on one validator')
    good, bad = function('nop'), function('i32.add')
    wrong = refusal(bad, '', 'type mismatch: expected i32 but nothing on stack')
    row('a refused body, and then a module that is accepted', Part(bad, wrong, IN_BODY), Part(good, 'ok', IN_BODY))
    row('two refused bodies, and then a module that is accepted', Part(bad, wrong, IN_BODY), Part(bad, wrong, IN_BODY), Part(good, 'ok'))
    row('accepted, refused, accepted', Part(good, 'ok'), Part(bad, wrong, 'has_failed false'), Part(good, 'ok', 'all_types 1'))
    taking = function('i32.add', ty='i32 ->')
    row('a refused body leaves types behind', Part(taking, refusal(taking, '', 'type mismatch: expected i32 but nothing on stack')),
        Part(function('nop', ty='i32 ->'), 'ok', 'types 0; all_types 1'))
    row('a refused section, and then nothing more', Part(W.build(types=['func ->'], funcs=[(1, '', '')]), 'refused; can_reset false; has_failed true'),
        Part(good, 'refused 0 wasm version header out of order; can_reset false; has_failed true', own=True))
    # of several bodies
    several = W.build(funcs=[('->', '', 'nop'), ('->', '', 'nop'), ('->', '', 'i32.const 1')])
    case('the third body of three is refused', several, wanted=refusal(several, 'i32.const 1', 'type mismatch: values remaining on stack at end of block', k=2))
    several = W.build(funcs=[('->', '', 'drop'), ('->', '', 'i64.eqz'), ('->', '', 'i32.const 1')])
    case('the first of three refused bodies is told', several, wanted=refusal(several, '', 'type mismatch: expected a type but nothing on stack'))
    several = W.build(funcs=[('->', 'i32', 'block; block; loop'), ('->', '', 'local.get 0; drop')])
    case('a body that does not end, before another one', several, wanted='refused; ' + IN_BODY)
    several = W.build(funcs=[('i32 -> i32', 'i64 f32', 'local.get 0'), ('f32 ->', '', 'local.get 1; drop')])
    case('locals of one body are not those of the next', several, wanted=refusal(several, '', 'unknown local 1: local index out of bounds', k=1))
    several = W.build(funcs=[('->', '', 'i32.const 1; i32.const 2; drop; drop'), ('-> i32', '', 'unreachable'), ('->', '', 'block; end'),
                             ('i32 -> i32', '', 'local.get 0')] * 5)
    case('twenty bodies', several, wanted='ok')
    for k in range(4):
        b = W.build(funcs=[('-> i32', '', 'nop' if i == k else 'i32.const %d' % i) for i in range(4)])
        case('body %d of four gives too little' % k, b, wanted=refusal(b, 'nop', 'type mismatch: expected i32 but nothing on stack', k=k))
    b = W.build(types=['func ->'], imports=[('m', 'f', 'func', '-> i32')], funcs=[('-> i32', '', 'call 0'), ('->', '', 'call 1; drop')])
    case('functions behind an imported one', b, wanted='ok', facts='functions 1 1 0')
    b = W.build(imports=[('m', 'f', 'func', '-> i64')], funcs=[('-> i32', '', 'call 0'), ('->', '', 'call 1; drop')])
    case('a body has the type of its function, counted behind the imported ones', b, wanted=refusal(b, 'call 0', 'type mismatch: expected i32, found i64'))
    heading('Fronts and changed bytes of modules with bodies')
    b = W.build(funcs=[('i32 i32 -> i32', 'i64', 'local.get 0; local.get 1; i32.add')])
    types_end = W.sections(b)[0][3]
    for n in range(len(b)):
        case('the first %d bytes of a module with a body' % n, b[:n],
             wanted='ok; can_reset true' if n in (8, types_end) else 'refused; can_reset %s' % ('true' if n < 8 else 'false'), own=n < 8)
    for n in range(8, len(b)):
        case('a module with a body whose byte %d is ff' % n, b[:n] + b'\xff' + b[n + 1:], told='')


def limits():
    heading('Limits of bodies')
    def sized(n):
        body = b'\0' + b'\1' * (n - 2) + b'\x0b'
        return W.build(funcs=[('->', '', '')], post=lambda secs: [s.__setitem__(1, W.listed([W.unsigned(n) + body])) for s in secs if s[0] == 10] and None)
    case('a body of 7,654,321 bytes', sized(7654321), wanted='ok')
    big = sized(7654322)
    case('a body of 7,654,322 bytes', big, wanted='refused %d function body size count exceeds limit of 7654321; has_failed true' % body_start(big))
    for title, n, ok in [('50,000', 50000, True), ('50,001', 50001, False)]:
        for words, ty, counts in [('', '->', [n]), (' in two lists', '->', [25000, n - 25000]), (' with the parameters', 'i32 i64 ->', [n - 2]),
                                  (' in lists of one', 'f32 ->', [1] * 3 + [n - 4])]:
            raw = W.listed(W.unsigned(c) + W.value_type(NUMBERS[i % 4]) for i, c in enumerate(counts)) + b'\x0b'
            bytes = with_body(raw, ty)
            ahead = len(W.unsigned(len(counts))) + sum(len(W.unsigned(c)) + 1 for c in counts[:-1])
            case('%s locals%s' % (title, words), bytes,
                 wanted='ok' if ok else 'refused %d too many locals: locals exceed maximum' % (body_start(bytes) + ahead))
    asked('the last of 50,000 locals', '', ty='->', told=None, post=replaced(W.listed([W.unsigned(50000) + b'\x7f']) + W.operators('local.get 49999; drop') + b'\x0b'))
    asked('the one behind the last of 50,000 locals', '', ty='->', post=replaced(W.listed([W.unsigned(50000) + b'\x7f']) + W.operators('local.get 50000; drop') + b'\x0b'))
    # one local behind so many that they stand in a run, of another type than those
    raw = W.listed([W.unsigned(2000) + b'\x7f', W.unsigned(1) + b'\x7e']) + W.operators('local.get 1999; i32.eqz; drop; local.get 2000; i64.eqz; drop') + b'\x0b'
    case('a local behind 2,000 of another type', with_body(raw), wanted='ok')
    # a list of 2^32 - 1 locals, which two lists pass
    bytes = with_body(W.listed([W.unsigned(0xffffffff) + b'\x7f']) + b'\x0b')
    case('4,294,967,295 locals', bytes, wanted='refused %d too many locals: locals exceed maximum' % (body_start(bytes) + 1))
    bytes = with_body(W.listed([W.unsigned(1) + b'\x7f', W.unsigned(0xffffffff) + b'\x7f']) + b'\x0b')
    case('4,294,967,296 locals in two lists', bytes, wanted='refused %d too many locals: locals exceed maximum' % (body_start(bytes) + 3))
    nested = '; '.join
    for n in [1, 10, 1000]:
        for op in ['block', 'loop', 'try_table']:
            valid('%d frames by %s, one in another' % (n, op), nested([op] * n + ['end'] * n))
        valid('%d frames by if, one in another' % n, nested(['i32.const 0; if'] * n + ['end'] * n))
    valid('a branch out of 1,000 blocks to the function', nested(['block'] * 1000 + ['br 1000'] + ['end'] * 1000))
    asked('a branch out of 1,000 blocks to no label', nested(['block'] * 1000 + ['br 1001'] + ['end'] * 1000))
    asked('1,000 blocks of which one does not end', nested(['block'] * 1000 + ['end'] * 999), told='')
    asked('1,000 blocks and an end too many', nested(['block'] * 1000 + ['end'] * 1001))
    valid('1,000 operands', nested(['i32.const 1'] * 1000 + ['drop'] * 1000))
    asked('1,000 operands, of which one is left', nested(['i32.const 1'] * 1000 + ['drop'] * 999))
    asked('1,000 operands, and one is taken too many', nested(['i32.const 1'] * 1000 + ['drop'] * 1001))
    for n in [0, 1, 2, 1000]:
        valid('a branch table of %d labels and a default' % n, 'block; i32.const 0; br_table %s 0; end' % ' '.join(['0'] * n))
        asked('a branch table of %d labels whose default is no label' % n, 'block; i32.const 0; br_table %s 2; end' % ' '.join(['0'] * n))
        asked('a branch table of %d labels without an index' % n, 'block; br_table %s 0; end' % ' '.join(['0'] * n))
        valid('a branch table of %d labels that have a value' % n, 'block =i64; i64.const 7; i32.const 0; br_table %s 0; end; drop' % ' '.join(['0'] * n))
    asked('a branch table whose last label of 1,000 is none', 'block; i32.const 0; br_table %s 2 0; end' % ' '.join(['0'] * 999))
    asked('a branch table whose last label of 1,000 has another type',
          'block =i32; block; i32.const 0; br_table %s 1 0; end; i32.const 1; end; drop' % ' '.join(['0'] * 999))
    valid('a branch table to 1,000 blocks', nested(['block'] * 1000 + ['i32.const 0', 'br_table %s' % ' '.join(str(i) for i in range(1000))] + ['end'] * 1000))
    # more labels than there are bytes
    asked('a branch table of more labels than bytes', 'block; i32.const 0; x:0effffffff0f00; end', told='')
    valid('a function of 100 parameters and results', '; '.join('local.get %d' % i for i in range(100)),
          ty='%s -> %s' % (' '.join(['i32'] * 100), ' '.join(['i32'] * 100)))
    asked('a function of 100 results gives one too few', '; '.join('local.get %d' % i for i in range(99)),
          ty='%s -> %s' % (' '.join(['i32'] * 100), ' '.join(['i32'] * 100)))


def replaced(body):
    def put(sections):
        for s in sections:
            if s[0] == 10:
                s[1] = W.listed([W.unsigned(len(body)) + body])
    return put


def with_body(raw, ty='->', **parts):
    return W.build(funcs=[(ty, '', '')], post=replaced(raw), **parts)


# ------------------------------------------------------------------------------------------------- numbers
# The opcodes of numeric operators with what they take and give (Core Specification 3.0, Validation, Numeric Instructions, and
# Binary Format, Instructions): `ii:l` takes two i32 and gives an i64.
NUMERIC = '''45 i:i, 46..4f ii:i, 50 l:i, 51..5a ll:i, 5b..60 ff:i, 61..66 dd:i, 67..69 i:i, 6a..78 ii:i, 79..7b l:l, 7c..8a ll:l,
8b..91 f:f, 92..98 ff:f, 99..9f d:d, a0..a6 dd:d, a7 l:i, a8..a9 f:i, aa..ab d:i, ac..ad i:l, ae..af f:l, b0..b1 d:l, b2..b3 i:f,
b4..b5 l:f, b6 d:f, b7..b8 i:d, b9..ba l:d, bb f:d, bc f:i, bd d:l, be i:f, bf l:d, c0..c1 i:i, c2..c4 l:l'''
SATURATING = ['f:i', 'f:i', 'd:i', 'd:i', 'f:l', 'f:l', 'd:l', 'd:l']


def numeric_operators():
    """Each numeric operator: name, opcode, what it takes and what it gives."""
    codes = {code: name for name, (code, _) in W.OPERATORS.items()}
    for part in NUMERIC.replace('\n', ' ').split(', '):
        places, signature = part.split()
        first, _, last = places.partition('..')
        for n in range(int(first, 16), int(last or first, 16) + 1):
            yield codes[bytes([n])], bytes([n]), signature
    for n, signature in enumerate(SATURATING):
        yield codes[b'\xfc' + bytes([n])], b'\xfc' + bytes([n]), signature


def of_type(op, takes, gives):
    """A function of this type: its parameters in order, the operator, the end. And where operator and end begin."""
    gets = b''.join(b'\x20' + W.unsigned(i) for i in range(len(takes)))
    b = with_body(b'\0' + gets + op + b'\x0b', '%s -> %s' % (' '.join(takes), ' '.join(gives)))
    at = body_start(b) + 1 + len(gets)
    return b, at, at + len(op)


def mismatch(at, expected, found):
    return 'refused %d type mismatch: expected %s, found %s' % (at, expected, found)


def operator_rows(name, op, takes, gives):
    """The operator accepted in a function of its type, and refused with any parameter or the result changed to another number type."""
    case('%s takes %s and gives %s' % (name, ' and '.join(takes) or 'nothing', ' and '.join(gives)), of_type(op, takes, gives)[0], wanted='ok')
    parts = []
    for other in NUMBERS:
        for i in range(len(takes)):
            if other != takes[i]:
                b, at, _ = of_type(op, takes[:i] + [other] + takes[i + 1:], gives)
                parts.append(Part(b, mismatch(at, takes[i], other)))
        if other != gives[0]:
            b, _, end = of_type(op, takes, [other])
            parts.append(Part(b, mismatch(end, other, gives[0])))
    row('%s with another operand or result' % name, *parts)


def numbers():
    heading('Numeric operators, each in a function of its type')
    for name, code, signature in numeric_operators():
        takes, gives = signature.split(':')
        operator_rows(name, code, [NAMES[x] for x in takes], [NAMES[x] for x in gives])
    for ty, op in [('i32', '41 00'), ('i64', '42 00'), ('f32', '43 00 00 00 00'), ('f64', '44 00 00 00 00 00 00 00 00')]:
        operator_rows(ty + '.const', bytes.fromhex(op), [], [ty])
    valid('v128.const gives a vector', 'v128.const', ty='-> v128')
    row('v128.const gives no number', *[Part(function('v128.const', ty='-> ' + ty)) for ty in NUMBERS])
    row('a constant number is no vector', *[Part(function(ty + '.const 1', ty='-> v128')) for ty in NUMBERS])
    heading('Numeric operators that find too few operands, or what they like')
    for name, code, signature in numeric_operators():
        takes = signature.split(':')[0]
        if name.endswith(('eqz', 'div_u', 'eq', 'sqrt', 'copysign', 'wrap_i64', 'extend32_s', 'promote_f32', 'reinterpret_f64', 'trunc_sat_f64_u')):
            few = with_body(b'\0' + (b'\x20\0' if len(takes) > 1 else b'') + code + b'\x1a\x0b', NAMES[takes[0]] + ' ->')
            at = body_start(few) + 1 + (2 if len(takes) > 1 else 0)
            case('%s finds too few operands' % name, few, wanted='refused %d type mismatch: expected %s but nothing on stack' % (at, NAMES[takes[0]]))
            case('%s behind unreachable' % name, with_body(b'\0\0' + code + b'\x0b', '-> ' + NAMES[signature[-1]]), wanted='ok')
            case('%s behind unreachable, with another result' % name, with_body(b'\0\0' + code + b'\x0b', '-> v128'),
                 wanted=mismatch(body_start(with_body(b'\0\0' + code + b'\x0b', '-> v128')) + 2 + len(code), 'v128', NAMES[signature[-1]]))
    heading('Numbers whose encoding is wrong')
    for title, digits in [('i32.const of six bytes', '41 80 80 80 80 80 00'), ('i32.const of 33 bits', '41 ff ff ff ff 0f'),
                          ('i64.const of eleven bytes', '42 80 80 80 80 80 80 80 80 80 80 00'),
                          ('i64.const of 65 bits', '42 ff ff ff ff ff ff ff ff ff 02'), ('f32.const of three bytes', '43 00 00 00'),
                          ('f64.const of seven bytes', '44 00 00 00 00 00 00 00'),
                          ('v128.const of fifteen bytes', 'fd 0c' + ' 00' * 15), ('local.get without an index', '20'),
                          ('a number that ends with the body', '41 80')]:
        case(title, with_body(b'\0' + bytes.fromhex(digits)), wanted='refused; ' + IN_BODY)
    for title, digits in [('i32.const in five bytes', '41 80 80 80 80 00'), ('i32.const -1 in five bytes', '41 ff ff ff ff 7f'),
                          ('i64.const in ten bytes', '42 80 80 80 80 80 80 80 80 80 00'),
                          ('i64.const -1 in ten bytes', '42 ff ff ff ff ff ff ff ff ff 7f'),
                          ('an opcode behind fc in five bytes', '43 00 00 00 00 fc 80 80 80 80 00')]:
        case(title, with_body(b'\0' + bytes.fromhex(digits) + b'\x1a\x0b'), wanted='ok')
    # operators that are left out
    heading('Operators that are unknown')
    for title, digits in [('an opcode of the first exceptions, 06', '06 40 0b'), ('an opcode of the first exceptions, 07', '07 00'),
                          ('an opcode of the first exceptions, 09', '09 00'),
                          ('an opcode of the first exceptions, 18', '18 00'), ('an opcode of the first exceptions, 19', '19'), ('the opcode 1d', '1d'),
                          ('the opcode 1e', '1e'), ('the opcode 27', '27'),
                          ('the opcode c5', 'c5'), ('the opcode c7', 'c7'), ('the opcode d7', 'd7'), ('a cont.new, e0', 'e0 00'),
                          ('a switch, e6', 'e6 00 00'), ('the opcode ff', 'ff'), ('the opcode fa', 'fa'),
                          ('a load of a vector, fd 00', '41 00 fd 00 00 00 1a'), ('a store of a vector, fd 0b', '41 00 fd 0c' + ' 00' * 16 + 'fd 0b 00 00'),
                          ('an i8x16.splat, fd 0f', '41 00 fd 0f 1a'),
                          ('an i32x4.add, fd ae 01', '00 fd ae 01 1a'), ('a relaxed operator, fd 80 02', '00 fd 80 02 1a'),
                          ('an atomic fence, fe 03', 'fe 03 00'), ('an atomic load, fe 10', '41 00 fe 10 02 00 1a'),
                          ('an atomic wait, fe 01', '00 fe 01 02 00 1a'), ('ref.get_desc, fb 22', '00 fb 22 00 1a'),
                          ('a cast by a descriptor, fb 23', '00 fb 23 00 1a'), ('a wide sum, fc 13', '00 fc 13 1a 1a'),
                          ('a memory.discard, fc 12', '00 fc 12 00'), ('an opcode behind fb that none has', 'fb 7f'),
                          ('an opcode behind fc that none has', 'fc 7f')]:
        # operators on vectors and atomic ones have to be asked for
        missing = 'vector_operators' if ', fd ' in title else 'atomic_operators' if ', fe ' in title else 'nothing'
        if 'first exceptions' in title:
            missing = 'legacy_exceptions'
        case(title, with_body(b'\0' + bytes.fromhex(digits) + b'\x0b', mems=['1']), wanted='refused; missing %s; ' % missing + IN_BODY, own=True)


# ------------------------------------------------------------------------------------------------- memories
# Loads and stores with their types and natural alignments (Core Specification 3.0, Validation, Memory Instructions).
LOADS = '''i32.load i 2, i64.load l 3, f32.load f 2, f64.load d 3, i32.load8_s i 0, i32.load8_u i 0, i32.load16_s i 1, i32.load16_u i 1,
i64.load8_s l 0, i64.load8_u l 0, i64.load16_s l 1, i64.load16_u l 1, i64.load32_s l 2, i64.load32_u l 2'''
STORES = 'i32.store i 2, i64.store l 3, f32.store f 2, f64.store d 3, i32.store8 i 0, i32.store16 i 1, i64.store8 l 0, i64.store16 l 1, i64.store32 l 2'


def accessed(op, align, address, value, gives, memory):
    """A function of an access's type in a module with this memory, and where the access and the end begin."""
    gets = '; '.join('local.get %d' % i for i in range(1 + len(value)))
    access = '%s %d:8' % (op, align)
    b = function(gets + '; ' + access, ty='%s -> %s' % (' '.join([address] + value), ' '.join(gives)), mems=[memory])
    at = body_start(b) + 1 + len(W.operators(gets))
    return b, at, at + len(W.operators(access))


def access_rows(op, align, value, gives):
    aligned, larger, misplaced, mistyped = [], [], [], []
    for address, memory in [('i32', '1'), ('i64', 'i64 1')]:
        aligned += [Part(accessed(op, a, address, value, gives, memory)[0], 'ok') for a in range(align + 1)]
        for a in [align + 1, 31]:
            b, at, _ = accessed(op, a, address, value, gives, memory)
            larger.append(Part(b, 'refused %d alignment must not be larger than natural' % at if a < 5 else 'refused; ' + IN_BODY))
        for other in NUMBERS:
            if other != address:
                b, at, _ = accessed(op, align, other, value, gives, memory)
                misplaced.append(Part(b, mismatch(at, address, other)))
    for other in NUMBERS:
        if value and other != value[0]:
            b, at, _ = accessed(op, align, 'i32', [other], gives, '1')
            mistyped.append(Part(b, mismatch(at, value[0], other)))
        if gives and other != gives[0]:
            b, _, end = accessed(op, align, 'i32', value, [other], '1')
            mistyped.append(Part(b, mismatch(end, other, gives[0])))
    row('%s at each alignment, in memories of 32 and of 64 bits' % op, *aligned)
    row('%s at a larger alignment' % op, *larger)
    row('%s at an address of another type' % op, *misplaced)
    row('%s of another type' % op, *mistyped)
    b = function('unreachable; %s 0:0; drop' % op if gives else 'unreachable; %s 0:0' % op)
    case('%s without a memory' % op, b, wanted=refusal(b, 'unreachable', 'unknown memory 0: memory index out of bounds'))


def accesses():
    heading('Loads and stores, each in a function of its type')
    for part in LOADS.replace('\n', ' ').split(', '):
        op, t, align = part.split()
        access_rows(op, int(align), [], [NAMES[t]])
    for part in STORES.split(', '):
        op, t, align = part.split()
        access_rows(op, int(align), [NAMES[t]], [])
    heading('Memories of both kinds of addresses')
    of_both = dict(mems=['1', 'i64 1'])
    for title, ops, ok in [('i32.load of the second memory', 'i64.const 0; i32.load 2:0:1; drop', True),
                           ('i32.load of the second memory at an address of 32 bits', 'i32.const 0; i32.load 2:0:1; drop', False),
                           ('i32.load of a third memory that is not there', 'i64.const 0; i32.load 2:0:2; drop', False),
                           ('memory.size of the second memory', 'memory.size 1; i64.eqz; drop', True),
                           ('memory.grow of the second memory', 'i64.const 1; memory.grow 1; i64.eqz; drop', True),
                           ('memory.grow of the second memory by 32 bits', 'i32.const 1; memory.grow 1; drop', False),
                           ('memory.copy to the second memory', 'i64.const 0; i32.const 0; i32.const 0; memory.copy 1 0', True),
                           ('memory.copy from the second memory', 'i32.const 0; i64.const 0; i32.const 0; memory.copy 0 1', True),
                           ('memory.copy within the second memory by 32 bits', 'i64.const 0; i64.const 0; i32.const 0; memory.copy 1 1', False),
                           ('memory.fill of the second memory', 'i64.const 0; i32.const 0; i64.const 0; memory.fill 1', True),
                           ('memory.fill of the second memory by 32 bits', 'i64.const 0; i32.const 0; i32.const 0; memory.fill 1', False)]:
        if ok:
            valid(title, ops, **of_both)
        else:
            asked(title, ops, **of_both)
    for op, before in [('memory.size 0', ''), ('memory.grow 0', 'i32.const 1'), ('memory.fill 0', 'unreachable'), ('memory.copy 0 0', 'unreachable')]:
        asked('%s without a memory' % op.split()[0], '; '.join(x for x in (before, op) if x))
    valid('an imported memory is the first', 'i32.const 0; i32.load 0:0; drop; i64.const 0; i32.load 0:0:1; drop', imports=[('m', 'm', 'memory', '1')],
          mems=['i64 1'], facts='memories 1, i64 1')
    passive = dict(mems=['1'], datas=[dict(mode='passive')])
    valid('memory.init with its count of data', 'i32.const 0; i32.const 0; i32.const 1; memory.init 0 0; data.drop 0', datacount=1, **passive)
    asked('memory.init without a count of data', 'i32.const 0; i32.const 0; i32.const 1; memory.init 0 0', **passive)
    asked('data.drop without a count of data', 'data.drop 0', **passive)
    arrays = dict(types=['array mut:i8'], datas=[dict(mode='passive')])
    for op, front, behind in (('array.new_data', 'i32.const 0; i32.const 1', '; drop'), ('array.init_data', 'ref.null 0; i32.const 0; i32.const 0; i32.const 1', '')):
        ops = '%s; %s 0 0%s' % (front, op, behind)
        valid('%s with its count of data' % op, ops, datacount=1, **arrays)
        asked('%s without a count of data' % op, ops, wanted=refusal(function(ops, **arrays), front, 'data count section required'), **arrays)
    asked('memory.init of a segment that is not counted', 'i32.const 0; i32.const 0; i32.const 1; memory.init 1 0', datacount=1, **passive)
    valid('an offset of 32 bits', 'i32.const 1; i32.load 0:0xffffffff; drop', mems=['1'])
    asked('an offset of 33 bits', 'i32.const 1; i32.load 0:0x100000000; drop', mems=['1'], told='')
    valid('an offset of 64 bits in a memory of 64 bits', 'i64.const 1; i32.load 0:0xffffffffffffffff; drop', mems=['i64 1'])
    asked('an offset of 65 bits in a memory of 64 bits', 'i64.const 1; x:2800ffffffffffffffffff02; drop', mems=['i64 1'], told='')


# ------------------------------------------------------------------------------------------------- bodies of tools/body_rows.py
# Types by number where the Rust crate names none: what is expected, and what is found.
IDS = {'local.set of a supertype': (5, 3), 'local.tee of a subtype gives the type of the local': (5, 3), 'br_if gives the types of the label': (5, 3),
       'call_ref of another type': (1, 2), 'call_ref of any function': (0,), 'return_call_ref of another type': (1, 2),
       'ref.null of a type is not below its subtype': (5, 3),
       'ref.func of another type': (1, 2), 'ref.as_non_null keeps the type': (5, 3), 'ref.cast of null may give null': (3, 3),
       'struct.get of a supertype': (5, 3),
       'struct.get of another reference': (3, 4), 'array.get of another array': (4, 7), 'table.set of a function of another type': (1, 2)}
USES = {'call': ['functions'], 'return_call': ['functions'], 'ref.func': ['references'], 'call_indirect': ['types', 'tables'],
        'return_call_indirect': ['types', 'tables'], 'call_ref': ['types'],
        'return_call_ref': ['types'], 'global.get': ['globals'], 'global.set': ['globals'], 'throw': ['tags'], 'table.init': ['elements', 'tables'],
        'elem.drop': ['elements'],
        'memory.init': ['datas', 'memories'], 'data.drop': ['datas'], 'array.new_data': ['types', 'datas'], 'array.init_data': ['types', 'datas'],
        'array.new_elem': ['types', 'elements'],
        'array.init_elem': ['types', 'elements'], 'array.copy': ['types', 'types']}


def uses_of(op, immediates, body):
    """The index spaces that an operator names, each with an index."""
    numbers_of = [W.unsigned_at(body, start)[0] for kind, start, _ in immediates if kind == 'u']
    if op in USES:
        yield from zip(USES[op], numbers_of)
    elif op.startswith(('table.', 'memory.')):
        yield from ((op.split('.')[0].replace('memory', 'memorie') + 's', n) for n in numbers_of)
    elif op.startswith(('struct.', 'array.')) and numbers_of:
        yield 'types', numbers_of[0]
    for kind, start, end in immediates:
        yield from written_types(kind, body[start:end])
        if kind == 'mem':
            flags, at = W.unsigned_at(body, start)
            yield 'memories', W.unsigned_at(body, at)[0] if flags & 0x40 else 0


def written_types(kind, b):
    """The types that an immediate names by their indices, and the tags of catch clauses."""
    if kind in ('ht', 'bt') and b[0] not in (0x63, 0x64):
        n = W.signed_at(b, 0)[0]
        if n >= 0:
            yield 'types', n
    elif kind in ('bt', 'types', 'cast'):
        # with a type behind 63 or 64, or the two heap types of a cast
        at = {'bt': 1, 'types': 2, 'cast': 1}[kind]
        if kind == 'cast':
            at = W.unsigned_at(b, at)[1]
        while at < len(b):
            n, at = W.signed_at(b, at)
            if n >= 0:
                yield 'types', n
    elif kind == 'catches':
        n, at = W.unsigned_at(b, 0)
        for _ in range(n):
            form = b[at]
            x, at = W.unsigned_at(b, at + 1)
            if form < 2:
                yield 'tags', x
                _, at = W.unsigned_at(b, at)


def uses(body, ty):
    """For each index space the greatest index of a body, where it is one of the context, and whether one is beyond."""
    used = {'types': [ty]}
    n, at = W.unsigned_at(body, 0)
    for _ in range(n):
        _, at = W.unsigned_at(body, at)
        if body[at] in (0x63, 0x64):
            i, end = W.signed_at(body, at + 1)
            if i >= 0:
                used['types'].append(i)
        at = W.behind_value_type(body, at)
    while at < len(body):
        op, immediates, end = W.operator_at(body, at)
        if op is None:
            break
        for space, index in uses_of(op, immediates, body):
            used.setdefault(space, []).append(index)
        at = end
    return used


def up_to(used, space, items):
    """The items up to the greatest index, and all of them where one is beyond."""
    indices = used.get(space, [])
    return items[:max(indices) + 1] if indices else items[:0]


def context(body, ty, features):
    """What a body needs of the context, at the same indices."""
    used = uses(body, ty)
    missing = features.split('-')[1:]
    elements = up_to(used, 'elements', B.ELEMENTS) if 'bulk_memory' not in missing else []
    references = used.get('references', []) + ([1] if elements else [])
    functions = up_to({'f': used.get('functions', []) + [i for i in references if i < 99]}, 'f', B.FUNCTIONS)
    if references and 'bulk_memory' not in missing and not (elements and len(elements) > 2):
        elements = elements + [dict(mode='declared', funcs=[i for i in B.REFERENCES if i < len(functions)])]
    if elements:
        functions = B.FUNCTIONS[:max([len(functions)] + [i + 1 for i in (B.REFERENCES if len(elements) > 2 else [1])])]
    tables, tags = up_to(used, 'tables', B.TABLES), up_to(used, 'tags', B.TAGS)
    if 'exceptions' in missing:
        tags = []
    types = used['types'] + functions + tags + [1] * (len(tables) > 3)
    if 'gc' in missing:
        types = [i for i in types if i < 3]
        if ty > 2:
            return None
    datas = B.DATA_COUNT if 'datas' in used and 'bulk_memory' not in missing else 0
    return dict(types=up_to({'t': [i for i in types if i < len(B.TYPES)]}, 't', B.TYPES), functions=functions, tables=tables,
                mems=up_to(used, 'memories', B.MEMORIES), tags=tags,
                globals=up_to(used, 'globals', B.GLOBALS), elems=elements, datacount=datas or None, datas=[dict(mode='passive')] * datas)


def in_context(body, ty, features):
    """A module with what the body needs, whose last function has it, and where the body begins."""
    parts = context(body, ty, features)
    if parts is None:
        return None
    functions = parts.pop('functions')

    def put(sections):
        for s in sections:
            if s[0] == 10:
                s[1] = W.listed([W.unsigned(3) + b'\0\0\x0b'] * len(functions) + [W.unsigned(len(body)) + body])
    b = W.build(funcs=[(f, '', 'unreachable') for f in functions + [ty]], post=put, **parts)
    return b, W.bodies(b)[-1][1]


def moved(wanted, start):
    """What a row of a body wants, its offset counted from where the module begins."""
    def move(match):
        return 'refused %d%s' % (int(match.group(1)) + start, match.group(2))
    if wanted is None:
        return None
    if re.fullmatch(r'refused( \d+)?', wanted):
        return 'refused; ' + IN_BODY
    return re.sub(r'^refused (\d+)(.*)', move, wanted)


def features_of(title, features):
    """Where all proposals were on, the default ones are: but casts of branches have another rule without descriptors."""
    if not features.startswith('all') or 'br_on_cast' in title:
        return features
    if features.startswith('all-') and features.split('-')[1] in ('shared_everything_threads', 'custom_descriptors'):
        return 'default'
    return 'default' + features[3:]


def of_bodies(subject, title, features, ty, body, wanted, told):
    # what isn't asked of a whole module: a wrong answer, and modules that need more proposals for what stands around the body
    if wanted and wanted.startswith('not ') or features.startswith('none') or 'multi_value' in features or 'by its index without' in title:
        return
    if any(c[0] == title for c in CASES if not isinstance(c, str)):
        print('stands already: %s' % title)
        return
    try:
        made = in_context(body, ty, features)
    except (W.Bad, IndexError, KeyError):
        made = whole_sample(ty, body)
    if made is None:
        return
    b, start = made
    own = '-' in features or 'else found' in (wanted or '') or 'opcode' in title
    case(title, b, features_of(title, features), wanted=moved(wanted, start), told=told, ids=IDS.get(title, ()), own=own)


def whole_sample(ty, body):
    """Where a body can't be read to its end: a function alone, of its type among those before it."""
    def put(sections):
        for s in sections:
            if s[0] == 10:
                s[1] = W.listed([W.unsigned(len(body)) + body])
    b = W.build(types=B.TYPES[:max(ty, 3) + 1], funcs=[(ty, '', 'unreachable')], post=put)
    return b, [e for i, _, _, e in W.sections(b) if i == 10][0] - len(body)


SUBJECTS = {'memories': 'Memories', 'tables': 'Tables', 'variables': 'Variables', 'control': 'Blocks, branches, exceptions, parametric operators and calls',
            'references': 'References, tests and casts',
            'aggregates': 'Structures and arrays', 'features': 'Proposals'}


def bodies():
    """The bodies of tools/body_rows.py, each in a module that has what it needs."""
    for part in [B.memories, B.tables, B.variables, B.control, B.references, B.aggregates, B.proposals]:
        part()
    for subject, words in SUBJECTS.items():
        heading(words)
        for title, features, ty, body, wanted, told in B.CASES[subject]:
            # loads and stores stand in functions of their types above
            if not re.match(r'(%s) ' % '|'.join(x.split()[0] for x in (LOADS.replace('\n', ' ') + ', ' + STORES).split(', ')), title) or features != 'all':
                of_bodies(subject, title, features, ty, body, wanted, told)


# ------------------------------------------------------------------------------------------------- control
# A number of each type, a vector and references: the block type, and an operator sequence that gives it.
GIVEN = [('i32', 'i32.const 1'), ('i64', 'i64.const 1'), ('f32', 'f32.const 1'), ('f64', 'f64.const 1'), ('v128', 'v128.const'), ('funcref', 'ref.null func'),
         ('externref', 'ref.null extern'),
         ('anyref', 'ref.null any'), ('eqref', 'ref.null eq'), ('i31ref', 'ref.null i31'), ('structref', 'ref.null struct'), ('arrayref', 'ref.null array'),
         ('exnref', 'ref.null exn'),
         ('nullref', 'ref.null none'), ('nullfuncref', 'ref.null nofunc'), ('nullexternref', 'ref.null noextern'), ('nullexnref', 'ref.null noexn'),
         ('?0', 'ref.null 0'),
         ('!0', 'ref.null 0; ref.as_non_null'), ('!i31', 'i32.const 1; ref.i31'), ('?any', 'ref.null any'), ('!extern', 'ref.null extern; ref.as_non_null'),
         ('!none', 'unreachable')]
FORMS = ['func ->', 'func i32 ->', 'func -> i64', 'func i32 -> i64', 'func i32 i64 -> f32 f64', 'struct i32', 'array mut:i8']
FRAMES = ['block', 'loop', 'if', 'try_table']


def framed(frame, form, inner, takes=()):
    """A frame of this form around these operators, in front of it what it takes."""
    before = [NUMBER_OF[t] for t in takes] + (['i32.const 1'] if frame == 'if' else [])
    head = '%s %s' % (frame, form)
    middle = [inner, 'else', inner] if frame == 'if' else [inner]
    return '; '.join(before + [head] + [x for x in middle if x] + ['end'])


NUMBER_OF = {'i32': 'i32.const 7', 'i64': 'i64.const 7', 'f32': 'f32.const 7', 'f64': 'f64.const 7'}


def frames():
    heading('Frames of each form of block type')
    other = {'i32': 'f64.const 1', 'i64': 'f64.const 1', 'v128': 'i32.const 1'}
    for frame in FRAMES:
        valid('%s without results' % frame, framed(frame, '_', ''))
        for ty, ops in GIVEN:
            form = '=' + ty
            parts = [Part(function(framed(frame, form, ops) + '; drop', types=FORMS), 'ok')]
            # nothing, another type, and it twice: behind `unreachable` nothing is enough
            parts += [Part(function(framed(frame, form, x) + '; drop', types=FORMS), ids=(0,)) for x in ['', other.get(ty, 'i64.const 1'),
                                                                                                         '%s; %s' % (ops, ops)] if x or ty != '!none']
            row('%s that gives %s, and one that gives nothing, another type, or it twice' % (frame, ty), *(parts if ty != '!none' else parts[:2]))
        for n, takes, inner, after in [(0, [], '', ''), (1, ['i32'], 'drop', ''), (2, [], 'i64.const 1', 'drop'), (3, ['i32'], 'i64.extend_i32_s', 'drop'),
                                       (4, ['i32', 'i64'], 'drop; drop; f32.const 1; f64.const 1', 'drop; drop')]:
            form = '@%d' % n
            parts = [Part(function('; '.join(x for x in (framed(frame, form, inner, takes), after) if x), types=FORMS), 'ok')]
            if takes:
                # without the last operand, and behind others
                parts.append(Part(function('; '.join(x for x in (framed(frame, form, inner, takes[:-1]), after) if x), types=FORMS)))
                parts.append(Part(function(framed(frame, form, 'unreachable', takes[::-1] if len(takes) > 1 else ['f32']) + '; unreachable', types=FORMS)))
            row('%s of function type %d%s' % (frame, n, ', and one without its last operand, or behind others' * bool(takes)), *parts)
        row('%s of a structure type, an array type, an unknown type' % frame, *[Part(function(framed(frame, '@%d' % n, 'unreachable') + '; unreachable',
                                                                                              types=FORMS)) for n in (5, 6, 99)])
        case('%s of a block type that is none' % frame, with_body(b'\0' + W.operators('i32.const 0') + W.OPERATORS[frame][0] + b'\x41\0\x0b\x0b'),
             wanted='refused; ' + IN_BODY)
        valid('return inside %s' % frame, 'i64.const 9; ' + framed(frame, '_', 'i32.const 1; return') + '; drop; i32.const 2', ty='-> i32')
        asked('return of another type inside %s' % frame, framed(frame, '_', 'i64.const 1; return') + '; i32.const 2', ty='-> i32')
        asked('return of nothing inside %s' % frame, 'i32.const 1; ' + framed(frame, '_', 'return'), ty='-> i32')
        valid('return of two numbers inside %s, and of more operands' % frame,
              framed(frame, '_', 'f32.const 0; i32.const 1; i64.const 1; return') + '; unreachable', ty='-> i32 i64')
        asked('%s does not see what stands before it' % frame, 'i32.const 5; ' + framed(frame, '_', 'drop') + '; drop')
        asked('%s that leaves a number' % frame, framed(frame, '_', 'i32.const 5'))
        valid('br out of %s' % frame, framed(frame, '_', 'br 0'))
        valid('br out of %s to the function' % frame, framed(frame, '_', 'i32.const 1; br 1') + '; unreachable', ty='-> i32')
        asked('br out of %s to no label' % frame, framed(frame, '_', 'br 2'))
        valid('br_if inside %s' % frame, framed(frame, '_', 'i32.const 0; br_if 0'))
        if frame == 'loop':
            asked('br to a loop that gives a number, with it', framed(frame, '=i32', 'i32.const 1; br 0') + '; drop', told=None)
            valid('br to a loop that takes a number, with it', framed(frame, '@1', 'br 0', ['i32']), types=FORMS)
            asked('br to a loop that takes a number, without it', framed(frame, '@1', 'drop; br 0', ['i32']), types=FORMS)
        else:
            valid('br out of %s with the number that it gives' % frame, framed(frame, '=i32', 'i32.const 1; br 0') + '; drop')
            asked('br out of %s without the number that it gives' % frame, framed(frame, '=i32', 'br 0') + '; drop')
            asked('br out of %s with what it takes' % frame, framed(frame, '@3', 'br 0', ['i32']) + '; drop', types=FORMS)
    valid('if without else takes and gives the same', 'i32.const 1; i32.const 2; if @7; end; drop', types=FORMS + ['func i32 -> i32'])
    asked('if without else takes and gives other types', 'i32.const 1; i32.const 2; if @3; i64.extend_i32_s; end; drop', types=FORMS,
          told='type mismatch: an `if` without `else` must give what it takes')
    valid('if without else whose arm is not reached', 'i32.const 0; if; unreachable; end')
    valid('an if in an else', 'i32.const 0; if =i32; i32.const 1; else; i32.const 0; if =i32; i32.const 2; else; i32.const 3; end; end; drop')


SOURCES = [('unreachable', 'unreachable', {}), ('br', 'br 0', {}), ('br_table', 'i32.const 0; br_table 0 0', {}), ('return', 'return', {}),
           ('throw', 'throw 0', dict(tags=['->'])),
           ('throw_ref', 'ref.null exn; throw_ref', {}), ('return_call', 'return_call 0', {}),
           ('return_call_indirect', 'i32.const 0; return_call_indirect 0 0', dict(tables=['funcref 1'])),
           ('return_call_ref', 'ref.null 0; return_call_ref 0', {})]


AFTER = [('i32.add; drop', True), ('drop; drop; drop', True), ('i64.const 1; i32.const 1; drop; drop', True), ('i32.const 1; i32.add; drop', True),
         ('f32.const 1; i32.add; drop', False),
         ('i32.const 1; f32.const 1; select; drop', False), ('i32.const 1; select; i64.eqz; drop', True), ('i32.const 1', False), ('local.get 9', False),
         ('block; i32.add; end', False),
         ('unreachable; i64.add; drop', True), ('ref.is_null; drop', True), ('ref.as_non_null; ref.is_null; drop', True), ('br 9', False),
         ('if; else; end', True),
         ('i64.const 1; if; end', False), ('br_if 0', True), ('i32.const 0; br_if 0', True), ('i64.const 0; br_if 0', False),
         ('local.set 0; local.get 0; drop', True), ('end; nop', False)]


def unreached():
    heading('Code that is not reached')
    made = [(name, ops, dict(parts, types=['func ->'])) for name, ops, parts in SOURCES]
    words = ', '.join(name for name, _, _ in SOURCES)
    for name, ops, parts in made:
        valid('%s ends a function' % name, ops, ty=0, **parts)
        valid('%s in a block that gives a number' % name, 'block; block =i32; %s; end; drop; end' % ops.replace('br 0', 'br 1').replace('br_table 0 0',
                                                                                                                                        'br_table 1 1'), ty=0,
                                                                                                                                        **parts)
        valid('the code behind a block with %s is reached' % name, 'block; %s; end' % ops, ty=0, **parts)
        asked('the code behind a block with %s takes nothing' % name, 'block; %s; end; drop' % ops, ty=0, **parts)
    for after, ok in AFTER:
        row('%s: behind %s' % (after.replace(';', ','), words), *[Part(function(ops + '; ' + after, 'i64', 0, **parts), 'ok' if ok else None) for _, ops,
                                                                  parts in made])
    valid('an else behind an arm that is not reached is reached', 'i32.const 1; if =i32; unreachable; else; i32.const 1; end; drop')
    asked('an else behind an arm that is not reached gives too little', 'i32.const 1; if =i32; unreachable; else; end; drop')
    valid('a branch table in code that is not reached, to labels of other types',
          'block =i64; block =i32; unreachable; br_table 0 1 1; end; drop; i64.const 1; end; drop')
    asked('a branch table in code that is not reached, to labels of other lengths', 'block; block =i32; unreachable; br_table 0 1; end; drop; end')
    asked('a branch table in code that is not reached, behind a number of a third type',
          'block =i64; block =i32; unreachable; f32.const 1; i32.const 0; br_table 0 1 1; end; drop; i64.const 1; end; drop')
    valid('a select in code that is not reached gives any number', 'unreachable; select; f32.abs; drop; unreachable; i32.const 1; select; i64.eqz; drop')
    valid('br_if in code that is not reached gives what its label has', 'block =i32; unreachable; br_if 0; end; drop')
    asked('what br_if gives in code that is not reached has a type', 'block =i32; unreachable; br_if 0; i64.eqz; drop; i32.const 1; end; drop')
    asked('a local that is not set in code that is not reached', 'unreachable; local.get 0; drop', locals='!func')
    valid('a call in code that is not reached gives its results', 'unreachable; call 0; i32.eqz; drop; unreachable', ty='i64 i64 -> i32')
    asked('a call in code that is not reached gives no other results', 'unreachable; call 0; i64.eqz; drop; unreachable', ty='i64 i64 -> i32')


SET, GET = 'struct.new_default 0; local.set 0', 'local.get 0; drop'


def joins():
    heading('Locals that are set, at each join')
    types = dict(types=['struct i32'])
    for title, ops, ok in [
            ('set before, read', '%s; %s' % (SET, GET), True), ('read before it is set', '%s; %s' % (GET, SET), False), ('never set', GET, False),
            ('set twice', '%s; %s; %s' % (SET, SET, GET), True), ('set by local.tee', 'struct.new_default 0; local.tee 0; drop; ' + GET, True),
            ('set in one arm of an if, read in it', 'i32.const 0; if; %s; %s; end' % (SET, GET), True),
            ('set in the first arm, read in the second', 'i32.const 0; if; %s; else; %s; end' % (SET, GET), False),
            ('set in the first arm, read behind', 'i32.const 0; if; %s; end; %s' % (SET, GET), False),
            ('set in the second arm, read behind', 'i32.const 0; if; else; %s; end; %s' % (SET, GET), False),
            ('set in both arms, read behind', 'i32.const 0; if; %s; else; %s; end; %s' % (SET, SET, GET), False),
            ('set before an if, read in both arms', '%s; i32.const 0; if; %s; else; %s; end; %s' % (SET, GET, GET, GET), True),
            ('set in both arms anew, read in both and behind', '%s; i32.const 0; if; %s; %s; else; %s; end; %s' % (SET, SET, GET, GET, GET), True),
            ('set in the inner of two blocks, read in the outer', 'block; block; %s; end; %s; end' % (SET, GET), False),
            ('set in the outer of two blocks, read in the inner and the outer', 'block; %s; block; %s; end; %s; end' % (SET, GET, GET), True),
            ('set in the outer of two blocks, read behind', 'block; %s; block; %s; end; end; %s' % (SET, GET, GET), False),
            ('set behind a branch, read', 'block; i32.const 0; br_if 0; %s; %s; end' % (SET, GET), True),
            ('set behind a branch, read behind the block', 'block; i32.const 0; br_if 0; %s; end; %s' % (SET, GET), False),
            ('set, and then not reached', '%s; unreachable; %s' % (SET, GET), True),
            ('not set, and then not reached', 'unreachable; ' + GET, False),
            ('set where it is not reached, read behind', 'block; unreachable; %s; end; %s' % (SET, GET), False),
            ('set in a condition', '%s; i32.const 0; if; %s; end' % (SET, GET), True),
            ('set in a loop, read in the next turn', 'loop; %s; %s; br 0; end' % (GET, SET), False)]:
        (valid if ok else asked)('a local ' + title, ops, locals='!0', **types)
    for frame in FRAMES:
        valid('a local set before %s, read in it and behind' % frame, '%s; %s; %s' % (SET, framed(frame, '_', GET), GET), locals='!0', **types)
        valid('a local set in %s, read in it' % frame, framed(frame, '_', SET + '; ' + GET), locals='!0', **types)
        asked('a local set in %s, read behind' % frame, '%s; %s' % (framed(frame, '_', SET), GET), locals='!0', **types)
        asked('a local set by local.tee in %s, read behind' % frame, '%s; %s' % (framed(frame, '_', 'struct.new_default 0; local.tee 0; drop'), GET),
              locals='!0', **types)
        asked('a local set in %s that is left by a branch, read behind' % frame, '%s; %s' % (framed(frame, '_', SET + ('' if frame == 'loop' else '; br 0')),
                                                                                             GET), locals='!0', **types)
        asked('a second local is not set by the first, in %s' % frame, framed(frame, '_', SET + '; local.get 1; drop'), locals='!0 !0', **types)
    for words, ok, tys in [('numbers, vectors and null', True, ['i32', 'i64', 'f32', 'f64', 'v128', 'funcref', 'externref', 'anyref', 'exnref', '?0', '?i31',
                                                                'nullref']),
                           ('references that are never null', False, ['!func', '!extern', '!any', '!0', '!i31', '!none', '!exn'])]:
        row('defaults of locals: %s' % words, *[Part(function('local.get 0; drop', ty, **types), 'ok' if ok else None) for ty in tys])
    valid('a parameter is set', 'local.get 0; drop; local.get 1; drop', ty='!0 !func ->', **types)
    asked('a local behind a parameter is not set', 'local.get 0; drop; local.get 1; drop', ty='!0 ->', locals='!0', **types)
    valid('locals set in turn', '; '.join('struct.new_default 0; local.set %d; local.get %d; drop' % (i, i) for i in range(8)), locals=' '.join(['!0'] * 8),
          **types)
    for k in range(4):
        asked('local %d of four is not set' % k,
              '; '.join('struct.new_default 0; local.set %d' % i for i in range(4) if i != k) + '; ' + '; '.join('local.get %d; drop' % i for i in range(4)),
              locals='!0 !0 !0 !0', **types)


# ------------------------------------------------------------------------------------------------- functions and types of modules
def named():
    heading('Functions that ref.func may name')
    two = [('->', '', 'ref.func 1; drop'), ('->', '', '')]

    def naming(title, ok, features='default', **parts):
        b = W.build(funcs=parts.pop('funcs', two), **parts)
        wanted = 'ok' if ok else refusal(b, '', 'undeclared function reference; missing nothing; ' + IN_BODY)
        case('a function named ' + title, b, features, wanted=wanted)
    naming('by nothing', False)
    naming('by the start function alone', False, start=1)
    naming('by a call alone', False, funcs=[('->', '', 'ref.func 1; drop; call 1'), ('->', '', '')])
    naming('by ref.func in two bodies alone', False, funcs=two + [('->', '', 'ref.func 1; drop')])
    naming('by an export', True, exports=[('a', 'func', 1)])
    naming('by the second of two exports', True, exports=[('a', 'func', 0), ('b', 'func', 1)])
    naming('by an export of another function', False, exports=[('a', 'func', 0)])
    naming('by an export of a table of its index', False, tables=['funcref 1', 'funcref 1'], exports=[('a', 'table', 1)])
    naming('by an active list', True, tables=['funcref 2'], elems=[dict(funcs=[0, 1])])
    naming('by a passive list', True, elems=[dict(mode='passive', funcs=[1])])
    naming('by a declared list', True, elems=[dict(mode='declared', funcs=[1])])
    naming('by a list of another function', False, elems=[dict(mode='declared', funcs=[0])])
    naming('by a passive list of expressions', True, elems=[dict(mode='passive', type='funcref', exprs=['ref.null func', 'ref.func 1'])])
    naming('by a declared list of expressions', True, elems=[dict(mode='declared', type='funcref', exprs=['ref.func 1'])])
    naming('by an active list of expressions', True, tables=['funcref 2'], elems=[dict(type=None, exprs=['ref.func 1'])])
    naming('by a global', True, globals=[('funcref', 'ref.func 1')])
    naming('by a global of another function', False, globals=[('funcref', 'ref.func 0')])
    naming('by a table', True, tables=[('funcref 2', 'ref.func 1')])
    b = W.build(imports=[('m', 'f', 'func', '->')], funcs=[('->', '', 'ref.func 0; drop')])
    case('an imported function that is named by nothing', b, wanted=refusal(b, '', 'undeclared function reference'))
    b = W.build(imports=[('m', 'f', 'func', '->')], funcs=[('->', '', 'ref.func 0; drop; ref.func 1; drop')], exports=[('f', 'func', 0), ('g', 'func', 1)])
    case('an imported function and one that is defined, both exported', b, wanted='ok')
    b = W.build(funcs=[('->', '', 'ref.func 9; drop')])
    case('a function that is not there, in a body', b, wanted=refusal(b, '', 'unknown function 9: function index out of bounds'))


def calls():
    heading('Calls, and calls in place of the caller')
    for op, before in [('call', ''), ('call_indirect', 'i32.const 0'), ('call_ref', 'ref.func 0')]:
        immediate = {'call': '0', 'call_indirect': '0 0', 'call_ref': '0'}[op]

        def calling(callee, given_op, gives):
            """A call, and one in place of the caller, of a function of this type, in one that gives these results."""
            for name in [op, 'return_' + op]:
                ops = '; '.join(x for x in (given_op, before, '%s %s' % (name, immediate)) if x)
                yield W.build(types=[callee], funcs=[(0, '', 'unreachable'), ('-> ' + gives, '', ops)], tables=['funcref 2'],
                              elems=[dict(mode='declared', funcs=[0])])
        for title, gives, own_gives, ok in [('one result', 'i32', 'i32', True), ('two results', 'i32 i64', 'i32 i64', True), ('no results', '', '', True),
                                            ('a result of a subtype', '!i31', 'anyref', True),
                                            ('a result of a supertype', 'anyref', '!i31', False), ('another result', 'i32', 'i64', False),
                                            ('a result too few', 'i32', 'i32 i64', False),
                                            ('a result too many', 'i32 i64', 'i32', False), ('results in another order', 'i64 i32', 'i32 i64', False),
                                            ('no result for one', '', 'i32', False),
                                            ('one result for none', 'i32', '', False)]:
            row('%s and return_%s: %s' % (op, op, title), *[Part(b, 'ok' if ok else None) for b in calling('func f32 -> ' + gives, 'f32.const 1', own_gives)])
        for title, given_op in [('another operand', 'f64.const 1'), ('no operand', '')]:
            row('%s and return_%s: %s' % (op, op, title), *[Part(b) for b in calling('func f32 ->', given_op, '')])
    for table, index, ok in [('funcref i64 1', 'i64.const 0', True), ('funcref i64 1', 'i32.const 0', False), ('funcref 1', 'i64.const 0', False),
                             ('?0 1', 'i32.const 0', True), ('?nofunc 1', 'i32.const 0', True),
                             ('externref 1', 'i32.const 0', False), ('anyref 1', 'i32.const 0', False)]:
        for op in ['call_indirect', 'return_call_indirect']:
            asked('%s by a table %s and %s' % (op, table, index), '%s; %s 0 0' % (index, op), ty=0, types=['func ->'], tables=[table],
                  wanted='ok' if ok else None)
    valid('call_indirect by the second table', 'i32.const 0; call_indirect 0 1', ty=0, types=['func ->'], tables=['externref 1', 'funcref 1'])
    asked('call_indirect by a table that is not there', 'i32.const 0; call_indirect 0 0', ty=0, types=['func ->'])
    valid('a function calls itself', 'local.get 0; call 0', ty='i32 -> i32')
    b = W.build(funcs=[('i32 -> i64', '', 'local.get 0; call 1'), ('i32 -> i64', '', 'local.get 0; call 0')])
    case('two functions call each other', b, wanted='ok')
    valid('an operand of a subtype', 'i32.const 1; ref.i31; call 0', ty='anyref ->')
    asked('an operand of a supertype', 'local.get 1; call 0', locals='anyref', ty='i31ref ->')


def identities():
    heading('Equal types, groups and subtypes in bodies')
    twice = ['func ->', 'func ->']
    valid('call_ref by an equal type that is written again', 'ref.func 0; call_ref 1', ty=0, types=twice, exports=[('a', 'func', 0)], facts='types 0 0')
    groups = [('struct !1', 'struct !0'), ('struct !3', 'struct !2'), ('struct !5', 'struct !5')]
    valid('a structure of an equal group', 'ref.null 0; ref.as_non_null; local.set 0', locals='!2', types=groups, facts='types 0 1 0 1 2 3 4')
    asked('a structure of a group that is not equal', 'ref.null 0; ref.as_non_null; local.set 0', locals='!4', types=groups, ids=(2, 0))
    asked('the other member of an equal group', 'ref.null 0; ref.as_non_null; local.set 0', locals='!3', types=groups, ids=(1, 0))
    chain = ['sub[] struct', 'sub[0] struct i32', 'sub[1] struct i32 mut:i64', 'sub[0] struct f32']
    valid('a structure as its ancestor', 'struct.new_default 2; local.set 0', locals='!0', types=chain)
    asked('a structure as another branch of its ancestor', 'struct.new_default 2; local.set 0', locals='!3', types=chain, ids=(3, 2))
    asked('a structure as what is below it', 'struct.new_default 1; local.set 0', locals='!2', types=chain, ids=(2, 1))
    valid('a field of an ancestor', 'struct.new_default 2; struct.get 1 0; i32.eqz; drop', types=chain)
    asked('a field that the ancestor does not have', 'struct.new_default 2; struct.get 0 0; drop', types=chain)
    deep = ['sub[] struct'] + ['sub[%d] struct' % i for i in range(63)]
    valid('a structure as its ancestor, 63 types above', 'struct.new_default 63; local.set 0', locals='!0', types=deep)
    asked('a structure as its descendant, 63 types below', 'struct.new_default 0; local.set 0', locals='!63', types=deep, ids=(63, 0))
    functions = ['sub[] struct', 'sub[0] struct i32', 'sub[] func ?1 -> ?0', 'sub[2] func ?0 -> ?1']
    b = W.build(types=functions, funcs=[(3, '', 'unreachable'), ('->', '!2', 'ref.func 0; local.set 0; ref.null 1; ref.func 0; call_ref 2; drop')],
                exports=[('a', 'func', 0)])
    case('a function as its supertype', b, wanted='ok')
    b = W.build(types=functions, funcs=[(2, '', 'unreachable'), ('->', '!3', 'ref.func 0; local.set 0')], exports=[('a', 'func', 0)])
    case('a function as its subtype', b, ids=(3, 2))
    b = W.build(types=['func ->', ('func ->', 'struct')], funcs=[(0, '', ''), ('->', '!1', 'ref.func 0; local.set 0')], exports=[('a', 'func', 0)])
    case('a function as an equal type in another group', b, ids=(1, 0))
    row('a module twice, whose body casts to a type that the first module brought', *[Part(function('ref.null any; ref.cast 0; drop', types=['struct i32']),
                                                                                           'ok', 'types 0 1; all_types 2')] * 2)
    other = function('struct.new_default 0; drop', types=['array f32'])
    row('ids of a body are those of its own module', Part(W.build(types=['struct i32', 'struct i64', 'array f32']), 'ok', 'types 0 1 2'),
        Part(function('i32.const 3; array.new_default 0; array.len; drop', types=['array f32']), 'ok', 'types 2 3'),
        Part(other, refusal(other, '', 'expected struct type at index 0')),
        Part(function('struct.new_default 0; struct.get 0 0; i64.eqz; drop', types=['struct i64']), 'ok', 'types 1 3'))
    heading('Imported items in bodies')
    imports = [('m', 'f', 'func', 'i32 -> i64'), ('m', 't', 'table', 'externref i64 1'), ('m', 'g', 'global', 'mut:f32'), ('m', 'h', 'global', '!any'),
               ('m', 'e', 'tag', 'i32 ->'), ('m', 'n', 'memory', 'i64 1')]
    own = dict(imports=imports, tables=['funcref 1'], globals=[('i64', 'i64.const 1')], tags=['->'], mems=['1'])
    for title, ops, ok in [('a call of an imported function', 'i32.const 1; call 0; i64.eqz; drop', True),
                           ('a call of an imported function with another operand', 'i64.const 1; call 0; drop', False),
                           ('an imported table', 'i64.const 0; table.get 0; ref.is_null; drop', True),
                           ('an imported table at an index of 32 bits', 'i32.const 0; table.get 0; drop', False),
                           ('a table behind an imported one', 'i32.const 0; ref.null func; table.set 1', True),
                           ('an imported global', 'global.get 0; f32.abs; global.set 0', True),
                           ('an imported global that is not mutable', 'global.get 1; global.set 1', False),
                           ('an imported global that is never null', 'global.get 1; local.set 0', True),
                           ('a global behind imported ones', 'global.get 2; i64.eqz; drop', True), ('a global behind all', 'global.get 7; drop', False),
                           ('an imported tag', 'i32.const 1; throw 0', True),
                           ('an imported tag without its operand', 'throw 0', False), ('a tag behind an imported one', 'throw 1', True),
                           ('a tag behind all', 'throw 2', False),
                           ('an imported memory', 'i64.const 0; i64.load 3:0:0; drop', True),
                           ('an imported memory at an address of 32 bits', 'i32.const 0; i64.load 3:0:0; drop', False),
                           ('a memory behind an imported one', 'i32.const 0; i64.load 3:0:1; drop', True)]:
        (valid if ok else asked)(title, ops, locals='!any', **own)


def catches():
    heading('Catch clauses')
    tags = ['->', 'i32 ->', 'i32 f64 ->', '!0 ->']
    types = ['struct i32', 'func -> i32 f64', 'func -> i32 f64 !exn', 'func -> i32 !exn', 'func -> !exn', 'func -> i32 ?exn', 'func -> f64 i32',
             'func -> ?0 !exn', 'func i32 ->']
    for clause, form, ok in [('catch:0:0', '_', True), ('catch:1:0', '=i32', True), ('catch:2:0', '@1', True), ('catch:3:0', '=!0', True),
                             ('catch:3:0', '=?0', True), ('catch:3:0', '=structref', True), ('catch:1:0', '_', False),
                             ('catch:0:0', '=i32', False), ('catch:1:0', '=i64', False), ('catch:2:0', '@6', False), ('catch:2:0', '=i32', False),
                             ('catch:1:0', '@3', False), ('catch:4:0', '_', False), ('catch:0:2', '_', False),
                             ('catch_ref:0:0', '@4', True), ('catch_ref:0:0', '=exnref', True), ('catch_ref:1:0', '@3', True), ('catch_ref:1:0', '@5', True),
                             ('catch_ref:2:0', '@2', True), ('catch_ref:3:0', '@7', True), ('catch_ref:0:0', '_', False),
                             ('catch_ref:1:0', '=i32', False), ('catch_ref:1:0', '@4', False), ('catch_ref:2:0', '@3', False),
                             ('catch_ref:0:0', '=!noexn', False), ('catch_ref:4:0', '@4', False), ('catch_ref:0:2', '_', False),
                             ('catch_all:0', '_', True), ('catch_all:0', '=i32', False), ('catch_all:0', '=exnref', False), ('catch_all:2', '_', False),
                             ('catch_all_ref:0', '=exnref', True), ('catch_all_ref:0', '@4', True),
                             ('catch_all_ref:0', '_', False), ('catch_all_ref:0', '=i32', False), ('catch_all_ref:0', '=anyref', False),
                             ('catch_all_ref:0', '@3', False), ('catch_all_ref:2', '_', False)]:
        ops = 'block %s; try_table _ [%s]; end; unreachable; end; unreachable' % (form, clause)
        # the first types that differ aren't told here
        first = dict(told='') if (clause, form) in (('catch:1:0', '=i64'), ('catch:2:0', '@6'), ('catch_ref:0:0', '=!noexn'), ('catch_all_ref:0', '=i32'),
                                                    ('catch_all_ref:0', '=anyref')) else {}
        (valid if ok else asked)('%s to a block %s' % (clause, form), ops, types=types, tags=tags, **first)
    asked('an exception that may be null for a block of one that may not', 'block @4; local.get 0; end; drop', locals='exnref', types=types, tags=tags)
    valid('an exception without its null for a block of one that may not', 'block @4; local.get 0; ref.as_non_null; end; drop', locals='exnref', types=types, tags=tags)
    valid('what catch_ref gives is not null', 'block @4; block @4; try_table _ [catch_ref:0:0]; end; unreachable; end; end; drop', types=types, tags=tags)
    asked('what catch_ref gives to a label that may be null', 'block @4; block =exnref; try_table _ [catch_ref:0:0]; end; unreachable; end; end; drop', types=types, tags=tags)
    valid('catch to the function', 'try_table _ [catch:1:0]; end; unreachable', ty='-> i32', types=types, tags=tags)
    asked('catch to the function of another result', 'try_table _ [catch:1:0]; end; unreachable', ty='-> i64', told='', types=types, tags=tags)
    valid('catch to a loop', 'i32.const 1; loop @8; drop; try_table _ [catch:1:0]; end; end', types=types, tags=tags)
    asked('catch to a loop that takes another number', 'i32.const 1; loop @8; drop; try_table _ [catch:2:0]; end; end', types=types, tags=tags)
    around = 'block; block @4; block =i32; block @2; try_table _ [catch_ref:2:0,catch:1:1,catch_all_ref:2,catch_all:3%s]; end' + '; unreachable; end' * 4
    valid('four clauses of four kinds', around % '', types=types, tags=tags)
    asked('a wrong clause behind four that are right', around % ',catch:0:1', types=types, tags=tags)
    valid('a clause does not see the label of its own frame', 'block; try_table =i32 [catch_all:0]; i32.const 1; end; drop; end', types=types, tags=tags)
    valid('a branch to a try_table', 'try_table =i32; i32.const 1; br 0; end; drop', types=types, tags=tags)
    valid('a clause that a tag has twice', 'block; try_table _ [catch:0:0,catch:0:0]; end; end', types=types, tags=tags)
    case('a catch clause of no kind', with_body(b'\0' + bytes.fromhex('1f 40 01 04 00 0b') + b'\x0b'), wanted='refused; ' + IN_BODY)
    case('catch clauses that are cut off', with_body(b'\0' + bytes.fromhex('1f 40 02 02 00')), wanted='refused; ' + IN_BODY)


def casts():
    """Branches on casts by the rule of the Core Specification 3.0: the type that is cast to matches the other. With custom descriptors both
    are of one hierarchy alone."""
    heading('Branches on casts, without custom descriptors')
    types = ['sub[] struct', 'sub[0] struct i32', 'array mut:i32']
    for start, end, ok, wide in [('?any', '!0', True, True), ('?any', '?any', True, True), ('!any', '!i31', True, True), ('?0', '!1', True, True),
                                 ('?0', '?1', True, True), ('?eq', '!2', True, True),
                                 ('?1', '!0', False, True), ('!any', '?any', False, True), ('!any', '?0', False, True), ('?0', '!2', False, True),
                                 ('?struct', '!i31', False, True), ('?any', '!func', False, False),
                                 ('?0', '!extern', False, False), ('?func', '!any', False, False)]:
        for op in ['br_on_cast', 'br_on_cast_fail']:
            # a label that takes what is sent: the reference that is cast to, or what is left of the other
            sent = end if op == 'br_on_cast' else (start if end[0] == '!' else '!' + start[1:])
            ops = 'block =%s; local.get 0; %s 0 %s %s; unreachable; end; drop' % (sent, op, start, end)
            ty = '%s ->' % start
            bytes = function(ops, ty=ty, types=types)
            before = 'block =%s; local.get 0' % sent
            # descriptors lift the rule within a hierarchy
            missing = 'custom_descriptors' if wide else 'nothing'
            wanted = 'ok' if ok else refusal(bytes, before, 'type mismatch: cast to a type that is not a subtype; missing ' + missing)
            case('%s from %s to %s' % (op, start, end), bytes, wanted=wanted, own=wide and not ok)
            if wide and not ok:
                case('%s from %s to %s with custom descriptors' % (op, start, end), bytes, 'default+custom_descriptors', wanted='ok')


def gated():
    heading('Default proposals, and proposals that are off')
    plain = 'default-gc-function_references-gc_types-exceptions-simd-memory64-multi_memory'
    valid('numbers, blocks and calls without references',
          'block; loop; local.get 0; i32.eqz; br_if 1; local.get 0; i32.const 1; i32.sub; local.set 0; br 0; end; end; local.get 0; call 0', ty='i32 -> i32',
          features=plain)
    valid('a function without any proposal', 'local.get 0; local.get 1; i32.add; if =i32; i32.const 1; else; i32.const 2; end', ty='i32 i32 -> i32',
          features='none')
    valid('a load and a store without any proposal', 'i32.const 0; i32.const 0; i32.load 2:0; i32.store 2:0; memory.size 0; memory.grow 0; drop', mems=['1'],
          features='none')
    valid('call_indirect without any proposal', 'i32.const 0; call_indirect 0 0', ty=0, types=['func ->'], tables=['funcref 1'], features='none')
    valid('globals without any proposal', 'global.get 0; global.set 0', globals=[('mut:i32', 'i32.const 1')], features='none')
    valid('sign extension, saturation and tail calls without any proposal but floats', 'f32.const 1; i32.trunc_sat_f32_s; i32.extend8_s; drop; return_call 0',
          features='none+floats')
    asked('more than one table without reference_types', 'nop', tables=['funcref 1', 'funcref 1'], features='default-reference_types',
          wanted='refused; has_failed true', own=True)
    for feature, text, before, op, after, ty, parts in [
            ('reference_types', 'reference types support is not enabled', '', 'ref.null func', 'drop', '->', {}),
            ('reference_types', 'reference types support is not enabled', 'i32.const 0', 'table.get 0', 'drop', '->', dict(tables=['funcref 1'])),
            ('reference_types', 'reference types support is not enabled', 'i32.const 0; i32.const 0; i32.const 0', 'select_t i32', 'drop', '->', {}),
            ('reference_types', 'reference types support is not enabled', '', 'table.size 0', 'drop', '->', dict(tables=['funcref 1'])),
            ('bulk_memory', 'bulk memory support is not enabled', 'i32.const 0; i32.const 0; i32.const 0', 'memory.copy 0 0', '', '->', dict(mems=['1'])),
            ('bulk_memory', 'bulk memory support is not enabled', 'i32.const 0; i32.const 0; i32.const 0', 'memory.fill 0', '', '->', dict(mems=['1'])),
            ('bulk_memory', 'bulk memory support is not enabled', 'i32.const 0; i32.const 0; i32.const 0', 'table.copy 0 0', '', '->',
             dict(tables=['funcref 1'])),
            ('floats', 'floating-point support is disabled', '', 'f32.const 1', 'drop', '->', {}),
            ('floats', 'floating-point support is disabled', 'i32.const 1', 'f64.convert_i32_s', 'drop', '->', {}),
            ('floats', 'floating-point support is disabled', 'i32.const 0', 'f64.load 0:0', 'drop', '->', dict(mems=['1'])),
            ('floats', 'floating-point support is disabled', 'unreachable', 'i64.trunc_sat_f64_u', 'drop', '->', {}),
            ('floats', 'floating-point support is disabled', '', 'f64.const 1', 'drop', '->', {}),
            ('simd', 'SIMD support is not enabled', '', 'v128.const', 'drop', '->', {}), ('exceptions', 'exceptions support is not enabled', '', 'try_table',
                                                                                          'end', '->', {}),
            ('exceptions', 'exceptions support is not enabled', '', 'throw 0', '', '->', {}),
            ('exceptions', 'exceptions support is not enabled', 'unreachable', 'throw_ref', '', '->', {}),
            ('function_references', 'function references support is not enabled', 'unreachable', 'call_ref 0', '', '->', {}),
            ('function_references', 'function references support is not enabled', 'unreachable', 'return_call_ref 0', '', '->', {}),
            ('function_references', 'function references support is not enabled', 'local.get 0', 'ref.as_non_null', 'drop', 'funcref ->', {}),
            ('function_references', 'function references support is not enabled', 'local.get 0', 'br_on_null 0', 'drop', 'funcref ->', {}),
            ('function_references', 'function references support is not enabled', 'unreachable', 'br_on_non_null 0', '', '->', {}),
            ('gc', 'gc support is not enabled', 'unreachable', 'ref.eq', 'drop', '->', {}), ('gc', 'gc support is not enabled', 'i32.const 1', 'ref.i31',
                                                                                             'drop', '->', {}),
                                                                                             ('gc', 'gc support is not enabled', 'unreachable', 'i31.get_u',
                                                                                              'drop', '->', {}),
            ('gc', 'gc support is not enabled', 'unreachable', 'array.len', 'drop', '->', {}),
            ('gc', 'gc support is not enabled', 'local.get 0', 'ref.test func', 'drop', 'funcref ->', {}),
            ('gc', 'gc support is not enabled', 'local.get 0', 'ref.cast func', 'drop', 'funcref ->', {}),
            ('gc', 'gc support is not enabled', 'local.get 0', 'any.convert_extern', 'drop', 'externref ->', {}),
            ('multi_value', 'blocks, loops, and ifs may only produce a resulttype when multi-value is not enabled', 'i32.const 1', 'block @0', 'drop; end',
             'i32 ->', {}),
            ('multi_value', 'blocks, loops, and ifs may only produce a resulttype when multi-value is not enabled', 'i32.const 1', 'loop @0', 'drop; end',
             'i32 ->', {}),
            ('multi_value', 'blocks, loops, and ifs may only produce a resulttype when multi-value is not enabled', 'i32.const 1; i32.const 1', 'if @0',
             'drop; end', 'i32 ->', {}),
            ('shared_everything_threads', 'shared-everything-threads support is not enabled', 'i32.const 1', 'x:fe72', 'drop', '->', {})]:
        features = 'default-' + feature
        parts = dict(parts)
        if ty == 'i32 ->' or 'call_ref' in op:
            parts['types'], ty = ['func ' + ty], 0
        word = {'x:fe72': 'ref.i31_shared'}.get(op, op)
        bytes = function('; '.join(x for x in (before, op, after) if x), '', ty, **parts)
        case('%s in a module without %s' % (word, feature), bytes, features, wanted='%s; missing %s; %s' % (refusal(bytes, before, text), feature, IN_BODY),
             own=True)
        if feature != 'shared_everything_threads':
            case('%s in a module with %s' % (word, feature), bytes, told='' if word == 'if @0' else None)
    for feature, ty in [('floats', 'f32'), ('simd', 'v128'), ('reference_types', 'funcref'), ('gc', 'anyref'), ('exceptions', 'exnref'),
                        ('gc_types', 'externref'), ('function_references', '!func'), ('gc', 'structref'), ('shared_everything_threads', 'shared')]:
        type_bytes = bytes.fromhex('6370') if ty == 'shared' else None
        declared = W.listed([W.unsigned(1) + (b'\x63\x65\x70' if ty == 'shared' else W.value_type(ty))])
        b = with_body(declared + b'\x0b')
        case('a local of %s in a module without %s' % (ty, feature), b, 'default-' + feature,
             wanted='refused %d %s; %s' % (body_start(b) + 1, B.value_type(feature), IN_BODY), own=True)
        b = with_body(b'\0\x02' + (b'\x63\x65\x70' if ty == 'shared' else W.value_type(ty)) + b'\0\x0b\x1a\x0b')
        case('a block that gives %s in a module without %s' % (ty, feature), b, 'default-' + feature,
             wanted='refused %d %s; %s' % (body_start(b) + 1, B.value_type(feature), IN_BODY), own=True)


    for features, wanted in [('default-gc', 'ok'), ('default-function_references', 'ok'), ('default-gc-function_references', None)]:
        b = function('', '?0', 0, types=['func ->'])
        case('a local of a type by its index, %s' % features, b, features,
             wanted=wanted or 'refused %d %s; %s' % (body_start(b) + 1, B.BY_INDEX, IN_BODY), own=True)


# A group of a structure and its descriptor, by its bytes; shared types; functions of continuations' hierarchy.
DESCRIBED = [b'\x4e\x02\x4d\x01\x5f\x01\x7f\x01\x4c\x00\x5f\x00']
SHARED = [b'\x65\x60\0\0', b'\x65\x5f\x01\x7f\x01', 'func ->', 'struct mut:i32', b'\x65\x5e\x7f\x01', b'\x65\x60\0\x01\x7f']


def raw_body(*pieces):
    """Bytes as they are, and operators, in turn, behind no locals but those that the first piece declares."""
    return b''.join(x if isinstance(x, bytes) else W.operators(x) for x in pieces) + b'\x0b'


def beyond():
    heading('Proposals that are off by default')
    for title, feature, pieces, parts in [
            ('ref.i31_shared', 'shared_everything_threads', (b'\0', 'i32.const 1; x:fe72; drop'), {}),
            ('ref.i31_shared of i64', 'shared_everything_threads', (b'\0', 'i64.const 1; x:fe72; drop'), {}),
            ('ref.i31_shared to a local that is shared', 'shared_everything_threads', (b'\x01\x01\x64\x65\x6c', 'i32.const 1; x:fe72; local.set 0'), {}),
            ('ref.i31_shared to a local that is not shared', 'shared_everything_threads', (b'\x01\x01\x64\x6c', 'i32.const 1; x:fe72; local.set 0'), {}),
            ('ref.i31 to a local that is shared', 'shared_everything_threads', (b'\x01\x01\x64\x65\x6c', 'i32.const 1; ref.i31; local.set 0'), {}),
            ('i31.get_s of a shared reference', 'shared_everything_threads', (b'\0', 'i32.const 1; x:fe72; i31.get_s; drop'), {}),
            ('ref.eq of a shared reference and one that is not', 'shared_everything_threads',
             (b'\0', 'i32.const 1; x:fe72; i32.const 1; ref.i31; ref.eq; drop'), {}),
            ('ref.eq of two shared references', 'shared_everything_threads', (b'\0', 'i32.const 1; x:fe72; i32.const 1; x:fe72; ref.eq; drop'), {}),
            ('ref.null of a shared type', 'shared_everything_threads', (b'\x01\x01\x63\x65\x6e', 'x:d0656e; local.set 0'), {}),
            ('ref.null of a type that is not shared, to a local that is', 'shared_everything_threads', (b'\x01\x01\x63\x65\x6e', 'ref.null any; local.set 0'),
             {}),
            ('extern.convert_any of a shared reference', 'shared_everything_threads', (b'\x01\x01\x63\x65\x6f', 'x:d0656e; extern.convert_any; local.set 0'),
             {}),
            ('extern.convert_any of a shared reference, to a local that is not', 'shared_everything_threads',
             (b'\x01\x01\x6f', 'x:d0656e; extern.convert_any; local.set 0'), {}),
            ('a structure that is shared', 'shared_everything_threads', (b'\0', 'i32.const 1; struct.new 1; struct.get 1 0; drop'), dict(types=SHARED)),
            ('struct.new_desc', 'custom_descriptors', (b'\0', 'i32.const 1; x:fb0101; x:fb2000; drop'), dict(types=DESCRIBED, ntypes=2)),
            ('struct.new_desc without its descriptor', 'custom_descriptors', (b'\0', 'i32.const 1; x:fb2000; drop'), dict(types=DESCRIBED, ntypes=2)),
            ('struct.new_desc without a field', 'custom_descriptors', (b'\0', 'x:fb0101; x:fb2000; drop'), dict(types=DESCRIBED, ntypes=2)),
            ('struct.new_desc with a null descriptor', 'custom_descriptors', (b'\0', 'i32.const 1; ref.null none; x:fb2000; drop'),
             dict(types=DESCRIBED, ntypes=2)),
            ('struct.new_desc with a descriptor that is not exact', 'custom_descriptors', (b'\0', 'i32.const 1; ref.null 1; x:fb2000; drop'),
             dict(types=DESCRIBED, ntypes=2)),
            ('struct.new_desc of a type without descriptor', 'custom_descriptors', (b'\0', 'unreachable; x:fb2001; drop'), dict(types=DESCRIBED, ntypes=2)),
            ('struct.new_default_desc', 'custom_descriptors', (b'\0', 'x:fb0101; x:fb2100; drop'), dict(types=DESCRIBED, ntypes=2)),
            ('struct.new_default_desc without its descriptor', 'custom_descriptors', (b'\0', 'x:fb2100; drop'), dict(types=DESCRIBED, ntypes=2)),
            ('struct.new of a type with a descriptor', 'custom_descriptors', (b'\0', 'i32.const 1; struct.new 0; drop'), dict(types=DESCRIBED, ntypes=2)),
            ('struct.new_default of a type with a descriptor', 'custom_descriptors', (b'\0', 'struct.new_default 0; drop'), dict(types=DESCRIBED, ntypes=2)),
            ('struct.new gives an exact reference', 'custom_descriptors', (b'\x01\x01\x64\x62\x00', 'struct.new_default 0; local.set 0'),
             dict(types=['sub[] struct', 'sub[0] struct'])),
            ('a reference that is not exact, to a local that is', 'custom_descriptors', (b'\x01\x01\x63\x62\x00', 'ref.null 0; local.set 0'),
             dict(types=['sub[] struct', 'sub[0] struct'])),
            ('an exact reference of a subtype, to a local that is exact', 'custom_descriptors',
             (b'\x01\x01\x64\x62\x00', 'struct.new_default 1; local.set 0'), dict(types=['sub[] struct', 'sub[0] struct'])),
            ('an exact reference of a subtype, to a local that is not exact', 'custom_descriptors',
             (b'\x01\x01\x64\x00', 'struct.new_default 1; local.set 0'), dict(types=['sub[] struct', 'sub[0] struct'])),
            ('none to a local that is exact', 'custom_descriptors', (b'\x01\x01\x63\x62\x00', 'ref.null none; local.set 0'),
             dict(types=['sub[] struct', 'sub[0] struct'])),
            ('a cast to an exact type', 'custom_descriptors', (b'\x01\x01\x64\x62\x00', 'ref.null any; x:fb166200; local.set 0'),
             dict(types=['sub[] struct', 'sub[0] struct'])),
            ('ref.null of a continuation', 'stack_switching', (b'\x01\x01\x63\x68', 'x:d068; local.set 0; x:d075; local.set 0'), {}),
            ('ref.null of a continuation is no function', 'stack_switching', (b'\x01\x01\x70', 'x:d068; local.set 0'), {}),
            ('ref.test of a continuation', 'stack_switching', (b'\0', 'x:d068; x:fb1468; drop'), {}),
            ('ref.cast of a continuation', 'stack_switching', (b'\0', 'x:d068; x:fb1775; drop'), {}),
            ('ref.is_null of a continuation', 'stack_switching', (b'\0', 'x:d068; ref.is_null; drop'), {}),
            ('throw of a tag that gives something', 'stack_switching', (b'\0', 'i32.const 1; throw 0'), dict(tags=['i32 -> i32'])),
            ('catch of a tag that gives something', 'stack_switching', (b'\0', 'block =i32; try_table _ [catch:0:0]; end; unreachable; end; drop'),
             dict(tags=['i32 -> i32'])),
            ('throw of a tag that gives nothing, beside one that does', 'stack_switching', (b'\0', 'throw 1'), dict(tags=['i32 -> i32', '->'])),
            ('a load from a memory of pages of one byte', 'custom_page_sizes', (b'\0', 'i32.const 0; i32.load 2:0; drop; memory.size 0; i32.eqz; drop'),
             dict(mems=[b'\x08\x01\0'])),
            ('memory.grow of a memory of pages of one byte, by 64 bits', 'custom_page_sizes', (b'\0', 'i64.const 0; memory.grow 0; drop'),
             dict(mems=[b'\x08\x01\0']))]:
        case(title, with_body(raw_body(*pieces), **parts), 'default+' + feature, beyond=True)
    heading('What bodies of shared functions reach')
    items = dict(types=SHARED, globals=[('i32', 'i32.const 1'), ('mut:i32', 'i32.const 1')], tables=['funcref 1'], mems=['1'])
    for title, ops in [('a global that is not shared', 'global.get 0; drop'), ('a mutable global that is not shared', 'i32.const 1; global.set 1'),
                       ('a table that is not shared', 'i32.const 0; table.get 0; drop'),
                               ('a memory', 'i32.const 0; i32.load 2:0; drop'), ('a structure that is shared', 'struct.new_default 1; drop'),
                               ('a structure that is not shared', 'struct.new_default 3; drop'),
                               ('an array that is shared', 'i32.const 1; array.new_default 4; drop'), ('a function that is shared', 'call 0'),
                               ('a function that is not shared', 'call 1'),
                               ('a block of a type that is shared', 'block @0; end'), ('a block of a type that is not shared', 'block @2; end'),
                               ('call_ref of a type that is not shared', 'ref.null 2; call_ref 2'),
                               ('call_ref of a type that is shared', 'ref.null 0; call_ref 0'),
                               ('return_call of a function that is not shared', 'return_call 1'), ('a local that is not shared', 'ref.null any; drop')]:
        both = [W.build(funcs=[(0, '', x), (2, '', y)], **items) for x, y in [(ops, ''), ('', ops)]]
        row('a shared function, and one that is not, and ' + title, *[Part(b, beyond=True) for b in both], features='default+shared_everything_threads')


def refused_with_all_on(title, features, operator, told=None, **parts):
    """An operator that is refused with its features on, behind what is not reached."""
    b = with_body(raw_body(b'\0', 'unreachable; %s; drop' % operator), **parts)
    case(title, b, features, told=told, facts='missing nothing', beyond=True)


ALLOCATIONS = [('struct.new', 'fb00'), ('struct.new_default', 'fb01'), ('struct.new_desc', 'fb20'), ('struct.new_default_desc', 'fb21')]


def descriptors():
    heading('Structures with descriptors and without')
    features = 'default+custom_descriptors'
    for op, code in ALLOCATIONS:
        with_descriptor = dict(types=DESCRIBED, ntypes=2)
        accepted = [('a type with a descriptor', 0, with_descriptor)]
        refused = [('a descriptor', 1, with_descriptor), ('a type without a descriptor', 0, dict(types=['struct i32']))]
        if 'desc' not in op:
            accepted, refused = refused, accepted
        for which, index, parts in accepted:
            body = raw_body(b'\0', 'unreachable; x:%s%02x; drop' % (code, index))
            case('%s of %s, behind what is not reached' % (op, which), with_body(body, **parts), features, beyond=True)
        for which, index, parts in refused:
            refused_with_all_on('%s of %s, behind what is not reached' % (op, which), features, 'x:%s%02x' % (code, index), **parts)
        for which, types in [('an array', ['array i32']), ('a function type', ['func ->'])]:
            refused_with_all_on('%s of %s' % (op, which), features, 'x:%s00' % code, '' if 'desc' in op else None, types=types)
        refused_with_all_on('%s of a type that is not there' % op, features, 'x:%s63' % code, types=['struct'])


def continuations():
    heading('Operators that name a continuation type')
    types = ['func ->', b'\x5d\x00', 'struct i8', 'array mut:i8']
    for op in ['struct.new %d', 'struct.new_default %d', 'struct.get_s %d 0', 'struct.get_u %d 0']:
        name = op.split()[0]
        valid('%s of a structure behind a continuation type' % name, 'unreachable; %s; drop' % op % 2, features='default+stack_switching', types=types)
        refused_with_all_on('%s of a continuation type' % name, 'default+stack_switching', op % 1, types=types)
    for op in ['struct.get 1 0', 'struct.set 1 0', 'array.new 1', 'array.new_default 1', 'array.new_fixed 1 0', 'array.get 1', 'array.get_s 1',
               'array.get_u 1', 'array.set 1', 'array.fill 1', 'call_ref 1', 'return_call_ref 1']:
        refused_with_all_on('%s of a continuation type' % op.split()[0], 'default+stack_switching', op, types=types)
    for op, code in ALLOCATIONS[2:]:
        refused_with_all_on('%s of a continuation type' % op, 'default+stack_switching+custom_descriptors', 'x:%s01' % code, '', types=types)


def edges():
    """What few rows tell apart: found by tools/shape_mutations.py."""
    heading('Orders of operands, subtypes and given types')
    arrays = ['array mut:i64', 'array mut:i32', 'func ->', 'array mut:funcref', 'array mut:?2', 'sub[] struct', 'sub[5] struct i32', 'array mut:?5',
              'array mut:?6', 'array funcref', 'func -> i64 anyref', 'func -> i64 !any']
    tables = ['funcref 1', 'funcref i64 1', '?2 1']
    segments = [dict(mode='passive', type='funcref', exprs=['ref.null func']), dict(mode='passive', type='?2', exprs=['ref.null 2'])]
    parts = dict(types=arrays, tables=tables, elems=segments)
    for title, ops, ok in [
            ('br_if with a number of 64 bits below its condition', 'block =i64; i64.const 1; i32.const 1; br_if 0; end; drop', True),
            ('br_if with its condition below a number of 64 bits', 'block =i64; i32.const 1; i64.const 1; br_if 0; end; drop', False),
            ('br_if gives a number of 64 bits', 'block =i64; i64.const 1; i32.const 1; br_if 0; i64.eqz; drop; i64.const 1; end; drop', True),
            ('table.copy to a table of 32 bits from one of 64', 'i32.const 0; i64.const 0; i32.const 0; table.copy 0 1', True),
            ('table.copy to a table of 64 bits from one of 32', 'i64.const 0; i32.const 0; i32.const 0; table.copy 1 0', True),
            ('table.copy within a table of 64 bits', 'i64.const 0; i64.const 0; i64.const 0; table.copy 1 1', True),
            ('table.copy to a table of 32 bits with its places exchanged', 'i64.const 0; i32.const 0; i32.const 0; table.copy 0 1', False),
            ('table.copy to a table of 64 bits with a length of 64', 'i64.const 0; i32.const 0; i64.const 0; table.copy 1 0', False),
            ('table.copy to a table of 32 bits with a length of 64', 'i32.const 0; i64.const 0; i64.const 0; table.copy 0 1', False),
            ('table.copy within a table of 64 bits with a length of 32', 'i64.const 0; i64.const 0; i32.const 0; table.copy 1 1', False),
            ('array.new of numbers of 64 bits', 'i64.const 1; i32.const 2; array.new 0; drop', True),
            ('array.new of numbers of 64 bits with its length first', 'i32.const 2; i64.const 1; array.new 0; drop', False),
            ('array.fill with numbers of 64 bits', 'ref.null 0; i32.const 0; i64.const 1; i32.const 2; array.fill 0', True),
            ('array.fill with numbers of 64 bits behind its length', 'ref.null 0; i32.const 0; i32.const 2; i64.const 1; array.fill 0', False),
            ('array.set of numbers of 64 bits', 'ref.null 0; i32.const 0; i64.const 1; array.set 0', True),
            ('array.set with its index behind', 'ref.null 0; i64.const 1; i32.const 0; array.set 0', False),
            ('array.new_elem from a segment of a subtype', 'i32.const 0; i32.const 1; array.new_elem 3 1; drop', True),
            ('array.new_elem from a segment of a supertype', 'i32.const 0; i32.const 1; array.new_elem 4 0; drop', False),
            ('array.init_elem from a segment of a subtype', 'ref.null 3; i32.const 0; i32.const 0; i32.const 1; array.init_elem 3 1', True),
            ('array.init_elem from a segment of a supertype', 'ref.null 4; i32.const 0; i32.const 0; i32.const 1; array.init_elem 4 0', False),
            ('array.init_elem of elements that are not mutable', 'ref.null 9; i32.const 0; i32.const 0; i32.const 1; array.init_elem 9 0', False),
            ('array.copy from elements of a subtype', 'ref.null 7; i32.const 0; ref.null 8; i32.const 0; i32.const 1; array.copy 7 8', True),
            ('array.copy from elements of a supertype', 'ref.null 8; i32.const 0; ref.null 7; i32.const 0; i32.const 1; array.copy 8 7', False),
            ('table.init from a segment of a subtype', 'i32.const 0; i32.const 0; i32.const 0; table.init 1 0', True),
            ('table.init from a segment of a supertype', 'i32.const 0; i32.const 0; i32.const 0; table.init 0 2', False),
            ('i31.get_s gives i32', 'ref.null i31; i31.get_s; i32.eqz; drop', True), ('i31.get_u gives i32', 'ref.null i31; i31.get_u; i32.eqz; drop', True),
            ('i31.get_s gives no i64', 'ref.null i31; i31.get_s; i64.eqz; drop', False),
            ('i31.get_u gives no i64', 'ref.null i31; i31.get_u; i64.eqz; drop', False), ('i31.get_u of eq', 'ref.null eq; i31.get_u; drop', False),
            ('i31.get_s of none', 'ref.null none; i31.get_s; drop', True),
            ('array.len gives no i64', 'ref.null array; array.len; i64.eqz; drop', False),
            ('ref.eq gives no i64', 'ref.null eq; ref.null eq; ref.eq; i64.eqz; drop', False),
            ('ref.is_null gives no i64', 'ref.null eq; ref.is_null; i64.eqz; drop', False),
            ('ref.test gives no i64', 'ref.null eq; ref.test i31; i64.eqz; drop', False),
            ('br_on_cast with a number below, that the label has', 'block @10; i64.const 1; ref.null any; br_on_cast 0 ?any ?5; end; drop; drop', True),
            ('br_on_cast without the number that the label has', 'block @10; ref.null any; br_on_cast 0 ?any ?5; unreachable; end; drop; drop', False),
            ('br_on_cast with the number above', 'block @10; ref.null any; i64.const 1; br_on_cast 0 ?any ?5; unreachable; end; drop; drop', False),
            ('br_on_cast_fail with a number below, that the label has', 'block @10; i64.const 1; ref.null any; br_on_cast_fail 0 ?any !5; end; drop; drop',
             True),
            ('br_on_cast_fail without the number that the label has', 'block @10; ref.null any; br_on_cast_fail 0 ?any !5; unreachable; end; drop; drop',
             False),
            ('br_on_cast_fail without an operand', 'block =anyref; br_on_cast_fail 0 ?any !5; unreachable; end; drop', False),
            ('br_on_cast without an operand', 'block =anyref; br_on_cast 0 ?any !5; unreachable; end; drop', False),
            ('br_on_null with a number below, that the label has', 'block =i64; i64.const 1; ref.null any; br_on_null 0; drop; end; drop', True),
            ('br_on_null without the number that the label has', 'block =i64; ref.null any; br_on_null 0; drop; i64.const 1; end; drop', False),
            ('br_on_non_null with a number below, that the label has', 'block @11; i64.const 1; ref.null any; br_on_non_null 0; unreachable; end; drop; drop',
             True),
            ('br_on_non_null leaves the number', 'block @11; i64.const 1; ref.null any; br_on_non_null 0; i64.eqz; drop; unreachable; end; drop; drop', True),
            ('br_on_non_null without the number that the label has', 'block @11; ref.null any; br_on_non_null 0; unreachable; end; drop; drop', False)]:
        (valid if ok else asked)(title, ops, **parts)
    heading('Proposals that an operator needs, and those that it does not')
    active = dict(tables=['funcref 1'], elems=[dict(funcs=[0])])
    for title, ops, features, wanted, parts in [
            ('try_table that gives f32', 'try_table =f32; unreachable; end; unreachable', '-floats', B.value_type('floats'), {}),
            ('try_table of a function type', 'try_table @0; end', '-multi_value', B_MULTI, dict(types=['func ->'])),
            ('select with f32', 'unreachable; select_t f32; drop', '-floats', B.value_type('floats'), {}),
            ('select with exn', 'unreachable; select_t exnref; drop', '-exceptions', B.value_type('exceptions'), {}),
            ('f32.eq in code that is not reached', 'unreachable; f32.eq; drop', '-floats', 'floating-point support is disabled', {}),
            ('i64.trunc_f64_s in code that is not reached', 'unreachable; i64.trunc_f64_s; drop', '-floats', 'floating-point support is disabled', {}),
            ('table.set', 'unreachable; table.set 0', '-reference_types', B_REFERENCES, dict(tables=['funcref 1'])),
            ('table.grow', 'unreachable; table.grow 0; drop', '-reference_types', B_REFERENCES, dict(tables=['funcref 1'])),
            ('table.fill', 'unreachable; table.fill 0', '-reference_types', B_REFERENCES, dict(tables=['funcref 1'])),
            ('ref.is_null', 'unreachable; ref.is_null; drop', '-reference_types', B_REFERENCES, {}),
            ('table.init', 'unreachable; table.init 0 0', '-bulk_memory', B_BULK, active), ('elem.drop', 'elem.drop 0', '-bulk_memory', B_BULK, active),
            ('ref.null exn', 'ref.null exn; drop', '-exceptions', '', {}), ('ref.null any', 'ref.null any; drop', '-gc', '', {}),
            ('ref.null extern', 'ref.null extern; drop', '-gc_types', '', {}),
            ('ref.null func', 'ref.null func; drop', '-function_references', None, {}), ('ref.null func', 'ref.null func; drop', '-gc', None, {}),
            ('ref.null of a type', 'ref.null 0; drop', '-gc', None, dict(types=['func ->'])),
            ('ref.null of a type', 'ref.null 0; drop', '-gc-function_references', '', dict(types=['func ->'])),
            ('br_on_non_null', 'block =funcref; unreachable; br_on_non_null 0; unreachable; end; drop', '-function_references',
             'function references support is not enabled', {}),
            ('ref.test exn', 'unreachable; ref.test exn; drop', '-exceptions', '', {}),
            ('ref.cast exn', 'unreachable; ref.cast_null exn; drop', '-exceptions', '', {}),
            ('br_on_cast', 'block =funcref; local.get 0; br_on_cast 0 ?func ?func; unreachable; end; drop', '-gc', 'gc support is not enabled',
             dict(ty='funcref ->')),
            ('br_on_cast_fail', 'block =funcref; local.get 0; br_on_cast_fail 0 ?func ?func; unreachable; end; drop', '-gc', 'gc support is not enabled',
             dict(ty='funcref ->')),
            ('br_on_cast to what is never null', 'block =funcref; local.get 0; br_on_cast 0 ?func !func; unreachable; end; drop', '-function_references', '',
             dict(ty='funcref ->')),
            ('br_on_cast from what is never null', 'block =funcref; unreachable; br_on_cast 0 !func ?func; unreachable; end; drop',
             '+custom_descriptors-function_references', '', {}),
            ('ref.i31', 'i32.const 1; ref.i31; drop', '-gc_types', B.value_type('gc_types'), {}),
            ('any.convert_extern', 'unreachable; any.convert_extern; drop', '-gc_types', B.value_type('gc_types'), {}),
            ('extern.convert_any', 'unreachable; extern.convert_any; drop', '-gc_types', B.value_type('gc_types'), {}),
            ('extern.convert_any', 'ref.null any; extern.convert_any; drop', '-function_references', None, {}),
            ('any.convert_extern', 'ref.null extern; any.convert_extern; drop', '-function_references', None, {}),
            ('ref.i31', 'i32.const 1; ref.i31; drop', '-bulk_memory', None, {}),
            ('any.convert_extern', 'ref.null extern; any.convert_extern; drop', '-bulk_memory', None, {}),
            ('struct.new_default', 'struct.new_default 0; drop', '-bulk_memory', None, dict(types=['struct i32'])),
            ('br_on_cast', 'block =anyref; local.get 0; br_on_cast 0 ?any ?i31; end; drop', '-bulk_memory', None, dict(ty='anyref ->')),
            ('i31.get_s', 'ref.null i31; i31.get_s; drop', '-bulk_memory', None, {}),
            ('throw and try_table', 'try_table; throw 0; end', '-gc', None, dict(tags=['->'])),
            ('memory.copy', 'i32.const 0; i32.const 0; i32.const 0; memory.copy 0 0', '-gc', None, dict(mems=['1'])),
            ('call_ref', 'ref.null 0; call_ref 0', '-gc', None, dict(types=['func ->'])), ('table.get', 'i32.const 0; table.get 0; drop', '-gc', None,
                                                                                           dict(tables=['funcref 1'])),
            ('table.size', 'table.size 0; drop', '-bulk_memory', None, dict(tables=['funcref 1'])),
            ('select with a type', 'i32.const 1; i32.const 1; i32.const 1; select_t i32; drop', '-gc', None, {}),
            ('ref.func', 'ref.func 0; drop', '-gc', None, dict(exports=[('f', 'func', 0)])),
            ('ref.as_non_null', 'ref.null func; ref.as_non_null; drop', '-gc', None, {}),
            ('memory.init', 'i32.const 0; i32.const 0; i32.const 0; memory.init 0 0', '-gc', None, dict(mems=['1'], datacount=1, datas=[dict(mode='passive')])),
            ('data.drop', 'data.drop 0', '-gc', None, dict(datacount=1, datas=[dict(mode='passive')])), ('table.init', 'unreachable; table.init 0 0', '-gc', None, active),
            ('elem.drop', 'elem.drop 0', '-gc', None, active)]:
        b = function(ops, **parts)
        if wanted:
            # the operator that is refused is the first one but those that make operands
            before = '; '.join(x for x in re.match(r'((?:unreachable|local.get 0|block =funcref|i32.const 1)(?:; |$))*', ops).group(0).split('; ') if x)
            wanted = refusal(b, before, wanted)
        if wanted is not None:
            missing = '' if '; missing' in wanted else '; missing ' + features.split('-')[-1]
            wanted = '%s%s; %s' % (wanted or 'refused', missing, IN_BODY)
        case('%s, default%s' % (title, features), b, 'default' + features, wanted=wanted or 'ok', own=wanted is not None)
    heading('What bodies of shared functions reach, by each operator')
    items = dict(types=SHARED + ['array mut:i32', 'func -> i32'], tables=['funcref 1'], elems=[dict(mode='passive', type='funcref', exprs=[])],
                 globals=[('i32', 'i32.const 1')])
    for ops in ['unreachable; table.set 0', 'table.size 0; drop', 'unreachable; table.grow 0; drop', 'unreachable; table.fill 0',
                'unreachable; table.copy 0 0', 'unreachable; table.init 0 0', 'unreachable; call_indirect 0 0',
                'unreachable; return_call_indirect 0 0', 'unreachable; return_call_ref 2', 'unreachable; array.copy 4 6', 'unreachable; array.copy 6 4',
                'unreachable; array.get 6; drop', 'unreachable; array.set 6', 'unreachable; array.new 6; drop',
                'unreachable; array.fill 6', 'unreachable; struct.get 3 0; drop', 'unreachable; struct.set 3 0', 'unreachable; struct.new 3; drop',
                'loop @2; end', 'i32.const 1; if @2; end', 'try_table @2; end', 'elem.drop 0']:
        both = [W.build(funcs=[(0, '', x), (2, '', y)], **items) for x, y in [(ops, ''), ('', ops)]]
        row('a shared function, and one that is not: %s' % ops.replace(';', ','), *[Part(b, beyond=True) for b in both],
            features='default+shared_everything_threads')
    asked('catch_ref of a tag that gives something', 'block @0; try_table _ [catch_ref:0:0]; end; unreachable; end; drop; drop',
          features='default+stack_switching', types=['func -> i32 exnref'],
          tags=['i32 -> i32'])
    # a table that is shared, and one that isn't, both of references that are
    shared_tables = [b'\x63\x65\x70\x02\x01', b'\x63\x65\x70\x00\x01']
    for ops in ['table.copy 0 0', 'table.copy 0 1', 'table.copy 1 0', 'table.copy 1 1', 'table.size 0; drop', 'table.size 1; drop']:
        both = [W.build(types=SHARED, tables=shared_tables, funcs=[(0, '', x), (2, '', y)]) for x,
                y in [('unreachable; ' + ops, ''), ('', 'unreachable; ' + ops)]]
        row('a shared function, and one that is not: %s of a shared table and another one' % ops.replace(';', ','), *[Part(b, beyond=True) for b in both],
            features='default+shared_everything_threads')
    described = [b'\x4e\x02\x4d\x01\x5f\x01\x64\x6e\x00\x4c\x00\x5f\x00']
    case('struct.new_default_desc of a field without default', with_body(raw_body(b'\0', 'x:fb0101; x:fb2100; drop'), types=described, ntypes=2),
         'default+custom_descriptors', beyond=True)
    b = W.build(types=DESCRIBED + [b'\x65\x60\0\0'], ntypes=3, funcs=[(2, '', 'unreachable; x:fb2000; drop')])
    case('struct.new_desc in a shared function, of a type that is not shared', b, 'default+custom_descriptors+shared_everything_threads', beyond=True)


def seldom():
    """Operators that are read in place, before bytes that another reading takes for another operator; and types that several modules share."""
    heading('Operators that are read in place, and what stands behind them')
    three = 'i32.const 0; i32.const 0; i32.const 0; '
    for title, ops, parts in [
            ('memory.copy, then a sum without operands', three + 'memory.copy 0 0; i32.add; drop', {}),
            ('memory.fill before unreachable', three + 'memory.fill 0; unreachable; i32.add; drop', {}),
            ('memory.copy of two memories, then a sum without operands', three + 'memory.copy 1 0; i32.add; drop', dict(mems=['1', '1'])),
            ('memory.size above a number', 'i32.const 1; memory.size 0; i32.add; drop', {}),
            ('memory.grow above a number', 'i32.const 1; i32.const 1; memory.grow 0; i32.add; drop', {}),
            ('ref.is_null before i32.rem_s', 'i32.const 5; ref.null func; ref.is_null; i32.rem_s; drop', {}),
            ('ref.is_null before i32.rem_u', 'i32.const 5; ref.null func; ref.is_null; i32.rem_u; drop', {}),
            ('table.get where code is not reached gives no number', 'unreachable; table.get 0; i32.eqz; drop', {}),
            ('table.set where code is not reached gives nothing', 'unreachable; table.set 0', {}),
            ('select and drop where code is not reached, in an if', 'i32.const 0; if; unreachable; select; drop; end', {}),
            ('select of floats in an if',
             'i32.const 0; if =f32; f32.const 0; f32.const 0; i32.const 0; select; else; f32.const 0; end; drop', {}),
            ('f32.const before four bytes', 'f32.const 0; nop; nop; nop; nop; f32.neg; drop', {}),
            ('f64.const, then a drop too many', 'f64.const 0; drop; drop', {}),
            ('f64.const gives one', 'f64.const 0; f64.neg; drop', {}),
            ('a null of func for extern', 'ref.null func; global.set 0', dict(globals=[('mut:externref', 'ref.null extern')])),
            ('a null of extern for func', 'ref.null extern; global.set 0', dict(globals=[('mut:funcref', 'ref.null func')])),
            ('a null of extern', 'ref.null extern; global.set 0', dict(globals=[('mut:externref', 'ref.null extern')])),
            ('a null of func', 'ref.null func; global.set 0', dict(globals=[('mut:funcref', 'ref.null func')]))]:
        asked(title, ops, **{'mems': ['1'], 'tables': ['funcref 1'], **parts})
    for op, gives in [('i32.trunc_sat_f32_s', 'i32'), ('i32.trunc_sat_f64_u', 'i32'), ('i64.trunc_sat_f32_s', 'i64'), ('i64.trunc_sat_f64_u', 'i64')]:
        takes = op.split('_')[2]
        asked('%s above a number' % op,
              'i64.const 0; %s.const 0; %s; block =%s; %s.const 0; end; %s.add; drop; drop' % (takes, op, gives, gives, gives))
    many = dict(types=['func ->', 'func -> i32'], elems=[dict(mode='declared', funcs=[111, 112])],
                globals=[('mut:externref', 'ref.null extern'), ('mut:?1', 'ref.null 1')])
    for title, ops in [('a null of extern', 'ref.null extern; global.set 0'), ('a null of func for a type', 'ref.null func; global.set 1'),
                       ('function 111', 'ref.func 111; call_ref 1; drop'), ('function 112', 'ref.func 112; call_ref 1; drop'),
                       ('function 112 for extern', 'ref.func 112; global.set 0')]:
        case('%s where there are as many functions' % title, W.build(funcs=[(1, '', 'unreachable')] * 113 + [(0, '', ops)], **many), told='')
    asked('struct.new in a block that takes nothing, then a number', 'block; i32.const 1; struct.new 0; i32.eqz; drop; end', types=['struct i32'], told='')
    shared = b'\x65\x5f\1\x7f\0'
    for title, ops in [('none for a structure', 'ref.null none; struct.get 1 0; drop'), ('shared none for a structure', 'x:d06571; struct.get 1 0; drop'),
                       ('none for a shared structure', 'ref.null none; struct.get 2 0; drop'), ('shared none for a shared structure', 'x:d06571; struct.get 2 0; drop')]:
        asked('a null of %s' % title, ops, ty=0, types=['func ->', 'struct i32', shared], features='all', told='')
    heading('Types that refer to each other, in one module after another')
    ring, self = ['struct ?1', 'struct mut:?0'], 'struct mut:?0'
    used = W.build(types=[ring, 'func ?0 ->'], ntypes=3,
                   funcs=[(2, '', 'local.get 0; struct.get 0 0; struct.get 1 0; struct.get 0 0; drop; ref.null 1; struct.new 0; drop')])
    wrong = W.build(types=[ring, 'func ?0 ->'], ntypes=3, funcs=[(2, '', 'local.get 0; struct.get 0 0; struct.get 0 0; drop')])
    behind = W.build(types=['func ->', ['struct ?2', 'struct mut:?1'], 'func ?1 ->'], ntypes=4,
                     funcs=[(3, '', 'local.get 0; struct.get 1 0; struct.get 2 0; struct.get 1 0; drop')])
    alone = W.build(types=[self, 'func ?0 ->'], funcs=[(1, '', 'local.get 0; local.get 0; struct.get 0 0; struct.set 0 0')])
    below = W.build(types=[self, 'func ?0 ->'], funcs=[(1, '', 'local.get 0; struct.get 0 0; struct.get 0 0; drop')])
    plain = W.build(types=['struct i32', 'struct ?0', 'func ?1 ->'], funcs=[(2, '', 'local.get 0; struct.get 1 0; struct.get 0 0; drop')])
    types = W.build(types=[ring])
    whole = W.build(types=[ring + ['func ?0 ->']], ntypes=3, funcs=[(2, '', 'local.get 0; struct.get 0 0; struct.get 1 0; struct.get 0 0; drop')])
    for title, modules in [('a ring thrice', [used, used, used]), ('a ring, first alone', [types, used, types, used]),
                           ('a ring with its function', [whole, whole, whole]),
                           ('a ring at other places', [used, behind, used, wrong]), ('a type of itself', [alone, below, plain, below]),
                           ('a ring behind what refers to earlier types', [plain, used, plain, behind, alone]),
                           ('what refers to earlier types', [plain, plain, types, plain, used, plain])]:
        row('%s, in modules one after another' % title, *[Part(it, None, told='') for it in modules], features='all')

    constants = W.build(types=[ring, 'func ?0 ->'], ntypes=3, globals=[('?0', 'ref.null 0')], tables=['?1 1'],
                        elems=[dict(mode='passive', type='?0', exprs=['ref.null 0']), dict(mode='passive', type='?1', exprs=['ref.null 1'])],
                        funcs=[(2, '', 'global.get 0; struct.get 0 0; struct.get 1 0; struct.get 0 0; drop')])
    row('a ring in constants and bodies, in modules one after another', *[Part(constants, told='')] * 3, features='all')
    heading('Groups that name a place of theirs in one way alone, in three modules')
    for title, first, ops in [
            ('a parameter', 'func ?1 ->', 'ref.null 1; call 0'), ('the second parameter', 'func i32 ?1 ->', 'i32.const 0; ref.null 1; call 0'),
            ('a result', 'func -> ?1', 'call 0; struct.get 1 0; drop'), ('the second result', 'func -> i32 ?1', 'call 0; struct.get 1 0; drop; drop'),
            ('an element', 'array ?1', 'ref.null 0; i32.const 0; array.get 0; struct.get 1 0; drop'),
            ('a field', 'struct ?1', 'ref.null 0; struct.get 0 0; struct.get 1 0; drop'),
            ('the second field', 'struct i32 ?1', 'ref.null 0; struct.get 0 1; struct.get 1 0; drop'),
            ('a field behind a packed one', 'struct i8 ?1', 'ref.null 0; struct.get 0 1; struct.get 1 0; drop'),
            ('a field that is never null', 'struct !1', 'ref.null 0; struct.get 0 0; struct.get 1 0; drop')]:
        used = W.build(types=[[first, 'struct i32'], 'func ->'], ntypes=3, funcs=[(0, '', 'unreachable')] * first.startswith('func') + [(2, '', ops)])
        row('a group that names its place as %s' % title, *[Part(used, told='')] * 3, features='all')
    exact = W.build(types=[[b'\x5f\1\x63\x62\1\0', 'struct i32'], 'func ->'], ntypes=3, funcs=[(2, '', 'ref.null 0; struct.get 0 0; struct.get 1 0; drop')])
    row('a group that names its place as an exact field', *[Part(exact, told='')] * 3, features='all')
    families = W.build(types=[['sub[] struct i32', 'sub[0] struct i32 i64'], 'func ->'], ntypes=3,
                       funcs=[(2, '', 'block =!0; struct.new_default 1; br 0; end; ref.cast 1; struct.get 1 1; drop')])
    row('a group that names its place as a supertype', *[Part(families, told='')] * 3, features='all')
    described = W.build(types=[[b'\x4d\1\x5f\1\x7f\0', b'\x4c\0\x5f\0'], 'func ->'], ntypes=3, funcs=[(2, '', 'i32.const 0; x:d06201fb2000; drop')])
    row('a group that names its places as descriptor and described', *[Part(described, told='')] * 3, features='all')


B_MULTI = 'blocks, loops, and ifs may only produce a resulttype when multi-value is not enabled'
B_REFERENCES, B_BULK = B.REFS, B.BULK


# ------------------------------------------------------------------------------------------------- programs
# What an opcode is changed to: to one of another type, or with another number of operands.
CHANGED = {0x6a: 0x7c, 0x6b: 0x45, 0x7c: 0x6a, 0x41: 0x42, 0x42: 0x41, 0x20: 0x22, 0x21: 0x20, 0x22: 0x21, 0x1a: 0x01, 0x45: 0x50, 0x46: 0x51, 0x71: 0x83,
           0x72: 0x84, 0x73: 0x85, 0x74: 0x86,
           0x76: 0x88, 0x28: 0x29, 0x29: 0x28, 0x36: 0x37, 0x37: 0x36, 0x0d: 0x0c, 0xa2: 0x94, 0x94: 0xa2, 0xa0: 0x92, 0x92: 0xa0, 0x2a: 0x2b, 0x2b: 0x2a,
           0x38: 0x39, 0x39: 0x38, 0x0f: 0x1a,
           0x1b: 0x1a, 0xa7: 0xac, 0xac: 0xa7, 0xad: 0xa7, 0x04: 0x02, 0x03: 0x04}


def scored():
    """What no other row told apart: found by tools/score."""
    heading('Types that are alike in part')
    asked('catch_ref to a block that takes a number behind its tag', 'block @2; try_table _ [catch_ref:0:0]; end; unreachable; end; unreachable',
          types=['func ->', 'func i32 ->', 'func -> i32 i64'], tags=[1], told='')
    asked('array.copy of bytes into halves', 'ref.null 1; i32.const 0; ref.null 0; i32.const 0; i32.const 0; array.copy 1 0',
          types=['array mut:i8', 'array mut:i16'])
    lists = ['func ->', 'func -> i32 i64', 'func i32 i64 -> i32 i64']
    for title, ops in [('br_if', 'block @1; i32.const 0; i64.const 0; block; i32.const 0; br_if 1; end; br 0; end; drop; drop'),
                       ('a call', 'i32.const 0; i64.const 0; block; call 1; end; drop; drop'),
                       ('a call, the first alone', 'i32.const 0; block; i64.const 0; call 1; drop; end; drop'),
                       ('a sum, the first alone', 'i32.const 0; block; i32.const 1; i32.add; end; drop'),
                       ('a loop', 'i32.const 0; i64.const 0; block; loop @2; end; end; drop; drop')]:
        case('operands of %s that stand outside of their block' % title, W.build(types=lists, funcs=[(0, '', ops), (2, '', 'unreachable')]), 'all', plain=True)
    packed = ['array mut:i8', 'array mut:i16', 'array mut:i32']
    for title, to, of in [('bytes into bytes', 0, 0), ('halves into halves', 1, 1), ('halves into bytes', 0, 1), ('bytes into words', 2, 0), ('words into bytes', 0, 2)]:
        asked('array.copy of %s' % title, 'ref.null %d; i32.const 0; ref.null %d; i32.const 0; i32.const 0; array.copy %d %d' % (to, of, to, of),
              types=packed)
    shared = b'\x65\x60\0\0'
    for title, ops in [('any below eq', 'x:d0656e; x:d0656d; ref.eq; drop'), ('any above eq', 'x:d0656d; x:d0656e; ref.eq; drop'),
                       ('eq alone', 'x:d0656d; x:d0656d; ref.eq; drop')]:
        asked('ref.eq in a shared function, of shared %s' % title, ops, ty=0, types=[shared], features='all')
    structure = b'\x65\x5f\0'
    asked('ref.test of any shared for a shared structure', 'x:d0656e; ref.test 1; drop', ty=0, types=['func ->', structure], features='all')
    asked('ref.test of any shared for a structure', 'x:d0656e; ref.test 1; drop', ty=0, types=['func ->', 'struct'], features='all', told='')
    asked('ref.test of any for a shared structure', 'ref.null any; ref.test 1; drop', ty=0, types=['func ->', structure], features='all', told='')
    for title, ops in [('twice', 'ref.null 1; ref.null 1'), ('and of shared eq', 'ref.null 1; x:d0656d'), ('and of eq', 'ref.null 1; ref.null eq')]:
        asked('ref.eq of a shared structure %s' % title, ops + '; ref.eq; drop', ty=0, types=['func ->', structure], features='all')
    described = ['func ->', [b'\x4d\2\x5f\0', b'\x4c\1\x5f\0']]
    for title, op in [('struct.new_desc', 'fb2001'), ('struct.new_default_desc', 'fb2101')]:
        case('%s of a structure without fields' % title, W.build(types=described, ntypes=3, funcs=[(0, '', 'x:d06202%s; drop' % op)]), 'all')
        case('%s gives a reference to its type' % title, W.build(types=described, ntypes=3, funcs=[(0, '', 'block =!1; x:d06202%s; end; drop' % op)]), 'all')
        case('%s gives a reference' % title, W.build(types=described, ntypes=3, funcs=[(0, '', 'x:d06202%s' % op)]), 'all', plain=True)
    heading('Three nulls in an element segment, of its type or of another')
    for null, types in [('cont', '68 75'), ('exn', '69 74'), ('array', '6a 6e'), ('struct', '6b 70'), ('i31', '6c 6d'), ('eq', '6d 69'), ('any', '6e 6a'),
                        ('extern', '6f 72'), ('func', '70 73'), ('none', '71 74'), ('noextern', '72 6f'), ('nofunc', '73 70'), ('noexn', '74 69'),
                        ('nocont', '75 68')]:
        own, other = bytes.fromhex(types)
        for code in (own, other):
            segment = bytes([5, code]) + W.listed([bytes([0xd0, own, 0x0b])] * 3)
            case('three nulls of %s in a segment of 0x%02x' % (null, code), W.build(elems=[segment]), 'all', told='')
    heading('Functions in an element segment of a type by index, one by one')
    three = dict(types=['func ->', 'func -> i32', 'func -> i64'], funcs=[(at, '', 'unreachable') for at in range(3)])
    for type, listed in [('?1', '1 1 1'), ('?1', '0 0 0'), ('?1', '2 2 2'), ('?1', '1 1 0'), ('?1', '1 1 2'), ('?1', '1 0 1'), ('?0', '0 0 1'), ('?2', '2 2 1'),
                         ('funcref', '0 1 2'), ('!1', '1 1 1'), ('!1', '1 1 2'), ('?1', '1 1 9'), ('funcref', '0 1 9'), ('funcref', '9 9 9'), ('anyref', '0 0 0')]:
        exprs = ['ref.func %s' % it for it in listed.split()]
        case('functions %s in a segment of %s' % (listed, type), W.build(elems=[dict(mode='passive', type=type, exprs=exprs)], **three), told='')
    for title, expr in [('ref.eq', 'ref.eq'), ('ref.is_null', 'ref.is_null'), ('f32.const', 'f32.const 0')]:
        case('three times %s in a segment' % title, W.build(elems=[dict(mode='passive', type='funcref', exprs=[expr] * 3)], **three), told='')
    case('three times a global that is not there in a segment', W.build(elems=[dict(mode='passive', type='funcref', exprs=['x:2370'] * 3)]))
    case('three times ref.eq and a zero in a segment', W.build(elems=[dict(mode='passive', type='funcref', exprs=['x:d300'] * 3)], **three), told='')
    for title, type, null in [('a type by index in a segment of extern', 'externref', 'ref.null 0'), ('a type by index in a segment of func', 'funcref', 'ref.null 0'),
                              ('a type by index in a segment of another', '?1', 'ref.null 0')]:
        case('three nulls of %s' % title, W.build(elems=[dict(mode='passive', type=type, exprs=[null] * 3)], **three), told='')
    case('three nulls of func in a segment of extern', W.build(elems=[b'\5\x6f' + W.listed([b'\xd0\x70\x0b'] * 3)]), told='')
    for title, expr in [('functions', 'ref.func 0'), ('nulls', 'ref.null func')]:
        case('three %s in a segment without reference_types' % title, W.build(elems=[dict(mode='passive', type='funcref', exprs=[expr] * 3)], **three),
             'default-reference_types', wanted='refused 32 reference types support is not enabled; missing reference_types', own=True)
    heading('A memory of 64 bits that is the first')
    for title, ops in [('a load by an address of 32 bits', 'i32.const 0; i32.load; drop'), ('a load by an address of 64 bits', 'i64.const 0; i32.load; drop'),
                       ('a store by an address of 32 bits', 'i32.const 0; i32.const 0; i32.store'),
                       ('a store by an address of 64 bits', 'i64.const 0; i32.const 0; i32.store')]:
        asked(title, ops, mems=['i64 1'])
    heading('References to functions, whose types are exact')
    for title, field in [('an exact field', b'\x5f\1\x64\x62\0\0'), ('a field that is not exact', b'\x5f\1\x64\0\0')]:
        asked('%s as exact' % title, 'x:02646200; ref.null 1; struct.get 1 0; x:0b; drop', ty=2, types=['struct', field, 'func ->'], features='all', told='')
    parts = dict(types=['func ->', 'func -> i32'], elems=[dict(mode='declared', funcs=[0])], features='all', ty=0, told='')
    exact = 'x:02646200; ref.func 0; x:0b; drop'
    asked('a defined function is of its exact type', exact, **parts)
    # the custom descriptors proposal: an import without `exact` may be of a subtype
    asked('an imported function is not of its exact type', exact, imports=[('func', 0)], wanted='refused 49 type mismatch: expected (ref (exact (id 0))), found (ref (id 0)); ' + IN_BODY, own=True, **parts)
    asked('a function that is imported as exact is of its exact type', exact, imports=[b'\1m\1f\x20\0'], wanted='ok', **parts)
    for heap, op in [('a structure', 'block =!struct'), ('any', 'block =!any'), ('a shared function', 'x:02646570'), ('a function of another type', 'block =!1')]:
        asked('a defined function for %s' % heap, op + '; ref.func 0; x:0b; drop', **parts)


def changed(b, most):
    """The module with one operator exchanged for another: so many of them, in even steps."""
    places = []
    for _, _, end, at in W.bodies(b):
        while at < end:
            if b[at] in CHANGED:
                places.append(at)
            at = W.operator_at(b, at)[2]
    step = max(1, len(places) // most)
    for at in places[step // 2::step][:most]:
        yield b[:at] + bytes([CHANGED[b[at]]]) + b[at + 1:]


def programs():
    heading('Programs that a compiler made')
    made = []
    for name in sorted(os.listdir(PROGRAMS)):
        if name.endswith('.hex'):
            with open(os.path.join(PROGRAMS, name)) as f:
                made.append((name[:-4], bytes.fromhex(f.read())))
    for name, b in made:
        case('the program %s' % name, b, wanted='ok', facts='has_failed false')
    row('the programs one after another', *[Part(b, 'ok') for _, b in made])
    heading('Programs with an operator that is another one')
    for name, b in made:
        row('the program %s with another operator, in turn' % name, *[Part(other, plain=True) for other in changed(b, 10 if len(b) < 800 else 6)])


PARTS = [by_bytes, on_one_validator, limits, numbers, accesses, frames, unreached, joins, named, calls, identities, catches, casts, gated, beyond, descriptors, continuations, edges, scored, seldom,
         bodies, programs]

if __name__ == '__main__':
    sys.exit(main())
