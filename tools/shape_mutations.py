#!/usr/bin/env python3
"""shape_mutations.py: runs the table of shapes over the rows of bodies, and then with one change of it at a time.

The table is crates/wasm_spec_steps/specs/Shapes.antt, read as it stands; what its words mean (Actions, Meanings, Machine and Steps
there) is written again here, over modules that are taken from crates/test_all/data/modules/bodies.rows. First every row whose
answer is a body's is compared with what the table says: whether the body is accepted. Then single changes of the table are made:
a check is left out; a value type, a list of operands or a flag is another one; two lists change places. A change that leaves every
answer as it was is printed: no row tells it from the table.
Nothing is proved or built for this.
"""
import os, re, sys

sys.dont_write_bytecode = True
HERE = os.path.dirname(os.path.abspath(__file__))
sys.path.insert(0, HERE)
import wasm_assembler as W

ROOT = os.path.join(HERE, '..', 'crates')
SHAPES = os.path.join(ROOT, 'wasm_spec_steps', 'specs', 'Shapes.antt')
ROWS = os.path.join(ROOT, 'test_all', 'data', 'modules', 'bodies.rows')
LARGEST = 20000
sys.setrecursionlimit(5000)


class Refused(Exception):
    """A body, or one step of it, is not valid."""


# ------------------------------------------------------------------------------------------------- the table
# An expression: a name; ('app', f, a..); ('cons', a, b); ('append', a, b); ('rec', ((name, e)..)); ('if', c, a, b). `[]` is a name.
TOKENS = re.compile(r"\[\]|∷|\+\+|[(){};=]|[^\s(){};=∷+\[\]]+")


class Parser:
    def __init__(self, text):
        self.tokens, self.at = TOKENS.findall(text), 0

    def peek(self):
        return self.tokens[self.at] if self.at < len(self.tokens) else None

    def next(self):
        self.at += 1
        return self.tokens[self.at - 1]

    def expression(self):
        if self.peek() == 'if':
            self.next()
            c = self.expression()
            assert self.next() == 'then'
            a = self.expression()
            assert self.next() == 'else'
            return 'if', c, a, self.expression()
        first = self.application()
        if self.peek() == '∷':
            self.next()
            return 'cons', first, self.expression()
        if self.peek() == '++':
            self.next()
            return 'append', first, self.expression()
        return first

    def application(self):
        head = self.atom()
        arguments = []
        while self.peek() not in (None, ')', '}', ';', '∷', '++', 'then', 'else', '='):
            arguments.append(self.atom())
        return ('app', head) + tuple(arguments) if arguments else head

    def atom(self):
        token = self.next()
        if token == '(':
            e = self.expression()
            assert self.next() == ')', self.tokens
            return e
        if token == 'record':
            assert self.next() == '{'
            fields = []
            while True:
                name = self.next()
                assert self.next() == '='
                fields.append((name, self.expression()))
                if self.next() == '}':
                    return 'rec', tuple(fields)
        return token


def read_table(text):
    """The functions of the table: by name, clauses of patterns and an expression."""
    table, name = {}, None
    lines = text.splitlines()
    for i, line in enumerate(lines):
        if line.startswith('abbrev pub '):
            name = line.split()[2]
            table[name] = []
        elif name and re.match(re.escape(name) + r'[ =]', line):
            more = lines[i + 1].strip() if i + 1 < len(lines) and lines[i + 1].startswith('    ') else ''
            parser = Parser(line[len(name):] + ' ' + more)
            patterns = []
            while parser.peek() != '=':
                patterns.append(parser.atom())
            parser.next()
            table[name].append((patterns, parser.expression()))
            assert parser.peek() is None, line
    return table


def is_constructor(name):
    return '.' in name or name[0].isupper() or name in ('[]', 'empty_block', 'value_block', 'func_block', 'true', 'false')


def bind(pattern, value, env):
    """Whether the value is of this form; binds the variables of the pattern."""
    if isinstance(pattern, str):
        if pattern == '[]':
            return value == ()
        if not is_constructor(pattern):
            env[pattern] = value
            return True
        return value == pattern.split('.')[-1]
    if pattern[0] == 'cons':
        return isinstance(value, tuple) and value != () and bind(pattern[1], value[0], env) and bind(pattern[2], value[1:], env)
    assert pattern[0] == 'app', pattern
    name = pattern[1].split('.')[-1]
    return isinstance(value, tuple) and value[:1] == (name,) and len(value) == len(pattern) - 1 and all(bind(p, v, env) for p, v in zip(pattern[2:], value[1:]))


class Table:
    """The table with at most one change: `changed` is (function, number of the clause) and its expression."""

    def __init__(self, functions, changed=None, expression=None):
        self.functions, self.changed, self.expression = functions, changed, expression
        self.used, self.known = None, {}

    def call(self, name, arguments):
        for i, (patterns, e) in enumerate(self.functions[name]):
            env = {}
            if len(patterns) == len(arguments) and all(bind(p, a, env) for p, a in zip(patterns, arguments)):
                if self.used is not None:
                    self.used.add((name, i))
                return self.value(self.expression if self.changed == (name, i) else e, env)
        raise Exception('no clause of %s for %r' % (name, arguments))

    def value(self, e, env):
        if isinstance(e, str):
            return self.name(e, env)
        kind = e[0]
        if kind == 'cons':
            return (self.value(e[1], env),) + self.value(e[2], env)
        if kind == 'append':
            return self.value(e[1], env) + self.value(e[2], env)
        if kind == 'rec':
            return dict((n, self.value(x, env)) for n, x in e[1])
        if kind == 'if':
            return self.value(e[2] if self.value(e[1], env) else e[3], env)
        arguments = [self.value(x, env) for x in e[2:]]
        if e[1] in self.functions:
            return self.call(e[1], arguments)
        return (e[1].split('.')[-1],) + tuple(arguments)

    def name(self, e, env):
        if e in env:
            return env[e]
        head, _, rest = e.partition('.')
        if head in env:
            return env[head][rest]
        if e in self.functions:
            return self.call(e, [])
        return {'[]': (), 'true': True, 'false': False}.get(e, e.split('.')[-1])

    def shape(self, op):
        key = repr(op)
        if key not in self.known:
            outer, self.used = self.used, set()
            shape = self.call(op[0], list(op[1:]))
            self.known[key] = shape, self.used
            self.used = outer
        shape, used = self.known[key]
        if self.used is not None:
            self.used |= used
        return shape


# ------------------------------------------------------------------------------------------------- modules
HEAPS = {v: k + '_heap' for k, v in W.HEAPS.items()}
HEAPS.update({0x68: 'cont_heap', 0x75: 'nocont_heap'})
ABOVE = {'any': [], 'eq': ['any'], 'i31': ['eq', 'any'], 'struct': ['eq', 'any'], 'array': ['eq', 'any'], 'none': ['i31', 'struct', 'array', 'eq', 'any'],
         'func': [], 'nofunc': ['func'], 'extern': [],
         'noextern': ['extern'], 'exn': [], 'noexn': ['exn'], 'cont': [], 'nocont': ['cont']}
TOP = {k: v[-1] if v else k for k, v in ABOVE.items()}
NUMBER = {0x7f: 'i32', 0x7e: 'i64', 0x7d: 'f32', 0x7c: 'f64', 0x7b: 'v128', 0x78: 'i8', 0x77: 'i16'}
PROPOSALS = '''mutable_global reference_types multi_value bulk_memory simd threads shared_everything_threads floats multi_memory exceptions memory64
extended_const function_references gc gc_types custom_page_sizes custom_descriptors stack_switching component_model
vector_operators atomic_operators legacy_exceptions wide_arithmetic memory_control descriptor_operators shared_atomic_operators
stack_switching_operators compact_imports'''.split()
OFF = ['shared_everything_threads', 'custom_descriptors', 'stack_switching', 'custom_page_sizes', 'component_model', 'vector_operators', 'atomic_operators', 'legacy_exceptions',
       'wide_arithmetic', 'memory_control', 'descriptor_operators', 'shared_atomic_operators', 'stack_switching_operators', 'compact_imports']


def features_of(text):
    words = re.findall(r'[+-]?[a-z0-9_]+', text)
    on = {'default': set(PROPOSALS) - set(OFF), 'all': set(PROPOSALS), 'none': set()}[words[0]]
    for w in words[1:]:
        on = on | {w[1:]} if w[0] == '+' else on - {w[1:]}
    return on


class Bytes:
    """Reads numbers and types as the binary format has them."""

    def __init__(self, b, at, end):
        self.b, self.at, self.end = b, at, end

    def byte(self):
        if self.at >= self.end:
            raise Refused('end')
        self.at += 1
        return self.b[self.at - 1]

    def skip(self, n):
        if self.at + n > self.end:
            raise Refused('end')
        self.at += n

    def unsigned(self, bits=32):
        n = shift = 0
        while True:
            c = self.byte()
            n |= (c & 127) << shift
            shift += 7
            if c < 128:
                break
            if shift >= bits:
                raise Refused('too long')
        if n >> bits:
            raise Refused('too large')
        return n

    def signed(self, bits):
        n = shift = 0
        while True:
            c = self.byte()
            n |= (c & 127) << shift
            shift += 7
            if c < 128:
                break
            if shift >= bits:
                raise Refused('too long')
        if c & 64:
            n -= 1 << shift
        if not -(1 << bits - 1) <= n < 1 << bits - 1:
            raise Refused('too large')
        return n

    def vec(self, f):
        n = self.unsigned()
        return tuple(f() for _ in range(n))

    def name(self):
        self.skip(self.unsigned())

    def heap(self):
        c = self.b[self.at] if self.at < self.end else None
        if c == 0x65:
            self.byte()
            return 'abstract_heap', True, HEAPS[self.byte()]
        if c == 0x62:
            self.byte()
            return 'exact', self.unsigned()
        if c in HEAPS:
            self.byte()
            return 'abstract_heap', False, HEAPS[c]
        n = self.signed(33)
        if n < 0:
            raise Refused('heap type')
        return 'concrete', n

    def val(self):
        c = self.byte()
        if c in NUMBER:
            return NUMBER[c]
        if c in (0x63, 0x64):
            return 'reference', {'nullable': c == 0x63, 'heap': self.heap()}
        if c in HEAPS:
            return 'reference', {'nullable': True, 'heap': ('abstract_heap', False, HEAPS[c])}
        raise Refused('value type')

    def block(self):
        c = self.b[self.at] if self.at < self.end else None
        if c == 0x40:
            self.byte()
            return 'empty_block'
        if c is not None and 0x40 < c < 0x80:
            return 'value_block', self.val()
        n = self.signed(33)
        if n < 0:
            raise Refused('block type')
        return 'func_block', n


def mapped(f, v):
    """A value type with its indices put through a function."""
    if isinstance(v, str) or v[1]['heap'][0] == 'abstract_heap':
        return v
    return 'reference', {'nullable': v[1]['nullable'], 'heap': (v[1]['heap'][0], f(v[1]['heap'][1]))}


class Types:
    """The types of all modules of a row, by ids: what each declares."""

    def __init__(self):
        self.groups, self.subs = {}, []

    def add(self, group, types, canonical):
        start = len(types)

        def closed(i):
            return ('local', i - start) if i >= start else types[i]
        key = repr([closing(closed, s) for s in group])
        if not canonical or key not in self.groups:
            begin = len(self.subs)
            self.groups[key] = begin
            for s in group:
                self.subs.append(closing(lambda i: begin + i - start if i >= start else types[i], s))
        else:
            begin = self.groups[key]
        types += [begin + k for k in range(len(group))]

    def below(self, a, b):
        while a is not None and a != b:
            a = self.subs[a]['super']
        return a == b


def closing(f, s):
    def storage(v):
        return mapped(f, v)
    comp = s['comp']
    if comp[0] == 'func':
        comp = 'func', tuple(map(storage, comp[1])), tuple(map(storage, comp[2]))
    elif comp[0] == 'struct':
        comp = 'struct', tuple((storage(v), m) for v, m in comp[1])
    elif comp[0] == 'array':
        comp = 'array', (storage(comp[1][0]), comp[1][1])
    else:
        comp = 'cont', f(comp[1])
    return dict(s, comp=comp, super=None if s['super'] is None else f(s['super']), descriptor=None if s['descriptor'] is None else f(s['descriptor']),
                describes=None if s['describes'] is None else f(s['describes']))


def read_sub(r):
    s = {'super': None, 'descriptor': None, 'describes': None, 'shared': False, 'final': True}
    c = r.byte()
    if c in (0x50, 0x4f):
        s['final'] = c == 0x4f
        supers = r.vec(r.unsigned)
        s['super'] = supers[0] if supers else None
        c = r.byte()
    if c == 0x65:
        s['shared'] = True
        c = r.byte()
    if c == 0x4c:
        s['describes'] = r.unsigned()
        c = r.byte()
    if c == 0x4d:
        s['descriptor'] = r.unsigned()
        c = r.byte()
    if c == 0x65:
        s['shared'] = True
        c = r.byte()
    s['comp'] = {0x60: lambda: ('func', r.vec(r.val), r.vec(r.val)), 0x5f: lambda: ('struct', r.vec(lambda: (r.val(), r.byte()))),
                 0x5e: lambda: ('array', (r.val(), r.byte())),
                 0x5d: lambda: ('cont', r.unsigned())}[c]()
    return s


class Context:
    """What a module's bodies stand in."""

    def __init__(self, b, features, types):
        self.world, self.features = types, features
        self.types, self.functions, self.exact, self.tables, self.memories, self.globals, self.tags, self.elements = [], [], [], [], [], [], [], []
        self.references, self.data_count, self.bodies = set(), None, []
        canonical = features & {'gc', 'function_references', 'stack_switching', 'custom_descriptors'}
        self.imported = 0
        for id, _, start, end in W.sections(b):
            r = Bytes(b, start, end)
            if id == 12:
                self.data_count = r.unsigned()
            elif id in (1, 2, 3, 4, 5, 6, 7, 9, 10, 13):
                for _ in range(r.unsigned()):
                    getattr(self, 'read_%d' % id)(r, canonical)

    def val(self, v):
        return mapped(lambda i: self.types[i], v)

    def read_1(self, r, canonical):
        group = [read_sub(r)] if r.b[r.at] != 0x4e else None
        if group is None:
            r.byte()
            group = list(r.vec(lambda: read_sub(r)))
        self.world.add(group, self.types, canonical)

    def limits(self, r):
        flags = r.byte()
        r.unsigned(64)
        if flags & 1:
            r.unsigned(64)
        if flags & 8:
            r.unsigned()
        return flags

    def table(self, r):
        element = self.val(r.val())
        flags = self.limits(r)
        self.tables.append({'element': element, 'is_64': bool(flags & 4), 'shared': bool(flags & 2)})

    def global_(self, r):
        content = self.val(r.val())
        flags = r.byte()
        self.globals.append({'content': content, 'mutable': bool(flags & 1), 'shared': bool(flags & 2)})

    def read_2(self, r, _):
        r.name()
        r.name()
        kind = r.byte()
        if kind in (0, 0x20):
            self.functions.append(r.unsigned())
            self.exact.append(kind == 0x20)
            self.imported += 1
        elif kind == 1:
            self.table(r)
        elif kind == 2:
            self.read_5(r, _)
        elif kind == 3:
            self.global_(r)
        else:
            self.read_13(r, _)

    def read_3(self, r, _):
        self.functions.append(r.unsigned())
        self.exact.append(True)

    def read_4(self, r, _):
        if r.b[r.at] == 0x40:
            r.skip(2)
            self.table(r)
            self.constant(r)
        else:
            self.table(r)

    def read_5(self, r, _):
        self.memories.append({'is_64': bool(self.limits(r) & 4)})

    def read_13(self, r, _):
        r.byte()
        self.tags.append(r.unsigned())

    def read_6(self, r, _):
        self.global_(r)
        self.constant(r)

    def read_7(self, r, _):
        r.name()
        kind, i = r.byte(), r.unsigned()
        if kind == 0:
            self.references.add(i)

    def read_9(self, r, _):
        flags = r.unsigned()
        if not flags & 1:
            if flags & 2:
                r.unsigned()
            self.constant(r)
        if flags & 4:
            self.elements.append(self.val(r.val()) if flags & 3 else ('reference', {'nullable': True, 'heap': ('abstract_heap', False, 'func_heap')}))
            r.vec(lambda: self.constant(r))
        else:
            if flags & 3:
                r.byte()
            self.elements.append(('reference', {'nullable': False, 'heap': ('abstract_heap', False, 'func_heap')}))
            self.references |= set(r.vec(r.unsigned))

    def read_10(self, r, _):
        n = r.unsigned()
        self.bodies.append((r.at, r.at + n))
        r.skip(n)

    def constant(self, r):
        while True:
            op = instruction(r)
            if op == ('reference_shape', ('ref_func', op[1][1] if isinstance(op[1], tuple) else None)):
                self.references.add(op[1][1])
            if op == ('control_shape', 'end_'):
                return


# ------------------------------------------------------------------------------------------------- operators
def camel(name):
    return ''.join(w[:1].upper() + w[1:] for w in re.split('[._]', name))


CONTROL = {'unreachable', 'nop', 'else', 'end', 'throw_ref', 'return'}
FAMILIES = [('call_shape', r'(return_)?call(_indirect|_ref)?'), ('variable_shape', r'(local|global)\..*'), ('table_shape', r'(table|elem)\..*'),
            ('memory_shape', r'(memory|data)\..*'),
            ('struct_shape', r'struct\..*'), ('array_shape', r'array\..*'), ('conversion_shape', r'(any.convert_extern|extern.convert_any|ref.i31|i31\..*)'),
            ('constant_shape', r'(i32|i64|f32|f64|v128)\.const')]
TYPES_OF = {'i': 'I32', 'l': 'I64', 'f': 'F32', 'd': 'F64'}


def signatures():
    import module_body_rows as M
    for name, _, text in M.numeric_operators():
        takes, gives = text.split(':')
        yield name, ('Binary' if len(takes) > 1 else 'Unary', TYPES_OF[takes[0]], TYPES_OF[gives])


SIGNATURES = dict(signatures())
WIDTH = {'i32.load': 2, 'i64.load': 3, 'f32.load': 2, 'f64.load': 3, 'i32.store': 2, 'i64.store': 3, 'f32.store': 2, 'f64.store': 3}


def instruction(r):
    """The next operator: the function of its shape, and what that is applied to."""
    c = r.byte()
    if c in (0xfb, 0xfc, 0xfd, 0xfe):
        n = r.unsigned()
        if (c, n) in ((0xfb, 0x20), (0xfb, 0x21)):
            return 'struct_shape', ('StructNewDesc' if n == 0x20 else 'StructNewDefaultDesc', r.unsigned())
        if (c, n) == (0xfe, 0x72):
            return 'conversion_shape', 'RefI31Shared'
        key = bytes([c]) + W.unsigned(n)
    else:
        key = bytes([c])
    if key not in W.BY_CODE:
        raise Refused('opcode')
    return by_name(r, W.BY_CODE[key][0])


# those that a feature of their own serves, which is off in all of these rows
NOT_SERVED = r'memory\.discard|i64\.(add128|sub128|mul_wide_[su])|ref\.get_desc|(ref\.cast|br_on_cast)_desc_eq.*'


def by_name(r, name):
    kinds = W.OPERATORS[name][1]
    if re.fullmatch(NOT_SERVED, name):
        raise Refused('no operator without its feature')
    if name in SIGNATURES:
        return 'computing', SIGNATURES[name]
    if 'mem' in kinds:
        flags = r.unsigned()
        if flags >= 128:
            raise Refused('alignment')
        memory = r.unsigned() if flags & 64 else 0
        return 'access_shape', camel(name), {'align': flags & 63, 'memory': memory, 'offset': r.unsigned(64),
                                             'width': WIDTH.get(name) or {'8': 0, '1': 1, '3': 2}[re.search(r'(8|16|32)(_[su])?$', name).group(1)[0]]}
    if name in CONTROL:
        return 'control_shape', {'else': 'else_', 'end': 'end_', 'return': 'return_'}.get(name, name)
    if name in ('block', 'loop', 'if'):
        return 'control_shape', ({'if': 'if_'}.get(name, name), r.block())
    if name == 'try_table':
        b = r.block()
        return 'control_shape', ('try_table', b, r.vec(lambda: caught(r)))
    if name in ('throw', 'br', 'br_if'):
        return 'control_shape', (name, r.unsigned())
    if name == 'br_table':
        ls = r.vec(r.unsigned)
        return 'control_shape', ('br_table', ls, r.unsigned())
    if name in ('drop', 'select'):
        return 'parametric_shape', {'drop': 'drop_'}.get(name, name)
    if name == 'select_t':
        return 'parametric_shape', ('select_of', r.vec(r.val))
    if name in ('ref.test', 'ref.test_null', 'ref.cast', 'ref.cast_null'):
        return 'cast_shape', (name[:8].replace('.', '_'), {'nullable': name.endswith('null'), 'heap': r.heap()})
    if name.startswith('br_on_cast'):
        flags = r.byte()
        if flags > 3:
            raise Refused('flags')
        l, a, b = r.unsigned(), r.heap(), r.heap()
        return 'cast_shape', (name, l, {'nullable': bool(flags & 1), 'heap': a}, {'nullable': bool(flags & 2), 'heap': b})
    return flat(r, name, kinds)


def flat(r, name, kinds):
    for family, pattern in FAMILIES:
        if re.fullmatch(pattern, name):
            break
    else:
        family = 'reference_shape'
    form = name.replace('.', '_') if family == 'reference_shape' else camel(name)
    arguments = []
    for k in kinds:
        if k == 'u':
            arguments.append(r.unsigned())
        elif k == 'ht':
            arguments.append(r.heap())
        else:
            if k in ('s32', 's64'):
                r.signed(int(k[1:]))
            else:
                r.skip({'f32': 4, 'f64': 8, 'v128': 16}[k])
            arguments.append(0)
    return family, (form,) + tuple(arguments) if arguments else form


def caught(r):
    c = r.byte()
    if c > 3:
        raise Refused('clause')
    return (['One', 'OneRef', 'All', 'AllRef'][c],) + tuple(r.unsigned() for _ in range(2 if c < 2 else 1))


# ------------------------------------------------------------------------------------------------- what the words mean
def need(holds):
    if not holds:
        raise Refused('check')


def at(items, n):
    if n >= len(items):
        raise Refused('index')
    return items[n]


def is_reference(v):
    return isinstance(v, tuple) and v[0] == 'reference'


class Machine:
    """The two stacks over a module's context: each action as the definitions have it."""

    def __init__(self, context, index, locals, shared):
        self.c, self.w, self.locals, self.shared = context, context.world, locals, shared
        self.operands, self.inits = [], []
        self.frames = [{'kind': 'block_kind', 'block': ('func_block', index), 'height': 0, 'unreachable': False, 'init': 0}]

    # types
    def sub(self, n):
        return self.w.subs[at(self.c.types, n)]

    def kind_of(self, i):
        return {'struct': 'struct', 'array': 'array', 'func': 'func', 'cont': 'cont'}[self.w.subs[i]['comp'][0]]

    def is_shared_heap(self, h):
        return h[1] if h[0] == 'abstract_heap' else self.w.subs[h[1]]['shared']

    def top_of(self, h):
        if h[0] == 'abstract_heap':
            return 'abstract_heap', h[1], TOP[h[2][:-5]] + '_heap'
        return 'abstract_heap', self.w.subs[h[1]]['shared'], TOP[self.kind_of(h[1])] + '_heap'

    def matches_heap(self, a, b):
        if a[0] == 'abstract_heap' and b[0] == 'abstract_heap':
            return a[1] == b[1] and (a[2] == b[2] or b[2][:-5] in ABOVE[a[2][:-5]])
        if a[0] == 'abstract_heap':
            bottom = {'struct': 'none', 'array': 'none', 'func': 'nofunc', 'cont': 'nocont'}[self.kind_of(b[1])]
            return a[1] == self.w.subs[b[1]]['shared'] and a[2][:-5] == bottom
        if b[0] == 'abstract_heap':
            kind = self.kind_of(a[1])
            return b[1] == self.w.subs[a[1]]['shared'] and (kind == b[2][:-5] or b[2][:-5] in ABOVE[kind])
        if b[0] == 'exact':
            return a[0] == 'exact' and a[1] == b[1]
        return self.w.below(a[1], b[1])

    def matches_ref(self, a, b):
        return (b['nullable'] or not a['nullable']) and self.matches_heap(a['heap'], b['heap'])

    def matches(self, a, b):
        if is_reference(a) and is_reference(b):
            return self.matches_ref(a[1], b[1])
        return a == b

    def matches_all(self, a, b):
        return len(a) == len(b) and all(self.matches(x, y) for x, y in zip(a, b))

    def resolved(self, v):
        return mapped(lambda i: at(self.c.types, i), v)

    def signature(self, n):
        comp = self.sub(n)['comp']
        need(comp[0] == 'func')
        return comp[1], comp[2]

    def block_signature(self, b):
        if b == 'empty_block':
            return (), ()
        if b[0] == 'value_block':
            return (), (b[1],)
        return self.signature(b[1])

    def frame_at(self, n):
        need(n < len(self.frames))
        return self.frames[-1 - n]

    def label(self, n):
        x = self.frame_at(n)
        return self.block_signature(x['block'])[0 if x['kind'] == 'loop_kind' else 1]

    def signed(self, g):
        if g[0] == 'of_type':
            return self.signature(g[1])
        return self.signature(at(self.c.functions if g[0] == 'of_function' else self.c.tags, g[1]))

    def fields(self, n):
        comp = self.sub(n)['comp']
        need(comp[0] == 'struct')
        return comp[1]

    def element(self, n):
        comp = self.sub(n)['comp']
        need(comp[0] == 'array')
        return comp[1]

    def exact_if(self, is_exact, i):
        return ('exact' if is_exact and 'custom_descriptors' in self.c.features else 'concrete'), i

    def types(self, t):
        """The types of a list of operands."""
        if isinstance(t, str):
            assert t == 'returned', t
            return self.block_signature(self.frames[0]['block'])[1]
        name, n = t[0], t[1]
        if name == 'these':
            return tuple(self.resolved(v) for v in n)
        if name == 'joined':
            return self.types(n) + self.types(t[2])
        if name in ('params', 'results'):
            return self.signed(n)[name == 'results']
        if name == 'label':
            return self.label(n)
        if name == 'local':
            return (at(self.locals, n)[0],)
        if name == 'global':
            return (at(self.c.globals, n)['content'],)
        if name in ('front', 'last'):
            inner = self.types(n)
            need(inner)
            return inner[:-1] if name == 'front' else inner[-1:]
        if name in ('table_address', 'memory_address'):
            return (address(at(self.c.tables if name[0] == 't' else self.c.memories, n)['is_64']),)
        if name in ('lesser_table_address', 'lesser_memory_address'):
            items = self.c.tables if '_table' in name else self.c.memories
            return (address(at(items, n)['is_64'] and at(items, t[2])['is_64']),)
        return self.more_types(name, n, t)

    def more_types(self, name, n, t):
        if name == 'table_element':
            return (at(self.c.tables, n)['element'],)
        if name == 'segment':
            return (at(self.c.elements, n),)
        if name == 'fields':
            return tuple(unpack(v) for v, _ in self.fields(n))
        if name == 'element':
            return (unpack(self.element(n)[0]),)
        if name == 'field':
            return (unpack(at(self.fields(n), t[2])[0]),)
        if name == 'function_reference':
            return (ref(False, self.exact_if(at(self.c.exact, n), at(self.c.types, at(self.c.functions, n)))),)
        if name == 'new_reference':
            return (ref(False, self.exact_if(True, at(self.c.types, n))),)
        if name == 'descriptor_of':
            need(self.sub(n)['descriptor'] is not None)
            return (ref(True, ('exact', self.sub(n)['descriptor'])),)
        if name == 'top':
            return (ref(True, self.top_of(self.resolved(('reference', n))[1]['heap'])),)
        assert name == 'repeated', t
        inner = self.types(t[2])
        need(n * len(inner) <= len(self.operands) or self.frames[-1]['unreachable'])
        # in code that isn't reached there are as many as one likes
        return inner * min(n, len(self.operands) + 1)

    # checks
    def holds(self, c):
        name, n, context = c[0], c[1], self.c
        if name == 'has':
            return n in context.features
        if name == 'allows':
            return allows(context.features, n)
        if name == 'each_matches':
            return self.matches_all(self.types(n), self.types(c[2]))
        if name == 'global_is_mutable':
            return at(context.globals, n)['mutable']
        if name == 'local_is_set':
            return n < len(self.locals) and self.locals[n][1] or n in self.inits
        if name == 'function_is_referenced':
            return n in context.references
        if name == 'is_exception':
            return not self.signed(('of_tag', n))[1]
        if name == 'is_aligned':
            return c[2]['align'] <= WIDTHS[n] and (at(context.memories, c[2]['memory'])['is_64'] or c[2]['offset'] < 1 << 32)
        if name == 'data_is_there':
            return context.data_count is not None and n < context.data_count
        if name == 'segment_is_there':
            return n < len(context.elements)
        if name == 'reaches_global':
            return not self.shared or at(context.globals, n)['shared']
        if name == 'reaches_table':
            return not self.shared or at(context.tables, n)['shared']
        if name == 'reaches_type':
            return not self.shared or self.sub(n)['shared']
        if name == 'reaches_function':
            return not self.shared or self.sub(at(context.functions, n))['shared']
        return self.holds_of_types(name, n, c)

    def holds_of_types(self, name, n, c):
        if name == 'may_be_cast':
            a, b = self.resolved(('reference', n))[1], self.resolved(('reference', c[2]))[1]
            return self.matches_heap(b['heap'], self.top_of(a['heap'])) if 'custom_descriptors' in self.c.features else self.matches_ref(b, a)
        if name == 'can_be_tested':
            return self.top_of(self.resolved(('reference', n))[1]['heap'])[2] != 'cont_heap'
        if name == 'fields_have_defaults':
            return all(has_default(unpack(v)) for v, _ in self.fields(n))
        if name == 'has_no_descriptor':
            return self.sub(n)['descriptor'] is None
        if name == 'field_is_mutable':
            return at(self.fields(n), c[2])[1]
        if name == 'field_is_packed':
            return n == is_packed(at(self.fields(c[2]), c[3])[0])
        if name == 'element_is_mutable':
            return self.element(n)[1]
        if name == 'element_has_default':
            return has_default(unpack(self.element(n)[0]))
        if name == 'element_is_number':
            return not is_reference(unpack(self.element(n)[0]))
        if name == 'element_is_packed':
            return n == is_packed(self.element(c[2])[0])
        assert name == 'element_is_storable', c
        a, b = self.element(n)[0], self.element(c[2])[0]
        return a == b if is_packed(a) or is_packed(b) else self.matches(a, b)

    # operands: a type, 'bottom', 'bottom_reference' or ('open_reference', heap)
    def push(self, vs):
        self.operands.extend(vs)

    def pop_any(self):
        x = self.frames[-1]
        if len(self.operands) == x['height']:
            need(x['unreachable'])
            return 'bottom'
        return self.operands.pop()

    def pop_reference(self):
        v = self.pop_any()
        need(is_reference(v) or v in ('bottom', 'bottom_reference') or v[0] == 'open_reference')
        return 'bottom_reference' if v == 'bottom' else v

    def fits(self, v, wanted):
        if v == 'bottom':
            return True
        if v == 'bottom_reference':
            return is_reference(wanted)
        if v[0] == 'open_reference':
            return is_reference(wanted) and self.matches_heap(('abstract_heap', self.is_shared_heap(wanted[1]['heap']), v[1]), wanted[1]['heap'])
        return self.matches(v, wanted)

    def pop(self, vs):
        for v in reversed(vs):
            need(self.fits(self.pop_any(), v))

    def is_below_either(self, k, v):
        if v == 'bottom_reference':
            return True
        heap = ('abstract_heap', False, v[1]) if v[0] == 'open_reference' else v[1]['heap']
        return self.matches_heap(heap, ('abstract_heap', self.is_shared_heap(heap), k))

    # steps
    def step(self, shape):
        need(self.frames)
        if isinstance(shape, str):
            return {'closing': self.leave, 'turning': self.turn, 'dropping': self.pop_any, 'choosing': self.choose, 'never': self.refuse}[shape]()
        name = shape[0]
        if name in ('setting', 'giving_back'):
            return self.set(shape[1], name == 'giving_back')
        if name == 'branching_by_table':
            return self.branch_by_table(shape[1], shape[2])
        for c in shape[1]:
            need(self.holds(c))
        getattr(self, name)(*shape[2:])

    def refuse(self):
        raise Refused('never')

    def plain(self, takes, gives):
        self.pop(self.types(takes))
        self.push(self.types(gives))

    def stop(self):
        x = self.frames[-1]
        del self.operands[x['height']:]
        x['unreachable'] = True

    def ending(self, takes):
        self.pop(self.types(takes))
        self.stop()

    def opening(self, takes, kind, block):
        self.pop(self.types(takes))
        if isinstance(block, tuple) and block[0] == 'value_block':
            block = 'value_block', self.resolved(block[1])
        takes, _ = self.block_signature(block)
        self.pop(takes)
        self.enter(kind, block, takes)

    def enter(self, kind, block, takes):
        self.frames.append({'kind': kind, 'block': block, 'height': len(self.operands), 'unreachable': False, 'init': len(self.inits)})
        self.push(takes)

    def pop_frame(self):
        x = self.frames[-1]
        takes, gives = self.block_signature(x['block'])
        self.pop(gives)
        need(len(self.operands) == x['height'])
        del self.inits[x['init']:]
        self.frames.pop()
        return x, takes, gives

    def leave(self):
        x, takes, gives = self.pop_frame()
        need(x['kind'] != 'if_kind' or self.matches_all(takes, gives))
        self.push(gives)

    def turn(self):
        x, takes, _ = self.pop_frame()
        need(x['kind'] == 'if_kind')
        self.enter('else_kind', x['block'], takes)

    def choose(self):
        self.pop(('i32',))
        a, b = self.pop_any(), self.pop_any()
        for v in (a, b):
            need(v == 'bottom' or v in ('i32', 'i64', 'f32', 'f64', 'v128'))
        need('bottom' in (a, b) or a == b)
        self.operands.append(b if a == 'bottom' else a)

    def set(self, n, gives):
        t = at(self.locals, n)[0]
        self.pop((t,))
        if not (self.locals[n][1] or n in self.inits):
            self.inits.append(n)
        if gives:
            self.push((t,))

    def branch_by_table(self, ns, n):
        self.pop(('i32',))
        vs = self.label(n)
        seen = list(self.operands)
        for m in set(ns):
            ws = self.label(m)
            need(len(ws) == len(vs))
            self.pop(ws)
            self.operands[:] = seen
        self.pop(vs)
        self.stop()

    def testing_null(self):
        self.pop_reference()
        self.push(('i32',))

    def asserting_non_null(self):
        self.operands.append(non_null(self.pop_reference()))

    def branching_on_null(self, n):
        v = self.pop_reference()
        vs = self.label(n)
        self.pop(vs)
        self.push(vs)
        self.operands.append(non_null(v))

    def branching_on_non_null(self, n):
        self.asserting_non_null()
        vs = self.label(n)
        need(vs)
        self.pop(vs[-1:])
        self.pop(vs[:-1])
        self.push(vs[:-1])

    def measuring(self, k, gives):
        need(self.is_below_either(k, self.pop_reference()))
        self.push(self.types(gives))

    def comparing(self, gives):
        a, b = self.pop_reference(), self.pop_reference()
        need(self.is_below_either('eq_heap', a) and self.is_below_either('eq_heap', b))
        need(not (is_reference(a) and is_reference(b)) or self.is_shared_heap(a[1]['heap']) == self.is_shared_heap(b[1]['heap']))
        self.push(self.types(gives))

    def converting(self, j, k):
        v = self.pop_reference()
        need(self.is_below_either(j, v))
        self.operands.append(ref(v[1]['nullable'], ('abstract_heap', self.is_shared_heap(v[1]['heap']), k)) if is_reference(v) else ('open_reference', k))


WIDTHS = {camel(name): WIDTH.get(name) or {'8': 0, '1': 1, '3': 2}[re.search(r'(8|16|32)(_[su])?$', name).group(1)[0]] for name,
          (_, kinds) in W.OPERATORS.items() if 'mem' in kinds}


def address(is_64):
    return 'i64' if is_64 else 'i32'


def ref(nullable, heap):
    return 'reference', {'nullable': nullable, 'heap': heap}


def non_null(v):
    return ref(False, v[1]['heap']) if is_reference(v) else v


def unpack(v):
    return 'i32' if is_packed(v) else v


def is_packed(v):
    return v in ('i8', 'i16')


def has_default(v):
    return not is_reference(v) or v[1]['nullable']


def allows(features, v):
    if not is_reference(v):
        return {'f32': 'floats', 'f64': 'floats', 'v128': 'simd'}.get(v, 'always') in features | {'always'}
    heap = v[1]['heap']
    if 'reference_types' not in features:
        return False
    if heap[0] == 'concrete':
        return bool(features & {'gc', 'function_references'})
    if heap[0] == 'exact':
        return 'custom_descriptors' in features
    k = heap[2][:-5]
    if heap[1] and 'shared_everything_threads' not in features or k not in ('func', 'exn') and 'gc_types' not in features:
        return False
    if k in ('func', 'extern'):
        return v[1]['nullable'] or 'function_references' in features
    return {'exn': 'exceptions', 'noexn': 'exceptions', 'cont': 'stack_switching', 'nocont': 'stack_switching'}.get(k, 'gc') in features


# ------------------------------------------------------------------------------------------------- bodies
class Body:
    """A body that was read: its instructions, and what they stand in. `error` where it can't be read, behind those that can."""

    def __init__(self, context, k):
        self.context, self.index, self.ops, self.error, self.locals = context, context.functions[context.imported + k], [], False, []
        start, end = context.bodies[k]
        r = Bytes(context.__dict__['bytes'], start, end)
        sub = context.world.subs[context.types[self.index]]
        self.shared = sub['shared']
        self.locals = [(v, True) for v in sub['comp'][1]]
        try:
            for _ in range(r.unsigned()):
                n, v = r.unsigned(), r.val()
                need(allows(context.features, v) and len(self.locals) + n <= 50000)
                v = mapped(lambda i: at(context.types, i), v)
                self.locals += [(v, has_default(v))] * n
            need(len(self.locals) <= 50000)
            while r.at < end:
                self.ops.append(instruction(r))
        except Refused:
            self.error = True

    def accepted(self, table):
        try:
            machine = Machine(self.context, self.index, self.locals, self.shared)
            for op in self.ops:
                machine.step(table.shape(op))
            return not self.error and not machine.frames
        except Refused:
            return False


def digits(text):
    out = b''
    for piece in re.findall(r'\([0-9a-f ]*\)\*\d+|[H0-9a-f]+', text):
        if piece[0] == '(':
            inner, _, times = piece[1:].partition(')*')
            out += bytes.fromhex(inner) * int(times)
        else:
            out += b'\0asm\1\0\0\0' * piece.count('H') + bytes.fromhex(piece.replace('H', ''))
    return out


def rows():
    """(title, bodies, whether all are accepted) of each module whose answer is that of its bodies."""
    with open(ROWS) as f:
        for line in f:
            if line.startswith('#') or not line.strip():
                continue
            title, features, *parts = line.rstrip('\n').split(' | ')
            world, on = Types(), features_of(features)
            for text, wanted in zip(parts[::2], parts[1::2]):
                b = digits(text)
                made = module(b, on, world, wanted)
                if made is not None:
                    yield title, made, wanted.startswith('ok')


def module(b, on, world, wanted):
    if len(b) < 8 or 'can_reset false' in wanted or 'has_failed true' in wanted:
        return None
    try:
        context = Context(b, on, world)
    except (Refused, W.Bad, KeyError, IndexError):
        return None if not wanted.startswith('ok') else []
    if len(context.bodies) != len(context.functions) - context.imported:
        return None
    if wanted.startswith('refused') and IN_BODY not in wanted:
        place = re.match(r'refused (\d+) ', wanted)
        if not place or not any(s <= int(place.group(1)) <= e for s, e in context.bodies):
            return None
    context.bytes = b
    return [Body(context, k) for k in range(len(context.bodies))]


IN_BODY = 'can_reset true'


# ------------------------------------------------------------------------------------------------- changes
OTHERS = {'i32': ['i64'], 'i64': ['i32'], 'f32': ['f64'], 'f64': ['f32'], 'v128': ['i32'], 'params': ['results'], 'results': ['params'], 'of_type': [],
          'true': ['false'], 'false': ['true'],
          'table_address': ['lesser'], 'front': ['last'], 'last': ['front'], 'block_kind': ['loop_kind', 'if_kind', 'try_table_kind'],
          'loop_kind': ['block_kind'], 'if_kind': ['block_kind'],
          'try_table_kind': ['loop_kind'], 'gc': ['bulk_memory'], 'bulk_memory': ['gc'], 'exceptions': ['gc'], 'reference_types': ['gc'],
          'function_references': ['gc'], 'custom_descriptors': ['gc'],
          'shared_everything_threads': ['gc'], 'multi_value': ['gc'], 'eq_heap': ['any_heap'], 'any_heap': ['extern_heap'], 'extern_heap': ['any_heap'],
          'i31_heap': ['eq_heap'], 'array_heap': ['eq_heap'],
          'exn_heap': ['any_heap'], 'func_heap': ['any_heap'], 'returned': ['nothing'], 'ending': [], 'plain': ['ending'], 'setting': ['giving_back'],
          'giving_back': ['setting'], 'element': ['descriptor_of'],
          'closing': ['dropping'], 'turning': ['closing'], 'dropping': ['choosing'], 'choosing': ['dropping'], 'never': ['dropping'],
          'testing_null': ['asserting_non_null'],
          'asserting_non_null': ['testing_null'], 'branching_on_null': ['branching_on_non_null'], 'branching_on_non_null': ['branching_on_null']}
CHECKS = {'has', 'allows', 'global_is_mutable', 'local_is_set', 'function_is_referenced', 'is_exception', 'each_matches', 'may_be_cast', 'can_be_tested',
          'is_aligned', 'fields_have_defaults', 'has_no_descriptor',
          'field_is_mutable', 'field_is_packed', 'element_is_mutable', 'element_has_default', 'element_is_number', 'element_is_packed', 'element_is_storable',
          'data_is_there', 'segment_is_there',
          'reaches_global', 'reaches_table', 'reaches_type', 'reaches_function', 'returns', 'holds_functions'}
TAKEN_AND_GIVEN = {'nothing', 'these', 'params', 'results', 'label', 'returned', 'local', 'global', 'function_reference', 'new_reference', 'fields',
                   'element', 'field', 'table_address', 'memory_address',
                   'table_element', 'segment', 'lesser_table_address', 'lesser_memory_address', 'top', 'descriptor_of', 'repeated', 'one', 'exception',
                   'kept', 'joined'}


def changes(e):
    """Each change of an expression, in words, with the expression that it leads to."""
    if isinstance(e, str):
        for other in OTHERS.get(e, []):
            if other != 'lesser':
                yield '%s for %s' % (other, e), other
        if e in TAKEN_AND_GIVEN - {'nothing'} and e in ('returned', 'exception'):
            yield 'nothing for %s' % e, 'nothing'
        return
    if e[0] == 'cons' and is_check(e[1]):
        yield 'without %s' % shown(e[1]), e[2]
    if e[0] == 'append':
        yield 'without %s' % shown(e[1]), e[2]
        yield 'without %s' % shown(e[2]), e[1]
    if e[0] == 'app' and e[1] in TAKEN_AND_GIVEN:
        yield 'nothing for %s' % shown(e), 'nothing'
        if e[1] == 'joined':
            yield '%s alone' % shown(e[2]), e[2]
            yield '%s alone' % shown(e[3]), e[3]
            yield '%s first' % shown(e[3]), e[:2] + (e[3], e[2])
        if e[1].startswith('lesser'):
            yield 'the first address', ('app', e[1][7:], e[2])
            yield 'the second address', ('app', e[1][7:], e[3])
    if e[0] == 'app' and e[1] in ('plain', 'comparing') and len(e) == 5:
        yield 'takes and gives exchanged', e[:3] + (e[4], e[3])
    if e[0] == 'app' and len(e) > 3 and e[1] in ('indirect_checks', 'each_matches', 'may_be_cast', 'element_is_storable', 'table_element'):
        yield '%s with both exchanged' % shown(e), e[:2] + (e[3], e[2])
    if e[0] == 'if':
        yield 'always the first', e[2]
        yield 'always the second', e[3]
    if e[0] == 'rec':
        for i, (name, x) in enumerate(e[1]):
            for words, y in changes(x):
                yield words, ('rec', e[1][:i] + ((name, y),) + e[1][i + 1:])
        return
    for i in range(1, len(e)):
        for words, y in changes(e[i]):
            yield words, e[:i] + (y,) + e[i + 1:]


def is_check(e):
    return isinstance(e, tuple) and e[0] == 'app' and e[1] in CHECKS


def shown(e):
    if isinstance(e, str):
        return e
    if e[0] == 'cons':
        return '%s ∷ %s' % (shown(e[1]), shown(e[2]))
    if e[0] == 'append':
        return '%s ++ %s' % (shown(e[1]), shown(e[2]))
    if e[0] == 'app':
        return ' '.join([e[1]] + ['(%s)' % shown(x) if isinstance(x, tuple) else x for x in e[2:]])
    return '..'


def main():
    with open(SHAPES) as f:
        functions = read_table(f.read())
    table = Table(functions)
    users, wrong, total = {}, 0, 0
    for title, bodies, ok in rows():
        total += 1
        table.used = set()
        given = all([b.accepted(table) for b in bodies])
        if given != ok:
            wrong += 1
            print('otherwise: %s: wanted %s, the table says %s' % (title, 'ok' if ok else 'refused', 'ok' if given else 'refused'))
        elif sum(len(b.ops) for b in bodies) <= LARGEST:
            for clause in table.used:
                users.setdefault(clause, []).append((bodies, ok))
    print('%d modules, of which the table says otherwise of %d' % (total, wrong))
    count = lived = senseless = 0
    for name, clauses in functions.items():
        for i, (patterns, e) in enumerate(clauses):
            tried = set()
            for words, other in changes(e):
                if repr(other) in tried or other == e or name == 'shape_of':
                    continue
                tried.add(repr(other))
                count += 1
                answer = survives(functions, (name, i), other, users)
                senseless += answer is None
                if answer:
                    lived += 1
                    print('survives: %s, clause %s: %s' % (name, ' '.join(shown(p) for p in patterns) or '-', words))
    print('%d changes, of which %d make no table, and %d survive' % (count, senseless, lived))


def survives(functions, clause, e, users):
    """Whether the changed table gives every answer as before; nothing where it isn't a table, since a word of it has no meaning."""
    table = Table(functions, clause, e)
    for bodies, ok in users.get(clause, []):
        try:
            if all([b.accepted(table) for b in bodies]) != ok:
                return False
        except (AssertionError, KeyError, IndexError, TypeError, AttributeError, RecursionError):
            return None
    return True


if __name__ == '__main__':
    main()
