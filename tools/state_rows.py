#!/usr/bin/env python3
"""state_rows.py [--check]: writes crates/test_all/data/modules/states.rows, each call of a validator after each call, in each of its states, or compares
what it makes with that file.

A validator is in one of five states: before a header, in a module whose code section has not started, in one whose code section has
started, after the end, and failed. There are eighteen calls. `answer` says what a call answers in each state, and in which state it leaves the
validator. That is the rule; nothing here comes from a run of the program. What is in a section is refused in two cases alone: functions and
a start function need what no section has given yet.

Calls that keep the state are made in turn on one validator, so that a row has a call with each further one, before it and after it. A call that
changes the state is made on a validator that is brought back to the state for each pair.
"""
import os
import sys

sys.dont_write_bytecode = True
sys.path.insert(0, os.path.dirname(os.path.abspath(__file__)))
import row_writer

# a call's name, what it is called in the name of a row, and what it takes: of a section so much that it has an item
CALLS = [
    ('version', 'a header', 'module 1'),
    ('type_section', 'types', '01 60 01 7f 00'),
    ('import_section', 'imports', '01 01 61 01 62 02 00 01'),
    ('function_section', 'functions', '01 00'),
    ('table_section', 'tables', '01 70 00 01'),
    ('memory_section', 'memories', '01 00 01'),
    ('tag_section', 'tags', '01 00 00'),
    ('global_section', 'globals', '01 7f 01 41 00 0b'),
    ('export_section', 'exports', '01 01 %02x 00 00'),     # each export has a name of its own
    ('start_section', 'a start function', '0'),
    ('element_section', 'elements', '01 01 00 01 00'),
    ('data_count_section', 'a data count', '1'),
    ('code_section_start', 'a start of the code', ''),
    ('code_section_entry', 'a body', '00 0b'),
    ('data_section', 'data', '01 01 01 2a'),
    ('unknown_section', 'an unknown section', '42'),
    ('custom_section', 'a custom section', '01 61 00'),
    ('end', 'an end', ''),
]
NAMES = [name for name, _, _ in CALLS]
TITLES = {name: title for name, title, _ in CALLS}
TAKES = {name: takes for name, _, takes in CALLS}
UNPARSED, MODULE, CODE, ENDED, FAILED = STATES = ['before a header', 'in a module', 'after the start of the code', 'after the end', 'after a failure']
SEEN = {UNPARSED: 'ready', MODULE: 'reading', CODE: 'reading', ENDED: 'ready', FAILED: 'failed'}
# what a section answers that the state doesn't take
TOO_EARLY = 'unexpected section before header was parsed'
TOO_LATE = 'unexpected section after parsing has completed'
CODE_STARTED = 'unexpected section after the code section started'
NO_CODE = 'code section entry before the code section started'
NO_FUNCTION = 'code section entry without a function'
HAS_FAILED = 'validator failed: an earlier section was refused'
FUNCTIONS = 40


def answer(state, call, functions, has_types):
    """What the call answers in this state, None if it is accepted, and the state after it. So many functions have no body yet."""
    if call == 'unknown_section':
        return 'malformed section id: 42', state
    if call == 'custom_section':
        return None, state
    if call == 'version':
        return (None, MODULE) if state == UNPARSED else ('wasm version header out of order', state)
    if call == 'end':
        return {
            UNPARSED: ('cannot call `end` before a header has been parsed', ENDED),
            MODULE: (None, ENDED),
            CODE: (None, ENDED),
            ENDED: ('cannot call `end` after parsing has completed', ENDED),
            FAILED: (HAS_FAILED, FAILED),
        }[state]
    # a section
    if state in (UNPARSED, ENDED, FAILED):
        return {UNPARSED: TOO_EARLY, ENDED: TOO_LATE, FAILED: HAS_FAILED}[state], state
    if call == 'code_section_entry':
        if state == MODULE:
            return NO_CODE, MODULE
        return (None if functions else NO_FUNCTION), CODE
    if state == CODE:
        return (None if call == 'data_section' else CODE_STARTED), CODE
    if call == 'start_section' and not has_types:
        return 'unknown function 0: func index out of bounds', FAILED
    return None, CODE if call == 'code_section_start' else MODULE


# sections that are refused for what is in them, in a module with the type `[] -> []` and functions of it
REFUSED = [
    ('type_section 30 c1 84 3d', 'refused 30 types count exceeds limit of 1000000'),
    ('import_section 30 01 01 61 01 62 00 05', 'refused 31 unknown type 5: type index out of bounds'),
    ('function_section 30 01 05', 'refused 31 unknown type 5: type index out of bounds'),
    ('table_section 30 01 70 01 02 01', 'refused 31 size minimum must not be greater than maximum'),
    ('memory_section 30 01 01 02 01', 'refused 31 size minimum must not be greater than maximum'),
    ('tag_section 30 01 00 05', 'refused 31 unknown type 5: type index out of bounds'),
    ('global_section 30 01 7f 00 42 00 0b', 'refused'),
    ('export_section 30 01 01 61 00 40', 'refused 31 unknown function 64: exported function index out of bounds'),
    ('start_section 30 64', 'refused 30 unknown function 64: func index out of bounds'),
    ('element_section 30 01 01 00 01 40', 'refused'),
    ('data_count_section 30 100001', 'refused 30 data count section specifies too many data segments'),
    ('data_section 30 01 00 41 00 0b 00', 'refused'),
]
HEADER = [('version 0 module 1', 'ok')]
FUNCTIONS_GIVEN = HEADER + [('type_section 10 01 60 00 00', 'ok'), ('function_section 16 %02x (00)*%d' % (FUNCTIONS, FUNCTIONS), 'ok')]
SET_UP = {
    UNPARSED: [[]],
    MODULE: [FUNCTIONS_GIVEN],
    CODE: [FUNCTIONS_GIVEN + [('code_section_start 60', 'ok')]],
    ENDED: [HEADER + [('end 8', 'ok')]],
    FAILED: [FUNCTIONS_GIVEN + [refused] for refused in REFUSED],
}


class Run:
    """The calls of one row, on one validator."""

    def __init__(self, start, way=0):
        self.start, self.way = start, way
        self.parts, self.exports, self.pairs = [], 0, []
        self.set_up()

    def set_up(self):
        """Brings a validator before a header into the state of the row, the last one by one of several ways."""
        ways = SET_UP[self.start]
        self.parts += ways[self.way % len(ways)]
        self.state, self.last = self.start, None
        self.functions, self.has_types = FUNCTIONS, self.start != UNPARSED

    def call(self, name):
        offset = 100 + len(self.parts)
        takes = TAKES[name]
        has_items = name.endswith('_section') and name not in ('start_section', 'data_count_section', 'unknown_section', 'custom_section')
        if has_items and self.state == MODULE and not self.has_types:
            takes = '00'
        elif name == 'export_section':
            takes = takes % (0x21 + self.exports)
            self.exports += 1
        refusal, after = answer(self.state, name, self.functions, self.has_types)
        wanted = 'refused %d %s' % (offset, refusal) if refusal else 'ok'
        if name == 'code_section_entry' and not refusal:
            wanted += '; index %d; body ok' % (FUNCTIONS - self.functions)
            self.functions -= 1
        elif name == 'function_section' and not refusal:
            self.functions += 1
        self.parts.append((('%s %d %s' % (name, offset, takes)).strip(), '%s; state %s' % (wanted, SEEN[after])))
        if self.last:
            self.pairs.append((self.start,) + (self.last, name))
        self.state, self.last = after, name

    def back(self):
        """Brings the validator back into the state of the row."""
        if self.state in (MODULE, CODE):
            self.parts.append(('end 90', 'ok'))
        if self.state != UNPARSED:
            self.parts.append(('reset', 'ok'))
        self.exports = 0
        self.set_up()

    def row(self, title):
        return 'calls | %s | default | %s' % (title, ' | '.join('%s | %s' % part for part in self.parts))


def rows_of(state):
    """The rows of this state, and the pairs of calls that they show."""
    rows, pairs = [], []
    keep = [call for call in NAMES if answer(state, call, FUNCTIONS, True)[1] == state]
    turn = [call for call in NAMES if call not in keep]

    def done(run, title):
        rows.append(run.row('%s, %s' % (title, state)))
        pairs.extend(run.pairs)

    for i, first in enumerate(keep):
        run = Run(state, i)
        run.call(first)
        run.call(first)
        for second in keep[i + 1:]:
            run.call(second)
            run.call(first)
        last = i + 1 == len(keep)
        done(run, TITLES[first] + (' twice' if last else ' twice, and each further call before and after it'))
    for last in turn:
        run = Run(state)
        for first in keep:
            run.call(first)
            run.call(last)
            run.back()
        done(run, 'each call and then ' + TITLES[last])
        run = Run(state)
        for second in sorted(NAMES, key=lambda name: name == 'start_section'):     # which fails the validator where it has no function
            run.call(last)
            run.call(second)
            if run.state != FAILED:
                run.back()
        done(run, TITLES[last] + ' and then each call')
    return rows, pairs


HEAD = """\
# Rows of the form that calls.rows describes: each of the eighteen calls of a validator after each of them, in each of its five states, 1,620 pairs.
#
# tools/state_rows.py writes them, by the table of states that it has. After each call `state` is wanted: `ready` before a header and after the end,
# `reading` in a module, `failed` after a section that was refused.
"""


def main():
    lines, pairs = [HEAD], set()
    for state in STATES:
        rows, shown = rows_of(state)
        lines += ['# ' + state] + rows + ['']
        pairs.update(shown)
    wanted = {(state, first, second) for state in STATES for first in NAMES for second in NAMES}
    assert pairs == wanted, (len(pairs), sorted(wanted - pairs)[:5], sorted(pairs - wanted)[:5])
    return row_writer.main({'modules/states.rows': '\n'.join(lines).rstrip() + '\n'}, [], sys.argv[1:])


if __name__ == '__main__':
    sys.exit(main())
