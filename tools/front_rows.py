#!/usr/bin/env python3
"""front_rows.py [--check]: writes crates/test_all/data/modules/fronts.rows, the fronts of some modules, and the modules with one byte replaced, or
compares what it makes with that file.

The verdict on a front that ends with a section, and on a module with a byte replaced, is what the Rust crate answered, all its features on: it is in
tools/crate_answers.txt, or, of a module that has none there, in ANSWERS, by the Core Specification. The rest is by the binary format (Core
Specification 3.0, Binary Format, Modules): any other front is malformed, where its last section begins or, within that one's id and size, at its end.

The state afterwards: before a header where that is refused; in the module where bytes are refused that part it into sections and bodies, which are
ids, sizes, the number of bodies and their sizes; failed where a section is refused for what is in it; after the end where a body is refused, or nothing.
Fronts that lie one after another and want the same are one row.
"""
import os, sys

sys.dont_write_bytecode = True
sys.path.insert(0, os.path.dirname(os.path.abspath(__file__)))
import row_writer
from crate_answers import Answers

HEADER = bytes.fromhex('0061736d01000000')
CHAIN = '50 00 60 00 00' + ''.join(' 50 01 %02x 60 00 00' % before for before in range(64))

ONE = '01 06 01 60 01 7f 01 7c'
TWO = '01 19 02 4e 02 5f 01 63 01 00 5f 01 63 00 00 4e 02 5f 01 63 03 00 5f 01 63 02 00'
FOUR = '01 1b 04 50 00 5f 00 50 01 00 5f 01 7f 00 50 00 60 01 63 01 00 50 01 02 60 01 63 00 00'
IMPORT = '01 04 01 60 00 00 02 07 01 01 61 01 62 00 00 07 05 01 01 63 00 00'
SHORT_CHAIN = '01 80 03 40 ' + CHAIN[:3 * 5 + 3 * 6 * 63]
LONG_CHAIN = '01 86 03 41 ' + CHAIN
THREE_IMPORTS = '02 16 03 01 61 01 62 02 00 01 01 63 01 64 02 00 01 01 61 01 62 02 00 01'
ALL = ('01 0c 02 60 02 7f 7e 01 7f 60 02 7e 7f 00 03 02 01 00 04 04 01 70 00 0a 05 04 01 01 01 05 0d 03 01 00 01 06 06 01 7f 01 41 00 0b 09 07 01 05 70 01'
       ' d2 00 0b 0a 06 01 04 00 41 00 0b')
REFUSED = '01 04 01 60 00 00 03 02 01 00 05 03 01 00 01 0a 04 01 02 00 0b 0b 07 01 00 d2 00 0b 01 78'


def number_at(data, at):
    """The unsigned LEB128 number at this offset, and the offset after it."""
    value, shift = 0, 0
    while True:
        byte = data[at]
        value |= (byte & 0x7f) << shift
        at, shift = at + 1, shift + 7
        if byte < 0x80:
            return value, at


class Module:
    def __init__(self, name, text, refused_in_section=False, places=False, facts=None):
        self.name, self.text, self.data = name, text, HEADER + bytes.fromhex(text)
        self.refused_in_section, self.places, self.facts = refused_in_section, places, facts or {}
        # where each section begins and ends, and the state that a refusal of each byte leaves
        self.sections, self.after = [], ['ready'] * 8
        at = 8
        while at < len(self.data):
            size, begin = number_at(self.data, at + 1)
            self.after += ['reading'] * (begin - at)
            if self.data[at] == 10:
                count, inner = number_at(self.data, begin)
                for _ in range(count):
                    length, body = number_at(self.data, inner)
                    self.after += ['reading'] * (body - len(self.after))
                    self.after += ['failed' if refused_in_section else 'ready'] * length
                    inner = body + length
                assert inner == begin + size
            else:
                self.after += ['failed'] * size
            self.sections.append((begin, begin + size))
            at = begin + size
        assert len(self.after) == len(self.data)

    def verdict(self, answers, data):
        """`ok` or `refused`."""
        found = answers.of(data).verdict
        if found == 'none':
            found = ANSWERS.get(data.hex(), 'none')
        if found == 'none' and self.name not in LACKING:
            LACKING.append(self.name)
        return found

    def front(self, answers, length):
        """What is wanted of the first bytes, so many."""
        if length == 8 or length in [end for _, end in self.sections]:
            if self.verdict(answers, self.data[:length]) == 'ok':
                return 'ok; %sstate ready' % ''.join(fact + '; ' for fact in [self.facts.get(length, 'types' if length == 8 else '')] if fact)
            return 'refused; state reading'
        if length < 8:
            wanted, state = 'refused', 'ready'
            place = 0 if length < 4 else length
        else:
            wanted, state = 'refused', 'reading'
            place = min([length] + [begin for begin, end in self.sections if begin <= length < end])
        if self.places:
            wanted = 'refused %d unexpected end-of-file' % place
        # nothing is shown of a section that is cut off
        return '%s; state %s%s' % (wanted, state, '; types' if state == 'reading' and len(self.sections) == 1 else '')

    def replaced(self, answers, at, byte):
        """What is wanted where the byte at this offset is replaced by this one, None where it is that already."""
        if self.data[at] == byte:
            return None
        verdict = self.verdict(answers, self.data[:at] + bytes([byte]) + self.data[at + 1:])
        if verdict == 'ok' and (self.name, at, byte) not in NO_VALUE_TYPE:
            return 'ok; state ready'
        # a size of 0 parts the bytes in other ways
        return 'refused' if byte == 0 else 'refused; state ' + self.after[at]

    def rows(self, head, wanted):
        """Rows of the form that begins with `head`, of these numbers and what each wants."""
        rows = []
        for number, what in wanted:
            if what is None:
                continue
            if rows and rows[-1][1] == number - 1 and rows[-1][2] == what:
                rows[-1][1] = number
            else:
                rows.append([number, number, what])
        return ['%s %d to %d | %s | default | H %s | %s' % (head, first, last, self.name, self.text, what) for first, last, what in rows]

    def fronts(self, answers):
        return self.rows('fronts', [(length, self.front(answers, length)) for length in range(len(self.data))])

    def changes(self, answers, byte):
        return self.rows('%02x' % byte, [(at, self.replaced(answers, at, byte)) for at in range(len(self.data))])


FRONTS = [
    Module('one function type', ONE, places=True),
    Module('two groups of two', TWO, places=True),
    Module('four types, the last a sub type', FOUR, places=True),
    Module('imports, an export and a start', IMPORT + ' 08 01 00', places=True, facts={
        14: 'types 0', 23: 'types 0; functions 0; imports a b (func (id 0))', 30: 'types 0; functions 0; imports a b (func (id 0)); exports c (func (id 0))'}),
    Module('a chain of 64 types', SHORT_CHAIN),
    Module('a chain of 65 types', LONG_CHAIN, refused_in_section=True),
    Module('three imports, two of one name', THREE_IMPORTS),
    Module('a section of each kind but imports, exports, a start and data', ALL),
    Module('data at an offset that is no number', REFUSED, refused_in_section=True),
]
CHANGED = [Module('an import and an export of it', IMPORT)]
# By its bytes in hexadecimal, `ok` or `refused` for a module that the Rust crate wasn't asked, by the Core Specification.
ANSWERS = {}
LACKING = []
# where 00 comes in place of a value type, the Rust crate takes it for a reference to type 0, which the grammar of value types doesn't have (Core
# Specification 3.0, Binary Format, Types, Value Types)
NO_VALUE_TYPE = {('one function type', 13, 0), ('one function type', 15, 0)}

HEAD = """\
# Rows of two forms:
#
#     fronts FIRST to LAST | NAME | FEATURES | BYTES | WANTED
#     ff FIRST to LAST | NAME | FEATURES | BYTES | WANTED
#
# The first gives the first n bytes of a module to a validator, for each n from FIRST to LAST, each to a fresh one. The second gives it the module with
# the byte at offset n replaced by ff, or, with `00` in place of `ff`, by 00. NAME, FEATURES, BYTES and WANTED are those of modules.rows; each n wants
# the same. `state ready`, `state reading` and `state failed` say what can be seen of the validator afterwards: that it may be reset, as before a
# header and after the end, that it shows a module, or that it has failed.
#
# tools/front_rows.py writes them, and says where the wanted answers come from.
"""


def main():
    answers = Answers()
    lines = [HEAD, '# every front: the header alone is a module, and so are those that end with a section and lack no body']
    for module in FRONTS:
        lines += module.fronts(answers)
    lines += ['', '# each byte replaced by ff']
    for module in FRONTS[:1] + CHANGED + FRONTS[4:]:
        lines += module.changes(answers, 0xff)
    lines += ['', '# each byte that is another replaced by 00']
    for module in FRONTS[:1] + CHANGED:
        lines += module.changes(answers, 0)
    lines += [''] + NO_ROWS
    return row_writer.main({'modules/fronts.rows': '\n'.join(lines) + '\n'}, LACKING, sys.argv[1:])


# what isn't of these forms
NO_ROWS = [
    '# Rows that want another answer, and lines that are no rows',
    'fronts 8 to 8 | the header alone is accepted | default | H 01 | not refused',
    'ff 0 to 7 | a header with a byte replaced is refused | default | H | not ok',
    '00 0 to 0 | the first byte is 00 already | default | H | not refused',
    'no row | fewer bytes than that | fronts 8 to 9 | a front that is longer than the module | default | H 01 | ok',
    'no row | fewer bytes than that | fronts 8 to 8 | a front that is the module | default | H | ok',
    'no row | fewer bytes than that | ff 8 to 8 | a byte after the last | default | H | ok',
    'no row | a row without bytes | fronts 0 to 1 | nothing | default',
    'no row | bytes without a wanted answer | fronts 0 to 1 | nothing | default | H',
    'no row | features that begin with no known set | fronts 0 to | nothing | default | H | refused',
    'no row | features that begin with no known set | fronts 1 to 0 | nothing | default | H | refused',
    'no row | features that begin with no known set | fe 0 to 1 | nothing | default | H | refused',
]


if __name__ == '__main__':
    sys.exit(main())
