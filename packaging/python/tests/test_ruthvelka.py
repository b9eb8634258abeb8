"""Tests of the package, as it is installed or on the path: `python -m unittest`. What is expected follows from the Core Specification."""
import copy
import ctypes
import gc
import os
import pickle
import re
import subprocess
import sys
import tempfile
import threading
import unittest
from unittest import mock

import ruthvelka
from ruthvelka import Answer, HeapType, Kind, Query, QueryKind, Validator, ValueKind, ValueType, Verdict, WasmFeatures
from ruthvelka import _calls, _handles, _library, _sections

HEAD = b"\0asm\1\0\0\0"


def number(it: int) -> bytes:
    """The number in LEB128."""
    return bytes([it]) if it < 128 else bytes([it & 127 | 128]) + number(it >> 7)


def section(kind: int, *items: bytes) -> bytes:
    """A section of a vector of these items."""
    whole = number(len(items)) + b"".join(items)
    return bytes([kind]) + number(len(whole)) + whole


def body(code: bytes) -> bytes:
    """A code section of one body without locals."""
    return section(10, number(len(code) + 2) + b"\0" + code + b"\x0b")


FUNCTIONS = section(1, b"\x60\0\0", b"\x60\1\x7f\1\x7f")  # (func) and (func (param i32) (result i32))
IMPORT = section(2, b"\1m\1f\0\0")  # m.f, of the first type
ONE = section(3, b"\1")  # a function of the second type
WHOLE = HEAD + FUNCTIONS + IMPORT + ONE + section(7, b"\1g\0\1") + body(b"\x20\0")
WRONG_BODY = HEAD + FUNCTIONS + IMPORT + ONE + body(b"\1")  # the result is missing
STRUCTURES = HEAD + section(1, b"\x5f\1\x7f\0", b"\x5f\1\x7f\0")  # one structure type twice
SHRINKING = HEAD + section(5, b"\1\2\1")  # a memory with a minimum of 2 and a maximum of 1
VECTORS = HEAD + section(1, b"\x60\1\x7b\1\x7b") + section(3, b"\0") + body(b"\x20\0\xfd\x4d")  # v128.not
EXPORTER = HEAD + FUNCTIONS + section(3, b"\0", b"\1") + section(7, b"\1a\0\0", b"\1b\0\1") + section(10, b"\2\0\x0b", b"\4\0\x20\0\x0b")
IMPORTED_AND_EXPORTED = HEAD + FUNCTIONS + IMPORT + section(7, b"\1f\0\0")
SUBTYPES = HEAD + section(1, b"\x50\0\x5f\1\x7f\0", b"\x50\1\0\x5f\2\x7f\0\x7e\0")  # (sub (struct i32)) and below it (struct i32 i64)


def exported_twice(name: bytes) -> bytes:
    """A module that exports a memory twice under this name."""
    return HEAD + section(5, b"\0\1") + section(7, *2 * [number(len(name)) + name + b"\2\0"])


class Features(unittest.TestCase):
    def test_are_those_of_the_library(self):
        for bit in range(64):
            room = ctypes.create_string_buffer(64)
            length = _library.calls.ruthvelka_feature_name(1 << bit, room, 64)
            name = room.raw[:length].decode()
            if name:
                self.assertEqual(WasmFeatures[name].value, 1 << bit)
            else:
                self.assertNotIn(1 << bit, [it.value for it in WasmFeatures])

    def test_unknown_ones_are_refused(self):
        for call in (ruthvelka.validate, ruthvelka.is_valid, ruthvelka.imports_and_exports):
            with self.assertRaises(ruthvelka.BadCall):
                call(HEAD, WasmFeatures(1 << 63))
        with self.assertRaises(ruthvelka.BadCall):
            ruthvelka.validate_list([HEAD], WasmFeatures(1 << 63))

    def test_decide(self):
        with self.assertRaises(ruthvelka.Refused) as it:
            ruthvelka.validate(VECTORS)
        self.assertEqual(it.exception.missing_features, WasmFeatures.VECTOR_OPERATORS)
        self.assertEqual(ruthvelka.validate(VECTORS, WasmFeatures.STANDARD | WasmFeatures.VECTOR_OPERATORS).functions, 1)


class OneModule(unittest.TestCase):
    def test_counts(self):
        it = ruthvelka.validate(WHOLE)
        self.assertEqual((it.types, it.functions, it.tables, it.memories, it.globals, it.tags, it.imports, it.exports), (2, 2, 0, 0, 0, 0, 1, 1))
        self.assertEqual(len(it.type_ids), 2)
        self.assertEqual(it.function_ids, it.type_ids)

    def test_kinds_of_bytes(self):
        for data in (WHOLE, bytearray(WHOLE), memoryview(WHOLE)):
            self.assertTrue(ruthvelka.is_valid(data))
        for data in (8, "", None):
            with self.assertRaises(TypeError):
                ruthvelka.validate(data)

    def test_refusal(self):
        with self.assertRaises(ruthvelka.Refused) as it:
            ruthvelka.validate(SHRINKING)
        self.assertEqual((it.exception.offset, it.exception.function, it.exception.missing_features), (11, None, WasmFeatures(0)))
        self.assertEqual(str(it.exception), "refused at 11: size minimum must not be greater than maximum")
        self.assertEqual(str(pickle.loads(pickle.dumps(it.exception))), str(it.exception))
        self.assertFalse(ruthvelka.is_valid(SHRINKING))
        self.assertFalse(ruthvelka.is_valid(b""))

    def test_refused_body(self):
        with self.assertRaises(ruthvelka.Refused) as it:
            ruthvelka.validate(WRONG_BODY)
        self.assertEqual(it.exception.function, 1)

    def test_long_and_hidden_messages(self):
        name = b"\x1b[2J\n" + b"n" * 3000
        with self.assertRaises(ruthvelka.Refused) as it:
            ruthvelka.validate(exported_twice(name))
        self.assertIn(name.decode(), it.exception.message)
        self.assertTrue(str(it.exception).isprintable())

    def test_ids(self):
        first, second = ruthvelka.validate(STRUCTURES), ruthvelka.validate(STRUCTURES)
        self.assertEqual(first.type_ids[0], first.type_ids[1])
        self.assertNotEqual(first.type_ids[0], second.type_ids[0])

    def test_imports_and_exports(self):
        imports, exports = ruthvelka.imports_and_exports(WHOLE)
        self.assertEqual([(it.module, it.name, it.kind) for it in imports], [("m", "f", Kind.FUNCTION)])
        self.assertEqual([(it.name, it.kind) for it in exports], [("g", Kind.FUNCTION)])
        self.assertNotEqual(imports[0].type_id, exports[0].type_id)


class Lists(unittest.TestCase):
    def test_results(self):
        results = ruthvelka.validate_list([WHOLE, STRUCTURES, HEAD + FUNCTIONS, SHRINKING, WHOLE])
        self.assertEqual([it.verdict for it in results], [Verdict.VALID] * 3 + [Verdict.REFUSED, Verdict.NOT_CHECKED])
        self.assertEqual([bool(it) for it in results], [True] * 3 + [False, False])
        self.assertEqual([it.module is None for it in results], [False] * 3 + [True, True])
        self.assertEqual(results[0].module.type_ids, results[2].module.type_ids)
        self.assertEqual(results[3].refusal.offset, 11)
        self.assertEqual(ruthvelka.validate_list([]), [])

    def test_questions(self):
        modules = [EXPORTER, HEAD + FUNCTIONS + IMPORT]
        given = [Query(QueryKind.MAY_BE_GIVEN, 0, it, 1, 0) for it in range(3)]
        self.assertEqual(ruthvelka.ask(modules, given), [Answer.YES, Answer.NO, Answer.UNKNOWN])
        self.assertEqual([bool(it) for it in Answer], [False, True, False])
        same = [Query(QueryKind.IS_SUBTYPE, 0, 1, 1, it) for it in range(3)]
        self.assertEqual(ruthvelka.ask(modules, same), [Answer.NO, Answer.YES, Answer.UNKNOWN])
        for place in range(5):
            for wrong in (1 << 32, -1):
                with self.assertRaises(ruthvelka.BadCall):
                    ruthvelka.ask(modules, [same[0]._replace(**{Query._fields[place]: wrong})])


class FailsClosed(unittest.TestCase):
    """A library that writes nothing, whatever it gives, makes nothing valid."""

    def test_calls(self):
        errors = {1: ruthvelka.Refused, 2: MemoryError}
        for verdict, error in ((it, errors.get(it, ruthvelka.BadCall)) for it in range(9)):
            library = mock.Mock()
            for name in ("validate_with_ids", "validate_with_externs", "validate_list"):
                getattr(library, f"ruthvelka_{name}").return_value = verdict
            with mock.patch.object(_calls.c, "calls", library):
                for call in (ruthvelka.validate, ruthvelka.imports_and_exports):
                    with self.assertRaises(error):
                        call(WHOLE)
                with self.assertRaises(MemoryError if verdict == 2 else ruthvelka.BadCall):
                    ruthvelka.validate_list([WHOLE])

    def test_questions(self):
        library = mock.Mock()
        library.ruthvelka_validate_list_with_queries.return_value = 0
        with mock.patch.object(_calls.c, "calls", library):
            self.assertEqual(ruthvelka.ask([WHOLE], [Query(QueryKind.IS_SUBTYPE, 0, 0, 0, 0)]), [Answer.UNKNOWN])


class Arena:
    """An allocator for the validators that are made meanwhile: which blocks are out, and which request it refuses."""

    def __init__(self, refuse_at=-1):
        self.blocks, self.wrong, self.requests, self.refuse_at = set(), 0, 0, refuse_at
        libc = ctypes.CDLL(None)
        for name, arguments in (("malloc", [ctypes.c_size_t]), ("realloc", [ctypes.c_void_p, ctypes.c_size_t]), ("free", [ctypes.c_void_p])):
            getattr(libc, name).argtypes, getattr(libc, name).restype = arguments, None if name == "free" else ctypes.c_void_p
        self.libc = libc
        kinds = [ctypes.CFUNCTYPE(*it) for it in ([ctypes.c_void_p] * 2 + [ctypes.c_size_t], [ctypes.c_void_p] * 3 + [ctypes.c_size_t], [None] + [ctypes.c_void_p] * 2)]
        self.calls = [kind(it) for kind, it in zip(kinds, (self.take, self.resize, self.give_back))]

        class Allocator(ctypes.Structure):
            _fields_ = [("size", ctypes.c_size_t), ("context", ctypes.c_void_p)] + list(zip(("allocate", "resize", "release"), kinds))

        self.allocator = Allocator(ctypes.sizeof(Allocator), None, *self.calls)

    def is_refused(self):
        self.requests += 1
        return self.requests - 1 == self.refuse_at

    def take(self, _, size):
        block = None if self.is_refused() else self.libc.malloc(size)
        self.blocks |= {block} - {None}
        return block

    def resize(self, _, block, size):
        if self.is_refused():
            return None
        self.wrong += block not in self.blocks
        self.blocks.discard(block)
        return self.take_again(self.libc.realloc(block, size))

    def take_again(self, block):
        self.blocks.add(block)
        return block

    def give_back(self, _, block):
        # what isn't out is not given to `free`, so that the test can say so
        if block in self.blocks:
            self.blocks.remove(block)
            self.libc.free(block)
        else:
            self.wrong += block is not None

    def __enter__(self):
        made = _library.calls.ruthvelka_validator_new
        self.patch = mock.patch.object(_library.calls, "ruthvelka_validator_new", lambda place, bits, _: made(place, bits, ctypes.byref(self.allocator)))
        self.patch.start()
        return self

    def __exit__(self, *_):
        self.patch.stop()


def in_another_thread(call):
    thread = threading.Thread(target=call)
    thread.start()
    thread.join()


class Handles(unittest.TestCase):
    def test_layouts(self):
        self.assertEqual([ctypes.sizeof(it) for it in (_library.Handle, _library.Outcome, _library.ValueType)], [32, 80, 24])

    def test_counts(self):
        it = Validator().validate(WHOLE)
        self.assertEqual((it.types, it.functions, it.tables, it.memories, it.globals, it.tags, it.imports, it.exports), (2, 2, 0, 0, 0, 0, 1, 1))
        self.assertEqual(it.function_ids, it.type_ids)

    def test_ids_compare_across_modules(self):
        with Validator() as validator:
            kept = [validator.validate(it) for it in (WHOLE, STRUCTURES, HEAD + FUNCTIONS)]
        self.assertEqual(kept[0].type_ids, kept[2].type_ids)
        self.assertEqual(kept[1].type_ids[0], kept[1].type_ids[1])
        self.assertFalse({*kept[0].type_ids} & {*kept[1].type_ids})
        self.assertFalse({*kept[0].type_ids} & {*Validator().validate(WHOLE).type_ids})
        self.assertFalse({*kept[0].type_ids} & {*ruthvelka.validate(WHOLE).type_ids})

    def test_subtypes(self):
        validator = Validator()
        early, types, late = (validator.validate(it) for it in (WHOLE, SUBTYPES, STRUCTURES))
        above, below = types.type_ids
        for first, second, wanted in ((below, above, True), (above, below, False), (above, above, True), (below, early.type_ids[0], False)):
            self.assertIs(types.is_subtype(first, second), wanted)
        self.assertTrue(late.is_subtype(below, above))
        self.assertFalse(early.is_subtype(below, above))

    def test_value_types(self):
        types = Validator().validate(SUBTYPES)
        above, below = types.type_ids
        reference, null = ValueKind.REFERENCE, ValueKind.NULL_OR_REFERENCE
        for first, second, wanted in (
            (ValueType(ValueKind.I32), ValueType(ValueKind.I32), True),
            (ValueType(ValueKind.I32), ValueType(ValueKind.I64), False),
            (ValueType(reference, below), ValueType(null, above), True),
            (ValueType(null, below), ValueType(reference, above), False),
            (ValueType(reference, above), ValueType(reference, below), False),
            (ValueType(reference, above), ValueType(null, HeapType.STRUCT), True),
            (ValueType(reference, above), ValueType(null, HeapType.FUNC), False),
            (ValueType(null, HeapType.NONE), ValueType(null, below), True),
            (ValueType(null, HeapType.I31), ValueType(null, HeapType.EQ), True),
        ):
            self.assertIs(types.matches(first, second), wanted, f"{first} {second}")
        for kind, heap in ((ValueKind.I32, HeapType.FUNC), (reference, None), (null, None), (ValueKind.V128, above), (reference, 0), (null, 0x70)):
            with self.assertRaises(ruthvelka.BadCall):
                ValueType(kind, heap)

    def test_entities(self):
        validator = Validator()
        exporter, importer, both = (validator.validate(it) for it in (EXPORTER, HEAD + FUNCTIONS + IMPORT, IMPORTED_AND_EXPORTED))
        self.assertEqual([exporter.may_be_given(it, importer, 0) for it in range(3)], [True, False, False])
        self.assertFalse(exporter.may_be_given(0, importer, 1))
        self.assertTrue(both.may_be_given(0, both, 0))
        for exported, imported in ((1 << 32, 0), (0, 1 << 32), (-1, 0), (0, -1)):
            with self.assertRaises(ruthvelka.BadCall):
                exporter.may_be_given(exported, importer, imported)

    def test_what_is_of_another_validator(self):
        own, other = (Validator().validate(SUBTYPES) for _ in range(2))
        one, foreign = own.type_ids[0], other.type_ids[0]
        for first, second in ((one, foreign), (foreign, one), (foreign, foreign)):
            with self.assertRaises(ruthvelka.BadCall):
                own.is_subtype(first, second)
            with self.assertRaises(ruthvelka.BadCall):
                own.matches(ValueType(ValueKind.REFERENCE, first), ValueType(ValueKind.REFERENCE, second))
        with self.assertRaises(ruthvelka.BadCall):
            own.may_be_given(0, other, 0)
        with self.assertRaises(ruthvelka.BadCall):
            own.is_subtype(one, ruthvelka.validate(SUBTYPES).type_ids[0])

    def test_refusals(self):
        validator = Validator()
        types = validator.validate(WHOLE)
        with self.assertRaises(ruthvelka.Refused) as it:
            validator.validate(WRONG_BODY)
        self.assertEqual(it.exception.function, 1)
        validator.reset()
        self.assertEqual(validator.validate(WHOLE).type_ids, types.type_ids)
        with self.assertRaises(ruthvelka.Refused) as it:
            validator.validate(SHRINKING)
        self.assertEqual(str(it.exception), "refused at 11: size minimum must not be greater than maximum")
        for call in (lambda: validator.validate(WHOLE), validator.reset):
            with self.assertRaises(ruthvelka.Failed):
                call()
        self.assertTrue(types.is_subtype(types.type_ids[0], types.type_ids[0]))

    def test_long_messages(self):
        name = b"n" * 3000
        with self.assertRaises(ruthvelka.Refused) as it:
            Validator().validate(exported_twice(name))
        with self.assertRaises(ruthvelka.Refused) as other:
            ruthvelka.validate(exported_twice(name))
        self.assertIn(name.decode(), it.exception.message)
        self.assertEqual(it.exception.args, other.exception.args)

    def test_features(self):
        with self.assertRaises(ruthvelka.Refused) as it:
            Validator().validate(VECTORS)
        self.assertEqual(it.exception.missing_features, WasmFeatures.VECTOR_OPERATORS)
        with Validator(WasmFeatures.ALL) as validator:
            self.assertEqual((validator.features, validator.validate(VECTORS).functions), (WasmFeatures.ALL, 1))
        with self.assertRaises(ruthvelka.BadCall):
            Validator(WasmFeatures(1 << 63))

    def test_what_is_closed(self):
        validator = Validator()
        types = validator.validate(WHOLE)
        ids, copied = types.type_ids, types.retain()
        for it in (validator, types):
            it.close()
            it.close()
        for call in (lambda: validator.validate(WHOLE), validator.reset, lambda: types.type_ids, types.retain, lambda: types.is_subtype(*ids),
                     lambda: copied.may_be_given(0, types, 0), types.__enter__):
            with self.assertRaises(ruthvelka.BadCall):
                call()
        self.assertEqual((copied.type_ids, copied.types, copied.exports), (ids, 2, 1))

    def test_what_is_not_copied(self):
        validator = Validator()
        for it in (validator, validator.validate(WHOLE)):
            for call in (copy.copy, copy.deepcopy, pickle.dumps):
                with self.assertRaises(TypeError):
                    call(it)

    def test_threads(self):
        with Arena() as arena:
            validator = Validator()
            types = validator.validate(WHOLE)
            wrong = []

            def use():
                for call in (lambda: validator.validate(WHOLE), validator.close, types.retain, types.close, lambda: types.type_ids):
                    try:
                        call()
                        wrong.append(call)
                    except ruthvelka.BadCall:
                        pass

            in_another_thread(use)
            self.assertEqual(wrong, [])
            dropped, before = [types], len(arena.blocks)
            del types
            in_another_thread(lambda: (dropped.clear(), gc.collect()))
            self.assertEqual(len(arena.blocks), before)
            validator.reset()
            self.assertLess(len(arena.blocks), before)
            validator.close()
            self.assertEqual((arena.blocks, arena.wrong), (set(), 0))

    def test_what_is_dropped_behind_its_thread(self):
        with Arena() as arena:
            kept = []
            in_another_thread(lambda: kept.extend((Validator(), Validator())))
            in_another_thread(lambda: kept.append(Validator().validate(WHOLE)))
            self.assertGreater(len(arena.blocks), 0)
            kept.clear()
            gc.collect()
            self.assertEqual((arena.blocks, arena.wrong), (set(), 0))


class Memory(unittest.TestCase):
    @staticmethod
    def live():
        """A life of a validator, with each way in which a handle ends. Whether memory was refused."""
        try:
            with Validator() as validator:
                types = validator.validate(WHOLE)
                with types.retain() as copied, validator.validate(EXPORTER) as exporter:
                    exporter.may_be_given(0, types, 0)
                    exporter.may_be_given(0, exporter, 0)
                    copied.type_ids
                types.close()
                dropped = validator.validate(SUBTYPES)
                try:
                    validator.validate(WRONG_BODY)
                except ruthvelka.Refused as why:
                    return not why.message
            return not dropped.type_ids
        except (MemoryError, ruthvelka.Failed):
            return True

    def test_all_is_given_back_once(self):
        with Arena() as arena:
            self.assertFalse(self.live())
            gc.collect()
            self.assertGreater(arena.requests, 20)
            self.assertEqual((arena.blocks, arena.wrong), (set(), 0))

    def test_each_refusal_is_told(self):
        with Arena() as arena:
            self.live()
        for at in range(arena.requests):
            with Arena(at) as refusing:
                told = self.live()
                gc.collect()
                self.assertEqual((told or refusing.requests <= at, refusing.blocks, refusing.wrong), (True, set(), 0), f"request {at}")


class HandlesFailClosed(unittest.TestCase):
    """A library that writes nothing, whatever it gives, makes nothing valid."""

    def test_statuses(self):
        errors = {18: ruthvelka.Refused, 19: MemoryError, 20: ruthvelka.Failed}
        for status in range(32):
            library = mock.Mock()
            library.ruthvelka_validator_new.return_value = _library.STATUS_DONE
            library.ruthvelka_validator_validate.return_value = status
            with mock.patch.object(_handles.c, "calls", library):
                with self.assertRaises(errors.get(status, ruthvelka.BadCall)):
                    Validator().validate(WHOLE)
            library.ruthvelka_validator_new.return_value = status
            if status != _library.STATUS_DONE:
                with mock.patch.object(_handles.c, "calls", library):
                    with self.assertRaises({**errors, 18: ruthvelka.BadCall}.get(status, ruthvelka.BadCall)):
                        Validator()

    def test_a_report_that_is_dropped(self):
        """The status alone makes no types."""
        made = _library.calls.ruthvelka_validator_validate

        def without_outcome(place, *arguments):
            return made(place, *arguments[:4], _library.Outcome.empty(), arguments[5])

        with mock.patch.object(_library.calls, "ruthvelka_validator_validate", without_outcome):
            with self.assertRaises(ruthvelka.BadCall):
                Validator().validate(WHOLE)

    def test_questions(self):
        types = Validator().validate(SUBTYPES)
        above, below = types.type_ids
        library = mock.Mock()
        for answer in (0, 2, 16, 17, 21, 255):
            for name in ("is_subtype", "matches", "entity_may_be_given"):
                getattr(library, f"ruthvelka_types_{name}").return_value = answer
            library.ruthvelka_types_retain.return_value = _library.STATUS_DONE
            with mock.patch.object(_handles.c, "calls", library):
                self.assertIs(types.is_subtype(below, above), False)
                self.assertIs(types.matches(ValueType(ValueKind.I32), ValueType(ValueKind.I32)), False)
                self.assertIs(types.may_be_given(0, types, 0), False)


class Readme(unittest.TestCase):
    """The examples of README, as files of their own: each prints what stands beside it there."""

    def test_examples(self):
        place = os.path.join(os.path.dirname(os.path.dirname(os.path.abspath(__file__))), "README.md")
        if not os.path.isfile(place):
            self.skipTest("README isn't beside the tests")
        with open(place, encoding="utf-8") as it:
            examples = re.findall(r"```python\n(.*?)```", it.read(), re.S)
        answers = [
            "a.wasm: ok types 2 functions 2 imports 1 exports 1\nb.wasm: refused at 11: size minimum must not be greater than maximum\n",
            "a.wasm: loaded\nb.wasm: refused at 11: size minimum must not be greater than maximum\nc.wasm: loaded\n"
            "a.wasm and c.wasm share 2 types\n",
        ]
        self.assertEqual(len(examples), len(answers))
        with tempfile.TemporaryDirectory() as room:
            for name, data in (("a", WHOLE), ("b", SHRINKING), ("c", HEAD + FUNCTIONS)):
                with open(os.path.join(room, f"{name}.wasm"), "wb") as out:
                    out.write(data)
            path = os.pathsep.join([os.path.dirname(os.path.dirname(os.path.abspath(ruthvelka.__file__))), *filter(None, [os.environ.get("PYTHONPATH")])])
            for example, answer in zip(examples, answers):
                files = ["a.wasm", "b.wasm", "c.wasm"][: 2 if answer is answers[0] else 3]
                ran = subprocess.run([sys.executable, "-c", example, *files], cwd=room, stdout=subprocess.PIPE, stderr=subprocess.STDOUT, text=True,
                                     env={**os.environ, "PYTHONPATH": path})
                self.assertEqual(ran.stdout, answer)


class Threads(unittest.TestCase):
    def test_side_by_side(self):
        wrong = []

        def work():
            for _ in range(200):
                if not ruthvelka.is_valid(WHOLE) or ruthvelka.is_valid(SHRINKING):
                    wrong.append(1)

        threads = [threading.Thread(target=work) for _ in range(4)]
        for it in threads:
            it.start()
        for it in threads:
            it.join()
        self.assertEqual(wrong, [])


class Parts(unittest.TestCase):
    @staticmethod
    def custom(name: bytes, data: bytes) -> bytes:
        whole = number(len(name)) + name + data
        return b"\0" + number(len(whole)) + whole

    def test_custom_sections_are_where_they_are(self):
        data = HEAD + self.custom(b"a", b"xyz") + FUNCTIONS + self.custom(b"", b"") + self.custom("é".encode(), b"q" * 200)
        found = ruthvelka.custom_sections(data)
        self.assertEqual([it.name for it in found], ["a", "", "é"])
        self.assertEqual([data[it.data.start : it.data.stop] for it in found], [b"xyz", b"", b"q" * 200])
        self.assertEqual([data[it.contents.start : it.contents.stop] for it in found], [b"\1axyz", b"\0", b"\2" + "é".encode() + b"q" * 200])
        self.assertEqual(ruthvelka.custom_sections(HEAD), [])

    def test_bodies_are_where_they_are(self):
        self.assertEqual([EXPORTER[it.start : it.stop] for it in ruthvelka.bodies(EXPORTER)], [b"\0\x0b", b"\0\x20\0\x0b"])
        self.assertEqual([WRONG_BODY[it.start : it.stop] for it in ruthvelka.bodies(WRONG_BODY)], [b"\0\1\x0b"])
        self.assertEqual(ruthvelka.bodies(HEAD), [])

    def test_names_are_those_of_the_name_section(self):
        names = b"\2\0\1f\3" + number(300) + b"n" * 300
        data = HEAD + self.custom(b"name", b"\1" + number(len(names)) + names)
        self.assertEqual([ruthvelka.function_name(data, it) for it in (0, 1, 3)], ["f", None, "n" * 300])
        self.assertIsNone(ruthvelka.function_name(WHOLE, 0))
        for wrong in (-1, 1 << 32):
            with self.assertRaises(ruthvelka.BadCall):
                ruthvelka.function_name(data, wrong)

    def test_what_is_no_module_has_no_parts(self):
        for call in (ruthvelka.custom_sections, ruthvelka.bodies, lambda data: ruthvelka.function_name(data, 0)):
            for data in (b"", HEAD[:7], HEAD + b"\1", WHOLE[:-1]):
                with self.assertRaises(ruthvelka.Refused):
                    call(data)

    def test_other_statuses_have_no_parts(self):
        for status, error in ((_library.STATUS_NO_MEMORY, MemoryError), (_library.STATUS_WRONG, ruthvelka.BadCall), (0, ruthvelka.BadCall)):
            given = mock.Mock(return_value=status)
            library = mock.Mock(ruthvelka_custom_sections=given, ruthvelka_bodies=given, ruthvelka_function_name=given)
            with mock.patch.object(_sections.c, "calls", library):
                for call in (ruthvelka.custom_sections, ruthvelka.bodies, lambda data: ruthvelka.function_name(data, 0)):
                    with self.assertRaises(error):
                        call(WHOLE)


if __name__ == "__main__":
    sys.exit(unittest.main())
