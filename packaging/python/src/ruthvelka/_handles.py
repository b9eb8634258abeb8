"""Validators that live between calls, and the types that they keep, over the handles of ruthvelka.h.

A handle is a place that only the library reads and writes: it is never copied here, each is freed once, and all that belong to one validator are used
in the thread that made it. What another thread drops waits for the next call in the validator's own, or is freed at once where that has ended."""
from __future__ import annotations

import ctypes
import enum
import threading
import weakref
from dataclasses import dataclass
from typing import NoReturn, Optional, TypeVar, Union

from . import _library as c
from ._calls import BadCall, Data, Refused, TypeId, _bits, _bytes, _number, _numbers
from ._features import WasmFeatures

_MESSAGE_ROOM = 512
_Self = TypeVar("_Self", bound="_Handle")


class Failed(Exception):
    """The validator can't go on: a module that it refused for more than a body, or refused memory, has left it so. The types that it gave stay."""


class HeapType(enum.IntEnum):
    """What a reference may be to, but for types with an id."""

    FUNC = 0x70
    EXTERN = 0x6F
    ANY = 0x6E
    EQ = 0x6D
    I31 = 0x6C
    STRUCT = 0x6B
    ARRAY = 0x6A
    EXN = 0x69
    CONT = 0x68
    NONE = 0x71
    NOEXTERN = 0x72
    NOFUNC = 0x73
    NOEXN = 0x74
    NOCONT = 0x75


class ValueKind(enum.IntEnum):
    """The kinds of value types, by their bytes in the binary format."""

    I32 = 0x7F
    I64 = 0x7E
    F32 = 0x7D
    F64 = 0x7C
    V128 = 0x7B
    REFERENCE = 0x64  # that isn't null
    NULL_OR_REFERENCE = 0x63


@dataclass(frozen=True)
class ValueType:
    """A value type. A reference has a heap type, which may be the id of a type, and any other has none."""

    kind: ValueKind
    heap: Union[HeapType, TypeId, None] = None

    def __post_init__(self) -> None:
        wanted = (HeapType, TypeId) if self.kind in (ValueKind.REFERENCE, ValueKind.NULL_OR_REFERENCE) else type(None)
        if not isinstance(self.heap, wanted):
            raise BadCall(f"{ValueKind(self.kind).name} with the heap type {self.heap!r}")


class _Owner:
    """What a validator and the types from it share: their thread, and the handles that another thread has dropped."""

    def __init__(self) -> None:
        self.thread, self.dropped, self.ending = threading.current_thread(), [], threading.RLock()

    def enter(self) -> None:
        """Begins each call: it must be in the right thread, which frees what others have dropped."""
        if threading.current_thread() is not self.thread:
            raise BadCall("a validator, and the types from it, stay in the thread that made the validator")
        self.free_dropped()

    def free_dropped(self) -> None:
        while self.dropped:
            call, handle = self.dropped.pop()
            call(handle)


def _free(owner: _Owner, call: ctypes._CFuncPtr, handle: c.Handle) -> None:
    if threading.current_thread() is owner.thread:
        call(handle)
        return
    owner.dropped.append((call, handle))
    if not owner.thread.is_alive():
        # nobody uses what belongs to that validator any more but who frees it, one at a time
        with owner.ending:
            owner.free_dropped()


class _Handle:
    """A handle of the library, which is freed once: at the end of a `with`, by `close`, or when nothing refers to it any more."""

    def __init__(self, owner: _Owner, call: ctypes._CFuncPtr) -> None:
        self._owner, self._place = owner, c.Handle()
        self._end = weakref.finalize(self, _free, owner, call, self._place)

    def _entered(self) -> c.Handle:
        self._owner.enter()
        if not self._end.alive:
            raise BadCall("it is closed")
        return self._place

    def close(self) -> None:
        """Gives back what it holds. To close it again does nothing."""
        self._owner.enter()
        self._end()

    def __enter__(self: _Self) -> _Self:
        self._entered()
        return self

    def __exit__(self, *_: object) -> None:
        self.close()

    def __reduce__(self) -> NoReturn:
        raise TypeError(f"a {type(self).__name__} can't be copied")


def _done(status: int, what: str) -> None:
    """Raises, unless the call was done."""
    if status == c.STATUS_NO_MEMORY:
        raise MemoryError(f"memory was refused for {what}")
    if status == c.STATUS_FAILED:
        raise Failed("the validator can't go on")
    if status != c.STATUS_DONE:
        raise BadCall(f"the library gives {status}")


class Types(_Handle):
    """The types of a valid module: how many of each it has, imported ones among them, their ids, and what matches. They live on when their validator is
    closed."""

    def __init__(self, owner: _Owner) -> None:
        super().__init__(owner, c.calls.ruthvelka_types_release)
        self._ids: Optional[tuple[tuple[TypeId, ...], tuple[TypeId, ...]]] = None

    def _take(self, told: c.Outcome) -> Types:
        self.types, self.functions, self.tables, self.memories = told.types, told.functions, told.tables, told.memories
        self.globals, self.tags, self.imports, self.exports = told.globals, told.tags, told.imports, told.exports
        self._told = told
        return self

    def retain(self) -> Types:
        """The same types by another handle, which is closed by itself."""
        place, copy = self._entered(), Types(self._owner)
        _done(c.calls.ruthvelka_types_retain(place, copy._place), "another handle")
        return copy._take(self._told)

    def _read_ids(self) -> tuple[tuple[TypeId, ...], tuple[TypeId, ...]]:
        place = self._entered()
        if self._ids is None:
            ids, told = (_numbers(self.types), _numbers(self.functions)), c.Outcome.empty()
            _done(c.calls.ruthvelka_types_ids(place, told, ids[0], self.types, ids[1], self.functions), "ids")
            if (told.status, told.types, told.functions) != (c.STATUS_DONE, self.types, self.functions):
                raise BadCall(f"the library tells of {told.types} types and {told.functions} functions")
            self._ids = tuple(TypeId(it, self._owner) for it in ids[0]), tuple(TypeId(it, self._owner) for it in ids[1])
        return self._ids

    @property
    def type_ids(self) -> tuple[TypeId, ...]:
        """The ids of the module's types, by index. They compare with those of all modules of the same validator, and with no others."""
        return self._read_ids()[0]

    @property
    def function_ids(self) -> tuple[TypeId, ...]:
        """The ids of the types of its functions, by index."""
        return self._read_ids()[1]

    def _own(self, it: TypeId) -> int:
        if it.call is not self._owner:
            raise BadCall("the id is of another validator")
        return it.number

    def is_subtype(self, first: TypeId, second: TypeId) -> bool:
        """Whether the first type is the second one, or declared to be below it. These types know those of all modules before this one too."""
        place = self._entered()
        return c.calls.ruthvelka_types_is_subtype(place, self._own(first), self._own(second)) == c.YES

    def _sent(self, it: ValueType) -> c.ValueType:
        if isinstance(it.heap, TypeId):
            return c.ValueType(ctypes.sizeof(c.ValueType), it.kind, 0, self._own(it.heap))
        return c.ValueType(ctypes.sizeof(c.ValueType), it.kind, 0 if it.heap is None else it.heap, 0)

    def matches(self, first: ValueType, second: ValueType) -> bool:
        """Whether a value of the first type may stand where one of the second is wanted."""
        return c.calls.ruthvelka_types_matches(self._entered(), self._sent(first), self._sent(second)) == c.YES

    def may_be_given(self, exported: int, importer: Types, imported: int) -> bool:
        """Whether the export of this module with that number may be given for an import of another one. Numbers are as `imports_and_exports` has
        them, and names aren't compared. It takes time that grows with the numbers: to link each import of a module takes the square of how many
        there are."""
        place, number, wanted = self._entered(), _number(exported), _number(imported)
        if importer._owner is not self._owner:
            raise BadCall("the importer is of another validator")
        if importer is self:
            # the library wants two handles
            with self.retain() as copy:
                return self.may_be_given(exported, copy, imported)
        return c.calls.ruthvelka_types_entity_may_be_given(place, number, importer._entered(), wanted) == c.YES


class Validator(_Handle):
    """A validator of modules under some features, one after another. Its ids go on behind those of the modules before: under the default features two
    types of its modules have equal ids exactly where they are equal.

    A module that isn't valid up to its bodies may leave it unable to go on, and then it says `Failed` for good: where modules come from strangers, ask
    `is_valid` about each first, with the same features, which is by itself. One that has more types than ids are left fails it even so."""

    def __init__(self, features: WasmFeatures = WasmFeatures.STANDARD) -> None:
        bits = _bits(features)
        super().__init__(_Owner(), c.calls.ruthvelka_validator_free)
        self.features = features
        _done(c.calls.ruthvelka_validator_new(self._place, bits, None), "a validator")

    def validate(self, data: Data) -> Types:
        """The types of the valid module in these bytes."""
        place, whole = self._entered(), _bytes(data)
        text, told, types = ctypes.create_string_buffer(_MESSAGE_ROOM), c.Outcome.empty(), Types(self._owner)
        status = c.calls.ruthvelka_validator_validate(place, whole, len(whole), text, _MESSAGE_ROOM, told, types._place)
        if status == c.STATUS_VALID and told.status == c.STATUS_VALID:
            return types._take(told)
        if status == c.STATUS_REFUSED:
            raise self._refused(whole, told, text)
        _done(status, "a module")
        raise BadCall(f"the library gives {status}, and tells {told.status}")

    def _refused(self, whole: bytes, told: c.Outcome, text: ctypes.Array[ctypes.c_char]) -> Refused:
        """The refusal with its whole message. It is asked for again where it had no room, by a call that leaves the validator as it is."""
        message = text.raw[: min(told.message_length, _MESSAGE_ROOM)]
        if told.message_length > _MESSAGE_ROOM:
            room, again = told.message_length, c.Outcome.empty()
            longer = ctypes.create_string_buffer(room)
            status = c.calls.ruthvelka_check(whole, len(whole), _bits(self.features), longer, room, again)
            if (status, again.offset, again.message_length) == (c.STATUS_REFUSED, told.offset, room):
                message = longer.raw
        function = None if told.function == c.NONE else told.function
        return Refused(told.offset, message.decode("utf-8", "replace"), function, WasmFeatures(told.missing_features))

    def reset(self) -> None:
        """Makes it ready for its next module, as `validate` does by itself. It raises `Failed` where the validator can't go on."""
        _done(c.calls.ruthvelka_validator_reset(self._entered()), "a reset")
