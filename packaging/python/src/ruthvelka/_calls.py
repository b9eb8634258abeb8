"""What the package offers, over the calls of ruthvelka.h."""
from __future__ import annotations

import ctypes
import enum
from dataclasses import dataclass
from typing import Callable, NamedTuple, Optional, Sequence, Union

from . import _library as c
from ._features import WasmFeatures

Data = Union[bytes, bytearray, memoryview]
_KNOWN = sum(it.value for it in WasmFeatures if it.value & (it.value - 1) == 0)


class Verdict(enum.Enum):
    """What is said of one module of a list."""

    VALID = "valid"
    REFUSED = "refused"
    NO_MEMORY = "no memory"
    NOT_CHECKED = "not checked"


_VERDICTS = {c.VALID: Verdict.VALID, c.REFUSED: Verdict.REFUSED, c.NO_MEMORY: Verdict.NO_MEMORY, c.NOT_CHECKED: Verdict.NOT_CHECKED}


class Kind(enum.IntEnum):
    """The kinds of what is imported and exported, by their numbers in the binary format."""

    FUNCTION = 0
    TABLE = 1
    MEMORY = 2
    GLOBAL = 3
    TAG = 4
    EXACT_FUNCTION = 32


class BadCall(ValueError):
    """The call is wrong: a feature that isn't known, a number that is no index, a handle in another thread or of another validator."""


class Refused(Exception):
    """The bytes are no valid module. `message` is raw, and may quote names of the module with any characters in them; `str` escapes those that
    a terminal doesn't print."""

    def __init__(self, offset: int, message: str, function: Optional[int], missing_features: WasmFeatures) -> None:
        super().__init__(offset, message, function, missing_features)
        self.offset, self.message, self.function, self.missing_features = offset, message, function, missing_features

    def __str__(self) -> str:
        shown = "".join(it if it.isprintable() else it.encode("unicode_escape").decode() for it in self.message)
        return f"refused at {self.offset}: {shown}" if shown else f"refused at {self.offset}"


@dataclass(frozen=True)
class TypeId:
    """The id of a type. Ids compare within the call that gave them: those of two calls are never equal."""

    number: int
    call: object


@dataclass(frozen=True)
class Module:
    """A valid module: how many of each it has, imported ones among them, and the ids of its types and of the types of its functions."""

    types: int
    functions: int
    tables: int
    memories: int
    globals: int
    tags: int
    imports: int
    exports: int
    type_ids: tuple[TypeId, ...]
    function_ids: tuple[TypeId, ...]


@dataclass(frozen=True)
class Result:
    """What is said of a module of a list. It is true only where the module is valid, and then `module` is there."""

    verdict: Verdict
    module: Optional[Module] = None
    refusal: Optional[Refused] = None

    def __bool__(self) -> bool:
        return self.verdict is Verdict.VALID


@dataclass(frozen=True)
class Extern:
    name: str
    kind: Kind
    type_id: Optional[TypeId]


@dataclass(frozen=True)
class Import(Extern):
    module: str


@dataclass(frozen=True)
class Export(Extern):
    pass


class QueryKind(enum.IntEnum):
    """What a `Query` asks."""

    IS_SUBTYPE = 0
    MAY_BE_GIVEN = 1


class Query(NamedTuple):
    """Whether a type of one module is one of another, or below it; or whether an export of one may be given for an import of another. Modules are
    named by their places in the list, types by index, exports and imports by number."""

    kind: QueryKind
    first_module: int
    first: int
    second_module: int
    second: int


class Answer(enum.Enum):
    """An answer. It is true only where it is `YES`."""

    NO = 0
    YES = 1
    UNKNOWN = 2

    def __bool__(self) -> bool:
        return self is Answer.YES


def _report() -> c.Report:
    """A report that nothing was written into, which says of no module that it is valid."""
    return c.Report(verdict=c.BAD_CALL, function=c.NONE)


def _bytes(data: Data) -> bytes:
    return data if isinstance(data, bytes) else bytes(memoryview(data))


def _bits(features: int) -> int:
    if features & ~_KNOWN:
        raise BadCall(f"no proposal has a bit of {features:#x}")
    return int(features)


def _numbers(count: int) -> ctypes.Array[ctypes.c_uint32]:
    """Room for so many numbers. Pages that nothing is written into take no memory."""
    return (ctypes.c_uint32 * count).from_buffer(bytearray(4 * count))


def _refused(report: c.Report, message: bytes) -> Refused:
    function = None if report.function == c.NONE else report.function
    return Refused(report.offset, message.decode("utf-8", "replace"), function, WasmFeatures(report.missing_features))


def _checked(call: Callable[[Optional[ctypes.Array[ctypes.c_char]], int, c.Report], int]) -> c.Report:
    """What a call on one module reports of a valid one; of any other it raises. The call is made again where its message has no room."""
    report, room = _report(), 512
    text = ctypes.create_string_buffer(room)
    verdict = call(text, room, report)
    if verdict == c.REFUSED and report.message_length > room:
        room = report.message_length
        text, report = ctypes.create_string_buffer(room), _report()
        verdict = call(text, room, report)
    if verdict == c.VALID and report.verdict == c.VALID:
        return report
    if verdict == c.REFUSED:
        raise _refused(report, text.raw[: min(report.message_length, room)])
    if verdict == c.NO_MEMORY:
        raise MemoryError("memory was refused while a module was validated")
    raise BadCall(f"the library gives {verdict}, and reports {report.verdict}")


def _module(report: c.Report, types: Sequence[int], functions: Sequence[int], call: object) -> Module:
    counts = (report.types, report.functions, report.tables, report.memories, report.globals, report.tags, report.imports, report.exports)
    return Module(*counts, tuple(TypeId(it, call) for it in types), tuple(TypeId(it, call) for it in functions))


def validate(data: Data, features: WasmFeatures = WasmFeatures.STANDARD) -> Module:
    """What the valid module in these bytes has."""
    whole, bits = _bytes(data), _bits(features)
    # room for as many ids as bytes is always enough
    ids = [_numbers(len(whole)) for _ in range(2)]
    report = _checked(lambda text, room, report: c.calls.ruthvelka_validate_with_ids(
        whole, len(whole), bits, text, room, report, ids[0], len(whole), ids[1], len(whole)))
    return _module(report, ids[0][: report.types], ids[1][: report.functions], object())


def is_valid(data: Data, features: WasmFeatures = WasmFeatures.STANDARD) -> bool:
    """Whether these bytes are a valid module. Where memory is refused it raises."""
    try:
        validate(data, features)
    except Refused:
        return False
    return True


def imports_and_exports(data: Data, features: WasmFeatures = WasmFeatures.STANDARD) -> tuple[list[Import], list[Export]]:
    """The imports and the exports of a valid module, as `Query` numbers them."""
    whole, bits = _bytes(data), _bits(features)
    names = ctypes.create_string_buffer(len(whole) + 1)
    rooms = [0, 0]
    while True:
        externs = [(c.Extern * it)() for it in rooms]
        report = _checked(lambda text, room, report: c.calls.ruthvelka_validate_with_externs(
            whole, len(whole), bits, text, room, report, externs[0], rooms[0], externs[1], rooms[1], names, len(whole)))
        if [report.imports, report.exports] == rooms:
            break
        rooms = [report.imports, report.exports]
    call = object()

    def text(start: int, length: int) -> str:
        return names.raw[start : start + length].decode()

    def parts(it: c.Extern) -> tuple[str, Kind, Optional[TypeId]]:
        return text(it.name_start, it.name_length), Kind(it.kind), None if it.type_id == c.NONE else TypeId(it.type_id, call)

    imports = [Import(*parts(it), text(it.module_start, it.module_length)) for it in externs[0]]
    return imports, [Export(*parts(it)) for it in externs[1]]


def _listed(modules: Sequence[bytes]) -> ctypes.Array[c.Bytes]:
    return (c.Bytes * len(modules))(*((it, len(it)) for it in modules))


def _number(it: int) -> int:
    if not 0 <= it < 1 << 32:
        raise BadCall(f"{it} is no index")
    return it


def _done(result: int) -> None:
    if result == c.NO_MEMORY:
        raise MemoryError("memory was refused for the list")
    if result != c.VALID:
        raise BadCall(f"the library gives {result}")


def validate_list(modules: Sequence[Data], features: WasmFeatures = WasmFeatures.STANDARD) -> list[Result]:
    """What is said of each of these modules, which share one space of ids. Behind one that is refused for more than a body the rest aren't checked. A refusal has an
    offset and no message here: `validate` of that module alone has it."""
    whole = [_bytes(it) for it in modules]
    count, room = len(whole), sum(map(len, whole))
    reports = (c.Report * count)(*(_report() for _ in whole))
    ids = [_numbers(room) for _ in range(2)]
    _done(c.calls.ruthvelka_validate_list(_listed(whole), count, _bits(features), reports, count, ids[0], room, ids[1], room))
    results, call, starts = [], object(), [0, 0]
    for report in reports:
        verdict = _VERDICTS.get(report.verdict)
        if verdict is None:
            raise BadCall(f"the library reports {report.verdict}")
        module = refusal = None
        if verdict is Verdict.VALID:
            ends = [starts[0] + report.types, starts[1] + report.functions]
            module = _module(report, ids[0][starts[0] : ends[0]], ids[1][starts[1] : ends[1]], call)
            starts = ends
        elif verdict is Verdict.REFUSED:
            refusal = _refused(report, b"")
        results.append(Result(verdict, module, refusal))
    return results


def ask(modules: Sequence[Data], queries: Sequence[Query], features: WasmFeatures = WasmFeatures.STANDARD) -> list[Answer]:
    """The answers to questions about the valid modules of a list. A number in a question that isn't below 2 to the 32 is a `BadCall`."""
    whole = [_bytes(it) for it in modules]
    asked = (c.Query * len(queries))(*((*map(_number, it), Answer.UNKNOWN.value) for it in queries))
    _done(c.calls.ruthvelka_validate_list_with_queries(_listed(whole), len(whole), _bits(features), None, 0, asked, len(queries)))
    return [Answer(it.answer) for it in asked]
