"""The calls of ruthvelka.h, as they are declared there, by ctypes over the shared object that stands in this package."""
import ctypes
import os

from ._features import LIBRARY_VERSION

VALID, REFUSED, NO_MEMORY, NOT_CHECKED, BAD_CALL = range(5)
STATUS_DONE, STATUS_VALID, STATUS_REFUSED, STATUS_NO_MEMORY, STATUS_FAILED, STATUS_WRONG, STATUS_NONE = range(16, 23)
YES = 1
NONE = 0xFFFFFFFF


class Report(ctypes.Structure):
    _fields_ = [(it, ctypes.c_uint64) for it in ("offset", "missing_features", "message_length", "imports", "exports", "names_length")]
    _fields_ += [(it, ctypes.c_uint32) for it in ("verdict", "function", "types", "functions", "tables", "memories", "globals", "tags")]


class Extern(ctypes.Structure):
    _fields_ = [(it, ctypes.c_uint64) for it in ("module_start", "module_length", "name_start", "name_length")]
    _fields_ += [(it, ctypes.c_uint32) for it in ("kind", "type_id")]


class Bytes(ctypes.Structure):
    _fields_ = [("bytes", ctypes.c_char_p), ("length", ctypes.c_size_t)]


class Query(ctypes.Structure):
    _fields_ = [(it, ctypes.c_uint32) for it in ("kind", "first_module", "first", "second_module", "second", "answer")]


class Handle(ctypes.Structure):
    """A validator or types: nothing, before the library writes into it."""

    _fields_ = [("words", ctypes.c_void_p * 4)]


class Outcome(ctypes.Structure):
    _fields_ = [("size", ctypes.c_uint64)]
    _fields_ += [(it, ctypes.c_uint32) for it in ("status", "function")]
    _fields_ += [(it, ctypes.c_uint64) for it in ("offset", "missing_features", "message_length", "imports", "exports")]
    _fields_ += [(it, ctypes.c_uint32) for it in ("types", "functions", "tables", "memories", "globals", "tags")]

    @classmethod
    def empty(cls) -> "Outcome":
        """One that nothing was written into, which says of no module that it is valid."""
        return cls(size=ctypes.sizeof(cls), function=NONE)


class ValueType(ctypes.Structure):
    _fields_ = [("size", ctypes.c_uint64)] + [(it, ctypes.c_uint32) for it in ("kind", "heap", "id", "flags")]


class CustomSection(ctypes.Structure):
    _fields_ = [(it, ctypes.c_uint64) for it in ("size", "start", "name_start", "name_length", "data_start", "end")]


class Body(ctypes.Structure):
    _fields_ = [(it, ctypes.c_uint64) for it in ("size", "start", "end")]


def place() -> str:
    """The path of the shared object: that of this package, or, in a tree of sources, which has none, the one that RUTHVELKA_LIBRARY names,
    itself or by its folder."""
    own = os.path.join(os.path.dirname(os.path.abspath(__file__)), "libruthvelka.so.0")
    if os.path.isfile(own):
        return own
    named = os.environ.get("RUTHVELKA_LIBRARY")
    if not named:
        raise ImportError(f"the package has no shared object: there is no {own}, and RUTHVELKA_LIBRARY names none")
    return os.path.join(named, "libruthvelka.so.0") if os.path.isdir(named) else named


def load() -> ctypes.CDLL:
    word, number, size, text, report = ctypes.c_uint64, ctypes.c_uint32, ctypes.c_size_t, ctypes.c_char_p, ctypes.POINTER(Report)
    handle, outcome, value = ctypes.POINTER(Handle), ctypes.POINTER(Outcome), ctypes.POINTER(ValueType)
    numbers, externs, modules = ctypes.POINTER(number), ctypes.POINTER(Extern), ctypes.POINTER(Bytes)
    calls = {
        "version": (number, []),
        "feature": (word, [text, size]),
        "feature_name": (size, [word, text, size]),
        "validate_with_ids": (number, [text, size, word, text, size, report, numbers, size, numbers, size]),
        "validate_with_externs": (number, [text, size, word, text, size, report, externs, size, externs, size, text, size]),
        "validate_list": (number, [modules, size, word, report, size, numbers, size, numbers, size]),
        "validate_list_with_queries": (number, [modules, size, word, report, size, ctypes.POINTER(Query), size]),
        "check": (number, [text, size, word, text, size, outcome]),
        "validator_new": (number, [handle, word, ctypes.c_void_p]),
        "validator_validate": (number, [handle, text, size, text, size, outcome, handle]),
        "validator_reset": (number, [handle]),
        "validator_free": (None, [handle]),
        "types_retain": (number, [handle, handle]),
        "types_release": (None, [handle]),
        "types_ids": (number, [handle, outcome, numbers, size, numbers, size]),
        "types_is_subtype": (number, [handle, number, number]),
        "types_matches": (number, [handle, value, value]),
        "types_entity_may_be_given": (number, [handle, number, handle, number]),
        "custom_sections": (number, [text, size, ctypes.POINTER(word), ctypes.POINTER(CustomSection), size]),
        "bodies": (number, [text, size, ctypes.POINTER(word), ctypes.POINTER(Body), size]),
        "function_name": (number, [text, size, number, ctypes.POINTER(word), text, size]),
    }
    library = ctypes.CDLL(place())
    for name, (result, arguments) in calls.items():
        call = getattr(library, f"ruthvelka_{name}")
        call.restype, call.argtypes = result, arguments
    if library.ruthvelka_version() // 1000 != LIBRARY_VERSION // 1000:
        raise ImportError(f"{place()} is of version {library.ruthvelka_version()}, and this package is for {LIBRARY_VERSION}")
    return library


calls = load()
