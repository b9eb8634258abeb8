"""Validation of WebAssembly modules, by a validator that is proved.

Each call either says what a valid module has, or raises: `Refused` where the bytes are no valid module, `MemoryError` where memory was refused and
nothing is said of them, and `BadCall` where the call is wrong. So nothing that wasn't validated can be taken for a valid module.
A `Validator` lives between calls, and gives ids of types that compare across all its modules.
"""
from ._calls import (
    Answer, BadCall, Export, Extern, Import, Kind, Module, Query, QueryKind, Refused, Result, TypeId, Verdict, ask, imports_and_exports, is_valid,
    validate, validate_list,
)
from ._features import VERSION as __version__
from ._features import WasmFeatures
from ._handles import Failed, HeapType, Types, Validator, ValueKind, ValueType
from ._sections import CustomSection, bodies, custom_sections, function_name

__all__ = [
    "Answer", "BadCall", "CustomSection", "Export", "Extern", "Failed", "HeapType", "Import", "Kind", "Module", "Query", "QueryKind", "Refused",
    "Result", "TypeId", "Types", "Validator", "ValueKind", "ValueType", "Verdict", "WasmFeatures", "__version__", "ask", "bodies", "custom_sections",
    "function_name", "imports_and_exports", "is_valid", "validate", "validate_list",
]
