"""Where parts of a module lie in its bytes, over the calls of ruthvelka.h. None of this says whether the module is valid."""
from __future__ import annotations

import ctypes
from dataclasses import dataclass
from typing import Callable, Optional, TypeVar

from . import _library as c
from ._calls import BadCall, Data, Refused, _bytes
from ._features import WasmFeatures

_Item = TypeVar("_Item", bound=ctypes.Structure)


@dataclass(frozen=True)
class CustomSection:
    """A custom section: its name, and where it lies, in offsets from the first byte. What it holds is the module's own word."""

    name: str
    contents: range
    """The length of its name, the name, and its data."""
    data: range
    """All behind its name."""


def _found(status: int) -> None:
    """Raises, unless something was told."""
    if status == c.STATUS_REFUSED:
        raise Refused(0, "the bytes are not divided into sections as a module is", None, WasmFeatures(0))
    if status == c.STATUS_NO_MEMORY:
        raise MemoryError("memory was refused for parts of a module")
    if status != c.STATUS_DONE:
        raise BadCall(f"the library gives {status}")


def _all(call: Callable[..., int], whole: bytes, kind: type[_Item]) -> list[_Item]:
    """All that the call finds: the first time it is asked how many there are."""
    count = ctypes.c_uint64()
    _found(call(whole, len(whole), count, None, 0))
    items = (kind * count.value)()
    if count.value:
        items[0].size = ctypes.sizeof(kind)
        _found(call(whole, len(whole), count, items, count.value))
    return list(items)


def custom_sections(data: Data) -> list[CustomSection]:
    """The custom sections of a module, in their order; several may have one name."""
    whole = _bytes(data)
    return [
        CustomSection(whole[it.name_start : it.name_start + it.name_length].decode(), range(it.start, it.end), range(it.data_start, it.end))
        for it in _all(c.calls.ruthvelka_custom_sections, whole, c.CustomSection)
    ]


def bodies(data: Data) -> list[range]:
    """Where the bodies of a module's functions lie, in their order; that of the first function that isn't imported comes first."""
    return [range(it.start, it.end) for it in _all(c.calls.ruthvelka_bodies, _bytes(data), c.Body)]


def function_name(data: Data, function: int) -> Optional[str]:
    """The name that a module gives the function of this index, imported ones counted, if it gives one. It is the module's own word: it may hold any
    characters, and may be the name of another function. Each call goes over the whole module, so it isn't for each function."""
    if not 0 <= function < 1 << 32:
        raise BadCall(f"{function} is no index")
    whole, length, room = _bytes(data), ctypes.c_uint64(), 256
    while True:
        name = ctypes.create_string_buffer(room)
        status = c.calls.ruthvelka_function_name(whole, len(whole), function, length, name, room)
        if status == c.STATUS_NONE:
            return None
        _found(status)
        if length.value <= room:
            return name.raw[: length.value].decode()
        room = length.value
