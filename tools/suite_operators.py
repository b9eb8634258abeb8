"""Which section of the standard an operator's rule is in, by its bytes: what `tools/suite` writes as the reason of a type mismatch at an operator."""
import os
import sys

sys.path.insert(0, os.path.dirname(os.path.abspath(__file__)))
from wasm_assembler import Bad, unsigned_at  # noqa: E402

PLAIN = [
    ((0x00, 0x01, 0x1A, 0x1B, 0x1C), "Parametric"),
    ((0x05, 0x0B), "Instruction Sequences"),
    ((*range(0x02, 0x05), 0x08, 0x0A, *range(0x0C, 0x16), 0x1F, 0xD5, 0xD6), "Control"),
    (range(0x20, 0x25), "Variable"),
    ((0x25, 0x26), "Table"),
    (range(0x28, 0x41), "Memory"),
    (range(0x41, 0xC5), "Numeric"),
    ((0xD0, 0xD1, 0xD2, 0xD3, 0xD4), "Reference"),
]
# By the byte before it, the ranges of an operator's number.
PREFIXED = {
    0xFB: [((0x14, 0x15, 0x16, 0x17), "Reference"), ((0x18, 0x19), "Control"), (range(0x1F), "Aggregate")],
    0xFC: [(range(8), "Numeric"), (range(8, 12), "Memory"), (range(12, 18), "Table")],
    0xFD: [((*range(12), *range(0x54, 0x5E)), "Memory"), (range(0x200), "Vector")],
    0xFE: [(range(0x4F), "Threads Proposal, Validation"), (range(0x4F, 0x80), "Shared-Everything Threads Proposal, Validation")],
}
LEGACY = "Legacy Exception Handling Proposal"
OF_LEGACY = (0x06, 0x07, 0x09, 0x18, 0x19)


def section_of(name):
    """The section of operators that are called this here."""
    whole = name if name.endswith("Sequences") else f"{name} Instructions"
    return name if not name or "Proposal" in name else f"Validation, Instructions, {whole}"


def all_sections():
    """Each section that an operator may have."""
    return {section_of(name) for rows in (PLAIN, *PREFIXED.values()) for _, name in rows} | {LEGACY}


def section_at(module, offset):
    """The section of the operator that stands here, or nothing where none does."""
    if not 8 <= offset < len(module):
        return ""
    code, number, rows = module[offset], module[offset], PLAIN
    if code in OF_LEGACY:
        return LEGACY
    if code in PREFIXED:
        try:
            number, rows = unsigned_at(module, offset + 1, 32)[0], PREFIXED[code]
        except (Bad, IndexError):
            return ""
    return section_of(next((name for numbers, name in rows if number in numbers), ""))
