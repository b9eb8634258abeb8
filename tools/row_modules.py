"""The modules that rows have: the bytes of each row, with those of a body in the sample module, and what is wanted of them."""
import glob
import os
import re
import sys

sys.path.insert(0, os.path.dirname(os.path.realpath(__file__)))
from wasm_bytes import HEAD, section, unsigned  # noqa: E402

ROWS = os.path.join(os.path.dirname(os.path.dirname(os.path.realpath(__file__))), "crates", "test_all", "data")
# The sections of the sample that bodies stand in, but for functions and bodies.
TYPES = section(1, bytes.fromhex(
    "1060000060027f7f017f60017f027e7e50005f037f007e0178015e7f014f01035f047f007e0178016304015e78015e7e0060017f006000017f60017e017e"
    "5e70015f016403005e64030160017f017f6000027f6469"))
TABLES = section(4, bytes.fromhex("0470010a146f040570000a6301000a"))
MEMORIES = section(5, bytes.fromhex("020101050401"))
TAGS = section(13, bytes.fromhex("0200000008"))
GLOBALS = section(6, bytes.fromhex("077f0041000b7f0141000b7e0042000b7e0142000b7000d0700b7001d0700b7d0143000000000b"))
ELEMENTS = section(9, bytes.fromhex("03057001d2010b056f01d06f0b030003010206"))
DATA_COUNT = section(12, bytes.fromhex("02"))
DATA = section(11, bytes.fromhex("0201036162630103616263"))
# The types of its functions, and the body of each.
FUNCTIONS = bytes.fromhex("00010209000a080e")
UNREACHABLE = bytes.fromhex("0300000b")


def bytes_of(text):
    """The bytes that a row's text stands for: hexadecimal, `H` for a header, `(BYTES)*N`, `-` for none."""
    text = text.replace("H", HEAD.hex()).replace("-", "")
    text = re.sub(r"\(([^()]*)\)\*(\d+)", lambda found: found[1] * int(found[2]), text)
    return bytes.fromhex(text)


def with_body(type_index, body):
    """The sample with this body as that of one more function, and where the body begins."""
    count = unsigned(len(FUNCTIONS) + 1)
    functions = section(3, count + FUNCTIONS + unsigned(int(type_index)))
    bodies = section(10, count + UNREACHABLE * len(FUNCTIONS) + unsigned(len(body)) + body)
    before = HEAD + TYPES + functions + TABLES + MEMORIES + TAGS + GLOBALS + ELEMENTS + DATA_COUNT + bodies
    return before + DATA, len(before) - len(body)


def with_body_alone(body, memories):
    """A module of this body, of a function that takes and gives nothing, and so many of the sample's memories; and where the body begins."""
    memory = section(5, bytes.fromhex("01010105" if memories == 1 else "020101050401"))
    before = HEAD + section(1, bytes.fromhex("01600000")) + section(3, b"\1\0") + memory + section(10, b"\1" + unsigned(len(body)) + body)
    return before, len(before) - len(body)


def changed(module, form, number):
    """The module that is a front of this one, or has another byte."""
    if form == "fronts":
        return module[:number]
    return module[:number] + bytes.fromhex(form) + module[number + 1:]


def modules_of_row(parts):
    """The modules of a row, each with its name."""
    form = re.fullmatch(r"(fronts|ff|00) (\d+) to (\d+)", parts[0])
    if form:
        for number in range(int(form[2]), int(form[3]) + 1):
            yield f"{parts[1]}, {form[1]} {number}", changed(bytes_of(parts[3]), form[1], number)
    elif parts[0] == "calls":
        for part in parts[3::2]:
            if part.startswith("module "):
                yield parts[1], bytes_of(part[7:])
    else:
        for part in parts[2::2]:
            yield parts[0], bytes_of(re.sub(r"^\d+ times ", "", part))


def rows_with_comments(folder):
    """The parts of each row in the files of this folder, behind the file's name, the row's line and the first line of the comment that it stands behind."""
    for path in sorted(glob.glob(f"{ROWS}/{folder}/*.rows")):
        comment, before = "", ""
        with open(path, encoding="utf-8") as lines:
            for number, line in enumerate(lines, 1):
                parts = line.rstrip("\n").split(" | ")
                if line[0] == "#" and before[:1] != "#":
                    comment = line[2:].strip()
                if line.strip() and line[0] != "#" and parts[0] != "no row" and not line.startswith("operator "):
                    yield os.path.basename(path), number, comment, [part.strip() for part in parts]
                before = line


def rows_of(folder):
    """The parts of each row in the files of this folder, behind the file's name."""
    for file, _, _, parts in rows_with_comments(folder):
        yield file, parts


def all_modules():
    """Every module, once, with the name of the first row that has it."""
    found = {}
    for file, parts in rows_of("modules"):
        for name, module in modules_of_row(parts):
            found.setdefault(module, f"{file}: {name}")
    for file, parts in rows_of("bodies"):
        found.setdefault(with_body(parts[2], bytes_of(parts[3]))[0], f"{file}: {parts[0]}")
    return found
