#!/usr/bin/env python3
"""Finds names that stand at one place of a validator's maps of imports and exports if their hash has no key, or one that never changes.

usage: tools/names_of_one_place.py [--check [NAMES]]

It writes tools/names_of_one_place.txt, whose names make the families of tools/bench_traps that would notice a hash without its key; or compares the
first NAMES of each list there, or all, with what it finds. A list takes 4,000 numbers in order. Each is five digits, and the first two characters
behind them by which the name has its place: 512 pairs are tried for a name, so all lists take some minutes. The file has the pairs alone.

The place is that of the kit's `indexmap`: the two halves of what SipHash-1-3 makes of the key and the name are joined by xor, and the lowest bits of
that number say where the name is looked for first. Here the lowest nine are 0, and a map of 4,000 names has 512 such places. An import is
hashed by the name of its module and its own, with a byte ff behind each; an export by its own alone. With a kit that hashes or places names in another
way the families would say nothing, so the names would have to be found again; a validator whose `key_names` does nothing then shows that they tell.
"""
import itertools
import os
import string
import sys

TABLE = os.path.join(os.path.dirname(os.path.realpath(__file__)), "names_of_one_place.txt")
COUNT, BITS, IN_A_LINE = 4_000, 9, 64
CHARACTERS = string.ascii_letters + string.digits + "!#$%&()*+,-./:;<=>?@"
WHOLE = 2**64 - 1
HEAD = """# Names with one place in a map, found by tools/names_of_one_place.py, which tells how. A list is the line that names it, and the last two
# characters of its names in order, 64 names in a line; in front of them are five digits, 00000 for the first. Used by tools/bench_traps.
"""


def in_round(a, b, c, d):
    """The four numbers of SipHash behind a round."""
    a, c = a + b & WHOLE, c + d & WHOLE
    b, d = (b << 13 & WHOLE | b >> 51) ^ a, (d << 16 & WHOLE | d >> 48) ^ c
    a = a << 32 & WHOLE | a >> 32
    c, a = c + b & WHOLE, a + d & WHOLE
    b, d = (b << 17 & WHOLE | b >> 47) ^ c, (d << 21 & WHOLE | d >> 43) ^ a
    return a, b, c << 32 & WHOLE | c >> 32, d


def sip_hash(text):
    """SipHash-1-3 of bytes, where both of its own keys are 0."""
    a, b, c, d = (int.from_bytes(it, "big") for it in (b"somepseu", b"dorandom", b"lygenera", b"tedbytes"))
    whole = text + bytes(-(len(text) + 1) % 8) + bytes([len(text) & 0xFF])
    for at in range(0, len(whole), 8):
        word = int.from_bytes(whole[at : at + 8], "little")
        a, b, c, d = in_round(a, b, c, d ^ word)
        a ^= word
    c ^= 0xFF
    for _ in range(3):
        a, b, c, d = in_round(a, b, c, d)
    return a ^ b ^ c ^ d


# What is hashed in front of the names of each list: the key, and for imports the name of their module.
KEY_OF_NOTHING = sip_hash(b"").to_bytes(8, "little")
MODULE = b"m"
LISTS = {
    "exports, no key": b"",
    "exports, the key of no bytes": KEY_OF_NOTHING,
    "imports, no key": MODULE + b"\xff",
    "imports, the key of no bytes": KEY_OF_NOTHING + MODULE + b"\xff",
}


def has_the_place(front, name):
    found = sip_hash(front + name + b"\xff")
    return (found ^ found >> 32) % 2**BITS == 0


def find(front, number):
    """The two characters of the name with this number."""
    for pair in itertools.product(CHARACTERS, repeat=2):
        if has_the_place(front, b"%05d%s" % (number, "".join(pair).encode())):
            return "".join(pair)
    raise SystemExit(f"no name of {number} has the place")


def lists_in_the_file():
    """The pairs of each list, as one text."""
    found = {}
    with open(TABLE, encoding="ascii") as it:
        for line in it.read().splitlines():
            if line in LISTS:
                found[line] = pairs = []
            elif not line.startswith("# "):
                pairs.append(line)
    return {name: "".join(lines) for name, lines in found.items()}


def names(kind):
    """The names of this list, in order."""
    pairs = lists_in_the_file()[kind]
    return [b"%05d%s" % (at, pairs[2 * at : 2 * at + 2].encode()) for at in range(len(pairs) // 2)]


def first(kind, n):
    """The first n names of this list."""
    found = names(kind)[:n]
    if len(found) < n:
        raise SystemExit(f"there are {len(found)} names of one place, and no {n}: {kind}")
    return found


def problem_of(kind, searched):
    """What is wrong with a list of the file: each name has to have the place, and the first are searched again."""
    found = names(kind)
    if len(found) != COUNT or len(set(found)) != COUNT:
        return f"it has {len(found)} names, of which {len(set(found))} differ"
    stray = [it for it in found if not has_the_place(LISTS[kind], it)]
    if stray:
        return f"{len(stray)} names have another place, first {stray[0].decode()}"
    wrong = [it for it in found[:searched] if find(LISTS[kind], int(it[:5])).encode() != it[5:]]
    return f"{len(wrong)} names aren't the first that are found, such as {wrong[0].decode()}" if wrong else ""


def write():
    with open(TABLE, "w", encoding="ascii") as it:
        it.write(HEAD)
        for kind, front in LISTS.items():
            pairs = "".join(find(front, number) for number in range(COUNT))
            it.write(f"{kind}\n" + "".join(pairs[at : at + 2 * IN_A_LINE] + "\n" for at in range(0, len(pairs), 2 * IN_A_LINE)))


def main():
    if len(sys.argv) == 1:
        write()
        return 0
    if sys.argv[1] != "--check" or len(sys.argv) > 3:
        print(__doc__, file=sys.stderr)
        return 2
    problems = [(kind, problem_of(kind, int(sys.argv[2]) if len(sys.argv) == 3 else COUNT)) for kind in LISTS]
    for kind, problem in problems:
        print(f"FAILED: {kind}: {problem}" if problem else f"ok: {kind}")
    return 1 if any(problem for _, problem in problems) else 0


if __name__ == "__main__":
    if sys.argv[1:2] in (["-h"], ["--help"]):
        print(__doc__.rstrip())
        sys.exit(0)
    sys.exit(main())
