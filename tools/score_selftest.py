"""The self-test of tools/score: the mutants of a small text, and a program that answers as the compiled one does."""
import re

import score_places

TOY = """//! A toy.

/// What an opcode is, if (one) is known.
pub fn read(opcode: u8) -> Option<Kind>
    ensures { result ≡ kind_of opcode }
{
    match opcode {
        0x01 => Some(Kind::Small),
        0x02 | 0x03 => Some(Kind::Large),
        _ => None,
    }
}

pub fn width(kind: Kind) -> u32
    ensures { result ≡ width_of kind }
{
    match kind {
        Kind::Small => 4,
        Kind::Large => 8,
        Kind::Huge => 16,
    }
}

fn is_within(first: u32, last: u32) -> bool {
    first <= last && (last < MOST || first == 0)
}

pub fn check(stacks: &mut Stacks, first: u32, last: u32) -> Result<(), Fault> {
    if !is_within(first, last) {
        return Err(Fault::Range);
    }
    stacks.pop()?;
    'left: while stacks.len() > 0 {
        stacks.last = Some(first); // noted
    }
    hold(first < 7, "a { in a string")
}
"""
EDITS = [("reads_large_as_small", [("0x02 | 0x03 => Some(Kind::Large)", "0x02 | 0x03 => Some(Kind::Small)")]),
         ("pops_twice", [("    stacks.pop()?;", "    stacks.pop()?; stacks.pop()?;")])]
# A wrong body that is none: another layout, and a comment.
NO_CHANGE = ("the_same_again", [("        Kind::Huge => 16,", "        // the largest\n        Kind::Huge   =>  16,")])
WANTED = {
    "entry: `0x01` is read as `0x02`", "entry: `0x03` is read as `0x01`", "entry: `Kind::Small` is `Large`", "entry: `Kind::Huge` is `Small`",
    "true: `!is_within(first, last)` is true", "negated: `!is_within(first, last)` is negated", "false: `stacks.len() > 0` is false",
    "off by one: `last < MOST` by `<=`", "off by one: `first <= last` by `<`", "off by one: `first < 7` by `<=`",
    "off by one: `stacks.len() > 0` by `>=`",
    "conjunct: `first <= last && (last < MOST || first == 0)` without `first <= last`",
    "alternative: `first <= last && (last < MOST || first == 0)` without `first == 0`",
    "statement: without `stacks.pop()?;`", "statement: without `stacks.last = Some(first);`", "check: without `hold(first < 7, \"a { in a string\")`",
    "wrong body: reads_large_as_small", "wrong body: pops_twice",
}


def plain(text):
    """A text whose layout doesn't count: without comments and blanks, and without the calls that names of a table go through."""
    code = score_places.File("", text, 0)
    return re.sub(r"match\*?other_entry_\d+\((\w+)\)", r"match\1", "".join(code.code(0, len(text)).split()))


def idle_mutants(path, text, edits):
    """The mutants of a text that change nothing in it, and whether the text is as it was where none is on."""
    made, mutants, _, _ = score_places.mutate(path, text, 1, edits)
    none = plain(score_places.with_mutant(made, 0))
    idle = [it for it in mutants if plain(score_places.with_mutant(made, it.number, it.other)) == none]
    return mutants, idle, none


def check(report):
    """Reports each check by its name, with what is wrong."""
    mutants, idle, none = idle_mutants("toy/src/lib.rt", TOY, EDITS)
    found = {f"{it.kind}: {it.change}" for it in mutants}
    lacking = "; ".join(sorted(WANTED - found))
    report("the mutants of a text", lacking and f"not made: {lacking}; made: {'; '.join(sorted(found))}")
    report("each changes the text", "; ".join(it.change for it in idle))
    report("numbers are used once", "" if len({it.number for it in mutants}) == len(mutants) else "two mutants have one number")
    start = unwrapped(plain(TOY))
    report("without a mutant the text is as it was", "" if unwrapped(none).startswith(start) else f"{none} in place of {start}")
    _, idle, _ = idle_mutants("toy/src/lib.rt", TOY, [*EDITS, NO_CHANGE])
    report("a mutator that changes nothing is found", "" if [it.change for it in idle] == [NO_CHANGE[0]] else f"found: {[it.change for it in idle]}")
    place = score_places.line_of(TOY, TOY.index("stacks.pop"))
    _, others, _, _ = score_places.mutate("toy/src/lib.rt", TOY, 1, EDITS, [f"toy/src/lib.rt:{place}: statement: without `stacks.pop()?;`"])
    report("what doesn't compile is left out", "" if len(others) == len(mutants) - 1 else f"{len(others)} in place of {len(mutants) - 1}")


def unwrapped(text):
    """A text without the parentheses and braces that questions stand in."""
    return "".join(it for it in text if it not in "(){}")
