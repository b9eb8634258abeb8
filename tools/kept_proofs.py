#!/usr/bin/env python3
"""What the kit's gate kept of the crates that it proved, for commands that go on above them.

usage: tools/kept_proofs.py CRATE

Puts the libraries of the crates below CRATE into their out/ as a run of `rt ci` on this machine proved them, of the same files over the same libraries,
each with the stamp by which rt knows what a library was made of. Then rt lib, rt check and rt run in that crate don't prove them again. What a check
left there of the same files stays. What neither has is left to rt, with all above it. A line says how many libraries stand then, and which don't.
"""
import importlib.machinery
import importlib.util
import os
import shutil
import sys

sys.dont_write_bytecode = True
ROOT = os.path.dirname(os.path.dirname(os.path.realpath(__file__)))


def load_rt():
    """Returns the kit's rt as a module, so that crates are seen here just as rt sees them; or None where there is no kit."""
    found = shutil.which("rt")
    if not found:
        return None
    loader = importlib.machinery.SourceFileLoader("rt_of_the_kit", os.path.realpath(found))
    made = importlib.util.module_from_spec(importlib.util.spec_from_loader(loader.name, loader))
    loader.exec_module(made)
    crate = made.rtlib.Crate
    crate.stamp, crate.below = remembered(crate.stamp), remembered(crate.below)
    return made


def remembered(call):
    """Returns the call with each crate's first answer kept: rt asks again for every way that leads to a library, and those below stay as they are here."""
    given = {}

    def ask(crate):
        if id(crate) not in given:
            given[id(crate)] = crate, call(crate)
        answer = given[id(crate)][1]
        return [*answer] if isinstance(answer, list) else answer
    return ask


def open_kept(rt, root, crates):
    """What the gate kept of these crates, or None with a kit whose gate keeps nothing."""
    # What the gate's sums of a crate ask of its repository.
    rt.Crate.allowed = rt.handles_of(root)
    return rt.Kept(crates) if hasattr(rt, "Kept") else None


def give(kept, crate):
    """Whether the gate kept the library of these files over the libraries below it, which then stands in out/, without the stamp of an earlier check."""
    shutil.rmtree(f"{crate.folder}/out/rlib", ignore_errors=True)
    return kept.give(crate, False, kept.key(crate))


def take_below(rt, root, name):
    """Takes the libraries below a crate, those that nothing stands on first. Returns the names of those that stand then, and of those that don't."""
    found = [it for it in rt.rtlib.crates_below(root) if it.name == name]
    if not found:
        sys.exit(f"kept_proofs: crates.txt has no crate {name}")
    below = sorted(found[0].below(), key=lambda it: len(it.below()))
    kept = open_kept(rt, root, below)
    stand, lack = [], []
    for crate in below:
        if any(it.name in lack for it in crate.below()) or not (crate.is_built() or kept and take(kept, crate)):
            lack.append(crate.name)
            continue
        if kept:
            kept.is_built(crate)
        stand.append(crate.name)
    return stand, lack


def take(kept, crate):
    """Whether the gate kept the library, which then stands in out/ with its stamp."""
    if not give(kept, crate):
        return False
    with open(f"{crate.folder}/out/rlib/stamp", "w", encoding="utf-8") as it:
        it.write(crate.stamp())
    return True


def main():
    if len(sys.argv) != 2:
        sys.exit(__doc__)
    rt = load_rt()
    if not rt:
        sys.exit("kept_proofs: there is no command rt: install the Rattle kit")
    os.chdir(ROOT)
    every = rt.rtlib.crates_below(ROOT)
    held = rt.rtlib.lock(every)
    try:
        stand, lack = take_below(rt, ROOT, sys.argv[1])
    finally:
        for it in held:
            os.close(it)
    print(f"kept_proofs: {len(stand)} libraries below {sys.argv[1]} stand" + (f", and rt has to prove {len(lack)}: {' '.join(lack)}" if lack else ""))


if __name__ == "__main__":
    if sys.argv[1:2] in (["-h"], ["--help"]):
        print(__doc__.rstrip())
        sys.exit(0)
    main()
