"""Damaged releases, each of which a check of release_checks.py has to notice, and calls of bin/release that have to be refused."""
import gzip
import io
import os
import re
import shutil
import subprocess
import tarfile
import tempfile
import zipfile

import release_checks as checks
from release_checks import TOP, one_of, read, write

MAIN, RUST, GO, WHEEL, DEBIAN = "ruthvelka-[0-9]*.tar.gz", "ruthvelka-rust-*.tar.gz", "ruthvelka-go-*.tar.gz", "*.whl", "*.deb"


# ------------------------------------------------------------------------------------------------- damage
def change_tar(path, change):
    """Packs an archive anew, of the entries that `change` makes of each."""
    out = io.BytesIO()
    with tarfile.open(path) as old, tarfile.open(fileobj=out, mode="w", format=tarfile.USTAR_FORMAT) as new:
        for it in old.getmembers():
            data = old.extractfile(it).read() if it.isfile() else b""
            it, data = change(it, data)
            if it is not None:
                it.size = len(data)
                new.addfile(it, io.BytesIO(data))
    write(path, gzip.compress(out.getvalue(), mtime=0))


def edit_tar(pattern, name, old, new):
    """Puts another text into the file of this name."""
    def change(it, data):
        if it.name.endswith(name):
            assert old in data, name
            data = data.replace(old, new)
        return it, data
    return lambda folder: change_tar(one_of(folder, pattern), change)


def change_wheel(change):
    """Packs a wheel anew, of what `change` makes of the contents of each file; None leaves it out."""
    def damage(folder):
        path, out = one_of(folder, WHEEL), io.BytesIO()
        with zipfile.ZipFile(path) as old, zipfile.ZipFile(out, "w") as new:
            for it in old.infolist():
                data = change(it.filename, old.read(it))
                if data is not None:
                    new.writestr(it, data)
        write(path, out.getvalue())
    return damage


def without(name):
    return change_wheel(lambda it, data: None if it.endswith(name) else data)


def other_number(it, data):
    """Swaps the numbers of two features."""
    if it != "ruthvelka/_features.py":
        return data
    text = data.replace(b"SIMD = 1 << 4 ", b"SIMD = 1 << 5 ").replace(b"THREADS = 1 << 5 ", b"THREADS = 1 << 4 ", 1)
    assert text != data
    return text


def always_valid(it, data):
    """Takes no verdict for a refusal."""
    return data.replace(b"if verdict == c.VALID and report.verdict == c.VALID:", b"if verdict == c.VALID:") if it.endswith("_calls.py") else data


def is_later(it, data):
    """Gives one file the time at which it was packed."""
    if it.name.endswith("/README.md"):
        it.mtime += 1
    return it, data


def append(name):
    """Adds a byte to a file of the release."""
    def damage(folder):
        path = one_of(folder, name)
        write(path, read(path) + b"\n")
    return damage


def replace(name, old, new):
    def damage(folder):
        text = read(f"{folder}/{name}").decode()
        assert re.search(old, text), name
        write(f"{folder}/{name}", re.sub(old, new, text))
    return damage


def damage_debian(folder):
    """Gives the Debian package another program, and leaves its sums as they are."""
    path = one_of(folder, DEBIAN)
    with tempfile.TemporaryDirectory() as room:
        subprocess.run(["dpkg-deb", "-R", path, f"{room}/it"], check=True)
        shutil.copy(f"{room}/it/usr/bin/wasm-validate", f"{room}/it/usr/bin/wasm-check")
        subprocess.run(["dpkg-deb", "--root-owner-group", "-Zgzip", "-b", f"{room}/it", path], check=True, stdout=subprocess.DEVNULL)


def without_eval(it, data):
    """Takes what makes the path of pkg-config one word out of the README."""
    return it, re.sub(rb'eval "(cc .*)"', rb"\1", data) if it.name.endswith("/README.md") else data


def apart(it, data):
    """Puts the library of the module for Go into a folder of its own, which holds no source."""
    it.name = it.name.replace("/libruthvelka.a", "/lib/libruthvelka.a")
    return it, data.replace(b"-L${SRCDIR} ", b"-L${SRCDIR}/lib ")


# Each damaged release: what is done, which function tries it, and the check that has to fail.
PLANTS = {
    "a stale SHA256SUMS": (append(GO), "sums", "SHA256SUMS has the sum of each file"),
    "a file that SHA256SUMS lacks": (replace("SHA256SUMS", r".*\.whl\n", ""), "sums", "SHA256SUMS names each file but PROOF"),
    "PROOF of another release": (replace("PROOF", r"(SHA256SUMS: )\w", r"\1x"), "proof", "PROOF names these SHA256SUMS"),
    "PROOF without a gate": (replace("PROOF", r"Proofs: .*", "Proofs: all"), "proof", "PROOF says whether the proofs were run, and what isn't proved"),
    "PROOF of a gate that failed": (
        replace("PROOF", r"Proofs: .*", "Proofs: all, by rt ci of it: 9 passed, 1 failed"), "proof",
        "PROOF says whether the proofs were run, and what isn't proved",
    ),
    "an unproved release under a version that is proved": (
        lambda it: os.rename(one_of(it, DEBIAN), f"{it}/ruthvelka_0.1.0_amd64.deb"), "proof", "the version of each file says whether it is proved"),
    "an archive with the time of its making": (lambda it: change_tar(one_of(it, MAIN), is_later), "form", "ruthvelka: the archive's form is fixed"),
    "an archive without licenses": (
        lambda folder: change_tar(one_of(folder, GO), lambda it, data: (None if "LICENSE" in it.name else it, data)), "form",
        "ruthvelka-go: it has the licenses",
    ),
    "two releases that differ": (append(MAIN), "same", "both releases have the same ruthvelka-[0-9].*"),
    "a wheel without its shared object": (without("libruthvelka.so.0"), "wheel", "wheel: it has its shared object"),
    "a wheel without its types": (without("py.typed"), "wheel", "wheel: it has its types"),
    "a wheel with a wrong feature number": (change_wheel(other_number), "wheel", "wheel: its tests pass"),
    "a wheel that takes an unwritten report for a valid module": (change_wheel(always_valid), "wheel", "wheel: its tests pass"),
    "a crate with a wrong feature number": (
        edit_tar(RUST, "/features.rs", b"SIMD: WasmFeatures = WasmFeatures(1 << 4)", b"SIMD: WasmFeatures = WasmFeatures(1 << 3)"), "rust",
        "Rust: its tests pass",
    ),
    "a crate that takes an unwritten report for a valid module": (
        edit_tar(RUST, "/error.rs", b" && report.verdict == sys::VALID", b""), "rust", "Rust: its tests pass"),
    "a crate that needs another one": (
        edit_tar(RUST, "ruthvelka-sys/Cargo.toml", b"build = ", b"[dependencies]\nmine = { path = \"../../mine\" }\n[package.metadata]\nbuild = "), "rust",
        "Rust: it depends on ruthvelka-sys alone",
    ),
    "a module with a wrong feature number": (
        edit_tar(GO, "/features.go", b"SIMD WasmFeatures = 1 << 4", b"SIMD WasmFeatures = 1 << 3"), "go", "Go: its tests pass"),
    "a module that takes an unwritten report for a valid one": (
        edit_tar(GO, "/ruthvelka.go", b" && report.verdict == C.RUTHVELKA_VALID", b""), "go", "Go: its tests pass"),
    "a module whose library is in a folder of its own": (lambda folder: change_tar(one_of(folder, GO), apart), "go", "Go: it can be vendored"),
    "a module with the sum of another library": (
        edit_tar(GO, "/sum.go", b'LibrarySum = "', b'LibrarySum = "0'), "go", "Go: it has the sum of its library"),
    "a README whose command takes no path with a space": (
        lambda folder: change_tar(one_of(folder, MAIN), without_eval), "library", "C: the commands of the README print what it says"),
    "an install.sh that ignores its prefix": (
        edit_tar(MAIN, "/install.sh", b"to=${DESTDIR:-}$prefix", b"to=${DESTDIR:-}/usr/local"), "install",
        "install.sh installs below its prefix, and nothing else",
    ),
    "an install.sh that leaves a file": (
        edit_tar(MAIN, "/install.sh", b"find bin include lib share", b"find bin include lib"), "install",
        "install.sh installs below its prefix, and nothing else",
    ),
    "an install.sh that keeps the umask": (edit_tar(MAIN, "/install.sh", b"umask 022", b":"), "install", "install.sh sets modes and owner"),
    "an install.sh that keeps modes and owner": (
        edit_tar(MAIN, "/install.sh", b"chmod 6", b": 6"), "install", "install.sh sets modes and owner"),
    "an install.sh that replaces programs of others": (
        edit_tar(MAIN, "/install.sh", b'&& ! is_listed "$it"', b"&& false"), "install", "install.sh replaces no program that isn't its own"),
    "an install.sh that removes programs of others": (
        edit_tar(MAIN, "/install.sh", b'        if is_listed "$it"; then', b"        if true; then"), "install",
        "install.sh leaves a program that took the place of its own",
    ),
    "an install.sh that leaves what a version before had": (
        edit_tar(MAIN, "/install.sh", b'grep -Fxq -- "$it" && is_listed', b'grep -Fxq -- "$it" && ! is_listed'), "install",
        "install.sh installs a version over another, and again",
    ),
    "an install.sh that follows no link": (
        edit_tar(MAIN, "/install.sh", b'script=$(readlink -f -- "$0")', b'script=$0'), "install", "install.sh can be called by a link"),
    "an install.sh that installs over itself": (
        edit_tar(MAIN, "/install.sh", b'pwd -P)" = "$from"', b'pwd -P)" = "-$from"'), "install", "install.sh leaves its own folder as it is"),
    "an install.sh that takes a part for the whole": (
        edit_tar(MAIN, "/install.sh", b"! -type d) || exit 1", b"! -type d) || true"), "install", "install.sh refuses a part of the archive"),
    "an install.sh that removes what isn't there": (
        edit_tar(MAIN, "/install.sh", b'[ -f "$list" ] ||', b"true ||"), "install",
        "install.sh removes nothing where nothing is installed, and says so",
    ),
    "a pkg-config file that can't be moved": (
        edit_tar(MAIN, "/ruthvelka.pc", b"${pcfiledir}/../..", b"/usr/local"), "library", "C, moved: pkg-config has what a gate is built with"),
    "a page with a mistake": (
        edit_tar(MAIN, "/wasm-validate.1", b".SH OUTPUT", b".SH OUTPUT\n.NOSUCH"), "manual", r"the page wasm-validate\(1\) has no warning"),
    "completions of bash without an option": (edit_tar(MAIN, "completions/wasm-check", b" --shared", b""), "completions", "bash offers each option"),
    "completions of fish without a feature": (edit_tar(MAIN, "/wasm-check.fish", b" floats", b""), "completions", "fish offers each feature"),
    "completions of zsh without an option": (edit_tar(MAIN, "/_wasm-check", b"--types[", b"--kinds["), "completions", "zsh offers each option"),
    "a Debian package with another program": (damage_debian, "debian", "Debian: its sums"),
    "a file that names the folder of the repository": (
        edit_tar(MAIN, "/README.md", b"\n", f"\n{TOP}\n".encode()), "names", "no file names a folder of this machine"),
}


def try_part(room, folder, part, whole, wanted):
    """The checks of this part of a release."""
    unpacked = checks.unpack(room, one_of(folder, MAIN), "unpacked")
    proof = read(f"{folder}/PROOF").decode()
    calls = {
        "sums": lambda: checks.try_sums(folder),
        "proof": lambda: checks.try_proof(folder),
        "form": lambda: checks.try_form(room, folder, proof),
        "same": lambda: checks.try_same(folder, whole),
        "wheel": lambda: checks.try_wheel(room, wanted, one_of(folder, WHEEL)),
        "rust": lambda: checks.try_rust(room, wanted, one_of(folder, RUST)),
        "go": lambda: checks.try_go(room, wanted, one_of(folder, GO)),
        "install": lambda: checks.try_install(room, wanted, unpacked),
        "library": lambda: checks.try_library(room, wanted, unpacked),
        "manual": lambda: checks.try_manual(room, unpacked),
        "completions": lambda: checks.try_completions(room, wanted, unpacked),
        "debian": lambda: checks.try_debian(room, wanted, one_of(folder, DEBIAN), unpacked),
        "names": lambda: checks.try_names(room, unpacked),
    }
    calls[part]()


class NoLines:
    """What the programs say isn't compared for most plants: it takes long, and is for the whole release."""

    def __init__(self, wanted):
        self.help = wanted.help

    def compare_programs(self, *_):
        pass

    def compare_gate(self, *_, **__):
        pass


def try_plant(whole, name, wanted):
    """What is wrong, or None where the check that is to fail is left out, since a command isn't there."""
    damage, part, check = PLANTS[name]
    with tempfile.TemporaryDirectory(prefix="release") as outer:
        os.chmod(outer, 0o755)
        folder = shutil.copytree(whole, f"{outer}/release")
        damage(folder)
        room = checks.Room(f"{outer}/room")
        checks.find_commands(room)
        checks.passed.clear(), checks.failed.clear(), checks.left_out.clear()
        try_part(room, folder, part, whole, wanted)
        subprocess.run(["chmod", "-R", "u+w", outer])
    if not any(re.fullmatch(check, it) for it in checks.passed + checks.failed) and checks.left_out:
        return None
    found = [it for it in checks.failed if re.fullmatch(check, it)]
    return "" if found else f"{check} lets it pass; what fails is {checks.failed}"


# ------------------------------------------------------------------------------------------------- calls that are refused
GATE = """#!/bin/sh
case "$1" in
version) echo 'rattle-kit-0 of a test' ;;
ci) printf '%s' "$SAYS"; exit "$ENDS" ;;
*) exit 1 ;;
esac
"""
CALLS = {
    "a gate in which a check failed": ("8 passed, 1 failed\\n", 1, "not everything is proved"),
    "a gate in which a check failed, and whose status is 0": ("8 passed, 1 failed\\n", 0, "not everything is proved"),
    "a gate that was cut off": ("rt: ok\\n", 0, "not everything is proved"),
    "a gate that checked nothing": ("0 passed, 0 failed\\n", 0, "not everything is proved"),
    "a gate that fails behind its last line": ("8 passed, 0 failed\\n", 1, "not everything is proved"),
    "a gate that passed, and no programs": ("8 passed, 0 failed\\n", 0, "not everything is proved"),
}


def try_call(room, said, status, words=()):
    """What bin/release of a clean clone says, beside a kit whose gate says and does this."""
    write(f"{room}/kit/bin/rt", GATE)
    os.chmod(f"{room}/kit/bin/rt", 0o755)
    env = {**os.environ, "PATH": f"{room}/kit/bin:{os.environ['PATH']}", "SAYS": said.encode().decode("unicode_escape"), "ENDS": str(status)}
    ran = subprocess.run([f"{room}/clone/bin/release", *words, f"{room}/made"], env=env, stdout=subprocess.PIPE, stderr=subprocess.STDOUT, text=True)
    return ran.returncode, ran.stdout, os.path.exists(f"{room}/made") and bool(os.listdir(f"{room}/made"))


def try_calls():
    """Each call that has to be refused: what it is, and what is wrong."""
    with tempfile.TemporaryDirectory() as room:
        subprocess.run(["git", "clone", "-q", TOP, f"{room}/clone"], check=True)
        for name, (said, status, why) in CALLS.items():
            ended, text, is_made = try_call(room, said, status)
            yield name, "" if ended == 1 and why in text and not is_made else f"status {ended}: {text}"
        write(f"{room}/clone/more", b"")
        ended, text, _ = try_call(room, "8 passed, 0 failed\\n", 0)
        yield "files that aren't committed", "" if ended == 1 and "as they are committed" in text else text
        os.remove(f"{room}/clone/more")
        write(f"{room}/made/old", b"")
        ended, text, _ = try_call(room, "8 passed, 0 failed\\n", 0)
        yield "a folder that isn't empty", "" if ended == 1 and "isn't an empty folder" in text else text


def try_plants(whole, built):
    """Tries each; the last line is how many were noticed."""
    checks.is_silent = True
    noticed = missed = 0
    with tempfile.TemporaryDirectory(prefix="release") as outer:
        wanted = NoLines(checks.Wanted(checks.Room(f"{outer}/room"), built))
    results = [(name, lambda name=name: try_plant(whole, name, wanted)) for name in PLANTS]
    for name, call in results:
        wrong = call()
        if wrong is None:
            print(f"left out: {name}, since {', '.join(checks.left_out)}", flush=True)
            continue
        print(f"FAILED: {name}: {wrong}" if wrong else f"ok: {name}: {PLANTS[name][2]}", flush=True)
        noticed, missed = noticed + (not wrong), missed + bool(wrong)
    for name, wrong in try_calls():
        print(f"FAILED: {name}: {wrong}" if wrong else f"ok: {name}: bin/release refuses it", flush=True)
        noticed, missed = noticed + (not wrong), missed + bool(wrong)
    print(f"{noticed} passed, {missed} failed")
    return 1 if missed else 0
