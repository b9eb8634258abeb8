"""The checks of tools/try_release: each takes a part of a release, tries it as its users would, and reports what isn't right."""
import glob
import hashlib
import os
import re
import shlex
import shutil
import subprocess
import sys
import tarfile
import tempfile
import zipfile

from wasm_bytes import HEAD

TOP = os.path.dirname(os.path.dirname(os.path.realpath(__file__)))
PROGRAMS = ("wasm-check", "wasm-validate")
SOME_ROWS = ("worked", "framing", "items", "types", "segments", "messages", "subtyping", "told")
MOST_MODULES = 400
# The names of the checks that passed and failed, and what was left out, since a command isn't there.
passed, failed, left_out = [], [], []
is_silent = False


def report(name, *problems):
    """Keeps a check, and prints what is wrong with it."""
    wrong = [it for it in problems if it]
    (failed if wrong else passed).append(name)
    if not is_silent:
        print(f"FAILED: {name}: {'; '.join(map(str, wrong))}" if wrong else f"ok: {name}", flush=True)


def read(path):
    with open(path, "rb") as it:
        return it.read()


def source(path):
    return read(f"{TOP}/{path}").decode()


def write(path, data):
    os.makedirs(os.path.dirname(path), exist_ok=True)
    with open(path, "wb") as it:
        it.write(data if isinstance(data, bytes) else data.encode())


class Room:
    """A folder of its own, and commands in an environment of its own."""

    def __init__(self, folder):
        self.folder = folder
        self.commands = f"{folder}/commands"
        os.makedirs(f"{folder}/home")
        os.makedirs(self.commands)
        self.env = {"PATH": f"{self.commands}:/usr/bin:/bin", "HOME": f"{folder}/home", "LC_ALL": "C.UTF-8", "PYTHONDONTWRITEBYTECODE": "1"}
        self.env |= {"GOCACHE": f"{folder}/go-cache", "GOPATH": f"{folder}/go-path", "GOFLAGS": "-buildvcs=false", "GOPROXY": "off"}

    def path(self, name):
        return f"{self.folder}/{name}"

    def run(self, *words, at="", **env):
        """What a command does here: its status, and what it printed."""
        how = {"stdin": subprocess.DEVNULL, "stdout": subprocess.PIPE, "stderr": subprocess.STDOUT, "text": True, "errors": "replace"}
        return subprocess.run(words, cwd=self.path(at), env={**self.env, **env}, **how)

    def has(self, command):
        return shutil.which(command, path=self.env["PATH"]) is not None

    def take(self, name, path):
        """Puts a command that stands elsewhere into PATH."""
        if path and os.path.exists(path) and not self.has(name):
            os.symlink(path, f"{self.commands}/{name}")


def problem(ran, status=0):
    """What is wrong with a command that has to end with this status."""
    return "" if ran.returncode == status else f"status {ran.returncode}: " + " / ".join(ran.stdout.strip().split("\n")[-8:])


def printed(command):
    try:
        return subprocess.run(command, stdout=subprocess.PIPE, stderr=subprocess.DEVNULL, text=True).stdout.strip()
    except OSError:
        return ""


def find_commands(room):
    """Puts Python and Rust into PATH where they stand elsewhere, and sees that the kit isn't there."""
    room.take("python3", sys.executable)
    rust = printed(["rustc", "--print", "sysroot"])
    for it in ("cargo", "rustc", "rustdoc"):
        room.take(it, f"{rust}/bin/{it}" if rust else "")
    report("the kit isn't in PATH", "rt is there" if room.has("rt") else "")


# ------------------------------------------------------------------------------------------------- what the repository says
def kept_program(name):
    """The program that a command of this repository has kept, which it builds if it hasn't."""
    subprocess.run([f"{TOP}/bin/{name}", f"{TOP}/no such file"], stdout=subprocess.DEVNULL, stderr=subprocess.DEVNULL)
    look = 'top=$1; . "$top/bin/sources.sh"; choose_program "$2"; look_for_kit; for it in proved unproved; do find_sum "$it"; ' \
        'if is_built $it "$sum"; then echo "$built/$it"; exit; fi; done'
    return printed(["bash", "-c", look, "bash", TOP, name.replace("-", "_")])


def bytes_of(text):
    """The bytes that a row's text stands for: hexadecimal, `H` for a header, `(BYTES)*N`, `-` for none."""
    text = text.replace("H", HEAD.hex()).replace("-", "")
    return bytes.fromhex(re.sub(r"\(([^()]*)\)\*(\d+)", lambda found: found[1] * min(int(found[2]), 10_000), text))


def sample_modules():
    """Modules of the rows, and some by hand."""
    found = [b"", HEAD, HEAD + b"\1", HEAD + b"\5\4\1\1\2\1", HEAD + b"\1\6\1\x60\1\x7f\1\x7c"]
    for name in SOME_ROWS:
        for row in source(f"crates/test_all/data/modules/{name}.rows").split("\n"):
            parts = row.split(" | ")
            if len(parts) == 4 and not row.startswith("#") and re.fullmatch(r"[0-9a-fA-FH()* -]+", parts[2]):
                found.append(bytes_of(parts[2]))
    return [*dict.fromkeys(found)][:MOST_MODULES]


class Wanted:
    """The sample modules, as files of the room, and what the repository's programs say of them."""

    def __init__(self, room, built):
        programs = {it: f"{built}/{it}" if built else kept_program(it) for it in PROGRAMS}
        modules = sample_modules()
        self.files = [f"modules/{at:03}.wasm" for at in range(len(modules))]
        for name, data in zip(self.files, modules):
            write(room.path(name), data)
        self.validated = "".join(room.run(programs["wasm-validate"], it).stdout for it in self.files)
        self.checked = {words: room.run(programs["wasm-check"], *words, *self.files) for words in self.calls()}
        self.help = room.run(programs["wasm-check"], "--help").stdout
        valid = len(re.findall(r"(?m): ok types", self.validated))
        lines = self.validated.count("\n")
        is_well = lines == len(self.files) and 40 <= valid <= lines - 40
        report(f"the sample modules: {valid} of {lines} are valid", "" if is_well else f"{len(self.files)} modules")

    @staticmethod
    def calls():
        return [(), ("--features", "all"), ("--json", "--types"), ("--features=default,-gc,+vector_operators",)]

    def compare_programs(self, room, name, folder):
        """Whether both programs in this folder say the same."""
        wrong = [words for words, it in self.checked.items() if difference(it, room.run(f"{folder}/wasm-check", *words, *self.files))]
        report(f"{name}: wasm-check says what the repository's does", *wrong)
        lines = "".join(room.run(f"{folder}/wasm-validate", it).stdout for it in self.files)
        report(f"{name}: wasm-validate says what the repository's does", differing(self.validated, lines))

    def compare_gate(self, room, name, *words, **env):
        """Whether a gate prints the lines of wasm-validate, but for the hint behind some, which the library hasn't."""
        wanted = re.sub("; this looks like the text format, which is not read", "", self.validated)
        report(f"{name}: a gate says what wasm-validate does", differing(wanted, room.run(*words, *self.files, **env).stdout))


def difference(one, other):
    return one.returncode != other.returncode or one.stdout != other.stdout


def differing(wanted, got):
    """The first line in which two texts differ."""
    for one, other in zip([*wanted.split("\n"), "its end"], [*got.split("\n"), "its end"]):
        if one != other:
            return f"`{other}` in place of `{one}`"
    return ""


# ------------------------------------------------------------------------------------------------- the files of the release
def one_of(folder, pattern):
    found = glob.glob(f"{glob.escape(folder)}/{pattern}")
    return found[0] if len(found) == 1 else ""


def try_sums(folder):
    rows = [it.split("  ") for it in read(f"{folder}/SHA256SUMS").decode().split("\n")[:-1]]
    wrong = [name for sum_, name in rows if not os.path.isfile(f"{folder}/{name}") or hashlib.sha256(read(f"{folder}/{name}")).hexdigest() != sum_]
    report("SHA256SUMS has the sum of each file", *wrong)
    others = {*os.listdir(folder)} - {name for _, name in rows} - {"SHA256SUMS", "PROOF"}
    report("SHA256SUMS names each file but PROOF", *others, "" if len(rows) == 5 else f"{len(rows)} files in place of 5")


def try_proof(folder):
    text = read(f"{folder}/PROOF").decode()
    version = re.match(r"ruthvelka (\d+\.\d+\.\d+)(-unproved)?\n", text)
    for name, pattern in (("the commit", r"Commit: [0-9a-f]{40}\b"), ("the kit", r"Kit: rattle-kit-\w+"), ("the day", r"Day: \d{4}-\d\d-\d\d")):
        report(f"PROOF says {name}", "" if re.search(rf"(?m)^{pattern}", text) else "it doesn't")
    says = re.search(r"(?m)^Proofs: (NOT RUN|all, by rt ci .*: [1-9]\d* passed, 0 failed)", text)
    is_unproved = bool(says and says[1] == "NOT RUN")
    is_whole = is_unproved or "Not proved" in text
    report("PROOF says whether the proofs were run, and what isn't proved", "" if says and is_whole else "it doesn't")
    wrong = [it for it in os.listdir(folder) if it not in ("PROOF", "SHA256SUMS") and ("unproved" in it) != is_unproved]
    report("the version of each file says whether it is proved", *wrong, "" if version and bool(version[2]) == is_unproved else "PROOF's first line doesn't")
    sums = hashlib.sha256(read(f"{folder}/SHA256SUMS")).hexdigest()
    report("PROOF names these SHA256SUMS", "" if f"\nSHA256SUMS: {sums}\n" in text else "it names others")
    return text


def try_form(room, folder, proof):
    """Whether nothing in the archives depends on when and where they were made."""
    packed = proof.split("\nWhat was proved in this run")[0].split("\nDay: ")[0].rstrip("\n")
    for path in sorted(glob.glob(f"{glob.escape(folder)}/*.tar.gz")):
        name = re.sub(r"-\d.*", "", os.path.basename(path))
        with tarfile.open(path) as tar:
            its = tar.getmembers()
            said = [tar.extractfile(it).read().decode().rstrip("\n") for it in its if it.name.endswith("/PROOF")]
        times, names = {it.mtime for it in its}, [it.name for it in its]
        problems = ["times differ" if len(times) != 1 else "", "names aren't sorted" if names != sorted(names) else ""]
        problems += ["not all is root's" if any(it.uid or it.gid for it in its) else "", "gzip has a time" if read(path)[4:8] != bytes(4) else ""]
        report(f"{name}: the archive's form is fixed", *problems)
        report(f"{name}: it has the PROOF of the release", "" if said and {*said} == {packed} else "another one")
        report(f"{name}: it has the licenses", "" if {"LICENSE", "LICENSE-MIT"} <= {it.split("/")[-1] for it in names} else "there are none")


def try_names(room, unpacked):
    """Whether no file names a folder of the machine that it was made on."""
    kit = printed(["bash", "-c", "dirname $(dirname $(readlink -f $(command -v rt)))"])
    words = [it.encode() for it in {TOP, os.path.dirname(TOP), kit or TOP, f"{tempfile.gettempdir()}/tmp."}]
    found = []
    for at, _, files in os.walk(unpacked):
        for it in files:
            data = read(f"{at}/{it}") if not os.path.islink(f"{at}/{it}") else b""
            found += [f"{it} names {word.decode()}" for word in words if word in data]
    report("no file names a folder of this machine", *found)


# ------------------------------------------------------------------------------------------------- the archive
def unpack(room, path, to):
    with tarfile.open(path) as tar:
        tar.extractall(room.path(to))
    return f"{room.path(to)}/{os.listdir(room.path(to))[0]}"


def files_below(folder):
    return {os.path.relpath(f"{at}/{it}", folder) for at, _, files in os.walk(folder) for it in files}


LIST = "share/doc/ruthvelka/FILES"


def try_install(room, wanted, unpacked):
    inside = {it for it in files_below(unpacked) if it.split("/")[0] in ("bin", "include", "lib", "share")}
    # first below another root, so that one which ignores its prefix writes nothing of this machine
    to = room.path("root with spaces/opt/a prefix")
    ran = room.run("sh", f"{unpacked}/install.sh", "--prefix", "/opt/a prefix", DESTDIR=room.path("root with spaces"))
    there = {f"opt/a prefix/{it}" for it in inside | {LIST}}
    is_right = files_below(room.path("root with spaces")) == there if os.path.isdir(room.path("root with spaces")) else False
    report("install.sh installs below its prefix, and nothing else", problem(ran), "" if is_right else "other files are there")
    if not is_right:
        return
    wanted.compare_programs(room, "installed", f"{to}/bin")
    try_modes(room, unpacked, inside)
    for words, status in ((("--prefix",), 2), (("--prefix=",), 2), (("--no-such-word",), 2)):
        report(f"install.sh refuses {' '.join(words)}", problem(room.run("sh", f"{unpacked}/install.sh", *words, DESTDIR=room.path("never")), status))
    ran = room.run("sh", f"{unpacked}/install.sh", "--prefix=home/mine", at="")
    is_right = files_below(room.path("home/mine")) == inside | {LIST}
    report("install.sh takes a prefix from where it is called", problem(ran), "" if is_right else "other files are there")
    ran = room.run("sh", f"{unpacked}/install.sh", "--prefix=home/mine", "--uninstall")
    left = os.path.exists(room.path("home/mine/share/doc/ruthvelka"))
    report("install.sh removes what it installed", problem(ran), *files_below(room.path("home/mine")), "its folder is left" if left else "")
    try_careful_install(room, unpacked, inside)


def try_careful_install(room, unpacked, inside):
    """Whether it says so where it does nothing, and leaves alone what isn't its own."""
    report("install.sh tells its usage", problem(room.run("sh", f"{unpacked}/install.sh", "--help")))
    os.symlink(f"{unpacked}/install.sh", room.path("a link to it"))
    ran = room.run("sh", "./a link to it", "--prefix=home/by link", at="")
    is_right = files_below(room.path("home/by link")) == inside | {LIST}
    report("install.sh can be called by a link", problem(ran), "" if is_right else "other files are there")
    ran = room.run("sh", f"{unpacked}/install.sh", "--prefix=home/nobody", "--uninstall", at="")
    report("install.sh removes nothing where nothing is installed, and says so", problem(ran, 1))
    shutil.copytree(unpacked, room.path("unpacked here"), symlinks=True)
    for words, status in (((), 2), (("--uninstall",), 1)):
        ran = room.run("sh", "./install.sh", "--prefix", room.path("unpacked here/"), *words, at="unpacked here")
        kept = files_below(room.path("unpacked here")) == files_below(unpacked)
        report(" ".join(("install.sh", *words, "leaves its own folder as it is")), problem(ran, status), "" if kept else "files are gone")
    shutil.rmtree(room.path("unpacked here/lib"))
    ran = room.run("sh", "./install.sh", "--prefix", room.path("home/part"), at="unpacked here")
    report("install.sh refuses a part of the archive", problem(ran, 1))
    try_others_programs(room, unpacked)
    try_versions(room, unpacked, inside)


def try_others_programs(room, unpacked):
    """Whether a program of another that has the name of ours stays, also where ours was there before it."""
    place = room.path("home/of another")
    words = ["sh", f"{unpacked}/install.sh", "--prefix", place]
    os.makedirs(f"{place}/bin")
    write(f"{place}/bin/wasm-validate", "of another")
    ran = room.run(*words)
    report("install.sh replaces no program that isn't its own", problem(ran, 1), *(files_below(place) - {"bin/wasm-validate"}))
    os.remove(f"{place}/bin/wasm-validate")
    first = room.run(*words)
    write(f"{place}/bin/wasm-validate", "of another")
    ran = [room.run(*words, *more) for more in ((), ("--uninstall",))]
    kept = {it: read(f"{place}/{it}") for it in files_below(place)}
    problems = [problem(first), problem(ran[0], 1), problem(ran[1]), "" if kept == {"bin/wasm-validate": b"of another"} else f"there is {sorted(kept)}"]
    report("install.sh leaves a program that took the place of its own", *problems)


def try_versions(room, unpacked, inside):
    """Whether another version can be installed over one, and all of both be removed."""
    older = room.path("an older version")
    shutil.copytree(unpacked, older, symlinks=True)
    for it in ("bin/wasm-check", "share/doc/ruthvelka/gone"):
        write(f"{older}/{it}", "older")
    words = ["--prefix", room.path("home/versions")]
    ran = [room.run("sh", f"{it}/install.sh", *words) for it in (older, unpacked, unpacked)]
    is_right = files_below(room.path("home/versions")) == inside | {LIST}
    report("install.sh installs a version over another, and again", *map(problem, ran), "" if is_right else "other files are there")
    ran = room.run("sh", f"{older}/install.sh", *words, "--uninstall")
    report("install.sh removes what another version installed", problem(ran), *files_below(room.path("home/versions")))


def try_modes(room, unpacked, inside):
    """Whether what is installed has its own modes and the owner that installs it, whoever unpacked it and with which umask."""
    others = room.path("of somebody else")
    shutil.copytree(unpacked, others, symlinks=True)
    for it in sorted(inside):
        if not os.path.islink(f"{others}/{it}"):
            os.chmod(f"{others}/{it}", 0o777)
        if os.geteuid() == 0:
            os.chown(f"{others}/{it}", 1234, 1234, follow_symlinks=False)
    ran = room.run("sh", "-c", 'umask 077; exec sh "$0/install.sh" --prefix=/its', others, DESTDIR=room.path("modes"))
    wrong = []
    for it in sorted(inside):
        said = os.lstat(room.path(f"modes/its/{it}"))
        mode = 0o777 if it.endswith("/libruthvelka.so") else 0o755 if it.startswith("bin/") or it.endswith(".so.0") else 0o644
        wrong += [] if said.st_mode & 0o7777 == mode and said.st_uid == os.geteuid() else [f"{it} has {said.st_mode & 0o7777:o} of {said.st_uid}"]
    folders = {os.lstat(room.path(f"modes/its/{it}")).st_mode & 0o7777 for it in ("bin", "lib", "share/man")}
    report("install.sh sets modes and owner", problem(ran), *wrong, "" if folders == {0o755} else "of folders")


def try_library(room, wanted, unpacked):
    """The library, by C, where it is unpacked and where that folder is moved."""
    said = room.run("readelf", "-d", f"{unpacked}/lib/libruthvelka.so.0").stdout
    report("the SONAME of the shared object", "" if "[libruthvelka.so.0]" in said else "it has another one")
    report("the link to the shared object", "" if os.readlink(f"{unpacked}/lib/libruthvelka.so") == "libruthvelka.so.0" else "it leads elsewhere")
    if not room.has("gcc") or not room.has("pkg-config"):
        left_out.append("the library from C (no gcc or no pkg-config)")
        return
    for it in ("gate.c", "files.h"):
        write(room.path(f"c/{it}"), source(f"examples/c/{it}"))
    moved = room.path("moved to/here")
    shutil.copytree(unpacked, moved, symlinks=True)
    for name, folder in (("unpacked", unpacked), ("moved", moved)):
        build = f'eval "set -- $(pkg-config --cflags --libs ruthvelka)"; gcc -std=c99 c/gate.c "$@" -o "c/{name}"'
        ran = room.run("sh", "-c", build, PKG_CONFIG_PATH=f"{folder}/lib/pkgconfig")
        report(f"C, {name}: pkg-config has what a gate is built with", problem(ran))
        wanted.compare_gate(room, f"C, {name}", f"c/{name}", LD_LIBRARY_PATH=f"{folder}/lib")
    ran = room.run("gcc", "-std=c99", "c/gate.c", f"-I{unpacked}/include", f"{unpacked}/lib/libruthvelka.a", "-o", "c/static")
    report("C, static: a gate is built", problem(ran))
    wanted.compare_gate(room, "C, static", "c/static")
    try_readme(room, moved)


def try_readme(room, folder):
    """The commands for C of the README, in a folder whose path has a space."""
    found = re.search(r"(?s)\n## From C\n.*?```console\n(.*?)```", read(f"{folder}/README.md").decode())
    lines = found[1].split("\n") if found else []
    write(f"{folder}/module.wasm", HEAD + b"\1\6\1\x60\1\x7f\1\x7c")
    ran = room.run("sh", "-ec", "\n".join(it[2:] for it in lines if it.startswith("$ ")), at=os.path.relpath(folder, room.folder))
    said = "\n".join(it for it in lines if not it.startswith("$ "))
    report("C: the commands of the README print what it says", problem(ran), differing(said, ran.stdout), "" if ": ok types 1 " in said else "no gate")


def try_manual(room, unpacked):
    if not room.has("groff"):
        left_out.append("the pages of the manual (no groff)")
        return
    for it in PROGRAMS:
        ran = room.run("groff", "-man", "-Tutf8", "-ww", "-z", f"{unpacked}/share/man/man1/{it}.1")
        report(f"the page {it}(1) has no warning", problem(ran), ran.stdout.strip())


# ------------------------------------------------------------------------------------------------- completions
def asked_features(text):
    return re.findall(r"(?m)\w+", "\n".join(re.findall(r"(?m)^Features that .*:\n((?:  .*\n)+)", text)))


def first_words(ran):
    """The first word of each line: fish says behind it what the option does."""
    return [it.split("\t")[0] for it in ran.stdout.split("\n") if it]


def try_completions(room, wanted, unpacked):
    """Whether each shell offers each option, and each feature of the help."""
    options = re.findall(r"(?m)^ +(?:-\w, +)?(--[a-z-]+)", wanted.help)
    features = [f"+{it}" for it in asked_features(wanted.help)] + ["default", "all"]
    bash = f'. "{unpacked}/share/bash-completion/completions/wasm-check"; compopt() {{ :; }}; COMP_WORDS=("$@"); COMP_CWORD=$(($# - 1)); ' \
        '_wasm_check; printf "%s\\n" "${COMPREPLY[@]}"'
    fish = f"source {shlex.quote(unpacked)}/share/fish/vendor_completions.d/wasm-check.fish; complete -C (string join ' ' -- $argv)"
    calls = {
        "bash": ["bash", "--norc", "-c", bash, "bash"],
        "fish": ["fish", "--no-config", "-c", fish],
    }
    for shell, call in calls.items():
        if not room.has(shell):
            left_out.append(f"completions of {shell} (no {shell})")
            continue
        said = first_words(room.run(*call, "wasm-check", "--"))
        report(f"{shell} offers each option", *(it for it in options if it not in said))
        said = first_words(room.run(*call, "wasm-check", "--features", ""))
        report(f"{shell} offers each feature", *(it for it in features if it not in said))
        said = first_words(room.run(*call, "wasm-check", "--features", "default,-si"))
        report(f"{shell} goes on behind a comma", "" if said == ["default,-simd"] else said)
    try_zsh(room, unpacked, options, features)


def try_zsh(room, unpacked, options, features):
    """The function of zsh, with a stand-in for what reads its words: what it hands on has each option, and its list each feature."""
    if not room.has("zsh"):
        left_out.append("completions of zsh (no zsh)")
        return
    function = f"{unpacked}/share/zsh/site-functions/_wasm-check"
    is_named = read(function).startswith(b"#compdef wasm-check\n")
    report("zsh can read its file", problem(room.run("zsh", "-f", "-n", function)), "" if is_named else "its first line")
    arguments = '_arguments() { print -rl -- "$@"; print -rl -- default all +${^features} }'
    said = room.run("zsh", "-f", "-c", f'{arguments}; . "{function}"').stdout
    report("zsh offers each option", *(it for it in options if not re.search(rf"(?m)^.*{it}=?\[", said)))
    report("zsh offers each feature", *(it for it in features if it not in said.split("\n")))


# ------------------------------------------------------------------------------------------------- the packages
def try_debian(room, wanted, path, unpacked):
    if not room.has("dpkg-deb"):
        left_out.append("the Debian package (no dpkg-deb)")
        return
    to = room.path("debian")
    os.makedirs(to)
    report("Debian: it is unpacked", problem(room.run("dpkg-deb", "-x", path, to)), problem(room.run("dpkg-deb", "-e", path, f"{to}/DEBIAN")))
    report("Debian: its sums", problem(room.run("md5sum", "--quiet", "-c", f"{to}/DEBIAN/md5sums", at="debian")))
    control = read(f"{to}/DEBIAN/control").decode()
    version = re.search(r"(?m)^Version: (.*)$", control)
    name = f"ruthvelka_{version[1] if version else ''}_amd64.deb"
    report("Debian: its version is that of its file", "" if os.path.basename(path) == name else name)
    ours = {read(f"{unpacked}/{it}") for it in files_below(unpacked)}
    others = {it for it in files_below(f"{to}/usr") if read(f"{to}/usr/{it}") not in ours}
    made = {it for it in others if re.search(r"\.gz$|/ruthvelka\.pc$|/copyright$", it)}
    report("Debian: its files are those of the archive", *(others - made), "" if len(made) == 5 else made)
    wanted.compare_programs(room, "Debian", f"{to}/usr/bin")
    flags = room.run("pkg-config", "--cflags", "--libs", "ruthvelka", PKG_CONFIG_PATH=f"{to}/usr/lib/x86_64-linux-gnu/pkgconfig").stdout
    places = [os.path.realpath(it[2:]) for it in shlex.split(flags) if it[:2] in ("-I", "-L")]
    there = [f"{to}/usr/include", f"{to}/usr/lib/x86_64-linux-gnu"]
    report("Debian: pkg-config finds the header and the library", "" if places == [os.path.realpath(it) for it in there] else flags)
    try_dpkg(room, path)


def try_dpkg(room, path):
    """Installs the package into a root of its own, and removes it."""
    root = room.path("dpkg")
    for it in ("updates", "info", "triggers"):
        os.makedirs(f"{root}/var/lib/dpkg/{it}")
    for it in ("status", "available"):
        write(f"{root}/var/lib/dpkg/{it}", "")
    words = ["dpkg", f"--root={root}", "--force-not-root", "--force-depends", "--no-triggers", "--log=/dev/null"]
    env = {"PATH": f"{room.env['PATH']}:/usr/sbin:/sbin"}
    report("Debian: dpkg installs it", problem(room.run(*words, "-i", path, **env)), "" if os.path.isfile(f"{root}/usr/bin/wasm-check") else "no program")
    left = problem(room.run(*words, "-r", "ruthvelka", **env))
    report("Debian: dpkg removes it", left, "a program is left" if os.path.exists(f"{root}/usr/bin/wasm-check") else "")


def example(text, language):
    """The code of this language in a README."""
    found = re.search(rf"(?s)```{language}[^\n]*\n(.*?)```", text)
    return found[1] if found else ""


def try_wheel(room, wanted, path):
    with zipfile.ZipFile(path) as it:
        names = it.namelist()
        rows = [row.rsplit(",", 2) for row in it.read(names[-1]).decode().split("\n")[:-1]]
        times = {info.date_time for info in it.infolist()}
        readme = next((it.read(name).decode() for name in names if name.endswith("/METADATA")), "")
    report("wheel: it has its shared object", "" if "ruthvelka/libruthvelka.so.0" in names else "there is none")
    report("wheel: it has its types", "" if "ruthvelka/py.typed" in names else "there is no py.typed")
    report("wheel: RECORD names each file, and the form is fixed", *({*names} ^ {row[0] for row in rows}), "times" if len(times) != 1 else "")
    made = room.run("python3", "-m", "venv", "venv")
    if made.returncode:
        left_out.append("the wheel (no venv of Python)")
        return
    pip = room.run("venv/bin/python", "-m", "pip", "install", "--no-index", "--no-deps", "--disable-pip-version-check", path)
    report("wheel: pip installs it without an index", problem(pip))
    write(room.path("python/test_ruthvelka.py"), source("packaging/python/tests/test_ruthvelka.py"))
    ran = room.run(room.path("venv/bin/python"), "-m", "unittest", "-v", "test_ruthvelka", at="python")
    tests = re.findall(r"(?m)^Ran (\d+) tests", ran.stdout)
    report("wheel: its tests pass", problem(ran), "" if tests and int(tests[0]) >= 30 else "there are fewer")
    place = room.run("venv/bin/python", "-c", "import ruthvelka; print(ruthvelka.__file__); print(ruthvelka.__version__)").stdout.splitlines()
    is_there = len(place) == 2 and place[0].startswith(room.path("venv/")) and f"-{place[1]}-" in os.path.basename(path)
    report("wheel: what is imported is what was installed, of its version", "" if is_there else place)
    write(room.path("python/gate.py"), example(readme, "python"))
    wanted.compare_gate(room, "wheel, the example of its README", "venv/bin/python", "python/gate.py")


def try_rust(room, wanted, path):
    folder = unpack(room, path, "rust")
    if not room.has("cargo"):
        left_out.append("the crate for Rust (no cargo)")
        return
    write(room.path("rust/mine/src/main.rs"), "fn main() {\n" + example(read(f"{folder}/ruthvelka/README.md").decode(), "rust") + "}\n")
    write(room.path("rust/mine/Cargo.toml"), '[package]\nname = "mine"\nversion = "0.0.0"\nedition = "2021"\n')
    ran = room.run("cargo", "add", "--quiet", "--offline", "--path", "../ruthvelka-rust/ruthvelka", at="rust/mine")
    report("Rust: cargo add takes the crate", problem(ran))
    report("Rust: the example of its README is built", problem(room.run("cargo", "build", "--quiet", "--offline", at="rust/mine")))
    wanted.compare_gate(room, "Rust, the example of its README", "rust/mine/target/debug/mine")
    ran = room.run("cargo", "test", "--offline", at="rust/ruthvelka-rust/ruthvelka")
    tests = sum(map(int, re.findall(r"(?m)^test result: ok. (\d+) passed", ran.stdout)))
    report("Rust: its tests pass", problem(ran), "" if tests >= 22 else f"there are {tests}")
    tree = room.run("cargo", "tree", "--offline", "--prefix", "none", at="rust/ruthvelka-rust/ruthvelka").stdout.split("\n")[:-1]
    report("Rust: it depends on ruthvelka-sys alone", "" if [it.split()[0] for it in tree] == ["ruthvelka", "ruthvelka-sys"] else tree)


def try_go(room, wanted, path):
    folder = unpack(room, path, "go")
    if not room.has("go") or not room.has("gcc"):
        left_out.append("the module for Go (no go or no gcc)")
        return
    text = read(f"{folder}/README.md").decode()
    write(room.path("go/mine/main.go"), example(text, "go"))
    write(room.path("go/mine/go.mod"), "module mine.example/mine\n\ngo 1.19\n")
    edit = re.search(r"(?m)^\$ (go mod edit .*)$", text)
    report("Go: its README's command adds it", problem(room.run("sh", "-c", edit[1] if edit else "false", at="go/mine")))
    report("Go: the example of its README is built", problem(room.run("go", "build", "-o", "gate", ".", at="go/mine")))
    wanted.compare_gate(room, "Go, the example of its README", "go/mine/gate")
    ran = room.run("go", "test", "-v", ".", at="go/ruthvelka-go")
    tests = len(re.findall(r"(?m)^--- PASS", ran.stdout))
    report("Go: its tests pass", problem(ran), "" if tests >= 20 else f"there are {tests}")
    report("Go: go vet finds nothing", problem(room.run("go", "vet", ".", at="go/ruthvelka-go")))
    report("Go: it can be vendored", problem(room.run("sh", "-c", "go mod vendor && exec go build -o vendored .", at="go/mine")))
    sum_ = hashlib.sha256(read(f"{folder}/libruthvelka.a")).hexdigest() if os.path.isfile(f"{folder}/libruthvelka.a") else "no library"
    report("Go: it has the sum of its library", "" if f'LibrarySum = "{sum_}"\n' in read(f"{folder}/sum.go").decode() else sum_)


# ------------------------------------------------------------------------------------------------- all of it
def try_same(folder, other):
    """Whether two releases of a commit have the same bytes, but for the day in PROOF."""
    names = {*os.listdir(folder), *os.listdir(other)} - {"PROOF"}
    for name in sorted(names):
        is_same = all(os.path.isfile(f"{it}/{name}") for it in (folder, other)) and read(f"{folder}/{name}") == read(f"{other}/{name}")
        report(f"both releases have the same {name}", "" if is_same else "they differ")


def try_all(room, folder, built):
    proof = try_proof(folder)
    try_sums(folder)
    try_form(room, folder, proof)
    find_commands(room)
    wanted = Wanted(room, built)
    unpacked = unpack(room, one_of(folder, "ruthvelka-[0-9]*.tar.gz"), "unpacked")
    try_names(room, unpacked)
    report("the README of the release is filled in", *re.findall(r"@\w+@", read(f"{unpacked}/README.md").decode()))
    wanted.compare_programs(room, "unpacked", f"{unpacked}/bin")
    try_install(room, wanted, unpacked)
    try_library(room, wanted, unpacked)
    try_manual(room, unpacked)
    try_completions(room, wanted, unpacked)
    try_debian(room, wanted, one_of(folder, "*.deb"), unpacked)
    try_wheel(room, wanted, one_of(folder, "*.whl"))
    try_rust(room, wanted, one_of(folder, "ruthvelka-rust-*.tar.gz"))
    try_go(room, wanted, one_of(folder, "ruthvelka-go-*.tar.gz"))
