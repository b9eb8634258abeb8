#!/usr/bin/env python3
"""pack_release.py PARTS KIT EPOCH FOLDER: packs what bin/release has built into archives and packages. bin/release calls it.

PARTS has wasm-check, wasm-validate, libruthvelka.a, libruthvelka.so.0 and PROOF, whose first line says which version it is. KIT is the folder of the
kit, whose crates' licenses go with the files. EPOCH is the time that all files get. The same parts, and the same time, make the same bytes: files
are sorted, belong to root, and have their modes from here."""
import base64
import gzip
import hashlib
import io
import os
import re
import subprocess
import sys
import tarfile
import textwrap
import time
import zipfile
from typing import NamedTuple

sys.dont_write_bytecode = True
TOP = os.path.dirname(os.path.dirname(os.path.realpath(__file__)))
PROGRAMS = ("wasm-check", "wasm-validate")
SHARED = "libruthvelka.so.0"
# wheels for glibc 2.17 or later are the oldest that all versions of pip take
OLDEST_WHEEL = (2, 17)


class Entry(NamedTuple):
    """A file of an archive, or a link."""

    path: str
    data: bytes = b""
    mode: int = 0o644
    link: str = ""


def read(path):
    with open(path, "rb") as it:
        return it.read()


def source(path):
    return read(f"{TOP}/{path}")


def filled(data, **values):
    """A text with these values in place of @NAME@."""
    for name, value in values.items():
        data = data.replace(f"@{name}@".encode(), value.encode())
    left = re.search(rb"@[A-Z_]+@", data)
    if left:
        sys.exit(f"pack_release: nothing is known for {left[0].decode()}")
    return data


# ------------------------------------------------------------------------------------------------- what is packed
class Release:
    """The parts, the version as each kind of package writes it, and what packages say of them."""

    def __init__(self, parts, kit, epoch):
        self.parts, self.epoch = parts, epoch
        self.proof = read(f"{parts}/PROOF")
        name, self.version = re.match(rb"(\w+) (\d+\.\d+\.\d+(?:-unproved)?)\n", self.proof).groups()
        self.version = self.version.decode()
        # each sorts before the proved version
        self.of_python = self.version.replace("-unproved", ".dev0+unproved")
        self.of_debian = self.version.replace("-", "~")
        self.licenses = licenses(kit)
        self.glibc = max(map(glibc_of, (self.part(it) for it in (*PROGRAMS, SHARED))))
        self.library_glibc = glibc_of(self.part(SHARED))

    def part(self, name):
        return f"{self.parts}/{name}"

    @property
    def is_proved(self):
        """What a description says of it."""
        return " compiled without its proofs, not a release" if self.version.endswith("-unproved") else " that is proved"

    def when(self, form):
        return time.strftime(form, time.gmtime(self.epoch))


def glibc_of(path):
    """The version of glibc that a file needs."""
    said = subprocess.run(["readelf", "--version-info", "--wide", path], check=True, capture_output=True, text=True).stdout
    return max(tuple(map(int, it.split("."))) for it in re.findall(r"\bGLIBC_(\d+\.\d+)", said))


def dotted(version):
    return ".".join(map(str, version))


def licenses(kit):
    """The licenses of the kit's crates that the programs and the library are built on, each below the name of its crate."""
    rows = [re.match(r"(\w+)[^:#]*:([^#]*)", it) for it in source("crates.txt").decode().split("\n")]
    uses = {it[1]: it[2].split() for it in rows if it}
    found, left = set(), ["wasm_check", "wasm_validate", "ruthvelka_c"]
    while left:
        it = left.pop()
        if it not in found:
            found.add(it)
            left += uses[it] if it in uses else used_in_kit(f"{kit}/rattle", it)
    entries = []
    for crate in sorted(found - set(uses)):
        folder = f"{kit}/rattle/{crate}"
        entries += [Entry(f"{crate}/{it}", read(f"{folder}/{it}")) for it in sorted(os.listdir(folder)) if it.startswith("LICENSE")]
    return entries


def used_in_kit(crates, name):
    """The crates of the kit that the sources of one name."""
    text = ""
    for at, _, files in os.walk(f"{crates}/{name}/src"):
        text += "\n".join(read(f"{at}/{it}").decode() for it in files if it.endswith(".rt"))
    return [it for it in sorted(set(re.findall(r"\buse (\w+)::", text))) if it != name and os.path.isdir(f"{crates}/{it}/src")]


# ------------------------------------------------------------------------------------------------- archives
def tar_gz(entries, epoch, top):
    """A compressed archive of these entries, and of the folders that they are in."""
    whole = {f"{top}{it.path}": it for it in entries}
    for path in list(whole):
        parts = path.split("/")[:-1]
        for count in range(1, len(parts) + 1):
            whole.setdefault("/".join(parts[:count]), None)
    out = io.BytesIO()
    with tarfile.open(fileobj=out, mode="w", format=tarfile.USTAR_FORMAT) as tar:
        for path, entry in sorted(whole.items()):
            it = tarfile.TarInfo(path)
            it.mtime, it.uname, it.gname = epoch, "root", "root"
            it.type = tarfile.DIRTYPE if entry is None else tarfile.SYMTYPE if entry.link else tarfile.REGTYPE
            it.mode = 0o755 if entry is None else 0o777 if entry.link else entry.mode
            if entry is not None:
                it.size, it.linkname = len(entry.data), entry.link
            tar.addfile(it, io.BytesIO(entry.data if entry else b""))
    return gz(out.getvalue())


def gz(data):
    """Compressed, without a name and a time."""
    out = io.BytesIO()
    with gzip.GzipFile(fileobj=out, mode="wb", compresslevel=9, mtime=0, filename="") as it:
        it.write(data)
    return out.getvalue()


def zipped(entries, epoch):
    """A zip file of these entries, as a wheel is, in their order."""
    out = io.BytesIO()
    with zipfile.ZipFile(out, "w") as it:
        for entry in entries:
            info = zipfile.ZipInfo(entry.path, time.gmtime(max(epoch, 315532800))[:6])
            info.compress_type, info.create_system, info.external_attr = zipfile.ZIP_DEFLATED, 3, (0o100000 | entry.mode) << 16
            it.writestr(info, entry.data)
    return out.getvalue()


def ar(members, epoch):
    """An archive of the kind that a Debian package is."""
    out = b"!<arch>\n"
    for name, data in members:
        out += f"{name:<16}{epoch:<12}{0:<6}{0:<6}{'100644':<8}{len(data):<10}`\n".encode() + data + b"\n" * (len(data) % 2)
    return out


# ------------------------------------------------------------------------------------------------- the archive of the release
def pkg_config(release, library, include):
    rows = [
        "prefix=${pcfiledir}/" + os.path.relpath("/", f"/{library}/pkgconfig"), f"libdir=${{prefix}}/{library}", f"includedir=${{prefix}}/{include}", "",
        "Name: ruthvelka", "Description: Validation of WebAssembly modules", f"Version: {release.version}", "Cflags: -I${includedir}",
        "Libs: -L${libdir} -lruthvelka", "",
    ]
    return "\n".join(rows).encode()


def library_files(release, library):
    return [
        Entry(f"{library}/libruthvelka.a", read(release.part("libruthvelka.a"))),
        Entry(f"{library}/{SHARED}", read(release.part(SHARED)), 0o755 if library == "lib" else 0o644),
        Entry(f"{library}/libruthvelka.so", link=SHARED),
        Entry(f"{library}/pkgconfig/ruthvelka.pc", pkg_config(release, library, "include")),
        Entry("include/ruthvelka.h", source("include/ruthvelka.h")),
    ]


def programs(release):
    return [Entry(f"bin/{it}", read(release.part(it)), 0o755) for it in PROGRAMS]


def pages(release):
    """The pages of the manual, with the version and the day."""
    heads = {it: source(f"packaging/man/{it}.1") for it in PROGRAMS}
    said = f' 1 "{release.when("%Y-%m-%d")}" "Ruthvelka {release.version}" '.encode()
    return {it: text.replace(b' 1 "" "Ruthvelka" ', said, 1) for it, text in heads.items()}


def readme(release):
    return filled(
        source("packaging/release/README.md"), IS_PROVED=release.is_proved, VERSION=release.version, GLIBC=dotted(release.glibc), LIBRARY_GLIBC=dotted(release.library_glibc))


def documents(release):
    """What goes into the folder of documents."""
    return [
        Entry("README.md", readme(release)), Entry("PROOF", release.proof), Entry("CHANGELOG.md", source("CHANGELOG.md")),
        Entry("SECURITY.md", source("SECURITY.md")),
        Entry("wasm-check.schema.json", source("docs/wasm-check.schema.json")), Entry("LICENSE", source("LICENSE")),
        *(Entry(f"examples/{it}/{file}", source(f"examples/{it}/{file}")) for it in ("c", "cpp") for file in sorted(os.listdir(f"{TOP}/examples/{it}"))),
        *(Entry(f"licenses/{it.path}", it.data) for it in release.licenses),
    ]


def completions(zsh):
    return [
        Entry("share/bash-completion/completions/wasm-check", source("packaging/completions/wasm-check.bash")),
        Entry(f"share/zsh/{zsh}/_wasm-check", source("packaging/completions/_wasm-check")),
        Entry("share/fish/vendor_completions.d/wasm-check.fish", source("packaging/completions/wasm-check.fish")),
    ]


def release_archive(release):
    name = f"ruthvelka-{release.version}-x86_64-linux"
    entries = [
        *programs(release), *library_files(release, "lib"), *completions("site-functions"),
        *(Entry(f"share/man/man1/{it}.1", text) for it, text in pages(release).items()),
        *(Entry(f"share/doc/ruthvelka/{it.path}", it.data) for it in documents(release)),
        *(it for it in documents(release) if it.path in ("README.md", "PROOF", "LICENSE")),
        Entry("install.sh", source("packaging/release/install.sh"), 0o755),
    ]
    return f"{name}.tar.gz", tar_gz(entries, release.epoch, f"{name}/")


# ------------------------------------------------------------------------------------------------- the Debian package
def debian_changelog(release):
    maintainer = re.search(r"(?m)^Maintainer: (.*)$", source("packaging/debian/control").decode())[1]
    text = f"ruthvelka ({release.of_debian}) unstable; urgency=medium\n\n  * CHANGELOG.md has what changed.\n\n"
    return gz(f"{text} -- {maintainer}  {release.when('%a, %d %b %Y %H:%M:%S +0000')}\n".encode())


def copyright_file():
    # Debian has the Apache license itself
    text = re.search(r"(?s)-+ LLVM Exceptions.*", source("LICENSE").decode())[0]
    rows = "".join(f" {row.rstrip() or '.'}\n" for row in text.split("\n"))
    return filled(source("packaging/debian/copyright"), LICENSE=rows.rstrip("\n"))


def debian_files(release):
    doc = "share/doc/ruthvelka"
    entries = [
        *programs(release), *library_files(release, "lib/x86_64-linux-gnu"), *completions("vendor-completions"),
        *(Entry(f"share/man/man1/{it}.1.gz", gz(text)) for it, text in pages(release).items()),
        *(Entry(f"{doc}/{it.path}", it.data) for it in documents(release) if it.path != "LICENSE"),
        Entry(f"{doc}/copyright", copyright_file()), Entry(f"{doc}/changelog.gz", debian_changelog(release)),
    ]
    return [it._replace(path=f"usr/{it.path}") for it in entries]


def debian_package(release):
    entries = debian_files(release)
    size = str(sum(len(it.data) + 1023 for it in entries) // 1024)
    control = [
        Entry("control", filled(source("packaging/debian/control"), IS_PROVED=release.is_proved, VERSION=release.of_debian, SIZE=size, GLIBC=dotted(release.glibc))),
        Entry("md5sums", "".join(f"{hashlib.md5(it.data).hexdigest()}  {it.path}\n" for it in sorted(entries) if not it.link).encode()),
        Entry("shlibs", b"libruthvelka 0 ruthvelka\n"),
        Entry("triggers", b"activate-noawait ldconfig\n"),
    ]
    members = [("debian-binary", b"2.0\n")]
    members += [(f"{name}.tar.gz", tar_gz(its, release.epoch, "./")) for name, its in (("control", control), ("data", entries))]
    return f"ruthvelka_{release.of_debian}_amd64.deb", ar(members, release.epoch)


# ------------------------------------------------------------------------------------------------- packages of languages
def sources_of(folder):
    """The files below a folder of packages, which git knows."""
    words = ["git", "-C", f"{TOP}/packaging/{folder}", "ls-files", "-z", "--cached", "--others", "--exclude-standard"]
    names = subprocess.run(words, check=True, capture_output=True, text=True).stdout.split("\0")
    return [Entry(it, source(f"packaging/{folder}/{it}")) for it in sorted(filter(None, names))]


def wheel(release):
    tag = f"py3-none-manylinux_{'_'.join(map(str, max(release.library_glibc, OLDEST_WHEEL)))}_x86_64"
    info = f"ruthvelka-{release.of_python}.dist-info"
    metadata = textwrap.dedent(f"""\
        Metadata-Version: 2.1
        Name: ruthvelka
        Version: {release.of_python}
        Summary: Validation of WebAssembly modules, by a validator{release.is_proved}
        License: Apache-2.0 WITH LLVM-exception
        Classifier: Typing :: Typed
        Requires-Python: >=3.9
        Description-Content-Type: text/markdown

        """).encode() + source("packaging/python/README.md")
    entries = [it._replace(path=it.path[4:]) for it in sources_of("python") if it.path.startswith("src/")]
    table = "ruthvelka/_features.py"
    versioned = [re.sub(rb'(?m)^VERSION = ".*"$', f'VERSION = "{release.of_python}"'.encode(), it.data) for it in entries]
    entries = [it._replace(data=data) if it.path == table else it for it, data in zip(entries, versioned)]
    entries += [
        Entry(f"ruthvelka/{SHARED}", read(release.part(SHARED)), 0o755), Entry(f"{info}/METADATA", metadata),
        Entry(f"{info}/WHEEL", f"Wheel-Version: 1.0\nGenerator: bin/release\nRoot-Is-Purelib: false\nTag: {tag}\n".encode()),
        Entry(f"{info}/PROOF", release.proof), Entry(f"{info}/licenses/LICENSE", source("LICENSE")),
        *(Entry(f"{info}/licenses/{it.path}", it.data) for it in release.licenses),
    ]
    entries.sort()
    rows = [f"{it.path},sha256={base64.urlsafe_b64encode(hashlib.sha256(it.data).digest()).rstrip(b'=').decode()},{len(it.data)}\n" for it in entries]
    record = Entry(f"{info}/RECORD", "".join([*rows, f"{info}/RECORD,,\n"]).encode())
    return f"ruthvelka-{release.of_python}-{tag}.whl", zipped([*entries, record], release.epoch)


def with_documents(release, folder):
    """The documents that go with a package of a language, below its folder."""
    return [Entry(f"{folder}{it.path}", it.data) for it in documents(release) if it.path in ("PROOF", "LICENSE") or it.path.startswith("licenses/")]


def rust_crates(release):
    entries = []
    for it in sources_of("rust"):
        if it.path.endswith("/Cargo.toml"):
            it = it._replace(data=re.sub(rb'(?m)(^version = "|version = "=)[^"]*', rf"\g<1>{release.version}".encode(), it.data))
        entries.append(it)
    entries.append(Entry("ruthvelka-sys/lib/libruthvelka.a", read(release.part("libruthvelka.a"))))
    for crate in ("ruthvelka", "ruthvelka-sys"):
        entries += with_documents(release, f"{crate}/")
    return f"ruthvelka-rust-{release.version}-x86_64-linux.tar.gz", tar_gz(entries, release.epoch, "ruthvelka-rust/")


def go_sum(library):
    """A source that changes with the library, which itself isn't among the files by whose change Go knows that it has to build anew. What isn't exported
    leaves no trace in what is compiled, and so nothing would be linked anew."""
    sum_ = hashlib.sha256(library).hexdigest()
    return (
        "// Code generated by bin/release. DO NOT EDIT.\n\n//go:build cgo && linux && amd64\n\npackage ruthvelka\n\n"
        f'// LibrarySum is the SHA-256 of libruthvelka.a, in hexadecimal digits.\nconst LibrarySum = "{sum_}"\n'
    ).encode()


def go_module(release):
    entries = [it if it.path != "README.md" else it._replace(data=filled(it.data, VERSION=release.version)) for it in sources_of("go")]
    # in the folder of the package, which `go mod vendor` takes whole
    library = read(release.part("libruthvelka.a"))
    entries += [
        Entry("libruthvelka.a", library), Entry("ruthvelka.h", source("include/ruthvelka.h")), Entry("sum.go", go_sum(library)),
        *with_documents(release, ""),
    ]
    return f"ruthvelka-go-{release.version}-x86_64-linux.tar.gz", tar_gz(entries, release.epoch, "ruthvelka-go/")


def write(folder, name, data):
    with open(f"{folder}/{name}", "wb") as it:
        it.write(data)
    return f"{hashlib.sha256(data).hexdigest()}  {name}\n"


def main(words):
    if len(words) != 4:
        print(__doc__, file=sys.stderr)
        return 2
    parts, kit, epoch, folder = words
    release = Release(parts, kit, int(epoch))
    os.makedirs(folder, exist_ok=True)
    files = [it(release) for it in (release_archive, debian_package, wheel, rust_crates, go_module)]
    sums = "".join(write(folder, name, data) for name, data in sorted(files))
    write(folder, "SHA256SUMS", sums.encode())
    return 0


if __name__ == "__main__":
    sys.exit(main(sys.argv[1:]))
