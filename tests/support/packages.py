"""What is given out: a package for each way to install, made by tools/package.

The same sources give the same bytes: files come in the order of their names, with the date of the last commit, and belong to
no one in particular.
"""

import gzip
import hashlib
import io
import json
import os
import pathlib
import re
import shutil
import sys
import tarfile
import tempfile
import textwrap

import native
import play
import wasm
from native import BINDINGS, OUT, TOP, need

RUST = BINDINGS / "rust"
PYTHON = BINDINGS / "python"
TARGET = "x86_64-unknown-linux-gnu"
DIST = TOP / "dist"

DESCRIPTION = "JSON texts with exact numbers, by proved code"
LONG_DESCRIPTION = """Programs that check a JSON text, also by a JSON Schema, normalize, indent, compare and patch it, and print what a
JSON pointer names or a JSONPath query selects. What they print for a text is proved."""

COPYRIGHT = """Format: https://www.debian.org/doc/packaging-manuals/copyright-format/1.0/
Upstream-Name: tinyjson

Files: *
Copyright: 2026 The Tovangup maintainers
           2016 rhysd
License: Expat
"""

# What each package is for, and what of others its files have inside.
LICENCES = "MIT (LICENSE). The compiled code has parts of the toolchain's standard library inside."


def said_by_git(pattern):
    return need(["git", "log", "-1", f"--format={pattern}"], cwd=TOP).strip()


def moment():
    """The date of each file: SOURCE_DATE_EPOCH, or that of the last commit."""
    return int(os.environ.get("SOURCE_DATE_EPOCH") or said_by_git("%ct"))


# ---- archives


def entry(path, content, mode):
    it = tarfile.TarInfo(path)
    it.size, it.mode, it.mtime, it.uname, it.gname = len(content), mode, moment(), "root", "root"
    return it


def archive(files, folders=False):
    """The bytes of a compressed tar archive of these files: a name, the content and the mode of each."""
    packed = io.BytesIO()
    with tarfile.open(fileobj=packed, mode="w", format=tarfile.GNU_FORMAT) as out:
        above = sorted({str(it) for name in files for it in pathlib.PurePosixPath(name).parents if str(it) != "."}) if folders else []
        for name in above:
            it = entry(f"./{name}", b"", 0o755)
            it.type = tarfile.DIRTYPE
            out.addfile(it)
        for name, (content, mode) in sorted(files.items()):
            out.addfile(entry(f"./{name}" if folders else name, content, mode), io.BytesIO(content))
    return gzip.compress(packed.getvalue(), 9, mtime=0)


def ar(members):
    """The bytes of an archive of `ar`."""
    out = b"!<arch>\n"
    for name, content in members:
        out += f"{name:<16}{moment():<12}{0:<6}{0:<6}{100644:<8}{len(content):<10}`\n".encode() + content + b"\n" * (len(content) % 2)
    return out


def below(folder):
    """The files below a folder: the content and the mode of each."""
    paths = sorted(it for it in folder.rglob("*") if it.is_file() and not it.is_symlink())
    return {str(it.relative_to(folder)): (it.read_bytes(), it.stat().st_mode & 0o755 | 0o644) for it in paths}


def at(front, files):
    return {f"{front}/{name}": it for name, it in files.items()}


def glibc(contents):
    """The least version of the C library that these files need."""
    return max((int(it) for content in contents for it in re.findall(rb"\0GLIBC_2\.(\d+)", content)), default=17)


# ---- the programs


def programs(is_unproved):
    """What tools/install puts below a folder, with programs that have no tables of names for a debugger."""
    with tempfile.TemporaryDirectory() as folder:
        need([TOP / "tools/install", *["--unproved"] * is_unproved, folder])
        if shutil.which("strip"):
            need(["strip", *[it for it in pathlib.Path(folder, "bin").iterdir() if it.read_bytes()[:4] == b"\x7fELF"]])
        files = below(pathlib.Path(folder))
    del files["share/tinyjson/installed"]
    return files


def is_program(content):
    return content[:4] == b"\x7fELF"


def tar_of_programs(files):
    front = f"tinyjson-{native.version()}-x86_64-linux"
    words = (f"The programs need an x86-64 processor with SSE 4.2 and the C library glibc 2.{glibc(it for it, _ in files.values())} "
             "or later, and no other library.\nTo install them, copy bin and share below ~/.local or /usr/local.\n")
    more = {"LICENSE": ((TOP / "LICENSE").read_bytes(), 0o644), "README": (words.encode(), 0o644)}
    return {f"{front}.tar.gz": archive(at(front, files | more))}


def as_debian(name, content, mode):
    """A file as Debian has it: a manual page and a list of changes are compressed, a script has no ending."""
    if name.startswith("share/man/"):
        return f"usr/{name}.gz", (gzip.compress(content, 9, mtime=0), mode)
    if name.startswith("bin/") and name.endswith((".py", ".sbatch")):
        return f"usr/share/doc/tinyjson/examples/{name.removeprefix('bin/')}", (content, 0o644)
    return f"usr/{name}", (content, mode)


def debian(files):
    """The package for Debian, of the programs."""
    files = dict(as_debian(name, *it) for name, it in files.items())
    licence = "".join(f" {line}\n" if line.strip() else " .\n" for line in (TOP / "LICENSE").read_text().splitlines())
    changes = f"tinyjson ({native.version()}) unstable; urgency=medium\n\n  * The changes are in CHANGELOG.md of the sources.\n\n"
    changes += f" -- {said_by_git('%an <%ae>')}  {said_by_git('%cD')}\n"
    documents = {"copyright": (COPYRIGHT + licence).encode(), "changelog.gz": gzip.compress(changes.encode(), 9, mtime=0)}
    files |= {f"usr/share/doc/tinyjson/{name}": (content, 0o644) for name, content in documents.items()}
    control = {
        "Package": "tinyjson",
        "Version": native.version(),
        "Architecture": "amd64",
        "Maintainer": said_by_git("%an <%ae>"),
        "Installed-Size": sum(len(it) for it, _ in files.values()) // 1024 + 1,
        "Depends": f"libc6 (>= 2.{glibc(it for it, _ in files.values())})",
        "Section": "text",
        "Priority": "optional",
        "Description": DESCRIPTION + "\n" + textwrap.indent(textwrap.fill(LONG_DESCRIPTION, 76), " "),
    }
    words = "".join(f"{key}: {value}\n" for key, value in control.items())
    sums = "".join(f"{hashlib.md5(content).hexdigest()}  {name}\n" for name, (content, _) in sorted(files.items()))
    parts = archive({"control": (words.encode(), 0o644), "md5sums": (sums.encode(), 0o644)}, folders=True)
    made = ar([("debian-binary", b"2.0\n"), ("control.tar.gz", parts), ("data.tar.gz", archive(files, folders=True))])
    return {f"tinyjson_{native.version()}_amd64.deb": made}


# ---- the libraries


def wheel():
    """The package for Python, by the backend that pip calls."""
    words = "import backend, sys; print(backend.build_wheel(sys.argv[1]))"
    env = {**os.environ, "SOURCE_DATE_EPOCH": str(moment()), "TINYJSON_LIBRARY": str(OUT / "libtinyjson.so")}
    env["PYTHONDONTWRITEBYTECODE"] = "1"
    with tempfile.TemporaryDirectory() as folder:
        name = need([sys.executable, "-c", words, folder], cwd=PYTHON, env=env).split()[-1]
        return {name: pathlib.Path(folder, name).read_bytes()}


def crate():
    """The package for cargo, with the library inside."""
    front = f"tinyjson-proved-{native.version()}"
    files = {name: ((RUST / name).read_bytes(), 0o644) for name in ("Cargo.toml", "README.md", "build.rs")}
    files |= {f"src/{name}": it for name, it in below(RUST / "src").items()}
    files["LICENSE"] = (TOP / "LICENSE").read_bytes(), 0o644
    files[f"lib/{TARGET}/libtinyjson.a"] = (OUT / "libtinyjson.a").read_bytes(), 0o644
    return {f"{front}.crate": archive(at(front, files))}


def npm():
    """The package for npm."""
    names = ["package.json", *json.loads((wasm.PACKAGE / "package.json").read_text())["files"]]
    files = {f"package/{name}": ((wasm.PACKAGE / name).read_bytes(), 0o644) for name in names}
    return {f"tinyjson-proved-{native.version()}.tgz": archive(files)}


def c_library():
    """The library for C, as tools/bindings installs it below a folder."""
    front = f"libtinyjson-{native.version()}-x86_64-linux"
    with tempfile.TemporaryDirectory() as folder:
        native.install(pathlib.Path(folder))
        files = below(pathlib.Path(folder))
    # (the file for pkg-config finds the folder by its own)
    pc = files["lib/pkgconfig/tinyjson.pc"][0].replace(folder.encode(), b"${pcfiledir}/../..")
    files["lib/pkgconfig/tinyjson.pc"] = pc, 0o644
    link = "The shared library is lib/libtinyjson.so.VERSION: link libtinyjson.so.0 and libtinyjson.so to it.\n"
    more = {"LICENSE": ((TOP / "LICENSE").read_bytes(), 0o644), "README": (link.replace("VERSION", native.version()).encode(), 0o644)}
    return {f"{front}.tar.gz": archive(at(front, files | more))}


def page():
    return {f"tinyjson-{native.version()}.html": play.page(wasm.WASM.read_bytes()).encode()}


# ---- all


def listed(name, content):
    """The files in a package, as text."""
    if name.endswith(".deb"):
        start = content.index(b"data.tar.gz")
        content = content[start + 60:]
    if name.endswith(".whl"):
        import zipfile

        return sorted(zipfile.ZipFile(io.BytesIO(content)).namelist())
    if name.endswith(".html"):
        return []
    with tarfile.open(fileobj=io.BytesIO(content), mode="r:gz") as it:
        return sorted(one.name.removeprefix("./") for one in it.getmembers() if one.isfile())


def contents(packages):
    """The list of what is in each package, with its licence."""
    lines = [f"tinyjson {native.version()}: what is in each package", ""]
    for name, content in packages.items():
        lines += [name, f"  licence: {LICENCES}", *(f"  {path}" for path in listed(name, content)), ""]
    return "\n".join(lines).encode()


def make(is_unproved=False, only=()):
    """The packages: the bytes of each file by its name. `only` names some of them, by the functions."""
    wanted = only or ("programs", "c_library", "wheel", "crate", "npm", "page")
    if {"c_library", "wheel", "crate"} & {*wanted}:
        native.build()
    if {"npm", "page"} & {*wanted}:
        wasm.build()
    packages = {}
    if "programs" in wanted:
        files = programs(is_unproved)
        packages |= debian(files) | tar_of_programs(files)
    for part in (c_library, wheel, crate, npm, page):
        if part.__name__ in wanted:
            packages |= part()
    packages["CONTENTS"] = contents(packages)
    sums = "".join(f"{hashlib.sha256(content).hexdigest()}  {name}\n" for name, content in sorted(packages.items()))
    return packages | {"SHA256SUMS": sums.encode()}


def write(packages, folder):
    """Puts the packages into a folder, in the place of those that were there."""
    folder.mkdir(parents=True, exist_ok=True)
    for old in folder.iterdir():
        if old.is_file():
            old.unlink()
    for name, content in packages.items():
        (folder / name).write_bytes(content)
