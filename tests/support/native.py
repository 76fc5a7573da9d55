"""The library for C: the archive that the toolchain builds of the crate `tinyjson_c`, the static and the shared library of it,
and where they are installed."""

import contextlib
import fcntl
import pathlib
import shlex
import shutil
import subprocess
import sys

from listed import dependencies
from places import TOP

TOP = pathlib.Path(TOP)
BINDINGS = TOP / "bindings"
OUT = BINDINGS / "out"
CRATE = TOP / "crates" / "tinyjson_c"
ARCHIVE = CRATE / "out" / "libtinyjson_c.a"
# The module of LLVM that the archive is compiled from.
MODULE = CRATE / "out" / "tinyjson_c.bc"
HEADER = BINDINGS / "c" / "tinyjson.h"
WARNINGS = ["-std=gnu11", "-Wall", "-Wextra", "-Werror"]

# The first number of the name of the shared library: it rises where a function goes or changes.
SONAME = "libtinyjson.so.0"

# A compiler that keeps the module that it is given, and is the toolchain's otherwise.
KEEPER = """#!/bin/sh
for word in "$@"; do
    case $word in *.bc) /bin/cp -f "$word" {module} ;; esac
done
exec {clang} "$@"
"""


def version():
    """The version of the repository."""
    return (TOP / "VERSION").read_text().strip()


def run(words, **how):
    """Runs a command, and answers its status and what it prints."""
    ran = subprocess.run([str(it) for it in words], stdout=subprocess.PIPE, stderr=subprocess.STDOUT, text=True, errors="replace",
                         check=False, **how)
    return ran.returncode, ran.stdout


def need(words, **how):
    status, printed = run(words, **how)
    if status:
        print(printed[-3000:])
        sys.exit(f"this failed: {shlex.join(str(it) for it in words)}\n0 passed, 1 failed")
    return printed


def kit():
    """The folder of the toolchain."""
    return pathlib.Path(need(["rt", "doc"]).split()[0]).parent


@contextlib.contextmanager
def alone():
    """No other test or tool builds the library meanwhile."""
    OUT.mkdir(exist_ok=True)
    with open(OUT / "lock", "w", encoding="utf-8") as lock:
        fcntl.flock(lock, fcntl.LOCK_EX)
        yield


def is_newer(made, *sources):
    """Whether all of some files are there, and were made after what they are made of."""
    return all(it.is_file() for it in made) and min(it.stat().st_mtime for it in made) > max(it.stat().st_mtime for it in sources)


# ---- the archive


def below(name, lines):
    """The libraries below a crate, the lowest first."""
    found = []
    for one in lines[name]:
        found += [it for it in [*below(one, lines), one] if it not in found]
    return found


def newest(name):
    """When the last of a crate's files was written."""
    folders = [TOP / "crates" / name / part for part in ("src", "specs", "proofs")]
    return max(path.stat().st_mtime for folder in folders for path in [folder, *folder.rglob("*")] if path.exists())


def rlib(name):
    return TOP / "crates" / name / "out" / "rlib" / f"{name}.rlib"


def is_built(name):
    """Whether the library was put there after its sources were written."""
    return (rlib(name) / "format").is_file() and rlib(name).stat().st_mtime >= newest(name)


def keeping(tools):
    """A folder of links to the toolchain's files, in which the compiler keeps the module."""
    folder = CRATE / "out" / "toolchain"
    shutil.rmtree(folder, ignore_errors=True)
    (folder / "bin").mkdir(parents=True)
    (folder / "lib").symlink_to(tools / "lib")
    for path in (tools / "bin").iterdir():
        (folder / "bin" / path.name).symlink_to(path)
    compiler = folder / "bin/clang"
    compiler.unlink()
    compiler.write_text(KEEPER.format(module=shlex.quote(str(MODULE)), clang=shlex.quote(str(tools / "bin/clang"))))
    compiler.chmod(0o755)
    return folder


def build_archive():
    """Proves `tinyjson_c` and has the archive built, if it is older than what it is made of."""
    lines = dependencies((TOP / "crates.txt").read_text())
    lines = {name: [it for it in needed if it in lines] for name, needed in lines.items()}
    libraries = below("tinyjson_c", lines)
    is_kept = ARCHIVE.is_file() and MODULE.is_file()
    if is_kept and all(min(it.stat().st_mtime for it in (ARCHIVE, MODULE)) > newest(it) for it in [*libraries, "tinyjson_c"]):
        return
    ARCHIVE.parent.mkdir(exist_ok=True)
    for name in libraries:
        if not is_built(name):
            need(["rt", "lib"], cwd=TOP / "crates" / name)
    folder = kit()
    words = [folder / "bin" / "rattle", "build", "--crate-name", "tinyjson_c", "src/lib.rt", "--crate-type", "staticlib"]
    words += ["--extern", f"std={folder}/rlibs/std.rlib", "-L", f"dependency={folder}/rlibs"]
    words += [word for it in lines["tinyjson_c"] for word in ("--extern", f"{it}={rlib(it)}")]
    words += [word for it in libraries for word in ("-L", f"dependency={rlib(it).parent}")]
    words += ["--antt-project", folder / "rattle/logic/antt-project.json", "--logic-built", folder / "logic_built", "--jobs", "1"]
    need([*words, "--toolchain", keeping(folder / "toolchain"), "--backend", "llvm", "-o", ARCHIVE], cwd=CRATE)


def build_libraries():
    """The static library, with the allocator, and the shared one."""
    static, shared, heap, script = OUT / "libtinyjson.a", OUT / "libtinyjson.so", OUT / "heap.o", BINDINGS / "c/exports.map"
    if is_newer([static, shared], ARCHIVE, BINDINGS / "c/heap.c", script):
        return
    need(["cc", *WARNINGS, "-O2", "-fPIC", "-c", BINDINGS / "c/heap.c", "-o", heap])
    shutil.copyfile(ARCHIVE, static)
    need(["ar", "rD", static, heap])
    whole = ["-Wl,--whole-archive", ARCHIVE, "-Wl,--no-whole-archive", heap]
    need(["cc", "-shared", "-Wl,-z,defs", f"-Wl,-soname,{SONAME}", f"-Wl,--version-script={script}", "-o", shared, *whole])


def build():
    """Builds both libraries, over the archive."""
    with alone():
        build_archive()
        build_libraries()


# ---- where they are installed


def filled(template, prefix):
    """A file that names where the library is and its version."""
    text = (BINDINGS / "c" / template).read_text()
    return text.replace("@PREFIX@", str(prefix)).replace("@VERSION@", version()).replace("@SONAME@", SONAME)


def install(prefix):
    """Puts the header, the libraries, the manual page and the files for pkg-config and CMake below a folder."""
    files = {"include/tinyjson.h": HEADER.read_bytes(), "lib/libtinyjson.a": (OUT / "libtinyjson.a").read_bytes()}
    files[f"lib/libtinyjson.so.{version()}"] = (OUT / "libtinyjson.so").read_bytes()
    files["lib/pkgconfig/tinyjson.pc"] = filled("tinyjson.pc.in", prefix).encode()
    for name in ("tinyjson-config.cmake", "tinyjson-config-version.cmake"):
        files[f"lib/cmake/tinyjson/{name}"] = filled(f"{name}.in", prefix).encode()
    files["share/man/man3/tinyjson.3"] = filled("tinyjson.3.in", prefix).encode()
    for name, content in files.items():
        path = prefix / name
        path.parent.mkdir(parents=True, exist_ok=True)
        beside = path.with_name(f".{path.name}.new")
        beside.write_bytes(content)
        beside.chmod(0o755 if ".so" in path.name else 0o644)
        beside.replace(path)
    for link, target in ((SONAME, f"libtinyjson.so.{version()}"), ("libtinyjson.so", SONAME)):
        (prefix / "lib" / link).unlink(missing_ok=True)
        (prefix / "lib" / link).symlink_to(target)
    return [*files, f"lib/{SONAME}", "lib/libtinyjson.so"]
