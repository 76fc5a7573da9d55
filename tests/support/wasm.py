"""The module of WebAssembly: made of the module of LLVM that the archive of `tinyjson_c` is compiled from.

What it is made of besides is in bindings/js/module: an allocator, the exports, and arithmetic of 128 bits in C, and
`retarget.py`. The toolchain's compiler and linker make it, and no other tool.
"""

import base64
import gzip
import hashlib
import json
import shutil
import sys

from native import BINDINGS, MODULE, OUT, TOP, alone, build_archive, is_newer, kit, need

JS = BINDINGS / "js"
PARTS = JS / "module"
# The package for npm, and what is made on the way.
PACKAGE = OUT / "js"
MADE = OUT / "wasm"
WASM = PACKAGE / "tinyjson.wasm"
# The same with an allocator of which a test can have a call refused.
TESTED = MADE / "tested.wasm"

TARGET = ["--target=wasm32-unknown-unknown", "-mbulk-memory", "-msign-ext", "-mnontrapping-fptoint", "-mmutable-globals", "-msimd128"]
# The compiler's own words for code that is proved: what can't be reached traps, and numbers of 128 bits are divided in place.
OF_LIBRARY = ["-O3", "-ffunction-sections", "-fdata-sections", "-mllvm", "-trap-unreachable", "-mllvm", "-expand-div-rem-bits=64"]
OF_C = ["-O2", "-fwrapv", "-ffreestanding", "-nostdinc", "-Wall", "-Wextra", "-Werror"]
# The module's own stack, in front of all else: where it ends, a call traps.
STACK = 4 << 20

sys.path.insert(0, str(PARTS))

from retarget import Unknown, retargeted


def object_of(tools):
    """The compiled library: anew where the module of LLVM, the way of making it or the toolchain is another."""
    text, made, mark = MADE / "library.ll", MADE / "library.o", MADE / "library.sum"
    total = hashlib.sha256(MODULE.read_bytes() + (PARTS / "retarget.py").read_bytes())
    total.update("\0".join([str(tools), *TARGET, *OF_LIBRARY]).encode())
    if made.is_file() and mark.is_file() and mark.read_text() == total.hexdigest():
        return made
    mark.unlink(missing_ok=True)
    given = MADE / "given.ll"
    need([tools / "bin/clang", "--target=x86_64-unknown-linux-gnu", "-S", "-emit-llvm", "-Xclang", "-disable-llvm-passes",
          "-x", "ir", MODULE, "-o", given])
    try:
        with open(given, encoding="utf-8") as lines, open(text, "w", encoding="utf-8") as out:
            out.writelines(retargeted(lines))
    except Unknown as line:
        sys.exit(f"this line of the module has no known meaning for WebAssembly:\n{line}\n0 passed, 1 failed")
    need([tools / "bin/clang", *TARGET, *OF_LIBRARY, "-Wno-override-module", "-c", "-x", "ir", text, "-o", made])
    given.unlink()
    text.unlink()
    mark.write_text(total.hexdigest())
    return made


def link(tools, objects, out):
    need([tools / "bin/ld.lld", "-flavor", "wasm", "--no-entry", "--stack-first", "-z", f"stack-size={STACK}", "--gc-sections", "-s",
          "-o", out, *objects])


def compiled(tools, name, *words, out=None):
    made = MADE / f"{out or name}.o"
    need([tools / "bin/clang", *TARGET, *OF_C, *words, "-c", PARTS / f"{name}.c", "-o", made])
    return made


# ---- what a module has


def number(data, at):
    """A number of a module, and the place behind it."""
    value = shift = 0
    while True:
        value |= (data[at] & 127) << shift
        shift += 7
        at += 1
        if data[at - 1] < 128:
            return value, at


def sections(data):
    """The numbers of the sections of a module, each with its bytes."""
    found, at = {}, 8
    while at < len(data):
        kind = data[at]
        size, at = number(data, at + 1)
        found[kind] = data[at:at + size]
        at += size
    return found


def exported(data):
    """The names that a module exports."""
    body = sections(data).get(7, b"\0")
    count, at = number(body, 0)
    names = set()
    for _ in range(count):
        size, at = number(body, at)
        names.add(body[at:at + size].decode())
        at = number(body, at + size + 1)[1]
    return names


def imports(data):
    """How many names a module imports."""
    return number(sections(data).get(2, b"\0"), 0)[0]


# ---- the package


def packed(data):
    """A module of JavaScript with these bytes, compressed by gzip and in base64."""
    words = base64.b64encode(gzip.compress(data, 9, mtime=0)).decode()
    return f"// tinyjson.wasm, compressed by gzip, in base64.\nexport default '{words}';\n"


def sources():
    """The files that go into the package as they are, each with its name there."""
    files = {name: JS / name for name in json.loads((JS / "package.json").read_text())["files"]}
    files = {name: path for name, path in files.items() if path.is_file()}
    return files | {"package.json": JS / "package.json", "LICENSE": TOP / "LICENSE"}


def build():
    """Builds the module and the package; answers the size of the module."""
    with alone():
        build_archive()
        files, packed_module = sources(), PACKAGE / "module.js"
        parts = [PARTS / f"{name}.c" for name in ("heap", "exports", "helpers")]
        if not is_newer([WASM, TESTED, packed_module], MODULE, PARTS / "retarget.py", *parts):
            build_module()
            packed_module.write_text(packed(WASM.read_bytes()))
        for name, path in files.items():
            if not is_newer([PACKAGE / name], path):
                shutil.copyfile(path, PACKAGE / name)
    return WASM.stat().st_size


def build_module():
    """Builds the module, and the one for tests."""
    tools = kit() / "toolchain"
    for folder in (MADE, PACKAGE):
        folder.mkdir(parents=True, exist_ok=True)
    library = object_of(tools)
    rest = [library, compiled(tools, "exports"), compiled(tools, "helpers")]
    link(tools, [*rest, compiled(tools, "heap")], WASM)
    link(tools, [*rest, compiled(tools, "heap", "-DTINYJSON_REFUSES", out="refusing")], TESTED)
