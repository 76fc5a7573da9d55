"""Builds the wheel, for `pip`: the package with the shared library inside, for the machine that the library is for.

The library is tinyjson/libtinyjson.so, the one that TINYJSON_LIBRARY names, or ../out/libtinyjson.so, which tools/bindings
builds. Without one there is no wheel. The same files give the same wheel: its dates are SOURCE_DATE_EPOCH, or 1980.
"""

import base64
import hashlib
import io
import os
import pathlib
import re
import tarfile
import time
import zipfile

HERE = pathlib.Path(__file__).resolve().parent
NAME = "tinyjson_proved"
MACHINES = {62: "x86_64", 183: "aarch64"}

# The least C library of a tag: what is older has none of the present tags.
LEAST = 17


def project(key):
    """A line of pyproject.toml."""
    return re.search(rf'^{key} = "(.*)"$', (HERE / "pyproject.toml").read_text(), re.M)[1]


def library():
    """The shared library, as the module looks for it."""
    named = os.environ.get("TINYJSON_LIBRARY")
    places = [pathlib.Path(named)] if named else [HERE / "tinyjson/libtinyjson.so", HERE.parent / "out/libtinyjson.so"]
    for path in places:
        if path.is_file():
            return path
    raise SystemExit("no libtinyjson.so for the wheel: run tools/bindings first, or set TINYJSON_LIBRARY to the library's path")


def tag(data):
    """The tag of the machines that a library is for: its processor, and the C library that it needs."""
    machine = MACHINES.get(int.from_bytes(data[18:20], "little")) if data[:6] == b"\x7fELF\x02\x01" else None
    if machine is None:
        raise SystemExit("libtinyjson.so is no library of 64 bits for Linux on x86-64 or aarch64")
    needed = [int(it) for it in re.findall(rb"\0GLIBC_2\.(\d+)", data)]
    return f"py3-none-manylinux_2_{max([LEAST, *needed])}_{machine}"


def metadata():
    text = f"Metadata-Version: 2.1\nName: {project('name')}\nVersion: {project('version')}\nSummary: {project('description')}\n"
    text += f"License: MIT\nRequires-Python: {project('requires-python')}\nDescription-Content-Type: text/markdown\n\n"
    return text + (HERE / "README.md").read_text()


def licence():
    """The licence beside the package, or that of the repository."""
    path = HERE / "LICENSE"
    return (path if path.is_file() else HERE.parents[1] / "LICENSE").read_bytes()


def described(words):
    """The files of the folder .dist-info but RECORD."""
    wheel = f"Wheel-Version: 1.0\nGenerator: tinyjson\nRoot-Is-Purelib: false\nTag: {words}\n"
    return {"METADATA": metadata().encode(), "WHEEL": wheel.encode(), "LICENSE": licence()}


def record(files, name):
    def row(path, data):
        total = base64.urlsafe_b64encode(hashlib.sha256(data).digest()).rstrip(b"=").decode()
        return f"{path},sha256={total},{len(data)}\n"

    return ("".join(row(path, data) for path, data in files.items()) + f"{name},,\n").encode()


def moment():
    """The date of each file, which a zip file can't have before 1980."""
    return max(int(os.environ.get("SOURCE_DATE_EPOCH", "0")), 315532800)


def build_wheel(wheel_directory, config_settings=None, metadata_directory=None):
    data = library().read_bytes()
    words, info = tag(data), f"{NAME}-{project('version')}.dist-info"
    files = {f"tinyjson/{path.name}": path.read_bytes() for path in sorted((HERE / "tinyjson").glob("*.py*")) if path.is_file()}
    files |= {"tinyjson/py.typed": b"", "tinyjson/libtinyjson.so": data}
    files |= {f"{info}/{name}": content for name, content in described(words).items()}
    files[f"{info}/RECORD"] = record(files, f"{info}/RECORD")
    name = f"{NAME}-{project('version')}-{words}.whl"
    with zipfile.ZipFile(pathlib.Path(wheel_directory, name), "w", zipfile.ZIP_DEFLATED) as out:
        for path, content in files.items():
            entry = zipfile.ZipInfo(path, time.gmtime(moment())[:6])
            entry.compress_type, entry.create_system = zipfile.ZIP_DEFLATED, 3
            entry.external_attr = (0o100755 if path.endswith(".so") else 0o100644) << 16
            out.writestr(entry, content)
    return name


def build_sdist(sdist_directory, config_settings=None):
    """The sources, from which a wheel comes only where there is a library for the machine."""
    base = f"{NAME}-{project('version')}"
    files = {name: (HERE / name).read_bytes() for name in ("README.md", "backend.py", "pyproject.toml")}
    files |= {f"tinyjson/{path.name}": path.read_bytes() for path in sorted((HERE / "tinyjson").glob("*.py*")) if path.is_file()}
    files |= {"tinyjson/py.typed": b"", "LICENSE": licence(), "PKG-INFO": metadata().encode()}
    with tarfile.open(pathlib.Path(sdist_directory, f"{base}.tar.gz"), "w:gz", format=tarfile.PAX_FORMAT) as out:
        for path, content in files.items():
            entry = tarfile.TarInfo(f"{base}/{path}")
            entry.size, entry.mtime = len(content), moment()
            out.addfile(entry, io.BytesIO(content))
    return f"{base}.tar.gz"
