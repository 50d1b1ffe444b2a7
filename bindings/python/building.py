"""Makes a wheel of the module and the shared library, by the standard library alone: what pip calls
a build backend (PEP 517). The library is that of ../lib, or of the folder that TACFLOW_LIB
names."""

from __future__ import annotations

import base64
import hashlib
import os
import re
import zipfile
from pathlib import Path

HERE = Path(__file__).resolve().parent
MODULE = HERE / "tacflow"
FILE = "libtacflow.so"
TAG = "py3-none-linux_x86_64"


class UnsupportedOperation(Exception):
    """What is asked for is not made."""


def version() -> str:
    """The version, as the module tells it."""
    found = re.search(r'^VERSION = "(.*)"$', (MODULE / "_library.py").read_text(), re.M)
    assert found, "the module tells no version"
    return found[1]


def library() -> bytes:
    """The shared library, with the calls that the module makes."""
    place = Path(os.environ.get("TACFLOW_LIB") or HERE.parent / "lib") / FILE
    if not place.exists():
        raise SystemExit(f"{place} is not there: run bindings/build first.")
    return place.read_bytes()


def metadata() -> str:
    """What the wheel tells of itself, as pyproject.toml has it."""
    told = (HERE / "pyproject.toml").read_text()
    found = dict(re.findall(r'^(name|description|requires-python) = "(.*)"$', told, re.M))
    return (
        f"Metadata-Version: 2.1\nName: {found['name']}\nVersion: {version()}\n"
        f"Summary: {found['description']}\nRequires-Python: {found['requires-python']}\n"
        'Provides-Extra: arrays\nRequires-Dist: numpy; extra == "arrays"\n'
    )


def contents() -> dict[str, bytes]:
    """The files of the wheel, but for the list of them."""
    files = {f"tacflow/{it.name}": it.read_bytes() for it in sorted(MODULE.glob("*.py"))}
    files["tacflow/py.typed"] = b""
    files[f"tacflow/{FILE}"] = library()
    tags = f"Wheel-Version: 1.0\nGenerator: tacflow\nRoot-Is-Purelib: false\nTag: {TAG}\n"
    own = f"tacflow-{version()}.dist-info"
    files[f"{own}/METADATA"] = metadata().encode()
    files[f"{own}/WHEEL"] = tags.encode()
    return files


def record(files: dict[str, bytes], own: str) -> bytes:
    """The list of the wheel's files, each with its sum and size."""
    lines = []
    for name, held in files.items():
        digest = base64.urlsafe_b64encode(hashlib.sha256(held).digest()).rstrip(b"=").decode()
        lines.append(f"{name},sha256={digest},{len(held)}\n")
    return "".join([*lines, f"{own},,\n"]).encode()


def build_wheel(
    wheel_directory: str,
    config_settings: dict[str, object] | None = None,
    metadata_directory: str | None = None,
) -> str:
    """Writes the wheel into a folder, and tells its name."""
    name = f"tacflow-{version()}-{TAG}.whl"
    own = f"tacflow-{version()}.dist-info/RECORD"
    files = contents()
    files[own] = record(files, own)
    with zipfile.ZipFile(os.path.join(wheel_directory, name), "w", zipfile.ZIP_DEFLATED) as wheel:
        for path, held in files.items():
            # one time for all, so that the same files make the same wheel
            wheel.writestr(zipfile.ZipInfo(path), held, zipfile.ZIP_DEFLATED)
    return name


def build_sdist(sdist_directory: str, config_settings: dict[str, object] | None = None) -> str:
    """None is made: the library is not built of Python's sources."""
    raise UnsupportedOperation("no source distribution is made; take the repository")
