"""Builds the wheel, with the shared library inside, by Python's standard library alone.

setuptools would need the package wheel, which a fresh environment has not, and puts the time of the
build into the file. The tag is `py3-none`, since ctypes needs no ABI of an interpreter.

`pyproject.toml` names this module as its backend, so pip calls it; `make dist` calls it too. Dates
are fixed, so the same files give the same bytes.
"""
from __future__ import annotations

import base64
import hashlib
import os
import platform
import re
import zipfile
from pathlib import Path
from typing import Any

try:
    import tomllib
except ModuleNotFoundError:
    try:
        import tomli as tomllib
    except ModuleNotFoundError:
        try:
            from pip._vendor import tomli as tomllib
        except ImportError:
            raise SystemExit("Building takes Python 3.11, or tomli, or a pip with it.") from None

HERE = Path(__file__).resolve().parent
BUILT = HERE.parent / "out" / "c"
LIBRARY = "libmangohatch_tiff.so"
VARIABLE = "MANGOHATCH_TIFF_LIBRARY"

MISSING = f"""The shared library {LIBRARY} is missing: build it by `make` at the top of the
repository, where the Rattle kit is, or name it in the environment variable {VARIABLE}. Or install a
wheel that was built elsewhere."""

# The oldest glibc for which pip knows a tag of a wheel.
OLDEST_GLIBC = (2, 5)
# The earliest date that a zip file can hold.
DATE = (1980, 1, 1, 0, 0, 0)


def shared_library() -> Path:
    """Finds the shared library: the one that is named, or the one that `make` built."""
    named = os.environ.get(VARIABLE)
    latest = max(BUILT.glob(f"{LIBRARY}.*"), key=lambda file: int(file.suffix[1:]), default=None)
    found = Path(named) if named else latest
    if found is None or not found.is_file():
        raise SystemExit(MISSING)
    return found


def needed_glibc(program: bytes) -> tuple[int, int]:
    """Returns the version of glibc that a program or a shared library needs.

    It is the highest of those that the versions of its symbols name.
    """
    named = re.findall(rb"GLIBC_(\d+)\.(\d+)", program)
    return max([OLDEST_GLIBC, *((int(major), int(minor)) for major, minor in named)])


def tag_of(library: bytes) -> str:
    """Returns the tag of a wheel for any Python 3 on the platforms where a library can be
    loaded."""
    major, minor = needed_glibc(library)
    return f"py3-none-manylinux_{major}_{minor}_{platform.machine()}"


def project() -> dict[str, Any]:
    """Returns the facts of the package in `pyproject.toml`."""
    facts: dict[str, Any] = tomllib.loads((HERE / "pyproject.toml").read_text("utf-8"))["project"]
    return facts


def metadata(facts: dict[str, Any]) -> str:
    """Returns the facts of the package in the form of a wheel's METADATA, with the README."""
    lines = [
        "Metadata-Version: 2.1",
        f"Name: {facts['name']}",
        f"Version: {facts['version']}",
        f"Summary: {facts['description']}",
        f"License: {facts['license']['text']}",
        "License-File: LICENSE",
        *("Maintainer-email: {name} <{email}>".format(**it) for it in facts["maintainers"]),
        f"Requires-Python: {facts['requires-python']}",
    ]
    lines += [f"Classifier: {classifier}" for classifier in facts["classifiers"]]
    for extra, packages in facts["optional-dependencies"].items():
        lines.append(f"Provides-Extra: {extra}")
        lines += [f'Requires-Dist: {package}; extra == "{extra}"' for package in packages]
    lines += ["Description-Content-Type: text/markdown", ""]
    return "\n".join(lines) + "\n" + (HERE / facts["readme"]).read_text("utf-8")


def record(files: dict[str, bytes], name: str) -> bytes:
    """Returns the list of a wheel's files, with their checksums and sizes; `name` is its own."""
    lines = []
    for file, content in files.items():
        digest = base64.urlsafe_b64encode(hashlib.sha256(content).digest()).rstrip(b"=").decode()
        lines.append(f"{file},sha256={digest},{len(content)}\n")
    return "".join([*lines, f"{name},,\n"]).encode()


def content_of_wheel(facts: dict[str, Any], library: bytes) -> dict[str, bytes]:
    """Returns the files of the wheel by their names, those about the package last."""
    package = HERE / facts["name"]
    files = {
        f"{package.name}/{file.name}": file.read_bytes()
        for file in sorted([*package.glob("*.py"), package / "py.typed"])
    }
    files[f"{package.name}/{LIBRARY}"] = library
    about = f"{facts['name']}-{facts['version']}.dist-info"
    files[f"{about}/LICENSE"] = (HERE / "LICENSE").read_bytes()
    files[f"{about}/METADATA"] = metadata(facts).encode()
    files[f"{about}/WHEEL"] = (
        "Wheel-Version: 1.0\nGenerator: wheel_backend.py\nRoot-Is-Purelib: false\n"
        f"Tag: {tag_of(library)}\n"
    ).encode()
    listed = f"{about}/RECORD"
    files[listed] = record(files, listed)
    return files


def build_wheel(
    wheel_directory: str, config_settings: object = None, metadata_directory: object = None
) -> str:
    """Writes the wheel into a folder and returns its name, as PEP 517 requires."""
    facts = project()
    library = shared_library().read_bytes()
    name = f"{facts['name']}-{facts['version']}-{tag_of(library)}.whl"
    with zipfile.ZipFile(Path(wheel_directory) / name, "w") as wheel:
        for file, content in content_of_wheel(facts, library).items():
            entry = zipfile.ZipInfo(file, DATE)
            entry.external_attr = (0o100755 if file.endswith(LIBRARY) else 0o100644) << 16
            wheel.writestr(entry, content, zipfile.ZIP_DEFLATED, 9)
    return name
