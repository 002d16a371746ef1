"""The package as a whole: its names, its version, its types, its wheel."""
from __future__ import annotations

import ctypes
import dataclasses
import os
import re
import shutil
import subprocess
import sys
from pathlib import Path

import pytest
import tifffile

import mangohatch_tiff as mt
from mangohatch_tiff import _library

FOLDER = Path(__file__).resolve().parents[1]
EXAMPLES = FOLDER.parent / "examples" / "python"
HEADER = FOLDER.parent / "crates" / "tiff_c" / "include" / "mangohatch_tiff.h"


def test_version() -> None:
    assert f'version = "{mt.__version__}"\n' in (FOLDER / "pyproject.toml").read_text()
    assert mt.__version__.split(".")[0] == str(mt.library_version())


def public(kind: object) -> set[str]:
    """Returns the public names of a class."""
    return {name for name in dir(kind) if not name.startswith("_")}


def test_names_are_in_the_table() -> None:
    """Each name that tifffile has too, and each of our own, is in the README."""
    output = (FOLDER / "README.md").read_text()
    names = set(mt.__all__)
    kinds = mt.TiffFile, mt.TiffPage, mt.Tag, mt.Tags, mt.Directory, mt.TiffWriter, mt.Geo
    for kind in (*kinds, mt.TiffPageSeries):
        names |= public(kind)
    names |= {field.name for field in dataclasses.fields(mt.Directory)} | set(mt.Found.__members__)
    lacking = {name for name in names if not re.search(rf"\b{name}\b", output)}
    assert not lacking


def test_what_tifffile_has_too() -> None:
    """The names of tifffile that are here; a new one has to be compared with it first."""
    shared = {name for name in mt.__all__ if hasattr(tifffile, name)}
    assert shared == {
        "COMPRESSION", "DATATYPE", "EXTRASAMPLE", "FILLORDER", "PHOTOMETRIC", "PLANARCONFIG",
        "PREDICTOR", "RESUNIT", "SAMPLEFORMAT", "TiffFile", "TiffPage", "TiffPageSeries",
        "TiffWriter", "ZarrTiffStore", "imread", "imwrite", "memmap",
    }
    of_files = {"asarray", "aszarr", "close", "is_bigtiff", "series"}
    assert public(mt.TiffFile) & public(tifffile.TiffFile) == of_files
    assert public(mt.TiffWriter) & public(tifffile.TiffWriter) == {"close", "write"}


def test_reprs() -> None:
    file = mt.imwrite(None, [[1, 2, 3]])
    tif = mt.TiffFile(file)
    assert repr(tif) == "<TiffFile <class 'bytes'>: 1 pages>"
    assert re.fullmatch(r"<TiffPage 0 @\d+ \(1, 3\) int64>", repr(tif.pages[0]))


STRUCTS = {
    "tiff_sides": "Sides",
    "tiff_color": "Color",
    "tiff_samples": "Samples",
    "tiff_chunks": "Chunks",
    "tiff_page_plan": "PagePlan",
    "tiff_listed_page": "ListedPage",
    "tiff_listed_directory": "ListedDirectory",
    "tiff_field": "Field",
    "tiff_tag_entry": "TagEntry",
    "tiff_image": "Image",
    "tiff_jobs_end": "JobsEnd",
    "tiff_fraction": "Fraction",
    "tiff_new_tag": "TagToWrite",
    "tiff_new_page": "PageToWrite",
    "tiff_pages_end": "PagesEnd",
    "tiff_pages_frame": "PagesFrame",
    "tiff_appended": "Appended",
}
ENUMERATIONS = {"TIFF_": ("Status", "Found", "ColorKind"), "TIFF_FIELD_": ("PageField",)}


@pytest.mark.skipif(not shutil.which("cc"), reason="cc is missing")
def test_declarations_are_those_of_the_header(tmp_path: Path) -> None:
    """The structs have the members of the header's at the same places, and enums its numbers."""
    facts = {}
    for name, ours in STRUCTS.items():
        struct = getattr(_library, ours)
        facts[f"sizeof(struct {name})"] = ctypes.sizeof(struct)
        for field, _ in struct._fields_:
            place = getattr(struct, field)
            facts[f"offsetof(struct {name}, {field})"] = place.offset
            facts[f"sizeof(((struct {name} *)0)->{field})"] = place.size
    for prefix, kinds in ENUMERATIONS.items():
        for kind in kinds:
            facts |= {prefix + item.name: item.value for item in getattr(_library, kind)}
    lines = [f'_Static_assert({fact} == {value}, "{fact}");' for fact, value in facts.items()]
    program = tmp_path / "declarations.c"
    program.write_text("\n".join(["#include <mangohatch_tiff.h>", *lines, ""]))
    made = subprocess.run(
        ["cc", "-fsyntax-only", f"-I{HEADER.parent}", program], capture_output=True, text=True
    )
    assert made.returncode == 0, made.stderr


@pytest.mark.skipif(not shutil.which("mypy"), reason="mypy is missing")
def test_types(tmp_path: Path) -> None:
    """The package and the examples over it are taken by mypy's strict mode.

    What is in dask and zarr takes mypy long, so they are as modules that are missing.
    """
    examples = [str(path) for path in sorted(EXAMPLES.glob("*.py")) if path.name != "tiff.py"]
    settings = tmp_path / "mypy.ini"
    settings.write_text("[mypy]\n[mypy-dask.*,distributed.*,zarr.*]\nfollow_imports = skip\n")
    command = ["mypy", "--strict", "--config-file", settings, "--ignore-missing-imports"]
    command += ["--allow-untyped-decorators", "--allow-untyped-calls", "mangohatch_tiff", *examples]
    environment = {**os.environ, "MYPYPATH": "."}
    made = subprocess.run(command, cwd=FOLDER, env=environment, capture_output=True, text=True)
    assert made.returncode == 0, made.stdout


@pytest.mark.parametrize("isolation", [[], ["--no-build-isolation"]])
def test_install(isolation: list[str], tmp_path: Path) -> None:
    """pip builds and installs the package in a fresh environment, without a network."""
    folder = tmp_path / "environment"
    subprocess.run([sys.executable, "-m", "venv", folder], check=True)
    python = folder / "bin" / "python"
    command = [python, "-m", "pip", "install", "--no-index", *isolation, FOLDER]
    made = subprocess.run(command, capture_output=True, text=True)
    assert made.returncode == 0, made.stdout + made.stderr
    output = subprocess.run(
        [python, "-c", "import mangohatch_tiff as m; print(m.__version__, m.library_version())"],
        cwd=tmp_path, capture_output=True, text=True, check=True,
    )
    assert output.stdout.split() == [mt.__version__, str(mt.library_version())]


def test_numpy_is_for_arrays_alone(tmp_path: Path) -> None:
    """Pages, their facts and their tags are read without numpy."""
    path = tmp_path / "page.tif"
    mt.imwrite(path, [[1, 2, 3]], description="a line")
    program = f"""
import sys
sys.modules["numpy"] = None
from mangohatch_tiff import TiffFile, write_jobs
with TiffFile({str(path)!r}) as tif:
    page = tif.pages[0]
    print(page.shape, page.axes, page.description, page.compression.name, len(page.tags))
"""
    environment = {**os.environ, "PYTHONPATH": str(FOLDER)}
    output = subprocess.run(
        [sys.executable, "-c", program], env=environment, capture_output=True, text=True, check=True
    )
    assert output.stdout.startswith("(1, 3) YX a line NONE ")
