"""The examples over the package."""
from __future__ import annotations

import io
import json
import os
import re
import subprocess
import sys
from pathlib import Path

import numpy
import pytest
import tifffile
from conftest import EXIF, raw_file, samples

import mangohatch_tiff as mt

EXAMPLES = Path(__file__).resolve().parents[2] / "examples" / "python"

PAGES = [
    ((3, 100, 120), "u1", {"photometric": "rgb", "planarconfig": "separate", "tile": (48, 48)}),
    ((3, 100, 120), "u2", {"photometric": "rgb", "planarconfig": "separate", "rowsperstrip": 7}),
    ((100, 120, 3), "u1", {"photometric": "rgb", "tile": (48, 48)}),
    ((100, 120), "f4", {"photometric": "minisblack", "tile": (48, 48)}),
    ((100, 121), "?", {"photometric": "minisblack", "rowsperstrip": 9}),
    ((100, 120), "u1", {"colormap": samples((3, 256), "u2"), "tile": (48, 48)}),
    ((100, 120, 5), "u2", {"photometric": "rgb", "rowsperstrip": 9}),
]


@pytest.mark.parametrize(("shape", "dtype", "options"), PAGES)
def test_dask(shape: tuple[int, ...], dtype: str, options: dict, tmp_path: Path) -> None:
    """The array that is announced is the one that is computed, and tifffile's."""
    pytest.importorskip("distributed")
    sys.path.insert(0, str(EXAMPLES))
    import dask_image

    path = tmp_path / "page.tif"
    image = samples(shape, "u1") > 99 if dtype == "?" else samples(shape, dtype)
    tifffile.imwrite(path, image, metadata=None, **options)
    output = dask_image.image_of(str(path))
    computed = output.compute(scheduler="synchronous")
    assert output.shape == computed.shape == shape
    assert output.dtype == computed.dtype == image.dtype
    numpy.testing.assert_array_equal(computed, image)


@pytest.mark.parametrize("block", [1, 5000, 1 << 22])
@pytest.mark.parametrize(("shape", "dtype", "options"), PAGES)
def test_dask_blocks(
    block: int, shape: tuple[int, ...], dtype: str, options: dict, tmp_path: Path, monkeypatch
) -> None:
    """Blocks of any size have whole strips or tiles, and make the array."""
    pytest.importorskip("distributed")
    sys.path.insert(0, str(EXAMPLES))
    import dask_image

    monkeypatch.setattr(dask_image, "BLOCK", block)
    path = tmp_path / "page.tif"
    image = samples(shape, "u1") > 99 if dtype == "?" else samples(shape, dtype)
    tifffile.imwrite(path, image, metadata=None, **options)
    output = dask_image.image_of(str(path))
    assert output.npartitions == 1 if block > image.nbytes else output.npartitions > 1
    numpy.testing.assert_array_equal(output.compute(scheduler="synchronous"), image)


@pytest.mark.parametrize(("shape", "dtype", "options"), PAGES)
@pytest.mark.parametrize("side", [50, 1024])
def test_dask_over_zarr(
    side: int, shape: tuple[int, ...], dtype: str, options: dict, tmp_path: Path, monkeypatch
) -> None:
    pytest.importorskip("distributed")
    pytest.importorskip("zarr")
    sys.path.insert(0, str(EXAMPLES))
    import zarr_image

    monkeypatch.setattr(zarr_image, "SIDE", side)
    path = tmp_path / "page.tif"
    image = samples(shape, "u1") > 99 if dtype == "?" else samples(shape, dtype)
    tifffile.imwrite(path, image, metadata=None, **options)
    with mt.imread(path, key=0, aszarr=True) as store:
        output = zarr_image.image_of(store)
        numpy.testing.assert_array_equal(output.compute(scheduler="synchronous"), image)


def run(name: str, *words: object) -> str:
    """Runs an example, and returns what it prints."""
    command = [sys.executable, EXAMPLES / name, *map(str, words)]
    environment = {"PYTHONPATH": str(Path(mt.__file__).parents[1]), **os.environ}
    made = subprocess.run(command, env=environment, capture_output=True, text=True)
    assert made.returncode == 0, made.stderr
    return made.stdout


def test_programs(tmp_path: Path) -> None:
    image = samples((40, 50), "u1")
    path, made = tmp_path / "page.tif", tmp_path / "made.tif"
    with tifffile.TiffWriter(path) as writer:
        writer.write(image, photometric="minisblack", tile=(16, 16), subifds=1, metadata=None)
        writer.write(image[::2, ::2], photometric="minisblack", subfiletype=1, metadata=None)
    assert run("page_sides.py", path) == "0: 50 x 40\n"
    assert "shape (16, 16), uint8" in run("one_tile.py", path, 17, 20, made)
    numpy.testing.assert_array_equal(mt.imread(made), image[16:32, 16:32])
    assert "(20, 25)" in run("sub_ifd.py", path, made)
    numpy.testing.assert_array_equal(mt.imread(made), image[::2, ::2])
    assert run("tagged.py", made) == "a ramp (0.5, 0.5, 0.0)\n"


def test_remote_tile(tmp_path: Path) -> None:
    """A tile of a file behind HTTP takes four requests, for the header, two lists and the tile."""
    image = samples((4096, 4096), "u1")
    path, made = tmp_path / "page.tif", tmp_path / "made.tif"
    tifffile.imwrite(path, image, photometric="minisblack", tile=(128, 128), bigtiff=True)
    output = run("remote_tile.py", path, 2000, 3000, made)
    assert output.startswith("shape (128, 128), uint8: ")
    requests, fetched, size = map(int, re.findall(r"(\d+) (?:requests|of|bytes)", output))
    assert requests <= 4 and 10 * fetched < size
    numpy.testing.assert_array_equal(mt.imread(made), image[1920:2048, 2944:3072])


def test_scanned_pages(tmp_path: Path) -> None:
    path = tmp_path / "scan.tif"
    assert run("scanned_pages.py", path, 3, 40, 50) == "3 pages, the last one 'scan 2'\n"
    assert run("scanned_pages.py", path, 2, 40, 50) == "5 pages, the last one 'scan 1'\n"
    ramp = numpy.arange(40)[:, None] + numpy.arange(50)
    pages = [(ramp + page).astype("u1") for page in (0, 1, 2, 0, 1)]
    numpy.testing.assert_array_equal(tifffile.imread(path), numpy.stack(pages))


def test_metadata(tmp_path: Path) -> None:
    """Each tag of each directory is a line, also of the page that the library refuses."""
    file, _ = raw_file()
    path = tmp_path / "raw.tif"
    path.write_bytes(file)
    lines = [json.loads(line) for line in run("metadata.py", path).splitlines()]
    with tifffile.TiffFile(io.BytesIO(file)) as tif:
        first = tif.pages[0]
        pages = [first, *first.pages, tif.pages[1]]
        for page in pages:
            found = [line for line in lines if line["directory"] == page.offset]
            assert [line["tag"] for line in found] == sorted(tag.code for tag in page.tags)
            assert [line["count"] for line in found] == [
                page.tags[line["tag"]].count for line in found
            ]
    assert {line["by"] for line in lines if "by" in line} == {330, 34665}
    exif = {line["tag"]: line for line in lines if line.get("by") == 34665}
    assert exif.keys() == EXIF.keys() and not any("error" in line for line in lines)
    assert exif[33434]["value"] == [1, 250] and exif[37380]["value"] == [-1, 3]
    assert exif[36867]["value"] == "2026:11:28 23:59:59" and exif[37500]["value"].endswith("..")
    assert exif[42034]["value"] == [24, 1, 70, 1, 28, 10, 28, 10]
    (maker,) = (line for line in lines if line["tag"] == 271)
    assert (maker["name"], maker["type"], maker["value"]) == ("Make", "ASCII", "a maker")


def test_metadata_of_what_is_broken(tmp_path: Path) -> None:
    """Values that the file lacks, and a directory, are lines with their errors."""
    file, _ = raw_file()
    path = tmp_path / "raw.tif"
    path.write_bytes(file[:-20])
    assert '"error": "UNEXPECTED_EOF"' in run("metadata.py", path)
    path.write_bytes(file[: -len(file) // 10])
    assert "DIRECTORY_ERROR" in run("metadata.py", path)


WORDS = (1, 1, 0, 4, 1024, 0, 1, 1, 1025, 0, 1, 1, 1026, 34737, 8, 0, 3072, 0, 1, 32633)


@pytest.mark.parametrize("is_point", [False, True])
def test_geo_raster(is_point: bool, tmp_path: Path) -> None:
    """Keys are printed, and a window lies where the raster has it."""
    image, path, made = samples((300, 400), "u2"), tmp_path / "map.tif", tmp_path / "window.tif"
    words = (*WORDS[:11], 1 + is_point, *WORDS[12:])
    tags = [(34735, "H", len(words), words, True), (34737, "s", 0, "a place|", True)]
    tags += [(33550, "d", 3, (10.0, 5.0, 0.0), True)]
    tags += [(33922, "d", 6, (0.0, 0.0, 0.0, 500000.0, 900000.0, 0.0), True)]
    tifffile.imwrite(path, image, photometric="minisblack", tile=(64, 64), extratags=tags)
    output = run("geo_raster.py", path)
    assert "GTModelTypeGeoKey = 1 (projected)\n" in output and "EPSG: 32633\n" in output
    assert "GTCitationGeoKey = 'a place'\n" in output
    # the middle of the pixel in row 100 and column 200
    half = 0.0 if is_point else 0.5
    x, y = 500000 + 10 * (200 + half), 900000 - 5 * (100 + half)
    output = run("geo_raster.py", path, x, y, 64, made)
    assert "pixel: row 100, column 200\n" in output and "window: (64, 64) uint16" in output
    with mt.TiffFile(path) as tif, mt.TiffFile(made) as cut:
        page, window = tif.pages[0], cut.pages[0]
        numpy.testing.assert_array_equal(window.asarray(), image[68:132, 168:232])
        numpy.testing.assert_allclose(window.geo.transform, page.geo.transform_at(68, 168))
        assert window.geo.keys == page.geo.keys
