"""Files that GDAL writes, of each number type, depth and layout, are read as GDAL reads them."""
from __future__ import annotations

from pathlib import Path

import numpy
import pytest
from conftest import samples

import mangohatch_tiff as mt

gdal = pytest.importorskip("osgeo.gdal")
arrays = pytest.importorskip("osgeo.gdal_array")

TYPES = {
    "u1": gdal.GDT_Byte, "u2": gdal.GDT_UInt16, "u4": gdal.GDT_UInt32, "i2": gdal.GDT_Int16,
    "i4": gdal.GDT_Int32, "f4": gdal.GDT_Float32, "f8": gdal.GDT_Float64, "c8": gdal.GDT_CFloat32,
    "c16": gdal.GDT_CFloat64,
}
LAYOUTS = [
    [],
    ["TILED=YES", "BLOCKXSIZE=16", "BLOCKYSIZE=32"],
    ["BLOCKYSIZE=7", "ENDIANNESS=BIG"],
    ["TILED=YES", "BLOCKXSIZE=32", "BLOCKYSIZE=16", "BIGTIFF=YES", "ENDIANNESS=BIG"],
    ["COMPRESS=PACKBITS", "BLOCKYSIZE=7"],
    ["COMPRESS=PACKBITS", "TILED=YES", "BLOCKXSIZE=16", "BLOCKYSIZE=16", "ENDIANNESS=BIG"],
]


def image_of(shape: tuple[int, ...], dtype: str) -> numpy.ndarray:
    """Returns an image of a number type, also a complex one."""
    if dtype[0] != "c":
        return samples(shape, dtype)
    return (samples(shape, "f4") + 1j * samples(shape, "f4")[::-1]).astype(dtype)


def written(path: Path, image: numpy.ndarray, kind: int, options: list[str]) -> numpy.ndarray:
    """Writes a file of bands by GDAL, and returns what GDAL reads."""
    bands, rows, columns = image.shape
    driver = gdal.GetDriverByName("GTiff")
    file = driver.Create(str(path), columns, rows, bands, kind, options)
    for band, plane in enumerate(image):
        file.GetRasterBand(band + 1).WriteArray(plane)
    file = None
    found: numpy.ndarray = gdal.Open(str(path)).ReadAsArray()
    return found.reshape(image.shape)


def bands_of(path: Path) -> numpy.ndarray:
    """Returns the bands of a file as this package reads them."""
    with mt.TiffFile(path) as tif:
        page = tif.pages[0]
        array = page.asarray()
        if page.axes == "YXS":
            return array.transpose(2, 0, 1)
        return array if page.axes == "SYX" else array[None]


@pytest.mark.parametrize("dtype", TYPES)
@pytest.mark.parametrize("options", LAYOUTS)
@pytest.mark.parametrize("bands", [1, 3, 5])
@pytest.mark.parametrize("interleave", ["PIXEL", "BAND"])
def test_types_and_layouts(
    dtype: str, options: list[str], bands: int, interleave: str, tmp_path: Path
) -> None:
    path, image = tmp_path / "map.tif", image_of((bands, 37, 53), dtype)
    expected = written(path, image, TYPES[dtype], [*options, f"INTERLEAVE={interleave}"])
    numpy.testing.assert_array_equal(expected, image)
    numpy.testing.assert_array_equal(bands_of(path), image)


DEPTHS = {1: "u1", 2: "u1", 3: "u1", 4: "u1", 7: "u1", 9: "u2", 10: "u2", 12: "u2", 15: "u2"}
DEPTHS |= {17: "u4", 20: "u4", 31: "u4"}


@pytest.mark.parametrize("bits", DEPTHS)
@pytest.mark.parametrize("options", LAYOUTS)
@pytest.mark.parametrize("bands", [1, 3])
def test_depths(bits: int, options: list[str], bands: int, tmp_path: Path) -> None:
    path = tmp_path / "map.tif"
    image = samples((bands, 37, 53), DEPTHS[bits]) % (1 << bits)
    expected = written(path, image, TYPES[DEPTHS[bits]], [*options, f"NBITS={bits}"])
    numpy.testing.assert_array_equal(expected, image)
    numpy.testing.assert_array_equal(bands_of(path), image)


@pytest.mark.parametrize(("kind", "dtype"), [("GDT_CInt16", "c8"), ("GDT_CInt32", "c16")])
@pytest.mark.parametrize("options", LAYOUTS)
def test_complex_whole_numbers(kind: str, dtype: str, options: list[str], tmp_path: Path) -> None:
    path, real = tmp_path / "map.tif", samples((1, 37, 53), "i2").astype("f4")
    image = (real - 1j * real[:, ::-1]).clip(-32768, 32767).astype(dtype)
    expected = written(path, image, getattr(gdal, kind), options)
    numpy.testing.assert_array_equal(bands_of(path), expected)


@pytest.mark.parametrize("options", LAYOUTS[:4])
def test_files_that_lack_chunks(options: list[str], tmp_path: Path) -> None:
    path = tmp_path / "map.tif"
    driver = gdal.GetDriverByName("GTiff")
    file = driver.Create(str(path), 90, 80, 1, gdal.GDT_Int16, [*options, "SPARSE_OK=TRUE"])
    file.GetRasterBand(1).SetNoDataValue(-7)
    file.GetRasterBand(1).WriteArray(samples((20, 20), "i2"), 40, 40)
    file = None
    expected = gdal.Open(str(path)).ReadAsArray()
    numpy.testing.assert_array_equal(bands_of(path)[0], expected)
    assert mt.TiffFile(path).pages[0].nodata == -7


def test_palettes_and_overviews(tmp_path: Path) -> None:
    path, image = tmp_path / "map.tif", samples((400, 600), "u1") % 16
    driver = gdal.GetDriverByName("GTiff")
    file = driver.Create(str(path), 600, 400, 1, gdal.GDT_Byte, ["TILED=YES"])
    table = gdal.ColorTable()
    for index in range(16):
        table.SetColorEntry(index, (index, 2 * index, 255 - index, 255))
    file.GetRasterBand(1).SetColorTable(table)
    file.GetRasterBand(1).WriteArray(image)
    file.BuildOverviews("NEAREST", [2, 4])
    file = None
    with mt.TiffFile(path) as tif:
        assert tif.pages[0].photometric == mt.PHOTOMETRIC.PALETTE
        assert tif.pages[0].colormap[:, 3].tolist() == [3 * 257, 6 * 257, 252 * 257]
        numpy.testing.assert_array_equal(tif.pages[0].asarray(), image)
        levels = tif.series[0].levels
        opened = gdal.Open(str(path))
        band = opened.GetRasterBand(1)
        assert len(levels) == 3
        for level in (0, 1):
            expected = band.GetOverview(level).ReadAsArray()
            numpy.testing.assert_array_equal(levels[level + 1].asarray(), expected)
