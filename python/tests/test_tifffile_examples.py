"""The examples of tifffile's README, with its import changed, and what this package does of them.

Each test has the code of one example, or of a few that go on from each other; values that the
example prints are asserted. What isn't there raises an error that names it.
"""
from __future__ import annotations

from pathlib import Path

import numpy
import pytest
import tifffile

import mangohatch_tiff as mt
from mangohatch_tiff import TiffFile, TiffWriter, imread, imwrite, memmap


@pytest.fixture(autouse=True)
def folder(tmp_path: Path, monkeypatch: pytest.MonkeyPatch) -> None:
    """The examples write into the current folder."""
    monkeypatch.chdir(tmp_path)
    numpy.random.seed(1)


def written_stack() -> numpy.ndarray:
    """Writes the stack that several examples read."""
    data = numpy.random.randint(0, 2**12, (64, 301, 219), "uint16")
    imwrite("temp.tif", data, photometric="minisblack")
    return data


def test_write_a_single_page_rgb_file_and_read_it() -> None:
    data = numpy.random.randint(0, 255, (256, 256, 3), "uint8")
    imwrite("temp.tif", data, photometric="rgb")
    image = imread("temp.tif")
    assert image.shape == (256, 256, 3)
    numpy.testing.assert_array_equal(image, data)
    numpy.testing.assert_array_equal(tifffile.imread("temp.tif"), data)


def test_write_interleaved_planar_and_gray() -> None:
    data = numpy.random.randint(0, 255, (3, 3, 3), "uint8")
    for options in (
        {"photometric": "rgb"},
        {"photometric": "rgb", "planarconfig": "separate"},
        {"photometric": "minisblack"},
    ):
        imwrite("temp.tif", data, **options)
        numpy.testing.assert_array_equal(imread("temp.tif"), data)
        numpy.testing.assert_array_equal(tifffile.imread("temp.tif"), data)
    assert len(TiffFile("temp.tif").pages) == 3


def test_write_and_read_a_stack() -> None:
    data = written_stack()
    image_stack = imread("temp.tif")
    assert image_stack.shape == (64, 301, 219)
    assert image_stack.dtype == numpy.dtype("uint16")
    numpy.testing.assert_array_equal(image_stack, data)


def test_read_the_first_page() -> None:
    data = written_stack()
    image = imread("temp.tif", key=0)
    assert image.shape == (301, 219)
    numpy.testing.assert_array_equal(image, data[0])


def test_read_a_range_of_pages() -> None:
    data = written_stack()
    images = imread("temp.tif", key=range(4, 40, 2))
    assert images.shape == (18, 301, 219)
    numpy.testing.assert_array_equal(images, data[4:40:2])


def test_iterate_over_all_pages() -> None:
    data = written_stack()
    with TiffFile("temp.tif") as tif:
        for page, expected in zip(tif.pages, data):
            image = page.asarray()
            numpy.testing.assert_array_equal(image, expected)


def test_information_without_reading_an_image() -> None:
    written_stack()
    tif = TiffFile("temp.tif")
    assert len(tif.pages) == 64
    page = tif.pages[0]
    assert page.shape == (301, 219)
    assert page.dtype == numpy.dtype("uint16")
    assert page.axes == "YX"
    series = tif.series[0]
    assert series.shape == (64, 301, 219)
    assert series.dtype == numpy.dtype("uint16")
    # The example prints QYX, since tifffile writes a description; without one it has the same axes.
    assert series.axes == tifffile.TiffFile("temp.tif").series[0].axes == "IYX"
    tif.close()


def test_inspect_a_tag() -> None:
    """The tag's value has to be read while the file is open."""
    written_stack()
    with TiffFile("temp.tif") as tif:
        tag = tif.pages[0].tags["XResolution"]
        assert tag.value == (1, 1)
    assert tag.name == "XResolution"
    assert tag.code == 282
    assert tag.count == 1
    assert tag.dtype == tifffile.DATATYPE.RATIONAL
    assert repr(tag.dtype) == "<DATATYPE.RATIONAL: 5>"


def test_iterate_over_all_tags() -> None:
    written_stack()
    found = []
    with TiffFile("temp.tif") as tif:
        for page in tif.pages:
            for tag in page.tags:
                tag_name, tag_value = tag.name, tag.value
                found.append((tag_name, tag_value))
    with tifffile.TiffFile("temp.tif") as tif:
        assert found == [(tag.name, tag.value) for page in tif.pages for tag in page.tags]


def test_overwrite_a_tag() -> None:
    """Files aren't changed."""
    written_stack()
    with pytest.raises(TypeError, match="mode"):
        TiffFile("temp.tif", mode="r+")


def test_five_dimensions_with_separate_components() -> None:
    """Without zlib and the predictor of floating-point numbers, which are refused by name."""
    data = numpy.random.rand(2, 5, 3, 301, 219).astype("float32")
    options = {"bigtiff": True, "photometric": "rgb", "planarconfig": "separate", "tile": (32, 32)}
    metadata = {"axes": "TZCYX"}
    packed = {"compression": "zlib", "compressionargs": {"level": 8}, "predictor": True}
    with pytest.raises(ValueError, match="compressionargs"):
        imwrite("temp.tif", data, **options, **packed, metadata=metadata)
    with pytest.raises(mt.UnsupportedError, match="compression=adobe_deflate"):
        imwrite("temp.tif", data, **options, compression="zlib", metadata=metadata)
    with pytest.raises(mt.UnsupportedError, match="predictor=floatingpoint"):
        imwrite("temp.tif", data, **options, predictor=True, metadata=metadata)
    imwrite("temp.tif", data, **options, metadata=metadata)
    numpy.testing.assert_array_equal(imread("temp.tif"), data)
    numpy.testing.assert_array_equal(tifffile.imread("temp.tif"), data)
    with tifffile.TiffFile("temp.tif") as tif:
        assert tif.series[0].axes == "TZCYX" and tif.is_bigtiff and len(tif.pages) == 10


def test_imagej() -> None:
    """It is read, and not written; `imagej_metadata` isn't there."""
    volume = numpy.random.randn(6, 57, 16, 16).astype("float32")
    options = {"imagej": True, "metadata": {"spacing": 3.947368, "unit": "um", "axes": "TZYX"}}
    with pytest.raises(mt.UnsupportedError, match="imagej"):
        imwrite("temp.tif", volume, **options)
    tifffile.imwrite("temp.tif", volume, **options)
    with TiffFile("temp.tif") as tif:
        numpy.testing.assert_array_equal(tif.asarray(), volume)
        assert tif.series[0].axes == "TZYX"
        assert not hasattr(tif, "imagej_metadata")


def test_memory_mapped_arrays() -> None:
    """No file is made of an empty array; one that is there is mapped."""
    with pytest.raises(mt.UnsupportedError, match="shape"):
        memmap("temp.tif", shape=(256, 256, 3), dtype="float32", photometric="rgb")
    imwrite("temp.tif", numpy.zeros((256, 256, 3), "float32"), photometric="rgb")
    memmap_image = memmap("temp.tif")
    assert type(memmap_image) is numpy.memmap
    memmap_image[255, 255, 1] = 1.0
    memmap_image.flush()
    del memmap_image
    memmap_image = memmap("temp.tif")
    assert memmap_image.shape == (256, 256, 3)
    assert memmap_image[255, 255, 1] == 1.0
    del memmap_image
    numpy.testing.assert_array_equal(imread("temp.tif"), tifffile.imread("temp.tif"))


def test_two_series() -> None:
    series0 = numpy.random.randint(0, 255, (32, 32, 3), "uint8")
    series1 = numpy.random.randint(0, 255, (4, 256, 256), "uint16")
    with TiffWriter("temp.tif") as tif:
        tif.write(series0, photometric="rgb")
        tif.write(series1, photometric="minisblack")
    read = imread("temp.tif", series=1)
    assert read.shape == (4, 256, 256)
    numpy.testing.assert_array_equal(read, series1)
    numpy.testing.assert_array_equal(imread("temp.tif"), series0)
    numpy.testing.assert_array_equal(tifffile.imread("temp.tif", series=1), series1)


def test_frames_one_after_another() -> None:
    """Each frame is a page; `contiguous`, by which they would be one, is refused."""
    data = numpy.random.randint(0, 255, (30, 301, 219), "uint8")
    with TiffWriter("temp.tif") as tif:
        for frame in data:
            with pytest.raises(mt.UnsupportedError, match="contiguous"):
                tif.write(frame, contiguous=True)
            tif.write(frame)
    numpy.testing.assert_array_equal(imread("temp.tif"), data)
    numpy.testing.assert_array_equal(tifffile.imread("temp.tif"), data)


def test_append_a_series() -> None:
    stack = written_stack()
    data = numpy.random.randint(0, 255, (301, 219, 3), "uint8")
    imwrite("temp.tif", data, photometric="rgb", append=True)
    numpy.testing.assert_array_equal(imread("temp.tif"), stack)
    numpy.testing.assert_array_equal(imread("temp.tif", key=64), data)
    numpy.testing.assert_array_equal(tifffile.imread("temp.tif", series=1), data)


def test_a_generator_of_tiles() -> None:
    """It is refused: an array is written."""
    data = numpy.random.randint(0, 2**12, (31, 33, 3), "uint16")
    with pytest.raises(mt.UnsupportedError, match="shape"):
        imwrite("temp.tif", iter([data]), tile=(16, 16), shape=data.shape, dtype=data.dtype)
    imwrite("temp.tif", data, tile=(16, 16), photometric="rgb")
    numpy.testing.assert_array_equal(tifffile.imread("temp.tif"), data)


@pytest.mark.parametrize("writer", [TiffWriter, tifffile.TiffWriter])
def test_pyramids(writer) -> None:
    data = numpy.random.randint(0, 255, (512, 512, 3), "uint8")
    with writer("temp.tif", bigtiff=True) as tif:
        tif.write(data, subifds=2, photometric="rgb", tile=(128, 128))
        for mag in (2, 4):
            tif.write(data[::mag, ::mag], subfiletype=1, photometric="rgb", tile=(128, 128))
    baseimage = imread("temp.tif")
    second_level = imread("temp.tif", series=0, level=1)
    numpy.testing.assert_array_equal(baseimage, data)
    numpy.testing.assert_array_equal(second_level, data[::2, ::2])
    with TiffFile("temp.tif") as tif:
        baseimage = tif.series[0].asarray()
        second_level = tif.series[0].levels[1].asarray()
    numpy.testing.assert_array_equal(baseimage, data)
    numpy.testing.assert_array_equal(second_level, data[::2, ::2])


def test_decode_single_tiles() -> None:
    """`read_chunk` takes the place of `decode`; their places in the file are the same."""
    data = numpy.random.randint(0, 255, (256, 256), "uint8")
    imwrite("temp.tif", data, tile=(128, 128))
    with TiffFile("temp.tif") as tif, open("temp.tif", "rb") as fh:
        for page in tif.pages:
            for index, (offset, bytecount) in enumerate(
                zip(page.dataoffsets, page.databytecounts)
            ):
                fh.seek(offset)
                assert fh.read(bytecount) == page.read_chunk(index).tobytes()
            assert not hasattr(page, "decode")


def test_zarr_of_a_pyramid() -> None:
    """Of plain tiles in place of JPEG and OME."""
    zarr, array = pytest.importorskip("zarr"), pytest.importorskip("dask.array")
    data = numpy.random.randint(0, 255, (3, 512, 512), "uint8")
    with tifffile.TiffWriter("temp.tif") as tif:
        tif.write(data, subifds=1, photometric="minisblack", tile=(128, 128))
        tif.write(data[:, ::2, ::2], subfiletype=1, photometric="minisblack", tile=(128, 128))
    store = imread("temp.tif", aszarr=True)
    z = zarr.open(store, mode="r")
    assert repr(z) == "<zarr.hierarchy.Group '/' read-only>"
    assert repr(z[0]) == "<zarr.core.Array '/0' (3, 512, 512) uint8 read-only>"
    assert z[0][2, 128:384, 256:].shape == (256, 256)
    found = array.from_zarr(store, 0)
    numpy.testing.assert_array_equal(found.compute(scheduler="threads"), data)
    store.close()


def test_zarr() -> None:
    """Of a stack, with `multiscales` for a group."""
    zarr = pytest.importorskip("zarr")
    data = numpy.random.randint(0, 255, (8, 512, 512), "uint8")
    imwrite("temp.tif", data, photometric="minisblack", tile=(128, 128))
    store = imread("temp.tif", aszarr=True)
    z = zarr.open(store, mode="r")
    assert repr(z) == "<zarr.core.Array (8, 512, 512) uint8 read-only>"
    assert z[2, 128:384, 256:].shape == (256, 256)
    numpy.testing.assert_array_equal(z[2, 128:384, 256:], data[2, 128:384, 256:])
    store.close()
    with TiffFile("temp.tif") as tif:
        z = zarr.open(tif.aszarr(multiscales=True), mode="r")
        assert repr(z) == "<zarr.hierarchy.Group '/' read-only>"
        assert repr(z[0]) == "<zarr.core.Array '/0' (8, 512, 512) uint8 read-only>"


def test_dask_over_zarr() -> None:
    pytest.importorskip("zarr")
    array = pytest.importorskip("dask.array")
    data = numpy.random.randint(0, 255, (8, 512, 512), "uint8")
    imwrite("temp.tif", data, photometric="minisblack", tile=(128, 128))
    with TiffFile("temp.tif") as tif:
        store = tif.aszarr(multiscales=True)
        found = array.from_zarr(store, 0)
        assert "shape=(8, 512, 512)" in repr(found) and "(1, 128, 128)" in repr(found)
        numpy.testing.assert_array_equal(found.compute(scheduler="threads"), data)
        assert not hasattr(store, "write_fsspec")


def test_files_written_by_zarr() -> None:
    """A store isn't written."""
    zarr = pytest.importorskip("zarr")
    imwrite("temp.tif", numpy.zeros((8, 80, 60), "uint16"), photometric="minisblack")
    with pytest.raises(TypeError, match="mode"):
        imread("temp.tif", mode="r+", aszarr=True)
    with imread("temp.tif", aszarr=True) as store, pytest.raises(PermissionError):
        zarr.open(store, mode="r+")[3, 10:20] = 1024


def test_a_sequence_of_files() -> None:
    """A list and a pattern are read; `TiffSequence` isn't there."""
    first, second = numpy.random.rand(64, 64), numpy.random.rand(64, 64)
    imwrite("temp_C001T001.tif", first)
    imwrite("temp_C001T002.tif", second)
    image_sequence = imread(["temp_C001T001.tif", "temp_C001T002.tif"])
    assert image_sequence.shape == (2, 64, 64)
    assert image_sequence.dtype == numpy.dtype("float64")
    numpy.testing.assert_array_equal(image_sequence, [first, second])
    numpy.testing.assert_array_equal(imread(["temp_C001T001.tif"]), first)
    numpy.testing.assert_array_equal(imread("temp_C0*.tif"), [first, second])
    assert not hasattr(mt, "TiffSequence")
