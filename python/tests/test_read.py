"""Images of files that others wrote are read as others read them."""
from __future__ import annotations

import io
from pathlib import Path

import numpy
import pytest
import tifffile
from conftest import gray_file, samples
from PIL import Image

import mangohatch_tiff as mt
from mangohatch_tiff import _library, _parts

GRAY = [f"{kind}{size}" for kind in "ui" for size in (1, 2, 4, 8)] + ["f2", "f4", "f8"]


def written(array: numpy.ndarray, **options: object) -> bytes:
    """Returns a file that tifffile writes."""
    file = io.BytesIO()
    tifffile.imwrite(file, array, **options)
    return file.getvalue()


def assert_same(file: bytes, count: int = 1) -> None:
    """Compares all pages of a file with those that tifffile reads."""
    with mt.TiffFile(file) as ours, tifffile.TiffFile(io.BytesIO(file)) as theirs:
        assert len(ours) == len(theirs.pages) == count
        assert ours.byteorder == theirs.byteorder
        for page, other in zip(ours, theirs.pages):
            assert_same_page(page, other)


def assert_same_page(page: mt.TiffPage, other: tifffile.TiffPage) -> None:
    """Compares the facts and the samples of a page with tifffile's."""
    expected = other.asarray()
    read = page.asarray()
    assert read.shape == page.shape == expected.shape
    assert page.ndim == expected.ndim
    assert read.dtype == page.dtype == expected.dtype.newbyteorder("<")
    assert page.nbytes == expected.nbytes
    numpy.testing.assert_array_equal(read, expected)
    assert page.imagewidth == other.imagewidth
    assert page.imagelength == other.imagelength
    assert page.samplesperpixel == other.samplesperpixel
    assert page.bitspersample == other.bitspersample
    for name in ("axes", "size", "photometric", "planarconfig", "extrasamples", "predictor"):
        assert getattr(page, name) == getattr(other, name), name
    for name in ("chunks", "tile", "fillorder", "imagedepth", "resolution", "resolutionunit"):
        assert getattr(page, name) == getattr(other, name), name
    assert page.sampleformat == other.sampleformat
    assert page.compression == other.compression
    assert page.is_tiled == other.is_tiled
    assert page.offset == other.offset
    if page.is_tiled:
        assert (page.tilewidth, page.tilelength) == (other.tilewidth, other.tilelength)
        assert page.rowsperstrip == 0
    else:
        assert (page.tilewidth, page.tilelength) == (0, 0)
        assert page.rowsperstrip == min(other.rowsperstrip, other.imagelength)


@pytest.mark.parametrize("dtype", GRAY)
@pytest.mark.parametrize("byteorder", "<>")
@pytest.mark.parametrize("bigtiff", [False, True])
def test_gray(dtype: str, byteorder: str, bigtiff: bool) -> None:
    image = samples((37, 53), dtype)
    file = written(image, byteorder=byteorder, bigtiff=bigtiff, photometric="minisblack")
    numpy.testing.assert_array_equal(mt.imread(file), image)
    assert_same(file)


@pytest.mark.parametrize("dtype", ["u1", "u2", "u4", "f4", "f8"])
@pytest.mark.parametrize("count", [3, 4])
@pytest.mark.parametrize("planar", ["contig", "separate"])
@pytest.mark.parametrize("tile", [None, (16, 32)])
def test_rgb(dtype: str, count: int, planar: str, tile: tuple[int, int] | None) -> None:
    shape = (37, 53, count) if planar == "contig" else (count, 37, 53)
    image = samples(shape, dtype)
    extra = {"extrasamples": ["unassalpha"]} if count == 4 else {}
    file = written(image, photometric="rgb", planarconfig=planar, tile=tile, **extra)
    numpy.testing.assert_array_equal(mt.imread(file), image)
    assert_same(file)
    kind = mt.ColorKind.RGBA if count == 4 else mt.ColorKind.RGB
    assert mt.TiffFile(file).pages[0].color is kind


@pytest.mark.parametrize("dtype", ["u1", "u2", "i2", "f4"])
@pytest.mark.parametrize("byteorder", "<>")
def test_tiles(dtype: str, byteorder: str) -> None:
    assert_same(
        written(
            samples((100, 70), dtype), tile=(32, 16), byteorder=byteorder, photometric="minisblack"
        )
    )


@pytest.mark.parametrize("rowsperstrip", [1, 5, 37, 100])
def test_strips(rowsperstrip: int) -> None:
    assert_same(
        written(samples((37, 53), "u2"), rowsperstrip=rowsperstrip, photometric="minisblack")
    )


@pytest.mark.parametrize("planar", ["contig", "separate"])
def test_several_samples_of_gray(planar: str) -> None:
    shape = (20, 30, 5) if planar == "contig" else (5, 20, 30)
    file = written(samples(shape, "u2"), photometric="minisblack", planarconfig=planar)
    assert_same(file)
    page = mt.TiffFile(file).pages[0]
    assert page.color is mt.ColorKind.MULTIBAND
    assert page.samplesperpixel == 5


def test_pages_of_different_sides() -> None:
    file = io.BytesIO()
    with tifffile.TiffWriter(file) as writer:
        for index in range(300):
            image = samples((3 + index % 7, 5 + index % 3), "u1" if index % 2 else "u2")
            writer.write(image, photometric="minisblack", contiguous=False)
    assert_same(file.getvalue(), 300)


def test_more_pages_than_are_listed_at_first(monkeypatch: pytest.MonkeyPatch) -> None:
    file = io.BytesIO()
    with tifffile.TiffWriter(file) as writer:
        for rows in range(1, 10):
            writer.write(samples((rows, 5), "u1"), photometric="minisblack", contiguous=False)
    monkeypatch.setattr(_library, "FIRST_CAPACITY", 4)
    assert [page.imagelength for page in mt.TiffFile(file.getvalue())] == list(range(1, 10))


def test_packbits_of_pillow() -> None:
    image = numpy.repeat(samples((40, 8), "u1"), 9, axis=1)
    file = io.BytesIO()
    Image.fromarray(image).save(file, "TIFF", compression="packbits")
    page = mt.TiffFile(file.getvalue()).pages[0]
    assert page.compression == 32773
    numpy.testing.assert_array_equal(page.asarray(), image)


@pytest.mark.parametrize("mode", ["L", "RGB", "RGBA", "CMYK", "I;16"])
def test_modes_of_pillow(mode: str) -> None:
    count = len(mode) if mode.isalpha() else 1
    shape = (21, 17, count) if count > 1 else (21, 17)
    image = samples(shape, "u2" if mode == "I;16" else "u1")
    file = io.BytesIO()
    Image.frombytes(mode, (17, 21), image.tobytes()).save(file, "TIFF")
    numpy.testing.assert_array_equal(mt.imread(file.getvalue()), image)


@pytest.mark.parametrize("dtype", ["u1", "u2", "u4"])
def test_predictor(dtype: str) -> None:
    image = samples((13, 11), dtype)
    stored = numpy.diff(image, axis=1, prepend=numpy.zeros_like(image[:, :1])).tobytes()
    file = gray_file(11, 13, data=stored, t258=(3, 8 * image.itemsize), t317=(3, 2))
    numpy.testing.assert_array_equal(mt.imread(file), image)


CHUNKED = [
    {"rowsperstrip": 7},
    {"tile": (16, 32)},
    {"tile": (16, 32), "planarconfig": "separate"},
    {"rowsperstrip": 7, "planarconfig": "separate"},
]


@pytest.mark.parametrize("options", CHUNKED)
@pytest.mark.parametrize("dtype", ["u1", "f8"])
def test_chunks_make_the_image(options: dict, dtype: str) -> None:
    planar = options.get("planarconfig") == "separate"
    image = samples((3, 37, 53) if planar else (37, 53, 3), dtype)
    page = mt.TiffFile(written(image, photometric="rgb", **options)).pages[0]
    made = numpy.zeros_like(image)
    for chunk in range(page.chunk_count):
        part = page.read_chunk(chunk)
        plane_number, row, column = page.place_of(chunk)
        rows, columns = part.shape[:2]
        plane = made[plane_number] if planar else made
        plane[row : row + rows, column : column + columns] = part
    numpy.testing.assert_array_equal(made, image)


@pytest.mark.parametrize("options", CHUNKED)
@pytest.mark.parametrize("workers", [1, 3])
def test_segments_are_those_of_tifffile(
    options: dict, workers: int, monkeypatch: pytest.MonkeyPatch
) -> None:
    """But for what a tile has outside the image, which the library doesn't give: zeros here."""
    planar = options.get("planarconfig") == "separate"
    image = samples((3, 37, 53) if planar else (37, 53, 3), "u2")
    file = written(image, photometric="rgb", **options)
    monkeypatch.setattr(_parts, "STRETCH", 512)
    ours = list(mt.TiffFile(file).pages[0].segments(workers=workers))
    theirs = list(tifffile.TiffFile(io.BytesIO(file)).pages[0].segments())
    assert len(ours) == len(theirs)
    for (data, place, shape), (other, other_place, other_shape) in zip(ours, theirs):
        assert (place, shape) == (other_place, other_shape)
        rows, columns = 37 - place[2], 53 - place[3]
        assert data.shape == other.shape == shape
        numpy.testing.assert_array_equal(data[:, :rows, :columns], other[:, :rows, :columns])


SHARED = ["one_sample", "one_sample_big_endian", "big_sample", "page", "strip"]
SHARED += ["two_planes", "three_planes", "three_pages"]


@pytest.mark.parametrize("name", SHARED)
def test_files_of_the_repository(data: Path, name: str) -> None:
    # The samples of some lie behind the file's end.
    file = (data / f"{name}.tif").read_bytes() + bytes(range(256)) * 4
    with mt.TiffFile(file) as ours, tifffile.TiffFile(io.BytesIO(file)) as theirs:
        assert len(ours) == len(theirs.pages)
        for page, other in zip(ours, theirs.pages):
            assert page.shape == other.shape
            assert page.dtype == other.dtype.newbyteorder("<")
            numpy.testing.assert_array_equal(page.asarray(), other.asarray())


def test_pages_are_a_sequence(data: Path) -> None:
    with mt.TiffFile(data / "three_pages.tif") as tif:
        assert len(tif) == 3
        assert tif[1] is tif.pages[1] is list(tif)[1]
        assert tif[-1].index == 2
        assert [page.index for page in tif[1:]] == [1, 2]
        assert tif.end is mt.Status.DONE
        with pytest.raises(IndexError):
            tif[3]
        numpy.testing.assert_array_equal(tif.asarray(2), tif[2].asarray())
        third = mt.imread(data / "three_pages.tif", key=2)
        numpy.testing.assert_array_equal(third, tif.asarray(2))


def test_threads_work_apart() -> None:
    """Threads get each item once, none beside that of another, and the first error is raised."""
    for count in range(1, 30):
        for workers in range(2, 9):
            assert sorted(_parts.spread(count, workers)) == list(range(count))
    assert list(_parts.spread(10, 4)) == [0, 3, 6, 9, 1, 4, 7, 2, 5, 8]
    done: list[int] = []

    def call(item: int) -> None:
        done.append(item)
        if item > 2:
            raise ValueError(item)

    with pytest.raises(ValueError, match="^3$"):
        _parts.each(call, list(range(8)), 4)
    assert {0, 1, 2, 3} <= {*done}


@pytest.mark.parametrize("workers", [1, 2, 3, 4])
def test_long_strips(workers: int) -> None:
    """An image of many strips is read by calls of several lengths."""
    image = samples((3000, 2100), "u2")
    file = mt.imwrite(None, image, rowsperstrip=7, compression="packbits")
    numpy.testing.assert_array_equal(mt.imread(file, workers=workers), image)
    with mt.TiffFile(file) as tif:
        window = tif.pages[0].read(slice(11, 2990), slice(5, 2000), workers=workers)
    numpy.testing.assert_array_equal(window, image[11:2990, 5:2000])
