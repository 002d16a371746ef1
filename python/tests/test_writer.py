"""Files of which pages are written one after another, and files that get more pages."""
from __future__ import annotations

import ctypes
import ctypes.util
import inspect
import io
import os
import struct
from pathlib import Path

import numpy
import pytest
import tifffile
from conftest import samples
from PIL import Image

import mangohatch_tiff as mt
from mangohatch_tiff import _writer

WRITTEN = [
    (samples((12, 10), "u1"), {}),
    (samples((12, 10, 3), "u2"), {"photometric": "rgb", "tile": (16, 16)}),
    (samples((5, 12, 10), "f4"), {"photometric": "minisblack", "compression": "packbits"}),
    (samples((12, 10), "u1"), {"description": "the last", "resolution": (300, 300)}),
]
STACK = samples((5, 12, 10), "f4")


def write_all(writer: mt.TiffWriter) -> None:
    """Writes some arrays."""
    for image, options in WRITTEN:
        writer.write(image, **options)


def assert_written(file: bytes, before: int = 0) -> None:
    """Compares the pages of a file with the arrays that were written, also by tifffile."""
    pages = [WRITTEN[0][0], WRITTEN[1][0], *WRITTEN[2][0], WRITTEN[3][0]]
    ours, theirs = mt.TiffFile(file), tifffile.TiffFile(io.BytesIO(file))
    assert len(ours) == len(theirs.pages) == before + len(pages) and ours.end is mt.Status.DONE
    for image, page, other in zip(pages, ours.pages[before:], theirs.pages[before:]):
        numpy.testing.assert_array_equal(page.asarray(), image)
        numpy.testing.assert_array_equal(other.asarray(), image)
    assert ours.pages[-1].description == "the last" and ours.pages[-1].resolution == (300, 300)
    assert ours.pages[before + 1].tile == (16, 16) and ours.pages[before + 2].compression == 32773


@pytest.mark.parametrize("bigtiff", [False, True])
@pytest.mark.parametrize("waiting", [0, 1 << 24])
def test_pages(bigtiff: bool, waiting: int, tmp_path: Path, monkeypatch) -> None:
    monkeypatch.setattr(_writer, "WAITING", waiting)
    path, memory = tmp_path / "pages.tif", io.BytesIO()
    for target in (path, str(path), memory):
        with mt.TiffWriter(target, bigtiff=bigtiff) as writer:
            write_all(writer)
            assert "wait" in repr(writer)
    assert_written(path.read_bytes())
    assert_written(memory.getvalue())
    assert mt.TiffFile(path).is_bigtiff == bigtiff
    with open(tmp_path / "more.tif", "w+b") as file:
        file.write(b"1234")
        with mt.TiffWriter(file, bigtiff=bigtiff) as writer:
            write_all(writer)
        assert not file.closed and file.tell() == path.stat().st_size + 4
    assert_written((tmp_path / "more.tif").read_bytes()[4:])


def test_a_file_that_is_not_read(tmp_path: Path, monkeypatch) -> None:
    """Its pages wait until the end."""
    monkeypatch.setattr(_writer, "WAITING", 0)
    with open(tmp_path / "pages.tif", "wb") as file, mt.TiffWriter(file) as writer:
        write_all(writer)
    assert_written((tmp_path / "pages.tif").read_bytes())


def test_arrays_that_change_behind() -> None:
    memory, image = io.BytesIO(), numpy.zeros((12, 10), "u1")
    with mt.TiffWriter(memory) as writer:
        for value in range(3):
            image[...] = value
            writer.write(image)
    assert mt.imread(memory.getvalue())[:, 0, 0].tolist() == [0, 1, 2]


def test_what_is_refused(tmp_path: Path) -> None:
    path = tmp_path / "pages.tif"
    for given in ({"byteorder": ">"}, {"imagej": True}, {"ome": True}, {"shaped": True}):
        with pytest.raises(mt.UnsupportedError, match=[*given][0]):
            mt.TiffWriter(path, **given)
    assert not path.exists()
    with pytest.raises(TypeError, match="bigTiff"):
        mt.TiffWriter(path, bigTiff=True)
    with mt.TiffWriter(path) as writer:
        for given in ({"contiguous": True}, {"returnoffset": True}):
            with pytest.raises(mt.UnsupportedError, match=[*given][0]):
                writer.write(samples((3, 4), "u1"), **given)
        with pytest.raises(TypeError, match="colour"):
            writer.write(samples((3, 4), "u1"), colour="rgb")
        with pytest.raises(mt.UnsupportedError, match="complex64"):
            writer.write(samples((3, 4), "c8"))
        writer.write(samples((3, 4), "u1"), subifds=None, contiguous=False)
    numpy.testing.assert_array_equal(mt.imread(path), samples((3, 4), "u1"))


def test_parameters_of_tifffile_are_known() -> None:
    opened = set(inspect.signature(tifffile.TiffWriter.__init__).parameters) - {"self", "file"}
    assert opened == set(_writer.OPENED) | {"bigtiff", "append"}
    written = set(inspect.signature(tifffile.TiffWriter.write).parameters) - {"self", "data"}
    ours = set(inspect.signature(mt.imwrite).parameters) | set(
        inspect.signature(mt.TiffWriter.write).parameters
    )
    assert written <= ours | set(_writer.WRITTEN)


def appended(before: bytes, waiting: int, path: Path, monkeypatch) -> bytes:
    """Returns a file with more pages, and compares what was there."""
    monkeypatch.setattr(_writer, "WAITING", waiting)
    path.write_bytes(before)
    with mt.TiffWriter(path, append=True) as writer:
        write_all(writer)
    memory = io.BytesIO(before)
    with mt.TiffWriter(memory, append=True) as writer:
        write_all(writer)
    file = path.read_bytes()
    assert file == memory.getvalue()
    changed = [at for at, byte in enumerate(before) if file[at] != byte]
    assert len(changed) <= 8 and (not changed or changed[-1] - changed[0] < 8)
    return file


BEFORE = {"ours": {}, "ours, big": {"bigtiff": True}, "tifffile's": None}


@pytest.mark.parametrize("name", BEFORE)
@pytest.mark.parametrize("waiting", [0, 1 << 24])
def test_append(name: str, waiting: int, tmp_path: Path, monkeypatch) -> None:
    options = BEFORE[name]
    if options is None:
        made = io.BytesIO()
        tifffile.imwrite(made, samples((3, 7, 8), "u2"), photometric="minisblack", metadata=None)
        before = made.getvalue()
    else:
        before = mt.imwrite(None, samples((3, 7, 8), "u2"), photometric="minisblack", **options)
    file = appended(before, waiting, tmp_path / "pages.tif", monkeypatch)
    assert_written(file, 3)
    numpy.testing.assert_array_equal(mt.imread(file, key=slice(0, 3)), samples((3, 7, 8), "u2"))


class Recorded(io.BytesIO):
    """A file that keeps where it is written, and what."""

    def __init__(self, data: bytes) -> None:
        super().__init__(data)
        self.writes: list[tuple[int, bytes]] = []

    def write(self, data: memoryview) -> int:
        self.writes.append((self.tell(), bytes(data)))
        return super().write(data)


@pytest.mark.parametrize("big", [False, True])
def test_a_file_whose_writing_is_cut(big: bool) -> None:
    """What is added lies behind the file, and the link to it is written last."""
    before = mt.imwrite(None, samples((3, 7, 8), "u2"), photometric="minisblack", bigtiff=big)
    file = Recorded(before)
    with mt.TiffWriter(file, append=True) as writer:
        write_all(writer)
    (place, data), (link, target) = file.writes
    assert place == len(before) and len(target) == (8 if big else 4) and link < len(before)
    for length in (0, 1, len(data) // 2, len(data)):
        cut = mt.TiffFile(before + data[:length])
        assert len(cut) == 3 and cut.end is mt.Status.DONE
        numpy.testing.assert_array_equal(cut.asarray(), samples((3, 7, 8), "u2"))


def test_a_big_endian_file_gets_no_pages(tmp_path: Path) -> None:
    path = tmp_path / "pages.tif"
    tifffile.imwrite(path, samples((3, 4), ">u2"), byteorder=">", photometric="minisblack")
    before = path.read_bytes()
    with pytest.raises(mt.UnsupportedError, match="big-endian") as error:
        mt.imwrite(path, samples((3, 4), "u2"), append=True)
    assert error.value.status is mt.Status.BYTE_ORDER_MISMATCH
    assert path.read_bytes() == before


def test_append_by_imwrite(tmp_path: Path) -> None:
    path, image = tmp_path / "pages.tif", samples((12, 10), "u1")
    for _ in range(3):
        mt.imwrite(path, image, append=True)
    numpy.testing.assert_array_equal(mt.imread(path), numpy.stack([image] * 3))
    numpy.testing.assert_array_equal(tifffile.imread(path), numpy.stack([image] * 3))


def test_files_that_get_no_pages(tmp_path: Path) -> None:
    path, image = tmp_path / "pages.tif", samples((12, 10), "u1")
    path.write_bytes(b"no TIFF file")
    with pytest.raises(mt.TiffError):
        mt.TiffWriter(path, append=True)
    assert path.read_bytes() == b"no TIFF file"
    whole = mt.imwrite(None, numpy.stack([image] * 2))
    cycle = bytearray(whole)
    first = int.from_bytes(whole[4:8], "little")
    count = int.from_bytes(whole[first : first + 2], "little")
    second = int.from_bytes(whole[first + 2 + 12 * count :][:4], "little")
    count = int.from_bytes(whole[second : second + 2], "little")
    link = second + 2 + 12 * count
    cycle[link : link + 4] = first.to_bytes(4, "little")
    path.write_bytes(cycle)
    with pytest.raises(mt.TiffError) as error:
        mt.imwrite(path, image, append=True)
    assert error.value.status is mt.Status.CYCLE_IN_OFFSETS
    assert path.read_bytes() == cycle


def test_many_pages(tmp_path: Path, monkeypatch) -> None:
    monkeypatch.setattr(_writer, "WAITING", 4000)
    path = tmp_path / "pages.tif"
    stack = samples((500, 6, 7), "u2")
    with mt.TiffWriter(path, bigtiff=True) as writer:
        for image in stack:
            writer.write(image)
    numpy.testing.assert_array_equal(mt.imread(path), stack)


def assert_levels(file: bytes, before: int, stack: numpy.ndarray) -> None:
    """Compares the levels of a pyramid, and the page behind it, also by tifffile."""
    ours, theirs = mt.TiffFile(file), tifffile.TiffFile(io.BytesIO(file))
    assert len(ours) == len(theirs.pages) == before + len(stack) + 1
    for index, image in enumerate(stack):
        page, other = ours.pages[before + index], theirs.pages[before + index]
        numpy.testing.assert_array_equal(page.asarray(), image)
        numpy.testing.assert_array_equal(other.asarray(), image)
        places = page.tags["SubIFDs"].value
        assert list(places) == list(other.subifds) and len(places) == 2
        for step, place, level in zip((2, 4), places, other.pages):
            numpy.testing.assert_array_equal(ours.page_at(place).asarray(), image[::step, ::step])
            numpy.testing.assert_array_equal(level.asarray(), image[::step, ::step])
    numpy.testing.assert_array_equal(ours.pages[-1].asarray(), WRITTEN[0][0])


@pytest.mark.parametrize("bigtiff", [False, True])
@pytest.mark.parametrize("waiting", [0, 1 << 24])
def test_subifds(bigtiff: bool, waiting: int, tmp_path: Path, monkeypatch) -> None:
    monkeypatch.setattr(_writer, "WAITING", waiting)
    path, stack = tmp_path / "levels.tif", samples((3, 32, 48), "u2")

    def write(writer: mt.TiffWriter) -> None:
        writer.write(stack, subifds=2, tile=(16, 16), photometric="minisblack")
        for step in (2, 4):
            writer.write(stack[:, ::step, ::step], subfiletype=1, photometric="minisblack")
        writer.write(WRITTEN[0][0])

    with mt.TiffWriter(path, bigtiff=bigtiff) as writer:
        write(writer)
    assert_levels(path.read_bytes(), 0, stack)
    with mt.TiffWriter(path, append=True) as writer:
        write(writer)
    assert_levels(path.read_bytes(), 4, stack)


def test_refused_subifds(tmp_path: Path) -> None:
    path, stack = tmp_path / "levels.tif", STACK
    with mt.TiffWriter(path) as writer:
        writer.write(stack, subifds=2)
        with pytest.raises(ValueError, match="4 pages as SubIFDs of 5"):
            writer.write(stack[:4], photometric="minisblack")
        with pytest.raises(mt.UnsupportedError, match="subifds of SubIFDs"):
            writer.write(stack, subifds=1)
        writer.write(stack)
    # the second array never came
    assert [len(page.tags["SubIFDs"].value) for page in tifffile.TiffFile(path).pages] == [1] * 5
    with mt.TiffWriter(path) as writer, pytest.raises(ValueError, match="subifds=-1"):
        writer.write(stack, subifds=-1)


def read_by_libtiff(file: Path, place: int, like: numpy.ndarray) -> numpy.ndarray:
    """Returns the image of the directory at an offset, which is in strips, as libtiff reads it."""
    library = ctypes.CDLL(ctypes.util.find_library("tiff"))
    library.TIFFOpen.restype, library.TIFFReadEncodedStrip.restype = (
        ctypes.c_void_p,
        ctypes.c_ssize_t,
    )
    tif = ctypes.c_void_p(library.TIFFOpen(os.fsencode(file), b"r"))
    assert library.TIFFSetSubDirectory(tif, ctypes.c_uint64(place)) == 1
    image, read = numpy.zeros_like(like), 0
    for strip in range(library.TIFFNumberOfStrips(tif)):
        rest = ctypes.c_void_p(image.ctypes.data + read)
        size = library.TIFFReadEncodedStrip(
            tif, ctypes.c_uint32(strip), rest, ctypes.c_ssize_t(image.nbytes - read)
        )
        assert size > 0
        read += size
    library.TIFFClose(tif)
    assert read == image.nbytes
    return image


def read_by_pillow(file: bytes, place: int, bigtiff: bool) -> numpy.ndarray:
    """Returns the image of the directory at an offset, to which the header of a copy links, as
    Pillow reads it."""
    copy = bytearray(file)
    struct.pack_into(*("<Q", copy, 8) if bigtiff else ("<I", copy, 4), place)
    with Image.open(io.BytesIO(copy)) as image:
        return numpy.asarray(image)


@pytest.mark.parametrize("compression", [None, "packbits"])
@pytest.mark.parametrize("dtype", ["u1", "u2", "f4"])
@pytest.mark.parametrize("bigtiff", [False, True])
def test_others_read_subifds(
    bigtiff: bool, dtype: str, compression: str | None, tmp_path: Path
) -> None:
    path, stack = tmp_path / "levels.tif", samples((2, 40, 24), dtype)
    with mt.TiffWriter(path, bigtiff=bigtiff) as writer:
        writer.write(stack, subifds=2, compression=compression, rowsperstrip=7)
        for step in (2, 4):
            writer.write(
                stack[:, ::step, ::step], subfiletype=1, compression=compression, rowsperstrip=3
            )
    ours, file = mt.TiffFile(path), path.read_bytes()
    for index, image in enumerate(stack):
        for step, place in zip((2, 4), ours.pages[index].tags["SubIFDs"].value):
            level = numpy.ascontiguousarray(image[::step, ::step])
            if ctypes.util.find_library("tiff"):
                numpy.testing.assert_array_equal(read_by_libtiff(path, place, level), level)
            numpy.testing.assert_array_equal(read_by_pillow(file, place, bigtiff), level)
