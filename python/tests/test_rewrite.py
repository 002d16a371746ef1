"""Chunks are changed in place, and no other byte of the file is."""
from __future__ import annotations

import io
import mmap
import os
from pathlib import Path

import numpy
import pytest
import tifffile
from conftest import gray_file, pyramid, samples

import mangohatch_tiff as mt
from mangohatch_tiff import Status, _rewrite


def made(image: numpy.ndarray, order: str = "<", big: bool = False, **options: object) -> bytes:
    """Returns a file of an image that tifffile writes."""
    file = io.BytesIO()
    options = {"photometric": "minisblack", "metadata": None, **options}
    tifffile.imwrite(file, image, byteorder=order, bigtiff=big, **options)
    return file.getvalue()


def bits_file(image: numpy.ndarray, bits: int, order: str = "<", **fields: tuple) -> bytes:
    """Returns a file of one gray page of few bits in one strip, whose last bits of a row are 1."""
    rows, columns = image.shape
    behind = -columns * bits % 8
    single = numpy.unpackbits(image.view("u1")[:, :, None], axis=2)[:, :, 8 - bits :]
    padded = numpy.ones((rows, columns * bits + behind), "u1")
    padded[:, : columns * bits] = single.reshape(rows, -1)
    data = numpy.packbits(padded, axis=1).tobytes()
    return gray_file(columns, rows, data=data, order=order, t258=(3, bits), **fields)


GRAY, COLORS = samples((37, 53), "u2"), samples((37, 53, 3), "u1")
RGB = {"photometric": "rgb"}
PLANES = {"photometric": "rgb", "planarconfig": "separate"}
FILES = {
    "a strip": made(GRAY),
    "strips": made(GRAY, rowsperstrip=5),
    "tiles": made(GRAY, tile=(16, 32)),
    "signed": made(GRAY.astype("i4"), tile=(16, 16), big=True),
    "floating": made(samples((37, 53), "f4"), rowsperstrip=9),
    "halves": made(samples((37, 53), "f2"), order=">", tile=(16, 16)),
    "complex": made(samples((37, 53), "c8"), rowsperstrip=7),
    "big-endian complex": made(samples((37, 53), "c8"), order=">", rowsperstrip=7),
    "big-endian": made(GRAY, order=">", tile=(16, 32)),
    "big-endian BigTIFF": made(samples((37, 53), "f8"), order=">", big=True, rowsperstrip=5),
    "colors": made(COLORS, tile=(16, 16), **RGB),
    "planes": made(COLORS.transpose(2, 0, 1).copy(), tile=(16, 16), **PLANES),
    "planes in strips": made(samples((3, 37, 53), "u2"), order=">", rowsperstrip=5, **PLANES),
    "white is zero": made(GRAY, photometric="miniswhite", tile=(16, 16)),
    "differences": mt.imwrite(None, GRAY, predictor=2, tile=(16, 32)),
    "differences of colors": mt.imwrite(None, COLORS, predictor=2, rowsperstrip=4),
    "differences of white": mt.imwrite(None, GRAY, predictor=2, photometric="miniswhite"),
    "one bit": made(samples((37, 53), "u1") > 99, rowsperstrip=37),
    "one bit, white is zero": made(samples((37, 53), "u1") > 99, photometric="miniswhite"),
    "one bit in tiles": made(samples((37, 53), "u1") > 99, tile=(16, 32)),
    "three bits": bits_file(samples((9, 7), "u1") & 7, 3),
    "four bits": bits_file(samples((9, 7), "u1") & 15, 4, order=">"),
    "four bits, white is zero": bits_file(samples((9, 7), "u1") & 15, 4, t262=(3, 0)),
}


def other(part: numpy.ndarray, most: int | None = None) -> numpy.ndarray:
    """Returns samples of the same shape and number type, most of which differ."""
    if part.dtype == bool:
        return ~part
    numbers = samples(part.shape, "u8")[::-1] * 3 + 7
    if part.dtype.kind == "f":
        return (numbers % 60_000 / 16).astype(part.dtype)
    return (numbers if most is None else numbers & most).astype(part.dtype)


def ranges(page: mt.TiffPage, chunk: int) -> slice:
    """Returns where a chunk of a page is in the file."""
    start = page.dataoffsets[chunk]
    return slice(start, start + page.databytecounts[chunk])


def assert_only_changed(before: bytes, after: bytes, part: slice) -> None:
    """Compares all bytes of a file but those of a part."""
    assert len(before) == len(after)
    assert before[: part.start] == after[: part.start]
    assert before[part.stop :] == after[part.stop :]
    assert before[part] != after[part]


@pytest.mark.parametrize("name", FILES)
def test_each_chunk_is_changed_alone(name: str) -> None:
    """Read back by this package and by tifffile, and the other chunks and all other bytes stay."""
    file = bytearray(FILES[name])
    page = mt.TiffFile(file).pages[0]
    most = (1 << page.bitspersample) - 1 if page.bitspersample < 8 else None
    for chunk in range(page.chunk_count):
        before, image, part = bytes(file), page.asarray(), page.read_chunk(chunk)
        wanted = other(part, most)
        page.rewrite(chunk, wanted)
        assert_only_changed(before, bytes(file), ranges(page, chunk))
        numpy.testing.assert_array_equal(page.read_chunk(chunk), wanted)
        plane, row, column = page.place_of(chunk)
        rows, columns = slice(row, row + wanted.shape[0]), slice(column, column + wanted.shape[1])
        if page.axes == "SYX":
            image[plane, rows, columns] = wanted
        else:
            image[rows, columns] = wanted
        numpy.testing.assert_array_equal(page.asarray(), image)
        numpy.testing.assert_array_equal(mt.imread(bytes(file)), image)
        # Without imagecodecs tifffile reads no other few bits; in strips it fails at differences.
        if (most is None or page.bitspersample == 1) and (page.predictor == 1 or page.is_tiled):
            theirs = tifffile.TiffFile(io.BytesIO(bytes(file))).pages[0]
            numpy.testing.assert_array_equal(theirs.asarray(), image)


@pytest.mark.parametrize("name", FILES)
def test_the_same_samples_leave_the_file(name: str) -> None:
    """But for bits that no pixel has: those behind the last column of a row."""
    file = bytearray(FILES[name])
    page = mt.TiffFile(file).pages[0]
    image = page.asarray()
    for chunk in range(page.chunk_count):
        page.rewrite(chunk, page.read_chunk(chunk))
    numpy.testing.assert_array_equal(page.asarray(), image)
    assert page.bitspersample < 8 or bytes(file) == FILES[name]


def test_what_lies_outside_of_the_image_stays() -> None:
    """The rows and the columns of a tile behind the image's edges."""
    image = numpy.zeros((48, 64), "u1")
    file = bytearray(made(image, tile=(16, 16)))
    page = mt.TiffFile(file).pages[0]
    noise = samples((16, 16), "u1")
    for chunk in range(page.chunk_count):
        page.rewrite(chunk, noise)
    # the image is made 37 rows and 53 columns by its tags
    for tag, size in ((256, 53), (257, 37)):
        place = mt.TiffFile(bytes(file)).pages[0].offset
        entry = file.index(tag.to_bytes(2, "little"), place)
        file[entry + 8 : entry + 10] = size.to_bytes(2, "little")
    page = mt.TiffFile(file).pages[0]
    last, before = page.chunk_count - 1, bytes(file)
    assert page.read_chunk(last).shape == (5, 5)
    page.rewrite(last, numpy.full((5, 5), 9, "u1"))
    tile = numpy.frombuffer(bytes(file[ranges(page, last)]), "u1").reshape(16, 16)
    assert (tile[:5, :5] == 9).all()
    expected = noise.copy()
    expected[:5, :5] = 9
    numpy.testing.assert_array_equal(tile, expected)
    assert_only_changed(before, bytes(file), ranges(page, last))


@pytest.mark.parametrize("big", [False, True])
@pytest.mark.parametrize("order", "<>")
def test_files_at_a_path(big: bool, order: str, tmp_path: Path) -> None:
    """The open page and others that open the file read the new samples."""
    path = tmp_path / "image.tif"
    path.write_bytes(made(GRAY, order=order, big=big, tile=(16, 32)))
    before, image, part = path.read_bytes(), GRAY.copy(), other(GRAY[16:32, :32])
    with mt.TiffFile(path) as tif, mt.TiffFile(path) as second:
        tif.pages[0].rewrite(2, part)
        image[16:32, :32] = part
        assert_only_changed(before, path.read_bytes(), ranges(tif.pages[0], 2))
        for one in (tif, second):
            numpy.testing.assert_array_equal(one.asarray(), image)
    numpy.testing.assert_array_equal(tifffile.imread(path), image)
    numpy.testing.assert_array_equal(mt.imread(path), image)


def test_a_relative_path(tmp_path: Path, monkeypatch: pytest.MonkeyPatch) -> None:
    (tmp_path / "image.tif").write_bytes(made(GRAY, rowsperstrip=5))
    monkeypatch.chdir(tmp_path)
    with mt.TiffFile("image.tif") as tif:
        monkeypatch.chdir("/")
        tif.pages[0].rewrite(7, other(GRAY[35:]))
    numpy.testing.assert_array_equal(mt.imread(tmp_path / "image.tif")[35:], other(GRAY[35:]))


def test_a_path_that_has_another_file(tmp_path: Path) -> None:
    path = tmp_path / "image.tif"
    path.write_bytes(FILES["strips"])
    with mt.TiffFile(path) as tif:
        (tmp_path / "new.tif").write_bytes(FILES["strips"])
        os.replace(tmp_path / "new.tif", path)
        with pytest.raises(mt.UnsupportedError, match="another file"):
            tif.pages[0].rewrite(0, other(GRAY[:5]))
        path.unlink()
        with pytest.raises(FileNotFoundError):
            tif.pages[0].rewrite(0, other(GRAY[:5]))


def test_writes_of_a_part(tmp_path: Path, monkeypatch: pytest.MonkeyPatch) -> None:
    """A call of the system may write fewer bytes than it is given."""
    path, pwrite = tmp_path / "image.tif", os.pwrite
    path.write_bytes(FILES["tiles"])
    monkeypatch.setattr(_rewrite.os, "pwrite", lambda n, data, at: pwrite(n, data[:100], at))
    with mt.TiffFile(path) as tif:
        page = tif.pages[0]
        page.rewrite(0, other(GRAY[:16, :32]))
        numpy.testing.assert_array_equal(page.read_chunk(0), other(GRAY[:16, :32]))
        assert_only_changed(FILES["tiles"], path.read_bytes(), ranges(page, 0))


def test_maps_and_arrays(tmp_path: Path) -> None:
    path, part = tmp_path / "image.tif", other(GRAY[:5])
    path.write_bytes(FILES["strips"])
    with open(path, "r+b") as opened, mmap.mmap(opened.fileno(), 0) as held:
        with mt.TiffFile(held) as tif:
            tif.pages[0].rewrite(0, part)
            del tif
    numpy.testing.assert_array_equal(mt.imread(path)[:5], part)
    array = numpy.frombuffer(FILES["strips"], "u1").copy()
    mt.TiffFile(array).pages[0].rewrite(0, part)
    assert array.tobytes() == path.read_bytes()
    held = memoryview(bytearray(FILES["strips"]))
    mt.TiffFile(held).pages[0].rewrite(0, part)
    assert held.tobytes() == path.read_bytes()


def test_bytes_that_can_not_be_written(tmp_path: Path) -> None:
    path, part = tmp_path / "image.tif", other(GRAY[:5])
    path.write_bytes(FILES["strips"])
    with open(path, "r+b") as opened:
        for source in (FILES["strips"], io.BytesIO(FILES["strips"]), opened):
            with mt.TiffFile(source) as tif:
                with pytest.raises(mt.UnsupportedError, match="can't be written"):
                    tif.pages[0].rewrite(0, part)
    assert path.read_bytes() == FILES["strips"]


def test_a_file_that_is_no_buffer() -> None:
    page = mt.TiffFile(FILES["strips"]).pages[0]
    part = page.read_chunk(0)
    page._file = object()
    with pytest.raises(mt.UnsupportedError, match="neither at a path nor in memory"):
        page.rewrite(0, part)


@pytest.mark.skipif(os.geteuid() == 0, reason="root writes any file")
def test_a_file_that_may_only_be_read(tmp_path: Path) -> None:
    path = tmp_path / "image.tif"
    path.write_bytes(FILES["strips"])
    path.chmod(0o400)
    with mt.TiffFile(path) as tif, pytest.raises(PermissionError):
        tif.pages[0].rewrite(0, other(GRAY[:5]))


def test_pages_out_of_the_chain() -> None:
    file, image = pyramid(False, ">")
    held = bytearray(file)
    tif = mt.TiffFile(held)
    page = tif.page_at(tif.pages[0].tags.told(330)[1])
    before, part = bytes(held), other(page.read_chunk(0))
    page.rewrite(0, part)
    assert_only_changed(before, bytes(held), ranges(page, 0))
    numpy.testing.assert_array_equal(page.read_chunk(0), part)
    numpy.testing.assert_array_equal(tif.pages[0].asarray(), image)


def test_samples_as_they_are_shown() -> None:
    """Of a page whose zero is white; and of one with samples that the library leaves out."""
    file = bytearray(FILES["white is zero"])
    page = mt.TiffFile(file).pages[0]
    page.rewrite(0, other(GRAY[:16, :16]), shown=True)
    numpy.testing.assert_array_equal(page.read_chunk(0), ~other(GRAY[:16, :16]))
    image = samples((20, 30, 5), "u2")
    options = {"extrasamples": (0, 0), "rowsperstrip": 5}
    for order in "<>":
        file = bytearray(made(image, order=order, **RGB, **options))
        page = mt.TiffFile(file).pages[0]
        with pytest.raises(mt.UnsupportedError, match="leaves out"):
            page.rewrite(1, image[5:10])
        assert page.shape_of(shown=True) == (20, 30, 3)
        page.rewrite(1, other(image[5:10, :, :3]), shown=True)
        expected = image.copy()
        expected[5:10, :, :3] = other(image[5:10, :, :3])
        numpy.testing.assert_array_equal(page.asarray(), expected)
        numpy.testing.assert_array_equal(tifffile.imread(io.BytesIO(bytes(file))), expected)


def refused(file: bytes, chunk: int, part: numpy.ndarray, **options: bool) -> mt.TiffError:
    """Returns the error by which a chunk isn't changed, and compares the file."""
    held = bytearray(file)
    with pytest.raises(mt.TiffError) as error:
        mt.TiffFile(held).pages[0].rewrite(chunk, part, **options)
    assert bytes(held) == file
    return error.value


def test_what_the_library_refuses() -> None:
    packed = mt.imwrite(None, GRAY, compression="packbits", rowsperstrip=5)
    error = refused(packed, 1, GRAY[5:10])
    assert (error.status, error.page) == (Status.UNSUPPORTED_COMPRESSION_METHOD, 0)
    assert type(error) is mt.TiffError
    floating = bytes(12)
    file = gray_file(3, 1, data=floating, t258=(3, 32), t339=(3, 3), t317=(3, 3))
    part = numpy.zeros((1, 3), "f4")
    assert refused(file, 0, part).status is Status.FLOATING_POINT_PREDICTOR
    short = gray_file(t279=(4, 11))
    assert refused(short, 0, samples((3, 4), "u1")).status is Status.INSUFFICIENT_OUTPUT_BUFFER_SIZE
    cut = gray_file(t279=(4, 10_000))
    assert refused(cut, 0, samples((3, 4), "u1")).status is Status.UNEXPECTED_EOF
    typed = gray_file(t273=(13, 8))
    assert refused(typed, 0, samples((3, 4), "u1")).status is Status.INVALID_TYPE_FOR_TAG
    for chunk in (-1, 1, 1 << 40):
        error = refused(gray_file(), chunk, samples((3, 4), "u1"))
        assert error.status is Status.INVALID_CHUNK_INDEX


def test_what_this_package_refuses() -> None:
    part = samples((3, 4), "u1")
    for file in (gray_file(t262=(3, 3)), gray_file(t262=(3, 3), t317=(3, 2)), made(part + 0j)):
        error = refused(file, 0, mt.TiffFile(file).pages[0].read_chunk(0))
        assert isinstance(error, mt.UnsupportedError) and "leaves out" in str(error)
    assert "FillOrder" in str(refused(gray_file(t266=(3, 2)), 0, part, shown=True))
    assert "doesn't have" in str(refused(gray_file(t273=(4, 0)), 0, part))


@pytest.mark.parametrize(
    "part",
    [
        GRAY[:6],
        GRAY[:5, :-1],
        GRAY[:5, :, None],
        GRAY[:5].T,
        GRAY[:5].astype("u1"),
        GRAY[:5].astype("i2"),
        GRAY[:5].astype("f4"),
        GRAY[0],
        GRAY[0, 0],
    ],
)
def test_arrays_of_another_form(part: numpy.ndarray) -> None:
    file = bytearray(FILES["strips"])
    page = mt.TiffFile(file).pages[0]
    with pytest.raises(ValueError, match="samples have .* and chunk 0"):
        page.rewrite(0, part)
    with pytest.raises(ValueError, match="chunk 7"):
        page.rewrite(7, GRAY[:5])
    assert bytes(file) == FILES["strips"]


def test_numbers_of_more_bits() -> None:
    file = bytearray(FILES["three bits"])
    with pytest.raises(ValueError, match="more than 3 bits"):
        mt.TiffFile(file).pages[0].rewrite(0, numpy.full((9, 7), 8, "u1"))
    assert bytes(file) == FILES["three bits"]


def test_arrays_of_another_layout() -> None:
    """Of the other byte order, by columns, and of which each second number is taken."""
    part = other(GRAY[:5])
    for given in (part.astype(">u2"), numpy.asfortranarray(part), numpy.repeat(part, 2, 1)[:, ::2]):
        file = bytearray(FILES["strips"])
        page = mt.TiffFile(file).pages[0]
        page.rewrite(0, given)
        numpy.testing.assert_array_equal(page.read_chunk(0), part)
