"""Windows of pages, and several threads at once."""
from __future__ import annotations

import io
from collections.abc import Callable
from concurrent.futures import ThreadPoolExecutor

import numpy
import pytest
import tifffile
from conftest import samples

import mangohatch_tiff as mt
from mangohatch_tiff import _library, _parts

LAYOUTS = [
    {"rowsperstrip": 7},
    {"rowsperstrip": 100},
    {"tile": (16, 32)},
    {"tile": (64, 64)},
    {"rowsperstrip": 7, "compression": "packbits"},
    {"tile": (16, 32), "planarconfig": "separate"},
    {"rowsperstrip": 5, "planarconfig": "separate"},
    {"tile": (32, 16), "byteorder": ">"},
]
WINDOWS = [
    (slice(None), slice(None)),
    (slice(10, 30), slice(None)),
    (slice(None), slice(33, 35)),
    (slice(14, 21), slice(20, 50)),
    (slice(-1, None), slice(-3, None)),
    (slice(0, 1), slice(0, 1)),
    (slice(20, 20), slice(None)),
    (slice(30, 10), slice(7, 9)),
    (slice(5, 900), slice(40, 900)),
]


def page_of(options: dict, dtype: str = "u2") -> tuple[mt.TiffPage, numpy.ndarray]:
    """Returns a page that tifffile writes, and its image with the samples last."""
    image = samples((37, 53, 3), dtype)
    planar = options.get("planarconfig") == "separate"
    if "compression" in options:
        return mt.TiffFile(mt.imwrite(None, image, photometric="rgb", **options)).pages[0], image
    file = io.BytesIO()
    given = image.transpose(2, 0, 1).copy() if planar else image
    if options.get("byteorder") == ">":
        given = given.astype(given.dtype.newbyteorder(">"))
    tifffile.imwrite(file, given, photometric="rgb", **options)
    return mt.TiffFile(file.getvalue()).pages[0], image


@pytest.mark.parametrize("options", LAYOUTS)
@pytest.mark.parametrize("workers", [1, 4])
def test_windows(options: dict, workers: int, monkeypatch: pytest.MonkeyPatch) -> None:
    page, image = page_of(options)
    planar = page.axes == "SYX"
    for stretch in (1, 500, 1 << 20):
        monkeypatch.setattr(_parts, "STRETCH", stretch)
        for rows, columns in WINDOWS:
            expected = image[rows, columns]
            expected = expected.transpose(2, 0, 1) if planar else expected
            read = page.read(rows, columns, workers=workers)
            assert read.shape == expected.shape
            numpy.testing.assert_array_equal(read, expected)
            out = numpy.zeros(expected.shape, "u2")
            assert page.read(rows, columns, out=out, workers=workers) is out
            numpy.testing.assert_array_equal(out, expected)


def noting(call: Callable[..., int], found: list[int]) -> Callable[..., int]:
    """Returns a call that reads several chunks, and first notes their numbers."""

    def read_several(*given: int) -> int:
        found.extend(range(given[3], given[3] + given[4]))
        return int(call(*given))

    return read_several


def chunks_read(monkeypatch: pytest.MonkeyPatch, read: Callable[[], object]) -> list[int]:
    """Returns the numbers of the chunks that the library reads during a call, several at once."""
    found: list[int] = []
    with monkeypatch.context() as patch:
        for name in ("READ_CHUNKS", "READ_PLANNED_CHUNKS"):
            patch.setattr(_library, name, noting(getattr(_library, name), found))
        read()
    return found


def test_a_window_reads_the_chunks_that_it_needs(monkeypatch: pytest.MonkeyPatch) -> None:
    page, _ = page_of({"tile": (16, 16)})
    read: list[int] = []
    for opened in (0, 1024):
        monkeypatch.setattr(_parts, "OPENED", opened)
        read += chunks_read(monkeypatch, lambda: page.read(slice(17, 20), slice(16, 47), workers=1))
    assert read == [5, 6, 5, 6]


def test_windows_that_are_none() -> None:
    page, _ = page_of({})
    with pytest.raises(ValueError, match="step"):
        page.read(slice(0, 9, 2))
    with pytest.raises(ValueError, match="workers"):
        page.asarray(workers=0)


@pytest.mark.parametrize("options", LAYOUTS)
@pytest.mark.parametrize("dtype", ["u1", "f4"])
def test_threads_read_the_same(
    options: dict, dtype: str, monkeypatch: pytest.MonkeyPatch
) -> None:
    page, image = page_of(options, dtype)
    monkeypatch.setattr(_parts, "STRETCH", 256)
    expected = image.transpose(2, 0, 1) if page.axes == "SYX" else image
    for workers in (None, 1, 2, 16):
        numpy.testing.assert_array_equal(page.asarray(workers=workers), expected)
    with ThreadPoolExecutor(4) as pool:
        for read in pool.map(lambda _: page.asarray(workers=2), range(8)):
            numpy.testing.assert_array_equal(read, expected)


@pytest.mark.parametrize("workers", [1, 4])
def test_the_first_error_is_raised(workers: int, monkeypatch: pytest.MonkeyPatch) -> None:
    image = samples((64, 64), "u1")
    made = io.BytesIO()
    tifffile.imwrite(made, image, rowsperstrip=4, photometric="minisblack")
    monkeypatch.setattr(_parts, "STRETCH", 256)
    page = mt.TiffFile(made.getvalue()[: -20 * 64]).pages[0]
    with pytest.raises(mt.TiffError) as error:
        page.asarray(workers=workers)
    assert error.value.status is mt.Status.UNEXPECTED_EOF and error.value.page == 0
    numpy.testing.assert_array_equal(page.read(slice(0, 40), workers=workers), image[:40])
