"""Pages as they are passed to the library: the same files as those of jobs, and refused pages."""
from __future__ import annotations

from dataclasses import replace
from pathlib import Path

import numpy
import pytest
from conftest import samples

import mangohatch_tiff as mt
from mangohatch_tiff import PageField, Status, _new_pages
from mangohatch_tiff._new_pages import Layout, NewPage, NewTag

METHODS = {1: "uncompressed", 32773: "packbits"}


def page_of(dtype: str, count: int = 1, color: str = "Gray", **layout: object) -> NewPage:
    """Returns a page of 37 rows, 53 columns and so many samples."""
    image = numpy.ascontiguousarray(samples((37, 53, count), dtype), f"<{dtype}")
    return NewPage((color, dtype), image, Layout(**layout))


def words_of(page: NewPage) -> str:
    """Returns the samples of a page as words of jobs, floating-point ones by their bits."""
    image = page.samples
    if image.dtype.kind != "f":
        return " ".join(map(str, image.ravel().tolist()))
    return " ".join(map(hex, image.view(f"<u{image.dtype.itemsize}").ravel().tolist()))


def jobs_of(page: NewPage) -> list[str]:
    """Returns the jobs that write a page, as the header has them at tiff_write_pages."""
    layout, (kind, number) = page.layout, page.color
    sign, ending = {"u": ("", ""), "i": ("I", ""), "f": ("", "Float")}[number[0]]
    jobs = [f"predictor {layout.predictor}", f"compression {METHODS[layout.method]}"]
    jobs.append(f"image {kind}{sign}{8 * int(number[1])}{ending} 53 37")
    if layout.extra:
        jobs.append("extra_samples " + " ".join(map(str, layout.extra)))
    if layout.tile:
        jobs.append(f"tiles {layout.tile[1]} {layout.tile[0]}")
    if layout.rowsperstrip:
        jobs.append(f"rows_per_strip {layout.rowsperstrip}")
    if layout.planar:
        jobs.append("planar")
    if page.resolution:
        unit, (a, b), (c, d) = page.resolution
        jobs.append(f"resolution {unit} {a}/{b} {c}/{d}")
    for tag in page.tags:
        jobs.append(f"write_tag_buf {tag.code} {tag.kind} little {tag.data.hex() or '-'}")
    return [*jobs, "write_data " + words_of(page)]


TAGS = (
    NewTag(270, 2, 7, b"a scan\0"),
    NewTag(33550, 12, 3, numpy.array([0.5, 0.25, 0], "<f8").tobytes()),
    NewTag(65000, 3, 2, b"\1\2\3\4"),
    NewTag(65001, 7, 3, b"\0a\0"),
    NewTag(65002, 5, 1, b"\1\0\0\0\3\0\0\0"),
)
PAGES = {
    "one tag": replace(page_of("u1"), tags=TAGS[2:3]),
    "tags": replace(page_of("i2"), tags=TAGS),
    "a resolution": replace(page_of("f4"), resolution=(2, (300, 1), (301, 2))),
    "strips": page_of("u4", rowsperstrip=5),
    "tiles": page_of("u8", tile=(16, 32)),
    "packed tiles": page_of("i1", tile=(16, 32), method=32773),
    "differences": page_of("u2", 3, "RGB", predictor=2, rowsperstrip=7, method=32773),
    "planes": page_of("u2", 3, "RGB", planar=True),
    "planes in tiles": page_of("f8", 3, "RGB", planar=True, tile=(16, 16)),
    "extra samples": page_of("u1", 5, "RGB", extra=(2, 0)),
    "gray samples": page_of("u1", 3, extra=(0, 0), planar=True),
    "CMYK": replace(page_of("u1", 4, "CMYK", rowsperstrip=9), tags=TAGS),
}


def assert_same(pages: list[NewPage], big: bool) -> None:
    """Compares the file of pages with that of their jobs."""
    jobs = "\n".join(job for page in pages for job in jobs_of(page))
    assert b"".join(_new_pages._write_pages(pages, big)) == mt.write_jobs(None, jobs, big=big)


@pytest.mark.parametrize("name", PAGES)
@pytest.mark.parametrize("big", [False, True])
def test_the_file_is_that_of_jobs(name: str, big: bool) -> None:
    assert_same([PAGES[name]], big)


@pytest.mark.parametrize("batch", [1 << 24, 1 << 17, 1 << 10])
@pytest.mark.parametrize("big", [False, True])
def test_all_pages_in_one_file(big: bool, batch: int, monkeypatch: pytest.MonkeyPatch) -> None:
    """The file is the same if one call writes all pages and if several ones do."""
    monkeypatch.setattr(_new_pages, "BATCH", batch)
    assert_same(list(PAGES.values()), big)


def test_batches() -> None:
    """Calls get pages of a few bytes together, and all pages where one is long or has a parent."""
    page = NewPage(("Gray", "u1"), numpy.zeros((1 << 11, 1 << 11, 1), "u1"), Layout())
    counts = [(len(some), len(rest)) for some, rest in _new_pages.batches([page] * 10)]
    assert counts == [(4, 6), (4, 2), (2, 0)]
    for other in (
        replace(page, samples=numpy.zeros((1 << 12, (1 << 11) + 1, 1), "u1")),
        replace(page, parent=1),
    ):
        assert [len(some) for some, _ in _new_pages.batches([page] * 9 + [other])] == [10]


def test_a_buffer_that_is_too_short(monkeypatch: pytest.MonkeyPatch) -> None:
    """Files that are longer than their first buffer are written again, whichever call finds it."""
    monkeypatch.setattr(_new_pages, "BATCH", 1 << 17)
    monkeypatch.setattr(_new_pages, "capacity_of", lambda page: page.samples.nbytes // 3)
    for big in (False, True):
        assert_same(list(PAGES.values()), big)


FRAMED = [page for page in PAGES.values() if page.is_framed]


@pytest.mark.parametrize("big", [False, True])
def test_pages_around_their_samples(big: bool, monkeypatch: pytest.MonkeyPatch) -> None:
    """The file around the samples of pages is that of jobs too, and no page's samples are copied."""
    monkeypatch.setattr(_new_pages, "APART", 0)
    for pages in (FRAMED, *([page] for page in FRAMED), [*FRAMED, *FRAMED]):
        assert_same(pages, big)
        parts = _new_pages._write_pages(pages, big)
        assert len(parts) == 2 * len(pages) + 1
        apart = sum(map(len, parts[1::2]))
        assert apart == sum(page.tiled().given.nbytes for page in pages)


@pytest.mark.parametrize("count", [1, 1000, 1961, 6000])
def test_bytes_that_are_as_the_samples(count: int, monkeypatch: pytest.MonkeyPatch) -> None:
    """Where bytes in front of the samples are as the samples, the file is that of jobs too."""
    monkeypatch.setattr(_new_pages, "APART", 0)
    black = replace(page_of("u1"), samples=numpy.zeros((37, 53, 1), "u1"))
    page = replace(black, tags=(NewTag(65000, 1, 9, bytes(9)), NewTag(65001, 1, count, bytes(count))))
    for pages in ([page], [page, page], [black, page, black]):
        assert_same(pages, False)
        assert_same(pages, True)


@pytest.mark.parametrize("shape", [(32, 48, 1), (33, 48, 3), (32, 47, 4), (5, 7, 2), (100, 16, 1)])
def test_samples_by_tiles(shape: tuple[int, int, int]) -> None:
    """Each tile has its part of the image, and zeros where that ends."""
    image = samples(shape, "u2")
    tiles = _new_pages.by_tiles(image, (32, 16))
    rows, columns = -(-shape[0] // 32), -(-shape[1] // 16)
    assert tiles.shape == (rows, columns, 32, 16, shape[2])
    whole = numpy.zeros((rows * 32, columns * 16, shape[2]), "u2")
    whole[: shape[0], : shape[1]] = image
    for row in range(rows):
        for column in range(columns):
            part = whole[row * 32 : row * 32 + 32, column * 16 : column * 16 + 16]
            numpy.testing.assert_array_equal(tiles[row, column], part)


def test_a_frame_that_is_too_long(monkeypatch: pytest.MonkeyPatch) -> None:
    """A frame that is longer than its first buffer is written again."""
    monkeypatch.setattr(_new_pages, "APART", 0)
    monkeypatch.setattr(_new_pages, "around_of", lambda page: 10)
    for big in (False, True):
        assert_same(FRAMED, big)


def test_many_pages() -> None:
    stack = samples((1000, 5, 7), "u2")
    stack[:, 0, 0] = numpy.arange(1000)
    file = mt.imwrite(None, stack, photometric="minisblack", resolution=(300, 300))
    tif = mt.TiffFile(file)
    assert len(tif) == 1000
    numpy.testing.assert_array_equal(tif.asarray(), stack)
    assert tif[999].resolution == (300, 300)


GOOD = page_of("u1", rowsperstrip=5)
EMPTY = replace(GOOD, samples=numpy.zeros((0, 53, 1), "u1"))
REFUSED = [
    (replace(GOOD, layout=Layout(method=5)), "METHOD", "UNSUPPORTED_COMPRESSION_METHOD"),
    (replace(GOOD, layout=Layout(predictor=9)), "PREDICTOR", "UNKNOWN_PREDICTOR"),
    (replace(GOOD, resolution=(9, (1, 1), (1, 1))), "RESOLUTION", "INVALID_INPUT"),
    (replace(GOOD, layout=Layout(extra=(9,))), "EXTRA_SAMPLES", "INVALID_INPUT"),
    (replace(GOOD, tags=(NewTag(65000, 99, 1, b"a"),)), "TAGS", "UNSUPPORTED_DATA_TYPE"),
    (replace(GOOD, tags=(NewTag(65000, 3, 1, b"a"),)), "TAGS", "MISMATCHED_ENTRY_LENGTH"),
    (replace(GOOD, color=("Gray", "u2")), "SAMPLES", "MISMATCHED_ENTRY_LENGTH"),
    (replace(GOOD, layout=Layout(tile=(10, 16))), "LAYOUT", "INVALID_INPUT"),
    (replace(GOOD, layout=Layout(tile=(16, 16), rowsperstrip=5)), "LAYOUT", "INVALID_INPUT"),
    (EMPTY, "NONE", "INVALID_DIMENSIONS"),
    (replace(GOOD, layout=Layout(extra=(0,))), "NONE", "INVALID_DATA"),
    (page_of("f4", predictor=2), "NONE", "PREDICTOR_INCOMPATIBLE"),
]


@pytest.mark.parametrize(("page", "field", "status"), REFUSED)
@pytest.mark.parametrize("before", [0, 2, 5])
def test_refused(
    page: NewPage, field: str, status: str, before: int, monkeypatch: pytest.MonkeyPatch
) -> None:
    """The error names the page and the field, also behind pages that are good, by several calls."""
    monkeypatch.setattr(_new_pages, "BATCH", 8 * GOOD.samples.nbytes)
    with pytest.raises(mt.PagesError) as error:
        _new_pages._write_pages([*[GOOD] * before, page, GOOD], False)
    assert (error.value.page, error.value.field) == (before, PageField[field])
    assert error.value.status is Status[status]
    assert str(error.value).startswith(f"page {before}: ")
    assert (f"{field.lower()}: " in str(error.value)) == (field != "NONE")


def test_nothing_is_written(tmp_path: Path) -> None:
    path = tmp_path / "page.tif"
    for options in ({}, {"description": "no rows"}):
        with pytest.raises(mt.PagesError) as error:
            mt.imwrite(path, numpy.zeros((0, 5), "u1"), **options)
        assert (error.value.page, error.value.field) == (0, PageField.NONE)
        assert error.value.status is Status.INVALID_DIMENSIONS
        assert not path.exists()
