"""Chunks are read by the plan of their page, and as without it."""
from __future__ import annotations

import io
import random
import struct
from collections.abc import Callable
from ctypes import Structure, byref

import numpy
import pytest
import tifffile
from conftest import DATA, directory, gray_file, pyramid, samples

import mangohatch_tiff as mt
from mangohatch_tiff import Status, _library, _parts
from mangohatch_tiff._library import Chunks, PagePlan, Samples

NAMES = sorted(path.name for path in DATA.glob("*.tif"))
GRAY, COLORS = samples((40, 50), "u2"), samples((40, 50, 3), "u1")
WRITTEN = {
    "strips": (GRAY, {"photometric": "minisblack", "rowsperstrip": 7}),
    "tiles": (GRAY.astype("f4"), {"photometric": "minisblack", "tile": (16, 32)}),
    "white": (GRAY, {"photometric": "miniswhite", "predictor": 2, "tile": (16, 16)}),
    "packed": (COLORS, {"photometric": "rgb", "compression": "packbits", "rowsperstrip": 9}),
    "planes": (COLORS, {"photometric": "rgb", "planarconfig": "separate", "tile": (16, 16)}),
}
# A chunk is read into so many bytes more than it may have, and into fewer.
MORE, CHANGES = 64, 40
# What a page of 24 by 16 pixels has, in two tiles or in other ones, and the status of its layout.
FACTS = {256: 24, 257: 16, 258: 8, 259: 1, 262: 1, 277: 1, 284: 1, 322: 12, 323: 16}
LARGE = 1 << 31
LAYOUTS: dict[str, tuple[dict[int, int], int]] = {
    "bytes": ({}, Status.DONE),
    "parts of bytes": ({258: 1}, Status.MISALIGNED_TILE_BOUNDARIES),
    "parts of bytes in planes": ({258: 1, 277: 2, 284: 2}, Status.MISALIGNED_TILE_BOUNDARIES),
    "whole bytes of two samples": ({258: 2, 277: 2}, Status.DONE),
    "one tile of parts of bytes": ({256: 11, 258: 1}, Status.DONE),
    "chroma in two by two": ({262: 6, 277: 3}, Status.CHROMA_SUBSAMPLING),
    "no color": ({262: 2, 277: 2}, Status.INTERPRETATION_WITH_BITS),
    "a large image": ({256: LARGE, 257: LARGE, 322: LARGE, 323: LARGE}, Status.DONE),
    "too large": (
        {256: LARGE, 257: 2 * LARGE - 1, 258: 64, 322: LARGE, 323: LARGE}, Status.LIMITS_EXCEEDED
    ),
    "too large tiles": (
        {256: LARGE, 258: 64, 322: LARGE, 323: 2 * LARGE - 1}, Status.LIMITS_EXCEEDED
    ),
    "planes that are too large": (
        {256: LARGE, 257: LARGE, 277: 8, 284: 2, 322: LARGE, 323: LARGE}, Status.LIMITS_EXCEEDED
    ),
}
# The first chunk and how many: none, chunks that are there or not, more than have numbers.
RUNS = [(0, 0), (0, 1), (0, 4), (1, 3), (3, 9), (39, 0), (1, 2**32 - 1), (2**32 - 1, 0)]


def counted(monkeypatch: pytest.MonkeyPatch, name: str) -> list[tuple]:
    """Returns a list that gets what each later call of the library is given."""
    call, given = getattr(_library, name), []

    def recorded(*words: object) -> int:
        given.append(words)
        return int(call(*words))

    monkeypatch.setattr(_library, name, recorded)
    return given


@pytest.mark.parametrize("workers", [1, 4])
def test_a_page_takes_its_plan_once(workers: int, monkeypatch: pytest.MonkeyPatch) -> None:
    image, made = samples((64, 80), "u2"), io.BytesIO()
    tifffile.imwrite(made, image, photometric="minisblack", tile=(16, 16))
    page = mt.TiffFile(made.getvalue()).pages[0]
    monkeypatch.setattr(_parts, "STRETCH", 2048)
    monkeypatch.setattr(_parts, "OPENED", 0)
    plans, others = counted(monkeypatch, "PAGE_PLAN"), counted(monkeypatch, "READ_CHUNKS")
    numpy.testing.assert_array_equal(page.asarray(workers=1), image)
    page.read_chunk(3)
    ones = counted(monkeypatch, "READ_PLANNED_CHUNK")
    runs = counted(monkeypatch, "READ_PLANNED_CHUNKS")
    numpy.testing.assert_array_equal(page.asarray(workers=4), image)
    numpy.testing.assert_array_equal(page.read(slice(3, 50), workers=workers), image[3:50])
    assert len(list(page.segments(workers=workers))) == 20
    assert len(plans) == 1 and not others
    # of each line of five tiles four at once and one alone, and then all tiles, four at once
    assert len(ones) == 4 + 4 and [run[4] for run in runs] == [4] * (4 + 4 + 5)


def test_a_run_of_a_page_with_many_chunks(monkeypatch: pytest.MonkeyPatch) -> None:
    """Of a page with many more chunks than a run has, none but those of the run are looked up."""
    image, made = samples((16 * 4, 16 * 64), "u1"), io.BytesIO()
    tifffile.imwrite(made, image, photometric="minisblack", tile=(16, 16))
    page = mt.TiffFile(made.getvalue()).pages[0]
    few, many = counted(monkeypatch, "READ_PLANNED_CHUNKS"), counted(monkeypatch, "READ_CHUNKS")
    for columns in (slice(16, 48), slice(0, 16 * 64)):
        part = page.read(slice(16, 32), columns, workers=1)
        numpy.testing.assert_array_equal(part, image[16:32, columns])
    assert [run[3:5] for run in few + many] == [(65, 2), (64, 64)]
    assert len(few) == len(many) == 1


@pytest.mark.parametrize("kind", [1, 13])
def test_a_page_without_a_plan(kind: int, monkeypatch: pytest.MonkeyPatch) -> None:
    """Offsets of another type make no plan, and the chunks are read all the same."""
    page = mt.TiffFile(gray_file(t273=(kind, 8))).pages[0]
    assert page._planned.plan is None
    ones = counted(monkeypatch, "READ_PLANNED_CHUNK")
    runs = counted(monkeypatch, "READ_PLANNED_CHUNKS")
    numpy.testing.assert_array_equal(page.read_chunk(0), page.asarray())
    numpy.testing.assert_array_equal(page.read(slice(1, 3)), page.asarray()[1:3])
    assert not ones and not runs


@pytest.mark.parametrize("big", [False, True])
@pytest.mark.parametrize("order", "<>")
def test_pages_out_of_the_chain(big: bool, order: str) -> None:
    file, image = pyramid(big, order)
    tif = mt.TiffFile(file)
    for step, offset in zip((2, 4), tif.pages[0].tags.told(330)):
        page, part = tif.page_at(offset), image[::step, ::step]
        assert page._planned.plan is not None
        for chunk in range(page.chunk_count):
            _, row, column = page.place_of(chunk)
            rows, columns = page.chunks[:2]
            numpy.testing.assert_array_equal(
                page.read_chunk(chunk), part[row : row + rows, column : column + columns]
            )


def tiled_file(facts: dict[int, int]) -> bytes:
    """Returns a file of one page of tiles that it doesn't have."""
    wide, high = -(-facts[256] // facts[322]), -(-facts[257] // facts[323])
    count = wide * high * (facts[277] if facts[284] == 2 else 1)
    numbers = {**{tag: [number] for tag, number in facts.items()}, 324: [8] * count}
    numbers[325] = [1] * count
    fields = {
        tag: (4, len(values), struct.pack(f"<{len(values)}I", *values))
        for tag, values in sorted(numbers.items())
    }
    return struct.pack("<2sHI", b"II", 42, 8) + directory(fields, 8)


def told(call: Callable[[], Structure]) -> list[int]:
    """Returns the numbers that a call returns, or the status of its error."""
    try:
        result = call()
    except mt.TiffError as error:
        return [error.status]
    return [Status.DONE, *(getattr(result, name) for name, *_ in result._fields_)]


def assert_told_the_same(file: bytes) -> list[int]:
    """Compares what a page has by its plan and by calls; returns the statuses of the layouts."""
    statuses = []
    for page in mt.TiffFile(file).pages[:3]:
        place = page._at
        chunks = told(lambda: _library.result_of(_library.PAGE_CHUNKS, Chunks, file, place))
        laid = told(lambda: _library.result_of(_library.PAGE_SAMPLES, Samples, file, place))
        assert page._is_by_tags or told(lambda: page._chunks) == chunks
        assert told(lambda: page._samples) == laid
        statuses.append(laid[0])
    return statuses


@pytest.mark.parametrize("name", LAYOUTS)
def test_a_page_has_the_layout_that_the_library_tells(name: str) -> None:
    facts, status = LAYOUTS[name]
    file = tiled_file({**FACTS, **facts})
    assert assert_told_the_same(file) == [status]
    with mt.TiffFile(io.BytesIO(file), ranges=True) as by_ranges:
        page, place = by_ranges.pages[0], by_ranges.pages[0]._at
        laid = told(lambda: _library.result_of(_library.PAGE_SAMPLES, Samples, file, place))
        assert told(lambda: page._samples) == laid


def assert_read_the_same(file: bytes, place: int, size: int) -> int:
    """Compares the chunks of a page as its plan and as its number read them; returns how many."""
    plan, count = PagePlan(), 0
    buffers = [numpy.zeros(size + MORE, "u1") for _ in range(2)]
    one = (_library.READ_PLANNED_CHUNK, _library.READ_CHUNK)
    several = (_library.READ_PLANNED_CHUNKS, _library.READ_CHUNKS)
    calls_made = [(one, (chunk,)) for chunk in range(40)] + [(several, run) for run in RUNS]
    with _library.locked(file) as (address, length):
        refused = _library.PAGE_PLAN(address, length, place, byref(plan))
        if refused == mt.Status.INVALID_TYPE_FOR_TAG:
            return 0
        for calls, chunks in calls_made:
            for most in (size + MORE, max(0, size - 1), 7):
                statuses = [refused, 0]
                for at, (call, page) in enumerate(zip(calls, (plan, place))):
                    buffers[at][:] = 7
                    if at or not refused:
                        start = buffers[at].ctypes.data
                        statuses[at] = call(address, length, page, *chunks, start, most)
                assert statuses[0] == statuses[1], (chunks, most)
                if statuses[0] == mt.Status.DONE:
                    numpy.testing.assert_array_equal(buffers[0], buffers[1])
                    count += 1
    return count


def assert_pages_read_the_same(file: bytes) -> int:
    """Compares all pages of a file, by their numbers and their offsets; returns how many chunks."""
    try:
        listed, _ = _library.list_pages(file)
    except mt.TiffError:
        return 0
    count = 0
    if listed:
        assert_told_the_same(file)
    for number, page in enumerate(listed[:3]):
        size = min(1 << 16, 16 * page.width * page.height)
        for place in (number, _library.at(page.offset)):
            count += assert_read_the_same(file, place, size)
    return count


def assert_changed_read_the_same(file: bytes) -> int:
    """Compares the chunks of a file, and of it cut or changed; returns how many are read."""
    dice, count = random.Random(len(file)), assert_pages_read_the_same(file)
    for _ in range(CHANGES):
        changed = bytearray(file[: dice.randrange(len(file))] if dice.random() < 0.2 else file)
        for _ in range(dice.randrange(3) if changed else 0):
            changed[-dice.randrange(min(len(changed), 600))] = dice.randrange(256)
            changed[dice.randrange(min(len(changed), 300))] = dice.randrange(256)
        count += assert_pages_read_the_same(bytes(changed))
    return count


@pytest.mark.parametrize("name", NAMES)
def test_files_of_the_repository(name: str) -> None:
    """By the plan and by the number, the same bytes and the same errors."""
    assert_changed_read_the_same((DATA / name).read_bytes())


@pytest.mark.parametrize("name", WRITTEN)
@pytest.mark.parametrize("bigtiff", [False, True])
def test_files_that_are_written(name: str, bigtiff: bool) -> None:
    image, options = WRITTEN[name]
    file = mt.imwrite(None, image, bigtiff=bigtiff, **options)
    assert assert_changed_read_the_same(file)
