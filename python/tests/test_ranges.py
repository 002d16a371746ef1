"""Files that aren't in memory: pages of their bytes are fetched when they are wanted."""
from __future__ import annotations

import io
import random
import struct
from collections.abc import Callable
from concurrent.futures import ThreadPoolExecutor
from pathlib import Path

import numpy
import pytest
import tifffile
from conftest import DATA, gray_file, pyramid, samples

import mangohatch_tiff as mt
from mangohatch_tiff import _windows
from mangohatch_tiff._library import Status
from mangohatch_tiff._windows import PAGE, OpenedSource, Windows

NAMES = sorted(path.name for path in DATA.glob("*.tif"))
SIDE, TILE = 4096, 128
CHANGES = 4


class Counted:
    """A source over bytes in memory, which notes the ranges that are read."""

    def __init__(self, file: bytes) -> None:
        self.file, self.size = file, len(file)
        self.requests: list[tuple[int, int]] = []

    def read_at(self, offset: int, size: int) -> bytes:
        assert 0 <= offset < offset + size <= self.size
        self.requests.append((offset, size))
        return self.file[offset : offset + size]


class Listed:
    """A source with a `len`."""

    def __init__(self, file: bytes) -> None:
        self.file = file

    def __len__(self) -> int:
        return len(self.file)

    def read_at(self, offset: int, size: int) -> memoryview:
        return memoryview(self.file)[offset : offset + size]


def tiled(big: bool = False, **options: object) -> tuple[bytes, numpy.ndarray]:
    """Returns a file of many tiles, and its image."""
    image, made = samples((SIDE, SIDE), "u1"), io.BytesIO()
    given = {"photometric": "minisblack", "tile": (TILE, TILE), "bigtiff": big, **options}
    tifffile.imwrite(made, image, **given)
    return made.getvalue(), image


def spread(file: bytes, image: numpy.ndarray) -> bytes:
    """Returns a file of the image whose header, two lists and tiles lie far apart."""
    with tifffile.TiffFile(io.BytesIO(file)) as tif:
        page = tif.pages[0]
        offsets, counts = page.dataoffsets, page.databytecounts
    data, gap = b"".join(file[at : at + size] for at, size in zip(offsets, counts)), 5 * PAGE
    places = {324: gap, 325: 2 * gap}
    begin = 3 * gap + 77
    starts = [begin + sum(counts[:at]) for at in range(len(counts))]
    tags = {256: SIDE, 257: SIDE, 258: 8, 259: 1, 262: 1, 277: 1, 322: TILE, 323: TILE}
    made = bytearray(begin)
    made[:8] = struct.pack("<2sHI", b"II", 42, 8)
    entries = [(tag, 4, 1, value) for tag, value in tags.items()]
    entries += [(tag, 4, len(counts), place) for tag, place in places.items()]
    directory = struct.pack("<H", len(entries))
    directory += b"".join(struct.pack("<HHII", *entry) for entry in entries)
    made[8 : 8 + len(directory)] = directory
    for place, values in ((gap, starts), (2 * gap, counts)):
        made[place : place + 4 * len(values)] = struct.pack(f"<{len(values)}I", *values)
    return bytes(made) + data


def test_one_tile_takes_four_requests() -> None:
    file, image = tiled()
    source = Counted(spread(file, image))
    page = mt.TiffFile(source).pages[0]
    across = SIDE // TILE
    rows, columns = slice(9 * TILE, 10 * TILE), slice(5 * TILE, 6 * TILE)
    numpy.testing.assert_array_equal(page.read_chunk(9 * across + 5), image[rows, columns])
    assert len(source.requests) == 4
    assert sum(size for _, size in source.requests) <= 5 * PAGE
    # The same tile, its header and its lists are kept; another tile takes one request.
    numpy.testing.assert_array_equal(page.read(rows, columns), image[rows, columns])
    assert len(source.requests) == 4
    numpy.testing.assert_array_equal(page.read_chunk(0), image[:TILE, :TILE])
    assert len(source.requests) == 5


def test_a_file_as_programs_write_it() -> None:
    file, image = tiled(big=True)
    source = Counted(file)
    page = mt.TiffFile(source).pages[0]
    plane, row, column = page.place_of(700)
    tile = image[row : row + TILE, column : column + TILE]
    numpy.testing.assert_array_equal(page.read_chunk(700), tile)
    assert len(source.requests) <= 4 and sum(size for _, size in source.requests) < len(file) // 10


def test_a_window_fetches_its_chunks_alone() -> None:
    file, image = tiled()
    source = Counted(spread(file, image))
    page = mt.TiffFile(source).pages[0]
    rows, columns = slice(1000, 1100), slice(2000, 2300)
    for workers in (1, 4):
        part = page.read(rows, columns, workers=workers)
        numpy.testing.assert_array_equal(part, image[rows, columns])
    # two lines of tiles, of three each, side by side in the file
    assert 4 <= len(source.requests) <= 3 + 6
    assert sum(size for _, size in source.requests) <= 3 * PAGE + 6 * (TILE * TILE + 2 * PAGE)


def test_few_bytes_are_kept(monkeypatch: pytest.MonkeyPatch) -> None:
    """However much is read, no more pages are kept than are meant to be."""
    monkeypatch.setattr(_windows, "KEPT", 8)
    monkeypatch.setattr(_windows, "LONG", 2)
    file, image = tiled()
    tif = mt.TiffFile(Counted(file))
    numpy.testing.assert_array_equal(tif.pages[0].asarray(), image)
    assert isinstance(tif._file, Windows) and len(tif._file._kept) <= 8


def test_threads_share_what_is_fetched(monkeypatch: pytest.MonkeyPatch) -> None:
    """No page is fetched twice, and each thread has its own windows."""
    file, image = tiled()
    source = Counted(file)
    page = mt.TiffFile(source).pages[0]
    with ThreadPoolExecutor(8) as pool:
        parts = list(pool.map(page.read_chunk, 2 * list(range(0, page.chunk_count, 5))))
    for chunk, part in zip(2 * list(range(0, page.chunk_count, 5)), parts):
        _, row, column = page.place_of(chunk)
        numpy.testing.assert_array_equal(part, image[row : row + TILE, column : column + TILE])
    # the pages of the file are few enough to be kept
    monkeypatch.setattr(_windows, "KEPT", 4)
    pages = [at for offset, size in source.requests for at in range(offset, offset + size, PAGE)]
    assert len(pages) == len(set(pages))
    numpy.testing.assert_array_equal(page.asarray(workers=8), image)


def outcome(call: Callable[[], object]) -> object:
    """Returns what a call returns, or the status of its error."""
    try:
        return call()
    except mt.TiffError as error:
        return error.status
    except ValueError as error:
        return type(error)


def alike(one: object, other: object) -> bool:
    """Tells whether two outcomes are the same; arrays also in each bit of what is no number."""
    if isinstance(one, numpy.ndarray) and isinstance(other, numpy.ndarray):
        facts = [(array.dtype, array.shape, array.tobytes()) for array in (one, other)]
        return facts[0] == facts[1]
    if isinstance(one, numpy.ndarray) or isinstance(other, numpy.ndarray):
        return False
    return one == other or (one != one and other != other)


FACTS = ["shape", "dtype", "axes", "chunks", "chunk_count", "tile", "photometric", "description"]
FACTS += ["dataoffsets", "databytecounts", "is_inverted", "resolution", "colormap", "extrasamples"]


def assert_tags_alike(whole: mt.Tags, ranged: mt.Tags) -> None:
    """Compares the tags of a directory; of more than a hundred, the values of some."""
    facts = [[(tag.code, tag.dtype, tag.count) for tag in tags] for tags in (whole, ranged)]
    assert facts[0] == facts[1]
    for code, tag in whole.items()[:: 1 + len(whole) // 100]:
        other = ranged[code]
        assert (tag.dtype, tag.count) == (other.dtype, other.count)
        assert alike(outcome(lambda: tag.value), outcome(lambda: other.value)), code
        for name in ("numbers", "floats", "text", "data", "told"):
            read = [outcome(lambda: getattr(tags, name)(code)) for tags in (whole, ranged)]
            assert alike(*read), (name, code)
    assert 64321 not in ranged and ranged.told(64321) == whole.told(64321) == ()
    assert outcome(lambda: ranged.numbers(64321)) == Status.REQUIRED_TAG_NOT_FOUND


def assert_pages_alike(whole: mt.TiffPage, ranged: mt.TiffPage) -> None:
    """Compares the facts, the tags and the image of a page."""
    assert (whole.index, whole.offset, whole.status) == (ranged.index, ranged.offset, ranged.status)
    for name in FACTS:
        read = [outcome(lambda: getattr(page, name)) for page in (whole, ranged)]
        assert alike(*read), name
    for shown in (False, True):
        read = [outcome(lambda: page.asarray(shown=shown)) for page in (whole, ranged)]
        assert alike(*read), shown
        read = [outcome(lambda: page.read_chunk(0, shown=shown)) for page in (whole, ranged)]
        assert alike(*read), shown
    assert_tags_alike(whole.tags, ranged.tags)


def assert_files_alike(file: bytes) -> None:
    """Compares a file that is read whole with the same one by ranges."""
    try:
        whole = mt.TiffFile(file)
    except mt.TiffError as error:
        with pytest.raises(mt.TiffError) as found:
            mt.TiffFile(Counted(file))
        assert found.value.status == error.status
        return
    ranged = mt.TiffFile(Counted(file))
    facts = [(len(tif), tif.end, tif.byteorder, tif.is_bigtiff) for tif in (whole, ranged)]
    assert facts[0] == facts[1]
    assert alike(outcome(whole.asarray), outcome(ranged.asarray))
    for one, other in zip(whole.pages, ranged.pages):
        assert_pages_alike(one, other)
    trees = [[repr(directory) for directory in tif.directories] for tif in (whole, ranged)]
    assert trees[0] == trees[1]
    for one, other in zip(whole.directories, ranged.directories):
        if one.tags is not None and other.tags is not None:
            assert_tags_alike(one.tags, other.tags)


@pytest.mark.parametrize("name", NAMES)
@pytest.mark.parametrize("page", [1024, PAGE])
def test_files_of_the_repository(name: str, page: int, monkeypatch: pytest.MonkeyPatch) -> None:
    """By ranges, also of few bytes, the same pages, tags and errors as in memory."""
    monkeypatch.setattr(_windows, "PAGE", page)
    assert_files_alike((DATA / name).read_bytes())


@pytest.mark.parametrize("name", NAMES)
def test_files_that_are_cut(name: str) -> None:
    file = (DATA / name).read_bytes()
    for part in (1, 7, 20, len(file) // 3, len(file) // 2, len(file) - 5):
        assert_files_alike(file[:part])


@pytest.mark.parametrize("name", NAMES)
def test_files_that_are_changed(name: str) -> None:
    file, dice = (DATA / name).read_bytes(), random.Random(name)
    for _ in range(CHANGES):
        changed = bytearray(file)
        for _ in range(dice.randrange(1, 4)):
            changed[-dice.randrange(1, min(len(file), 600))] = dice.randrange(256)
            changed[dice.randrange(min(len(file), 300))] = dice.randrange(256)
        assert_files_alike(bytes(changed))


GRAY, COLORS = samples((40, 50), "u2"), samples((40, 50, 3), "u1")
WRITTEN = [
    (GRAY, {"photometric": "minisblack", "rowsperstrip": 7, "byteorder": ">"}),
    (GRAY, {"photometric": "miniswhite", "tile": (16, 16)}),
    (samples((3, 40, 50), "u1"), {"photometric": "rgb", "planarconfig": "separate"}),
    (samples((40, 50, 5), "u1"), {"photometric": "rgb", "tile": (16, 32)}),
    (COLORS[:, :, 0], {"colormap": samples((3, 256), "u2"), "tile": (16, 16)}),
    (samples((4, 40, 50), "f4"), {"photometric": "minisblack", "bigtiff": True}),
    (GRAY.astype("c8"), {"photometric": "minisblack", "byteorder": ">"}),
    (GRAY > 99, {"photometric": "minisblack", "rowsperstrip": 9}),
]


@pytest.mark.parametrize(("image", "options"), WRITTEN)
def test_files_that_tifffile_writes(image: numpy.ndarray, options: dict) -> None:
    made = io.BytesIO()
    given = image.astype(image.dtype.newbyteorder(options.get("byteorder", "=")))
    tifffile.imwrite(made, given, extratags=[(65001, 12, 3, (1.5, -2.0, 3.0), True)], **options)
    assert_files_alike(made.getvalue())
    numpy.testing.assert_array_equal(mt.imread(Counted(made.getvalue())), image)


@pytest.mark.parametrize("predictor", [None, 2])
def test_packed_pages(predictor: int | None) -> None:
    for image in (COLORS, samples((40, 50, 4), "u1")):
        options = {"compression": "packbits", "predictor": predictor, "tile": (16, 16)}
        assert_files_alike(mt.imwrite(None, image, photometric="rgb", **options))


@pytest.mark.parametrize("big", [False, True])
@pytest.mark.parametrize("order", "<>")
def test_pages_out_of_the_chain(big: bool, order: str) -> None:
    file, image = pyramid(big, order)
    assert_files_alike(file)
    tif = mt.TiffFile(Counted(file))
    for step, offset in zip((2, 4), tif.pages[0].tags.told(330)):
        page = tif.page_at(offset)
        assert page.index == -1
        numpy.testing.assert_array_equal(page.asarray(), image[::step, ::step])
    numpy.testing.assert_array_equal(tif.asarray(level=1), image[::2, ::2])
    with pytest.raises(mt.UnsupportedError, match="no directory names"):
        tif.page_at(offset + 2)


def lacking(*, packed: bool = False) -> tuple[bytes, numpy.ndarray]:
    """Returns a file of tiles of which the file lacks the second one, and its image."""
    image = samples((32, 64), "u1")
    options = {"compression": "packbits"} if packed else {}
    file = bytearray(mt.imwrite(None, image, photometric="minisblack", tile=(16, 16), **options))
    with tifffile.TiffFile(io.BytesIO(bytes(file))) as tif:
        for tag in (324, 325):
            place = tif.pages[0].tags[tag].valueoffset
            file[place + 4 : place + 8] = bytes(4)
    image[:16, 16:32] = 0
    return bytes(file), image


@pytest.mark.parametrize("packed", [False, True])
def test_chunks_that_the_file_lacks(packed: bool) -> None:
    file, image = lacking(packed=packed)
    assert_files_alike(file)
    page = mt.TiffFile(Counted(file)).pages[0]
    numpy.testing.assert_array_equal(page.asarray(), image)
    numpy.testing.assert_array_equal(page.read_chunk(1), image[:16, 16:32])
    for read in (lambda: page.asarray(shown=True), lambda: list(page.segments())):
        with pytest.raises(mt.UnsupportedError, match="doesn't have"):
            read()


def test_what_is_not_there_is_refused() -> None:
    """Offsets of another type make no plan, by which chunks are read; the tags are there."""
    page = mt.TiffFile(Counted(gray_file(t273=(13, 8)))).pages[0]
    assert page.tags[273].value == (8,)
    for read in (page.asarray, lambda: page.read_chunk(0), lambda: page.chunks):
        with pytest.raises(mt.UnsupportedError, match="by ranges"):
            read()


def test_errors_of_a_source_are_passed_on() -> None:
    class Broken(Counted):
        left = 3

        def read_at(self, offset: int, size: int) -> bytes:
            if not self.left:
                raise ConnectionError("gone")
            self.left -= 1
            return super().read_at(offset, size)

    file, image = tiled()
    source = Broken(spread(file, image))
    tif = mt.TiffFile(source)
    for read in (tif.pages[0].asarray, lambda: tif.pages[0].read_chunk(3)):
        with pytest.raises(ConnectionError, match="gone"):
            read()
    source.left = 99
    numpy.testing.assert_array_equal(tif.pages[0].read_chunk(0), image[:TILE, :TILE])
    source.left = 0
    with pytest.raises(ConnectionError, match="gone"):
        mt.TiffFile(source)


@pytest.mark.parametrize("more", [-3, 3])
def test_a_source_of_another_length(more: int) -> None:
    """A source that returns fewer bytes than it says, or more than it should."""

    class Wrong(Counted):
        def read_at(self, offset: int, size: int) -> bytes:
            return super().read_at(offset, size)[: size + min(more, 0)] + bytes(max(more, 0))

    with pytest.raises(OSError, match="the source gave"):
        mt.TiffFile(Wrong(gray_file()))
    source = Listed(gray_file())
    numpy.testing.assert_array_equal(mt.imread(source).ravel(), range(12))


def test_open_files(tmp_path: Path) -> None:
    """With `ranges`, an open file is read from its position on, and a path is closed by `close`."""
    file, image = tiled()
    path = tmp_path / "tiled.tif"
    path.write_bytes(b"before" + file)
    with open(path, "rb") as opened:
        opened.seek(6)
        tif = mt.TiffFile(opened, ranges=True)
        numpy.testing.assert_array_equal(tif.pages[0].read_chunk(0), image[:TILE, :TILE])
        tif.close()
        assert not opened.closed
    path.write_bytes(file)
    with mt.TiffFile(path, ranges=True) as tif:
        numpy.testing.assert_array_equal(tif.asarray(), image)
    with mt.TiffFile(path, ranges=True) as tif:
        page = tif.pages[0]
    with pytest.raises(ValueError, match="closed"):
        page.read_chunk(500)
    with pytest.raises(FileNotFoundError):
        mt.TiffFile(tmp_path / "none.tif", ranges=True)


def test_fsspec_files() -> None:
    fsspec = pytest.importorskip("fsspec")
    file, image = tiled()
    with fsspec.open("memory://tiled.tif", "wb") as target:
        target.write(file)
    with fsspec.open("memory://tiled.tif", "rb") as opened:
        page = mt.TiffFile(opened, ranges=True).pages[0]
        numpy.testing.assert_array_equal(page.read(slice(0, 200)), image[:200])


def test_a_file_that_gives_few_bytes_at_once() -> None:
    class Few(io.BytesIO):
        def read(self, size: int | None = -1) -> bytes:
            return super().read(min(size or 0, 100))

    assert OpenedSource(Few(bytes(range(250)))).read_at(10, 230) == bytes(range(10, 240))
    page = mt.TiffFile(Few(gray_file()), ranges=True).pages[0]
    numpy.testing.assert_array_equal(page.asarray().ravel(), range(12))


def test_stores_of_zarr() -> None:
    file, image = tiled()
    source = Counted(spread(file, image))
    with mt.imread(source, aszarr=True) as store:
        part = numpy.frombuffer(store["2.3"], "u1").reshape(TILE, TILE)
        numpy.testing.assert_array_equal(part, image[2 * TILE : 3 * TILE, 3 * TILE : 4 * TILE])
    assert len(source.requests) <= 4
