"""Pages as the library writes them, with their tags. It needs numpy.

`_write_pages` is the one place that writes arrays: by tiff_image_frame where that is enough, which
doesn't look at the samples; by tiff_pages_frame where the samples are in the file as they are, or
tile by tile, which doesn't copy them; and by tiff_write_pages for everything else.
"""
from __future__ import annotations

from ctypes import byref, c_size_t, c_uint16
from dataclasses import dataclass, replace
from typing import TYPE_CHECKING, Any, NamedTuple

import numpy

from . import _library
from ._jobs import BIG, CLASSIC
from ._library import (
    Appended,
    Fraction,
    Frame,
    Image,
    PagesEnd,
    PagesError,
    PagesFrame,
    PageToWrite,
    Status,
    TagToWrite,
)
from ._parts import each, threads

if TYPE_CHECKING:
    from collections.abc import Iterator

    from numpy.typing import NDArray

# The kinds of color types of the library, in the order of their numbers, each with what its samples
# may be.
UNSIGNED = ("u1", "u2", "u4", "u8")
FLOATING = ("f4", "f8")
KINDS = {
    "Gray": (*UNSIGNED, "i1", "i2", "i4", "i8", *FLOATING),
    "RGB": (*UNSIGNED, *FLOATING),
    "RGBA": (*UNSIGNED, *FLOATING),
    "CMYK": (*UNSIGNED, *FLOATING),
}
COLORS = {
    color: number
    for number, color in enumerate((name, kind) for name, kinds in KINDS.items() for kind in kinds)
}
# Packed samples, gray ones: the name of each kind, by its bits. Their color types have numbers from
# the first one on.
PACKED, FIRST_PACKED = {1: "1 bit", 2: "2 bits", 4: "4 bits"}, 30
COLORS |= {("Gray", name): FIRST_PACKED + at for at, name in enumerate(PACKED.values())}
# The resolution of a page that has none: no unit, and fractions that count for nothing.
NO_RESOLUTION = (0, (0, 1), (0, 1))
# How many bytes a page has besides its samples, its own tags and the places of its chunks, in most
# cases; and how many the place and the length of a chunk have.
AROUND_SAMPLES = 4096
PLACE = 16
# A call writes so many bytes of short pages: the heap keeps memory of this size for the next call.
BATCH = 1 << 24
# From so many bytes of samples a page on, to write them apart takes less time than to copy them.
APART = 1 << 16


@dataclass(frozen=True)
class NewTag:
    """A tag of a page: its number, the type of its values, their count, and their bytes.

    Of each number the lowest byte comes first.
    """

    code: int
    kind: int
    count: int
    data: bytes


@dataclass(frozen=True)
class Layout:
    """How a page is stored: in tiles or strips, which the library chooses without; its packing.

    `tile` is rows and columns; `planar` stores the samples of a pixel apart; `extra` are the kinds
    of the extra samples, by the tag ExtraSamples.
    """

    tile: tuple[int, int] | None = None
    rowsperstrip: int | None = None
    planar: bool = False
    extra: tuple[int, ...] = ()
    method: int = 1
    predictor: int = 1


@dataclass(frozen=True)
class NewPage:
    """A page that is written: its color type, its samples row by row and pixel by pixel, its tags.

    The samples have rows, columns and the samples of a pixel; of packed pixels, rows, the bytes of
    a row and 1, and `columns` is how many pixels a row has. The resolution is the unit, and two
    fractions along a row and along a column. A SubIFD has the number of its page, which comes
    before it in the list, as `parent`; pages are numbered from 1. `tiles` are the samples of each
    tile, one tile after another, if these are written in place of `samples`.
    """

    color: tuple[str, str]
    samples: NDArray[Any]
    layout: Layout
    tags: tuple[NewTag, ...] = ()
    resolution: tuple[int, tuple[int, int], tuple[int, int]] | None = None
    columns: int | None = None
    parent: int = 0
    tiles: NDArray[Any] | None = None

    @property
    def sides(self) -> tuple[int, int]:
        """How many rows and columns the page has."""
        rows, columns = self.samples.shape[:2]
        return rows, columns if self.columns is None else self.columns

    def copied(self) -> NewPage:
        """Returns the page with samples of its own."""
        return replace(self, samples=self.samples.copy())

    @property
    def is_plain(self) -> bool:
        """Whether the page has nothing but an image in strips that the library chooses."""
        stored = self.layout
        chosen = stored.tile or stored.rowsperstrip or stored.planar or stored.extra
        return not (chosen or self.tags or self.resolution)

    @property
    def is_kept(self) -> bool:
        """Whether the bytes of the samples are in the file as they are, if the page is plain."""
        return self.layout.method == 1 and self.layout.predictor == 1

    @property
    def is_framed(self) -> bool:
        """Whether the bytes of the samples are in the file as they are, one behind the other, if the
        samples of tiles are put tile by tile."""
        apart = self.layout.planar or self.parent
        return self.is_kept and not apart

    def tiled(self) -> NewPage:
        """Returns the page with the samples of its tiles, if it has tiles."""
        tile = self.layout.tile
        return replace(self, tiles=by_tiles(self.samples, tile)) if tile else self

    @property
    def given(self) -> NDArray[Any]:
        """The samples in the order in which they are written."""
        return self.samples if self.tiles is None else self.tiles


def by_tiles(samples: NDArray[Any], tile: tuple[int, int]) -> NDArray[Any]:
    """Returns the samples of an image tile by tile, with zeros beyond its edges."""
    (height, width, count), (length, breadth) = samples.shape, tile
    across, whole = -(-width // breadth), width // breadth
    inside = whole * breadth
    tiles = numpy.empty((-(-height // length), across, length, breadth, count), samples.dtype)

    def put(down: int) -> None:
        row, band = tiles[down], samples[down * length : (down + 1) * length]
        rows = len(band)
        row[:whole, :rows] = band[:, :inside].reshape(rows, whole, breadth, count).swapaxes(0, 1)
        if inside < width:
            row[whole, :rows, : width - inside] = band[:, inside:]
            row[whole, :rows, width - inside :] = 0
        row[:, rows:] = 0

    each(put, list(range(len(tiles))), threads(None))
    return tiles


def around_of(page: NewPage) -> int:
    """Returns how many bytes most pages have in a file besides their samples."""
    height, rows = page.samples.shape[0], page.layout.rowsperstrip
    # A strip that the library chooses has a million bytes at least, or is the last.
    strips = -(-height // rows) if rows else 1 + page.samples.nbytes // 1_000_000
    chunks = strips if page.tiles is None else page.tiles.shape[0] * page.tiles.shape[1]
    return PLACE * chunks + AROUND_SAMPLES + sum(len(tag.data) for tag in page.tags)


def capacity_of(page: NewPage) -> int:
    """Returns a length that is enough for most pages in a file: that of whole chunks, not
    packed."""
    (height, width, count), layout = page.samples.shape, page.layout
    rows, columns = layout.tile or (layout.rowsperstrip or height or 1, width or 1)
    down, across = -(-height // rows), -(-width // columns)
    stored = down * rows * across * columns * count * page.samples.itemsize
    places = PLACE * down * across * (count if layout.planar else 1)
    return stored + stored // 64 + places + AROUND_SAMPLES + sum(len(tag.data) for tag in page.tags)


def tag_to_write(tag: NewTag) -> TagToWrite:
    """Returns a tag as the library takes it."""
    return TagToWrite(
        number=tag.code,
        type=tag.kind,
        count=tag.count,
        values=tag.data,
        values_len=len(tag.data),
    )


def page_to_write(page: NewPage) -> PageToWrite:
    """Returns a page as the library takes it; its samples stay in the array of the page."""
    layout, (height, width) = page.layout, page.sides
    tile_length, tile_width = layout.tile or (0, 0)
    tiles = page.tiles
    unit, across, down = page.resolution or NO_RESOLUTION
    return PageToWrite(
        color=COLORS[page.color],
        width=width,
        height=height,
        rows_per_strip=layout.rowsperstrip or 0,
        tile_width=tile_width,
        tile_length=tile_length,
        method=layout.method,
        predictor=layout.predictor,
        planar=_library.PLANAR if layout.planar else _library.CHUNKY,
        resolution_unit=unit,
        x_resolution=Fraction(*across),
        y_resolution=Fraction(*down),
        extra_samples=(c_uint16 * len(layout.extra))(*layout.extra),
        extra_samples_len=len(layout.extra),
        tags=(TagToWrite * len(page.tags))(*map(tag_to_write, page.tags)),
        tags_len=len(page.tags),
        samples=page.given.ctypes.data,
        samples_len=page.given.nbytes,
        parent=page.parent,
        tile_bytes=0 if tiles is None else tiles[0, 0].nbytes,
    )


class Written(NamedTuple):
    """What a call returns that writes a file: its parts, their length, and what is refused."""

    status: int
    parts: list[memoryview]
    length: int
    end: PagesEnd


def write_image_into(size: int, page: NewPage, version: int) -> Written:
    """Writes a file of one plain page, and puts into a new buffer what isn't the samples as
    such."""
    samples, (height, width) = page.samples, page.sides
    around, frame = numpy.empty(size, numpy.uint8), Frame()
    image = Image(
        color=COLORS[page.color],
        width=width,
        height=height,
        version=version,
        method=page.layout.method,
        predictor=page.layout.predictor,
    )
    status = _library.IMAGE_FRAME(
        byref(image), samples.ctypes.data, samples.nbytes, around.ctypes.data, size, byref(frame)
    )
    length = frame.front + frame.behind
    parts = [around[: frame.front].data, around[frame.front : length].data]
    if frame.samples:
        parts.insert(1, samples.reshape(-1).view(numpy.uint8).data)
    return Written(status, parts, length, PagesEnd(page=1))


def batches(pages: list[NewPage]) -> Iterator[tuple[list[NewPage], list[NewPage]]]:
    """Yields the pages that one call writes after another, each time with those that come behind.

    Pages of many bytes go together: the heap keeps no memory of their size for the next call. So do
    SubIFDs and their pages.
    """
    alone = any(page.parent or page.samples.nbytes > BATCH // 2 for page in pages)
    first, size = 0, 0
    for at, page in enumerate(pages):
        size += page.samples.nbytes
        if size > BATCH and not alone:
            yield pages[first:at], pages[at:]
            first, size = at, page.samples.nbytes
    yield pages[first:], []


def link_of(found: Appended) -> bytes:
    """Returns the bytes of the link that leads to pages that are added."""
    return found.target.to_bytes(8, "little")[: found.width]


def begin_file(
    file: NDArray[numpy.uint8], pages: list[NewPage], version: int
) -> tuple[int, int, PagesEnd]:
    """Writes a file of pages into a buffer, and returns the status, its length, and the end."""
    given = (PageToWrite * len(pages))(*map(page_to_write, pages))
    place, length, end = file.ctypes.data, c_size_t(), PagesEnd()
    status = _library.WRITE_PAGES(
        version, given, len(pages), place, len(file), byref(length), byref(end)
    )
    return status, length.value, end


def go_on(
    file: NDArray[numpy.uint8], length: int, pages: list[NewPage]
) -> tuple[int, int, PagesEnd]:
    """Adds pages to a file of so many bytes in a buffer; what it returns is as of `begin_file`."""
    given, found = (PageToWrite * len(pages))(*map(page_to_write, pages)), Appended()
    place, room = file.ctypes.data, len(file) - length
    status = _library.APPEND_PAGES(
        place, length, given, len(pages), place + length, room, byref(found)
    )
    if status == Status.DONE:
        link = numpy.frombuffer(link_of(found), numpy.uint8)
        file[found.link : found.link + found.width] = link
    return status, length + found.len, found.end


def write_pages_into(size: int, pages: list[NewPage], version: int) -> Written:
    """Writes a file of pages into a new buffer. The length of one that is too short is enough."""
    file, length, count = numpy.empty(size, numpy.uint8), 0, 0
    for some, rest in batches(pages):
        if length:
            status, length, end = go_on(file, length, some)
        else:
            status, length, end = begin_file(file, some, version)
        if status:
            end.page += count if end.page else 0
            # PackBits makes two bytes of one at most.
            return Written(status, [], length + 2 * sum(map(capacity_of, rest)), end)
        count += len(some)
    return Written(Status.DONE, [file[:length].data], length, PagesEnd())


def write_around(size: int, pages: list[NewPage], version: int) -> Written:
    """Writes a file of pages around their samples, and puts what isn't samples into a new buffer."""
    given, fronts = (PageToWrite * len(pages))(*map(page_to_write, pages)), (c_size_t * len(pages))()
    around, frame, end = numpy.empty(size, numpy.uint8), PagesFrame(), PagesEnd()
    place = around.ctypes.data
    status = _library.PAGES_FRAME(
        version, given, len(pages), place, size, fronts, len(pages), byref(frame), byref(end)
    )
    parts, at = [], 0
    if status == Status.DONE:
        for front, page in zip(fronts[: frame.framed], pages):
            parts += [around[at : at + front].data, page.given.reshape(-1).view(numpy.uint8).data]
            at += front
        parts.append(around[at : frame.around].data)
    return Written(status, parts, frame.around, end)


def _write_pages(pages: list[NewPage], big: bool) -> list[memoryview]:
    """Returns the bytes of a file of pages, in parts. One that is longer than the first buffer is
    written again.

    A page that is refused raises `PagesError`.
    """
    version, single = BIG if big else CLASSIC, len(pages) == 1 and pages[0].is_plain
    long = sum(page.samples.nbytes for page in pages) >= APART * len(pages)
    framed = long and not single and all(page.is_framed for page in pages)
    if framed:
        pages = [page.tiled() for page in pages]

    def write(size: int) -> Written:
        if single:
            return write_image_into(size, pages[0], version)
        return (write_around if framed else write_pages_into)(size, pages, version)

    if single and pages[0].is_kept:
        size = AROUND_SAMPLES
    else:
        size = sum(map(around_of if framed else capacity_of, pages))
    made = write(size)
    while made.status == Status.INSUFFICIENT_OUTPUT_BUFFER_SIZE:
        made = write(made.length)
    if made.status:
        page = made.end.page - 1 if made.end.page else None
        raise PagesError(made.status, page, made.end.field)
    return made.parts


class Added(NamedTuple):
    """What is written to add pages to a file: bytes behind it, and then a link to them."""

    data: memoryview
    link_place: int
    link: bytes


def _append_pages(file: memoryview, pages: list[NewPage]) -> Added:
    """Returns what adds pages to a file. What is longer than the first buffer takes two calls.

    Errors are those of the chain of directories, with a page of None, and of a page as those of
    `_write_pages`.
    """
    call, found, size = _library.APPEND_PAGES, Appended(), sum(map(capacity_of, pages))
    given = (PageToWrite * len(pages))(*map(page_to_write, pages))
    with _library.locked(file) as place:
        made = numpy.empty(size, numpy.uint8)
        status = call(*place, given, len(pages), made.ctypes.data, size, byref(found))
        if status == Status.INSUFFICIENT_OUTPUT_BUFFER_SIZE:
            made = numpy.empty(found.len, numpy.uint8)
            status = call(*place, given, len(pages), made.ctypes.data, len(made), byref(found))
    if status:
        page = found.end.page - 1 if found.end.page else None
        raise PagesError(status, page, found.end.field)
    return Added(made[: found.len].data, found.link, link_of(found))
