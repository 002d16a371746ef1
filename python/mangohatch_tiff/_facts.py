"""The facts of a page: what its tags and the library's list of pages have."""
from __future__ import annotations

from functools import cached_property
from typing import TYPE_CHECKING, Any

from . import _library
from ._enums import (
    COMPRESSION,
    EXTRASAMPLE,
    FILLORDER,
    PHOTOMETRIC,
    PLANARCONFIG,
    PREDICTOR,
    RESUNIT,
    SAMPLEFORMAT,
    member,
)
from ._library import Chunks, Color, ColorKind, ListedPage, Samples, Status, TiffError
from ._library import UnsupportedError
from ._planned import Planned
from ._tags import Tags

if TYPE_CHECKING:
    import numpy
    from numpy.typing import NDArray

    from ._geo import Geo
    from ._library import File, PagePlan

DESCRIPTION, SOFTWARE, SUB_IFDS, IMAGE_DEPTH = 270, 305, 330, 32997
SUBFILE_TYPE, NODATA = 254, 42113
LONGEST_SIDE = (1 << 32) - 1
OFFSETS, LENGTHS = {True: 324, False: 273}, {True: 325, False: 279}


class PageFacts:
    """The facts of a page of a file, without its samples.

    For a page that the library refuses, `status` is the error; the properties and calls that need
    the facts of the page raise it. `index` is the page's number in the chain, -1 for other pages.
    """

    def __init__(self, file: File, index: int, listed: ListedPage, order: str) -> None:
        self._file = file
        self._listed = listed
        self._order = order
        # Calls with the directory's offset don't walk along the pages before it.
        self._at = _library.at(listed.offset)
        self.index = index
        self._is_by_tags = False
        faults = listed.status, listed.count_status
        if Status.UNKNOWN_INTERPRETATION in faults or Status.INT_SIZE_ERROR in faults:
            self._tell_by_tags()

    def __repr__(self) -> str:
        if self.status is not Status.DONE:
            return f"<TiffPage {self.index} @{self.offset} refused: {self.status.name}>"
        try:
            shown = f"{self.shape} {self.dtype}"
        except TiffError as error:
            shown = f"{self.imagelength} x {self.imagewidth}, unread: {error}"
        return f"<TiffPage {self.index} @{self.offset} {shown}>"

    def _tell_by_tags(self) -> None:
        """Takes the facts of the page from its tags, if they make an image."""
        facts, listed = facts_of_tags(self.tags, self.offset), self._listed
        if facts is None:
            return
        page, chunks = facts
        if listed.status == Status.DONE:
            page.color_status, page.color = listed.color_status, listed.color
        # The cached property is set in place of the library's facts.
        self._listed, self.__dict__["_chunks"] = page, chunks
        self._is_by_tags = True

    @property
    def _named(self) -> int | None:
        """The number of the page that errors name."""
        return None if self.index < 0 else self.index

    @property
    def offset(self) -> int:
        """The offset of the page's directory in the file."""
        return self._listed.offset

    @property
    def status(self) -> Status:
        """`Status.DONE`, or the error by which the page is refused."""
        return Status(self._listed.status)

    @property
    def _facts(self) -> ListedPage:
        """The facts of the page in the list of pages; raises the error of a refused page."""
        if self._listed.status:
            raise TiffError(self._listed.status, self._named)
        return self._listed

    def _refuse(self, what: str, status: Status) -> UnsupportedError:
        """Returns the error of something that isn't read, of this page."""
        return UnsupportedError(what, status, self._named)

    @property
    def _color(self) -> Color:
        """The color of the page."""
        if self._facts.color_status:
            raise TiffError(self._facts.color_status, self._named)
        return self._facts.color

    @cached_property
    def _chunks(self) -> Chunks:
        """The page's strips or tiles."""
        with _library.named(self._named):
            planned, kind, count = self._planned, self._facts.chunk_kind, self.chunk_count
            if planned.plan is None and not planned.is_by_ranges:
                return _library.result_of(_library.PAGE_CHUNKS, Chunks, planned.buffer, self._at)
            plan = planned.certain
            return Chunks(kind, count, plan.chunk_width, plan.chunk_height)

    @cached_property
    def _samples(self) -> Samples:
        """What the samples of the page are, and how they are laid out."""
        with _library.named(self._named):
            planned = self._planned
            if not planned.is_by_ranges and not self._is_laid_out:
                return _library.result_of(_library.PAGE_SAMPLES, Samples, planned.buffer, self._at)
            color = self._color
            plan = planned.laid_out(color) if planned.is_by_ranges else planned.certain
            planes = 1 if plan.planar == PLANARCONFIG.CONTIG else color.samples
            inverted = int(plan.photometric == PHOTOMETRIC.MINISWHITE)
            return Samples(plan.sample_format, color.bits, color.samples, planes, inverted)

    @property
    def _is_laid_out(self) -> bool:
        """Whether the samples of the page surely have a layout, so that no call has to tell it."""
        listed = self._listed
        if listed.status or listed.color_status or self._is_by_tags:
            return False
        return self._planned.is_laid_out(listed.color)

    @cached_property
    def _planned(self) -> Planned:
        """The page with its plan, by which its chunks are read."""
        return Planned(self._file, self._at, self._range_of)

    def _range_of(self, chunk: int) -> tuple[int, int]:
        """Returns where a chunk begins in the file, and its length."""
        offset = self.tags._place(OFFSETS[self.is_tiled], chunk)
        return offset, self.tags._place(LENGTHS[self.is_tiled], chunk)

    @cached_property
    def tags(self) -> Tags:
        """The tags of the page, by number and by name."""
        return Tags(self._file, self._at, self._order, self._named)

    @property
    def imagewidth(self) -> int:
        """The number of columns of the image."""
        return self._facts.width

    @property
    def imagelength(self) -> int:
        """The number of rows of the image."""
        return self._facts.height

    @cached_property
    def imagedepth(self) -> int:
        """The number of layers of the image, by the tag ImageDepth: 1, or the page isn't read."""
        return self._first(IMAGE_DEPTH, 1)

    def _first(self, number: int, default: int, name: str | None = None) -> int:
        """Returns the first number of a tag of the page; raises the error of a refused page.

        `name` is that of the number in a plan. The plan has most of these numbers, and the
        directory lacks others: neither takes a call of the library.
        """
        if self._listed.status:
            raise TiffError(self._listed.status, self._named)
        if number not in self.tags._codes:
            return default
        if name is None or self._plan is None:
            return self.tags.first(number, default)
        found: int = getattr(self._plan, name)
        return found

    @cached_property
    def _plan(self) -> PagePlan | None:
        """The plan of a page in memory whose color the library knows; None of another page."""
        listed, planned = self._listed, self._planned
        if listed.status or listed.color_status or self._is_by_tags or planned.is_by_ranges:
            return None
        try:
            return planned.plan
        except TiffError:
            return None

    @property
    def compression(self) -> int:
        """The method of compression, by the tag Compression."""
        return member(COMPRESSION, self._facts.method)

    @cached_property
    def photometric(self) -> int:
        """What the samples of a pixel mean, by the tag PhotometricInterpretation."""
        return member(PHOTOMETRIC, self._first(262, 0, "photometric"))

    @cached_property
    def planarconfig(self) -> int:
        """How the samples of a pixel lie, by the tag PlanarConfiguration."""
        return member(PLANARCONFIG, self._first(284, 1, "planar"))

    @cached_property
    def samplesperpixel(self) -> int:
        """The number of samples of a pixel, from the page's tags."""
        return self._first(277, 1, "samples")

    @cached_property
    def bitspersample(self) -> int:
        """The number of bits of a sample, from the page's tags."""
        return self._first(258, 1, "bits")

    @cached_property
    def sampleformat(self) -> int:
        """What the bits of a sample are, by the tag SampleFormat."""
        return member(SAMPLEFORMAT, self._first(339, 1, "sample_format"))

    @cached_property
    def extrasamples(self) -> tuple[int, ...]:
        """What the extra samples of a pixel are, by the tag ExtraSamples."""
        return tuple(member(EXTRASAMPLE, value) for value in self.tags.told(338))

    @cached_property
    def fillorder(self) -> int:
        """The order of the bits of a byte, by the tag FillOrder: 1, or the page isn't read."""
        return member(FILLORDER, self._first(266, 1))

    @cached_property
    def predictor(self) -> int:
        """What is stored in place of the samples, by the tag Predictor."""
        return member(PREDICTOR, self._first(317, 1, "predictor"))

    @property
    def color(self) -> ColorKind:
        """What the samples of a pixel are, as the library shows them."""
        return ColorKind(self._color.kind)

    @property
    def is_inverted(self) -> bool:
        """Whether zero is white in the file. With `shown=True`, zero is black in arrays."""
        return not self._facts.color_status and self._samples.inverted == 1

    @property
    def is_tiled(self) -> bool:
        """Whether the page is in tiles, and not in strips."""
        return self._facts.chunk_kind == _library.TILES

    @property
    def is_shaped(self) -> bool:
        """Whether the description is the one in which tifffile keeps the shape of an array."""
        text = self._text_or_empty(DESCRIPTION)
        json = text.startswith("{") and '"shape":' in text and '"mibi.' not in text
        return json or text.startswith("shape=")

    @property
    def tilewidth(self) -> int:
        """The number of columns of a tile, 0 for strips."""
        return self._chunks.width if self.is_tiled else 0

    @property
    def tilelength(self) -> int:
        """The number of rows of a tile, 0 for strips."""
        return self._chunks.height if self.is_tiled else 0

    @property
    def tile(self) -> tuple[int, int] | None:
        """The number of rows and of columns of a tile, None for strips."""
        return (self.tilelength, self.tilewidth) if self.is_tiled else None

    @property
    def rowsperstrip(self) -> int:
        """The number of rows of a strip, 0 for tiles."""
        return 0 if self.is_tiled else min(self._chunks.height, self.imagelength)

    @property
    def chunks(self) -> tuple[int, ...]:
        """The shape of a strip or a tile."""
        sides = self.tile or (self.rowsperstrip, self._chunks.width)
        chunky = self.planarconfig == PLANARCONFIG.CONTIG and self.samplesperpixel > 1
        return (*sides, self.samplesperpixel) if chunky else sides

    @cached_property
    def chunk_count(self) -> int:
        """How many strips or tiles the page has, in all planes."""
        if self._facts.count_status:
            raise TiffError(self._facts.count_status, self._named)
        return self._facts.count

    def _text_or_empty(self, number: int) -> str:
        """Returns the text of a tag as the library has it: the last one of several; or none."""
        try:
            return self.tags.text(number)
        except TiffError:
            return ""

    @property
    def description(self) -> str:
        """The text of the tag ImageDescription, or an empty one."""
        return str(self.tags.valueof(DESCRIPTION, ""))

    @property
    def software(self) -> str:
        """The text of the tag Software, or an empty one."""
        return str(self.tags.valueof(SOFTWARE, ""))

    @property
    def resolution(self) -> tuple[float, float]:
        """The number of pixels in a unit along a row and along a column, 1 without the tags."""
        return self._pixels_in_unit(282), self._pixels_in_unit(283)

    def _pixels_in_unit(self, number: int) -> float:
        """Returns a fraction of a tag as a number; without the tag 1, over 0 its first part."""
        values = self.tags.valueof(number, (1, 1))
        if not isinstance(values, tuple) or len(values) != 2:
            return 1.0
        above, below = values
        return float(above / below if below else above)

    @property
    def resolutionunit(self) -> int:
        """The unit of the resolution, by the tag ResolutionUnit."""
        return member(RESUNIT, self._first(296, 2))

    @cached_property
    def colormap(self) -> NDArray[numpy.uint16] | None:
        """The colors of a palette page, three rows: red, green, blue; None without the tag."""
        colors: NDArray[numpy.uint16] | None = self.tags.valueof(320)
        return colors

    @cached_property
    def dtype(self) -> numpy.dtype[Any]:
        """The number type of the array that `asarray` returns.

        One bit is a bool; samples of other depths have the next number type that holds them.
        Complex whole numbers become complex ones, which hold them. A type that numpy lacks raises
        `UnsupportedError`, `UNSUPPORTED_SAMPLE_FORMAT`.
        """
        from ._samples import number_type

        found = number_type(self.sampleformat, self.bitspersample)
        if found is None:
            what = f"samples of SampleFormat {self.sampleformat:d} with {self.bitspersample} bits"
            raise self._refuse(what, Status.UNSUPPORTED_SAMPLE_FORMAT)
        return found

    @property
    def _has_samples(self) -> bool:
        """Whether the array has a dimension for the samples of a pixel."""
        return self.photometric == PHOTOMETRIC.RGB or self.samplesperpixel > 1

    @cached_property
    def axes(self) -> str:
        """A letter for each dimension of the array: Y rows, X columns, S samples."""
        if not self._has_samples:
            return "YX"
        return "YXS" if self.planarconfig == PLANARCONFIG.CONTIG else "SYX"

    def _shape_of(self, samples: int, rows: int, columns: int) -> tuple[int, ...]:
        """Returns the shape of an array of so many samples a pixel, rows and columns."""
        sides = {"Y": rows, "X": columns, "S": samples}
        return tuple(sides[axis] for axis in self.axes)

    @property
    def shape(self) -> tuple[int, ...]:
        """The shape of the array that `asarray` returns."""
        return self._shape_of(self.samplesperpixel, self.imagelength, self.imagewidth)

    def shape_of(self, shown: bool) -> tuple[int, ...]:
        """Returns the shape of the array that `asarray` returns, with `shown` or without."""
        samples = self._color.samples if shown else self.samplesperpixel
        return self._shape_of(samples, self.imagelength, self.imagewidth)

    @property
    def ndim(self) -> int:
        """How many dimensions the array has that `asarray` returns."""
        return len(self.axes)

    @property
    def size(self) -> int:
        """How many numbers the array has that `asarray` returns."""
        return self.imagelength * self.imagewidth * self.samplesperpixel

    @property
    def nbytes(self) -> int:
        """How many bytes the array has that `asarray` returns. A file may claim any number."""
        return self.size * self.dtype.itemsize

    @cached_property
    def geo(self) -> Geo | None:
        """Where the pixels lie on the earth, by the tags of GeoTIFF; None without such tags.

        Tags that aren't as GeoTIFF has them raise `UnsupportedError`, `INVALID_TAG`.
        """
        from ._geo import geo_of

        return geo_of(self.tags, self._named)

    @cached_property
    def nodata(self) -> int | float | complex:
        """The value of pixels that the file doesn't have, by the tag GDAL_NODATA, or 0."""
        text = self._text_or_empty(NODATA)
        try:
            value: int | float | complex = type(self.dtype.type(0).item())(text.replace(",", "."))
        except (ValueError, OverflowError):
            return 0
        return value

    @cached_property
    def databytecounts(self) -> tuple[int, ...]:
        """How many bytes each strip or tile has in the file."""
        return self.tags.told(LENGTHS[self.is_tiled])

    @cached_property
    def dataoffsets(self) -> tuple[int, ...]:
        """Where the strips or tiles begin in the file."""
        return self.tags.told(OFFSETS[self.is_tiled])


def facts_of_tags(tags: Tags, offset: int) -> tuple[ListedPage, Chunks] | None:
    """Returns the facts of a page by its tags, or None where they make no image.

    These are pages that the library refuses for their interpretation, and strips whose number of
    rows is the largest one, which TIFF has for a single strip. Their samples are read as stored.
    """
    try:
        width, height = tags.first(256, 0), tags.first(257, 0)
        samples, planar = tags.first(277, 1), tags.first(284, 1) == PLANARCONFIG.SEPARATE
        tiled = 322 in tags or 323 in tags
        columns = tags.first(322, 0) if tiled else width
        rows = tags.first(323, 0) if tiled else min(tags.first(278, height), height)
        held = {len(tags.told(places[tiled])) for places in (OFFSETS, LENGTHS)}
        method = tags.first(259, COMPRESSION.NONE)
    except TiffError:
        return None
    sides = width, height, columns, rows
    if not 0 < min(*sides, samples) or max(sides) > LONGEST_SIDE:
        return None
    count = -(-width // columns) * -(-height // rows) * (samples if planar else 1)
    if held != {count}:
        return None
    chunks = Chunks(int(tiled), count, columns, rows)
    page = ListedPage(offset=offset, width=width, height=height, method=method, count=count)
    page.color_status, page.chunk_kind = Status.UNKNOWN_INTERPRETATION, int(tiled)
    return page, chunks
