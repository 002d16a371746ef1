"""A page of a file, and its samples."""
from __future__ import annotations

import sys
from collections.abc import Iterator
from functools import cached_property
from typing import TYPE_CHECKING, Any

from . import _library
from ._enums import COMPRESSION, FILLORDER, PHOTOMETRIC, PLANARCONFIG, PREDICTOR, SAMPLEFORMAT
from ._facts import LENGTHS, OFFSETS, PageFacts
from ._library import Status, TiffError, UnsupportedError

if TYPE_CHECKING:
    import numpy
    from numpy.typing import NDArray

    from ._parts import Grid, Source
    from ._stored import StoredForm
    from ._zarr import ZarrTiffStore

LACKING = "a strip or a tile that the file doesn't have: its offset or its length is 0"
# The pages and the depths of which the library reads the samples that are stored.
SHOWN = {PHOTOMETRIC.MINISWHITE, PHOTOMETRIC.MINISBLACK, PHOTOMETRIC.RGB, PHOTOMETRIC.SEPARATED}
SHOWN |= {PHOTOMETRIC.YCBCR}
SUBSAMPLING = 530
# The tags by which samples are read; of one that is there twice, tifffile reads the first.
LAYOUT_TAGS = {256, 257, 258, 259, 262, 266, 273, 277, 278, 279, 284, 317, 322, 323, 324, 325}
LAYOUT_TAGS |= {338, 339, SUBSAMPLING, 32997}
DEPTHS = {1, 2, 3, 4, 5, 6, 7, 8, 16, 32, 64}
# The depths of which it mirrors white as 0, and those of colors are whole bytes.
MIRRORED = {1, 2, 4, 8, 16, 32, 64}


class TiffPage(PageFacts):
    """A page of a file, as `TiffFile.pages` has it.

    For a page that the library refuses, `status` is the error; the properties and calls that need
    the facts of the page raise it. `index` is the page's number in the chain, -1 for other pages.
    """

    def _judge(self, shown: bool) -> None:
        """Refuses a page whose samples can't be read rightly."""
        for code in sorted(LAYOUT_TAGS & self.tags._twice):
            self.tags._judge(code)
        if shown and self.fillorder != FILLORDER.MSB2LSB:
            raise self._refuse("FillOrder 2: the bits of each byte are turned", Status.INVALID_TAG)
        if self.imagedepth != 1:
            what = f"an image of {self.imagedepth} layers (ImageDepth)"
            raise self._refuse(what, Status.UNSUPPORTED_DATA_TYPE)
        if self._lacks_chunks and (shown or self._is_alone):
            raise self._refuse(LACKING, Status.INCONSISTENT_SIZES_ENCOUNTERED)

    @property
    def _is_alone(self) -> bool:
        """Whether a single chunk that isn't packed has the image. Its length may be 0."""
        return self.chunk_count == 1 and self.compression == COMPRESSION.NONE

    @cached_property
    def _lacks_chunks(self) -> bool:
        """Whether the file lacks a chunk: its offset or its length is 0."""
        plan = self._plan
        offsets = None if plan is None else plan.offsets_count
        if self.tags._has_zero(OFFSETS[self.is_tiled], offsets):
            return True
        lengths = None if plan is None else plan.byte_counts_count
        return not self._is_alone and self.tags._has_zero(LENGTHS[self.is_tiled], lengths)

    @cached_property
    def _is_as_stored(self) -> bool:
        """Whether the samples are taken from the file: the library leaves some out or has none."""
        if self._facts.color_status or self._is_by_tags or self._lacks_chunks:
            return True
        if self.photometric not in SHOWN or self.bitspersample not in DEPTHS:
            return True
        if self.fillorder != FILLORDER.MSB2LSB or self.sampleformat == SAMPLEFORMAT.COMPLEXINT:
            return True
        if self.photometric == PHOTOMETRIC.MINISWHITE:
            plain = self.sampleformat == SAMPLEFORMAT.UINT and self.bitspersample in MIRRORED
            if not plain or self.samplesperpixel > 1:
                return True
        elif self.photometric != PHOTOMETRIC.MINISBLACK and self.bitspersample < 8:
            return True
        return self._samples.planes == 1 and self._color.samples != self.samplesperpixel

    @cached_property
    def _sources(self) -> dict[bool, Source]:
        """The page as samples that are read, by whether the library shows them."""
        return {}

    @property
    def _is_chunky(self) -> bool:
        """Whether the array of a chunk has a dimension for the samples of a pixel."""
        return self.axes == "YXS"

    @property
    def _planes(self) -> int:
        """How many planes the page has in the file."""
        apart = self.planarconfig == PLANARCONFIG.SEPARATE
        return self.samplesperpixel if apart else 1

    def _grid(self, shown: bool) -> Grid:
        """How the chunks of the page lie, in all planes or in those that the library shows."""
        from ._parts import Grid

        chunks = self._chunks
        planes = self._samples.planes if shown else self._planes
        return Grid(self.imagewidth, self.imagelength, chunks.width, chunks.height, planes)

    def _source(self, shown: bool) -> Source:
        """Returns the page as samples that are read: as stored, or as the library shows them."""
        if shown not in self._sources:
            self._sources[shown] = self._new_source(shown)
        return self._sources[shown]

    def _new_source(self, shown: bool) -> Source:
        """Finds how the samples of the page are read."""
        from ._parts import Source
        from ._samples import SIGNED, Form

        self._judge(shown)
        if not shown and self._is_as_stored:
            return self._stored_source()
        form = Form(
            dtype=self.dtype,
            bits=self.bitspersample,
            samples=self._color.samples if self._samples.planes == 1 else 1,
            signed=self.sampleformat == SIGNED,
            turned=self.is_inverted and not shown,
            swapped=self._order == ">" and self.dtype.kind == "c",
            alone=self.sampleformat > SAMPLEFORMAT.IEEEFP,
        )
        grid = self._grid(shown)
        at_once = grid.planes == self._samples.planes and not self._planned.is_by_ranges
        return Source(self._planned, grid, form, self._is_chunky, at_once)

    def _stored_source(self) -> Source:
        """Returns the page as samples that are taken from its chunks in the file."""
        from ._parts import Source
        from ._samples import Form
        from ._stored import Stored

        self._check_stored()
        grid, samples = self._grid(shown=False), self.samplesperpixel // self._planes
        stored = Stored(self._file, self.dataoffsets, self._stored_lengths(), self._stored_form())
        if min(len(stored.offsets), len(stored.lengths)) < grid.planes * grid.down * grid.across:
            raise TiffError(Status.INCONSISTENT_SIZES_ENCOUNTERED, self._named)
        form = Form(self.dtype, 8 * self.dtype.itemsize, samples)
        return Source(self._planned, grid, form, self._is_chunky, stored=stored)

    def _stored_lengths(self) -> tuple[int, ...]:
        """Returns how many bytes each chunk has; the one of a page may have all that follow it."""
        lengths = self.databytecounts
        return (sys.maxsize,) if self._is_alone and lengths == (0,) else lengths

    def _stored_form(self) -> StoredForm:
        """Returns how the samples of a chunk lie in the file."""
        from ._samples import SIGNED
        from ._stored import StoredForm

        return StoredForm(
            dtype=self.dtype,
            bits=self.bitspersample,
            samples=self.samplesperpixel // self._planes,
            order=self._order,
            signed=self.sampleformat == SIGNED,
            packed=self.compression == COMPRESSION.PACKBITS,
            turned=self.fillorder != FILLORDER.MSB2LSB,
            differences=self.predictor == PREDICTOR.HORIZONTAL,
            paired=self.sampleformat == SAMPLEFORMAT.COMPLEXINT,
            missing=self.nodata,
        )

    def _check_stored(self) -> None:
        """Refuses a page whose samples aren't taken from its chunks in the file."""
        if self.compression not in (COMPRESSION.NONE, COMPRESSION.PACKBITS):
            raise TiffError(Status.UNSUPPORTED_COMPRESSION_METHOD, self._named)
        if self.photometric == PHOTOMETRIC.YCBCR and self.tags.told(SUBSAMPLING) != (1, 1):
            raise TiffError(Status.CHROMA_SUBSAMPLING, self._named)
        bits, whole = self.bitspersample, self.dtype.kind in "ui"
        if len(set(self.tags.told(258))) > 1:
            raise TiffError(Status.INCONSISTENT_BITS_PER_SAMPLE, self._named)
        if len(set(self.tags.told(339))) > 1:
            raise self._refuse("samples of several formats", Status.UNSUPPORTED_SAMPLE_FORMAT)
        if self.predictor == PREDICTOR.HORIZONTAL:
            if not whole or bits != 8 * self.dtype.itemsize:
                raise TiffError(Status.HORIZONTAL_PREDICTOR, self._named)
        elif self.predictor != PREDICTOR.NONE:
            raise TiffError(Status.FLOATING_POINT_PREDICTOR, self._named)
        if self._order == "<" and bits in (24, 40, 48, 56):
            what = f"samples of {bits} bits in a little-endian file: programs differ in their order"
            raise self._refuse(what, Status.UNSUPPORTED_BITS_PER_CHANNEL)

    def asarray(
        self,
        *,
        out: NDArray[Any] | None = None,
        workers: int | None = None,
        shown: bool = False,
    ) -> NDArray[Any]:
        """Reads the image as an array of `shape` and `dtype`, with the samples that are stored.

        With `out`, the image is put into that array, which has the shape and the number type, and
        is returned. `workers` threads read at once, by default as many as there are processors.
        With `shown`, the array has the samples as the library shows them: of a page whose zero is
        white, inverted so that zero is black; and without the extra samples that it leaves out.

        The samples of a palette are indexes of the columns of `colormap`. Of several chunks, those
        that the file doesn't have are filled with `nodata`.

        Errors, as `TiffError` with a `status`: what the library refuses; and as `UnsupportedError`
        an ImageDepth, a number type that numpy lacks, and with `shown` FillOrder 2 and chunks that
        the file doesn't have.
        """
        return self.read(out=out, workers=workers, shown=shown)

    def read(
        self,
        rows: slice = slice(None),
        cols: slice = slice(None),
        *,
        out: NDArray[Any] | None = None,
        workers: int | None = None,
        shown: bool = False,
    ) -> NDArray[Any]:
        """Reads a window of the image: some rows and columns, from the chunks that it needs.

        The result is that of `asarray` with these rows and columns. Slices have a step of 1.
        """
        from ._parts import Window, read_window

        source = self._source(shown)
        window = Window(*_bounds(rows, self.imagelength), *_bounds(cols, self.imagewidth))
        sides = window.bottom - window.top, window.right - window.left
        shape = self._shape_of(source.grid.planes * source.form.samples, *sides)
        array = output_array(out, shape, self.dtype)
        parts = array.reshape(source.grid.planes, *sides, source.form.samples)
        if array.size:
            with _library.named(self._named):
                read_window(source, window, parts, workers)
        if out is None or out is array:
            return array
        out[...] = array
        return out

    def aszarr(
        self, *, zattrs: dict[str, Any] | None = None, multiscales: bool | None = None
    ) -> ZarrTiffStore:
        """Returns the image as a store of zarr, version 2, to be read: a mapping of keys to bytes.

        Its chunks are the strips or tiles, each read when it is needed, with the samples that
        are stored. The attribute `_ARRAY_DIMENSIONS` has the letters of `axes`, and `zattrs` are
        more of them. With `multiscales`, the array is `0` in a group, as xarray opens it. The store
        reads from the page's file: close the file after it. Errors are those of `read_chunk`.
        """
        from ._series import stack_of
        from ._zarr import ZarrTiffStore

        return ZarrTiffStore([stack_of([self])], zattrs=zattrs, multiscales=multiscales)

    def read_chunk(self, chunk: int, *, shown: bool = False) -> NDArray[Any]:
        """Reads a strip or a tile as an array, cut at the edges of the image.

        Chunks are numbered from 0, by rows from the top. With separate planes, each chunk belongs
        to one plane, and the chunks of the first plane come first. The array has rows and columns,
        and samples if several lie side by side.
        """
        if not 0 <= chunk < self.chunk_count:
            raise TiffError(Status.INVALID_CHUNK_INDEX, self._named)
        source = self._sources.get(shown) or self._source(shown)
        try:
            return source.chunk(chunk)
        except TiffError as error:
            _library.name_place(error, self._named)
            raise

    def place_of(self, chunk: int) -> tuple[int, int, int]:
        """Returns the plane of a strip or a tile, and the row and the column of its first pixel."""
        if not 0 <= chunk < self.chunk_count:
            raise TiffError(Status.INVALID_CHUNK_INDEX, self._named)
        return self._grid(shown=False).place(chunk)

    def rewrite(self, chunk: int, samples: NDArray[Any], *, shown: bool = False) -> None:
        """Changes a strip or a tile in the file: `read_chunk` returns these samples then.

        The file is one at a path, or a buffer that can be written, as a bytearray or a mmap. Its
        data aren't packed. The array has the shape and the number type of that of `read_chunk`,
        with `shown` as there. In the file the chunk's own bytes change and no other ones, at the
        offset that the page has for it: chunks that lie over each other are the caller's to see to.

        Errors: an array of another shape or number type, and numbers of more bits than a sample
        has, ValueError; what the library refuses, as packed data and the byte-plane predictor,
        `TiffError`; and as `UnsupportedError` samples that the library doesn't read, bytes that
        can't be written, and a path that has another file now. The file stays as it is then.
        """
        from ._rewrite import rewrite_chunk

        if not 0 <= chunk < self.chunk_count:
            raise TiffError(Status.INVALID_CHUNK_INDEX, self._named)
        rewrite_chunk(self, chunk, samples, shown)

    def segments(
        self, *, workers: int | None = None, shown: bool = False
    ) -> Iterator[
        tuple[NDArray[Any], tuple[int, int, int, int, int], tuple[int, int, int, int]]
    ]:
        """Reads all strips or tiles, in their order, and yields each with its place and its shape.

        As in tifffile, a segment has the shape (depth, rows, columns, samples), and its place is
        (plane, layer, row, column, sample). Strips are cut at the edge of the image; tiles have
        their whole size, with zeros where the image has none.
        """
        from ._parts import segments_of

        if self._lacks_chunks:
            raise self._refuse(LACKING, Status.INCONSISTENT_SIZES_ENCOUNTERED)
        source = self._source(shown)
        full = self.tile
        with _library.named(self._named):
            for (plane, row, column), part in segments_of(source, workers):
                data = part if full is None else _filled(part, full)
                shape = (1, data.shape[0], data.shape[1], data.shape[2])
                yield data.reshape(shape), (plane, 0, row, column, 0), shape


def _bounds(part: slice, size: int) -> tuple[int, int]:
    """Returns where a part of the rows or columns begins and ends."""
    start, stop, step = part.indices(size)
    if step != 1:
        raise ValueError(f"a step of {step}: a window has all rows and columns in it")
    return start, max(start, stop)


def output_array(
    out: NDArray[Any] | None, shape: tuple[int, ...], dtype: numpy.dtype[Any]
) -> NDArray[Any]:
    """Returns the array that the library reads into: the caller's, if it has the library's form."""
    import numpy

    if out is None:
        return numpy.empty(shape, dtype)
    if not isinstance(out, numpy.ndarray):
        raise UnsupportedError(f"out={out!r}: it is an array")
    if out.shape != shape or out.dtype.newbyteorder("=") != dtype.newbyteorder("="):
        raise ValueError(f"out has {out.shape} {out.dtype}, and the image {shape} {dtype}")
    if not out.flags.writeable:
        raise ValueError("out can't be written")
    fits = out.flags.c_contiguous and out.flags.aligned and out.dtype == dtype
    return out if fits else numpy.empty(shape, dtype)


def _filled(part: NDArray[Any], full: tuple[int, int]) -> NDArray[Any]:
    """Returns a tile of whole size, with zeros where the image has no pixels."""
    import numpy

    if part.shape[:2] == full:
        return part
    tile = numpy.zeros((*full, part.shape[2]), part.dtype)
    tile[: part.shape[0], : part.shape[1]] = part
    return tile
