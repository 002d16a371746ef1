"""Files: their pages, and the array that the pages make."""
from __future__ import annotations

import glob
import mmap
import operator
import os
import re
from collections.abc import Iterable, Iterator, Sequence
from functools import cached_property
from typing import TYPE_CHECKING, Any, BinaryIO, Literal, Union, overload

from . import _directory, _library
from ._closing import Closing
from ._library import ListedPage, Status, TiffError, UnsupportedError
from ._mapped import Mapped, mapped
from ._page import TiffPage
from ._tags import Tags
from ._tree import Directory, directories_of
from ._windows import OpenedSource, Windows

if TYPE_CHECKING:
    from _typeshed import ReadableBuffer
    from numpy.typing import NDArray

    from ._levels import TiffPageSeries
    from ._library import File
    from ._series import Stack
    from ._windows import RangeSource
    from ._zarr import ZarrTiffStore

    Source = Union[str, os.PathLike[str], BinaryIO, ReadableBuffer, RangeSource]
    Key = Union[int, slice, Iterable[int]]


class TiffFile(Closing):
    """A TIFF file: a file at a path or an open one, mapped into memory, or the bytes of a buffer.

    A buffer isn't copied: keep its bytes unchanged during a call. Don't shorten a file at a path
    before `close`. An open file is read from its current position on, as tifffile does; one that
    can't be mapped is read whole.

    A source with `read_at(offset, size)`, and a length by `size` or `len`, is read by ranges: its
    bytes are fetched in pages of 64 KB when they are wanted, and the last 16 MB are kept. So is an
    open file or one at a path with `ranges=True`. Errors of a source are passed on.

    `pages` are the pages of the file's chain, also those that are refused, each with its `status`;
    `byteorder` is `<` or `>`, and `end` is `Status.DONE`, or the error by which the chain ends. A
    file whose header or whose first directory can't be read raises the error.
    """

    def __init__(self, source: Source, *, ranges: bool = False) -> None:
        self._map: Mapped | None = None
        self._opened_here: BinaryIO | None = None
        self._view: memoryview | None = None
        self._source = source
        try:
            by_ranges = ranges or hasattr(source, "read_at")
            file = self._by_ranges(source) if by_ranges else self._opened(source)
            listed, self.end = _library.list_pages(file)
            if not listed:
                _library.check(self.end)
            self.byteorder = _library.byte_order(file)
        except BaseException:
            self.close()
            raise
        self._file = file
        self.pages = [
            TiffPage(file, index, page, self.byteorder) for index, page in enumerate(listed)
        ]

    def __repr__(self) -> str:
        kind = self._source if isinstance(self._source, (str, os.PathLike)) else type(self._source)
        end = "" if self.end is Status.DONE else f", then {self.end.name}"
        return f"<TiffFile {kind!r}: {len(self.pages)} pages{end}>"

    def _by_ranges(self, source: Any) -> File:
        """Returns the pages of a source of ranges, of an open file, or of a file at a path."""
        if isinstance(source, (str, os.PathLike)):
            source = self._opened_here = open(source, "rb", buffering=0)
        return Windows(source if hasattr(source, "read_at") else OpenedSource(source))

    def _opened(self, source: Any) -> ReadableBuffer:
        """Returns the bytes of a file at a path, of an open file, or of a buffer."""
        if isinstance(source, (str, os.PathLike)):
            with open(source, "rb", buffering=0) as file:
                return self._mapped(file.fileno(), source)
        is_file = hasattr(source, "read") and hasattr(source, "seek")
        if isinstance(source, mmap.mmap) or not is_file:
            buffer: ReadableBuffer = source
            return buffer
        start: int = source.tell()
        data: ReadableBuffer
        if hasattr(source, "getvalue"):
            data = source.getvalue()
        else:
            try:
                data = self._mapped(source.fileno())
            except (OSError, ValueError):
                data, start = source.read(), 0
        if not start:
            return data
        self._view = memoryview(data)[start:]
        return self._view

    def _mapped(
        self, number: int, path: str | os.PathLike[str] | None = None
    ) -> ReadableBuffer:
        """Maps an open file into memory."""
        self._map = mapped(number, path)
        return b"" if self._map is None else self._map

    def close(self) -> None:
        """Unmaps or closes a file that this one opened; its pages can't be read then.

        A buffer, an open file and a source stay as they are.
        """
        if self._view is not None:
            self._view.release()
        if self._map is not None:
            self._map.close()
        if self._opened_here is not None:
            self._opened_here.close()

    def __len__(self) -> int:
        return len(self.pages)

    @overload
    def __getitem__(self, key: int) -> TiffPage: ...
    @overload
    def __getitem__(self, key: slice) -> list[TiffPage]: ...
    def __getitem__(self, key: int | slice) -> TiffPage | list[TiffPage]:
        return self.pages[key]

    def __iter__(self) -> Iterator[TiffPage]:
        return iter(self.pages)

    @property
    def is_bigtiff(self) -> bool:
        """Whether the file is a BigTIFF file."""
        return _directory.is_big(self._file, self.byteorder)

    @cached_property
    def directories(self) -> list[Directory]:
        """All places where directories of the file are named, as a tree.

        These are the directories of the chain, and behind each those that its tags name, each with
        all below it: by SubIFDs (330), the pointers to Exif (34665), GPS (34853) and
        interoperability (40965), and all tags of the types IFD and IFD8. A directory that is named
        at several places is read at one of them, the nearest to the chain.
        """
        return directories_of(self._file, self.byteorder, self.pages)

    @cached_property
    def series(self) -> list[TiffPageSeries]:
        """The arrays of the file: series of pages, each with its shape, number type and axes.

        An array that the file has in smaller sizes too, as in a pyramid, has those as `levels`.
        Files with pages that are refused raise `UnsupportedError`, as do those that `asarray`
        refuses.
        """
        from ._levels import series_of

        return series_of(self)

    def page_at(self, offset: int) -> TiffPage:
        """Returns the page whose directory lies at an offset of the file, in the chain or not.

        The tag SubIFDs (330) has such offsets. The `index` of the page is -1. Of a file that is
        read by ranges, it is a page of `directories`; other offsets raise `UnsupportedError`.
        """
        try:
            listed = self._listed_at(offset)
        except TiffError as error:
            if error.status is not Status.UNKNOWN_INTERPRETATION:
                raise
            listed = ListedPage(offset=offset, status=error.status)
        page = TiffPage(self._file, -1, listed, self.byteorder)
        _library.check(page.status)
        return page

    def _listed_at(self, offset: int) -> ListedPage:
        """Returns the facts of the page at an offset."""
        if not isinstance(self._file, Windows):
            return _library.page_at(self._file, offset)
        for directory in self.directories:
            if directory.offset == offset and directory.page is not None:
                return directory.page._listed
        what = f"the page at {offset}, which no directory names, of a file that is read by ranges"
        raise UnsupportedError(what, Status.IMAGE_FILE_DIRECTORY_NOT_FOUND)

    def tags_at(self, offset: int) -> Tags:
        """Returns the tags of the directory at an offset of the file, even if it is no page.

        The tags SubIFDs (330), ExifTag (34665) and GPSTag (34853) have such offsets.
        """
        return Tags(self._file, _library.at(offset), self.byteorder)

    def asarray(
        self,
        key: Key | None = None,
        *,
        series: int | None = None,
        level: int | None = None,
        out: NDArray[Any] | None = None,
        workers: int | None = None,
        shown: bool = False,
    ) -> NDArray[Any]:
        """Reads the array of the file, or pages of it, as an array.

        Without a key, the array is that of the first page and all pages like it, one behind the
        other: pages, rows, columns. If tifffile or ImageJ wrote a shape into the description, or an
        OME-TIFF file has one there, the array has it. `key` is the number of a page, whose image is
        returned, or a slice or several numbers, whose images are returned as one array. `series` is
        the number of one of `series`, and `level` that of one of its levels: its array is returned,
        or of its pages those of the key. `out`, `workers` and `shown` are as those of
        `TiffPage.asarray`.

        Errors: those of `TiffPage.asarray`; pages of several shapes or number types, ValueError;
        and without a key, as `UnsupportedError`, files whose arrays tifffile makes by the metadata
        of other programs, as LSM.
        """
        return self._stack(key, series, level).read(out, workers, shown)

    def _stack(self, key: Key | None, series: int | None, level: int | None = None) -> Stack:
        """Returns the pages of an array: those of the file's array or a series, or of a key."""
        from ._series import first_stack, stack_of

        if key is not None and series is None:
            return stack_of(selected(self.pages, key))
        if series or level:
            whole = self.series[series or 0].levels[level or 0]._stack
        else:
            whole = first_stack(self)
        return whole if key is None else stack_of(selected(whole.pages, key))

    def aszarr(
        self,
        key: Key | None = None,
        *,
        series: int | None = None,
        level: int | None = None,
        zattrs: dict[str, Any] | None = None,
        multiscales: bool | None = None,
    ) -> ZarrTiffStore:
        """Returns the array of the file, or pages of it, as a store of zarr, to be read.

        `key`, `series` and `level` are as those of `asarray`, and the rest as in `TiffPage.aszarr`.
        An array with levels is a group of arrays, `0` and on, unless `level` chooses one. The store
        reads from this file: close the file after it.
        """
        from ._zarr import ZarrTiffStore

        if key is None:
            chosen = self.series[series or 0]
            return chosen.aszarr(level=level, zattrs=zattrs, multiscales=multiscales)
        stack = self._stack(key, series, level)
        return ZarrTiffStore([stack], zattrs=zattrs, multiscales=multiscales)


def selected(pages: list[TiffPage], key: Key) -> list[TiffPage]:
    """Returns the pages that a key names: a number, a slice or several numbers."""
    if isinstance(key, slice):
        return pages[key]
    if isinstance(key, Iterable):
        return [pages[operator.index(index)] for index in key]
    return [pages[operator.index(key)]]


def matching(pattern: str) -> list[str]:
    """Returns the paths that a pattern names, in the order of the numbers in them."""

    def key(path: str) -> list[tuple[int, int, str]]:
        words = re.split(r"(\d+)", path)
        return [(1, int(word), "") if word.isdigit() else (0, 0, word) for word in words]

    found = sorted(glob.glob(pattern), key=key)
    if not found:
        raise ValueError(f"no files found: {pattern!r}")
    return found


def read_each(
    files: Sequence[Source],
    key: Key | None,
    *,
    out: NDArray[Any] | None = None,
    **settings: Any,
) -> NDArray[Any]:
    """Reads the arrays of several files into one array, one behind the other."""
    import numpy

    from ._page import output_array

    if not files:
        raise ValueError("no files are given")
    settings["key"] = key
    first = imread(files[0], **settings)
    array = output_array(out, (len(files), *first.shape), first.dtype)
    array[0] = first
    for index in range(1, len(files)):
        one = imread(files[index], **settings)
        if (one.shape, one.dtype) != (first.shape, first.dtype):
            what = f"{one.shape} {one.dtype}, and the first file {first.shape} {first.dtype}"
            raise ValueError(f"{files[index]!r} has {what}: they make no array")
        array[index] = one
    if out is None or out is array:
        return array
    numpy.copyto(out, array)
    return out


@overload
def imread(
    file: Source | Sequence[Source],
    *,
    key: Key | None = None,
    series: int | None = None,
    level: int | None = None,
    out: NDArray[Any] | None = None,
    workers: int | None = None,
    shown: bool = False,
    aszarr: Literal[False] = False,
) -> NDArray[Any]: ...
@overload
def imread(
    file: Source,
    *,
    key: Key | None = None,
    series: int | None = None,
    level: int | None = None,
    aszarr: Literal[True],
    zattrs: dict[str, Any] | None = None,
    multiscales: bool | None = None,
) -> ZarrTiffStore: ...
def imread(
    file: Source | Sequence[Source],
    *,
    aszarr: bool = False,
    key: Key | None = None,
    **settings: Any,
) -> NDArray[Any] | ZarrTiffStore:
    """Reads the array of a file, or pages of it; everything is as in `TiffFile.asarray`.

    Of a list of files, the arrays are one array, one behind the other; that of a single file is
    read as it is. A text with * or ? is a pattern of paths, as `glob` has them, which are read in
    the order of the numbers in them. With `aszarr`, returns a store of zarr as `TiffFile.aszarr`
    does, which closes the file when it is closed.
    """
    if isinstance(file, str) and ("*" in file or "?" in file):
        file = matching(file)
    if isinstance(file, (list, tuple)):
        if len(file) != 1:
            if aszarr:
                raise UnsupportedError("aszarr of several files")
            return read_each(file, key, **settings)
        file = file[0]
    source: Any = file
    if not aszarr:
        with TiffFile(source) as tif:
            return tif.asarray(key, **settings)
    tif = TiffFile(source)
    try:
        store = tif.aszarr(key, **settings)
    except BaseException:
        tif.close()
        raise
    store._owned = tif
    return store
