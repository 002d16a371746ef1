"""Images that a file has as they are, mapped into memory as arrays. It needs numpy."""
from __future__ import annotations

import os
from typing import TYPE_CHECKING, Any, Literal

import numpy

from ._enums import COMPRESSION, FILLORDER, PREDICTOR
from ._library import Status, TiffError, UnsupportedError
from ._series import Stack, stack_of

if TYPE_CHECKING:
    from ._page import TiffPage

Mode = Literal["r", "r+", "c"]
MODES = ("r", "r+", "c")
# tifffile's other parameters, each with the value that has no effect.
OTHERS: dict[str, object] = {"level": 0, "shape": None, "dtype": None}


def memmap(
    filename: str | os.PathLike[str],
    /,
    *,
    page: int | None = None,
    series: int = 0,
    mode: Mode = "r+",
    **others: Any,
) -> numpy.memmap[Any, Any]:
    """Maps the image of a page, or the array of a file, into memory as an array.

    Without `page`, the array is that of `TiffFile.asarray`, or of another series. It has the byte
    order of the file. `mode` is "r+", which writes changes into the file, as does `flush`; "r" to
    read alone; or "c", by which changes stay in memory.

    An image that the file doesn't have as the array has it raises `UnsupportedError`, which is a
    ValueError: one that is packed, stored as differences, of samples that aren't whole bytes, in
    tiles narrower or longer than the image, or in strips or pages that don't lie one behind the
    other. A file that ends before the image does raises `UNEXPECTED_EOF`.
    """
    from ._file import TiffFile

    for name, value in others.items():
        if name not in OTHERS:
            raise TypeError(f"memmap() got an unexpected keyword argument {name!r}")
        if value != OTHERS[name]:
            raise UnsupportedError(f"memmap: the parameter {name}")
    if mode not in MODES:
        raise ValueError(f"mode={mode!r} is none of: " + ", ".join(MODES))
    path = os.fspath(filename)
    with TiffFile(path) as tif:
        stack = tif._stack(None, series) if page is None else stack_of([tif.pages[page]])
        offset, dtype = place_of(stack), stack.pages[0].dtype
        dtype = dtype.newbyteorder(">" if tif.byteorder == ">" else "<")
        size = len(stack.pages) * stack.pages[0].nbytes
        if offset + size > os.stat(path).st_size:
            raise TiffError(Status.UNEXPECTED_EOF, stack.pages[0].index)
    made: numpy.memmap[Any, Any] = numpy.memmap(path, dtype, mode, offset, stack.shape, "C")
    return made


def place_of(stack: Stack) -> int:
    """Returns where the images of pages begin, if they lie one behind the other as arrays do."""
    start, size = None, stack.pages[0].nbytes
    for index, page in enumerate(stack.pages):
        check_page(page)
        place = page.dataoffsets[0]
        start = place if start is None else start
        if place != start + index * size:
            raise refused(page, "the pages don't lie one behind the other")
    return start or 0


def refused(page: TiffPage, what: str) -> UnsupportedError:
    """Returns the error of a page that isn't mapped."""
    return UnsupportedError(
        f"the image isn't mapped into memory: {what}", Status.UNSUPPORTED_DATA_TYPE, page.index
    )


def check_page(page: TiffPage) -> None:
    """Refuses a page whose samples don't lie in the file as an array has them."""
    page._judge(shown=False)
    if page.compression != COMPRESSION.NONE or page.predictor != PREDICTOR.NONE:
        raise refused(page, "it is packed, or stored as differences")
    if page.fillorder != FILLORDER.MSB2LSB or page.bitspersample != 8 * page.dtype.itemsize:
        raise refused(page, f"samples of {page.bitspersample} bits, FillOrder {page.fillorder:d}")
    tile = page.tile
    if tile and (tile[1] != page.imagewidth or page.imagelength % tile[0]):
        raise refused(page, "its tiles are narrower or longer than the image")
    places, sizes = page.dataoffsets, page.databytecounts
    if len(places) == 1 and (sizes[:1] == (0,) or sizes[:1] >= (page.nbytes,)):
        return
    ends = (place + size for place, size in zip(places, sizes))
    if sum(sizes) != page.nbytes or any(end != place for end, place in zip(ends, places[1:])):
        raise refused(page, "its strips or tiles don't lie one behind the other")
