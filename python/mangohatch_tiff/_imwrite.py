"""Writes arrays as files; the parameters are tifffile's."""
from __future__ import annotations

import os
from contextlib import suppress
from typing import TYPE_CHECKING, Any, BinaryIO, Union

from ._library import UnsupportedError, reserve

if TYPE_CHECKING:
    import datetime as dates
    import io
    from collections.abc import Sequence

    from numpy.typing import ArrayLike, NDArray

    from ._enums import COMPRESSION, EXTRASAMPLE, PHOTOMETRIC, PLANARCONFIG, PREDICTOR, RESUNIT
    from ._new_pages import NewTag
    from ._new_tags import ExtraTag, Fractional
    from ._write import Settings

    Target = Union[str, os.PathLike[str], BinaryIO]

NAME = "mangohatch_tiff"
# The room of a file of so many bytes is taken on the disk before it is written.
LARGE = 1 << 24
# tifffile's other parameters, each with the value that has no effect.
OTHERS: dict[str, tuple[object, ...]] = {
    "shape": (None,),
    "dtype": (None,),
    "byteorder": (None, "<", "="),
    "imagej": (False,),
    "ome": (None, False),
    "shaped": (None, False),
    "volumetric": (False,),
    "compressionargs": (None, {}),
    "subsampling": (None, (1, 1)),
    "jpegtables": (None,),
    "contiguous": (False,),
    "truncate": (False,),
    "align": (None,),
    "maxworkers": (None,),
    "returnoffset": (False,),
}


def check_others(
    others: dict[str, Any], call: str = "imwrite", known: dict[str, tuple[object, ...]] = OTHERS
) -> None:
    """Refuses tifffile's parameters that nothing is done with, and names that it hasn't either."""
    for name, value in others.items():
        if name not in known:
            raise TypeError(f"{call}() got an unexpected keyword argument {name!r}")
        plain = value is None or isinstance(value, (bool, int, str, tuple, dict))
        if not plain or value not in known[name]:
            raise UnsupportedError(f"{call}: the parameter {name}")


def tags_of(
    extratags: Sequence[ExtraTag] | None, subfiletype: int | None, first: bool
) -> list[NewTag]:
    """Returns the caller's own tags: those of the first page alone, or those of each page."""
    from ._new_pages import NewTag
    from ._new_tags import LONG, SUBFILE_TYPE, extra_tag

    tags = [extra_tag(tag) for tag in extratags or () if any(tag[4:]) == first]
    if subfiletype is not None and not first:
        tags.append(NewTag(SUBFILE_TYPE, LONG, 1, int(subfiletype).to_bytes(4, "little")))
    return tags


def texts_of(
    shape: tuple[int, ...],
    description: str | bytes | None,
    metadata: dict[str, Any] | None,
    software: str | bytes | bool | None,
    datetime: str | bool | dates.datetime | None,
) -> list[NewTag]:
    """Returns the texts of the first page: its description, the program and the date."""
    from ._new_tags import DATE_TIME, DESCRIPTION, SOFTWARE, date_of, shape_text, text_tag

    if description is not None and metadata is not None:
        raise UnsupportedError("imwrite: both description and metadata")
    if metadata is not None:
        description = shape_text(shape, metadata)
    texts = [] if description is None else [text_tag(DESCRIPTION, description)]
    if software:
        texts.append(text_tag(SOFTWARE, NAME if software is True else software))
    if datetime:
        texts.append(text_tag(DATE_TIME, date_of(datetime)))
    return texts


def holds_some(file: Target | None) -> bool:
    """Returns whether there are bytes of a file to which pages are added."""
    if file is None:
        raise ValueError("append=True: there is no file to add to")
    if not isinstance(file, (str, os.PathLike)):
        return True
    return os.path.exists(file) and os.stat(file).st_size > 0


def deliver(file: Target | None, parts: list[memoryview]) -> bytes | None:
    """Writes the bytes of a file at a path or into an open file, or returns them."""
    if file is None:
        return b"".join(parts)
    if isinstance(file, (str, os.PathLike)):
        write_new(file, parts)
    else:
        write_all(file, parts)
    return None


def write_new(path: str | os.PathLike[str], parts: list[memoryview]) -> None:
    """Writes the bytes of a file at a path.

    Room on the disk for a large one is taken at once, which takes less time than piece by piece.
    After an error, what isn't written is given back.
    """
    size = sum(map(len, parts))
    with open(path, "wb", buffering=0) as made:
        if size >= LARGE:
            reserve(made.fileno(), size)
        try:
            write_all(made, parts)
        except BaseException:
            with suppress(OSError):
                made.truncate()
            raise


def write_all(file: BinaryIO | io.RawIOBase, parts: list[memoryview]) -> None:
    """Writes bytes into an open file, which may take some of them at a time."""
    for data in parts:
        while data:
            written = file.write(data)
            data = data[len(data) if written is None else written :]


def settings_of(
    array: NDArray[Any],
    *,
    photometric: PHOTOMETRIC | int | str | None = None,
    planarconfig: PLANARCONFIG | int | str | None = None,
    extrasamples: Sequence[EXTRASAMPLE | int | str] | None = None,
    colormap: ArrayLike | None = None,
    tile: Sequence[int] | None = None,
    rowsperstrip: int | None = None,
    compression: COMPRESSION | int | str | None = None,
    predictor: PREDICTOR | int | str | bool | None = None,
    bitspersample: int | None = None,
    description: str | bytes | None = None,
    datetime: str | bool | dates.datetime | None = None,
    resolution: Sequence[Fractional] | None = None,
    resolutionunit: RESUNIT | int | str | None = None,
    subfiletype: int | None = None,
    software: str | bytes | bool | None = None,
    metadata: dict[str, Any] | None = None,
    extratags: Sequence[ExtraTag] | None = None,
) -> Settings:
    """Returns how an array is written, by the parameters of `imwrite`."""
    from ._new_tags import resolution_of
    from ._write import Samples, Settings, Stored

    first = texts_of(array.shape, description, metadata, software, datetime)
    return Settings(
        Samples(photometric, planarconfig, extrasamples, colormap),
        Stored(tile, rowsperstrip, compression, predictor, bitspersample),
        tags=tuple(tags_of(extratags, subfiletype, first=False)),
        first_tags=(*first, *tags_of(extratags, subfiletype, first=True)),
        resolution=resolution_of(resolution, resolutionunit),
        has_shape=metadata is not None,
    )


def imwrite(
    file: Target | None,
    data: ArrayLike,
    *,
    bigtiff: bool | None = None,
    append: bool = False,
    photometric: PHOTOMETRIC | int | str | None = None,
    planarconfig: PLANARCONFIG | int | str | None = None,
    extrasamples: Sequence[EXTRASAMPLE | int | str] | None = None,
    colormap: ArrayLike | None = None,
    tile: Sequence[int] | None = None,
    rowsperstrip: int | None = None,
    compression: COMPRESSION | int | str | None = None,
    predictor: PREDICTOR | int | str | bool | None = None,
    bitspersample: int | None = None,
    description: str | bytes | None = None,
    datetime: str | bool | dates.datetime | None = None,
    resolution: Sequence[Fractional] | None = None,
    resolutionunit: RESUNIT | int | str | None = None,
    subfiletype: int | None = None,
    software: str | bytes | bool | None = None,
    metadata: dict[str, Any] | None = None,
    extratags: Sequence[ExtraTag] | None = None,
    **others: Any,
) -> bytes | None:
    """Writes an array as a file at a path or into an open file, or returns the bytes for None.

    The parameters are tifffile's, and what is written is read back as what was given:

    `data` has two dimensions or more: rows and columns, pages before them, and the samples of a
    pixel behind them, or before them with planarconfig "separate". Three or four samples of 8 or 16
    bits at the end are RGB; other arrays with a side of 3 or 4 there need a `photometric`:
    "minisblack", "miniswhite", "rgb", "separated" (CMYK), or "palette", of unsigned numbers of 8 or
    16 bits that are columns of `colormap`, which has three rows of 16 bits: red, green, blue.
    Numbers are of 8, 16, 32 or 64 bits, unsigned; of 32 or 64 bits, floating-point; and for gray
    signed. A bool array is a gray page of one bit, in which True is 1: white, or with "miniswhite"
    black. `bitspersample` is 1, 2 or 4 for gray numbers of 8 bits that have no more bits. Both are
    in strips, without a predictor.
    `bigtiff` is decided by the size if it is None. `append` adds the pages to a file that is there,
    as `TiffWriter` does. `tile` is rows and columns, each a multiple of
    16. `compression` is None or "packbits". `predictor` stores differences of whole numbers, which
    many readers undo for LZW and Deflate alone.
    `description`, `software`, `datetime` and `metadata` go to the first page. `metadata`, a
    dictionary, makes the description that keeps the shape of the array, with the dictionary's
    facts; by default there is none. `resolution` is the pixels in a unit along a row and a column,
    numbers or fractions, in inches or in `resolutionunit`. `extratags` are tuples: a tag's number,
    the type and the count of its values, the values, and whether the first page alone gets it.

    Errors: what tifffile writes and this package doesn't, as `UnsupportedError`, which names it;
    values that fit no file, ValueError; and what the library refuses as `PagesError`, with the
    `page` and the `field`. Nothing is written then.
    """
    import numpy

    from ._write import file_of

    check_others(others)
    array = numpy.asarray(data)
    settings = settings_of(
        array,
        photometric=photometric,
        planarconfig=planarconfig,
        extrasamples=extrasamples,
        colormap=colormap,
        tile=tile,
        rowsperstrip=rowsperstrip,
        compression=compression,
        predictor=predictor,
        bitspersample=bitspersample,
        description=description,
        datetime=datetime,
        resolution=resolution,
        resolutionunit=resolutionunit,
        subfiletype=subfiletype,
        software=software,
        metadata=metadata,
        extratags=extratags,
    )
    if not append or not holds_some(file):
        return deliver(file, file_of(array, bigtiff, settings))
    from ._writer import TiffWriter

    target: Any = file
    with TiffWriter(target, append=True) as writer:
        writer._add(array, settings)
    return None
