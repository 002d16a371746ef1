"""Chunks of a file that are changed in place, one at a time. It needs numpy."""
from __future__ import annotations

import os
from ctypes import byref
from typing import TYPE_CHECKING, Any

import numpy

from . import _library
from ._library import ChunkPlace, PagePlan, Status, TiffError
from ._mapped import Mapped, identity_of

if TYPE_CHECKING:
    from numpy.typing import NDArray

    from ._page import TiffPage
    from ._parts import Source

LEFT_OUT = "rewrite: samples that the library leaves out, or has no color for"
NO_BUFFER = "rewrite: a file that is neither at a path nor in memory"
CONSTANT = "rewrite: bytes that can't be written, of a file that wasn't opened by its path"
REPLACED = "rewrite: the path has another file now"


def rewrite_chunk(page: TiffPage, chunk: int, samples: NDArray[Any], shown: bool) -> None:
    """Changes a chunk of a page in its file, as `TiffPage.rewrite` describes it."""
    source, file = source_of(page, shown), buffer_of(page)
    raw = source.form.raw(checked_samples(page, source, chunk, samples))
    with _library.named(page._named):
        plan = page._planned.plan
        if plan is None:
            raise TiffError(Status.INVALID_TYPE_FOR_TAG)
        place, stored = rewritten(file, plan, chunk, raw)
    write(page, place.offset, stored)


def source_of(page: TiffPage, shown: bool) -> Source:
    """Returns the page as samples that the library reads; refuses one of other samples."""
    source = page._source(shown)
    if source.stored:
        raise page._refuse(LEFT_OUT, Status.UNSUPPORTED_DATA_TYPE)
    return source


def buffer_of(page: TiffPage) -> Any:
    """Returns the bytes of a page's file, which are in memory or mapped there."""
    file: Any = page._file
    try:
        memoryview(file).release()
    except TypeError:
        raise page._refuse(NO_BUFFER, Status.INVALID_INPUT) from None
    return file


def checked_samples(
    page: TiffPage, source: Source, chunk: int, samples: NDArray[Any]
) -> NDArray[Any]:
    """Returns the samples of a chunk, of the shape and the number type that the page has there."""
    given, shape = numpy.asarray(samples), source.shape_of(chunk)
    if given.shape != shape or given.dtype.newbyteorder("=") != page.dtype.newbyteorder("="):
        what = f"samples have {given.shape} {given.dtype}"
        raise ValueError(f"{what}, and chunk {chunk} {shape} {page.dtype}")
    return given


def rewritten(
    file: Any, plan: PagePlan, chunk: int, raw: NDArray[numpy.uint8]
) -> tuple[ChunkPlace, NDArray[numpy.uint8]]:
    """Returns where a chunk is in a file, and the bytes of that place with other samples."""
    place = ChunkPlace()
    with _library.locked(file) as (address, length):
        _library.check(_library.CHUNK_PLACE(address, length, plan, chunk, byref(place)))
        end = place.offset + place.byte_count
        if end > length:
            raise TiffError(Status.UNEXPECTED_EOF)
        with memoryview(file) as view, view.cast("B") as data:
            stored = numpy.frombuffer(bytearray(data[place.offset : end]), numpy.uint8)
        call, rows, target = _library.REWRITE_CHUNK, raw.ctypes.data, stored.ctypes.data
        _library.check(
            call(address, length, plan, chunk, rows, raw.nbytes, target, stored.nbytes)
        )
    return place, stored


def write(page: TiffPage, offset: int, stored: NDArray[numpy.uint8]) -> None:
    """Writes bytes into the file of a page at an offset."""
    file = buffer_of(page)
    if isinstance(file, Mapped) and file.path is not None:
        with open(file.path, "r+b", buffering=0) as opened:
            if identity_of(opened.fileno()) != file.identity:
                raise page._refuse(REPLACED, Status.INVALID_INPUT)
            write_at(opened.fileno(), offset, stored.data)
        return
    with memoryview(file) as view, view.cast("B") as data:
        if data.readonly:
            raise page._refuse(CONSTANT, Status.INVALID_INPUT)
        data[offset : offset + len(stored)] = stored.data


def write_at(number: int, offset: int, data: memoryview) -> None:
    """Writes bytes into an open file at an offset; a call may write a part of them."""
    while data:
        written = os.pwrite(number, data, offset)
        data, offset = data[written:], offset + written
