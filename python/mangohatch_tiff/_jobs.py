"""Files that lists of jobs write: pages with the caller's tags, tiles, planes, SubIFDs."""
from __future__ import annotations

import ctypes
import os
from ctypes import byref, c_size_t
from pathlib import Path

from . import _library
from ._library import JobsEnd, JobsError, Status

CLASSIC, BIG = 42, 43
# The length of the buffer for the file in the first call; a file that is longer takes a second one.
FIRST_CAPACITY = 1 << 16


def _write_into(size: int, version: int, text: bytes) -> tuple[int, memoryview, int, JobsEnd]:
    """Writes a file into a new buffer. Returns the status, the bytes, the length and the end."""
    buffer, length, end = ctypes.create_string_buffer(size), c_size_t(), JobsEnd()
    status = _library.WRITE_JOBS(
        version, text, len(text), buffer, size, byref(length), byref(end)
    )
    return status, memoryview(buffer)[: length.value], length.value, end


def file_of_jobs(jobs: str, big: bool) -> memoryview:
    """Returns the bytes of the file that a list of jobs leaves."""
    version, text = BIG if big else CLASSIC, jobs.encode()
    status, file, length, end = _write_into(FIRST_CAPACITY, version, text)
    if status == Status.INSUFFICIENT_OUTPUT_BUFFER_SIZE and not end.job:
        status, file, length, end = _write_into(length, version, text)
    if status:
        raise JobsError(status, end.line, end.job)
    return file.cast("B")


def write_jobs(
    path: str | os.PathLike[str] | None, jobs: str, *, big: bool = False
) -> bytes | None:
    """Writes the file that a list of jobs leaves, or returns its bytes if the path is None.

    `jobs` is text, one line for each step; `mangohatch_tiff.h` describes the lines at
    tiff_write_jobs. A list that is refused raises `JobsError` with the line or the job, and nothing
    is written. With `big`, the file is a BigTIFF file.
    """
    file = file_of_jobs(jobs, big)
    if path is None:
        return bytes(file)
    Path(path).write_bytes(file)
    return None
