"""Files that aren't in memory: of their bytes, those that calls want are fetched from a source.

They are fetched in pages of one grid, so windows never overlap, and threads share what is kept.
"""
from __future__ import annotations

import os
import threading
from collections import OrderedDict
from ctypes import POINTER, Structure, byref, c_char_p, c_size_t, c_uint64
from typing import TYPE_CHECKING, Any, BinaryIO, Protocol

if TYPE_CHECKING:
    from collections.abc import Callable

    from _typeshed import ReadableBuffer

    class RangeSource(Protocol):
        """The bytes of a file elsewhere. It also has a length, by `size` or by `len`."""

        def read_at(self, offset: int, size: int, /) -> ReadableBuffer: ...


BYTES_WANTED = 5
# The bytes of a page, which is fetched as a whole, and how many pages are kept.
PAGE, KEPT = 1 << 16, 256
# Of a stretch of more pages, only the first and the last one are kept, which others may share.
LONG = KEPT // 2


class Window(Structure):
    """Bytes of a file, from an offset on. The struct keeps the bytes."""

    _fields_ = [("offset", c_uint64), ("bytes", c_char_p), ("size", c_size_t)]


class Seen(Structure):
    """What a call gets of a file: its number of bytes, and windows in ascending order."""

    _fields_ = [("len", c_uint64), ("windows", POINTER(Window)), ("count", c_size_t)]


class Stretch(Structure):
    """The bytes that a call wants of a file."""

    offset: int
    len: int

    _fields_ = [("offset", c_uint64), ("len", c_uint64)]


class Windows:
    """A file of `size` bytes that aren't in memory, by their source.

    Bytes are fetched as pages of 64 KB, one request at a time, also if several threads read. The
    pages that were used last, 16 MB, are kept. An error of the source is passed on; one that gives
    another number of bytes than it should raises OSError.
    """

    def __init__(self, source: RangeSource) -> None:
        self.source, self.size = source, size_of(source)
        self._kept: OrderedDict[int, bytes] = OrderedDict()
        self._lock = threading.Lock()

    def part(self, offset: int, size: int) -> bytes:
        """Returns bytes of the file from an offset on, as many as it has there."""
        behind = min(offset + size, self.size)
        if behind <= offset:
            return b""
        start, data = offset % PAGE, b"".join(self._pages(offset, behind).values())
        return data[start : start + behind - offset]

    def run(
        self, call: Callable[..., int], *given: Any, together: tuple[int, int] = (0, 0)
    ) -> int:
        """Calls with the windows that the call wants, and returns its status.

        `together` is a stretch, an offset and a length, that is fetched by one request when a byte
        of it is wanted.
        """
        pages: dict[int, bytes] = {}
        wanted, first, last = Stretch(), together[0], sum(together)
        while True:
            status = call(byref(seen(self.size, pages)), *given, byref(wanted))
            if status != BYTES_WANTED:
                return status
            behind = wanted.offset + wanted.len
            if first <= wanted.offset < last:
                behind = max(behind, last)
            pages.update(self._pages(wanted.offset, min(behind, self.size)))

    def _pages(self, offset: int, behind: int) -> dict[int, bytes]:
        """Returns the pages of a stretch, by their numbers, and fetches those that aren't kept."""
        first, end = offset // PAGE, -(-behind // PAGE)
        found: dict[int, bytes] = {}
        with self._lock:
            at = first
            while at < end:
                if at in self._kept:
                    found[at], at = self._kept[at], at + 1
                    continue
                missing = at
                while at < end and at not in self._kept:
                    at += 1
                found.update(self._fetched(missing, at))
            self._keep(found if len(found) <= LONG else {at: found[at] for at in (first, end - 1)})
        return found

    def _fetched(self, first: int, end: int) -> dict[int, bytes]:
        """Fetches pages that lie one behind the other, by one request."""
        offset = first * PAGE
        size = min(end * PAGE, self.size) - offset
        data = bytes(self.source.read_at(offset, size))
        if len(data) != size:
            raise OSError(f"the source gave {len(data)} of {size} bytes at the offset {offset}")
        return {first + at // PAGE: data[at : at + PAGE] for at in range(0, size, PAGE)}

    def _keep(self, pages: dict[int, bytes]) -> None:
        """Keeps pages as those that were used last, and lets go of the ones used before all."""
        for at, page in pages.items():
            self._kept[at] = page
            self._kept.move_to_end(at)
        while len(self._kept) > KEPT:
            self._kept.popitem(last=False)


class OpenedSource:
    """An open file as a source: its bytes from its position on."""

    def __init__(self, file: BinaryIO) -> None:
        self.file, self.start = file, file.tell()
        file.seek(0, os.SEEK_END)
        self.size = max(0, file.tell() - self.start)

    def read_at(self, offset: int, size: int) -> bytes:
        """Returns so many bytes from an offset on, or fewer where the file ends."""
        self.file.seek(self.start + offset)
        parts: list[bytes] = []
        while size:
            part = self.file.read(size)
            if not part:
                break
            parts.append(part)
            size -= len(part)
        return b"".join(parts)


def size_of(source: Any) -> int:
    """Returns how many bytes a source has, by its `size`, or else by its `len`."""
    size = getattr(source, "size", None)
    if size is None:
        return len(source)
    return int(size() if callable(size) else size)


def seen(size: int, pages: dict[int, bytes]) -> Seen:
    """Returns pages of a file of so many bytes as windows."""
    windows = [Window(at * PAGE, pages[at], len(pages[at])) for at in sorted(pages)]
    # One window more, since no pointer may be null.
    array = (Window * (len(windows) + 1))(*windows)
    return Seen(size, array, len(windows))
