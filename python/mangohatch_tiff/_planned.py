"""The chunks of a page, read by its plan."""
from __future__ import annotations

import ctypes
from collections.abc import Callable
from functools import cached_property
from typing import TYPE_CHECKING, Any

from . import _library
from ._enums import PHOTOMETRIC, PLANARCONFIG
from ._library import Color, PagePlan, Status, TiffError, UnsupportedError
from ._windows import Windows

if TYPE_CHECKING:
    from _typeshed import ReadableBuffer

    from ._library import File

OTHER_TYPES = "a page whose offsets or byte counts are of another type than SHORT, LONG or LONG8"
OTHER_TYPES += ", of a file that is read by ranges"
# An image of fewer bits has a layout, whatever its sides are; one of so many bytes has none.
MOST_BITS, TOO_LARGE = 1 << 63, 1 << 64


def bits_across(plan: PagePlan, color: Color, pixels: int) -> int:
    """Returns how many bits so many pixels beside each other have in a plane of a page."""
    samples = color.samples if plan.planar == PLANARCONFIG.CONTIG else 1
    return pixels * samples * color.bits


def has_split_rows(plan: PagePlan, color: Color) -> bool:
    """Tells whether tiles lie beside each other whose rows end within a byte."""
    split = bits_across(plan, color, plan.chunk_width) % 8
    return bool(split) and plan.chunk_width < plan.width


class Planned:
    """A page of a file, by its number for the calls, with its plan, which is taken once.

    Of a file that isn't in memory, `place_of` returns the offset and the length of a chunk.
    """

    def __init__(
        self, file: File, at: int, place_of: Callable[[int], tuple[int, int]]
    ) -> None:
        self.file, self.at, self.place_of = file, at, place_of

    @property
    def is_by_ranges(self) -> bool:
        """Whether the file isn't in memory, so that each chunk is read alone."""
        return isinstance(self.file, Windows)

    @property
    def buffer(self) -> ReadableBuffer:
        """The bytes of a file that is in memory."""
        assert not isinstance(self.file, Windows)
        return self.file

    @cached_property
    def plan(self) -> PagePlan | None:
        """The plan of the page; None where the types of its lists of chunks make none."""
        try:
            return _library.page_plan(self.file, self.at)
        except TiffError as error:
            if error.status is not Status.INVALID_TYPE_FOR_TAG:
                raise
            return None

    @property
    def certain(self) -> PagePlan:
        """The plan of the page; without one, raises an error."""
        if self.plan is None:
            raise UnsupportedError(OTHER_TYPES, Status.INVALID_TYPE_FOR_TAG)
        return self.plan

    def laid_out(self, color: Color) -> PagePlan:
        """Returns the plan of a page of this color that isn't in memory; raises the error of its
        layout.

        The call gets a buffer of no bytes, so it reads none of the chunk. It lays out a chunk; what
        the whole image would have is told before.
        """
        assert isinstance(self.file, Windows)
        plan, buffer = self.certain, ctypes.c_ubyte()
        planes = 1 if plan.planar == PLANARCONFIG.CONTIG else color.samples
        row = -(-bits_across(plan, color, plan.width) // 8)
        if row * max(plan.height * planes, plan.chunk_height) >= TOO_LARGE:
            raise TiffError(Status.LIMITS_EXCEEDED)
        if has_split_rows(plan, color):
            raise TiffError(Status.MISALIGNED_TILE_BOUNDARIES)
        status = self.file.run(_library.READ_PLANNED_CHUNK_IN, plan, 0, ctypes.byref(buffer), 0)
        if status != Status.INSUFFICIENT_OUTPUT_BUFFER_SIZE:
            _library.check(status)
        return plan

    def is_laid_out(self, color: Color) -> bool:
        """Tells whether the samples of a page of this color surely have a layout.

        Else the library tells it, which takes as long as to open the page. So it does of a page
        without a plan, of YCbCr, of rows of tiles that end within a byte, and of a large image.
        """
        plan = self.plan
        if plan is None or plan.photometric == PHOTOMETRIC.YCBCR or has_split_rows(plan, color):
            return False
        pixels = plan.width * max(plan.height, plan.chunk_height)
        return pixels * color.samples * color.bits < MOST_BITS

    def read(self, chunk: int, place: int, size: int) -> None:
        """Reads a chunk into memory: `place` is its address, and `size` how many bytes it has."""
        file, plan = self.file, self.plan
        if isinstance(file, Windows):
            self._read_by_ranges(file, chunk, place, size)
            return
        view, address = _library.lock(file)
        try:
            if plan is None:
                status = _library.READ_CHUNK(address, view.nbytes, self.at, chunk, place, size)
            else:
                call = _library.READ_PLANNED_CHUNK
                status = call(address, view.nbytes, plan, chunk, place, size)
        finally:
            view.release()
        if status:
            raise TiffError(status)

    def _read_by_ranges(self, file: Windows, chunk: int, place: int, size: int) -> None:
        """Reads a chunk of a file that isn't in memory; its bytes are fetched together."""
        plan, (offset, length) = self.certain, self.place_of(chunk)
        # PackBits may take more bytes than the samples; what is longer is fetched by parts.
        together = offset, min(length, 2 * size)
        call = _library.READ_PLANNED_CHUNK_IN
        _library.check(file.run(call, plan, chunk, place, size, together=together))

    def read_run(self, plan: PagePlan, first: int, count: int, buffer: Any) -> None:
        """Reads `count` chunks from the number `first` on into an array, by one call."""
        with _library.locked(self.buffer) as (address, length):
            call = _library.READ_PLANNED_CHUNKS
            memory = _library.memory_of(buffer)
            _library.check(call(address, length, plan, first, count, *memory))
