"""Reads a window of a page into an array: the chunks that it needs, by several threads at once.

It needs numpy.
"""
from __future__ import annotations

import os
import threading
from collections import deque
from collections.abc import Callable, Iterator
from concurrent.futures import Future, ThreadPoolExecutor
from dataclasses import dataclass, field
from functools import cached_property
from typing import TYPE_CHECKING, Any, TypeVar

import numpy

from . import _library
from ._samples import Form

if TYPE_CHECKING:
    from numpy.typing import NDArray

    from ._planned import Planned
    from ._stored import Stored

# A thread reads about as many bytes by one call, and a smaller image is read by one thread. Strips
# that lie in the file as in the array are read by longer calls, if each thread gets some.
STRETCH, LONG_STRETCH, SOME = 1 << 20, 1 << 22, 4
# To open a page of so many chunks takes as long as to find one by the page's plan.
OPENED = 16

Item = TypeVar("Item")


@dataclass(frozen=True)
class Grid:
    """The chunks of a page: the sides of the image and of a chunk, and the number of planes."""

    width: int
    height: int
    chunk_width: int
    chunk_height: int
    planes: int

    @cached_property
    def across(self) -> int:
        """How many chunks lie side by side."""
        return -(-self.width // self.chunk_width)

    @cached_property
    def down(self) -> int:
        """How many chunks lie one below the other in a plane."""
        return -(-self.height // self.chunk_height)

    @cached_property
    def _last_rows(self) -> int:
        """How many rows of the image the lowest chunks have."""
        return self.height - (self.down - 1) * self.chunk_height

    @cached_property
    def _last_columns(self) -> int:
        """How many columns of the image the rightmost chunks have."""
        return self.width - (self.across - 1) * self.chunk_width

    def number(self, plane: int, line: int, column: int) -> int:
        """Returns the number of a chunk, by its plane and its place there."""
        return (plane * self.down + line) * self.across + column

    def place(self, chunk: int) -> tuple[int, int, int]:
        """Returns the plane of a chunk, and the row and the column at which it begins."""
        line, column = divmod(chunk, self.across)
        plane, line = divmod(line, self.down)
        return plane, line * self.chunk_height, column * self.chunk_width

    def sides(self, chunk: int) -> tuple[int, int]:
        """Returns how many rows and columns of the image a chunk has."""
        across = self.across
        rows = self.chunk_height if (chunk // across + 1) % self.down else self._last_rows
        return rows, self.chunk_width if (chunk + 1) % across else self._last_columns

    def rows_from(self, row: int) -> int:
        """Returns how many rows of the image the chunks have that begin at a row."""
        return min(self.chunk_height, self.height - row)


@dataclass(frozen=True)
class Run:
    """Chunks that one call reads: `count` chunks from the number `first` on."""

    first: int
    count: int


@dataclass(frozen=True)
class Window:
    """Rows and columns of an image, from the first ones to those behind the last ones."""

    top: int
    bottom: int
    left: int
    right: int


class Scratch(threading.local):
    """Memory of each thread, for the bytes of one run of chunks after another."""

    held: NDArray[numpy.uint8] | None = None

    def buffer(self, size: int) -> NDArray[numpy.uint8]:
        """Returns so many bytes, which the next call returns again."""
        if self.held is None or len(self.held) < size:
            self.held = numpy.empty(size, numpy.uint8)
        return self.held[:size]


@dataclass(frozen=True)
class Source:
    """A page whose samples are read: how its chunks lie, and the form of their samples.

    With `chunky`, the array of a chunk has a dimension for the samples of a pixel; else a chunk has
    one of them. With `at_once`, one call reads all planes. With `stored`, the samples come from
    there, in the form of the array.
    """

    planned: Planned
    grid: Grid
    form: Form
    chunky: bool
    at_once: bool = False
    stored: Stored | None = None

    @property
    def count(self) -> int:
        """How many chunks there are, in all planes."""
        return self.grid.planes * self.grid.down * self.grid.across

    @property
    def chunk_bytes(self) -> int:
        """How many bytes a whole chunk has."""
        return self.form.row_bytes(self.grid.chunk_width) * self.grid.chunk_height

    def most(self, least: int = 0) -> int:
        """How many chunks a thread reads at once, of a stretch that may be longer than others."""
        return max(1, max(STRETCH, least) // max(1, self.chunk_bytes))

    def read(self, call: Any, buffer: NDArray[Any], *place: int) -> None:
        """Reads samples into an array by a call."""
        _library.read_samples(call, self.planned.buffer, (self.planned.at, *place), buffer)

    def read_chunks(self, run: Run, buffer: NDArray[Any]) -> None:
        """Reads a run of chunks into an array, one behind the other."""
        if self.stored:
            self.stored.read_chunks(self.grid, run, buffer)
        elif self.form.alone or run.count == 1 or self.planned.is_by_ranges:
            self._read_one_by_one(run, buffer)
        elif self._are_few(run) and self.planned.plan:
            self.planned.read_run(self.planned.plan, run.first, run.count, buffer)
        else:
            self.read(_library.READ_CHUNKS, buffer, run.first, run.count)

    def _are_few(self, run: Run) -> bool:
        """Tells whether a call by the page's plan takes less time than one that opens the page."""
        return run.count * OPENED < self.count

    def _read_one_by_one(self, run: Run, buffer: NDArray[Any]) -> None:
        """Reads each chunk of a run by a call of its own into an array, one behind the other."""
        place, _ = _library.memory_of(buffer)
        for chunk in range(run.first, run.first + run.count):
            rows, columns = self.grid.sides(chunk)
            size = rows * self.form.row_bytes(columns)
            self.planned.read(chunk, place, size)
            place += size

    def read_whole(self, array: NDArray[Any]) -> None:
        """Reads the image into an array of planes, rows, columns and samples, by one call."""
        grid, form = self.grid, self.form
        if form.is_direct:
            self.read(_library.READ_IMAGE, array)
            if form.turned:
                numpy.bitwise_not(array, out=array)
            return
        raw = numpy.empty((grid.planes * grid.height, form.row_bytes(grid.width)), numpy.uint8)
        self.read(_library.READ_IMAGE, raw)
        array[...] = form.natural(raw, grid.width).reshape(array.shape)

    def shape_of(self, chunk: int) -> tuple[int, ...]:
        """Returns the shape of the array of a chunk: rows, columns, and samples with `chunky`."""
        sides = self.grid.sides(chunk)
        return (*sides, self.form.samples) if self.chunky else sides

    def chunk(self, chunk: int) -> NDArray[Any]:
        """Reads a chunk, as an array of the shape that `shape_of` returns."""
        shape, form = self.shape_of(chunk), self.form
        if form.is_direct:
            part = numpy.empty(shape, form.dtype)
            self._read_chunk(chunk, part)
            if form.turned:
                numpy.bitwise_not(part, out=part)
            return part
        raw = numpy.empty((shape[0], form.row_bytes(shape[1])), numpy.uint8)
        self._read_chunk(chunk, raw)
        return form.natural(raw, shape[1]).reshape(shape)

    def _read_chunk(self, chunk: int, buffer: NDArray[Any]) -> None:
        """Reads a chunk into an array of its size."""
        if self.stored:
            self.stored.read_chunks(self.grid, Run(chunk, 1), buffer)
        else:
            place, size = _library.memory_of(buffer)
            self.planned.read(chunk, place, size)

    def chunks(self, run: Run) -> Iterator[tuple[tuple[int, int, int], NDArray[Any]]]:
        """Reads a run of chunks, and yields the place and the samples of each."""
        grid, form = self.grid, self.form
        numbers = range(run.first, run.first + run.count)
        sides = [grid.sides(chunk) for chunk in numbers]
        raw = numpy.empty(sum(rows * form.row_bytes(wide) for rows, wide in sides), numpy.uint8)
        self.read_chunks(run, raw)
        start = 0
        for chunk, (rows, wide) in zip(numbers, sides):
            size = form.row_bytes(wide)
            part = raw[start : start + rows * size].reshape(rows, size)
            yield grid.place(chunk), form.natural(part, wide)
            start += rows * size


@dataclass(frozen=True)
class Reading:
    """A window of a page that is read into an array of planes, rows, columns and samples."""

    source: Source
    window: Window
    array: NDArray[Any]
    scratch: Scratch = field(default_factory=Scratch)

    def runs(self, workers: int) -> Iterator[Run]:
        """Yields the runs of chunks that the window needs; each lies in a line of a plane."""
        grid, window, most = self.source.grid, self.window, self.source.most()
        lines = range(window.top // grid.chunk_height, -(-window.bottom // grid.chunk_height))
        share = self.array.nbytes // (SOME * workers) if self.source.form.is_direct else 0
        down = self.source.most(min(share, LONG_STRETCH))
        for plane in range(grid.planes):
            if grid.across == 1:
                first = grid.number(plane, lines.start, 0)
                yield from stretches(first, first + len(lines), down)
                continue
            left = window.left // grid.chunk_width
            right = -(-window.right // grid.chunk_width)
            for line in lines:
                first = grid.number(plane, line, 0)
                yield from stretches(first + left, first + right, most)

    def read(self, run: Run) -> None:
        """Reads a run of chunks and puts what the window has of them into its array."""
        if self.source.grid.across == 1:
            self._read_strips(run)
        else:
            self._read_tiles(run)

    def _read_strips(self, run: Run) -> None:
        """Reads chunks that lie one below the other, straight into the array if they fit there."""
        grid, form, window = self.source.grid, self.source.form, self.window
        plane, row, _ = grid.place(run.first)
        behind = min(row + run.count * grid.chunk_height, grid.height)
        top, bottom = max(row, window.top), min(behind, window.bottom)
        target = self.array[plane, top - window.top : bottom - window.top]
        whole = (top, bottom, window.left, window.right) == (row, behind, 0, grid.width)
        if whole and form.is_direct and target.flags.c_contiguous:
            self.source.read_chunks(run, target)
            if form.turned:
                numpy.bitwise_not(target, out=target)
            return
        raw = self.scratch.buffer((behind - row) * form.row_bytes(grid.width))
        self.source.read_chunks(run, raw)
        raw = raw.reshape(behind - row, -1)
        numbers = form.natural(raw, grid.width)
        target[...] = numbers[top - row : bottom - row, window.left : window.right]

    def _read_tiles(self, run: Run) -> None:
        """Reads chunks that lie side by side, and puts them into their places."""
        grid, window = self.source.grid, self.window
        plane, row, column = grid.place(run.first)
        behind = row + grid.rows_from(row)
        top, bottom = max(row, window.top), min(behind, window.bottom)
        target = self.array[plane, top - window.top : bottom - window.top]
        for block in self._blocks(run):
            behind = column + block.shape[1] * block.shape[2]
            left, right = max(column, window.left), min(behind, window.right)
            part = target[:, left - window.left : right - window.left]
            rows = block[top - row : bottom - row]
            if (left, right) == (column, behind):
                # Columns that are split into tiles lie where they were.
                part.reshape(rows.shape)[...] = rows
            else:
                part[...] = rows.reshape(len(rows), behind - column, -1)[
                    :, left - column : right - column
                ]
            column = behind

    def _blocks(self, run: Run) -> Iterator[NDArray[Any]]:
        """Reads chunks that lie side by side, and yields blocks of rows, chunks, columns, samples.

        The whole ones are one block, and a cut one another.
        """
        grid, form = self.source.grid, self.source.form
        _, row, column = grid.place(run.first)
        rows, width = grid.rows_from(row), grid.chunk_width
        cut = min(run.count * width, grid.width - column) % width
        whole = run.count - (cut > 0)
        size, rest = whole * rows * form.row_bytes(width), rows * form.row_bytes(cut)
        raw = self.scratch.buffer(size + rest)
        self.source.read_chunks(run, raw)
        if whole:
            numbers = form.natural(raw[:size].reshape(whole * rows, -1), width)
            yield numbers.reshape(whole, rows, width, form.samples).transpose(1, 0, 2, 3)
        if cut:
            yield form.natural(raw[size:].reshape(rows, -1), cut)[:, None]


def stretches(first: int, behind: int, most: int) -> Iterator[Run]:
    """Yields runs of at most so many chunks, from a first one to the one behind the last."""
    for start in range(first, behind, most):
        yield Run(start, min(most, behind - start))


def threads(workers: int | None) -> int:
    """Returns how many threads read: as many as the caller wants, or as there are processors."""
    if workers is None:
        return len(os.sched_getaffinity(0))
    if workers < 1:
        raise ValueError(f"workers={workers}: at least one thread reads")
    return workers


def spread(count: int, workers: int) -> Iterator[int]:
    """Yields so many numbers in an order in which no two threads get neighbours at once.

    Each thread works in a stretch of its own: at first it meets its array's memory, which a system
    gives in pieces of more than one run, and would clear for two threads twice.
    """
    step = -(-count // workers)
    for first in range(step):
        yield from range(first, count, step)


def each(call: Callable[[Item], None], items: list[Item], workers: int) -> None:
    """Calls a function for each item, by several threads; raises the first error in their order."""
    count = min(workers, len(items))
    if count < 2:
        for item in items:
            call(item)
        return
    with ThreadPoolExecutor(count) as pool:
        begun = {at: pool.submit(call, items[at]) for at in spread(len(items), count)}
        try:
            for at in range(len(items)):
                begun[at].result()
        finally:
            for future in begun.values():
                future.cancel()


def read_window(
    source: Source, window: Window, array: NDArray[Any], workers: int | None
) -> None:
    """Reads a window of a page into an array of planes, rows, columns and samples."""
    grid = source.grid
    whole = window == Window(0, grid.height, 0, grid.width)
    wanted = threads(workers)
    count = wanted if array.nbytes >= STRETCH else 1
    if whole and source.at_once and array.flags.c_contiguous and count == 1:
        source.read_whole(array)
        return
    reading = Reading(source, window, array)
    each(reading.read, list(reading.runs(count)), count)


def segments_of(
    source: Source, workers: int | None
) -> Iterator[tuple[tuple[int, int, int], NDArray[Any]]]:
    """Reads all chunks of a page in their order, and yields the place and the samples of each.

    Threads read ahead, each a run of chunks, and at most two runs for each of them are held.
    """
    wanted, runs = threads(workers), stretches(0, source.count, source.most())
    if wanted == 1 or source.count * source.chunk_bytes < STRETCH:
        for run in runs:
            yield from source.chunks(run)
        return
    with ThreadPoolExecutor(wanted) as pool:
        ahead: deque[Future[list[tuple[tuple[int, int, int], NDArray[Any]]]]] = deque()
        for run in runs:
            ahead.append(pool.submit(lambda run=run: list(source.chunks(run))))
            if len(ahead) == 2 * wanted:
                yield from ahead.popleft().result()
        for future in ahead:
            yield from future.result()
