"""The arrays of a file, each with its levels: tifffile's series."""
from __future__ import annotations

import math
from typing import TYPE_CHECKING, Any

from ._facts import DESCRIPTION, SUB_IFDS, SUBFILE_TYPE
from ._library import Status, TiffError
from ._ome import ome_stacks
from ._page import TiffPage
from ._series import Stack, alike, first_stack, kind_of, refused, shaped_stack, stacked

if TYPE_CHECKING:
    from numpy.typing import NDArray

    from ._file import TiffFile
    from ._zarr import ZarrTiffStore

# By how much a level is smaller than the one before it along each side.
FACTORS = (2, 3, 4)
MOST_LEVELS = 16
# The first offset behind a header.
LEAST_OFFSET = 8


class TiffPageSeries:
    """An array of a file, as `TiffFile.series` has it: its pages, and their facts.

    `shape`, `dtype` and `axes` are those of the array; `axes` has a letter for each side: Y rows, X
    columns, S samples, I pages, T frames, Z slices, C channels, Q any other, or what tifffile
    wrote. `levels` are this array and those that have it in smaller sizes, each a series.
    """

    def __init__(self, stack: Stack) -> None:
        if not stack.axes:
            raise refused(f"an array of the shape {stack.shape}, whose sides aren't a page's")
        self._stack = stack
        self.index = 0
        self.pages = stack.pages
        self.shape, self.axes = stack.shape, stack.axes
        self.dtype = stack.pages[0].dtype
        self.levels = [self]

    def __repr__(self) -> str:
        levels = f", {len(self.levels)} levels" if self.is_pyramidal else ""
        return f"<TiffPageSeries {self.index} {self.shape} {self.dtype} {self.axes}{levels}>"

    def __len__(self) -> int:
        return len(self.pages)

    def __getitem__(self, index: int) -> TiffPage:
        return self.pages[index]

    @property
    def is_pyramidal(self) -> bool:
        """Whether the file has the array in smaller sizes too."""
        return len(self.levels) > 1

    @property
    def ndim(self) -> int:
        """How many dimensions the array has."""
        return len(self.shape)

    @property
    def size(self) -> int:
        """How many numbers the array has."""
        return math.prod(self.shape)

    @property
    def nbytes(self) -> int:
        """How many bytes the array has. A file may claim any number."""
        return self.size * self.dtype.itemsize

    def asarray(
        self,
        *,
        level: int | None = None,
        out: NDArray[Any] | None = None,
        workers: int | None = None,
        shown: bool = False,
    ) -> NDArray[Any]:
        """Reads the array, or one of its levels; the rest is as in `TiffFile.asarray`."""
        return self.levels[level or 0]._stack.read(out, workers, shown)

    def aszarr(
        self,
        *,
        level: int | None = None,
        zattrs: dict[str, Any] | None = None,
        multiscales: bool | None = None,
    ) -> ZarrTiffStore:
        """Returns the array as a store of zarr; everything is as in `TiffFile.aszarr`."""
        from ._zarr import ZarrTiffStore

        if level is None and multiscales is False:
            level = 0
        levels = self.levels if level is None else [self.levels[level]]
        stacks = [series._stack for series in levels]
        return ZarrTiffStore(stacks, zattrs=zattrs, multiscales=multiscales, name="")


def sub_pages(file: TiffFile, page: TiffPage) -> list[TiffPage]:
    """Returns the pages of the SubIFDs of a page."""
    offsets = page.tags.told(SUB_IFDS)
    try:
        return [file.page_at(offset) for offset in offsets if offset >= LEAST_OFFSET]
    except TiffError:
        raise refused("a file with a SubIFD that is refused") from None


def below_each(file: TiffFile, pages: list[TiffPage]) -> list[list[TiffPage]]:
    """Returns the pages of the SubIFDs of each page, as many of each."""
    below = [sub_pages(file, page) for page in pages]
    if len({len(found) for found in below}) > 1:
        raise refused("pages that have different SubIFDs")
    return below


def shaped_stacks(file: TiffFile, pages: list[TiffPage]) -> list[Stack]:
    """Returns the arrays of pages whose shapes tifffile wrote, each into its first description.

    Behind each array are those of the SubIFDs of its pages.
    """
    found, rest = [], pages
    while rest:
        if not rest[0].is_shaped:
            raise refused("pages without a shape in a description")
        stack = shaped_stack(rest)
        found.append(stack)
        for level in zip(*below_each(file, stack.pages)):
            found += shaped_stacks(file, list(level))
        rest = rest[len(stack.pages) :]
    return found


def alike_stacks(file: TiffFile) -> list[Stack]:
    """Returns the arrays of a file, each of alike pages, also of those of SubIFDs."""
    groups: dict[tuple[Any, ...], dict[int, TiffPage]] = {}
    for page in file.pages:
        for found in (page, *sub_pages(file, page)):
            groups.setdefault(alike(found), {}).setdefault(found.offset, found)
    return [stacked([*group.values()], {"I": len(group)}) for group in groups.values()]


def ome_series(file: TiffFile, text: str) -> list[TiffPageSeries]:
    """Returns the arrays of an OME-TIFF file, with the levels that SubIFDs of their pages have."""
    found: list[TiffPageSeries] = []
    for stack in ome_stacks(file.pages, text):
        top = TiffPageSeries(stack)
        top.index = len(found)
        for pages in zip(*below_each(file, stack.pages)):
            if any(alike(page) != alike(pages[0]) for page in pages):
                raise refused("a level of pages that aren't alike")
            sides = {"Y": pages[0].imagelength, "X": pages[0].imagewidth}
            named = zip(stack.axes, stack.shape)
            shape = tuple(sides.get(axis, side) for axis, side in named)
            top.levels.append(TiffPageSeries(Stack([*pages], shape, stack.axes)))
        found.append(top)
    return found


def is_uniform(file: TiffFile) -> bool:
    """Returns whether tifffile takes all pages of a file for alike, by four of them."""
    first = file.pages[0]
    if len(file.pages) < 8 or SUB_IFDS in first.tags:
        return False
    return all(alike(file.pages[index]) == alike(first) for index in (1, 7, -1))


def level_of(large: TiffPageSeries, small: TiffPageSeries, factor: int) -> int | None:
    """Returns how often an array is divided by a factor to get another one; None if it isn't."""
    if large.axes != small.axes or large.dtype != small.dtype:
        return None
    level = None
    for axis, whole, part in zip(large.axes.lower(), large.shape, small.shape):
        if axis not in "xyz":
            if whole != part:
                return None
            continue
        tried = range(MOST_LEVELS) if level is None else (level,)
        fitting = (times for times in tried if abs(whole / factor**times - part) < 1)
        level = next(fitting, None)
        if level is None or factor**level > whole:
            return None
    return level


def gather(top: TiffPageSeries, below: list[TiffPageSeries], reduced: bool) -> None:
    """Moves the levels of an array from those behind it to its own, each smaller by one factor."""
    factors: tuple[int, ...] = FACTORS
    for series in [*below]:
        if reduced and not series.pages[0].tags.first(SUBFILE_TYPE, 0) & 1:
            continue
        last = top.levels[-1]
        found = next((factor for factor in factors if level_of(last, series, factor) == 1), 0)
        if found:
            factors = (found,)
            top.levels.append(series)
            below.remove(series)


def with_levels(stacks: list[Stack], reduced: bool) -> list[TiffPageSeries]:
    """Returns arrays as series, those that are levels of another one among its levels.

    With `reduced`, a level says by its tag NewSubfileType that it is one. The array of a SubIFD has
    no levels.
    """
    rest = [TiffPageSeries(stack) for stack in stacks]
    found: list[TiffPageSeries] = []
    while rest:
        top = rest.pop(0)
        if top.pages[0].index >= 0:
            gather(top, rest, reduced)
        top.index = len(found)
        found.append(top)
    return found


def series_of(file: TiffFile) -> list[TiffPageSeries]:
    """Returns the arrays of a file, as tifffile has them.

    Files with pages that are refused, and those that `first_stack` refuses, raise
    `UnsupportedError`.
    """
    first = file.pages[0]
    if any(page.status is not Status.DONE for page in file.pages):
        raise refused("a file with a page that is refused")
    if first.is_shaped:
        return with_levels(shaped_stacks(file, file.pages), reduced=True)
    text, kind = first._text_or_empty(DESCRIPTION), kind_of(first)
    if kind == "OME" and not text.startswith(("ImageJ=", "SCIFIO=")):
        return ome_series(file, text)
    if kind or text.startswith(("ImageJ=", "SCIFIO=")):
        return [TiffPageSeries(first_stack(file))]
    if not is_uniform(file):
        return with_levels(alike_stacks(file), reduced=False)
    if any(alike(page) != alike(first) for page in file.pages):
        raise refused("pages that aren't alike")
    return [TiffPageSeries(stacked(file.pages, {"I": len(file.pages)}))]
