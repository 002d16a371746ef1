"""The pages that make the array of a file: tifffile's first series."""
from __future__ import annotations

import json
import math
import re
from typing import TYPE_CHECKING, Any, NamedTuple

from ._enums import COMPRESSION, PREDICTOR
from ._facts import DESCRIPTION, SOFTWARE, SUB_IFDS
from ._library import Status, TiffError, UnsupportedError
from ._page import TiffPage, output_array
from ._parts import each, threads

if TYPE_CHECKING:
    from numpy.typing import NDArray

    from ._file import TiffFile

# A page of more bytes is read by all threads at once, and pages of fewer by one thread.
LARGE, SMALL = 1 << 24, 1 << 16
# Files whose arrays tifffile makes by these tags, LSM before all others.
LSM = 34412
TAGGED = {
    "NIH Image": (43314,),
    "FluoView": (34362,),
    "STK": (33628,),
    "SIS": (33560, 33471),
    "NDPI": (65420,),
    "Micro-Manager": (51123,),
    "MD Gel": (33445,),
}
# Files whose arrays tifffile makes by these texts: the beginning or the end of a text.
DESCRIBED = {"SVS": r"Aperio ", "ScanImage": r"state\.|(?s:.*)scanimage\.SI"}
DESCRIBED |= {"OME": r"(?s:.*)OME>\s*$", "SCN": r"(?s:.*)</scn>\s*$"}
MADE_BY = {"ScanImage": r"SI\.", "QPI": r"PerkinElmer-QPI", "BIF": r".*Ventana|ScanOutputManager"}


class Stack(NamedTuple):
    """Pages that make one array of a shape, read one after another.

    `axes` has a letter for each side, as tifffile has it, or none if it isn't known.
    """

    pages: list[TiffPage]
    shape: tuple[int, ...]
    axes: str = ""

    def read(
        self, out: NDArray[Any] | None, workers: int | None, shown: bool
    ) -> NDArray[Any]:
        """Reads the pages into one array; the parameters are those of `TiffPage.asarray`."""
        first, count = self.pages[0], len(self.pages)
        one = first.shape_of(shown)
        shape = self.shape if one == first.shape else (*((count,) if count > 1 else ()), *one)
        if shape == one:
            return first.asarray(out=out, workers=workers, shown=shown)
        for page in self.pages:
            self._judge(page, one, shown)
        array = output_array(out, shape, first.dtype)
        self._read_each(array.reshape(count, *one), threads(workers), shown)
        if out is None or out is array:
            return array
        out[...] = array
        return out

    def _judge(self, page: TiffPage, one: tuple[int, ...], shown: bool) -> None:
        """Refuses a page that has another shape or number type than the first one."""
        first = self.pages[0]
        if (page.shape_of(shown), page.dtype) != (one, first.dtype):
            raise ValueError(
                f"page {page.index} is {page.shape} {page.dtype}, and page {first.index} is "
                f"{first.shape} {first.dtype}: they make no array"
            )

    def _read_each(self, array: NDArray[Any], workers: int, shown: bool) -> None:
        """Reads the pages side by side, or one after another if each has work for all threads."""
        size = array[0].nbytes
        within = workers if len(self.pages) < workers or size > LARGE else 1

        def read(index: int) -> None:
            self.pages[index].asarray(out=array[index], workers=within, shown=shown)

        each(read, list(range(len(self.pages))), 1 if within > 1 or size < SMALL else workers)


def kind_of(page: TiffPage) -> str | None:
    """Returns the kind of file that a first page shows, if tifffile makes its arrays by more."""
    described, software = page._text_or_empty(DESCRIPTION), page._text_or_empty(SOFTWARE)
    if LSM in page.tags:
        return "LSM"
    for name, pattern in DESCRIBED.items():
        if re.match(pattern, described):
            return name
    for name, pattern in MADE_BY.items():
        if re.match(pattern, software):
            return name
    for name, tags in TAGGED.items():
        if any(tag in page.tags for tag in tags):
            return name
    return None


def alike(page: TiffPage) -> tuple[Any, ...]:
    """Returns the facts that pages of one stack have in common; those of tifffile's `hash`."""
    facts = page.shape, page.axes, page.tile, page.rowsperstrip, page.compression, page.predictor
    formats = page.sampleformat, page.bitspersample, page.fillorder, page.imagedepth
    return (*facts, *formats, page.extrasamples, page.photometric)


def pages_of_directories(file: TiffFile) -> list[TiffPage]:
    """Returns the pages of the chain, each with the pages of its SubIFDs behind it."""
    found = []
    for page in file.pages:
        found.append(page)
        for offset in page.tags.told(SUB_IFDS) if page.status is Status.DONE else ():
            try:
                found.append(file.page_at(offset))
            except TiffError:
                continue
    return found


def alike_pages(file: TiffFile) -> list[TiffPage]:
    """Returns the first page and all pages that are like it."""
    first = file.pages[0]
    wanted, sides = alike(first), (first.imagewidth, first.imagelength)
    found: dict[int, TiffPage] = {}
    for page in pages_of_directories(file):
        if page.status is not Status.DONE:
            continue
        if (page.imagewidth, page.imagelength) == sides and alike(page) == wanted:
            found.setdefault(page.offset, page)
    return list(found.values())


def refused(what: str) -> UnsupportedError:
    """Returns the error of pages whose array isn't made here."""
    return UnsupportedError(f"{what}; key= reads the pages", Status.UNSUPPORTED_DATA_TYPE)


def stacked(pages: list[TiffPage], before: dict[str, int]) -> Stack:
    """Returns alike pages as an array with these sides before those of a page, without sides of 1.

    Rows and columns stay, also if they are 1.
    """
    sides = {**before, **dict(zip(pages[0].axes, pages[0].shape))}
    kept = {axis: side for axis, side in sides.items() if side != 1 or axis in "YX"}
    return Stack(pages, tuple(kept.values()), "".join(kept))


def stack_of(pages: list[TiffPage]) -> Stack:
    """Returns the pages that a caller chose: one as it is, several one behind the other."""
    if not pages:
        raise ValueError("no pages are selected")
    one = pages[0]
    if len(pages) == 1:
        return Stack(pages, one.shape, one.axes)
    return Stack(pages, (len(pages), *one.shape), "I" + one.axes)


def check_places(pages: list[TiffPage], begin: int) -> None:
    """Refuses images that don't lie one behind the other where tifffile takes it that they do.

    Of images that aren't packed, it reads all from where the first one begins, if the second
    directory lies more bytes behind an offset than all images have.
    """
    first, size = pages[0], pages[0].nbytes
    plain = first.compression == COMPRESSION.NONE and first.predictor == PREDICTOR.NONE
    if len(pages) == 1 or not plain:
        return
    start = first.dataoffsets[0]
    if begin + len(pages) * size > pages[1].offset:
        return
    places = (start + index * size for index in range(len(pages)))
    if any(page.dataoffsets[:1] != (place,) for page, place in zip(pages, places)):
        raise refused("images that don't lie one behind the other")


def shaped_stack(held: list[TiffPage]) -> Stack:
    """Returns the pages of an array whose shape tifffile wrote into the first description."""
    first = held[0]
    text = first._text_or_empty(DESCRIPTION)
    try:
        facts = json.loads(text)
        shape = tuple(int(side) for side in facts["shape"])
    except (ValueError, KeyError, TypeError):
        raise refused(f"a description without a shape: {text!r}") from None
    count, rest = divmod(math.prod(shape), first.size)
    pages = held[:count]
    if rest or not 0 < count == len(pages) or any(alike(page) != alike(first) for page in pages):
        raise refused(f"an array of the shape {shape}, which the pages don't make")
    check_places(pages, first.offset)
    axes, before = facts.get("axes"), len(shape) - first.ndim
    if isinstance(axes, str) and len(axes) == len(shape):
        return Stack(pages, shape, axes)
    whole = before >= 0 and shape[before:] == first.shape
    return Stack(pages, shape, "Q" * before + first.axes if whole else "")


def imagej_stack(file: TiffFile, text: str) -> Stack:
    """Returns the pages of an ImageJ file: frames, slices and channels, in this order."""
    facts = dict(re.findall(r"(?m)^(\w+)=(\S+)", text))
    try:
        counts = [int(facts.get(name, 1)) for name in ("images", "frames", "slices", "channels")]
    except ValueError:
        raise refused("an ImageJ file whose sides are no numbers") from None
    images, *sides = counts
    named = dict(zip("TZC", sides))
    first, count = file.pages[0], math.prod(sides)
    plain = facts.get("order", "czt").lower() in ("czt", "default") and first.samplesperpixel == 1
    single = count == images == len(file.pages) == 1
    known = single or (plain and images == count == len(file.pages))
    if not known or any(alike(page) != alike(first) for page in file.pages):
        raise refused("an ImageJ file of pages that make no plain hyperstack")
    check_places(file.pages, min(first.dataoffsets, default=0))
    return stacked(file.pages, named)


def first_stack(file: TiffFile) -> Stack:
    """Returns the pages that make the array of a file, as tifffile's first series.

    These are the first page and those like it, in all the shape that tifffile, ImageJ or OME's XML
    has in the description. Files whose arrays tifffile makes by what other programs wrote raise
    `UnsupportedError`, unless they are one page that is so as it is.
    """
    first = file.pages[0]
    text = first._text_or_empty(DESCRIPTION)
    if first.is_shaped:
        return shaped_stack(file.pages)
    if text.startswith(("ImageJ=", "SCIFIO=")):
        return imagej_stack(file, text)
    kind = kind_of(first)
    if kind == "OME":
        from ._ome import ome_stacks

        return ome_stacks(file.pages, text)[0]
    if kind:
        raise refused(f"an array of {kind} metadata")
    pages = alike_pages(file)
    return stacked(pages, {"I": len(pages)})
