"""Arrays as pages: which sides are pages, rows, columns and samples. It needs numpy."""
from __future__ import annotations

import math
import operator
from collections.abc import Sequence
from dataclasses import dataclass, replace
from typing import TYPE_CHECKING, Any, Union

import numpy

from ._enums import COMPRESSION, EXTRASAMPLE, PHOTOMETRIC, PLANARCONFIG, PREDICTOR, chosen
from ._library import Status, UnsupportedError
from ._new_pages import AROUND_SAMPLES, COLORS, PACKED, Layout, NewPage, NewTag, _write_pages
from ._new_pages import KINDS as KINDS_OF
from ._samples import packed

if TYPE_CHECKING:
    from numpy.typing import ArrayLike, NDArray

LONGEST_SIDE = (1 << 32) - 1
# From so many bytes of samples on, a file is a BigTIFF file unless the caller says else.
BIG_FROM = (1 << 32) - (1 << 25)
KINDS = {PHOTOMETRIC.MINISBLACK: "Gray", PHOTOMETRIC.RGB: "RGB", PHOTOMETRIC.SEPARATED: "CMYK"}
# What is written as gray, with a tag of its own: the library's color types have no such kinds.
TAGGED = (PHOTOMETRIC.MINISWHITE, PHOTOMETRIC.PALETTE)
KINDS |= {meaning: "Gray" for meaning in TAGGED}
INTERPRETATION, COLOR_MAP, SHORT = 262, 320, 3
# Arrays that the library has no color type for, by their kind, and what can be written.
NOT_WRITTEN = {
    "c": "the library writes no complex samples; array.real and array.imag are written",
}
SAMPLES = {"Gray": 1, "RGB": 3, "CMYK": 4}

Named = Union[int, str, None]


@dataclass(frozen=True)
class Samples:
    """What a caller says of the samples: their meaning, their order, and the extra ones."""

    photometric: Named = None
    planarconfig: Named = None
    extrasamples: Sequence[Named] | None = None
    colormap: ArrayLike | None = None


@dataclass(frozen=True)
class Stored:
    """How a caller wants the samples to be stored."""

    tile: Sequence[int] | None = None
    rowsperstrip: int | None = None
    compression: Named = None
    predictor: Union[Named, bool] = None
    bitspersample: int | None = None


@dataclass(frozen=True)
class Settings:
    """How a caller wants an array to be written; `has_shape` means that a description has its
    shape."""

    samples: Samples
    stored: Stored
    tags: tuple[NewTag, ...] = ()
    first_tags: tuple[NewTag, ...] = ()
    resolution: tuple[int, tuple[int, int], tuple[int, int]] | None = None
    has_shape: bool = False


def ambiguous(shape: tuple[int, ...]) -> ValueError:
    """Returns the error of an array that may be one image in color or several in gray.

    tifffile up to 2023 takes such arrays for RGB, and later versions for gray pages.
    """
    return ValueError(
        f"an array of shape {shape} is RGB or several gray pages: say photometric='rgb' or "
        "photometric='minisblack'"
    )


def meaning_of(array: NDArray[Any], given: Samples) -> PHOTOMETRIC:
    """Returns what the samples of an array mean: what the caller says, or what the shape shows.

    Three or four samples of 8 or 16 bits at the end are RGB, and samples of one bit are gray. Other
    arrays with a side of 3 or 4 where samples may be are RGB for one version of tifffile and gray
    for another: they are refused.
    """
    if given.photometric is not None or given.colormap is not None:
        named = "palette" if given.photometric is None else given.photometric
        meaning = chosen(PHOTOMETRIC, named, "photometric")
        if meaning not in KINDS:
            what = f"photometric={meaning.name.lower()}"
            raise UnsupportedError(what, Status.UNSUPPORTED_INTERPRETATION)
        return meaning
    if array.dtype.kind == "b":
        return PHOTOMETRIC.MINISBLACK
    apart = given.planarconfig is not None and planar_of(given)
    at_end = array.ndim > 2 and array.shape[-1] in (3, 4) and not apart
    if at_end and array.dtype.kind == "u" and array.itemsize <= 2:
        return PHOTOMETRIC.RGB
    side_by_side = given.planarconfig is not None and not apart
    before = array.ndim > 2 and array.shape[-3] in (3, 4) and not side_by_side
    if at_end or before:
        raise ambiguous(array.shape)
    return PHOTOMETRIC.MINISBLACK


def planar_of(given: Samples) -> bool:
    """Returns whether the caller wants the samples of a pixel apart."""
    wanted = chosen(PLANARCONFIG, given.planarconfig, "planarconfig")
    return wanted is PLANARCONFIG.SEPARATE


def samples_apart(array: NDArray[Any], color: str, given: Samples) -> bool | None:
    """Returns whether samples are a side before the rows; None if a pixel has one sample.

    Without a planarconfig, samples of a color are at the end, or else before the rows.
    """
    shape, count = array.shape, SAMPLES[color]
    if array.ndim < 3:
        return None
    if color == "Gray":
        if given.planarconfig is None:
            return False if given.extrasamples else None
        return None if given.extrasamples == () else planar_of(given)
    if given.planarconfig is not None:
        return planar_of(given)
    wanted = {3, 4} if color == "RGB" else {count}
    if shape[-1] in wanted:
        return False
    return shape[-3] in wanted or shape[-1] > shape[-3]


def pages_of_array(array: NDArray[Any], color: str, given: Samples) -> tuple[NDArray[Any], bool]:
    """Returns an array as pages, rows, columns and samples, and whether samples are apart."""
    apart = samples_apart(array, color, given)
    if apart is None:
        while array.ndim > 2 and array.shape[-1] == 1:
            array = array[..., 0]
        rows, columns = array.shape[-2:]
        return array.reshape(math.prod(array.shape[:-2]), rows, columns, 1), False
    pages = array.reshape(math.prod(array.shape[:-3]), *array.shape[-3:])
    return pages.transpose(0, 2, 3, 1) if apart else pages, apart


def extra_of(count: int, color: str, given: Samples) -> tuple[int, ...]:
    """Returns the kinds of the extra samples of a pixel of so many samples."""
    extra = count - SAMPLES[color]
    if extra < 0:
        raise ValueError(f"{count} samples a pixel are too few for {color}")
    if given.extrasamples is None:
        alone = color == "RGB" and extra == 1
        kind = EXTRASAMPLE.UNASSALPHA if alone else EXTRASAMPLE.UNSPECIFIED
        return (int(kind),) * extra
    kinds = tuple(int(chosen(EXTRASAMPLE, kind, "extrasamples")) for kind in given.extrasamples)
    if len(kinds) != extra:
        raise ValueError(f"extrasamples has {len(kinds)} kinds, and a pixel {extra} such samples")
    return kinds


def method_of(compression: Named) -> int:
    """Returns the method of compression that is written: none or PackBits."""
    if compression in (None, 0, "", False):
        return int(COMPRESSION.NONE)
    named = "adobe_deflate" if compression == "zlib" else compression
    method = chosen(COMPRESSION, named, "compression")
    if method not in (COMPRESSION.NONE, COMPRESSION.PACKBITS):
        what = f"compression={method.name.lower()}"
        raise UnsupportedError(what, Status.UNSUPPORTED_COMPRESSION_METHOD)
    return int(method)


def predictor_of(predictor: Union[Named, bool], kind: str) -> int:
    """Returns the predictor that is written: none, or differences of whole numbers."""
    if predictor in (None, False, 0):
        return int(PREDICTOR.NONE)
    if predictor is True:
        wanted = PREDICTOR.FLOATINGPOINT if kind == "f" else PREDICTOR.HORIZONTAL
    else:
        wanted = chosen(PREDICTOR, predictor, "predictor")
    if wanted is PREDICTOR.FLOATINGPOINT:
        raise UnsupportedError("predictor=floatingpoint", Status.PREDICTOR_UNAVAILABLE)
    return int(wanted)


def tile_of(tile: Sequence[int] | None) -> tuple[int, int] | None:
    """Returns the rows and columns of a tile, which TIFF wants as multiples of 16."""
    if not tile:
        return None
    if len(tile) == 3:
        raise UnsupportedError("a tile of several layers", Status.UNSUPPORTED_DATA_TYPE)
    if len(tile) != 2 or any(side < 16 or side % 16 for side in tile):
        raise ValueError(f"tile={tuple(tile)}: rows and columns, each a multiple of 16")
    return int(tile[0]), int(tile[1])


def color_type_of(
    count: int, color: str, number: str, given: Samples
) -> tuple[tuple[str, str], tuple[int, ...]]:
    """Returns the color type of pixels of so many samples, and the kinds of the extra ones."""
    extra = extra_of(count, color, given)
    if (color, number) not in COLORS:
        written = ", ".join(str(numpy.dtype(kind)) for kind in KINDS_OF[color])
        what = f"{color} samples of type {numpy.dtype(number)}: these are written: {written}"
        raise UnsupportedError(what, Status.UNSUPPORTED_COLOR_TYPE)
    return (color, number), extra


def layout_of(rows: int, kind: str, stored: Stored) -> Layout:
    """Returns how pages of so many rows are stored, of numbers of a kind."""
    strip = stored.rowsperstrip
    if strip is not None and strip < 1:
        raise ValueError(f"rowsperstrip={strip}")
    return Layout(
        tile=tile_of(stored.tile),
        rowsperstrip=None if stored.tile or strip is None else min(strip, rows),
        method=method_of(stored.compression),
        predictor=predictor_of(stored.predictor, kind),
    )


def check_array(given: NDArray[Any]) -> None:
    """Refuses arrays of dimensions and of number types that aren't written."""
    if given.ndim < 2:
        raise ValueError(f"an array of {given.ndim} dimensions: rows and columns are written")
    if given.dtype.kind not in "buif":
        why = NOT_WRITTEN.get(given.dtype.kind, "numbers are written")
        what = f"an array of type {given.dtype}: {why}"
        raise UnsupportedError(what, Status.UNSUPPORTED_SAMPLE_FORMAT)


def packed_bits(array: NDArray[Any], wanted: int | None) -> int | None:
    """Returns how many bits a packed sample of an array has; None for samples of whole bytes.

    The samples of a bool array have one bit, and those of uint8 as many as the caller wants.
    """
    kind = array.dtype
    whole = 1 if kind.kind == "b" else 8 * kind.itemsize
    bits = whole if wanted is None else operator.index(wanted)
    if bits == whole:
        return 1 if kind.kind == "b" else None
    if kind != numpy.uint8 or bits not in PACKED:
        what = f"bitspersample={bits} of type {kind}: 1, 2 and 4 of uint8 are written"
        raise UnsupportedError(what, Status.UNSUPPORTED_BITS_PER_CHANNEL)
    if array.size and array.max() >> bits:
        raise ValueError(f"bitspersample={bits}: there are numbers of more bits")
    return bits


def check_packed(bits: int, meaning: PHOTOMETRIC, count: int, stored: Stored) -> None:
    """Refuses what the library doesn't write of packed samples: colors, extra samples and tiles."""
    what = f"samples of {PACKED[bits]}"
    if KINDS[meaning] != "Gray" or meaning is PHOTOMETRIC.PALETTE:
        what = f"photometric={meaning.name.lower()} of {what}: gray ones are written"
        raise UnsupportedError(what, Status.UNSUPPORTED_COLOR_TYPE)
    if count > 1:
        what = f"{count} {what} a pixel: one is written"
        raise UnsupportedError(what, Status.UNSUPPORTED_COLOR_TYPE)
    if stored.tile:
        raise UnsupportedError(f"tiles of {what}: strips are written", Status.INVALID_INPUT)


def meaning_tags(
    meaning: PHOTOMETRIC, kind: numpy.dtype[Any], colormap: ArrayLike | None
) -> tuple[NewTag, ...]:
    """Returns the tags of what the samples mean, where the library's color type doesn't say it."""
    if (colormap is None) == (meaning is PHOTOMETRIC.PALETTE):
        raise ValueError("a colormap is there with photometric='palette', and with it alone")
    if meaning not in TAGGED:
        return ()
    if kind.kind not in "bu":
        what = f"photometric={meaning.name.lower()} of type {kind}: unsigned numbers are written"
        raise UnsupportedError(what, Status.UNSUPPORTED_INTERPRETATION)
    tags = (NewTag(INTERPRETATION, SHORT, 1, int(meaning).to_bytes(2, "little")),)
    if colormap is None:
        return tags
    colors, wanted = numpy.asarray(colormap), (3, 1 << 8 * min(kind.itemsize, 2))
    if kind.itemsize > 2 or colors.shape != wanted or colors.dtype.kind not in "ui":
        raise ValueError(f"a colormap of {colors.shape} {colors.dtype}, not {wanted} uint16")
    data = numpy.ascontiguousarray(colors, "<u2").tobytes()
    return (*tags, NewTag(COLOR_MAP, SHORT, colors.size, data))


def pages_of(data: ArrayLike, settings: Settings) -> list[NewPage]:
    """Returns the pages that an array is written as."""
    given = numpy.asarray(data)
    check_array(given)
    bits = packed_bits(given, settings.stored.bitspersample)
    meaning = meaning_of(given, settings.samples)
    color, wanted = KINDS[meaning], settings.samples
    if meaning is PHOTOMETRIC.PALETTE:
        wanted = replace(wanted, planarconfig=None, extrasamples=None)
    if color != "Gray" and given.ndim < 3:
        raise ValueError(f"an array of shape {given.shape} has no samples of {color}")
    pages, apart = pages_of_array(given, color, wanted)
    check_sides(pages, given.shape)
    _, rows, columns, count = pages.shape
    if bits:
        check_packed(bits, meaning, count, settings.stored)
    own = meaning_tags(meaning, given.dtype, wanted.colormap)
    number = PACKED[bits] if bits else given.dtype.str[1:]
    kind, extra = color_type_of(count, color, number, wanted)
    layout = layout_of(rows, given.dtype.kind, settings.stored)
    layout = replace(layout, planar=apart and count > 1, extra=extra)
    return [
        NewPage(
            kind,
            samples_of(page, bits),
            layout,
            own + settings.tags + (settings.first_tags if index == 0 else ()),
            settings.resolution,
            columns,
        )
        for index, page in enumerate(pages)
    ]


def check_sides(pages: NDArray[Any], shape: tuple[int, ...]) -> None:
    """Refuses sides that no image has, and an array of no pages."""
    if max(pages.shape[1:3]) > LONGEST_SIDE:
        raise ValueError(f"a side of an image is {LONGEST_SIDE} at most")
    if not len(pages):
        raise ValueError(f"an array of shape {shape} has no page")


def samples_of(page: NDArray[Any], bits: int | None) -> NDArray[Any]:
    """Returns the rows, columns and samples of a page as the library takes them."""
    if bits is None:
        return numpy.ascontiguousarray(page, page.dtype.newbyteorder("<"))
    return packed(page[:, :, 0].view(numpy.uint8), bits)[:, :, None]


def check_shape(pages: list[NewPage]) -> None:
    """Refuses the shape of small images in a description, by which tifffile reads other bytes.

    It takes images that aren't packed from one behind the other if the second directory lies behind
    so many bytes, as it does if the images are smaller than what lies around them.
    """
    layout, size = pages[0].layout, sum(page.samples.nbytes for page in pages[1:])
    plain = layout.method == COMPRESSION.NONE and layout.predictor == PREDICTOR.NONE
    around = AROUND_SAMPLES + sum(len(tag.data) for tag in pages[0].tags)
    if plain and 0 < size < around:
        raise UnsupportedError("imwrite: metadata of several images of a few bytes")


def file_of(data: ArrayLike, big: bool | None, settings: Settings) -> list[memoryview]:
    """Returns the bytes of a file whose pages are an array, in parts."""
    pages = pages_of(data, settings)
    if settings.has_shape:
        check_shape(pages)
    size = sum(page.samples.nbytes for page in pages)
    plain = method_of(settings.stored.compression) == COMPRESSION.NONE
    return _write_pages(pages, size > BIG_FROM and plain if big is None else big)
