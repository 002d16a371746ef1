"""The tags of a page that is written, from what a caller gives as values."""
from __future__ import annotations

import datetime as dates
import json
import struct
from collections.abc import Iterable, Sequence
from fractions import Fraction
from typing import Any, Union

from ._enums import DATATYPE, RESUNIT, chosen
from ._new_pages import NewTag
from ._tags import FORMATS, value_size

ASCII, LONG = 2, 4
SUBFILE_TYPE, DESCRIPTION, SOFTWARE, DATE_TIME = 254, 270, 305, 306
# The types of values by the format that `struct` writes, as tifffile takes them in `extratags`.
TYPES = {form: kind for kind, form in FORMATS.items() if kind not in (7, 13, 18)}
TYPES |= {"2I": 5, "2i": 10}
# Tags that the image itself sets.
OWN = {256, 257, 258, 259, 262, 273, 277, 278, 279, 284, 317, 322, 323, 324, 325, 338, 339}
OWN |= {270, 282, 283, 296, 305, 306}
# The greatest number in a fraction.
LONGEST = (1 << 32) - 1

# A tag: its number, the type of its values, their count, the values, and whether only the first
# page gets it.
ExtraTag = Union[tuple[int, Any, Any, Any], tuple[int, Any, Any, Any, bool]]
Fractional = Union[float, tuple[int, int]]


def text_tag(code: int, text: str | bytes) -> NewTag:
    """Returns a tag of a text. TIFF's texts are ASCII; bytes are taken as they are."""
    try:
        data = text if isinstance(text, bytes) else text.encode("ascii")
    except UnicodeEncodeError:
        raise ValueError(f"tag {code}: a text is ASCII; other text is given as bytes") from None
    data = data.rstrip(b"\0") + b"\0"
    return NewTag(code, ASCII, len(data), data)


def date_of(given: str | bool | dates.datetime) -> str:
    """Returns a date as the tag DateTime has it; True is now."""
    if isinstance(given, str):
        if len(given) != 19 or given[16] != ":":
            raise ValueError(f"datetime={given!r}: it has the form 2026:11:28 23:59:59")
        return given
    time = given if isinstance(given, dates.datetime) else dates.datetime.now()
    return time.strftime("%Y:%m:%d %H:%M:%S")


def shape_text(shape: tuple[int, ...], metadata: dict[str, Any]) -> str:
    """Returns the description in which tifffile keeps the shape of an array, and other facts."""
    return json.dumps({**metadata, "shape": list(shape)})


def numbers_of(value: Any, kind: int) -> list[Any]:
    """Returns the numbers of the values of a tag; a fraction is two."""
    values = list(value) if isinstance(value, Iterable) else [value]
    if kind in (5, 10):
        return [part for item in values for part in (item if isinstance(item, tuple) else (item,))]
    return values


def extra_tag(given: ExtraTag) -> NewTag:
    """Returns a tag of a caller's own: number, type, count and values, as tifffile takes it."""
    code, dtype, count, value = given[:4]
    if code in OWN:
        raise ValueError(f"extratags: the tag {code} is written by other parameters")
    kind = TYPES.get(dtype) if isinstance(dtype, str) else int(chosen(DATATYPE, dtype, "dtype"))
    if kind is None:
        raise ValueError(f"extratags: {dtype!r} is no type of values")
    if kind == ASCII:
        return text_tag(code, value)
    if isinstance(value, (bytes, bytearray, memoryview)):
        data = bytes(value)
    else:
        form = (FORMATS[kind] if kind != 7 else "B")[0]
        numbers = numbers_of(value, kind)
        data = struct.pack(f"<{len(numbers)}{form}", *numbers)
    held, rest = divmod(len(data), value_size(kind))
    if rest or int(count) not in (0, held):
        raise ValueError(f"extratags: the tag {code} has {held} values, not {count}")
    return NewTag(code, kind, held, data)


def fraction_of(given: Fractional) -> tuple[int, int]:
    """Returns a number as a fraction that the tags of the resolution hold."""
    exact = Fraction(*given) if isinstance(given, tuple) else Fraction(given)
    if exact <= 0:
        raise ValueError(f"resolution: {given!r} pixels in a unit")
    greatest = max(exact.numerator, exact.denominator)
    if greatest <= LONGEST:
        return exact.numerator, exact.denominator
    scale = LONGEST / greatest
    return round(exact.numerator * scale), round(exact.denominator * scale)


def resolution_of(
    resolution: Sequence[Fractional] | None, unit: RESUNIT | int | str | None
) -> tuple[int, tuple[int, int], tuple[int, int]] | None:
    """Returns the unit and the pixels in it, or None without a resolution and a unit."""
    if resolution is None and unit is None:
        return None
    named = RESUNIT.INCH if unit is None else chosen(RESUNIT, unit, "resolutionunit")
    if resolution is None:
        return int(named), (1, 1), (1, 1)
    if len(resolution) != 2:
        raise ValueError("resolution is two numbers: along a row, and along a column")
    return int(named), fraction_of(resolution[0]), fraction_of(resolution[1])
