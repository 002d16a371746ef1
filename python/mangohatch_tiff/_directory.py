"""What no call of the library returns: the version of a file, and which tags are there twice.

And small files of one tag, since it returns the values of tags for files in memory alone.
"""
from __future__ import annotations

import struct
from dataclasses import dataclass
from typing import TYPE_CHECKING

from . import _library

if TYPE_CHECKING:
    from ._library import File

BIG = 43
# By whether the file is a BigTIFF file: the format of the count of entries, and the size of one.
FORMS = {False: ("H", 12), True: ("Q", 20)}


# And how many bytes of values an entry has in place.
IN_PLACE = {False: 4, True: 8}
CLASSIC = 42


@dataclass(frozen=True)
class StoredTag:
    """A tag as a file stores it: its number, the type, the count and the bytes of its values."""

    number: int
    kind: int
    count: int
    data: bytes


def is_big(file: File, order: str) -> bool:
    """Tells whether a file is a BigTIFF file, by the version in its header."""
    return bool(struct.unpack(order + "H", _library.part(file, 2, 2))[0] == BIG)


def codes(file: File, offset: int, order: str) -> tuple[int, ...]:
    """Returns the number of each entry of the directory at an offset, in the order of the file."""
    form, size = FORMS[is_big(file, order)]
    first = offset + struct.calcsize("=" + form)
    (count,) = struct.unpack(order + form, _library.part(file, offset, first - offset))
    entries = _library.part(file, first, count * size)
    held = entries[: len(entries) // size * size]
    return tuple(code for (code,) in struct.iter_unpack(f"{order}H{size - 2}x", held))


def alone(tag: StoredTag, big: bool, order: str) -> tuple[bytes, int]:
    """Returns a small file of one tag, and the offset of its directory.

    It has the version and the byte order of the file that the tag is from, so its values are in
    their entry in both, or in none.
    """
    number, (form, size), place = "Q" if big else "I", FORMS[big], IN_PLACE[big]
    header = (b"II" if order == "<" else b"MM") + struct.pack(order + "H", BIG if big else CLASSIC)
    header += struct.pack(order + "HHQ", 8, 0, 16) if big else struct.pack(order + "I", 8)
    behind = len(header) + struct.calcsize("=" + form) + size + place
    lies = len(tag.data) > place
    value = struct.pack(order + number, behind) if lies else tag.data.ljust(place, b"\0")
    entry = struct.pack(f"{order}{form}HH{number}", 1, tag.number, tag.kind, tag.count) + value
    return header + entry + bytes(place) + (tag.data if lies else b""), len(header)
