"""What the tests share: the repository's files, and arrays of samples."""
from __future__ import annotations

import io
import struct
from pathlib import Path

import numpy
import pytest
import tifffile

DATA = Path(__file__).resolve().parents[2] / "crates" / "test_lists" / "data"


@pytest.fixture(scope="session")
def data() -> Path:
    """The folder of the repository's files."""
    return DATA


def samples(shape: tuple[int, ...], dtype: str) -> numpy.ndarray:
    """Returns an array of a shape and a number type in which neighbours differ."""
    count = int(numpy.prod(shape))
    numbers = numpy.arange(count, dtype="u8") * 2654435761 + 12345
    kind = numpy.dtype(dtype)
    if kind.kind == "f":
        return (numbers % 100_003 / 7).astype(kind).reshape(shape)
    return numbers.astype(kind).reshape(shape)


def gray_file(
    width: int = 4,
    height: int = 3,
    *,
    data: bytes | None = None,
    order: str = "<",
    **fields: tuple[int, int],
) -> bytes:
    """Returns a file of one gray page in one strip.

    A field `tN=(type, value)` takes the place of the tag N, or is added to the tags.
    """
    data = bytes(range(width * height)) if data is None else data
    tags = {256: (3, width), 257: (3, height), 258: (3, 8), 259: (3, 1), 262: (3, 1)}
    tags |= {273: (4, 8), 277: (3, 1), 278: (3, height), 279: (4, len(data))}
    tags |= {int(name[1:]): field for name, field in fields.items()}
    even = data + b"\0" * (len(data) % 2)
    file = (b"II" if order == "<" else b"MM") + struct.pack(order + "HI", 42, 8 + len(even)) + even
    file += struct.pack(order + "H", len(tags))
    for tag, (kind, value) in sorted(tags.items()):
        form = {1: "B3x", 3: "H2x", 7: "B3x"}.get(kind, "I")
        file += struct.pack(f"{order}HHI{form}", tag, kind, 1, value)
    return file + bytes(4)


def pyramid(big: bool, order: str) -> tuple[bytes, numpy.ndarray]:
    """Returns a file and its image in color, which has a half and a quarter of it as SubIFDs.

    The quarter is in tiles. A second page has each eighth row.
    """
    image, made = samples((48, 64, 3), "u1"), io.BytesIO()
    with tifffile.TiffWriter(made, bigtiff=big, byteorder=order) as writer:
        writer.write(image, photometric="rgb", subifds=2)
        writer.write(image[::2, ::2], photometric="rgb", subfiletype=1)
        writer.write(image[::4, ::4], photometric="rgb", subfiletype=1, tile=(16, 16))
        writer.write(image[::8], photometric="rgb")
    return made.getvalue(), image


# Tags of Exif by their numbers, each with the type and the count of its values, and their bytes.
EXIF = {
    33434: (5, 1, struct.pack("<2I", 1, 250)),
    36867: (2, 20, b"2026:11:28 23:59:59\0"),
    37380: (10, 1, struct.pack("<2i", -1, 3)),
    37500: (7, 300, bytes(range(100)) * 3),
    42034: (5, 4, struct.pack("<8I", 24, 1, 70, 1, 28, 10, 28, 10)),
}


def directory(fields: dict[int, tuple[int, int, bytes]], start: int) -> bytes:
    """Returns a directory for the end of a little-endian file, which has so many bytes before."""
    behind, entries, values = start + 6 + 12 * len(fields), b"", b""
    for tag, (kind, count, data) in fields.items():
        place = struct.pack("<I", behind + len(values)) if len(data) > 4 else data.ljust(4, b"\0")
        values += data + b"\0" * (len(data) % 2) if len(data) > 4 else b""
        entries += struct.pack("<HHI", tag, kind, count) + place
    return struct.pack("<H", len(fields)) + entries + bytes(4) + values


def raw_file() -> tuple[bytes, numpy.ndarray]:
    """Returns a file as cameras write it, and its largest preview.

    The first directory is that of the sensor, a color filter array, which names Exif's. Its SubIFD
    has the preview, and the next directory of the chain a smaller one.
    """
    preview, made = samples((40, 60, 3), "u1"), io.BytesIO()
    tags = [(34665, "I", 1, 0xFFFFFFF0, True), (271, "s", 0, "a maker", True)]
    with tifffile.TiffWriter(made) as writer:
        raw = samples((68, 96), "u2")
        writer.write(raw, photometric="cfa", subifds=1, extratags=tags, metadata=None)
        writer.write(preview, photometric="rgb", subfiletype=1, metadata=None)
        writer.write(preview[::4, ::4], photometric="rgb", subfiletype=1, metadata=None)
    file = made.getvalue() + b"\0" * (len(made.getvalue()) % 2)
    file = file.replace(struct.pack("<I", 0xFFFFFFF0), struct.pack("<I", len(file)))
    return file + directory(EXIF, len(file)), preview
