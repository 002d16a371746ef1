"""The numbers of TIFF's tags by name. Names and values are those of tifffile."""
from __future__ import annotations

from enum import IntEnum
from typing import Any, TypeVar


class PHOTOMETRIC(IntEnum):
    """What the samples of a pixel mean: the tag PhotometricInterpretation (262)."""

    MINISWHITE = 0
    MINISBLACK = 1
    RGB = 2
    PALETTE = 3
    MASK = 4
    SEPARATED = 5
    YCBCR = 6
    CIELAB = 8
    ICCLAB = 9
    ITULAB = 10
    CFA = 32803
    LOGL = 32844
    LOGLUV = 32845
    LINEAR_RAW = 34892


class COMPRESSION(IntEnum):
    """How the samples are packed: the tag Compression (259)."""

    NONE = 1
    CCITTRLE = 2
    CCITT_T4 = 3
    CCITT_T6 = 4
    LZW = 5
    OJPEG = 6
    JPEG = 7
    ADOBE_DEFLATE = 8
    PACKBITS = 32773
    DEFLATE = 32946
    JPEG2000 = 34712
    LERC = 34887
    LZMA = 34925
    ZSTD = 50000
    WEBP = 50001
    JPEGXL = 50002


class PLANARCONFIG(IntEnum):
    """How the samples of a pixel lie: the tag PlanarConfiguration (284)."""

    CONTIG = 1
    SEPARATE = 2


class SAMPLEFORMAT(IntEnum):
    """What the bits of a sample are: the tag SampleFormat (339)."""

    UINT = 1
    INT = 2
    IEEEFP = 3
    VOID = 4
    COMPLEXINT = 5
    COMPLEXIEEEFP = 6


class EXTRASAMPLE(IntEnum):
    """What an extra sample is: the tag ExtraSamples (338)."""

    UNSPECIFIED = 0
    ASSOCALPHA = 1
    UNASSALPHA = 2


class RESUNIT(IntEnum):
    """The unit of the resolution: the tag ResolutionUnit (296)."""

    NONE = 1
    INCH = 2
    CENTIMETER = 3


class FILLORDER(IntEnum):
    """The order of the bits of a byte: the tag FillOrder (266)."""

    MSB2LSB = 1
    LSB2MSB = 2


class PREDICTOR(IntEnum):
    """What is stored in place of the samples: the tag Predictor (317)."""

    NONE = 1
    HORIZONTAL = 2
    FLOATINGPOINT = 3


class DATATYPE(IntEnum):
    """The types of the values of a tag."""

    BYTE = 1
    ASCII = 2
    SHORT = 3
    LONG = 4
    RATIONAL = 5
    SBYTE = 6
    UNDEFINED = 7
    SSHORT = 8
    SLONG = 9
    SRATIONAL = 10
    FLOAT = 11
    DOUBLE = 12
    IFD = 13
    LONG8 = 16
    SLONG8 = 17
    IFD8 = 18


# The tags whose values are members of an enumeration.
ENUMS: dict[int, type[IntEnum]] = {
    259: COMPRESSION,
    262: PHOTOMETRIC,
    266: FILLORDER,
    284: PLANARCONFIG,
    296: RESUNIT,
    317: PREDICTOR,
    338: EXTRASAMPLE,
    339: SAMPLEFORMAT,
}

Named = TypeVar("Named", bound=IntEnum)


def member(kind: type[IntEnum], value: int) -> int:
    """Returns the member of an enumeration for a value, or the value if it has no name there."""
    try:
        return kind(value)
    except ValueError:
        return value


def chosen(kind: type[Named], value: Any, parameter: str) -> Named:
    """Returns the member that a caller names, by its name in any case or by its value."""
    try:
        return kind[value.upper()] if isinstance(value, str) else kind(value)
    except (KeyError, ValueError, TypeError):
        known = ", ".join(item.name.lower() for item in kind)
        raise ValueError(f"{parameter}={value!r} is none of: {known}") from None
