"""The tags of a page: their names, and their values by type."""
from __future__ import annotations

import struct
from collections import Counter
from collections.abc import Iterator
from functools import cached_property
from typing import TYPE_CHECKING, Any, Union

from . import _directory, _library
from ._enums import DATATYPE, ENUMS, member
from ._directory import StoredTag
from ._library import Field, Status, TagEntry, TiffError, UnsupportedError
from ._windows import Windows

if TYPE_CHECKING:
    from _typeshed import ReadableBuffer

    from ._library import File

NAMES = {
    254: "NewSubfileType",
    255: "SubfileType",
    256: "ImageWidth",
    257: "ImageLength",
    258: "BitsPerSample",
    259: "Compression",
    262: "PhotometricInterpretation",
    263: "Thresholding",
    264: "CellWidth",
    265: "CellLength",
    266: "FillOrder",
    269: "DocumentName",
    270: "ImageDescription",
    271: "Make",
    272: "Model",
    273: "StripOffsets",
    274: "Orientation",
    277: "SamplesPerPixel",
    278: "RowsPerStrip",
    279: "StripByteCounts",
    280: "MinSampleValue",
    281: "MaxSampleValue",
    282: "XResolution",
    283: "YResolution",
    284: "PlanarConfiguration",
    285: "PageName",
    286: "XPosition",
    287: "YPosition",
    290: "GrayResponseUnit",
    291: "GrayResponseCurve",
    296: "ResolutionUnit",
    297: "PageNumber",
    301: "TransferFunction",
    305: "Software",
    306: "DateTime",
    315: "Artist",
    316: "HostComputer",
    317: "Predictor",
    318: "WhitePoint",
    319: "PrimaryChromaticities",
    320: "ColorMap",
    321: "HalftoneHints",
    322: "TileWidth",
    323: "TileLength",
    324: "TileOffsets",
    325: "TileByteCounts",
    330: "SubIFDs",
    332: "InkSet",
    333: "InkNames",
    334: "NumberOfInks",
    336: "DotRange",
    337: "TargetPrinter",
    338: "ExtraSamples",
    339: "SampleFormat",
    340: "SMinSampleValue",
    341: "SMaxSampleValue",
    342: "TransferRange",
    347: "JPEGTables",
    529: "YCbCrCoefficients",
    530: "YCbCrSubSampling",
    531: "YCbCrPositioning",
    532: "ReferenceBlackWhite",
    700: "XMP",
    33432: "Copyright",
    33550: "ModelPixelScaleTag",
    33723: "IPTCNAA",
    33922: "ModelTiepointTag",
    34264: "ModelTransformationTag",
    34377: "ImageResources",
    34665: "ExifTag",
    34675: "InterColorProfile",
    34735: "GeoKeyDirectoryTag",
    34736: "GeoDoubleParamsTag",
    34737: "GeoAsciiParamsTag",
    34853: "GPSTag",
    42112: "GDAL_METADATA",
    42113: "GDAL_NODATA",
}
NUMBERS = {name: number for number, name in NAMES.items()}

BYTE, ASCII, UNDEFINED = 1, 2, 7
# The format of a value by its type, as `struct` writes it.
FORMATS = {
    1: "B",
    2: "s",
    3: "H",
    4: "I",
    5: "II",
    6: "b",
    7: "s",
    8: "h",
    9: "i",
    10: "ii",
    11: "f",
    12: "d",
    13: "I",
    16: "Q",
    17: "q",
    18: "Q",
}
# Tags whose values are a tuple even if there is one, as tifffile has them.
TUPLES = {273, 279, 282, 283, 324, 325, 330, 338, 513, 514, 530, 531, 34736, 50838}
# Tags of three curves, whose value is an array of three rows.
CURVES = {301, 320}
# Tags of which tifffile gives what their bytes mean: Exif, GPS, and those of microscopes.
MEANT = {33471, 33560, 33628, 33629, 33630, 33631, 33723, 33923, 34118, 34361, 34362, 34363, 34386}
MEANT |= {34412, 34665, 34680, 34682, 34853, 37706, 37724, 40100, 40965, 43314, 50288, 50296, 50839}
MEANT |= {51123, 65426, 65432, 65439, 65459}

# The types of the places of chunks, and how many of these are looked through as an array: more than
# a few, and as many as the library lists.
PLACES = {DATATYPE.SHORT, DATATYPE.LONG, DATATYPE.LONG8}
MOST_LISTED = 1 << 23
LONG_LISTS = range(64, MOST_LISTED + 1)
# The bytes of a text of which the library returns no more.
LONGEST_TEXT = 1 << 28

Number = Union[int, float]
# The type of the values of a tag: a text, bytes, a number, a tuple of numbers, or an array.
TagValue = Any


def value_size(kind: int) -> int:
    """Returns how many bytes a value of a type has."""
    return struct.calcsize("=" + FORMATS[kind])


def number_of(key: object) -> int | None:
    """Returns the number of a tag, given its number or its name, or None if it is no tag."""
    number = NUMBERS.get(key) if isinstance(key, str) else key
    return number if isinstance(number, int) and 0 <= number < 1 << 16 else None


def text_of(data: bytes) -> str:
    """Returns a text, as UTF-8 or else by Windows' code page, without zeros and blanks around."""
    data = data.rstrip(b"\0").strip()
    try:
        return data.decode()
    except UnicodeDecodeError:
        return data.decode("cp1252", "replace")


def decode(kind: int, data: bytes, order: str) -> str | bytes | tuple[Number, ...]:
    """Returns the values that these bytes are: a text, bytes, or numbers; a fraction is two."""
    if kind == ASCII:
        return text_of(data)
    if kind in (BYTE, UNDEFINED):
        return data
    form = struct.Struct(order + FORMATS[kind])
    return tuple(number for group in form.iter_unpack(data) for number in group)


class Tag:
    """A tag of a page: its number `code`, the type of its values `dtype`, and their `count`."""

    def __init__(self, tags: Tags, code: int, field: Field) -> None:
        self._tags = tags
        self.code: int = code
        self.dtype: int = member(DATATYPE, field.kind)
        self.count: int = field.count

    def __repr__(self) -> str:
        kind = self.dtype.name if isinstance(self.dtype, DATATYPE) else self.dtype
        return f"<Tag {self.code} {self.name} {kind}[{self.count}]>"

    @property
    def name(self) -> str:
        """The name of the tag, or its number as a text if it has no name here."""
        return NAMES.get(self.code, str(self.code))

    @cached_property
    def value(self) -> TagValue:
        """The value of the tag, as tifffile has it.

        A text is a `str`, without zeros and blanks at its ends; values of the types BYTE and
        UNDEFINED are `bytes`, and others numbers: one, or a tuple. A fraction is two numbers. The
        curves of ColorMap and TransferFunction are an array of three rows. A tag that the directory
        has twice, and one whose bytes tifffile decodes further, as Exif, raise `UnsupportedError`;
        `Tags.numbers`, `floats`, `text` and `data` then give what the library has.
        """
        self._tags._judge(self.code)
        values = self._tags._decoded(self.code, self.dtype, self.count)
        if not isinstance(values, tuple):
            return values
        if self.code in CURVES:
            import numpy

            return numpy.array(values, "u2").reshape(3, -1)
        if self.code in ENUMS:
            values = tuple(member(ENUMS[self.code], int(value)) for value in values)
        return values[0] if len(values) == 1 and self.code not in TUPLES else values


class Tags:
    """The tags of a page, by number or by name; an iteration yields the tags, as in tifffile."""

    def __init__(
        self, file: File, page: int, order: str, index: int | None = None
    ) -> None:
        self._file = file
        self._page = page
        self._order = order
        self._index = index

    def __repr__(self) -> str:
        return "<Tags " + ", ".join(NAMES.get(code, str(code)) for code in self.keys()) + ">"

    @cached_property
    def _entries(self) -> list[TagEntry]:
        """The entries of the directory, by the numbers of their tags."""
        with _library.named(self._index):
            return _library.list_tags(self._file, self._page)

    @cached_property
    def _listed(self) -> dict[int, Field]:
        """The type and the count of each tag, by its number."""
        return {entry.number: Field(entry.type, entry.count) for entry in self._entries}

    @cached_property
    def _codes(self) -> tuple[int, ...]:
        """The numbers of the directory's tags, in the order of the file, each as often as there."""
        return _directory.codes(self._file, _library.offset_of(self._page), self._order)

    @cached_property
    def _twice(self) -> set[int]:
        """The numbers of the tags that the directory has twice."""
        codes = self._codes
        if len(set(codes)) == len(codes):
            return set()
        return {code for code, count in Counter(codes).items() if count > 1}

    def _field(self, key: object) -> Field | None:
        """Returns the type and the count of a tag, or None if the page doesn't have the tag."""
        number = number_of(key)
        if number is None:
            return None
        if isinstance(self._file, Windows):
            return self._listed.get(number)
        try:
            with _library.named(self._index, number):
                return _library.result_of(_library.TAG_FIELD, Field, self._file, self._page, number)
        except TiffError as error:
            if error.status is Status.REQUIRED_TAG_NOT_FOUND:
                return None
            raise

    def _judge(self, code: int) -> None:
        """Refuses a tag whose value here would be another than tifffile's."""
        cause = None
        if code in self._twice:
            cause = f"the directory has the tag {code} twice, of which the library reads the last"
        elif code in MEANT:
            cause = f"what the bytes of the tag {code} mean isn't decoded"
        if cause:
            raise UnsupportedError(cause, Status.INVALID_TAG, self._index)

    def _decoded(self, code: int, kind: int, count: int) -> str | bytes | tuple[Number, ...]:
        """Returns the values of a tag of a type and a count."""
        return decode(kind, self._stored(code, kind, count), self._order)

    def _stored(self, code: int, kind: int, count: int) -> bytes:
        """Returns the bytes of so many values of a type, as the file has them."""
        if kind not in FORMATS:
            raise TiffError(Status.INVALID_TYPE_FOR_TAG, self._index, code)
        return self._bytes(code, count * value_size(kind))

    def _bytes(self, number: int, size: int, start: int = 0) -> bytes:
        """Returns bytes of the values of a tag, from a first one on."""
        with _library.named(self._index, number):
            return _library.tag_bytes(self._file, self._page, number, start, size)

    def _place(self, number: int, chunk: int) -> int:
        """Returns the number of a chunk in a list of places; no others of the list are read."""
        field = self._field(number)
        if field is None or field.kind not in PLACES:
            raise TiffError(Status.INVALID_TYPE_FOR_TAG, self._index, number)
        if chunk >= field.count:
            raise TiffError(Status.INCONSISTENT_SIZES_ENCOUNTERED, self._index)
        size = value_size(field.kind)
        data = self._bytes(number, size, chunk * size)
        place: int = struct.unpack(self._order + FORMATS[field.kind], data)[0]
        return place

    def _in_memory(self, number: int) -> tuple[ReadableBuffer, int]:
        """Returns a file in memory that has a tag, and the number of its directory there.

        Of a file that isn't in memory, it is a small one of this tag alone, or of another tag where
        the directory doesn't have it.
        """
        if not isinstance(self._file, Windows):
            return self._file, self._page
        field = self._listed.get(number)
        if field is None:
            tag = StoredTag(number ^ 1, BYTE, 1, b"\0")
        elif field.count > (LONGEST_TEXT if field.kind == ASCII else MOST_LISTED):
            raise TiffError(Status.LIMITS_EXCEEDED, self._index, number)
        else:
            data = self._stored(number, field.kind, field.count)
            tag = StoredTag(number, field.kind, field.count, data)
        big = _directory.is_big(self._file, self._order)
        file, offset = _directory.alone(tag, big, self._order)
        return file, _library.at(offset)

    def __getitem__(self, key: int | str) -> Tag:
        tag = self.get(key)
        if tag is None:
            raise KeyError(key)
        return tag

    def get(self, key: int | str, default: Tag | None = None) -> Tag | None:
        """Returns a tag, or the default if the page doesn't have it."""
        number, field = number_of(key), self._field(key)
        return default if number is None or field is None else Tag(self, number, field)

    def valueof(self, key: int | str, default: TagValue = None) -> TagValue:
        """Returns the value of a tag, or the default if the page doesn't have the tag."""
        tag = self.get(key)
        return default if tag is None else tag.value

    def __contains__(self, key: object) -> bool:
        return self._field(key) is not None

    def __iter__(self) -> Iterator[Tag]:
        return iter(self.values())

    def __len__(self) -> int:
        return len(self._entries)

    def keys(self) -> list[int]:
        """Returns the numbers of the tags, in ascending order.

        A tag that the directory has twice is there once, and one of an unknown type isn't.
        """
        return [entry.number for entry in self._entries]

    def values(self) -> list[Tag]:
        """Returns the tags, in the order of `keys`."""
        return [tag for _, tag in self.items()]

    def items(self) -> list[tuple[int, Tag]]:
        """Returns the tags, each with its number, in the order of `keys`."""
        return [(code, Tag(self, code, field)) for code, field in self._listed.items()]

    def _number(self, key: int | str) -> int:
        """Returns the number of a tag; raises KeyError if it is no tag."""
        number = number_of(key)
        if number is None:
            raise KeyError(key)
        return number

    def numbers(self, key: int | str) -> tuple[int, ...]:
        """Returns the values of a tag of unsigned numbers, one or several, as the library has them.

        Values of another type raise the library's error, and so does a tag that the page lacks.
        """
        number = self._number(key)
        with _library.named(self._index, number):
            return _library.tag_numbers(*self._in_memory(number), number)

    def floats(self, key: int | str) -> tuple[float, ...]:
        """Returns the values of a tag of floating-point numbers of 64 bits; else as `numbers`."""
        number = self._number(key)
        with _library.named(self._index, number):
            return _library.tag_floats(*self._in_memory(number), number)

    def text(self, key: int | str) -> str:
        """Returns the text of a tag up to its first zero; the text has to be UTF-8."""
        number = self._number(key)
        with _library.named(self._index, number):
            return _library.tag_text(*self._in_memory(number), number)

    def data(self, key: int | str) -> bytes:
        """Returns the bytes of the values of a tag, in the file's byte order."""
        tag = self[key]
        return self._stored(tag.code, tag.dtype, tag.count)

    def first(self, number: int, default: int) -> int:
        """Returns the first unsigned number of a tag, or the default if the page has none."""
        values = self.told(number)
        return values[0] if values else default

    def told(self, number: int) -> tuple[int, ...]:
        """Returns the unsigned numbers of a tag, none if the page doesn't have the tag."""
        with _library.named(self._index, number):
            return _library.unsigned_numbers(*self._in_memory(number), number)

    def _has_zero(self, number: int, count: int | None) -> bool:
        """Returns whether a zero is among the unsigned numbers of a tag. Long lists take numpy.

        `count` is how many there are, if that is known.
        """
        if count is not None and count not in LONG_LISTS:
            return 0 in self.told(number)
        field = self._field(number)
        if field is None or field.kind not in PLACES or field.count not in LONG_LISTS:
            return 0 in self.told(number)
        import numpy

        each = value_size(field.kind)
        raw = numpy.empty(field.count * each, numpy.uint8)
        with _library.named(self._index, number):
            held = _library.read_tag_bytes(
                self._file, self._page, number, 0, *_library.memory_of(raw)
            )
        return not raw[:held].view(f"u{each}").min(initial=1)
