"""A reader of TIFF files, written from the chapters docs/definitions/1-file.md to 4-decoder.md
alone. It shares no code with the library.

Each function has the name of the definition that it follows, where there is one. An error is raised
as `Refused`, with the words of the library's error. A value of a field is a pair of its kind and
what it is; a list of values is `("list", [..])`.
"""
import zlib
from dataclasses import dataclass, field

WIDTH, LENGTH, BITS, METHOD, MEANING, OFFSETS, SAMPLES, ROWS, COUNTS = (
    256,
    257,
    258,
    259,
    262,
    273,
    277,
    278,
    279,
)
(
    PLANAR,
    PREDICTOR,
    TILE_WIDTH,
    TILE_LENGTH,
    TILE_OFFSETS,
    TILE_COUNTS,
    EXTRA,
    FORMAT,
    SUBSAMPLING,
) = (284, 317, 322, 323, 324, 325, 338, 339, 530)

TAGS = {
    254: "NewSubfileType",
    255: "SubfileType",
    256: "ImageWidth",
    257: "ImageLength",
    258: "BitsPerSample",
    259: "Compression",
    262: "PhotometricInterpretation",
    263: "Threshholding",
    264: "CellWidth",
    265: "CellLength",
    266: "FillOrder",
    270: "ImageDescription",
    271: "Make",
    272: "Model",
    273: "StripOffsets",
    274: "Orientation",
    277: "SamplesPerPixel",
    278: "RowsPerStrip",
    279: "StripByteCounts",
    280: "MinSampleValue",
    281: "MaxSampleValue",
    282: "XResolution",
    283: "YResolution",
    284: "PlanarConfiguration",
    288: "FreeOffsets",
    289: "FreeByteCounts",
    290: "GrayResponseUnit",
    291: "GrayResponseCurve",
    296: "ResolutionUnit",
    305: "Software",
    306: "DateTime",
    315: "Artist",
    316: "HostComputer",
    317: "Predictor",
    320: "ColorMap",
    322: "TileWidth",
    323: "TileLength",
    324: "TileOffsets",
    325: "TileByteCounts",
    330: "SubIfd",
    338: "ExtraSamples",
    339: "SampleFormat",
    340: "SMinSampleValue",
    341: "SMaxSampleValue",
    347: "JPEGTables",
    530: "ChromaSubsampling",
    531: "ChromaPositioning",
    33432: "Copyright",
    33550: "ModelPixelScaleTag",
    33922: "ModelTiepointTag",
    34264: "ModelTransformationTag",
    34665: "ExifDirectory",
    34675: "IccProfile",
    34735: "GeoKeyDirectoryTag",
    34736: "GeoDoubleParamsTag",
    34737: "GeoAsciiParamsTag",
    34853: "GpsDirectory",
    36864: "ExifVersion",
    42113: "GdalNodata",
}
METHODS = {
    1: "None",
    2: "Huffman",
    3: "Fax3",
    4: "Fax4",
    5: "LZW",
    6: "JPEG",
    7: "ModernJPEG",
    8: "Deflate",
    32773: "PackBits",
    32946: "OldDeflate",
    50000: "ZSTD",
    50001: "WebP",
}
MEANINGS = {
    0: "WhiteIsZero",
    1: "BlackIsZero",
    2: "RGB",
    3: "RGBPalette",
    4: "TransparencyMask",
    5: "CMYK",
    6: "YCbCr",
    8: "CIELab",
    9: "IccLab",
    10: "ItuLab",
}
PREDICTORS = {1: "None", 2: "Horizontal", 3: "FloatingPoint"}
FORMATS = {1: "Uint", 2: "Int", 3: "IEEEFP", 4: "Void"}
# The types of fields: the kind of value, its bytes, and how many of its bytes are one number.
TYPES = {
    1: ("Byte", 1, 1),
    2: ("Byte", 1, 1),
    3: ("Short", 2, 2),
    4: ("Unsigned", 4, 4),
    5: ("Rational", 8, 4),
    6: ("SignedByte", 1, 1),
    7: ("Byte", 1, 1),
    8: ("SignedShort", 2, 2),
    9: ("Signed", 4, 4),
    10: ("SRational", 8, 4),
    11: ("Float", 4, 4),
    12: ("Double", 8, 8),
    13: ("Ifd", 4, 4),
    16: ("UnsignedBig", 8, 8),
    17: ("SignedBig", 8, 8),
    18: ("IfdBig", 8, 8),
}
SIGNED = (6, 8, 9, 10, 17)
DEFAULT_LIMIT, CHUNK_LIMIT = 268435456, 134217728


class Refused(Exception):
    """An error: its words, and what it says besides."""

    def __init__(self, *words):
        super().__init__(*words)
        self.words = words


def format_error(*words):
    return Refused("FormatError", *words)


def unsupported(*words):
    return Refused("UnsupportedError", *words)


INCONSISTENT = ("InconsistentSizesEncountered",)


def end_of_file():
    return Refused("IoError", "UnexpectedEof")


def limits_exceeded():
    return Refused("LimitsExceeded")


# --- chapter 1: bytes, numbers, the header, directories, the chain


def exactly_at(data, at, length):
    """Returns so many bytes at an offset; no bytes exist at each offset."""
    if length > max(len(data) - at, 0):
        raise end_of_file()
    return data[at : at + length]


def number(order, found):
    return int.from_bytes(found, order)


@dataclass
class File:
    """The bytes of a file, and what its header says."""

    data: bytes
    order: str = "little"
    big: bool = False
    first: int = 0

    def number_at(self, at, length):
        return number(self.order, exactly_at(self.data, at, length))

    @property
    def offset_width(self):
        return 8 if self.big else 4


def open_header(data):
    """Returns the file, if its header is one."""
    if len(data) < 2 or data[:2] not in (b"II", b"MM"):
        raise format_error("TiffSignatureNotFound")
    file = File(data, "little" if data[:2] == b"II" else "big")
    version = file.number_at(2, 2)
    if version == 42:
        file.first = file.number_at(4, 4)
    elif version == 43:
        file.big = True
        for at, wanted in ((4, 8), (6, 0)):
            if file.number_at(at, 2) != wanted:
                raise format_error("TiffSignatureNotFound")
        file.first = file.number_at(8, 8)
    else:
        raise format_error("TiffSignatureInvalid")
    if file.first == 0:
        raise format_error("ImageFileDirectoryNotFound")
    return file


@dataclass
class Field:
    """The type of a field, its count, and the eight bytes of its value field."""

    kind: int
    count: int
    value: bytes

    @property
    def length(self):
        return self.count * TYPES[self.kind][1]


@dataclass
class Directory:
    fields: dict
    next: int


def directory_at(file, at):
    """Returns the directory at an offset: of several entries with one tag the last one, and none of
    an unknown type."""
    width, entry_len = (8, 20) if file.big else (2, 12)
    count = file.number_at(at, width)
    first = at + width
    link = file.number_at(first + entry_len * count, file.offset_width)
    fields = {}
    for place in range(first, first + entry_len * count, entry_len):
        entry = file.data[place : place + entry_len]
        kind = number(file.order, entry[2:4])
        if kind in TYPES:
            value = entry[4 + file.offset_width :].ljust(8, b"\0")
            fields[number(file.order, entry[:2])] = Field(
                kind, number(file.order, entry[4 : 4 + file.offset_width]), value
            )
    return Directory(dict(sorted(fields.items())), link)


def chain(file):
    """Returns the offsets of the chain, each with its directory, and the error that ends it, or
    None."""
    met, next_one = [], file.first
    while next_one:
        try:
            directory = directory_at(file, next_one)
        except Refused as fault:
            return met, fault
        offsets = [offset for offset, _ in met] + [next_one]
        if directory.next in offsets:
            return met, format_error("CycleInOffsets")
        met.append((next_one, directory))
        next_one = directory.next
    return met, None


# --- chapter 2: values and conversions


def field_bytes(file, one):
    if one.length >= 2**64:
        raise limits_exceeded()
    if one.length <= file.offset_width:
        return one.value[: one.length]
    return exactly_at(file.data, number(file.order, one.value[: file.offset_width]), one.length)


def item(file, kind, found):
    """Returns one value of a type."""
    name, _, width = TYPES[kind]
    numbers = [
        int.from_bytes(found[at : at + width], file.order, signed=kind in SIGNED)
        for at in range(0, len(found), width)
    ]
    return name, tuple(numbers) if len(numbers) > 1 else numbers[0]


def inline_item(file, kind, found):
    """Returns one of several values within an entry: a BYTE or SBYTE becomes a wider number."""
    name, value = item(file, kind, found)
    return {1: "Unsigned", 6: "Signed"}.get(kind, name), value


def text_of(found, inline):
    """Returns a text within the entry, or outside of it."""
    if inline:
        if any(byte > 127 for byte in found) or found[-1] != 0:
            raise format_error("InvalidTag")
        return "Ascii", found.strip(b"\0").decode("ascii")
    try:
        return "Ascii", found.partition(b"\0")[0].decode("utf-8")
    except UnicodeDecodeError:
        raise format_error("InvalidTag") from None


def value_from(file, one, found, inline):
    if one.kind == 2:
        return text_of(found, inline)
    if one.count == 1:
        return item(file, one.kind, found)
    size, read = TYPES[one.kind][1], inline_item if inline else item
    return "list", [
        read(file, one.kind, found[at : at + size]) for at in range(0, len(found), size)
    ]


def field_value(file, one, limit=DEFAULT_LIMIT):
    """Returns the value of a field, or its first error: the limit comes before the end of the
    file."""
    if one.count == 0:
        return "list", []
    if one.length >= 2**64:
        raise limits_exceeded()
    if one.length <= file.offset_width:
        return value_from(file, one, one.value[: one.length], True)
    allowed = one.count <= limit if one.kind == 2 else one.count == 1 or one.count <= limit // 32
    if not allowed:
        raise limits_exceeded()
    return value_from(file, one, field_bytes(file, one), False)


def wrong_type():
    return format_error("InvalidTypeForTag")


def below(limit, value):
    if value >= limit:
        raise Refused("IntSizeError")
    return value


# The kinds that a conversion takes as they are, and those that it takes below its limit.
TAKES = {
    16: (("Byte", "Short"), ("Unsigned", "UnsignedBig")),
    32: (("Byte", "Short", "Unsigned", "Ifd"), ("UnsignedBig", "IfdBig")),
    64: (("Byte", "Short", "Unsigned", "UnsignedBig", "Ifd", "IfdBig"), ()),
}


def into_unsigned(bits, value):
    kind, what = value
    plain, tested = TAKES[bits]
    if kind in plain:
        return what
    if kind in tested:
        return below(2**bits, what)
    raise wrong_type()


def into_u16_vec(value):
    kind, what = value
    if kind == "list":
        return [into_unsigned(16, one) for one in what]
    if kind in ("Byte", "Short"):
        return [what]
    raise wrong_type()


def into_u64_vec(value):
    kind, what = value
    if kind == "list":
        return [into_unsigned(64, one) for one in what]
    if kind == "Rational":
        return list(what)
    if kind == "Ascii":
        return [ord(letter) for letter in what]
    return [into_unsigned(64, value)]


class Lookup:
    """The tags of a directory, and their values."""

    def __init__(self, file, directory, limit=DEFAULT_LIMIT):
        self.file, self.fields, self.limit = file, directory.fields, limit

    def has(self, tag):
        return tag in self.fields

    def find(self, into, tag, otherwise=None):
        if tag not in self.fields:
            return otherwise
        return into(field_value(self.file, self.fields[tag], self.limit))

    def require(self, into, tag):
        found = self.find(into, tag)
        if found is None:
            raise format_error("RequiredTagNotFound", tag)
        return found


def u16(value):
    return into_unsigned(16, value)


def u32(value):
    return into_unsigned(32, value)


def fitted(tag, limit, numbers):
    for one in numbers:
        if one >= limit:
            raise format_error("InvalidTagValueType", tag)
    return numbers


def unpacked_runs(packed, early, wanted=None):
    """Returns what a PackBits list unpacks to; if only so many bytes are wanted, no more of
    them."""
    out, at = bytearray(), 0
    while at < len(packed) and (wanted is None or len(out) < wanted):
        header = packed[at]
        at += 1
        if header < 128:
            out += packed[at : at + header + 1]
            at += header + 1
        elif header > 128:
            out += packed[at : at + 1] * (257 - header)
            at += 1
    return bytes(out)


# --- chapter 3: the page


@dataclass
class Page:
    width: int = 0
    height: int = 0
    meaning: str = ""
    method: object = None
    samples: int = 1
    extra: list = field(default_factory=list)
    format: int = 1
    depth: int = 1
    predictor: str = "None"
    planar: bool = False
    subsampling: tuple = (2, 2)
    tiled: bool = False
    chunk_width: int = 0
    chunk_height: int = 0
    offsets: list = field(default_factory=list)
    counts: list = field(default_factory=list)

    @property
    def across(self):
        return parts(self.width, self.chunk_width)

    @property
    def chunks_of_plane(self):
        return self.across * parts(self.height, self.chunk_height)

    @property
    def all_chunks(self):
        return self.chunks_of_plane * (self.samples if self.planar else 1)

    @property
    def stored_samples(self):
        return 1 if self.planar else self.samples

    @property
    def stored_row_bytes(self):
        return (self.chunk_width * self.depth * self.stored_samples + 7) // 8


def parts(length, size):
    return (length + size - 1) // size


def named(names, what, fault):
    if what not in names:
        raise fault
    return names[what]


def read_sides(look, page):
    page.width, page.height = look.require(u32, WIDTH), look.require(u32, LENGTH)
    if page.width == 0 or page.height == 0:
        raise format_error("InvalidDimensions", page.width, page.height)


def read_kind(look, page):
    page.meaning = named(MEANINGS, look.find(u16, MEANING), unsupported("UnknownInterpretation"))
    page.method = look.find(u16, METHOD, 1)
    page.samples = look.find(u16, SAMPLES, 1)
    if page.samples == 0:
        raise format_error("SamplesPerPixelIsZero")
    page.extra = [one if one < 3 else 0 for one in look.find(into_u16_vec, EXTRA, [])]
    if len(page.extra) > page.samples:
        raise format_error(*INCONSISTENT)


def read_format(look, page):
    numbers = look.find(into_u64_vec, FORMAT)
    if numbers is None:
        return
    fitted(FORMAT, 2**16, numbers)
    if not numbers:
        raise format_error("InvalidTagValueType", FORMAT)
    if any(one != numbers[0] for one in numbers):
        raise unsupported("UnsupportedSampleFormat", numbers)
    page.format = numbers[0]


def read_depth(look, page):
    bits = look.find(into_u64_vec, BITS)
    if bits is None:
        return
    fitted(BITS, 2**8, bits)
    if len(bits) not in (page.samples, 1) or not bits:
        raise format_error(*INCONSISTENT)
    if any(one != bits[0] for one in bits) or bits[0] == 0:
        raise unsupported("InconsistentBitsPerSample", bits)
    page.depth = bits[0]


def read_arrangement(look, page):
    predictor = look.find(u16, PREDICTOR, 1)
    page.predictor = named(PREDICTORS, predictor, format_error("UnknownPredictor", predictor))
    planar = look.find(u16, PLANAR, 1)
    page.planar = named(
        {1: False, 2: True}, planar, format_error("UnknownPlanarConfiguration", planar)
    )
    sizes = look.find(into_u64_vec, SUBSAMPLING)
    if sizes is not None:
        fitted(SUBSAMPLING, 2**16, sizes)
        if len(sizes) != 2:
            raise format_error("InvalidCountForTag", SUBSAMPLING, len(sizes))
        page.subsampling = tuple(sizes)


def read_chunks(look, page):
    has = tuple(look.has(tag) for tag in (OFFSETS, COUNTS, TILE_OFFSETS, TILE_COUNTS))
    if has not in ((True, True, False, False), (False, False, True, True)):
        raise format_error("StripTileTagConflict")
    page.tiled = has[2]
    if page.tiled:
        page.chunk_width, page.chunk_height = look.require(u32, TILE_WIDTH), look.require(
            u32, TILE_LENGTH
        )
        for tag, side in ((TILE_WIDTH, page.chunk_width), (TILE_LENGTH, page.chunk_height)):
            if side == 0:
                raise format_error("InvalidTagValueType", tag)
    page.offsets = look.require(into_u64_vec, TILE_OFFSETS if page.tiled else OFFSETS)
    page.counts = look.require(into_u64_vec, TILE_COUNTS if page.tiled else COUNTS)
    if not page.tiled:
        page.chunk_width, page.chunk_height = page.width, look.find(u32, ROWS, page.height)
        if page.chunk_height == 0:
            raise format_error(*INCONSISTENT)
    if (
        len(page.offsets) != len(page.counts)
        or len(page.offsets) != page.all_chunks
        or page.all_chunks >= 2**32
    ):
        raise format_error(*INCONSISTENT)


def page_of(look):
    """Returns the page that the tags define, or raises the error of the first check that fails."""
    page = Page()
    for step in (read_sides, read_kind, read_format, read_depth, read_arrangement, read_chunks):
        step(look, page)
    return page


def color_of(page):
    """Returns the name of the page's color, with its depth, and how many samples a pixel shows."""
    own = page.samples - len(page.extra)
    alpha = page.extra[:1] in ([1], [2])
    found = None
    if page.meaning == "RGB" and own in (3, 4):
        found = ("RGBA", 4) if own == 4 or alpha else ("RGB", 3)
    elif page.meaning == "CMYK" and own in (4, 5):
        found = ("CMYKA", 5) if own == 5 or alpha else ("CMYK", 4)
    elif page.meaning == "YCbCr" and own == 3:
        found = ("YCbCr", 3)
    elif page.meaning in ("BlackIsZero", "WhiteIsZero"):
        found = ("Gray", 1) if page.samples == 1 else ("Multiband", page.samples)
    elif page.meaning == "IccLab" and own == 3 and page.format == 1:
        found = ("Lab", 3)
    if found is None:
        raise unsupported("InterpretationWithBits", page.meaning, [page.depth] * page.samples)
    return (found[0], page.depth), found[1]


def sample_type_of(page):
    """Returns the letter of the number type of samples, and its bytes."""
    if page.format == 3:
        if page.depth not in (16, 32, 64):
            raise unsupported("UnsupportedSampleDepth", page.depth)
        return "F", page.depth // 8
    if page.format not in (1, 2):
        raise unsupported("UnsupportedSampleFormat", [page.format])
    for size in (1, 2, 4, 8):
        if page.depth <= 8 * size:
            return ("U" if page.format == 1 else "I"), size
    raise unsupported("UnsupportedSampleDepth", page.depth)


@dataclass
class Layout:
    color: tuple
    shown: int
    row_bytes: int
    plane_stride: int
    planes: int


def shown_in_chunk(page, shown):
    return 1 if page.planar else shown


def row_bytes(page, shown, width):
    return (width * page.depth * shown_in_chunk(page, shown) + 7) // 8


def wide(size):
    if size >= 2**64:
        raise limits_exceeded()
    return size


def planes_layout(page):
    """Returns the layout of the image and of all its planes, or raises the first error."""
    color, shown = color_of(page)
    row = row_bytes(page, shown, page.width)
    wide(row * page.chunk_height)
    stride = wide(row * page.height)
    if page.across > 1 and page.chunk_width * page.depth * shown_in_chunk(page, shown) % 8:
        raise unsupported("MisalignedTileBoundaries")
    if color[0] == "YCbCr" and page.subsampling != (1, 1) and page.method != 7:
        raise unsupported("ChromaSubsampling")
    planes = shown if page.planar else 1
    wide(stride * planes)
    return Layout(color, shown, row, stride, planes)


def rect(page, chunk):
    """Returns where a chunk is in its plane: its column, row, width and height within the image."""
    j = chunk % page.chunks_of_plane
    x, y = j % page.across * page.chunk_width, j // page.across * page.chunk_height
    return x, y, min(page.chunk_width, page.width - x), min(page.chunk_height, page.height - y)


def depth_fault(page, layout):
    name = layout.color[0]
    if page.depth in (8, 16, 32, 64) and name not in ("Palette", "GrayA", "Lab"):
        return
    if page.depth < 8 and name in ("Gray", "Multiband"):
        if page.predictor != "None":
            raise unsupported(f"{page.predictor}Predictor", layout.color, page.samples)
        return
    raise unsupported("UnsupportedColorType", layout.color, page.samples)


def form_fault(page, layout, chunk):
    """Raises the first error of a chunk, but for too few data."""
    if chunk >= len(page.offsets):
        raise format_error(*INCONSISTENT)
    depth_fault(page, layout)
    if page.predictor == "Horizontal" and page.format not in (1, 2, 3):
        raise unsupported("HorizontalPredictor", layout.color, page.samples)
    if page.predictor == "FloatingPoint" and (page.format != 3 or page.depth == 8):
        raise unsupported("FloatingPointPredictor", layout.color, page.samples)
    if page.counts[chunk] > CHUNK_LIMIT:
        raise limits_exceeded()
    if page.method not in (1, 32773):
        raise unsupported("UnsupportedCompressionMethod", page.method)
    if page.meaning == "WhiteIsZero" and not (
        page.format == 1 and layout.color[0] == "Gray" and page.depth in (1, 2, 4, 8, 16, 32, 64)
    ):
        raise unsupported("UnknownInterpretation")


def needs_whole_rows(page, layout):
    return (
        page.predictor == "FloatingPoint"
        or shown_in_chunk(page, layout.shown) < page.stored_samples
    )


def needed_bytes(page, layout, chunk):
    _, _, width, height = rect(page, chunk)
    last = (
        page.stored_row_bytes
        if needs_whole_rows(page, layout)
        else row_bytes(page, layout.shown, width)
    )
    return (height - 1) * page.stored_row_bytes + last


def chunk_data(file, page, chunk):
    """Returns the data of a chunk: plain data from its offset on, as far as its rows may reach, or
    what the counted bytes unpack to."""
    at, count = page.offsets[chunk], page.counts[chunk]
    if page.method == 1:
        return file.data[at : at + page.stored_row_bytes * page.chunk_height]
    return unpacked_runs(file.data[at : at + count], max(len(file.data) - at, 0) < count)


def row_numbers(order, size, row):
    return [number(order, row[at : at + size]) for at in range(0, len(row), size)]


def summed(size, stored, row, order):
    """Returns the numbers of a row with the horizontal predictor, as sums."""
    numbers = row_numbers(order, size, row)
    for k in range(stored, len(numbers)):
        numbers[k] = (numbers[k] + numbers[k - stored]) % 256**size
    return numbers


def joined(size, stored, count, row):
    """Returns the numbers of a row with the byte-plane predictor: the sums of its bytes, of which a
    number has one in each part."""
    sums = summed(1, stored, row, "big")
    return [number("big", bytes(sums[j * count + k] for j in range(size))) for k in range(count)]


def numbers_of_row(file, page, row, width):
    """Returns the numbers of the first pixels of a stored row, with its predictor undone; at depths
    below 8 the samples as they are stored."""
    count = width * page.stored_samples
    if page.depth < 8:
        length = (count * page.depth + 7) // 8
        bits = int.from_bytes(row[:length].ljust(length, b"\0"), "big")
        return [
            bits >> (8 * length - page.depth * (k + 1)) & (2**page.depth - 1)
            for k in range(count)
        ]
    size = page.depth // 8
    if page.predictor == "FloatingPoint":
        return joined(size, page.stored_samples, page.chunk_width * page.stored_samples, row)
    row = row[: count * size].ljust(count * size, b"\0")
    if page.predictor == "Horizontal":
        return summed(size, page.stored_samples, row, file.order)
    return row_numbers(file.order, size, row)


def mirror(page, value, limit):
    return limit - 1 - value if page.meaning == "WhiteIsZero" else value


def shown_row(file, page, layout, row, width):
    """Returns the bytes that are shown of a stored row: those of its first pixels, without the
    samples beyond the color."""
    if page.depth < 8:
        length = row_bytes(page, layout.shown, width)
        return bytes(mirror(page, byte, 256) for byte in row.ljust(length, b"\0")[:length])
    numbers, stored, shown = (
        numbers_of_row(file, page, row, width),
        page.stored_samples,
        shown_in_chunk(page, layout.shown),
    )
    kept = [numbers[pixel * stored + sample] for pixel in range(width) for sample in range(shown)]
    return b"".join(
        mirror(page, one, 2**page.depth).to_bytes(page.depth // 8, "little") for one in kept
    )


def limit_fault(size, length, limit):
    if parts(length, size) > limit // size:
        raise limits_exceeded()


def chunk_is_short(file, page, layout, chunk):
    """Returns whether the data of a chunk are too few."""
    needed = needed_bytes(page, layout, chunk)
    if page.method == 1:
        return max(len(file.data) - page.offsets[chunk], 0) < needed
    return len(chunk_data(file, page, chunk)) < needed


def read_planes(file, page, layout, planes, limit):
    """Returns the bytes of some planes of an image as they are shown, one plane after another, or
    raises the first error."""
    _, size = sample_type_of(page)
    limit_fault(size, layout.plane_stride * planes, limit)
    for j in range(page.chunks_of_plane):
        for plane in range(planes):
            chunk = plane * page.chunks_of_plane + j
            form_fault(page, layout, chunk)
            if chunk_is_short(file, page, layout, chunk):
                raise end_of_file()
    out = bytearray(layout.plane_stride * planes)
    for plane in range(planes):
        for j in range(page.chunks_of_plane):
            place_chunk(file, page, layout, plane, j, out)
    return bytes(out)


def place_chunk(file, page, layout, plane, j, out):
    """Puts the rows of a chunk where they are shown."""
    x, y, width, height = rect(page, j)
    data, stored = chunk_data(file, page, plane * page.chunks_of_plane + j), page.stored_row_bytes
    left = x // page.chunk_width * row_bytes(page, layout.shown, page.chunk_width)
    for row in range(height):
        shown = shown_row(file, page, layout, data[row * stored : (row + 1) * stored], width)
        at = plane * layout.plane_stride + (y + row) * layout.row_bytes + left
        out[at : at + len(shown)] = shown


def read_whole(file, page, limit=DEFAULT_LIMIT):
    """Returns the layout of an image, and the bytes of as many of its planes as the limit allows:
    all of them, or the first one."""
    layout = planes_layout(page)
    planes = layout.planes if layout.plane_stride * layout.planes <= limit else 1
    return layout, planes, read_planes(file, page, layout, planes, limit)


# --- chapter 4: opening a file, and its pages


@dataclass
class Item:
    """A directory of the chain: its offset, its fields, and its page or why it has none."""

    offset: int
    directory: Directory
    page: Page = None
    fault: Refused = None


def pages_of(file):
    """Returns an item for each directory of the chain, and the error that ends it, or None."""
    directories, end = chain(file)
    items = []
    for offset, directory in directories:
        one = Item(offset, directory)
        try:
            one.page = page_of(Lookup(file, directory))
        except Refused as fault:
            one.fault = fault
        items.append(one)
    return items, end


def opened_by_header(data):
    """Returns a file with its pages and the end of its chain, whatever its first page is; or raises
    the error of its header."""
    file = open_header(data)
    return file, *pages_of(file)


def opened(data):
    """Returns a file with its pages and the end of its chain; or raises the error of its header, of
    its first directory, or of its first page."""
    file, items, end = opened_by_header(data)
    if not items:
        raise end
    if items[0].fault:
        raise items[0].fault
    return file, items, end


def adler(data):
    return zlib.adler32(data) & 0xFFFFFFFF
