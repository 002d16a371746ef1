"""How a TIFF file is put together byte by byte: numbers, fields, directories, chunks. No encoder is
used.

TIFF 6.0 section 2 has the layout of a classic file, and the BigTIFF layout that of a file with
64-bit offsets.
"""
import hashlib
import struct

BYTE, ASCII, SHORT, LONG, RATIONAL, SBYTE, UNDEFINED, SSHORT = 1, 2, 3, 4, 5, 6, 7, 8
SLONG, SRATIONAL, FLOAT, DOUBLE, IFD, LONG8, SLONG8, IFD8 = 9, 10, 11, 12, 13, 16, 17, 18

# The types: the name of each, how many numbers a value has, and their letter for `struct`.
TYPES = {
    BYTE: ("BYTE", 1, "B"),
    ASCII: ("ASCII", 1, "B"),
    SHORT: ("SHORT", 1, "H"),
    LONG: ("LONG", 1, "I"),
    RATIONAL: ("RATIONAL", 2, "I"),
    SBYTE: ("SBYTE", 1, "b"),
    UNDEFINED: ("UNDEFINED", 1, "B"),
    SSHORT: ("SSHORT", 1, "h"),
    SLONG: ("SLONG", 1, "i"),
    SRATIONAL: ("SRATIONAL", 2, "i"),
    FLOAT: ("FLOAT", 1, "f"),
    DOUBLE: ("DOUBLE", 1, "d"),
    IFD: ("IFD", 1, "I"),
    LONG8: ("LONG8", 1, "Q"),
    SLONG8: ("SLONG8", 1, "q"),
    IFD8: ("IFD8", 1, "Q"),
}
# The types that BigTIFF adds.
BIG_TYPES = (LONG8, SLONG8, IFD8)

WIDTH, LENGTH, BITS, METHOD, MEANING, OFFSETS, SAMPLES, ROWS, COUNTS = (
    256,
    257,
    258,
    259,
    262,
    273,
    277,
    278,
    279,
)
PLANES, PREDICTOR, COLORS, TILE_WIDTH, TILE_LENGTH, TILE_OFFSETS, TILE_COUNTS = (
    284,
    317,
    320,
    322,
    323,
    324,
    325,
)
EXTRA, FORMAT, SUBSAMPLING, SUBIFDS, PRIVATE = 338, 339, 530, 330, 65000


def size_of(kind):
    """Returns how many bytes a value of a type has; a type that isn't known counts as one byte."""
    _, numbers, letter = TYPES.get(kind, ("", 1, "B"))
    return numbers * struct.calcsize("<" + letter)


class Form:
    """A byte order and a kind of file."""

    def __init__(self, name, order, big):
        self.name, self.order, self.big = name, order, big
        self.header, self.offset, self.entry = (16, 8, 20) if big else (8, 4, 12)
        self.section = "BigTIFF layout" if big else "TIFF 6.0 section 2"

    def pack(self, letters, *numbers):
        return struct.pack(self.order + letters, *numbers)

    def at(self, offset):
        """Returns the bytes of an offset."""
        return self.pack("Q" if self.big else "I", offset)

    def count(self, entries):
        """Returns the bytes of a directory's number of entries."""
        return self.pack("Q" if self.big else "H", entries)

    def start(self, first):
        """Returns a header with the offset of the first directory."""
        mark = b"II" if self.order == "<" else b"MM"
        return mark + (
            self.pack("HHHQ", 43, 8, 0, first) if self.big else self.pack("HI", 42, first)
        )


LE, BE, BIG_LE, BIG_BE = (
    Form("le", "<", False),
    Form("be", ">", False),
    Form("bigle", "<", True),
    Form("bigbe", ">", True),
)
CLASSIC, FORMS = [LE, BE], [LE, BE, BIG_LE, BIG_BE]


class Field:
    """The type of a field and its numbers, or its bytes; the count in its entry and the offset of
    its values, if they don't follow from these."""

    def __init__(self, kind, numbers, count=None, at=None):
        self.kind, self.numbers, self.entry_count, self.at = kind, numbers, count, at

    def bytes(self, form):
        if isinstance(self.numbers, bytes):
            return self.numbers
        return form.pack(f"{len(self.numbers)}{TYPES[self.kind][2]}", *self.numbers)

    def count(self, form):
        if self.entry_count is not None:
            return self.entry_count
        return len(self.bytes(form)) // size_of(self.kind)


class Page:
    """The fields of a page by their tags, and its chunks, whose offsets and lengths go into the
    fields with two tags."""

    def __init__(self, fields, chunks=(), lists=(OFFSETS, COUNTS), kinds=(LONG, LONG)):
        self.fields, self.chunks, self.lists, self.kinds = dict(fields), list(chunks), lists, kinds
        # the order of the tags in the directory, and entries behind those of the fields, if they
        # aren't sorted by their tags
        self.tags, self.behind = None, []

    def with_fields(self, more):
        self.fields.update(more)
        return self

    def without(self, *tags):
        for tag in tags:
            self.fields.pop(tag, None)
        return self

    def place(self, data):
        """Appends the chunks to a file, and notes where they are in fields that aren't given."""
        offsets = []
        for chunk in self.chunks:
            offsets.append(len(data))
            data += chunk + b"\0" * (len(chunk) % 2)
        for tag, kind, numbers in zip(
            self.lists, self.kinds, (offsets, [len(chunk) for chunk in self.chunks])
        ):
            if self.chunks and tag not in self.fields:
                self.fields[tag] = Field(kind, numbers)


class Built:
    """A file, with the offsets of its directories, of its entries by page and tag, and of their
    values that don't lie in the entry."""

    def __init__(self):
        self.data, self.directories, self.entries, self.values, self.links = (
            bytearray(),
            [],
            {},
            {},
            [],
        )

    def bytes(self):
        return bytes(self.data)

    def laid(self, at, over):
        """Returns the file with some bytes laid over its own."""
        return bytes(self.data[:at] + over + self.data[at + len(over) :])


def add_entry(built, form, key, tag, field):
    """Returns the bytes of an entry, and appends its values to the file if they don't fit."""
    data = field.bytes(form)
    value = data.ljust(form.offset, b"\0")
    if field.at is not None:
        value = form.at(field.at)
    elif len(data) > form.offset:
        built.values[key] = len(built.data)
        value = form.at(len(built.data))
        built.data += data + b"\0" * (len(data) % 2)
    return form.pack("HHQ" if form.big else "HHI", tag, field.kind, field.count(form)) + value


def add_directory(built, form, number, page):
    """Appends the chunks, the values and the directory of a page, with no link yet."""
    page.place(built.data)
    tags = page.tags or sorted(page.fields)
    rows = [((number, tag), tag, page.fields[tag]) for tag in tags]
    rows += [((number, tag, "behind"), tag, field) for tag, field in page.behind]
    entries = [add_entry(built, form, *row) for row in rows]
    at = len(built.data)
    built.directories.append(at)
    built.data += form.count(len(entries))
    for (key, _, _), entry in zip(rows, entries):
        built.entries[key] = len(built.data)
        built.data += entry
    built.links.append(len(built.data))
    built.data += form.at(0)
    built.data += b"\0" * (len(built.data) % 2)


def build(form, pages, chain=None):
    """Returns a file of pages, which are linked in the order of these numbers of them, or one after
    another."""
    built = Built()
    built.data += bytes(form.header)
    for number, page in enumerate(pages):
        add_directory(built, form, number, page)
    chain = list(range(len(pages))) if chain is None else chain
    built.data[: form.header] = form.start(built.directories[chain[0]])
    for here, there in zip(chain, chain[1:]):
        at = built.links[here]
        built.data[at : at + form.offset] = form.at(built.directories[there])
    return built


def noise(name, length):
    """Returns bytes that depend on a name alone."""
    blocks = (hashlib.sha256(f"{name} {at}".encode()).digest() for at in range(length // 32 + 1))
    return b"".join(blocks)[:length]


def packed(data):
    """Returns PackBits data: runs of three equal bytes and more as runs, and the others as they
    are."""
    out, plain, at = b"", b"", 0
    while at < len(data):
        end = at
        while end < len(data) and data[end] == data[at] and end - at < 128:
            end += 1
        if end - at > 2 or len(plain) == 128:
            out += literal(plain)
            plain = b""
        if end - at > 2:
            out += run(data[at], end - at)
            at = end
        else:
            plain += data[at : at + 1]
            at += 1
    return out + literal(plain)


def crosses_rows(data, row_bytes):
    """Returns whether a block of PackBits data goes on behind the end of a row of so many bytes."""
    at = shown = 0
    while at < len(data):
        head = data[at]
        count = head + 1 if head < 128 else 257 - head if head > 128 else 0
        if count and shown // row_bytes != (shown + count - 1) // row_bytes:
            return True
        at += 1 + (count if head < 128 else head > 128)
        shown += count
    return False


def literal(data):
    """Returns a PackBits block of bytes as they are; none of no bytes."""
    return bytes([len(data) - 1]) + data if data else b""


def run(byte, count):
    """Returns a PackBits block of one byte, some times."""
    return bytes([257 - count, byte])


class Image:
    """What an image is, and how it is stored; each part has a common value."""

    def __init__(self, width=5, height=4, **parts):
        self.width, self.height = width, height
        self.bits, self.samples, self.meaning, self.format, self.planes = 8, 1, 1, None, 1
        self.method, self.predictor, self.rows, self.tile, self.extra, self.data, self.name = (
            1,
            None,
            None,
            None,
            None,
            None,
            "",
        )
        # whether the rows of PackBits data are packed one by one, as TIFF 6.0 section 9 has it
        self.by_rows = False
        for part, value in parts.items():
            assert hasattr(self, part), part
            setattr(self, part, value)

    def chunk(self):
        """Returns the width of a chunk, and the heights of those of a plane."""
        if self.tile:
            across, down = -(-self.width // self.tile[0]), -(-self.height // self.tile[1])
            return self.tile[0], [self.tile[1]] * (across * down)
        rows = self.rows or self.height
        return self.width, [min(rows, self.height - at) for at in range(0, self.height, rows)]

    def row_bytes(self):
        """Returns how many bytes a row of a chunk has."""
        return (self.chunk()[0] * self.bits * (1 if self.planes == 2 else self.samples) + 7) // 8

    def stored(self, data):
        """Returns a chunk of these bytes as it is stored."""
        if self.method != 32773:
            return data
        step = self.row_bytes() if self.by_rows else len(data)
        return b"".join(packed(data[at : at + step]) for at in range(0, len(data), step))

    def chunks(self):
        """Returns the chunks of all planes, of given bytes or of bytes that depend on what the
        image is."""
        sizes = [rows * self.row_bytes() for rows in self.chunk()[1]] * (
            self.samples if self.planes == 2 else 1
        )
        data, chunks = self.data, []
        if data is None:
            data = noise(
                f"{self.name} {self.width} {self.height} {self.bits} {self.samples}", sum(sizes)
            )
        for size in sizes:
            chunks.append(self.stored(data[:size]))
            data = data[size:]
        return chunks

    def page(self):
        """Returns the page of the image, with the fields that TIFF 6.0 requires and those that
        differ from the common values."""
        fields = {
            WIDTH: Field(SHORT, [self.width]),
            LENGTH: Field(SHORT, [self.height]),
            BITS: Field(SHORT, [self.bits] * self.samples),
            METHOD: Field(SHORT, [self.method]),
            MEANING: Field(SHORT, [self.meaning]),
            SAMPLES: Field(SHORT, [self.samples]),
            282: Field(RATIONAL, [72, 1]),
            283: Field(RATIONAL, [72, 1]),
            296: Field(SHORT, [2]),
        }
        if self.tile:
            fields.update(
                {
                    TILE_WIDTH: Field(SHORT, [self.tile[0]]),
                    TILE_LENGTH: Field(SHORT, [self.tile[1]]),
                }
            )
        else:
            fields[ROWS] = Field(SHORT, [self.rows or self.height])
        if self.planes == 2:
            fields[PLANES] = Field(SHORT, [2])
        if self.predictor:
            fields[PREDICTOR] = Field(SHORT, [self.predictor])
        if self.extra is not None:
            fields[EXTRA] = Field(SHORT, self.extra)
        if self.format:
            fields[FORMAT] = Field(SHORT, [self.format] * self.samples)
        if self.meaning == 6:
            fields[SUBSAMPLING] = Field(SHORT, [1, 1])
        if self.meaning == 3:
            fields[COLORS] = Field(
                SHORT, [n * 257 % 65536 for n in range(3 * 2 ** min(self.bits, 8))]
            )
        lists = (TILE_OFFSETS, TILE_COUNTS) if self.tile else (OFFSETS, COUNTS)
        return Page(fields, self.chunks(), lists)


def bare(width=3, height=2, chunk=None):
    """Returns a gray page of the fewest fields: the sides, the bits, the meaning, and one strip."""
    fields = {
        WIDTH: Field(SHORT, [width]),
        LENGTH: Field(SHORT, [height]),
        BITS: Field(SHORT, [8]),
        MEANING: Field(SHORT, [1]),
    }
    return Page(fields, [bytes(range(1, width * height + 1)) if chunk is None else chunk])
