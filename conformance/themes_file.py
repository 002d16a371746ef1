"""The themes of the suite that are about the file and its directories: header, cuts, chain,
entries, numbers, texts, missing fields, limits, counts that wrap."""
from files import (
    ASCII,
    BIG_BE,
    BIG_LE,
    BIG_TYPES,
    BITS,
    BYTE,
    CLASSIC,
    COUNTS,
    FORMAT,
    FORMS,
    IFD,
    IFD8,
    LE,
    LENGTH,
    LONG,
    LONG8,
    MEANING,
    METHOD,
    OFFSETS,
    PLANES,
    PREDICTOR,
    PRIVATE,
    RATIONAL,
    ROWS,
    SAMPLES,
    SHORT,
    SUBIFDS,
    TILE_COUNTS,
    TILE_LENGTH,
    TILE_OFFSETS,
    TILE_WIDTH,
    TYPES,
    WIDTH,
    Field,
    Image,
    Page,
    bare,
    build,
    size_of,
)

VALID, UNUSUAL, MUST, MAY = "valid", "valid but unusual", "must be refused", "may be refused"
FIELDS = "TIFF 6.0 section 2"
BASELINE = "baseline TIFF, which each reader has to read"
BIG = "BigTIFF is a layout of its own, which a reader may lack"
SILENT = "the standard doesn't say what a reader does with such a file"


def of_form(form):
    """Returns the class of a file that is in order, and why: a BigTIFF file may be refused."""
    return (UNUSUAL, BIG) if form.big else (VALID, BASELINE)


def plain(form):
    """Returns a small gray image in order."""
    return build(form, [Image(3, 2, data=bytes(range(1, 7))).page()])


def header_marks():
    for form in FORMS:
        yield (
            f"good-{form.name}",
            plain(form).bytes(),
            "a small gray image, in order",
            form.section,
            *of_form(form),
        )
    for mark in (
        b"\0\0",
        b"IM",
        b"MI",
        b"ii",
        b"mm",
        b"XX",
        b"PK",
        b"\xff\xd8",
        b"I\0",
        b"\0I",
        b"M\0",
        b"\xff\xff",
    ):
        for form in FORMS:
            yield (
                f"mark-{mark.hex()}-{form.name}",
                plain(form).laid(0, mark),
                f"the byte order is {mark.hex()}, neither II nor MM",
                form.section,
                MUST,
                "only II and MM are byte orders",
            )


def header_versions():
    for form in FORMS:
        for version in (0, 1, 40, 41, 44, 42 * 256, 43 * 256, 0x2A2A, 0x7FFF, 0xFFFF, 85):
            yield (
                f"version-{version}-{form.name}",
                plain(form).laid(2, form.pack("H", version)),
                f"the version is {version}, neither 42 nor 43",
                form.section,
                *(
                    (
                        MAY,
                        (
                            "the number is that of another format, of raw pictures, which a reader"
                            " may know"
                        ),
                    )
                    if version == 85
                    else (MUST, "the version says that this is a TIFF file")
                ),
            )
        other = 42 if form.big else 43
        yield (
            f"version-other-{form.name}",
            plain(form).laid(2, form.pack("H", other)),
            f"the version is {other}, and the rest is that of the other kind",
            form.section,
            MAY,
            "its bytes are read as another layout, in which what they mean is chance",
        )


def header_of_big():
    for form in (BIG_LE, BIG_BE):
        for size in (0, 1, 2, 4, 7, 9, 16, 255, 2048, 65535):
            yield (
                f"offset-size-{size}-{form.name}",
                plain(form).laid(4, form.pack("H", size)),
                f"the header says that offsets have {size} bytes",
                "BigTIFF layout",
                MUST,
                "the layout has offsets of 8 bytes alone",
            )
        for zeros in (1, 8, 256, 65535):
            yield (
                f"zeros-{zeros}-{form.name}",
                plain(form).laid(6, form.pack("H", zeros)),
                f"the two zero bytes of the header are {zeros}",
                "BigTIFF layout",
                MAY,
                "the layout asks for 0 there, and doesn't say what a reader does otherwise",
            )


def firsts_in_header(form):
    good, place = plain(form), form.header - form.offset
    for first in range(form.header):
        kind, reason = (
            (MUST, "offset 0 is no directory, and each file has one")
            if first == 0
            else (MAY, SILENT)
        )
        yield (
            f"first-{first}-{form.name}",
            good.laid(place, form.at(first)),
            f"the first directory is said to be at {first}, within the header",
            form.section,
            kind,
            reason,
        )


def firsts_at_end(form):
    good = plain(form)
    end, place = len(good.data), form.header - form.offset
    for name, first in (
        ("last", end - 1),
        ("end", end),
        ("past", end + 1),
        ("far", 2**31),
        ("top", 2 ** (8 * form.offset) - 1),
    ):
        yield (
            f"first-{name}-{form.name}",
            good.laid(place, form.at(first)),
            f"the first directory is said to be at {first} of {end} bytes",
            form.section,
            MUST,
            "the file has no directory there",
        )


def odd_firsts(form):
    good = plain(form)
    end, place = len(good.data), form.header - form.offset
    odd = bytes(good.data) + b"\0" * (1 - end % 2) + bytes(good.data[good.directories[0] :])
    yield (
        f"first-odd-{form.name}",
        odd[:place] + form.at(end + 1 - end % 2) + odd[form.header :],
        "the directory begins at an odd offset",
        form.section,
        MAY,
        "a directory must begin on a word boundary; most readers don't ask for it",
    )


def bytes_behind(form):
    good = plain(form)
    yield (
        f"behind-{form.name}",
        bytes(good.data) + b"bytes behind the last directory",
        "bytes that nothing points to",
        form.section,
        *of_form(form),
    )


def header_firsts():
    for form in FORMS:
        for part in (firsts_in_header, firsts_at_end, odd_firsts, bytes_behind):
            yield from part(form)


def header_short():
    for form in FORMS:
        for length in range(form.header):
            yield (
                f"short-{length}-{form.name}",
                plain(form).bytes()[:length],
                f"the file ends after {length} bytes of its header",
                form.section,
                MUST,
                "the header isn't whole",
            )
    for name, front in (("mark", b"\xef\xbb\xbf"), ("zeros", bytes(8)), ("newline", b"\n")):
        yield (
            f"front-{name}",
            front + plain(LE).bytes(),
            f"{len(front)} bytes before the header",
            FIELDS,
            MUST,
            "a file begins with its byte order",
        )


def cut_bases():
    """Yields the files that are cut after each of their bytes."""
    for form in FORMS:
        yield f"strip-{form.name}", build(form, [bare()])
    yield "directory-first-le", first_directory(LE)
    yield (
        "packed-be",
        build(
            CLASSIC[1],
            [
                Image(9, 3, method=32773, rows=2, data=b"\7" * 9 + bytes(range(18)))
                .page()
                .without(282, 283, 296)
            ],
        ),
    )
    yield "two-pages-le", build(LE, [bare(), bare(2, 2)])


def first_directory(form):
    """Returns a file whose strip lies behind the directory."""
    page = bare()
    strip, page.chunks = page.chunks[0], []
    page.fields.update({OFFSETS: Field(LONG, [0]), COUNTS: Field(LONG, [len(strip)])})
    built = build(form, [page])
    built.data = bytearray(
        built.laid(built.entries[0, OFFSETS] + 8, form.at(len(built.data))) + strip
    )
    return built


def cuts():
    for name, built in cut_bases():
        for length in range(len(built.data)):
            yield (
                f"{name}-{length:03}",
                built.bytes()[:length],
                f"a file of {len(built.data)} bytes that ends after {length}",
                FIELDS,
                MAY if length >= 8 else MUST,
                (
                    "the standard doesn't say what a reader does with a file that ends early"
                    if length >= 8
                    else "the header isn't whole"
                ),
            )


def small(value):
    """Returns a page of one gray sample."""
    return bare(1, 1, bytes([value]))


def chain_orders():
    for form in FORMS:
        for count in (1, 2, 3, 5, 12):
            yield (
                f"pages-{count}-{form.name}",
                build(form, [small(n) for n in range(count)]).bytes(),
                f"{count} pages",
                form.section,
                *of_form(form),
            )
        for name, order in (
            ("reversed", [2, 1, 0]),
            ("middle", [1, 0, 2]),
            ("last", [2]),
            ("skipped", [0, 2]),
        ):
            yield (
                f"order-{name}-{form.name}",
                build(form, [small(n) for n in range(3)], order).bytes(),
                f"three directories, linked as {order}",
                form.section,
                *of_form(form),
            )


def linked(form, links, count=4):
    """Returns a file of some pages, with links that lead from directories by their numbers to
    offsets or directories."""
    built = build(form, [small(n) for n in range(count)])
    for here, there in links.items():
        to = built.directories[there[0]] if isinstance(there, tuple) else there(built)
        built.data = bytearray(built.laid(built.links[here], form.at(to)))
    return built.bytes()


def chain_links():
    cycles = {
        "self": {0: (0,)},
        "self-last": {3: (3,)},
        "first": {3: (0,)},
        "second": {3: (1,)},
        "two": {1: (0,)},
        "inner": {2: (1,)},
    }
    ends = {
        "past": lambda b: len(b.data) + 2,
        "end": lambda b: len(b.data),
        "top": lambda b: 2**32 - 2,
        "header": lambda b: 2,
        "strip": lambda b: b.directories[0] - 2,
        "odd": lambda b: b.directories[1] + 1,
    }
    for form in FORMS:
        for name, links in cycles.items():
            yield (
                f"cycle-{name}-{form.name}",
                linked(form, links),
                "links lead back to a directory of the chain",
                form.section,
                MAY,
                "the standard doesn't speak of cycles; a reader has to end",
            )
        for name, end in ends.items():
            for page in (0, 3):
                yield (
                    f"link-{name}-{page}-{form.name}",
                    linked(form, {page: end}),
                    f"the link of page {page} leads to no directory",
                    form.section,
                    MAY,
                    SILENT,
                )


def bad_pages(form):
    for bad in range(3):
        pages = [small(n) for n in range(3)]
        pages[bad].without(LENGTH)
        yield (
            f"bad-page-{bad}-{form.name}",
            build(form, pages).bytes(),
            f"page {bad} of three has no ImageLength",
            form.section,
            MAY,
            "the other pages are in order, and a reader may read them or refuse the file",
        )


def empty_directories(form):
    empty = build(form, [small(1), Page({})])
    yield (
        f"empty-directory-{form.name}",
        empty.bytes(),
        "the second directory has no entries",
        form.section,
        MAY,
        "a directory has at least one entry",
    )
    yield (
        f"empty-first-{form.name}",
        build(form, [Page({})]).bytes(),
        "the only directory has no entries",
        form.section,
        MUST,
        "an image has sides",
    )


def page_subtypes(form):
    for subtype in (0, 1, 2, 4, 7):
        page = small(2).with_fields({254: Field(LONG, [subtype])})
        sort = (
            of_form(form)
            if subtype in (0, 2)
            else (
                MAY,
                "a reader may take a reduced image or a mask for a part of the page before it",
            )
        )
        yield (
            f"subfile-{subtype}-{form.name}",
            build(form, [small(1), page]).bytes(),
            f"the second page's NewSubfileType is {subtype}",
            "TIFF 6.0 section 8",
            *sort,
        )


def chain_pages():
    for form in FORMS:
        for part in (bad_pages, empty_directories, page_subtypes):
            yield from part(form)


def chain_below():
    for form in FORMS:
        for kind in (LONG, IFD) + ((LONG8, IFD8) if form.big else ()):
            for count in (1, 2):
                built = build(form, [small(n) for n in range(1 + count)], [0])
                page = small(9).with_fields({SUBIFDS: Field(kind, built.directories[1:])})
                both = build(form, [small(n) for n in range(1 + count)] + [page], [1 + count])
                yield (
                    f"below-{TYPES[kind][0]}-{count}-{form.name}",
                    both.bytes(),
                    f"a page with {count} directories below it, which aren't in the chain",
                    "TIFF supplement 1 (SubIFDs)",
                    UNUSUAL,
                    "a reader may pass over directories outside the chain",
                )


def chain():
    yield from chain_orders()
    yield from chain_links()
    yield from chain_pages()
    yield from chain_below()


def header():
    for part in (header_marks, header_versions, header_of_big, header_firsts, header_short):
        yield from part()


def values_of(kind, count):
    """Returns some numbers of a type, among them its largest and its smallest."""
    if kind == ASCII:
        return (b"text of letters and figures 0123456789"[: count - 1] + b"\0") if count else b""
    letter = TYPES[kind][2]
    if letter in "fd":
        return [(-1.5) ** n for n in range(count)]
    bits = 8 * size_of(kind) // TYPES[kind][1]
    ends = (
        [2**bits - 1, 0, 1, 2 ** (bits - 1)]
        if letter.isupper()
        else [-(2 ** (bits - 1)), 2 ** (bits - 1) - 1, -1, 1]
    )
    numbers = [ends[n % 4] for n in range(count * TYPES[kind][1])]
    return numbers


def entry_types():
    for form in FORMS:
        for kind, (name, _, _) in TYPES.items():
            for count in (0, 1, 2, 3, 4, 5, 8, 9):
                fields = {PRIVATE: Field(kind, values_of(kind, count))}
                fits = count * size_of(kind) <= form.offset
                sort = (
                    of_form(form)
                    if kind <= 12 or form.big
                    else (
                        UNUSUAL,
                        (
                            "TIFF 6.0 doesn't have this type; readers should pass over fields of"
                            " types that they don't know"
                        ),
                    )
                )
                sort = sort if count else (MAY, "TIFF 6.0 doesn't speak of a field with no values")
                yield (
                    f"{name}-{count}-{form.name}",
                    build(form, [small(7).with_fields(fields)]).bytes(),
                    (
                        f"a private field of {count} values of type {name},"
                        f" {'within' if fits else 'outside'} its entry"
                    ),
                    form.section,
                    *sort,
                )


def entry_unknown():
    for form in FORMS:
        for kind in (0, 14, 15, 19, 20, 99, 255, 256, 32768, 65535):
            for tag in (PRIVATE, ROWS):
                built = build(
                    form, [small(7).with_fields({tag: Field(kind, b"\1\0\0\0", count=1)})]
                )
                yield (
                    f"unknown-{kind}-{tag}-{form.name}",
                    built.bytes(),
                    f"the entry of tag {tag} has the type {kind}, which isn't one",
                    form.section,
                    UNUSUAL,
                    "readers should pass over fields of types that they don't know",
                )


def unsorted_entries(form):
    page = small(7)
    page.tags = [COUNTS, OFFSETS, WIDTH, MEANING, LENGTH, BITS]
    yield (
        f"unsorted-{form.name}",
        build(form, [page]).bytes(),
        "the entries aren't in ascending order of their tags",
        form.section,
        MAY,
        "entries must be in ascending order; many readers don't ask for it",
    )


def repeated_entries(form):
    for name, front, behind in (("same", 1, 1), ("second-wrong", 1, 9), ("first-wrong", 9, 1)):
        page = small(7).with_fields({WIDTH: Field(SHORT, [front])})
        page.behind = [(WIDTH, Field(SHORT, [behind]))]
        yield (
            f"twice-{name}-{form.name}",
            build(form, [page]).bytes(),
            f"two entries of ImageWidth, {front} and then {behind} behind all others",
            form.section,
            MAY,
            "the standard doesn't speak of two entries of one tag",
        )


def shared_values(form):
    for offset in ("header", "entry", "end", "past"):
        built = build(form, [small(7).with_fields({PRIVATE: Field(LONG, [0], count=5, at=0)})])
        at = {
            "header": 0,
            "entry": built.entries[0, PRIVATE],
            "end": len(built.data),
            "past": len(built.data) + 100,
        }[offset]
        data = built.laid(built.entries[0, PRIVATE] + form.entry - form.offset, form.at(at))
        sort = (
            (MAY, SILENT)
            if offset in ("end", "past")
            else (UNUSUAL, "nothing forbids values that overlap with other parts of a file")
        )
        yield (
            f"values-{offset}-{form.name}",
            data,
            f"the five values of a private field are said to be at the {offset}",
            form.section,
            *sort,
        )


def entry_orders():
    for form in FORMS:
        for part in (unsorted_entries, repeated_entries, shared_values):
            yield from part(form)


def entry_counts():
    for form in FORMS:
        built = build(form, [small(7)])
        entries = len(small(7).fields) + 2
        for name, count in (
            ("none", 0),
            ("one-less", entries - 1),
            ("one-more", entries + 1),
            ("many", 1000),
            ("most", 65535),
        ):
            yield (
                f"entries-{name}-{form.name}",
                built.laid(built.directories[0], form.count(count)),
                f"the directory says it has {count} entries instead of {entries}",
                form.section,
                MAY,
                SILENT,
            )
        if form.big:
            for power in (16, 32, 60, 63):
                yield (
                    f"entries-2to{power}-{form.name}",
                    built.laid(built.directories[0], form.count(2**power)),
                    f"the directory says it has 2^{power} entries",
                    form.section,
                    MAY,
                    SILENT,
                )
        many = small(7).with_fields({40000 + n: Field(SHORT, [n]) for n in range(300)})
        yield (
            f"fields-300-{form.name}",
            build(form, [many]).bytes(),
            "a directory of 308 entries",
            form.section,
            *of_form(form),
        )


def entries():
    for part in (entry_types, entry_unknown, entry_orders, entry_counts):
        yield from part()


# The fields of a page that have a number, and that number in a page of one gray sample of 8 bits.
NUMBERED = {
    WIDTH: 1,
    LENGTH: 1,
    BITS: 8,
    METHOD: 1,
    MEANING: 1,
    OFFSETS: None,
    SAMPLES: 1,
    ROWS: 1,
    COUNTS: 1,
    PLANES: 1,
    PREDICTOR: 1,
    FORMAT: 1,
}
# What each of these is called, for the line of a file.
NAMES = {
    WIDTH: "ImageWidth",
    LENGTH: "ImageLength",
    BITS: "BitsPerSample",
    METHOD: "Compression",
    MEANING: "PhotometricInterpretation",
    OFFSETS: "StripOffsets",
    SAMPLES: "SamplesPerPixel",
    ROWS: "RowsPerStrip",
    COUNTS: "StripByteCounts",
    PLANES: "PlanarConfiguration",
    PREDICTOR: "Predictor",
    FORMAT: "SampleFormat",
    TILE_WIDTH: "TileWidth",
    TILE_LENGTH: "TileLength",
    TILE_OFFSETS: "TileOffsets",
    TILE_COUNTS: "TileByteCounts",
}
# The fields that may be SHORT or LONG; the others are SHORT.
WIDE = (WIDTH, LENGTH, OFFSETS, ROWS, COUNTS)


def type_class(tag, kind, form):
    """Returns the class of a field of a type, and why."""
    if kind == SHORT or kind == LONG and tag in WIDE:
        return of_form(form)
    if kind in (BYTE, LONG) or form.big and kind == LONG8:
        return (
            UNUSUAL,
            "readers are asked to accept BYTE, SHORT and LONG for each field of an unsigned number",
        )
    return MAY, "the field has another type"


def number_types():
    for form in FORMS:
        for tag, value in NUMBERED.items():
            for kind, (name, numbers, letter) in TYPES.items():
                if kind == ASCII or kind in BIG_TYPES and not form.big:
                    continue
                place = 4 if value is None else value
                field = Field(
                    kind,
                    [place, 1] if numbers == 2 else [float(place)] if letter in "fd" else [place],
                )
                page = small(7).with_fields({tag: field})
                if value is None:
                    page.fields[COUNTS] = Field(LONG, [1])
                    page.chunks = []
                yield (
                    f"{NAMES[tag]}-{name}-{form.name}",
                    build(form, [page]).bytes(),
                    f"{NAMES[tag]} is {place}, of type {name}",
                    form.section,
                    *type_class(tag, kind, form),
                )


def value_class(tag, value):
    """Returns the class of a page of one gray sample whose field has another value, and why."""
    if tag in (WIDTH, LENGTH) and value == 0:
        return MUST, "an image has a width and a length"
    if tag in (ROWS, COUNTS) and value > 1:
        return UNUSUAL, "more rows or more bytes than there are don't change what is read"
    return MAY, "the value isn't one that the page has"


def number_values():
    cases = {
        WIDTH: (0, 2, 65535),
        LENGTH: (0, 2, 65535),
        BITS: (0, 1, 2, 255),
        METHOD: (0, 65535),
        MEANING: (4, 7, 11, 65535),
        SAMPLES: (0, 2, 65535),
        ROWS: (0, 2, 65535),
        COUNTS: (0, 2, 65535),
        PLANES: (0, 2, 3, 65535),
        PREDICTOR: (0, 2, 3, 4, 65535),
        FORMAT: (0, 2, 3, 4, 5, 65535),
    }
    for form in FORMS:
        for tag, values in cases.items():
            for value in values:
                page = small(7).with_fields({tag: Field(SHORT, [value])})
                yield (
                    f"{NAMES[tag]}-is-{value}-{form.name}",
                    build(form, [page]).bytes(),
                    f"a page of one gray sample, but {NAMES[tag]} is {value}",
                    "TIFF 6.0 section 8",
                    *value_class(tag, value),
                )


def number_lists():
    for form in FORMS:
        for tag in (
            WIDTH,
            LENGTH,
            METHOD,
            MEANING,
            SAMPLES,
            ROWS,
            PLANES,
            PREDICTOR,
            BITS,
            FORMAT,
            OFFSETS,
            COUNTS,
        ):
            for count in (0, 2, 3):
                page = small(7)
                page.fields[tag] = Field(
                    LONG if tag in WIDE else SHORT, [NUMBERED[tag] or 8] * count
                )
                yield (
                    f"{NAMES[tag]}-times-{count}-{form.name}",
                    build(form, [page]).bytes(),
                    f"{NAMES[tag]} has {count} values instead of one",
                    "TIFF 6.0 section 8",
                    MAY,
                    "the count isn't that of the field",
                )


def numbers():
    yield from number_types()
    yield from number_values()
    yield from number_lists()


TEXTS = {
    "empty": b"\0",
    "one": b"a\0",
    "three": b"abc\0",
    "four": b"abcd\0",
    "long": b"a longer text, with words\0",
    "no-end-short": b"abc",
    "no-end-long": b"abcdefghijkl",
    "no-end-one": b"a",
    "two-texts": b"one text\0another\0",
    "two-short": b"a\0b\0",
    "zeros": b"\0\0\0\0",
    "many-zeros": bytes(12),
    "front-zero": b"\0abcdefghij\0",
    "front-zero-short": b"\0ab\0",
    "behind-zeros": b"text\0\0\0\0\0\0",
    "latin": b"caf\xe9 and cr\xe8me\0",
    "latin-short": b"\xe9\0",
    "utf8": "naïve café\0".encode(),
    "utf8-short": "é\0".encode(),
    "broken-utf8": b"broken \xc3\x28 text\0",
    "surrogate": b"half \xed\xa0\x80 pair\0",
    "overlong": b"overlong \xc0\xaf\0",
    "newlines": b"two\r\nlines\n\0",
    "control": b"\1\2\3\x1b\x7f text\0",
    "quotes": b'a "quoted" \\ word\0',
    "apostrophe": b"it's one\0",
}


def texts():
    for form in FORMS:
        for name, text in TEXTS.items():
            page = small(7).with_fields({270: Field(ASCII, text)})
            well = text.endswith(b"\0") and all(byte < 128 for byte in text)
            sort = (
                of_form(form)
                if well
                else (
                    MAY,
                    (
                        "a text is 7-bit ASCII and ends in a zero byte; what a reader does"
                        " otherwise isn't said"
                    ),
                )
            )
            yield (
                f"{name}-{form.name}",
                build(form, [page]).bytes(),
                f"ImageDescription is {text!r:.60}",
                FIELDS,
                *sort,
            )


def missing_fields(form):
    tile = Image(16, 16, tile=(16, 16)).page
    needed = {WIDTH, LENGTH, OFFSETS, TILE_OFFSETS}
    for shape, page in (("strip", lambda: Image(3, 2).page()), ("tile", tile)):
        tags = sorted(build(form, [page()]).entries)
        for _, tag in tags:
            built = build(form, [page()])
            at = built.entries[0, tag]
            data = built.laid(at + 2, form.pack("H", 0))
            kind, reason = (
                (MUST, "without this field there is no image")
                if tag in needed
                else (MAY, "the field is required, or has a default that may not be what was meant")
            )
            yield (
                f"{shape}-{tag}-{form.name}",
                data,
                (
                    f"an image of a {shape}, whose field {NAMES.get(tag, tag)} has no known"
                    " type, and so is missing"
                ),
                "TIFF 6.0 section 8",
                kind,
                reason,
            )


def mixed_fields(form):
    tile = Image(16, 16, tile=(16, 16)).page
    for name, mixed in (
        ("both", (OFFSETS, COUNTS, TILE_OFFSETS, TILE_COUNTS)),
        ("strip-and-tile", (OFFSETS, TILE_COUNTS)),
        ("three", (OFFSETS, COUNTS, TILE_OFFSETS)),
        ("no-counts", (OFFSETS,)),
    ):
        page = tile()
        page.chunks, page.fields[ROWS] = [], Field(SHORT, [16])
        page.with_fields(
            {tag: Field(LONG, [8 if tag in (OFFSETS, TILE_OFFSETS) else 256]) for tag in mixed}
        )
        yield (
            f"mixed-{name}-{form.name}",
            build(form, [page]).bytes() + bytes(300),
            f"a page with the fields {', '.join(NAMES[tag] for tag in mixed)}",
            "TIFF 6.0 section 15",
            MAY,
            "a page has strips or tiles, not both",
        )


def missing():
    for form in FORMS:
        for part in (missing_fields, mixed_fields):
            yield from part(form)


def claims():
    """Yields sides and what they are called, of images of which a file has a few bytes."""
    for width, height in (
        (1, 2**28),
        (2**28, 1),
        (16384, 16384),
        (16385, 16384),
        (65535, 65535),
        (65536, 65536),
        (2**31 - 1, 1),
        (2**31, 1),
        (2**32 - 1, 1),
        (1, 2**32 - 1),
        (2**31, 2),
        (2**31 - 1, 2**31 - 1),
        (2**32 - 1, 2**32 - 1),
        (2**16, 2**16 + 1),
        (2**31, 2**33 // 2 - 1),
    ):
        yield f"{width}x{height}", {WIDTH: Field(LONG, [width]), LENGTH: Field(LONG, [height])}


def claims_of_few_bytes(form):
    for name, fields in claims():
        for method in (1, 32773):
            for bits in (1, 8, 16, 64):
                page = bare().with_fields(
                    {**fields, METHOD: Field(SHORT, [method]), BITS: Field(SHORT, [bits])}
                )
                yield (
                    f"{name}-{bits}-{method}-{form.name}",
                    build(form, [page]).bytes(),
                    f"an image of {name} samples of {bits} bits in a strip of 6 bytes",
                    "TIFF 6.0 section 8",
                    MAY,
                    "the file doesn't have these samples; a reader has to end within its limits",
                )


def claims_of_few_chunks(form):
    for name, fields in claims():
        page = bare().with_fields({**fields, ROWS: Field(LONG, [1])})
        yield (
            f"{name}-row-strips-{form.name}",
            build(form, [page]).bytes(),
            f"an image of {name} samples that lists one strip of one row",
            "TIFF 6.0 section 8",
            MAY,
            "the page lists fewer strips than its sides ask for",
        )
        page = Page(
            {
                **bare().fields,
                **fields,
                TILE_WIDTH: Field(LONG, [16]),
                TILE_LENGTH: Field(LONG, [16]),
            },
            [bytes(256)],
            (TILE_OFFSETS, TILE_COUNTS),
        )
        yield (
            f"{name}-tiles-{form.name}",
            build(form, [page]).bytes(),
            f"an image of {name} samples that lists one tile of 16 by 16",
            "TIFF 6.0 section 15",
            MAY,
            "the page lists fewer tiles than its sides ask for",
        )


def limits():
    for form in (LE, BIG_LE):
        for part in (claims_of_few_bytes, claims_of_few_chunks):
            yield from part(form)


def count_wraps():
    for form in FORMS:
        top = 2 ** (8 * form.offset)
        counts = {
            "top": top - 1,
            "half": top // 2,
            "quarter": top // 4,
            "quarter-and-one": top // 4 + 1,
            "eighth": top // 8,
            "eighth-and-one": top // 8 + 1,
            "eighth-and-two": top // 8 + 2,
        }
        for kind in (BYTE, ASCII, SHORT, LONG, RATIONAL, 12):
            for name, count in counts.items():
                field = Field(kind, b"\1\0\0\0", count=count, at=8)
                yield (
                    f"count-{TYPES[kind][0]}-{name}-{form.name}",
                    build(form, [small(7).with_fields({PRIVATE: field})]).bytes(),
                    (
                        f"a private field of {count} values of type {TYPES[kind][0]}, whose bytes a"
                        f" product of {8 * form.offset} bits may not hold"
                    ),
                    form.section,
                    MAY,
                    "the values aren't in the file; a reader may pass over a private field",
                )


def place_wraps():
    for form in FORMS:
        top = 2 ** (8 * form.offset)
        for name, offset, count in (
            ("offset", top - 1, 6),
            ("offset-two", top - 2, 6),
            ("sum", top - 3, 6),
            ("count", 8, top - 1),
            ("count-sum", 8, top - 4),
            ("both", top - 1, top - 1),
            ("half", top // 2, top // 2),
        ):
            kind = LONG8 if form.big else LONG
            page = Page(
                {**bare().fields, OFFSETS: Field(kind, [offset]), COUNTS: Field(kind, [count])}
            )
            yield (
                f"strip-{name}-{form.name}",
                build(form, [page]).bytes(),
                f"a strip of {count} bytes at {offset}, the sum of which may wrap",
                form.section,
                MAY,
                "the strip isn't within the file, or its count is more than the file has",
            )
        for name, first in (("count", top - 2), ("entries", top - form.entry), ("link", top - 100)):
            data = plain(form).laid(form.header - form.offset, form.at(first))
            yield (
                f"directory-{name}-{form.name}",
                data,
                f"the first directory is at {first}, behind which its entries would wrap",
                form.section,
                MUST,
                "the file has no directory there",
            )


def wraps():
    yield from count_wraps()
    yield from place_wraps()


THEMES = {
    "header": header,
    "cuts": cuts,
    "chain": chain,
    "entries": entries,
    "numbers": numbers,
    "texts": texts,
    "missing": missing,
    "limits": limits,
    "wraps": wraps,
}
