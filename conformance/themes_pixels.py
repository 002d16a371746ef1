"""The themes of the suite that are about samples: strips, tiles, planes, depths, colors, packed
data, predictors, methods."""
from files import (
    BITS,
    BIG_LE,
    CLASSIC,
    COUNTS,
    EXTRA,
    FORMAT,
    FORMS,
    LONG,
    LONG8,
    METHOD,
    OFFSETS,
    ROWS,
    SAMPLES,
    SHORT,
    SUBSAMPLING,
    TILE_COUNTS,
    TILE_LENGTH,
    TILE_OFFSETS,
    TILE_WIDTH,
    BYTE,
    TYPES,
    Field,
    Image,
    build,
    crosses_rows,
    literal,
    noise,
    run,
)
from themes_file import BASELINE, BIG, MAY, UNUSUAL, VALID

EXTENSION = "an extension of TIFF 6.0 part 2, which a reader may lack"
NO_DEPTH = "the standard names no image of this depth, which a reader may lack"
OVER_ROWS = (
    "each row is packed by itself, and a block that runs over the end of a row is against that;"
    " most readers take it"
)
MISFIT = "the fields don't fit each other, and the standard doesn't say which of them counts"


def sort_of(form, baseline=True, reason=EXTENSION):
    """Returns the class of an image in order, and why: one that isn't baseline, or is in a BigTIFF
    file, may be refused."""
    if form.big:
        return UNUSUAL, BIG
    return (VALID, BASELINE) if baseline else (UNUSUAL, reason)


def strip_sides():
    for form in FORMS:
        for width in (1, 2, 3, 7, 8, 9):
            for height in (1, 2, 3, 5):
                for rows in sorted({1, 2, height}):
                    if rows <= height:
                        yield (
                            f"{width}x{height}-rows-{rows}-{form.name}",
                            build(form, [Image(width, height, rows=rows).page()]).bytes(),
                            f"{width} by {height} gray samples in strips of {rows} rows",
                            "TIFF 6.0 section 3",
                            *sort_of(form),
                        )


def strip_rows():
    for form in FORMS:
        for name, rows in (
            ("more", 100),
            ("2to31", 2**31),
            ("infinite", 2**32 - 1),
            ("zero", 0),
        ):
            page = Image(4, 3).page().with_fields({ROWS: Field(LONG, [rows])})
            sort = (MAY, "a strip has rows") if rows == 0 else sort_of(form)
            yield (
                f"rows-{name}-{form.name}",
                build(form, [page]).bytes(),
                f"one strip of 3 rows, and RowsPerStrip is {rows}",
                "TIFF 6.0 section 8",
                *sort,
            )
        yield (
            f"rows-none-{form.name}",
            build(form, [Image(4, 3).page().without(ROWS)]).bytes(),
            "one strip, and no RowsPerStrip, whose default is one strip",
            "TIFF 6.0 section 8",
            *sort_of(form),
        )


def list_types(form):
    image = Image(4, 6, rows=2)
    for name, kinds in (
        ("short", (SHORT, SHORT)),
        ("long-short", (LONG, SHORT)),
        ("short-long", (SHORT, LONG)),
        ("long8", (LONG8, LONG8)),
    ):
        if name == "long8" and not form.big:
            continue
        page = image.page()
        page.kinds = kinds
        yield (
            f"lists-{name}-{form.name}",
            build(form, [page]).bytes(),
            f"three strips, whose offsets and counts are of types {name}",
            "TIFF 6.0 section 8",
            *sort_of(form),
        )


def list_places(form):
    image = Image(4, 6, rows=2)
    for name, offsets in (
        ("backwards", (2, 1, 0)),
        ("same", (0, 0, 0)),
        ("swapped", (1, 0, 2)),
        ("overlap", (0, 0.5, 1)),
    ):
        page = image.page()
        page.fields[OFFSETS] = Field(LONG, [form.header + int(8 * n) for n in offsets])
        sort = (
            sort_of(form)
            if name in ("backwards", "swapped")
            else (UNUSUAL, "nothing forbids strips that share bytes")
        )
        yield (
            f"strips-{name}-{form.name}",
            build(form, [page]).bytes(),
            f"three strips, which are in the file {name}",
            "TIFF 6.0 section 8",
            *sort,
        )


def list_lengths(form):
    image = Image(4, 6, rows=2)
    for name, count in (("fewer", 2), ("more", 4), ("one", 1), ("none", 0)):
        page = image.page()
        page.fields.update(
            {
                OFFSETS: Field(LONG, [form.header + 8 * n for n in range(count)]),
                COUNTS: Field(LONG, [8] * count),
            }
        )
        yield (
            f"listed-{name}-{form.name}",
            build(form, [page]).bytes(),
            f"three strips, of which {count} are listed",
            "TIFF 6.0 section 8",
            MAY,
            MISFIT,
        )


def unlike_lists(form):
    image = Image(4, 6, rows=2)
    for name, number in (("offsets", COUNTS), ("counts", OFFSETS)):
        page = image.page()
        page.fields[number] = Field(LONG, [8] * 2)
        yield (
            f"more-{name}-{form.name}",
            build(form, [page]).bytes(),
            f"three {name}, and two of the others",
            "TIFF 6.0 section 8",
            MAY,
            MISFIT,
        )


def strip_lists():
    for form in FORMS:
        for part in (list_types, list_places, list_lengths, unlike_lists):
            yield from part(form)


def counted_bytes(form):
    for name, count in (
        ("less", 11),
        ("half", 6),
        ("zero", 0),
        ("more", 13),
        ("far", 100),
        ("most", 2**32 - 1),
    ):
        page = Image(4, 3).page().with_fields({COUNTS: Field(LONG, [count])})
        sort = (
            (UNUSUAL, "more bytes than the rows need may be counted")
            if name == "more"
            else (MAY, "the count isn't that of the strip's bytes")
        )
        yield (
            f"counted-{name}-{form.name}",
            build(form, [page]).bytes(),
            f"a strip of 12 bytes, of which {count} are counted",
            "TIFF 6.0 section 8",
            *sort,
        )


def strip_places(form):
    for name, offset in (
        ("header", 0),
        ("odd", None),
        ("end", -12),
        ("past", -11),
        ("behind", 0x7FFFFFFF),
    ):
        page = Image(4, 3).page()
        end = len(build(form, [Image(4, 3).page()]).data)
        page.fields[OFFSETS] = Field(
            LONG, [form.header + 1 if offset is None else end + offset if offset < 0 else offset]
        )
        sort = (
            (MAY, "the strip isn't whole in the file")
            if name in ("past", "behind")
            else sort_of(form)
        )
        sort = (
            (UNUSUAL, "nothing forbids a strip within other parts of the file")
            if name in ("header", "end")
            else sort
        )
        yield (
            f"placed-{name}-{form.name}",
            build(form, [page]).bytes(),
            f"a strip of 12 bytes at offset {page.fields[OFFSETS].numbers[0]} of {end}",
            "TIFF 6.0 section 8",
            *sort,
        )


def strip_counts():
    for form in FORMS:
        for part in (counted_bytes, strip_places):
            yield from part(form)


def strips():
    for part in (strip_sides, strip_rows, strip_lists, strip_counts):
        yield from part()


def tile_sides():
    for form in FORMS:
        for width, height in ((1, 1), (15, 17), (16, 16), (17, 15), (20, 20), (33, 31), (48, 16)):
            for tile in ((16, 16), (32, 16), (16, 32)):
                yield (
                    f"{width}x{height}-tile-{tile[0]}x{tile[1]}-{form.name}",
                    build(form, [Image(width, height, tile=tile).page()]).bytes(),
                    f"{width} by {height} gray samples in tiles of {tile[0]} by {tile[1]}",
                    "TIFF 6.0 section 15",
                    *sort_of(form, False),
                )
        for tile in ((1, 1), (3, 2), (8, 8), (5, 7), (17, 1), (100, 100)):
            yield (
                f"small-{tile[0]}x{tile[1]}-{form.name}",
                build(form, [Image(6, 5, tile=tile).page()]).bytes(),
                f"6 by 5 gray samples in tiles of {tile[0]} by {tile[1]}",
                "TIFF 6.0 section 15",
                MAY,
                "the sides of a tile are multiples of 16",
            )


def wrong_tile_sides(form):
    for name, fields in (
        ("no-width", {TILE_WIDTH: 0}),
        ("no-length", {TILE_LENGTH: 0}),
        ("wide", {TILE_WIDTH: 2**32 - 16}),
        ("long", {TILE_LENGTH: 2**32 - 16}),
    ):
        page = (
            Image(20, 20, tile=(16, 16))
            .page()
            .with_fields({tag: Field(LONG, [side]) for tag, side in fields.items()})
        )
        yield (
            f"side-{name}-{form.name}",
            build(form, [page]).bytes(),
            f"four tiles of 16 by 16, and a side of a tile is {[*fields.values()][0]}",
            "TIFF 6.0 section 15",
            MAY,
            MISFIT,
        )


def listed_tiles(form):
    for name, count in (("fewer", 3), ("more", 5), ("one", 1)):
        page = Image(20, 20, tile=(16, 16)).page()
        page.fields.update(
            {
                TILE_OFFSETS: Field(LONG, [form.header + 256 * n for n in range(count)]),
                TILE_COUNTS: Field(LONG, [256] * count),
            }
        )
        yield (
            f"listed-{name}-{form.name}",
            build(form, [page]).bytes(),
            f"four tiles, of which {count} are listed",
            "TIFF 6.0 section 15",
            MAY,
            MISFIT,
        )


def short_tiles(form):
    for name, size in (("cut", 255), ("shown", 16 * 3 + 4), ("half", 128)):
        page = Image(20, 20, tile=(16, 16)).page()
        page.chunks[3] = page.chunks[3][:size]
        yield (
            f"last-{name}-{form.name}",
            build(form, [page]).bytes(),
            f"four tiles, of which the last has {size} bytes and not 256",
            "TIFF 6.0 section 15",
            MAY,
            "a tile is stored whole, with its padding",
        )


def tile_faults():
    for form in FORMS:
        for part in (wrong_tile_sides, listed_tiles, short_tiles):
            yield from part(form)


def tiles_of_strips():
    for form in CLASSIC:
        for bits in (1, 4, 16, 32):
            for samples, meaning in ((1, 1), (3, 2)):
                if bits >= 8 or samples == 1:
                    image = Image(
                        20, 18, bits=bits, samples=samples, meaning=meaning, tile=(16, 16)
                    )
                    yield (
                        f"bits-{bits}-samples-{samples}-{form.name}",
                        build(form, [image.page()]).bytes(),
                        f"20 by 18 pixels of {samples} samples of {bits} bits in tiles",
                        "TIFF 6.0 section 15",
                        *sort_of(form, False),
                    )
        page = Image(20, 18, tile=(16, 16)).page()
        page.lists = (OFFSETS, COUNTS)
        yield (
            f"in-strip-fields-{form.name}",
            build(form, [page]).bytes(),
            "tiles, whose offsets are in the fields of strips",
            "TIFF 6.0 section 15",
            MAY,
            "tiles are listed in fields of their own",
        )


def tiles():
    for part in (tile_sides, tile_faults, tiles_of_strips):
        yield from part()


def planes_of_depths(form):
    for bits in (8, 16, 32):
        for samples, meaning, extra in (
            (2, 1, [0]),
            (3, 2, None),
            (4, 2, [1]),
            (4, 5, None),
            (5, 5, [0]),
        ):
            for rows, tile in ((2, None), (5, None), (None, (16, 16))):
                image = Image(
                    7,
                    5,
                    bits=bits,
                    samples=samples,
                    meaning=meaning,
                    extra=extra,
                    planes=2,
                    rows=rows,
                    tile=tile,
                )
                how = f"tiles of {tile}" if tile else f"strips of {rows} rows"
                yield (
                    f"{meaning}-{samples}x{bits}-{'tiles' if tile else rows}-{form.name}",
                    build(form, [image.page()]).bytes(),
                    f"{samples} planes of {bits} bits in {how}",
                    "TIFF 6.0 section 8",
                    *sort_of(
                        form,
                        False,
                        "planes are an extension of the baseline, which a reader may lack",
                    ),
                )


def other_planes(form):
    one = Image(4, 3, planes=2)
    yield (
        f"one-plane-{form.name}",
        build(form, [one.page()]).bytes(),
        "one sample a pixel, in a plane of its own",
        "TIFF 6.0 section 8",
        *sort_of(form),
    )
    for name, count in (("fewer", 2), ("one", 1), ("more", 4)):
        page = Image(4, 3, samples=3, meaning=2, planes=2).page()
        page.fields.update(
            {
                OFFSETS: Field(LONG, [form.header + 12 * n for n in range(count)]),
                COUNTS: Field(LONG, [12] * count),
            }
        )
        yield (
            f"listed-{name}-{form.name}",
            build(form, [page]).bytes(),
            f"three planes, and {count} strips are listed",
            "TIFF 6.0 section 8",
            MAY,
            MISFIT,
        )


def planes():
    for form in FORMS:
        for part in (planes_of_depths, other_planes):
            yield from part(form)


def gray_depths():
    for form in CLASSIC + [BIG_LE]:
        for bits in (1, 2, 3, 4, 5, 6, 7, 8, 9, 10, 12, 14, 15, 16, 17, 24, 31, 32, 33, 48, 63, 64):
            for width in (1, 2, 3, 5, 8, 9) if bits < 8 else (1, 3):
                for meaning in (0, 1):
                    baseline = bits in (1, 4, 8)
                    section = "TIFF 6.0 section 3" if bits == 1 else "TIFF 6.0 section 4"
                    yield (
                        f"gray-{bits}-{width}x3-{('white', 'black')[meaning]}-{form.name}",
                        build(form, [Image(width, 3, bits=bits, meaning=meaning).page()]).bytes(),
                        (
                            f"{width} by 3 gray samples of {bits} bits, where 0 is"
                            f" {('white', 'black')[meaning]}"
                        ),
                        section,
                        *sort_of(form, baseline, NO_DEPTH),
                    )


def depth_formats():
    for form in FORMS:
        for bits in (1, 8, 16, 24, 32, 64, 128):
            for kind, name in (
                (1, "unsigned"),
                (2, "signed"),
                (3, "floating"),
                (4, "void"),
                (5, "complex-integer"),
                (6, "complex"),
            ):
                image = Image(3, 2, bits=bits, format=kind)
                odd = kind > 3 or kind == 3 and bits < 16
                sort = (
                    (MAY, "a format for which the standard doesn't say what the samples are")
                    if odd
                    else sort_of(form, kind == 1 and bits in (1, 8), EXTENSION)
                )
                yield (
                    f"format-{name}-{bits}-{form.name}",
                    build(form, [image.page()]).bytes(),
                    f"gray samples of {bits} bits, of format {name}",
                    "TIFF 6.0 section 19",
                    *sort,
                )


def mixed_bits(form):
    for name, bits in (
        ("one-count", [8]),
        ("two-count", [8, 8]),
        ("four-count", [8] * 4),
        ("mixed", [8, 8, 16]),
        ("five-six-five", [5, 6, 5]),
        ("zeros", [0, 0, 0]),
        ("one-zero", [8, 0, 8]),
    ):
        page = Image(3, 2, samples=3, meaning=2).page().with_fields({BITS: Field(SHORT, bits)})
        sort = (
            (MAY, "BitsPerSample has one value for each sample")
            if name.endswith("count")
            else (MAY, "baseline images have samples of one depth")
        )
        yield (
            f"bits-{name}-{form.name}",
            build(form, [page]).bytes(),
            f"three samples a pixel, and BitsPerSample is {bits}",
            "TIFF 6.0 section 8",
            *sort,
        )


def mixed_formats(form):
    for name, formats in (("one-count", [1]), ("mixed", [1, 2, 1]), ("four-count", [1] * 4)):
        page = Image(3, 2, samples=3, meaning=2).page().with_fields({FORMAT: Field(SHORT, formats)})
        yield (
            f"formats-{name}-{form.name}",
            build(form, [page]).bytes(),
            f"three samples a pixel, and SampleFormat is {formats}",
            "TIFF 6.0 section 19",
            MAY,
            "SampleFormat has one value for each sample",
        )


def default_depths(form):
    bilevel = Image(9, 3, bits=1).page().without(BITS, SAMPLES, METHOD)
    yield (
        f"defaults-{form.name}",
        build(form, [bilevel]).bytes(),
        "a bilevel image without the fields whose defaults it has",
        "TIFF 6.0 section 8",
        *sort_of(form),
    )


def depth_mixed():
    for form in CLASSIC:
        for part in (mixed_bits, mixed_formats, default_depths):
            yield from part(form)


def depths():
    for part in (gray_depths, depth_formats, depth_mixed):
        yield from part()


# The meanings of samples: the number, a name, how many samples they need, the section, and the
# depths of baseline images.
MEANINGS = [
    (0, "white-is-zero", 1, "4", (1, 4, 8)),
    (1, "black-is-zero", 1, "4", (1, 4, 8)),
    (2, "rgb", 3, "6", (8,)),
    (3, "palette", 1, "5", (4, 8)),
    (4, "mask", 1, "8", ()),
    (5, "cmyk", 4, "16", ()),
    (6, "ycbcr", 3, "21", ()),
    (8, "cielab", 3, "23", ()),
    (9, "icclab", 3, "8", ()),
    (10, "itulab", 3, "8", ()),
]


def color_kinds():
    for form in CLASSIC + [BIG_LE]:
        for meaning, name, count, section, baseline in MEANINGS:
            for samples in range(max(1, count - 1), count + 3):
                for bits in (8, 16) if samples != count else (1, 2, 4, 8, 16, 32):
                    extra = [0] * (samples - count) if samples > count else None
                    image = Image(3, 2, bits=bits, samples=samples, meaning=meaning, extra=extra)
                    sort = (
                        sort_of(form, samples == count and bits in baseline)
                        if samples >= count
                        else (MAY, "there are fewer samples than the color needs")
                    )
                    yield (
                        f"{name}-{samples}x{bits}-{form.name}",
                        build(form, [image.page()]).bytes(),
                        f"{samples} samples of {bits} bits a pixel, of meaning {name}",
                        f"TIFF 6.0 section {section}",
                        *sort,
                    )


def color_extras():
    for form in CLASSIC:
        for meaning, name, count in ((1, "gray", 1), (2, "rgb", 3), (5, "cmyk", 4)):
            for more in (1, 2, 3):
                lists = [
                    [0] * more,
                    [1] + [0] * (more - 1),
                    [2] + [0] * (more - 1),
                    [3] * more,
                    None,
                    [0] * (more + count),
                    [0] * (more + count + 1),
                ]
                for extra in lists + [[0] * (more - 1) + [2]] * (more > 1):
                    image = Image(3, 2, samples=count + more, meaning=meaning, extra=extra)
                    right = extra is not None and len(extra) == more and max(extra) < 3
                    listed = "none" if extra is None else "-".join(map(str, extra))
                    yield (
                        f"extra-{name}-{more}-{listed}-{form.name}",
                        build(form, [image.page()]).bytes(),
                        (
                            f"{count + more} samples a pixel of meaning {name}, and ExtraSamples is"
                            f" {extra}"
                        ),
                        "TIFF 6.0 section 18",
                        *(
                            sort_of(form, False)
                            if right
                            else (
                                MAY,
                                "ExtraSamples doesn't say what the samples beyond the color are",
                            )
                        ),
                    )


def color_subsampled():
    for form in CLASSIC:
        for across, down in ((1, 1), (1, 2), (2, 1), (2, 2), (4, 1), (4, 4), (0, 0), (3, 1)):
            data = noise("chroma", 4 * 4 * 3)
            page = (
                Image(4, 4, samples=3, meaning=6, data=data)
                .page()
                .with_fields({SUBSAMPLING: Field(SHORT, [across, down])})
            )
            right = across in (1, 2, 4) and down in (1, 2, 4)
            yield (
                f"chroma-{across}x{down}-{form.name}",
                build(form, [page]).bytes(),
                f"YCbCr samples, whose subsampling is {across} by {down}",
                "TIFF 6.0 section 21",
                *(sort_of(form, False) if right else (MAY, "subsampling is 1, 2 or 4")),
            )
        page = Image(4, 4, samples=3, meaning=6).page().without(SUBSAMPLING)
        yield (
            f"chroma-none-{form.name}",
            build(form, [page]).bytes(),
            "YCbCr samples without a field of subsampling, whose default is 2 by 2",
            "TIFF 6.0 section 21",
            *sort_of(form, False),
        )
        for name, field in (
            ("short-map", Field(SHORT, [0] * 10)),
            ("no-map", None),
            ("byte-map", Field(BYTE, [7] * 768)),
        ):
            page = Image(3, 2, meaning=3).page().with_fields({320: field} if field else {})
            yield (
                f"palette-{name}-{form.name}",
                build(form, [page if field else page.without(320)]).bytes(),
                f"palette samples with a {name}",
                "TIFF 6.0 section 5",
                MAY,
                "a palette has three SHORTs for each color",
            )


def color_extra_types():
    for form in FORMS:
        for kind in (BYTE, SHORT, LONG):
            for count in (1, 2):
                page = (
                    Image(3, 2, samples=3 + count, meaning=2)
                    .page()
                    .with_fields({EXTRA: Field(kind, [0] * count)})
                )
                sort = (
                    sort_of(form, False)
                    if kind == SHORT
                    else (
                        UNUSUAL,
                        (
                            "readers are asked to accept BYTE, SHORT and LONG for each field of an"
                            " unsigned number"
                        ),
                    )
                )
                yield (
                    f"extra-type-{TYPES[kind][0]}-{count}-{form.name}",
                    build(form, [page]).bytes(),
                    f"ExtraSamples has {count} values of type {TYPES[kind][0]}",
                    "TIFF 6.0 section 18",
                    *sort,
                )


def colors():
    for part in (color_kinds, color_extras, color_subsampled, color_extra_types):
        yield from part()


def packed_image(form, data, width=8, height=2, rows=None, counts=None, chunks=None):
    """Returns a file whose strips are these bytes, as PackBits data."""
    image = Image(width, height, rows=rows, method=32773)
    page = image.page()
    page.chunks = [data] if chunks is None else chunks
    if counts is not None:
        page.fields[COUNTS] = Field(LONG, counts)
    return build(form, [page]).bytes()


def packed_blocks():
    for form in CLASSIC:
        for length in (1, 2, 3, 16, 63, 64, 65, 126, 127, 128):
            yield (
                f"literal-{length}-{form.name}",
                packed_image(form, literal(noise("literal", length)), length, 1),
                f"one block of {length} bytes as they are",
                "TIFF 6.0 section 9",
                *sort_of(form),
            )
            if length > 1:
                yield (
                    f"run-{length}-{form.name}",
                    packed_image(form, run(9, length), length, 1),
                    f"one block that is a byte {length} times",
                    "TIFF 6.0 section 9",
                    *sort_of(form),
                )
        nothing = b"\x80"
        for name, data in (
            ("front", nothing + literal(b"12345678")),
            ("between", literal(b"1234") + nothing + literal(b"5678")),
            ("behind", literal(b"12345678") + nothing),
            ("many", nothing * 9 + run(5, 8) + nothing * 9),
            ("each", b"".join(nothing + literal(b"%d" % n) for n in range(8))),
        ):
            yield (
                f"nothing-{name}-{form.name}",
                packed_image(form, data, 8, 1),
                f"blocks that mean nothing: {name}",
                "TIFF 6.0 section 9",
                *sort_of(form),
            )


def blocks_over_rows(form):
    blocks = {
        "rows": (literal(b"12345678") + literal(b"abcdefgh"), True),
        "runs": (run(1, 8) + run(2, 8), True),
        "both": (run(1, 8) + literal(b"12345678"), True),
        "singles": (b"".join(literal(bytes([n])) for n in range(16)), True),
        "pairs": (b"".join(run(n, 2) for n in range(8)), True),
        "over-run": (run(1, 16), False),
        "over-literal": (literal(b"1234567812345678"), False),
        "over-middle": (literal(b"1234") + run(3, 8) + literal(b"5678"), False),
    }
    for name, (data, well) in blocks.items():
        yield (
            f"blocks-{name}-{form.name}",
            packed_image(form, data),
            f"two rows of 8 samples in blocks: {name}",
            "TIFF 6.0 section 9",
            *(sort_of(form) if well else (MAY, OVER_ROWS)),
        )


def longer_blocks(form):
    for name, data in (
        ("literal", literal(b"1234567812345678") + literal(b"more")),
        ("run", run(1, 16) + run(2, 100)),
        ("block", literal(b"12345678") + run(7, 20)),
    ):
        yield (
            f"more-{name}-{form.name}",
            packed_image(form, data),
            f"more bytes than the strip has rows, in a {name}",
            "TIFF 6.0 section 9",
            MAY,
            "a strip unpacks to its rows",
        )


def shorter_blocks(form):
    for name, data in (
        ("empty", b""),
        ("one", literal(b"1")),
        ("row", literal(b"12345678")),
        ("less-one", run(1, 15)),
        ("nothing", b"\x80" * 16),
    ):
        yield (
            f"fewer-{name}-{form.name}",
            packed_image(form, data or b"\0", counts=None if data else [0]),
            f"fewer bytes than the strip has rows: {name}",
            "TIFF 6.0 section 9",
            MAY,
            "a strip unpacks to its rows",
        )


def cut_blocks(form):
    for name, data in (
        ("literal", literal(b"12345678") + b"\x07abcd"),
        ("literal-none", literal(b"12345678") + b"\x07"),
        ("run", literal(b"12345678") + b"\xf9"),
        ("whole-and-run", run(3, 16) + b"\xfe"),
        ("whole-and-literal", run(3, 16) + b"\x05ab"),
        ("first-run", b"\xf1"),
        ("first-literal", b"\x0f"),
    ):
        yield (
            f"broken-{name}-{form.name}",
            packed_image(form, data),
            f"the packed bytes end within a block: {name}",
            "TIFF 6.0 section 9",
            MAY,
            "a block is whole",
        )


def packed_rows():
    """Yields images of two rows of 8 samples in blocks that end at the rows, or not."""
    for form in CLASSIC:
        for part in (blocks_over_rows, longer_blocks, shorter_blocks, cut_blocks):
            yield from part(form)


def counted_blocks(form):
    data = literal(b"12345678") + run(2, 8)
    for count in range(len(data) + 4):
        sort = (
            sort_of(form)
            if count == len(data)
            else (MAY, "the count isn't that of the packed bytes")
        )
        yield (
            f"counted-{count:02}-{form.name}",
            packed_image(form, data, counts=[count]),
            f"{len(data)} packed bytes, of which {count} are counted",
            "TIFF 6.0 section 9",
            *sort,
        )


def packed_strips(form):
    chunks = [literal(b"12345678"), run(2, 8)]
    yield (
        f"strips-{form.name}",
        packed_image(form, b"", rows=1, chunks=chunks),
        "two strips of a row each",
        "TIFF 6.0 section 9",
        *sort_of(form),
    )
    yield (
        f"strips-cut-{form.name}",
        packed_image(form, b"", rows=1, chunks=[run(1, 8), run(2, 7)]),
        "two strips, of which the second unpacks to too few bytes",
        "TIFF 6.0 section 9",
        MAY,
        "a strip unpacks to its rows",
    )


def cut_packed(form):
    data = literal(b"12345678") + run(2, 8)
    for cut in (1, 2, 5):
        image = Image(8, 2, method=32773).page()
        image.fields.update({OFFSETS: Field(LONG, [0]), COUNTS: Field(LONG, [len(data)])})
        image.chunks = []
        built = build(form, [image])
        whole = built.laid(built.entries[0, OFFSETS] + 8, form.at(len(built.data))) + data
        yield (
            f"file-ends-{cut}-{form.name}",
            whole[:-cut],
            f"the file ends {cut} bytes before the packed bytes do",
            "TIFF 6.0 section 9",
            MAY,
            "the strip isn't whole in the file",
        )


def packed_counts():
    for form in CLASSIC:
        for part in (counted_blocks, packed_strips, cut_packed):
            yield from part(form)


def packed_images():
    """Yields packed images of each depth, in strips and in tiles: the form, a name, the image, and
    its class if its rows are packed one by one."""
    for form in FORMS:
        for bits in (1, 2, 4, 8, 16, 32, 64):
            for samples, meaning in ((1, 1), (3, 2)):
                if samples == 1 or bits >= 8:
                    for tile in (None, (16, 16)):
                        image = Image(
                            10,
                            5,
                            bits=bits,
                            samples=samples,
                            meaning=meaning,
                            method=32773,
                            rows=None if tile else 2,
                            tile=tile,
                        )
                        name = f"{samples}x{bits}-{'tiles' if tile else 'strips'}-{form.name}"
                        yield form, name, image, sort_of(form, tile is None and bits in (1, 4, 8))


def told_of(image, how):
    """Returns the line why a packed image is there, and the sections that it rests on: a row of a
    tile is packed as one of a strip."""
    return (
        f"{image.samples} samples of {image.bits} bits, {how}",
        "TIFF 6.0 section 9" if image.tile is None else "TIFF 6.0 sections 9 and 15",
    )


def over_rows(image):
    """Returns whether the data of a packed image have a block that goes over the end of a row."""
    return any(crosses_rows(chunk, image.row_bytes()) for chunk in image.chunks())


def packed_together():
    for form, name, image, sort in packed_images():
        yield (
            f"image-{name}",
            build(form, [image.page()]).bytes(),
            *told_of(image, "the rows of a chunk packed together"),
            *((MAY, OVER_ROWS) if over_rows(image) else sort),
        )


def packed_one_by_one():
    for form, name, image, sort in packed_images():
        # the others have the same bytes both ways
        if over_rows(image):
            image.by_rows = True
            yield (
                f"rows-{name}",
                build(form, [image.page()]).bytes(),
                *told_of(image, "each row packed by itself"),
                *sort,
            )


def packbits():
    for part in (packed_blocks, packed_rows, packed_counts, packed_together, packed_one_by_one):
        yield from part()


ALONE = (
    "the section speaks of differences of LZW data alone; readers differ in whether they undo"
    " them elsewhere"
)


def predicted_samples():
    for form in FORMS:
        for predictor, name, section in (
            (2, "horizontal", "TIFF 6.0 section 14"),
            (3, "floating", "TIFF supplement 3 (floating-point predictor)"),
        ):
            for bits in (1, 4, 8, 16, 24, 32, 64):
                for kind in (1, 2, 3):
                    for samples, meaning, extra in ((1, 1, None), (3, 2, None), (4, 2, [0])):
                        if bits < 8 and samples > 1 or kind == 2 and samples > 1:
                            continue
                        image = Image(
                            4,
                            3,
                            bits=bits,
                            samples=samples,
                            meaning=meaning,
                            extra=extra,
                            format=kind,
                            predictor=predictor,
                            method=1 if samples == 1 else 32773,
                        )
                        yield (
                            (
                                f"{name}-{samples}x{bits}"
                                f"-{('unsigned', 'signed', 'float')[kind - 1]}-{form.name}"
                            ),
                            build(form, [image.page()]).bytes(),
                            f"{samples} samples of {bits} bits, stored with predictor {name}",
                            section,
                            MAY,
                            ALONE,
                        )


def predicted_chunks():
    for form in CLASSIC:
        for planes, tile in ((1, (16, 16)), (2, None), (2, (16, 16))):
            for predictor, bits, kind in ((2, 8, 1), (2, 16, 1), (3, 32, 3)):
                image = Image(
                    5,
                    3,
                    bits=bits,
                    samples=3,
                    meaning=2,
                    format=kind,
                    predictor=predictor,
                    planes=planes,
                    tile=tile,
                )
                yield (
                    (
                        f"chunks-{predictor}-{bits}-{planes}"
                        f"-{'tiles' if tile else 'strips'}-{form.name}"
                    ),
                    build(form, [image.page()]).bytes(),
                    f"three samples of {bits} bits with predictor {predictor}",
                    "TIFF 6.0 section 14",
                    MAY,
                    ALONE,
                )


def predictors():
    for part in (predicted_samples, predicted_chunks):
        yield from part()


# The numbers of methods of compression, but for none, 1, and PackBits.
# fmt: off
METHODS = (
    2, 3, 4, 5, 6, 7, 8, 9, 10, 99, 32766, 32771, 32809, 32895, 32908, 32909, 32946, 32947, 34661,
    34676, 34677, 34712, 34887, 34925, 34926, 50000, 50001, 50002, 52546,
)
# fmt: on


def method_numbers(form):
    known = "a method of compression that a reader may lack; the data of this strip aren't of it"
    for method in METHODS:
        for bits in (1, 8):
            page = Image(8, 2, bits=bits, method=method).page()
            yield (
                f"method-{method}-{bits}-{form.name}",
                build(form, [page]).bytes(),
                f"a strip of {bits}-bit samples, said to be compressed by method {method}",
                "TIFF 6.0 section 8",
                MAY,
                known,
            )


def fill_orders(form):
    page = Image(9, 2, bits=1).page().with_fields({266: Field(SHORT, [2])})
    yield (
        f"fill-order-{form.name}",
        build(form, [page]).bytes(),
        "bilevel samples, whose lowest bit comes first",
        "TIFF 6.0 section 8",
        MAY,
        "FillOrder 2 is no part of the baseline, and a reader may pass over the field",
    )


def orientations(form):
    for turn in range(9):
        page = Image(3, 2).page().with_fields({274: Field(SHORT, [turn])})
        sort = (
            sort_of(form)
            if turn == 1
            else (MAY, "a reader that doesn't turn the image gives its rows as they are stored")
        )
        yield (
            f"orientation-{turn}-{form.name}",
            build(form, [page]).bytes(),
            f"Orientation is {turn}",
            "TIFF 6.0 section 8",
            *sort,
        )


def methods():
    for form in FORMS:
        for part in (method_numbers, fill_orders, orientations):
            yield from part(form)


THEMES = {
    "strips": strips,
    "tiles": tiles,
    "planes": planes,
    "depths": depths,
    "colors": colors,
    "packbits": packbits,
    "predictors": predictors,
    "methods": methods,
}
