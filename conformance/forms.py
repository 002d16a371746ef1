"""What a reader is expected to find in a file: its pages, their fields, and checksums of their
samples in each form in which readers return them."""
import zlib

import second_road as road
import words

# A field of more bytes than these is listed by a checksum.
LONGEST = 64
# How many bytes of an image are listed as they are.
FIRST = 64
# The meanings of samples that readers turn into other colors. Numbers that are signed or floating
# some readers turn into their own range.
TURNED = ("CMYK", "YCbCr", "CIELab", "IccLab", "ItuLab", "RGBPalette", "TransparencyMask")


def crc(data):
    return f"{zlib.crc32(data):08x}"


def told_bytes(data):
    return data.hex() if len(data) <= LONGEST else f"crc32 {crc(data)} of {len(data)} bytes"


def field_item(file, tag, one):
    """Returns a field: its tag, the number of its type, its count, and its bytes in the file's
    order or its error; and its value as the library prints it."""
    try:
        if one.length > road.DEFAULT_LIMIT:
            raise road.limits_exceeded()
        data = told_bytes(road.field_bytes(file, one))
    except road.Refused as fault:
        data = {"error": words.form(fault)}
    return [tag, one.kind, one.count, data]


def stored_rows(file, page):
    """Returns the stored numbers of each row of an image, pixel by pixel, with all samples, or None
    if not all of them are in the file."""
    rows = [[0] * (page.width * page.samples) for _ in range(page.height)]
    for plane in range(page.samples if page.planar else 1):
        for j in range(page.chunks_of_plane):
            x, y, width, height = road.rect(page, j)
            data = road.chunk_data(file, page, plane * page.chunks_of_plane + j)
            stored = page.stored_row_bytes
            last_row = (width * page.stored_samples * page.depth + 7) // 8
            if len(data) < (height - 1) * stored + last_row:
                return None
            for row in range(height):
                numbers = road.numbers_of_row(
                    file, page, data[row * stored : (row + 1) * stored], width
                )
                place_row(rows[y + row], page, plane, x, width, numbers)
    return rows


def place_row(row, page, plane, x, width, numbers):
    """Puts the numbers of a row of a chunk into a row of the image."""
    if page.planar:
        row[x * page.samples + plane : (x + width) * page.samples : page.samples] = numbers[:width]
    else:
        row[x * page.samples : (x + width) * page.samples] = numbers[: width * page.samples]


def as_bytes(rows, size):
    return b"".join(one.to_bytes(size, "little") for row in rows for one in row)


def mirrored(page, rows):
    return [[2**page.depth - 1 - one for one in row] for row in rows]


def eight_bits(page, rows):
    """Returns samples as 8 bits of full range: those of fewer bits are stretched, and of others the
    highest bits are kept."""
    if page.depth > 8:
        return [[one >> page.depth - 8 for one in row] for row in rows]
    top = 2**page.depth - 1
    return [[(one * 255 + top // 2) // top for one in row] for row in rows]


def checksums(file, page, shown):
    """Returns the forms in which readers return an image: how many samples a pixel has, how many
    bytes a sample, and the CRC-32 of all, pixel by pixel.

    The first form is the samples as they are stored. If not all of them belong to the color,
    another one is those of the color alone; if 0 is white, others are mirrored; and whole numbers
    of other than 8 bits are also listed as 8 bits.
    """
    _, size = road.sample_type_of(page)
    rows = stored_rows(file, page)
    if rows is None:
        return []
    forms = [(page.samples, size, rows)]
    if shown < page.samples:
        colors = [
            [one for at, one in enumerate(row) if at % page.samples < shown] for row in rows
        ]
        forms.append((shown, size, colors))
    if page.format == 1 and page.depth != 8:
        forms += [(samples, 1, eight_bits(page, made)) for samples, _, made in forms]
    if page.meaning == "WhiteIsZero":
        forms += [
            (
                samples,
                bytes_,
                (
                    mirrored(page, made)
                    if bytes_ == size and made is rows
                    else [[255 - one for one in row] for row in made]
                ),
            )
            for samples, bytes_, made in forms
        ]
    return [[samples, bytes_, crc(as_bytes(made, bytes_))] for samples, bytes_, made in forms]


def is_turned(page):
    """Returns whether some readers turn an image into other colors or numbers: they also divide
    colors by an associated alpha, or by one of an unspecified kind."""
    is_alpha = (
        page.extra[:1] == [1] or page.meaning == "RGB" and page.samples > 3 and not page.extra
    )
    return page.meaning in TURNED or is_alpha or page.format != 1


def image_item(file, page):
    """Returns what reading an image gives: how many bytes it has as the library returns them, their
    Adler-32, the first of them, the forms in which other readers return it, and whether some turn
    it into other colors or numbers."""
    try:
        data = words.whole(file, page)
    except road.Refused as fault:
        return {"error": words.form(fault)}
    _, shown = road.color_of(page)
    return {
        "bytes": len(data),
        "adler32": f"{road.adler(data):08x}",
        "first": data[:FIRST].hex(),
        "forms": checksums(file, page, shown),
        "turned": is_turned(page),
    }


def page_item(file, item):
    """Returns what is expected of a directory of the chain."""
    fields = [field_item(file, tag, one) for tag, one in item.directory.fields.items()]
    if item.fault:
        return {"offset": item.offset, "error": words.form(item.fault), "fields": fields}
    page = item.page
    return {
        "offset": item.offset,
        "width": page.width,
        "height": page.height,
        "color": words.facts(page).split()[1],
        "samples": page.samples,
        "bits": page.depth,
        "format": words.named(road.FORMATS, page.format),
        "meaning": page.meaning,
        "compression": page.method,
        "predictor": page.predictor,
        "planes": page.samples if page.planar else 1,
        "chunks": {
            "kind": "tile" if page.tiled else "strip",
            "width": page.chunk_width,
            "height": page.chunk_height,
            "count": page.all_chunks,
        },
        "fields": fields,
        "image": image_item(file, page),
    }


def expected(data):
    """Returns what is expected of a file: the error of opening it, or its pages and the error that
    ends their chain."""
    try:
        file, items, end = road.opened(data)
    except road.Refused as fault:
        return {"error": words.form(fault)}
    return {
        "pages": [page_item(file, item) for item in items],
        "end": words.form(end) if end else None,
    }
