"""The words of the program tiffpage, for the results of the second road: of `list`, of `check`, of
`tags`, and of the replies that `calls` prints.

docs/TIFFPAGE.md and tests/commands have these words. An error has a text, and a form as Rust's
`Debug` prints it.
"""
import second_road as road

KINDS = [
    "",
    "BYTE",
    "ASCII",
    "SHORT",
    "LONG",
    "RATIONAL",
    "SBYTE",
    "UNDEFINED",
    "SSHORT",
    "SLONG",
    "SRATIONAL",
    "FLOAT",
    "DOUBLE",
    "IFD",
    "",
    "",
    "LONG8",
    "SLONG8",
    "IFD8",
]

# The text of each error, by its name; {0} and {1} are what it says besides.
TEXTS = {
    "TiffSignatureNotFound": "TIFF signature not found",
    "TiffSignatureInvalid": "TIFF signature invalid",
    "ImageFileDirectoryNotFound": "image file directory not found",
    "InconsistentSizesEncountered": "inconsistent sizes encountered",
    "InvalidDimensions": "invalid dimensions: {0}x{1}",
    "InvalidTag": "image contains invalid tag",
    "InvalidTagValueType": "tag `{0}` did not have the expected value type",
    "RequiredTagNotFound": "required tag `{0}` not found",
    "UnknownPredictor": "unknown predictor “{0}” encountered",
    "UnknownPlanarConfiguration": "unknown planar configuration “{0}”",
    "InvalidTypeForTag": "tag has invalid type",
    "InvalidCountForTag": "tag `{0}` with incorrect number of elements ({1}) encountered",
    "StripTileTagConflict": (
        "file should contain either (StripByteCounts and StripOffsets) or (TileByteCounts and"
        " TileOffsets), other combination was found"
    ),
    "CycleInOffsets": "file contained a cycle in the list of IFDs",
    "SamplesPerPixelIsZero": "samples per pixel is zero",
    "FloatingPointPredictor": "floating point predictor for {0} is unsupported",
    "HorizontalPredictor": "horizontal predictor for {0} is unsupported",
    "InconsistentBitsPerSample": "inconsistent bits per sample: {0}",
    "InterpretationWithBits": (
        "Photometric interpretation {0} with bits per sample {1} is unsupported"
    ),
    "UnknownInterpretation": "unknown photometric interpretation",
    "UnsupportedCompressionMethod": "compression method {0} is unsupported",
    "UnsupportedSampleDepth": "{0} samples per pixel is unsupported",
    "UnsupportedSampleFormat": "sample format {0} is unsupported",
    "UnsupportedColorType": "color type {0} is unsupported",
    "ChromaSubsampling": "chroma subsampling of YCbCr color is unsupported",
    "MisalignedTileBoundaries": "tile rows are not aligned to byte boundaries",
    "UnexpectedEof": "unexpected end of file",
}
FAMILIES = {
    "FormatError": "format error: ",
    "UnsupportedError": "unsupported error: ",
    "IoError": "",
}
WHOLE = {
    "LimitsExceeded": "decoder limits exceeded",
    "IntSizeError": "platform or format size limits exceeded",
}


def named(names, one):
    return names.get(one, f"Unknown({one})")


def color(name, depth, samples):
    return (
        f"Multiband {{ bit_depth: {depth}, num_samples: {samples} }}"
        if name == "Multiband"
        else f"{name}({depth})"
    )


def parts(name, rest):
    """Returns what an error says besides its name, as words."""
    if name in ("UnsupportedColorType", "HorizontalPredictor", "FloatingPointPredictor"):
        return [color(*rest[0], rest[1])]
    if name in ("RequiredTagNotFound", "InvalidTagValueType", "InvalidCountForTag"):
        return [named(road.TAGS, rest[0]), *map(str, rest[1:])]
    if name == "UnsupportedCompressionMethod":
        return [named(road.METHODS, rest[0])]
    if name == "UnsupportedSampleFormat":
        return [f"[{', '.join(named(road.FORMATS, one) for one in rest[0])}]"]
    return [str(one) for one in rest]


def text(fault):
    """Returns the text of an error."""
    family, *rest = fault.words
    if family in WHOLE:
        return WHOLE[family]
    return FAMILIES[family] + TEXTS[rest[0]].format(*parts(rest[0], rest[1:]))


def form(fault):
    """Returns an error as `Debug` prints it."""
    family, *rest = fault.words
    if family in WHOLE:
        return family
    said = parts(rest[0], rest[1:])
    return f"{family}({rest[0]}({', '.join(said)}))" if said else f"{family}({rest[0]})"


def refused(fault):
    return f"refused: {text(fault)} ({form(fault)})"


ESCAPES = {9: "\\t", 10: "\\n", 13: "\\r", 34: '\\"', 92: "\\\\", 0: "\\0"}


def quoted(letters):
    """Returns a text in quotes, as `Debug` prints it."""
    return (
        '"'
        + "".join(
            ESCAPES.get(ord(letter))
            or (letter if letter.isprintable() else f"\\u{{{ord(letter):x}}}")
            for letter in letters
        )
        + '"'
    )


def value(one):
    """Returns the value of a field as `Debug` prints it."""
    kind, what = one
    if kind == "list":
        return f"List([{', '.join(map(value, what))}])"
    if kind == "Ascii":
        return f"Ascii({quoted(what)})"
    if kind in ("Float", "Double"):
        return f"{kind}(Bits{32 if kind == 'Float' else 64}({what}))"
    return f"{kind}({', '.join(map(str, what)) if isinstance(what, tuple) else what})"


def reply(call, shown):
    """Returns the reply to a call: what it gives, as words, or the error."""
    try:
        return shown(call())
    except road.Refused as fault:
        return refused(fault)


def layout_words(page, layout):
    try:
        letter, size = road.sample_type_of(page)
        kind = f"Some({letter}{8 * size})"
    except road.Refused:
        kind = "None"
    return (
        f"BufferLayoutPreference {{ len: {layout.plane_stride}, sample_format:"
        f" {named(road.FORMATS, page.format)}, sample_type: {kind}, row_stride:"
        f" Some({layout.row_bytes}), planes: {layout.planes}, plane_stride:"
        f" Some({layout.plane_stride}), complete_len: {layout.plane_stride * layout.planes} }}"
    )


def samples_words(page, found):
    """Returns the samples of an image as `Debug` prints them, behind the layout."""
    layout, _, data = found
    letter, size = road.sample_type_of(page)
    numbers = [
        int.from_bytes(data[at : at + size], "little", signed=letter == "I")
        for at in range(0, len(data), size)
    ]
    said = (f"Bits{8 * size}({one})" for one in numbers) if letter == "F" else map(str, numbers)
    return f"{layout_words(page, layout)}, {letter}{8 * size}([{', '.join(said)}])"


def count_of(page):
    """Returns how many chunks a page has, as the call for its kind of chunks counts them."""
    if not page.tiled and page.height + page.chunk_height - 1 >= 2**32:
        raise road.Refused("IntSizeError")
    return page.all_chunks


def directory_words(directory):
    entries = (
        f"{tag}: Entry {{ field_type: {KINDS[one.kind]}, count: {one.count}, value:"
        f" {list(one.value)} }}"
        for tag, one in directory.fields.items()
    )
    return f"Directory {{ entries: {{{', '.join(entries)}}}, next: {directory.next} }}"


def tags_words(file, directory):
    """Returns the items of `tag_iter`: for each entry its tag and its value, or its error."""
    said = []
    for tag, one in directory.fields.items():
        try:
            said.append(f"Ok(({named(road.TAGS, tag)}, {value(road.field_value(file, one))}))")
        except road.Refused as fault:
            said.append(f"Err({form(fault)})")
    return f"[{', '.join(said)}]"


def replies_of_page(file, number, item):
    """Yields the calls on a page of a file, each with its reply."""
    yield f"seek_to_image {number}", refused(item.fault) if item.fault else "()"
    yield "ifd_pointer", f"Some(IfdPointer({item.offset}))"
    yield f"read_directory {item.offset}", directory_words(item.directory)
    if item.fault:
        return
    page = item.page
    yield "dimensions", f"({page.width}, {page.height})"
    yield "colortype", reply(lambda: road.color_of(page), lambda found: color(*found[0], found[1]))
    yield "get_chunk_type", "Tile" if page.tiled else "Strip"
    yield "chunk_dimensions", f"({page.chunk_width}, {page.chunk_height})"
    yield "tile_count" if page.tiled else "strip_count", reply(lambda: count_of(page), str)
    yield (
        "image_buffer_layout",
        reply(lambda: road.planes_layout(page), lambda layout: layout_words(page, layout)),
    )
    yield "tag_iter", tags_words(file, item.directory)
    yield (
        "read_image_to_buffer",
        reply(lambda: road.read_whole(file, page), lambda found: samples_words(page, found))
        + left_of(file, page),
    )


def left_of(file, page):
    """Returns what `read_image_to_buffer` says of its list after an error: nothing is said of it
    here."""
    return ""


def calls(file, items, end):
    """Returns the calls that read all of a file, and their replies."""
    pairs = [
        pair for number, item in enumerate(items) for pair in replies_of_page(file, number, item)
    ]
    last = end or road.format_error("ImageFileDirectoryNotFound")
    pairs.append((f"seek_to_image {len(items)}", refused(last)))
    return [call for call, _ in pairs], [said for _, said in pairs]


def list_words(file, items, end):
    """Returns what `list` prints, on its outputs, and its status."""
    lines = []
    for number, item in enumerate(items):
        lines.append(
            f"{number} {item.offset} "
            + (f"error: {text(item.fault)}" if item.fault else facts(item.page))
        )
    return (
        "".join(f"{line}\n" for line in lines),
        f"error: {text(end)}\n" if end else "",
        1 if end else 0,
    )


def facts(page):
    try:
        (name, depth), samples = road.color_of(page)
        said = f"{name}{depth}x{samples}" if name == "Multiband" else f"{name}{depth}"
    except road.Refused:
        said = "?"
    try:
        count = str(count_of(page))
    except road.Refused:
        count = "?"
    return (
        f"{page.width}x{page.height} {said} {page.method}"
        f" {'tile' if page.tiled else 'strip'} {count}"
    )


def whole(file, page):
    """Returns the bytes of all planes of a page; an error if the limit doesn't allow all."""
    layout, planes, data = road.read_whole(file, page)
    if planes < layout.planes:
        raise road.limits_exceeded()
    return data


def check_words(file, items, end):
    """Returns what `check` prints, on its outputs, and its status."""
    lines, well = [], True
    for number, item in enumerate(items):
        try:
            if item.fault:
                raise item.fault
            data = whole(file, item.page)
            said = f"ok {len(data)} {road.adler(data):08x}"
        except road.Refused as fault:
            said, well = f"error: {text(fault)}", False
        lines.append(f"{number} {item.offset} {said}\n")
    return "".join(lines), f"error: {text(end)}\n" if end else "", 0 if well and not end else 1


def tags_lines(file, items, number):
    """Returns what `tags` prints of a page, on its outputs, and its status."""
    lines = []
    try:
        if items[number].fault:
            raise items[number].fault
        for tag, one in items[number].directory.fields.items():
            if one.length > road.DEFAULT_LIMIT:
                raise road.limits_exceeded()
            found = road.field_bytes(file, one)
            lines.append(f"{tag} {one.kind} {one.count} {found.hex() or '-'}\n")
    except road.Refused as fault:
        return "", f"error: {text(fault)}\n", 1
    return "".join(lines), "", 0
