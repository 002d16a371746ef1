"""Samples of each depth and kind are read as numbers of their own, as they are stored."""
from __future__ import annotations

import io
import struct
import warnings
from pathlib import Path

import numpy
import pytest
import tifffile
from conftest import gray_file, samples
from PIL import Image

import mangohatch_tiff as mt
from mangohatch_tiff import Status, _parts


def packed(numbers: numpy.ndarray, bits: int) -> bytes:
    """Returns rows of numbers of some bits each, each row filled up to whole bytes."""
    single = (numbers[:, :, None] >> numpy.arange(bits)[::-1]) & 1
    return numpy.packbits(single.reshape(len(numbers), -1).astype("u1"), axis=1).tobytes()


@pytest.mark.parametrize("width", [21, 24])
def test_one_bit_is_a_bool(width: int) -> None:
    bits = samples((9, width), "u1") % 2
    file = io.BytesIO()
    Image.fromarray(bits * 255).convert("1").save(file, "TIFF")
    page = mt.TiffFile(file.getvalue()).pages[0]
    assert (page.bitspersample, page.imagewidth, page.imagelength) == (1, width, 9)
    assert (page.shape, page.dtype, page.axes) == ((9, width), numpy.dtype(bool), "YX")
    assert page.nbytes == 9 * width
    expected = tifffile.imread(io.BytesIO(file.getvalue()))
    read = page.asarray()
    assert read.dtype == expected.dtype == bool
    numpy.testing.assert_array_equal(read, expected)
    numpy.testing.assert_array_equal(read, bits.astype(bool))


@pytest.mark.parametrize("bits", [2, 3, 4, 5, 6, 7])
def test_few_bits_are_bytes(bits: int) -> None:
    numbers = samples((5, 13), "u1") % (1 << bits)
    file = gray_file(13, 5, data=packed(numbers, bits), t258=(3, bits))
    page = mt.TiffFile(file).pages[0]
    assert (page.shape, page.dtype) == ((5, 13), numpy.uint8)
    numpy.testing.assert_array_equal(page.asarray(), numbers)
    numpy.testing.assert_array_equal(page.read(slice(1, 4), slice(3, 9)), numbers[1:4, 3:9])


@pytest.mark.parametrize("bits", [1, 2, 4, 7])
def test_few_signed_bits(bits: int) -> None:
    numbers = samples((5, 13), "u1") % (1 << bits)
    file = gray_file(13, 5, data=packed(numbers, bits), t258=(3, bits), t339=(3, 2))
    read = mt.imread(file)
    half = 1 << (bits - 1)
    assert read.dtype == numpy.int8
    numpy.testing.assert_array_equal(read, (numbers.astype(int) + half) % (2 * half) - half)


def test_few_bits_of_several_samples() -> None:
    numbers = samples((3, 10), "u1") % 16
    data = packed(numbers, 4)
    file = gray_file(5, 3, data=data, t258=(3, 4), t277=(3, 2), t338=(3, 0))
    page = mt.TiffFile(file).pages[0]
    assert page.shape == (3, 5, 2)
    numpy.testing.assert_array_equal(page.asarray(), numbers.reshape(3, 5, 2))


WIDE = [*range(9, 16), 17, 20, 25, 26, 31, 33, 48, 57, 58, 63]


def wide(shape: tuple[int, int], bits: int) -> numpy.ndarray:
    """Returns numbers of some bits each, of which any bit may be set."""
    numbers = samples(shape, "u8") * numpy.uint64(0x9E3779B97F4A7C15)
    return numbers >> numpy.uint64(64 - bits)


def packed_wide(numbers: numpy.ndarray, bits: int) -> bytes:
    """Returns rows of numbers of some bits each, each row filled up to whole bytes."""
    places = numpy.arange(bits, dtype="u8")[::-1]
    single = (numbers[:, :, None] >> places) & numpy.uint64(1)
    return numpy.packbits(single.reshape(len(numbers), -1).astype("u1"), axis=1).tobytes()


@pytest.mark.parametrize("order", "<>")
@pytest.mark.parametrize("bits", WIDE)
def test_odd_depths(bits: int, order: str) -> None:
    """Their bits lie one behind the other, the highest first, in files of both orders."""
    numbers = wide((7, 13), bits)
    file = gray_file(13, 7, data=packed_wide(numbers, bits), order=order, t258=(3, bits))
    page = mt.TiffFile(file).pages[0]
    size = next(size for size in (2, 4, 8) if bits <= 8 * size)
    assert (page.shape, page.dtype, page.nbytes) == ((7, 13), f"u{size}", 91 * size)
    if bits == 48 and order == "<":
        with pytest.raises(mt.UnsupportedError, match="48 bits in a little-endian file"):
            page.asarray()
        return
    numpy.testing.assert_array_equal(page.asarray(), numbers)
    numpy.testing.assert_array_equal(page.read(slice(1, 4), slice(3, 9)), numbers[1:4, 3:9])
    numpy.testing.assert_array_equal(page.read_chunk(0), numbers)


@pytest.mark.parametrize("bits", [9, 12, 20, 40])
def test_odd_signed_depths(bits: int) -> None:
    numbers = wide((5, 13), bits)
    file = gray_file(
        13, 5, data=packed_wide(numbers, bits), order=">", t258=(3, bits), t339=(3, 2)
    )
    half = 1 << (bits - 1)
    expected = (numbers.astype("i8") + half) % (2 * half) - half
    read = mt.imread(file)
    assert read.dtype.kind == "i"
    numpy.testing.assert_array_equal(read, expected)


def packbits_of(rows: bytes) -> bytes:
    """Returns bytes as PackBits has them, without runs."""
    parts = [rows[start : start + 100] for start in range(0, len(rows), 100)]
    return b"".join(bytes([len(part) - 1]) + part for part in parts)


@pytest.mark.parametrize("bits", [1, 3, 8, 12])
@pytest.mark.parametrize("kind", [1, 32773])
def test_turned_bits(bits: int, kind: int) -> None:
    """With FillOrder 2, the lowest bit of each byte comes first, also of packed bytes."""
    numbers = wide((9, 21), bits)
    rows = packed_wide(numbers, bits)
    data = packbits_of(rows) if kind == 32773 else rows
    turned = bytes(int(f"{byte:08b}"[::-1], 2) for byte in data)
    tags = {"t258": (3, bits), "t259": (3, kind), "t266": (3, 2)}
    file = gray_file(21, 9, data=turned, **tags)
    page = mt.TiffFile(file).pages[0]
    numpy.testing.assert_array_equal(page.asarray(), numbers)
    if bits in (1, 8):
        numpy.testing.assert_array_equal(tifffile.imread(io.BytesIO(file)), numbers)
    with pytest.raises(mt.UnsupportedError, match="FillOrder 2"):
        page.asarray(shown=True)


@pytest.mark.parametrize("dtype", ["u1", "u2", "u4"])
def test_white_as_zero_is_as_stored(dtype: str) -> None:
    image = samples((3, 4), dtype)
    bits = 8 * image.itemsize
    file = gray_file(data=image.tobytes(), t258=(3, bits), t262=(3, 0))
    page = mt.TiffFile(file).pages[0]
    assert page.is_inverted and page.photometric == mt.PHOTOMETRIC.MINISWHITE
    assert not mt.TiffFile(gray_file()).pages[0].is_inverted
    numpy.testing.assert_array_equal(mt.imread(file), image)
    numpy.testing.assert_array_equal(tifffile.imread(io.BytesIO(file)), image)
    numpy.testing.assert_array_equal(mt.imread(file, shown=True), (1 << bits) - 1 - image)
    numpy.testing.assert_array_equal(page.read_chunk(0), image)
    numpy.testing.assert_array_equal(page.read_chunk(0, shown=True), (1 << bits) - 1 - image)
    numpy.testing.assert_array_equal(page.read(slice(1, 2), slice(2, 4)), image[1:2, 2:4])


@pytest.mark.parametrize("bits", [1, 2, 4])
def test_white_as_zero_of_few_bits(bits: int) -> None:
    numbers = samples((5, 13), "u1") % (1 << bits)
    file = gray_file(13, 5, data=packed(numbers, bits), t258=(3, bits), t262=(3, 0))
    numpy.testing.assert_array_equal(mt.imread(file), numbers)
    most = (1 << bits) - 1
    numpy.testing.assert_array_equal(mt.imread(file, shown=True), most - numbers)


@pytest.mark.parametrize("byteorder", "<>")
@pytest.mark.parametrize("shape", [(7, 5), (40, 33)])
def test_complex(byteorder: str, shape: tuple[int, int]) -> None:
    image = (samples(shape, "f4") + 1j * samples(shape, "f4")[::-1]).astype("c8")
    file = io.BytesIO()
    tifffile.imwrite(file, image, byteorder=byteorder, photometric="minisblack", tile=(16, 16))
    page = mt.TiffFile(file.getvalue()).pages[0]
    assert (page.shape, page.dtype, page.sampleformat) == (shape, numpy.complex64, 6)
    numpy.testing.assert_array_equal(page.asarray(), image)
    numpy.testing.assert_array_equal(page.read(slice(2, 6), slice(1, 4)), image[2:6, 1:4])


@pytest.mark.parametrize("byteorder", "<>")
@pytest.mark.parametrize("options", [{}, {"tile": (16, 16)}])
def test_wide_complex(byteorder: str, options: dict) -> None:
    image = samples((37, 21), "f8") - 1j * samples((37, 21), "f8")[::-1]
    file = io.BytesIO()
    given = image.astype(image.dtype.newbyteorder(byteorder))
    tifffile.imwrite(file, given, byteorder=byteorder, photometric="minisblack", **options)
    page = mt.TiffFile(file.getvalue()).pages[0]
    assert page.dtype == numpy.complex128
    numpy.testing.assert_array_equal(page.asarray(), image)
    numpy.testing.assert_array_equal(page.read(slice(2, 36), slice(1, 4)), image[2:36, 1:4])


@pytest.mark.parametrize("order", "<>")
@pytest.mark.parametrize("size", [1, 2, 4])
def test_complex_whole_numbers(order: str, size: int) -> None:
    """They are complex numbers, as in tifffile, which lacks those of two bytes."""
    parts = samples((3, 4, 2), f"i{size}")
    data = parts.astype(f"{order}i{size}").tobytes()
    file = gray_file(data=data, order=order, t258=(3, 16 * size), t339=(3, 5))
    read = mt.imread(file)
    assert read.dtype == ("c16" if size == 4 else "c8")
    numpy.testing.assert_array_equal(read.real, parts[:, :, 0])
    numpy.testing.assert_array_equal(read.imag, parts[:, :, 1])
    if size > 1:
        expected = tifffile.imread(io.BytesIO(file))
        assert read.dtype == expected.dtype.newbyteorder("=")
        numpy.testing.assert_array_equal(read, expected)


def test_void_is_unsigned() -> None:
    page = mt.TiffFile(gray_file(t339=(3, 4))).pages[0]
    numpy.testing.assert_array_equal(page.read_chunk(0), page.asarray())
    numpy.testing.assert_array_equal(page.read(slice(1, 2)), page.asarray()[1:2])
    file = gray_file(t339=(3, 4))
    assert mt.TiffFile(file).pages[0].dtype == numpy.uint8
    numpy.testing.assert_array_equal(mt.imread(file), tifffile.imread(io.BytesIO(file)))


def test_a_number_type_that_numpy_lacks() -> None:
    page = mt.TiffFile(gray_file(t339=(3, 3))).pages[0]
    with pytest.raises(mt.UnsupportedError, match="SampleFormat 3 with 8 bits") as error:
        page.asarray()
    assert error.value.status is Status.UNSUPPORTED_SAMPLE_FORMAT
    assert "unread" in repr(page)


@pytest.mark.parametrize("dtype", ["u1", "u2"])
@pytest.mark.parametrize("options", [{}, {"tile": (16, 16)}, {"rowsperstrip": 5}])
def test_a_palette_has_indexes_and_colors(dtype: str, options: dict) -> None:
    colors = samples((3, 1 << (8 * numpy.dtype(dtype).itemsize)), "u2")
    image, made = samples((33, 20), dtype), io.BytesIO()
    tifffile.imwrite(made, image, colormap=colors, metadata=None, **options)
    page = mt.TiffFile(made.getvalue()).pages[0]
    assert page.photometric == mt.PHOTOMETRIC.PALETTE
    assert (page.shape, page.dtype) == ((33, 20), numpy.dtype(dtype))
    numpy.testing.assert_array_equal(page.colormap, colors)
    numpy.testing.assert_array_equal(page.asarray(), image)
    numpy.testing.assert_array_equal(page.read(slice(3, 30), slice(1, 19)), image[3:30, 1:19])
    assert len(list(page.segments())) == page.chunk_count
    with pytest.raises(mt.TiffError) as error:
        page.asarray(shown=True)
    assert error.value.status is Status.INTERPRETATION_WITH_BITS
    assert mt.TiffFile(gray_file()).pages[0].colormap is None


@pytest.mark.parametrize("bits", [1, 2, 4])
def test_a_palette_of_few_colors(bits: int) -> None:
    numbers = samples((5, 13), "u1") % (1 << bits)
    file = gray_file(13, 5, data=packed(numbers, bits), t258=(3, bits), t262=(3, 3))
    numpy.testing.assert_array_equal(mt.imread(file), numbers)


def test_a_packed_palette() -> None:
    """As Pillow writes it, which the library unpacks."""
    image = samples((40, 50), "u1") // 64
    picture = Image.fromarray(image, "P")
    picture.putpalette(list(range(256)) * 3)
    made = io.BytesIO()
    picture.save(made, "TIFF", compression="packbits")
    page = mt.TiffFile(made.getvalue()).pages[0]
    assert (page.photometric, page.compression) == (3, 32773)
    numpy.testing.assert_array_equal(page.asarray(), image)


PHOTOMETRICS = [*range(6), 8, 9, 10, 32803, 32844, 32845, 34892]


@pytest.mark.parametrize("photometric", PHOTOMETRICS)
@pytest.mark.parametrize("count", [1, 3])
@pytest.mark.parametrize("dtype", ["u1", "i2", "f4"])
def test_every_photometric(photometric: int, count: int, dtype: str) -> None:
    """Whatever the samples mean, they are those that tifffile reads."""
    image = samples((3, 4, count), dtype)
    kind = {"u": 1, "i": 2, "f": 3}[dtype[0]]
    tags = {"t258": (3, 8 * image.itemsize), "t277": (3, count), "t339": (3, kind)}
    file = gray_file(data=image.tobytes(), t262=(3, photometric), **tags)
    page, other = mt.TiffFile(file).pages[0], tifffile.TiffFile(io.BytesIO(file)).pages[0]
    assert (page.shape, page.dtype, page.photometric) == (other.shape, other.dtype, photometric)
    numpy.testing.assert_array_equal(page.asarray(), other.asarray())


@pytest.mark.parametrize("photometric", [0, 1, 2, 5])
@pytest.mark.parametrize("count", [1, 3, 4, 5])
@pytest.mark.parametrize("kind", [1, 2, 4])
@pytest.mark.parametrize("bits", [1, 2, 3, 4, 5, 6, 7, 8, 12, 16])
def test_every_depth_of_colors(photometric: int, count: int, kind: int, bits: int) -> None:
    numbers = wide((3, 4 * count), bits)
    data = numbers.astype("u2").tobytes() if bits == 16 else packed_wide(numbers, bits)
    tags = {"t258": (3, bits), "t262": (3, photometric), "t277": (3, count), "t339": (3, kind)}
    page = mt.TiffFile(gray_file(data=data, **tags)).pages[0]
    expected = numbers.astype("i8").reshape(3, 4, count)
    if kind == 2:
        half = 1 << (bits - 1)
        expected = (expected + half) % (2 * half) - half
    read = page.asarray()
    numpy.testing.assert_array_equal(read.reshape(expected.shape), expected)
    assert read.dtype.kind == ("i" if kind == 2 else "b" if bits == 1 else "u")


MODES = ["1", "L", "P", "LA", "PA", "RGB", "RGBA", "RGBX", "CMYK", "I", "I;16", "F", "LAB"]


@pytest.mark.parametrize("mode", MODES)
@pytest.mark.parametrize("compression", [None, "packbits"])
def test_modes_of_pillow(mode: str, compression: str | None) -> None:
    """A file of each mode of Pillow has the array of its image."""
    colors, made = samples((40, 50, 3), "u1"), io.BytesIO()
    if mode == "I;16":
        image = Image.fromarray(samples((40, 50), "u2"))
    else:
        image = Image.fromarray(colors, "LAB" if mode == "LAB" else None)
        image = image if mode == "LAB" else image.convert(mode)
    image.save(made, "TIFF", **({"compression": compression} if compression else {}))
    read, expected = mt.imread(made.getvalue()), numpy.asarray(Image.open(made))
    assert read.dtype == expected.dtype
    numpy.testing.assert_array_equal(read, expected)


def test_a_packed_chunk_that_is_cut() -> None:
    file = gray_file(4, 3, data=b"\3abcd", t259=(3, 32773), t262=(3, 3))
    with mt.TiffFile(file) as tif, pytest.raises(mt.TiffError) as error:
        tif.asarray()
    assert error.value.status is Status.UNEXPECTED_EOF and error.value.page == 0


@pytest.mark.parametrize("tags", [{"t262": (3, 3)}, {"t258": (3, 12)}, {"t266": (3, 2)}])
def test_a_stored_chunk_that_is_cut(tags: dict, tmp_path: Path) -> None:
    """The file can be closed behind the error."""
    path = tmp_path / "cut.tif"
    path.write_bytes(gray_file(40, 30, data=bytes(100), **tags))
    with mt.TiffFile(path) as tif, pytest.raises(mt.TiffError) as error:
        tif.asarray()
    assert error.value.status is Status.UNEXPECTED_EOF and error.value.page == 0


@pytest.mark.parametrize("dtype", ["u1", "u2", "i2", "f4"])
@pytest.mark.parametrize("count", [4, 5, 7])
@pytest.mark.parametrize("byteorder", "<>")
@pytest.mark.parametrize("options", [{}, {"tile": (16, 16)}, {"rowsperstrip": 3}])
def test_extra_samples_side_by_side(
    dtype: str, count: int, byteorder: str, options: dict
) -> None:
    """They are in the array; the library leaves them out of what it shows."""
    image = samples((37, 21, count), dtype)
    made = io.BytesIO()
    options = {"extrasamples": ("unspecified",) * (count - 3), "metadata": None, **options}
    given = image.astype(image.dtype.newbyteorder(byteorder))
    tifffile.imwrite(made, given, photometric="rgb", byteorder=byteorder, **options)
    page = mt.TiffFile(made.getvalue()).pages[0]
    assert page.shape == (37, 21, count) and page.extrasamples == (0,) * (count - 3)
    numpy.testing.assert_array_equal(page.asarray(), image)
    numpy.testing.assert_array_equal(page.read(slice(4, 30), slice(2, 19)), image[4:30, 2:19])
    expected = list(tifffile.TiffFile(io.BytesIO(made.getvalue())).pages[0].segments())
    for found, other in zip(page.segments(), expected):
        assert found[1:] == other[1:]
        numpy.testing.assert_array_equal(found[0], other[0])
    if dtype != "i2":
        numpy.testing.assert_array_equal(page.asarray(shown=True), image[:, :, :3])
    assert page.shape_of(shown=True) == (37, 21, 3)


@pytest.mark.parametrize("workers", [1, 4])
@pytest.mark.parametrize("options", [{"tile": (16, 16)}, {"rowsperstrip": 3}])
def test_threads_read_what_is_stored(
    workers: int, options: dict, monkeypatch: pytest.MonkeyPatch
) -> None:
    image = samples((37, 50, 5), "u2")
    for planarconfig, compression in (("contig", "packbits"), ("contig", None), ("separate", None)):
        given = image if planarconfig == "contig" else image.transpose(2, 0, 1)
        settings = {"planarconfig": planarconfig, "compression": compression, **options}
        page = mt.TiffFile(mt.imwrite(None, given, photometric="rgb", **settings)).pages[0]
        for stretch in (1, 500, 1 << 20):
            monkeypatch.setattr(_parts, "STRETCH", stretch)
            numpy.testing.assert_array_equal(page.asarray(workers=workers), given)
            part = page.read(slice(5, 30), slice(20, 50), workers=workers)
            expected = image[5:30, 20:50]
            planar = planarconfig == "separate"
            numpy.testing.assert_array_equal(
                part, expected.transpose(2, 0, 1) if planar else expected
            )


@pytest.mark.parametrize("options", [{}, {"tile": (16, 16), "compression": "packbits"}])
@pytest.mark.parametrize("dtype", ["u1", "u2", "u4"])
def test_extra_samples_stored_as_differences(dtype: str, options: dict) -> None:
    image = samples((37, 21, 5), dtype)
    file = mt.imwrite(None, image, photometric="rgb", predictor=True, **options)
    page = mt.TiffFile(file).pages[0]
    assert page.predictor == 2
    numpy.testing.assert_array_equal(page.asarray(), image)
    if options:
        numpy.testing.assert_array_equal(tifffile.imread(io.BytesIO(file)), image)


def test_stored_pages_that_are_refused() -> None:
    """What isn't taken from the file raises the library's errors, or names what it is."""
    for tags, status in (
        ({"t262": (3, 3), "t259": (3, 5)}, Status.UNSUPPORTED_COMPRESSION_METHOD),
        ({"t258": (3, 12), "t317": (3, 2)}, Status.HORIZONTAL_PREDICTOR),
        ({"t266": (3, 2), "t317": (3, 3)}, Status.FLOATING_POINT_PREDICTOR),
        ({"t258": (3, 24)}, Status.UNSUPPORTED_BITS_PER_CHANNEL),
    ):
        with pytest.raises(mt.TiffError) as error:
            mt.imread(gray_file(**tags))
        assert error.value.status is status


@pytest.mark.parametrize("options", [{}, {"tile": (16, 16)}, {"rowsperstrip": 3}])
def test_extra_samples_in_planes_are_read(options: dict) -> None:
    image = samples((5, 37, 21), "u2")
    made = io.BytesIO()
    tifffile.imwrite(made, image, photometric="rgb", planarconfig="separate", **options)
    page = mt.TiffFile(made.getvalue()).pages[0]
    assert page.shape == (5, 37, 21)
    numpy.testing.assert_array_equal(page.asarray(), image)
    numpy.testing.assert_array_equal(page.read(slice(4, 30), slice(2, 19)), image[:, 4:30, 2:19])
    numpy.testing.assert_array_equal(page.asarray(shown=True), image[:3])
    assert len(list(page.segments())) == page.chunk_count
    assert len(list(page.segments(shown=True))) == page.chunk_count * 3 // 5


@pytest.mark.parametrize("extra", ["assocalpha", "unassalpha", "unspecified"])
def test_gray_with_an_extra_sample(extra: str) -> None:
    image = samples((7, 5, 2), "u1")
    made = io.BytesIO()
    tifffile.imwrite(
        made, image, photometric="minisblack", planarconfig="contig", extrasamples=[extra]
    )
    numpy.testing.assert_array_equal(mt.imread(made.getvalue()), image)


REFUSED = {
    "ImageDepth": ({"t32997": (4, 3)}, Status.UNSUPPORTED_DATA_TYPE),
    "offset": ({"t273": (4, 0)}, Status.INCONSISTENT_SIZES_ENCOUNTERED),
}


@pytest.mark.parametrize("name", REFUSED)
def test_pages_of_which_other_samples_would_come(name: str) -> None:
    tags, status = REFUSED[name]
    page = mt.TiffFile(gray_file(**tags)).pages[0]
    for read in (page.asarray, lambda: page.read_chunk(0), lambda: next(page.segments())):
        with pytest.raises(mt.UnsupportedError, match=name) as error:
            read()
        assert error.value.status is status and error.value.page == 0


@pytest.mark.parametrize("nodata", [None, "7", "-9999", "nan", "x"])
@pytest.mark.parametrize("dtype", ["u1", "i2", "f4"])
@pytest.mark.parametrize("options", [{"tile": (16, 16)}, {"rowsperstrip": 7}])
def test_chunks_that_the_file_does_not_have(nodata: str | None, dtype: str, options: dict) -> None:
    """They are filled as tifffile fills them, by GDAL's tag or with zeros."""
    image, made = samples((40, 50), dtype), io.BytesIO()
    extra = [] if nodata is None else [(42113, "s", 0, nodata, True)]
    options = {"photometric": "minisblack", "extratags": extra, "metadata": None, **options}
    tifffile.imwrite(made, image, **options)
    file = bytearray(made.getvalue())
    tags = tifffile.TiffFile(io.BytesIO(file)).pages[0].tags
    for tag in (tags[324 if "tile" in options else 273], tags[325 if "tile" in options else 279]):
        size = tag.valuebytecount // tag.count
        file[tag.valueoffset + 2 * size : tag.valueoffset + 4 * size] = bytes(2 * size)
    page, other = mt.TiffFile(file).pages[0], tifffile.TiffFile(io.BytesIO(file)).pages[0]
    numpy.testing.assert_array_equal(page.nodata, other.nodata)
    with warnings.catch_warnings():
        warnings.simplefilter("ignore", DeprecationWarning)
        expected = other.asarray()
    numpy.testing.assert_array_equal(page.asarray(), expected)
    numpy.testing.assert_array_equal(page.read(slice(3, 33), slice(9, 49)), expected[3:33, 9:49])
    assert (expected != image).any()
    for refused in (lambda: next(page.segments()), lambda: page.asarray(shown=True)):
        with pytest.raises(mt.UnsupportedError, match="offset or its length is 0"):
            refused()


ROWS = [1, 2, 3, 4, 65535, 1 << 31, (1 << 32) - 3, (1 << 32) - 2, (1 << 32) - 1]


@pytest.mark.parametrize("rows", ROWS)
def test_rows_of_a_strip(rows: int) -> None:
    """More rows than the image has are one strip, also the largest number, as TIFF has for it."""
    if rows < 3:
        made = io.BytesIO()
        tifffile.imwrite(made, samples((3, 4), "u1"), rowsperstrip=rows, metadata=None)
        file = made.getvalue()
    else:
        file = gray_file(data=samples((3, 4), "u1").tobytes(), t278=(4, rows))
    page, other = mt.TiffFile(file).pages[0], tifffile.TiffFile(io.BytesIO(file)).pages[0]
    assert (page.rowsperstrip, page.chunks) == (other.rowsperstrip, other.chunks)
    assert page.chunk_count == -(-3 // rows) and page.color is mt.ColorKind.GRAY
    for call in (page.asarray, mt.TiffFile(file).page_at(page.offset).asarray):
        numpy.testing.assert_array_equal(call(), samples((3, 4), "u1"))
    numpy.testing.assert_array_equal(page.read_chunk(0), samples((3, 4), "u1")[:rows])


@pytest.mark.parametrize("code", [256, 257, 258, 273, 279])
def test_a_tag_of_the_layout_that_is_there_twice(code: int) -> None:
    """The library reads the last one and tifffile the first: the page is refused."""
    file = gray_file(t65000=(3, 2)).replace(struct.pack("<H", 65000), struct.pack("<H", code))
    page = mt.TiffFile(file).pages[0]
    with pytest.raises(mt.UnsupportedError, match=f"tag {code} twice"):
        page.asarray()
    with pytest.raises(mt.UnsupportedError, match=f"tag {code} twice"):
        page.read_chunk(0)


def test_a_packed_chunk_of_no_bytes() -> None:
    file = gray_file(t279=(4, 0), t259=(3, 32773))
    numpy.testing.assert_array_equal(mt.imread(file), numpy.zeros((3, 4)))
    numpy.testing.assert_array_equal(tifffile.imread(io.BytesIO(file)), numpy.zeros((3, 4)))


STORED = {
    "a palette": gray_file(t262=(3, 3)),
    "packed": gray_file(data=b"\13" + bytes(range(12)), t259=(3, 32773), t262=(3, 3)),
    "twelve bits": gray_file(data=bytes(18), t258=(3, 12)),
    "turned": gray_file(t266=(3, 2)),
    "complex whole numbers": gray_file(data=bytes(48), order=">", t258=(3, 32), t339=(3, 5)),
    "differences": gray_file(t262=(3, 3), t317=(3, 2)),
    "a color filter array": gray_file(t262=(3, 32803)),
}


@pytest.mark.parametrize("name", STORED)
def test_every_changed_byte(name: str) -> None:
    """Whatever the file has, there is an array or an error of this package."""
    good, read = STORED[name], 0
    assert mt.imread(good).shape == (3, 4)
    for place in range(len(good)):
        for byte in {0, 1, 127, 255, good[place] ^ 1} - {good[place]}:
            file = bytearray(good)
            file[place] = byte
            try:
                for page in mt.TiffFile(file):
                    if page.status is Status.DONE and page.nbytes < 1 << 20:
                        page.asarray(workers=1)
                        page.read(slice(1, 2), slice(1, 3))
                        read += 1
            except mt.TiffError as error:
                assert error.status is not Status.DONE
    assert read > 100


def test_a_wide_packed_tile_allocates_nothing() -> None:
    """A tile that claims to have columns which the file can't have is refused at once."""
    tags = {"t259": (3, 32773), "t262": (3, 3), "t322": (4, 1 << 31), "t323": (4, 16)}
    file = gray_file(data=b"\201\0" * 8, **tags, t324=(4, 8), t325=(4, 16))
    page = mt.TiffFile(bytes(file)).pages[0]
    if page.status is Status.DONE:
        with pytest.raises(mt.TiffError):
            page.asarray()
