"""What is written with the parameters of tifffile is what tifffile reads."""
from __future__ import annotations

import datetime
import io

import numpy
import pytest
import tifffile
from conftest import samples

import mangohatch_tiff as mt


def assert_same(
    image: numpy.ndarray, expected: object = None, **options: object
) -> tifffile.TiffPage:
    """Writes an array, compares what tifffile and this package read, and returns the first page."""
    file = mt.imwrite(None, image, **options)
    tif = tifffile.TiffFile(io.BytesIO(file))
    wanted = image if expected is None else expected
    numpy.testing.assert_array_equal(tif.asarray(), wanted)
    numpy.testing.assert_array_equal(mt.imread(file), wanted)
    assert tif.asarray().dtype == image.dtype
    return tif.pages[0]


GRAY = [f"{kind}{size}" for kind in "ui" for size in (1, 2, 4, 8)] + ["f4", "f8"]
STORED = [
    {"tile": (16, 32)},
    {"tile": (16, 32), "compression": "packbits"},
    {"rowsperstrip": 5},
    {"rowsperstrip": 500},
    {"rowsperstrip": 5, "compression": "packbits", "bigtiff": True},
]


@pytest.mark.parametrize("dtype", GRAY)
@pytest.mark.parametrize("options", STORED)
def test_strips_and_tiles(dtype: str, options: dict) -> None:
    page = assert_same(samples((37, 53), dtype), **options)
    if "tile" in options:
        assert (page.tilelength, page.tilewidth) == options["tile"]
    else:
        assert page.rowsperstrip == min(options["rowsperstrip"], 37)
    assert page.compression == (32773 if "compression" in options else 1)
    assert page.parent.is_bigtiff == options.get("bigtiff", False)


def test_floating_numbers_that_are_none() -> None:
    image = numpy.array([[numpy.nan, numpy.inf, -0.0], [-numpy.inf, 1e-45, 3]], "f4")
    file = mt.imwrite(None, image, rowsperstrip=1)
    assert tifffile.imread(io.BytesIO(file)).tobytes() == image.tobytes()


@pytest.mark.parametrize("options", [{}, *STORED])
@pytest.mark.parametrize("planarconfig", [None, "contig", "separate"])
@pytest.mark.parametrize("count", [3, 4, 5])
def test_colors(options: dict, planarconfig: str | None, count: int) -> None:
    shape = (count, 37, 53) if planarconfig == "separate" else (37, 53, count)
    image = samples(shape, "u2")
    file = mt.imwrite(None, image, photometric="rgb", planarconfig=planarconfig, **options)
    page = tifffile.TiffFile(io.BytesIO(file)).pages[0]
    numpy.testing.assert_array_equal(page.asarray(), image)
    assert page.photometric == 2 and page.samplesperpixel == count
    assert page.planarconfig == (2 if planarconfig == "separate" else 1)
    numpy.testing.assert_array_equal(mt.imread(file), image)


EXTRAS = [("unassalpha",), ("assocalpha",), (2,), ("unspecified", "assocalpha")]


@pytest.mark.parametrize("options", [{}, {"tile": (16, 16)}])
@pytest.mark.parametrize("extra", EXTRAS)
def test_extra_samples(options: dict, extra: tuple) -> None:
    image = samples((20, 30, 3 + len(extra)), "u1")
    file = mt.imwrite(None, image, photometric="rgb", extrasamples=extra, **options)
    page = tifffile.TiffFile(io.BytesIO(file)).pages[0]
    numpy.testing.assert_array_equal(page.asarray(), image)
    wanted = {"unassalpha": 2, "assocalpha": 1, "unspecified": 0, 2: 2}
    assert page.extrasamples == tuple(wanted[kind] for kind in extra)


@pytest.mark.parametrize("dtype", ["u1", "u2", "f4"])
@pytest.mark.parametrize("planarconfig", ["contig", "separate"])
@pytest.mark.parametrize("options", [{}, {"tile": (16, 16)}])
def test_a_fourth_sample_of_rgb(dtype: str, planarconfig: str, options: dict) -> None:
    """It is alpha, and the tag ExtraSamples says so, as in tifffile's files."""
    image = samples((4, 20, 30) if planarconfig == "separate" else (20, 30, 4), dtype)
    options = {"photometric": "rgb", "planarconfig": planarconfig, "metadata": None, **options}
    made = io.BytesIO()
    tifffile.imwrite(made, image, **options)
    theirs = tifffile.TiffFile(io.BytesIO(made.getvalue())).pages[0]
    page = assert_same(image, **options)
    assert page.extrasamples == theirs.extrasamples == (2,)
    ours = mt.TiffFile(mt.imwrite(None, image, **options)).pages[0]
    assert ours.extrasamples == (2,) and ours.shape == image.shape


@pytest.mark.parametrize("count", [2, 3, 5])
@pytest.mark.parametrize("planarconfig", ["contig", "separate"])
def test_several_samples_of_gray(count: int, planarconfig: str) -> None:
    shape = (count, 20, 30) if planarconfig == "separate" else (20, 30, count)
    options = {"photometric": "minisblack", "planarconfig": planarconfig}
    page = assert_same(samples(shape, "u2"), **options)
    assert page.extrasamples == (0,) * (count - 1)


def test_separated() -> None:
    image = samples((20, 30, 4), "u1")
    assert assert_same(image, photometric="separated").photometric == 5


@pytest.mark.parametrize("dtype", ["u1", "u2", "u4"])
@pytest.mark.parametrize("shape", [(20, 30), (5, 20, 30)])
@pytest.mark.parametrize("options", [{}, *STORED[:3]])
def test_white_as_zero(dtype: str, shape: tuple[int, ...], options: dict) -> None:
    page = assert_same(samples(shape, dtype), photometric="miniswhite", **options)
    assert page.photometric == 0
    with pytest.raises(mt.UnsupportedError, match="miniswhite of type float32"):
        mt.imwrite(None, samples(shape, "f4"), photometric="miniswhite")


@pytest.mark.parametrize("dtype", ["u1", "u2"])
@pytest.mark.parametrize("photometric", [None, "palette"])
@pytest.mark.parametrize("options", [{}, *STORED[:3]])
def test_palettes(dtype: str, photometric: str | None, options: dict) -> None:
    image, colors = samples((20, 30), dtype), samples((3, 256 if dtype == "u1" else 65536), "u2")
    page = assert_same(image, photometric=photometric, colormap=colors, **options)
    assert page.photometric == 3
    numpy.testing.assert_array_equal(page.colormap, colors)
    file = mt.imwrite(None, image, photometric=photometric, colormap=colors, **options)
    numpy.testing.assert_array_equal(mt.TiffFile(file)[0].colormap, colors)


STACKS = [(20, 12, 10), (2, 12, 10), (1, 12, 10), (2, 5, 12, 10), (2, 7, 12, 1), (2, 5, 2, 12, 10)]


@pytest.mark.parametrize("shape", STACKS)
@pytest.mark.parametrize("dtype", ["u1", "i2", "f8"])
@pytest.mark.parametrize("metadata", [None, {}, {"spacing": 0.5}])
def test_stacks(shape: tuple[int, ...], dtype: str, metadata: dict | None) -> None:
    """An array is written as the pages that tifffile writes, and read as tifffile reads them."""
    image = samples(shape, dtype)
    options = {"photometric": "minisblack", "metadata": metadata}
    made = io.BytesIO()
    tifffile.imwrite(made, image, **options)
    expected = tifffile.imread(io.BytesIO(made.getvalue()))
    if metadata is not None and len(expected) > 1:
        image = numpy.repeat(image, 80 * 8, axis=-2)
        made = io.BytesIO()
        tifffile.imwrite(made, image, **options)
        expected = tifffile.imread(io.BytesIO(made.getvalue()))
    page = assert_same(image, expected, **options)
    theirs = tifffile.TiffFile(io.BytesIO(made.getvalue()))
    assert len(page.parent.pages) == len(theirs.pages)
    assert page.parent.series[0].shape == theirs.series[0].shape
    if metadata:
        assert page.parent.shaped_metadata[0]["spacing"] == 0.5


@pytest.mark.parametrize("photometric", ["rgb", "minisblack"])
@pytest.mark.parametrize("planarconfig", ["contig", "separate"])
def test_stacks_of_colors(photometric: str, planarconfig: str) -> None:
    shape = (6, 12, 10, 3) if planarconfig == "contig" else (6, 3, 12, 10)
    assert_same(samples(shape, "u2"), photometric=photometric, planarconfig=planarconfig)


PLACES = [((3, 20, 30), 2), ((2, 4, 20, 30), 2), ((20, 30, 3), 1), ((9, 20, 30), 2)]


@pytest.mark.parametrize(("shape", "planarconfig"), PLACES)
def test_colors_without_a_planarconfig(shape: tuple[int, ...], planarconfig: int) -> None:
    """Samples are where tifffile takes them to be, and are stored in the same order."""
    image = samples(shape, "u1")
    made = io.BytesIO()
    tifffile.imwrite(made, image, photometric="rgb", metadata=None)
    theirs = tifffile.TiffFile(io.BytesIO(made.getvalue())).pages[0]
    file = mt.imwrite(None, image, photometric="rgb")
    page = tifffile.TiffFile(io.BytesIO(file)).pages[0]
    assert page.planarconfig == theirs.planarconfig == planarconfig
    assert page.shape == theirs.shape
    numpy.testing.assert_array_equal(page.asarray(), theirs.asarray())


def test_colors_without_a_photometric() -> None:
    assert assert_same(samples((12, 10, 3), "u1")).photometric == 2
    assert assert_same(samples((12, 10, 4), "u2")).photometric == 2
    assert assert_same(samples((5, 12, 10, 3), "u1")).photometric == 2
    assert assert_same(samples((5, 12, 10), "u1")).photometric == 1
    assert assert_same(samples((5, 12, 10), "u1"), planarconfig="contig").samplesperpixel == 10


def test_texts_and_dates() -> None:
    date = datetime.datetime(2026, 11, 28, 23, 59, 58)
    texts = {"description": "a scan", "software": b"caf\xe9", "datetime": date}
    page = assert_same(samples((2, 12, 10), "u1"), **texts, subfiletype=2)
    assert page.description == "a scan"
    assert page.software == "caf\xe9"
    assert page.datetime == date
    second = page.parent.pages[1]
    assert page.subfiletype == second.subfiletype == 2
    assert 270 not in second.tags and 305 not in second.tags and 306 not in second.tags
    assert_same(samples((12, 10), "u1"), datetime="2026:11:28 23:59:58")
    page = assert_same(samples((12, 10), "u1"), datetime=True, software=True)
    assert page.datetime is not None and page.software == "mangohatch_tiff"
    file = mt.imwrite(None, samples((12, 10), "u1"), **texts)
    ours = mt.TiffFile(file).pages[0]
    assert (ours.description, ours.software) == ("a scan", "caf\xe9")
    assert mt.TiffFile(mt.imwrite(None, samples((3, 4), "u1"))).pages[0].description == ""


RESOLUTIONS = [
    ((300, 150.5), None),
    (((1, 3), (300, 7)), "centimeter"),
    ((72, 72), "none"),
    ((0.1, 1e5), 2),
]


@pytest.mark.parametrize(("resolution", "unit"), RESOLUTIONS)
def test_resolutions(resolution: tuple, unit: object) -> None:
    image = samples((12, 10), "u1")
    page = assert_same(image, resolution=resolution, resolutionunit=unit)
    made = io.BytesIO()
    tifffile.imwrite(made, image, resolution=resolution, resolutionunit=unit, metadata=None)
    theirs = tifffile.TiffFile(io.BytesIO(made.getvalue())).pages[0]
    assert page.resolution == theirs.resolution
    assert page.resolutionunit == theirs.resolutionunit
    ours = mt.TiffFile(mt.imwrite(None, image, resolution=resolution, resolutionunit=unit)).pages[0]
    assert (ours.resolution, ours.resolutionunit) == (page.resolution, page.resolutionunit)


EXTRA = [
    (65000, "B", 3, (1, 2, 255), True),
    (65001, "s", 0, "a text", True),
    (65002, "H", 2, (1, 65535), False),
    (65003, 4, 2, (1, 4294967295), True),
    (65004, "2I", 2, (1, 3, 300, 7), True),
    (65005, "b", 3, (-1, 2, -128), True),
    (65006, 7, 3, b"abc", True),
    (65007, "h", 2, numpy.array([-1, 32767]), True),
    (65008, "i", 1, -70000, True),
    (65009, "2i", 1, (-1, 3), True),
    (65010, "f", 2, (0.5, -2.25), True),
    (65011, "d", 1, 3.141592653589793, True),
    (65012, tifffile.DATATYPE.SHORT, 1, 7, True),
    (65013, 13, 1, 8, True),
    (33550, "d", 3, [0.5, 0.5, 0], True),
]


@pytest.mark.parametrize("big", [False, True])
def test_extra_tags(big: bool) -> None:
    extra = [*EXTRA, (65016, "Q", 1, 1 << 40, True), (65017, "q", 1, -1, True)] if big else EXTRA
    page = assert_same(samples((2, 12, 10), "u1"), extratags=extra, bigtiff=big)
    made = io.BytesIO()
    tifffile.imwrite(
        made, samples((12, 10), "u1"), extratags=extra, bigtiff=big, metadata=None, byteorder="<"
    )
    theirs = tifffile.TiffFile(io.BytesIO(made.getvalue())).pages[0].tags
    for code, *_ in extra:
        ours, other = page.tags[code], theirs[code]
        assert (ours.dtype, ours.count, ours.value) == (other.dtype, other.count, other.value)
    second = page.parent.pages[1].tags
    assert 65002 in second and 65000 not in second


def test_sizes_decide_the_kind_of_file() -> None:
    image = samples((3, 4), "u1")
    for big, wanted in ((None, False), (False, False), (True, True)):
        file = mt.imwrite(None, image, bigtiff=big)
        with mt.TiffFile(file) as tif:
            assert tif.is_bigtiff == wanted
        assert mt.TiffFile(mt.imwrite(None, image, bigtiff=big, tile=(16, 16))).is_bigtiff == wanted


def test_targets(tmp_path) -> None:
    image = samples((5, 12, 10), "u1")
    expected = mt.imwrite(None, image)
    assert mt.imwrite(tmp_path / "a.tif", image) is None
    assert mt.imwrite(str(tmp_path / "b.tif"), image) is None
    memory = io.BytesIO()
    mt.imwrite(memory, image)
    with open(tmp_path / "c.tif", "wb") as file:
        mt.imwrite(file, image)
    for name in "abc":
        assert (tmp_path / f"{name}.tif").read_bytes() == expected == memory.getvalue()


class Slow(io.RawIOBase):
    """An open file that takes a few bytes at a time."""

    def __init__(self) -> None:
        self.taken = b""

    def write(self, data: memoryview) -> int:
        part = bytes(data[:100])
        self.taken += part
        return len(part)


def test_files_that_take_a_part_at_a_time() -> None:
    slow = Slow()
    mt.imwrite(slow, samples((12, 100), "u1"))
    assert slow.taken == mt.imwrite(None, samples((12, 100), "u1"))
