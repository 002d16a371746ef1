"""Pages of 1, 2 and 4 bits a pixel are written: bool arrays, and numbers of 8 bits."""
from __future__ import annotations

import io
import shutil
import subprocess
from pathlib import Path

import numpy
import pytest
import tifffile
from conftest import samples
from PIL import Image

import mangohatch_tiff as mt
from mangohatch_tiff import PageField, Status
from mangohatch_tiff._samples import packed, unpacked

WIDTHS = [1, 7, 8, 9, 64, 77]
STORED = [
    {},
    {"compression": "packbits"},
    {"rowsperstrip": 5},
    {"rowsperstrip": 5, "compression": "packbits"},
    {"bigtiff": True},
    {"description": "noise", "bigtiff": True, "compression": "packbits"},
]


def noise(shape: tuple[int, ...], bits: int) -> numpy.ndarray:
    """Returns numbers of so many bits, with runs in rows."""
    numbers = numpy.random.default_rng(bits).integers(0, 1 << bits, shape, "u1")
    numbers[1::3] = numbers[1::3, :1]
    return numbers


def rows_of(page: tifffile.TiffPage, file: bytes) -> bytes:
    """Returns the bytes of all strips of a page that isn't packed, one behind the other."""
    places = zip(page.dataoffsets, page.databytecounts)
    return b"".join(file[start : start + size] for start, size in places)


@pytest.mark.parametrize("options", STORED)
@pytest.mark.parametrize("width", WIDTHS)
def test_bool_arrays(width: int, options: dict) -> None:
    image = noise((19, width), 1).astype(bool)
    file = mt.imwrite(None, image, **options)
    page = tifffile.TiffFile(io.BytesIO(file)).pages[0]
    facts = page.bitspersample, page.samplesperpixel, page.photometric, page.sampleformat
    assert facts == (1, 1, 1, 1) and page.compression == (32773 if "compression" in options else 1)
    assert page.parent.is_bigtiff == options.get("bigtiff", False)
    for read in (page.asarray(), mt.imread(file), mt.imread(file, shown=True)):
        assert read.dtype == bool
        numpy.testing.assert_array_equal(read, image)
    if "compression" not in options:
        assert rows_of(page, file) == numpy.packbits(image, axis=-1).tobytes()
    opened = Image.open(io.BytesIO(file))
    assert opened.mode == "1"
    numpy.testing.assert_array_equal(numpy.asarray(opened), image)


@pytest.mark.parametrize("options", STORED)
@pytest.mark.parametrize("width", WIDTHS)
@pytest.mark.parametrize("bits", [1, 2, 4])
def test_numbers_of_few_bits(bits: int, width: int, options: dict) -> None:
    image = noise((19, width), bits)
    file = mt.imwrite(None, image, bitspersample=bits, **options)
    page = tifffile.TiffFile(io.BytesIO(file)).pages[0]
    assert (page.bitspersample, page.photometric) == (bits, 1)
    ours = mt.TiffFile(file).pages[0]
    assert (ours.bitspersample, ours.shape) == (bits, image.shape)
    numpy.testing.assert_array_equal(ours.asarray(), image)
    if "compression" not in options:
        assert rows_of(page, file) == packed(image, bits).tobytes()
    # Pillow stretches numbers of 2 and 4 bits to 8.
    shown = numpy.asarray(Image.open(io.BytesIO(file))).astype("u1")
    numpy.testing.assert_array_equal(shown, image * (1 if bits == 1 else 255 // ((1 << bits) - 1)))
    if bits == 1:
        numpy.testing.assert_array_equal(page.asarray(), image)


@pytest.mark.parametrize("bits", range(1, 9))
def test_packing(bits: int) -> None:
    for columns in range(1, 20):
        numbers = noise((5, columns), bits)
        raw = packed(numbers, bits)
        assert raw.shape == (5, -(-columns * bits // 8))
        numpy.testing.assert_array_equal(unpacked(raw, bits, columns), numbers)
        single = numpy.unpackbits(raw, axis=1)
        assert not single[:, columns * bits :].any()


STACKS = [(5, 19, 23), (2, 3, 19, 23), (3, 19, 23), (19, 23, 3), (4, 1, 1)]


@pytest.mark.parametrize("shape", STACKS)
def test_stacks(shape: tuple[int, ...]) -> None:
    """As in tifffile, bool arrays are gray pages, whatever their sides."""
    image = noise(shape, 1).astype(bool)
    file, made = mt.imwrite(None, image), io.BytesIO()
    tifffile.imwrite(made, image, photometric="minisblack", metadata=None)
    ours, theirs = (tifffile.TiffFile(io.BytesIO(one)) for one in (file, made.getvalue()))
    assert len(ours.pages) == len(theirs.pages)
    for one, other in zip(ours.pages, theirs.pages):
        assert (one.shape, one.dtype, one.bitspersample) == (other.shape, bool, 1)
        numpy.testing.assert_array_equal(one.asarray(), other.asarray())
        assert rows_of(one, file) == rows_of(other, made.getvalue())
    numpy.testing.assert_array_equal(mt.imread(file), mt.imread(made.getvalue()))


def test_white_as_zero() -> None:
    image = noise((19, 23), 1).astype(bool)
    file = mt.imwrite(None, image, photometric="miniswhite")
    page = tifffile.TiffFile(io.BytesIO(file)).pages[0]
    assert page.photometric == 0
    numpy.testing.assert_array_equal(page.asarray(), image)
    numpy.testing.assert_array_equal(mt.imread(file), image)
    numpy.testing.assert_array_equal(mt.imread(file, shown=True), ~image)
    numpy.testing.assert_array_equal(numpy.asarray(Image.open(io.BytesIO(file))), ~image)
    file = mt.imwrite(None, noise((19, 23), 4), photometric="miniswhite", bitspersample=4)
    numpy.testing.assert_array_equal(mt.imread(file), noise((19, 23), 4))
    numpy.testing.assert_array_equal(mt.imread(file, shown=True), 15 - noise((19, 23), 4))


def test_arrays_of_other_layouts() -> None:
    image = noise((40, 60), 1).astype(bool)
    wanted = mt.imwrite(None, image[::2, ::3].copy())
    assert mt.imwrite(None, image[::2, ::3]) == wanted
    assert mt.imwrite(None, numpy.asfortranarray(image[::2, ::3])) == wanted
    assert mt.imwrite(None, image[::2, ::3].view("u1"), bitspersample=1) == wanted
    assert mt.imwrite(None, image[::2, ::3].view("u1") * 1, bitspersample=1) == wanted


def test_what_asks_for_nothing() -> None:
    for dtype, bits in (("u1", 8), ("u2", 16), ("f4", 32), ("i8", 64)):
        image = samples((3, 5), dtype)
        assert mt.imwrite(None, image, bitspersample=bits) == mt.imwrite(None, image)
    image = samples((3, 5), "u1") > 9
    assert mt.imwrite(None, image, bitspersample=1) == mt.imwrite(None, image)


def test_pages_are_added(tmp_path: Path) -> None:
    path, image = tmp_path / "pages.tif", noise((19, 23), 1).astype(bool)
    with mt.TiffWriter(path) as writer:
        writer.write(image, compression="packbits")
        writer.write(noise((19, 23), 2), bitspersample=2)
        writer.write(samples((19, 23), "u2"))
    mt.imwrite(path, ~image, append=True)
    for read in (mt.TiffFile(path), tifffile.TiffFile(path)):
        with read as tif:
            assert [page.bitspersample for page in tif.pages] == [1, 2, 16, 1]
            numpy.testing.assert_array_equal(tif.pages[0].asarray(), image)
            numpy.testing.assert_array_equal(tif.pages[3].asarray(), ~image)
    numpy.testing.assert_array_equal(mt.imread(path, key=1), noise((19, 23), 2))


def test_a_large_page_in_several_strips() -> None:
    image = noise((4000, 3001), 1).astype(bool)
    file = mt.imwrite(None, image)
    assert mt.TiffFile(file).pages[0].chunk_count == -(-4000 * 376 // (376 * -(-1_000_000 // 376)))
    numpy.testing.assert_array_equal(mt.imread(file), image)
    numpy.testing.assert_array_equal(tifffile.imread(io.BytesIO(file)), image)


@pytest.mark.skipif(not shutil.which("tiffcp"), reason="libtiff-tools is missing")
@pytest.mark.parametrize("bits", [1, 2, 4])
def test_libtiff_reads(bits: int, tmp_path: Path) -> None:
    """It unpacks PackBits, and writes the rows of bytes into another file."""
    path, other, image = tmp_path / "image.tif", tmp_path / "other.tif", noise((19, 23), bits)
    mt.imwrite(path, image, bitspersample=bits, compression="packbits")
    output = subprocess.run(["tiffinfo", path], capture_output=True, text=True, check=True).stdout
    assert f"Bits/Sample: {bits}" in output or bits == 1
    assert "Compression Scheme: PackBits" in output and "min-is-black" in output
    subprocess.run(["tiffcp", "-c", "none", path, other], capture_output=True, check=True)
    page = tifffile.TiffFile(other).pages[0]
    assert (page.bitspersample, page.compression) == (bits, 1)
    assert rows_of(page, other.read_bytes()) == packed(image, bits).tobytes()


REFUSED = [
    ({"tile": (16, 16)}, "tiles of samples of 1 bit: strips are written"),
    ({"photometric": "rgb", "planarconfig": "contig"}, "rgb of samples of 1 bit: gray ones"),
    ({"photometric": "minisblack", "planarconfig": "contig"}, "3 samples of 1 bit a pixel"),
    ({"photometric": "minisblack", "extrasamples": (0, 0)}, "3 samples of 1 bit a pixel"),
    ({"bitspersample": 2}, "bitspersample=2 of type bool"),
]


@pytest.mark.parametrize(("options", "what"), REFUSED)
def test_what_is_refused(options: dict, what: str) -> None:
    image = noise((19, 23, 3), 1).astype(bool)
    with pytest.raises(mt.UnsupportedError, match=what):
        mt.imwrite(None, image, **options)
    assert mt.imwrite(None, image)


def test_numbers_that_are_refused() -> None:
    image = samples((19, 23), "u1")
    for bits in (3, 5, 7, 9, 16, 0, -1):
        with pytest.raises(mt.UnsupportedError, match=f"bitspersample={bits} of type uint8"):
            mt.imwrite(None, image, bitspersample=bits)
    with pytest.raises(mt.UnsupportedError, match="bitspersample=12 of type uint16"):
        mt.imwrite(None, image.astype("u2"), bitspersample=12)
    for bits in (1, 2, 4):
        with pytest.raises(ValueError, match=f"bitspersample={bits}: there are numbers of more"):
            mt.imwrite(None, image, bitspersample=bits)
    colors = {"photometric": "palette", "colormap": numpy.zeros((3, 256), "u2")}
    with pytest.raises(mt.UnsupportedError, match="palette of samples of 4 bits"):
        mt.imwrite(None, image & 15, bitspersample=4, **colors)
    with pytest.raises(TypeError):
        mt.imwrite(None, image, bitspersample="4")


@pytest.mark.parametrize("predictor", [2, True, "horizontal"])
def test_differences_are_refused(predictor: object) -> None:
    with pytest.raises(mt.PagesError) as error:
        mt.imwrite(None, noise((19, 23), 1).astype(bool), predictor=predictor)
    assert error.value.status is Status.PREDICTOR_INCOMPATIBLE
    assert (error.value.page, error.value.field) == (0, PageField.NONE)


def test_pages_without_pixels() -> None:
    for shape in ((0, 5), (5, 0)):
        with pytest.raises(mt.PagesError) as error:
            mt.imwrite(None, numpy.zeros(shape, bool))
        assert error.value.status is Status.INVALID_DIMENSIONS
