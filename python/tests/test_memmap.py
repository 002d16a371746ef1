"""Images that lie in a file as arrays have them are mapped into memory, as tifffile maps them."""
from __future__ import annotations

import io
from pathlib import Path

import numpy
import pytest
import tifffile
from conftest import gray_file, samples

import mangohatch_tiff as mt

MAPPED = {
    "one strip": ((37, 53), "u2", {}),
    "strips": ((37, 53), "f4", {"rowsperstrip": 5}),
    "big-endian": ((37, 53), "u2", {"byteorder": ">", "rowsperstrip": 5}),
    "BigTIFF": ((37, 53), "i8", {"bigtiff": True}),
    "colors": ((37, 53, 3), "u1", {"photometric": "rgb"}),
    "planes": ((3, 37, 53), "u2", {"photometric": "rgb", "planarconfig": "separate"}),
    "wide tiles": ((32, 48), "u1", {"tile": (16, 48)}),
    "complex": ((37, 53), "c8", {}),
    "wide complex": ((37, 53), "c16", {}),
    "a palette": ((37, 53), "u1", {"colormap": samples((3, 256), "u2")}),
}


def written(path: Path, shape: tuple[int, ...], dtype: str, options: dict) -> numpy.ndarray:
    """Writes a file by tifffile, and returns the image."""
    image = samples(shape, dtype) if dtype[0] != "c" else samples(shape, "f4").astype(dtype) * 1j
    given = image.astype(image.dtype.newbyteorder(options.get("byteorder", "<")))
    options = {"metadata": None, **options}
    if "colormap" not in options:
        options = {"photometric": "minisblack", **options}
    tifffile.imwrite(path, given, **options)
    return image


@pytest.mark.parametrize("name", MAPPED)
@pytest.mark.parametrize("page", [0, None])
def test_pages(name: str, page: int | None, tmp_path: Path) -> None:
    path = tmp_path / "page.tif"
    image = written(path, *MAPPED[name])
    mapped = mt.memmap(path, page=page, mode="r")
    assert isinstance(mapped, numpy.memmap)
    numpy.testing.assert_array_equal(mapped, image)
    if name != "wide complex":
        expected = tifffile.memmap(path, page=page, mode="r")
        facts = expected.shape, expected.dtype, expected.offset
        assert (mapped.shape, mapped.dtype, mapped.offset) == facts


@pytest.mark.parametrize("metadata", [None, {}])
def test_stacks(metadata: dict | None, tmp_path: Path) -> None:
    path, image = tmp_path / "stack.tif", samples((5, 12, 10), "u2")
    tifffile.imwrite(path, image, photometric="minisblack", metadata=metadata)
    try:
        mapped = mt.memmap(path)
    except mt.UnsupportedError:
        # tifffile takes the images of an array that it wrote from one behind the other.
        assert metadata is None
        return
    numpy.testing.assert_array_equal(mapped, image)
    mapped[3, 2, 1] = 7
    mapped.flush()
    assert mt.imread(path)[3, 2, 1] == 7


def test_series(tmp_path: Path) -> None:
    path, images = tmp_path / "two.tif", [samples((12, 10), "u1"), samples((7, 9), "f4")]
    with tifffile.TiffWriter(path) as writer:
        for image in images:
            writer.write(image, photometric="minisblack", metadata=None)
    for series, image in enumerate(images):
        mapped = mt.memmap(path, series=series, mode="r")
        numpy.testing.assert_array_equal(mapped, image)
        assert mapped.offset == tifffile.memmap(path, series=series, mode="r").offset


def test_modes(tmp_path: Path) -> None:
    path = tmp_path / "page.tif"
    image = written(path, (37, 53), "u2", {})
    for mode, kept in (("c", image[0, 0]), ("r+", 9)):
        mapped = mt.memmap(path, page=0, mode=mode)
        mapped[0, 0] = 9
        mapped.flush()
        assert mt.imread(path)[0, 0] == kept
    with pytest.raises(ValueError):
        mt.memmap(path, page=0, mode="r")[0, 0] = 1
    with pytest.raises(ValueError, match="w\\+"):
        mt.memmap(path, page=0, mode="w+")
    with pytest.raises(IndexError):
        mt.memmap(path, page=1)
    with pytest.raises(IndexError):
        mt.memmap(path, series=1)
    for given in ({"shape": (3, 4), "dtype": "u1"}, {"level": 2}):
        with pytest.raises(mt.UnsupportedError, match="parameter"):
            mt.memmap(path, **given)
    with pytest.raises(TypeError):
        mt.memmap(path, pages=0)


REFUSED = {
    "tiles": ((37, 53), "u2", {"tile": (16, 16)}, "tiles"),
    "long tiles": ((37, 48), "u2", {"tile": (16, 48)}, "tiles"),
    "bits": ((37, 53), "?", {}, "1 bits"),
}


@pytest.mark.parametrize("name", REFUSED)
def test_pages_that_are_refused(name: str, tmp_path: Path) -> None:
    shape, dtype, options, message = REFUSED[name]
    path = tmp_path / "page.tif"
    image = samples(shape, "u1") > 9 if dtype == "?" else samples(shape, dtype)
    tifffile.imwrite(path, image, photometric="minisblack", metadata=None, **options)
    with pytest.raises(mt.UnsupportedError, match=message):
        mt.memmap(path, page=0)
    with pytest.raises(ValueError):
        tifffile.memmap(path, page=0)


def test_packed_pages_are_refused(tmp_path: Path) -> None:
    path = tmp_path / "page.tif"
    for options in ({"compression": "packbits"}, {"predictor": True}):
        mt.imwrite(path, samples((12, 10), "u1"), **options)
        with pytest.raises(mt.UnsupportedError, match="packed"):
            mt.memmap(path, page=0)
    path.write_bytes(gray_file(t266=(3, 2)))
    with pytest.raises(mt.UnsupportedError, match="FillOrder 2"):
        mt.memmap(path, page=0)


def test_a_file_that_is_cut_is_not_made_longer(tmp_path: Path) -> None:
    path = tmp_path / "page.tif"
    file = gray_file(40, 30, data=bytes(100), t279=(4, 1200))
    path.write_bytes(file)
    with pytest.raises(mt.TiffError) as error:
        mt.memmap(path, page=0)
    assert error.value.status is mt.Status.UNEXPECTED_EOF
    assert path.read_bytes() == file


def test_strips_that_do_not_follow_each_other(tmp_path: Path) -> None:
    made = io.BytesIO()
    tifffile.imwrite(made, samples((12, 10), "u1"), rowsperstrip=6, metadata=None)
    file = bytearray(made.getvalue())
    tag = tifffile.TiffFile(io.BytesIO(file)).pages[0].tags["StripOffsets"]
    first, second = tag.value
    place = tag.valueoffset
    size = tag.valuebytecount // 2
    turned = [offset.to_bytes(size, "little") for offset in (second, first)]
    file[place : place + 2 * size] = b"".join(turned)
    path = tmp_path / "page.tif"
    path.write_bytes(file)
    with pytest.raises(mt.UnsupportedError, match="one behind the other"):
        mt.memmap(path, page=0)
