"""Files that are written are read by others as what they were made of."""
from __future__ import annotations

import errno
import inspect
import io
import os
import resource
from pathlib import Path

import numpy
import pytest
import tifffile
from conftest import samples
from PIL import Image

import mangohatch_tiff as mt
from mangohatch_tiff import _imwrite

GRAY = [f"{kind}{size}" for kind in "ui" for size in (1, 2, 4, 8)] + ["f4", "f8"]
COLORS = [("u1", 3), ("u2", 3), ("u4", 3), ("u8", 3), ("f4", 3), ("f8", 3)]
COLORS += [("u1", 4), ("u2", 4), ("u4", 4), ("u8", 4), ("f4", 4), ("f8", 4)]
SHAPES = [(dtype, (19, 23)) for dtype in GRAY]
SHAPES += [(dtype, (19, 23, count)) for dtype, count in COLORS]


@pytest.mark.parametrize(("dtype", "shape"), SHAPES)
@pytest.mark.parametrize("compression", [None, "packbits"])
@pytest.mark.parametrize("big", [False, True])
def test_tifffile_reads(dtype: str, shape: tuple[int, ...], compression: str, big: bool) -> None:
    image = samples(shape, dtype)
    meaning = "rgb" if len(shape) > 2 else None
    file = mt.imwrite(None, image, compression=compression, bigtiff=big, photometric=meaning)
    numpy.testing.assert_array_equal(mt.imread(file), image)
    with tifffile.TiffFile(io.BytesIO(file)) as tif:
        assert tif.is_bigtiff == big
        assert tif.pages[0].compression == (32773 if compression else 1)
        numpy.testing.assert_array_equal(tif.pages[0].asarray(), image)


@pytest.mark.parametrize("compression", [None, "packbits"])
@pytest.mark.parametrize("shape", [(19, 23), (19, 23, 3)])
def test_pillow_reads(shape: tuple[int, ...], compression: str) -> None:
    image = samples(shape, "u1")
    file = mt.imwrite(None, image, compression=compression)
    numpy.testing.assert_array_equal(numpy.asarray(Image.open(io.BytesIO(file))), image)


INTEGERS = [(dtype, shape) for dtype, shape in SHAPES if dtype[0] in "ui"]


@pytest.mark.parametrize(("dtype", "shape"), INTEGERS)
def test_predictor(dtype: str, shape: tuple[int, ...]) -> None:
    image = samples(shape, dtype)
    meaning = "rgb" if len(shape) > 2 else None
    file = mt.imwrite(None, image, predictor=True, photometric=meaning)
    page = mt.TiffFile(file).pages[0]
    assert page.tags["Predictor"].value == page.predictor == 2
    numpy.testing.assert_array_equal(page.asarray(), image)
    options = {"predictor": True, "compression": "packbits", "photometric": meaning}
    packed = mt.imwrite(None, image, **options)
    numpy.testing.assert_array_equal(tifffile.imread(io.BytesIO(packed)), image)


def test_path(tmp_path: Path) -> None:
    image = samples((19, 23), "u2")
    assert mt.imwrite(tmp_path / "image.tif", image) is None
    numpy.testing.assert_array_equal(mt.imread(tmp_path / "image.tif"), image)
    numpy.testing.assert_array_equal(mt.imread(str(tmp_path / "image.tif")), image)
    assert (tmp_path / "image.tif").read_bytes() == mt.imwrite(None, image)


def test_large_files(tmp_path: Path) -> None:
    """The room of a large file is taken before it is written: it is as long as its bytes."""
    image, path = samples((4200, 4100), "u1"), tmp_path / "large.tif"
    path.write_bytes(bytes(5 * _imwrite.LARGE))
    for options in ({}, {"tile": (256, 256)}):
        mt.imwrite(path, image, **options)
        assert path.read_bytes() == mt.imwrite(None, image, **options)
    mt.imwrite("/dev/null", image)


def test_a_disk_that_is_full(tmp_path: Path) -> None:
    """A large file that can't be written whole is an OSError, and takes no more than its bytes."""
    path, (soft, hard) = tmp_path / "large.tif", resource.getrlimit(resource.RLIMIT_FSIZE)
    resource.setrlimit(resource.RLIMIT_FSIZE, (1 << 20, hard))
    try:
        with pytest.raises(OSError) as error:
            mt.imwrite(path, numpy.zeros((5000, 4000), "u1"))
    finally:
        resource.setrlimit(resource.RLIMIT_FSIZE, (soft, hard))
    assert error.value.errno == errno.EFBIG
    found = os.stat(path)
    assert found.st_size == 1 << 20 and found.st_blocks * 512 <= 2 << 20


def test_arrays_of_other_layouts() -> None:
    image = samples((19, 23), "u2")
    assert mt.imwrite(None, image.astype(">u2")) == mt.imwrite(None, image)
    assert mt.imwrite(None, numpy.asfortranarray(image)) == mt.imwrite(None, image)
    assert mt.imwrite(None, image[:, :, None]) == mt.imwrite(None, image)
    assert mt.imwrite(None, image[::2, ::3]) == mt.imwrite(None, image[::2, ::3].copy())


@pytest.mark.parametrize("options", [{}, {"description": "noise"}])
def test_longer_than_guessed(options: dict) -> None:
    """Rows of one byte have two when they are packed."""
    noise = numpy.random.default_rng(1).integers(0, 256, (20000, 1), "u1")
    file = mt.imwrite(None, noise, compression="packbits", **options)
    assert len(file) > 40000
    numpy.testing.assert_array_equal(mt.imread(file), noise)


REFUSED = [
    samples((3, 4), "f2"),
    samples((3, 4), "c8"),
]


@pytest.mark.parametrize("array", REFUSED)
def test_refusals_say_what_is_written(array: numpy.ndarray) -> None:
    messages = {"complex64": "real and array.imag", "float16": "these are written: .*float32"}
    with pytest.raises(mt.UnsupportedError, match=messages[str(array.dtype)]):
        mt.imwrite(None, array)


@pytest.mark.parametrize("array", REFUSED)
def test_number_types_that_are_not_written(array: numpy.ndarray) -> None:
    with pytest.raises(mt.UnsupportedError, match=str(array.dtype)):
        mt.imwrite(None, array)


def test_arrays_that_are_not_written() -> None:
    for shape in ((), (3,), (0, 3, 5), (2, 0, 3, 5)):
        with pytest.raises(ValueError, match="an array of"):
            mt.imwrite(None, numpy.zeros(shape, "u1"))
    with pytest.raises(ValueError, match="too few"):
        mt.imwrite(None, samples((5, 4, 2), "u1"), photometric="rgb", planarconfig="contig")
    with pytest.raises(ValueError, match="no samples of RGB"):
        mt.imwrite(None, samples((5, 4), "u1"), photometric="rgb")
    with pytest.raises(mt.UnsupportedError, match="RGB samples of type int16"):
        mt.imwrite(None, samples((5, 4, 3), "i2"), photometric="rgb")


AMBIGUOUS = [((5, 6, 3), "f4"), ((5, 6, 4), "i2"), ((3, 5, 6), "u1"), ((4, 5, 6), "f4")]


@pytest.mark.parametrize(("shape", "dtype"), AMBIGUOUS)
def test_arrays_that_versions_of_tifffile_write_in_two_ways(
    shape: tuple[int, ...], dtype: str
) -> None:
    image = samples(shape, dtype)
    with pytest.raises(ValueError, match="say photometric"):
        mt.imwrite(None, image)
    numpy.testing.assert_array_equal(mt.imread(mt.imwrite(None, image, photometric=1)), image)


def test_compression_that_is_not_written() -> None:
    for compression in ("lzw", "LZW", 8, "jpeg", "zlib"):
        with pytest.raises(mt.UnsupportedError, match="compression=") as error:
            mt.imwrite(None, samples((3, 4), "u1"), compression=compression)
        assert error.value.status is mt.Status.UNSUPPORTED_COMPRESSION_METHOD
    with pytest.raises(ValueError, match="compression='squeezed' is none of"):
        mt.imwrite(None, samples((3, 4), "u1"), compression="squeezed")


OTHERS = {
    "shape": (3, 4),
    "dtype": "u1",
    "byteorder": ">",
    "imagej": True,
    "ome": True,
    "shaped": True,
    "volumetric": True,
    "compressionargs": {"level": 3},
    "subsampling": (2, 2),
    "jpegtables": b"",
    "contiguous": True,
    "truncate": True,
    "align": 16,
    "maxworkers": 2,
    "returnoffset": True,
}


@pytest.mark.parametrize("name", OTHERS)
def test_other_parameters_of_tifffile(name: str) -> None:
    with pytest.raises(mt.UnsupportedError, match=name):
        mt.imwrite(None, samples((3, 4), "u1"), **{name: OTHERS[name]})


def test_parameters_of_tifffile_are_known() -> None:
    names = set(inspect.signature(tifffile.imwrite).parameters)
    ours = set(inspect.signature(mt.imwrite).parameters) - {"others"}
    assert ours <= names and names == ours | set(_imwrite.OTHERS)
    defaults = {name: parameter.default for name, parameter in
                inspect.signature(tifffile.imwrite).parameters.items()}
    mt.imwrite(None, samples((3, 4), "u1"), **{name: defaults[name] for name in _imwrite.OTHERS})
    with pytest.raises(TypeError, match="'bigTiff'"):
        mt.imwrite(None, samples((3, 4), "u1"), bigTiff=True)


def test_other_values_are_refused_by_name() -> None:
    image = samples((32, 32), "u1")
    for given, name in (
        ({"photometric": "cielab"}, "photometric=cielab"),
        ({"photometric": "mask"}, "photometric=mask"),
        ({"tile": (1, 16, 16)}, "layers"),
        ({"predictor": "floatingpoint"}, "predictor=floatingpoint"),
        ({"description": "a", "metadata": {}}, "both description and metadata"),
    ):
        with pytest.raises(mt.UnsupportedError, match=name):
            mt.imwrite(None, image, **given)
    for given in (
        {"photometric": "colorful"},
        {"tile": (17, 16)},
        {"tile": (16,)},
        {"rowsperstrip": 0},
        {"predictor": "some"},
        {"resolution": (1, 2, 3)},
        {"resolutionunit": "yard"},
        {"datetime": "today"},
        {"description": "caf\u00e9"},
        {"extratags": [(257, "H", 1, 3, True)]},
        {"extratags": [(65000, "H", 2, 3, True)]},
        {"extratags": [(65000, "Z", 1, 3, True)]},
        {"extrasamples": [0], "planarconfig": "contig"},
        {"photometric": "palette"},
        {"photometric": "rgb", "colormap": numpy.zeros((3, 256), "u2")},
        {"colormap": numpy.zeros((3, 16), "u2")},
        {"append": True},
    ):
        with pytest.raises(ValueError):
            mt.imwrite(None, image, **given)


def test_faults() -> None:
    with pytest.raises(mt.TiffError) as error:
        mt.imwrite(None, numpy.zeros((0, 4), "u1"))
    assert error.value.status is mt.Status.INVALID_DIMENSIONS
    with pytest.raises(mt.TiffError) as error:
        mt.imwrite(None, samples((3, 4), "f4"), predictor=2)
    assert error.value.status is mt.Status.PREDICTOR_INCOMPATIBLE
    with pytest.raises(mt.TiffError) as error:
        mt.imwrite(None, numpy.zeros((2, 0, 5), "u1"))
    assert (error.value.status, error.value.page) == (mt.Status.INVALID_DIMENSIONS, 0)
