"""Random files of tifffile are read as tifffile reads them, or are refused."""
from __future__ import annotations

import io
import logging
import random
import struct
import warnings
from collections import Counter
from collections.abc import Callable
from pathlib import Path
from typing import Any

import numpy
import pytest
import tifffile
from conftest import samples

import mangohatch_tiff as mt

COUNT = 300
TYPES = ["u1", "u2", "u4", "u8", "i1", "i2", "i4", "i8", "f2", "f4", "f8", "c8", "c16", "?"]
PHOTOMETRICS = [None, "minisblack", "miniswhite", "rgb", "separated", "palette"]
METADATA = [None, {}, {"axes": "auto"}]
REFUSALS = (ValueError, TypeError, RuntimeError, KeyError, IndexError)
REFUSALS += (tifffile.TiffFileError, tifffile.OmeXmlError)
# Facts of a page that are compared.
FACTS = ["shape", "dtype", "axes", "ndim", "size", "nbytes", "photometric", "planarconfig"]
FACTS += ["samplesperpixel", "bitspersample", "sampleformat", "extrasamples", "compression"]
FACTS += ["predictor", "fillorder", "is_tiled", "tile", "rowsperstrip", "chunks"]
FACTS += ["imagewidth", "imagelength", "imagedepth", "offset", "index", "resolution", "is_shaped"]


def settings_of(chance: random.Random) -> tuple[tuple[int, ...], str, dict]:
    """Returns a random shape, number type and settings of a file."""
    sides = chance.choices([1, 1, 2, 3, 4], k=chance.randint(0, 3))
    shape = (*sides, chance.randint(1, 40), chance.randint(1, 40))
    if chance.random() < 0.3:
        shape = (*shape, chance.choice([1, 2, 3, 4, 5]))
    dtype = chance.choice(TYPES)
    options = {
        "photometric": chance.choice(PHOTOMETRICS),
        "planarconfig": chance.choice([None, None, "contig", "separate"]),
        "metadata": chance.choice(METADATA),
        "bigtiff": chance.random() < 0.2,
        "byteorder": chance.choice("<>"),
        "imagej": chance.random() < 0.1,
        "ome": chance.random() < 0.05,
        "volumetric": chance.random() < 0.05,
    }
    if chance.random() < 0.4:
        options["tile"] = chance.choice([(16, 16), (32, 16), (16, 48)])
    elif chance.random() < 0.5:
        options["rowsperstrip"] = chance.randint(1, 50)
    if options["photometric"] == "palette":
        numbers = 1 << (8 * min(2, numpy.dtype(dtype).itemsize))
        options["colormap"] = samples((3, numbers), "u2")
    if options["metadata"]:
        options["metadata"] = {"axes": "QTZCYX"[-len(shape) :]}
    return shape, dtype, options


def file_of(chance: random.Random) -> bytes | None:
    """Returns a random file, or None if tifffile refuses the settings."""
    shape, dtype, options = settings_of(chance)
    image = samples(shape, "u1" if dtype == "?" else dtype)
    if dtype == "?":
        image = image > 99
    image = image.astype(image.dtype.newbyteorder(options["byteorder"]))
    made = io.BytesIO()
    try:
        with warnings.catch_warnings():
            warnings.simplefilter("ignore")
            tifffile.imwrite(made, image, **options)
    except REFUSALS:
        return None
    return made.getvalue()


def read(call: Callable[[], object]) -> Any:
    """Returns what is read, or the error by which it is refused."""
    try:
        return call()
    except mt.TiffError as error:
        return error


def assert_same_array(
    ours: numpy.ndarray | mt.TiffError, theirs: Callable[[], numpy.ndarray]
) -> None:
    """Compares two arrays and their types. Some of what tifffile writes it can't read itself."""
    if isinstance(ours, mt.TiffError):
        return
    try:
        expected = theirs()
    except (*REFUSALS, NotImplementedError):
        return
    assert (ours.shape, ours.dtype) == (expected.shape, expected.dtype.newbyteorder("="))
    numpy.testing.assert_array_equal(ours, expected)


def several_arrays(chance: random.Random, shaped: bool) -> bytes:
    """Returns a file of several arrays, some with smaller ones in SubIFDs or behind them."""
    made, metadata = io.BytesIO(), {} if shaped else None
    with tifffile.TiffWriter(made) as writer:
        for _ in range(chance.randint(1, 4)):
            shape = [chance.choice([5, 9, 10, 20, 21, 40, 41]) for _ in range(2)]
            shape = (*chance.choices([1, 2, 3], k=chance.randint(0, 2)), *shape)
            image = samples(shape, chance.choice(["u1", "u1", "f4"]))
            levels = chance.choice([0, 0, 0, 1, 2])
            options = {"photometric": "minisblack", "metadata": metadata, "contiguous": False}
            sub, factor = chance.random() < 0.6, chance.choice([2, 2, 3, 4])
            reduced = int(chance.random() < 0.1)
            writer.write(image, subifds=levels if sub else 0, subfiletype=reduced, **options)
            for level in range(1, levels + 1):
                step = factor**level
                reduced = int(chance.random() < 0.7)
                writer.write(image[..., ::step, ::step], subfiletype=reduced, **options)
    return made.getvalue()


@pytest.mark.parametrize("seed", range(150))
def test_random_series(seed: int) -> None:
    """Files of several arrays have the series that tifffile has, or are refused."""
    file = several_arrays(random.Random(seed), shaped=seed % 2 == 0)
    tif, theirs = mt.TiffFile(file), tifffile.TiffFile(io.BytesIO(file))
    found = read(lambda: tif.series)
    assert_same_series(found, theirs, seed)
    if isinstance(found, mt.TiffError):
        return
    for index, series in enumerate(theirs.series):
        for level, wanted in enumerate(series.levels):
            given = {"series": index, "level": level}
            assert_same_array(read(lambda given=given: tif.asarray(**given)), wanted.asarray)
        given = {"key": slice(0, 2), "series": index}
        assert_same_array(tif.asarray(**given), lambda given=given: theirs.asarray(**given))


@pytest.mark.parametrize("first", range(0, COUNT, 50))
def test_random_files(first: int) -> None:
    counted: Counter = Counter()
    for seed in range(first, first + 50):
        file = file_of(random.Random(seed))
        if file is None:
            continue
        opened = read(lambda file=file: mt.TiffFile(file))
        if isinstance(opened, mt.TiffError):
            # Of bool samples in planes, tifffile writes more strips than it counts.
            assert opened.status is mt.Status.INCONSISTENT_SIZES_ENCOUNTERED
            counted["refused"] += 1
            continue
        with tifffile.TiffFile(io.BytesIO(file)) as theirs, opened as ours:
            array = read(ours.asarray)
            counted[type(array).__name__] += 1
            assert_same_array(array, theirs.asarray)
            assert_same_series(read(lambda ours=ours: ours.series), theirs, seed)
            assert len(ours.pages) == len(theirs.pages)
            for page, other in zip(ours.pages, theirs.pages):
                assert_same_page(page, other.aspage(), seed)
    assert counted["ndarray"] > 10 and len(counted) > 1


def assert_same_series(
    ours: list[mt.TiffPageSeries] | mt.TiffError, theirs: tifffile.TiffFile, seed: int
) -> None:
    """Compares the series of a file with tifffile's, if they aren't refused."""
    if isinstance(ours, mt.TiffError):
        return
    assert len(ours) == len(theirs.series), seed
    for series, other in zip(ours, theirs.series):
        assert len(series.levels) == len(other.levels), seed
        for level, wanted in zip(series.levels, other.levels):
            for name in ("shape", "dtype", "axes", "ndim", "size", "nbytes", "is_pyramidal"):
                assert getattr(level, name) == getattr(wanted, name), (seed, name)
        assert series.index == other.index


def assert_same_page(page: mt.TiffPage, other: tifffile.TiffPage, seed: int) -> None:
    """Compares a page and its facts with tifffile's."""
    if page.status is not mt.Status.DONE:
        return
    for name in FACTS:
        assert getattr(page, name) == getattr(other, name) or name in unlike(page), (seed, name)
    array = read(page.asarray)
    assert_same_array(array, other.asarray)
    if not isinstance(array, mt.TiffError):
        assert page.dataoffsets == other.dataoffsets
        chance = random.Random(seed)
        top, left = chance.randrange(page.imagelength), chance.randrange(page.imagewidth)
        part = page.read(slice(top, top + 9), slice(left, left + 11))
        sides = {"Y": slice(top, top + 9), "X": slice(left, left + 11)}
        at = tuple(sides.get(axis, slice(None)) for axis in page.axes)
        numpy.testing.assert_array_equal(part, array[at])


SUITE = Path(__file__).resolve().parents[2] / "conformance" / "small"


@pytest.mark.parametrize("theme", sorted(path.name for path in SUITE.iterdir() if path.is_dir()))
def test_files_of_the_suite(theme: str) -> None:
    """Small files of each form, good ones and bad ones: an array here is that of tifffile."""
    for path in sorted((SUITE / theme).iterdir()):
        file = path.read_bytes()
        opened, other = read(lambda file=file: mt.TiffFile(file)), None
        if isinstance(opened, mt.TiffError):
            continue
        for page in opened.pages:
            if page.status is not mt.Status.DONE or page.imagewidth * page.imagelength > 1 << 20:
                continue
            array = read(page.asarray)
            other = tiff_page(file, page.index)
            # For number types that it lacks, tifffile returns an empty array.
            if isinstance(array, numpy.ndarray) and other is not None and other.dtype is not None:
                assert_same_array(array, other.asarray)


def tiff_page(file: bytes, index: int) -> tifffile.TiffPage | None:
    """Returns a page that tifffile has, if it has the page."""
    logging.disable(logging.CRITICAL)
    try:
        page: tifffile.TiffPage = tifffile.TiffFile(io.BytesIO(file)).pages[index].aspage()
        return page
    except (tifffile.TiffFileError, IndexError, ValueError, RuntimeError, struct.error):
        return None
    finally:
        logging.disable(logging.NOTSET)


def unlike(page: mt.TiffPage) -> set[str]:
    """Returns the facts that tifffile has otherwise for an image of several layers."""
    return {"shape", "axes", "ndim", "size", "nbytes", "chunks"} if page.imagedepth > 1 else set()
