"""The array of a file is that of tifffile: alike pages are one array."""
from __future__ import annotations

import io

import numpy
import pytest
import tifffile
from conftest import gray_file, samples

import mangohatch_tiff as mt


def written(array: numpy.ndarray, **options: object) -> bytes:
    """Returns a file that tifffile writes."""
    made = io.BytesIO()
    tifffile.imwrite(made, array, **options)
    return made.getvalue()


def several(*arrays: numpy.ndarray, **options: object) -> bytes:
    """Returns a file of pages that tifffile writes one by one."""
    made = io.BytesIO()
    with tifffile.TiffWriter(made) as writer:
        for array in arrays:
            settings = {"photometric": "minisblack", "metadata": None, "contiguous": False}
            writer.write(array, **settings, **options)
    return made.getvalue()


def assert_same(file: bytes, **given: object) -> None:
    """Compares the array of a file with tifffile's."""
    expected = tifffile.imread(io.BytesIO(file), **given)
    read = mt.imread(file, **given)
    assert (read.shape, read.dtype) == (expected.shape, expected.dtype.newbyteorder("<"))
    numpy.testing.assert_array_equal(read, expected)


STACKS = [(20, 12, 10), (2, 12, 10), (1, 12, 10), (2, 5, 12, 10), (1, 1, 12, 10), (5, 1, 10)]


@pytest.mark.parametrize("shape", STACKS)
@pytest.mark.parametrize("metadata", [None, {}, {"axes": None}])
@pytest.mark.parametrize("dtype", ["u1", "f4"])
def test_stacks(shape: tuple[int, ...], metadata: dict | None, dtype: str) -> None:
    if metadata:
        metadata = {"axes": "TZYX"[-len(shape) :]}
    assert_same(written(samples(shape, dtype), photometric="minisblack", metadata=metadata))


@pytest.mark.parametrize("photometric", ["rgb", "minisblack"])
@pytest.mark.parametrize("planarconfig", ["contig", "separate"])
@pytest.mark.parametrize("metadata", [None, {}])
def test_stacks_of_colors(photometric: str, planarconfig: str, metadata: dict | None) -> None:
    shape = (6, 12, 10, 3) if planarconfig == "contig" else (6, 3, 12, 10)
    options = {"photometric": photometric, "planarconfig": planarconfig, "metadata": metadata}
    assert_same(written(samples(shape, "u2"), **options))


KEYS = [0, 3, -1, slice(None), slice(1, 9, 3), [0, 2, 5], (4,), range(2, 4), numpy.int64(3)]


@pytest.mark.parametrize("key", KEYS)
@pytest.mark.parametrize("metadata", [None, {}])
def test_keys(key: object, metadata: dict | None) -> None:
    image = samples((10, 12, 8), "u2")
    assert_same(written(image, photometric="minisblack", metadata=metadata), key=key)


def test_keys_that_are_none() -> None:
    file = several(samples((3, 4), "u1"), samples((3, 4), "u1"))
    for key, error in ((2, IndexError), (slice(7, 9), ValueError), ([], ValueError)):
        with pytest.raises(error):
            mt.imread(file, key=key)
    with pytest.raises(TypeError):
        mt.imread(file, key="first")


PAGES = {
    "others at the end": [(12, 10, "u1"), (12, 10, "u1"), (12, 9, "u1")],
    "others between": [(12, 10, "u1"), (6, 5, "u1"), (12, 10, "u1"), (6, 5, "u1")],
    "another type": [(12, 10, "u2"), (12, 10, "i2"), (12, 10, "u2")],
    "one alone": [(12, 10, "u1"), (3, 3, "u1")],
    "many": [(4, 5, "u1")] * 12,
}


@pytest.mark.parametrize("name", PAGES)
def test_pages_of_several_shapes(name: str) -> None:
    assert_same(several(*(samples((rows, cols), kind) for rows, cols, kind in PAGES[name])))


def test_pages_of_several_packings() -> None:
    made = io.BytesIO()
    with tifffile.TiffWriter(made) as writer:
        for compression in (None, "packbits", None):
            options = {"photometric": "minisblack", "metadata": None, "contiguous": False}
            if not compression:
                writer.write(samples((12, 10), "u1"), **options)
            else:
                writer.write(samples((6, 5), "u1"), **options)
    assert_same(made.getvalue())


def test_sub_ifds() -> None:
    image = samples((48, 64), "u1")
    made = io.BytesIO()
    options = {"photometric": "minisblack", "metadata": None}
    with tifffile.TiffWriter(made) as writer:
        for _ in range(2):
            writer.write(image, subifds=2, **options)
            writer.write(image[::2, ::2], subfiletype=1, **options)
            writer.write(image[::-1], **options)
    assert_same(made.getvalue())


def test_pages_that_make_no_array() -> None:
    file = several(samples((3, 4), "u1"), samples((3, 5), "u1"))
    with pytest.raises(ValueError, match="make no array"):
        mt.imread(file, key=slice(None))
    file = several(samples((3, 4), "u1"), samples((3, 4), "u2"))
    with pytest.raises(ValueError, match="make no array"):
        mt.imread(file, key=[0, 1])


HYPERSTACKS = {
    "TZCYX": (2, 3, 2, 12, 10),
    "TYX": (5, 12, 10),
    "ZYX": (5, 12, 10),
    "CYX": (2, 12, 10),
    "YX": (12, 10),
    "TCYX": (4, 2, 12, 10),
}


@pytest.mark.parametrize("axes", HYPERSTACKS)
@pytest.mark.parametrize("dtype", ["u1", "u2", "f4"])
def test_imagej(axes: str, dtype: str) -> None:
    file = written(samples(HYPERSTACKS[axes], dtype), imagej=True, metadata={"axes": axes})
    try:
        read = mt.imread(file)
    except mt.UnsupportedError:
        # tifffile writes a hyperstack as one directory with the other images behind it.
        assert len(mt.TiffFile(file)) < tifffile.imread(io.BytesIO(file)).size // 120
        return
    expected = tifffile.imread(io.BytesIO(file))
    assert (read.shape, read.dtype) == (expected.shape, expected.dtype.newbyteorder("<"))
    numpy.testing.assert_array_equal(read, expected)


def imagej_pages(text: str, count: int) -> bytes:
    """Returns a file of pages of which the first has a description of ImageJ."""
    jobs = []
    for index in range(count):
        jobs.append("image Gray8 30 20")
        if not index:
            jobs.append("write_tag_buf 270 2 little " + (text.encode() + b"\0").hex())
        jobs.append("write_data " + " ".join(str((index + place) % 256) for place in range(600)))
    return mt.write_jobs(None, "\n".join(jobs))


def test_imagej_of_several_pages() -> None:
    text = "ImageJ=1.53k\nimages=6\nchannels=3\nslices=2\nhyperstack=true\nmode=grayscale\n"
    file = imagej_pages(text, 6)
    assert mt.imread(file).shape == (2, 3, 20, 30)
    assert_same(file)
    for refused in (text.replace("6", "7"), text + "order=zct\n", text.replace("3\n", "x\n", 1)):
        with pytest.raises(mt.UnsupportedError, match="ImageJ.*key="):
            mt.imread(imagej_pages(refused, 6))


DESCRIBED = {
    "OME": '<?xml version="1.0"?><OME></OME>',
    "SCN": "<scn></scn>",
    "SVS": "Aperio Image Library",
    "ScanImage": "state.configName=''",
    "shape": "shape=(3, 4)",
}


@pytest.mark.parametrize("name", DESCRIBED)
def test_arrays_of_other_metadata_are_refused(name: str) -> None:
    file = several(samples((3, 4), "u1"), description=DESCRIBED[name])
    with pytest.raises(mt.UnsupportedError, match=f"{name}.*key="):
        mt.imread(file)
    assert mt.imread(file, key=0).shape == (3, 4)


@pytest.mark.parametrize("tag", [33628, 34412, 34362, 43314, 33560, 65420, 33445, 51123])
def test_arrays_of_other_tags_are_refused(tag: int) -> None:
    file = gray_file(**{f"t{tag}": (4, 7)})
    with pytest.raises(mt.UnsupportedError, match="key="):
        mt.imread(file)
    assert mt.imread(file, key=0).shape == (3, 4)


def test_images_that_do_not_lie_one_behind_the_other() -> None:
    """Of a few bytes, tifffile takes them from where the first image begins."""
    small, large = samples((2, 3, 4), "u1"), samples((2, 30, 40), "u1")
    options = {"extratags": [(65000, "B", 900, bytes(900), True)], "photometric": "minisblack"}
    with pytest.raises(mt.UnsupportedError, match="few bytes"):
        mt.imwrite(None, small, metadata={}, photometric="minisblack")
    file = mt.imwrite(None, small, description='{"shape": [2, 3, 4]}', **options)
    with pytest.raises(mt.UnsupportedError, match="one behind the other.*key="):
        mt.imread(file)
    assert_same(mt.imwrite(None, large.repeat(8, 1), metadata={}, photometric="minisblack"))


def test_shapes_that_the_pages_do_not_make() -> None:
    for text in ('{"shape": [7, 3, 4]}', '{"shape": "x"}', '{"shape": [5]}', '{"shape":'):
        with pytest.raises(mt.UnsupportedError, match="key="):
            mt.imread(several(samples((3, 4), "u1"), description=text))


def test_out() -> None:
    file = written(samples((6, 12, 10), "u2"), photometric="minisblack")
    for out in (numpy.empty((6, 12, 10), "u2"), numpy.empty((6, 12, 10), ">u2")):
        assert mt.imread(file, out=out) is out
        numpy.testing.assert_array_equal(out, tifffile.imread(io.BytesIO(file)))
    turned = numpy.zeros((12, 10, 6), "u2").transpose(2, 0, 1)
    assert mt.imread(file, out=turned) is turned
    numpy.testing.assert_array_equal(turned, tifffile.imread(io.BytesIO(file)))
    one = numpy.empty((12, 10), "u2")
    assert mt.imread(file, key=2, out=one) is one
    numpy.testing.assert_array_equal(one, tifffile.imread(io.BytesIO(file), key=2))
    with pytest.raises(ValueError):
        mt.imread(file, out=numpy.empty((5, 12, 10), "u2"))
    with pytest.raises(ValueError):
        mt.imread(file, out=numpy.empty((6, 12, 10), "u1"))
    with pytest.raises(mt.UnsupportedError):
        mt.imread(file, out="memmap")


def test_shown_in_stacks() -> None:
    image = samples((4, 12, 10, 5), "u1")
    file = written(image, photometric="rgb", metadata=None)
    assert_same(file)
    numpy.testing.assert_array_equal(mt.imread(file, shown=True), image[..., :3])
    white = written(image[..., 0], photometric="miniswhite", metadata=None)
    assert_same(white)
    numpy.testing.assert_array_equal(mt.imread(white, shown=True), 255 - image[..., 0])


def test_sources(tmp_path) -> None:
    image = samples((6, 12, 10), "u2")
    file = written(image, photometric="minisblack")
    (tmp_path / "stack.tif").write_bytes(b"1234" + file)
    with open(tmp_path / "stack.tif", "rb") as opened:
        opened.seek(4)
        numpy.testing.assert_array_equal(mt.imread(opened), image)
        opened.seek(4)
        numpy.testing.assert_array_equal(tifffile.imread(opened), image)
    memory = io.BytesIO(b"1234" + file)
    memory.seek(4)
    with mt.TiffFile(memory) as tif:
        numpy.testing.assert_array_equal(tif.asarray(), image)
        assert "BytesIO" in repr(tif) and "6 pages" in repr(tif)
    with pytest.raises(ValueError):
        tif.asarray()
    numpy.testing.assert_array_equal(mt.imread(Piped(file)), image)


SERIES = {
    "a page": ((12, 10), {"metadata": None}),
    "pages": ((5, 12, 10), {"metadata": None}),
    "a shape": ((5, 12, 10), {}),
    "a shape of four sides": ((2, 3, 12, 10), {}),
    "named sides": ((2, 3, 12, 10), {"metadata": {"axes": "TZYX"}}),
    "colors": ((4, 12, 10, 3), {"photometric": "rgb", "metadata": None}),
    "planes": ((3, 12, 10), {"photometric": "rgb", "planarconfig": "separate"}),
    "ImageJ": ((2, 3, 12, 10), {"imagej": True, "metadata": {"axes": "TZYX"}}),
    "sides of 1": ((5, 1, 1, 10), {"metadata": None}),
}


@pytest.mark.parametrize("name", SERIES)
def test_series(name: str) -> None:
    shape, options = SERIES[name]
    file = written(samples(shape, "u2"), **{"photometric": "minisblack", **options})
    (series,), theirs = mt.TiffFile(file).series, tifffile.TiffFile(io.BytesIO(file)).series
    assert len(theirs) == 1
    for fact in ("shape", "dtype", "axes", "ndim", "size", "nbytes", "index"):
        assert getattr(series, fact) == getattr(theirs[0], fact), fact
    numpy.testing.assert_array_equal(series.asarray(workers=2), theirs[0].asarray())
    assert len(series) == len(series.pages) and series[0] is series.pages[0]
    assert series.axes in repr(series)
    assert b"zarr_format" in series.aszarr()[".zarray"] or name == "sides of 1"


def test_files_of_several_series() -> None:
    image, made = samples((48, 64), "u1"), io.BytesIO()
    with tifffile.TiffWriter(made) as writer:
        writer.write(image)
        writer.write(image[:5])
    for file in (made.getvalue(), several(image, image[:5])):
        assert [series.shape for series in mt.TiffFile(file).series] == [(48, 64), (5, 64)]
        for series in (0, 1):
            assert_same(file, series=series)
        with pytest.raises(IndexError):
            mt.imread(file, series=2)
        assert mt.imread(file, series=1, aszarr=True)["0.0"] == image[:5].tobytes()


def pyramid_file(metadata: dict | None, sub: bool) -> bytes:
    """Returns a file of an array in three sizes, in SubIFDs or as pages of the chain."""
    image, made = samples((48, 64), "u1"), io.BytesIO()
    options = {"photometric": "minisblack", "metadata": metadata, "tile": (16, 16)}
    with tifffile.TiffWriter(made) as writer:
        writer.write(image, subifds=2 if sub else 0, **options)
        for step in (2, 4):
            writer.write(image[::step, ::step], subfiletype=1, **options)
    return made.getvalue()


@pytest.mark.parametrize("metadata", [None, {}])
@pytest.mark.parametrize("sub", [False, True])
def test_levels(metadata: dict | None, sub: bool) -> None:
    image, file = samples((48, 64), "u1"), pyramid_file(metadata, sub)
    (series,) = mt.TiffFile(file).series
    assert series.is_pyramidal and series.levels[0] is series and "3 levels" in repr(series)
    for level, step in enumerate((1, 2, 4)):
        assert_same(file, series=0, level=level)
        numpy.testing.assert_array_equal(series.asarray(level=level), image[::step, ::step])
        numpy.testing.assert_array_equal(series.levels[level].asarray(), image[::step, ::step])
    with pytest.raises(IndexError):
        mt.imread(file, level=3)


def test_series_that_are_refused() -> None:
    image = samples((48, 64), "u1")
    alike = [image] * 10
    alike[3] = image[:5]
    with pytest.raises(mt.UnsupportedError, match="aren't alike"):
        mt.TiffFile(several(*alike)).series
    file = bytearray(pyramid_file(None, sub=True))
    offsets = tifffile.TiffFile(io.BytesIO(file)).pages[0].subifds
    file[offsets[1] : offsets[1] + 2] = b"\0\0"
    with pytest.raises(mt.UnsupportedError, match="SubIFD that is refused"):
        mt.TiffFile(file).series


def test_lists_of_files(tmp_path) -> None:
    images = samples((3, 12, 10), "u2")
    paths = [tmp_path / f"{index}.tif" for index in range(3)]
    for path, image in zip(paths, images):
        tifffile.imwrite(path, image, photometric="minisblack")
    numpy.testing.assert_array_equal(mt.imread(paths), tifffile.imread([*map(str, paths)]))
    numpy.testing.assert_array_equal(mt.imread(tuple(paths), workers=2), images)
    numpy.testing.assert_array_equal(mt.imread(paths[:1]), images[0])
    out = numpy.empty((3, 12, 10), ">u2")
    assert mt.imread(paths, key=0, out=out) is out
    numpy.testing.assert_array_equal(out, images)
    for none in ([], str(tmp_path / "x*.tif")):
        with pytest.raises(ValueError, match="no files"):
            mt.imread(none)
    for index in (9, 10, 100):
        tifffile.imwrite(tmp_path / f"a_{index}.tif", images[0] + index, photometric=1)
    found = {"?.tif": "012", "a_*.tif": ("a_9", "a_10", "a_100"), "a_?0.tif": ("a_10",)}
    for pattern, names in found.items():
        named = [str(tmp_path / f"{name}.tif") for name in names]
        read = mt.imread(str(tmp_path / pattern))
        numpy.testing.assert_array_equal(read, tifffile.imread(named))
    with pytest.raises(mt.UnsupportedError, match="several files"):
        mt.imread(paths, aszarr=True)
    tifffile.imwrite(paths[2], images[0, :5], photometric="minisblack")
    with pytest.raises(ValueError, match="make no array"):
        mt.imread(paths)


def test_files_of_fsspec(tmp_path) -> None:
    fsspec = pytest.importorskip("fsspec")
    image = samples((6, 12, 10), "u2")
    for url in (f"file://{tmp_path}/a.tif", "memory://a.tif"):
        with fsspec.open(url, "wb") as file:
            mt.imwrite(file, image, photometric="minisblack")
        with fsspec.open(url, "rb") as file:
            numpy.testing.assert_array_equal(mt.imread(file), image)


class Piped:
    """An open file that has no number of the system."""

    def __init__(self, data: bytes) -> None:
        self.file = io.BytesIO(data)

    def read(self) -> bytes:
        return self.file.read()

    def seek(self, place: int) -> int:
        return self.file.seek(place)

    def tell(self) -> int:
        return self.file.tell()

    def fileno(self) -> int:
        raise OSError("no number")
