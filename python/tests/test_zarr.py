"""Pages as stores of zarr, which zarr, dask and xarray open."""
from __future__ import annotations

import io
import json
import pickle
from pathlib import Path

import numpy
import pytest
import tifffile
from conftest import gray_file, samples

import mangohatch_tiff as mt

zarr = pytest.importorskip("zarr")

PAGES = {
    "strips": ((37, 53), "u2", {"rowsperstrip": 5}),
    "one strip": ((37, 53), "f4", {}),
    "tiles": ((37, 53), "i4", {"tile": (16, 32)}),
    "big-endian": ((37, 53), "u2", {"tile": (16, 16), "byteorder": ">"}),
    "colors": ((37, 53, 3), "u1", {"photometric": "rgb", "tile": (16, 16)}),
    "planes": ((3, 37, 53), "u1", {
        "photometric": "rgb", "planarconfig": "separate", "tile": (16, 16)
    }),
    "complex": ((37, 53), "c8", {"tile": (16, 16)}),
    "a bit": ((37, 53), "?", {"rowsperstrip": 9}),
    "a palette": ((37, 53), "u1", {"colormap": samples((3, 256), "u2"), "tile": (16, 16)}),
    "extra samples": ((37, 53, 5), "u2", {"photometric": "rgb", "tile": (16, 16)}),
}


def image_of(shape: tuple[int, ...], dtype: str) -> numpy.ndarray:
    """Returns an image of a number type."""
    if dtype == "?":
        return samples(shape, "u1") > 99
    return samples(shape, "f4").astype("c8") * (1 + 2j) if dtype == "c8" else samples(shape, dtype)


def written(path: Path, name: str) -> numpy.ndarray:
    """Writes a file by tifffile, and returns its image."""
    shape, dtype, options = PAGES[name]
    image = image_of(shape, dtype)
    options = {"metadata": None, **options}
    if "colormap" not in options:
        options = {"photometric": "minisblack", **options}
    given = image.astype(image.dtype.newbyteorder(options.get("byteorder", "<")))
    tifffile.imwrite(path, given, **options)
    return image


@pytest.mark.parametrize("name", PAGES)
def test_zarr(name: str, tmp_path: Path) -> None:
    path = tmp_path / "page.tif"
    image = written(path, name)
    with mt.TiffFile(path) as tif:
        store = tif.pages[0].aszarr()
        array = zarr.open(store, mode="r")
        assert (array.shape, array.dtype) == (image.shape, image.dtype)
        numpy.testing.assert_array_equal(array[...], image)
        numpy.testing.assert_array_equal(array[..., 1:3, 2:30], image[..., 1:3, 2:30])
        assert array.attrs["_ARRAY_DIMENSIONS"] == [*tif.pages[0].axes]
        assert len(store) == len(list(store)) and ".zarray" in store


@pytest.mark.parametrize("name", ["strips", "tiles", "colors", "planes"])
@pytest.mark.parametrize("multiscales", [False, True])
def test_the_store_is_that_of_tifffile(name: str, multiscales: bool, tmp_path: Path) -> None:
    """It has the same keys, shapes and chunks, and the same bytes in each whole chunk."""
    path = tmp_path / "page.tif"
    written(path, name)
    with mt.TiffFile(path) as tif, tifffile.TiffFile(path) as other:
        ours = tif.pages[0].aszarr(multiscales=multiscales)
        theirs = other.pages[0].aszarr(multiscales=multiscales)
        prefix = "0/" if multiscales else ""
        for key in (".zarray", ".zattrs"):
            given, wanted = json.loads(ours[prefix + key]), json.loads(theirs[prefix + key])
            # xarray takes each 0 of the image as missing, if it is the fill value.
            if key == ".zarray":
                assert (given.pop("fill_value"), wanted.pop("fill_value")) == (None, 0)
            assert given == wanted
        for key in ours:
            if ".z" not in key:
                assert ours[key] == theirs[key].tobytes()


@pytest.mark.parametrize("metadata", [None, {}])
@pytest.mark.parametrize("sub", [False, True])
def test_levels(metadata: dict | None, sub: bool, tmp_path: Path) -> None:
    """The store of a pyramid is a group of its levels, as that of tifffile is."""
    path, image = tmp_path / "levels.tif", samples((2, 150, 200), "u2")
    options = {"photometric": "minisblack", "metadata": metadata, "tile": (16, 16)}
    with tifffile.TiffWriter(path) as writer:
        writer.write(image, subifds=2 if sub else 0, **options)
        for step in (2, 4):
            writer.write(image[:, ::step, ::step], subfiletype=1, **options)
    with mt.imread(path, aszarr=True) as ours, tifffile.imread(path, aszarr=True) as theirs:
        group = zarr.open(ours, mode="r")
        for level, step in enumerate((1, 2, 4)):
            numpy.testing.assert_array_equal(group[level][...], image[:, ::step, ::step])
            assert group[level].attrs.asdict() == zarr.open(theirs, mode="r")[level].attrs.asdict()
        assert json.loads(ours[".zattrs"]) == json.loads(theirs[".zattrs"])
        assert json.loads(ours[".zgroup"]) == json.loads(theirs[".zgroup"])
        assert len(ours) == len(list(ours)) and "(2, 38, 50) uint16" in repr(ours)
        with pickle.loads(pickle.dumps(ours)) as again:
            numpy.testing.assert_array_equal(zarr.open(again, mode="r")[1], image[:, ::2, ::2])
    for given in ({"level": 1}, {"level": 0}, {"multiscales": False}):
        with mt.imread(path, aszarr=True, **given) as ours:
            with tifffile.imread(path, aszarr=True, **given) as theirs:
                found, wanted = zarr.open(ours, mode="r"), zarr.open(theirs, mode="r")
                numpy.testing.assert_array_equal(found[...], wanted[...])


def test_xarray(tmp_path: Path) -> None:
    xarray = pytest.importorskip("xarray")
    path = tmp_path / "page.tif"
    image = written(path, "planes")
    with mt.TiffFile(path) as tif:
        opened = xarray.open_zarr(tif.pages[0].aszarr(multiscales=True))
        assert opened["0"].dims == ("S", "Y", "X")
        numpy.testing.assert_array_equal(opened["0"].values, image)


def test_dask(tmp_path: Path) -> None:
    arrays = pytest.importorskip("dask.array")
    path = tmp_path / "page.tif"
    for name in ("tiles", "planes", "a palette", "a bit"):
        image = written(path, name)
        with mt.imread(path, aszarr=True) as store:
            array = arrays.from_zarr(zarr.open(store, mode="r"))
            assert array.shape == image.shape and array.dtype == image.dtype
            numpy.testing.assert_array_equal(array.compute(scheduler="threads"), image)


@pytest.mark.parametrize("shape", [(5, 37, 53), (2, 3, 37, 53)])
@pytest.mark.parametrize("metadata", [None, {}])
def test_stacks(shape: tuple[int, ...], metadata: dict | None, tmp_path: Path) -> None:
    path, image = tmp_path / "stack.tif", samples(shape, "u2")
    tifffile.imwrite(path, image, photometric="minisblack", metadata=metadata, tile=(16, 16))
    with mt.imread(path, aszarr=True) as store:
        array = zarr.open(store, mode="r")
        expected = mt.imread(path)
        assert array.shape == expected.shape
        assert array.chunks == (1,) * (array.ndim - 2) + (16, 16)
        numpy.testing.assert_array_equal(array[...], expected)
        assert "37, 53) uint16" in repr(store)
    with mt.imread(path, key=slice(1, 3), aszarr=True) as store:
        found = zarr.open(store, mode="r")[...]
        numpy.testing.assert_array_equal(found, mt.imread(path, key=slice(1, 3)))


@pytest.mark.parametrize("metadata", [None, {}, {"axes": "TZYX"}])
@pytest.mark.parametrize("shape", [(5, 37, 53), (2, 3, 37, 53)])
def test_names_of_sides(metadata: dict | None, shape: tuple[int, ...], tmp_path: Path) -> None:
    """They are those of tifffile, but for a letter that is there twice."""
    path = tmp_path / "stack.tif"
    if metadata:
        metadata = {"axes": "TZYX"[-len(shape) :]}
    image = samples(shape, "u2")
    tifffile.imwrite(path, image, photometric="minisblack", metadata=metadata, tile=(16, 16))
    with mt.imread(path, aszarr=True) as ours, tifffile.imread(path, aszarr=True) as theirs:
        given = json.loads(ours[".zattrs"])["_ARRAY_DIMENSIONS"]
        wanted = json.loads(theirs[".zattrs"])["_ARRAY_DIMENSIONS"]
        assert given == (["Q", "Q1", "Y", "X"] if wanted == [*"QQYX"] else wanted)
        for key in set(ours) - {".zarray", ".zattrs"}:
            assert ours[key] == theirs[key].tobytes()


def test_pickled(tmp_path: Path) -> None:
    """A store over a path opens it anew; one over a buffer isn't pickled."""
    path, image = tmp_path / "stack.tif", samples((5, 37, 53), "u2")
    tifffile.imwrite(path, image, photometric="minisblack")
    with mt.TiffFile(path) as tif:
        text = pickle.dumps(tif.aszarr(zattrs={"unit": "m"}))
        single = pickle.dumps(tif.page_at(tif.pages[2].offset).aszarr(multiscales=True))
    with pickle.loads(text) as store:
        array = zarr.open(store, mode="r")
        assert array.attrs["unit"] == "m"
        numpy.testing.assert_array_equal(array[...], image)
    with pickle.loads(single) as store:
        numpy.testing.assert_array_equal(zarr.open(store, mode="r")["0"][...], image[2])
    with pytest.raises(TypeError, match="path"):
        pickle.dumps(mt.TiffFile(path.read_bytes()).aszarr())
    tifffile.imwrite(path, image[:3], photometric="minisblack", compression=None, description="x")
    with pytest.raises(mt.UnsupportedError, match="changed"):
        pickle.loads(text)


def test_what_is_no_chunk() -> None:
    store = mt.TiffFile(gray_file()).pages[0].aszarr()
    assert list(store) == [".zarray", ".zattrs", "0.0"]
    assert len(store["0.0"]) == 12 and store == store and hash(store)
    for key in ("0.1", "1.0", "0", "0.0.0", "0.-1", "a.b", ".zgroup", "", 7):
        assert key not in store
        with pytest.raises(KeyError):
            store[key]
    with pytest.raises(PermissionError):
        store["0.0"] = b""
    with pytest.raises(PermissionError):
        del store["0.0"]


def test_a_chunk_that_is_refused() -> None:
    store = mt.TiffFile(gray_file(t273=(4, 1 << 20))).pages[0].aszarr()
    assert "0.0" in store
    with pytest.raises(mt.TiffError) as error:
        store["0.0"]
    assert error.value.status is mt.Status.UNEXPECTED_EOF


def test_an_array_that_is_no_stack_of_its_pages(tmp_path: Path) -> None:
    path = tmp_path / "page.tif"
    tifffile.imwrite(path, samples((5, 1, 10), "u1"), photometric="minisblack", rowsperstrip=1)
    with mt.imread(path, aszarr=True) as store:
        numpy.testing.assert_array_equal(zarr.open(store, mode="r")[...], mt.imread(path))
    tifffile.imwrite(path, samples((5, 12, 10, 1), "u1"), photometric="minisblack")
    assert mt.imread(path).shape == (5, 12, 10, 1)
    with pytest.raises(mt.UnsupportedError, match="key="):
        mt.imread(path, aszarr=True)


def test_complex_whole_numbers() -> None:
    parts = samples((3, 4, 2), "i2")
    file = gray_file(data=parts.tobytes(), t258=(3, 32), t339=(3, 5))
    array = zarr.open(mt.TiffFile(file).pages[0].aszarr(), mode="r")
    numpy.testing.assert_array_equal(array[...].real, parts[:, :, 0])
