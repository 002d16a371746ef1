"""OME-TIFF files: the arrays of the XML, as tifffile reads them."""
from __future__ import annotations

import io
import re

import numpy
import pytest
import tifffile
from conftest import samples

import mangohatch_tiff as mt

ARRAYS = [
    ((12, 10), "YX", {}),
    ((3, 12, 10), "ZYX", {}),
    ((3, 12, 10), "CYX", {"photometric": "minisblack"}),
    ((2, 3, 4, 12, 10), "TCZYX", {}),
    ((2, 1, 4, 12, 10), "TCZYX", {}),
    ((2, 4, 3, 12, 10), "TZCYX", {"photometric": "minisblack"}),
    ((12, 10, 3), "YXS", {"photometric": "rgb"}),
    ((4, 12, 10, 3), "ZYXS", {"photometric": "rgb", "tile": (16, 16)}),
    ((4, 3, 12, 10), "ZSYX", {"photometric": "rgb", "planarconfig": "separate"}),
    ((2, 3, 12, 10, 3), "TCYXS", {"photometric": "rgb"}),
    ((5, 1, 10), "TYX", {}),
]


def written(image: numpy.ndarray, axes: str, options: dict) -> bytes:
    """Returns an OME-TIFF file that tifffile writes."""
    made = io.BytesIO()
    tifffile.imwrite(made, image, ome=True, metadata={"axes": axes}, **options)
    return made.getvalue()


def assert_same(file: bytes) -> None:
    """Compares all series of a file, and their levels, with those of tifffile."""
    ours, theirs = mt.TiffFile(file), tifffile.TiffFile(io.BytesIO(file))
    assert len(ours.series) == len(theirs.series)
    for series, other in zip(ours.series, theirs.series):
        assert len(series.levels) == len(other.levels) and series.index == other.index
        for level, wanted in zip(series.levels, other.levels):
            assert (level.shape, level.axes) == (wanted.shape, wanted.axes)
            assert level.dtype == wanted.dtype
            numpy.testing.assert_array_equal(level.asarray(), wanted.asarray())
    expected = tifffile.imread(io.BytesIO(file))
    numpy.testing.assert_array_equal(mt.imread(file), expected)


@pytest.mark.parametrize(("shape", "axes", "options"), ARRAYS)
@pytest.mark.parametrize("dtype", ["u1", "u2", "f4"])
def test_arrays(shape: tuple[int, ...], axes: str, options: dict, dtype: str) -> None:
    image = samples(shape, dtype)
    file = written(image, axes, options)
    assert_same(file)
    numpy.testing.assert_array_equal(mt.imread(file), image.reshape(mt.imread(file).shape))


@pytest.mark.parametrize("levels", [0, 2])
def test_images_and_levels(levels: int) -> None:
    made = io.BytesIO()
    options = {"tile": (16, 16), "photometric": "rgb"}
    with tifffile.TiffWriter(made, ome=True, bigtiff=True) as writer:
        image = samples((2, 3, 96, 80, 3), "u1")
        writer.write(image, subifds=levels, metadata={"axes": "TCYXS"}, **options)
        for level in range(1, levels + 1):
            step = 2**level
            writer.write(image[:, :, ::step, ::step], subfiletype=1, **options)
        writer.write(samples((30, 20), "u2"), metadata={"Name": "thumbnail"})
    assert_same(made.getvalue())
    assert [len(series.levels) for series in mt.TiffFile(made.getvalue()).series] == [levels + 1, 1]


def test_planes_in_another_order() -> None:
    """The XML says which page each plane is."""
    image = samples((4, 12, 10), "u2")
    file = written(image, "ZYX", {"photometric": "minisblack"})
    text = mt.TiffFile(file).pages[0].description
    data = re.search(r"<TiffData[^>]*/>", text)[0]
    parts = "".join(
        f'<TiffData IFD="{page}" FirstZ="{plane}" PlaneCount="1"/>'
        for plane, page in enumerate((2, 0, 3, 1))
    )
    made = io.BytesIO()
    turned = text.replace(data, parts).encode()
    options = {"photometric": "minisblack", "metadata": None, "contiguous": False}
    with tifffile.TiffWriter(made) as writer:
        for index, plane in enumerate(image):
            writer.write(plane, description=turned if not index else None, **options)
    assert_same(made.getvalue())
    numpy.testing.assert_array_equal(mt.imread(made.getvalue()), image[[2, 0, 3, 1]])


NOTES = "StructuredAnnotations"
CHANGES = {
    "several files": (
        'PlaneCount="4"/>', 'PlaneCount="4"><UUID FileName="b.tif">urn:b</UUID></TiffData>'
    ),
    "dimensions": ('DimensionOrder="X', 'DimensionOrder="Y'),
    "isn't read": ('SizeZ="', 'SizeZ="x'),
    "other planes": ('SizeZ="4"', 'SizeZ="5"'),
    "pages that the file": ('IFD="0"', 'IFD="1"'),
    "another file": ("<Image", "<BinaryOnly/><Image"),
    "divided": ("</OME>", f"<{NOTES}><XMLAnnotation Namespace='a/modulo'/></{NOTES}></OME>"),
}


@pytest.mark.parametrize("message", CHANGES)
def test_metadata_that_is_refused(message: str) -> None:
    file = written(samples((4, 12, 10), "u2"), "ZYX", {"photometric": "minisblack"})
    text, (old, new) = mt.TiffFile(file).pages[0].description, CHANGES[message]
    assert old in text
    made = io.BytesIO()
    options = {"photometric": "minisblack", "metadata": None, "contiguous": False}
    with tifffile.TiffWriter(made) as writer:
        for index in range(4):
            changed = text.replace(old, new).encode() if not index else None
            writer.write(samples((12, 10), "u2"), description=changed, **options)
    for call in (mt.imread, lambda file: mt.TiffFile(file).series):
        with pytest.raises(mt.UnsupportedError, match=f"{message}.*key="):
            call(made.getvalue())
    assert mt.imread(made.getvalue(), key=1).shape == (12, 10)
