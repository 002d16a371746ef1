"""GeoTIFF: keys by name, EPSG numbers and transforms, as GDAL and tifffile have them."""
from __future__ import annotations

import io
from pathlib import Path

import numpy
import pytest
import tifffile
from conftest import gray_file, samples

import mangohatch_tiff as mt
from mangohatch_tiff import Status

Tag = tuple[int, str, int, tuple]
SCALE, TIES = (33550, "d", 3, (10.0, 5.0, 0.0)), (33922, "d", 6, (0.0, 0.0, 0.0, 500.0, 900.0, 0.0))
MATRIX = (10.0, 1.0, 0.0, 500.0, 2.0, -5.0, 0.0, 900.0, *([0.0] * 7), 1.0)


def keys_tag(*keys: tuple[int, int, int, int], version: int = 1, count: int | None = None) -> Tag:
    """Returns a directory of keys, each its number, its tag, its count and its value."""
    words = (version, 1, 0, len(keys) if count is None else count)
    words += tuple(word for key in keys for word in key)
    return 34735, "H", len(words), words


def page_of(*tags: Tag, byteorder: str = "<") -> mt.TiffPage:
    """Returns a page with tags, which tifffile writes."""
    made = io.BytesIO()
    extra = [(*tag, True) for tag in tags]
    image = samples((4, 5), "u1")
    tifffile.imwrite(made, image, metadata=None, extratags=extra, byteorder=byteorder)
    return mt.TiffFile(made.getvalue()).pages[0]


@pytest.mark.parametrize("byteorder", "<>")
def test_keys(byteorder: str) -> None:
    texts = "WGS 84 / UTM zone 33N|the second|"
    page = page_of(
        SCALE, TIES,
        keys_tag(
            (1024, 0, 1, 1), (1025, 0, 1, 1), (1026, 34737, 22, 0), (2049, 34737, 11, 22),
            (2057, 34736, 1, 0), (2062, 34736, 3, 1), (3072, 0, 1, 32633), (3076, 0, 1, 9001),
            (5000, 0, 1, 7), (4000, 34735, 2, 0),
        ),
        (34736, "d", 4, (6378137.0, 1.0, 2.0, 3.0)), (34737, "s", 0, texts), byteorder=byteorder,
    )
    geo = page.geo
    assert geo is page.geo and geo is not None
    assert geo.keys == {
        "GTModelTypeGeoKey": 1,
        "GTRasterTypeGeoKey": 1,
        "GTCitationGeoKey": "WGS 84 / UTM zone 33N",
        "GeogCitationGeoKey": "the second",
        "GeogSemiMajorAxisGeoKey": 6378137.0,
        "GeogTOWGS84GeoKey": (1.0, 2.0, 3.0),
        "ProjectedCSTypeGeoKey": 32633,
        "ProjLinearUnitsGeoKey": 9001,
        "5000": 7,
        "4000": (1, 1),
    }
    assert (geo.epsg, geo.is_point) == (32633, False)
    assert geo.pixel_scale == (10.0, 5.0, 0.0)
    assert geo.tie_points == ((0.0, 0.0, 0.0, 500.0, 900.0, 0.0),)
    assert geo.transform == (10.0, 0.0, 500.0, 0.0, -5.0, 900.0)
    assert geo.transform_at(2, 3) == (10.0, 0.0, 530.0, 0.0, -5.0, 890.0)
    assert "32633" in repr(geo)


def test_keys_are_those_of_tifffile() -> None:
    made = io.BytesIO()
    keys = keys_tag((1024, 0, 1, 2), (2048, 0, 1, 4326), (2057, 34736, 1, 0), (2049, 34737, 7, 0))
    extra = [(*tag, True) for tag in (
        keys, (34736, "d", 1, (6378137.0,)), (34737, "s", 0, "WGS 84|"), SCALE, TIES
    )]
    tifffile.imwrite(made, samples((4, 5), "u1"), metadata=None, extratags=extra)
    theirs = tifffile.TiffFile(io.BytesIO(made.getvalue())).pages[0].geotiff_tags
    geo = mt.TiffFile(made.getvalue()).pages[0].geo
    assert geo.keys == {name: theirs[name] for name in geo.keys}
    assert [*geo.pixel_scale] == theirs["ModelPixelScale"]
    assert [*geo.tie_points[0]] == theirs["ModelTiepoint"]
    assert geo.epsg == 4326


@pytest.mark.parametrize(("keys", "epsg"), [
    ([(3072, 0, 1, 25832), (2048, 0, 1, 4258)], 25832),
    ([(3072, 0, 1, 32767), (2048, 0, 1, 4258)], 4258),
    ([(2048, 0, 1, 32767)], None),
    ([(2048, 0, 1, 0)], None),
    ([(1024, 0, 1, 1)], None),
])
def test_epsg(keys: list, epsg: int | None) -> None:
    assert page_of(keys_tag(*keys)).geo.epsg == epsg


def test_transforms() -> None:
    ties = (33922, "d", 6, (2.0, 3.0, 0.0, 500.0, 900.0, 0.0))
    assert page_of(SCALE, ties).geo.transform == (10.0, 0.0, 480.0, 0.0, -5.0, 915.0)
    matrix = (34264, "d", 16, MATRIX)
    assert page_of(matrix).geo.transform == (10.0, 1.0, 500.0, 2.0, -5.0, 900.0)
    point = keys_tag((1025, 0, 1, 2))
    assert page_of(SCALE, TIES, point).geo.transform == (10.0, 0.0, 495.0, 0.0, -5.0, 902.5)
    assert page_of(matrix, point).geo.transform == (10.0, 1.0, 494.5, 2.0, -5.0, 901.5)
    assert page_of(matrix).geo.transform_at(1, 2) == (10.0, 1.0, 521.0, 2.0, -5.0, 899.0)
    for tags in ((SCALE,), (TIES,), (keys_tag(),), ((33550, "d", 3, (0.0, 0.0, 0.0)), TIES)):
        assert page_of(*tags).geo.transform is None
        assert page_of(*tags).geo.transform_at(1, 1) is None


def test_a_page_without_geographic_tags() -> None:
    assert mt.TiffFile(gray_file()).pages[0].geo is None
    assert mt.TiffFile(gray_file(t256=(3, 0))).pages[0].geo is None


MALFORMED = {
    "header": [(34735, "H", 3, (1, 1, 0))],
    "version": [keys_tag(version=2)],
    "ends": [keys_tag((1024, 0, 1, 1), count=2)],
    "holds none": [keys_tag((1026, 270, 1, 0))],
    "values 0 to 3 of 0": [keys_tag((2062, 34736, 3, 0))],
    "values 1 to 4 of 3": [keys_tag((2062, 34736, 3, 1)), (34736, "d", 3, (1.0, 2.0, 3.0))],
    "values 0 to 9 of 4": [keys_tag((1026, 34737, 9, 0)), (34737, "s", 0, "abc")],
    "values 0 to 0": [keys_tag((1026, 34737, 0, 0)), (34737, "s", 0, "abc")],
    "ModelTiepointTag": [(33922, "d", 5, (1.0,) * 5)],
    "ModelTransformationTag": [(34264, "d", 12, (1.0,) * 12)],
    "33550": [(33550, "f", 3, (1.0,) * 3)],
    "34736": [keys_tag((2057, 34736, 1, 0)), (34736, "f", 1, (1.0,))],
    "GeoKeyDirectoryTag": [(34735, "d", 4, (1.0,) * 4)],
}


@pytest.mark.parametrize("message", MALFORMED)
def test_malformed_tags(message: str) -> None:
    page = page_of(*MALFORMED[message])
    with pytest.raises(mt.UnsupportedError, match=message) as error:
        page.geo
    assert error.value.status is Status.INVALID_TAG and error.value.page == 0
    assert page.asarray().shape == (4, 5)


def test_every_changed_byte() -> None:
    """Whatever the tags have, they are returned or refused by name."""
    made = io.BytesIO()
    keys = keys_tag((1024, 0, 1, 2), (2057, 34736, 1, 0), (2049, 34737, 7, 0))
    extra = [(*tag, True) for tag in (
        keys, (34736, "d", 1, (6378137.0,)), (34737, "s", 0, "WGS 84|"), SCALE, TIES
    )]
    tifffile.imwrite(made, samples((2, 2), "u1"), metadata=None, extratags=extra)
    good = made.getvalue()
    count = 0
    for place in range(8, len(good)):
        for byte in (0, 1, 255, good[place] ^ 3):
            file = bytearray(good)
            file[place] = byte
            try:
                for page in mt.TiffFile(file).pages:
                    geo = page.geo
                    count += geo is not None and geo.transform is not None
            except mt.TiffError as error:
                assert error.status is not Status.DONE
    assert count > 100


GDAL = {
    "north up": ("EPSG:32633", (500.0, 10.0, 0.0, 900.0, 0.0, -5.0), {}),
    "turned": ("EPSG:25832", (500.0, 10.0, 1.0, 900.0, 2.0, -5.0), {}),
    "geographic": ("EPSG:4326", (-180.0, 0.25, 0.0, 90.0, 0.0, -0.25), {}),
    "a point": ("EPSG:3857", (500.0, 10.0, 0.0, 900.0, 0.0, -10.0), {"AREA_OR_POINT": "Point"}),
    "a turned point": ("EPSG:3857", (5.0, 1.0, 2.0, 9.0, 3.0, -7.0), {"AREA_OR_POINT": "Point"}),
    "south up": ("EPSG:32733", (500.0, 10.0, 0.0, 900.0, 0.0, 5.0), {}),
}


@pytest.mark.parametrize("name", GDAL)
@pytest.mark.parametrize("options", [[], ["TILED=YES", "BIGTIFF=YES", "ENDIANNESS=BIG"]])
def test_gdal(name: str, options: list[str], tmp_path: Path) -> None:
    """The transform and the EPSG number are those that GDAL wrote."""
    gdal = pytest.importorskip("osgeo.gdal")
    osr = pytest.importorskip("osgeo.osr")
    code, transform, metadata = GDAL[name]
    path, image = tmp_path / "map.tif", samples((40, 50), "u2")
    made = gdal.GetDriverByName("GTiff").Create(str(path), 50, 40, 1, gdal.GDT_UInt16, options)
    reference = osr.SpatialReference()
    reference.SetFromUserInput(code)
    made.SetProjection(reference.ExportToWkt())
    made.SetGeoTransform(transform)
    made.SetMetadata(metadata)
    made.GetRasterBand(1).WriteRaster(0, 0, 50, 40, image.tobytes())
    made = None
    x, a, b, y, d, e = gdal.Open(str(path)).GetGeoTransform()
    with mt.TiffFile(path) as tif:
        page = tif.pages[0]
        assert page.geo.epsg == int(code.split(":")[1])
        assert page.geo.is_point == (metadata != {})
        assert page.geo.transform == pytest.approx((a, b, x, d, e, y))
        assert (x, a, b, y, d, e) == pytest.approx(transform)
        numpy.testing.assert_array_equal(page.asarray(), image)


def test_words_of_several_types() -> None:
    """A directory of keys may be of words of another unsigned type."""
    words = (1, 1, 0, 1, 2048, 0, 1, 4326)
    assert page_of((34735, "I", 8, words)).geo.epsg == 4326
