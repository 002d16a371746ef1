"""GeoTIFF: where the pixels of a page lie on the earth, by the tags of OGC 19-008 (GeoTIFF 1.1)."""
from __future__ import annotations

from dataclasses import dataclass
from typing import TYPE_CHECKING, Any, Union

from ._library import Status, TiffError, UnsupportedError

if TYPE_CHECKING:
    from ._tags import Tags

DIRECTORY, DOUBLES, TEXTS = 34735, 34736, 34737
PIXEL_SCALE, TIE_POINTS, TRANSFORMATION = 33550, 33922, 34264
GEO_TAGS = (DIRECTORY, PIXEL_SCALE, TIE_POINTS, TRANSFORMATION)
# The keys by their numbers, with the names of GeoTIFF 1.0, which tifffile has too.
KEYS = {
    1024: "GTModelTypeGeoKey",
    1025: "GTRasterTypeGeoKey",
    1026: "GTCitationGeoKey",
    2048: "GeographicTypeGeoKey",
    2049: "GeogCitationGeoKey",
    2050: "GeogGeodeticDatumGeoKey",
    2051: "GeogPrimeMeridianGeoKey",
    2052: "GeogLinearUnitsGeoKey",
    2053: "GeogLinearUnitSizeGeoKey",
    2054: "GeogAngularUnitsGeoKey",
    2055: "GeogAngularUnitsSizeGeoKey",
    2056: "GeogEllipsoidGeoKey",
    2057: "GeogSemiMajorAxisGeoKey",
    2058: "GeogSemiMinorAxisGeoKey",
    2059: "GeogInvFlatteningGeoKey",
    2060: "GeogAzimuthUnitsGeoKey",
    2061: "GeogPrimeMeridianLongGeoKey",
    2062: "GeogTOWGS84GeoKey",
    3059: "ProjLinearUnitsInterpCorrectGeoKey",
    3072: "ProjectedCSTypeGeoKey",
    3073: "PCSCitationGeoKey",
    3074: "ProjectionGeoKey",
    3075: "ProjCoordTransGeoKey",
    3076: "ProjLinearUnitsGeoKey",
    3077: "ProjLinearUnitSizeGeoKey",
    3078: "ProjStdParallel1GeoKey",
    3079: "ProjStdParallel2GeoKey",
    3080: "ProjNatOriginLongGeoKey",
    3081: "ProjNatOriginLatGeoKey",
    3082: "ProjFalseEastingGeoKey",
    3083: "ProjFalseNorthingGeoKey",
    3084: "ProjFalseOriginLongGeoKey",
    3085: "ProjFalseOriginLatGeoKey",
    3086: "ProjFalseOriginEastingGeoKey",
    3087: "ProjFalseOriginNorthingGeoKey",
    3088: "ProjCenterLongGeoKey",
    3089: "ProjCenterLatGeoKey",
    3090: "ProjCenterEastingGeoKey",
    3091: "ProjCenterNorthingGeoKey",
    3092: "ProjScaleAtNatOriginGeoKey",
    3093: "ProjScaleAtCenterGeoKey",
    3094: "ProjAzimuthAngleGeoKey",
    3095: "ProjStraightVertPoleLongGeoKey",
    3096: "ProjRectifiedGridAngleGeoKey",
    4096: "VerticalCSTypeGeoKey",
    4097: "VerticalCitationGeoKey",
    4098: "VerticalDatumGeoKey",
    4099: "VerticalUnitsGeoKey",
}
RASTER_TYPE, GEOGRAPHIC, PROJECTED = 1025, 2048, 3072
PIXEL_IS_POINT = 2
# The numbers of EPSG that a key can have.
EPSG = range(1024, 32767)

GeoValue = Union[int, float, str, tuple[Union[int, float], ...]]
Affine = tuple[float, float, float, float, float, float]


@dataclass(frozen=True)
class Geo:
    """Where the pixels of a page lie on the earth.

    `keys` are the GeoKeys by their names, or as text the number of one that has none here: a whole
    number, a number or several, or a text. `pixel_scale` is the size of a pixel along x, y and z in
    the units of the map; `tie_points` are points, each of column, row and layer and of x, y and z;
    `transformation` is a matrix of 16 numbers, row by row. What the page doesn't have is empty.
    """

    keys: dict[str, GeoValue]
    pixel_scale: tuple[float, ...] = ()
    tie_points: tuple[tuple[float, ...], ...] = ()
    transformation: tuple[float, ...] = ()

    @property
    def epsg(self) -> int | None:
        """The number of EPSG of the projected coordinates, or else of the geographic ones.

        It is None if the page has neither, or if they are the user's own (32767).
        """
        for key in (PROJECTED, GEOGRAPHIC):
            value = self.keys.get(KEYS[key])
            if isinstance(value, int) and value in EPSG:
                return value
        return None

    @property
    def is_point(self) -> bool:
        """Whether the tags have the place of the middle of a pixel, and not its upper left
        corner."""
        return self.keys.get(KEYS[RASTER_TYPE]) == PIXEL_IS_POINT

    @property
    def transform(self) -> Affine | None:
        """The affine transform (a, b, c, d, e, f) from columns and rows to x and y of the map.

        As in rasterio, x = a * column + b * row + c and y = d * column + e * row + f, where column
        0 and row 0 are the upper left corner of the first pixel, also if the tags have the middle
        of a pixel; 0.5 and 0.5 are its middle. It comes from the pixel scale and the first tie
        point, or else from the matrix; without them it is None.
        """
        scale, matrix = self.pixel_scale, self.transformation
        if len(scale) > 1 and scale[0] and scale[1] and self.tie_points:
            column, row, _, x, y, _ = self.tie_points[0]
            across, down = scale[0], -abs(scale[1])
            found = across, 0.0, x - column * across, 0.0, down, y - row * down
        elif matrix and not (len(scale) > 1 and scale[0] and scale[1]):
            found = matrix[0], matrix[1], matrix[3], matrix[4], matrix[5], matrix[7]
        else:
            return None
        return moved(found, -0.5, -0.5) if self.is_point else found

    def transform_at(self, row: int, column: int) -> Affine | None:
        """Returns the transform of a window whose first pixel has this row and column.

        It is that of rasterio's `window_transform`: column 0 and row 0 are the upper left corner of
        the window, as `TiffPage.read(slice(row, ..), slice(column, ..))` has it.
        """
        found = self.transform
        return None if found is None else moved(found, column, row)


def moved(transform: Affine, columns: float, rows: float) -> Affine:
    """Returns the transform that begins so many columns and rows further on."""
    a, b, c, d, e, f = transform
    return a, b, a * columns + b * rows + c, d, e, d * columns + e * rows + f


def malformed(what: str, page: int | None) -> UnsupportedError:
    """Returns the error of geographic tags that aren't as GeoTIFF has them."""
    return UnsupportedError(f"GeoTIFF: {what}", Status.INVALID_TAG, page)


def geo_of(tags: Tags, page: int | None) -> Geo | None:
    """Returns where the pixels of a page lie, or None if it has no geographic tags."""
    if not any(code in tags for code in GEO_TAGS):
        return None
    numbers = {code: numbers_of(tags, code, page) for code in GEO_TAGS[1:]}
    points, matrix = numbers[TIE_POINTS], numbers[TRANSFORMATION]
    if len(points) % 6:
        raise malformed(f"ModelTiepointTag has {len(points)} numbers, not 6 for each point", page)
    if len(matrix) not in (0, 16):
        raise malformed(f"ModelTransformationTag has {len(matrix)} numbers, not 16", page)
    return Geo(
        keys=keys_of(tags, page),
        pixel_scale=numbers[PIXEL_SCALE],
        tie_points=tuple(points[at : at + 6] for at in range(0, len(points), 6)),
        transformation=matrix,
    )


def numbers_of(tags: Tags, code: int, page: int | None) -> tuple[float, ...]:
    """Returns the floating-point numbers of a tag, none if the page doesn't have it."""
    if code not in tags:
        return ()
    try:
        return tags.floats(code)
    except TiffError as error:
        raise malformed(f"tag {code}: {error}", page) from error


def keys_of(tags: Tags, page: int | None) -> dict[str, GeoValue]:
    """Returns the GeoKeys of a page by their names."""
    if DIRECTORY not in tags:
        return {}
    try:
        words = tags.numbers(DIRECTORY)
    except TiffError as error:
        raise malformed(f"GeoKeyDirectoryTag: {error}", page) from error
    if len(words) < 4 or words[0] != 1:
        raise malformed("GeoKeyDirectoryTag has no header of version 1", page)
    if len(words) < 4 + 4 * words[3]:
        raise malformed(f"GeoKeyDirectoryTag ends before its {words[3]} keys do", page)
    places = {DIRECTORY: words, DOUBLES: numbers_of(tags, DOUBLES, page), TEXTS: texts_of(tags)}
    found = {}
    for at in range(4, 4 + 4 * words[3], 4):
        key, tag, count, value = words[at : at + 4]
        name = KEYS.get(key, str(key))
        found[name] = value if tag == 0 else value_of(name, places.get(tag), value, count, page)
    return found


def texts_of(tags: Tags) -> bytes:
    """Returns the bytes in which GeoKeys have their texts."""
    return tags.data(TEXTS) if TEXTS in tags else b""


def value_of(
    name: str, held: Any, start: int, count: int, page: int | None
) -> GeoValue:
    """Returns the values of a GeoKey, which lie in another tag: one, several, or a text."""
    if held is None:
        raise malformed(f"{name} has its value in a tag that holds none", page)
    values = held[start : start + count]
    if not count or len(values) < count:
        raise malformed(f"{name} has values {start} to {start + count} of {len(held)}", page)
    if isinstance(values, bytes):
        return values.split(b"\0")[0].decode("utf-8", "replace").removesuffix("|")
    return values[0] if count == 1 else tuple(values)
