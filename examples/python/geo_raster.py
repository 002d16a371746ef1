"""Tells where a raster lies on the earth, and cuts a window of it around a place of the map.

  python3 geo_raster.py map.tif
  python3 geo_raster.py map.tif 4321000 3210000 256 window.tif

The numbers are x and y, in the units of the map, and how many rows and columns the window has,
where the raster has them. The window is a raster of its own, with the same keys. It wants the
package mangohatch_tiff, and numpy.
"""
from __future__ import annotations

import math
import sys
from typing import Any

from mangohatch_tiff import Geo, TiffFile, TiffPage, imwrite

# What some numbers of keys mean, by GeoTIFF 1.1 (OGC 19-008); most others are numbers of EPSG.
MEANINGS = {
    "GTModelTypeGeoKey": {1: "projected", 2: "geographic", 3: "geocentric"},
    "GTRasterTypeGeoKey": {1: "a pixel is an area", 2: "a pixel is a point"},
    "GeogAngularUnitsGeoKey": {9102: "degree"},
    "ProjLinearUnitsGeoKey": {9001: "metre"},
}
TRANSFORMATION, KEYS, DOUBLES, TEXTS = 34264, 34735, 34736, 34737


def print_facts(geo: Geo) -> None:
    """Prints the keys, each with its number and what the number means, and the corner."""
    for name, value in geo.keys.items():
        meaning = MEANINGS.get(name, {}).get(value) if isinstance(value, int) else None
        print(f"{name} = {value!r}" + (f" ({meaning})" if meaning else ""))
    print(f"EPSG: {geo.epsg}")
    if geo.transform is not None:
        print("upper left corner:", *to_map(geo, 0, 0))


def to_map(geo: Geo, column: float, row: float) -> tuple[float, float]:
    """Returns x and y of a place of the raster; 0.5 and 0.5 are the middle of its first pixel."""
    a, b, c, d, e, f = geo.transform or sys.exit("the raster has no transform")
    return a * column + b * row + c, d * column + e * row + f


def to_raster(geo: Geo, x: float, y: float) -> tuple[float, float]:
    """Returns the column and the row of a place of the map."""
    a, b, c, d, e, f = geo.transform or sys.exit("the raster has no transform")
    size = a * e - b * d
    return (e * (x - c) - b * (y - f)) / size, (a * (y - f) - d * (x - c)) / size


def around(place: float, size: int, most: int) -> slice:
    """Returns so many rows or columns around a place, as far as the raster has them."""
    first = math.floor(place) - size // 2
    return slice(min(max(first, 0), most), min(max(first + size, 0), most))


def cut(page: TiffPage, geo: Geo, rows: slice, columns: slice, target: str) -> None:
    """Writes a window of a raster, with the keys of the raster and a transform of its own."""
    window = page.read(rows, columns)
    if not window.size:
        sys.exit("the raster has no pixel there")
    a, b, c, d, e, f = geo.transform_at(rows.start, columns.start) or sys.exit("no transform")
    if geo.is_point:
        c, f = c + (a + b) / 2, f + (d + e) / 2
    matrix = (a, b, 0.0, c, d, e, 0.0, f, 0.0, 0.0, 1.0, 0.0, 0.0, 0.0, 0.0, 1.0)
    tags: list[tuple[int, str, int, Any, bool]] = [(TRANSFORMATION, "d", 16, matrix, True)]
    if KEYS in page.tags:
        tags.append((KEYS, "H", 0, page.tags.numbers(KEYS), True))
    if DOUBLES in page.tags:
        tags.append((DOUBLES, "d", 0, page.tags.floats(DOUBLES), True))
    if TEXTS in page.tags:
        tags.append((TEXTS, "s", 0, page.tags.data(TEXTS), True))
    imwrite(target, window, photometric=page.photometric, extratags=tags)
    print(f"window: {window.shape} {window.dtype}, mean {window.mean():.2f}")


def main() -> None:
    with TiffFile(sys.argv[1]) as tif:
        page = tif.pages[0]
        geo = page.geo
        if geo is None:
            sys.exit("the page has no geographic tags")
        print_facts(geo)
        if len(sys.argv) > 2:
            x, y, size = float(sys.argv[2]), float(sys.argv[3]), int(sys.argv[4])
            column, row = to_raster(geo, x, y)
            print(f"pixel: row {math.floor(row)}, column {math.floor(column)}")
            rows = around(row, size, page.imagelength)
            columns = around(column, size, page.imagewidth)
            cut(page, geo, rows, columns, sys.argv[5])


if __name__ == "__main__":
    main()
