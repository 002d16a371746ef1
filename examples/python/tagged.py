"""Writes a page with two tags of one's own: a description, and a pixel's size in a map's units.

    python3 tagged.py PAGE.tif

It takes the package `mangohatch_tiff` and numpy.
"""
import sys

import numpy

from mangohatch_tiff import TiffFile, imwrite

MODEL_PIXEL_SCALE = 33550


def main(path: str) -> None:
    image = numpy.arange(256, dtype="u1").reshape(16, 16)
    scale = (MODEL_PIXEL_SCALE, "d", 3, (0.5, 0.5, 0), True)
    imwrite(path, image, description="a ramp", extratags=[scale])
    with TiffFile(path) as tif:
        print(tif.pages[0].description, tif.pages[0].tags[MODEL_PIXEL_SCALE].value)


if __name__ == "__main__":
    main(sys.argv[1])
