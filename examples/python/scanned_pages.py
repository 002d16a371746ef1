"""Adds scanned pages to a TIFF file on disk, one after another; without the file, it is made.

  python3 scanned_pages.py scan.tif 50 3508 2480

The numbers are how many pages come from the scanner, and the rows and columns of one; a gray ramp
takes the place of what it scans. After each page the file on disk is whole, and what was in it
before isn't written anew, so the memory that it takes is that of one page. It wants the package
mangohatch_tiff, and numpy.
"""
import resource
import sys
from collections.abc import Iterator
from typing import Any

import numpy
from numpy.typing import NDArray

from mangohatch_tiff import TiffFile, imwrite


def scanned(count: int, rows: int, columns: int) -> Iterator[NDArray[Any]]:
    """Yields pages, one at a time."""
    ramp = numpy.arange(columns, dtype="u4") + numpy.arange(rows, dtype="u4")[:, None]
    for page in range(count):
        yield (ramp + page).astype("u1")


def main() -> None:
    path, count, rows, columns = sys.argv[1], *map(int, sys.argv[2:5])
    for number, image in enumerate(scanned(count, rows, columns)):
        imwrite(path, image, append=True, resolution=(300, 300), description=f"scan {number}")
    with TiffFile(path) as tif:
        print(f"{len(tif)} pages, the last one {tif.pages[-1].description!r}")
    memory = resource.getrusage(resource.RUSAGE_SELF).ru_maxrss
    print(f"{memory // 1024} MB of memory at most", file=sys.stderr)


if __name__ == "__main__":
    main()
