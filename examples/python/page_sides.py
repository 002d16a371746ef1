"""Prints the sides of all pages of a TIFF file, which are listed by one call.

  python3 page_sides.py scan.tif

It wants the package mangohatch_tiff, and no numpy.
"""
import sys

from mangohatch_tiff import Status, TiffFile


def main() -> None:
    with TiffFile(sys.argv[1]) as tif:
        for page in tif:
            if page.status is Status.DONE:
                print(f"{page.index}: {page.imagewidth} x {page.imagelength}")
            else:
                print(f"{page.index}: refused, {page.status.name}")
        if tif.end is not Status.DONE:
            print(f"the chain of pages ends by an error: {tif.end.name}")


if __name__ == "__main__":
    main()
