"""Writes the image of a SubIFD of a TIFF file's first page as a file of its own. Cameras keep
previews there, which no page links to.

  python3 sub_ifd.py raw.dng preview.tif

It wants the package mangohatch_tiff, and numpy.
"""
import sys

from mangohatch_tiff import TiffFile, imwrite


def main() -> None:
    with TiffFile(sys.argv[1]) as file:
        offsets = file.pages[0].tags["SubIFDs"].value
        preview = file.page_at(offsets[0])
        print(preview)
        imwrite(
            sys.argv[2],
            preview.asarray(),
            photometric=preview.photometric,
            planarconfig=preview.planarconfig,
        )


if __name__ == "__main__":
    main()
