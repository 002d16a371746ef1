"""Reads one tile of a TIFF file's first page: the one that a pixel lies in. The others aren't read.

  python3 one_tile.py map.tif 12000 34000 tile.tif

The numbers are the pixel's row and column. It wants the package mangohatch_tiff, and numpy.
"""
import sys

from mangohatch_tiff import TiffFile, TiffPage, imwrite


def tile_at(page: TiffPage, row: int, column: int) -> int:
    """Returns the number of the tile of the first plane that a pixel lies in."""
    across = -(-page.imagewidth // page.tilewidth)
    return row // page.tilelength * across + column // page.tilewidth


def main() -> None:
    path, row, column, target = sys.argv[1], int(sys.argv[2]), int(sys.argv[3]), sys.argv[4]
    with TiffFile(path) as tif:
        page = tif.pages[0]
        if not page.is_tiled:
            sys.exit("the page is in strips")
        if not (0 <= row < page.imagelength and 0 <= column < page.imagewidth):
            sys.exit("there is no such pixel")
        tile = tile_at(page, row, column)
        array = page.read_chunk(tile)
    print(f"tile {tile}: shape {array.shape}, {array.dtype}, mean {array.mean():.2f}")
    imwrite(target, array)


if __name__ == "__main__":
    main()
