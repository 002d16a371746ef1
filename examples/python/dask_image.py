"""A page of a TIFF file as a dask array, whose blocks are whole strips or tiles.

  python3 dask_image.py map.tif

prints the sum of the samples of the first page, which two processes on this machine add up. No
process reads the whole image: each block is read by the worker that needs it, which opens the file
by its path for that block alone. Workers on other machines have to see the file at the same path.
The array has the shape and the number type of the page, as `asarray` returns it: with samples
apart, planes, rows and columns; of one bit a sample, bool; of a palette, indexes of the columns of
`page.colormap`. It wants the package mangohatch_tiff, numpy, dask and distributed.
"""
from __future__ import annotations

import sys
from pathlib import Path
from typing import Any

from dask.array.core import Array, map_blocks, normalize_chunks
from distributed import Client, LocalCluster

from mangohatch_tiff import TiffFile, TiffPage

# A block has about as many bytes.
BLOCK = 1 << 22


def read_block(path: str, page: int, axes: str, block_info: Any = None) -> Any:
    """Reads the rows and columns of a page that a block has, in all its samples."""
    places = dict(zip(axes, block_info[None]["array-location"]))
    with TiffFile(path) as file:
        return file.pages[page].read(slice(*places["Y"]), slice(*places["X"]), workers=1)


def sides_of(page: TiffPage) -> tuple[int, ...]:
    """Returns the sides of a block: as many whole strips or tiles as fit into it, side by side
    first and then one below the other."""
    rows, columns = page.chunks[:2]
    pixels = max(1, BLOCK // (page.samplesperpixel * page.dtype.itemsize))
    across = max(1, min(-(-page.imagewidth // columns), pixels // (rows * columns)))
    down = max(1, pixels // (rows * columns * across))
    sides = {"S": page.samplesperpixel, "Y": down * rows, "X": across * columns}
    return tuple(min(sides[axis], size) for axis, size in zip(page.axes, page.shape))


def image_of(path: str, index: int = 0) -> Array:
    """Returns a page as a dask array; nothing of its samples is read yet."""
    with TiffFile(path) as file:
        page = file.pages[index]
        chunks = normalize_chunks(sides_of(page), page.shape)
        image: Array = map_blocks(
            read_block, path, index, page.axes, chunks=chunks, dtype=page.dtype
        )
        return image


def main() -> None:
    path = str(Path(sys.argv[1]).resolve())
    with LocalCluster(
        n_workers=2, threads_per_worker=1, host="127.0.0.1", dashboard_address=None
    ) as cluster, Client(cluster):
        image = image_of(path)
        print(
            image.shape,
            image.dtype,
            "in",
            image.numblocks,
            "blocks:",
            image.sum(dtype="u8" if image.dtype.kind in "ub" else None).compute(),
        )


if __name__ == "__main__":
    main()
