"""A page of a TIFF file as an array of zarr, of which dask reads the chunks: no code of the package
is between them.

  python3 zarr_image.py map.tif

prints the mean of the samples of the first page, which two processes on this machine work out. A
chunk of the array is a strip or a tile, and a block of dask has several. Each process opens the
file by its path, which goes there in place of the store. It wants the package mangohatch_tiff,
numpy, zarr, dask and distributed.
"""
from __future__ import annotations

import sys

import zarr
from dask.array.core import Array, from_zarr
from distributed import Client, LocalCluster

from mangohatch_tiff import ZarrTiffStore, imread

# A block has about as many numbers along each side.
SIDE = 1024


def image_of(store: ZarrTiffStore) -> Array:
    """Returns the array of a store as a dask array, in blocks of whole chunks."""
    array = zarr.open(store, mode="r")
    blocks = tuple(
        chunk * max(1, SIDE // chunk) if size > SIDE else size
        for chunk, size in zip(array.chunks, array.shape)
    )
    image: Array = from_zarr(array, chunks=blocks)
    return image


def main() -> None:
    with imread(sys.argv[1], key=0, aszarr=True) as store:
        image = image_of(store)
        with LocalCluster(
            n_workers=2, threads_per_worker=1, host="127.0.0.1", dashboard_address=None
        ) as cluster, Client(cluster):
            print(
                image.shape, image.dtype, "in", image.numblocks, "blocks:", image.mean().compute()
            )


if __name__ == "__main__":
    main()
