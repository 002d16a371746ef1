"""Reads TIFF and BigTIFF files into numpy arrays, and writes them.

    with TiffFile("scan.tif") as tif:
        for page in tif.pages:
            print(page.shape, page.dtype, page.tags["XResolution"].value)
        image = tif.pages[0].asarray()

What has a name of tifffile's here means the same; README.md has the table.
"""
from __future__ import annotations

from typing import TYPE_CHECKING, Any

from ._enums import (
    COMPRESSION,
    DATATYPE,
    EXTRASAMPLE,
    FILLORDER,
    PHOTOMETRIC,
    PLANARCONFIG,
    PREDICTOR,
    RESUNIT,
    SAMPLEFORMAT,
)
from ._file import TiffFile, imread
from ._geo import Geo
from ._imwrite import imwrite
from ._jobs import write_jobs
from ._library import (
    ColorKind,
    Found,
    JobsError,
    PageField,
    PagesError,
    Status,
    TiffError,
    UnsupportedError,
    library_version,
)
from ._page import TiffPage
from ._tags import Tag, Tags
from ._tree import Directory
from ._version import package_version
from ._writer import TiffWriter

if TYPE_CHECKING:
    from ._levels import TiffPageSeries
    from ._memmap import memmap
    from ._zarr import ZarrTiffStore

__version__ = package_version()

__all__ = [
    "COMPRESSION",
    "ColorKind",
    "DATATYPE",
    "Directory",
    "EXTRASAMPLE",
    "FILLORDER",
    "Found",
    "Geo",
    "JobsError",
    "PHOTOMETRIC",
    "PLANARCONFIG",
    "PREDICTOR",
    "PageField",
    "PagesError",
    "RESUNIT",
    "SAMPLEFORMAT",
    "Status",
    "Tag",
    "Tags",
    "TiffError",
    "TiffFile",
    "TiffPage",
    "TiffPageSeries",
    "TiffWriter",
    "UnsupportedError",
    "ZarrTiffStore",
    "imread",
    "imwrite",
    "library_version",
    "memmap",
    "write_jobs",
]


def __getattr__(name: str) -> Any:
    """Loads what needs numpy when it is first used."""
    if name == "memmap":
        from ._memmap import memmap

        return memmap
    if name == "TiffPageSeries":
        from ._levels import TiffPageSeries

        return TiffPageSeries
    if name == "ZarrTiffStore":
        from ._zarr import ZarrTiffStore

        return ZarrTiffStore
    raise AttributeError(f"module {__name__!r} has no attribute {name!r}")
