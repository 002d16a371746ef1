"""Pages as stores of zarr: a mapping from the names of chunks to their bytes. It needs numpy."""
from __future__ import annotations

import json
import math
from collections.abc import Iterator, MutableMapping
from itertools import product
from typing import TYPE_CHECKING, Any

import numpy

from ._closing import Closing
from ._library import UnsupportedError
from ._mapped import Mapped
from ._series import Stack

if TYPE_CHECKING:
    from ._file import TiffFile
    from ._page import TiffPage

# The memory of a file in which so many bytes were read is given back.
FORGOTTEN = 1 << 22
FORMAT: dict[str, Any] = {"zarr_format": 2}
DIMENSIONS = "_ARRAY_DIMENSIONS"
READ_ONLY = "the store of a TIFF file is read, and not written"

Place = tuple[int, ...]


class Level:
    """The pages of an array as chunks: the strips or tiles of each page, by their places."""

    def __init__(self, stack: Stack) -> None:
        self.stack = stack
        first = stack.pages[0]
        self.before = len(stack.shape) - first.ndim
        counted = math.prod(stack.shape[: self.before]) if self.before >= 0 else 0
        if stack.shape[self.before :] != first.shape or counted != len(stack.pages):
            raise UnsupportedError(f"a store of an array of {stack.shape}; key= reads the pages")
        self.chunk = chunk_of(first)
        sides = zip(stack.shape, (1,) * self.before + self.chunk)
        self.counts = [-(-side // chunk) for side, chunk in sides]

    @property
    def names(self) -> list[str]:
        """A name for each side: its letter, and a number if the letter is there before."""
        axes = self.stack.axes or "Q" * self.before + self.stack.pages[0].axes
        counts = [axes[:at].count(axis) for at, axis in enumerate(axes)]
        return [f"{axis}{count}" if count else axis for axis, count in zip(axes, counts)]

    def described(self) -> dict[str, Any]:
        """Returns what zarr wants to know of the array."""
        return {
            **FORMAT,
            "shape": self.stack.shape,
            "chunks": (1,) * self.before + self.chunk,
            "dtype": self.stack.pages[0].dtype.str,
            "compressor": None,
            # All chunks are there; and xarray takes numbers of this value as missing ones.
            "fill_value": None,
            "order": "C",
            "filters": None,
        }

    def place(self, name: str) -> Place | None:
        """Returns the place of a chunk among the chunks, by its name; None if it is no chunk's."""
        words = name.split(".")
        if len(words) != len(self.counts) or not all(map(str.isdecimal, words)):
            return None
        place = tuple(map(int, words))
        return place if all(at < count for at, count in zip(place, self.counts)) else None

    def read(self, place: Place) -> bytes:
        """Returns the bytes of a chunk, of whole size."""
        index = 0
        for at, side in zip(place, self.stack.shape[: self.before]):
            index = index * side + at
        page = self.stack.pages[index]
        within = dict(zip(page.axes, place[self.before :]))
        across = -(-page.imagewidth // page.chunks[1])
        down = -(-page.imagelength // page.chunks[0])
        plane = within["S"] if page.axes == "SYX" else 0
        part = page.read_chunk((plane * down + within["Y"]) * across + within["X"])
        sides = self.chunk[1:] if page.axes == "SYX" else self.chunk
        if part.shape == sides:
            return part.tobytes()
        whole = numpy.zeros(sides, part.dtype)
        whole[: part.shape[0], : part.shape[1]] = part
        return whole.tobytes()


class ZarrTiffStore(Closing, MutableMapping[str, bytes]):
    """The pages of an array as a store of zarr, version 2, which is read and not written.

    Its keys are `.zarray`, `.zattrs` and one of each chunk, as `0.0`; with `multiscales`, and for
    an array of several levels, these are in groups: `0/0.0`, as xarray wants it. Chunks are the
    strips or the tiles, of whole size: zeros are where the image has none. A key that isn't there
    raises KeyError, and a chunk that can't be read the errors of `TiffPage.read_chunk`.

    A store over a file at a path can be pickled; another process opens that file anew.
    """

    def __init__(
        self,
        stacks: list[Stack],
        *,
        zattrs: dict[str, Any] | None = None,
        multiscales: bool | None = None,
        name: str = "Unnamed",
    ) -> None:
        self._zattrs, self._multiscales, self._name = dict(zattrs or {}), multiscales, name
        grouped = bool(multiscales) or len(stacks) > 1
        self._levels = {
            f"{at}/" if grouped else "": Level(stack) for at, stack in enumerate(stacks)
        }
        self._owned: TiffFile | None = None
        self._read_bytes = 0
        self._facts = encoded(self._of_group() if grouped else self._of_array())

    @property
    def _first(self) -> Level:
        """The largest level."""
        return next(iter(self._levels.values()))

    def _of_array(self) -> dict[str, Any]:
        """Returns the metadata of the store's one array, by the keys."""
        names = {DIMENSIONS: self._first.names}
        return {".zarray": self._first.described(), ".zattrs": {**names, **self._zattrs}}

    def _of_group(self) -> dict[str, Any]:
        """Returns the metadata of the store's arrays, by the keys."""
        attributes, first = dict(self._zattrs), self._first
        names = attributes.pop(DIMENSIONS, first.names)
        paths = [{"path": prefix[:-1]} for prefix in self._levels]
        scales = {"version": "0.1", "name": self._name, "datasets": paths, "metadata": {}}
        entries: dict[str, Any] = {".zgroup": FORMAT}
        entries[".zattrs"] = {"multiscales": [scales], **attributes}
        for prefix, level in self._levels.items():
            sides = zip(names, level.stack.shape, first.stack.shape)
            named = [name if side == one else name + prefix[:-1] for name, side, one in sides]
            entries[f"{prefix}.zattrs"] = {DIMENSIONS: named}
            entries[f"{prefix}.zarray"] = level.described()
        return {**entries, ".zmetadata": {"zarr_consolidated_format": 1, "metadata": entries}}

    def __repr__(self) -> str:
        stacks = [level.stack for level in self._levels.values()]
        entries = ", ".join(f"{one.shape} {one.pages[0].dtype}" for one in stacks)
        return f"<ZarrTiffStore {entries}>"

    def _found(self, key: object) -> tuple[Level, Place] | None:
        """Returns the array and the place of a chunk by its key; None if it is no chunk's."""
        for prefix, level in self._levels.items():
            if isinstance(key, str) and key.startswith(prefix):
                place = level.place(key[len(prefix) :])
                if place is not None:
                    return level, place
        return None

    def __contains__(self, key: object) -> bool:
        return key in self._facts or self._found(key) is not None

    def __iter__(self) -> Iterator[str]:
        yield from self._facts
        for prefix, level in self._levels.items():
            for place in product(*map(range, level.counts)):
                yield prefix + ".".join(map(str, place))

    def __len__(self) -> int:
        chunks = (math.prod(level.counts) for level in self._levels.values())
        return len(self._facts) + sum(chunks)

    def __getitem__(self, key: str) -> bytes:
        if key in self._facts:
            return self._facts[key]
        found = self._found(key)
        if found is None:
            raise KeyError(key)
        data = found[0].read(found[1])
        self._forget(len(data))
        return data

    def _forget(self, size: int) -> None:
        """Counts what is read, and gives back the memory of the file where that is much."""
        file = self._first.stack.pages[0]._file
        self._read_bytes += size
        if self._read_bytes >= FORGOTTEN and isinstance(file, Mapped):
            self._read_bytes = 0
            file.forget()

    def __eq__(self, other: object) -> bool:
        return self is other

    def __hash__(self) -> int:
        return id(self)

    def __setitem__(self, key: str, value: bytes) -> None:
        raise PermissionError(READ_ONLY)

    def __delitem__(self, key: str) -> None:
        raise PermissionError(READ_ONLY)

    def __getstate__(self) -> dict[str, Any]:
        file = self._first.stack.pages[0]._file
        if not isinstance(file, Mapped) or file.path is None:
            raise TypeError("a store is pickled if its file was opened by a path")
        stacks = [level.stack for level in self._levels.values()]
        held = [
            ([(page.index, page.offset) for page in stack.pages], stack.shape, stack.axes)
            for stack in stacks
        ]
        settings = {"zattrs": self._zattrs, "multiscales": self._multiscales, "name": self._name}
        return {"path": file.path, "stacks": held, "settings": settings}

    def __setstate__(self, state: dict[str, Any]) -> None:
        from ._file import TiffFile

        tif = TiffFile(state["path"])
        try:
            stacks = [
                Stack([page_of(tif, *place) for place in places], shape, axes)
                for places, shape, axes in state["stacks"]
            ]
            self.__init__(stacks, **state["settings"])  # type: ignore[misc]
        except BaseException:
            tif.close()
            raise
        self._owned = tif

    def close(self) -> None:
        """Closes the file if the store opened it; the store of a page leaves the page's file."""
        if self._owned is not None:
            self._owned.close()


def encoded(entries: dict[str, Any]) -> dict[str, bytes]:
    """Returns each value as JSON."""
    return {key: json.dumps(value, indent=1).encode() for key, value in entries.items()}


def page_of(tif: TiffFile, index: int, offset: int) -> TiffPage:
    """Returns a page of a file by its number and its offset, which must be those of before."""
    if index < 0:
        return tif.page_at(offset)
    if index >= len(tif.pages) or tif.pages[index].offset != offset:
        raise UnsupportedError(f"the file has changed: page {index} isn't at {offset}")
    return tif.pages[index]


def chunk_of(page: TiffPage) -> tuple[int, ...]:
    """Returns the shape of a strip or a tile as a chunk of the page's array."""
    rows, columns = page.chunks[:2]
    sides = {"S": 1 if page.axes == "SYX" else page.samplesperpixel, "Y": rows, "X": columns}
    return tuple(sides[axis] for axis in page.axes)
