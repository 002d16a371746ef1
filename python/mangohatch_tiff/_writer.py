"""Files of which pages are written one after another, and files on disk that get more pages."""
from __future__ import annotations

import operator
import os
from dataclasses import replace
from typing import TYPE_CHECKING, Any

from . import _directory, _library
from ._closing import Closing
from ._imwrite import OTHERS, holds_some, check_others, settings_of, write_all
from ._library import Status, UnsupportedError
from ._mapped import mapped

if TYPE_CHECKING:
    from numpy.typing import ArrayLike, NDArray

    from ._imwrite import Target
    from ._new_pages import NewPage
    from ._write import Settings

# Pages wait until they have so many bytes, and are written together, since each call walks along
# the chain.
WAITING = 1 << 24
# tifffile's other parameters, each with the value that has no effect.
OPENED = {name: OTHERS[name] for name in ("byteorder", "imagej", "ome", "shaped")}
WRITTEN = {name: value for name, value in OTHERS.items() if name not in OPENED}
WRITTEN |= {"rowsperslice": (None,)}


class TiffWriter(Closing):
    """A file to which pages are written, one array after another.

    `file` is a path, or an open file, which is read and written from its current position on. With
    `append`, the pages are added to the file that is there; without one, it is made. `bigtiff`
    makes a BigTIFF file; a file that is there stays of its kind. tifffile's other parameters raise
    `UnsupportedError`, unless they have no effect.

    What is in the file is never written anew: pages go behind its end, and then one link leads to
    them. So a file whose writing is cut short is read without the pages that came last. Pages may
    wait in memory until `close`, which a `with` block calls.
    """

    def __init__(
        self, file: Target, /, *, bigtiff: bool = False, append: bool = False, **others: Any
    ) -> None:
        check_others(others, "TiffWriter", OPENED)
        self._pages: list[NewPage] = []
        # How many arrays of SubIFDs are to come, and the numbers of the waiting pages that get
        # them.
        self._levels, self._parents = 0, range(0)
        self._big = bigtiff
        self._owned = isinstance(file, (str, os.PathLike))
        if isinstance(file, (str, os.PathLike)):
            append = append and holds_some(file)
            # The file is closed by `close`.
            self._file: Any = open(file, "r+b" if append else "w+b", buffering=0)
        else:
            self._file = file
        self._start: int = 0 if self._owned else self._file.tell()
        self._begun = append
        if append:
            try:
                self._judge()
            except BaseException:
                self._release()
                raise

    def __repr__(self) -> str:
        kind = "BigTIFF" if self._big else "TIFF"
        return f"<TiffWriter {kind} {self._file!r}: {len(self._pages)} pages wait>"

    def _judge(self) -> None:
        """Finds the kind of the file that gets more pages; raises the error of one that is none."""
        with self._held() as data:
            order = _library.byte_order(data)
            self._big = _directory.is_big(data, order)
        if order == ">":
            raise UnsupportedError("append: a big-endian file", Status.BYTE_ORDER_MISMATCH)

    def _held(self) -> Held:
        """Returns the bytes of the file, for a `with` block."""
        return Held(self._file, self._start)

    def write(self, data: ArrayLike, *, subifds: int | None = None, **settings: Any) -> None:
        """Writes an array as pages. The parameters are those of `imwrite`, of these pages alone.

        The pages of the next `subifds` arrays become SubIFDs of these pages, as the levels of a
        pyramid do: each has as many pages, and each page goes below the one of its index.

        Errors are those of `imwrite`, before anything of this array is written; those that the
        library returns may come with a later array, or by `close`: an error of a page, as
        `PagesError`, and of a file whose chain of directories can't be followed.
        """
        import numpy

        known = {name: settings.pop(name) for name in [*settings] if name in WRITTEN}
        check_others(known, "write", WRITTEN)
        array = numpy.asarray(data)
        self._add(array, settings_of(array, **settings), operator.index(subifds or 0))

    def _add(self, array: NDArray[Any], settings: Settings, levels: int = 0) -> None:
        """Writes the pages of an array, or lets them wait."""
        from ._write import check_shape, pages_of

        pages = pages_of(array, settings)
        if settings.has_shape:
            check_shape(pages)
        pages = self._placed(pages, levels)
        waiting = self._pages + pages
        size = sum(page.samples.nbytes for page in waiting)
        # SubIFDs are written by the same call as their pages.
        if self._levels or size < WAITING or not self._can_append:
            # The caller may change its array before these pages are written.
            self._pages += [page.copied() for page in pages]
            return
        self._pages = waiting
        self._flush()

    def _placed(self, pages: list[NewPage], levels: int) -> list[NewPage]:
        """Returns pages as SubIFDs of those that wait for some; or begins to wait for some."""
        if levels < 0:
            raise ValueError(f"subifds={levels}")
        if not self._levels:
            first = len(self._pages) + 1
            self._levels, self._parents = levels, range(first, first + len(pages))
            return pages
        if levels:
            raise UnsupportedError("write: subifds of SubIFDs")
        if len(pages) != len(self._parents):
            raise ValueError(f"{len(pages)} pages as SubIFDs of {len(self._parents)}")
        self._levels -= 1
        return [replace(page, parent=number) for page, number in zip(pages, self._parents)]

    @property
    def _can_append(self) -> bool:
        """Whether pages can be added to a file that has some."""
        return bool(getattr(self._file, "readable", lambda: True)())

    def _flush(self) -> None:
        """Writes the pages that wait."""
        from ._new_pages import _append_pages, _write_pages

        pages, self._pages = self._pages, []
        if not pages:
            return
        if not self._begun:
            self._write(0, _write_pages(pages, self._big))
            self._begun = True
            return
        with self._held() as data:
            end, added = len(data), _append_pages(data, pages)
        self._write(end, [added.data])
        self._sync()
        self._write(added.link_place, [memoryview(added.link)])

    def _write(self, place: int, parts: list[memoryview]) -> None:
        """Writes bytes at a place of the TIFF file."""
        self._file.seek(self._start + place)
        write_all(self._file, parts)
        self._file.flush()

    def _sync(self) -> None:
        """Brings what was written to the disk, before a link leads there."""
        try:
            number = self._file.fileno()
        except (AttributeError, OSError):
            return
        os.fsync(number)

    def _release(self) -> None:
        """Closes the file, if it was opened here."""
        if self._owned:
            self._file.close()

    def close(self) -> None:
        """Writes the pages that wait, and closes the file, if it was opened by its path.

        An open file stays open, at its end.
        """
        try:
            self._flush()
            self._file.seek(0, os.SEEK_END)
        finally:
            self._release()


class Held:
    """The bytes of an open file from a place on, during a `with` block; nothing else moves it."""

    def __init__(self, file: Any, start: int) -> None:
        self._file, self._start = file, start
        self._views: list[Any] = []

    def __enter__(self) -> memoryview:
        whole: Any
        if hasattr(self._file, "getbuffer"):
            whole = self._file.getbuffer()
            self._views.append(whole.release)
        else:
            self._file.flush()
            found = mapped(self._file.fileno())
            whole = b"" if found is None else found
            if found is not None:
                self._views.append(found.close)
        view = memoryview(whole)
        part = view[self._start :]
        self._views += [view.release, part.release]
        return part

    def __exit__(self, kind: object, error: object, trace: object) -> None:
        for release in reversed(self._views):
            release()
