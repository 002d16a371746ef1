"""Files that are mapped into memory."""
from __future__ import annotations

import mmap
import os


class Mapped(mmap.mmap):
    """A file mapped into memory, with the path by which it was opened, if it was.

    `identity` is the device and the number of the file, by which it is known if the path has
    another one later. `address` is where the file is mapped: it is to be read, so it can't be
    resized, and stays there until it is closed. 0 is an address that isn't known yet.
    """

    address = 0
    path: str | None = None
    identity: tuple[int, int] = (0, 0)

    def forget(self) -> None:
        """Gives back the memory of what was read of the file; another read loads it again."""
        self.madvise(mmap.MADV_DONTNEED)


def mapped(number: int, path: str | os.PathLike[str] | None = None) -> Mapped | None:
    """Maps an open file, by its number, to be read; an empty file has no bytes to map."""
    found = os.fstat(number)
    if not found.st_size:
        return None
    made = Mapped(number, 0, access=mmap.ACCESS_READ)
    made.path = None if path is None else os.path.abspath(path)
    made.identity = found.st_dev, found.st_ino
    return made


def identity_of(number: int) -> tuple[int, int]:
    """Returns the device and the number of an open file, which no other file has."""
    found = os.fstat(number)
    return found.st_dev, found.st_ino
