"""Buffers of each kind are read where they lie."""
from __future__ import annotations

import array
import mmap
import threading
from collections.abc import Callable
from pathlib import Path

import numpy
import pytest
from conftest import samples

import mangohatch_tiff as mt
from mangohatch_tiff import _library

IMAGE = samples((40, 30, 3), "u2")
FILE = mt.imwrite(None, IMAGE)


def mapped(path: Path, access: int) -> mmap.mmap:
    """Maps a new file of the image."""
    path.write_bytes(FILE)
    with path.open("r+b") as file:
        return mmap.mmap(file.fileno(), 0, access=access)


def read_only(file: bytes) -> numpy.ndarray:
    """Returns an array of bytes that can't be written."""
    made = numpy.frombuffer(bytearray(file), "u1")
    made.flags.writeable = False
    return made


KINDS: dict[str, Callable[[Path], object]] = {
    "bytes": lambda path: FILE,
    "bytearray": lambda path: bytearray(FILE),
    "memoryview": lambda path: memoryview(FILE),
    "a part": lambda path: memoryview(b"abc" + FILE + b"xyz")[3:-3],
    "array": lambda path: array.array("B", FILE),
    "numpy": lambda path: numpy.frombuffer(FILE, "u1").copy(),
    "read-only numpy": lambda path: read_only(FILE),
    "mmap": lambda path: mapped(path, mmap.ACCESS_WRITE),
    "read-only mmap": lambda path: mapped(path, mmap.ACCESS_READ),
}


class Recorder:
    """A call of the library that keeps the arguments that it was handed."""

    def __init__(self, call: Callable[..., int]) -> None:
        self.call = call
        self.arguments: tuple = ()

    def __call__(self, *arguments: object) -> int:
        self.arguments = arguments
        return self.call(*arguments)


@pytest.mark.parametrize("kind", KINDS)
def test_nothing_is_copied(kind: str, tmp_path: Path, monkeypatch: pytest.MonkeyPatch) -> None:
    buffer = KINDS[kind](tmp_path / "image.tif")
    own = numpy.frombuffer(buffer, "u1").ctypes.data
    page = mt.TiffFile(buffer).pages[0]
    calls = {"READ_IMAGE": page.asarray, "READ_PLANNED_CHUNK": lambda: page.read_chunk(0)}
    for name, read in calls.items():
        recorder = Recorder(getattr(_library, name))
        monkeypatch.setattr(_library, name, recorder)
        image = read()
        assert recorder.arguments[:2] == (own, len(FILE))
        assert recorder.arguments[-2:] == (image.ctypes.data, image.nbytes)
    numpy.testing.assert_array_equal(page.asarray(), IMAGE)


def test_a_buffer_is_locked_during_a_call() -> None:
    buffer = bytearray(FILE)
    with _library.locked(buffer), pytest.raises(BufferError):
        buffer.append(0)
    buffer.append(0)
    numpy.testing.assert_array_equal(mt.imread(buffer), IMAGE)


def test_a_buffer_is_released_after_a_fault() -> None:
    buffer = bytearray(b"no TIFF at all")
    with pytest.raises(mt.TiffError):
        mt.TiffFile(buffer)
    buffer.clear()


def test_a_closed_map(tmp_path: Path) -> None:
    buffer = mapped(tmp_path / "image.tif", mmap.ACCESS_READ)
    page = mt.TiffFile(buffer).pages[0]
    buffer.close()
    for read in (page.asarray, page.tags.keys):
        with pytest.raises(ValueError):
            read()
    with pytest.raises(ValueError):
        mt.TiffFile(buffer)


def test_a_path_is_closed(tmp_path: Path) -> None:
    mapped(tmp_path / "image.tif", mmap.ACCESS_READ).close()
    with mt.TiffFile(tmp_path / "image.tif") as tif:
        numpy.testing.assert_array_equal(tif.asarray(), IMAGE)
    with pytest.raises(ValueError):
        tif.asarray()
    tif.close()


def test_an_array_outlives_its_file(tmp_path: Path) -> None:
    mapped(tmp_path / "image.tif", mmap.ACCESS_READ).close()
    image = mt.imread(tmp_path / "image.tif")
    image += 1
    numpy.testing.assert_array_equal(image, IMAGE + numpy.uint16(1))


def test_a_buffer_outlives_its_name() -> None:
    page = mt.TiffFile(bytearray(FILE)).pages[0]
    numpy.testing.assert_array_equal(page.asarray(), IMAGE)


def test_threads() -> None:
    page = mt.TiffFile(FILE).pages[0]
    images: list[numpy.ndarray] = []
    threads = [
        threading.Thread(target=lambda: images.append(page.asarray())) for _ in range(4)
    ]
    for thread in threads:
        thread.start()
    for thread in threads:
        thread.join()
    assert len(images) == 4
    for image in images:
        numpy.testing.assert_array_equal(image, IMAGE)


def test_the_version_of_the_library() -> None:
    assert mt.library_version() >= 2
