"""The tree of a file's directories."""
from __future__ import annotations

import struct

import numpy
import pytest
from conftest import gray_file, pyramid

import mangohatch_tiff as mt
from mangohatch_tiff import Found, Status, TiffFile

SHORT, LONG, IFD = 3, 4, 13
SUB_IFDS, EXIF, GPS = 330, 34665, 34853
# The length of a file before its directories, and how many bytes each of these has at most.
HEADER, SLOT = 8, 64
# The tags, each with its type, its count and its value.
Fields = dict[int, tuple[int, int, int]]


def at(slot: int) -> int:
    """Returns the offset of the directory in a slot."""
    return HEADER + SLOT * slot


def file_of(*directories: tuple[Fields, int], values: bytes = b"") -> bytes:
    """Returns a file of directories in slots, each its tags and its link, and values behind."""
    file = b"II*\0" + struct.pack("<I", at(0))
    for fields, link in directories:
        made = struct.pack("<H", len(fields))
        for tag, field in fields.items():
            made += struct.pack("<HHII", tag, *field)
        file += (made + struct.pack("<I", link)).ljust(SLOT, b"\0")
    return file + values


def found_of(file: bytes) -> list[tuple[int, int, int | None, int | None, Found]]:
    """Returns the places of a file's directories, from their list."""
    return [
        (item.offset, item.depth, item.tag, item.parent, item.found)
        for item in TiffFile(file).directories
    ]


@pytest.mark.parametrize(("big", "order"), [(False, "<"), (True, "<"), (True, ">")])
def test_sub_ifds(big: bool, order: str) -> None:
    """The previews of a page come behind it, each with its page."""
    file, image = pyramid(big, order)
    tif = TiffFile(file)
    first, half, quarter, last = tif.directories
    assert tif.directories is tif.directories
    assert [item.depth for item in tif.directories] == [0, 1, 1, 0]
    assert (first.page, last.page) == (tif.pages[0], tif.pages[1])
    assert (first.tag, first.parent, half.tag) == (None, None, SUB_IFDS)
    assert half.parent == quarter.parent == first.offset
    assert (half.offset, quarter.offset) == first.tags["SubIFDs"].value
    assert half.page.index == -1 and half.tags is half.page.tags
    numpy.testing.assert_array_equal(half.page.asarray(), image[::2, ::2])
    numpy.testing.assert_array_equal(quarter.page.asarray(), image[::4, ::4])
    for item in tif.directories:
        assert item.found is Found.DIRECTORY and item.status is Status.DONE
        assert item.fields == len(item.tags) == len(item.page.tags)


def test_a_directory_without_an_image() -> None:
    """Its page is refused, and its tags are read."""
    file = file_of(({EXIF: (LONG, 1, at(1))}, 0), ({65000: (SHORT, 1, 7)}, 0))
    first, exif = TiffFile(file).directories
    assert (exif.offset, exif.depth, exif.tag, exif.parent) == (at(1), 1, EXIF, at(0))
    assert exif.fields == 1 and exif.tags[65000].value == 7
    assert exif.status is Status.DONE and exif.page.status is not Status.DONE
    assert first.page.status is not Status.DONE
    with pytest.raises(mt.TiffError):
        exif.page.asarray()


def test_all_ways_to_name_a_directory() -> None:
    file = file_of(
        ({SUB_IFDS: (LONG, 2, at(6)), EXIF: (LONG, 1, at(3)), 65000: (IFD, 1, at(4))}, at(5)),
        ({}, 0),
        ({GPS: (LONG, 1, at(1))}, 0),
        ({}, 0),
        ({}, 0),
        ({}, 0),
        values=struct.pack("<II", at(1), at(2)),
    )
    assert found_of(file) == [
        (at(0), 0, None, None, Found.DIRECTORY),
        (at(1), 1, SUB_IFDS, at(0), Found.DIRECTORY),
        (at(2), 1, SUB_IFDS, at(0), Found.DIRECTORY),
        (at(1), 2, GPS, at(2), Found.DIRECTORY_MET),
        (at(3), 1, EXIF, at(0), Found.DIRECTORY),
        (at(4), 1, 65000, at(0), Found.DIRECTORY),
        (at(5), 0, None, None, Found.DIRECTORY),
    ]


def test_cycles() -> None:
    file = file_of(({SUB_IFDS: (LONG, 1, at(1))}, 0), ({SUB_IFDS: (LONG, 1, at(0))}, 0))
    assert found_of(file) == [
        (at(0), 0, None, None, Found.DIRECTORY),
        (at(1), 1, SUB_IFDS, at(0), Found.DIRECTORY),
        (at(0), 2, SUB_IFDS, at(1), Found.DIRECTORY_MET),
    ]
    met = TiffFile(file).directories[2]
    assert (met.fields, met.status, met.page, met.tags) == (0, Status.DONE, None, None)


def test_too_deep() -> None:
    nested = [({SUB_IFDS: (LONG, 1, at(slot + 1))}, 0) for slot in range(10)]
    listed = TiffFile(file_of(*nested, ({}, 0))).directories
    assert [item.depth for item in listed] == list(range(10))
    assert {item.found for item in listed[:9]} == {Found.DIRECTORY}
    assert listed[9].found is Found.DIRECTORY_TOO_DEEP and listed[9].page is None


def test_directories_that_are_refused() -> None:
    file = file_of(({SUB_IFDS: (LONG, 1, 1 << 20), EXIF: (LONG, 2, 1 << 20)}, 0))
    first, cut, values = TiffFile(file).directories
    assert first.found is Found.DIRECTORY and first.fields == 2
    assert (cut.offset, cut.found) == (1 << 20, Found.DIRECTORY_ERROR)
    assert (values.offset, values.parent) == (at(0), at(0))
    assert (values.tag, values.found) == (EXIF, Found.VALUES_ERROR)
    for item in (cut, values):
        assert item.status is Status.UNEXPECTED_EOF
        assert (item.depth, item.fields, item.page, item.tags) == (1, 0, None, None)


def test_a_first_page_that_is_refused() -> None:
    tif = TiffFile(gray_file(t256=(SHORT, 0)))
    (item,) = tif.directories
    assert item.page is tif.pages[0] and item.found is Found.DIRECTORY
    assert item.page.status is Status.INVALID_DIMENSIONS


def test_many() -> None:
    """A directory that is named more often than fits into the first call."""
    count = 20000
    values = struct.pack("<I", at(1)) * count
    file = file_of(({SUB_IFDS: (LONG, count, at(2))}, 0), ({}, 0), values=values)
    listed = TiffFile(file).directories
    assert len(listed) == count + 1
    assert {item.found for item in listed[2:]} == {Found.DIRECTORY_MET}


def test_reprs() -> None:
    file = file_of(
        ({SUB_IFDS: (LONG, 1, 1 << 20), EXIF: (LONG, 1, at(0))}, at(1)),
        ({65000: (IFD, 1, at(2))}, 0),
        ({}, 0),
    )
    shown = [repr(item) for item in TiffFile(file).directories]
    assert shown[0].startswith(f"<Directory @{at(0)}: 2 tags, <TiffPage 0 @{at(0)} refused: ")
    assert shown[1] == (
        f"<Directory @{1 << 20}, depth 1, SubIFDs of @{at(0)}: DIRECTORY_ERROR UNEXPECTED_EOF>"
    )
    assert shown[2] == f"<Directory @{at(0)}, depth 1, ExifTag of @{at(0)}: DIRECTORY_MET>"
    assert shown[4].startswith(f"<Directory @{at(2)}, depth 1, tag 65000 of @{at(1)}: 0 tags, <")
