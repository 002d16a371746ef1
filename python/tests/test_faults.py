"""Files that are damaged or not supported are refused by the status of their error."""
from __future__ import annotations

import copy
import io
import multiprocessing
import pickle
from pathlib import Path

import numpy
import pytest
import tifffile
from conftest import gray_file, samples

import mangohatch_tiff as mt
from mangohatch_tiff import Status

GOOD = gray_file()
REFUSED = {
    "empty": (b"", Status.SIGNATURE_NOT_FOUND),
    "no TIFF": (b"\x89PNG\r\n\x1a\n", Status.SIGNATURE_NOT_FOUND),
    "another version": (b"II\x2c\0" + GOOD[4:], Status.SIGNATURE_INVALID),
    "the header alone": (GOOD[:8], Status.UNEXPECTED_EOF),
    "no directory": (b"II*\0\0\0\0\0", Status.IMAGE_FILE_DIRECTORY_NOT_FOUND),
    "a width of 0": (gray_file(t256=(3, 0)), Status.INVALID_DIMENSIONS),
    "no samples": (gray_file(t277=(3, 0)), Status.SAMPLES_PER_PIXEL_IS_ZERO),
}
UNREAD = {
    "a strip past the end": (gray_file(t273=(4, 1 << 20)), Status.UNEXPECTED_EOF),
    "LZW": (gray_file(t259=(3, 5)), Status.UNSUPPORTED_COMPRESSION_METHOD),
    "Deflate": (gray_file(t259=(3, 8)), Status.UNSUPPORTED_COMPRESSION_METHOD),
    "LZW, a palette": (
        gray_file(t262=(3, 3), t259=(3, 5)), Status.UNSUPPORTED_COMPRESSION_METHOD
    ),
}


def status_of(call: object, *given: object) -> Status:
    """Returns the status by which a call is refused."""
    with pytest.raises(mt.TiffError) as error:
        call(*given)
    assert str(error.value)
    assert isinstance(error.value.status, Status)
    return error.value.status


@pytest.mark.parametrize("name", REFUSED)
def test_files_without_a_page(name: str) -> None:
    file, status = REFUSED[name]
    assert status_of(mt.imread, file) is status


@pytest.mark.parametrize("name", UNREAD)
def test_pages_without_an_image(name: str) -> None:
    file, status = UNREAD[name]
    page = mt.TiffFile(file).pages[0]
    assert (page.imagewidth, page.imagelength) == (4, 3)
    assert status_of(page.asarray) is status


def test_every_cut() -> None:
    for length in range(len(GOOD)):
        status_of(mt.imread, GOOD[:length])


def test_every_changed_byte() -> None:
    for place in range(len(GOOD)):
        for byte in (0, 1, 127, 255):
            file = bytearray(GOOD)
            file[place] = byte
            try:
                for page in mt.TiffFile(file):
                    if page.status is Status.DONE and page.nbytes < 1 << 20:
                        page.asarray()
            except mt.TiffError as error:
                assert error.status is not Status.DONE


def test_a_file_of_the_repository(data: Path) -> None:
    assert status_of(mt.imread, data / "bare_planes.tif") in (
        Status.UNEXPECTED_EOF,
        Status.INCONSISTENT_SIZES_ENCOUNTERED,
    )


def test_a_path_that_is_empty(tmp_path: Path) -> None:
    (tmp_path / "empty.tif").write_bytes(b"")
    assert status_of(mt.TiffFile, tmp_path / "empty.tif") is Status.SIGNATURE_NOT_FOUND


def test_a_path_that_is_missing(tmp_path: Path) -> None:
    with pytest.raises(FileNotFoundError):
        mt.TiffFile(tmp_path / "none.tif")


def two_pages() -> bytes:
    """Returns a file of two pages that tifffile writes."""
    file = io.BytesIO()
    with tifffile.TiffWriter(file) as writer:
        for _ in range(2):
            writer.write(
                samples((3, 4), "u1"), photometric="minisblack", contiguous=False, metadata=None
            )
    return file.getvalue()


def without_width(index: int) -> bytearray:
    """Returns a file of two pages of which one has a width of 0."""
    file = bytearray(two_pages())
    width = tifffile.TiffFile(io.BytesIO(bytes(file))).pages[index].tags["ImageWidth"]
    file[width.offset + 8 : width.offset + 12] = bytes(4)
    return file


def test_a_refused_page_stays_in_the_list() -> None:
    tif = mt.TiffFile(without_width(1))
    assert [page.status for page in tif] == [Status.DONE, Status.INVALID_DIMENSIONS]
    assert tif[0].asarray().shape == (3, 4)
    assert "refused: INVALID_DIMENSIONS" in repr(tif[1])
    for name in ("shape", "dtype", "imagewidth", "compression", "color", "is_tiled", "nbytes"):
        assert status_of(getattr, tif[1], name) is Status.INVALID_DIMENSIONS
    assert status_of(tif[1].asarray) is Status.INVALID_DIMENSIONS


def test_a_first_page_that_is_refused() -> None:
    """The other pages are read, and the tags of the first one."""
    file = without_width(0)
    tif = mt.TiffFile(file)
    assert [page.status for page in tif] == [Status.INVALID_DIMENSIONS, Status.DONE]
    assert tif.end is Status.DONE
    numpy.testing.assert_array_equal(tif[1].asarray(), samples((3, 4), "u1"))
    numpy.testing.assert_array_equal(mt.imread(file, key=1), samples((3, 4), "u1"))
    assert tif[0].tags.numbers("ImageWidth") == (0,)
    for call in (tif.asarray, tif[0].asarray):
        with pytest.raises(mt.TiffError) as error:
            call()
        assert (error.value.status, error.value.page) == (Status.INVALID_DIMENSIONS, 0)


def test_a_single_page_that_is_refused() -> None:
    tif = mt.TiffFile(gray_file(t256=(3, 0)))
    assert [page.status for page in tif] == [Status.INVALID_DIMENSIONS]
    assert tif.byteorder == "<" and not tif.is_bigtiff


def ended_by(link: int) -> bytearray:
    """Returns a file of two pages of which the second is linked to an offset."""
    file = bytearray(two_pages())
    page = tifffile.TiffFile(io.BytesIO(bytes(file))).pages[1]
    behind = page.offset + 2 + 12 * len(page.tags)
    file[behind : behind + 4] = link.to_bytes(4, "little")
    return file


def test_a_chain_that_leads_back() -> None:
    tif = mt.TiffFile(ended_by(8))
    assert tif.end is Status.CYCLE_IN_OFFSETS
    assert tif[0].asarray().shape == (3, 4)


def test_a_chain_that_is_cut() -> None:
    tif = mt.TiffFile(ended_by(1 << 20))
    assert tif.end is Status.UNEXPECTED_EOF
    assert [page.asarray().shape for page in tif] == [(3, 4), (3, 4)]


def test_chunks_that_are_none() -> None:
    page = mt.TiffFile(GOOD).pages[0]
    for chunk in (-1, 1, 1 << 32):
        assert status_of(page.read_chunk, chunk) is Status.INVALID_CHUNK_INDEX


def test_a_chunk_of_any_size() -> None:
    file = gray_file(1 << 14, 1 << 14, data=b"\7", t279=(4, 1 << 28)) + bytes(1 << 28)
    image = mt.imread(file)
    assert image.shape == (1 << 14, 1 << 14)
    assert image.tobytes() == file[8 : 8 + (1 << 28)]


def test_all_statuses_have_a_text() -> None:
    texts = {str(mt.TiffError(status)) for status in Status}
    assert len(texts) == len(Status)
    assert Status(99) is Status.LATER_FAULT


FAULTS = [
    mt.TiffError(Status.INVALID_TAG),
    mt.TiffError(Status.INVALID_TAG, 7, 270),
    mt.JobsError(Status.INVALID_INPUT, 3, 0),
    mt.JobsError(Status.INVALID_DIMENSIONS, 0, 2),
    mt.UnsupportedError("a palette", Status.INVALID_DATA, 3),
    mt.PagesError(Status.MISMATCHED_ENTRY_LENGTH, 1, mt.PageField.TAGS),
    mt.PagesError(Status.SIGNATURE_INVALID, None, mt.PageField.NONE),
]


def raised(error: mt.TiffError) -> None:
    """Raises an error, in another process."""
    raise error


def assert_same(error: mt.TiffError, other: BaseException) -> None:
    """Compares an error with what came back in its place."""
    assert type(other) is type(error)
    assert str(other) == str(error) and vars(other) == vars(error)


@pytest.mark.parametrize("error", FAULTS, ids=str)
def test_faults_are_pickled(error: mt.TiffError) -> None:
    assert_same(error, pickle.loads(pickle.dumps(error)))
    assert_same(error, copy.copy(error))


def test_faults_of_other_processes() -> None:
    with multiprocessing.Pool(1) as pool:
        for error in FAULTS:
            answer = pool.apply_async(raised, (error,))
            with pytest.raises(mt.TiffError) as caught:
                answer.get(timeout=60)
            assert_same(error, caught.value)


def test_faults_name_their_page() -> None:
    assert str(mt.TiffError(25, 7, 270)).startswith("page 7: tag 270: ")
    assert str(mt.UnsupportedError("a palette", page=3)) == "page 3: a palette"
    assert isinstance(mt.UnsupportedError("a palette"), ValueError)
    with pytest.raises(mt.TiffError) as error:
        mt.TiffFile(gray_file(t273=(4, 1 << 20))).asarray()
    assert (error.value.page, error.value.tag) == (0, None)


def test_no_buffer() -> None:
    with pytest.raises(TypeError):
        mt.TiffFile(7)
    with pytest.raises((BufferError, ValueError)):
        mt.TiffFile(numpy.frombuffer(GOOD, "u1")[::2])
