"""Pages that the chain doesn't link to."""
from __future__ import annotations

from io import BytesIO

import numpy
import pytest
import tifffile
from conftest import gray_file, pyramid, samples

from mangohatch_tiff import Status, TiffError, TiffFile, TiffPage


@pytest.mark.parametrize(("big", "order"), [(False, "<"), (True, "<"), (True, ">")])
def test_sub_ifds(big: bool, order: str) -> None:
    """The pages at the offsets of SubIFDs are those that were written there."""
    made, image = pyramid(big, order)
    with TiffFile(made) as file:
        assert len(file) == 2
        half, quarter = map(file.page_at, file[0].tags["SubIFDs"].value)
        assert numpy.array_equal(half.asarray(), image[::2, ::2])
        assert numpy.array_equal(quarter.asarray(), image[::4, ::4])
        assert quarter.is_tiled and quarter.chunk_count == 1 and quarter.compression == 1


def test_no_page() -> None:
    """An offset without a directory raises its error."""
    made = BytesIO()
    tifffile.imwrite(made, samples((2, 2), "u1"))
    with TiffFile(made.getvalue()) as file:
        with pytest.raises(TiffError) as caught:
            file.page_at(len(made.getvalue()))
        assert caught.value.status is Status.UNEXPECTED_EOF


def test_tags_where_no_directory_is() -> None:
    file = gray_file()
    tags = TiffFile(file).tags_at(len(file))
    for call in (len, list, repr):
        with pytest.raises(TiffError) as caught:
            call(tags)
        assert caught.value.status is Status.UNEXPECTED_EOF


def test_tags_of_no_page() -> None:
    """The tags of a directory are read, whether it is a page or not."""
    first = gray_file()
    page = gray_file(t258=(3, 0), t262=(3, 32803), t277=(3, 0))
    directory = page[int.from_bytes(page[4:8], "little") :]
    file = TiffFile(first + directory)
    with pytest.raises(TiffError):
        file.page_at(len(first))
    tags = file.tags_at(len(first))
    assert tags[262].value == 32803 and tags.numbers("ImageWidth") == (4,)
    assert 65099 not in tags
    assert tags.keys() == [256, 257, 258, 259, 262, 273, 277, 278, 279] and len(tags) == 9


def test_a_color_filter_array() -> None:
    """The library doesn't know what its samples mean; they are read as stored, as in tifffile."""
    raw, preview, made = samples((34, 48), "u2"), samples((10, 12, 3), "u1"), BytesIO()
    linear = samples((34, 48, 3), "u2")
    with tifffile.TiffWriter(made) as writer:
        writer.write(preview, photometric="rgb", subifds=1)
        writer.write(raw, photometric="cfa", subfiletype=0)
        writer.write(linear, photometric="linear_raw", tile=(16, 16))
    other = tifffile.TiffFile(BytesIO(made.getvalue())).pages
    with TiffFile(made.getvalue()) as file:
        page = file.page_at(file[0].tags["SubIFDs"].value[0])
        assert_stored(page, other[0].pages[0], raw)
        assert_stored(file[1], other[1], linear)
        assert file.directories[1].page.shape == (34, 48)


def assert_stored(page: TiffPage, other: tifffile.TiffPage, image: numpy.ndarray) -> None:
    """Compares a page without a color with tifffile's."""
    assert page.status is Status.DONE and not page.is_inverted
    for fact in ("shape", "dtype", "axes", "photometric", "tile", "chunks", "offset"):
        assert getattr(page, fact) == getattr(other, fact), fact
    numpy.testing.assert_array_equal(page.asarray(), image)
    numpy.testing.assert_array_equal(page.read(slice(3, 9), slice(2, 5)), image[3:9, 2:5])
    for refused in (lambda: page.color, lambda: page.asarray(shown=True)):
        with pytest.raises(TiffError) as caught:
            refused()
        assert caught.value.status is Status.UNKNOWN_INTERPRETATION
