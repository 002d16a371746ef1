"""Files that are made by lists of jobs, as others read them."""
from __future__ import annotations

import io
from pathlib import Path

import numpy
import pytest
import tifffile

import mangohatch_tiff as mt

TAGGED = """
# a tile of its own number, with a description and a pixel scale
image Gray8 32 16
tiles 16 16
write_tag 270 text two tiles
write_tag 33550 f64 1*3
write_chunk 7*256
write_chunk 0..255
finish
"""


@pytest.mark.parametrize("big", [False, True])
def test_tags_of_ones_own(big: bool) -> None:
    file = mt.write_jobs(None, TAGGED, big=big)
    image = numpy.hstack([numpy.full((16, 16), 7), numpy.arange(256).reshape(16, 16)])
    numpy.testing.assert_array_equal(mt.imread(file), image)
    with tifffile.TiffFile(io.BytesIO(file)) as tif:
        assert tif.is_bigtiff == big
        assert tif.pages[0].is_tiled
        assert tif.pages[0].tags[270].value == "two tiles"
        assert tif.pages[0].tags[33550].value == (1.0, 1.0, 1.0)
        numpy.testing.assert_array_equal(tif.pages[0].asarray(), image)


def test_path(tmp_path: Path) -> None:
    assert mt.write_jobs(tmp_path / "page.tif", "image Gray8 2 1\nwrite_data 1 2\n") is None
    numpy.testing.assert_array_equal(mt.imread(tmp_path / "page.tif"), [[1, 2]])


def test_refused() -> None:
    with pytest.raises(mt.JobsError) as error:
        mt.write_jobs(None, "image Gray8 2 1\nwrite_all 1 2\n")
    assert (error.value.line, error.value.job) == (2, 0)
    with pytest.raises(mt.JobsError) as error:
        mt.write_jobs(None, "image Gray8 1 1\nwrite_data 1\nimage Gray8 0 1\nfinish\n")
    assert (error.value.line, error.value.job) == (0, 2)
    assert error.value.status == mt.Status.INVALID_DIMENSIONS
