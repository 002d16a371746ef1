"""Tags are decoded by their type, in the file's byte order."""
from __future__ import annotations

import io
import struct
from fractions import Fraction

import pytest
import tifffile
from conftest import gray_file, samples

import mangohatch_tiff as mt
from mangohatch_tiff import _tags

EXTRA = [
    (65000, "B", 3, (1, 2, 255), True),
    (65001, "s", 0, "a text", True),
    (65002, "H", 2, (1, 65535), True),
    (65003, "I", 2, (1, 4294967295), True),
    (65004, "2I", 2, (1, 3, 300, 7), True),
    (65005, "b", 3, (-1, 2, -128), True),
    (65007, "h", 2, (-1, 32767), True),
    (65008, "i", 1, -70000, True),
    (65009, "2i", 1, (-1, 3), True),
    (65010, "f", 2, (0.5, -2.25), True),
    (65011, "d", 1, 3.141592653589793, True),
]
EXPECTED = {
    65000: b"\1\2\xff",
    65001: "a text",
    65002: (1, 65535),
    65003: (1, 4294967295),
    65004: (1, 3, 300, 7),
    65005: (-1, 2, -128),
    65007: (-1, 32767),
    65008: -70000,
    65009: (-1, 3),
    65010: (0.5, -2.25),
    65011: 3.141592653589793,
}


def file_of_tags(byteorder: str, bigtiff: bool = False, extra: list = EXTRA) -> bytes:
    """Returns a file with a tag of each type."""
    file = io.BytesIO()
    tifffile.imwrite(
        file,
        samples((7, 5, 3), "u2"),
        photometric="rgb",
        byteorder=byteorder,
        bigtiff=bigtiff,
        metadata=None,
        description="a scan",
        software="tests",
        resolution=(300, 150.5),
        extratags=extra,
    )
    return file.getvalue()


@pytest.mark.parametrize("byteorder", "<>")
@pytest.mark.parametrize("bigtiff", [False, True])
def test_types(byteorder: str, bigtiff: bool) -> None:
    tags = mt.TiffFile(file_of_tags(byteorder, bigtiff)).pages[0].tags
    for number, value in EXPECTED.items():
        assert tags[number].value == value, number


@pytest.mark.parametrize("byteorder", "<>")
def test_long_types(byteorder: str) -> None:
    extra = [(65016, "Q", 1, 1 << 40, True), (65017, "q", 2, (-1, 1 << 40), True)]
    tags = mt.TiffFile(file_of_tags(byteorder, True, extra)).pages[0].tags
    assert tags[65016].value == 1 << 40
    assert tags[65017].value == (-1, 1 << 40)


@pytest.mark.parametrize("byteorder", "<>")
@pytest.mark.parametrize("bigtiff", [False, True])
def test_values_of_one_type(byteorder: str, bigtiff: bool) -> None:
    """The library's calls on values give what the bytes of a tag are decoded to."""
    many = tuple(range(1, 100))
    extra = [*EXTRA, (65020, "H", 99, many, True), (65021, "d", 20, (0.5, -0.0) * 10, True)]
    tags = mt.TiffFile(file_of_tags(byteorder, bigtiff, extra)).pages[0].tags
    assert tags.numbers(65000) == (1, 2, 255)
    assert tags.numbers(65003) == (1, 4294967295)
    assert tags.numbers(65020) == many
    assert tags.numbers("ImageWidth") == (5,)
    assert tags.floats(65011) == (3.141592653589793,)
    assert tags.floats(65021) == (0.5, -0.0) * 10
    assert tags.text(65001) == "a text"
    assert tags.text("ImageDescription") == "a scan"
    for call, number in ((tags.numbers, 65005), (tags.floats, 65010), (tags.text, 65000)):
        with pytest.raises(mt.TiffError) as error:
            call(number)
        assert error.value.status is mt.Status.INVALID_TYPE_FOR_TAG
    for call in (tags.numbers, tags.floats, tags.text):
        with pytest.raises(mt.TiffError) as error:
            call(65099)
        assert error.value.status is mt.Status.REQUIRED_TAG_NOT_FOUND
        with pytest.raises(KeyError):
            call("NoSuchName")


@pytest.mark.parametrize("byteorder", "<>")
def test_common_tags(byteorder: str) -> None:
    file = file_of_tags(byteorder)
    tags = mt.TiffFile(file).pages[0].tags
    assert tags["ImageWidth"].value == tags[256].value == 5
    assert tags["BitsPerSample"].value == (16, 16, 16)
    assert tags["ImageDescription"].value == "a scan"
    assert tags["Software"].value == "tests"
    assert tags["XResolution"].value == (300, 1)
    assert Fraction(*tags["YResolution"].value) == Fraction(301, 2)


@pytest.mark.parametrize("byteorder", "<>")
@pytest.mark.parametrize("bigtiff", [False, True])
def test_tags_are_those_of_tifffile(byteorder: str, bigtiff: bool) -> None:
    """Each tag has the number, the type, the count and the value that tifffile has."""
    extra = [*EXTRA, (65030, "s", 0, b"  caf\xe9 \0\0", True), (65031, 7, 3, b"abc", True)]
    file = file_of_tags(byteorder, bigtiff, extra)
    ours = mt.TiffFile(file).pages[0].tags
    theirs = tifffile.TiffFile(io.BytesIO(file)).pages[0].tags
    assert [tag.code for tag in ours] == ours.keys() == theirs.keys()
    assert len(ours) == len(theirs)
    for tag, other in zip(ours, theirs):
        assert (tag.code, tag.dtype, tag.count) == (other.code, other.dtype, other.count)
        assert tag.value == other.value, tag
        assert type(tag.value).__name__ == type(other.value).__name__, tag
        assert ours.valueof(tag.code) == theirs.valueof(tag.code)
        assert repr(tag)


def test_a_mapping() -> None:
    tags = mt.TiffFile(file_of_tags("<")).pages[0].tags
    assert 65000 in tags and "ImageWidth" in tags
    assert 65099 not in tags and "NoSuchName" not in tags and None not in tags
    assert tags.get(65099) is None and tags.valueof(65099, 7) == 7
    assert [code for code, _ in tags.items()] == tags.keys()
    assert "ImageWidth" in repr(tags)
    for key in (65099, "TileWidth", "NoSuchName", -1, 1 << 16, (1 << 16) + 256):
        with pytest.raises(KeyError):
            tags[key]


def test_names_are_those_of_tifffile() -> None:
    for number, name in _tags.NAMES.items():
        assert name in tifffile.TIFF.TAGS.getall(number), number


def test_numbers_have_the_names_of_tifffile() -> None:
    for kind in (mt.COMPRESSION, mt.DATATYPE, mt.EXTRASAMPLE, mt.FILLORDER, mt.PHOTOMETRIC):
        for item in kind:
            assert getattr(tifffile, kind.__name__)[item.name] == item
    for kind in (mt.PLANARCONFIG, mt.PREDICTOR, mt.RESUNIT, mt.SAMPLEFORMAT):
        for item in kind:
            assert getattr(tifffile, kind.__name__)[item.name] == item


def test_a_tag_that_is_there_twice() -> None:
    """tifffile gives the first one, and the library has the last one: the value is refused."""
    made = io.BytesIO()
    tifffile.imwrite(made, samples((3, 4), "u1"), description="of the user")
    page = mt.TiffFile(made.getvalue()).pages[0]
    for read in (lambda: page.description, lambda: page.tags[270].value):
        with pytest.raises(mt.UnsupportedError, match="270 twice"):
            read()
    assert page.tags.text(270) == '{"shape": [3, 4]}'
    assert page.is_shaped


def test_a_tag_that_is_there_twice_is_listed_once() -> None:
    made = io.BytesIO()
    tifffile.imwrite(made, samples((3, 4), "u1"), description="of the user")
    tags = mt.TiffFile(made.getvalue()).pages[0].tags
    assert tags.keys().count(270) == 1
    (tag,) = (tag for tag in tags if tag.code == 270)
    assert tags.data(270).rstrip(b"\0") == b'{"shape": [3, 4]}'
    assert tag.count == tags[270].count
    assert len(tags) == len(tags.keys()) == len(list(tags))


def test_all_tags_of_a_page() -> None:
    """Tags are listed by their numbers, those without a name too, but none of an unknown type."""
    file = gray_file(t65000=(3, 7), t65001=(99, 1), t65002=(4, 8))
    # The entries of 65000 and 65002 change their places.
    first, last = (file.index(tag.to_bytes(2, "little")) for tag in (65000, 65002))
    turned = bytearray(file)
    turned[first : first + 12], turned[last : last + 12] = (
        file[last : last + 12], file[first : first + 12]
    )
    for given in (file, turned):
        tags = mt.TiffFile(given).pages[0].tags
        assert tags.keys() == [256, 257, 258, 259, 262, 273, 277, 278, 279, 65000, 65002]
        assert [tag.code for tag in tags] == [code for code, _ in tags.items()] == tags.keys()
        assert len(tags) == 11
        assert [tag.value for tag in tags][-2:] == [7, 8]
        assert [tag.name for tag in tags][-3:] == ["StripByteCounts", "65000", "65002"]
        assert 65001 not in tags


@pytest.mark.parametrize("order", "<>")
def test_many_tags(order: str) -> None:
    fields = {f"t{code}": (3, code % 1000) for code in range(60000, 60400)}
    tags = mt.TiffFile(gray_file(order=order, **fields)).pages[0].tags
    assert len(tags) == 409
    assert {tag.code: tag.value for tag in tags}[60399] == 399


def test_tags_that_tifffile_decodes_further() -> None:
    tags = mt.TiffFile(gray_file(t34665=(4, 8))).pages[0].tags
    with pytest.raises(mt.UnsupportedError, match="34665"):
        tags[34665].value
    assert tags.numbers(34665) == (8,)
    assert tags.data(34665) == b"\x08\0\0\0"


def test_errors_name_the_tag() -> None:
    with pytest.raises(mt.TiffError) as error:
        mt.TiffFile(gray_file()).pages[0].tags.numbers("XResolution")
    assert (error.value.page, error.value.tag) == (0, 282)
    assert "page 0: tag 282: " in str(error.value)


def test_bytes_and_undefined_are_bytes() -> None:
    assert mt.TiffFile(gray_file(t65000=(7, 0x41))).pages[0].tags[65000].value == b"A"
    assert mt.TiffFile(gray_file(t65000=(1, 0x41))).pages[0].tags[65000].value == b"A"


def test_no_values() -> None:
    assert _tags.decode(3, b"", "<") == ()
    assert _tags.decode(2, b"", "<") == ""
    assert _tags.decode(7, b"", "<") == b""


@pytest.mark.parametrize("order", "<>")
def test_decode(order: str) -> None:
    assert _tags.decode(4, struct.pack(order + "I", 7), order) == (7,)
    assert _tags.decode(5, struct.pack(order + "2I", 1, 3), order) == (1, 3)
    assert _tags.decode(10, struct.pack(order + "4i", 1, -3, 5, 7), order) == (1, -3, 5, 7)


def test_texts() -> None:
    assert _tags.decode(2, b"a\0b\0\0", "<") == "a\0b"
    assert _tags.decode(2, "é".encode(), "<") == "é"
    assert _tags.decode(2, "é".encode("cp1252"), "<") == "é"


@pytest.mark.parametrize("offset", [0, 8])
def test_values_past_the_end_of_the_file(offset: int) -> None:
    file = bytearray(gray_file(t65000=(4, offset)))
    entry = file.index((65000).to_bytes(2, "little") + b"\4\0")
    file[entry + 4 : entry + 8] = b"\xff\xff\xff\xff"
    tags = mt.TiffFile(file).pages[0].tags
    with pytest.raises(mt.TiffError) as error:
        tags[65000].value
    assert error.value.status is mt.Status.UNEXPECTED_EOF
