"""The library's lists are those that `tiffpage` prints, over the repository's files, cut and
changed."""
from __future__ import annotations

import os
import random
import re
import subprocess
from pathlib import Path

import pytest

from mangohatch_tiff import Found, TiffError, _library
from mangohatch_tiff._library import ListedDirectory, ListedPage

ROOT = Path(__file__).resolve().parents[2]
PLACES = [
    Path(os.environ.get("MANGOHATCH_TIFFPAGE", "none")),
    ROOT / "crates/tiffpage/out/tiffpage",
    ROOT / "out/trial/tiffpage",
]
PROGRAM = next((str(place) for place in PLACES if place.is_file()), "")
COLORS = "Gray RGB Palette GrayA RGBA CMYK CMYKA YCbCr Lab Multiband".split()
NAMES = sorted(path.name for path in (ROOT / "crates/test_lists/data").glob("*.tif"))
# Of a file one length in so many is tried, and so many changes of a byte.
STEP, CHANGES = 29, 12

pytestmark = pytest.mark.skipif(not PROGRAM, reason="the program tiffpage isn't built")


def color_words(page: ListedPage) -> str:
    """Returns the color of a page as the program prints it."""
    if page.color_status:
        return "?"
    name, bits = COLORS[page.color.kind], page.color.bits
    return f"{name}{bits}x{page.color.samples}" if name == "Multiband" else f"{name}{bits}"


def page_words(page: ListedPage) -> str:
    """Returns what the program prints of a page; of an error only that it is one."""
    if page.status:
        return "error"
    count = "?" if page.count_status else page.count
    kind = "tile" if page.chunk_kind else "strip"
    return f"{page.width}x{page.height} {color_words(page)} {page.method} {kind} {count}"


def found_words(item: ListedDirectory) -> str:
    """Returns what the program prints of what is found where a directory is named."""
    words = {
        Found.DIRECTORY: f"{item.fields} {page_words(item.page)}",
        Found.DIRECTORY_ERROR: "error",
        Found.VALUES_ERROR: "values error",
        Found.DIRECTORY_MET: "met",
        Found.DIRECTORY_TOO_DEEP: "too deep",
    }
    return words[Found(item.found)]


def page_lines(file: bytes) -> tuple[list[str], bool]:
    """Returns the lines of a file's pages, and whether the chain ends without an error."""
    pages, end = _library.list_pages(file)
    return [f"{i} {page.offset} {page_words(page)}" for i, page in enumerate(pages)], not end


def directory_lines(file: bytes) -> list[str]:
    """Returns the lines of a file's directories; none for a file that has none."""
    try:
        listed = _library.list_directories(file)
    except TiffError:
        return []
    return [
        f"{'  ' * it.depth}{it.offset} {it.tag if it.depth else '-'} {found_words(it)}"
        for it in listed
    ]


def printed(command: str, path: Path) -> tuple[list[str], bool]:
    """Returns the lines of the program, each error without its text, and whether it ended well."""
    ran = subprocess.run([PROGRAM, command, str(path)], capture_output=True, text=True, check=False)
    assert ran.returncode in (0, 1), ran.stderr
    return (
        [re.sub(r"error: .*", "error", line) for line in ran.stdout.splitlines()],
        ran.returncode == 0,
    )


def altered(file: bytes, seed: str) -> list[bytes]:
    """Returns a file, its first bytes, and copies of it with a changed byte."""
    chance = random.Random(seed)
    cuts = [file[:length] for length in range(0, len(file), STEP)]
    changed = []
    for _ in range(CHANGES):
        at = chance.randrange(min(len(file), 300))
        changed.append(file[:at] + bytes([chance.randrange(256)]) + file[at + 1 :])
    return [file, *cuts, *changed]


@pytest.mark.parametrize("name", NAMES)
def test_lists(name: str, data: Path, tmp_path: Path) -> None:
    path = tmp_path / "page.tif"
    for file in altered((data / name).read_bytes(), name):
        path.write_bytes(file)
        pages, ends = page_lines(file)
        assert printed("directories", path)[0] == directory_lines(file), file.hex()
        lines, well = printed("list", path)
        # `list` is refused with the first page of a file, where the calls list it.
        if lines or not pages:
            assert (lines, well) == (pages, ends), file.hex()
