"""The examples in C, over the library that the package loads."""
from __future__ import annotations

import re
import shutil
import subprocess
from pathlib import Path

import numpy
import pytest
from conftest import EXIF, raw_file, samples

import mangohatch_tiff as mt
from mangohatch_tiff import _library

TOP = Path(__file__).resolve().parents[2]
HEADER = TOP / "crates" / "tiff_c" / "include"
NAMES = sorted(path.stem for path in (TOP / "examples" / "c").glob("*.c"))

pytestmark = pytest.mark.skipif(not shutil.which("cc"), reason="cc is missing")


@pytest.fixture(scope="module")
def programs(tmp_path_factory: pytest.TempPathFactory) -> Path:
    """A folder of the programs, and of the library under its own name."""
    folder = tmp_path_factory.mktemp("programs")
    library = folder / f"libmangohatch_tiff.so.{mt.library_version()}"
    library.symlink_to(Path(_library._path()).resolve())
    warnings = "-Wall", "-Wextra", "-Werror"
    for name in NAMES:
        source = TOP / "examples" / "c" / f"{name}.c"
        command = ["cc", *warnings, f"-I{HEADER}", source, "-o", folder / name, library]
        made = subprocess.run([*command, f"-Wl,-rpath,{folder}"], capture_output=True, text=True)
        assert made.returncode == 0, made.stderr
    return folder


def run(program: Path, *words: object, given: str = "") -> tuple[bytes, str]:
    """Runs a program; returns what it writes to standard output and to standard error."""
    made = subprocess.run([program, *map(str, words)], input=given.encode(), capture_output=True)
    assert made.returncode == 0, made.stderr
    return made.stdout, made.stderr.decode()


def pictures(data: bytes) -> list[numpy.ndarray]:
    """Returns the images of PGM and PPM files that lie one behind the other."""
    found = []
    while data:
        head = re.match(rb"P([56])\n(\d+) (\d+)\n255\n", data)
        assert head
        shape = (int(head[3]), int(head[2])) + ((3,) if head[1] == b"6" else ())
        size = int(numpy.prod(shape))
        found.append(numpy.frombuffer(data, "u1", size, head.end()).reshape(shape))
        data = data[head.end() + size :]
    return found


def test_they_are_listed() -> None:
    """The file for CMake and the trial of the packages name each example."""
    build = (TOP / "examples" / "c" / "CMakeLists.txt").read_text()
    trial = (TOP / "packaging" / "try_inside").read_text()
    for pattern, text in ((r"foreach\(name (.*)\)", build), (r'names="(?:\$names )?(.*)"', trial)):
        assert " ".join(re.findall(pattern, text)).split() == NAMES


def test_raw_browser(programs: Path, tmp_path: Path) -> None:
    """All directories, the tags of Exif, and the preview of a file whose first page is refused."""
    file, preview = raw_file()
    path, made = tmp_path / "raw.tif", tmp_path / "preview.ppm"
    path.write_bytes(file)
    output = run(programs / "raw_browser", path, made)[0].decode().splitlines()
    places = [line for line in output if "@" in line and "tags" in line]
    offsets = [directory.offset for directory in mt.TiffFile(file).directories]
    assert [int(re.search(r"@(\d+)", line)[1]) for line in places] == offsets
    assert "error: unknown photometric interpretation" in places[0]
    tags = [line.strip() for line in output if " of type " in line]
    assert len(tags) == len(EXIF)
    assert tags[:3] == [
        "33434, 1 of type 5: 1/250", "36867, 20 of type 2: 2026:11:28 23:59:59",
        "37380, 1 of type 10: -1/3",
    ]
    assert tags[3].endswith(": 0 1 2 3 4 5 6 7") and tags[4].endswith(": 24/1 70/1 28/10 28/10")
    (image,) = pictures(made.read_bytes())
    numpy.testing.assert_array_equal(image, preview)


@pytest.mark.parametrize(("shape", "options"), [
    ((1590, 1595), {}),
    ((1590, 1595, 3), {"compression": "packbits"}),
    ((3, 1590, 1595), {"planarconfig": "separate"}),
])
def test_tile_server(shape: tuple[int, ...], options: dict, programs: Path, tmp_path: Path) -> None:
    """Tiles of 10,000 or more, also those at the edges and of another plane."""
    image, path = samples(shape, "u1"), tmp_path / "tiles.tif"
    photometric = "minisblack" if len(shape) == 2 else "rgb"
    mt.imwrite(path, image, photometric=photometric, tile=(16, 16), **options)
    page = mt.TiffFile(path).pages[0]
    numbers = [0, 9999, 5050, 99, 9900, page.chunk_count - 1]
    given = "\n".join(map(str, numbers))
    tiles, output = run(programs / "tile_server", path, given=given)
    assert page.chunk_count >= 10_000 and "each of 6 tiles" in output
    for number, tile in zip(numbers, pictures(tiles), strict=True):
        numpy.testing.assert_array_equal(tile, page.read_chunk(number))


def test_a_tile_that_is_not_there(programs: Path, tmp_path: Path) -> None:
    path = tmp_path / "tiles.tif"
    mt.imwrite(path, samples((20, 40), "u1"), tile=(16, 16))
    made = subprocess.run([programs / "tile_server", path], input=b"6\n", capture_output=True)
    assert made.returncode == 1 and made.stderr.startswith(b"tile: ") and not made.stdout


def test_viewer(programs: Path, tmp_path: Path) -> None:
    """Thumbnails of pages, the first one first."""
    stack, path = samples((10_000, 20, 30), "u1"), tmp_path / "pages.tif"
    mt.imwrite(path, stack)
    made, output = run(programs / "viewer", path, given="9999 17")
    assert "the list of 10000 pages" in output and "each of 2 pages" in output
    for number, image in zip((0, 9999, 17), pictures(made), strict=True):
        numpy.testing.assert_array_equal(image, stack[number])


def test_thumbnails(programs: Path, tmp_path: Path) -> None:
    """Every kth row and column, of samples of one bit, of 16 bits and of colors."""
    bits, colors = samples((300, 200), "u1") > 99, samples((20, 150, 3), "u1")
    deep, path = samples((130, 20), "u2"), tmp_path / "pages.tif"
    with mt.TiffWriter(path) as writer:
        writer.write(bits)
        writer.write(deep)
        writer.write(colors, photometric="rgb")
    first, second, third = pictures(run(programs / "viewer", path, given="1 2")[0])
    numpy.testing.assert_array_equal(first, 255 * bits[::3, ::3].astype("u1"))
    numpy.testing.assert_array_equal(second, deep[::2, ::2] >> 8)
    numpy.testing.assert_array_equal(third, colors[::2, ::2])
