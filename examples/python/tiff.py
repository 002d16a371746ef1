"""Reads the first page of a TIFF file and writes it as PGM (gray) or PPM (RGB), of 8 bits a sample;
or as a TIFF file packed by PackBits.

  python3 tiff.py page.tif > page.pgm
  python3 tiff.py page.tif packed.tif

It calls the shared library by ctypes alone; the package `mangohatch_tiff` of the folder `python`
does more. The library is the one that MANGOHATCH_TIFF_LIBRARY names, or the system's.
"""
import ctypes
import os
import sys
from ctypes import POINTER, Structure, byref, c_char_p, c_size_t, c_uint16, c_uint32
from ctypes.util import find_library
from pathlib import Path

try:
    import numpy
except ImportError:
    numpy = None

LIBRARY = ctypes.CDLL(
    os.environ.get("MANGOHATCH_TIFF_LIBRARY")
    or find_library("mangohatch_tiff")
    or sys.exit("the shared library is missing")
)
GRAY, RGB = 0, 1
GRAY8, RGB8 = 0, 10
CLASSIC, BIG = 42, 43
UNCOMPRESSED, PACKBITS = 1, 32773
NO_PREDICTOR, HORIZONTAL = 1, 2
INSUFFICIENT_OUTPUT_BUFFER_SIZE = 67


class Sides(Structure):
    _fields_ = [("width", c_uint32), ("height", c_uint32)]


class Color(Structure):
    _fields_ = [("kind", c_uint32), ("bits", c_uint32), ("samples", c_uint32)]


class Layout(Structure):
    _fields_ = [("len", c_size_t), ("complete_len", c_size_t)]


class Image(Structure):
    _fields_ = [
        ("color", c_uint32),
        ("width", c_uint32),
        ("height", c_uint32),
        ("version", c_uint16),
        ("method", c_uint16),
        ("predictor", c_uint16),
    ]


class TiffError(Exception):
    """A status that isn't TIFF_DONE, with its text."""


def declare(name, *last):
    """Declares a call on a page of a file, which ends in these parameters."""
    call = getattr(LIBRARY, name)
    call.argtypes = [c_char_p, c_size_t, c_size_t, *last]
    call.restype = c_uint32
    return call


PAGE_SIDES = declare("tiff_page_sides", POINTER(Sides))
PAGE_COLOR = declare("tiff_page_color", POINTER(Color))
PAGE_LAYOUT = declare("tiff_page_layout", POINTER(Layout))
READ_IMAGE = declare("tiff_read_image_bytes", ctypes.c_void_p, c_size_t)
WRITE_IMAGE = LIBRARY.tiff_write_image
WRITE_IMAGE.argtypes = [
    POINTER(Image),
    c_char_p,
    c_size_t,
    ctypes.c_void_p,
    c_size_t,
    POINTER(c_size_t),
]
WRITE_IMAGE.restype = c_uint32
LIBRARY.tiff_fault_text.argtypes = [c_uint32, ctypes.c_void_p, c_size_t]
LIBRARY.tiff_fault_text.restype = c_size_t


def check(status):
    """Raises the fault of a status."""
    if status:
        text = ctypes.create_string_buffer(80)
        length = LIBRARY.tiff_fault_text(status, text, 80)
        raise TiffError(text.raw[:length].decode())


def result_of(call, kind, file, page):
    """Returns the struct that a call fills for a page."""
    result = kind()
    check(call(file, len(file), page, byref(result)))
    return result


def read_image(file, page=0):
    """Returns the sides and the color of a page, and the bytes of its image."""
    sides = result_of(PAGE_SIDES, Sides, file, page)
    color = result_of(PAGE_COLOR, Color, file, page)
    size = result_of(PAGE_LAYOUT, Layout, file, page).complete_len
    pixels = ctypes.create_string_buffer(size + 1)
    check(READ_IMAGE(file, len(file), page, pixels, size))
    return sides, color, pixels.raw[:size]


def write_image(
    samples, width, height, color, version=CLASSIC, method=UNCOMPRESSED, predictor=NO_PREDICTOR
):
    """Returns a file of an image of these samples: bytes, the lowest of each sample first, row by
    row and pixel by pixel."""
    image, length = Image(color, width, height, version, method, predictor), c_size_t()
    file = ctypes.create_string_buffer(1)
    status = WRITE_IMAGE(byref(image), samples, len(samples), file, 0, byref(length))
    if status == INSUFFICIENT_OUTPUT_BUFFER_SIZE:
        file = ctypes.create_string_buffer(length.value)
        status = WRITE_IMAGE(byref(image), samples, len(samples), file, length, byref(length))
    check(status)
    return file.raw


def as_array(sides, color, pixels):
    """Returns the samples of a chunky page of 8 or 16 bits as an array of rows and columns, and of
    samples where there are several."""
    shape = (sides.height, sides.width) + ((color.samples,) if color.samples > 1 else ())
    return numpy.frombuffer(pixels, dtype=f"<u{color.bits // 8}").reshape(shape)


def main():
    sides, color, pixels = read_image(Path(sys.argv[1]).read_bytes())
    if color.kind not in (GRAY, RGB) or color.bits != 8:
        sys.exit("not 8 bits of gray or RGB")
    if len(sys.argv) > 2:
        kind = RGB8 if color.kind == RGB else GRAY8
        Path(sys.argv[2]).write_bytes(
            write_image(pixels, sides.width, sides.height, kind, method=PACKBITS)
        )
        return
    if numpy:
        pixels = as_array(sides, color, pixels).tobytes()
    head = f"P{6 if color.kind == RGB else 5}\n{sides.width} {sides.height}\n255\n"
    sys.stdout.buffer.write(head.encode() + pixels)


if __name__ == "__main__":
    main()
