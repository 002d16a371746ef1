"""The calls of the C library, declared for ctypes, and the buffers that are passed to them."""
from __future__ import annotations

import ctypes
import ctypes.util
import mmap
import os
from ctypes import (
    POINTER,
    Structure,
    addressof,
    byref,
    c_char_p,
    c_double,
    c_int,
    c_int64,
    c_size_t,
    c_ssize_t,
    c_ubyte,
    c_uint16,
    c_uint32,
    c_uint64,
    c_void_p,
    py_object,
)
from enum import IntEnum
from pathlib import Path
from typing import TYPE_CHECKING, Any, TypeVar, Union

from ._mapped import Mapped
from ._windows import BYTES_WANTED, Seen, Stretch, Windows

if TYPE_CHECKING:
    from _typeshed import ReadableBuffer

    # A file in memory, or one of which pages are fetched.
    File = Union[ReadableBuffer, Windows]

NAME = "mangohatch_tiff"
VARIABLE = "MANGOHATCH_TIFF_LIBRARY"


class Status(IntEnum):
    """What a call returns: `DONE`, or the number of an error."""

    DONE = 0
    LIMITS_EXCEEDED = 1
    INT_SIZE_ERROR = 2
    OUT_OF_MEMORY = 3
    LATER_FAULT = 4
    BYTES_WANTED = BYTES_WANTED
    UNEXPECTED_EOF = 10
    INVALID_DATA = 11
    INVALID_INPUT = 12
    WRITE_ZERO = 13
    DEVICE = 14
    SIGNATURE_NOT_FOUND = 20
    SIGNATURE_INVALID = 21
    IMAGE_FILE_DIRECTORY_NOT_FOUND = 22
    INCONSISTENT_SIZES_ENCOUNTERED = 23
    INVALID_DIMENSIONS = 24
    INVALID_TAG = 25
    INVALID_TAG_VALUE_TYPE = 26
    REQUIRED_TAG_NOT_FOUND = 27
    UNKNOWN_PREDICTOR = 28
    UNKNOWN_PLANAR_CONFIGURATION = 29
    INVALID_TYPE_FOR_TAG = 30
    INVALID_COUNT_FOR_TAG = 31
    STRIP_TILE_TAG_CONFLICT = 32
    CYCLE_IN_OFFSETS = 33
    SAMPLES_PER_PIXEL_IS_ZERO = 34
    COMPRESSED_DATA_CORRUPT = 35
    FLOATING_POINT_PREDICTOR = 40
    HORIZONTAL_PREDICTOR = 41
    INCONSISTENT_BITS_PER_SAMPLE = 42
    INTERPRETATION_WITH_BITS = 43
    UNKNOWN_INTERPRETATION = 44
    UNKNOWN_COMPRESSION_METHOD = 45
    UNSUPPORTED_COMPRESSION_METHOD = 46
    UNSUPPORTED_SAMPLE_DEPTH = 47
    UNSUPPORTED_SAMPLE_FORMAT = 48
    UNSUPPORTED_COLOR_TYPE = 49
    UNSUPPORTED_BITS_PER_CHANNEL = 50
    UNSUPPORTED_PLANAR_CONFIG = 51
    UNSUPPORTED_DATA_TYPE = 52
    UNSUPPORTED_INTERPRETATION = 53
    CHROMA_SUBSAMPLING = 54
    MISALIGNED_TILE_BOUNDARIES = 55
    INVALID_CHUNK_TYPE = 60
    INVALID_CHUNK_INDEX = 61
    INVALID_PLANE_INDEX = 62
    INVALID_CODING_UNIT = 63
    PREDICTOR_COMPRESSION_MISMATCH = 64
    PREDICTOR_INCOMPATIBLE = 65
    PREDICTOR_UNAVAILABLE = 66
    INSUFFICIENT_OUTPUT_BUFFER_SIZE = 67
    INSUFFICIENT_OUTPUT_ROW_STRIDE = 68
    ZERO_IFD_POINTER = 69
    RECONFIGURED_AFTER_IMAGE_WRITE = 70
    BYTE_ORDER_MISMATCH = 71
    MISMATCHED_ENTRY_LENGTH = 72
    PARENT_NOT_WRITTEN = 73
    WRITER_FAILED = 74

    @classmethod
    def _missing_(cls, value: object) -> Status:
        """Returns `LATER_FAULT` for a number that only a later library has."""
        return cls.LATER_FAULT


class ColorKind(IntEnum):
    """What the samples of a pixel are."""

    GRAY = 0
    RGB = 1
    PALETTE = 2
    GRAY_A = 3
    RGBA = 4
    CMYK = 5
    CMYKA = 6
    YCBCR = 7
    LAB = 8
    MULTIBAND = 9


class Found(IntEnum):
    """What is found at a place where a directory is named."""

    DIRECTORY = 0
    DIRECTORY_ERROR = 1
    VALUES_ERROR = 2
    DIRECTORY_MET = 3
    DIRECTORY_TOO_DEEP = 4


class PageField(IntEnum):
    """The part of a page that is written; `NONE` is the page as a whole."""

    NONE = 0
    COLOR = 1
    METHOD = 2
    PREDICTOR = 3
    PLANAR = 4
    RESOLUTION = 5
    EXTRA_SAMPLES = 6
    TAGS = 7
    SAMPLES = 8
    LAYOUT = 9
    PARENT = 10


COMPRESSION, UNCOMPRESSED = 259, 1
CHUNKY, PLANAR = 1, 2
TILES = 1
BIG_ENDIAN = 1
# How many bytes a page of a few tags has, and the most pages or directories that fit into the first
# list.
SHORT_PAGE = 64
FIRST_CAPACITY = 1 << 14
# The room for a list of as many bytes is memory that the system clears when it is first written.
LONG_ROOM = 1 << 17
# The most bytes of a file's header.
HEADER = 16
# How many values of a tag fit into the first call.
FEW = 16


class Color(Structure):
    """The kind of a color, the bits of a sample, and how many samples a pixel shows."""

    kind: int
    bits: int
    samples: int

    _fields_ = [("kind", c_uint32), ("bits", c_uint32), ("samples", c_uint32)]


class Samples(Structure):
    """The samples of a page: what their bits are, how many bits, and how the samples lie.

    `kind` is the value of the tag SampleFormat. `samples` is how many samples a pixel shows.
    `planes` is 1 if the samples of a pixel lie side by side. `inverted` is 1 if zero is white in
    the file.
    """

    kind: int
    bits: int
    samples: int
    planes: int
    inverted: int

    _fields_ = [
        ("kind", c_uint32),
        ("bits", c_uint32),
        ("samples", c_uint32),
        ("planes", c_uint32),
        ("inverted", c_uint32),
    ]


class Chunks(Structure):
    """The kind of a page's chunks, how many there are, and the width and the height of one."""

    kind: int
    count: int
    width: int
    height: int

    _fields_ = [
        ("kind", c_uint32),
        ("count", c_uint32),
        ("width", c_uint32),
        ("height", c_uint32),
    ]


class ListedPage(Structure):
    """A page in the list of a file's pages."""

    offset: int
    status: int
    width: int
    height: int
    method: int
    color_status: int
    color: Color
    chunk_kind: int
    count_status: int
    count: int

    _fields_ = [
        ("offset", c_uint64),
        ("status", c_uint32),
        ("width", c_uint32),
        ("height", c_uint32),
        ("method", c_uint32),
        ("color_status", c_uint32),
        ("color", Color),
        ("chunk_kind", c_uint32),
        ("count_status", c_uint32),
        ("count", c_uint32),
    ]


class ListedDirectory(Structure):
    """A place where a directory is named, in the list of a file's directories."""

    offset: int
    parent: int
    fields: int
    depth: int
    tag: int
    found: int
    status: int
    page: ListedPage

    _fields_ = [
        ("offset", c_uint64),
        ("parent", c_uint64),
        ("fields", c_uint64),
        ("depth", c_uint32),
        ("tag", c_uint32),
        ("found", c_uint32),
        ("status", c_uint32),
        ("page", ListedPage),
    ]


class Sides(Structure):
    """The width and the height of a page."""

    width: int
    height: int

    _fields_ = [("width", c_uint32), ("height", c_uint32)]


class Field(Structure):
    """The type of a tag, and how many values it has."""

    kind: int
    count: int

    _fields_ = [("kind", c_uint32), ("count", c_uint64)]


class TagEntry(Structure):
    """An entry of a directory: its tag, the type and the count of its values, and their place."""

    count: int
    offset: int
    number: int
    type: int
    in_place: int

    _fields_ = [
        ("count", c_uint64),
        ("offset", c_uint64),
        ("number", c_uint16),
        ("type", c_uint16),
        ("in_place", c_uint32),
    ]


class Image(Structure):
    """How an image is written: its color type, its sides, and the settings of the file."""

    _fields_ = [
        ("color", c_uint32),
        ("width", c_uint32),
        ("height", c_uint32),
        ("version", c_uint16),
        ("method", c_uint16),
        ("predictor", c_uint16),
    ]


class Frame(Structure):
    """How many bytes a file has before the samples passed in, of these, and behind them."""

    _fields_ = [("front", c_size_t), ("samples", c_size_t), ("behind", c_size_t)]


class JobsEnd(Structure):
    """Where a list of jobs was refused: the number of a line or a job, from 1; 0 is none."""

    line: int
    job: int

    _fields_ = [("line", c_size_t), ("job", c_size_t)]


class TagToWrite(Structure):
    """A tag of a page that is written: its number, the type, the count and the bytes of its values.

    The struct keeps the bytes, so no other object has to.
    """

    _fields_ = [
        ("number", c_uint16),
        ("type", c_uint16),
        ("count", c_size_t),
        ("values", c_char_p),
        ("values_len", c_size_t),
    ]


class Fraction(Structure):
    """A fraction of a resolution."""

    _fields_ = [("n", c_uint32), ("d", c_uint32)]


class PageToWrite(Structure):
    """A page that is written. The struct keeps its tags, but not the bytes of its samples."""

    _fields_ = [
        ("color", c_uint32),
        ("width", c_uint32),
        ("height", c_uint32),
        ("rows_per_strip", c_uint32),
        ("tile_width", c_uint32),
        ("tile_length", c_uint32),
        ("method", c_uint16),
        ("predictor", c_uint16),
        ("planar", c_uint16),
        ("resolution_unit", c_uint16),
        ("x_resolution", Fraction),
        ("y_resolution", Fraction),
        ("extra_samples", POINTER(c_uint16)),
        ("extra_samples_len", c_size_t),
        ("tags", POINTER(TagToWrite)),
        ("tags_len", c_size_t),
        ("samples", c_void_p),
        ("samples_len", c_size_t),
        ("parent", c_size_t),
        ("tile_bytes", c_size_t),
    ]


class PagesEnd(Structure):
    """Where pages were refused: the number of the page, from 1, and its field; 0 is none."""

    page: int
    field: int

    _fields_ = [("page", c_size_t), ("field", c_uint32)]


class PagesFrame(Structure):
    """How many bytes of a file aren't samples, and of how many of its pages the samples are apart."""

    around: int
    framed: int

    _fields_ = [("around", c_size_t), ("framed", c_size_t)]


class Appended(Structure):
    """What is added to a file: how many bytes behind it, and a link in it that leads to them.

    `link` is where the link is, of `width` bytes, and `target` the number that goes there. `end` is
    where the pages were refused.
    """

    len: int
    link: int
    target: int
    width: int
    end: PagesEnd

    _fields_ = [
        ("len", c_size_t),
        ("link", c_uint64),
        ("target", c_uint64),
        ("width", c_uint32),
        ("end", PagesEnd),
    ]


class PagePlan(Structure):
    """The plan of a page, by which the library reads each of its chunks without opening the page.

    A page has the facts of its chunks and samples from the members that are declared.
    """

    width: int
    height: int
    chunk_width: int
    chunk_height: int
    photometric: int
    sample_format: int
    planar: int

    _fields_ = [
        ("offsets_count", c_uint64),
        ("byte_counts_count", c_uint64),
        ("offsets_value", c_ubyte * 8),
        ("byte_counts_value", c_ubyte * 8),
        ("width", c_uint32),
        ("height", c_uint32),
        ("chunk_width", c_uint32),
        ("chunk_height", c_uint32),
        ("version", c_uint16),
        ("order", c_uint16),
        ("photometric", c_uint16),
        ("compression", c_uint16),
        ("samples", c_uint16),
        ("extra_count", c_uint16),
        ("first_extra", c_uint16),
        ("sample_format", c_uint16),
        ("bits", c_uint16),
        ("predictor", c_uint16),
        ("planar", c_uint16),
        ("chunk_kind", c_uint16),
        ("subsampling_across", c_uint16),
        ("subsampling_down", c_uint16),
        ("offsets_type", c_uint16),
        ("byte_counts_type", c_uint16),
    ]


class ChunkPlace(Structure):
    """Where a chunk is in a file: its offset and its byte count, by the tags of its page."""

    offset: int
    byte_count: int

    _fields_ = [("offset", c_uint64), ("byte_count", c_uint64)]


class _Number(Structure):
    """The number of a tag."""

    _fields_ = [("value", c_uint64)]


class _PyBuffer(Structure):
    """CPython's `Py_buffer`."""

    _fields_ = [
        ("buf", c_void_p),
        ("obj", c_void_p),
        ("len", c_ssize_t),
        ("itemsize", c_ssize_t),
        ("readonly", c_int),
        ("ndim", c_int),
        ("format", c_void_p),
        ("shape", c_void_p),
        ("strides", c_void_p),
        ("suboffsets", c_void_p),
        ("internal", c_void_p),
    ]


def _path() -> str:
    """Returns the shared library: beside this module, by the environment, or on the system."""
    beside = Path(__file__).with_name(f"lib{NAME}.so")
    found = str(beside) if beside.is_file() else os.environ.get(VARIABLE)
    found = found or ctypes.util.find_library(NAME)
    if not found:
        raise ImportError(
            f"The shared library lib{NAME}.so is neither beside this module nor on the "
            f"system; name it in the environment variable {VARIABLE}."
        )
    return found


_LIBRARY = ctypes.CDLL(_path())


def _declare(name: str, *parameters: Any, result: Any = c_uint32) -> Any:
    """Declares a call of the library, and returns it."""
    call = getattr(_LIBRARY, name)
    call.argtypes = parameters
    call.restype = result
    return call


def _declare_in(name: str, *parameters: Any) -> Any:
    """Declares a call on windows of a file, and returns it."""
    return _declare(f"{name}_in", POINTER(Seen), *parameters, POINTER(Stretch))


_BYTES = (c_void_p, c_size_t)
_PAGE = (*_BYTES, c_size_t)
# What calls on a file and calls on windows of it take alike.
_PAGES = (POINTER(ListedPage), c_size_t, POINTER(c_size_t))
_DIRECTORIES = (POINTER(ListedDirectory), c_size_t, POINTER(c_size_t))
_ENTRIES = (POINTER(TagEntry), c_size_t, POINTER(c_size_t))
_STORED = (c_uint16, c_uint64, *_BYTES, POINTER(c_size_t))
_CHUNK = (POINTER(PagePlan), c_uint32, *_BYTES)

BYTE_ORDER = _declare("tiff_byte_order", *_BYTES, POINTER(c_uint32))
LIST_PAGES = _declare("tiff_list_pages", *_BYTES, *_PAGES)
LIST_DIRECTORIES = _declare("tiff_list_directories", *_BYTES, *_DIRECTORIES)
PAGE_SIDES = _declare("tiff_page_sides", *_PAGE, POINTER(Sides))
PAGE_COLOR = _declare("tiff_page_color", *_PAGE, POINTER(Color))
PAGE_SAMPLES = _declare("tiff_page_samples", *_PAGE, POINTER(Samples))
PAGE_CHUNKS = _declare("tiff_page_chunks", *_PAGE, POINTER(Chunks))
READ_IMAGE = _declare("tiff_read_image_bytes", *_PAGE, *_BYTES)
READ_CHUNK = _declare("tiff_read_chunk_bytes", *_PAGE, c_uint32, *_BYTES)
READ_CHUNKS = _declare("tiff_read_chunks", *_PAGE, c_uint32, c_uint32, *_BYTES)
PAGE_PLAN = _declare("tiff_page_plan", *_PAGE, POINTER(PagePlan))
READ_PLANNED_CHUNK = _declare("tiff_read_planned_chunk", *_BYTES, *_CHUNK)
READ_PLANNED_CHUNKS = _declare(
    "tiff_read_planned_chunks", *_BYTES, POINTER(PagePlan), c_uint32, c_uint32, *_BYTES
)
CHUNK_PLACE = _declare(
    "tiff_chunk_place", *_BYTES, POINTER(PagePlan), c_uint32, POINTER(ChunkPlace)
)
REWRITE_CHUNK = _declare(
    "tiff_rewrite_chunk", *_BYTES, POINTER(PagePlan), c_uint32, *_BYTES, *_BYTES
)
TAG_FIELD = _declare("tiff_tag_field", *_PAGE, c_uint16, POINTER(Field))
TAG_NUMBER = _declare("tiff_tag_number", *_PAGE, c_uint16, POINTER(_Number))
TAG_BYTES = _declare("tiff_tag_bytes", *_PAGE, *_STORED)
TAG_NUMBERS = _declare(
    "tiff_tag_numbers", *_PAGE, c_uint16, POINTER(c_uint64), c_size_t, POINTER(c_size_t)
)
TAG_FLOATS = _declare(
    "tiff_tag_floats", *_PAGE, c_uint16, POINTER(c_double), c_size_t, POINTER(c_size_t)
)
TAG_TEXT = _declare("tiff_tag_text", *_PAGE, c_uint16, *_BYTES, POINTER(c_size_t))
LIST_TAGS = _declare("tiff_list_tags", *_PAGE, *_ENTRIES)
IMAGE_FRAME = _declare("tiff_image_frame", POINTER(Image), *_BYTES, *_BYTES, POINTER(Frame))
WRITE_JOBS = _declare(
    "tiff_write_jobs", c_uint16, *_BYTES, *_BYTES, POINTER(c_size_t), POINTER(JobsEnd)
)
WRITE_PAGES = _declare(
    "tiff_write_pages",
    c_uint16,
    POINTER(PageToWrite),
    c_size_t,
    *_BYTES,
    POINTER(c_size_t),
    POINTER(PagesEnd),
)
PAGES_FRAME = _declare(
    "tiff_pages_frame",
    c_uint16,
    POINTER(PageToWrite),
    c_size_t,
    *_BYTES,
    POINTER(c_size_t),
    c_size_t,
    POINTER(PagesFrame),
    POINTER(PagesEnd),
)
APPEND_PAGES = _declare(
    "tiff_append_pages", *_BYTES, POINTER(PageToWrite), c_size_t, *_BYTES, POINTER(Appended)
)
LIST_PAGES_IN = _declare_in("tiff_list_pages", *_PAGES)
LIST_DIRECTORIES_IN = _declare_in("tiff_list_directories", *_DIRECTORIES)
LIST_TAGS_IN = _declare_in("tiff_list_tags", c_size_t, *_ENTRIES)
TAG_BYTES_IN = _declare_in("tiff_tag_bytes", c_size_t, *_STORED)
PAGE_PLAN_IN = _declare_in("tiff_page_plan", c_size_t, POINTER(PagePlan))
READ_PLANNED_CHUNK_IN = _declare_in("tiff_read_planned_chunk", *_CHUNK)
FAULT_TEXT = _declare("tiff_fault_text", c_uint32, *_BYTES, result=c_size_t)

# Prototypes of this module, since other modules share the attributes of `ctypes.pythonapi`.
_GET_BUFFER = ctypes.PYFUNCTYPE(c_int, py_object, POINTER(_PyBuffer), c_int)(
    ("PyObject_GetBuffer", ctypes.pythonapi)
)
_RELEASE_BUFFER = ctypes.PYFUNCTYPE(None, POINTER(_PyBuffer))(
    ("PyBuffer_Release", ctypes.pythonapi)
)
_CONTIGUOUS = 0
_ANY_BYTE = c_ubyte()
_FIRST_BYTE = c_ubyte.from_buffer
# Linux's call that takes room on a disk, which os lacks: with `KEEP_SIZE` the file stays as long as
# it is.
_FALLOCATE = getattr(ctypes.CDLL(None), "fallocate", None)
KEEP_SIZE = 1


def reserve(number: int, size: int) -> None:
    """Takes room on the disk for so many bytes of an open file, whose length stays.

    What can't be taken is not an error: a write finds what is wrong.
    """
    if _FALLOCATE is not None:
        _FALLOCATE(c_int(number), c_int(KEEP_SIZE), c_int64(0), c_int64(size))


def fault_text(status: int) -> str:
    """Returns the library's text of a status."""
    text = ctypes.create_string_buffer(256)
    length: int = FAULT_TEXT(status, text, len(text))
    return text.raw[:length].decode()


class TiffError(Exception):
    """An error of a file or a call.

    `status` is its number, `page` the index of the page in the file, if it is one of the chain, and
    `tag` the number of the tag, if a tag was read.
    """

    def __init__(self, status: int, page: int | None = None, tag: int | None = None) -> None:
        self.status, self.page, self.tag = Status(status), page, tag
        super().__init__(status, page, tag)

    def __reduce__(self) -> tuple[Any, ...]:
        return type(self), (self.status, self.page, self.tag)

    def _cause(self) -> str:
        """What the error is, without its place."""
        return fault_text(self.status)

    def __str__(self) -> str:
        page = "" if self.page is None else f"page {self.page}: "
        tag = "" if self.tag is None else f"tag {self.tag}: "
        return page + tag + self._cause()


class UnsupportedError(TiffError, ValueError):
    """What a file has, or what a caller requests, and this package doesn't read or write.

    `what` names it, and `status` is the nearest of the library's errors.
    """

    def __init__(
        self, what: str, status: int = Status.INVALID_INPUT, page: int | None = None
    ) -> None:
        super().__init__(status, page)
        self.what = what

    def __reduce__(self) -> tuple[Any, ...]:
        return type(self), (self.what, self.status, self.page)

    def _cause(self) -> str:
        return self.what


class JobsError(TiffError):
    """A list of jobs that is refused: at a `line` that is no job, or at a `job` with an error.

    Both are counted from 1; 0 is none.
    """

    def __init__(self, status: int, line: int, job: int) -> None:
        super().__init__(status)
        self.line, self.job = line, job

    def __reduce__(self) -> tuple[Any, ...]:
        return type(self), (self.status, self.line, self.job)

    def _cause(self) -> str:
        if self.line:
            return f"line {self.line} is no job"
        return f"job {self.job}: {super()._cause()}" if self.job else super()._cause()


class PagesError(TiffError):
    """A page that isn't written: the `page`, counted from 0, and the `field` that is refused.

    `page` is None for an error of the file as a whole.
    """

    def __init__(self, status: int, page: int | None, field: int) -> None:
        super().__init__(status, page)
        self.field = PageField(field)

    def __reduce__(self) -> tuple[Any, ...]:
        return type(self), (self.status, self.page, self.field)

    def _cause(self) -> str:
        field = "" if self.field is PageField.NONE else f"{self.field.name.lower()}: "
        return field + super()._cause()


def check(status: int) -> None:
    """Raises the error of a status, unless the status is `DONE`."""
    if status:
        raise TiffError(status)


def name_place(error: TiffError, page: int | None, tag: int | None = None) -> None:
    """Names the page and the tag in an error, where it doesn't name another one."""
    error.page = page if error.page is None else error.page
    error.tag = tag if error.tag is None else error.tag


class named:
    """Names the page and the tag in an error of the library that a `with` block raises."""

    __slots__ = ("page", "tag")

    def __init__(self, page: int | None, tag: int | None = None) -> None:
        self.page, self.tag = page, tag

    def __enter__(self) -> None:
        return None

    def __exit__(self, kind: object, error: BaseException | None, trace: object) -> None:
        if isinstance(error, TiffError):
            name_place(error, self.page, self.tag)


class locked:
    """Locks an object's own bytes during a `with` block, which gets their address and length.

    Nothing is copied. The object can be neither resized nor closed while the block runs.
    """

    __slots__ = ("owner", "view")

    def __init__(self, owner: ReadableBuffer) -> None:
        self.owner = owner

    def __enter__(self) -> tuple[int, int]:
        self.view, address = lock(self.owner)
        return address, self.view.nbytes

    def __exit__(self, kind: object, error: object, trace: object) -> None:
        self.view.release()


def lock(owner: ReadableBuffer) -> tuple[memoryview, int]:
    """Locks an object's own bytes until the view is released; returns the view and their address.

    Nothing is copied. The object can be neither resized nor closed before that.
    """
    # A view locks in less time than `_GET_BUFFER`, but doesn't tell the address.
    view = memoryview(owner)
    if isinstance(owner, Mapped):
        if not owner.address:
            owner.address = _address(owner)
        return view, owner.address
    try:
        return view, _address(owner)
    except BufferError:
        view.release()
        raise


def _address(owner: ReadableBuffer) -> int:
    """Returns where an object's own bytes begin."""
    view = _PyBuffer()
    _GET_BUFFER(owner, byref(view), _CONTIGUOUS)
    try:
        return view.buf or addressof(_ANY_BYTE)
    finally:
        _RELEASE_BUFFER(byref(view))


def memory_of(array: Any) -> tuple[int, int]:
    """Returns the address of an array's bytes, and how many there are.

    They can be written, and lie without gaps.
    """
    size: int = array.nbytes
    return addressof(_FIRST_BYTE(array) if size else _ANY_BYTE), size


def length_of(file: File) -> int:
    """Returns how many bytes a file has."""
    if isinstance(file, Windows):
        return file.size
    with locked(file) as (_, length):
        return length


def part(file: File, offset: int, size: int) -> bytes:
    """Returns bytes of a file from an offset on, as many as it has there."""
    if isinstance(file, Windows):
        return file.part(offset, size)
    with memoryview(file) as view, view.cast("B") as data:
        return bytes(data[offset : offset + size])


def status_of(file: File, call: Any, call_in: Any, *given: Any) -> int:
    """Calls with a file in memory, or with windows of another one, and returns the status."""
    if isinstance(file, Windows):
        return file.run(call_in, *given)
    with locked(file) as (address, length):
        status: int = call(address, length, *given)
    return status


Result = TypeVar("Result", bound=Structure)


def result_of(call: Any, kind: type[Result], file: ReadableBuffer, *place: int) -> Result:
    """Returns the result of a call on a page of a file, or on a tag of a page."""
    result = kind()
    with locked(file) as (address, length):
        check(call(address, length, *place, byref(result)))
    return result


def at(offset: int) -> int:
    """Returns the number for the page at an offset, as TIFF_AT of the header does."""
    return 1 << 63 | offset


def offset_of(page: int) -> int:
    """Returns the offset of which `at` made this number."""
    return page & ~(1 << 63)


def _room(kind: type[Result], capacity: int) -> Any:
    """Returns an array for so many structs. Of a long one, only what a call writes takes memory."""
    array = kind * capacity
    size = ctypes.sizeof(array)
    return array() if size < LONG_ROOM else array.from_buffer(mmap.mmap(-1, size))


def _listed(
    call: Any, call_in: Any, kind: type[Result], file: File
) -> tuple[list[Result], Status]:
    """Returns what a call lists of a file, and the status with which the chain of pages ends.

    One call is enough if all fit into it. Else there is a second one, with the length that it
    needs.
    """
    count = c_size_t()
    capacity = min(length_of(file) // SHORT_PAGE + 1, FIRST_CAPACITY)
    listed = _room(kind, capacity)
    end = status_of(file, call, call_in, listed, capacity, byref(count))
    if count.value > capacity:
        capacity = count.value
        listed = _room(kind, capacity)
        end = status_of(file, call, call_in, listed, capacity, byref(count))
    return list((kind * min(count.value, capacity)).from_buffer_copy(listed)), Status(end)


def list_pages(file: File) -> tuple[list[ListedPage], Status]:
    """Returns the pages of a file, and the status with which their chain ends."""
    return _listed(LIST_PAGES, LIST_PAGES_IN, ListedPage, file)


def list_directories(file: File) -> list[ListedDirectory]:
    """Returns the places of a file where directories are named; without one, raises the error."""
    listed, end = _listed(LIST_DIRECTORIES, LIST_DIRECTORIES_IN, ListedDirectory, file)
    if not listed:
        check(end)
    return listed


def page_plan(file: File, page: int) -> PagePlan:
    """Returns the plan of a page."""
    plan = PagePlan()
    check(status_of(file, PAGE_PLAN, PAGE_PLAN_IN, page, byref(plan)))
    return plan


def _result_and_status(
    call: Any, kind: type[Result], file: ReadableBuffer, *place: int
) -> tuple[Result, int]:
    """Returns the result of a call on a file, with its status; after an error zeros."""
    try:
        return result_of(call, kind, file, *place), Status.DONE
    except TiffError as error:
        return kind(), error.status


def page_at(file: ReadableBuffer, offset: int) -> ListedPage:
    """Returns the facts of the page at an offset, as a list of pages has them."""
    place = at(offset)
    sides = result_of(PAGE_SIDES, Sides, file, place)
    color, color_status = _result_and_status(PAGE_COLOR, Color, file, place)
    chunks, count_status = _result_and_status(PAGE_CHUNKS, Chunks, file, place)
    method, _ = _result_and_status(TAG_NUMBER, _Number, file, place, COMPRESSION)
    return ListedPage(
        offset=offset,
        width=sides.width,
        height=sides.height,
        method=method.value or UNCOMPRESSED,
        color_status=color_status,
        color=color,
        chunk_kind=chunks.kind,
        count_status=count_status,
        count=chunks.count,
    )


def _values(call: Any, kind: Any, file: File, *place: int, call_in: Any = None) -> Any:
    """Returns the values of a tag, or the tags of a page. Many take a second call."""
    count = c_size_t()
    capacity = FEW
    values = (kind * capacity)()
    check(status_of(file, call, call_in, *place, values, capacity, byref(count)))
    if count.value > capacity:
        capacity = count.value
        values = (kind * capacity)()
        check(status_of(file, call, call_in, *place, values, capacity, byref(count)))
    return values[: min(count.value, capacity)]


def list_tags(file: File, page: int) -> list[TagEntry]:
    """Returns the entries of a directory, by the number of their tags."""
    return list(_values(LIST_TAGS, TagEntry, file, page, call_in=LIST_TAGS_IN))


def tag_bytes(file: File, page: int, number: int, start: int, size: int) -> bytes:
    """Returns bytes of the values of a tag, as many as there are from a first one on."""
    # Values that are longer than the file don't lie in it; the call returns that error.
    buffer = ctypes.create_string_buffer(min(size, length_of(file) + 1) or 1)
    place = addressof(buffer)
    written = read_tag_bytes(file, page, number, start, place, len(buffer))
    return buffer.raw[:written]


def read_tag_bytes(
    file: File, page: int, number: int, start: int, place: int, size: int
) -> int:
    """Reads bytes of the values of a tag into memory, from a first one on; returns how many.

    `place` is the address of the memory, and `size` how many bytes it has.
    """
    written = c_size_t()
    given = page, number, start, place, size, byref(written)
    check(status_of(file, TAG_BYTES, TAG_BYTES_IN, *given))
    return written.value


def tag_numbers(file: ReadableBuffer, page: int, number: int) -> tuple[int, ...]:
    """Returns the values of a tag of a page as unsigned numbers."""
    return tuple(_values(TAG_NUMBERS, c_uint64, file, page, number))


def unsigned_numbers(file: ReadableBuffer, page: int, number: int) -> tuple[int, ...]:
    """Returns the values of a tag of a page as unsigned numbers; without the tag none."""
    count, values = c_size_t(), (c_uint64 * FEW)()
    with locked(file) as (address, length):
        status = TAG_NUMBERS(address, length, page, number, values, FEW, byref(count))
    if status == Status.REQUIRED_TAG_NOT_FOUND:
        return ()
    if status or count.value > FEW:
        return tag_numbers(file, page, number)
    return tuple(values[: count.value])


def tag_floats(file: ReadableBuffer, page: int, number: int) -> tuple[float, ...]:
    """Returns the values of a tag of a page as floating-point numbers."""
    return tuple(_values(TAG_FLOATS, c_double, file, page, number))


def read_samples(call: Any, file: ReadableBuffer, place: tuple[int, ...], buffer: Any) -> None:
    """Reads samples of a page into an array; `place` is the page and what the call takes after."""
    with locked(file) as (address, length):
        check(call(address, length, *place, *memory_of(buffer)))


def tag_text(file: ReadableBuffer, page: int, number: int) -> str:
    """Returns the text of a tag of a page."""
    return bytes(_values(TAG_TEXT, c_ubyte, file, page, number)).decode()


def byte_order(file: File) -> str:
    """Returns the byte order of a file as `struct` writes it: `<` or `>`."""
    order = c_uint32()
    with locked(file.part(0, HEADER) if isinstance(file, Windows) else file) as (address, length):
        check(BYTE_ORDER(address, length, byref(order)))
    return ">" if order.value == BIG_ENDIAN else "<"


def library_version() -> int:
    """Returns the number of the version of the C library's calls."""
    version: int = _declare("tiff_version")()
    return version
