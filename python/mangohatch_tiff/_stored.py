"""Chunks as the file stores them, of pages whose samples the library leaves out or refuses.

Of a chunk that isn't packed, the bytes are those of the file. PackBits is unpacked by the library:
as a page of bytes in a small file that holds this chunk alone. It needs numpy.
"""
from __future__ import annotations

import struct
from dataclasses import dataclass
from typing import TYPE_CHECKING, Any

import numpy

from . import _library
from ._library import Status, TiffError
from ._samples import unpacked
from ._windows import Windows

if TYPE_CHECKING:
    from numpy.typing import NDArray

    from ._library import File
    from ._parts import Grid, Run

# As many bytes of numbers are unpacked at once.
BAND = 1 << 20
# The byte with the bits of a byte in the other order.
TURNED = numpy.packbits(
    numpy.unpackbits(numpy.arange(256, dtype=numpy.uint8)).reshape(256, 8)[:, ::-1], axis=1
)[:, 0]
PACKBITS, GRAY = 32773, 1
LONGEST_RUN = 128
LONG, LONG8 = 4, 16


@dataclass(frozen=True)
class StoredForm:
    """How the samples of a chunk lie in the file.

    `bits` are those of a sample, and `samples` how many each pixel has in a plane. With `packed`,
    the chunk is packed by PackBits; with `turned`, the lowest bit of each byte comes first
    (FillOrder 2); with `differences`, a row has its numbers less those of the pixel before. With
    `paired`, a sample is two whole numbers, the parts of a complex one. `missing` is the value of
    pixels that the file doesn't have.
    """

    dtype: numpy.dtype[Any]
    bits: int
    samples: int
    order: str
    signed: bool = False
    packed: bool = False
    turned: bool = False
    differences: bool = False
    paired: bool = False
    missing: int | float | complex = 0

    @property
    def is_whole(self) -> bool:
        """Whether a sample in the file is a number of the array."""
        return self.bits == 8 * self.dtype.itemsize and not self.paired

    def row_bytes(self, columns: int) -> int:
        """Returns how many bytes a row of so many pixels has in the file."""
        return (columns * self.samples * self.bits + 7) // 8

    def numbers(self, raw: NDArray[numpy.uint8], columns: int) -> NDArray[Any]:
        """Returns the samples of rows of the file's bytes, as rows, columns and samples."""
        shape = len(raw), columns, self.samples
        if self.is_whole:
            kind = self.dtype.newbyteorder(">" if self.order == ">" else "<")
            stored = raw.view(kind).reshape(shape)
            if not self.differences:
                return stored
            summed: NDArray[Any] = numpy.add.accumulate(
                stored.astype(self.dtype), axis=1, dtype=self.dtype
            )
            return summed
        numbers = numpy.empty((len(raw), columns * self.samples), self.dtype)
        if self.paired:
            parts = raw.view(f"{self.order}i{self.bits // 16}").reshape(*numbers.shape, 2)
            numbers.real, numbers.imag = parts[..., 0], parts[..., 1]
            return numbers.reshape(shape)
        band = max(1, BAND // (8 * numbers.shape[1]))
        for start in range(0, len(raw), band):
            part = raw[start : start + band]
            numbers[start : start + band] = self._unpacked(part, numbers.shape[1])
        return numbers.reshape(shape)

    def _unpacked(self, raw: NDArray[numpy.uint8], count: int) -> NDArray[Any]:
        """Returns the numbers of rows of bytes, `count` a row."""
        unsigned = numpy.dtype(f"<u{self.dtype.itemsize}")
        few = self.bits < 8
        found = unpacked(raw, self.bits, count) if few else unpacked_wide(raw, self.bits, count)
        numbers = found.astype(unsigned, copy=False)
        if self.signed:
            sign = unsigned.type(1 << (self.bits - 1))
            numbers = (numbers ^ sign) - sign
        return numbers.view(self.dtype)


@dataclass(frozen=True)
class Stored:
    """The chunks of a page in its file: where each begins, how many bytes it has, and its form."""

    file: File
    offsets: tuple[int, ...]
    lengths: tuple[int, ...]
    form: StoredForm

    def read_chunks(self, grid: Grid, run: Run, buffer: NDArray[Any]) -> None:
        """Reads a run of chunks into an array, one behind the other, each cut at the edges."""
        data, start = buffer.reshape(-1).view(numpy.uint8), 0
        for chunk in range(run.first, run.first + run.count):
            numbers = self.chunk(grid, chunk)
            part = data[start : start + numbers.nbytes].view(self.form.dtype)
            part.reshape(numbers.shape)[...] = numbers
            start += numbers.nbytes

    def chunk(self, grid: Grid, chunk: int) -> NDArray[Any]:
        """Returns the rows, columns and samples of a chunk, cut at the edges of the image."""
        rows, columns = grid.sides(chunk)
        if not (self.offsets[chunk] and self.lengths[chunk]):
            missing = numpy.array(self.form.missing).astype(self.form.dtype)
            return numpy.full((rows, columns, self.form.samples), missing)
        raw = self._rows(chunk, rows, self.form.row_bytes(grid.chunk_width))
        return self.form.numbers(raw, grid.chunk_width)[:, :columns]

    def _rows(self, chunk: int, rows: int, size: int) -> NDArray[numpy.uint8]:
        """Returns the first rows of a chunk, each of so many bytes, with the highest bit first."""
        if self.form.packed:
            return unpacked_bytes(self._held(chunk, self.lengths[chunk]).tobytes(), rows, size)
        held = self._held(chunk, min(self.lengths[chunk], rows * size))
        if len(held) < rows * size:
            # A map of a file can't be closed while an array lies there, also in a traceback.
            del held
            raise TiffError(Status.UNEXPECTED_EOF)
        return held.reshape(rows, size)

    def _held(self, chunk: int, most: int) -> NDArray[numpy.uint8]:
        """Returns the first bytes of a chunk, as far as they are there, the highest bit first."""
        held: NDArray[numpy.uint8]
        if isinstance(self.file, Windows):
            held = numpy.frombuffer(self.file.part(self.offsets[chunk], most), numpy.uint8)
        else:
            file = numpy.frombuffer(memoryview(self.file), numpy.uint8)
            held = file[self.offsets[chunk] :][:most]
        return TURNED[held] if self.form.turned else held


def unpacked_bytes(packed: bytes, rows: int, size: int) -> NDArray[numpy.uint8]:
    """Returns rows of so many bytes that the library unpacks from bytes of PackBits.

    Two bytes are 128 at most, so nothing is allocated for rows that a file only claims to have.
    """
    if rows * size > LONGEST_RUN // 2 * len(packed):
        raise TiffError(Status.UNEXPECTED_EOF)
    tags = {256: size, 257: rows, 258: 8, 259: PACKBITS, 262: GRAY, 273: 0, 277: 1, 278: rows}
    tags[279] = len(packed)
    begin = 16
    tags[273] = begin + 8 + 20 * len(tags) + 8
    file = struct.pack("<2sHHHQQ", b"II", 43, 8, 0, begin, len(tags))
    for tag, value in sorted(tags.items()):
        kind = LONG8 if tag in (273, 279) else LONG
        file += struct.pack("<HHQQ", tag, kind, 1, value)
    buffer = numpy.empty((rows, size), numpy.uint8)
    _library.read_samples(_library.READ_CHUNK, file + bytes(8) + packed, (0, 0), buffer)
    return buffer


def unpacked_wide(raw: NDArray[numpy.uint8], bits: int, count: int) -> NDArray[Any]:
    """Returns numbers of 9 to 63 bits each, `count` a row, that rows of whole bytes contain."""
    if bits > 32:
        places = numpy.arange(count) * bits
        high = fields(raw, places, bits - 32).astype(numpy.uint64)
        numbers: NDArray[Any] = (high << numpy.uint64(32)) | fields(raw, places + bits - 32, 32)
        return numbers
    return fields(raw, numpy.arange(count) * bits, bits)


def fields(raw: NDArray[numpy.uint8], places: NDArray[Any], bits: int) -> NDArray[Any]:
    """Returns the numbers of at most 32 bits that begin at places, counted in bits, of each row."""
    kind = numpy.uint32 if bits <= 25 else numpy.uint64
    held = (bits + 14) // 8
    padded = numpy.zeros((len(raw), raw.shape[1] + held), kind)
    padded[:, : raw.shape[1]] = raw
    first = places // 8
    numbers: NDArray[Any] = padded[:, first]
    for behind in range(1, held):
        numbers = (numbers << kind(8)) | padded[:, first + behind]
    numbers >>= (8 * held - bits - places % 8).astype(kind)
    numbers &= kind((1 << bits) - 1)
    return numbers
