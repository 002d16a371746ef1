"""The number types of samples, and arrays of the bytes that the library gives. It needs numpy."""
from __future__ import annotations

from dataclasses import dataclass
from functools import cached_property
from typing import Any

import numpy
from numpy.typing import NDArray

UNSIGNED, SIGNED, FLOATING, VOID, COMPLEX_INTEGER, COMPLEX = 1, 2, 3, 4, 5, 6
# The depths that a number of numpy has.
WHOLE = (8, 16, 32, 64)
FLOATS = {(FLOATING, bits): f"<f{bits // 8}" for bits in (16, 32, 64)}
FLOATS |= {(COMPLEX, bits): f"<c{bits // 8}" for bits in (64, 128)}
FLOATS |= {(COMPLEX_INTEGER, bits): f"<c{16 if bits == 64 else 8}" for bits in (16, 32, 64)}


def number_type(sampleformat: int, bits: int) -> numpy.dtype[Any] | None:
    """Returns the number type of samples, by SampleFormat and BitsPerSample; None if it has none.

    One bit is a bool, other depths have the next number that holds them. Complex whole numbers
    become complex ones, which hold them: of parts of 8 and 16 bits complex64, of 32 complex128.
    """
    if sampleformat in (UNSIGNED, VOID) and bits == 1:
        return numpy.dtype(bool)
    if sampleformat in (UNSIGNED, VOID, SIGNED):
        kind = "i" if sampleformat == SIGNED else "u"
        stored = next((size for size in WHOLE if 0 < bits <= size), 0)
        return numpy.dtype(f"<{kind}{stored // 8}") if stored else None
    name = FLOATS.get((sampleformat, bits))
    return numpy.dtype(name) if name else None


@dataclass(frozen=True)
class Form:
    """How the samples of a part of a plane lie in the library's bytes, and what they become.

    A row has whole bytes; `bits` are those of a sample and `samples` how many each pixel has there.
    With `turned`, the bytes are complemented, which takes back that the library inverted them.
    With `swapped`, the two halves of a number are in the other order. With `alone`, no
    call reads several chunks, as those of complex numbers.
    """

    dtype: numpy.dtype[Any]
    bits: int
    samples: int
    signed: bool = False
    turned: bool = False
    swapped: bool = False
    alone: bool = False

    @cached_property
    def is_direct(self) -> bool:
        """Whether the library's bytes are those of the array, but for a complement."""
        return self.bits == 8 * self.dtype.itemsize and not self.swapped

    def row_bytes(self, columns: int) -> int:
        """Returns how many bytes a row of so many pixels has."""
        return (columns * self.samples * self.bits + 7) // 8

    def natural(self, raw: NDArray[numpy.uint8], columns: int) -> NDArray[Any]:
        """Returns the samples of rows of bytes, as an array of rows, columns and samples.

        The bytes may be complemented where they lie, and the array may lie there too.
        """
        rows = raw.shape[0]
        if self.turned:
            numpy.bitwise_not(raw, out=raw)
        if self.bits < 8:
            numbers = unpacked(raw, self.bits, columns * self.samples)
            numbers = extended(numbers, self.bits) if self.signed else numbers.view(self.dtype)
        else:
            numbers = raw.view(self.dtype)
        if self.swapped:
            numbers = halves_swapped(numbers)
        return numbers.reshape(rows, columns, self.samples)


    def raw(self, samples: NDArray[Any]) -> NDArray[numpy.uint8]:
        """Returns the rows of bytes of which `natural` makes this array.

        Bits behind the last number of a row are 0, or 1 with `turned`. Numbers of more than `bits`
        bits are a ValueError.
        """
        numbers = numpy.ascontiguousarray(samples, self.dtype).reshape(len(samples), -1)
        if self.bits < 8:
            raw = packed(numbers.view(numpy.uint8), self.bits)
            found = unpacked(raw, self.bits, numbers.shape[1])
            fits = extended(found, self.bits) if self.signed else found.view(self.dtype)
            if not numpy.array_equal(fits, numbers):
                raise ValueError(f"numbers of more than {self.bits} bits")
        else:
            numbers = halves_swapped(numbers) if self.swapped else numbers
            raw = numbers.view(numpy.uint8)
        return numpy.bitwise_not(raw) if self.turned else raw


def packed(numbers: NDArray[numpy.uint8], bits: int) -> NDArray[numpy.uint8]:
    """Returns rows of whole bytes of the lowest `bits` bits of numbers, the first number highest.

    One bit is 1 for any number but 0. The bits behind the last number of a row are 0.
    """
    numbers = numpy.ascontiguousarray(numbers)
    if bits == 1:
        return numpy.packbits(numbers, axis=1)
    if 8 % bits == 0:
        each, lowest = 8 // bits, (1 << bits) - 1
        raw = numpy.zeros((len(numbers), -(-numbers.shape[1] // each)), numpy.uint8)
        for place in range(each):
            part = numbers[:, place::each] & lowest
            places = 8 - bits * (place + 1)
            raw[:, : part.shape[1]] |= numpy.left_shift(part, places, dtype=numpy.uint8)
        return raw
    single = numpy.unpackbits(numbers[:, :, None], axis=2)[:, :, 8 - bits :]
    return numpy.packbits(single.reshape(len(numbers), -1), axis=1)


def unpacked(raw: NDArray[numpy.uint8], bits: int, count: int) -> NDArray[numpy.uint8]:
    """Returns the numbers of `bits` bits each, `count` a row, that rows of whole bytes contain."""
    if bits == 1:
        return numpy.unpackbits(raw, axis=1, count=count)
    if 8 % bits == 0:
        each = 8 // bits
        numbers = numpy.empty((*raw.shape, each), numpy.uint8)
        for place in range(each):
            numpy.right_shift(raw, 8 - bits * (place + 1), out=numbers[:, :, place])
        numbers &= (1 << bits) - 1
        return numbers.reshape(len(raw), -1)[:, :count]
    single = numpy.unpackbits(raw, axis=1, count=count * bits).reshape(len(raw), count, bits)
    padded = numpy.zeros((len(raw), count, 8), numpy.uint8)
    padded[:, :, 8 - bits :] = single
    return numpy.packbits(padded, axis=2)[:, :, 0]


def extended(numbers: NDArray[numpy.uint8], bits: int) -> NDArray[numpy.int8]:
    """Returns numbers of `bits` bits as signed ones: the highest bit counts negative."""
    sign = 1 << (bits - 1)
    return ((numbers ^ sign).astype(numpy.int8) - sign).astype(numpy.int8)


def halves_swapped(numbers: NDArray[Any]) -> NDArray[Any]:
    """Returns complex numbers with their two parts in the other order.

    The library turns all bytes of a number of a big-endian file, and with them its two parts.
    """
    half = f"V{numbers.dtype.itemsize // 2}"
    parts = numbers.view([("first", half), ("second", half)])
    turned = numpy.empty_like(parts)
    turned["first"], turned["second"] = parts["second"], parts["first"]
    return turned.view(numbers.dtype)
