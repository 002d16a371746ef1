"""The arrays of an OME-TIFF file: which pages make them, by the XML in the first description."""
from __future__ import annotations

import math
from collections.abc import Iterator
from typing import TYPE_CHECKING

from ._series import Stack, alike, refused

if TYPE_CHECKING:
    from xml.etree.ElementTree import Element

    from ._page import TiffPage


def ome_stacks(pages: list[TiffPage], text: str) -> list[Stack]:
    """Returns the arrays of an OME-TIFF file, one of each image in the XML.

    What isn't plain raises `UnsupportedError`: an array over several files, planes that the file
    doesn't have, pages of one image that aren't alike, and dimensions that annotations divide.
    """
    from xml.etree import ElementTree

    try:
        root = ElementTree.fromstring(text)
        images = [element for element in root if element.tag.endswith("Image")]
        check_root(root)
        uuid = root.attrib.get("UUID")
        found = [
            stack_of_pixels(pages, part, uuid)
            for image in images
            for part in image
            if part.tag.endswith("Pixels")
        ]
    except (ElementTree.ParseError, KeyError, ValueError, IndexError) as error:
        raise refused(f"an array of OME metadata that isn't read ({error})") from None
    if not found:
        raise refused("OME metadata without an image")
    return found


def check_root(root: Element) -> None:
    """Refuses metadata of another file, and annotations that divide dimensions."""
    for element in root:
        if element.tag.endswith("BinaryOnly"):
            raise refused("an array of OME metadata that another file has")
        if element.tag.endswith("StructuredAnnotations"):
            if any(part.attrib.get("Namespace", "").endswith("modulo") for part in element):
                raise refused("an array of OME metadata with divided dimensions")


def samples_of(pixels: Element) -> int:
    """Returns how many samples the pixels of each channel have."""
    channels = [part for part in pixels if part.tag.endswith("Channel")]
    counts = {int(channel.attrib.get("SamplesPerPixel", 1)) for channel in channels} or {1}
    if len(counts) > 1:
        raise refused("an array of OME metadata whose channels have different samples")
    return counts.pop()


def planes_of(part: Element, axes: str, sides: list[int], count: int) -> Iterator[tuple[int, int]]:
    """Yields the planes that an element of the XML places: the number of each, and its page."""
    attributes = part.attrib
    first = int(attributes.get("IFD", 0))
    count_here = attributes.get("NumPlanes", 1 if "IFD" in attributes else 0)
    planes = int(attributes.get("PlaneCount", count_here))
    plane = 0
    for axis, side in zip(axes, sides):
        at = int(attributes.get("First" + axis, 0))
        if not 0 <= at < side:
            raise refused("OME metadata of a plane that the array doesn't have")
        plane = plane * side + at
    for behind in range(planes or count):
        yield plane + behind, first + behind


def pages_of_pixels(
    pages: list[TiffPage], pixels: Element, uuid: str | None, axes: str, sides: list[int]
) -> list[TiffPage]:
    """Returns the page of each plane of an array, in the order of the planes."""
    placed: dict[int, int] = {}
    for part in pixels:
        if not part.tag.endswith("TiffData"):
            continue
        if any(one.tag.endswith("UUID") and one.text != uuid for one in part):
            raise refused("an array of OME metadata over several files")
        placed.update(planes_of(part, axes, sides, len(pages)))
    count = math.prod(sides)
    if any(plane not in placed for plane in range(count)) or len(placed) != count:
        raise refused("OME metadata of other planes than the file has")
    if not all(0 <= page < len(pages) for page in placed.values()):
        raise refused("OME metadata of pages that the file doesn't have")
    return [pages[placed[plane]] for plane in range(count)]


def stack_of_pixels(pages: list[TiffPage], pixels: Element, uuid: str | None) -> Stack:
    """Returns the array of an element of the XML, without sides of 1; rows and columns stay."""
    axes = "".join(reversed(pixels.attrib["DimensionOrder"]))
    shape = {axis: int(pixels.attrib["Size" + axis]) for axis in axes}
    samples = samples_of(pixels)
    if axes[-2:] != "YX" or set(axes) != set("TCZYX") or min(shape.values()) < 1:
        raise refused(f"an array of OME metadata of the dimensions {axes}")
    shape["C"] //= samples
    before = axes[:-2]
    held = pages_of_pixels(pages, pixels, uuid, before, [shape[axis] for axis in before])
    first = held[0]
    if any(alike(page) != alike(first) for page in held):
        raise refused("an array of OME metadata of pages that aren't alike")
    kept = {axis: shape[axis] for axis in before if shape[axis] > 1}
    sides = {axis: side for axis, side in zip(first.axes, first.shape) if side > 1 or axis in "YX"}
    wanted = {"Y": shape["Y"], "X": shape["X"], **({"S": samples} if samples > 1 else {})}
    if sides != wanted:
        raise refused(f"an array of OME metadata of {wanted}, and pages of {sides}")
    return Stack(held, (*kept.values(), *sides.values()), "".join((*kept, *sides)))
