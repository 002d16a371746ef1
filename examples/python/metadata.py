"""Prints every tag of every directory of a TIFF file, whatever its pages are, as lines of JSON.

  python3 metadata.py photo.dng

The directories are those of the chain, and those that tags name, as SubIFDs, Exif and GPS. A line
is a tag: the offset of its directory, its number, name, type and count, and its value, or the error
by which there is none. Bytes are hexadecimal, and of long values there is the start. A directory
that can't be read is a line with its error. It wants the package mangohatch_tiff.
"""
from __future__ import annotations

import json
import math
import sys
from typing import Any

from mangohatch_tiff import Directory, Status, Tag, Tags, TiffError, TiffFile, UnsupportedError

MOST = 64


def value_of(tags: Tags, tag: Tag) -> Any:
    """Returns the value of a tag; the stored value if the package doesn't know its meaning."""
    try:
        return tag.value
    except UnsupportedError:
        pass
    try:
        return tags.numbers(tag.code)
    except TiffError:
        return tags.data(tag.code)


def as_json(value: Any) -> Any:
    """Returns a value as JSON has it."""
    if isinstance(value, bytes):
        return value[:MOST].hex() + (".." if len(value) > MOST else "")
    if hasattr(value, "tolist"):
        value = value.ravel().tolist()
    if isinstance(value, (tuple, list)):
        return [as_json(item) for item in value[:MOST]] + [".."] * (len(value) > MOST)
    if isinstance(value, float) and not math.isfinite(value):
        return str(value)
    return value


def told_of(tags: Tags, tag: Tag) -> dict[str, Any]:
    """Returns a tag as JSON has it."""
    kind = getattr(tag.dtype, "name", tag.dtype)
    facts = {"tag": tag.code, "name": tag.name, "type": kind, "count": tag.count}
    try:
        return {**facts, "value": as_json(value_of(tags, tag))}
    except TiffError as error:
        return {**facts, "error": error.status.name}


def lines_of(directory: Directory) -> list[dict[str, Any]]:
    """Returns the lines of a directory."""
    place: dict[str, Any] = {"directory": directory.offset}
    if directory.tag is not None:
        place |= {"of": directory.parent, "by": directory.tag}
    if directory.tags is None:
        return [{**place, "found": directory.found.name, "error": directory.status.name}]
    return [{**place, **told_of(directory.tags, tag)} for tag in directory.tags]


def main() -> None:
    with TiffFile(sys.argv[1]) as tif:
        for directory in tif.directories:
            for line in lines_of(directory):
                print(json.dumps(line))
        if tif.end is not Status.DONE:
            print(json.dumps({"error": tif.end.name}))


if __name__ == "__main__":
    main()
