"""The directories of a file: those of its chain, and those that tags name."""
from __future__ import annotations

from dataclasses import dataclass
from typing import TYPE_CHECKING

from . import _library
from ._library import Found, ListedDirectory, Status
from ._page import TiffPage
from ._tags import NAMES, Tags

if TYPE_CHECKING:
    from ._library import File


@dataclass(frozen=True, repr=False)
class Directory:
    """A place of a file where a directory is named: by a link of the chain, or by a tag's value.

    `offset` is that of the directory. `depth` is 0 in the chain, where `tag` and `parent` are None;
    else `tag` is the number of the tag, `parent` the offset of the directory with that tag, and
    `depth` one more than there. `found` is what is found at the offset. Of a directory, `fields` is
    how many tags it has, `tags` are these, and `page` is its page: one of `TiffFile.pages`, or
    another one. A directory without an image, as that of Exif, is refused as a page, which the
    `status` of the page says. Where no directory was read, `fields` is 0, and `tags` and `page` are
    None. `status` is the error by which the directory or the values of the tag can't be read, or
    `Status.DONE`; for values, `offset` is `parent`.
    """

    offset: int
    depth: int
    tag: int | None
    parent: int | None
    found: Found
    fields: int
    status: Status
    page: TiffPage | None

    @property
    def tags(self) -> Tags | None:
        """The tags of the directory, if it was read."""
        return None if self.page is None else self.page.tags

    def __repr__(self) -> str:
        return f"<Directory {self._place()}: {self._described()}>"

    def _place(self) -> str:
        """Where the directory is, and what names it."""
        if self.tag is None:
            return f"@{self.offset}"
        return f"@{self.offset}, depth {self.depth}, {name_of(self.tag)} of @{self.parent}"

    def _described(self) -> str:
        """What is found there."""
        if self.page is None:
            return self.found.name + (f" {self.status.name}" if self.status else "")
        return f"{self.fields} tags, {self.page}"


def name_of(tag: int) -> str:
    """Returns the name of a tag, or its number."""
    return NAMES.get(tag, f"tag {tag}")


def directory_of(
    file: File, listed: ListedDirectory, order: str, pages: dict[int, TiffPage]
) -> Directory:
    """Returns a directory of the library's list. Its page is that of the chain, if it is there."""
    page = None
    if listed.found == Found.DIRECTORY:
        page = pages.get(listed.offset) or TiffPage(file, -1, listed.page, order)
    linked = listed.depth == 0
    return Directory(
        offset=listed.offset,
        depth=listed.depth,
        tag=None if linked else listed.tag,
        parent=None if linked else listed.parent,
        found=Found(listed.found),
        fields=listed.fields,
        status=Status(listed.status),
        page=page,
    )


def directories_of(file: File, order: str, pages: list[TiffPage]) -> list[Directory]:
    """Returns the directories of a file that has these pages in its chain."""
    known = {page.offset: page for page in pages}
    listed = _library.list_directories(file)
    return [directory_of(file, item, order, known) for item in listed]
