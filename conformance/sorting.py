"""Sorts the results of a reader, by what is expected of a file.

A file is valid, which a reader has to read; or valid but unusual, which it may refuse; or must be
refused; or may be refused, and then may be read in any way.
"""
import os
import re
import signal
import zlib

from adapters import serve

SAME, RIGHTLY, MAYBE, OPEN = (
    "same",
    "refused, as it must be",
    "refused, as it may be",
    "read, where it's open",
)
FORM, WRONGLY, ACCEPTED, OTHER = (
    "read, not compared",
    "refused though valid",
    "read though it must be refused",
    "other samples",
)
CRASH, LONG, MUCH = "crash", "too long", "too much memory"
# The kinds of results, with the faults last.
KINDS = [SAME, RIGHTLY, MAYBE, OPEN, FORM, WRONGLY, ACCEPTED, OTHER, CRASH, LONG, MUCH]
EXPECTED, FAULTS = (SAME, RIGHTLY), KINDS[KINDS.index(WRONGLY) :]

MEMORY = re.compile(
    r"MemoryError|[Oo]ut of memory|[Cc]annot allocate|bad_alloc|[Mm]emory allocation failed|cache"
    r" resources exhausted|Unable to allocate"
)


def pages_in(data):
    """Returns the pages that an adapter wrote: of each its sides, the samples of a pixel, the bytes
    of a sample, and the CRC-32 of its samples; or None if that isn't their form."""
    pages, at = [], 0
    while at < len(data):
        head = re.compile(rb"page (\d+) (\d+) (\d+) (\d+)\n").match(data, at)
        if not head:
            return None
        width, height, samples, size = map(int, head.groups())
        end = head.end() + width * height * samples * size
        if end > len(data):
            return None
        pages.append((width, height, samples, size, f"{zlib.crc32(data[head.end():end]):08x}"))
        at = end
    return pages


def page_answer(expected, page):
    """Returns how a page that was read fits an expected one: same, in a form that isn't compared,
    or with other samples."""
    width, height, samples, size, crc = page
    if (width, height) != (expected["width"], expected["height"]):
        return OTHER
    forms = expected["image"].get("forms", [])
    if [samples, size, crc] in forms:
        return SAME
    if expected["image"].get("turned") or [samples, size] not in [form[:2] for form in forms]:
        return FORM
    return OTHER


def pages_answer(row, pages):
    """Returns how the pages that were read fit those that are expected."""
    expected = [page for page in row.get("pages", []) if "error" not in page]
    if pages is None or not expected:
        return FORM
    if len(pages) != len(expected):
        return OTHER
    found = [page_answer(*both) for both in zip(expected, pages)]
    return next((kind for kind in (OTHER, FORM) if kind in found), SAME)


def ended(status, said):
    """Returns the kind of a result by how the process ended: none if it ended by itself."""
    if os.WIFSIGNALED(status):
        ended_by = os.WTERMSIG(status)
        if ended_by in (signal.SIGXCPU, signal.SIGALRM, signal.SIGKILL):
            return LONG
        return MUCH if MEMORY.search(said) else CRASH
    if "ended by signal" in said:
        return CRASH
    failed = os.WEXITSTATUS(status) != 0
    return (
        MUCH
        if failed and (os.WEXITSTATUS(status) == serve.NO_MEMORY or MEMORY.search(said))
        else None
    )


def kind_of(row, status, pages, said):
    """Returns the kind of the result for a file: by how the process ended, the pages that it wrote,
    and its error messages."""
    by_end = ended(status, said)
    if by_end:
        return by_end
    sort = row["class"]
    # a reader that finds no page and says no error has refused the file too
    if os.WEXITSTATUS(status) or pages == []:
        return {"valid": WRONGLY, "must be refused": RIGHTLY}.get(sort, MAYBE)
    if sort == "must be refused":
        return ACCEPTED
    found = pages_answer(row, pages)
    return OPEN if sort == "may be refused" and found != SAME else found
