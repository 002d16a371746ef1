"""The crates of the repository, their files, and what it costs to prove them."""
import hashlib
import re
import shutil
import sys
from pathlib import Path

ROOT = Path(__file__).resolve().parent.parent
CRATES = ROOT / "crates"


def report(text):
    print(text, file=sys.stderr, flush=True)


def minutes(seconds):
    count = round(seconds / 60)
    return "1 minute" if count == 1 else f"{count} minutes"


def need_kit(head):
    if not shutil.which("rt"):
        sys.exit(f"{head}: the Rattle kit is missing: put its command rt on the PATH")


def listed():
    """Returns each crate of crates.txt, lowest first, with the crates that it names."""
    rows = [
        row.partition(":")
        for row in (ROOT / "crates.txt").read_text("utf-8").splitlines()
        if row.strip() and row[0] != "#"
    ]
    # a crate's name comes first; words such as `staticlib` may follow it
    names = [words.split()[0] for words, _, _ in rows]
    return {
        name: [it for it in uses.split() if it in names] for name, (_, _, uses) in zip(names, rows)
    }


def below(crate, uses):
    """Returns the crates below this one, in the order in which rt builds them: each behind those
    that it uses."""
    found = []
    for used in uses[crate]:
        found += [it for it in [*below(used, uses), used] if it not in found]
    return found


def sources(crate):
    """Returns the files of code that a crate is compiled from."""
    folders = [CRATES / it / "src" for it in [crate, *below(crate, listed())]]
    return [ROOT / "crates.txt", *(file for folder in folders for file in folder.rglob("*.rt"))]


def checksum(files):
    """Returns a checksum of the names and the contents of files."""
    made = hashlib.sha256()
    for file in sorted(files):
        made.update(
            f"{file.relative_to(ROOT)} {hashlib.sha256(file.read_bytes()).hexdigest()}\n".encode()
        )
    return made.hexdigest()


def text_of(file):
    """Returns the text of a file, or None if there is no such file."""
    return file.read_text("utf-8") if file.is_file() else None


def parts():
    """Returns the rows of the table of processor seconds in docs/GATE.md: the name of each row, and
    its smaller numbers."""
    rows = [
        [cell.strip() for cell in line.split("|")]
        for line in (ROOT / "docs/GATE.md").read_text("utf-8").splitlines()
    ]
    found = [(cells[1], re.findall(r"(?:^|, )(\d+)", cells[3])) for cells in rows if len(cells) > 4]
    return [(part, [int(it) for it in seconds]) for part, seconds in found if seconds]


def costs():
    """Returns the processor seconds of each crate, by the smaller numbers of the table in
    docs/GATE.md: those of its proof, and those of its edits and its tests.

    A row names crates, and has the seconds of the proof of each, in the same order. Behind them are
    those of the last one's edits and tests.
    """
    found = {}
    for part, seconds in parts():
        names = (
            re.findall(r"`((?:tiff|test_)\w*)`", part.partition(":")[0]) if part.startswith(("`tiff", "`test_")) else []
        )
        if names:
            found.update({name: (proof, 0) for name, proof in zip(names, seconds)})
            found[names[-1]] = seconds[len(names) - 1], sum(seconds[len(names) :])
    return found


def total():
    """Returns the processor seconds of the whole gate."""
    return sum(sum(seconds) for _, seconds in parts())


def chain():
    """Returns the processor seconds of the longest chain of crates, of which each waits for the
    proof of the one before it."""
    uses, seconds, ends = listed(), costs(), {}
    for name in sorted(uses, key=lambda it: len(below(it, uses))):
        ends[name] = seconds[name][0] + max((ends[it] for it in uses[name]), default=0)
    return max(end + seconds[name][1] for name, end in ends.items())


def proved_again(crate):
    """Returns the crates that are proved again after a change of this one."""
    uses = listed()
    return [name for name in uses if name == crate or crate in below(name, uses)]
