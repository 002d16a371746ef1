"""The library's replies for a file, by its program tiffpage, and where the second road's replies
differ."""
import resource
import subprocess
import sys
import tempfile
from pathlib import Path

import second_road as road
import words

TOP = Path(__file__).resolve().parent.parent
# The program as `./tiffpage --unproved help` keeps it, and as `./tiffpage help` does.
PROGRAMS = [TOP / "out/trial/tiffpage", TOP / "crates/tiffpage/out/tiffpage"]
# The processor seconds that it may take for a file, and those by the clock, of which a busy machine
# takes many more.
SECONDS, LONGEST = 60, 1800


def program():
    """Returns the program tiffpage."""
    for path in PROGRAMS:
        if path.is_file():
            return path
    sys.exit(
        "conformance: there is no program tiffpage yet: `./tiffpage --unproved help` builds it,"
        " within minutes"
    )


def limit():
    """Limits the processor seconds of a process."""
    resource.setrlimit(resource.RLIMIT_CPU, (SECONDS, SECONDS))


def run(command, path, *rest, input=""):
    """Runs a command of tiffpage on a file, and returns what it printed, what it printed as errors,
    and its status."""
    try:
        ran = subprocess.run(
            [program(), command, path, *rest],
            input=input.encode(),
            capture_output=True,
            timeout=LONGEST,
            preexec_fn=limit,
        )
    except subprocess.TimeoutExpired:
        return "", f"no end within {LONGEST} seconds", -1
    return (
        ran.stdout.decode("utf-8", errors="replace"),
        ran.stderr.decode("utf-8", errors="replace"),
        ran.returncode,
    )


def same_reply(call, ours, theirs):
    """Returns whether a reply of the library is the expected one; of a refused read, what its list
    has isn't specified."""
    if call == "read_image_to_buffer" and ours.startswith("refused:"):
        return theirs == ours or theirs.startswith(f"{ours}, ")
    return theirs == ours


def check_of(data):
    """Returns what `check` prints of a file whose first page may be refused: it is opened by its
    header."""
    try:
        return words.check_words(*road.opened_by_header(data))
    except road.Refused as fault:
        return "", f"error: {words.text(fault)}\n", 1


def differences(path, whole):
    """Returns each difference of the two roads on a file: the call, the reply of the second road,
    and the reply of the library.

    The calls read all of the file; with `whole`, `list`, `check` and `tags` are run too.
    """
    data = Path(path).read_bytes()
    try:
        found = road.opened(data)
    except road.Refused as fault:
        refused = ("", f"error: {words.text(fault)}\n", 1)
        calls = [("calls", refused, run("calls", path, input="dimensions\n"))]
        if whole:
            calls += [
                ("list", refused, run("list", path)),
                ("check", check_of(data), run("check", path)),
            ]
        return [one for one in calls if one[1] != one[2]]
    differ = differences_of_calls(path, found)
    if whole:
        calls = [
            ("list", words.list_words(*found), run("list", path)),
            ("check", words.check_words(*found), run("check", path)),
        ]
        calls += [
            (f"tags {n}", words.tags_lines(found[0], found[1], n), run("tags", path, str(n)))
            for n in range(len(found[1]))
        ]
        differ += [one for one in calls if one[1] != one[2]]
    return differ


def differences_of_calls(path, found):
    """Returns each call on an opened file whose reply differs."""
    calls, ours = words.calls(*found)
    out, errors, status = run("calls", path, input="".join(f"{call}\n" for call in calls))
    theirs = out.split("\n")[:-1]
    if status != 0 or errors or len(theirs) != len(ours):
        return [("calls", ("".join(f"{one}\n" for one in ours), "", 0), (out, errors, status))]
    return [one for one in zip(calls, ours, theirs) if not same_reply(*one)]


def differences_of_bytes(data, whole=False):
    """Returns each difference of the two roads on a file of these bytes."""
    with tempfile.NamedTemporaryFile(suffix=".tif") as file:
        file.write(data)
        file.flush()
        return differences(file.name, whole)
