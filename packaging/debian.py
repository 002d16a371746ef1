"""Packages for Debian, as debhelper would make them of the same files, by Python alone and objdump
and nm.

`make dist` runs where the kit is, which may be another system. lintian finds no error in them; it
warns that no bug of Debian's is closed, since they aren't uploaded there.
"""
import hashlib
import lzma
import re
import subprocess
from email.utils import formatdate
from fnmatch import fnmatch
from pathlib import Path, PurePosixPath

from archives import ar, file, filled, folder, packed, tar
from wheel_backend import needed_glibc

TEXTS = Path(__file__).resolve().parent / "debian"
SOURCE = "mangohatch-tiff"
# The number of these packages among those of one version.
REVISION = 1
# The packages of the libraries that a program may name, in a version that is new enough for it.
OWNERS = {
    "libc.so.6": "libc6 (>= {glibc})",
    "libm.so.6": "libc6 (>= {glibc})",
    "libgcc_s.so.1": "libgcc-s1 (>= 3.0)",
}


def output(*words):
    return subprocess.run(words, stdout=subprocess.PIPE, check=True, encoding="utf-8").stdout


def needs(program):
    """Returns the packages of the libraries that a program or a shared library names."""
    glibc = "{}.{}".format(*needed_glibc(program.read_bytes()))
    named = re.findall(r"^ +NEEDED +(\S+)$", output("objdump", "-p", program), re.M)
    return sorted({OWNERS[name].format(glibc=glibc) for name in named})


def library_records(library, package):
    """Returns the file symbols of a package, for packages that are built over its shared library:
    the library's name, and for each of its symbols the version since which it is there."""
    name, calls = library.name.split(".so.")
    first = f"{calls}.0"
    names = sorted(
        line.split()[-1] for line in output("nm", "-D", "--defined-only", library).splitlines()
    )
    symbols = [
        f"{library.name} {package} #MINVER#",
        "* Build-Depends-Package: libmangohatch-tiff-dev",
        *(f" {it}@Base {first}" for it in names),
    ]
    return {
        "shlibs": f"{name} {calls} {package} (>= {first})\n",
        "symbols": "\n".join(symbols) + "\n",
        "triggers": "activate-noawait ldconfig\n",
    }


def with_parents(files):
    """Returns files with the folders that they lie in."""
    names = {str(parent) for it in files for parent in PurePosixPath(it.name).parents}
    return [*map(folder, names), *files]


def installed(entry):
    """Returns a file as Debian has it: pages of the manual are packed, and only commands may be
    run."""
    if fnmatch(entry.name, "usr/share/man/*/*"):
        return file(entry.name + ".gz", packed(entry.content))
    if entry.link:
        return entry
    return entry._replace(mode=0o755 if entry.name.startswith("usr/bin/") else 0o644)


def kilobytes(files):
    """Returns the size of files as Installed-Size counts it: each in whole kilobytes, a folder or a
    link as one."""
    return sum(max(1, -(-len(it.content or b"") // 1024)) for it in files)


def documents(package, release):
    """Returns the files that each package has: its history and the licence."""
    history = (
        f"{SOURCE} ({release['version']}) unstable; urgency=medium\n\n  * Packed from the commit"
        f" {release['commit']}.\n\n -- {release['maintainer']}  {formatdate(release['date'])}\n"
    )
    return [
        file(f"usr/share/doc/{package}/changelog.Debian.gz", packed(history.encode())),
        file(f"usr/share/doc/{package}/copyright", filled(TEXTS / "copyright", release).encode()),
    ]


def control(paragraph, size, needed, release):
    """Returns the description of a package, by its paragraph of debian/control."""
    named, rest = paragraph.split("\n", 1)
    common = [
        f"Source: {SOURCE}",
        f"Version: {release['version']}",
        "Architecture: amd64",
        f"Maintainer: {release['maintainer']}",
        f"Installed-Size: {size}",
        "Priority: optional",
        *([f"Depends: {', '.join(needed)}"] if needed else []),
    ]
    return "\n".join([named, *common, rest, ""])


def under_dot(entry):
    """Returns an entry by its name in the archives of a package."""
    return entry._replace(name="./" + entry.name if entry.name != "." else "./")


def package(paragraph, stage, entries, release):
    """Returns the name of a package and its bytes: the files that the last line of its paragraph
    names, from the folder where all are installed."""
    paragraph, _, patterns = paragraph.strip().rpartition("\nFiles: ")
    name = re.match(r"Package: (\S+)", paragraph)[1]
    chosen = [
        it
        for it in entries
        if it.content is not None and any(fnmatch(it.name, pattern) for pattern in patterns.split())
    ]
    programs = [stage / it.name for it in chosen if it.content.startswith(b"\x7fELF")]
    files = [*map(installed, chosen), *documents(name, release)]
    tree = with_parents(files)
    needed = [need for program in programs for need in needs(program)]
    sums = [
        f"{hashlib.md5(it.content).hexdigest()}  {it.name}\n" for it in sorted(files) if not it.link
    ]
    records = {
        "control": control(paragraph, kilobytes(tree), needed, release),
        "md5sums": "".join(sums),
    }
    for library in programs:
        if ".so." in library.name:
            records |= library_records(library, name)
    parts = {
        "control": [folder("."), *(file(it, text.encode()) for it, text in records.items())],
        "data": tree,
    }
    members = [
        (f"{part}.tar.xz", lzma.compress(tar([under_dot(it) for it in held], release["date"])))
        for part, held in parts.items()
    ]
    return (
        f"{name}_{release['version']}_amd64.deb",
        ar([("debian-binary", b"2.0\n"), *members], release["date"]),
    )


def packages(stage, entries, release):
    """Returns the packages, by name, of the files that are installed in a folder."""
    return dict(
        package(it, stage, entries, release)
        for it in filled(TEXTS / "control", release).split("\n\n")
    )
