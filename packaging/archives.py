"""Archives whose bytes depend on nothing but their contents and one date: owners are root, and the
order is that of names."""
import gzip
import io
import os
import re
import tarfile
from collections import namedtuple

# A file, a folder (content is None) or a link, by its name in the archive.
Entry = namedtuple("Entry", "name mode content link", defaults=("",))


def folder(name):
    return Entry(name, 0o755, None)


def file(name, content, mode=0o644):
    return Entry(name, mode, content)


def filled(path, facts):
    """Returns the text of a file with the facts in the places of their names, as @version@."""
    return re.sub(r"@(\w+)@", lambda found: str(facts[found[1]]), path.read_text(encoding="utf-8"))


def read_tree(top):
    """Returns all that lies below a folder, by names that begin there; a file that its owner may
    run, all may."""
    found = []
    for path in top.rglob("*"):
        name = path.relative_to(top).as_posix()
        if path.is_symlink():
            found.append(Entry(name, 0o777, b"", os.readlink(path)))
        elif path.is_dir():
            found.append(folder(name))
        else:
            found.append(
                file(name, path.read_bytes(), 0o755 if os.access(path, os.X_OK) else 0o644)
            )
    return found


def packed(content):
    """Returns a content packed by gzip, with no date."""
    return gzip.compress(content, 9, mtime=0)


def tar(entries, date):
    """Returns a tar archive."""
    room = io.BytesIO()
    with tarfile.open(fileobj=room, mode="w", format=tarfile.GNU_FORMAT) as archive:
        for entry in sorted(entries):
            member = tarfile.TarInfo(entry.name)
            member.mtime, member.mode, member.linkname = date, entry.mode, entry.link
            member.uname = member.gname = "root"
            member.type = (
                tarfile.SYMTYPE
                if entry.link
                else tarfile.DIRTYPE if entry.content is None else tarfile.REGTYPE
            )
            member.size = len(entry.content or b"")
            archive.addfile(member, io.BytesIO(entry.content or b""))
    return room.getvalue()


def ar(members, date):
    """Returns an ar archive of names with their contents."""
    parts = [b"!<arch>\n"]
    for name, content in members:
        parts.append(f"{name:<16}{date:<12}{0:<6}{0:<6}{100644:<8}{len(content):<10}`\n".encode())
        parts += [content, b"\n" * (len(content) % 2)]
    return b"".join(parts)
