"""The readers that conformance/run knows, each with a process of its own for each file."""
import os
import subprocess
from pathlib import Path

from adapters import serve

HERE = Path(__file__).resolve().parent
FORKED = ("tifffile", "pillow", "gdal", "imagemagick")
LIBTIFF = {"libtiff": [], "libtiff-scanlines": ["scanlines"]}
# One processor for each reader, and as little memory as it can.
QUIET = {
    "OMP_NUM_THREADS": "1",
    "OPENBLAS_NUM_THREADS": "1",
    "GDAL_NUM_THREADS": "1",
    "GDAL_PAM_ENABLED": "NO",
    "MAGICK_THREAD_LIMIT": "1",
}


class Command:
    """A reader that is a command of its own for each file."""

    def __init__(self, words, version, out, errors):
        self.words, self.version, self.out, self.errors = words, version, out, errors

    def read(self, path):
        """Reads a file; the outputs go to the two files. Returns the status of `waitpid`."""
        words = [word.replace("{}", str(path)) for word in self.words]
        with open(self.out, "wb") as out, open(self.errors, "wb") as errors:
            ran = subprocess.Popen(
                words,
                stdin=subprocess.DEVNULL,
                stdout=out,
                stderr=errors,
                env={**os.environ, **QUIET},
                preexec_fn=serve.limit,
            )
            return os.waitpid(ran.pid, 0)[1]

    def end(self):
        pass


class Forked:
    """A reader in Python, whose modules are loaded once; each file has a process of its own."""

    def __init__(self, name, out, errors):
        adapter = HERE / "adapters" / name
        self.version = subprocess.run(
            [adapter, "--version"], capture_output=True, text=True
        ).stdout.strip()
        self.ran = subprocess.Popen(
            [adapter, "--serve", out, errors],
            stdin=subprocess.PIPE,
            stdout=subprocess.PIPE,
            text=True,
            env={**os.environ, **QUIET},
        )

    def read(self, path):
        self.ran.stdin.write(f"{path}\n")
        self.ran.stdin.flush()
        return int(self.ran.stdout.readline())

    def end(self):
        self.ran.stdin.close()
        self.ran.wait()


def libtiff(words, out, errors):
    """Compiles the program that reads by libtiff, and returns the reader."""
    program = Path(out).with_name("libtiff")
    subprocess.run(["cc", "-O2", "-o", program, HERE / "adapters/libtiff.c", "-ltiff"], check=True)
    version = subprocess.run(
        ["pkg-config", "--modversion", "libtiff-4"], capture_output=True, text=True
    ).stdout.strip()
    return Command([str(program), "{}", *words], f"libtiff {version}", out, errors)


def named(name, out, errors):
    """Returns the reader of a name, or None."""
    if name in FORKED:
        return Forked(name, out, errors)
    return libtiff(LIBTIFF[name], out, errors) if name in LIBTIFF else None
