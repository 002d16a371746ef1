"""What the adapters of readers in Python have in common: each file is read in a process of its own,
which a process with the reader's modules forks.

  ADAPTER FILE                  reads a file, and writes its pages on standard output
  ADAPTER --serve OUT ERRORS    reads names of files from standard input. A child reads each file
                                under the limits, with its outputs in OUT and ERRORS, and then a
                                line says how it ended: the status of `waitpid`
  ADAPTER --version             prints the versions of the reader

conformance/README.md has the form of the pages, and conformance/run the limits.
"""
import os
import resource
import signal
import sys

SECONDS, BYTES, LONGEST, FILE_BYTES = 10, 512 << 20, 100, 256 << 20
# The status of a reader that ran out of memory.
NO_MEMORY = 9


def limit():
    """Limits this process: its processor seconds, the bytes that it allocates, how long it lasts,
    and the bytes of a file that it writes."""
    resource.setrlimit(resource.RLIMIT_CPU, (SECONDS, SECONDS + 1))
    resource.setrlimit(resource.RLIMIT_DATA, (BYTES, BYTES))
    resource.setrlimit(resource.RLIMIT_FSIZE, (FILE_BYTES, FILE_BYTES))
    resource.setrlimit(resource.RLIMIT_CORE, (0, 0))
    signal.setitimer(signal.ITIMER_REAL, LONGEST)


def write(width, height, samples, size, data):
    """Writes a page: its sides, the samples of a pixel, the bytes of a sample, and the samples,
    each with its lowest byte first."""
    sys.stdout.buffer.write(f"page {width} {height} {samples} {size}\n".encode() + data)


def read_one(read, path):
    """Reads a file, and returns the status: 1 for an error of the reader."""
    try:
        for page in read(path):
            write(*page)
        sys.stdout.buffer.flush()
    except MemoryError as fault:
        print(f"MemoryError: {fault}", file=sys.stderr)
        return NO_MEMORY
    except Exception as fault:  # a reader's errors are of any kind
        print(f"{type(fault).__name__}: {fault}", file=sys.stderr)
        return 1
    return 0


def child(read, path, out, errors):
    """Reads a file in a process that was forked for it, and ends it."""
    limit()
    for number, name in ((1, out), (2, errors)):
        os.dup2(os.open(name, os.O_WRONLY | os.O_CREAT | os.O_TRUNC), number)
    status = read_one(read, path)
    sys.stderr.flush()
    os._exit(status)


def serve(read, out, errors):
    for line in sys.stdin:
        process = os.fork()
        if process == 0:
            child(read, line.rstrip("\n"), out, errors)
        os.write(1, f"{os.waitpid(process, 0)[1]}\n".encode())


def main(read, version):
    words = sys.argv[1:]
    if words == ["--version"]:
        print(version)
        return 0
    if len(words) == 3 and words[0] == "--serve":
        serve(read, *words[1:])
        return 0
    if len(words) != 1:
        sys.exit(__doc__)
    return read_one(read, words[0])
