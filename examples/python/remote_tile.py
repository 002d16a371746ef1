"""Reads one tile of a TIFF file behind HTTP, by requests of ranges; the file isn't fetched whole.

  python3 remote_tile.py http://host/map.tif 12000 34000 tile.tif
  python3 remote_tile.py map.tif 12000 34000 tile.tif

The numbers are the pixel's row and column. A file at a path is served by a server of the standard
library meanwhile. It prints how many requests were made, and for how many bytes. It wants the
package mangohatch_tiff, and numpy.
"""
from __future__ import annotations

import os
import re
import sys
import threading
from http.server import BaseHTTPRequestHandler, ThreadingHTTPServer
from urllib.request import Request, urlopen

from one_tile import tile_at

from mangohatch_tiff import TiffFile, imwrite


class RemoteFile:
    """A file behind HTTP: `read_at` and `size` are all that TiffFile takes."""

    def __init__(self, url: str) -> None:
        self.url = url
        self.requests = self.fetched = 0
        with urlopen(Request(url, method="HEAD")) as response:
            self.size = int(response.headers["Content-Length"])

    def read_at(self, offset: int, size: int) -> bytes:
        """Returns so many bytes from an offset on."""
        request = Request(self.url, headers={"Range": f"bytes={offset}-{offset + size - 1}"})
        with urlopen(request) as response:
            if response.status != 206:
                raise OSError(f"{self.url}: the server sends no ranges")
            data: bytes = response.read()
        self.requests, self.fetched = self.requests + 1, self.fetched + len(data)
        return data


class Ranges(BaseHTTPRequestHandler):
    """Serves ranges of one file, whatever the path; http.server's own handler knows no ranges."""

    path_of_file = ""

    def do_HEAD(self) -> None:
        self.send_response(200)
        self.send_header("Content-Length", str(os.stat(self.path_of_file).st_size))
        self.end_headers()

    def do_GET(self) -> None:
        wanted = re.fullmatch(r"bytes=(\d+)-(\d+)", self.headers.get("Range", ""))
        if wanted is None:
            self.send_error(416)
            return
        first, last = int(wanted[1]), int(wanted[2])
        with open(self.path_of_file, "rb") as file:
            file.seek(first)
            data = file.read(last + 1 - first)
        self.send_response(206)
        self.send_header("Content-Length", str(len(data)))
        self.end_headers()
        self.wfile.write(data)

    def log_message(self, *words: object) -> None:
        """Prints nothing."""


def serve(path: str) -> tuple[ThreadingHTTPServer, str]:
    """Serves a file on this machine, by a thread; returns the server and the file's address."""
    Ranges.path_of_file = path
    server = ThreadingHTTPServer(("127.0.0.1", 0), Ranges)
    threading.Thread(target=server.serve_forever, daemon=True).start()
    return server, f"http://127.0.0.1:{server.server_port}/file.tif"


def read_tile(url: str, row: int, column: int, target: str) -> None:
    """Reads the tile that a pixel lies in, and writes it as a file."""
    source = RemoteFile(url)
    with TiffFile(source) as tif:
        page = tif.pages[0]
        if not page.is_tiled:
            sys.exit("the page is in strips")
        if not (0 <= row < page.imagelength and 0 <= column < page.imagewidth):
            sys.exit("there is no such pixel")
        array = page.read_chunk(tile_at(page, row, column))
    traffic = f"{source.requests} requests, {source.fetched} of {source.size} bytes"
    print(f"shape {array.shape}, {array.dtype}: {traffic}")
    imwrite(target, array)


def main() -> None:
    place, row, column, target = sys.argv[1], int(sys.argv[2]), int(sys.argv[3]), sys.argv[4]
    if place.startswith(("http://", "https://")):
        read_tile(place, row, column, target)
        return
    server, url = serve(place)
    try:
        read_tile(url, row, column, target)
    finally:
        server.shutdown()
        server.server_close()


if __name__ == "__main__":
    main()
