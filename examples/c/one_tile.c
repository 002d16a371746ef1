/* Writes one tile of the first page as its bytes, cut at the edges of the image: that of the first
   plane in which a pixel lies. The file isn't read whole: of one of any size, the header, the
   directory, its lists of tiles and the tile are fetched, in pages of 64 KB.
     cc one_tile.c -o one_tile $(pkg-config --cflags --libs mangohatch_tiff)
     ./one_tile map.tif 12000 34000 > tile.bytes
   The numbers are the pixel's row and column. Any other read of a range goes in place of pread, as
   one over a network. */
#define _POSIX_C_SOURCE 200809L
#define _FILE_OFFSET_BITS 64
#include <fcntl.h>
#include <stdio.h>
#include <stdlib.h>
#include <string.h>
#include <sys/stat.h>
#include <unistd.h>
#include "mangohatch_tiff.h"

enum { PAGE = 1 << 16 };

/* A file, and the windows of it that were fetched, each of whole pages: SEEN points to them. */
struct fetched {
    int file;
    struct tiff_window *windows;
    struct tiff_windows seen;
    size_t requests;
};

static int open_file(const char *name, struct fetched *of) {
    struct stat found;
    of->file = open(name, O_RDONLY);
    if (of->file < 0 || fstat(of->file, &found)) return 0;
    of->windows = malloc(sizeof *of->windows);
    of->seen = (struct tiff_windows){(uint64_t)found.st_size, of->windows, 0};
    of->requests = 0;
    return of->windows != NULL;
}

/* Reads so many bytes from an offset on; returns whether the file has them. */
static int read_at(int file, uint64_t offset, uint8_t *bytes, size_t size) {
    for (size_t done = 0; done < size;) {
        ssize_t some = pread(file, bytes + done, size - done, (off_t)(offset + done));
        if (some <= 0) return 0;
        done += (size_t)some;
    }
    return 1;
}

/* Fetches the pages of what a call wants, up to the next window, and adds them as one. Its first
   byte is in no window, so neither is its page. */
static int fetch(struct fetched *of, const struct tiff_stretch *wanted) {
    size_t at = 0, count = of->seen.count;
    while (at < count && of->windows[at].offset < wanted->offset) at++;
    uint64_t end = at < count ? of->windows[at].offset : of->seen.len;
    uint64_t begin = wanted->offset / PAGE * PAGE,
             pages = (wanted->offset - begin + wanted->len - 1) / PAGE + 1;
    if (pages < (end - begin) / PAGE + 1) end = begin + pages * PAGE;
    if (end > of->seen.len) end = of->seen.len;

    uint8_t *bytes = malloc((size_t)(end - begin));
    struct tiff_window *windows =
        bytes ? realloc(of->windows, (count + 1) * sizeof *windows) : NULL;
    if (windows) of->seen.windows = of->windows = windows;
    if (!windows || !read_at(of->file, begin, bytes, (size_t)(end - begin))) return free(bytes), 0;
    memmove(windows + at + 1, windows + at, (count - at) * sizeof *windows);
    windows[at] = (struct tiff_window){begin, bytes, (size_t)(end - begin)};
    of->seen.count = count + 1;
    of->requests++;
    return 1;
}

static void close_file(struct fetched *of) {
    for (size_t i = 0; i < of->seen.count; i++) free((void *)of->windows[i].bytes);
    free(of->windows);
    close(of->file);
}

static int refuse(const char *what, tiff_status status) {
    uint8_t text[80];
    size_t len = tiff_fault_text(status, text, sizeof text);
    fprintf(stderr, "%s: %.*s\n", what, (int)(len < sizeof text ? len : sizeof text), (char *)text);
    return 1;
}

/* Returns the status of the program, 1 if the output couldn't be written, which it then prints. The
   last bytes may reach standard output only when it is closed. */
static int close_output(int status) {
    if (!ferror(stdout) && !fclose(stdout)) return status;
    fprintf(stderr, "cannot write standard output\n");
    return 1;
}

static uint64_t least(uint64_t a, uint64_t b) { return a < b ? a : b; }

/* How many bytes rows of so many pixels have, each of whole bytes; where a file claims more than
   memory can have, as many as that. */
static size_t bytes_of(uint64_t columns, uint64_t samples, uint64_t bits, uint64_t rows) {
    uint64_t row = (columns * samples * bits + 7) / 8;
    return row && rows > (SIZE_MAX - 1) / row ? SIZE_MAX - 1 : (size_t)(row * rows);
}

int main(int argc, char **argv) {
    struct fetched of;
    if (argc != 4 || !open_file(argv[1], &of))
        return fprintf(stderr, "usage: one_tile FILE ROW COLUMN\n"), 2;
    uint64_t row = strtoull(argv[2], NULL, 10), column = strtoull(argv[3], NULL, 10);

    /* A call that wants bytes is made again once they are there. */
    struct tiff_stretch wanted;
    struct tiff_page_plan plan;
    tiff_status status;
    do status = tiff_page_plan_in(&of.seen, 0, &plan, &wanted);
    while (status == TIFF_BYTES_WANTED && fetch(&of, &wanted));
    if (status) return refuse("tiles", status);
    if (row >= plan.height || column >= plan.width) return fprintf(stderr, "no such pixel\n"), 1;

    uint64_t across = (plan.width + (uint64_t)plan.chunk_width - 1) / plan.chunk_width;
    uint64_t line = row / plan.chunk_height, place = column / plan.chunk_width;
    uint64_t rows = least(plan.chunk_height, plan.height - line * plan.chunk_height);
    uint64_t columns = least(plan.chunk_width, plan.width - place * plan.chunk_width);
    uint32_t number = (uint32_t)(line * across + place);
    uint64_t most = plan.planar == TIFF_PLANAR ? 1 : plan.samples;
    uint8_t *tile = calloc(bytes_of(columns, most, plan.bits, rows) + 1, 1);
    if (!tile) return fprintf(stderr, "out of memory\n"), 1;

    /* Extra samples may be left out: the tile has as many samples as the shortest buffer that isn't
       refused. */
    size_t size;
    uint64_t samples = 0;
    do {
        size = bytes_of(columns, ++samples, plan.bits, rows);
        do status = tiff_read_planned_chunk_in(&of.seen, &plan, number, tile, size, &wanted);
        while (status == TIFF_BYTES_WANTED && fetch(&of, &wanted));
    } while (status == TIFF_INSUFFICIENT_OUTPUT_BUFFER_SIZE && samples < most);
    if (status) return refuse("tile", status);
    fwrite(tile, 1, size, stdout);
    fprintf(stderr, "%u x %u pixels, by %zu requests\n", (unsigned)columns, (unsigned)rows,
            of.requests);
    free(tile);
    close_file(&of);
    return close_output(0);
}
