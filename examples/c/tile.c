/* Writes one tile of the first page as its bytes: that of the first plane in which a pixel lies.
   The others aren't read.
     cc tile.c -o tile $(pkg-config --cflags --libs mangohatch_tiff)
     ./tile map.tif 12000 34000 > tile.bytes
   The numbers are the pixel's row and column. */
#include <stdio.h>
#include <stdlib.h>
#include "mangohatch_tiff.h"

static uint8_t *read_file(const char *name, size_t *len) {
    FILE *in = fopen(name, "rb");
    if (!in || fseek(in, 0, SEEK_END)) return NULL;
    *len = (size_t)ftell(in);
    rewind(in);
    uint8_t *file = malloc(*len + 1);
    if (file && fread(file, 1, *len, in) != *len) return NULL;
    fclose(in);
    return file;
}

static int refuse(const char *what, tiff_status status) {
    uint8_t text[80];
    size_t len = tiff_fault_text(status, text, sizeof text);
    fprintf(stderr, "%s: %.*s\n", what, (int)(len < sizeof text ? len : sizeof text), (char *)text);
    return 1;
}

/* Returns the status of the program, 1 if the output couldn't be written, which it then prints. The
   last bytes may reach standard output only when it is closed. */
static int close_output(int status) {
    if (!ferror(stdout) && !fclose(stdout)) return status;
    fprintf(stderr, "cannot write standard output\n");
    return 1;
}

int main(int argc, char **argv) {
    size_t len;
    uint8_t *file = argc == 4 ? read_file(argv[1], &len) : NULL;
    if (!file) return fprintf(stderr, "usage: tile FILE ROW COLUMN\n"), 2;
    uint64_t row = strtoull(argv[2], NULL, 10), column = strtoull(argv[3], NULL, 10);

    struct tiff_sides sides;
    struct tiff_chunks chunks;
    struct tiff_samples samples;
    tiff_status status;
    if ((status = tiff_page_sides(file, len, 0, &sides))) return refuse("sides", status);
    if ((status = tiff_page_chunks(file, len, 0, &chunks))) return refuse("tiles", status);
    if ((status = tiff_page_samples(file, len, 0, &samples))) return refuse("samples", status);
    if (row >= sides.height || column >= sides.width) return fprintf(stderr, "no such pixel\n"), 1;

    /* No tile has more bytes than one in the middle; those at the edges are cut. */
    uint64_t across = (sides.width + (uint64_t)chunks.width - 1) / chunks.width;
    uint32_t number = (uint32_t)(row / chunks.height * across + column / chunks.width);
    uint64_t shown = samples.planes > 1 ? 1 : samples.samples;
    size_t size = (size_t)((chunks.width * shown * samples.bits + 7) / 8 * chunks.height);
    uint8_t *tile = calloc(size + 1, 1);
    if (!tile) return fprintf(stderr, "out of memory\n"), 1;
    if ((status = tiff_read_chunk_bytes(file, len, 0, number, tile, size)))
        return refuse("tile", status);
    fwrite(tile, 1, size, stdout);
    free(tile);
    free(file);
    return close_output(0);
}
