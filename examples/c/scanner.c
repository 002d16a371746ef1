/* Puts scanned pages, gray PGM images of 8 bits, into one TIFF file, packed by PackBits, with their
   resolution and a text each. A strip has one row, as it has where no rows_per_strip is set:
   libtiff reads no packed strips of several rows by TIFFReadScanline.
     cc scanner.c -o scanner $(pkg-config --cflags --libs mangohatch_tiff)
     ./scanner 300 page1.pgm page2.pgm > pages.tif */
#include <stdio.h>
#include <stdlib.h>
#include <string.h>
#include "mangohatch_tiff.h"

enum { IMAGE_DESCRIPTION = 270, ASCII = 2 };

static int refuse(const char *what, tiff_status status) {
    uint8_t text[80];
    size_t len = tiff_fault_text(status, text, sizeof text);
    fprintf(stderr, "%s: %.*s\n", what, (int)(len < sizeof text ? len : sizeof text), (char *)text);
    return 1;
}

/* Reads a PGM into a page, which keeps its samples and its name as a tag; returns 0 if it can't. */
static int read_page(const char *name, unsigned dpi, struct tiff_new_page *page,
                     struct tiff_new_tag *tag) {
    static const uint16_t no_samples[1];
    unsigned width, height, most;
    FILE *scan = fopen(name, "rb");
    if (!scan) return 0;
    int is_gray = fscanf(scan, "P5 %u %u %u", &width, &height, &most) == 3 && most == 255 &&
                  getc(scan) != EOF;
    size_t len = is_gray ? (size_t)width * height : 0;
    uint8_t *samples = malloc(len + 1);
    int is_read = is_gray && samples && fread(samples, 1, len, scan) == len;
    fclose(scan);
    *tag = (struct tiff_new_tag){IMAGE_DESCRIPTION, ASCII, strlen(name) + 1, (const uint8_t *)name,
                                 strlen(name) + 1};
    *page = (struct tiff_new_page){
        .color = TIFF_GRAY8,
        .width = width,
        .height = height,
        .method = TIFF_PACKBITS,
        .predictor = TIFF_NO_PREDICTOR,
        .planar = TIFF_CHUNKY,
        .resolution_unit = TIFF_INCH,
        .x_resolution = {dpi, 1},
        .y_resolution = {dpi, 1},
        .extra_samples = no_samples,
        .tags = tag,
        .tags_len = 1,
        .samples = samples,
        .samples_len = len,
    };
    return is_read;
}

/* Writes the pages to standard output; a first call returns how long the file is. */
static int write_pages(const struct tiff_new_page *pages, size_t count) {
    uint8_t none;
    size_t len = 0;
    struct tiff_pages_end end;
    tiff_status status = tiff_write_pages(TIFF_CLASSIC, pages, count, &none, 0, &len, &end);
    if (status == TIFF_INSUFFICIENT_OUTPUT_BUFFER_SIZE) {
        uint8_t *file = malloc(len);
        if (!file) return refuse("pages", TIFF_OUT_OF_MEMORY);
        status = tiff_write_pages(TIFF_CLASSIC, pages, count, file, len, &len, &end);
        if (status == TIFF_DONE) fwrite(file, 1, len, stdout);
        free(file);
    }
    if (status != TIFF_DONE) {
        fprintf(stderr, "page %zu, field %u, ", end.page, (unsigned)end.field);
        return refuse("refused", status);
    }
    if (!ferror(stdout) && !fclose(stdout)) return 0;
    fprintf(stderr, "cannot write standard output\n");
    return 1;
}

int main(int argc, char **argv) {
    unsigned dpi = argc > 2 ? (unsigned)atoi(argv[1]) : 0;
    if (!dpi) return fprintf(stderr, "usage: scanner DPI PGM .. > FILE\n"), 2;
    size_t count = (size_t)argc - 2;
    struct tiff_new_page *pages = calloc(count, sizeof *pages);
    struct tiff_new_tag *tags = calloc(count, sizeof *tags);
    if (!pages || !tags) return refuse("pages", TIFF_OUT_OF_MEMORY);
    for (size_t n = 0; n < count; n++)
        if (!read_page(argv[n + 2], dpi, &pages[n], &tags[n]))
            return fprintf(stderr, "cannot read %s as a PGM of 8 bits\n", argv[n + 2]), 1;
    return write_pages(pages, count);
}
