/* Shows pages of a file of many, as scans: reads their numbers, from 0, from standard input, and
   writes a thumbnail of each as PGM or PPM, of every kth row and column. The first page is there
   before the list of pages is; then each page is read by its offset, and not by a walk along the
   pages before it.
     cc viewer.c -o viewer $(pkg-config --cflags --libs mangohatch_tiff)
     printf '%s\n' 9999 17 | ./viewer scans.tif > pages.ppm
   The first page comes first. The number of pages and the time that pages took are printed on
   standard error. */
#define _POSIX_C_SOURCE 200809L
#include <fcntl.h>
#include <inttypes.h>
#include <stdio.h>
#include <stdlib.h>
#include <sys/mman.h>
#include <sys/stat.h>
#include <time.h>
#include <unistd.h>
#include "mangohatch_tiff.h"

enum { SIDE = 128 }; /* the longer side of a thumbnail, at most */

/* Maps a file into memory. It stays mapped until the program ends. */
static const uint8_t *map_file(const char *name, size_t *len) {
    struct stat found;
    int file = open(name, O_RDONLY);
    if (file < 0 || fstat(file, &found) || found.st_size == 0) return NULL;
    *len = (size_t)found.st_size;
    void *bytes = mmap(NULL, *len, PROT_READ, MAP_PRIVATE, file, 0);
    close(file);
    return bytes == MAP_FAILED ? NULL : bytes;
}

static int refuse(const char *what, tiff_status status) {
    uint8_t text[80];
    size_t len = tiff_fault_text(status, text, sizeof text);
    fprintf(stderr, "%s: %.*s\n", what, (int)(len < sizeof text ? len : sizeof text), (char *)text);
    return 1;
}

/* Returns the status of the program, 1 if the output couldn't be written, which it then prints. The
   last bytes may reach standard output only when it is closed. */
static int close_output(int status) {
    if (!ferror(stdout) && !fclose(stdout)) return status;
    fprintf(stderr, "cannot write standard output\n");
    return 1;
}

static double milliseconds(void) {
    struct timespec now;
    clock_gettime(CLOCK_MONOTONIC, &now);
    return 1e3 * (double)now.tv_sec + (double)now.tv_nsec / 1e6;
}

/* A sample of a row, as a number of 8 bits. Samples of fewer bits begin at the highest bit; those
   of 16 have their highest byte last. */
static int sample_at(const uint8_t *row, size_t at, uint32_t bits) {
    if (bits == 16) return row[2 * at + 1];
    uint32_t most = (1u << bits) - 1;
    return (int)((row[at * bits / 8] >> (8 - bits - at * bits % 8) & most) * 255 / most);
}

static void write_thumbnail(const uint8_t *image, size_t row, struct tiff_sides sides,
                            const struct tiff_samples *of) {
    uint32_t longer = sides.width > sides.height ? sides.width : sides.height,
             step = (longer - 1) / SIDE + 1;
    uint32_t width = (sides.width - 1) / step + 1, height = (sides.height - 1) / step + 1;
    printf("P%d\n%" PRIu32 " %" PRIu32 "\n255\n", of->samples == 3 ? 6 : 5, width, height);
    for (size_t y = 0; y < height; y++)
        for (size_t x = 0; x < width; x++)
            for (size_t k = 0; k < of->samples; k++)
                putchar(sample_at(image + y * step * row, x * step * of->samples + k, of->bits));
}

/* Shows a page, given by its number or as TIFF_AT of its offset. */
static tiff_status show(const uint8_t *file, size_t len, size_t page) {
    struct tiff_sides sides;
    struct tiff_samples samples;
    struct tiff_layout layout;
    tiff_status status = tiff_page_sides(file, len, page, &sides);
    if (status == TIFF_DONE) status = tiff_page_samples(file, len, page, &samples);
    if (status == TIFF_DONE) status = tiff_page_layout(file, len, page, &layout);
    if (status != TIFF_DONE) return status;
    int fits = samples.kind == TIFF_UNSIGNED_NUMBERS &&
               (samples.bits == 16 || (samples.bits <= 8 && 8 % samples.bits == 0));
    if (!fits || samples.planes > 1 || (samples.samples != 1 && samples.samples != 3))
        return TIFF_UNSUPPORTED_COLOR_TYPE;
    uint8_t *image = malloc(layout.len + 1);
    if (!image) return TIFF_OUT_OF_MEMORY;
    status = tiff_read_image_bytes(file, len, page, image, layout.len);
    if (status == TIFF_DONE) write_thumbnail(image, layout.len / sides.height, sides, &samples);
    free(image);
    return status;
}

int main(int argc, char **argv) {
    double begin = milliseconds();
    size_t len, count = 0, shown = 0, number;
    const uint8_t *file = argc == 2 ? map_file(argv[1], &len) : NULL;
    if (!file) return fprintf(stderr, "usage: viewer FILE < NUMBERS > THUMBNAILS\n"), 2;
    tiff_status status = show(file, len, 0);
    if (status) refuse("page 0", status);
    double first = milliseconds() - begin, slowest = 0;

    struct tiff_listed_page none;
    tiff_status end = tiff_list_pages(file, len, &none, 0, &count);
    struct tiff_listed_page *pages = malloc((count + 1) * sizeof *pages);
    if (!pages) return fprintf(stderr, "out of memory\n"), 1;
    if (count) end = tiff_list_pages(file, len, pages, count, &count);
    if (end) refuse("the pages end by an error", end);
    fprintf(stderr, "the first page took %.1f milliseconds, and the list of %zu pages %.1f\n",
            first, count, milliseconds() - begin - first);

    for (; scanf("%zu", &number) == 1; shown++) {
        begin = milliseconds();
        status = number < count ? show(file, len, TIFF_AT(pages[number].offset))
                                : TIFF_IMAGE_FILE_DIRECTORY_NOT_FOUND;
        if (status) refuse("page", status);
        if (milliseconds() - begin > slowest) slowest = milliseconds() - begin;
    }
    fprintf(stderr, "each of %zu pages took at most %.1f milliseconds\n", shown, slowest);
    free(pages);
    return close_output(0);
}
