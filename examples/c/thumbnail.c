/* Reads the first page of a TIFF file and writes it as PGM (gray) or PPM (RGB), of 8 bits a sample;
   one of 16 rows and columns or more, in a quarter of its width and height.
     cc thumbnail.c -o thumbnail $(pkg-config --cflags --libs mangohatch_tiff)
     ./thumbnail page.tif > page.pgm */
#include <stdio.h>
#include <stdlib.h>
#include "mangohatch_tiff.h"

static int refuse(const char *what, tiff_status status) {
    uint8_t text[80];
    size_t len = tiff_fault_text(status, text, sizeof text);
    fprintf(stderr, "%s: %.*s\n", what, (int)(len < sizeof text ? len : sizeof text), (char *)text);
    return 1;
}

static uint8_t *file_bytes(const char *name, size_t *len) {
    FILE *in = fopen(name, "rb");
    uint8_t *bytes = NULL;
    if (!in || fseek(in, 0, SEEK_END)) return NULL;
    *len = (size_t)ftell(in);
    rewind(in);
    bytes = malloc(*len + 1);
    if (bytes && fread(bytes, 1, *len, in) != *len) bytes = NULL;
    fclose(in);
    return bytes;
}

/* Returns the status of the program, 1 if the output couldn't be written, which it then prints. The
   last bytes may reach standard output only when it is closed. */
static int close_output(int status) {
    if (!ferror(stdout) && !fclose(stdout)) return status;
    fprintf(stderr, "cannot write standard output\n");
    return 1;
}

int main(int argc, char **argv) {
    struct tiff_sides sides;
    struct tiff_color color;
    struct tiff_layout layout;
    size_t len;
    tiff_status status;
    uint8_t *file = argc == 2 ? file_bytes(argv[1], &len) : NULL;
    if (!file) return fprintf(stderr, "usage: thumbnail FILE\n"), 2;

    if ((status = tiff_page_sides(file, len, 0, &sides))) return refuse("sides", status);
    if ((status = tiff_page_color(file, len, 0, &color))) return refuse("color", status);
    if ((status = tiff_page_layout(file, len, 0, &layout))) return refuse("layout", status);
    if (color.kind > TIFF_RGB || color.bits != 8 || layout.len != layout.complete_len)
        return fprintf(stderr, "not 8 bits of gray or RGB, pixel by pixel\n"), 1;

    uint8_t *pixels = malloc(layout.len + 1);
    if (!pixels) return fprintf(stderr, "out of memory\n"), 1;
    if ((status = tiff_read_image_bytes(file, len, 0, pixels, layout.len)))
        return refuse("image", status);

    uint32_t step = sides.width >= 16 && sides.height >= 16 ? 4 : 1;
    printf("P%d\n%u %u\n255\n", color.kind == TIFF_RGB ? 6 : 5, sides.width / step,
           sides.height / step);
    for (size_t y = 0; y < sides.height / step; y++)
        for (size_t x = 0; x < sides.width / step; x++)
            fwrite(pixels + (y * step * sides.width + x * step) * color.samples, 1, color.samples,
                   stdout);
    free(pixels);
    free(file);
    return close_output(0);
}
