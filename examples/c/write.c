/* Reads a PGM (gray) or a PPM (RGB) of 8 or 16 bits a sample, and writes it as a TIFF file, packed
   by PackBits.
     cc write.c -o write $(pkg-config --cflags --libs mangohatch_tiff)
     ./write < page.pgm > page.tif */
#include <stdio.h>
#include <stdlib.h>
#include "mangohatch_tiff.h"

static int refuse(const char *what, tiff_status status) {
    uint8_t text[80];
    size_t len = tiff_fault_text(status, text, sizeof text);
    fprintf(stderr, "%s: %.*s\n", what, (int)(len < sizeof text ? len : sizeof text), (char *)text);
    return 1;
}

/* The samples of 16 bits of a PGM have their highest byte first; tiff_write_image wants the lowest.
   */
static void swap_bytes(uint8_t *samples, size_t len) {
    for (size_t i = 0; i + 1 < len; i += 2) {
        uint8_t high = samples[i];
        samples[i] = samples[i + 1];
        samples[i + 1] = high;
    }
}

/* Returns the status of the program, 1 if the output couldn't be written, which it then prints. The
   last bytes may reach standard output only when it is closed. */
static int close_output(int status) {
    if (!ferror(stdout) && !fclose(stdout)) return status;
    fprintf(stderr, "cannot write standard output\n");
    return 1;
}

int main(void) {
    char kind;
    unsigned width, height, most;
    if (scanf("P%c %u %u %u", &kind, &width, &height, &most) != 4 || (kind != '5' && kind != '6') ||
        getchar() == EOF)
        return fprintf(stderr, "usage: write < PGM or PPM > FILE\n"), 2;

    int wide = most > 255, rgb = kind == '6';
    struct tiff_image image = {
        .color = rgb ? (wide ? TIFF_RGB16 : TIFF_RGB8) : (wide ? TIFF_GRAY16 : TIFF_GRAY8),
        .width = width,
        .height = height,
        .version = TIFF_CLASSIC,
        .method = TIFF_PACKBITS,
        .predictor = TIFF_NO_PREDICTOR,
    };
    size_t len = (size_t)width * height * (rgb ? 3 : 1) * (wide ? 2 : 1), file_len;
    uint8_t *samples = malloc(len + 1);
    if (!samples || fread(samples, 1, len, stdin) != len)
        return fprintf(stderr, "too few samples\n"), 1;
    if (wide) swap_bytes(samples, len);

    /* How long is the file? */
    uint8_t none;
    tiff_status status = tiff_write_image(&image, samples, len, &none, 0, &file_len);
    if (status != TIFF_INSUFFICIENT_OUTPUT_BUFFER_SIZE) return refuse("length", status);
    uint8_t *file = malloc(file_len);
    if (!file) return fprintf(stderr, "out of memory\n"), 1;
    if ((status = tiff_write_image(&image, samples, len, file, file_len, &file_len)))
        return refuse("image", status);
    fwrite(file, 1, file_len, stdout);
    free(file);
    free(samples);
    return close_output(0);
}
