/* Writes a page of 16 by 16 gray pixels with two tags of one's own: a description, and the size of
   a pixel in a map's units (ModelPixelScale).
     cc tagged.c -o tagged $(pkg-config --cflags --libs mangohatch_tiff)
     ./tagged > page.tif */
#include <stdio.h>
#include <stdlib.h>
#include <string.h>
#include "mangohatch_tiff.h"

/* A line for each step; 0..255 are the samples from 0 to 255. */
static const char jobs[] = "image Gray8 16 16\n"
                           "write_tag 270 text a ramp\n"
                           "write_tag 33550 f64 0.5*2 0\n"
                           "write_data 0..255\n";

static int refuse(tiff_status status, struct tiff_jobs_end end) {
    uint8_t text[80];
    size_t len = tiff_fault_text(status, text, sizeof text);
    fprintf(stderr, "line %zu, job %zu: %.*s\n", end.line, end.job,
            (int)(len < sizeof text ? len : sizeof text), (char *)text);
    return 1;
}

/* Returns the status of the program, 1 if the output couldn't be written, which it then prints. The
   last bytes may reach standard output only when it is closed. */
static int close_output(int status) {
    if (!ferror(stdout) && !fclose(stdout)) return status;
    fprintf(stderr, "cannot write standard output\n");
    return 1;
}

int main(void) {
    struct tiff_jobs_end end;
    size_t len, size = 4096;
    uint8_t *file = malloc(size);
    if (!file) return fprintf(stderr, "out of memory\n"), 1;
    tiff_status status =
        tiff_write_jobs(TIFF_CLASSIC, (const uint8_t *)jobs, strlen(jobs), file, size, &len, &end);
    if (status) return refuse(status, end);
    fwrite(file, 1, len, stdout);
    free(file);
    return close_output(0);
}
