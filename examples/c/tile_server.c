/* Serves tiles of the first page of a file: reads their numbers from standard input, and writes
   each as PGM or PPM, if it is gray or RGB of 8 bits, or else as its bytes. The file is mapped, and
   the plan of the page is taken once: a tile takes the same time however many there are.
     cc tile_server.c -o tile_server $(pkg-config --cflags --libs mangohatch_tiff)
     printf '%s\n' 17 4 9999 | ./tile_server map.tif > tiles.ppm
   Tiles are counted from 0, row by row, in a page of planes those of the first plane first; at the
   edges of the image they are cut. The time that they took is printed on standard error. */
#define _POSIX_C_SOURCE 200809L
#include <fcntl.h>
#include <inttypes.h>
#include <stdio.h>
#include <stdlib.h>
#include <sys/mman.h>
#include <sys/stat.h>
#include <time.h>
#include <unistd.h>
#include "mangohatch_tiff.h"

/* Maps a file into memory. It stays mapped until the program ends. */
static const uint8_t *map_file(const char *name, size_t *len) {
    struct stat found;
    int file = open(name, O_RDONLY);
    if (file < 0 || fstat(file, &found) || found.st_size == 0) return NULL;
    *len = (size_t)found.st_size;
    void *bytes = mmap(NULL, *len, PROT_READ, MAP_PRIVATE, file, 0);
    close(file);
    return bytes == MAP_FAILED ? NULL : bytes;
}

static int refuse(const char *what, tiff_status status) {
    uint8_t text[80];
    size_t len = tiff_fault_text(status, text, sizeof text);
    fprintf(stderr, "%s: %.*s\n", what, (int)(len < sizeof text ? len : sizeof text), (char *)text);
    return 1;
}

/* Returns the status of the program, 1 if the output couldn't be written, which it then prints. The
   last bytes may reach standard output only when it is closed. */
static int close_output(int status) {
    if (!ferror(stdout) && !fclose(stdout)) return status;
    fprintf(stderr, "cannot write standard output\n");
    return 1;
}

static double microseconds(void) {
    struct timespec now;
    clock_gettime(CLOCK_MONOTONIC, &now);
    return 1e6 * (double)now.tv_sec + (double)now.tv_nsec / 1e3;
}

/* What a server keeps: the mapped file, the plan of its page, and how many samples a pixel has in a
   tile. */
struct server {
    const uint8_t *file;
    size_t len;
    struct tiff_page_plan plan;
    uint32_t samples;
};

static uint32_t parts(uint32_t whole, uint32_t part) { return whole / part + (whole % part != 0); }

/* The sides of a tile, cut at the edges of the image. A number behind the last tile of a plane is
   that of the next plane. */
static struct tiff_sides sides_of(const struct tiff_page_plan *plan, uint32_t tile) {
    uint32_t across = parts(plan->width, plan->chunk_width),
             in_plane = tile % (across * parts(plan->height, plan->chunk_height));
    uint32_t left = in_plane % across * plan->chunk_width,
             top = in_plane / across * plan->chunk_height;
    uint32_t width = plan->width - left, height = plan->height - top;
    return (struct tiff_sides){width < plan->chunk_width ? width : plan->chunk_width,
                               height < plan->chunk_height ? height : plan->chunk_height};
}

static size_t bytes_of(const struct server *of, struct tiff_sides sides) {
    return ((size_t)sides.width * of->samples * of->plan.bits + 7) / 8 * sides.height;
}

static void write_tile(const struct server *of, struct tiff_sides sides, const uint8_t *tile) {
    int is_picture = of->plan.bits == 8 && (of->samples == 1 || of->samples == 3);
    if (is_picture)
        printf("P%d\n%" PRIu32 " %" PRIu32 "\n255\n", of->samples == 3 ? 6 : 5, sides.width,
               sides.height);
    fwrite(tile, 1, bytes_of(of, sides), stdout);
}

int main(int argc, char **argv) {
    struct server of;
    struct tiff_samples samples;
    tiff_status status;
    if (argc != 2 || !(of.file = map_file(argv[1], &of.len)))
        return fprintf(stderr, "usage: tile_server FILE < NUMBERS > TILES\n"), 2;
    double begin = microseconds();
    if ((status = tiff_page_plan(of.file, of.len, 0, &of.plan))) return refuse("plan", status);
    if ((status = tiff_page_samples(of.file, of.len, 0, &samples)))
        return refuse("samples", status);
    of.samples = samples.planes > 1 ? 1 : samples.samples;
    double planned = microseconds() - begin, taken = 0;

    size_t size = bytes_of(&of, sides_of(&of.plan, 0)),
           served = 0; /* no tile is larger than the first one */
    uint8_t *tile = malloc(size + 1);
    if (!tile) return fprintf(stderr, "out of memory\n"), 1;
    for (uint32_t number; scanf("%" SCNu32, &number) == 1;) {
        begin = microseconds();
        status = tiff_read_planned_chunk(of.file, of.len, &of.plan, number, tile, size);
        taken += microseconds() - begin;
        if (status) return refuse("tile", status);
        write_tile(&of, sides_of(&of.plan, number), tile);
        served++;
    }
    fprintf(stderr, "the plan took %.1f microseconds, and each of %zu tiles %.1f\n", planned,
            served, served ? taken / (double)served : 0);
    free(tile);
    return close_output(0);
}
