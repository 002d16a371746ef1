/* Times tiff_c beside libtiff and memcpy. It takes three arguments for each file: a name, the
   file's path, and `both` where libtiff reads it too, else `alone`. The beginning of the name says
   what is timed: `open` the opening alone; `page`, as in `page_9_of_ten`, the opening and the sides
   of that page, or the error; `each` the reading of all chunks, one by one; `planned` the same by
   the plan of the page; `one` the reading of one chunk among many; else the reading of the image.
   Then it times writing, of images that it makes. */
#include <stdio.h>
#include <stdlib.h>
#include <string.h>
#include <time.h>
#include "by_libtiff.h"
#include "mangohatch_tiff.h"

enum { ROUNDS = 25, OPENINGS = 2000, SOME = 64 };

struct load {
    const char *name;
    size_t page;
    uint8_t *file, *ours, *theirs;
    size_t len, size;
    int both;
    /* the rows of chunks: how many bytes each has, how many chunks lie side by side, and how high
       they are */
    size_t row, across, height, chunks;
    struct tiff_page_plan plan;
    struct opened *theirs_open;
};

/* An image that is written: its samples, and its files. */
struct work {
    const char *name;
    struct tiff_image image;
    struct drawn drawn;
    int differs;
    uint8_t *samples, *ours, *theirs;
    size_t len, size, our_len, their_len;
};

static double now(void) {
    struct timespec t;
    clock_gettime(CLOCK_MONOTONIC, &t);
    return (double)t.tv_sec + 1e-9 * (double)t.tv_nsec;
}

static void stop(const char *what, const char *name) {
    fprintf(stderr, "bench: %s: %s\n", name, what);
    exit(1);
}

static void *allocated(size_t size) {
    void *bytes = malloc(size + 1);
    if (!bytes) stop("no memory", "bench");
    memset(bytes, 0, size + 1);
    return bytes;
}

static void read_file(struct load *l, const char *path) {
    FILE *in = fopen(path, "rb");
    if (!in) stop("cannot be read", path);
    fseek(in, 0, SEEK_END);
    l->len = (size_t)ftell(in);
    rewind(in);
    l->file = allocated(l->len);
    if (fread(l->file, 1, l->len, in) != l->len) stop("cannot be read", path);
    fclose(in);
}

static void read_ours(struct load *l) {
    if (tiff_read_image_bytes(l->file, l->len, 0, l->ours, l->size))
        stop("refused by tiff_c", l->name);
}

static void read_theirs(struct load *l) {
    if (!by_libtiff(l->file, l->len, l->theirs)) stop("refused by libtiff", l->name);
}

/* From the file, as the others do; if the file is shorter, from the bytes that were read. */
static void copy(struct load *l) {
    memcpy(l->theirs, l->len < l->size ? l->ours : l->file, l->size);
}

/* Copies as many bytes as the image has, in the rows of its chunks, each to its place in the image.
   */
static void copy_rows(struct load *l) {
    size_t stride = l->row * l->across, band = stride * l->height;
    const uint8_t *from = l->file;
    for (size_t top = 0; top + band <= l->size; top += band)
        for (size_t left = 0; left < l->across; left++)
            for (size_t y = 0; y < l->height; y++, from += l->row)
                memcpy(l->theirs + top + y * stride + left * l->row, from, l->row);
}

static void open_ours(struct load *l) {
    struct tiff_sides sides;
    for (int i = 0; i < OPENINGS; i++)
        if (tiff_page_sides(l->file, l->len, 0, &sides)) stop("refused by tiff_c", l->name);
}

static void open_theirs(struct load *l) {
    for (int i = 0; i < OPENINGS; i++)
        if (!width_by_libtiff(l->file, l->len)) stop("refused by libtiff", l->name);
}

static void sides_by_ours(struct load *l) {
    struct tiff_sides sides;
    (void)tiff_page_sides(l->file, l->len, l->page, &sides);
}

static void sides_by_theirs(struct load *l) {
    if (!page_width_by_libtiff(l->file, l->len, (uint32_t)l->page))
        stop("refused by libtiff", l->name);
}

/* Turns out of the caches what the work before left there, so that no work finds its bytes in them
   and another doesn't. */
static void sweep(void) {
    enum { SIZE = 96 << 20, LINE = 64 };
    static uint8_t *bytes;
    if (!bytes) bytes = allocated(SIZE);
    for (size_t i = 0; i < SIZE; i += LINE) bytes[i]++;
}

static void best(double *least, void (*work)(struct load *), struct load *l) {
    if (l->size) sweep();
    double begun = now();
    work(l);
    double took = now() - begun;
    if (*least == 0 || took < *least) *least = took;
}

static void print_opening(struct load *l) {
    double ours = 0, theirs = 0;
    for (int i = 0; i < ROUNDS; i++) {
        best(&ours, open_ours, l);
        best(&theirs, open_theirs, l);
    }
    printf("\n%s: %.2f microseconds; libtiff: %.2f\n", l->name, 1e6 * ours / OPENINGS,
           1e6 * theirs / OPENINGS);
}

static void print_page(struct load *l) {
    double ours = 0, theirs = 0;
    struct tiff_sides sides;
    l->page = strtoul(l->name + strlen("page_"), NULL, 10);
    tiff_status status = tiff_page_sides(l->file, l->len, l->page, &sides);
    for (int i = 0; i < ROUNDS; i++) {
        best(&ours, sides_by_ours, l);
        if (l->both) best(&theirs, sides_by_theirs, l);
    }
    printf("\n%s: %.2f milliseconds, status %d", l->name, 1e3 * ours, (int)status);
    if (l->both) printf("; libtiff: %.2f", 1e3 * theirs);
    printf("\n");
}

static void chunks_by_ours(struct load *l) {
    struct tiff_chunks chunks;
    if (tiff_page_chunks(l->file, l->len, 0, &chunks)) stop("refused by tiff_c", l->name);
    for (uint32_t i = 0; i < chunks.count; i++)
        if (tiff_read_chunk_bytes(l->file, l->len, 0, i, l->ours, l->size))
            stop("refused by tiff_c", l->name);
}

static void planned_by_ours(struct load *l) {
    struct tiff_page_plan plan;
    struct tiff_chunks chunks;
    if (tiff_page_chunks(l->file, l->len, 0, &chunks) || tiff_page_plan(l->file, l->len, 0, &plan))
        stop("refused by tiff_c", l->name);
    for (uint32_t i = 0; i < chunks.count; i++)
        if (tiff_read_planned_chunk(l->file, l->len, &plan, i, l->ours, l->size))
            stop("refused by tiff_c", l->name);
}

static void range_by_plan(struct load *l) {
    struct tiff_page_plan plan;
    if (tiff_page_plan(l->file, l->len, 0, &plan) ||
        tiff_read_planned_chunks(l->file, l->len, &plan, 0, (uint32_t)l->chunks, l->ours, l->size))
        stop("refused by tiff_c", l->name);
}

/* Chunks far from each other, as a viewer reads them: any number, and the number of a chunk for it.
   */
static uint32_t some_chunk(const struct load *l, uint32_t at) {
    return at * 40503u % (uint32_t)l->chunks;
}

static void one_by_ours(struct load *l) {
    for (uint32_t i = 0; i < SOME; i++)
        if (tiff_read_chunk_bytes(l->file, l->len, 0, some_chunk(l, i), l->ours, l->size))
            stop("refused by tiff_c", l->name);
}

/* The plan is of an earlier call, as libtiff's file below is open. */
static void one_by_plan(struct load *l) {
    for (uint32_t i = 0; i < SOME; i++)
        if (tiff_read_planned_chunk(l->file, l->len, &l->plan, some_chunk(l, i), l->ours, l->size))
            stop("refused by tiff_c", l->name);
}

static void one_by_theirs(struct load *l) {
    for (uint32_t i = 0; i < SOME; i++)
        if (!chunk_by_libtiff(l->theirs_open, some_chunk(l, i), l->theirs))
            stop("refused by libtiff", l->name);
}

static void one_opened_by_theirs(struct load *l) {
    for (uint32_t i = 0; i < SOME; i++) {
        struct opened *opened = open_by_libtiff(l->file, l->len);
        if (!opened || !chunk_by_libtiff(opened, some_chunk(l, i), l->theirs))
            stop("refused by libtiff", l->name);
        close_by_libtiff(opened);
    }
}

static void chunks_by_theirs(struct load *l) {
    if (!chunks_by_libtiff(l->file, l->len, l->theirs)) stop("refused by libtiff", l->name);
}

static void measure(struct load *l) {
    struct tiff_layout layout;
    struct tiff_sides sides;
    struct tiff_chunks chunks;
    if (tiff_page_layout(l->file, l->len, 0, &layout) ||
        tiff_page_sides(l->file, l->len, 0, &sides) ||
        tiff_page_chunks(l->file, l->len, 0, &chunks))
        stop("refused by tiff_c", l->name);
    l->size = layout.complete_len;
    l->chunks = chunks.count;
    l->across = sides.width / chunks.width;
    l->height = chunks.height;
    l->row = layout.len / sides.height / l->across;
}

static void print_chunks(struct load *l) {
    measure(l);
    l->ours = allocated(l->size);
    l->theirs = allocated(l->size);
    double ours = 0, theirs = 0, whole = 0;
    for (int i = 0; i < ROUNDS; i++) {
        best(&ours, chunks_by_ours, l);
        best(&theirs, chunks_by_theirs, l);
        best(&whole, read_ours, l);
    }
    printf("\n%s: %.2f milliseconds, by one call each; libtiff: %.2f; the whole image by one call: "
           "%.2f\n",
           l->name, 1e3 * ours, 1e3 * theirs, 1e3 * whole);
}

static void print_planned(struct load *l) {
    measure(l);
    l->ours = allocated(l->size);
    l->theirs = allocated(l->size);
    double ours = 0, theirs = 0, range = 0, whole = 0;
    for (int i = 0; i < ROUNDS; i++) {
        best(&ours, planned_by_ours, l);
        best(&theirs, chunks_by_theirs, l);
        best(&range, range_by_plan, l);
        best(&whole, read_ours, l);
    }
    printf("\n%s: %.2f milliseconds, by one call each and the plan of the page; libtiff: %.2f; all "
           "by one call and the plan: %.2f; the whole image: %.2f\n",
           l->name, 1e3 * ours, 1e3 * theirs, 1e3 * range, 1e3 * whole);
}

static void print_one(struct load *l) {
    measure(l);
    l->ours = allocated(l->size);
    l->theirs = allocated(l->size);
    if (tiff_page_plan(l->file, l->len, 0, &l->plan)) stop("refused by tiff_c", l->name);
    l->theirs_open = open_by_libtiff(l->file, l->len);
    if (!l->theirs_open) stop("refused by libtiff", l->name);
    one_by_plan(l);
    one_by_theirs(l);
    if (memcmp(l->ours, l->theirs, l->size / l->chunks))
        stop("other bytes than libtiff's", l->name);
    double alone = 0, ours = 0, theirs = 0, opened = 0;
    for (int i = 0; i < ROUNDS; i++) {
        best(&alone, one_by_ours, l);
        best(&ours, one_by_plan, l);
        best(&theirs, one_by_theirs, l);
        best(&opened, one_opened_by_theirs, l);
    }
    printf("\n%s: %.2f microseconds by the plan, %.2f without it; libtiff: %.2f in an open file, "
           "%.2f with its opening\n",
           l->name, 1e6 * ours / SOME, 1e6 * alone / SOME, 1e6 * theirs / SOME,
           1e6 * opened / SOME);
    close_by_libtiff(l->theirs_open);
}

static void print_reading(struct load *l) {
    measure(l);
    l->ours = allocated(l->size);
    l->theirs = allocated(l->size);
    double ours = 0, theirs = 0, copied = 0, by_rows = 0, mega = (double)l->size / 1e6;
    for (int i = 0; i < ROUNDS; i++) {
        best(&ours, read_ours, l);
        if (l->both) best(&theirs, read_theirs, l);
        if (i == 0 && l->both && memcmp(l->ours, l->theirs, l->size))
            stop("other bytes than libtiff's", l->name);
        best(&copied, copy, l);
        if (l->len >= l->size) best(&by_rows, copy_rows, l);
    }
    printf("| %s | %.0f | ", l->name, mega / ours);
    if (l->both) printf("%.0f | ", mega / theirs);
    else printf("- | ");
    printf("%.0f | ", mega / copied);
    if (by_rows > 0) printf("%.0f | ", mega / by_rows);
    else printf("- | ");
    if (l->both) printf("%.2f | ", theirs / ours);
    else printf("- | ");
    printf("%.2f | ", copied / ours);
    if (by_rows > 0) printf("%.2f | ", by_rows / ours);
    else printf("- | ");
    printf("%s |\n", l->both ? "yes" : "-");
}

/* ---- writing */

static void write_ours(struct work *w) {
    if (tiff_write_image(&w->image, w->samples, w->len, w->ours, w->size, &w->our_len))
        stop("refused by tiff_c", w->name);
}

static void write_theirs(struct work *w) {
    w->their_len = write_by_libtiff(&w->drawn, w->samples, w->theirs, w->size);
    if (!w->their_len) stop("refused by libtiff", w->name);
}

static void copy_samples(struct work *w) { memcpy(w->theirs, w->samples, w->len); }

static void best_work(double *least, void (*work)(struct work *), struct work *w) {
    sweep();
    double begun = now();
    work(w);
    double took = now() - begun;
    if (*least == 0 || took < *least) *least = took;
}

/* Pieces of 16 bytes as they are and a run of 48, again and again, or bytes without runs. */
static void draw(struct work *w) {
    uint32_t n = 7;
    for (size_t i = 0; i < w->len; i++) {
        if (!w->drawn.packed || i % 64 < 17) n = n * 1664525u + 1013904223u;
        w->samples[i] = (uint8_t)(n >> 24);
    }
}

/* Has libtiff write strips of as many rows as tiff_c does, and each read what the other wrote. What
   libtiff writes without differences is read as the same samples; it reads no differences where
   samples aren't compressed. */
static void match(struct work *w) {
    struct tiff_chunks chunks;
    uint8_t *back = allocated(w->len);
    write_ours(w);
    if (tiff_page_chunks(w->ours, w->our_len, 0, &chunks)) stop("refused by tiff_c", w->name);
    w->drawn.rows = chunks.height;
    write_theirs(w);
    if (tiff_read_image_bytes(w->theirs, w->their_len, 0, back, w->len) ||
        memcmp(back, w->samples, w->len))
        stop("other samples in libtiff's file", w->name);
    memset(back, 0, w->len);
    int read_so = w->differs ? !tiff_read_image_bytes(w->ours, w->our_len, 0, back, w->len)
                             : by_libtiff(w->ours, w->our_len, back);
    if (!read_so || memcmp(back, w->samples, w->len))
        stop("other samples in tiff_c's file", w->name);
    free(back);
}

static void print_writing(const char *name, uint32_t color, struct drawn drawn, int differs) {
    struct work w = {.name = name, .drawn = drawn, .differs = differs};
    w.image = (struct tiff_image){color,
                                  drawn.width,
                                  drawn.height,
                                  TIFF_CLASSIC,
                                  drawn.packed ? TIFF_PACKBITS : TIFF_UNCOMPRESSED,
                                  differs ? TIFF_HORIZONTAL : TIFF_NO_PREDICTOR};
    w.len = (size_t)drawn.width * drawn.height * drawn.samples * drawn.bits / 8;
    w.size = w.len + w.len / 64 + (1 << 20);
    w.samples = allocated(w.len);
    w.ours = allocated(w.size);
    w.theirs = allocated(w.size);
    draw(&w);
    match(&w);
    double ours = 0, theirs = 0, copied = 0, mega = (double)w.len / 1e6;
    for (int i = 0; i < ROUNDS; i++) {
        best_work(&ours, write_ours, &w);
        best_work(&theirs, write_theirs, &w);
        best_work(&copied, copy_samples, &w);
    }
    printf("| %s%s%s | %.0f | ", name, drawn.packed ? ", PackBits" : "",
           differs ? ", differences" : "", mega / ours);
    if (differs) printf("- | %.0f | - | ", mega / copied);
    else printf("%.0f | %.0f | %.2f | ", mega / theirs, mega / copied, theirs / ours);
    printf("%.2f | %zu | ", copied / ours, w.our_len);
    if (differs) printf("- |\n");
    else printf("%zu |\n", w.their_len);
    free(w.samples);
    free(w.ours);
    free(w.theirs);
}

static void print_writings(void) {
    printf("\n| Written | tiff_c, MB/s | libtiff, MB/s | memcpy, MB/s | to libtiff | to memcpy | "
           "bytes of tiff_c's file | of libtiff's |\n"
           "|---|---|---|---|---|---|---|---|\n");
    for (uint32_t packed = 0; packed < 2; packed++)
        for (int differs = 0; differs < 2; differs++) {
            print_writing("gray8", TIFF_GRAY8, (struct drawn){4096, 4096, 1, 8, packed, 0},
                          differs);
            print_writing("rgb8", TIFF_RGB8, (struct drawn){2048, 2048, 3, 8, packed, 0}, differs);
            print_writing("rgb16", TIFF_RGB16, (struct drawn){2048, 1024, 3, 16, packed, 0},
                          differs);
            if (!differs)
                print_writing("float32", TIFF_GRAY32_FLOAT,
                              (struct drawn){2048, 2048, 1, 32, packed, 0}, differs);
        }
}

int main(int argc, char **argv) {
    printf("| Load | tiff_c, MB/s | libtiff, MB/s | memcpy, MB/s | memcpy by rows, MB/s | to "
           "libtiff | to memcpy | to rows | Same bytes |\n"
           "|---|---|---|---|---|---|---|---|---|\n");
    for (int i = 1; i + 2 < argc; i += 3) {
        struct load l = {.name = argv[i], .both = strcmp(argv[i + 2], "both") == 0};
        read_file(&l, argv[i + 1]);
        if (strncmp(l.name, "open", 4) == 0) print_opening(&l);
        else if (strncmp(l.name, "page", 4) == 0) print_page(&l);
        else if (strncmp(l.name, "each", 4) == 0) print_chunks(&l);
        else if (strncmp(l.name, "planned", 7) == 0) print_planned(&l);
        else if (strncmp(l.name, "one", 3) == 0) print_one(&l);
        else print_reading(&l);
        free(l.file);
        free(l.ours);
        free(l.theirs);
    }
    print_writings();
    return 0;
}
