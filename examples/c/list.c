/* Lists the pages of a TIFF file: number, offset, sides, color, method, chunks; or why a page is
   refused. If the chain of pages ends by an error, that is printed on standard error.
     cc list.c -o list $(pkg-config --cflags --libs mangohatch_tiff)
     ./list page.tif */
#include <inttypes.h>
#include <stdio.h>
#include <stdlib.h>
#include "mangohatch_tiff.h"

static uint8_t *read_file(const char *name, size_t *len) {
    FILE *in = fopen(name, "rb");
    if (!in || fseek(in, 0, SEEK_END)) return NULL;
    long end = ftell(in);
    uint8_t *bytes = end < 0 ? NULL : malloc((size_t)end + 1);
    rewind(in);
    *len = bytes ? fread(bytes, 1, (size_t)end, in) : 0;
    fclose(in);
    return bytes;
}

static void print_fault(FILE *out, tiff_status status) {
    uint8_t text[160];
    size_t len = tiff_fault_text(status, text, sizeof text);
    fprintf(out, "error: %.*s\n", (int)(len < sizeof text ? len : sizeof text), (const char *)text);
}

static void print_page(size_t number, const struct tiff_listed_page *page) {
    printf("%zu %" PRIu64 " ", number, page->offset);
    if (page->status != TIFF_DONE) {
        print_fault(stdout, page->status);
        return;
    }
    printf("%" PRIu32 "x%" PRIu32 " ", page->width, page->height);
    if (page->color_status == TIFF_DONE)
        printf("color %" PRIu32 " of %" PRIu32 " x %" PRIu32 " bits", page->color.kind,
               page->color.samples, page->color.bits);
    else printf("no color");
    printf(", method %" PRIu32 ", %" PRIu32 " %s\n", page->method, page->count,
           page->chunk_kind == TIFF_TILES ? "tiles" : "strips");
}

/* Returns the status of the program, 1 if the output couldn't be written, which it then prints. The
   last bytes may reach standard output only when it is closed. */
static int close_output(int status) {
    if (!ferror(stdout) && !fclose(stdout)) return status;
    fprintf(stderr, "cannot write standard output\n");
    return 1;
}

int main(int argc, char **argv) {
    size_t len = 0, count = 0;
    uint8_t *file = argc == 2 ? read_file(argv[1], &len) : NULL;
    if (!file) {
        fprintf(stderr, "usage: list FILE\n");
        return 2;
    }
    struct tiff_listed_page first;
    tiff_status end = tiff_list_pages(file, len, &first, 0, &count);
    struct tiff_listed_page *pages = malloc((count + 1) * sizeof *pages);
    if (!pages) return fprintf(stderr, "out of memory\n"), 1;
    if (count) end = tiff_list_pages(file, len, pages, count, &count);
    for (size_t i = 0; i < count; i++) print_page(i, &pages[i]);
    if (end != TIFF_DONE) print_fault(stderr, end);
    free(pages);
    free(file);
    return close_output(end == TIFF_DONE ? 0 : 1);
}
