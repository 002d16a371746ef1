/* Appends scanned pages, gray PGM images of 8 bits, one by one to a TIFF file, which may have pages
   already. The file is mapped and never copied: memory for one page is all that is allocated,
   however many pages the file has. Each page is added by two writes, its bytes and then the link to
   it, so a file that is torn between them has its former pages.
     cc scan_on.c -o scan_on $(pkg-config --cflags --libs mangohatch_tiff)
     ./scan_on pages.tif page1.pgm page2.pgm */
#define _POSIX_C_SOURCE 200809L
#include <fcntl.h>
#include <stdio.h>
#include <stdlib.h>
#include <string.h>
#include <sys/mman.h>
#include <sys/stat.h>
#include <unistd.h>
#include "mangohatch_tiff.h"

static int refuse(const char *what, tiff_status status) {
    uint8_t text[80];
    size_t len = tiff_fault_text(status, text, sizeof text);
    fprintf(stderr, "%s: %.*s\n", what, (int)(len < sizeof text ? len : sizeof text), (char *)text);
    return 0;
}

/* Reads a PGM into a page, whose samples the caller frees; returns 0 if it can't. */
static int read_page(const char *name, struct tiff_new_page *page) {
    static const uint16_t no_samples[1];
    static const struct tiff_new_tag no_tags[1];
    unsigned width, height, most;
    FILE *scan = fopen(name, "rb");
    if (!scan) return 0;
    int is_gray = fscanf(scan, "P5 %u %u %u", &width, &height, &most) == 3 && most == 255 &&
                  getc(scan) != EOF;
    size_t len = is_gray ? (size_t)width * height : 0;
    uint8_t *samples = malloc(len + 1);
    int is_read = is_gray && samples && fread(samples, 1, len, scan) == len;
    fclose(scan);
    *page = (struct tiff_new_page){
        .color = TIFF_GRAY8,
        .width = width,
        .height = height,
        .method = TIFF_PACKBITS,
        .predictor = TIFF_NO_PREDICTOR,
        .planar = TIFF_CHUNKY,
        .extra_samples = no_samples,
        .tags = no_tags,
        .samples = samples,
        .samples_len = len,
    };
    return is_read;
}

/* Writes all bytes at an offset of a file, and waits until they are on the disk. */
static int write_at(int file, const uint8_t *bytes, size_t len, off_t at) {
    while (len > 0) {
        ssize_t n = pwrite(file, bytes, len, at);
        if (n <= 0) return 0;
        bytes += n, len -= (size_t)n, at += n;
    }
    return fsync(file) == 0;
}

/* Appends a page to a file; returns 0 if it can't. */
static int append_page(int file, const struct tiff_new_page *page) {
    static const uint8_t header[8] = {'I', 'I', 42};
    struct stat found;
    if (fstat(file, &found)) return 0;
    if (found.st_size == 0 && (!write_at(file, header, sizeof header, 0) || fstat(file, &found)))
        return 0;
    size_t len = (size_t)found.st_size;
    const uint8_t *bytes = mmap(NULL, len, PROT_READ, MAP_SHARED, file, 0);
    if (bytes == MAP_FAILED) return 0;
    /* PackBits adds a byte to 128 bytes of a row at most, a row has a strip, and a strip 8 bytes in
       the directory's lists. */
    size_t size = page->samples_len + page->samples_len / 128 + (size_t)page->height * 10 + 4096;
    uint8_t *buffer = malloc(size);
    struct tiff_appended appended;
    tiff_status status = buffer ? tiff_append_pages(bytes, len, page, 1, buffer, size, &appended)
                                : TIFF_OUT_OF_MEMORY;
    munmap((void *)bytes, len);
    int is_written = status == TIFF_DONE ? 1 : refuse("refused", status);
    if (is_written) {
        uint8_t link[8];
        for (int i = 0; i < 8; i++) link[i] = (uint8_t)(appended.target >> 8 * i);
        is_written = write_at(file, buffer, appended.len, found.st_size) &&
                     write_at(file, link, appended.width, (off_t)appended.link);
    }
    free(buffer);
    return is_written;
}

int main(int argc, char **argv) {
    if (argc < 3) return fprintf(stderr, "usage: scan_on FILE PGM ..\n"), 2;
    int file = open(argv[1], O_RDWR | O_CREAT, 0644);
    if (file < 0) return fprintf(stderr, "cannot open %s\n", argv[1]), 1;
    for (int n = 2; n < argc; n++) {
        struct tiff_new_page page = {0};
        int is_done = read_page(argv[n], &page) && append_page(file, &page);
        free((void *)page.samples);
        if (!is_done) return fprintf(stderr, "cannot append %s\n", argv[n]), 1;
    }
    return close(file) ? 1 : 0;
}
