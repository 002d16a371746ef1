/* Reads each page of a TIFF file by libtiff, and writes what it found on standard output, in the
   form that conformance/README.md has.

   cc -O2 -o libtiff libtiff.c -ltiff; ./libtiff FILE

   A page whose strips or tiles have all samples of a pixel together is read by TIFFReadEncodedStrip
   or TIFFReadEncodedTile, plane by plane if it has several; the words `scanlines` behind FILE read
   strips by TIFFReadScanline instead. Messages of libtiff go to standard error. */
#include <stdint.h>
#include <stdio.h>
#include <stdlib.h>
#include <string.h>
#include <tiffio.h>

/* Images of more bytes aren't read: the suite has none that a reader has to read. */
#define MOST (64u << 20)

struct page {
    uint32_t width, height, chunk_width, chunk_height;
    uint16_t bits, samples, planar;
    int tiled, stored;
    uint8_t *rows; /* one row after another, each of all samples, each of `size` bytes */
    size_t size;
};

static size_t size_of(uint16_t bits) { return bits <= 8 ? 1 : bits <= 16 ? 2 : bits <= 32 ? 4 : 8; }

/* Number k of a row of samples that libtiff decoded: in the byte order of the machine, or bits from
   the highest on. */
static uint64_t number(const uint8_t *row, size_t k, uint16_t bits) {
    uint64_t value = 0;
    if (bits == 8 || bits == 16 || bits == 32 || bits == 64) {
        memcpy(&value, row + k * (bits / 8), bits / 8);
        return value;
    }
    for (size_t at = k * bits; at < (k + 1) * bits; at++)
        value = value << 1 | (row[at / 8] >> (7 - at % 8) & 1);
    return value;
}

/* Puts the rows of a chunk into the image. */
static void place(struct page *p, const uint8_t *data, size_t row_bytes, uint32_t x, uint32_t y,
                  uint32_t rows, uint16_t plane) {
    uint32_t wide = p->width - x < p->chunk_width ? p->width - x : p->chunk_width;
    for (uint32_t row = 0; row < rows && y + row < p->height; row++)
        for (size_t k = 0; k < (size_t)wide * p->stored; k++) {
            uint64_t value = number(data + row * row_bytes, k, p->bits);
            size_t at = ((size_t)(y + row) * p->width + x + k / p->stored) * p->samples + plane +
                        k % p->stored;
            memcpy(p->rows + at * p->size, &value, p->size);
        }
}

static int read_tiles(TIFF *tif, struct page *p) {
    tmsize_t size = TIFFTileSize(tif), row_bytes = TIFFTileRowSize(tif);
    uint8_t *data = size > 0 && size <= MOST ? malloc(size) : NULL;
    if (!data) return 0;
    for (uint16_t plane = 0; plane < (p->planar == 2 ? p->samples : 1); plane++)
        for (uint64_t y = 0; y < p->height; y += p->chunk_height)
            for (uint64_t x = 0; x < p->width; x += p->chunk_width) {
                if (TIFFReadEncodedTile(tif, TIFFComputeTile(tif, x, y, 0, plane), data, size) < 0)
                    return 0;
                place(p, data, row_bytes, x, y, p->chunk_height, plane);
            }
    free(data);
    return 1;
}

static int read_strips(TIFF *tif, struct page *p) {
    tmsize_t size = TIFFStripSize(tif), row_bytes = TIFFScanlineSize(tif);
    uint8_t *data = size > 0 && size <= MOST ? malloc(size) : NULL;
    if (!data) return 0;
    for (uint16_t plane = 0; plane < (p->planar == 2 ? p->samples : 1); plane++)
        for (uint64_t y = 0; y < p->height; y += p->chunk_height) {
            uint32_t rows = p->height - y < p->chunk_height ? p->height - y : p->chunk_height;
            if (TIFFReadEncodedStrip(tif, TIFFComputeStrip(tif, y, plane), data, row_bytes * rows) <
                0)
                return 0;
            place(p, data, row_bytes, 0, y, rows, plane);
        }
    free(data);
    return 1;
}

static int read_scanlines(TIFF *tif, struct page *p) {
    tmsize_t size = TIFFScanlineSize(tif);
    uint8_t *data = size > 0 && size <= MOST ? malloc(size) : NULL;
    if (!data) return 0;
    for (uint16_t plane = 0; plane < (p->planar == 2 ? p->samples : 1); plane++)
        for (uint32_t y = 0; y < p->height; y++) {
            if (TIFFReadScanline(tif, data, y, plane) < 0) return 0;
            place(p, data, size, 0, y, 1, plane);
        }
    free(data);
    return 1;
}

/* Fills in the page of the current directory, and allocates its samples; returns 0 if it has none,
   or too many. */
static int describe(TIFF *tif, struct page *p) {
    uint32_t rows = 0;
    memset(p, 0, sizeof *p);
    if (!TIFFGetField(tif, TIFFTAG_IMAGEWIDTH, &p->width) ||
        !TIFFGetField(tif, TIFFTAG_IMAGELENGTH, &p->height))
        return 0;
    TIFFGetFieldDefaulted(tif, TIFFTAG_BITSPERSAMPLE, &p->bits);
    TIFFGetFieldDefaulted(tif, TIFFTAG_SAMPLESPERPIXEL, &p->samples);
    TIFFGetFieldDefaulted(tif, TIFFTAG_PLANARCONFIG, &p->planar);
    TIFFGetFieldDefaulted(tif, TIFFTAG_ROWSPERSTRIP, &rows);
    p->tiled = TIFFIsTiled(tif);
    p->chunk_width = p->width;
    p->chunk_height = rows < p->height ? rows : p->height;
    if (p->tiled) {
        TIFFGetField(tif, TIFFTAG_TILEWIDTH, &p->chunk_width);
        TIFFGetField(tif, TIFFTAG_TILELENGTH, &p->chunk_height);
    }
    p->stored = p->planar == 2 ? 1 : p->samples;
    p->size = size_of(p->bits);
    if (!p->width || !p->height || !p->samples || !p->bits || p->bits > 64 || !p->chunk_width ||
        !p->chunk_height)
        return 0;
    if ((double)p->width * p->height * p->samples * p->size > MOST) return 0;
    p->rows = calloc((size_t)p->width * p->height * p->samples, p->size);
    return p->rows != NULL;
}

/* The status is 1 if libtiff refuses a page, or a directory to which the one before it links. */
int main(int count, char **words) {
    int by_scanlines = count == 3 && strcmp(words[2], "scanlines") == 0;
    TIFF *tif = count >= 2 ? TIFFOpen(words[1], "r") : NULL;
    if (!tif) return 1;
    for (;;) {
        struct page p;
        if (!describe(tif, &p)) return 1;
        if (!(p.tiled        ? read_tiles(tif, &p)
              : by_scanlines ? read_scanlines(tif, &p)
                             : read_strips(tif, &p)))
            return 1;
        printf("page %u %u %u %zu\n", p.width, p.height, p.samples, p.size);
        fwrite(p.rows, p.size, (size_t)p.width * p.height * p.samples, stdout);
        free(p.rows);
        if (TIFFLastDirectory(tif)) break;
        if (!TIFFReadDirectory(tif)) return 1;
    }
    TIFFClose(tif);
    return 0;
}
