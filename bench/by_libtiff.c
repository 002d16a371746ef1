/* Reads and writes files that lie in memory by libtiff. */
#include <stdlib.h>
#include <string.h>
#include <tiffio.h>
#include "by_libtiff.h"

struct memory {
    const uint8_t *bytes;
    size_t len, at;
};

static tmsize_t read_some(thandle_t handle, void *out, tmsize_t size) {
    struct memory *m = handle;
    size_t left = m->at < m->len ? m->len - m->at : 0,
           n = (size_t)size < left ? (size_t)size : left;
    memcpy(out, m->bytes + m->at, n);
    m->at += n;
    return (tmsize_t)n;
}

static tmsize_t write_none(thandle_t handle, void *in, tmsize_t size) { return 0; }

static toff_t seek(thandle_t handle, toff_t to, int from) {
    struct memory *m = handle;
    m->at = from == SEEK_SET ? to : from == SEEK_CUR ? m->at + to : m->len + to;
    return m->at;
}

static int close_it(thandle_t handle) { return 0; }

static toff_t size_of(thandle_t handle) { return ((struct memory *)handle)->len; }

static int map_it(thandle_t handle, void **base, toff_t *size) {
    struct memory *m = handle;
    *base = (void *)m->bytes;
    *size = m->len;
    return 1;
}

static void unmap_it(thandle_t handle, void *base, toff_t size) {}

static TIFF *open_it(struct memory *m) {
    TIFFSetWarningHandler(NULL);
    return TIFFClientOpen("bench", "r", m, read_some, write_none, seek, close_it, size_of, map_it,
                          unmap_it);
}

static int strips(TIFF *t, uint8_t *buffer) {
    uint32_t count = TIFFNumberOfStrips(t);
    for (uint32_t i = 0; i < count; i++) {
        tmsize_t n = TIFFReadEncodedStrip(t, i, buffer, -1);
        if (n < 0) return 0;
        buffer += n;
    }
    return 1;
}

static int tiles(TIFF *t, uint8_t *buffer) {
    uint32_t width = 0, height = 0, across = 0, down = 0;
    TIFFGetField(t, TIFFTAG_IMAGEWIDTH, &width);
    TIFFGetField(t, TIFFTAG_IMAGELENGTH, &height);
    TIFFGetField(t, TIFFTAG_TILEWIDTH, &across);
    TIFFGetField(t, TIFFTAG_TILELENGTH, &down);
    size_t row = (size_t)TIFFScanlineSize(t), tile_row = (size_t)TIFFTileRowSize(t);
    uint8_t *tile = malloc((size_t)TIFFTileSize(t));
    uint32_t count = TIFFNumberOfTiles(t), columns = (width + across - 1) / across;
    int well = tile != NULL;
    for (uint32_t i = 0; well && i < count; i++) {
        well = TIFFReadEncodedTile(t, i, tile, -1) >= 0;
        size_t left = (i % columns) * tile_row, top = (size_t)(i / columns) * down;
        size_t n = row - left < tile_row ? row - left : tile_row;
        for (size_t y = 0; well && y < down && top + y < height; y++)
            memcpy(buffer + (top + y) * row + left, tile + y * tile_row, n);
    }
    free(tile);
    return well;
}

int by_libtiff(const uint8_t *file, size_t len, uint8_t *buffer) {
    struct memory m = {file, len, 0};
    TIFF *t = open_it(&m);
    if (!t) return 0;
    int well = TIFFIsTiled(t) ? tiles(t, buffer) : strips(t, buffer);
    TIFFClose(t);
    return well;
}

static int chunk(TIFF *t, uint32_t i, uint8_t *buffer) {
    return (TIFFIsTiled(t) ? TIFFReadEncodedTile(t, i, buffer, -1)
                           : TIFFReadEncodedStrip(t, i, buffer, -1)) >= 0;
}

int chunks_by_libtiff(const uint8_t *file, size_t len, uint8_t *buffer) {
    struct memory m = {file, len, 0};
    TIFF *t = open_it(&m);
    if (!t) return 0;
    int well = 1;
    uint32_t count = TIFFIsTiled(t) ? TIFFNumberOfTiles(t) : TIFFNumberOfStrips(t);
    for (uint32_t i = 0; well && i < count; i++) well = chunk(t, i, buffer);
    TIFFClose(t);
    return well;
}

struct opened {
    struct memory memory;
    TIFF *t;
};

struct opened *open_by_libtiff(const uint8_t *file, size_t len) {
    struct opened *opened = malloc(sizeof *opened);
    if (!opened) return NULL;
    opened->memory = (struct memory){file, len, 0};
    opened->t = open_it(&opened->memory);
    if (opened->t) return opened;
    free(opened);
    return NULL;
}

void close_by_libtiff(struct opened *opened) {
    TIFFClose(opened->t);
    free(opened);
}

int chunk_by_libtiff(struct opened *opened, uint32_t i, uint8_t *buffer) {
    return chunk(opened->t, i, buffer);
}

uint32_t page_width_by_libtiff(const uint8_t *file, size_t len, uint32_t page) {
    struct memory m = {file, len, 0};
    TIFF *t = open_it(&m);
    uint32_t width = 0;
    if (!t) return 0;
    if (page == 0 || TIFFSetDirectory(t, (tdir_t)page)) TIFFGetField(t, TIFFTAG_IMAGEWIDTH, &width);
    TIFFClose(t);
    return width;
}

uint32_t width_by_libtiff(const uint8_t *file, size_t len) {
    return page_width_by_libtiff(file, len, 0);
}

/* A file that is written: its capacity, and its length. */
struct paper {
    uint8_t *bytes;
    size_t size, len, at;
};

static tmsize_t write_some(thandle_t handle, void *in, tmsize_t size) {
    struct paper *p = handle;
    if (p->at > p->size || p->size - p->at < (size_t)size) return 0;
    memcpy(p->bytes + p->at, in, (size_t)size);
    p->at += (size_t)size;
    if (p->len < p->at) p->len = p->at;
    return size;
}

static tmsize_t read_back(thandle_t handle, void *out, tmsize_t size) {
    struct paper *p = handle;
    size_t left = p->at < p->len ? p->len - p->at : 0,
           n = (size_t)size < left ? (size_t)size : left;
    memcpy(out, p->bytes + p->at, n);
    p->at += n;
    return (tmsize_t)n;
}

static toff_t seek_paper(thandle_t handle, toff_t to, int from) {
    struct paper *p = handle;
    p->at = from == SEEK_SET ? to : from == SEEK_CUR ? p->at + to : p->len + to;
    return p->at;
}

static toff_t size_of_paper(thandle_t handle) { return ((struct paper *)handle)->len; }

static void describe(TIFF *t, const struct drawn *image) {
    TIFFSetField(t, TIFFTAG_IMAGEWIDTH, image->width);
    TIFFSetField(t, TIFFTAG_IMAGELENGTH, image->height);
    TIFFSetField(t, TIFFTAG_BITSPERSAMPLE, image->bits);
    TIFFSetField(t, TIFFTAG_SAMPLEFORMAT,
                 image->bits == 32 ? SAMPLEFORMAT_IEEEFP : SAMPLEFORMAT_UINT);
    TIFFSetField(t, TIFFTAG_SAMPLESPERPIXEL, image->samples);
    TIFFSetField(t, TIFFTAG_PHOTOMETRIC,
                 image->samples == 3 ? PHOTOMETRIC_RGB : PHOTOMETRIC_MINISBLACK);
    TIFFSetField(t, TIFFTAG_PLANARCONFIG, PLANARCONFIG_CONTIG);
    TIFFSetField(t, TIFFTAG_COMPRESSION, image->packed ? COMPRESSION_PACKBITS : COMPRESSION_NONE);
    TIFFSetField(t, TIFFTAG_ROWSPERSTRIP, image->rows);
}

size_t write_by_libtiff(const struct drawn *image, const uint8_t *samples, uint8_t *buffer,
                        size_t size) {
    struct paper p = {buffer, size, 0, 0};
    TIFF *t = TIFFClientOpen("bench", "wl", &p, read_back, write_some, seek_paper, close_it,
                             size_of_paper, NULL, NULL);
    if (!t) return 0;
    describe(t, image);
    size_t row = (size_t)image->width * image->samples * image->bits / 8,
           whole = row * image->height, strip = row * image->rows;
    int well = 1;
    for (size_t i = 0; well && i * strip < whole; i++) {
        size_t left = whole - i * strip, n = left < strip ? left : strip;
        well =
            TIFFWriteEncodedStrip(t, (uint32_t)i, (void *)(samples + i * strip), (tmsize_t)n) >= 0;
    }
    well = well && TIFFFlush(t);
    TIFFClose(t);
    return well ? p.len : 0;
}
