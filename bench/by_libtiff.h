/* What libtiff reads and writes, for a comparison. */
#ifndef BY_LIBTIFF_H
#define BY_LIBTIFF_H

#include <stddef.h>
#include <stdint.h>

/* Reads the image of the first page into BUFFER, which is long enough for all its planes. Returns
   1, or 0 if it fails. */
int by_libtiff(const uint8_t *file, size_t len, uint8_t *buffer);

/* Reads each chunk of the first page into the front of BUFFER, one after another. Returns 1, or 0
   if it fails. */
int chunks_by_libtiff(const uint8_t *file, size_t len, uint8_t *buffer);

/* Opens a file by libtiff; returns NULL if it fails. */
struct opened;
struct opened *open_by_libtiff(const uint8_t *file, size_t len);
void close_by_libtiff(struct opened *opened);

/* Reads a chunk of the first page of an open file into the front of BUFFER. Returns 1, or 0 if it
   fails. */
int chunk_by_libtiff(struct opened *opened, uint32_t chunk, uint8_t *buffer);

/* The width of the first page, or 0. */
uint32_t width_by_libtiff(const uint8_t *file, size_t len);

/* The width of a page, by its number from 0, or 0. */
uint32_t page_width_by_libtiff(const uint8_t *file, size_t len, uint32_t page);

/* An image: its sides, the samples of a pixel, one or three, and the bits of each, which are
   floating numbers where there are 32; whether it is packed by PackBits, and the rows of its
   strips. */
struct drawn {
    uint32_t width, height, samples, bits, packed, rows;
};

/* Writes a file of an image into BUFFER, of SIZE bytes. Returns how many bytes it has, or 0 if it
   fails. */
size_t write_by_libtiff(const struct drawn *image, const uint8_t *samples, uint8_t *buffer,
                        size_t size);

#endif
