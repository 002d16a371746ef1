/* Writes the image of a SubIFD of a page as its bytes: of the first page, the first one that its
   tag SubIFDs (330) lists. Cameras keep previews there, which no page of the file links to.
     cc subifd.c -o subifd $(pkg-config --cflags --libs mangohatch_tiff)
     ./subifd raw.dng > preview.bytes */
#include <stdio.h>
#include <stdlib.h>
#include "mangohatch_tiff.h"

#define SUB_IFDS 330

static uint8_t *read_file(const char *name, size_t *len) {
    FILE *in = fopen(name, "rb");
    uint8_t *file = NULL;
    long size;
    if (in && fseek(in, 0, SEEK_END) == 0 && (size = ftell(in)) > 0 &&
        fseek(in, 0, SEEK_SET) == 0) {
        *len = (size_t)size;
        file = malloc(*len);
        if (file && fread(file, 1, *len, in) != *len) {
            free(file);
            file = NULL;
        }
    }
    if (in) fclose(in);
    return file;
}

/* The first offset of the tag. */
static tiff_status sub_ifd(const uint8_t *file, size_t len, uint64_t *offset) {
    size_t count;
    tiff_status status = tiff_tag_numbers(file, len, 0, SUB_IFDS, offset, 1, &count);
    return status == TIFF_DONE && count == 0 ? TIFF_REQUIRED_TAG_NOT_FOUND : status;
}

static tiff_status write_image(const uint8_t *file, size_t len, uint64_t offset) {
    struct tiff_sides sides;
    struct tiff_layout layout;
    size_t page = TIFF_AT(offset);
    uint8_t *image;
    tiff_status status = tiff_page_sides(file, len, page, &sides);
    if (status == TIFF_DONE) status = tiff_page_layout(file, len, page, &layout);
    if (status != TIFF_DONE) return status;
    image = malloc(layout.complete_len + 1);
    if (!image) return TIFF_OUT_OF_MEMORY;
    status = tiff_read_image_bytes(file, len, page, image, layout.complete_len);
    if (status == TIFF_DONE) {
        fprintf(stderr, "%u by %u, %zu bytes\n", sides.width, sides.height, layout.complete_len);
        fwrite(image, 1, layout.complete_len, stdout);
    }
    free(image);
    return status;
}

/* Returns the status of the program, 1 if the output couldn't be written, which it then prints. The
   last bytes may reach standard output only when it is closed. */
static int close_output(int status) {
    if (!ferror(stdout) && !fclose(stdout)) return status;
    fprintf(stderr, "cannot write standard output\n");
    return 1;
}

int main(int count, char **words) {
    size_t len;
    uint64_t offset;
    uint8_t text[80];
    uint8_t *file = count == 2 ? read_file(words[1], &len) : NULL;
    tiff_status status;
    if (!file) {
        fprintf(stderr, "usage: subifd FILE\n");
        return 2;
    }
    status = sub_ifd(file, len, &offset);
    if (status == TIFF_DONE) status = write_image(file, len, offset);
    if (status != TIFF_DONE) {
        size_t said = tiff_fault_text(status, text, sizeof text);
        fprintf(stderr, "%.*s\n", (int)said, (char *)text);
    }
    free(file);
    return close_output(status != TIFF_DONE);
}
