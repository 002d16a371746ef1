/* Browses a camera's raw file: prints all its directories as a tree, with the tags of those of Exif
   and GPS, and writes its largest preview as PGM or PPM: the largest image of 8 bits a sample that
   the library reads. The image of the sensor, a color filter array, is refused, but not its tags.
     cc raw_browser.c -o raw_browser $(pkg-config --cflags --libs mangohatch_tiff)
     ./raw_browser photo.dng preview.ppm */
#include <inttypes.h>
#include <stdio.h>
#include <stdlib.h>
#include "mangohatch_tiff.h"

enum { EXIF = 34665, GPS = 34853 };
enum { ASCII = 2, RATIONAL = 5, SRATIONAL = 10 };
enum { MOST = 8 }; /* values of a tag that are printed */

static uint8_t *read_file(const char *name, size_t *len) {
    FILE *in = fopen(name, "rb");
    if (!in || fseek(in, 0, SEEK_END)) return NULL;
    long end = ftell(in);
    uint8_t *bytes = end < 0 ? NULL : malloc((size_t)end + 1);
    rewind(in);
    *len = bytes ? fread(bytes, 1, (size_t)end, in) : 0;
    fclose(in);
    return bytes;
}

static void print_fault(FILE *out, tiff_status status) {
    uint8_t text[160];
    size_t len = tiff_fault_text(status, text, sizeof text);
    fprintf(out, " error: %.*s\n", (int)(len < sizeof text ? len : sizeof text),
            (const char *)text);
}

/* A number of four bytes, in the order of the file. */
static uint32_t number_at(const uint8_t *bytes, uint32_t order) {
    uint32_t number = 0;
    for (int i = 0; i < 4; i++) number = number << 8 | bytes[order == TIFF_BIG_ENDIAN ? i : 3 - i];
    return number;
}

/* Prints fractions by their bytes: tiff_tag_numbers returns a single one without a sign, but not
   several or those with one. */
static tiff_status print_fractions(const uint8_t *file, size_t len, size_t page,
                                   const struct tiff_tag_entry *tag) {
    uint8_t bytes[8 * MOST];
    size_t count;
    uint32_t order;
    tiff_status status = tiff_byte_order(file, len, &order);
    if (status == TIFF_DONE)
        status = tiff_tag_bytes(file, len, page, tag->number, 0, bytes, sizeof bytes, &count);
    for (size_t i = 0; status == TIFF_DONE && i + 8 <= count; i += 8) {
        int64_t above = number_at(bytes + i, order), below = number_at(bytes + i + 4, order);
        if (tag->type == SRATIONAL) above = (int32_t)above, below = (int32_t)below;
        printf(" %" PRId64 "/%" PRId64, above, below);
    }
    return status;
}

static tiff_status print_numbers(const uint8_t *file, size_t len, size_t page,
                                 const struct tiff_tag_entry *tag) {
    uint64_t numbers[MOST];
    size_t count = 0;
    tiff_status status = tiff_tag_numbers(file, len, page, tag->number, numbers, MOST, &count);
    for (size_t i = 0; i < count && i < MOST; i++) printf(" %" PRIu64, numbers[i]);
    return status;
}

static tiff_status print_text(const uint8_t *file, size_t len, size_t page,
                              const struct tiff_tag_entry *tag) {
    uint8_t text[200];
    size_t count;
    tiff_status status = tiff_tag_text(file, len, page, tag->number, text, sizeof text, &count);
    if (status == TIFF_DONE)
        printf(" %.*s", (int)(count < sizeof text ? count : sizeof text), (const char *)text);
    return status;
}

static tiff_status print_values(const uint8_t *file, size_t len, size_t page,
                                const struct tiff_tag_entry *tag) {
    if (tag->type == ASCII) return print_text(file, len, page, tag);
    if (tag->type == RATIONAL || tag->type == SRATIONAL)
        return print_fractions(file, len, page, tag);
    return print_numbers(file, len, page, tag);
}

static void print_tags(const uint8_t *file, size_t len, const struct tiff_listed_directory *of) {
    size_t page = TIFF_AT(of->offset), capacity = (size_t)of->fields, count = 0;
    struct tiff_tag_entry *tags = malloc((capacity + 1) * sizeof *tags);
    if (tags) tiff_list_tags(file, len, page, tags, capacity, &count);
    for (size_t i = 0; i < count && i < capacity; i++) {
        printf("%*s%u, %" PRIu64 " of type %u:", (int)(2 * of->depth + 2), "", tags[i].number,
               tags[i].count, tags[i].type);
        tiff_status status = print_values(file, len, page, &tags[i]);
        if (status == TIFF_DONE) printf("\n");
        else print_fault(stdout, status);
    }
    free(tags);
}

static void print_directory(const struct tiff_listed_directory *of) {
    printf("%*s@%" PRIu64, (int)(2 * of->depth), "", of->offset);
    if (of->depth) printf(" by tag %" PRIu32, of->tag);
    tiff_status status = of->found == TIFF_DIRECTORY ? of->page.status : of->status;
    if (of->found == TIFF_DIRECTORY) printf(", %" PRIu64 " tags", of->fields);
    if (status != TIFF_DONE) print_fault(stdout, status);
    else if (of->found == TIFF_DIRECTORY)
        printf(", %" PRIu32 " x %" PRIu32 " pixels\n", of->page.width, of->page.height);
    else
        printf(of->found == TIFF_DIRECTORY_MET ? ", which is listed elsewhere\n"
                                               : ", which is too deep\n");
}

/* The largest image of the list; one that can't be written has its error as its status. */
static struct tiff_listed_page *largest(struct tiff_listed_directory *listed, size_t count) {
    struct tiff_listed_page *found = NULL;
    for (size_t i = 0; i < count; i++) {
        struct tiff_listed_page *page = &listed[i].page;
        if (listed[i].found != TIFF_DIRECTORY || page->status != TIFF_DONE) continue;
        if (!found || (uint64_t)page->width * page->height > (uint64_t)found->width * found->height)
            found = page;
    }
    return found;
}

/* Writes an image, if it is gray or RGB of 8 bits and not in planes. */
static tiff_status write_image(const uint8_t *file, size_t len, const struct tiff_listed_page *page,
                               const char *name) {
    struct tiff_layout layout;
    tiff_status status = tiff_page_layout(file, len, TIFF_AT(page->offset), &layout);
    if (status != TIFF_DONE) return status;
    if (page->color.kind > TIFF_RGB || page->color.bits != 8 || layout.len != layout.complete_len)
        return TIFF_UNSUPPORTED_COLOR_TYPE;
    uint8_t *image = malloc(layout.len + 1);
    if (!image) return TIFF_OUT_OF_MEMORY;
    status = tiff_read_image_bytes(file, len, TIFF_AT(page->offset), image, layout.len);
    FILE *out = status == TIFF_DONE ? fopen(name, "wb") : NULL;
    if (out) {
        fprintf(out, "P%d\n%" PRIu32 " %" PRIu32 "\n255\n", page->color.kind == TIFF_RGB ? 6 : 5,
                page->width, page->height);
        fwrite(image, 1, layout.len, out);
    }
    free(image);
    return status != TIFF_DONE                   ? status
           : out && !ferror(out) && !fclose(out) ? TIFF_DONE
                                                 : TIFF_DEVICE;
}

/* Returns the status of the program, 1 if the output couldn't be written, which it then prints. The
   last bytes may reach standard output only when it is closed. */
static int close_output(int status) {
    if (!ferror(stdout) && !fclose(stdout)) return status;
    fprintf(stderr, "cannot write standard output\n");
    return 1;
}

int main(int argc, char **argv) {
    size_t len = 0, count = 0;
    uint8_t *file = argc == 3 ? read_file(argv[1], &len) : NULL;
    if (!file) return fprintf(stderr, "usage: raw_browser FILE PREVIEW\n"), 2;
    struct tiff_listed_directory none;
    tiff_status end = tiff_list_directories(file, len, &none, 0, &count);
    struct tiff_listed_directory *listed = malloc((count + 1) * sizeof *listed);
    if (!listed) return fprintf(stderr, "out of memory\n"), 1;
    if (count) end = tiff_list_directories(file, len, listed, count, &count);
    for (size_t i = 0; i < count; i++) {
        print_directory(&listed[i]);
        if (listed[i].found == TIFF_DIRECTORY && (listed[i].tag == EXIF || listed[i].tag == GPS))
            print_tags(file, len, &listed[i]);
    }
    if (end != TIFF_DONE) print_fault(stderr, end);

    struct tiff_listed_page *page;
    while ((page = largest(listed, count)) != NULL &&
           (page->status = write_image(file, len, page, argv[2])) != TIFF_DONE)
        continue;
    if (page) printf("the preview is that of @%" PRIu64 "\n", page->offset);
    else fprintf(stderr, "there is no preview that this program writes\n");
    free(listed);
    free(file);
    return close_output(!page);
}
