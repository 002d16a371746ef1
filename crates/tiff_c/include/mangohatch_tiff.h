/* mangohatch_tiff.h - reads TIFF and BigTIFF files from memory, and writes them into memory

   Copyright (c) 2018 PistonDevelopers (the Rust crate `tiff`, whose names and behaviour this library ports)
   Copyright (c) 2026 Mangohatch
   SPDX-License-Identifier: MIT

DESCRIPTION
    A file is FILE, LEN bytes of the caller's memory that hold the whole file. No call copies FILE,
    and no call keeps anything: each call that reads opens the file anew, reads the header and the
    directories up to PAGE, and frees all memory that it allocated.
    tiff_read_planned_chunk, tiff_read_planned_chunks, tiff_chunk_place and tiff_rewrite_chunk alone
    read no header and no directory, but what a plan says instead.
    FILE must stay unchanged during a call. Several threads may call at once, also on the same
    FILE: a call writes only into what the caller passes for its results, and no call has a state
    of its own.

    PAGE is the number of a page, counted from 0 along the file's chain of directories; or
    TIFF_AT(OFFSET), the directory at that offset of the file. That directory need not be in the
    chain: it may be one of tiff_list_directories, as a SubIFD or a preview. A call with a number
    walks along the chain up to that page. A call with an offset doesn't: to visit all pages by the
    offsets that tiff_list_pages returns takes time that grows with the number of pages.

    The calls that read a tag treat TIFF_AT(OFFSET) in another way: they read that directory alone,
    which need not be a page. So they also read the tags of a directory that all other calls
    refuse, as of a color filter array (PhotometricInterpretation 32803), or of Exif. With a
    number, they read the tags of that page, and refuse it as the other calls do.

    Each other call that reads opens the file by its header and checks no other page than PAGE. So
    it returns the error of a header that is refused, and then the error of PAGE: for a number
    behind the end of the chain, the error by which the chain ends, else
    TIFF_IMAGE_FILE_DIRECTORY_NOT_FOUND; for an offset where FILE ends within the directory,
    TIFF_UNEXPECTED_EOF; else the first error of the page. Any call that reads or writes a file but
    tiff_byte_order may return TIFF_OUT_OF_MEMORY. The comment of each call names the errors that
    come behind these. Of several errors a call returns the first one.

    A call that returns TIFF_DONE has written its result. A call that returns any other status
    leaves a struct or a number as it was; what it leaves in a buffer of bytes is not specified.
    tiff_list_pages, tiff_list_directories, tiff_list_tags, tiff_tag_numbers, tiff_tag_floats,
    tiff_tag_text, tiff_rewrite_chunk, tiff_write_image, tiff_image_frame, tiff_write_jobs,
    tiff_write_pages, tiff_pages_frame and tiff_append_pages specify more.

    A file may claim any size: call tiff_page_layout and check its result before you allocate for an
    image. The calls that read pixels have no limit for the size of a chunk in the file: they write
    into BUFFER, and allocate for one row alone, which is as long as a row in BUFFER or as the bytes
    of that row that FILE was found to have, or for rows of up to 256 KB that are read at once. A
    page may have 8,388,608 chunks. A tag that tiff_tag_number, tiff_tag_numbers or tiff_tag_floats
    reads may have as many values, and a text that tiff_tag_text reads 268,435,456 bytes. For more,
    a call returns TIFF_LIMITS_EXCEEDED. These calls allocate for all values of the tag, as many as
    FILE was found to have.

POINTERS
    No pointer may be null, not even with a length of 0, nor in a struct: pass the address of any
    object of its type then. FILE with a length of 0 is no TIFF file (TIFF_SIGNATURE_NOT_FOUND). The
    memory that a call reads and the memory that it writes may not overlap.

VERSION
    MANGOHATCH_TIFF_VERSION is the version of these calls; it is raised when a call changes or is
    added. tiff_version returns the version of the library that is linked. The numbers that have
    names here never change.

LINKING
    Where the library is installed (`make install`):
    cc .. $(pkg-config --cflags --libs mangohatch_tiff). Where it isn't:
    cc .. libtiff_c.a liblibc_c.a. `rt lib` in crates/tiff_c builds the first archive, under the
    licence above. The second archive is the toolchain's, in its folder c: the heap, over malloc
    and free of the C library. An installed library holds both. The names of its calls differ from
    those of libtiff, so a program can link both. */
#ifndef MANGOHATCH_TIFF_H
#define MANGOHATCH_TIFF_H

#define MANGOHATCH_TIFF_VERSION 9

/* A PAGE that is the directory at an offset of the file. */
#define TIFF_AT(offset) ((size_t)(offset) | (size_t)1 << 63)

#include <stddef.h>
#include <stdint.h>

#ifdef __cplusplus
extern "C" {
#endif

/* What a call returns. The numbers never change. */
typedef uint32_t tiff_status;
enum {
    /* the call itself */
    TIFF_DONE = 0, /* done */
    TIFF_LIMITS_EXCEEDED = 1, /* decoder limits exceeded */
    TIFF_INT_SIZE_ERROR = 2, /* platform or format size limits exceeded */
    TIFF_OUT_OF_MEMORY = 3, /* out of memory */
    TIFF_LATER_FAULT = 4, /* an error that has no number yet; no call returns it */
    TIFF_BYTES_WANTED = 5, /* bytes of the file are wanted; only calls on windows return it */
    /* the bytes */
    TIFF_UNEXPECTED_EOF = 10, /* unexpected end of file */
    TIFF_INVALID_DATA = 11, /* invalid data */
    TIFF_INVALID_INPUT = 12, /* invalid input */
    TIFF_WRITE_ZERO = 13, /* write zero */
    TIFF_DEVICE = 14, /* device fault */
    /* the file does not have TIFF's form */
    TIFF_SIGNATURE_NOT_FOUND = 20, /* TIFF signature not found */
    TIFF_SIGNATURE_INVALID = 21, /* TIFF signature invalid */
    TIFF_IMAGE_FILE_DIRECTORY_NOT_FOUND = 22, /* image file directory not found */
    TIFF_INCONSISTENT_SIZES_ENCOUNTERED = 23, /* inconsistent sizes encountered */
    TIFF_INVALID_DIMENSIONS = 24, /* invalid dimensions */
    TIFF_INVALID_TAG = 25, /* image contains invalid tag */
    TIFF_INVALID_TAG_VALUE_TYPE = 26, /* a tag did not have the expected value type */
    TIFF_REQUIRED_TAG_NOT_FOUND = 27, /* a required tag was not found */
    TIFF_UNKNOWN_PREDICTOR = 28, /* unknown predictor */
    TIFF_UNKNOWN_PLANAR_CONFIGURATION = 29, /* unknown planar configuration */
    TIFF_INVALID_TYPE_FOR_TAG = 30, /* tag has invalid type */
    TIFF_INVALID_COUNT_FOR_TAG = 31, /* a tag with an incorrect number of elements */
    TIFF_STRIP_TILE_TAG_CONFLICT = 32, /* strips and tiles are mixed, or there are neither */
    TIFF_CYCLE_IN_OFFSETS = 33, /* file contained a cycle in the list of IFDs */
    TIFF_SAMPLES_PER_PIXEL_IS_ZERO = 34, /* samples per pixel is zero */
    TIFF_COMPRESSED_DATA_CORRUPT = 35, /* compressed data is corrupt */
    /* the file has what is not supported */
    TIFF_FLOATING_POINT_PREDICTOR = 40, /* floating point predictor is unsupported */
    TIFF_HORIZONTAL_PREDICTOR = 41, /* horizontal predictor is unsupported for this color */
    TIFF_INCONSISTENT_BITS_PER_SAMPLE = 42, /* inconsistent bits per sample */
    TIFF_INTERPRETATION_WITH_BITS = 43, /* photometric interpretation with these bits per sample is
                                           unsupported */
    TIFF_UNKNOWN_INTERPRETATION = 44, /* unknown photometric interpretation */
    TIFF_UNKNOWN_COMPRESSION_METHOD = 45, /* unknown compression method */
    TIFF_UNSUPPORTED_COMPRESSION_METHOD = 46, /* compression method is unsupported */
    TIFF_UNSUPPORTED_SAMPLE_DEPTH = 47, /* samples per pixel is unsupported */
    TIFF_UNSUPPORTED_SAMPLE_FORMAT = 48, /* sample format is unsupported */
    TIFF_UNSUPPORTED_COLOR_TYPE = 49, /* color type is unsupported */
    TIFF_UNSUPPORTED_BITS_PER_CHANNEL = 50, /* bits per channel not supported */
    TIFF_UNSUPPORTED_PLANAR_CONFIG = 51, /* unsupported planar configuration */
    TIFF_UNSUPPORTED_DATA_TYPE = 52, /* unsupported data type */
    TIFF_UNSUPPORTED_INTERPRETATION = 53, /* unsupported photometric interpretation */
    TIFF_CHROMA_SUBSAMPLING = 54, /* chroma subsampling of YCbCr color is unsupported */
    TIFF_MISALIGNED_TILE_BOUNDARIES = 55, /* tile rows are not aligned to byte boundaries */
    /* the call doesn't fit */
    TIFF_INVALID_CHUNK_TYPE = 60, /* operation is only valid for the other kind of chunk */
    TIFF_INVALID_CHUNK_INDEX = 61, /* invalid chunk index */
    TIFF_INVALID_PLANE_INDEX = 62, /* invalid plane index */
    TIFF_INVALID_CODING_UNIT = 63, /* out of bounds coding unit */
    TIFF_PREDICTOR_COMPRESSION_MISMATCH = 64, /* predictor is not compatible with the compression */
    TIFF_PREDICTOR_INCOMPATIBLE = 65, /* predictor is not compatible with the image's format */
    TIFF_PREDICTOR_UNAVAILABLE = 66, /* predictor is not available */
    TIFF_INSUFFICIENT_OUTPUT_BUFFER_SIZE = 67, /* the output buffer is not large enough */
    TIFF_INSUFFICIENT_OUTPUT_ROW_STRIDE = 68, /* the output row stride would alias rows */
    TIFF_ZERO_IFD_POINTER = 69, /* the offset 0 can not point to a valid IFD */
    TIFF_RECONFIGURED_AFTER_IMAGE_WRITE = 70, /* encoder reconfigured after image writing has
                                                 started */
    TIFF_BYTE_ORDER_MISMATCH = 71, /* data of another byte order */
    TIFF_MISMATCHED_ENTRY_LENGTH = 72, /* the length of data is not a multiple of the size of its
                                          type */
    TIFF_PARENT_NOT_WRITTEN = 73, /* the parent's link lies outside what was written */
    TIFF_WRITER_FAILED = 74, /* an earlier write failed */
};

/* The width and the height of a page, in pixels. */
struct tiff_sides {
    uint32_t width;
    uint32_t height;
};

/* Counts the pages of a file along its chain of directories, into *PAGES. Errors: the first error
   of a page that tiff_page_sides refuses, in the order of the chain; then, for a chain that is cut
   or leads back into itself, the error by which it ends. The call doesn't test whether pixels can
   be read. */
tiff_status tiff_page_count(const uint8_t *file, size_t len, size_t *pages);

/* Puts the width and the height of a page, in pixels, into *SIDES. Errors: those of FILE and of
   PAGE alone. */
tiff_status tiff_page_sides(const uint8_t *file, size_t len, size_t page, struct tiff_sides *sides);

/* Reads the image of a page into BUFFER, of SIZE bytes: rows from the top, each of whole bytes;
   samples of 16 bits and more with their lowest byte first. In a chunky page the samples of a pixel
   lie side by side. A planar page has its planes one behind the other; the call reads as many
   planes as fit whole into BUFFER. The bytes of BUFFER behind what the call reads stay. Errors, in
   this order: the first error of the page's color or its layout; a BUFFER shorter than one plane,
   TIFF_INSUFFICIENT_OUTPUT_BUFFER_SIZE; the first error of a chunk. */
tiff_status tiff_read_image_bytes(const uint8_t *file, size_t len, size_t page, uint8_t *buffer,
                                  size_t size);

/* How many bytes the image of a page has: LEN those of one plane, COMPLETE_LEN those of all planes.
   For a chunky page both are the same. tiff_page_layout puts them into *LAYOUT; it returns an error
   where the page's samples have no layout. */
struct tiff_layout {
    size_t len;
    size_t complete_len;
};
tiff_status tiff_page_layout(const uint8_t *file, size_t len, size_t page,
                             struct tiff_layout *layout);

/* The color of a page: its kind, the bits of a sample, and how many samples a pixel shows.
   tiff_page_color puts them into *COLOR; a page that has no color,
   TIFF_INTERPRETATION_WITH_BITS. */
enum {
    TIFF_GRAY = 0,
    TIFF_RGB = 1,
    TIFF_PALETTE = 2,   /* no call returns it */
    TIFF_GRAY_A = 3,    /* no call returns it */
    TIFF_RGBA = 4,
    TIFF_CMYK = 5,
    TIFF_CMYKA = 6,
    TIFF_YCBCR = 7,
    TIFF_LAB = 8,
    TIFF_MULTIBAND = 9, /* several samples of one kind */
};
struct tiff_color {
    uint32_t kind;
    uint32_t bits;
    uint32_t samples;
};
tiff_status tiff_page_color(const uint8_t *file, size_t len, size_t page, struct tiff_color *color);

/* The samples of a page, as the calls that read pixels return them. KIND says what the bits of a
   sample are; a KIND that has no name here is the value of the tag SampleFormat, and pixels of that
   kind can't be read. BITS is how many bits a sample has, SAMPLES how many samples a pixel shows.
   PLANES is 1 for a chunky page, where the samples of a pixel lie side by side; else it is the
   number of planes, each of one sample. INVERTED is 1 where 0 is white in the file: the calls that
   read pixels then complement each number, so that 0 is black. Else INVERTED is 0. For a page
   without a color or a layout, tiff_page_samples returns the error of tiff_page_color or
   tiff_page_layout. */
enum {
    TIFF_UNSIGNED_NUMBERS = 1,
    TIFF_SIGNED_NUMBERS = 2,
    TIFF_FLOATING_NUMBERS = 3, /* IEEE, of 16, 32 or 64 bits */
};
struct tiff_samples {
    uint32_t kind;
    uint32_t bits;
    uint32_t samples;
    uint32_t planes;
    uint32_t inverted;
};
tiff_status tiff_page_samples(const uint8_t *file, size_t len, size_t page,
                              struct tiff_samples *samples);

/* The chunks of a page, in all planes: their kind, how many there are, and the width and the height
   of one in pixels, before chunks at the edges of the image are cut. tiff_page_chunks puts them
   into *CHUNKS; it returns an error where the chunks can't be counted. */
enum {
    TIFF_STRIPS = 0,
    TIFF_TILES = 1,
};
struct tiff_chunks {
    uint32_t kind;
    uint32_t count;
    uint32_t width;
    uint32_t height;
};
tiff_status tiff_page_chunks(const uint8_t *file, size_t len, size_t page,
                             struct tiff_chunks *chunks);

/* A page in a list of pages: the offset of its directory in the file, and its facts, as the calls
   on a page return them. For a page that is refused, STATUS is its first error, and all members
   behind STATUS are 0. For a page without a color, COLOR_STATUS is the error, and COLOR is all 0.
   Where the chunks can't be counted, COUNT_STATUS is the error, and COUNT is 0. */
struct tiff_listed_page {
    uint64_t offset;
    tiff_status status;
    uint32_t width;
    uint32_t height;
    uint32_t method; /* the number of its method of compression, as in the tag Compression */
    tiff_status color_status;
    struct tiff_color color;
    uint32_t chunk_kind; /* TIFF_STRIPS or TIFF_TILES */
    tiff_status count_status;
    uint32_t count; /* how many chunks the page has, in all planes */
};

/* Lists the pages of a file along its chain of directories, also the pages that are refused, into
   PAGES: from the first page on, as many as ROOM allows. The elements of PAGES behind them stay.
   *COUNT is how many pages there are, even if ROOM is less; with a ROOM of 0 the call just counts.
   The call opens the file once and walks along the chain once. It returns TIFF_DONE if the chain
   ends by a link of 0, else the error by which the chain ends. If it lists nothing, *COUNT is 0
   and PAGES stays; it then returns the error of the header, that of a first directory that can't
   be read, or TIFF_OUT_OF_MEMORY. */
tiff_status tiff_list_pages(const uint8_t *file, size_t len, struct tiff_listed_page *pages,
                            size_t room, size_t *count);

/* A place where a directory is named: by a link of the chain, or by a value of a tag. OFFSET is
   that of the directory, for TIFF_AT(OFFSET). DEPTH is 0 in the chain, and TAG and PARENT are then
   0; else TAG is the number of the tag, PARENT the offset of the directory with that tag, and DEPTH
   one more than there. FOUND is what is found at OFFSET. Of a directory, FIELDS is how many tags it
   has, and PAGE its page as tiff_list_pages lists it; a directory without an image, as that of
   Exif, is refused as a page, which PAGE.STATUS then says. STATUS is the error by which the
   directory or the values of TAG can't be read, else 0; for values, OFFSET is PARENT. Where FOUND
   isn't TIFF_DIRECTORY, FIELDS and all members of PAGE are 0. */
enum {
    TIFF_DIRECTORY = 0,
    TIFF_DIRECTORY_ERROR = 1,    /* the directory can't be read */
    TIFF_VALUES_ERROR = 2,       /* the values of TAG can't be read as numbers */
    TIFF_DIRECTORY_MET = 3,      /* the list has the directory at another place */
    TIFF_DIRECTORY_TOO_DEEP = 4, /* DEPTH is 9, and the directory isn't read */
};
struct tiff_listed_directory {
    uint64_t offset;
    uint64_t parent;
    uint64_t fields;
    uint32_t depth;
    uint32_t tag;
    uint32_t found;
    tiff_status status;
    struct tiff_listed_page page;
};

/* Lists the directories of a file into DIRECTORIES, as many as ROOM allows: those of its chain, and
   from each those that its tags name by their values. These tags are the ones of type IFD (13) or
   IFD8 (18), and of any type SubIFDs (330) and the pointers to the directories of Exif (34665), GPS
   (34853) and interoperability (40965). Behind a directory come those that it names, in the order
   of the tags' numbers and of a tag's values, each with all below it, and then the next one of the
   chain. A directory is listed once, nearest to the chain and then first in this order; elsewhere
   it is TIFF_DIRECTORY_MET. The deepest that is read has DEPTH 8. The elements of DIRECTORIES
   behind the list stay. *COUNT is how long the list is, even if ROOM is less; with a ROOM of 0 the
   call just counts. It allocates for the whole list in each case. Tags have at most 1,048,576
   values in all: one with more than are left is TIFF_VALUES_ERROR with the STATUS
   TIFF_LIMITS_EXCEEDED. It returns TIFF_DONE if the chain ends by a link of 0, else the error by
   which the chain ends. If it lists nothing, *COUNT is 0 and DIRECTORIES stays; it then returns the
   error of the header, that of a first directory that can't be read, or TIFF_OUT_OF_MEMORY. */
tiff_status tiff_list_directories(const uint8_t *file, size_t len,
                                  struct tiff_listed_directory *directories, size_t room,
                                  size_t *count);

/* Reads the chunk with the number CHUNK, counted from 0, into BUFFER: as it is in the image, cut at
   its edges, and in one plane. The other bytes of BUFFER stay. Errors, in this order: the first
   error of the page's color or its layout; a BUFFER shorter than the chunk,
   TIFF_INSUFFICIENT_OUTPUT_BUFFER_SIZE; the first error of the chunk. */
tiff_status tiff_read_chunk_bytes(const uint8_t *file, size_t len, size_t page, uint32_t chunk,
                                  uint8_t *buffer, size_t size);

/* Reads COUNT chunks from the number FIRST on into BUFFER, one behind the other, each as
   tiff_read_chunk_bytes reads it. The bytes of BUFFER behind them stay. The call opens the file
   once. Errors: FIRST + COUNT of 2^32 or more, TIFF_INVALID_CHUNK_INDEX; then, chunk by chunk,
   samples without a number type, as complex ones, TIFF_UNSUPPORTED_SAMPLE_FORMAT, and those of
   tiff_read_chunk_bytes, for the bytes of BUFFER that are left. */
tiff_status tiff_read_chunks(const uint8_t *file, size_t len, size_t page, uint32_t first,
                             uint32_t count, uint8_t *buffer, size_t size);

/* The plan of a page: what its tags define, without the lists of its chunks, which may be long.
   OFFSETS and BYTE_COUNTS say of both lists how many numbers they have, the eight bytes of the
   value field of their tags, and the numbers of their types. WIDTH and HEIGHT are those of the
   image, CHUNK_WIDTH and CHUNK_HEIGHT those of a chunk, in pixels. VERSION is that of the file's
   header, 42 or 43; ORDER is TIFF_LITTLE_ENDIAN or TIFF_BIG_ENDIAN; CHUNK_KIND is TIFF_STRIPS or
   TIFF_TILES. PHOTOMETRIC, COMPRESSION, SAMPLES, SAMPLE_FORMAT, BITS, PREDICTOR, PLANAR and both
   SUBSAMPLINGs are the values of their tags, or what a page without the tag has. EXTRA_COUNT is how
   many extra samples there are, and FIRST_EXTRA the value for the first one, or 0. A plan has no
   pointer, so a program may copy it and keep it, and pass it on to other threads.
   tiff_page_plan puts it into *PLAN; a page whose offsets or byte counts aren't of type SHORT, LONG
   or LONG8, TIFF_INVALID_TYPE_FOR_TAG: read the chunks of such a page by the other calls. */
struct tiff_page_plan {
    uint64_t offsets_count;
    uint64_t byte_counts_count;
    uint8_t offsets_value[8];
    uint8_t byte_counts_value[8];
    uint32_t width;
    uint32_t height;
    uint32_t chunk_width;
    uint32_t chunk_height;
    uint16_t version;
    uint16_t order;
    uint16_t photometric;
    uint16_t compression;
    uint16_t samples;
    uint16_t extra_count;
    uint16_t first_extra;
    uint16_t sample_format;
    uint16_t bits;
    uint16_t predictor;
    uint16_t planar;
    uint16_t chunk_kind;
    uint16_t subsampling_across;
    uint16_t subsampling_down;
    uint16_t offsets_type;
    uint16_t byte_counts_type;
};
tiff_status tiff_page_plan(const uint8_t *file, size_t len, size_t page,
                           struct tiff_page_plan *plan);

/* Reads the chunk with the number CHUNK, counted from 0, into BUFFER, as tiff_read_chunk_bytes
   reads it of the page that PLAN is of. The call opens no page, and reads of both lists the numbers
   of this chunk alone: a chunk takes the same time however many the page has. Any *PLAN is safe.
   Errors of a *PLAN that tiff_page_plan wrote for this FILE: those of tiff_read_chunk_bytes. Of any
   other, in this order: a VERSION, TIFF_SIGNATURE_INVALID; an ORDER, TIFF_INVALID_INPUT; a
   PHOTOMETRIC, TIFF_UNKNOWN_INTERPRETATION; a FIRST_EXTRA or more than 255 BITS,
   TIFF_INVALID_INPUT; a PREDICTOR, TIFF_UNKNOWN_PREDICTOR; a PLANAR,
   TIFF_UNKNOWN_PLANAR_CONFIGURATION; a CHUNK_KIND, TIFF_INVALID_INPUT; a type of a list,
   TIFF_INVALID_TYPE_FOR_TAG; sizes that no page has, TIFF_INCONSISTENT_SIZES_ENCOUNTERED; the error
   of reading the chunk's offset, then its byte count, TIFF_INVALID_TYPE_FOR_TAG,
   TIFF_LIMITS_EXCEEDED, TIFF_INCONSISTENT_SIZES_ENCOUNTERED or TIFF_UNEXPECTED_EOF; then those of
   tiff_read_chunk_bytes. */
tiff_status tiff_read_planned_chunk(const uint8_t *file, size_t len,
                                    const struct tiff_page_plan *plan, uint32_t chunk,
                                    uint8_t *buffer, size_t size);

/* Reads COUNT chunks from the number FIRST on into BUFFER, one behind the other, each as
   tiff_read_planned_chunk reads it: as tiff_read_chunks reads them of the page that PLAN is of, but
   without opening it. The bytes of BUFFER behind them stay. Any *PLAN is safe. Errors of a *PLAN
   that tiff_page_plan wrote for this FILE: those of tiff_read_chunks. Of any other, in this order:
   a number that names nothing, as for tiff_read_planned_chunk; FIRST + COUNT of 2^32 or more,
   TIFF_INVALID_CHUNK_INDEX; then, chunk by chunk, sizes that no page has,
   TIFF_INCONSISTENT_SIZES_ENCOUNTERED; the first error of the page's color or its layout; samples
   without a number type, as complex ones, TIFF_UNSUPPORTED_SAMPLE_FORMAT; fewer bytes of BUFFER
   left than the chunk has, TIFF_INSUFFICIENT_OUTPUT_BUFFER_SIZE; the error of reading its offset or
   its byte count; the first error of the chunk. */
tiff_status tiff_read_planned_chunks(const uint8_t *file, size_t len,
                                     const struct tiff_page_plan *plan, uint32_t first,
                                     uint32_t count, uint8_t *buffer, size_t size);

/* Where a chunk is in FILE: its offset and its byte count, as the tags of the page have them.
   tiff_chunk_place puts it into *PLACE for the chunk with the number CHUNK, counted from 0, of the
   page that PLAN is of, and reads these two numbers alone. Errors: those of a *PLAN, as
   tiff_read_planned_chunk has them, up to those of reading the chunk's offset and byte count; no
   such chunk, TIFF_INCONSISTENT_SIZES_ENCOUNTERED. */
struct tiff_chunk_place {
    uint64_t offset;
    uint64_t byte_count;
};
tiff_status tiff_chunk_place(const uint8_t *file, size_t len, const struct tiff_page_plan *plan,
                             uint32_t chunk, struct tiff_chunk_place *place);

/* Makes the bytes that FILE has of the chunk with the number CHUNK from new samples, so that one
   chunk of a file can be changed in place. SAMPLES are COUNT bytes, as tiff_read_planned_chunk
   gives them of this chunk. STORED is SIZE bytes: before the call a copy of those of FILE from the
   chunk's offset on, as many as its byte count says, or more; after it the new bytes of the same
   place. What no sample needs stays as it is: the parts of a tile outside the image, and samples
   that the calls which read pixels leave out. The call changes nothing in FILE. Once the caller has
   written STORED at the offset, a read of the chunk gives SAMPLES, and every chunk of whose bytes
   none was overwritten is as it was. The call doesn't notice a PLAN that was changed, or chunks
   that overlap. Errors: those of a *PLAN, as tiff_chunk_place; the page's color or its layout, as
   tiff_read_planned_chunk; a COUNT that isn't the chunk's, TIFF_INVALID_DATA; the chunk's form, as
   tiff_read_planned_chunk; data that are compressed, TIFF_UNSUPPORTED_COMPRESSION_METHOD; the
   byte-plane predictor, TIFF_FLOATING_POINT_PREDICTOR; rows that need 2^64 bytes or more,
   TIFF_LIMITS_EXCEEDED; a SIZE that is below what the rows need,
   TIFF_INSUFFICIENT_OUTPUT_BUFFER_SIZE. An error leaves STORED as it was. */
tiff_status tiff_rewrite_chunk(const uint8_t *file, size_t len, const struct tiff_page_plan *plan,
                               uint32_t chunk, const uint8_t *samples, size_t count,
                               uint8_t *stored, size_t size);

/* Reads the coding unit with the number UNIT, counted from 0: a chunk of the first plane and the
   chunks of the other planes that cover the same pixels, one behind the other, as many as fit whole
   into BUFFER. The other bytes of BUFFER stay. Errors, in this order: the first error of the page's
   color or its layout; no such unit, TIFF_INVALID_CODING_UNIT; a BUFFER shorter than the chunk of
   one plane, TIFF_INSUFFICIENT_OUTPUT_BUFFER_SIZE; the first error of a chunk. */
tiff_status tiff_read_coding_unit_bytes(const uint8_t *file, size_t len, size_t page, uint32_t unit,
                                        uint8_t *buffer, size_t size);

/* The field of a tag of a page: the number of its type, and how many values it has.
   tiff_tag_field finds it by the tag's number and puts it into *FIELD; no such tag,
   TIFF_REQUIRED_TAG_NOT_FOUND. */
struct tiff_field {
    uint32_t kind;
    uint64_t count;
};
tiff_status tiff_tag_field(const uint8_t *file, size_t len, size_t page, uint16_t tag,
                           struct tiff_field *field);

/* Puts the value of a tag of a page, found by the tag's number, into *NUMBER. With tag 259 the
   value is the compression (1: none, 32773: PackBits; no such tag: none). Errors: no such tag,
   TIFF_REQUIRED_TAG_NOT_FOUND; values that reach behind the end of FILE, TIFF_UNEXPECTED_EOF;
   several values, or one that is no unsigned number, TIFF_INVALID_TYPE_FOR_TAG. */
tiff_status tiff_tag_number(const uint8_t *file, size_t len, size_t page, uint16_t tag,
                            uint64_t *number);

/* Copies the bytes of the values of a tag of a page into BUFFER, from byte AT on, as many as SIZE
   allows; *WRITTEN is how many. AT counts from 0; from the end of the values on, the call copies
   none. The bytes are as in the file, so numbers are in its byte order. The other bytes of BUFFER
   stay. The values have in all as many bytes as tiff_tag_field counts values, times the size of
   their type. Errors: no such tag, TIFF_REQUIRED_TAG_NOT_FOUND; values of 2^64 bytes or more,
   TIFF_LIMITS_EXCEEDED; bytes to copy that lie behind the end of FILE, TIFF_UNEXPECTED_EOF. */
tiff_status tiff_tag_bytes(const uint8_t *file, size_t len, size_t page, uint16_t tag, uint64_t at,
                           uint8_t *buffer, size_t size, size_t *written);

/* Puts the values of a tag of a page into NUMBERS, as numbers of the machine: from the first one
   on, as many as ROOM allows. The elements of NUMBERS behind them stay. *COUNT is how many values
   there are, even if ROOM is less; so a first call with a ROOM of 0 returns the count. The values
   are of the types BYTE, SHORT, LONG, LONG8, IFD, IFD8 or UNDEFINED; one RATIONAL is two numbers,
   and a text is the numbers of its characters. Errors: no such tag, TIFF_REQUIRED_TAG_NOT_FOUND;
   values that reach behind the end of FILE, TIFF_UNEXPECTED_EOF; any other type, or several
   RATIONALs, TIFF_INVALID_TYPE_FOR_TAG. Any status but TIFF_DONE leaves NUMBERS and *COUNT as they
   were. */
tiff_status tiff_tag_numbers(const uint8_t *file, size_t len, size_t page, uint16_t tag,
                             uint64_t *numbers, size_t room, size_t *count);

/* Puts the values of a tag of a page, of the type DOUBLE, into NUMBERS: from the first one on, as
   many as ROOM allows. GeoTIFF's ModelTiepointTag (33922) has such values. The elements of NUMBERS
   behind them stay. *COUNT is how many values there are, even if ROOM is less. Errors: no such tag,
   TIFF_REQUIRED_TAG_NOT_FOUND; values that reach behind the end of FILE, TIFF_UNEXPECTED_EOF; any
   other type, FLOAT too, TIFF_INVALID_TYPE_FOR_TAG. Any status but TIFF_DONE leaves NUMBERS and
   *COUNT as they were. */
tiff_status tiff_tag_floats(const uint8_t *file, size_t len, size_t page, uint16_t tag,
                            double *numbers, size_t room, size_t *count);

/* Puts the text of a tag of a page, of the type ASCII, into TEXT: as many bytes as SIZE allows,
   with no zero behind them. The bytes of TEXT behind them stay. *LEN_OF_TEXT is how many bytes the
   text has, even if SIZE is less. The text ends before its first zero and has to be UTF-8. A text
   that lies in its entry, of at most 4 bytes, or 8 in BigTIFF, has to be ASCII with a zero at its
   end; the call returns it without zeros at both ends. Errors: no such tag,
   TIFF_REQUIRED_TAG_NOT_FOUND; a text that reaches behind the end of FILE, TIFF_UNEXPECTED_EOF; a
   text that isn't as above, TIFF_INVALID_TAG; any other type, or no values,
   TIFF_INVALID_TYPE_FOR_TAG. Any status but TIFF_DONE leaves TEXT and *LEN_OF_TEXT as they were.
   tiff_tag_bytes copies the bytes of any text as they are in the file. */
tiff_status tiff_tag_text(const uint8_t *file, size_t len, size_t page, uint16_t tag, uint8_t *text,
                          size_t size, size_t *len_of_text);

/* An entry of a directory: its tag, the type and the count of its values, as tiff_tag_field returns
   them, and where the values are. IN_PLACE is 1 if they are in the entry itself; then OFFSET is 0.
   Else IN_PLACE is 0, and OFFSET is where they are in the file, or would be if the file had
   them. */
struct tiff_tag_entry {
    uint64_t count;
    uint64_t offset;
    uint16_t number;
    uint16_t type;
    uint32_t in_place;
};

/* Lists the tags of a page, or of any directory by TIFF_AT, into ENTRIES: in ascending order, as
   many as ROOM allows. The elements of ENTRIES behind them stay. *COUNT is how many tags there are,
   even if ROOM is less. Of several entries of one tag the last one counts, and entries of unknown
   types are left out. Any status but TIFF_DONE leaves ENTRIES and *COUNT as they were. */
tiff_status tiff_list_tags(const uint8_t *file, size_t len, size_t page,
                           struct tiff_tag_entry *entries, size_t room, size_t *count);

/* The byte order of a file, which tiff_byte_order puts into *ORDER. It reads the header alone, and
   allocates nothing. */
enum {
    TIFF_LITTLE_ENDIAN = 0, /* II */
    TIFF_BIG_ENDIAN = 1,    /* MM */
};
tiff_status tiff_byte_order(const uint8_t *file, size_t len, uint32_t *order);

/* FILES THAT AREN'T IN MEMORY
   A window is SIZE bytes of a file, from its OFFSET on, which the caller has read. A struct
   tiff_windows is what the caller has of a file: the LEN bytes of the whole file, which it knows,
   and COUNT windows in ascending order, which lie in the file and don't overlap. The calls below do
   what the ones without _in do on the whole file. Each begins anew, so a chunk whose data are
   compressed is decompressed from its start by each of them: fetch all of its bytes at once. If a
   call needs a byte that no window has, it returns TIFF_BYTES_WANTED and puts what it needs next
   into *WANTED: at least one byte, the first of which no window has. The caller reads these bytes,
   or more around them, as whole pages of 4 or 64 KB, adds a window, and calls again. As each such
   call names a byte that is new, the calls come to an end. Any other status is the whole file's,
   and so is what the call leaves: that holds for every file that the windows are of. Windows in
   another order, that overlap or that pass LEN are refused: TIFF_INVALID_INPUT. With these two
   statuses a list has a *COUNT of 0. */
struct tiff_window {
    uint64_t offset;
    const uint8_t *bytes;
    size_t size;
};
struct tiff_windows {
    uint64_t len;
    const struct tiff_window *windows;
    size_t count;
};
struct tiff_stretch {
    uint64_t offset;
    uint64_t len;
};

/* As tiff_list_pages. */
tiff_status tiff_list_pages_in(const struct tiff_windows *seen, struct tiff_listed_page *pages,
                               size_t room, size_t *count, struct tiff_stretch *wanted);

/* As tiff_list_directories. */
tiff_status tiff_list_directories_in(const struct tiff_windows *seen,
                                     struct tiff_listed_directory *directories, size_t room,
                                     size_t *count, struct tiff_stretch *wanted);

/* As tiff_list_tags and tiff_tag_bytes with TIFF_AT, also for a number: the directory need not be a
   page. */
tiff_status tiff_list_tags_in(const struct tiff_windows *seen, size_t page,
                              struct tiff_tag_entry *entries, size_t room, size_t *count,
                              struct tiff_stretch *wanted);
tiff_status tiff_tag_bytes_in(const struct tiff_windows *seen, size_t page, uint16_t tag,
                              uint64_t at, uint8_t *buffer, size_t size, size_t *written,
                              struct tiff_stretch *wanted);

/* As tiff_page_plan. */
tiff_status tiff_page_plan_in(const struct tiff_windows *seen, size_t page,
                              struct tiff_page_plan *plan, struct tiff_stretch *wanted);

/* As tiff_read_planned_chunk. */
tiff_status tiff_read_planned_chunk_in(const struct tiff_windows *seen,
                                       const struct tiff_page_plan *plan, uint32_t chunk,
                                       uint8_t *buffer, size_t size, struct tiff_stretch *wanted);

/* As tiff_read_planned_chunks. Each call begins with the first chunk, so fetch the bytes of all
   chunks at once. */
tiff_status tiff_read_planned_chunks_in(const struct tiff_windows *seen,
                                        const struct tiff_page_plan *plan, uint32_t first,
                                        uint32_t count, uint8_t *buffer, size_t size,
                                        struct tiff_stretch *wanted);

/* How to write an image: its color type; its width and its height, in pixels; the version in the
   header of its file; the values of its tags Compression and Predictor. */
enum {
    /* the color types: what the samples are, and the bits of each; I: signed, FLOAT: floating
       point, else unsigned */
    TIFF_GRAY8 = 0,
    TIFF_GRAY16 = 1,
    TIFF_GRAY32 = 2,
    TIFF_GRAY64 = 3,
    TIFF_GRAY_I8 = 4,
    TIFF_GRAY_I16 = 5,
    TIFF_GRAY_I32 = 6,
    TIFF_GRAY_I64 = 7,
    TIFF_GRAY32_FLOAT = 8,
    TIFF_GRAY64_FLOAT = 9,
    TIFF_RGB8 = 10,
    TIFF_RGB16 = 11,
    TIFF_RGB32 = 12,
    TIFF_RGB64 = 13,
    TIFF_RGB32_FLOAT = 14,
    TIFF_RGB64_FLOAT = 15,
    TIFF_RGBA8 = 16,
    TIFF_RGBA16 = 17,
    TIFF_RGBA32 = 18,
    TIFF_RGBA64 = 19,
    TIFF_RGBA32_FLOAT = 20,
    TIFF_RGBA64_FLOAT = 21,
    TIFF_CMYK8 = 22,
    TIFF_CMYK16 = 23,
    TIFF_CMYK32 = 24,
    TIFF_CMYK64 = 25,
    TIFF_CMYK32_FLOAT = 26,
    TIFF_CMYK64_FLOAT = 27,
    TIFF_YCBCR8 = 28, /* chroma not subsampled */
    TIFF_CMYKA8 = 29,
    /* packed pixels of 1, 2 and 4 bits: a sample is a byte of pixels of one row, the leftmost in
       the most significant bits. A row has as many bytes as its pixels fill, the last one partly. 0
       is black. They have strips, no extra samples and no predictor */
    TIFF_GRAY1 = 30,
    TIFF_GRAY2 = 31,
    TIFF_GRAY4 = 32,
    /* the kinds of files, by the version in the header */
    TIFF_CLASSIC = 42,
    TIFF_BIG = 43,
    /* the methods of compression */
    TIFF_UNCOMPRESSED = 1,
    TIFF_PACKBITS = 32773,
    /* the predictors */
    TIFF_NO_PREDICTOR = 1,
    TIFF_HORIZONTAL = 2, /* differences; not for floating-point samples. Many readers undo them only
                            with LZW or Deflate */
};
struct tiff_image {
    uint32_t color;
    uint32_t width;
    uint32_t height;
    uint16_t version;
    uint16_t method;
    uint16_t predictor;
};

/* Writes a file whose one page is an image, in strips, into BUFFER, of SIZE bytes; *LEN is how many
   bytes the file has. SAMPLES, of SAMPLES_LEN bytes, are the samples row by row from the top, those
   of a pixel side by side, each with its lowest byte first, as tiff_read_image_bytes reads them.
   The call ignores samples behind those of the image. The bytes of BUFFER behind the file stay.

   A BUFFER that is too short: TIFF_INSUFFICIENT_OUTPUT_BUFFER_SIZE, and *LEN is set all the same.
   So a first call with a SIZE of 0 returns the length. It takes as long as a call that writes;
   without a compression and a predictor it takes less.

   With a compression or a predictor the call makes the file in memory. Without both it allocates a
   strip and what the file has before and behind SAMPLES, if SAMPLES are exactly those of the image.

   Any status but TIFF_DONE leaves BUFFER as it was. Any status but TIFF_DONE and that of a BUFFER
   that is too short leaves *LEN as it was. Errors, in this order: a version that is none,
   TIFF_SIGNATURE_INVALID; a color type that is none, TIFF_INVALID_INPUT; a method that this library
   doesn't write, TIFF_UNSUPPORTED_COMPRESSION_METHOD; a predictor that is none,
   TIFF_UNKNOWN_PREDICTOR; SAMPLES_LEN that is no whole number of samples,
   TIFF_MISMATCHED_ENTRY_LENGTH; a side of 0, TIFF_INVALID_DIMENSIONS; the horizontal predictor with
   floating-point samples or packed pixels, TIFF_PREDICTOR_INCOMPATIBLE, and predictor 3,
   TIFF_PREDICTOR_UNAVAILABLE; 2^64 samples or more, TIFF_INVALID_INPUT; too few samples,
   TIFF_INVALID_DATA; a file that its kind can't hold, TIFF_INT_SIZE_ERROR; and at last a BUFFER
   that is too short. */
tiff_status tiff_write_image(const struct tiff_image *image, const uint8_t *samples,
                             size_t samples_len, uint8_t *buffer, size_t size, size_t *len);

/* How many bytes a file of one image has before the samples that were passed, how many these have,
   and how many it has behind them. */
struct tiff_frame {
    size_t front;
    size_t samples;
    size_t behind;
};

/* As tiff_write_image, but without a copy of SAMPLES: puts into BUFFER, of SIZE bytes, only the
   bytes of the file before SAMPLES and, behind these, those behind SAMPLES. *FRAME is how many
   there are: the file is the first FRAME->front bytes of BUFFER, then the first FRAME->samples
   bytes of SAMPLES, then the next FRAME->behind bytes of BUFFER. A BUFFER of 4096 bytes is enough
   for an image of a few strips; each strip takes 8 bytes, or 16 in a BigTIFF file.

   With a compression or a predictor, if SAMPLES aren't exactly those of the image, or if memory is
   short, FRAME->samples and FRAME->behind are 0, and BUFFER gets the whole file.

   Errors are those of tiff_write_image, as is what they leave. */
tiff_status tiff_image_frame(const struct tiff_image *image, const uint8_t *samples,
                             size_t samples_len, uint8_t *buffer, size_t size,
                             struct tiff_frame *frame);

/* Where a list of jobs was refused, counted from 1: at a line that is no job, or at a job that had
   an error. 0 is none. */
struct tiff_jobs_end {
    size_t line;
    size_t job;
};

/* Writes the file that a list of jobs leaves into BUFFER, of SIZE bytes; *LEN is how many bytes the
   file has. Its pages may have any color type, tags of the caller's own, tiles and planes, and
   directories may lie out of the chain. VERSION is TIFF_CLASSIC or TIFF_BIG. JOBS is the text of
   the list, of JOBS_LEN bytes, in UTF-8, with one line for each step:

       compression packbits
       image RGB8 50 50
       resolution 2 300
       write_tag 270 text a description
       write_tag 33550 f64 1*3
       write_data 255*7500

   A list of jobs has one of these in each line, with one space between words:
     # ANYTHING             a comment, as is an empty line
     predictor NUMBER       of the images that follow: 1 for none, 2 for differences of neighbours
     compression METHOD     of the images that follow: uncompressed; packbits, each row by itself; or packbits-chunks, across the
                            rows of a strip or tile, which readers by row can't read
     image COLOR WIDTH HEIGHT
                            begins an image, of a color type as Gray8, RGB16 or Gray32Float
     directory [JOB]        begins a directory in the chain; JOB is the number, from 0, of the job whose directory links to it
     extra_directory [JOB]  begins a directory out of the chain
     finish                 ends an image or a directory, and replies with the offsets of a directory and of its link
     discard                ends it in the same way, and replies with nothing
   Steps of an image:
     tiles WIDTH HEIGHT     stores tiles of these sides
     rows_per_strip ROWS    stores strips of so many rows
     planar                 stores the samples of each place in a pixel apart from the others
     extra_samples NUMBER ..
                            adds samples to each pixel: 0 for any, 1 for alpha that is multiplied in, 2 for other alpha
     resolution UNIT X [Y]  pixels in a unit (1 none, 2 inch, 3 centimeter), for both axes or for each
     resolution_unit UNIT, x_resolution X, y_resolution Y
                            one of these alone
     write_strip SAMPLES, write_chunk SAMPLES
                            the samples of the next strip, or of the next strip or tile
     next_strip_sample_count, next_chunk_sample_count
                            replies with the number of samples that are wanted there
     append_data VALUE      writes a value into the file, and replies with its offset
     write_data SAMPLES     the samples of the image, or of the strips that are left; ends the image
   Steps of a directory:
     write_data VALUE       writes a value into the file, and replies with its offset
   Steps of both:
     write_tag TAG VALUE, write_tag_buf TAG BUFFER
                            sets a tag
     write_entry VALUE, write_entry_buf BUFFER, write_entry_bytes TYPE DIGITS
                            replies with the entry of a value, which no tag gets
     write_data_buf BUFFER  writes bytes into the file, and replies with their offset
     extend_from FIELD ..   sets tags to entries
   What the words are:
     NUMBER, WIDTH, ROWS, TAG, TYPE ..
                            whole numbers: decimal, or hexadecimal behind 0x
     X, Y                   positive numbers: 300, 72.5 or 1/3
     SAMPLES                numbers of the color type: 7, 0x7f, -1, 1.5, or of floating-point samples 0x and their bits;
                            0..255 is each one from 0 to 255. A word has no more samples than the image. Those of
                            Gray1, Gray2 and Gray4 are bytes of packed pixels; a row begins with a new byte
     VALUE                  a type and its numbers, as u16 1 2; or text and, behind a space, the text, in ASCII
     types of a value       u8 i8 u16 i16 u32 i32 u64 i64 ifd ifd8; f32 f64 with numbers as those of samples; rational, as X;
                            srational, as -1/3; method interpretation planar predictor unit format extra
     BUFFER                 TYPE, little or big, and DIGITS
     FIELD                  TAG:TYPE:COUNT:DIGITS, with sixteen digits
     DIGITS                 two hexadecimal digits for each byte; - for none
     7*20                   of numbers and samples: 7 twenty times

   Errors: a VERSION that is none, TIFF_SIGNATURE_INVALID. JOBS that isn't UTF-8,
   TIFF_INVALID_INPUT, with 0 in END->line and END->job. A line that is no job, TIFF_INVALID_INPUT,
   with the number of the first such line in END->line; the call runs no job then. A job that had
   an error: the first error of the first such job, with the number of that job in END->job; the
   call runs the other jobs all the same, but doesn't write their file. A BUFFER that is too short,
   TIFF_INSUFFICIENT_OUTPUT_BUFFER_SIZE, with 0 in END->line and END->job; *LEN is set all the
   same. Any status but TIFF_DONE leaves BUFFER as it was. Any status but TIFF_DONE and that of a
   BUFFER that is too short leaves *LEN as it was. The call allocates the file, eight bytes for each
   sample of the list, and the list. */
tiff_status tiff_write_jobs(uint16_t version, const uint8_t *jobs, size_t jobs_len, uint8_t *buffer,
                            size_t size, size_t *len, struct tiff_jobs_end *end);

/* A fraction: numerator and denominator. */
struct tiff_fraction {
    uint32_t n;
    uint32_t d;
};

/* A tag of a page: its number; the number of the type of its values (1: BYTE, 2: ASCII, 3: SHORT,
   4: LONG, 5: RATIONAL, 12: DOUBLE ..; TIFF 6.0 section 2); how many values there are; and their
   bytes, of each number the lowest byte first. A text has a zero at its end, which counts. */
struct tiff_new_tag {
    uint16_t number;
    uint16_t type;
    size_t count;
    const uint8_t *values;
    size_t values_len;
};

/* A page to be written. COLOR, WIDTH, HEIGHT, METHOD and PREDICTOR are as in struct tiff_image. The
   page is stored in tiles of TILE_WIDTH and TILE_LENGTH; or, where both are 0, in strips of
   ROWS_PER_STRIP rows; or, where that is 0 too, in strips as tiff_write_image writes them. PLANAR
   is TIFF_CHUNKY or TIFF_PLANAR: whether a file stores the samples of a pixel side by side, or
   those of each place in a pixel apart from the others. RESOLUTION_UNIT is the unit of both
   resolutions; with TIFF_NO_RESOLUTION the call ignores them, and the file has those of
   tiff_write_image, 1 and 1 without a unit. EXTRA_SAMPLES are the values of the tag ExtraSamples,
   one for each sample that a pixel has besides those of its color: 0 for any, 1 for alpha that is
   multiplied in, 2 for other alpha. TAGS are the caller's own. One of them replaces what the call
   set before it under the same number; BitsPerSample, SampleFormat and the places of strips or
   tiles are set behind them. SAMPLES are the samples row by row from the top, those of a pixel side
   by side, also of a planar page, each with its lowest byte first. PARENT is 0 for a page in the
   file's chain of directories, or the number, counted from 1, of an earlier page: then that page's
   tag SubIFDs (330) lists this one, behind earlier pages with the same PARENT. TILE_BYTES is 0; or
   how many bytes a tile has: then SAMPLES are those of the tiles, one tile after another as in the
   file, of a planar page all tiles of a plane before the next plane, each with its padding. */
enum {
    TIFF_CHUNKY = 1,
    TIFF_PLANAR = 2,
    /* the units of resolutions */
    TIFF_NO_RESOLUTION = 0, /* none is given */
    TIFF_NO_UNIT = 1,
    TIFF_INCH = 2,
    TIFF_CENTIMETER = 3,
};
struct tiff_new_page {
    uint32_t color;
    uint32_t width;
    uint32_t height;
    uint32_t rows_per_strip;
    uint32_t tile_width;
    uint32_t tile_length;
    uint16_t method;
    uint16_t predictor;
    uint16_t planar;
    uint16_t resolution_unit;
    struct tiff_fraction x_resolution;
    struct tiff_fraction y_resolution;
    const uint16_t *extra_samples;
    size_t extra_samples_len;
    const struct tiff_new_tag *tags;
    size_t tags_len;
    const uint8_t *samples;
    size_t samples_len;
    size_t parent;
    size_t tile_bytes;
};

/* Where a list of pages was refused: the number of the page, counted from 1, and its field. 0 is
   none. */
enum {
    TIFF_FIELD_NONE = 0, /* the page as a whole */
    TIFF_FIELD_COLOR = 1,
    TIFF_FIELD_METHOD = 2,
    TIFF_FIELD_PREDICTOR = 3,
    TIFF_FIELD_PLANAR = 4,
    TIFF_FIELD_RESOLUTION = 5,
    TIFF_FIELD_EXTRA_SAMPLES = 6,
    TIFF_FIELD_TAGS = 7,
    TIFF_FIELD_SAMPLES = 8,
    TIFF_FIELD_LAYOUT = 9, /* the strips or tiles */
    TIFF_FIELD_PARENT = 10,
};
struct tiff_pages_end {
    size_t page;
    uint32_t field;
};

/* Writes a file of COUNT pages into BUFFER, of SIZE bytes; *LEN is how many bytes the file has. The
   pages without a PARENT are in the file's chain of directories, in their order. VERSION is
   TIFF_CLASSIC or TIFF_BIG. The bytes of BUFFER behind the file stay. Of pages without a PARENT it
   is the file that tiff_write_jobs writes for these jobs of each page:

       predictor PREDICTOR
       compression METHOD
       image COLOR WIDTH HEIGHT
       extra_samples EXTRA_SAMPLES      unless there are none
       tiles TILE_WIDTH TILE_LENGTH     unless both are 0
       rows_per_strip ROWS_PER_STRIP    unless it is 0
       planar                           for TIFF_PLANAR
       resolution RESOLUTION_UNIT X_RESOLUTION Y_RESOLUTION
                                        unless the unit is TIFF_NO_RESOLUTION
       write_tag_buf NUMBER BUFFER      for each of TAGS
       write_tag_buf 330 BUFFER         with a zero for each page that has this one as its PARENT
       write_data SAMPLES               unless there are TILE_BYTES
       write_chunk SAMPLES              for each tile, if there are TILE_BYTES; finish

   The pages with a PARENT are written behind those, in their order: the jobs of each go on behind
   the file at its zero, which they overwrite, as those of tiff_append_pages do at the last link.

   A BUFFER that is too short: TIFF_INSUFFICIENT_OUTPUT_BUFFER_SIZE, and *LEN is set all the same.
   So a first call with a SIZE of 0 returns the length. Any status but TIFF_DONE leaves BUFFER as it
   was. Any status but TIFF_DONE and that of a BUFFER that is too short leaves *LEN as it was.

   Errors: a VERSION that is none, TIFF_SIGNATURE_INVALID, with 0 in END->page. Then, with the
   number of the first such page in END->page and its first such field in END->field, and before a
   page is written: a color type that is none, TIFF_INVALID_INPUT; a method that this library
   doesn't write, TIFF_UNSUPPORTED_COMPRESSION_METHOD; a predictor that is none,
   TIFF_UNKNOWN_PREDICTOR; a PLANAR that is none, TIFF_UNKNOWN_PLANAR_CONFIGURATION; a unit that is
   none, and an extra sample that is none, TIFF_INVALID_INPUT; of TAGS, a type that is none,
   TIFF_UNSUPPORTED_DATA_TYPE, values_len that is not as many bytes as COUNT values have,
   TIFF_MISMATCHED_ENTRY_LENGTH, and SubIFDs of a page that is a PARENT, TIFF_INVALID_INPUT;
   samples_len that is not TILE_BYTES for each tile of the page, if there are TILE_BYTES,
   TIFF_INVALID_DATA, and bytes that are no whole number of samples, TIFF_MISMATCHED_ENTRY_LENGTH; a
   PARENT that is no earlier page, TIFF_INVALID_INPUT. Then, with the number of the first such page in END->page, of
   those of the chain and then of the others, the first error of that page. With 0 in END->field: a
   side of 0, TIFF_INVALID_DIMENSIONS; the predictors that tiff_write_image refuses; too few
   samples, TIFF_INVALID_DATA; a file that its kind can't hold, TIFF_INT_SIZE_ERROR. With
   TIFF_FIELD_LAYOUT: sides of tiles that are 0 or no multiples of 16, and ROWS_PER_STRIP beside
   tiles, TIFF_INVALID_INPUT. With TIFF_FIELD_SAMPLES: TILE_BYTES that a tile doesn't have,
   TIFF_INVALID_DATA. With the field of what is set: TIFF_INT_SIZE_ERROR. At last a BUFFER that is
   too short, with 0 in both.

   The call allocates the file, the bytes of TAGS, and a few numbers for each page, and for each tile
   of one with TILE_BYTES; where a page has tiles, planes, a compression or a predictor, also its
   samples, one such page at a time, or with TILE_BYTES one tile, if they have more than one byte or
   a sign (with TILE_BYTES not without a compression and a predictor); of pages with a PARENT also
   the offsets of all pages, and the directory of one PARENT at a time. */
tiff_status tiff_write_pages(uint16_t version, const struct tiff_new_page *pages, size_t count,
                             uint8_t *buffer, size_t size, size_t *len, struct tiff_pages_end *end);

/* How many bytes of a file aren't samples that were passed, and of how many of its first pages the
   samples are those. */
struct tiff_pages_frame {
    size_t around;
    size_t framed;
};

/* As tiff_write_pages, but without a copy of the samples of its first pages: puts into BUFFER, of
   SIZE bytes, only the bytes of the file that aren't these samples, one behind the other, and what
   there is into *FRAME. The file is, for each of the first FRAME->framed pages, the next FRONTS[i]
   bytes of BUFFER and then the samples of page i, counted from 0; and at its end what is left of
   the first FRAME->around bytes of BUFFER. FRONTS has FRONTS_LEN places: there are at most as many
   such pages.

   Such a page has neither a compression nor a predictor, exactly the samples of its image, and no
   tiles and no planes, unless it has TILE_BYTES; and each page before it is one too. Where a page has a PARENT, or memory is
   short, FRAME->framed is 0, and BUFFER gets the whole file. Strips take 8 bytes each in BUFFER, or
   16 in a BigTIFF file; 4096 bytes a page, and those of TAGS, are enough for a few strips.

   Errors are those of tiff_write_pages, as is what they leave; FRONTS stays if BUFFER does, unless
   BUFFER alone is too short. The call allocates what BUFFER gets, and what tiff_write_pages allocates
   besides its file. */
tiff_status tiff_pages_frame(uint16_t version, const struct tiff_new_page *pages, size_t count,
                             uint8_t *buffer, size_t size, size_t *fronts, size_t fronts_len,
                             struct tiff_pages_frame *frame, struct tiff_pages_end *end);

/* What tiff_append_pages found. LEN is how many bytes the file gets at its end. LINK is the offset
   of the last link of the file's chain of directories, which has WIDTH bytes, 4 in a classic file
   and 8 in BigTIFF, and TARGET the number that it gets, its lowest byte first. END says where the
   list of pages was refused, as for tiff_write_pages. */
struct tiff_appended {
    size_t len;
    uint64_t link;
    uint64_t target;
    uint32_t width;
    struct tiff_pages_end end;
};

/* Writes COUNT pages behind FILE, a little-endian TIFF file of LEN bytes, classic or BigTIFF: puts
   the bytes to append to it into BUFFER, of SIZE bytes, and what they are into *APPENDED. FILE
   stays as it is, and is not copied. To update a file on a disk, write twice:

       the first APPENDED->len bytes of BUFFER, at the end of the file
       the APPENDED->width lowest bytes of APPENDED->target, the lowest first, at APPENDED->link

   Between the two, and if the first is torn, the file has its former pages: only the second makes
   the chain go on behind them. So the first has to be on the disk (fsync) before the second. The
   pages are jobs as those of tiff_write_pages, and their parameters are the same; a PARENT is one
   of these pages, and none of the former ones. The file has a directory, or it has none yet and its
   header links to 0. The bytes of BUFFER behind those stay.

   A BUFFER that is too short: TIFF_INSUFFICIENT_OUTPUT_BUFFER_SIZE, and *APPENDED is set all the
   same, so a first call with a SIZE of 0 returns the length. Any status but TIFF_DONE leaves BUFFER
   as it was. After any status but TIFF_DONE and that of a BUFFER that is too short, *APPENDED has
   0 in all fields but END.

   Errors: those of a header that is refused; a big-endian FILE, TIFF_BYTE_ORDER_MISMATCH; the error
   by which the chain of FILE ends, as TIFF_CYCLE_IN_OFFSETS, with 0 in APPENDED->end.page. Then
   those of tiff_write_pages, in its order, with the page and the field in APPENDED->end.

   The call allocates the bytes to append, 8 bytes for the link, the offsets of the directories of
   FILE, and what tiff_write_pages allocates besides its file. */
tiff_status tiff_append_pages(const uint8_t *file, size_t len, const struct tiff_new_page *pages,
                              size_t count, uint8_t *buffer, size_t size,
                              struct tiff_appended *appended);

/* Returns the version of the calls of this library; MANGOHATCH_TIFF_VERSION is the version of this
   header. */
uint32_t tiff_version(void);

/* Writes the text of a status into BUFFER, of SIZE bytes: as much of it as fits, with no zero
   behind it. Returns how many bytes the whole text has. */
size_t tiff_fault_text(tiff_status status, uint8_t *buffer, size_t size);

#ifdef __cplusplus
}
#endif

#endif
