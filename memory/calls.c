/* Makes the calls of tiff_c with each of their requests for memory refused in turn, alone and with
   all that follow, and then makes the call again.

     calls FILE ..

   makes those that read on the first three pages of each file, tiff_append_pages behind each file,
   tiff_write_image and tiff_image_frame on images of all colors, methods, predictors and kinds of
   files, and tiff_write_jobs on two lists of jobs. A call whose request was refused has to return
   TIFF_OUT_OF_MEMORY, with nothing written into its result but as mangohatch_tiff.h says; or, if it
   does without the memory, the first result. It may leave no block behind. The call that is made
   again has to return the first result. The program prints a line for each call, and errors on
   standard error; the status is 1 then. */
#include "heap.h"
#include "mangohatch_tiff.h"

enum { PATTERN = 0x5a, ROOM = 2048, GUARD = 16, LISTED = 4, PAGES = 3, SECONDS = 300, SHOWN = 10 };

int open(const char *name, int flags, ...);
long read(int file, void *to, size_t len);
long lseek(int file, long offset, int from);
int close(int file);
int dprintf(int to, const char *form, ...);
void *malloc(size_t size);
void free(void *at);
void *memset(void *to, int byte, size_t len);
void *memcpy(void *to, const void *from, size_t len);
int memcmp(const void *one, const void *other, size_t len);
unsigned alarm(unsigned seconds);

/* What a call is made on. */
struct input {
    const char *name;
    const uint8_t *file;
    size_t len;
    size_t page;
    struct tiff_page_plan plan;
    struct tiff_image image;
    size_t size;
};

/* The results of a call, with bytes behind the buffer that no call may write. */
struct result {
    struct tiff_sides sides;
    struct tiff_layout layout;
    struct tiff_color color;
    struct tiff_samples samples;
    struct tiff_chunks chunks;
    struct tiff_field field;
    size_t number;
    uint64_t value;
    uint32_t order;
    struct tiff_jobs_end end;
    struct tiff_pages_end pages_end;
    struct tiff_page_plan plan;
    struct tiff_appended appended;
    struct tiff_chunk_place place;
    struct tiff_stretch wanted;
    struct tiff_listed_page pages[LISTED];
    struct tiff_tag_entry entries[LISTED];
    struct tiff_listed_directory directories[LISTED];
    uint64_t numbers[LISTED];
    double floats[LISTED];
    uint8_t bytes[ROOM];
    uint8_t guard[GUARD];
};

/* What a refusal leaves: all as it was; all but the bytes of the buffer; all but a count of 0; all
   but an end at no line, which may be at a job that found no memory; all but the page and the field
   for which there was none, alone or with nothing to append. */
enum left { ALL, BUT_BYTES, BUT_COUNT, BUT_END, BUT_PAGE, BUT_APPENDED };

struct call {
    const char *name;
    enum left left;
    tiff_status (*make)(const struct input *on, struct result *to);
};

static tiff_status page_count(const struct input *on, struct result *to) {
    return tiff_page_count(on->file, on->len, &to->number);
}

static tiff_status page_sides(const struct input *on, struct result *to) {
    return tiff_page_sides(on->file, on->len, on->page, &to->sides);
}

static tiff_status image_bytes(const struct input *on, struct result *to) {
    return tiff_read_image_bytes(on->file, on->len, on->page, to->bytes, ROOM);
}

static tiff_status page_layout(const struct input *on, struct result *to) {
    return tiff_page_layout(on->file, on->len, on->page, &to->layout);
}

static tiff_status page_color(const struct input *on, struct result *to) {
    return tiff_page_color(on->file, on->len, on->page, &to->color);
}

static tiff_status page_samples(const struct input *on, struct result *to) {
    return tiff_page_samples(on->file, on->len, on->page, &to->samples);
}

static tiff_status page_chunks(const struct input *on, struct result *to) {
    return tiff_page_chunks(on->file, on->len, on->page, &to->chunks);
}

static tiff_status list_pages(const struct input *on, struct result *to) {
    return tiff_list_pages(on->file, on->len, to->pages, LISTED, &to->number);
}

static tiff_status list_directories(const struct input *on, struct result *to) {
    return tiff_list_directories(on->file, on->len, to->directories, LISTED, &to->number);
}

static tiff_status chunk_bytes(const struct input *on, struct result *to) {
    return tiff_read_chunk_bytes(on->file, on->len, on->page, 0, to->bytes, ROOM);
}

static tiff_status page_plan(const struct input *on, struct result *to) {
    return tiff_page_plan(on->file, on->len, on->page, &to->plan);
}

/* by the plan that the page has where no request is refused */
static tiff_status planned_chunk(const struct input *on, struct result *to) {
    return tiff_read_planned_chunk(on->file, on->len, &on->plan, 0, to->bytes, ROOM);
}

static tiff_status planned_chunks(const struct input *on, struct result *to) {
    return tiff_read_planned_chunks(on->file, on->len, &on->plan, 0, 2, to->bytes, ROOM);
}

static tiff_status chunk_place(const struct input *on, struct result *to) {
    return tiff_chunk_place(on->file, on->len, &on->plan, 0, &to->place);
}

/* of samples that are zeros, as many as a whole chunk of whole bytes has */
static tiff_status rewrite_chunk(const struct input *on, struct result *to) {
    static const uint8_t zeros[ROOM];
    uint64_t pixels = (uint64_t)on->plan.chunk_width * on->plan.chunk_height;
    uint64_t count = pixels < ROOM ? pixels * on->plan.samples * (on->plan.bits / 8) : ROOM;
    return tiff_rewrite_chunk(on->file, on->len, &on->plan, 0, zeros, count < ROOM ? count : ROOM,
                              to->bytes, ROOM);
}

/* of a file that two windows have */
static tiff_status by_windows(const struct input *on,
                              tiff_status call(const struct tiff_windows *, const struct input *,
                                               struct result *),
                              struct result *to) {
    size_t half = on->len / 2;
    struct tiff_window windows[] = {{0, on->file, half}, {half, on->file + half, on->len - half}};
    struct tiff_windows seen = {on->len, windows, 2};
    return call(&seen, on, to);
}

static tiff_status seen_pages(const struct tiff_windows *seen, const struct input *on,
                              struct result *to) {
    (void)on;
    return tiff_list_pages_in(seen, to->pages, LISTED, &to->number, &to->wanted);
}

static tiff_status seen_directories(const struct tiff_windows *seen, const struct input *on,
                                    struct result *to) {
    (void)on;
    return tiff_list_directories_in(seen, to->directories, LISTED, &to->number, &to->wanted);
}

static tiff_status seen_tags(const struct tiff_windows *seen, const struct input *on,
                             struct result *to) {
    return tiff_list_tags_in(seen, on->page, to->entries, LISTED, &to->number, &to->wanted);
}

static tiff_status seen_bytes(const struct tiff_windows *seen, const struct input *on,
                              struct result *to) {
    return tiff_tag_bytes_in(seen, on->page, 258, 0, to->bytes, ROOM, &to->number, &to->wanted);
}

static tiff_status seen_plan(const struct tiff_windows *seen, const struct input *on,
                             struct result *to) {
    return tiff_page_plan_in(seen, on->page, &to->plan, &to->wanted);
}

static tiff_status seen_chunk(const struct tiff_windows *seen, const struct input *on,
                              struct result *to) {
    return tiff_read_planned_chunk_in(seen, &on->plan, 0, to->bytes, ROOM, &to->wanted);
}

static tiff_status seen_chunks(const struct tiff_windows *seen, const struct input *on,
                               struct result *to) {
    return tiff_read_planned_chunks_in(seen, &on->plan, 0, 2, to->bytes, ROOM, &to->wanted);
}

static tiff_status list_pages_in(const struct input *on, struct result *to) {
    return by_windows(on, seen_pages, to);
}
static tiff_status list_directories_in(const struct input *on, struct result *to) {
    return by_windows(on, seen_directories, to);
}
static tiff_status list_tags_in(const struct input *on, struct result *to) {
    return by_windows(on, seen_tags, to);
}
static tiff_status tag_bytes_in(const struct input *on, struct result *to) {
    return by_windows(on, seen_bytes, to);
}
static tiff_status page_plan_in(const struct input *on, struct result *to) {
    return by_windows(on, seen_plan, to);
}
static tiff_status planned_chunk_in(const struct input *on, struct result *to) {
    return by_windows(on, seen_chunk, to);
}
static tiff_status planned_chunks_in(const struct input *on, struct result *to) {
    return by_windows(on, seen_chunks, to);
}

static tiff_status two_chunks(const struct input *on, struct result *to) {
    return tiff_read_chunks(on->file, on->len, on->page, 0, 2, to->bytes, ROOM);
}

/* of the directory at an offset: the last byte of the offset in the header of a classic file */
static tiff_status sides_at(const struct input *on, struct result *to) {
    uint64_t offset = on->len < 8 ? 0 : on->file[0] == 'I' ? on->file[4] : on->file[7];
    return tiff_page_sides(on->file, on->len, TIFF_AT(offset), &to->sides);
}

static tiff_status unit_bytes(const struct input *on, struct result *to) {
    return tiff_read_coding_unit_bytes(on->file, on->len, on->page, 0, to->bytes, ROOM);
}

static tiff_status width_field(const struct input *on, struct result *to) {
    return tiff_tag_field(on->file, on->len, on->page, 256, &to->field);
}

static tiff_status width_number(const struct input *on, struct result *to) {
    return tiff_tag_number(on->file, on->len, on->page, 256, &to->value);
}

static tiff_status method_number(const struct input *on, struct result *to) {
    return tiff_tag_number(on->file, on->len, on->page, 259, &to->value);
}

static tiff_status bits_bytes(const struct input *on, struct result *to) {
    return tiff_tag_bytes(on->file, on->len, on->page, 258, 0, to->bytes, ROOM, &to->number);
}

static tiff_status offset_bytes(const struct input *on, struct result *to) {
    return tiff_tag_bytes(on->file, on->len, on->page, 273, 1, to->bytes, 6, &to->number);
}

static tiff_status bits_numbers(const struct input *on, struct result *to) {
    return tiff_tag_numbers(on->file, on->len, on->page, 258, to->numbers, LISTED, &to->number);
}

static tiff_status offset_numbers(const struct input *on, struct result *to) {
    return tiff_tag_numbers(on->file, on->len, on->page, 273, to->numbers, LISTED, &to->number);
}

static tiff_status scale_floats(const struct input *on, struct result *to) {
    return tiff_tag_floats(on->file, on->len, on->page, 33550, to->floats, LISTED, &to->number);
}

static tiff_status description_text(const struct input *on, struct result *to) {
    return tiff_tag_text(on->file, on->len, on->page, 270, to->bytes, ROOM, &to->number);
}

static tiff_status software_text(const struct input *on, struct result *to) {
    return tiff_tag_text(on->file, on->len, on->page, 305, to->bytes, ROOM, &to->number);
}

static tiff_status list_tags(const struct input *on, struct result *to) {
    return tiff_list_tags(on->file, on->len, on->page, to->entries, LISTED, &to->number);
}

static tiff_status byte_order(const struct input *on, struct result *to) {
    return tiff_byte_order(on->file, on->len, &to->order);
}

static tiff_status write_image(const struct input *on, struct result *to) {
    return tiff_write_image(&on->image, on->file, on->len, to->bytes, on->size, &to->number);
}

/* The parts of the file one behind the other: where memory is short, they are others of the same
   file. */
static tiff_status image_frame(const struct input *on, struct result *to) {
    static uint8_t around[ROOM];
    struct tiff_frame frame;
    tiff_status status = tiff_image_frame(&on->image, on->file, on->len, around, on->size, &frame);
    if (status != TIFF_DONE && status != TIFF_INSUFFICIENT_OUTPUT_BUFFER_SIZE) return status;
    to->number = frame.front + frame.samples + frame.behind;
    if (status != TIFF_DONE) return status;
    memcpy(to->bytes, around, frame.front);
    memcpy(to->bytes + frame.front, on->file, frame.samples);
    memcpy(to->bytes + frame.front + frame.samples, around + frame.front, frame.behind);
    return status;
}

/* a page with a tag of one's own, and one that is refused */
static tiff_status write_jobs(const struct input *on, struct result *to) {
    static const char jobs[] = "image Gray8 2 1\nwrite_tag 270 text words\nwrite_data 1 2\n";
    return tiff_write_jobs(on->image.version, (const uint8_t *)jobs, sizeof jobs - 1, to->bytes,
                           on->size, &to->number, &to->end);
}

static tiff_status refused_jobs(const struct input *on, struct result *to) {
    static const char jobs[] = "image Gray8 1 1\nwrite_data 7\nimage Gray8 0 1\nfinish\n";
    return tiff_write_jobs(on->image.version, (const uint8_t *)jobs, sizeof jobs - 1, to->bytes,
                           on->size, &to->number, &to->end);
}

/* two pages of which the second has a tag of one's own and tiles, and two of which the second is
   refused */
static tiff_status pages_into(const struct input *on, struct result *to, uint16_t method,
                              _Bool behind) {
    static const uint8_t words[] = "words", samples[] = {1, 2, 3, 4};
    static const uint16_t none[1];
    const struct tiff_new_tag tag = {270, 2, sizeof words, words, sizeof words};
    const struct tiff_new_page pages[] = {
        {TIFF_GRAY8,
         2,
         1,
         0,
         0,
         0,
         TIFF_UNCOMPRESSED,
         TIFF_NO_PREDICTOR,
         TIFF_CHUNKY,
         TIFF_NO_RESOLUTION,
         {0, 1},
         {0, 1},
         none,
         0,
         &tag,
         0,
         samples,
         2,
         0,
         0},
        {TIFF_GRAY8,
         2,
         2,
         0,
         16,
         16,
         method,
         TIFF_NO_PREDICTOR,
         TIFF_CHUNKY,
         TIFF_INCH,
         {300, 1},
         {300, 1},
         none,
         0,
         &tag,
         1,
         samples,
         4,
         1,
         0},
    };
    if (behind)
        return tiff_append_pages(on->file, on->len, pages, 2, to->bytes, ROOM, &to->appended);
    return tiff_write_pages(on->image.version, pages, 2, to->bytes, on->size, &to->number,
                            &to->pages_end);
}

static tiff_status write_pages(const struct input *on, struct result *to) {
    return pages_into(on, to, TIFF_PACKBITS, 0);
}

static tiff_status refused_pages(const struct input *on, struct result *to) {
    return pages_into(on, to, 5, 0);
}

/* Two pages one of which has a tag of one's own, as the bytes of the frame and the samples one behind
   the other: where memory is short, all bytes are in the frame. */
static tiff_status pages_frame(const struct input *on, struct result *to) {
    static const uint8_t words[] = "words", samples[] = {1, 2, 3, 4};
    static const uint16_t none[1];
    static uint8_t around[ROOM];
    const struct tiff_new_tag tag = {270, 2, sizeof words, words, sizeof words};
    struct tiff_new_page pages[2] = {{.color = TIFF_GRAY8,
                                      .width = 2,
                                      .height = 1,
                                      .method = TIFF_UNCOMPRESSED,
                                      .predictor = TIFF_NO_PREDICTOR,
                                      .planar = TIFF_CHUNKY,
                                      .extra_samples = none,
                                      .tags = &tag,
                                      .tags_len = 1,
                                      .samples = samples,
                                      .samples_len = 2}};
    size_t fronts[2] = {0, 0}, from = 0;
    struct tiff_pages_frame frame;
    pages[1] = pages[0];
    pages[1].height = 2;
    pages[1].samples_len = 4;
    tiff_status status = tiff_pages_frame(on->image.version, pages, 2, around, on->size, fronts, 2,
                                          &frame, &to->pages_end);
    if (status != TIFF_DONE && status != TIFF_INSUFFICIENT_OUTPUT_BUFFER_SIZE) return status;
    to->number = frame.around;
    for (size_t i = 0; i < frame.framed; i++) to->number += pages[i].samples_len;
    if (status != TIFF_DONE) return status;
    uint8_t *at = to->bytes;
    for (size_t i = 0; i < frame.framed; i++) {
        memcpy(at, around + from, fronts[i]);
        memcpy(at + fronts[i], samples, pages[i].samples_len);
        at += fronts[i] + pages[i].samples_len;
        from += fronts[i];
    }
    memcpy(at, around + from, frame.around - from);
    return status;
}

static tiff_status append_pages(const struct input *on, struct result *to) {
    return pages_into(on, to, TIFF_PACKBITS, 1);
}

static tiff_status fault_text(const struct input *on, struct result *to) {
    (void)on;
    to->number = tiff_fault_text(TIFF_OUT_OF_MEMORY, to->bytes, ROOM);
    return TIFF_DONE;
}

static const struct call readers[] = {
    {"tiff_page_count", ALL, page_count},
    {"tiff_page_sides", ALL, page_sides},
    {"tiff_read_image_bytes", BUT_BYTES, image_bytes},
    {"tiff_page_layout", ALL, page_layout},
    {"tiff_page_color", ALL, page_color},
    {"tiff_page_samples", ALL, page_samples},
    {"tiff_page_chunks", ALL, page_chunks},
    {"tiff_list_pages", BUT_COUNT, list_pages},
    {"tiff_list_directories", BUT_COUNT, list_directories},
    {"tiff_read_chunk_bytes", BUT_BYTES, chunk_bytes},
    {"tiff_read_chunks", BUT_BYTES, two_chunks},
    {"tiff_page_plan", ALL, page_plan},
    {"tiff_read_planned_chunk", BUT_BYTES, planned_chunk},
    {"tiff_read_planned_chunks", BUT_BYTES, planned_chunks},
    {"tiff_chunk_place", ALL, chunk_place},
    {"tiff_rewrite_chunk", ALL, rewrite_chunk},
    {"tiff_list_pages_in", BUT_COUNT, list_pages_in},
    {"tiff_list_directories_in", BUT_COUNT, list_directories_in},
    {"tiff_list_tags_in", ALL, list_tags_in},
    {"tiff_tag_bytes_in", BUT_BYTES, tag_bytes_in},
    {"tiff_page_plan_in", ALL, page_plan_in},
    {"tiff_read_planned_chunk_in", BUT_BYTES, planned_chunk_in},
    {"tiff_read_planned_chunks_in", BUT_BYTES, planned_chunks_in},
    {"tiff_append_pages", BUT_APPENDED, append_pages},
    {"tiff_page_sides (of an offset)", ALL, sides_at},
    {"tiff_read_coding_unit_bytes", BUT_BYTES, unit_bytes},
    {"tiff_tag_field", ALL, width_field},
    {"tiff_tag_number (256)", ALL, width_number},
    {"tiff_tag_number (259)", ALL, method_number},
    {"tiff_tag_bytes (258)", BUT_BYTES, bits_bytes},
    {"tiff_tag_bytes (273)", BUT_BYTES, offset_bytes},
    {"tiff_tag_numbers (258)", ALL, bits_numbers},
    {"tiff_tag_numbers (273)", ALL, offset_numbers},
    {"tiff_tag_floats (33550)", ALL, scale_floats},
    {"tiff_tag_text (270)", ALL, description_text},
    {"tiff_tag_text (305)", ALL, software_text},
    {"tiff_list_tags", ALL, list_tags},
    {"tiff_byte_order", ALL, byte_order},
    {"tiff_fault_text", ALL, fault_text},
};
static const struct call writers[] = {
    {"tiff_write_image", ALL, write_image},
    {"tiff_image_frame", ALL, image_frame},
};
static const struct call job_writers[] = {
    {"tiff_write_jobs", BUT_END, write_jobs},
    {"tiff_write_jobs (refused)", BUT_END, refused_jobs},
    {"tiff_write_pages", BUT_PAGE, write_pages},
    {"tiff_write_pages (refused)", BUT_PAGE, refused_pages},
    {"tiff_pages_frame", BUT_PAGE, pages_frame},
};

/* == A request that is refused */

static size_t refused_at;
static _Bool refuses_all;

_Bool is_refused(void) {
    return refused_at &&
           (counts->requests == refused_at || (refuses_all && counts->requests > refused_at));
}

static struct result pattern, good, got;

/* Makes a call, with the request of this number refused, or none. */
static tiff_status made(const struct call *call, const struct input *on, struct result *to,
                        size_t at, _Bool all) {
    memset(to, PATTERN, sizeof *to);
    *counts = (struct counts){.peak = counts->peak};
    refused_at = at;
    refuses_all = all;
    tiff_status status = call->make(on, to);
    refused_at = 0;
    return status;
}

static _Bool stays(enum left left) {
    struct result want = pattern;
    if (left == BUT_COUNT) want.number = 0;
    if (left == BUT_END) want.end = (struct tiff_jobs_end){0, got.end.job};
    if (left == BUT_PAGE) want.pages_end = got.pages_end;
    if (left == BUT_APPENDED) {
        /* the values of the bytes between its fields are not specified */
        want.appended = got.appended;
        if (got.appended.len || got.appended.link || got.appended.target || got.appended.width)
            return 0;
    }
    if (left == BUT_BYTES)
        for (size_t at = 0; at < ROOM; at++) want.bytes[at] = got.bytes[at];
    return memcmp(&want, &got, sizeof got) == 0;
}

static _Bool is_well = 1;
static size_t made_calls, requests, refused, without, shown;

static void wrong(const struct call *call, const struct input *on, size_t at, _Bool all,
                  const char *what, tiff_status status) {
    is_well = 0;
    if (++shown > SHOWN) return;
    dprintf(2, "memory/run: %s of %s, page %zu, color %u, request %zu%s: %s (status %u)\n",
            call->name, on->name, on->page, on->image.color, at, all ? " and all behind it" : "",
            what, status);
}

static void refuse(const struct call *call, const struct input *on, tiff_status status, size_t at,
                   _Bool all) {
    tiff_status other = made(call, on, &got, at, all);
    _Bool is_same = other == status && memcmp(&good, &got, sizeof got) == 0;
    if (is_same && !all) without++;
    else if (other != TIFF_OUT_OF_MEMORY)
        wrong(call, on, at, all, "it doesn't return out of memory", other);
    else if (!stays(call->left)) wrong(call, on, at, all, "what has to stay is changed", other);
    if (counts->blocks) wrong(call, on, at, all, "a block is left behind", other);
    other = made(call, on, &got, 0, 0);
    if (other != status || memcmp(&good, &got, sizeof got) != 0)
        wrong(call, on, at, all, "made again, it returns something else", other);
}

static void try_call(const struct call *call, const struct input *on) {
    tiff_status status = made(call, on, &good, 0, 0);
    size_t last = counts->requests;
    if (counts->blocks) wrong(call, on, 0, 0, "a block is left behind", status);
    if (memcmp(good.guard, pattern.guard, GUARD) != 0)
        wrong(call, on, 0, 0, "bytes behind the buffer are changed", status);
    for (size_t at = 1; at <= last; at++) {
        refuse(call, on, status, at, 0);
        refuse(call, on, status, at, 1);
    }
    made_calls++;
    requests += last;
    refused += 2 * last;
}

static void report(const struct call *call) {
    dprintf(1,
            "%s: %zu calls, %zu requests refused in turn: %zu answered out of memory, %zu done "
            "without; peak %zu bytes\n",
            call->name, made_calls, requests, requests - without, without, counts->peak);
    if (shown) dprintf(2, "memory/run: %s: %zu errors\n", call->name, shown);
    made_calls = requests = without = shown = counts->peak = 0;
}

/* == What the calls are made on */

static struct input read_file(const char *name) {
    int file = open(name, 0);
    long len = file < 0 ? -1 : lseek(file, 0, 2);
    uint8_t *bytes = len < 0 ? NULL : malloc((size_t)len + 1);
    if (!bytes || lseek(file, 0, 0) || read(file, bytes, (size_t)len) != len) {
        dprintf(2, "memory/run: %s can't be read\n", name);
        return (struct input){.name = NULL};
    }
    close(file);
    return (struct input){.name = name, .file = bytes, .len = (size_t)len};
}

static void try_pages(const struct call *call, const char *name) {
    struct input on = read_file(name);
    is_well = is_well && on.name;
    for (; on.name && on.page < PAGES; on.page++) {
        on.plan = (struct tiff_page_plan){0};
        tiff_page_plan(on.file, on.len, on.page, &on.plan);
        try_call(call, &on);
    }
    free((void *)on.file);
}

/* An image of 5 by 3 pixels, in a buffer that is long enough and in one that is too short. */
static void try_image(const struct call *writer, struct tiff_image image) {
    static uint8_t samples[5 * 3 * 4 * 8];
    for (size_t at = 0; at < sizeof samples; at++) samples[at] = (uint8_t)(at / 3);
    for (size_t size = 0; size <= ROOM; size += ROOM) {
        struct input on = {.name = "an image",
                           .file = samples,
                           .len = sizeof samples,
                           .image = image,
                           .size = size};
        try_call(writer, &on);
    }
}

static void try_color(const struct call *writer, uint32_t color) {
    for (uint16_t version = TIFF_CLASSIC; version <= TIFF_BIG; version++)
        for (uint16_t predictor = TIFF_NO_PREDICTOR; predictor <= TIFF_HORIZONTAL; predictor++) {
            try_image(writer,
                      (struct tiff_image){color, 5, 3, version, TIFF_UNCOMPRESSED, predictor});
            try_image(writer, (struct tiff_image){color, 5, 3, version, TIFF_PACKBITS, predictor});
        }
}

/* Whether a number is that of a color type. No other number of this image is refused so. */
static _Bool is_color(uint32_t color) {
    static const uint8_t sample;
    struct input on = {.name = "an image",
                       .file = &sample,
                       .len = 1,
                       .image = {color, 1, 1, TIFF_CLASSIC, TIFF_UNCOMPRESSED, TIFF_NO_PREDICTOR}};
    return made(&writers[0], &on, &got, 0, 0) != TIFF_INVALID_INPUT;
}

/* Jobs, in a buffer that is long enough and in one that is too short. */
static void try_jobs(const struct call *call) {
    for (uint16_t version = TIFF_CLASSIC; version <= TIFF_BIG; version++)
        for (size_t size = 0; size <= ROOM; size += ROOM) {
            struct input on = {.name = "jobs", .image = {.version = version}, .size = size};
            try_call(call, &on);
        }
}

int main(int argc, char **argv) {
    memset(&pattern, PATTERN, sizeof pattern);
    alarm(SECONDS);
    for (size_t call = 0; call < sizeof readers / sizeof *readers; call++) {
        for (int at = 1; at < argc; at++) try_pages(&readers[call], argv[at]);
        report(&readers[call]);
    }
    for (size_t call = 0; call < sizeof writers / sizeof *writers; call++) {
        /* each color, and the first number that is none */
        uint32_t color = TIFF_GRAY8;
        do try_color(&writers[call], color);
        while (is_color(color++));
        report(&writers[call]);
    }
    for (size_t call = 0; call < sizeof job_writers / sizeof *job_writers; call++) {
        try_jobs(&job_writers[call]);
        report(&job_writers[call]);
    }
    dprintf(1, "tiff_c: %zu requests refused, each then made again\n", refused);
    return is_well ? 0 : 1;
}
