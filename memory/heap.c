/* A heap for a proved program, in place of the kit's: it counts requests, blocks and bytes, and
   refuses a request if is_refused returns so. Each block has its size in front of it. A block that
   grows moves, and what is new or freed holds no old bytes. */
#include "heap.h"

enum { MARK = 0x0b10c, FREED = 0x0f2eed, FILLED = 4096 };

/* What the kit's heap returns: whether there is a block, and where. */
struct tried {
    _Bool ok;
    void *at;
};

struct block {
    size_t size;
    size_t mark;
};

void *malloc(size_t size);
void free(void *at);
void *memcpy(void *to, const void *from, size_t len);
void *memset(void *to, int byte, size_t len);
long write(int to, const void *bytes, size_t len);
_Noreturn void abort(void);

static struct counts own;
struct counts *counts = &own;
static char nothing;

static size_t least(size_t one, size_t other) { return one < other ? one : other; }

static struct block *block_at(void *at) {
    static const char text[] = "heap: what is freed or grows is no block\n";
    struct block *block = (struct block *)at - 1;
    if (block->mark != MARK) {
        write(2, text, sizeof text - 1);
        abort();
    }
    return block;
}

static void *new_block(size_t size, size_t align) {
    counts->requests++;
    if (is_refused()) return NULL;
    struct block *block = malloc(sizeof *block + (size ? size : align));
    if (!block) return NULL;
    *block = (struct block){size, MARK};
    memset(block + 1, 0xa5, least(size, FILLED));
    counts->blocks++;
    counts->bytes += size;
    if (counts->bytes > counts->peak) counts->peak = counts->bytes;
    return block + 1;
}

void rattle_dealloc(void *at) {
    struct block *block = block_at(at);
    counts->blocks--;
    counts->bytes -= block->size;
    block->mark = FREED;
    memset(at, 0xdd, least(block->size, FILLED));
    free(block);
}

static struct tried tried(void *at) { return (struct tried){at != NULL, at ? at : &nothing}; }

struct tried rattle_alloc(size_t size, size_t align) {
    return tried(new_block(size, align));
}

struct tried rattle_realloc(void *at, size_t kept, size_t size, size_t align) {
    struct block *old = block_at(at);
    void *new = new_block(size, align);
    if (new) {
        memcpy(new, at, least(kept, least(old->size, size)));
        rattle_dealloc(at);
    }
    return tried(new);
}
