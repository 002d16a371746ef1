/* Has a proved program run a script once for each request for memory, with that request refused.

   The program's standard input is the script, one line a read; the script of a program that reads
   nothing is empty. At each request a copy of the program, made by fork, goes on in which it is
   refused: alone, and in a second copy with all that follow. A copy reads the line that was under
   way once more (of a list of jobs, all its lines), and then the rest. What copies write goes to
   descriptor 3, and a line on each to descriptor 4: the number of the request, whether all that
   follow are refused too, the offset of its line in the script (-1 if none was read), how long the
   output was, the copy's status as wait gives it, the blocks that it left, and how much all copies
   have written. The last line is on the program itself: its requests, the blocks that it left, and
   the peak of its bytes. In the environment, REFUSED_FROM is the byte of the script from which on
   requests are refused, REFUSED_STEP the number whose multiples are refused, and REFUSED_SECONDS
   how long a copy may take. */
#include "heap.h"

enum { SCRIPT = 0, OUTPUT = 1, COPIES = 3, LOG = 4 };
enum {
    SEEK_CUR = 1,
    SEEK_END = 2,
    READ_PRIVATE = 1 | 2 << 16,
    WRITE_SHARED = 3 | (1 | 32) << 16,
    SYS_READ = 0
};

char *getenv(const char *name);
unsigned long strtoul(const char *digits, char **end, int base);
long lseek(int file, long offset, int from);
void *mmap(void *at, size_t len, int protection, int flags, int file, long offset);
void *memchr(const void *bytes, int byte, size_t len);
void *memcpy(void *to, const void *from, size_t len);
int memcmp(const void *one, const void *other, size_t len);
int dprintf(int to, const char *form, ...);
int dup2(int from, int to);
int fork(void);
int waitpid(int process, int *status, int options);
unsigned alarm(unsigned seconds);
long syscall(long number, ...);
_Noreturn void _exit(int status);

static const char *script, *script_end;
/* What is read next; the line that is under way, or its list of jobs; the line itself. */
static const char *next, *begun, *line;
static _Bool is_list;

static struct counts *shared;
static size_t from, step, seconds;
static _Bool is_copy, refuses_all;

static void *mapped(size_t len, int how, int file) {
    void *at = mmap(NULL, len, how & 0xffff, how >> 16, file, 0);
    if (at == (void *)-1) _exit(120);
    return at;
}

static size_t setting(const char *name, size_t otherwise) {
    const char *digits = getenv(name);
    return digits ? strtoul(digits, NULL, 10) : otherwise;
}

__attribute__((constructor)) static void begin(void) {
    size_t len = (size_t)lseek(SCRIPT, 0, SEEK_END);
    next = script = len ? mapped(len, READ_PRIVATE, SCRIPT) : "";
    script_end = script + len;
    shared = mapped(sizeof *shared, WRITE_SHARED, -1);
    from = setting("REFUSED_FROM", 0);
    step = setting("REFUSED_STEP", 1);
    seconds = setting("REFUSED_SECONDS", 20);
}

__attribute__((destructor)) static void end(void) {
    if (!is_copy) dprintf(LOG, "end %zu %zu %zu\n", counts->requests, counts->blocks, counts->peak);
}

/* In a copy: it writes elsewhere, counts where the program sees it, and reads again the line that
   was under way. */
static void go_on(_Bool all) {
    is_copy = 1;
    refuses_all = all;
    *shared = *counts;
    counts = shared;
    if (begun) next = begun;
    dup2(COPIES, OUTPUT);
    alarm((unsigned)seconds);
}

/* Makes a copy and has it go on; returns 1 in the copy, else 0. */
static _Bool copied(_Bool all) {
    int status = 0, copy = fork();
    if (copy < 0) _exit(121);
    if (copy == 0) {
        go_on(all);
        return 1;
    }
    waitpid(copy, &status, 0);
    dprintf(LOG, "%zu %d %ld %ld %d %zu %ld\n", counts->requests, all,
            (long)(line ? line - script : -1), lseek(OUTPUT, 0, SEEK_CUR), status, shared->blocks,
            lseek(COPIES, 0, SEEK_CUR));
    return 0;
}

_Bool is_refused(void) {
    if (is_copy) return refuses_all;
    if (line ? (size_t)(line - script) < from : from > 0) return 0;
    if (counts->requests % step) return 0;
    return copied(0) || copied(1);
}

static _Bool begins(const char *words, size_t len) {
    return (size_t)(script_end - line) >= len && memcmp(line, words, len) == 0;
}

/* The program's reads: of the script one line, or as much of it as the buffer holds. */
long read(int file, void *buffer, size_t len) {
    if (file != SCRIPT) return syscall(SYS_READ, (long)file, buffer, len);
    if (next == script_end || len == 0) return 0;
    _Bool is_new = next == script || next[-1] == '\n';
    const char *stop = memchr(next, '\n', (size_t)(script_end - next));
    size_t there = (size_t)((stop ? stop + 1 : script_end) - next);
    if (is_new) {
        line = next;
        if (!is_list) begun = line;
        if (begins("jobs", 4)) is_list = 1;
        if (begins("done", 4)) is_list = 0;
    }
    if (there > len) there = len;
    memcpy(buffer, next, there);
    next += there;
    return (long)there;
}
