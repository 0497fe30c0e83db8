/* Stands before the C library and disturbs a program: allocations of some numbers are refused, or reads of standard input, writes to
   standard output or writes to standard error of some numbers fail or move fewer bytes than was asked. Which ones, and how many calls there
   were, stands in the file that the environment names as DISTURBANCE. The script bench/refused-memory builds and uses this. */

#define _GNU_SOURCE
#include <errno.h>
#include <fcntl.h>
#include <stdint.h>
#include <stdlib.h>
#include <sys/mman.h>
#include <unistd.h>

/* What glibc's calls of these names do, under the names that nothing stands before. */
extern void *__libc_malloc(size_t size);
extern void *__libc_calloc(size_t count, size_t size);
extern void *__libc_realloc(void *old, size_t size);
extern void *__libc_memalign(size_t align, size_t size);
extern ssize_t __read(int file, void *bytes, size_t size);
extern ssize_t __write(int file, const void *bytes, size_t size);

enum kind { ALLOCATION, READ, WRITE, TELL, KINDS };

/* The calls of one kind from a number to another, counted from 1, are disturbed: such a read or write moves so many bytes at most, and fails
   where that is none. No other read or write moves more than a piece. */
struct disturbance {
    int64_t kind, first, last, moved, piece;
    int64_t calls[KINDS];
};

static struct disturbance *disturbance;

/* Before the program's own start. The file stays shared, so that the counts are there however the program ends. */
__attribute__((constructor)) static void begin(void) {
    const char *name = getenv("DISTURBANCE");
    int file = name ? open(name, O_RDWR) : -1;
    void *shared = file < 0 ? MAP_FAILED : mmap(0, sizeof *disturbance, PROT_READ | PROT_WRITE, MAP_SHARED, file, 0);
    if (shared == MAP_FAILED) _exit(100);
    close(file);
    disturbance = shared;
}

/* Counts a call, and says whether it is disturbed. */
static int is_disturbed(enum kind kind) {
    if (!disturbance) return 0;
    int64_t call = ++disturbance->calls[kind];
    return disturbance->kind == kind && disturbance->first <= call && call <= disturbance->last;
}

static int is_refused(void) {
    if (!is_disturbed(ALLOCATION)) return 0;
    errno = ENOMEM;
    return 1;
}

void *malloc(size_t size) { return is_refused() ? 0 : __libc_malloc(size); }

void *calloc(size_t count, size_t size) { return is_refused() ? 0 : __libc_calloc(count, size); }

void *realloc(void *old, size_t size) { return is_refused() ? 0 : __libc_realloc(old, size); }

void *memalign(size_t align, size_t size) { return is_refused() ? 0 : __libc_memalign(align, size); }

void *aligned_alloc(size_t align, size_t size) { return memalign(align, size); }

int posix_memalign(void **place, size_t align, size_t size) {
    void *made = memalign(align, size);
    if (!made) return ENOMEM;
    *place = made;
    return 0;
}

/* How many bytes a call moves that is asked for so many: -1 where it fails. */
static ssize_t moved_of(enum kind kind, size_t size) {
    int64_t most = is_disturbed(kind) ? disturbance->moved : disturbance->piece;
    if (most > 0) return size < (size_t)most ? (ssize_t)size : (ssize_t)most;
    errno = EIO;
    return -1;
}

ssize_t read(int file, void *bytes, size_t size) {
    if (!disturbance || file != STDIN_FILENO) return __read(file, bytes, size);
    ssize_t moved = moved_of(READ, size);
    return moved < 0 ? moved : __read(file, bytes, moved);
}

ssize_t write(int file, const void *bytes, size_t size) {
    if (!disturbance || (file != STDOUT_FILENO && file != STDERR_FILENO)) return __write(file, bytes, size);
    ssize_t moved = moved_of(file == STDOUT_FILENO ? WRITE : TELL, size);
    return moved < 0 ? moved : __write(file, bytes, moved);
}
