/* Counts the live heap of a program, as malloc rounds its blocks, and prints the peak of it between
 * two askings of the clock, less what lives at the first of them: the largest over all such pairs.
 * Preloaded by `speed/run`; for programs of one thread. */
#define _GNU_SOURCE
#include <malloc.h>
#include <stdio.h>
#include <string.h>
#include <sys/syscall.h>
#include <time.h>
#include <unistd.h>

void *__libc_malloc(size_t size);
void *__libc_calloc(size_t count, size_t size);
void *__libc_realloc(void *block, size_t size);
void *__libc_memalign(size_t alignment, size_t size);
void __libc_free(void *block);

static size_t live, peak, before, largest;
static int is_within;

static void *taken(void *block) {
    if (block) live += malloc_usable_size(block);
    if (live > peak) peak = live;
    return block;
}

void *malloc(size_t size) { return taken(__libc_malloc(size)); }

void *calloc(size_t count, size_t size) { return taken(__libc_calloc(count, size)); }

void *realloc(void *block, size_t size) {
    size_t held = block ? malloc_usable_size(block) : 0;
    void *moved = __libc_realloc(block, size);
    if (moved || size == 0) live -= held;
    return taken(moved);
}

void *aligned_alloc(size_t alignment, size_t size) {
    return taken(__libc_memalign(alignment, size));
}

int posix_memalign(void **place, size_t alignment, size_t size) {
    *place = taken(__libc_memalign(alignment, size));
    return *place ? 0 : 12;
}

void free(void *block) {
    if (block) live -= malloc_usable_size(block);
    __libc_free(block);
}

/* A call begins at the first asking, and ends at the second. */
int clock_gettime(clockid_t clock, struct timespec *time) {
    if (is_within && peak - before > largest) largest = peak - before;
    before = peak = live;
    is_within = !is_within;
    return (int)syscall(SYS_clock_gettime, clock, time);
}

__attribute__((destructor)) static void print_largest(void) {
    char line[32];
    int length = snprintf(line, sizeof line, "peak %zu\n", largest);
    if (write(2, line, (size_t)length) < 0) _exit(1);
}
