/* The heap for memory.c: counts the blocks that are held and the requests, and refuses the request
 * of a number, counted from one, and all after it where that is wanted. It is preloaded, or linked
 * before the C library, and is for programs of one thread. */
#define _GNU_SOURCE
#include <errno.h>
#include <stddef.h>

void *__libc_malloc(size_t size);
void *__libc_calloc(size_t count, size_t size);
void *__libc_realloc(void *block, size_t size);
void *__libc_memalign(size_t alignment, size_t size);
void __libc_free(void *block);

long heap_held, heap_asked, heap_refused;
static long number;
static int refuses_rest;

/* From now on the request of this number is refused; of 0, none. */
void heap_refuse(long which, int rest) {
    heap_asked = heap_refused = 0;
    number = which;
    refuses_rest = rest;
}

static int is_refused(void) {
    heap_asked++;
    if (number == 0 || heap_asked < number || (heap_asked > number && !refuses_rest)) return 0;
    heap_refused++;
    errno = ENOMEM;
    return 1;
}

static void *held(void *block) {
    heap_held += block != NULL;
    return block;
}

void *malloc(size_t size) { return is_refused() ? NULL : held(__libc_malloc(size)); }

void *calloc(size_t count, size_t size) {
    return is_refused() ? NULL : held(__libc_calloc(count, size));
}

void *aligned_alloc(size_t alignment, size_t size) {
    return is_refused() ? NULL : held(__libc_memalign(alignment, size));
}

void *realloc(void *block, size_t size) {
    if (is_refused()) return NULL;
    void *made = __libc_realloc(block, size);
    heap_held += (made != NULL) - (block != NULL && (made != NULL || size == 0));
    return made;
}

void free(void *block) {
    heap_held -= block != NULL;
    __libc_free(block);
}
