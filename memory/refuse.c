/* Counts what a program asks of the heap between two lines that it prints, `-- call` and `-- end`,
 * and refuses the request of the number REFUSE, counted from one, and all after it where
 * REFUSE_REST is set. At the end it prints how many were asked for and how many were refused.
 * Preloaded by `memory/run`; for programs of one thread. */
#define _GNU_SOURCE
#include <errno.h>
#include <stdio.h>
#include <stdlib.h>
#include <string.h>
#include <sys/syscall.h>
#include <unistd.h>

void *__libc_malloc(size_t size);
void *__libc_calloc(size_t count, size_t size);
void *__libc_realloc(void *block, size_t size);
void *__libc_memalign(size_t alignment, size_t size);

static unsigned long asked, refused, number;
static int is_within, refuses_rest;

__attribute__((constructor)) static void read_words(void) {
    const char *word = getenv("REFUSE");
    number = word ? strtoul(word, NULL, 10) : 0;
    refuses_rest = getenv("REFUSE_REST") != NULL;
}

static int is_refused(void) {
    if (!is_within) return 0;
    asked++;
    if (number == 0 || asked < number || (asked > number && !refuses_rest)) return 0;
    refused++;
    errno = ENOMEM;
    return 1;
}

void *malloc(size_t size) { return is_refused() ? NULL : __libc_malloc(size); }

void *calloc(size_t count, size_t size) {
    return is_refused() ? NULL : __libc_calloc(count, size);
}

void *realloc(void *block, size_t size) {
    return is_refused() ? NULL : __libc_realloc(block, size);
}

void *aligned_alloc(size_t alignment, size_t size) {
    return is_refused() ? NULL : __libc_memalign(alignment, size);
}

int posix_memalign(void **place, size_t alignment, size_t size) {
    if (is_refused()) return ENOMEM;
    void *block = __libc_memalign(alignment, size);
    if (!block) return ENOMEM;
    *place = block;
    return 0;
}

static int is_line(const char *line, const void *bytes, size_t length) {
    return length == strlen(line) && memcmp(bytes, line, length) == 0;
}

ssize_t write(int file, const void *bytes, size_t length) {
    if (file == 1 && is_line("-- end\n", bytes, length)) is_within = 0;
    ssize_t written = syscall(SYS_write, file, bytes, length);
    if (file == 1 && is_line("-- call\n", bytes, length)) is_within = 1;
    return written;
}

__attribute__((destructor)) static void print_counts(void) {
    char line[80];
    int length = snprintf(line, sizeof line, "asked %lu refused %lu\n", asked, refused);
    if (syscall(SYS_write, 2, line, (size_t)length) < 0) _exit(1);
}
