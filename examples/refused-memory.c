/* Counts a program's requests of memory, and refuses some. Loaded before the program by LD_PRELOAD.
 *
 * Requests are numbered from 1. REFUSED_FROM to REFUSED_TO are refused. Where COUNTED_IN is set, the number of
 * requests is written to that file at the end. */

#include <errno.h>
#include <stdio.h>
#include <stdlib.h>

extern void *__libc_malloc(size_t);
extern void *__libc_calloc(size_t, size_t);
extern void *__libc_realloc(void *, size_t);
extern void *__libc_memalign(size_t, size_t);

static unsigned long requests, first = 1, last;

static unsigned long number(const char *name, unsigned long otherwise) {
    const char *text = getenv(name);
    return text ? strtoul(text, NULL, 10) : otherwise;
}

__attribute__((constructor)) static void begin(void) {
    first = number("REFUSED_FROM", 1);
    last = number("REFUSED_TO", 0);
    requests = 0;
}

__attribute__((destructor)) static void end(void) {
    unsigned long counted = requests;
    const char *name = getenv("COUNTED_IN");
    FILE *file;
    last = 0;
    if (name && (file = fopen(name, "w"))) {
        fprintf(file, "%lu\n", counted);
        fclose(file);
    }
}

static int is_refused(void) {
    requests++;
    if (requests < first || requests > last)
        return 0;
    errno = ENOMEM;
    return 1;
}

void *malloc(size_t size) {
    return is_refused() ? NULL : __libc_malloc(size);
}

void *calloc(size_t count, size_t size) {
    return is_refused() ? NULL : __libc_calloc(count, size);
}

void *realloc(void *block, size_t size) {
    return is_refused() ? NULL : __libc_realloc(block, size);
}

void *aligned_alloc(size_t alignment, size_t size) {
    return is_refused() ? NULL : __libc_memalign(alignment, size);
}

int posix_memalign(void **block, size_t alignment, size_t size) {
    void *found = is_refused() ? NULL : __libc_memalign(alignment, size);
    if (!found)
        return ENOMEM;
    *block = found;
    return 0;
}
