/* Loaded before the C library (LD_PRELOAD): the call for memory number FAIL_AT, counted from 1, is refused, and where FAIL_ON is set each later
   one too. How many there were stands in the file COUNTS in the end. */
#include <errno.h>
#include <stdio.h>
#include <stdlib.h>

extern void *__libc_malloc(size_t);
extern void *__libc_calloc(size_t, size_t);
extern void *__libc_realloc(void *, size_t);
extern void *__libc_memalign(size_t, size_t);

static unsigned long calls, at;
static int on;

__attribute__((constructor)) static void begin(void) {
    const char *text = getenv("FAIL_AT");
    at = text ? strtoul(text, 0, 10) : 0;
    on = getenv("FAIL_ON") != 0;
    calls = 0;
}

__attribute__((destructor)) static void end(void) {
    unsigned long counted = calls;
    const char *path = getenv("COUNTS");
    at = 0;
    FILE *file = path ? fopen(path, "w") : 0;
    if (file) {
        fprintf(file, "%lu", counted);
        fclose(file);
    }
}

static int refused(void) {
    calls++;
    if (!at || !(on ? calls >= at : calls == at)) return 0;
    errno = ENOMEM;
    return 1;
}

void *malloc(size_t size) { return refused() ? 0 : __libc_malloc(size); }
void *calloc(size_t count, size_t size) { return refused() ? 0 : __libc_calloc(count, size); }
void *realloc(void *old, size_t size) { return refused() ? 0 : __libc_realloc(old, size); }
void *memalign(size_t align, size_t size) { return refused() ? 0 : __libc_memalign(align, size); }
void *aligned_alloc(size_t align, size_t size) { return refused() ? 0 : __libc_memalign(align, size); }

int posix_memalign(void **out, size_t align, size_t size) {
    if (refused()) return ENOMEM;
    *out = __libc_memalign(align, size);
    return *out ? 0 : ENOMEM;
}
