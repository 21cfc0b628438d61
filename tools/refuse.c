/* Put before the C library's functions (LD_PRELOAD), these refuse one request for memory: the one whose number is in
 * REFUSED, counted from 1, or none where that isn't set; where ONWARD is set, all behind it too. At the end the number of
 * requests is written to the file that REQUESTS names. */
#include <errno.h>
#include <stdio.h>
#include <stdlib.h>

void *__libc_malloc(size_t);
void *__libc_calloc(size_t, size_t);
void *__libc_realloc(void *, size_t);
void *__libc_memalign(size_t, size_t);

static unsigned long requests, refused;
static int onward;

static int is_refused(void) {
    if (++requests == refused || (onward && refused && requests > refused)) {
        errno = ENOMEM;
        return 1;
    }
    return 0;
}

__attribute__((constructor)) static void begin(void) {
    const char *number = getenv("REFUSED");
    refused = number ? strtoul(number, NULL, 10) : 0;
    onward = getenv("ONWARD") != NULL;
    requests = 0;
}

__attribute__((destructor)) static void end(void) {
    const char *path = getenv("REQUESTS");
    const unsigned long met = requests;
    refused = 0;
    FILE *file = path ? fopen(path, "w") : NULL;
    if (file) {
        fprintf(file, "%lu\n", met);
        fclose(file);
    }
}

void *malloc(size_t size) {
    return is_refused() ? NULL : __libc_malloc(size);
}

void *calloc(size_t count, size_t size) {
    return is_refused() ? NULL : __libc_calloc(count, size);
}

void *realloc(void *old, size_t size) {
    return is_refused() ? NULL : __libc_realloc(old, size);
}

void *aligned_alloc(size_t alignment, size_t size) {
    return is_refused() ? NULL : __libc_memalign(alignment, size);
}

int posix_memalign(void **made, size_t alignment, size_t size) {
    if (is_refused() || !(*made = __libc_memalign(alignment, size))) {
        return ENOMEM;
    }
    return 0;
}
