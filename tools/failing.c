/* Put before the C library's functions (LD_PRELOAD), these make one call to the system fail: among those of the kind that KIND
 * names, the one whose number is in FAILING, counted from 1, with the error of the number in ERROR; a write with ERROR 0 takes
 * nothing. Where MOST is set, a read or a write takes at most so many bytes, and where LONGER is, each file is told to be so many
 * bytes longer than it is. At the end a line for each kind, with its number of calls, is written to the file that CALLS names. */
#define _GNU_SOURCE
#include <dlfcn.h>
#include <errno.h>
#include <fcntl.h>
#include <stdarg.h>
#include <stdio.h>
#include <stdlib.h>
#include <string.h>
#include <sys/stat.h>
#include <sys/types.h>
#include <unistd.h>

enum kind { READ, WRITE, OPEN, STATE, PLACE, MODE, SYNC, CLOSE, RENAME, REMOVE, KINDS };
static const char *const names[KINDS] = {"read", "write", "open", "state", "place", "mode", "sync", "close", "rename", "remove"};
static unsigned long calls[KINDS], failing;
static size_t most = (size_t)-1;
static long longer;
static int error, chosen = KINDS;

__attribute__((constructor)) static void begin(void) {
    const char *kind = getenv("KIND"), *number = getenv("FAILING"), *with = getenv("ERROR"), *bytes = getenv("MOST"),
               *more = getenv("LONGER");
    for (int k = 0; kind && k < KINDS; ++k) {
        if (!strcmp(kind, names[k])) {
            chosen = k;
        }
    }
    failing = number ? strtoul(number, NULL, 10) : 0;
    error = with ? atoi(with) : EIO;
    most = bytes ? strtoul(bytes, NULL, 10) : most;
    longer = more ? atol(more) : 0;
}

__attribute__((destructor)) static void end(void) {
    const char *path = getenv("CALLS");
    unsigned long met[KINDS];
    memcpy(met, calls, sizeof met);
    FILE *file = path ? fopen(path, "w") : NULL;
    for (int k = 0; file && k < KINDS; ++k) {
        fprintf(file, "%s %lu\n", names[k], met[k]);
    }
    if (file) {
        fclose(file);
    }
}

static int fails(enum kind kind) {
    if (++calls[kind] != failing || (int)kind != chosen) {
        return 0;
    }
    errno = error;
    return 1;
}

#define REAL(name) ((__typeof__(&name))dlsym(RTLD_NEXT, #name))
#define LESS(length) ((length) < most ? (length) : most)

ssize_t read(int file, void *bytes, size_t length) {
    return fails(READ) ? -1 : REAL(read)(file, bytes, LESS(length));
}

ssize_t write(int file, const void *bytes, size_t length) {
    return fails(WRITE) ? (error ? -1 : 0) : REAL(write)(file, bytes, LESS(length));
}

int open(const char *path, int flags, ...) {
    va_list more;
    va_start(more, flags);
    const mode_t mode = flags & O_CREAT ? va_arg(more, mode_t) : 0;
    va_end(more);
    return fails(OPEN) ? -1 : REAL(open)(path, flags, mode);
}

int statx(int folder, const char *path, int flags, unsigned mask, struct statx *about) {
    const int told = fails(STATE) ? -1 : REAL(statx)(folder, path, flags, mask, about);
    if (!told && about->stx_size) {
        about->stx_size += longer;
    }
    return told;
}

char *realpath(const char *path, char *place) {
    return fails(PLACE) ? NULL : REAL(realpath)(path, place);
}

int fchmod(int file, mode_t mode) {
    return fails(MODE) ? -1 : REAL(fchmod)(file, mode);
}

int fsync(int file) {
    return fails(SYNC) ? -1 : REAL(fsync)(file);
}

int fdatasync(int file) {
    return fails(SYNC) ? -1 : REAL(fdatasync)(file);
}

/* A close that fails has closed. */
int close(int file) {
    const int closed = REAL(close)(file);
    return fails(CLOSE) ? -1 : closed;
}

int rename(const char *from, const char *to) {
    return fails(RENAME) ? -1 : REAL(rename)(from, to);
}

int unlink(const char *path) {
    return fails(REMOVE) ? -1 : REAL(unlink)(path);
}
