/* Preloaded into a program, this refuses one of its requests for memory: that whose number, counted
 * from 1, stands in REFUSE_ALLOC. malloc and its like then answer NULL. The name of the call and the
 * bytes that it asked for go to the file REFUSE_LOG, so a run that leaves none made fewer requests.
 * Without REFUSE_ALLOC nothing is refused. */
#include <errno.h>
#include <fcntl.h>
#include <stdio.h>
#include <stdlib.h>
#include <unistd.h>

/* The calls of the C library (glibc), by the names that it keeps for those who stand before it. */
void *__libc_malloc(size_t);
void *__libc_calloc(size_t, size_t);
void *__libc_realloc(void *, size_t);
void *__libc_memalign(size_t, size_t);

static unsigned long made;

/* Counts a request, and tells whether it is the one to refuse. */
static int refused(const char *call, size_t bytes) {
    const char *wanted = getenv("REFUSE_ALLOC");
    const char *log = getenv("REFUSE_LOG");
    char line[64];

    made++;
    if (!wanted || strtoul(wanted, NULL, 10) != made)
        return 0;
    if (log) {
        int file = open(log, O_WRONLY | O_CREAT | O_TRUNC, 0600);
        int length = snprintf(line, sizeof line, "%s %zu\n", call, bytes);
        if (file < 0 || write(file, line, (size_t)length) != length || close(file) != 0)
            _exit(99);
    }
    errno = ENOMEM;
    return 1;
}

void *malloc(size_t bytes) {
    return refused("malloc", bytes) ? NULL : __libc_malloc(bytes);
}

void *calloc(size_t count, size_t bytes) {
    return refused("calloc", count * bytes) ? NULL : __libc_calloc(count, bytes);
}

void *realloc(void *old, size_t bytes) {
    return refused("realloc", bytes) ? NULL : __libc_realloc(old, bytes);
}

void *reallocarray(void *old, size_t count, size_t bytes) {
    size_t all;
    if (__builtin_mul_overflow(count, bytes, &all)) {
        errno = ENOMEM;
        return NULL;
    }
    return realloc(old, all);
}

void *memalign(size_t align, size_t bytes) {
    return refused("memalign", bytes) ? NULL : __libc_memalign(align, bytes);
}

void *aligned_alloc(size_t align, size_t bytes) {
    return refused("aligned_alloc", bytes) ? NULL : __libc_memalign(align, bytes);
}

int posix_memalign(void **place, size_t align, size_t bytes) {
    void *found = refused("posix_memalign", bytes) ? NULL : __libc_memalign(align, bytes);
    if (!found)
        return ENOMEM;
    *place = found;
    return 0;
}
