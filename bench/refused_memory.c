/* A library that stands before the C library, and refuses memory. REFUSE_CALL is the number, from 1, of the one
   request that is refused, and REFUSE_FROM the number from which on all are. REFUSE_FILE is a file whose first byte
   says while a program runs that all requests are refused, where it isn't zero. REFUSE_COUNT is a file that holds the
   number of requests. */
#define _GNU_SOURCE
#include <errno.h>
#include <fcntl.h>
#include <limits.h>
#include <stdatomic.h>
#include <stdlib.h>
#include <sys/mman.h>
#include <unistd.h>

static long own_count;
static atomic_long refused_call = -1;
static long refused_from = LONG_MAX;
static _Atomic(long) *calls = (_Atomic(long) *)&own_count;
static volatile char *flag;

extern void *__libc_malloc(size_t size);
extern void *__libc_calloc(size_t count, size_t size);
extern void *__libc_realloc(void *old, size_t size);
extern void *__libc_memalign(size_t align, size_t size);

/* The first bytes of the file that an environment variable names, or NULL. */
static void *file_of(const char *variable, int flags, int protection, size_t size) {
    const char *path = getenv(variable);
    if (path == NULL) {
        return NULL;
    }
    int file = open(path, flags | O_CLOEXEC, 0600);
    if (file < 0 || ((flags & O_CREAT) != 0 && ftruncate(file, size) != 0)) {
        _exit(99);
    }
    void *place = mmap(NULL, size, protection, MAP_SHARED, file, 0);
    close(file);
    return place == MAP_FAILED ? NULL : place;
}

__attribute__((constructor)) static void begin(void) {
    flag = file_of("REFUSE_FILE", O_RDONLY, PROT_READ, 1);
    void *count = file_of("REFUSE_COUNT", O_RDWR | O_CREAT | O_TRUNC, PROT_READ | PROT_WRITE, sizeof(long));
    if (count != NULL) {
        calls = count;
    }
    if (getenv("REFUSE_FROM") != NULL) {
        refused_from = strtol(getenv("REFUSE_FROM"), NULL, 10);
    }
    refused_call = getenv("REFUSE_CALL") == NULL ? 0 : strtol(getenv("REFUSE_CALL"), NULL, 10);
}

static int refuses(void) {
    if (refused_call < 0) {
        return 0;
    }
    long call = atomic_fetch_add(calls, 1) + 1;
    if (call == refused_call || call >= refused_from || (flag != NULL && *flag != 0)) {
        errno = ENOMEM;
        return 1;
    }
    return 0;
}

void *malloc(size_t size) {
    return refuses() ? NULL : __libc_malloc(size);
}

void *calloc(size_t count, size_t size) {
    return refuses() ? NULL : __libc_calloc(count, size);
}

void *realloc(void *old, size_t size) {
    return refuses() ? NULL : __libc_realloc(old, size);
}

void *aligned_alloc(size_t align, size_t size) {
    return refuses() ? NULL : __libc_memalign(align, size);
}

int posix_memalign(void **place, size_t align, size_t size) {
    if (refuses()) {
        return ENOMEM;
    }
    *place = __libc_memalign(align, size);
    return *place == NULL ? ENOMEM : 0;
}
