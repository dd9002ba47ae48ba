// Preloaded into a program: its FAIL_ALLOC-th call of malloc or realloc, from 1, finds no memory. Writes a line to the file that
// FAIL_ALLOC_LOG names when it does.
#define _GNU_SOURCE
#include <dlfcn.h>
#include <fcntl.h>
#include <stdlib.h>
#include <unistd.h>

static long calls;

// whether this call is the one that is to fail
static int fails(void) {
    static long wanted = -1;
    if (wanted < 0) {
        const char *text = getenv("FAIL_ALLOC");
        wanted = text ? atol(text) : 0;
    }
    if (++calls != wanted) {
        return 0;
    }
    const char *log = getenv("FAIL_ALLOC_LOG");
    int file = log ? open(log, O_WRONLY | O_CREAT | O_TRUNC, 0644) : -1;
    if (file >= 0 && write(file, "failed\n", 7) == 7) {
        close(file);
    }
    return 1;
}

void *malloc(size_t size) {
    static void *(*next)(size_t);
    if (!next) {
        *(void **)&next = dlsym(RTLD_NEXT, "malloc");
    }
    return fails() ? NULL : next(size);
}

void *realloc(void *old, size_t size) {
    static void *(*next)(void *, size_t);
    if (!next) {
        *(void **)&next = dlsym(RTLD_NEXT, "realloc");
    }
    return fails() ? NULL : next(old, size);
}
