// Refuses the allocation whose number is in FAIL_AT, and says so on file descriptor 9. To be preloaded.
#define _GNU_SOURCE
#include <dlfcn.h>
#include <errno.h>
#include <stdlib.h>
#include <unistd.h>

static int is_refused(void) {
    static long which = -1, seen = 0;
    if (which < 0) {
        const char *text = getenv("FAIL_AT");
        which = text ? atol(text) : 0;
    }
    if (which == 0 || ++seen != which) return 0;
    if (write(9, "x", 1) != 1) abort();
    errno = ENOMEM;
    return 1;
}

#define NEXT(name) \
    static __typeof__(name) *next; \
    if (!next) next = dlsym(RTLD_NEXT, #name)

void *malloc(size_t size) {
    NEXT(malloc);
    return is_refused() ? NULL : next(size);
}

void *realloc(void *old, size_t size) {
    NEXT(realloc);
    return is_refused() ? NULL : next(old, size);
}

void *aligned_alloc(size_t align, size_t size) {
    NEXT(aligned_alloc);
    return is_refused() ? NULL : next(align, size);
}

int posix_memalign(void **place, size_t align, size_t size) {
    NEXT(posix_memalign);
    return is_refused() ? ENOMEM : next(place, align, size);
}
