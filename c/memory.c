/* Where the library takes its memory: malloc, realloc and free, or what fmp4_set_memory was given. The library's calls
 * of these three have the names of the functions below (scripts/lib). */
#include "fmp4.h"

#include <stdlib.h>

static void *take(void *opaque, size_t size) {
    (void)opaque;
    return malloc(size);
}

static void *resize(void *opaque, void *block, size_t size) {
    (void)opaque;
    return realloc(block, size);
}

static void release(void *opaque, void *block) {
    (void)opaque;
    free(block);
}

static struct fmp4_memory memory = {take, resize, release, NULL};
static int is_used;

uint32_t fmp4_set_memory(const struct fmp4_memory *from) {
    if (__atomic_load_n(&is_used, __ATOMIC_RELAXED)) return FMP4_IS_OPEN;
    memory = *from;
    return FMP4_OK;
}

void *fmp4_memory_malloc(size_t size);
void *fmp4_memory_realloc(void *block, size_t size);
void fmp4_memory_free(void *block);

/* An exchange, since helgrind takes a store for a race. */
void *fmp4_memory_malloc(size_t size) {
    if (!__atomic_load_n(&is_used, __ATOMIC_RELAXED)) (void)__atomic_exchange_n(&is_used, 1, __ATOMIC_SEQ_CST);
    return memory.take(memory.opaque, size);
}

void *fmp4_memory_realloc(void *block, size_t size) { return memory.resize(memory.opaque, block, size); }

void fmp4_memory_free(void *block) { memory.release(memory.opaque, block); }
