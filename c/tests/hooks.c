/* What c/memory.c makes of the library's calls for memory, each by itself: those of malloc, realloc and free, and then
 * those of the functions that were set. No stream was seen to resize a block. */
#include "../memory.c"
#include "tests.h"

static struct { int calls; void *block; size_t size; } taken, resized, released;
static int key, blocks[2];

static void *our_take(void *opaque, size_t size) {
    WANT(opaque == &key);
    taken.calls++;
    taken.size = size;
    return &blocks[0];
}

static void *our_resize(void *opaque, void *block, size_t size) {
    WANT(opaque == &key);
    resized.calls++;
    resized.block = block;
    resized.size = size;
    return &blocks[1];
}

static void our_release(void *opaque, void *block) {
    WANT(opaque == &key);
    released.calls++;
    released.block = block;
}

int main(void) {
    static const struct fmp4_memory ours = {our_take, our_resize, our_release, &key};
    char *block = fmp4_memory_malloc(5);
    WANT(block);
    memcpy(block, "abcd", 5);
    block = fmp4_memory_realloc(block, 1 << 20);
    WANT(block && strcmp(block, "abcd") == 0);
    block[(1 << 20) - 1] = 1;
    fmp4_memory_free(block);
    WANT(fmp4_set_memory(&ours) == FMP4_IS_OPEN && memory.opaque == NULL);
    is_used = 0;
    WANT(fmp4_set_memory(&ours) == FMP4_OK && fmp4_memory_malloc(7) == &blocks[0]);
    WANT(fmp4_set_memory(&ours) == FMP4_IS_OPEN && fmp4_memory_realloc(&blocks[0], 9) == &blocks[1]);
    fmp4_memory_free(&blocks[1]);
    WANT(taken.calls == 1 && taken.size == 7 && resized.calls == 1 && resized.block == &blocks[0] && resized.size == 9);
    WANT(released.calls == 1 && released.block == &blocks[1]);
    puts("hooks: malloc, realloc and free, and the functions in their place");
    return 0;
}
