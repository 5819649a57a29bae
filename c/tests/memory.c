/* memory < STREAM: the library takes its memory from the functions that fmp4_set_memory was given, and from nothing
 * else: malloc, realloc and free are wrapped (-Wl,--wrap), or libfmp4.so is linked, and SHARED defined. Each allocation
 * is refused in turn, after which all is released; then other functions aren't accepted. */
#include "tests.h"

static struct bytes in, whole, part;
static size_t blocks, live, most, calls;
static long left = -1;
static int key;

#ifdef SHARED
#define __real_malloc malloc
#define __real_realloc realloc
#define __real_free free
static void inside(int is) { (void)is; }
#else
static int is_inside;
void *__real_malloc(size_t size);
void *__real_realloc(void *at, size_t size);
void __real_free(void *at);
void *__wrap_malloc(size_t size) { WANT(!is_inside); return __real_malloc(size); }
void *__wrap_realloc(void *at, size_t size) { WANT(!is_inside); return __real_realloc(at, size); }
void __wrap_free(void *at) { WANT(!is_inside); __real_free(at); }
static void inside(int is) { is_inside = is; }
#endif

/* A block begins with its size, and is aligned as malloc aligns. */
struct block {
    size_t size;
    size_t unused;
};

static int refuses(size_t size) {
    WANT(size > 0);
    calls++;
    return left >= 0 && left-- == 0;
}

static void *counted(struct block *block, size_t size) {
    block->size = size;
    live += size;
    if (live > most) most = live;
    return block + 1;
}

static void *take(void *opaque, size_t size) {
    WANT(opaque == &key);
    struct block *block = refuses(size) ? NULL : __real_malloc(sizeof *block + size);
    if (!block) return NULL;
    blocks++;
    return counted(block, size);
}

static void *resize(void *opaque, void *at, size_t size) {
    WANT(opaque == &key && at);
    struct block *block = (struct block *)at - 1;
    size_t before = block->size;
    block = refuses(size) ? NULL : __real_realloc(block, sizeof *block + size);
    if (!block) return NULL;
    live -= before;
    return counted(block, size);
}

static void release(void *opaque, void *at) {
    WANT(opaque == &key && at);
    struct block *block = (struct block *)at - 1;
    blocks--;
    live -= block->size;
    __real_free(block);
}

static struct result run_inside(const struct cut *cut, struct bytes *to) {
    to->len = 0;
    inside(1);
    struct result r = run(cut, in.at, in.len, to);
    inside(0);
    WANT(blocks == 0 && live == 0);
    return r;
}

/* How many allocations there are, each of which is refused in turn: what came before is a prefix. */
static unsigned refuse_each(const struct cut *cut) {
    unsigned refused = 0;
    most = 0;
    struct result all = run_inside(cut, &whole);
    WANT(all.finish == FMP4_OK && most >= cut->room + all.report.peak);
    WANT(most <= cut->room + all.report.peak + (24u << 10));
    for (;; refused++) {
        left = refused;
        struct result r = run_inside(cut, &part);
        WANT(part.len <= whole.len && (!part.len || memcmp(part.at, whole.at, part.len) == 0));
        if (left >= 0) break;
        WANT(r.open == FMP4_NO_MEMORY || r.feed == FMP4_NO_MEMORY);
    }
    left = -1;
    WANT(part.len == whole.len && refused > 2);
    return refused;
}

int main(void) {
    static const struct fmp4_memory ours = {take, resize, release, &key}, none = {0};
    static const struct cut cuts[] = {{2, FMP4_INDEX, 0, 2u << 20, 1u << 20, 1316, 777, 0},
                                      {0, 0, 0, 1u << 20, 0, 97, 777, 0},
                                      {0, 0, 0, 2u << 20, 1u << 20, 97, 777, FMP4_RECORDS},
                                      {0, 0, 0, 2u << 20, 1u << 20, 97, 777, FMP4_BOXES}};
    unsigned refused = 0;
    in = read_all(stdin);
    whole.at = malloc(whole.room = 1u << 20);
    part.at = malloc(part.room = 1u << 20);
    WANT(whole.at && part.at && in.len < 1u << 18);
    WANT(fmp4_set_memory(&none) == FMP4_OK && fmp4_set_memory(&ours) == FMP4_OK);
    for (int i = 0; i < 4; i++) refused += refuse_each(&cuts[i]);
    size_t before = calls;
    WANT(fmp4_set_memory(&none) == FMP4_IS_OPEN);
    WANT(run_inside(&cuts[0], &whole).finish == FMP4_OK && calls > before);
    printf("memory: %zu calls of the program's own functions, %u of them refused, in a cut, a check and listings\n",
           calls, refused);
    free(in.at);
    free(whole.at);
    free(part.at);
    return 0;
}
