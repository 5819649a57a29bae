/* refuse < STREAM: each malloc and realloc is refused in turn (linked with -Wl,--wrap=malloc,--wrap=realloc). What
 * was taken is a prefix of the whole output, and valgrind sees that all is freed. */
#include "tests.h"

static long left = -1;
void *__real_malloc(size_t n);
void *__real_realloc(void *at, size_t n);
static int refuses(void) { return left >= 0 && left-- == 0; }
void *__wrap_malloc(size_t n) { return refuses() ? NULL : __real_malloc(n); }
void *__wrap_realloc(void *at, size_t n) { return refuses() ? NULL : __real_realloc(at, n); }

static struct bytes in, whole, part;

/* How many allocations of an open and of feeds there are, each of which is refused in turn. */
static void refuse_each(const struct cut *cut, unsigned *opens, unsigned *feeds) {
    whole.len = 0;
    WANT(run(cut, in.at, in.len, &whole).finish == FMP4_OK);
    append(&part, whole.at, whole.len);
    for (long i = 0;; i++) {
        part.len = 0;
        left = i;
        struct result r = run(cut, in.at, in.len, &part);
        WANT(part.len <= whole.len && (!part.len || memcmp(part.at, whole.at, part.len) == 0));
        if (left >= 0) { left = -1; WANT(!r.open && !r.feed && !r.finish && part.len == whole.len); return; }
        WANT(r.open == FMP4_NO_MEMORY || r.feed == FMP4_NO_MEMORY);
        *opens += r.open != 0;
        *feeds += r.feed != 0;
    }
}

int main(void) {
    static const struct cut cut = {2, FMP4_INDEX | FMP4_SYNC, 5000, 512u << 20, 1u << 20, 97, 777, 0};
    static const struct cut check = {0, 0, 0, 512u << 20, 0, 97, 777, 0};
    static const struct cut boxes = {0, 0, 0, 512u << 20, 1u << 20, 97, 777, FMP4_BOXES};
    unsigned opens = 0, feeds = 0;
    in = read_all(stdin);
    append(&whole, in.at, 1);
    refuse_each(&cut, &opens, &feeds);
    refuse_each(&check, &opens, &feeds);
    refuse_each(&boxes, &opens, &feeds);
    printf("refuse: %u allocations of open and %u of feed, each refused, in a cut, in a check and in a listing of boxes: no memory\n", opens, feeds);
    free(in.at);
    free(whole.at);
    free(part.at);
    return 0;
}
