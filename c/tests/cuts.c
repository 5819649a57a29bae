/* cuts < STREAM: the layout of struct fmp4_cut, as other languages declare it; that fmp4_cut_open opens the cut that
 * fmp4_split_open does; and that fmp4_reset begins each cut again. */
#include "tests.h"
#include <stddef.h>

_Static_assert(sizeof(struct fmp4_cut) == 40 && _Alignof(struct fmp4_cut) == 8, "the size of struct fmp4_cut");
_Static_assert(offsetof(struct fmp4_cut, samples) == 0 && offsetof(struct fmp4_cut, duration_ms) == 4, "its limits");
_Static_assert(offsetof(struct fmp4_cut, bytes) == 8 && offsetof(struct fmp4_cut, flags) == 16, "its bytes and flags");
_Static_assert(offsetof(struct fmp4_cut, reserved) == 20, "its reserved words");

enum { LIMIT = 64 << 20, ROOM = 4 << 20 };

static struct bytes in;

/* Feeds the whole stream to one that is open, and ends it. */
static struct bytes fed(struct fmp4_stream *stream) {
    struct bytes out = {0};
    struct fmp4_report report = {0};
    size_t n = 0;
    for (size_t at = 0; at < in.len; at += n) {
        WANT(fmp4_feed(stream, in.at + at, in.len - at, &n) <= FMP4_FULL);
        drain(stream, &out, 4096);
    }
    WANT(fmp4_finish(stream, &report) == FMP4_OK && report.samples > 0);
    drain(stream, &out, 4096);
    return out;
}

static int is_same(struct bytes a, struct bytes b) {
    int same = a.len == b.len && memcmp(a.at, b.at, a.len) == 0;
    free(b.at);
    return same;
}

int main(void) {
    static const struct fmp4_cut cuts[] = {{.samples = 2}, {.samples = 7, .bytes = 2000, .flags = FMP4_INDEX},
        {.samples = 9, .flags = FMP4_INDEX | FMP4_SYNC}, {.samples = 3, .duration_ms = 50},
        {.duration_ms = 200, .flags = FMP4_KEYFRAMES}, {.samples = 1000, .flags = FMP4_KEYFRAMES | FMP4_INDEX}};
    in = read_all(stdin);
    struct bytes before = {0};
    for (size_t i = 0; i < sizeof cuts / sizeof *cuts; i++) {
        const struct fmp4_cut *cut = &cuts[i];
        struct fmp4_stream stream = {0};
        struct fmp4_cut asked = *cut;
        WANT(fmp4_cut_open(&stream, &asked, LIMIT, ROOM) == FMP4_OK);
        memset(&asked, 0xff, sizeof asked); /* the library keeps no pointer to it */
        struct bytes out = fed(&stream);
        WANT(fmp4_reset(&stream) == FMP4_OK && is_same(out, fed(&stream)));
        WANT(fmp4_close(&stream) == FMP4_OK);
        if (!cut->duration_ms && !(cut->flags & FMP4_KEYFRAMES)) {
            WANT(fmp4_split_open(&stream, cut->samples, cut->bytes, cut->flags, LIMIT, ROOM) == FMP4_OK);
            WANT(is_same(out, fed(&stream)) && fmp4_close(&stream) == FMP4_OK);
        }
        WANT(i == 0 || out.len != before.len); /* each is another cut */
        free(before.at);
        before = out;
    }
    free(before.at);
    free(in.at);
    puts("cuts: fmp4_cut_open as fmp4_split_open, and each again after a reset");
    return 0;
}
