/* lines LISTING INPUT < STREAM: what `fmp4 samples` (1), `fmp4 fragments` (2) or `fmp4 boxes` (4) prints, and its status, by a
 * stream that is listed INPUT bytes at a time. It is listed again by fmp4_feed_take after a reset in mid-stream; in a room
 * of a kilobyte, as far as that serves; and by the limit that its peak says is enough, and by one that is a byte less. */
#include "tests.h"

static struct bytes in;
static uint32_t listing;

static struct result ends(struct fmp4_stream *stream, struct result r, struct bytes *to) {
    struct fmp4_fragment none = {.offset = 7};
    struct fmp4_report before = {0};
    size_t taken = 7;
    WANT(fmp4_next_fragment(stream, &none) == FMP4_BAD_LISTING && none.offset == 7);
    if (r.feed > FMP4_FULL) WANT(fmp4_feed(stream, in.at, in.len, &taken) == r.feed && taken == 0);
    WANT(fmp4_totals(stream, &before) == FMP4_OK && (r.feed == FMP4_FAULT) == (before.rule > 0));
    r.finish = fmp4_finish(stream, &r.report);
    if (r.feed > FMP4_FULL) WANT(r.finish == r.feed && memcmp(&before, &r.report, sizeof before) == 0);
    if (listing == 4) WANT(r.report.fragments == 0 && r.report.samples == 0 && r.report.media_bytes == 0);
    WANT(fmp4_list_open(stream, listing, 1u << 20, 4096) == FMP4_IS_OPEN);
    drain(stream, to, 4096);
    return r;
}

/* Feeds and takes. */
static struct result list(struct fmp4_stream *stream, size_t step, struct bytes *to) {
    struct result r = {0};
    size_t taken = 0;
    while (r.fed < in.len && r.feed <= FMP4_FULL) {
        r.feed = fmp4_feed(stream, in.at + r.fed, in.len - r.fed < step ? in.len - r.fed : step, &taken);
        r.fed += taken;
        drain(stream, to, 777);
    }
    return ends(stream, r, to);
}

/* Feeds and takes at once. */
static struct result pass(struct fmp4_stream *stream, size_t step, struct bytes *to) {
    static unsigned char out[4096];
    struct result r = {0};
    size_t taken = 0, given = 0;
    while ((r.fed < in.len && r.feed <= FMP4_FULL) || given == sizeof out) {
        r.feed = fmp4_feed_take(stream, in.at + r.fed, in.len - r.fed < step ? in.len - r.fed : step, &taken, out, sizeof out, &given);
        r.fed += taken;
        append(to, out, given);
    }
    return ends(stream, r, to);
}

static void same(const struct result *a, const struct result *b, const struct bytes *x, const struct bytes *y) {
    WANT(a->feed == b->feed && a->finish == b->finish && memcmp(&a->report, &b->report, sizeof a->report) == 0);
    WANT(x->len == y->len && memcmp(x->at, y->at, x->len) == 0);
}

/* The limit that is enough, and one that isn't. What was listed by that is a prefix. */
static void limited(size_t step, const struct result *all, const struct bytes *text) {
    enum { ROOM = 64 << 20 };
    for (uint64_t less = 0; less <= (all->report.peak > 0); less++) {
        struct bytes part = {calloc(1, 1), 0, 1};
        struct fmp4_stream stream = {0};
        WANT(fmp4_list_open(&stream, listing, ROOM + all->report.peak - less, ROOM) == FMP4_OK);
        struct result r = list(&stream, step, &part);
        if (less) WANT(r.feed == FMP4_OVER_LIMIT && r.report.peak < all->report.peak && part.len <= text->len && memcmp(part.at, text->at, part.len) == 0);
        else same(all, &r, text, &part);
        WANT(fmp4_close(&stream) == FMP4_OK);
        free(part.at);
    }
}

int main(int argc, char **argv) {
    if (argc != 3) return fputs("lines LISTING INPUT < STREAM\n", stderr), 64;
    listing = (uint32_t)strtoul(argv[1], NULL, 10);
    size_t step = strtoul(argv[2], NULL, 10), taken = 0;
    struct bytes text = {calloc(1, 1), 0, 1}, again = {calloc(1, 1), 0, 1}, part = {calloc(1, 1), 0, 1};
    struct fmp4_stream stream = {0}, small = {0};
    in = read_all(stdin);
    WANT(fmp4_list_open(&stream, listing, 512u << 20, 64u << 20) == FMP4_OK);
    struct result r = list(&stream, step, &text);
    WANT(fmp4_reset(&stream) == FMP4_OK);
    WANT(fmp4_feed(&stream, in.at, in.len / 3, &taken) != FMP4_ENDED && fmp4_reset(&stream) == FMP4_OK);
    struct result passed = pass(&stream, step, &again);
    same(&r, &passed, &text, &again);
    WANT(fmp4_list_open(&small, listing, 512u << 20, 1024) == FMP4_OK);
    struct result parted = list(&small, step, &part);
    if (parted.feed == FMP4_NO_ROOM) WANT(part.len <= text.len && memcmp(part.at, text.at, part.len) == 0);
    else same(&r, &parted, &text, &part);
    limited(step, &r, &text);
    WANT(fmp4_close(&stream) == FMP4_OK && fmp4_close(&small) == FMP4_OK);
    fwrite(text.at, 1, text.len, stdout);
    if (r.finish == FMP4_FAULT) print_fault(&r.report);
    else WANT(r.finish == FMP4_OK && r.fed == in.len);
    free(text.at);
    free(again.at);
    free(part.at);
    free(in.at);
    return r.finish == FMP4_FAULT ? 2 : 0;
}
