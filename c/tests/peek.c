/* peek < STREAM: output that is copied and dropped in parts, as they are sent, is what is taken of the same stream. */
#include "tests.h"

static struct bytes in, taken, sent;

static size_t waits(struct fmp4_stream *stream) {
    size_t n = 0;
    WANT(fmp4_pending(stream, &n) == FMP4_OK);
    return n;
}

/* Sends what waits in parts of up to `most` bytes, of which every third goes only by half. */
static unsigned long long send_all(struct fmp4_stream *stream, size_t most) {
    static unsigned char out[4096], again[4096];
    unsigned long long parts = 0;
    size_t before = waits(stream), n = 0, m = 0, gone = 0;
    while (before > 0) {
        memset(out, 7, sizeof out);
        WANT(fmp4_peek(stream, out, most, &n) == FMP4_OK && n == (before < most ? before : most) && waits(stream) == before);
        for (size_t i = n; i < sizeof out; i++) WANT(out[i] == 7);
        WANT(fmp4_peek(stream, again, most, &m) == FMP4_OK && m == n && memcmp(out, again, n) == 0);
        size_t goes = parts++ % 3 == 2 ? n / 2 : n;
        WANT(fmp4_skip(stream, goes, &gone) == FMP4_OK && gone == goes);
        append(&sent, out, goes);
        WANT(waits(stream) == before - goes);
        before -= goes;
    }
    WANT(fmp4_peek(stream, out, sizeof out, &n) == FMP4_OK && n == 0 && fmp4_skip(stream, 5, &gone) == FMP4_OK && gone == 0);
    return parts;
}

static unsigned long long by(size_t most, size_t step) {
    struct fmp4_stream stream = {0};
    struct fmp4_report report = {0};
    unsigned long long parts = 0;
    size_t fed = 0, gone = 0;
    sent.len = 0;
    WANT(fmp4_split_open(&stream, 2, 0, FMP4_INDEX, 64u << 20, 1u << 20) == FMP4_OK);
    for (size_t at = 0; at < in.len; at += fed) {
        WANT(fmp4_feed(&stream, in.at + at, in.len - at < step ? in.len - at : step, &fed) == FMP4_OK);
        parts += send_all(&stream, most);
    }
    WANT(fmp4_finish(&stream, &report) == FMP4_OK);
    parts += send_all(&stream, most);
    WANT(sent.len == taken.len && memcmp(sent.at, taken.at, sent.len) == 0);
    /* More than waits is all that waits. */
    WANT(fmp4_reset(&stream) == FMP4_OK && fmp4_feed(&stream, in.at, 1000, &fed) == FMP4_OK && fed == 1000);
    size_t all = waits(&stream);
    WANT(all > 0 && fmp4_skip(&stream, SIZE_MAX, &gone) == FMP4_OK && gone == all && waits(&stream) == 0);
    WANT(fmp4_close(&stream) == FMP4_OK);
    return parts;
}

int main(void) {
    struct cut cut = {2, FMP4_INDEX, 0, 64u << 20, 1u << 20, 65536, 4096, 0};
    unsigned long long parts = 0;
    in = read_all(stdin);
    WANT(run(&cut, in.at, in.len, &taken).finish == FMP4_OK && taken.len > in.len);
    static const size_t most[] = {1, 100, 4096};
    for (int i = 0; i < 3; i++) parts += by(most[i], 97) + by(most[i], 65536);
    printf("peek: %llu parts that are copied, and then dropped\n", parts);
    free(in.at);
    free(taken.at);
    free(sent.at);
    return 0;
}
