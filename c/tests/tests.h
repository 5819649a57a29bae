/* What the tests share: a stream in memory, and a cut of it. */
#include <fmp4.h>
#include <stdio.h>
#include <stdlib.h>
#include <string.h>

#define WANT(what) do { if (!(what)) { fprintf(stderr, "%s:%d: %s\n", __FILE__, __LINE__, #what); exit(1); } } while (0)

struct bytes {
    unsigned char *at;
    size_t len, room;
};

/* How a stream is cut, or listed where `listing` says so: an input is `step` bytes, and `take` bytes of output are taken at
 * once. */
struct cut {
    uint32_t samples, flags;
    uint64_t bytes, limit;
    size_t room, step, take;
    uint32_t listing;
};

/* What came of it. */
struct result {
    uint32_t open, feed, finish;
    size_t fed;
    struct fmp4_report report;
};

static inline void append(struct bytes *to, const unsigned char *from, size_t len) {
    if (to->len + len > to->room) {
        to->room = 2 * (to->len + len);
        to->at = realloc(to->at, to->room);
        WANT(to->at);
    }
    memcpy(to->at + to->len, from, len);
    to->len += len;
}

static inline struct bytes read_all(FILE *file) {
    static unsigned char input[65536];
    struct bytes all = {calloc(1, 1), 0, 1};
    for (size_t n; (n = fread(input, 1, sizeof input, file)) > 0;) append(&all, input, n);
    return all;
}

/* Writes the line with which the program reports a fault. */
static inline void print_fault(const struct fmp4_report *report) {
    char type[5] = {0};
    for (int i = 0; i < 4; i++) {
        unsigned char byte = (unsigned char)(report->box_type >> (24 - 8 * i));
        type[i] = byte >= 0x20 && byte < 0x7f ? (char)byte : '?';
    }
    fprintf(stderr, "fmp4: %u %s in %s at %llu\n", (unsigned)report->rule, fmp4_rule_text(report->rule),
            report->has_box_type ? type : "(none)", (unsigned long long)report->offset);
}

/* Takes all that waits: bytes, or records. The buffer is never initialised. */
static inline void drain(struct fmp4_stream *stream, struct bytes *to, size_t take) {
    struct fmp4_fragment fragment;
    unsigned char out[4096];
    size_t n = 0;
    if (take > sizeof out) take = sizeof out;
    do {
        uint32_t answer = fmp4_take(stream, out, take, &n);
        if (answer == FMP4_BAD_LISTING) {
            while (fmp4_next_fragment(stream, &fragment) == FMP4_OK) append(to, (const unsigned char *)&fragment, sizeof fragment);
            return;
        }
        WANT(answer == FMP4_OK);
        append(to, out, n);
    } while (n == take);
}

/* Cuts, checks or lists a stream; its output is appended to `to`, for which there must be room where memory is refused. */
static inline struct result run(const struct cut *cut, const unsigned char *in, size_t len, struct bytes *to) {
    struct fmp4_stream stream = {0};
    struct result r = {0};
    size_t n = 0;
    if (cut->listing) r.open = fmp4_list_open(&stream, cut->listing, cut->limit, cut->room);
    else if (cut->samples) r.open = fmp4_split_open(&stream, cut->samples, cut->bytes, cut->flags, cut->limit, cut->room);
    else r.open = fmp4_check_open(&stream, cut->limit);
    if (r.open) return r;
    while (r.fed < len && r.feed <= FMP4_FULL) {
        r.feed = fmp4_feed(&stream, in + r.fed, len - r.fed < cut->step ? len - r.fed : cut->step, &n);
        r.fed += n;
        if (cut->take) drain(&stream, to, cut->take);
        else if (r.feed == FMP4_FULL) break;
    }
    if (r.feed > FMP4_FULL) {
        uint32_t again = fmp4_feed(&stream, in, len, &n);
        WANT(again == r.feed && n == 0);
        WANT(fmp4_totals(&stream, &r.report) == FMP4_OK);
    } else r.feed = FMP4_OK;
    struct fmp4_report before = r.report;
    r.finish = fmp4_finish(&stream, &r.report);
    if (r.feed) WANT(r.finish == r.feed && memcmp(&before, &r.report, sizeof before) == 0);
    WANT(fmp4_totals(&stream, &before) == FMP4_OK && memcmp(&before, &r.report, sizeof before) == 0);
    drain(&stream, to, 4096);
    WANT(fmp4_close(&stream) == FMP4_OK);
    return r;
}
