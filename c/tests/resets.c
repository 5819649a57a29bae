/* resets < STREAM: what a stream allocates, counted (linked with -Wl,--wrap=malloc,--wrap=realloc). An open allocates the room
 * at once, and no block that is larger; a reset allocates nothing, at the begin of a stream, in it, after each kind of
 * stop and after its end; and then the stream gives what it gave. */
#include "tests.h"

static unsigned long allocations, refused_at;
static size_t largest;
void *__real_malloc(size_t n);
void *__real_realloc(void *at, size_t n);

static int refuses(size_t n) {
    if (n > largest) largest = n;
    return ++allocations == refused_at;
}
void *__wrap_malloc(size_t n) { return refuses(n) ? NULL : __real_malloc(n); }
void *__wrap_realloc(void *at, size_t n) { return refuses(n) ? NULL : __real_realloc(at, n); }

enum { ROOM = 64 << 10, LIMIT = 64 << 20 };
static struct bytes in, whole, again;
static unsigned resets;

/* Resets a stream, which allocates nothing. Its output is lost, and its counts begin anew. */
static void reset(struct fmp4_stream *stream) {
    static const struct fmp4_report none = {0};
    struct fmp4_report report = {0};
    size_t waits = 7;
    unsigned long before = allocations;
    WANT(fmp4_reset(stream) == FMP4_OK && allocations == before);
    WANT(fmp4_totals(stream, &report) == FMP4_OK && memcmp(&report, &none, sizeof none) == 0);
    WANT(fmp4_pending(stream, &waits) == FMP4_OK && waits == 0);
    resets++;
}

/* The whole stream, by which a cut gives several times the room. */
static void feed_all(struct fmp4_stream *stream, struct bytes *to) {
    struct fmp4_report report = {0};
    size_t taken = 0;
    to->len = 0;
    for (size_t at = 0; at < in.len; at += taken) {
        WANT(fmp4_feed(stream, in.at + at, in.len - at < 1316 ? in.len - at : 1316, &taken) <= FMP4_FULL);
        drain(stream, to, 777);
    }
    WANT(fmp4_finish(stream, &report) == FMP4_OK);
    drain(stream, to, 777);
}

/* Feeds by few bytes, so that boxes are held, and takes nothing, until the input ends or the answer isn't FMP4_OK. */
static uint32_t fill(struct fmp4_stream *stream, size_t len) {
    uint32_t answer = FMP4_OK;
    size_t taken = 0;
    for (size_t at = 0; at < len && answer == FMP4_OK; at += taken)
        answer = fmp4_feed(stream, in.at + at, len - at < 97 ? len - at : 97, &taken);
    return answer;
}

/* For a listing; 5 is a cut here, and 0 a check. */
static uint32_t open_for(struct fmp4_stream *stream, uint32_t listing) {
    if (listing == 5) return fmp4_split_open(stream, 2, 0, FMP4_INDEX, LIMIT, ROOM);
    return listing ? fmp4_list_open(stream, listing, LIMIT, ROOM) : fmp4_check_open(stream, LIMIT);
}

/* A stream that was just opened is reset in each state. */
static void reset_in_each_state(struct fmp4_stream *stream, uint32_t listing) {
    struct fmp4_report report = {0};
    uint64_t takes = 0, room = listing ? ROOM : 0;
    reset(stream);
    feed_all(stream, &whole);
    reset(stream);
    /* with output that waits, and in the middle of a moof */
    for (size_t len = 1; len < in.len; len += in.len / 7) {
        WANT(fill(stream, len) <= FMP4_FULL);
        reset(stream);
    }
    /* after a fault, and after the end that reports one */
    in.at[4] ^= 1, in.at[3] = 7;
    WANT(fill(stream, in.len) == FMP4_FAULT);
    reset(stream);
    WANT(fill(stream, 7) == FMP4_OK && fmp4_finish(stream, &report) == FMP4_FAULT);
    reset(stream);
    in.at[4] ^= 1, in.at[3] = 28;
    /* over the limit */
    WANT(fmp4_set_limit(stream, 0, &takes) == FMP4_OK && takes == room && fill(stream, in.len) == FMP4_OVER_LIMIT);
    reset(stream);
    WANT(fmp4_set_limit(stream, LIMIT, &takes) == FMP4_OK && takes == room);
    /* without memory: the first that the boxes ask for */
    refused_at = allocations + 1;
    WANT(fill(stream, in.len) == FMP4_NO_MEMORY);
    refused_at = 0;
    reset(stream);
    feed_all(stream, &again);
    WANT(again.len == whole.len && (!whole.len || memcmp(again.at, whole.at, whole.len) == 0));
    reset(stream);
    WANT(fmp4_close(stream) == FMP4_OK);
}

/* A stream in so small a room that it stops for want of it. */
static void reset_without_room(void) {
    struct fmp4_stream stream = {0};
    WANT(fmp4_split_open(&stream, 2, 0, 0, LIMIT, 300) == FMP4_OK);
    for (int i = 0; i < 3; i++) {
        WANT(fill(&stream, in.len) == FMP4_NO_ROOM);
        reset(&stream);
    }
    WANT(fmp4_close(&stream) == FMP4_OK);
}

static uint32_t number(size_t at) {
    return (uint32_t)in.at[at] << 24 | (uint32_t)in.at[at + 1] << 16 | (uint32_t)in.at[at + 2] << 8 | in.at[at + 3];
}

/* The stream with its fragments twenty times. */
static void read_and_repeat(void) {
    struct bytes fragments = {0};
    size_t at = 0;
    in = read_all(stdin);
    WANT(in.len > 28 && number(0) == 28);
    while (number(at + 4) != 0x6d6f6f66) at += number(at);
    append(&fragments, in.at + at, in.len - at);
    for (int i = 1; i < 20; i++) append(&in, fragments.at, fragments.len);
    free(fragments.at);
}

int main(void) {
    read_and_repeat();
    for (uint32_t listing = 0; listing <= 5; listing++) {
        struct fmp4_stream stream = {0};
        largest = 0;
        WANT(open_for(&stream, listing) == FMP4_OK);
        WANT(listing ? largest == ROOM : largest <= 20480);
        reset_in_each_state(&stream, listing);
        WANT(listing != 5 || whole.len > 4 * ROOM);
    }
    reset_without_room();
    printf("resets: %u of a cut, a check and listings, each without an allocation\n", resets);
    free(in.at);
    free(whole.at);
    free(again.at);
    return 0;
}
