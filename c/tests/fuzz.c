/* fuzz SEED SECONDS < STREAM: calls in any order, with inputs of a stream some of whose bytes were changed. Each
 * answer is one that the state allows, a stop stays, and what was taken of an unchanged stream is a prefix of its
 * output. */
#include "tests.h"
#include <time.h>

enum { STREAMS = 4 };
enum state { NEW, OPEN, STOPPED, ENDED, CLOSED };

static uint64_t random_state;
static uint64_t random_to(uint64_t n) {
    random_state = random_state * 6364136223846793005u + 1442695040888963407u;
    return (random_state >> 33) % n;
}

struct one {
    struct fmp4_stream stream;
    enum state state;
    uint32_t stop;
    int is_changed, is_check, gives_records;
    size_t at;
    struct bytes out;
    struct fmp4_report last; /* what finish reported */
};

static struct bytes in, whole;

/* Opens a stream that is listed, by lines, by records or by its boxes. */
static void list_one(struct one *s) {
    uint32_t listing = (uint32_t)random_to(6);
    size_t room = random_to(3) ? 1u << 20 : random_to(500);
    uint64_t limit = random_to(3) ? 64u << 20 : random_to(3000);
    int was_open = s->state != NEW && s->state != CLOSED;
    uint32_t answer = fmp4_list_open(&s->stream, listing, limit, room);
    if (was_open) { WANT(answer == FMP4_IS_OPEN); return; }
    if (room == 0) { WANT(answer == FMP4_BAD_ROOM); return; }
    if (listing < 1 || listing > 4) { WANT(answer == FMP4_BAD_LISTING); return; }
    if (room > limit) { WANT(answer == FMP4_OVER_LIMIT); return; }
    WANT(answer == FMP4_OK);
    s->state = OPEN;
    s->is_check = 0;
    s->is_changed = 1;
    s->gives_records = listing == FMP4_RECORDS;
    s->at = s->out.len = 0;
}

static void next_one(struct one *s) {
    struct fmp4_fragment fragment = {.offset = UINT64_MAX};
    uint32_t answer = fmp4_next_fragment(&s->stream, &fragment);
    if (s->state == NEW || s->state == CLOSED) WANT(answer == (s->state == NEW ? FMP4_NOT_OPEN : FMP4_CLOSED));
    else if (!s->gives_records) WANT(answer == FMP4_BAD_LISTING);
    else WANT(answer == FMP4_OK || answer == FMP4_NO_RECORD);
    WANT((answer == FMP4_OK) == (fragment.offset != UINT64_MAX));
}

static void open_one(struct one *s) {
    static const uint64_t limits[] = {0, 100, 5000, 100000, 64u << 20};
    uint32_t samples = random_to(8) ? 2 : (uint32_t)random_to(3), flags = random_to(8) ? 0 : (uint32_t)random_to(8);
    int is_split = (int)random_to(2);
    uint32_t duration = is_split || random_to(8) ? 0 : (uint32_t)random_to(200);
    struct fmp4_cut cut = {.samples = samples, .flags = flags, .duration_ms = duration};
    size_t room = random_to(3) ? 1u << 20 : random_to(5000);
    uint64_t limit = random_to(3) ? 64u << 20 : limits[random_to(5)];
    int is_check = random_to(4) == 0, was_open = s->state != NEW && s->state != CLOSED;
    uint32_t answer = is_check   ? fmp4_check_open(&s->stream, limit)
                      : is_split ? fmp4_split_open(&s->stream, samples, 0, flags, limit, room)
                                 : fmp4_cut_open(&s->stream, &cut, limit, room);
    if (was_open) { WANT(answer == FMP4_IS_OPEN); return; }
    int is_in_range = (samples || duration) && flags <= (is_split ? 3u : 5u);
    if (!is_check && (room == 0 || !is_in_range)) { WANT(answer >= FMP4_BAD_SAMPLES && answer <= FMP4_BAD_ROOM); return; }
    if (!is_check && room > limit) { WANT(answer == FMP4_OVER_LIMIT); return; }
    WANT(answer == FMP4_OK);
    s->state = OPEN;
    s->is_check = is_check;
    s->gives_records = 0;
    s->is_changed = random_to(2) || (!is_check && (samples != 2 || flags != 0 || duration != 0));
    s->at = s->out.len = 0;
}

static void feed_one(struct one *s) {
    size_t len = random_to(3) ? random_to(3000) : random_to(70000), n = 77;
    if (s->at + len > in.len) len = in.len - s->at;
    unsigned char *input = malloc(len + 1);
    memcpy(input, in.at + s->at, len);
    if (s->is_changed && len && random_to(2)) input[random_to(len)] = (unsigned char)random_to(256);
    size_t size = random_to(3) ? random_to(5000) : random_to(200000), given = 0;
    int takes = (int)random_to(2);
    unsigned char *out = takes ? calloc(size + 1, 1) : NULL;
    uint32_t answer = takes ? fmp4_feed_take(&s->stream, len ? input : NULL, len, &n, size ? out : NULL, size, &given)
                            : fmp4_feed(&s->stream, input, len, &n);
    free(input);
    WANT(n <= len && given <= size);
    if (takes && (s->state == NEW || s->state == CLOSED || s->state == ENDED || s->is_check)) WANT(given == 0);
    if (given) append(&s->out, out, given);
    free(out);
    if (!s->is_changed && !s->is_check) WANT(s->out.len <= whole.len && memcmp(s->out.at, whole.at, s->out.len) == 0);
    if (takes && s->gives_records && (s->state == OPEN || s->state == STOPPED)) { WANT(answer == FMP4_BAD_LISTING && n == 0 && given == 0); return; }
    if (takes && given < size && (s->state == OPEN || s->state == STOPPED)) WANT(fmp4_pending(&s->stream, &size) == FMP4_OK && size == 0);
    switch (s->state) {
    case NEW: WANT(answer == FMP4_NOT_OPEN && n == 0); break;
    case CLOSED: WANT(answer == FMP4_CLOSED && n == 0); break;
    case ENDED: WANT(answer == FMP4_ENDED && n == 0); break;
    case STOPPED: WANT(answer == s->stop && n == 0); break;
    case OPEN:
        WANT(answer <= FMP4_NO_MEMORY && answer != FMP4_NO_MEMORY);
        WANT(answer != FMP4_FULL || (n == 0 && !s->is_check));
        if (!s->is_changed) WANT(answer != FMP4_FAULT);
        if (answer > FMP4_FULL) s->state = STOPPED, s->stop = answer;
        else s->at += n;
    }
}

static void take_one(struct one *s) {
    size_t len = random_to(4) ? random_to(5000) : random_to(3), n = 77;
    unsigned char *out = calloc(len + 1, 1);
    int is_sent = (int)random_to(2);
    uint32_t answer = is_sent ? fmp4_peek(&s->stream, out, len, &n) : fmp4_take(&s->stream, out, len, &n);
    WANT(answer == (s->state == NEW ? FMP4_NOT_OPEN : s->state == CLOSED ? FMP4_CLOSED : s->gives_records ? FMP4_BAD_LISTING : FMP4_OK) && n <= len);
    if (is_sent) {
        /* A part of what was seen is sent, and dropped. */
        size_t sent = random_to(n + 1), gone = 77;
        WANT(fmp4_skip(&s->stream, sent, &gone) == answer && gone == (answer == FMP4_OK ? sent : 0));
        n = gone;
    }
    if (answer == FMP4_OK) append(&s->out, out, n);
    if (answer == FMP4_OK && s->is_check) WANT(n == 0);
    if (answer == FMP4_OK && !s->is_changed) WANT(s->out.len <= whole.len && memcmp(s->out.at, whole.at, s->out.len) == 0);
    free(out);
}

static void end_one(struct one *s, int is_finish) {
    struct fmp4_report report = {0};
    uint32_t answer = is_finish ? fmp4_finish(&s->stream, &report) : fmp4_totals(&s->stream, &report);
    switch (s->state) {
    case NEW: WANT(answer == FMP4_NOT_OPEN); break;
    case CLOSED: WANT(answer == FMP4_CLOSED); break;
    case ENDED:
        WANT(answer == (is_finish ? FMP4_ENDED : FMP4_OK));
        WANT(is_finish || memcmp(&report, &s->last, sizeof report) == 0);
        break;
    case STOPPED:
        WANT(answer == (is_finish ? s->stop : FMP4_OK) && (s->stop == FMP4_FAULT) == (report.rule > 0));
        if (is_finish) s->state = ENDED, s->last = report;
        break;
    case OPEN:
        WANT(answer == FMP4_OK || (is_finish && answer == FMP4_FAULT && report.rule > 0));
        if (is_finish) s->state = ENDED, s->last = report;
    }
}

/* Another limit for its boxes, or for a while none at all but for what they take. */
static void limit_one(struct one *s) {
    uint64_t takes = 77, again = 77, limit = random_to(2) ? 64u << 20 : random_to(1u << 21);
    uint32_t wanted = s->state == NEW ? FMP4_NOT_OPEN : s->state == CLOSED ? FMP4_CLOSED : FMP4_OK;
    WANT(fmp4_set_limit(&s->stream, limit, &takes) == wanted && fmp4_set_limit(&s->stream, 64u << 20, &again) == wanted);
    WANT(takes == again && (wanted == FMP4_OK || takes == 0));
}

static void reset_one(struct one *s) {
    uint32_t answer = fmp4_reset(&s->stream);
    WANT(answer == (s->state == NEW ? FMP4_NOT_OPEN : s->state == CLOSED ? FMP4_CLOSED : FMP4_OK));
    if (answer) return;
    size_t waits = 77;
    WANT(fmp4_pending(&s->stream, &waits) == FMP4_OK && waits == 0);
    s->state = OPEN;
    s->is_changed |= (int)random_to(2);
    s->at = s->out.len = 0;
}

static void close_one(struct one *s) {
    uint32_t answer = fmp4_close(&s->stream);
    WANT(answer == (s->state == NEW ? FMP4_NOT_OPEN : s->state == CLOSED ? FMP4_CLOSED : FMP4_OK));
    if (s->state != NEW) s->state = CLOSED;
}

int main(int argc, char **argv) {
    if (argc < 3) return 64;
    random_state = strtoull(argv[1], NULL, 10);
    in = read_all(stdin);
    struct cut cut = {2, 0, 0, 512u << 20, 4u << 20, 65536, 4096, 0};
    WANT(run(&cut, in.at, in.len, &whole).finish == FMP4_OK);
    static struct one all[STREAMS];
    unsigned long long calls = 0, stops[6] = {0};
    for (time_t end = time(NULL) + atoi(argv[2]); time(NULL) < end;)
        for (int i = 0; i < 1000; i++, calls++) {
            struct one *s = &all[random_to(STREAMS)];
            enum state before = s->state;
            uint64_t which = random_to(100);
            if (which < 4) open_one(s);
            else if (which < 5) list_one(s);
            else if (which < 53) feed_one(s);
            else if (which < 55) next_one(s);
            else if (which < 90) take_one(s);
            else if (which < 91) limit_one(s);
            else if (which < 92) reset_one(s);
            else if (which < 96) end_one(s, 0);
            else if (which < 98) end_one(s, 1);
            else close_one(s);
            if (before == OPEN && s->state == STOPPED) stops[s->stop]++;
        }
    for (int i = 0; i < STREAMS; i++) close_one(&all[i]), free(all[i].out.at);
    free(in.at);
    free(whole.at);
    printf("fuzz: %llu calls; stopped at a fault %llu times, without room %llu, over the limit %llu\n", calls, stops[2], stops[3], stops[4]);
    return 0;
}
