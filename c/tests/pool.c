/* pool < STREAM: many streams with one limit, which leaves beside their rooms what a tenth of them take at once: each is fed
 * with what is free. Together they never take more, each gives what it gives alone, and one that asks for too much
 * stops without harm to the others. They are reset in place of opened again. */
#include "tests.h"

enum { STREAMS = 100, BUSY = 10, ROOM = 64 << 10 };
static struct bytes in, alone;

struct member {
    struct fmp4_stream stream;
    struct bytes out;
    size_t at;
    uint64_t takes;
};

struct pool {
    uint64_t limit, taken, most;
};

static uint32_t feed(struct pool *pool, struct member *m, size_t step) {
    unsigned char out[8192];
    size_t taken = 0, given = 0, len = in.len - m->at < step ? in.len - m->at : step;
    uint64_t takes = 0;
    WANT(fmp4_set_limit(&m->stream, pool->limit - pool->taken + m->takes, &takes) == FMP4_OK && takes == m->takes);
    uint32_t answer = fmp4_feed_take(&m->stream, in.at + m->at, len, &taken, out, sizeof out, &given);
    WANT(fmp4_set_limit(&m->stream, 0, &takes) == FMP4_OK);
    pool->taken += takes - m->takes;
    if (pool->taken > pool->most) pool->most = pool->taken;
    WANT(pool->taken <= pool->limit);
    m->takes = takes;
    m->at += taken;
    append(&m->out, out, given);
    return answer;
}

/* Ends the stream of a member, which gave what one alone gives, and begins the next. */
static void finish(struct pool *pool, struct member *m, uint64_t peak) {
    struct fmp4_report report = {0};
    while (m->at < in.len) WANT(feed(pool, m, 1316) <= FMP4_FULL);
    WANT(fmp4_finish(&m->stream, &report) == FMP4_OK && report.peak == peak);
    drain(&m->stream, &m->out, 4096);
    WANT(m->out.len == alone.len && memcmp(m->out.at, alone.at, alone.len) == 0);
    pool->taken -= m->takes;
    WANT(fmp4_reset(&m->stream) == FMP4_OK && fmp4_set_limit(&m->stream, 0, &m->takes) == FMP4_OK && m->takes == ROOM);
    pool->taken += m->takes;
    m->at = m->out.len = 0;
}

int main(void) {
    in = read_all(stdin);
    struct cut cut = {2, 0, 0, 64u << 20, ROOM, 1316, 4096, 0};
    struct result sole = run(&cut, in.at, in.len, &alone);
    WANT(sole.finish == FMP4_OK);
    static struct member all[STREAMS];
    struct pool pool = {STREAMS * ROOM + BUSY * sole.report.peak, 0, 0};
    for (int i = 0; i < STREAMS; i++) {
        WANT(fmp4_split_open(&all[i].stream, 2, 0, 0, ROOM, ROOM) == FMP4_OK);
        WANT(fmp4_set_limit(&all[i].stream, 0, &all[i].takes) == FMP4_OK && all[i].takes == ROOM);
        pool.taken += all[i].takes;
    }
    for (int first = 0; first < 3 * STREAMS; first += BUSY) {
        struct member *busy = all + first % STREAMS;
        for (int i = 0; i < BUSY; i++)
            while (busy[i].at < in.len / 2) WANT(feed(&pool, &busy[i], (size_t)i % 5 * 331 + 1316) <= FMP4_FULL);
        for (int i = BUSY; i-- > 0;) finish(&pool, &busy[i], sole.report.peak);
    }
    WANT(pool.taken == (uint64_t)STREAMS * ROOM && pool.most > pool.taken);
    /* one that finds less than it asks for */
    pool.limit = pool.taken + sole.report.peak - 1;
    struct fmp4_report report = {0};
    while (feed(&pool, &all[0], 1316) <= FMP4_FULL) WANT(all[0].at < in.len);
    WANT(fmp4_finish(&all[0].stream, &report) == FMP4_OVER_LIMIT && memcmp(all[0].out.at, alone.at, all[0].out.len) == 0);
    WANT(pool.taken == (uint64_t)STREAMS * ROOM);
    uint64_t takes = 0;
    WANT(fmp4_set_limit(&all[0].stream, 64u << 20, &takes) == FMP4_OK && takes == ROOM);
    for (int i = 0; i < STREAMS; i++) {
        WANT(fmp4_close(&all[i].stream) == FMP4_OK);
        free(all[i].out.at);
    }
    free(in.at);
    free(alone.at);
    printf("pool: %d streams with one limit, 3 times each: at most %llu bytes beside their rooms\n", STREAMS,
           (unsigned long long)(pool.most - pool.taken));
    return 0;
}
