/* stack < STREAM: checks, lists and cuts a stream in threads that have a stack of 256 KiB, in which all calls are made. An
 * overflow ends the test by a signal; what a call answers is compared with that of the first thread's. */
#include "tests.h"
#include <pthread.h>

enum { STACK = 256 << 10 };
static struct bytes in;

/* Counts what is taken in place of keeping it, since a hostile stream may have a hundred times its bytes of output. */
struct job {
    uint32_t samples, flags, listing, answer, finish, unused;
    uint64_t written;
    struct fmp4_report report;
};

static void *work(void *it) {
    struct job *job = it;
    struct fmp4_stream stream = {0};
    unsigned char *out = calloc(1 << 20, 1);
    size_t n = 0, got = 0, at = 0;
    WANT(out);
    job->answer = job->listing   ? fmp4_list_open(&stream, job->listing, 512u << 20, 64u << 20)
                  : job->samples ? fmp4_split_open(&stream, job->samples, 0, job->flags, 512u << 20, 64u << 20)
                                 : fmp4_check_open(&stream, 512u << 20);
    while (job->answer <= FMP4_FULL && at < in.len) {
        job->answer = fmp4_feed(&stream, in.at + at, in.len - at < 1 << 20 ? in.len - at : 1 << 20, &n);
        at += n;
        do {
            WANT(fmp4_take(&stream, out, 1 << 20, &got) == FMP4_OK);
            job->written += got;
        } while (got == 1 << 20);
    }
    WANT(fmp4_totals(&stream, &job->report) == FMP4_OK);
    job->finish = fmp4_finish(&stream, &job->report);
    WANT(fmp4_close(&stream) == FMP4_OK);
    free(out);
    return NULL;
}

int main(void) {
    in = read_all(stdin);
    static const struct job ways[] = {{.samples = 0}, {.listing = FMP4_BOXES}, {.samples = 1}, {.samples = 7, .flags = FMP4_INDEX | FMP4_SYNC}};
    pthread_attr_t attr;
    pthread_t thread;
    WANT(pthread_attr_init(&attr) == 0 && pthread_attr_setstacksize(&attr, STACK) == 0);
    for (size_t i = 0; i < sizeof ways / sizeof *ways; i++) {
        struct job small = ways[i], large = ways[i];
        WANT(pthread_create(&thread, &attr, work, &small) == 0 && pthread_join(thread, NULL) == 0);
        work(&large);
        WANT(memcmp(&small, &large, sizeof small) == 0);
        printf("%u,%u ", (unsigned)small.answer, (unsigned)small.finish);
    }
    puts("");
    free(in.at);
    return 0;
}
