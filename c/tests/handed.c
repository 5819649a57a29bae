/* handed < STREAM: each call of a stream comes in another thread, and its struct is moved between two calls. Its output
 * is that of one thread. */
#include "tests.h"
#include <pthread.h>

static struct bytes in;

struct handed {
    struct fmp4_stream *stream;
    struct bytes out;
    size_t at;
    uint32_t answer;
};

static void *feed(void *it) {
    struct handed *handed = it;
    unsigned char out[4096];
    size_t taken = 0, given = 0, len = in.len - handed->at;
    handed->answer = fmp4_feed_take(handed->stream, in.at + handed->at, len < 1316 ? len : 1316, &taken, out, sizeof out, &given);
    append(&handed->out, out, given);
    handed->at += taken;
    return NULL;
}

static void *end(void *it) {
    struct handed *handed = it;
    struct fmp4_report report = {0};
    handed->answer = fmp4_finish(handed->stream, &report);
    drain(handed->stream, &handed->out, 4096);
    WANT(fmp4_close(handed->stream) == FMP4_OK);
    return NULL;
}

static void in_a_thread(void *(*call)(void *), struct handed *handed) {
    pthread_t thread;
    struct fmp4_stream *moved = malloc(sizeof *moved);
    WANT(moved);
    memcpy(moved, handed->stream, sizeof *moved);
    memset(handed->stream, 0xa5, sizeof *moved);
    free(handed->stream);
    handed->stream = moved;
    WANT(pthread_create(&thread, NULL, call, handed) == 0 && pthread_join(thread, NULL) == 0);
}

int main(void) {
    in = read_all(stdin);
    struct cut cut = {3, FMP4_INDEX, 0, 64u << 20, 2u << 20, 65536, 4096, 0};
    struct bytes alone = {0};
    WANT(run(&cut, in.at, in.len, &alone).finish == FMP4_OK);
    struct handed handed = {calloc(1, sizeof(struct fmp4_stream)), {0}, 0, 0};
    unsigned calls = 0;
    WANT(handed.stream && fmp4_split_open(handed.stream, 3, 0, FMP4_INDEX, 64u << 20, 2u << 20) == FMP4_OK);
    for (; handed.at < in.len && handed.answer <= FMP4_FULL; calls++) in_a_thread(feed, &handed);
    in_a_thread(end, &handed);
    WANT(handed.answer == FMP4_OK && handed.out.len == alone.len && memcmp(handed.out.at, alone.at, alone.len) == 0);
    free(handed.stream);
    free(handed.out.at);
    free(alone.at);
    free(in.at);
    printf("handed: %u calls, each in a thread of its own with the struct moved before it\n", calls);
    return 0;
}
