/* threads < STREAM: as many threads as cuts, each with a stack of 256 KiB and a stream of its own, give what one
 * gives. */
#include "tests.h"
#include <pthread.h>

enum { THREADS = 8 };
static struct bytes in;

struct job {
    struct cut cut;
    struct bytes out;
    struct result result;
};

static void *work(void *it) {
    struct job *job = it;
    for (int i = 0; i < 4; i++) {
        job->out.len = 0;
        job->result = run(&job->cut, in.at, in.len, &job->out);
    }
    return NULL;
}

int main(void) {
    in = read_all(stdin);
    struct job jobs[THREADS] = {0};
    pthread_t threads[THREADS];
    pthread_attr_t attr;
    WANT(pthread_attr_init(&attr) == 0 && pthread_attr_setstacksize(&attr, 256 << 10) == 0);
    for (unsigned i = 0; i < THREADS; i++) {
        jobs[i].cut = (struct cut){i % 4 + 1, i % 4, i % 2 ? 3000 : 0, 512u << 20, 2u << 20, 1000 * i + 7, 4096, 0};
        WANT(pthread_create(&threads[i], &attr, work, &jobs[i]) == 0);
    }
    for (unsigned i = 0; i < THREADS; i++) {
        struct bytes alone = {0};
        WANT(pthread_join(threads[i], NULL) == 0);
        struct result r = run(&jobs[i].cut, in.at, in.len, &alone);
        WANT(r.finish == FMP4_OK && memcmp(&r, &jobs[i].result, sizeof r) == 0);
        WANT(alone.len == jobs[i].out.len && memcmp(alone.at, jobs[i].out.at, alone.len) == 0);
        free(alone.at);
        free(jobs[i].out.at);
    }
    free(in.at);
    puts("threads: 8 with 256 KiB of stack, each with a stream of its own");
    return 0;
}
