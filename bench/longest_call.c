/* longest_call SAMPLES LIMIT < STREAM: checks a stream, where SAMPLES is 0, or cuts it by so many samples, in inputs of 65,536
 * bytes and with LIMIT bytes for its boxes. Prints the answer at its end, and the processor time of the longest feed in
 * microseconds. */
#define _GNU_SOURCE
#include <fmp4.h>
#include <stdio.h>
#include <stdlib.h>
#include <time.h>

enum { INPUT = 65536, OUT = 131072, ROOM = 8 << 20 };

static double now(void) {
    struct timespec t;
    clock_gettime(CLOCK_THREAD_CPUTIME_ID, &t);
    return (double)t.tv_sec * 1e6 + (double)t.tv_nsec * 1e-3;
}

int main(int argc, char **argv) {
    static unsigned char input[INPUT], out[OUT];
    struct fmp4_stream stream = {0};
    struct fmp4_report report = {0};
    size_t len, at, taken, given = 0;
    double longest = 0;
    if (argc != 3) return fputs("longest_call SAMPLES LIMIT < STREAM\n", stderr), 64;
    uint32_t samples = (uint32_t)strtoul(argv[1], NULL, 10);
    uint64_t limit = strtoull(argv[2], NULL, 10);
    uint32_t answer = samples ? fmp4_split_open(&stream, samples, 0, 0, limit + ROOM, ROOM) : fmp4_check_open(&stream, limit);
    while (answer <= FMP4_FULL && (len = fread(input, 1, INPUT, stdin)) > 0)
        for (at = 0; answer <= FMP4_FULL && (at < len || given == OUT); at += taken) {
            double begun = now();
            answer = fmp4_feed_take(&stream, input + at, len - at, &taken, out, OUT, &given);
            if (now() - begun > longest) longest = now() - begun;
        }
    answer = fmp4_finish(&stream, &report);
    printf("%u %.0f\n", (unsigned)answer, longest);
    return fmp4_close(&stream) != FMP4_OK;
}
