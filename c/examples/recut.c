/* recut SAMPLES [INPUT [BYTES [FLAGS [DURATION [LIMIT [ROOM]]]]]]: recuts standard input, INPUT bytes at a time, as fmp4
 * split does; 0 is what isn't asked for. The stream takes LIMIT bytes, 1 MiB if none is given, ROOM of them, 256 KiB,
 * for its output. cc recut.c -lfmp4 */
#include <fmp4.h>
#include <stdio.h>
#include <stdlib.h>

/* Writes all output that waits; 0 where that fails. */
static int drain(struct fmp4_stream *stream, unsigned char *buffer, size_t size) {
    size_t n = 0;
    do {
        fmp4_take(stream, buffer, size, &n);
        if (fwrite(buffer, 1, n, stdout) != n) return 0;
    } while (n == size);
    return 1;
}

/* Says what a stop means. */
static void report_end(uint32_t answer, const struct fmp4_report *report) {
    char type[5] = {0};
    if (answer == FMP4_FAULT) {
        for (int i = 0; i < 4; i++) {
            unsigned char byte = (unsigned char)(report->box_type >> (24 - 8 * i));
            type[i] = byte >= 0x20 && byte < 0x7f ? (char)byte : '?';
        }
        fprintf(stderr, "recut: %u %s in %s at %llu\n", (unsigned)report->rule, fmp4_rule_text(report->rule),
                report->has_box_type ? type : "(none)", (unsigned long long)report->offset);
    } else if (answer == FMP4_OVER_LIMIT) fputs("recut: over the limit\n", stderr);
    else if (answer == FMP4_NO_MEMORY) fputs("recut: out of memory\n", stderr);
    else if (answer == FMP4_NO_ROOM) fputs("recut: the room is too small\n", stderr);
}

int main(int argc, char **argv) {
    unsigned long long with[7] = {0, 65536, 0, 0, 0, 1 << 20, 1 << 18};
    if (argc < 2 || argc > 8) return fputs("recut SAMPLES [INPUT [BYTES [FLAGS [DURATION [LIMIT [ROOM]]]]]]\n", stderr), 64;
    for (int i = 1; i < argc; i++) with[i - 1] = strtoull(argv[i], NULL, 10);
    /* Reads, and the copies of media from one to the other, are faster where both begin on a page. */
    static _Alignas(4096) unsigned char input[65536], out[131072];
    size_t size = with[1] < sizeof input ? with[1] + !with[1] : sizeof input, len = 0, taken = 0, given = 0;
    setvbuf(stdout, NULL, _IONBF, 0); /* so that fwrite copies nothing */
    struct fmp4_stream stream = {0};
    struct fmp4_report report = {0};
    struct fmp4_cut cut = {.samples = (uint32_t)with[0], .bytes = with[2], .flags = (uint32_t)with[3], .duration_ms = (uint32_t)with[4]};
    uint32_t answer = fmp4_cut_open(&stream, &cut, with[5], with[6]);
    if (answer != FMP4_OK) return fprintf(stderr, "recut: %s\n", fmp4_answer_text(answer)), 64;
    int is_written = 1;
    while (is_written && answer <= FMP4_FULL && (len = fread(input, 1, size, stdin)) > 0)
        for (size_t at = 0; is_written && answer <= FMP4_FULL && (at < len || given == sizeof out); at += taken) {
            answer = fmp4_feed_take(&stream, input + at, len - at, &taken, out, sizeof out, &given);
            is_written = fwrite(out, 1, given, stdout) == given;
        }
    answer = fmp4_finish(&stream, &report);
    if (is_written) is_written = drain(&stream, out, sizeof out) && fflush(stdout) == 0;
    fmp4_close(&stream);
    if (!is_written || ferror(stdin)) return fputs("recut: a read or a write failed\n", stderr), 3;
    report_end(answer, &report);
    return answer == FMP4_OK ? 0 : answer == FMP4_FAULT ? 2 : answer == FMP4_NO_ROOM ? 3 : 4;
}
