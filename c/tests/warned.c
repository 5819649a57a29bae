/* What compilers must warn of, if CASE is one of 1 to 6; of 0 they mustn't. */
#include <fmp4.h>

uint32_t all(struct fmp4_stream *s, const uint8_t *in, uint8_t *out, struct fmp4_report *report, size_t *n, size_t *m);

uint32_t all(struct fmp4_stream *s, const uint8_t *in, uint8_t *out, struct fmp4_report *report, size_t *n, size_t *m) {
    uint32_t answer = fmp4_split_open(s, 15, 0, FMP4_INDEX | FMP4_SYNC, 2 << 20, 1 << 20);
    answer |= fmp4_split_open(s, 15, *n, 0, 2 << 20, 1 << 20) | fmp4_split_open(s, 15, 5000, 0, 2 << 20, 1 << 20);
    answer |= fmp4_list_open(s, FMP4_RECORDS, 2 << 20, 1 << 20);
#if CASE == 1
    answer |= fmp4_split_open(s, 15, FMP4_INDEX | FMP4_SYNC, 0, 2 << 20, 1 << 20);
#elif CASE == 2
    answer |= fmp4_list_open(s, FMP4_INDEX, 2 << 20, 1 << 20);
#elif CASE == 3
    fmp4_check_open(s, 1 << 20);
#elif CASE == 4
    fmp4_feed(s, in, 7, n);
#elif CASE == 5
    fmp4_feed_take(s, in, 7, n, out, 7, m);
#elif CASE == 6
    fmp4_finish(s, report);
#endif
    answer |= fmp4_feed(s, in, 7, n) | fmp4_feed_take(s, in, 7, n, out, 7, m) | fmp4_finish(s, report);
    return answer | fmp4_close(s);
}
