/* fragments < STREAM: what a cut gives is fed to a stream that is listed by records, in parts of any size. Each record is
 * one moof of the output, in order: its place and size are those of the boxes, and its sums are those of the reports.
 * Before that a muxed stream is listed whose boxes are here word by word: each field of its records, and their lines. */
#include "tests.h"

static struct bytes in, out;
static struct fmp4_fragment records[4096];

enum { FREE = 0x66726565, MOOV = 0x6d6f6f76, TRAK = 0x7472616b, TKHD = 0x746b6864, MDIA = 0x6d646961, MDHD = 0x6d646864,
    MINF = 0x6d696e66, STBL = 0x7374626c, STSD = 0x73747364, AVC1 = 0x61766331, MP4A = 0x6d703461, MVEX = 0x6d766578,
    TREX = 0x74726578, MOOF = 0x6d6f6f66, MFHD = 0x6d666864, TRAF = 0x74726166, TFHD = 0x74666864, TFDT = 0x74666474,
    TRUN = 0x7472756e, MDAT = 0x6d646174, HDLR = 0x68646c72, VIDE = 0x76696465 };

/* Two tracks: 9 with 90,000 ticks a second, a handler and two sample entries, and then 1 with 48,000 and one. By default a sample of
 * track 9 is a sync sample of 3,000 ticks, and one of track 1 no sync sample (8.8.3) of 1,024. */
static const uint32_t muxed[] = {8, FREE,
    504, MOOV,
        236, TRAK,
            92, TKHD, 0, 0, 0, 9, 0, 0, 0, 0, 0, 0, 0, 0, 0, 0, 0, 0, 0, 0, 0, 0, 0,
            136, MDIA, 32, MDHD, 0, 0, 0, 90000, 0, 0, 32, HDLR, 0, 0, VIDE, 0, 0, 0,
                64, MINF, 56, STBL, 48, STSD, 0, 2, 16, AVC1, 0, 1, 16, AVC1, 0, 1,
        188, TRAK,
            92, TKHD, 0, 0, 0, 1, 0, 0, 0, 0, 0, 0, 0, 0, 0, 0, 0, 0, 0, 0, 0, 0, 0,
            88, MDIA, 32, MDHD, 0, 0, 0, 48000, 0, 0,
                48, MINF, 40, STBL, 32, STSD, 0, 1, 16, MP4A, 0, 1,
        72, MVEX, 32, TREX, 0, 9, 1, 3000, 1, 0x02000000, 32, TREX, 0, 1, 1, 1024, 1, 0x01010000,
    /* At 512: two samples of track 1, of 5 and 7 bytes, the second a sync sample; and three of track 9, of 3, 4 and 5. */
    184, MOOF, 16, MFHD, 0, 77,
        88, TRAF, 16, TFHD, 0x020000, 1, 20, TFDT, 1 << 24, 1, 5,
            44, TRUN, 0x701, 2, 192, 0x80000000, 5, 0x01010000, 0x80000007, 7, 0x02000000,
        72, TRAF, 16, TFHD, 0x020000, 9, 16, TFDT, 0, 1000, 32, TRUN, 0x201, 3, 204, 3, 4, 5,
    32, MDAT, 0, 0, 0, 0, 0, 0,
    /* At 728: a track fragment without samples. */
    64, MOOF, 16, MFHD, 0, 78, 40, TRAF, 16, TFHD, 0x020000, 1, 16, TFDT, 0, 4096, 8, MDAT,
    /* At 800: two runs of a sample of track 9, of 1 and 11 bytes, the first by its first-sample-flags no sync sample, without
     * a tfdt: they go on after the three. The second is presented 3,500 ticks before it is decoded, so 500 before the first.
     * Their mdat goes to the end of the stream. */
    104, MOOF, 16, MFHD, 0, 0xfffffffe,
        80, TRAF, 16, TFHD, 0x020000, 9, 28, TRUN, 0x205, 1, 112, 0x01010000, 1,
            28, TRUN, 1 << 24 | 0xa01, 1, 113, 11, 0xfffff254,
    0, MDAT, 0, 0, 0, 0};

static const struct fmp4_fragment muxed_records[] = {
    {512, 216, 4294967301, 4294967303, 12, 77, 1, 48000, 2, 0, 1, 0, 0, 0, 1},
    {512, 216, 1000, 9000, 12, 77, 9, 90000, 3, 1, 3, 0, 0, VIDE, 2},
    {728, 72, 4096, 0, 0, 78, 1, 48000, 0, 0, 0, 8589934604, 0, 0, 1},
    {800, UINT64_MAX, 10000, 6000, 12, 4294967294, 9, 90000, 2, 0, 1, 10000, -500, VIDE, 2}};

static const char muxed_lines[] = "track=9 timescale=90000 entries=2 handler=vide types=avc1,avc1\n"
    "track=1 timescale=48000 entries=1 handler=???? types=mp4a\n"
    "fragment=77 at=512 size=216 track=1 dts=4294967301 dur=4294967303 samples=2 sync=no media=12"
    " pts=4294967301 syncs=1 gap=4294967301\n"
    "fragment=77 at=512 size=216 track=9 dts=1000 dur=9000 samples=3 sync=yes media=12 pts=1000 syncs=3 gap=1000\n"
    "fragment=78 at=728 size=72 track=1 dts=4096 dur=0 samples=0 sync=no media=0 pts=4096 syncs=0 gap=-8589930508\n"
    "fragment=4294967294 at=800 size=end track=9 dts=10000 dur=6000 samples=2 sync=no media=12"
    " pts=9500 syncs=1 gap=0\n";

static uint32_t number(size_t at) {
    return (uint32_t)out.at[at] << 24 | (uint32_t)out.at[at + 1] << 16 | (uint32_t)out.at[at + 2] << 8 | out.at[at + 3];
}

/* Feeds the output from `at` on, which a cut has just given, and takes the records that are there. */
static size_t list(struct fmp4_stream *listing, size_t at, size_t count, size_t step) {
    size_t taken = 0;
    while (at < out.len) {
        uint32_t answer = fmp4_feed(listing, out.at + at, out.len - at < step ? out.len - at : step, &taken);
        WANT(answer <= FMP4_FULL);
        at += taken;
        while (count < 4096 && fmp4_next_fragment(listing, &records[count]) == FMP4_OK) count++;
        struct fmp4_fragment none = {.offset = 7}, before = none;
        WANT(fmp4_next_fragment(listing, &none) == FMP4_NO_RECORD && memcmp(&none, &before, sizeof none) == 0);
    }
    return count;
}

/* Compares the records with the boxes of the output. */
static void compare(size_t count, const struct fmp4_report *cut, const struct fmp4_report *listed) {
    size_t i = 0;
    uint64_t samples = 0, media = 0;
    for (size_t at = 0; at < out.len; at += number(at)) {
        if (number(at + 4) != 0x6d6f6f66) continue;
        WANT(i < count && records[i].offset == at && records[i].size == number(at) + number(at + number(at)));
        WANT(records[i].sequence == i + 1 && records[i].track > 0 && records[i].timescale > 0 && records[i].duration > 0);
        if (i && records[i].track == records[i - 1].track)
            WANT(records[i].decode_time == records[i - 1].decode_time + records[i - 1].duration);
        samples += records[i].samples;
        media += records[i++].media_bytes;
    }
    WANT(i == count && count == cut->fragments && count == listed->fragments);
    WANT(samples == cut->samples && samples == listed->samples && media == cut->media_bytes && media == listed->media_bytes);
}

static size_t run_both(uint32_t samples, size_t step, size_t room) {
    struct fmp4_stream cut = {0}, listing = {0};
    struct fmp4_report report = {0}, listed = {0};
    size_t count = 0, taken = 0;
    out.len = 0;
    WANT(fmp4_split_open(&cut, samples, 0, 0, 64u << 20, 1u << 20) == FMP4_OK);
    WANT(fmp4_list_open(&listing, FMP4_RECORDS, 64u << 20, room) == FMP4_OK);
    for (size_t at = 0; at < in.len; at += taken) {
        size_t before = out.len;
        WANT(fmp4_feed(&cut, in.at + at, in.len - at < step ? in.len - at : step, &taken) == FMP4_OK);
        drain(&cut, &out, 4096);
        count = list(&listing, before, count, step);
    }
    WANT(fmp4_finish(&cut, &report) == FMP4_OK && fmp4_finish(&listing, &listed) == FMP4_OK);
    compare(count, &report, &listed);
    struct fmp4_fragment none = {0};
    WANT(fmp4_next_fragment(&cut, &none) == FMP4_BAD_LISTING && fmp4_next_fragment(&listing, &none) == FMP4_NO_RECORD);
    WANT(fmp4_close(&cut) == FMP4_OK && fmp4_close(&listing) == FMP4_OK);
    return count;
}

static void append_words(struct bytes *to, const uint32_t *words, size_t count) {
    for (size_t i = 0; i < count; i++)
        append(to, (unsigned char[]){words[i] >> 24, words[i] >> 16 & 255, words[i] >> 8 & 255, words[i] & 255}, 4);
}

static void same_record(const struct fmp4_fragment *a, const struct fmp4_fragment *b) {
    WANT(a->offset == b->offset && a->size == b->size && a->decode_time == b->decode_time && a->duration == b->duration);
    WANT(a->media_bytes == b->media_bytes && a->sequence == b->sequence && a->track == b->track && a->timescale == b->timescale);
    WANT(a->samples == b->samples && a->is_sync == b->is_sync && a->syncs == b->syncs);
    WANT(a->track_end == b->track_end && a->earliest == b->earliest && a->handler == b->handler && a->entries == b->entries);
}

/* The whole output of a listing of the muxed stream. */
static void list_muxed(const struct bytes *stream, uint32_t listing, size_t step, struct bytes *to) {
    struct cut cut = {0, 0, 0, 512u << 20, 1u << 20, step, 777, listing};
    to->len = 0;
    struct result r = run(&cut, stream->at, stream->len, to);
    WANT(r.open == 0 && r.finish == 0 && r.fed == stream->len);
    WANT(r.report.fragments == 3 && r.report.samples == 7 && r.report.media_bytes == 36);
}

/* Bytes aren't taken, copied or dropped of records, nor is a stream of records fed by the call that takes bytes. */
static void no_bytes(struct fmp4_stream *listing) {
    unsigned char out[10] = {7};
    size_t before = 0, after = 0, n = 9, given = 9;
    WANT(fmp4_pending(listing, &before) == FMP4_OK);
    WANT(fmp4_take(listing, out, sizeof out, &n) == FMP4_BAD_LISTING && n == 0);
    n = 9;
    WANT(fmp4_peek(listing, out, sizeof out, &n) == FMP4_BAD_LISTING && n == 0);
    n = 9;
    WANT(fmp4_skip(listing, 10, &n) == FMP4_BAD_LISTING && n == 0);
    n = 9;
    WANT(fmp4_feed_take(listing, out, 1, &n, out + 1, 9, &given) == FMP4_BAD_LISTING && n == 0 && given == 0 && out[0] == 7);
    WANT(fmp4_pending(listing, &after) == FMP4_OK && after == before);
}

static void muxed_stream(size_t step) {
    enum { COUNT = sizeof muxed_records / sizeof *muxed_records };
    struct bytes stream = {0}, got = {0};
    struct fmp4_stream listing = {0};
    struct fmp4_fragment record = {0};
    size_t taken = 0;
    append_words(&stream, muxed, sizeof muxed / sizeof *muxed);
    WANT(stream.len == 800 + 104 + 24);
    list_muxed(&stream, FMP4_FRAGMENTS, step, &got);
    WANT(got.len == sizeof muxed_lines - 1 && memcmp(got.at, muxed_lines, got.len) == 0);
    WANT(fmp4_list_open(&listing, FMP4_RECORDS, 64u << 20, 1u << 20) == FMP4_OK);
    for (size_t at = 0; at < stream.len; at += taken)
        WANT(fmp4_feed(&listing, stream.at + at, stream.len - at < step ? stream.len - at : step, &taken) == FMP4_OK);
    for (int i = 0; i < COUNT; i++) {
        if (i == 1) no_bytes(&listing);
        WANT(fmp4_next_fragment(&listing, &record) == FMP4_OK);
        same_record(&record, &muxed_records[i]);
    }
    WANT(fmp4_next_fragment(&listing, &record) == FMP4_NO_RECORD && fmp4_close(&listing) == FMP4_OK);
    free(stream.at);
    free(got.at);
}

/* The records of one moof come at once: in a room for one and a half the front of the second waits for good. */
static void half_a_record(void) {
    struct bytes stream = {0};
    struct fmp4_stream listing = {0};
    struct fmp4_fragment record = {0};
    size_t taken = 0, pending = 0;
    uint32_t answer = FMP4_OK;
    append_words(&stream, muxed, sizeof muxed / sizeof *muxed);
    WANT(fmp4_list_open(&listing, FMP4_RECORDS, 64u << 20, 132) == FMP4_OK);
    for (size_t at = 0; at < stream.len && answer == FMP4_OK; at += taken) answer = fmp4_feed(&listing, stream.at + at, 1, &taken);
    WANT(answer == FMP4_NO_ROOM && fmp4_next_fragment(&listing, &record) == FMP4_OK);
    same_record(&record, &muxed_records[0]);
    WANT(fmp4_next_fragment(&listing, &record) == FMP4_NO_RECORD);
    WANT(fmp4_pending(&listing, &pending) == FMP4_OK && pending == 44 && fmp4_close(&listing) == FMP4_OK);
    free(stream.at);
}

int main(void) {
    static const size_t steps[] = {1, 97, 1316, 65536};
    unsigned long long all = 0;
    for (int i = 0; i < 4; i++) muxed_stream(steps[i]);
    half_a_record();
    in = read_all(stdin);
    for (int i = 0; i < 4; i++) all += run_both(1, steps[i], 1u << 20) + run_both(15, steps[i], 128);
    printf("fragments: %llu records, each of a moof as a cut has given it, and those of a muxed stream by hand\n", all);
    free(in.at);
    free(out.at);
    return 0;
}
