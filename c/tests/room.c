/* room < crates/test_streams/stdin: which streams find room in the MiB that serves where output is taken after each
 * feed, and in two where it is taken only when a feed answers FMP4_FULL: samples of 1 to 24 bytes in one fragment and in
 * many, cut by 1 to 1,000, with an index and without, in inputs of 4 to 128 KiB. And what a stream still stops for,
 * on each side: a moov, a head and an index that are larger than what is free, and samples without bytes. The moov,
 * mfhd and tfdt are those of the stream. */
#include "tests.h"

enum { ROOM = 1 << 20, FRONT = 364, MOOV = 344 };
static struct bytes given, in;

static void put(const void *bytes, size_t len) { append(&in, bytes, len); }

static void put32(uint32_t x) {
    for (int shift = 24; shift >= 0; shift -= 8) put(&(unsigned char){(unsigned char)(x >> shift)}, 1);
}

static void put_box(uint32_t size, const char *type) {
    put32(size);
    put(type, 4);
}

/* A fragment of `count` samples of `size` bytes, as the tfhd says, or as the trun says of each. */
static void put_fragment(uint32_t count, uint32_t size, int of_each, uint32_t begins) {
    static unsigned char media[1 << 20];
    uint32_t trun = 20 + (of_each ? 4 * count : 0), tfhd = of_each ? 16 : 20, traf = 8 + tfhd + 16 + trun;
    uint32_t moof = 24 + traf;
    put_box(moof, "moof");
    put(given.at + 372, 16);
    put_box(traf, "traf");
    put_box(tfhd, "tfhd"), put32(of_each ? 0x020000 : 0x020010), put32(1);
    if (!of_each) put32(size);
    put_box(16, "tfdt"), put32(0), put32(begins);
    put_box(trun, "trun"), put32(of_each ? 0x201 : 1), put32(count), put32(moof + 8);
    for (uint32_t i = 0; of_each && i < count; i++) put32(size);
    put_box(8 + count * size, "mdat");
    put(media, count * size);
}

static void make(uint32_t fragments, uint32_t count, uint32_t size, int of_each) {
    in.len = 0;
    put(given.at, FRONT);
    for (uint32_t i = 0; i < fragments; i++) put_fragment(count, size, of_each, i * count);
}

/* What the last call answers where the stream is cut; output is taken after each feed, or only where one is full. */
static uint32_t cut(uint32_t samples, uint32_t flags, size_t input, size_t room, int until_full) {
    static unsigned char out[65536];
    struct fmp4_stream stream = {0};
    struct fmp4_report report = {0};
    size_t n = 0, got = 0, at = 0;
    WANT(fmp4_split_open(&stream, samples, 0, flags, 512u << 20, room) == FMP4_OK);
    uint32_t answer = FMP4_OK;
    while (answer <= FMP4_FULL && at < in.len) {
        answer = fmp4_feed(&stream, in.at + at, in.len - at < input ? in.len - at : input, &n);
        at += n;
        if (!until_full || answer == FMP4_FULL)
            do fmp4_take(&stream, out, sizeof out, &got); while (got == sizeof out);
    }
    answer = fmp4_finish(&stream, &report);
    WANT(fmp4_close(&stream) == FMP4_OK);
    return answer;
}

static unsigned in_one_fragment(void) {
    static const uint32_t sizes[] = {1, 2, 3, 4, 6, 8, 12, 16}, cuts[] = {1, 2, 5, 7, 15, 50, 1000};
    static const size_t inputs[] = {4096, 16384, 65536, 131072};
    unsigned fit = 0;
    for (int i = 0; i < 8; i++) {
        make(1, 600000 / sizes[i], sizes[i], 0);
        for (int k = 0; k < 7; k++)
            for (int c = 0; c < 4; c++)
                for (int way = 0; way < 4; way++, fit++)
                    WANT(cut(cuts[k], way & 1, inputs[c], way >> 1 ? 2 * ROOM : ROOM, way >> 1) == FMP4_OK);
    }
    return fit;
}

static unsigned in_many_fragments(void) {
    unsigned fit = 0;
    for (uint32_t count = 1; count <= 1000; count *= 10)
        for (uint32_t size = 1; size <= 24; size++) {
            make(500000 / (count * (size + 4) + 100), count, size, 1);
            for (int way = 0; way < 8; way++, fit++)
                WANT(cut(1, way & 1, way & 2 ? 65536 : 131072, way >> 2 ? 2 * ROOM : ROOM, way >> 2) == FMP4_OK);
        }
    return fit;
}

/* Each thing that a stream stops for, in a room that it doesn't fit, and in one that it fits. */
static void too_large(void) {
    make(1, 3, 5, 0);
    WANT(cut(1, 0, 4096, MOOV - 1, 0) == FMP4_NO_ROOM);
    WANT(cut(1, 0, 4096, 4096, 0) == FMP4_OK);
    make(1, 100000, 1, 0);
    WANT(cut(100000, 0, 4096, 1600000, 0) == FMP4_NO_ROOM);
    WANT(cut(100000, 0, 4096, 1610000, 0) == FMP4_OK);
    WANT(cut(1, FMP4_INDEX, 4096, 786459, 0) == FMP4_NO_ROOM);
    WANT(cut(1, FMP4_INDEX, 4096, ROOM, 0) == FMP4_OK);
}

/* How many bytes are written of a fragment of samples without bytes: heads, mdats and indexes. */
static size_t written_of(uint32_t count, uint32_t samples, uint32_t flags) {
    size_t pieces = (count + samples - 1) / samples, groups = (pieces + 65534) / 65535;
    return 100 * pieces + 16 * (size_t)count + (flags & FMP4_INDEX ? 40 * groups + 12 * pieces : 0);
}

/* As many of them as fit with the front of the stream, which comes in the same input, and one more. */
static unsigned without_bytes(void) {
    static const uint32_t cuts[] = {1, 2, 5, 7, 15, 50, 1000};
    unsigned fit = 0;
    for (int k = 0; k < 7; k++)
        for (uint32_t flags = 0; flags < 2; flags++, fit++) {
            uint32_t count = 1;
            while (FRONT + written_of(count + 1, cuts[k], flags) <= ROOM) count++;
            make(1, count, 0, 0);
            WANT(cut(cuts[k], flags, 4096, ROOM, 0) == FMP4_OK);
            make(1, count + 1, 0, 0);
            WANT(cut(cuts[k], flags, 4096, ROOM, 0) == FMP4_NO_ROOM);
        }
    return fit;
}

int main(void) {
    given = read_all(stdin);
    WANT(given.len == 483);
    unsigned fit = in_one_fragment() + in_many_fragments(), edges = without_bytes();
    too_large();
    printf("room: %u cuts of small samples find it; a moov, head or index that is larger doesn't, nor do more samples "
           "without bytes than %u cuts have room for\n", fit, edges);
    free(given.at);
    free(in.at);
    return 0;
}
