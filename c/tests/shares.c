/* shares < crates/test_streams/stdin: how much of an input a feed takes in an empty room, by each cut and listing, where
 * output goes to a buffer first, and up to which mdat; and that it answers FMP4_FULL where a byte more than half of the room waits and there is input, and not where just half of it does. */
#include "tests.h"

enum { CUT = 5, CUT_WITH_INDEX = 6 };
static struct bytes in;

static uint32_t open_for(struct fmp4_stream *stream, uint32_t listing, size_t room) {
    if (listing < CUT) return fmp4_list_open(stream, listing, 1u << 30, room);
    return fmp4_split_open(stream, 2, 0, listing == CUT_WITH_INDEX ? FMP4_INDEX : 0, 1u << 30, room);
}

static size_t smaller(size_t a, size_t b) { return a < b ? a : b; }

/* What is taken of an input that is longer: a share of the room, and a byte at the least. */
static void empty_rooms(uint32_t listing, size_t share) {
    static unsigned char input[70000] = {0, 1, 17, 112, 'f', 'r', 'e', 'e'};
    static const size_t rooms[] = {1, 127, 128, 511, 512, 1024, 2047, 65536, 65537, 1 << 20, (1 << 20) - 1, 8 << 20};
    for (size_t i = 0; i < sizeof rooms / sizeof *rooms; i++) {
        struct fmp4_stream stream = {0};
        size_t taken = 0, whole = rooms[i] / share ? rooms[i] / share : 1;
        for (size_t len = 1; len <= sizeof input; len = len * 3 + 1) {
            WANT(open_for(&stream, listing, rooms[i]) == FMP4_OK);
            WANT(fmp4_feed(&stream, input, len, &taken) <= FMP4_NO_ROOM && taken == smaller(len, whole));
            WANT(fmp4_close(&stream) == FMP4_OK);
        }
    }
}

/* The same where output goes to a buffer first, whose free bytes count with those of the room. */
static void empty_buffers(uint32_t listing, size_t share) {
    static unsigned char input[70000] = {0, 1, 17, 112, 'f', 'r', 'e', 'e'}, out[1 << 20];
    static const size_t rooms[] = {1, 127, 512, 4096, 65536}, sizes[] = {0, 1, 127, 385, 4096, 131072, sizeof out};
    for (size_t i = 0; i < sizeof rooms / sizeof *rooms; i++)
        for (size_t j = 0; j < sizeof sizes / sizeof *sizes; j++) {
            struct fmp4_stream stream = {0};
            size_t taken = 0, given = 0, free = rooms[i] + sizes[j], whole = free / share ? free / share : 1;
            WANT(open_for(&stream, listing, rooms[i]) == FMP4_OK);
            WANT(fmp4_feed_take(&stream, input, sizeof input, &taken, out, sizes[j], &given) <= FMP4_NO_ROOM);
            WANT(taken == smaller(sizeof input, whole));
            WANT(fmp4_close(&stream) == FMP4_OK);
        }
}

/* 20 bytes wait in a room of 1,024, and a 128th of what is free there and in the buffer once it has them is taken. */
static void filled_buffers(void) {
    static unsigned char input[70000] = {0, 1, 17, 112, 'f', 'r', 'e', 'e'}, out[2580];
    static const struct { size_t size, whole; } cases[] = {{0, 1004 / 128}, {10, 1014 / 128}, {20, 8}, {147, 8}, {148, 9}, {2580, 28}};
    for (size_t i = 0; i < sizeof cases / sizeof *cases; i++) {
        struct fmp4_stream stream = {0};
        size_t taken = 0, given = 0;
        WANT(open_for(&stream, CUT, 1024) == FMP4_OK);
        for (size_t at = 0; at < 20; at += taken) WANT(fmp4_feed(&stream, in.at + at, 20 - at, &taken) == FMP4_OK && taken > 0);
        WANT(fmp4_feed_take(&stream, input, sizeof input, &taken, out, cases[i].size, &given) == FMP4_OK);
        WANT(taken == cases[i].whole && given >= smaller(20, cases[i].size));
        WANT(fmp4_close(&stream) == FMP4_OK);
    }
}

/* Appends the stream's fragment, of 96 and 23 bytes, with this base time. */
static void append_fragment(struct bytes *to, unsigned char time) {
    append(to, in.at + 364, 119);
    to->at[to->len - 119 + 62] = time;
}

/* A room of 25,600 has a share of 200 bytes. A fragment is taken by itself before a box of 500 bytes, of which 200 are
 * taken at once, and the last 100 before a fragment that would end after 219; one before another; one before a box of 12
 * bytes, which goes with the next; and all that is left, as it is no more than 200. */
static void whole_fragments(void) {
    static const unsigned char free_box[500] = {0, 0, 1, 0xf4, 'f', 'r', 'e', 'e'}, small_box[12] = {0, 0, 0, 12, 'f', 'r', 'e', 'e'};
    static const size_t wanted[] = {119, 200, 200, 100, 119, 119, 131, 119};
    struct fmp4_stream stream = {0};
    struct bytes input = {calloc(1, 1), 0, 1};
    unsigned char out[2000];
    size_t taken = 0, given = 0;
    append_fragment(&input, 0);
    append(&input, free_box, sizeof free_box);
    append_fragment(&input, 12);
    append_fragment(&input, 24);
    append(&input, small_box, sizeof small_box);
    append_fragment(&input, 36);
    append_fragment(&input, 48);
    WANT(open_for(&stream, CUT, 25600) == FMP4_OK);
    for (size_t at = 0; at < 364; at += taken) WANT(fmp4_feed(&stream, in.at + at, 364 - at, &taken) == FMP4_OK && taken > 0);
    WANT(fmp4_take(&stream, out, sizeof out, &given) == FMP4_OK && given == 364);
    for (size_t i = 0, at = 0; i < sizeof wanted / sizeof *wanted; i++, at += taken) {
        WANT(fmp4_feed(&stream, input.at + at, input.len - at, &taken) == FMP4_OK && taken == wanted[i]);
        WANT(fmp4_take(&stream, out, sizeof out, &given) == FMP4_OK);
    }
    WANT(fmp4_close(&stream) == FMP4_OK);
    free(input.at);
}

/* A room of 14,080 has a share of 110 bytes, 9 fewer than a fragment: these are taken before the next one, of which 110 are
 * taken again. */
static void parts_of_fragments(uint32_t listing) {
    static const size_t wanted[] = {110, 9, 110, 9};
    struct fmp4_stream stream = {0};
    struct bytes input = {calloc(1, 1), 0, 1};
    unsigned char out[2000];
    size_t taken = 0, given = 0;
    append_fragment(&input, 0);
    append_fragment(&input, 12);
    WANT(open_for(&stream, listing, 14080) == FMP4_OK);
    for (size_t at = 0; at < 364; at += taken) {
        WANT(fmp4_feed(&stream, in.at + at, 364 - at, &taken) == FMP4_OK && taken > 0);
        WANT(fmp4_take(&stream, out, sizeof out, &given) == FMP4_OK && given < sizeof out);
    }
    for (size_t i = 0, at = 0; i < sizeof wanted / sizeof *wanted; i++, at += taken) {
        WANT(fmp4_feed(&stream, input.at + at, input.len - at, &taken) == FMP4_OK && taken == wanted[i]);
        WANT(fmp4_take(&stream, out, sizeof out, &given) == FMP4_OK && given < sizeof out);
    }
    WANT(fmp4_close(&stream) == FMP4_OK);
    free(input.at);
}

/* A stream that has a room twice the `waits` bytes that the first `len` of the input give, less `fewer`. */
static void filled(uint32_t listing, size_t len, size_t waits, size_t fewer) {
    struct fmp4_stream stream = {0};
    size_t taken = 0, pending = 0;
    WANT(open_for(&stream, listing, 2 * waits - fewer) == FMP4_OK);
    for (size_t at = 0; at < len; at += taken) WANT(fmp4_feed(&stream, in.at + at, 1, &taken) == FMP4_OK && taken == 1);
    WANT(fmp4_pending(&stream, &pending) == FMP4_OK && pending == waits);
    WANT(fmp4_feed(&stream, in.at + len, 0, &taken) == FMP4_OK && taken == 0);
    if (fewer) WANT(fmp4_feed(&stream, in.at + len, 1, &taken) == FMP4_FULL && taken == 0);
    else WANT(fmp4_feed(&stream, in.at + len, 1, &taken) == FMP4_OK && taken == 1);
    WANT(fmp4_close(&stream) == FMP4_OK);
}

/* The stream has an ftyp of 20 bytes, a moov of 344, and at 364 a moof of 96 with an mdat of 23. Each has what waits after
 * some of it: the line of the ftyp, three lines of samples,
 * those of a track and its fragment, a record, and the bytes that a cut passes on. */
static void half_filled(void) {
    static const struct { uint32_t listing; size_t len, waits; } cases[] = {
        {FMP4_SAMPLES, 468, 70 + 76 + 76}, {FMP4_FRAGMENTS, 364, 58}, {FMP4_FRAGMENTS, 468, 58 + 98}, {FMP4_RECORDS, 468, 88},
        {FMP4_BOXES, 8, 11}, {CUT, 20, 20}, {CUT, 364, 364}, {CUT_WITH_INDEX, 19, 19}};
    for (size_t i = 0; i < sizeof cases / sizeof *cases; i++)
        for (size_t fewer = 0; fewer < 2; fewer++) filled(cases[i].listing, cases[i].len, cases[i].waits, fewer);
}

int main(void) {
    in = read_all(stdin);
    WANT(in.len == 483);
    empty_rooms(FMP4_SAMPLES, 512);
    empty_rooms(FMP4_FRAGMENTS, 128);
    empty_rooms(FMP4_RECORDS, 32);
    empty_rooms(FMP4_BOXES, 128);
    empty_rooms(CUT, 128);
    empty_rooms(CUT_WITH_INDEX, 512);
    for (uint32_t listing = FMP4_SAMPLES; listing <= CUT_WITH_INDEX; listing++)
        if (listing != FMP4_RECORDS) empty_buffers(listing, listing == FMP4_SAMPLES || listing == CUT_WITH_INDEX ? 512 : 128);
    filled_buffers();
    whole_fragments();
    parts_of_fragments(CUT);
    parts_of_fragments(FMP4_FRAGMENTS);
    half_filled();
    puts("shares: what a feed takes of an input, up to which mdat, and FMP4_FULL from half of the room and a byte on, by each cut and listing");
    free(in.at);
    return 0;
}
