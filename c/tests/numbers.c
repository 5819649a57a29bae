/* numbers VERSION < crates/test_streams/stdin: the numbers that the header fixes, each beside one that is written here: sizes
 * and places in structs, answers, flags and listings, the version as a number of the text VERSION; and what the library
 * answers of the stream: its counts, its faults with the type of their box, and the limit that is just enough. */
#include "tests.h"

#include <stddef.h>

#define SIZE(type, size) _Static_assert(sizeof(struct type) == size, #type)
#define FIELD(type, field, at) _Static_assert(offsetof(struct type, field) == at, #type "." #field)
#define NUMBER(name, number) _Static_assert(name == number, #name)

SIZE(fmp4_stream, 32);
SIZE(fmp4_report, 80);
SIZE(fmp4_fragment, 88);
SIZE(fmp4_cut, 40);
NUMBER(FMP4_LAYOUT, 0x58200050);
FIELD(fmp4_report, fragments, 0);
FIELD(fmp4_report, samples, 8);
FIELD(fmp4_report, media_bytes, 16);
FIELD(fmp4_report, peak, 24);
FIELD(fmp4_report, offset, 32);
FIELD(fmp4_report, rule, 40);
FIELD(fmp4_report, box_type, 44);
FIELD(fmp4_report, has_box_type, 48);
FIELD(fmp4_report, reserved, 56);
FIELD(fmp4_fragment, offset, 0);
FIELD(fmp4_fragment, size, 8);
FIELD(fmp4_fragment, decode_time, 16);
FIELD(fmp4_fragment, duration, 24);
FIELD(fmp4_fragment, media_bytes, 32);
FIELD(fmp4_fragment, sequence, 40);
FIELD(fmp4_fragment, track, 44);
FIELD(fmp4_fragment, timescale, 48);
FIELD(fmp4_fragment, samples, 52);
FIELD(fmp4_fragment, is_sync, 56);
FIELD(fmp4_fragment, syncs, 60);
FIELD(fmp4_fragment, track_end, 64);
FIELD(fmp4_fragment, earliest, 72);
FIELD(fmp4_fragment, handler, 80);
FIELD(fmp4_fragment, entries, 84);
FIELD(fmp4_cut, samples, 0);
FIELD(fmp4_cut, duration_ms, 4);
FIELD(fmp4_cut, bytes, 8);
FIELD(fmp4_cut, flags, 16);
FIELD(fmp4_cut, reserved, 20);
SIZE(fmp4_memory, 32);
FIELD(fmp4_memory, resize, 8);
FIELD(fmp4_memory, release, 16);
FIELD(fmp4_memory, opaque, 24);
NUMBER(FMP4_OK, 0);
NUMBER(FMP4_FULL, 1);
NUMBER(FMP4_FAULT, 2);
NUMBER(FMP4_NO_ROOM, 3);
NUMBER(FMP4_OVER_LIMIT, 4);
NUMBER(FMP4_NO_MEMORY, 5);
NUMBER(FMP4_NO_RECORD, 6);
NUMBER(FMP4_NOT_OPEN, 16);
NUMBER(FMP4_CLOSED, 17);
NUMBER(FMP4_IS_OPEN, 18);
NUMBER(FMP4_ENDED, 19);
NUMBER(FMP4_BAD_SAMPLES, 20);
NUMBER(FMP4_BAD_BYTES, 21);
NUMBER(FMP4_BAD_FLAGS, 22);
NUMBER(FMP4_BAD_ROOM, 23);
NUMBER(FMP4_BAD_LAYOUT, 24);
NUMBER(FMP4_BAD_LISTING, 25);
NUMBER(FMP4_INDEX, 1);
NUMBER(FMP4_SYNC, 2);
NUMBER(FMP4_KEYFRAMES, 4);
NUMBER(FMP4_SAMPLES, 1);
NUMBER(FMP4_FRAGMENTS, 2);
NUMBER(FMP4_RECORDS, 3);
NUMBER(FMP4_BOXES, 4);

static struct bytes in;

static void version(const char *text) {
    unsigned first, second, third;
    char left;
    WANT(sscanf(text, "%u.%u.%u%c", &first, &second, &third, &left) == 3 && second < 1000 && third < 1000);
    WANT(strcmp(FMP4_VERSION_TEXT, text) == 0);
    WANT(FMP4_VERSION == first * 1000000 + second * 1000 + third && fmp4_version() == FMP4_VERSION);
}

/* What a check of these bytes reports; its answer is `wanted`. */
static struct fmp4_report checked(const void *bytes, size_t len, uint32_t wanted) {
    struct fmp4_stream stream = {0};
    struct fmp4_report report = {0};
    size_t taken = 0;
    WANT(fmp4_check_open(&stream, 1 << 20) == 0);
    uint32_t fed = fmp4_feed(&stream, bytes, len, &taken);
    WANT(fed == 0 || fed == wanted);
    WANT(fmp4_finish(&stream, &report) == wanted && fmp4_close(&stream) == 0);
    return report;
}

static void fault(const void *bytes, size_t len, uint32_t rule, uint32_t box_type, uint64_t has_type, uint64_t offset) {
    struct fmp4_report report = checked(bytes, len, 2);
    WANT(report.rule == rule && report.box_type == box_type && report.has_box_type == has_type && report.offset == offset);
    for (int i = 0; i < 3; i++) WANT(report.reserved[i] == 0);
    WANT(report.fragments == 0 && report.samples == 0 && report.media_bytes == 0);
}

/* One fragment of three samples, of 5, 7 and 3 bytes. A moov of 344 bytes is held, and a row of 64 for its track. */
static void reports(void) {
    struct fmp4_report report = checked(in.at, in.len, 0);
    WANT(report.fragments == 1 && report.samples == 3 && report.media_bytes == 15 && report.peak == 344 + 64);
    WANT(report.rule == 0 && report.box_type == 0 && report.has_box_type == 0 && report.offset == 0);
    fault("\0\0\0\10free\0\0\0\10moof", 16, 3, 0x6d6f6f66, 1, 8);
    fault("\0\0\0\10free\0\0\0\10mdat", 16, 5, 0x6d646174, 1, 8);
    fault("\0\0\0\10free\0\0\0\11ftyp", 16, 1, 0x66747970, 1, 8);
    fault("\0\0\0\7wide", 8, 2, 0x77696465, 1, 0);
    fault("\0\0\0\7\377\1\200 ", 8, 2, 0xff018020, 1, 0);
    fault("\0\0\0\7\0\0\0\0", 8, 2, 0, 1, 0);
    fault("\0\0\0\10free\0\0\0", 11, 1, 0, 0, 8);
}

/* Feeds the stream byte by byte, and takes what waits, but of records: how it ends. */
static uint32_t ends(struct fmp4_stream *stream, uint32_t listing) {
    struct fmp4_report report = {0};
    unsigned char out[1024] = {0};
    uint32_t answer = 0;
    size_t taken = 0;
    for (size_t at = 0; at < in.len && answer == 0; at += taken) {
        size_t given = 0;
        answer = fmp4_feed(stream, in.at + at, 1, &taken);
        WANT(fmp4_take(stream, out, sizeof out, &given) == (listing == 3 ? 25 : 0));
    }
    WANT(fmp4_finish(stream, &report) == answer);
    return answer;
}

/* The limit is that of the room and the boxes together, as it is set by an open and later: 408 bytes for the boxes are
 * enough, and one less is not. */
static void limits(void) {
    static const uint32_t rooms[] = {1024, 4096, 65535, 1 << 20};
    for (int i = 0; i < 4; i++)
        for (uint64_t boxes = 406; boxes <= 410; boxes++)
            for (uint32_t listing = 0; listing < 4; listing++) {
                struct fmp4_stream stream = {0};
                uint64_t takes = 0, limit = rooms[i] + boxes;
                uint32_t wanted = boxes < 408 ? 4 : 0;
                WANT((listing ? fmp4_list_open(&stream, listing, limit, rooms[i]) : fmp4_split_open(&stream, 2, 0, 0, limit, rooms[i])) == 0);
                WANT(ends(&stream, listing) == wanted && fmp4_reset(&stream) == 0);
                WANT(fmp4_set_limit(&stream, 1 << 24, &takes) == 0 && takes == rooms[i] && ends(&stream, listing) == 0 && fmp4_reset(&stream) == 0);
                WANT(fmp4_set_limit(&stream, limit, &takes) == 0 && takes == rooms[i] && ends(&stream, listing) == wanted);
                WANT(fmp4_close(&stream) == 0);
            }
}

int main(int argc, char **argv) {
    WANT(argc == 2);
    version(argv[1]);
    in = read_all(stdin);
    reports();
    limits();
    puts("numbers: sizes, places, answers, the version, box types and limits, as written by hand");
    free(in.at);
    return 0;
}
