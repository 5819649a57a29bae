/* Each misuse has its number, and does nothing. */
#include "tests.h"

static unsigned char input[64], out[64];
static struct fmp4_report report, other;
static size_t n;

static void all_answer(struct fmp4_stream *s, uint32_t wanted) {
    memset(&report, 7, sizeof report);
    other = report;
    n = 9;
    WANT(fmp4_feed(s, input, sizeof input, &n) == wanted && n == 0);
    size_t given = 9;
    n = 9;
    memset(out, 5, sizeof out);
    WANT(fmp4_feed_take(s, input, sizeof input, &n, out, sizeof out, &given) == wanted && n == 0 && given == 0);
    for (size_t i = 0; i < sizeof out; i++) WANT(out[i] == 5);
    if (wanted != FMP4_ENDED) {
        n = 9;
        WANT(fmp4_take(s, out, sizeof out, &n) == wanted && n == 0);
        n = 9;
        WANT(fmp4_peek(s, out, sizeof out, &n) == wanted && n == 0);
        n = 9;
        WANT(fmp4_skip(s, 1, &n) == wanted && n == 0);
        n = 9;
        WANT(fmp4_pending(s, &n) == wanted && n == 0);
        uint64_t takes = 9;
        WANT(fmp4_set_limit(s, 1 << 20, &takes) == wanted && takes == 0);
        WANT(fmp4_reset(s) == wanted);
        struct fmp4_fragment fragment = {.offset = 9};
        WANT(fmp4_next_fragment(s, &fragment) == wanted && fragment.offset == 9);
        WANT(fmp4_close(s) == wanted);
        WANT(fmp4_totals(s, &report) == wanted);
    }
    WANT(fmp4_finish(s, &report) == wanted);
    WANT(memcmp(&report, &other, sizeof report) == 0);
}

static uint32_t answer_to(struct fmp4_stream *s, struct fmp4_cut cut) { return fmp4_cut_open(s, &cut, 1 << 20, 4096); }

/* The same of what a struct fmp4_cut asks for. */
static void no_cut_opens(struct fmp4_stream *s) {
    struct fmp4_cut one = {.samples = 1}, all = {.samples = 1};
    WANT(answer_to(s, (struct fmp4_cut){0}) == FMP4_BAD_SAMPLES);
    WANT(answer_to(s, (struct fmp4_cut){.bytes = 1, .flags = FMP4_INDEX}) == FMP4_BAD_SAMPLES);
    WANT(answer_to(s, (struct fmp4_cut){.samples = 1000001}) == FMP4_BAD_SAMPLES);
    WANT(answer_to(s, (struct fmp4_cut){.samples = 1000001, .duration_ms = 1}) == FMP4_BAD_SAMPLES);
    WANT(answer_to(s, (struct fmp4_cut){.samples = UINT32_MAX, .duration_ms = UINT32_MAX}) == FMP4_BAD_SAMPLES);
    WANT(answer_to(s, (struct fmp4_cut){.duration_ms = 1, .bytes = ((uint64_t)1 << 62) + 1}) == FMP4_BAD_BYTES);
    for (all.flags = FMP4_SYNC | FMP4_KEYFRAMES; all.flags < 17; all.flags++) WANT(answer_to(s, all) == FMP4_BAD_FLAGS);
    all.flags = UINT32_MAX;
    WANT(answer_to(s, all) == FMP4_BAD_FLAGS);
    for (int word = 0; word < 5; word++) {
        struct fmp4_cut later = one;
        later.reserved[word] = word % 2 ? 1 : 1u << 31;
        WANT(answer_to(s, later) == FMP4_BAD_FLAGS);
    }
    WANT(fmp4_cut_open(s, &one, 1 << 20, 0) == FMP4_BAD_ROOM);
    WANT(fmp4_cut_open(s, &one, 4095, 4096) == FMP4_OVER_LIMIT);
}

/* And what is in range opens it. */
static void all_cuts_open(struct fmp4_stream *s) {
    static const struct fmp4_cut cuts[] = {{.samples = 1}, {.samples = 1000000, .duration_ms = UINT32_MAX, .bytes = (uint64_t)1 << 62},
        {.duration_ms = 1}, {.samples = 1, .flags = 1}, {.samples = 1, .flags = 2}, {.samples = 1, .flags = 3},
        {.samples = 1, .flags = 4}, {.duration_ms = UINT32_MAX, .bytes = 1, .flags = 5}};
    for (size_t i = 0; i < sizeof cuts / sizeof *cuts; i++) {
        WANT(answer_to(s, cuts[i]) == FMP4_OK);
        WANT(answer_to(s, cuts[i]) == FMP4_IS_OPEN);
        WANT(answer_to(s, (struct fmp4_cut){.reserved = {1}}) == FMP4_IS_OPEN);
        WANT(fmp4_close(s) == FMP4_OK);
    }
}

/* What is out of range is refused by its number, and the stream stays as it was. */
static void none_opens(struct fmp4_stream *s, uint32_t answer) {
    WANT(fmp4_split_open(s, 0, 0, 0, 1 << 20, 4096) == FMP4_BAD_SAMPLES);
    WANT(fmp4_split_open(s, 1000001, 0, 0, 1 << 20, 4096) == FMP4_BAD_SAMPLES);
    WANT(fmp4_split_open(s, UINT32_MAX, 0, 0, 1 << 20, 4096) == FMP4_BAD_SAMPLES);
    WANT(fmp4_split_open(s, 1, ((uint64_t)1 << 62) + 1, 0, 1 << 20, 4096) == FMP4_BAD_BYTES);
    for (uint32_t flags = 4; flags < 9; flags++) WANT(fmp4_split_open(s, 1, 0, flags, 1 << 20, 4096) == FMP4_BAD_FLAGS);
    WANT(fmp4_split_open(s, 1, 0, UINT32_MAX, 1 << 20, 4096) == FMP4_BAD_FLAGS);
    WANT(fmp4_split_open(s, 1, 0, 0, 1 << 20, 0) == FMP4_BAD_ROOM);
    WANT(fmp4_split_open(s, 1, 0, 0, 4095, 4096) == FMP4_OVER_LIMIT);
    WANT(fmp4_split_open(s, 1, 0, 0, 0, SIZE_MAX) == FMP4_OVER_LIMIT);
    static const uint32_t layouts[] = {0, FMP4_LAYOUT - 1, FMP4_LAYOUT + (1 << 16), FMP4_LAYOUT + (8u << 24), UINT32_MAX};
    for (int i = 0; i < 5; i++) {
        WANT(fmp4_split_open_as(s, layouts[i], 1, 0, 0, 1 << 20, 4096) == FMP4_BAD_LAYOUT);
        WANT(fmp4_check_open_as(s, layouts[i], 1 << 20) == FMP4_BAD_LAYOUT);
        WANT(fmp4_list_open_as(s, layouts[i], FMP4_SAMPLES, 1 << 20, 4096) == FMP4_BAD_LAYOUT);
    }
    WANT(fmp4_cut_open_as(s, 0, &(struct fmp4_cut){.samples = 1}, 1 << 20, 4096) == FMP4_BAD_LAYOUT);
    no_cut_opens(s);
    WANT(fmp4_list_open(s, 0, 1 << 20, 4096) == FMP4_BAD_LISTING && fmp4_list_open(s, 5, 1 << 20, 4096) == FMP4_BAD_LISTING);
    WANT(fmp4_list_open(s, UINT32_MAX, 1 << 20, 4096) == FMP4_BAD_LISTING);
    WANT(fmp4_list_open(s, FMP4_RECORDS, 1 << 20, 0) == FMP4_BAD_ROOM);
    WANT(fmp4_list_open(s, FMP4_FRAGMENTS, 4095, 4096) == FMP4_OVER_LIMIT && fmp4_list_open(s, FMP4_BOXES, 4095, 4096) == FMP4_OVER_LIMIT);
    all_answer(s, answer);
}

int main(void) {
    struct fmp4_stream s = {0};
    all_answer(&s, FMP4_NOT_OPEN);
    none_opens(&s, FMP4_NOT_OPEN);
    for (int twice = 0; twice < 2; twice++) {
        WANT(fmp4_split_open(&s, 1000000, (uint64_t)1 << 62, FMP4_INDEX | FMP4_SYNC, 4096, 4096) == FMP4_OK);
        WANT(fmp4_split_open(&s, 1, 0, 0, 1 << 20, 4096) == FMP4_IS_OPEN);
        WANT(fmp4_split_open(&s, 0, 0, 9, 0, 0) == FMP4_IS_OPEN);
        WANT(fmp4_check_open(&s, 1 << 20) == FMP4_IS_OPEN);
        WANT(fmp4_split_open_as(&s, 0, 1, 0, 0, 1 << 20, 4096) == FMP4_IS_OPEN);
        WANT(fmp4_list_open(&s, 0, 0, 0) == FMP4_IS_OPEN);
        struct fmp4_fragment fragment = {.offset = 9};
        WANT(fmp4_next_fragment(&s, &fragment) == FMP4_BAD_LISTING && fragment.offset == 9);
        WANT(fmp4_totals(&s, &report) == FMP4_OK && report.samples == 0 && report.rule == 0);
        WANT(fmp4_feed(&s, input, 0, &n) == FMP4_OK && n == 0);
        WANT(fmp4_feed(&s, NULL, 0, &n) == FMP4_OK && n == 0);
        WANT(fmp4_take(&s, NULL, 0, &n) == FMP4_OK && n == 0);
        size_t given = 9;
        WANT(fmp4_feed_take(&s, NULL, 0, &n, NULL, 0, &given) == FMP4_OK && n == 0 && given == 0);
        uint64_t takes = 9;
        WANT(fmp4_set_limit(&s, 0, &takes) == FMP4_OK && takes == 4096);
        WANT(fmp4_reset(&s) == FMP4_OK);
        WANT(fmp4_finish(&s, &report) == FMP4_OK && report.samples == 0 && report.peak == 0);
        all_answer(&s, FMP4_ENDED);
        WANT(fmp4_totals(&s, &report) == FMP4_OK && report.samples == 0 && report.rule == 0);
        WANT(fmp4_take(&s, out, sizeof out, &n) == FMP4_OK && n == 0);
        WANT(fmp4_split_open(&s, 1, 0, 0, 1 << 20, 4096) == FMP4_IS_OPEN);
        WANT(fmp4_close(&s) == FMP4_OK);
        all_answer(&s, FMP4_CLOSED);
        none_opens(&s, FMP4_CLOSED);
        all_cuts_open(&s);
        WANT(fmp4_check_open(&s, 0) == FMP4_OK);
        WANT(fmp4_close(&s) == FMP4_OK);
    }
    char name[16];
    static const char *const names[] = {"", "Truncated", "BadSize", "NoMoov", "SecondMoov", "StrayMdat", "MdatMissing", "TooLarge",
        "Depth", "Missing", "Twice", "Version", "FieldLength", "SamplesInMoov", "Unsupported", "BaseNotMoof", "EmptyDuration",
        "FlagsConflict", "UnknownTrack", "EntryIndex", "TooManySamples", "TimeRange", "RunPlace", "IndexRange", "SequenceEnd",
        "StreamTooLong", "", ""};
    for (uint32_t rule = 0; rule < 28; rule++) {
        memset(name, 'x', sizeof name);
        WANT(fmp4_rule_name(rule, name, sizeof name) == strlen(names[rule]) && strcmp(name, names[rule]) == 0);
    }
    memset(name, 'x', sizeof name);
    WANT(fmp4_rule_name(4, name, 4) == 10 && memcmp(name, "Sec\0xx", 6) == 0);
    WANT(fmp4_rule_name(4, name, 1) == 10 && name[0] == 0);
    WANT(fmp4_rule_name(UINT32_MAX, name, 0) == 0);
    WANT(fmp4_rule_name(4, NULL, 0) == 10 && fmp4_answer_name(FMP4_FULL, NULL, 0) == 9);
    char of_answer[17];
    static const struct { uint32_t answer; const char *name; } answers[] = {{0, "FMP4_OK"}, {1, "FMP4_FULL"}, {2, "FMP4_FAULT"},
        {3, "FMP4_NO_ROOM"}, {4, "FMP4_OVER_LIMIT"}, {5, "FMP4_NO_MEMORY"}, {6, "FMP4_NO_RECORD"}, {7, ""}, {15, ""}, {16, "FMP4_NOT_OPEN"},
        {17, "FMP4_CLOSED"}, {18, "FMP4_IS_OPEN"}, {19, "FMP4_ENDED"}, {20, "FMP4_BAD_SAMPLES"}, {21, "FMP4_BAD_BYTES"},
        {22, "FMP4_BAD_FLAGS"}, {23, "FMP4_BAD_ROOM"}, {24, "FMP4_BAD_LAYOUT"}, {25, "FMP4_BAD_LISTING"}, {26, ""}, {UINT32_MAX, ""}};
    for (size_t i = 0; i < sizeof answers / sizeof *answers; i++) {
        memset(of_answer, 'x', sizeof of_answer);
        WANT(fmp4_answer_name(answers[i].answer, of_answer, sizeof of_answer) == strlen(answers[i].name));
        WANT(strcmp(of_answer, answers[i].name) == 0);
    }
    WANT(fmp4_version() == FMP4_VERSION);
    puts("misuse: each number as the header says");
    return 0;
}
