// calls < crates/test_streams/stdin: each function of fmp4.hpp beside what the stream has: a moov of 344 bytes whose track needs
// 64 more, at 364 a moof and an mdat of 119 bytes together, and in it three samples of 5, 7 and 3 bytes that last 1,024 each.
#include <cstdio>
#include <cstdlib>
#include <fmp4.hpp>
#include <string>
#include <utility>

#define WANT(what) do { if (!(what)) { std::fprintf(stderr, "%s:%d: %s\n", __FILE__, __LINE__, #what); std::exit(1); } } while (0)

static std::string in, out;
static const auto write = [](fmp4::bytes bytes) { out.append(reinterpret_cast<const char *>(bytes.data()), bytes.size()); };
static const std::string lines = "track=1 timescale=48000 entries=1 handler=???? types=mp4a\n"
                                 "fragment=1 at=364 size=119 track=1 dts=0 dur=3072 samples=3 sync=yes media=15"
                                 " pts=0 syncs=3 gap=0\n";

// What a stream of one kind of output gives, which is then reset.
static void gives(fmp4::stream &stream, const std::string &wanted) {
    fmp4_report report{}, totals{};
    out.clear();
    WANT(stream.feed(in, write) == FMP4_OK && stream.totals(totals) == FMP4_OK && totals.samples == 3);
    WANT(stream.finish(report, write) == FMP4_OK && out == wanted);
    WANT(report.fragments == 1 && report.samples == 3 && report.media_bytes == 15 && report.peak == 344 + 64);
    WANT(stream.reset() == FMP4_OK && stream.totals(totals) == FMP4_OK && totals.samples == 0);
}

static void listed() {
    fmp4::stream stream;
    WANT(stream.list(static_cast<fmp4_listing>(5), 1 << 20, 4096) == FMP4_BAD_LISTING && stream.list(FMP4_FRAGMENTS, 4096, 4097) == FMP4_OVER_LIMIT);
    WANT(stream.list(FMP4_FRAGMENTS, 1 << 20, 4096) == FMP4_OK && stream.list(FMP4_FRAGMENTS, 1 << 20, 4096) == FMP4_IS_OPEN);
    gives(stream, lines);
    std::uint8_t no_buffer = 0;
    stream.buffer(&no_buffer, 0);
    gives(stream, lines);
    fmp4_fragment none{};
    WANT(stream.next(none) == FMP4_BAD_LISTING && stream.close() == FMP4_OK && stream.next(none) == FMP4_CLOSED);
}

static void records() {
    fmp4::stream stream;
    std::size_t taken = 0;
    fmp4_fragment record{};
    WANT(stream.list(FMP4_RECORDS, 1 << 20, 176) == FMP4_OK && stream.next(record) == FMP4_NO_RECORD);
    for (std::size_t at = 0; at < in.size(); at += taken) {
        auto input = reinterpret_cast<const std::uint8_t *>(in.data() + at);
        WANT(fmp4_feed(stream.get(), input, in.size() - at, &taken) == FMP4_OK);
    }
    fmp4::stream moved = std::move(stream);
    WANT(stream.next(record) == FMP4_NOT_OPEN && moved.next(record) == FMP4_OK && moved.next(record) == FMP4_NO_RECORD);
    WANT(record.offset == 364 && record.size == 119 && record.decode_time == 0 && record.duration == 3072 && record.media_bytes == 15);
    WANT(record.sequence == 1 && record.track == 1 && record.timescale == 48000 && record.samples == 3 && record.is_sync == 1);
    WANT(record.syncs == 3 && record.track_end == 0 && record.earliest == 0 && record.handler == 0 && record.entries == 1);
}

static void checked() {
    fmp4::stream stream;
    fmp4_report report{};
    std::uint64_t takes = 7;
    WANT(stream.set_limit(1, takes) == FMP4_NOT_OPEN && takes == 0 && stream.reset() == FMP4_NOT_OPEN);
    WANT(stream.check(344 + 64) == FMP4_OK);
    gives(stream, "");
    WANT(stream.set_limit(344 + 63, takes) == FMP4_OK && takes == 0);
    WANT(stream.feed(in, write) == FMP4_OVER_LIMIT && stream.finish(report, write) == FMP4_OVER_LIMIT && report.samples == 0);
    WANT(stream.reset() == FMP4_OK && stream.set_limit(344 + 64, takes) == FMP4_OK && takes == 0);
    gives(stream, "");
    WANT(stream.feed(std::string("\0\0\0\7free", 8), write) == FMP4_FAULT && stream.finish(report, write) == FMP4_FAULT);
    WANT(report.box_type == 0x66726565 && report.has_box_type == 1);
    WANT(fmp4::rule_name(report.rule) == "BadSize" && fmp4::answer_name(2) == "FMP4_FAULT" && fmp4::rule_name(0).empty());
}

// The limit of a cut is that of the room and the boxes together.
static void cut() {
    fmp4::stream stream;
    fmp4::cut by{3};
    fmp4_report report{};
    std::uint64_t takes = 0;
    by.room = 4096;
    WANT(stream.open(by) == FMP4_OK && stream.set_limit(4096 + 344 + 63, takes) == FMP4_OK && takes == 4096);
    WANT(stream.feed(in, write) == FMP4_OVER_LIMIT && stream.reset() == FMP4_OK);
    WANT(stream.set_limit(4096 + 344 + 64, takes) == FMP4_OK && takes == 4096);
    out.clear();
    WANT(stream.feed(in, write) == FMP4_OK && stream.finish(report, write) == FMP4_OK && report.fragments == 1);
    // The front of the stream, a moof of 92 bytes and 16 a sample, and the mdat as it is.
    WANT(out.size() == 364 + 92 + 3 * 16 + 23 && out.compare(0, 364, in, 0, 364) == 0 && out.compare(out.size() - 23, 23, in, 460, 23) == 0);
}

// Output that is copied, and dropped in part; output whose writer throws, which is lost; a buffer of the caller's.
static void sent() {
    fmp4::stream stream;
    fmp4_report report{};
    std::uint8_t front[64], own[32];
    std::size_t count = 0, gone = 0;
    WANT(stream.list(FMP4_FRAGMENTS, 1 << 20, 4096) == FMP4_OK);
    auto input = reinterpret_cast<const std::uint8_t *>(in.data());
    for (std::size_t at = 0, taken = 0; at < in.size(); at += taken) WANT(fmp4_feed(stream.get(), input + at, in.size() - at, &taken) == FMP4_OK);
    out.clear();
    while (stream.peek(front, sizeof front, count) == FMP4_OK && count) {
        WANT(stream.skip((count + 1) / 2, gone) == FMP4_OK && gone == (count + 1) / 2);
        out.append(reinterpret_cast<const char *>(front), gone);
    }
    WANT(out == lines && stream.reset() == FMP4_OK);
    stream.buffer(own, sizeof own);
    gives(stream, lines);
    bool is_thrown = false;
    try { (void)stream.feed(in, [](fmp4::bytes) { throw 7; }); } catch (int seven) { is_thrown = seven == 7; }
    WANT(is_thrown && stream.feed(in, write) == FMP4_CLOSED && stream.finish(report, write) == FMP4_CLOSED && stream.reset() == FMP4_OK);
    gives(stream, lines);
    unsigned seen = 0;
    fmp4::stream of_records;
    WANT(of_records.list(FMP4_RECORDS, 1 << 20, 128) == FMP4_OK && of_records.feed(in, write) == FMP4_BAD_LISTING);
    WANT(of_records.feed_records(in, [&](const fmp4_fragment &f) { seen += f.offset == 364 && f.samples == 3; }) == FMP4_OK && seen == 1);
    WANT(of_records.peek(front, sizeof front, count) == FMP4_BAD_LISTING && of_records.skip(1, gone) == FMP4_BAD_LISTING);
}

int main() {
    static char input[4096];
    in.assign(input, std::fread(input, 1, sizeof input, stdin));
    WANT(in.size() == 483);
    listed();
    records();
    checked();
    cut();
    sent();
    std::puts("calls: each function of fmp4.hpp as the stream has it");
    return 0;
}
