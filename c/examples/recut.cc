// recut SAMPLES [INPUT [DURATION [FLAGS]]]: recuts standard input, INPUT bytes at a time, as fmp4 split does.
// c++ -std=c++17 recut.cc -lfmp4
#include <cstdio>
#include <cstdlib>
#include <fmp4.hpp>
#include <vector>

int main(int argc, char **argv) {
    if (argc < 2) return std::fputs("recut SAMPLES [INPUT [DURATION [FLAGS]]]\n", stderr), 64;
    fmp4::cut cut{static_cast<std::uint32_t>(std::strtoul(argv[1], nullptr, 10))};
    if (argc > 3) cut.duration_ms = static_cast<std::uint32_t>(std::strtoul(argv[3], nullptr, 10));
    if (argc > 4) cut.flags = static_cast<std::uint32_t>(std::strtoul(argv[4], nullptr, 10));
    fmp4::stream stream;
    if (std::uint32_t answer = stream.open(cut)) return std::fprintf(stderr, "%s\n", fmp4::answer_name(answer).c_str()), 64;
    bool is_written = true;
    auto write = [&](fmp4::bytes out) { is_written = is_written && std::fwrite(out.data(), 1, out.size(), stdout) == out.size(); };
    std::vector<unsigned char> input(argc > 2 ? std::strtoul(argv[2], nullptr, 10) : 65536);
    std::uint32_t answer = FMP4_OK;
    while (answer == FMP4_OK && is_written) {
        std::size_t len = std::fread(input.data(), 1, input.size(), stdin);
        if (len == 0) break;
        answer = stream.feed({input.data(), len}, write);
    }
    fmp4_report report{};
    answer = stream.finish(report, write);
    if (!is_written || std::ferror(stdin) || std::fflush(stdout) != 0) return 3;
    if (answer == FMP4_FAULT) std::fprintf(stderr, "recut: %s at %llu\n", fmp4::rule_name(report.rule).c_str(), static_cast<unsigned long long>(report.offset));
    return answer == FMP4_OK ? 0 : answer == FMP4_FAULT ? 2 : answer == FMP4_NO_ROOM ? 3 : 4;
}
