// fmp4.hpp: libfmp4 for C++17. fmp4.h says what each call does and answers; here a stream is closed where it goes out
// of scope, bytes come from whatever container has data() and size(), and output is handed to a function.
//
//     fmp4::stream stream;
//     stream.open({15});                               // fragments of at most 15 samples
//     auto write = [](fmp4::bytes out) { .. };
//     stream.feed(input, write);                       // as often as input comes
//     stream.finish(report, write);
#ifndef FMP4_HPP
#define FMP4_HPP

#include "fmp4.h"

#include <cstddef>
#include <cstdint>
#include <string>
#include <type_traits>
#include <utility>
#include <vector>

namespace fmp4 {

// Bytes in a row, which someone else owns: those of a std::vector, a std::string, a std::span, or by pointer and
// length.
class bytes {
    const std::uint8_t *data_ = nullptr;
    std::size_t size_ = 0;

  public:
    bytes() = default;
    bytes(const void *data, std::size_t size) : data_(static_cast<const std::uint8_t *>(data)), size_(size) {}
    template <class Container, class = std::enable_if_t<sizeof(*std::declval<const Container &>().data()) == 1>>
    bytes(const Container &container) : bytes(container.data(), container.size()) {}

    const std::uint8_t *data() const { return data_; }
    std::size_t size() const { return size_; }
    bool empty() const { return size_ == 0; }
    bytes after(std::size_t count) const { return {data_ + count, size_ - count}; }
};

// How a stream is cut: the fields of fmp4_cut, and the other arguments of fmp4_cut_open, as a server has them.
struct cut {
    std::uint32_t samples = 0;
    std::uint64_t bytes = 0;
    std::uint32_t flags = 0;
    std::uint64_t limit = 2u << 20;
    std::size_t room = 1u << 20;
    std::uint32_t duration_ms = 0;
};

inline std::string answer_name(std::uint32_t answer) { return fmp4_answer_text(answer); }
inline std::string rule_name(std::uint32_t rule) { return fmp4_rule_text(rule); }

// A stream that is cut, checked or listed. It can be moved, also to another thread, and not copied. Output is gathered
// in a buffer that grows to 16 KiB when the first comes, or in one of the caller's.
class [[nodiscard]] stream {
    fmp4_stream stream_{};
    std::vector<std::uint8_t> own_;
    std::uint8_t *out_ = nullptr;
    std::size_t size_ = 0;
    bool has_output_ = false, lost_ = false;

    void reserve() {
        if (size_ || !has_output_) return;
        own_.resize(16384);
        out_ = own_.data();
        size_ = own_.size();
    }

    // Hands output to `write`. If that throws, the output is lost: each later feed and finish answers FMP4_CLOSED.
    template <class Write> void hand(std::size_t given, Write &&write) {
        if (!given) return;
        lost_ = true;
        write(bytes(out_, given));
        lost_ = false;
    }

  public:
    stream() = default;
    stream(stream &&other) noexcept { *this = std::move(other); }
    stream &operator=(stream &&other) noexcept {
        if (this != &other) {
            fmp4_close(&stream_);
            stream_ = std::exchange(other.stream_, {});
            own_ = std::move(other.own_);
            out_ = std::exchange(other.out_, nullptr);
            size_ = std::exchange(other.size_, 0);
            has_output_ = other.has_output_;
            lost_ = std::exchange(other.lost_, false);
        }
        return *this;
    }
    ~stream() { fmp4_close(&stream_); }

    // Has output gathered in a buffer of the caller's from the next feed on; in none of no bytes.
    void buffer(std::uint8_t *out, std::size_t size) {
        out_ = out;
        size_ = size;
    }

    [[nodiscard]] std::uint32_t open(const cut &by) {
        const fmp4_cut all{by.samples, by.duration_ms, by.bytes, by.flags, {}};
        return opened(fmp4_cut_open(&stream_, &all, by.limit, by.room), true);
    }
    [[nodiscard]] std::uint32_t check(std::uint64_t limit) { return opened(fmp4_check_open(&stream_, limit), false); }
    [[nodiscard]] std::uint32_t list(fmp4_listing listing, std::uint64_t limit, std::size_t room) {
        return opened(fmp4_list_open(&stream_, listing, limit, room), true);
    }

    // Feeds all of the input. The output that it determines is handed to `write`, a function of a fmp4::bytes. What
    // that throws comes through, and the output from there on is lost.
    template <class Write> [[nodiscard]] std::uint32_t feed(bytes input, Write &&write) {
        if (lost_) return FMP4_CLOSED;
        reserve();
        std::size_t taken = 0, given = 0;
        std::uint32_t answer = FMP4_OK;
        do {
            answer = fmp4_feed_take(&stream_, input.data(), input.size(), &taken, out_, size_, &given);
            hand(given, write);
            input = input.after(taken);
        } while (answer == FMP4_FULL || (given && given == size_) || (answer == FMP4_OK && !input.empty()));
        return answer;
    }

    // Feeds a stream that is listed by records: each is handed to `each`, a function of a fmp4_fragment.
    template <class Each> [[nodiscard]] std::uint32_t feed_records(bytes input, Each &&each) {
        if (lost_) return FMP4_CLOSED;
        std::size_t taken = 0;
        std::uint32_t answer = FMP4_OK;
        do {
            answer = fmp4_feed(&stream_, input.data(), input.size(), &taken);
            input = input.after(taken);
            for (fmp4_fragment fragment{}; next(fragment) == FMP4_OK;) {
                lost_ = true;
                each(fragment);
                lost_ = false;
            }
        } while (answer == FMP4_FULL || (answer == FMP4_OK && !input.empty()));
        return answer;
    }

    // Ends the stream. What still waits is handed to `write`.
    template <class Write> [[nodiscard]] std::uint32_t finish(fmp4_report &report, Write &&write) {
        if (lost_) return FMP4_CLOSED;
        reserve();
        const std::uint32_t answer = fmp4_finish(&stream_, &report);
        std::size_t given = 0;
        while (fmp4_take(&stream_, out_, size_, &given) == FMP4_OK && given) hand(given, write);
        return answer;
    }

    // Output that waits, of which `skip` drops what was sent.
    [[nodiscard]] std::uint32_t peek(std::uint8_t *out, std::size_t size, std::size_t &count) {
        return fmp4_peek(&stream_, out, size, &count);
    }
    std::uint32_t skip(std::size_t size, std::size_t &count) { return fmp4_skip(&stream_, size, &count); }

    std::uint32_t totals(fmp4_report &report) { return fmp4_totals(&stream_, &report); }
    std::uint32_t next(fmp4_fragment &fragment) { return fmp4_next_fragment(&stream_, &fragment); }
    std::uint32_t set_limit(std::uint64_t limit, std::uint64_t &takes) {
        return fmp4_set_limit(&stream_, limit, &takes);
    }
    std::uint32_t reset() {
        lost_ = false;
        return fmp4_reset(&stream_);
    }
    std::uint32_t close() { return fmp4_close(&stream_); }
    // For the calls of fmp4.h.
    fmp4_stream *get() { return &stream_; }

  private:
    std::uint32_t opened(std::uint32_t answer, bool has_output) {
        if (answer == FMP4_OK) {
            has_output_ = has_output;
            lost_ = false;
        }
        return answer;
    }
};

} // namespace fmp4

#endif
