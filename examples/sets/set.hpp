// A set as a C++ class that only moves: it is freed once, and never copied.
#ifndef SET_HPP
#define SET_HPP

#include "huxarte.h"

#include <cstdint>
#include <stdexcept>
#include <string>
#include <utility>
#include <vector>

namespace hux {

/// Why a call did nothing, in numbers.
struct Refused : std::runtime_error {
    explicit Refused(const HuxVerdict &verdict)
        : std::runtime_error("refused, kind " + std::to_string(verdict.kind) + ", reason " +
                             std::to_string(verdict.reason)),
          verdict(verdict) {}
    HuxVerdict verdict;
};

inline void fine(const HuxVerdict &verdict) {
    if (verdict.kind != HUX_KIND_FINE) throw Refused(verdict);
}

inline HuxCore i32(std::uint32_t number) { return {number, 0}; }
inline HuxCore i64(std::uint64_t number) { return {number, 1}; }

class Set {
public:
    /// A set of the components of these files, with so many pages of memory each.
    Set(const std::vector<std::vector<std::uint8_t>> &files, const std::vector<std::uint32_t> &pages) {
        std::vector<std::uint8_t> bytes(1); // so that there is a place also where no file has a byte
        std::vector<HuxSpan> parts;
        for (const auto &file : files) {
            parts.push_back({bytes.size(), file.size()});
            bytes.insert(bytes.end(), file.begin(), file.end());
        }
        fine(hux_set_new(bytes.data(), bytes.size(), parts.data(), parts.size(), pages.data(),
                         pages.size(), &set));
    }
    ~Set() { hux_set_free(&set); }
    Set(const Set &) = delete;
    Set &operator=(const Set &) = delete;
    Set(Set &&other) noexcept : set(std::exchange(other.set, HuxSet HUX_SET_NONE)) {}
    Set &operator=(Set &&other) noexcept {
        std::swap(set, other.set);
        return *this;
    }

    HuxEvent begin(std::uint32_t instance) {
        return told([&](HuxEvent *event) { return hux_set_begin(&set, instance, event); });
    }
    HuxEvent write(std::uint32_t at, const std::string &bytes) {
        auto *data = reinterpret_cast<const std::uint8_t *>(bytes.data());
        return told(
            [&](HuxEvent *event) { return hux_set_write(&set, at, data, bytes.size(), event); });
    }
    HuxEvent grow(std::uint32_t pages) {
        return told([&](HuxEvent *event) { return hux_set_grow(&set, pages, event); });
    }
    HuxEvent call(std::uint32_t func, const std::vector<HuxCore> &args) {
        return told([&](HuxEvent *event) {
            return hux_set_call(&set, func, there(args), args.size(), event);
        });
    }
    HuxEvent give(const std::vector<HuxCore> &values) {
        return told([&](HuxEvent *event) {
            return hux_set_return(&set, there(values), values.size(), event);
        });
    }
    HuxEvent unreachable() {
        return told([&](HuxEvent *event) { return hux_set_unreachable(&set, event); });
    }
    /// Bytes of the memory of an instance.
    std::string read(std::uint32_t instance, std::size_t at, std::size_t count) {
        std::string bytes(count, 0);
        fine(hux_set_read(&set, instance, at, reinterpret_cast<std::uint8_t *>(&bytes[0]), count));
        return bytes;
    }
    HuxSetState state() {
        HuxSetState seen{};
        fine(hux_set_state(&set, &seen));
        return seen;
    }

private:
    HuxSet set = HUX_SET_NONE;

    template <class Call> static HuxEvent told(Call &&call) {
        HuxEvent event{};
        fine(call(&event));
        return event;
    }
    /// Where the values lie: no pointer is null, also where there are none.
    static const HuxCore *there(const std::vector<HuxCore> &values) {
        static const HuxCore none{};
        return values.empty() ? &none : values.data();
    }
};

} // namespace hux

#endif
