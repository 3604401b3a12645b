// Plays the first pair and a call with strings by move-only sets: strings PAIR STRINGS
#include "set.hpp"

#include <fstream>
#include <iostream>
#include <iterator>

namespace {

std::vector<std::uint8_t> file(const std::string &name) {
    std::ifstream from(name, std::ios::binary);
    if (!from) throw std::runtime_error("no file " + name);
    return {std::istreambuf_iterator<char>(from), std::istreambuf_iterator<char>()};
}

hux::Set pair(const std::string &folder, std::uint32_t pages) {
    return hux::Set({file(folder + "/provider.wasm"), file(folder + "/user.wasm")}, {pages, pages});
}

/// A number of 32 bits of a memory, the low byte first.
std::uint32_t number(const std::string &bytes, std::size_t at) {
    std::uint32_t found = 0;
    for (std::size_t place = 4; place-- > 0;)
        found = found << 8 | static_cast<std::uint8_t>(bytes[at + place]);
    return found;
}

/// The user calls `inc` of the provider with 41.
void first_pair(hux::Set set) {
    set.begin(1);
    HuxEvent entered = set.call(0, {hux::i32(41)});
    auto value = static_cast<std::uint32_t>(entered.values[0].bits);
    HuxEvent resumed = set.give({hux::i32(value + 1)});
    std::cout << "inc(" << value << ") = " << resumed.values[0].bits << '\n';
    set.give({});
}

/// The guests of both components, until the user goes on: each allocates behind all that it has.
HuxEvent play(hux::Set &set, HuxEvent event, const std::string &answer) {
    std::uint32_t tops[2] = {1024, 1024};
    while (event.kind != 4) {
        if (event.kind == 3) { // an allocator: its arguments are the old place and size, alignment, size
            std::uint32_t &top = tops[event.instance];
            auto align = static_cast<std::uint32_t>(event.values[2].bits);
            auto size = static_cast<std::uint32_t>(event.values[3].bits);
            auto old = static_cast<std::uint32_t>(event.values[0].bits);
            auto kept = static_cast<std::uint32_t>(event.values[1].bits);
            std::uint32_t at = (top + align - 1) / align * align;
            if (kept != 0) set.write(at, set.read(event.instance, old, kept < size ? kept : size));
            top = at + size;
            event = set.give({hux::i32(at)});
        } else if (event.kind == 2) { // greet: its answer lies at 64, in UTF-16
            set.write(64, answer);
            std::string place{64, 0, 0, 0, static_cast<char>(answer.size() / 2), 0, 0, 0};
            set.write(0, place);
            event = set.give({hux::i32(0)});
        } else {
            event = set.give({}); // the provider tidies up
        }
    }
    return event;
}

void strings(const std::string &folder) {
    const std::string name = "Zo\xc3\xab";
    const std::string answer("H\0e\0l\0l\0o\0,\0 \0Z\0o\0\xeb\0!\0", 22);
    hux::Set made = pair(folder, 1);
    hux::Set set = std::move(made);
    set.begin(1);
    set.write(0, name);
    play(set, set.call(1, {hux::i32(0), hux::i32(4), hux::i32(256)}), answer);
    std::string place = set.read(1, 256, 8);
    std::cout << set.read(1, number(place, 0), number(place, 4)) << '\n';
    try {
        made.state();
    } catch (const hux::Refused &refused) {
        std::cout << "moved from: kind " << refused.verdict.kind << '\n';
    }
    set.give({});
}

} // namespace

int main(int count, char **words) {
    if (count != 3) return 2;
    first_pair(pair(words[1], 0));
    strings(words[2]);
}
