// Times the loader beside the same work by hand on the same descriptions and prints a table.
//
//   load OUTLINES      OUTLINES is data/dejavu-serif.outlines
//
// Both take turns, round by round; a time is the least of the rounds. Every answer is compared, and every list that was lent.
#include <algorithm>
#include <chrono>
#include <cstdio>
#include <cstdlib>
#include <string>

#include "../include/volkhidar.h"
#include "descriptions.hpp"
#include "lists.hpp"
#include "load_by_hand.hpp"

namespace {
using namespace bench;

constexpr int ROUNDS = 400;

// How a number is written: as a text file has it; as a spreadsheet has it, with a plus; in columns of one width, with spaces and leading zeros.
enum class Style { Plain, Signed, Columns };

constexpr Style STYLES[] = {Style::Plain, Style::Signed, Style::Columns};

const char* name_of(Style style) {
    if (style == Style::Plain) return "plain";
    return style == Style::Signed ? "with signs" : "in columns";
}

const char* form_of(Style style) {
    if (style == Style::Plain) return PLAIN;
    return style == Style::Signed ? "%+d %+d\n" : "  %04d  %+05d\n";
}

struct Side {
    by_hand::Loaded (*load)(const std::string&, std::vector<int16_t>&);
    double seconds = 1e99;
    by_hand::Loaded answer{};
    std::vector<int16_t> list = std::vector<int16_t>(8192, 77);
};

by_hand::Loaded ours(const std::string& text, std::vector<int16_t>& list) {
    volkhidar_load_answer a = volkhidar_load(reinterpret_cast<const uint8_t*>(text.data()), text.size(), list.data(), list.size());
    return {a.refusal, a.count};
}

by_hand::Loaded theirs(const std::string& text, std::vector<int16_t>& list) {
    return by_hand::load(reinterpret_cast<const uint8_t*>(text.data()), text.size(), list.data(), list.size());
}

void run(Side& side, const std::string& text, int times) {
    auto start = std::chrono::steady_clock::now();
    for (int i = 0; i < times; i++) side.answer = side.load(text, side.list);
    std::chrono::duration<double> spent = std::chrono::steady_clock::now() - start;
    side.seconds = std::min(side.seconds, spent.count() / times);
}

void compare(Kind kind, size_t n, Style style) {
    std::string text = described(draw(kind, n, 1), form_of(style));
    Side a{ours}, b{theirs};
    int times = std::max(1, int(200000 / text.size()));
    for (int round = 0; round < ROUNDS; round++) {
        run(a, text, times);
        run(b, text, times);
    }
    if (a.answer.refusal != b.answer.refusal || a.answer.count != b.answer.count || a.list != b.list) {
        std::fprintf(stderr, "another answer on %s, %zu points, %s\n", name_of(kind).c_str(), n, name_of(style));
        std::exit(1);
    }
    double megabytes = double(text.size()) / 1e6;
    std::printf("| %s, %s | %zu | %zu | %.0f | %.0f | %.2f |\n", name_of(kind).c_str(), name_of(style), n, text.size(), megabytes / a.seconds,
                megabytes / b.seconds, a.seconds / b.seconds);
}

}  // namespace

int main(int argc, char** argv) {
    if (argc < 2 || !read_outlines(argv[1])) {
        std::fprintf(stderr, "no outlines: load OUTLINES\n");
        return 1;
    }
    std::printf("| descriptions | points | bytes | Volkhidar, MB/s | C++ by hand, MB/s | time, ours to theirs |\n|---|---|---|---|---|---|\n");
    for (Kind kind : {Kind::Uniform, Kind::Outline})
        for (size_t n : {100, 4096})
            for (Style style : STYLES) compare(kind, n, style);
}
