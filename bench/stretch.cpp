// Times the widest stretch of a list beside the same work by hand and prints a table.
//
//   stretch OUTLINES      OUTLINES is data/dejavu-serif.outlines
//
// All take turns, round by round; a time is the least of the rounds, for one list. All must give the same points and squared distance.
#include <cstdio>
#include <cstdlib>
#include <string>
#include <vector>

#include "../include/volkhidar.h"
#include "lists.hpp"
#include "stretch_by_hand.hpp"
#include "turns.hpp"

namespace {
using namespace bench;
using by_hand::Stretch;

constexpr Rounds ROUNDS{20, 0.5};

struct Size {
    size_t n, lists;
};

constexpr Size SIZES[] = {{10, 1000}, {100, 300}, {300, 100}, {1000, 50}, {4096, 20}};

struct Entrant {
    const char* name;
    by_hand::Way* widest;
};

Stretch ours(const Point* list, size_t n, std::vector<Point>&) {
    volkhidar_stretch_answer found = volkhidar_widest_stretch(&list->x, 2 * n);
    return {int(found.refusal), {found.a.x, found.a.y}, {found.b.x, found.b.y}, int(found.w)};
}

constexpr Entrant ENTRANTS[] = {{"Volkhidar", ours},
                                {"C++ by hand, all pairs", by_hand::after_checks<by_hand::widest_of_pairs>},
                                {"C++ by hand, sorted, all pairs", by_hand::after_checks<by_hand::widest_of_sorted>},
                                {"C++ by hand, hull, all pairs", by_hand::after_checks<by_hand::widest_of_corners>},
                                {"C++ by hand, hull, calipers", by_hand::after_checks<by_hand::widest_by_calipers>}};

constexpr size_t COUNT = sizeof ENTRANTS / sizeof ENTRANTS[0];

void require_same(const std::vector<Stretch>& answers, const std::vector<Stretch>& others, const char* name, Kind kind, size_t n) {
    for (size_t i = 0; i < answers.size(); i++) {
        if (answers[i].refusal == 0 && answers[i] == others[i]) continue;
        std::fprintf(stderr, "%s and %s differ on list %zu of %s, %zu points\n", ENTRANTS[0].name, name, i, name_of(kind).c_str(), n);
        std::exit(1);
    }
}

// Three digits, or all before the point.
std::string digits(double value) {
    char text[32];
    std::snprintf(text, sizeof text, value < 100 ? "%.3g" : "%.0f", value);
    return text;
}

void compare(Kind kind, Size size) {
    std::vector<List> lists;
    for (size_t i = 0; i < size.lists; i++) lists.push_back(draw(kind, size.n, i));
    std::vector<Stretch> answers[COUNT];
    std::vector<Point> scratch;
    std::vector<Turn> turns;
    for (size_t k = 0; k < COUNT; k++) {
        answers[k].resize(lists.size());
        turns.push_back({[] {}, [&, k] {
                             for (size_t i = 0; i < lists.size(); i++) answers[k][i] = ENTRANTS[k].widest(lists[i].data(), lists[i].size(), scratch);
                         }});
    }
    std::vector<double> times = take_turns(ROUNDS, lists.size(), turns);
    std::printf("| %s | %zu |", name_of(kind).c_str(), size.n);
    for (size_t k = 0; k < COUNT; k++) {
        require_same(answers[0], answers[k], ENTRANTS[k].name, kind, size.n);
        std::printf(" %s (%s) |", digits(times[k] * 1e6).c_str(), digits(times[k] / times[0]).c_str());
    }
    std::printf("\n");
    std::fflush(stdout);
}

void print_head() {
    std::printf("| µs a list (times %s's) | points |", ENTRANTS[0].name);
    for (const Entrant& entrant : ENTRANTS) std::printf(" %s |", entrant.name);
    std::printf("\n|---|---|");
    for (size_t k = 0; k < COUNT; k++) std::printf("---|");
    std::printf("\n");
}

}  // namespace

int main(int argc, char** argv) {
    if (argc < 2 || !read_outlines(argv[1])) {
        std::fprintf(stderr, "no outlines: stretch OUTLINES\n");
        return 1;
    }
    print_head();
    for (Kind kind : KINDS)
        for (Size size : SIZES) compare(kind, size);
}
