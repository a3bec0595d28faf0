// Times the call for traced points beside the plain engine on the corners of their squares and prints a table.
//
//   traced OUTLINES       OUTLINES is data/dejavu-serif.outlines
//
// Both take turns, round by round; a time is the least of the rounds, for one list. Both must give the same disk.
#include <algorithm>
#include <cstdio>
#include <cstdlib>

#include "lists.hpp"
#include "ours.hpp"
#include "turns.hpp"

namespace {
using namespace bench;

constexpr Rounds ROUNDS{10, 0.4};

struct Size {
    size_t n, lists;
};

constexpr Size SIZES[] = {{3, 1000}, {25, 100}, {250, 20}, {1024, 8}};

// The tolerances of a list: all the same, or by turns from 0 to 50.
struct Tolerances {
    const char* name;
    int16_t least, most;
};

constexpr Tolerances TOLERANCES[] = {{"0", 0, 0}, {"5", 5, 5}, {"50", 50, 50}, {"0 to 50", 0, 50}};

// A list of traced points, x, y and t by turns: each is moved so far that its square lies in the box.
std::vector<int16_t> traced(const List& points, Box box, Tolerances tolerances) {
    std::vector<int16_t> list;
    int16_t t = tolerances.least;
    for (Point p : points) {
        list.push_back(std::clamp<int16_t>(p.x, t, box.right - t));
        list.push_back(std::clamp<int16_t>(p.y, box.foot + t, box.top - t));
        list.push_back(t);
        t = t < tolerances.most ? t + 1 : tolerances.least;
    }
    return list;
}

// The corners of all squares, x and y by turns.
std::vector<int16_t> corners(const std::vector<int16_t>& list) {
    std::vector<int16_t> points;
    for (size_t i = 0; i < list.size(); i += 3) {
        int16_t x = list[i], y = list[i + 1], t = list[i + 2];
        for (int16_t side : {int16_t(-t), t})
            for (int16_t height : {int16_t(-t), t}) points.insert(points.end(), {int16_t(x + side), int16_t(y + height)});
    }
    return points;
}

void compare(Kind kind, Size size, Tolerances tolerances) {
    std::vector<std::vector<int16_t>> lists, squares;
    for (size_t i = 0; i < size.lists; i++) {
        lists.push_back(traced(draw(kind, size.n, i), box_of(kind), tolerances));
        squares.push_back(corners(lists.back()));
    }
    std::vector<volkhidar_disk_answer> plain(lists.size());
    std::vector<volkhidar_traced_answer> answers(lists.size());
    auto copies = squares;
    Turn on_corners{[&] { copies = squares; },
                    [&] {
                        for (size_t i = 0; i < copies.size(); i++) plain[i] = volkhidar_smallest_disk(copies[i].data(), copies[i].size());
                    }};
    Turn on_traced{[] {},
                   [&] {
                       for (size_t i = 0; i < lists.size(); i++) answers[i] = volkhidar_smallest_disk_of_traced(lists[i].data(), lists[i].size());
                   }};
    std::vector<double> times = take_turns(ROUNDS, lists.size(), {on_corners, on_traced});
    for (size_t i = 0; i < lists.size(); i++) {
        if (answers[i].refusal == 0 && plain[i].refusal == 0 && disk_of(answers[i].disk) == disk_of(plain[i].disk)) continue;
        std::fprintf(stderr, "another answer on %s, %zu traced points, t %s\n", name_of(kind).c_str(), size.n, tolerances.name);
        std::exit(1);
    }
    std::printf("| %s | %zu | %s | %.3g | %.3g | %.2f |\n", name_of(kind).c_str(), size.n, tolerances.name, times[0] * 1e6,
                times[1] * 1e6, times[1] / times[0]);
    std::fflush(stdout);
}

}  // namespace

int main(int argc, char** argv) {
    if (argc < 2 || !read_outlines(argv[1])) {
        std::fprintf(stderr, "no outlines: traced OUTLINES\n");
        return 1;
    }
    std::printf("| lists | traced points | t | engine on the corners, µs | traced points, µs | time, to the engine's |\n|---|---|---|---|---|---|\n");
    for (Kind kind : KINDS)
        for (Size size : SIZES)
            for (Tolerances tolerances : TOLERANCES) compare(kind, size, tolerances);
}
