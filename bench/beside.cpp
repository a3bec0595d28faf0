// Times the engine of two builds of the library on the same lists and prints a line for each kind and size: kind, points, seconds a list of either.
//
//   beside OUTLINES      OUTLINES is data/dejavu-serif.outlines
//
// Both take turns, round by round; a time is the least of the rounds. bench/beside links it with the two builds, whose calls it renames.
#include <algorithm>
#include <cstdio>

#include "lists.hpp"
#include "turns.hpp"

// The answer comes through memory. Builds differ in its size; none has more than this.
struct Answer {
    char bytes[160];
};
extern "C" Answer smallest_disk_of_first(int16_t*, size_t);
extern "C" Answer smallest_disk_of_second(int16_t*, size_t);

namespace {
using namespace bench;

constexpr Rounds ROUNDS{30, 0.4};

struct Size {
    size_t n, lists;
};

constexpr Size SIZES[] = {{1, 400}, {3, 400}, {10, 400}, {100, 100}, {1000, 20}, {4096, 8}};

void compare(Kind kind, Size size) {
    std::vector<List> lists;
    for (size_t i = 0; i < size.lists; i++) lists.push_back(draw(kind, size.n, i));
    std::vector<List> copies = lists;
    auto turn = [&](Answer (*smallest_disk)(int16_t*, size_t)) {
        return Turn{[&] {
                        for (size_t i = 0; i < lists.size(); i++) std::copy(lists[i].begin(), lists[i].end(), copies[i].begin());
                    },
                    [&, smallest_disk] {
                        for (List& list : copies) smallest_disk(&list.data()->x, 2 * list.size());
                    }};
    };
    std::vector<double> times = take_turns(ROUNDS, lists.size(), {turn(smallest_disk_of_first), turn(smallest_disk_of_second)});
    std::printf("%s|%zu|%.4g|%.4g\n", name_of(kind).c_str(), size.n, times[0], times[1]);
    std::fflush(stdout);
}

}  // namespace

int main(int argc, char** argv) {
    if (argc < 2 || !read_outlines(argv[1])) {
        std::fprintf(stderr, "no outlines: beside OUTLINES\n");
        return 1;
    }
    // builds for the em of 1,000 units refuse the lists of the whole em box
    for (Kind kind : KINDS)
        if (kind != Kind::Wider)
            for (Size size : SIZES) compare(kind, size);
}
