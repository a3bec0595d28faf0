// Times the hull of a list beside the same work by hand, CGAL and OpenCV, and prints a table.
//
//   hull OUTLINES       OUTLINES is data/dejavu-serif.outlines
//
// Contestants take turns, round by round; a time is the least of the rounds, for one list, with the lists already in the contestant's own
// form. Exact contestants must give the same corners; for any other it is counted how often they are not these.
#include <algorithm>
#include <cstdio>
#include <cstdlib>

#include "contestant.hpp"
#include "hull_by_hand.hpp"
#include "lists.hpp"
#include "turns.hpp"

namespace {
using namespace bench;

constexpr Rounds ROUNDS{30, 0.5};

struct Size {
    size_t n, lists;
};

constexpr Size SIZES[] = {{10, 1000}, {100, 500}, {300, 300}, {1000, 200}, {4096, 50}};

bool is_same(const List& a, const List& b) {
    return std::equal(a.begin(), a.end(), b.begin(), b.end(), bench::is_same);
}

// The corners of the hull by hand.
List hull_of(List list) {
    std::vector<Point> scratch;
    list.resize(by_hand::hull_by_sorting(list.data(), list.size(), scratch).count);
    return list;
}

std::vector<Turn> turns(const std::vector<List>& lists) {
    std::vector<Turn> all;
    for (const Entry& entry : entries()) {
        Contestant* c = entry.contestant.get();
        all.push_back({[c, &lists] { c->prepare(lists); }, [c] { c->run(); }});
    }
    return all;
}

// How many of the hulls are others than those by hand; an exact contestant must have none.
size_t differing(const Entry& entry, const std::vector<List>& hulls, Kind kind) {
    size_t others = 0;
    for (size_t i = 0; i < hulls.size(); i++) others += !is_same(entry.contestant->found(i).hull, hulls[i]);
    if (entry.is_exact && others > 0) {
        std::fprintf(stderr, "%s: another hull on %zu of %zu lists, %s\n", entry.name.c_str(), others, hulls.size(), name_of(kind).c_str());
        std::exit(1);
    }
    return others;
}

// `others` has how many hulls of each contestant differed so far.
void compare(Kind kind, Size size, std::vector<size_t>& others) {
    std::vector<List> lists, hulls;
    size_t kept = 0;
    for (size_t i = 0; i < size.lists; i++) {
        lists.push_back(draw(kind, size.n, i));
        hulls.push_back(hull_of(lists.back()));
        kept += hulls.back().size();
    }
    std::vector<double> times = take_turns(ROUNDS, lists.size(), turns(lists));
    std::printf("| %s | %zu | %.1f |", name_of(kind).c_str(), size.n, double(kept) / double(lists.size()));
    for (size_t k = 0; k < times.size(); k++) {
        others[k] += differing(entries()[k], hulls, kind);
        std::printf(" %.3g (%.2g) |", times[k] * 1e6, times[k] / times[0]);
    }
    std::printf("\n");
    std::fflush(stdout);
}

void print_head() {
    std::printf("| µs a list (times %s's) | points | corners kept |", entries()[0].name.c_str());
    for (const Entry& entry : entries()) std::printf(" %s |", entry.name.c_str());
    std::printf("\n|---|---|---|");
    for (size_t k = 0; k < entries().size(); k++) std::printf("---|");
    std::printf("\n");
}

}  // namespace

int main(int argc, char** argv) {
    if (argc < 2 || !read_outlines(argv[1])) {
        std::fprintf(stderr, "no outlines: hull OUTLINES\n");
        return 1;
    }
    std::sort(entries().begin(), entries().end(), [](const Entry& a, const Entry& b) { return a.rank < b.rank; });
    std::vector<size_t> others(entries().size());
    print_head();
    for (Kind kind : KINDS)
        for (Size size : SIZES) compare(kind, size, others);
    for (size_t k = 0; k < others.size(); k++) {
        if (!entries()[k].is_exact) std::printf("\n%s: other corners than the exact ones on %zu lists\n", entries()[k].name.c_str(), others[k]);
    }
}
