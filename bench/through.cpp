// Times the call with chosen points beside the plain engine on the same lists and prints a table.
//
//   through OUTLINES      OUTLINES is data/dejavu-serif.outlines
//
// Both take turns, round by round; a time is the least of the rounds, for one list. The answers are compared with the procedure by hand, with the
// chosen points fixed; but not those of the longest lists that are refused, on which it would take seconds.
#include <algorithm>
#include <cstdio>
#include <cstdlib>

#include "by_hand.hpp"
#include "lists.hpp"
#include "ours.hpp"
#include "turns.hpp"

namespace {
using namespace bench;

constexpr Rounds ROUNDS{3, 0.2};

struct Size {
    size_t n, lists;
};

constexpr Size SIZES[] = {{10, 400}, {100, 100}, {1000, 20}, {4096, 8}};

// Which points are chosen; one that is chosen alone stands there twice.
struct Choice {
    Point a, b;
};

// The least point is a corner of the hull, and so is the highest; the one nearest to the middle is as a rule inside.
enum class How { Least, Support, TwoOfSupport, LeastAndHighest, Middle, AnyTwo };

constexpr How HOWS[] = {How::Least, How::Support, How::TwoOfSupport, How::LeastAndHighest, How::Middle, How::AnyTwo};

const char* name_of(How how) {
    switch (how) {
        case How::Least: return "the least point";
        case How::Support: return "one of the support set";
        case How::TwoOfSupport: return "two of the support set";
        case How::LeastAndHighest: return "the least and the highest";
        case How::Middle: return "the nearest to the middle";
        case How::AnyTwo: return "any two";
    }
    return "";
}

Choice choose(How how, const List& list, Box box) {
    auto least = *std::min_element(list.begin(), list.end(), is_before);
    auto highest = *std::max_element(list.begin(), list.end(), [](Point p, Point q) { return p.y != q.y ? p.y < q.y : p.x < q.x; });
    auto nearest = *std::min_element(list.begin(), list.end(), [&](Point p, Point q) { return from_middle(p, box) < from_middle(q, box); });
    List copy = list;
    std::vector<Point> scratch;
    by_hand::Support set = by_hand::smallest_disk(copy.data(), copy.size(), scratch).support;
    switch (how) {
        case How::Least: return {least, least};
        case How::Support: return {set.points[0], set.points[0]};
        case How::TwoOfSupport: return {set.points[0], set.points[1]};
        case How::LeastAndHighest: return {least, highest};
        case How::Middle: return {nearest, nearest};
        case How::AnyTwo: return {list[list.size() / 3], list[2 * list.size() / 3]};
    }
    return {least, least};
}

// Whether the answer is that of the procedure with the chosen points fixed: its disk, if that holds the list, else 13.
bool is_right(const volkhidar_through_answer& answer, const List& list, Choice c) {
    List copy = list;
    uint64_t tests = 0;
    by_hand::Relative d = is_same(c.a, c.b) ? by_hand::with_one(copy.data(), copy.size(), c.a, tests) : by_hand::with_two(copy.data(), copy.size(), c.a, c.b, tests);
    bool fits = d.e > 0;
    for (Point p : list) fits = fits && by_hand::side(d, p) <= 0;
    if (!fits) return answer.refusal == 13;
    return answer.refusal == 0 && disk_of(answer.disk) == by_hand::lowest_terms(d);
}

void compare(Kind kind, Size size, How how) {
    std::vector<List> lists;
    std::vector<Choice> choices;
    for (size_t i = 0; i < size.lists; i++) {
        lists.push_back(draw(kind, size.n, i));
        choices.push_back(choose(how, lists.back(), box_of(kind)));
    }
    std::vector<volkhidar_through_answer> answers(lists.size());
    std::vector<List> copies;
    Turn engine{[&] { copies = lists; },
                [&] {
                    for (List& list : copies) volkhidar_smallest_disk(&list.data()->x, 2 * list.size());
                }};
    Turn through{[] {},
                 [&] {
                     for (size_t i = 0; i < lists.size(); i++) {
                         Choice c = choices[i];
                         answers[i] = volkhidar_smallest_disk_through(&lists[i].data()->x, 2 * lists[i].size(), {c.a.x, c.a.y}, {c.b.x, c.b.y});
                     }
                 }};
    std::vector<double> times = take_turns(ROUNDS, lists.size(), {engine, through});
    size_t refused = 0;
    for (size_t i = 0; i < lists.size(); i++) {
        refused += answers[i].refusal == 13;
        if (size.n > 1000 && answers[i].refusal == 13) continue;
        if (is_right(answers[i], lists[i], choices[i])) continue;
        std::fprintf(stderr, "another answer on %s, %zu points, %s\n", bench::name_of(kind).c_str(), size.n, name_of(how));
        std::exit(1);
    }
    std::printf("| %s | %zu | %s | %zu of %zu | %.3g | %.3g | %.2f |\n", bench::name_of(kind).c_str(), size.n, name_of(how), refused, lists.size(),
                times[0] * 1e6, times[1] * 1e6, times[1] / times[0]);
    std::fflush(stdout);
}

}  // namespace

int main(int argc, char** argv) {
    if (argc < 2 || !read_outlines(argv[1])) {
        std::fprintf(stderr, "no outlines: through OUTLINES\n");
        return 1;
    }
    std::printf("| lists | points | chosen | refused (13) | engine, µs | with chosen points, µs | time, to the engine's |\n|---|---|---|---|---|---|---|\n");
    for (Kind kind : KINDS)
        for (Size size : SIZES)
            for (How how : HOWS) compare(kind, size, how);
}
