// Runs every contestant that was built on the same lists and writes a line of comma-separated values for each.
//
//   bench OUTLINES [quick]      OUTLINES is data/dejavu-serif.outlines
//
// Contestants take turns, round by round; a time is the least of the rounds, for one list, with the lists already in the contestant's
// own form. A contestant that is slow on a kind gets fewer of its lists, and none of the longer ones.
#include <algorithm>
#include <chrono>
#include <cmath>
#include <cstdio>
#include <cstdlib>
#include <cstring>

#include "by_hand.hpp"
#include "contestant.hpp"
#include "exact.hpp"
#include "lists.hpp"

namespace bench {
namespace {

struct Settings {
    // A contestant runs at least so many rounds, and more, up to the most, until it has run for `seconds_a_round` in all.
    int rounds, most_rounds;
    double seconds_a_round;
    double share_of_lists;
    // A rival that took longer than this for a list sits out the longer lists of the kind; the engine and the version by hand run all.
    double patience;
};

struct Size {
    size_t n, lists;
};

constexpr Size SIZES[] = {{10, 1000}, {100, 500}, {1000, 200}, {4096, 50}};

double seconds_of(Contestant& c) {
    auto start = std::chrono::steady_clock::now();
    c.run();
    return std::chrono::duration<double>(std::chrono::steady_clock::now() - start).count();
}

// How many of the lists a round has time for.
size_t affordable(Contestant& c, const std::vector<List>& lists, const Settings& settings) {
    c.prepare({lists[0]});
    double one = seconds_of(c);
    return std::max<size_t>(1, std::min(lists.size(), size_t(settings.seconds_a_round / std::max(one, 1e-9))));
}

struct Faults {
    size_t misses = 0, larger = 0, wrong_radius = 0;
    double sticks_out = 0, too_large = 0;
};

// What is wrong with a disk in floating numbers, against the smallest one.
void judge(const Drawn& d, const Disk& smallest, const List& list, Faults& faults) {
    double radius = radius_of(d), least = std::sqrt(double(smallest.s)) / double(smallest.e);
    bool is_missing = !holds_all(d, list);
    faults.misses += is_missing;
    faults.larger += !is_missing && compare_radius(d, smallest) > 0;
    faults.wrong_radius += std::floor(radius) + 1 != double(whole_radius(smallest));
    faults.too_large = std::max(faults.too_large, radius - least);
    for (Point p : list) faults.sticks_out = std::max(faults.sticks_out, std::hypot(p.x - d.x, p.y - d.y) - radius);
}

std::string decimal(Wide s) {
    std::string digits;
    do {
        digits.insert(digits.begin(), char('0' + int(s % 10)));
        s /= 10;
    } while (s > 0);
    return digits;
}

void check_exact(const Entry& entry, const Disk& disk, const Disk& smallest, const List& list) {
    bool is_right = disk == smallest;
    for (Point p : list) is_right = is_right && holds(disk, p);
    if (is_right) return;
    std::fprintf(stderr, "%s: wrong disk %ld %ld %ld %s\n", entry.name.c_str(), long(disk.x), long(disk.y), long(disk.e), decimal(disk.s).c_str());
    std::exit(1);
}

struct Row {
    size_t lists = 1;
    // The least time for a list, and the time of all rounds.
    double seconds = 1e99, spent = 0;
    Faults faults;
};

// `rows` has the contestants' results on shorter lists of the kind.
void compare(Kind kind, Size size, const Settings& settings, std::vector<Row>& rows) {
    size_t count = std::max<size_t>(1, size_t(double(size.lists) * settings.share_of_lists));
    std::vector<List> lists;
    std::vector<Disk> smallest;
    std::vector<Point> scratch;
    uint64_t tests = 0;
    for (size_t i = 0; i < count; i++) {
        lists.push_back(draw(kind, size.n, i));
        List copy = lists.back();
        by_hand::Answer answer = by_hand::smallest_disk(copy.data(), copy.size(), scratch);
        smallest.push_back(answer.disk);
        tests += answer.tests;
    }
    for (size_t k = 0; k < rows.size(); k++) {
        bool is_slow = rows[k].seconds > settings.patience && rows[k].seconds < 1e99;
        bool sits_out = entries()[k].rank > 1 && (rows[k].lists == 0 || is_slow);
        rows[k] = Row();
        rows[k].lists = sits_out ? 0 : affordable(*entries()[k].contestant, lists, settings);
    }
    for (int round = 0; round < settings.most_rounds; round++) {
        for (size_t k = 0; k < rows.size(); k++) {
            Contestant& c = *entries()[k].contestant;
            bool is_slow = round > 0 && rows[k].seconds * double(rows[k].lists) > 2 * settings.seconds_a_round;
            bool is_done = round >= settings.rounds && rows[k].spent > settings.seconds_a_round;
            if (rows[k].lists == 0 || is_slow || is_done) continue;
            c.prepare({lists.begin(), lists.begin() + long(rows[k].lists)});
            double seconds = seconds_of(c);
            rows[k].spent += seconds;
            rows[k].seconds = std::min(rows[k].seconds, seconds / double(rows[k].lists));
        }
    }
    for (size_t k = 0; k < rows.size(); k++) {
        const Entry& entry = entries()[k];
        if (rows[k].lists == 0) continue;
        for (size_t i = 0; i < rows[k].lists; i++) {
            Found found = entry.contestant->found(i);
            if (entry.is_exact) {
                check_exact(entry, found.disk, smallest[i], lists[i]);
            } else {
                judge(found.drawn, smallest[i], lists[i], rows[k].faults);
            }
        }
        const Faults& f = rows[k].faults;
        std::printf("%s;%zu;%s;%d;%zu;%.4g;%.4g;%zu;%zu;%zu;%.3g;%.3g\n", name_of(kind).c_str(), size.n, entry.name.c_str(), entry.is_exact, rows[k].lists,
                    rows[k].seconds, double(tests) / double(count), f.misses, f.larger, f.wrong_radius, f.sticks_out, f.too_large);
        std::fflush(stdout);
    }
}

}  // namespace
}  // namespace bench

int main(int argc, char** argv) {
    using namespace bench;
    bool is_quick = argc > 2 && std::strcmp(argv[2], "quick") == 0;
    if (argc < 2 || !read_outlines(argv[1])) {
        std::fprintf(stderr, "no outlines: bench OUTLINES [quick]\n");
        return 1;
    }
    Settings settings = is_quick ? Settings{2, 5, 0.05, 0.1, 0.005} : Settings{5, 60, 0.25, 1.0, 0.1};
    std::sort(entries().begin(), entries().end(), [](const Entry& a, const Entry& b) { return a.rank < b.rank; });
    std::printf("kind;n;contestant;exact;lists;seconds;tests;misses;larger;wrong_radius;sticks_out;too_large\n");
    for (Kind kind : KINDS) {
        std::vector<Row> rows(entries().size());
        for (Size size : SIZES) compare(kind, size, settings, rows);
    }
}
