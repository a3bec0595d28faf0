// What every contestant offers, and the row of those that were built.
#pragma once
#include <cstdint>
#include <memory>
#include <string>
#include <vector>

namespace bench {

struct Point {
    int16_t x, y;
};

// Rising order: by x, then y.
inline constexpr auto is_before = [](Point p, Point q) { return p.x != q.x ? p.x < q.x : p.y < q.y; };

inline constexpr auto is_same = [](Point p, Point q) { return p.x == q.x && p.y == q.y; };

using List = std::vector<Point>;

using Wide = unsigned __int128;

// Centre (x/e, y/e) and squared radius s/e^2 with no common divisor of x, y and e.
struct Disk {
    int64_t x, y, e;
    Wide s;
    bool operator==(const Disk& o) const { return x == o.x && y == o.y && e == o.e && s == o.s; }
};

// A disk in floating numbers: the radius, or its square where that is what the library hands out.
struct Drawn {
    double x, y, radius;
    bool is_square;
};

// An exact contestant fills `disk`, any other `drawn`; a contestant of the hull fills `hull`, the corners counterclockwise from the
// least (x, then y).
struct Found {
    Disk disk = {};
    Drawn drawn = {};
    List hull = {};
};

class Contestant {
  public:
    virtual ~Contestant() = default;
    // Takes copies of the lists, in the contestant's own form. Not timed.
    virtual void prepare(const std::vector<List>& lists) = 0;
    // The disks, or hulls, of all of them. Timed.
    virtual void run() = 0;
    // The disk, or hull, of list i. Not timed.
    virtual Found found(size_t i) const = 0;
};

// The lists as points P of a contestant's own, whose coordinates are numbers of the type C.
template <typename C, typename P>
void copy_as(const std::vector<List>& from, std::vector<std::vector<P>>& lists) {
    lists.clear();
    for (const List& list : from) {
        lists.emplace_back();
        for (Point p : list) lists.back().push_back(P{C(p.x), C(p.y)});
    }
}

struct Entry {
    int rank;
    std::string name;
    bool is_exact;
    std::unique_ptr<Contestant> contestant;
};

inline std::vector<Entry>& entries() {
    static std::vector<Entry> all;
    return all;
}

// A file of contestants/ puts what it has into the row by a static object of this kind.
struct Enter {
    Enter(int rank, const char* name, bool is_exact, std::unique_ptr<Contestant> c) {
        entries().push_back({rank, name, is_exact, std::move(c)});
    }
};

}  // namespace bench
