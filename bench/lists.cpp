#include "lists.hpp"

#include <algorithm>
#include <cmath>
#include <fstream>
#include <sstream>

namespace bench {
namespace {

// splitmix64
class Random {
  public:
    explicit Random(uint64_t seed) : state(seed) {}
    uint64_t next() {
        uint64_t z = (state += 0x9E3779B97F4A7C15);
        z = (z ^ (z >> 30)) * 0xBF58476D1CE4E5B9;
        z = (z ^ (z >> 27)) * 0x94D049BB133111EB;
        return z ^ (z >> 31);
    }
    int between(int least, int most) { return least + int(next() % uint64_t(most - least + 1)); }

  private:
    uint64_t state;
};

List uniform(size_t n, Box box, Random& random) {
    List list(n);
    for (Point& p : list) {
        p.x = int16_t(random.between(0, box.right));
        p.y = int16_t(random.between(box.foot, box.top));
    }
    return list;
}

// 425^2 = 5^4 * 17^2 is a sum of two squares in 60 ways.
List lattice_circle() {
    constexpr int RADIUS = 425;
    List on;
    for (int dx = -RADIUS; dx <= RADIUS; dx++) {
        for (int dy = -RADIUS; dy <= RADIUS; dy++) {
            if (dx * dx + dy * dy == RADIUS * RADIUS) on.push_back({int16_t(500 + dx), int16_t(250 + dy)});
        }
    }
    return on;
}

List circle(size_t n, Random& random) {
    static const List on = lattice_circle();
    List list(n);
    for (Point& p : list) p = on[size_t(random.between(0, int(on.size()) - 1))];
    return list;
}

List convex(size_t n, Random& random) {
    double radius = random.between(300, 500), turn = random.between(0, 9999) / 10000.0;
    List list(n);
    for (size_t i = 0; i < n; i++) {
        double angle = 2 * M_PI * (double(i) / double(n) + turn);
        list[i] = {int16_t(500 + std::trunc(radius * std::cos(angle))), int16_t(250 + std::trunc(radius * std::sin(angle)))};
    }
    return list;
}

// A piece of an outline: a quadratic curve; a straight line has its middle for the control point.
struct Piece {
    double ax, ay, bx, by, cx, cy;
};

std::vector<std::vector<Piece>> letters;

// n points along the letter, as evenly as its pieces allow.
List outline(size_t n, Random& random) {
    const auto& pieces = letters[size_t(random.between(0, int(letters.size()) - 1))];
    double turn = random.between(0, 999) / 1000.0;
    List list(n);
    for (size_t i = 0; i < n; i++) {
        double at = (double(i) + turn) * double(pieces.size()) / double(n);
        size_t k = std::min(size_t(at), pieces.size() - 1);
        double t = at - double(k), u = 1 - t;
        const Piece& p = pieces[k];
        list[i] = {int16_t(std::lround(u * u * p.ax + 2 * u * t * p.bx + t * t * p.cx)),
                   int16_t(std::lround(u * u * p.ay + 2 * u * t * p.by + t * t * p.cy))};
    }
    return list;
}

List worst(size_t n, Box box, Random& random) {
    List list = uniform(n, box, random);
    std::stable_sort(list.begin(), list.end(), [&](Point a, Point b) { return from_middle(a, box) < from_middle(b, box); });
    return list;
}

}  // namespace

std::string name_of(Kind kind) {
    switch (kind) {
        case Kind::Uniform: return "uniform";
        case Kind::Circle: return "lattice circle";
        case Kind::Convex: return "convex";
        case Kind::Outline: return "glyph outline";
        case Kind::Worst: return "worst known";
        case Kind::Wider: return "uniform, 2,048 units";
    }
    return "";
}

Box box_of(Kind kind) { return kind == Kind::Wider ? Box{2048, -512, 1536} : Box{1000, -250, 750}; }

int from_middle(Point p, Box box) {
    int dx = p.x - box.right / 2, dy = p.y - (box.foot + box.top) / 2;
    return dx * dx + dy * dy;
}

bool read_outlines(const std::string& path) {
    std::ifstream in(path);
    std::string line, word;
    while (std::getline(in, line)) {
        if (line.empty() || line[0] == '#') continue;
        std::istringstream words(line);
        words >> word;
        if (word == "glyph") {
            letters.emplace_back();
        } else if (word == "curve" && !letters.empty()) {
            Piece p;
            words >> p.ax >> p.ay >> p.bx >> p.by >> p.cx >> p.cy;
            letters.back().push_back(p);
        }
    }
    return !letters.empty();
}

List draw(Kind kind, size_t n, uint64_t seed) {
    Random random(seed * 64 + uint64_t(kind));
    switch (kind) {
        case Kind::Uniform:
        case Kind::Wider: return uniform(n, box_of(kind), random);
        case Kind::Circle: return circle(n, random);
        case Kind::Convex: return convex(n, random);
        case Kind::Outline: return outline(n, random);
        case Kind::Worst: return worst(n, box_of(kind), random);
    }
    return {};
}

}  // namespace bench
