// The incremental form of Welzl's procedure in doubles, as programs that need a disk quickly have it: the points shuffled first, a
// relative tolerance of 1e-14 on the radius.
#include <algorithm>
#include <cmath>
#include <random>

#include "../contestant.hpp"

namespace {
using namespace bench;

struct P {
    double x, y;
};

bool is_in(const Drawn& c, P p) {
    return std::hypot(p.x - c.x, p.y - c.y) <= c.radius * (1 + 1e-14);
}

Drawn about(double x, double y, P p) {
    return {x, y, std::hypot(p.x - x, p.y - y), false};
}

Drawn diameter(P p, P q) {
    double x = (p.x + q.x) / 2, y = (p.y + q.y) / 2;
    Drawn a = about(x, y, p), b = about(x, y, q);
    return a.radius > b.radius ? a : b;
}

Drawn circle(P p, P q, P r) {
    double ux = q.x - p.x, uy = q.y - p.y, vx = r.x - p.x, vy = r.y - p.y;
    double w = 2 * (ux * vy - uy * vx);
    if (w == 0) return {0, 0, -1, false};
    double uu = ux * ux + uy * uy, vv = vx * vx + vy * vy;
    double x = p.x + (uu * vy - vv * uy) / w, y = p.y + (vv * ux - uu * vx) / w;
    Drawn best = about(x, y, p);
    for (P o : {q, r}) {
        Drawn other = about(x, y, o);
        if (other.radius > best.radius) best = other;
    }
    return best;
}

Drawn smallest(std::vector<P>& points, std::mt19937& random) {
    std::shuffle(points.begin(), points.end(), random);
    Drawn c = about(points[0].x, points[0].y, points[0]);
    for (size_t i = 1; i < points.size(); i++) {
        if (is_in(c, points[i])) continue;
        c = about(points[i].x, points[i].y, points[i]);
        for (size_t j = 0; j < i; j++) {
            if (is_in(c, points[j])) continue;
            c = diameter(points[i], points[j]);
            for (size_t k = 0; k < j; k++) {
                if (is_in(c, points[k])) continue;
                Drawn through = circle(points[i], points[j], points[k]);
                if (through.radius >= 0) c = through;
            }
        }
    }
    return c;
}

class Doubles : public Contestant {
  public:
    void prepare(const std::vector<List>& from) override {
        copy_as<double>(from, lists);
        drawn.resize(lists.size());
        random.seed(1);
    }
    void run() override {
        for (size_t i = 0; i < lists.size(); i++) drawn[i] = smallest(lists[i], random);
    }
    Found found(size_t i) const override { return {{}, drawn[i]}; }

  private:
    std::vector<std::vector<P>> lists;
    std::vector<Drawn> drawn;
    std::mt19937 random;
};

Enter enter(7, "Welzl in doubles", false, std::make_unique<Doubles>());
}  // namespace
