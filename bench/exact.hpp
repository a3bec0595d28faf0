// Whether a disk in floating numbers holds a point, and whether it is larger than the smallest: decided exactly.
//
// A number is kept as a sum of doubles that do not overlap (Shewchuk, "Adaptive precision floating-point arithmetic", 1997), so no
// rounding decides a sign.
#pragma once
#include <cmath>
#include <vector>

#include "contestant.hpp"

namespace bench {

class Sum {
  public:
    void add(double b) {
        std::vector<double> next;
        for (double a : parts) {
            double s = b + a, back = s - b, rest = (b - (s - back)) + (a - back);
            if (rest != 0) next.push_back(rest);
            b = s;
        }
        next.push_back(b);
        parts = next;
    }
    void add_product(double a, double b) {
        double p = a * b;
        add(std::fma(a, b, -p));
        add(p);
    }
    int sign() const {
        for (size_t i = parts.size(); i-- > 0;) {
            if (parts[i] != 0) return parts[i] > 0 ? 1 : -1;
        }
        return 0;
    }

  private:
    std::vector<double> parts;
};

// Adds (a - c)^2; a - c is the sum of two doubles.
inline void add_square_of_difference(Sum& sum, double a, double c) {
    double d = a - c, back = d - a, rest = (a - (d - back)) - (c + back);
    sum.add_product(d, d);
    sum.add_product(2 * d, rest);
    sum.add_product(rest, rest);
}

inline bool holds(const Drawn& d, Point p) {
    Sum sum;
    add_square_of_difference(sum, p.x, d.x);
    add_square_of_difference(sum, p.y, d.y);
    if (d.is_square) {
        sum.add(-d.radius);
    } else {
        sum.add_product(-d.radius, d.radius);
    }
    return sum.sign() <= 0;
}

inline bool holds_all(const Drawn& d, const List& list) {
    for (Point p : list) {
        if (!holds(d, p)) return false;
    }
    return true;
}

// The sign of the drawn disk's squared radius less the smallest one's, s/e^2.
inline int compare_radius(const Drawn& d, const Disk& smallest) {
    double ee = double(smallest.e) * double(smallest.e);  // below 2^53
    Sum sum;
    if (d.is_square) {
        sum.add_product(d.radius, ee);
    } else {
        double square = d.radius * d.radius, rest = std::fma(d.radius, d.radius, -square);
        sum.add_product(square, ee);
        sum.add_product(rest, ee);
    }
    uint64_t high = uint64_t(smallest.s >> 30);  // s is below 2^70
    sum.add_product(-double(high), double(int64_t(1) << 30));
    sum.add(-double(uint64_t(smallest.s - (Wide(high) << 30))));
    return sum.sign();
}

inline double radius_of(const Drawn& d) {
    return d.is_square ? std::sqrt(d.radius) : d.radius;
}

// The least whole R with R^2 e^2 greater than s.
inline int64_t whole_radius(const Disk& d) {
    int64_t r = 0;
    while (Wide(r * r) * Wide(d.e * d.e) <= d.s) r++;
    return r;
}

inline bool holds(const Disk& d, Point p) {
    __int128 dx = __int128(p.x) * d.e - d.x, dy = __int128(p.y) * d.e - d.y;
    return Wide(dx * dx + dy * dy) <= d.s;
}

}  // namespace bench
