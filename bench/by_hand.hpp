// Welzl's move-to-front procedure by hand in C++, on 64-bit integers but for S: what a careful programmer would write without proofs.
//
// It does what the engine's call does: the checks, the procedure on the list as given (order left and count of tests are the
// engine's), the disk in lowest terms and its first support set.
//
// A disk is kept relative to a point q on its boundary: centre q + g/E. For d = p - q, p is outside exactly if |d|^2 E > 2 d.g, that
// is (x - qx)(E x - a) + (y - qy)(E y - b) > 0 with a = E qx + 2 gx and b = E qy + 2 gy.
#pragma once
#include <algorithm>
#include <cstdint>
#include <cstdlib>
#include <cstring>
#include <numeric>
#include <vector>

#include "contestant.hpp"

namespace by_hand {

using bench::Disk;
using bench::is_before;
using bench::is_same;
using bench::Point;
using bench::Wide;

struct Relative {
    int64_t qx, qy, e, gx, gy, a, b;
};

inline Relative about(Point q, int64_t e, int64_t gx, int64_t gy) {
    return {q.x, q.y, e, gx, gy, e * q.x + 2 * gx, e * q.y + 2 * gy};
}

inline Relative disk_of_three(Point q, Point r, Point s) {
    int64_t ux = r.x - q.x, uy = r.y - q.y, vx = s.x - q.x, vy = s.y - q.y;
    int64_t w = ux * vy - uy * vx;
    int64_t uu = ux * ux + uy * uy, vv = vx * vx + vy * vy;
    int64_t sign = w < 0 ? -1 : 1;
    return about(q, sign * 2 * w, sign * (uu * vy - vv * uy), sign * (vv * ux - uu * vx));
}

// Above 0 outside, 0 on the boundary, below 0 inside.
inline int64_t side(const Relative& d, Point p) {
    int64_t x = p.x, y = p.y;
    return (x - d.qx) * (d.e * x - d.a) + (y - d.qy) * (d.e * y - d.b);
}

inline void move_to_front(Point* list, size_t i) {
    Point p = list[i];
    std::memmove(list + 1, list, i * sizeof(Point));
    list[0] = p;
}

inline Relative with_two(Point* list, size_t n, Point q, Point r, uint64_t& tests) {
    Relative disk = about(q, 2, r.x - q.x, r.y - q.y);
    for (size_t i = 0; i < n; i++) {
        Point p = list[i];
        if (side(disk, p) > 0) {
            disk = disk_of_three(q, r, p);
            move_to_front(list, i);
        }
    }
    tests += n;
    return disk;
}

inline Relative with_one(Point* list, size_t n, Point q, uint64_t& tests) {
    Relative disk = about(q, 1, 0, 0);
    for (size_t i = 0; i < n; i++) {
        Point p = list[i];
        if (side(disk, p) > 0) {
            disk = with_two(list, i, q, p, tests);
            move_to_front(list, i);
        }
    }
    tests += n;
    return disk;
}

inline Relative procedure(Point* list, size_t n, uint64_t& tests) {
    Relative disk = about(list[0], 1, 0, 0);
    for (size_t i = 1; i < n; i++) {
        Point p = list[i];
        if (side(disk, p) > 0) {
            disk = with_one(list, i, p, tests);
            move_to_front(list, i);
        }
    }
    tests += n;
    return disk;
}

inline Wide square(int64_t a) {
    uint64_t size = uint64_t(std::llabs(a));
    return Wide(size) * size;
}

inline Disk lowest_terms(const Relative& d) {
    int64_t g = std::gcd(std::gcd(std::llabs(d.gx), std::llabs(d.gy)), d.e);
    int64_t e = d.e / g, gx = d.gx / g, gy = d.gy / g;
    return {d.qx * e + gx, d.qy * e + gy, e, square(gx) + square(gy)};
}

struct Support {
    int size;
    Point points[3];
};

// The vector from the centre to p, times E.
inline void ray(const Disk& d, Point p, int64_t& bx, int64_t& by) {
    bx = d.e * p.x - d.x;
    by = d.e * p.y - d.y;
}

inline bool is_opposite(const Disk& d, Point p, Point q) {
    int64_t px, py, qx, qy;
    ray(d, p, px, py);
    ray(d, q, qx, qy);
    return px == -qx && py == -qy;
}

inline bool is_acute(Point p, Point q, Point r) {
    auto dot = [](Point o, Point a, Point b) {
        return int64_t(a.x - o.x) * (b.x - o.x) + int64_t(a.y - o.y) * (b.y - o.y);
    };
    return dot(p, q, r) > 0 && dot(q, p, r) > 0 && dot(r, p, q) > 0;
}

// The first one to three points on the boundary that fix the disk, in rising order.
inline Support first_support(const Point* list, size_t n, const Relative& rel, const Disk& d, std::vector<Point>& on) {
    on.clear();
    for (size_t i = 0; i < n; i++) {
        if (side(rel, list[i]) == 0) on.push_back(list[i]);
    }
    std::sort(on.begin(), on.end(), is_before);
    on.erase(std::unique(on.begin(), on.end(), is_same), on.end());
    if (d.s == 0) return {1, {on[0], on[0], on[0]}};
    size_t m = on.size();
    for (size_t i = 0; i < m; i++)
        for (size_t j = i + 1; j < m; j++)
            if (is_opposite(d, on[i], on[j])) return {2, {on[i], on[j], on[j]}};
    for (size_t i = 0; i < m; i++)
        for (size_t j = i + 1; j < m; j++)
            for (size_t k = j + 1; k < m; k++)
                if (is_acute(on[i], on[j], on[k])) return {3, {on[i], on[j], on[k]}};
    return {0, {}};
}

struct Answer {
    int refusal;
    Disk disk;
    Support support;
    uint64_t tests;
};

inline int refusal_of(const Point* list, size_t n) {
    if (n == 0) return 5;
    if (n > 4096) return 4;
    for (size_t i = 0; i < n; i++) {
        if (list[i].x < 0 || list[i].x > 2048 || list[i].y < -512 || list[i].y > 1536) return 3;
    }
    return 0;
}

inline Answer smallest_disk(Point* list, size_t n, std::vector<Point>& scratch) {
    Answer answer{refusal_of(list, n), {0, 0, 1, 0}, {0, {}}, 0};
    if (answer.refusal) return answer;
    Relative rel = procedure(list, n, answer.tests);
    answer.disk = lowest_terms(rel);
    answer.support = first_support(list, n, rel, answer.disk, scratch);
    return answer;
}

}  // namespace by_hand
