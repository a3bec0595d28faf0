// The widest stretch of a list by hand in C++, in four ways: what a careful programmer would write without proofs.
//
// With `after_checks` before it, each does what the call does: the checks, then the two points that are farthest apart, in rising order (x,
// then y), and the square of their distance; of pairs as far apart the least. The list is only read.
#pragma once
#include <emmintrin.h>

#include <algorithm>
#include <cstdint>
#include <cstring>
#include <vector>

#include "hull_by_hand.hpp"

namespace by_hand {

inline int square_distance(Point p, Point q) {
    int dx = p.x - q.x, dy = p.y - q.y;
    return dx * dx + dy * dy;
}

struct Stretch {
    int refusal;
    Point a, b;
    int w;

    bool operator==(const Stretch& o) const { return refusal == o.refusal && is_same(a, o.a) && is_same(b, o.b) && w == o.w; }

    // Takes the pair if it is wider, or as wide and less.
    void see(Point p, Point q) {
        int square = square_distance(p, q);
        if (square < w) return;
        if (is_before(q, p)) std::swap(p, q);
        if (square > w || is_before(p, a) || (is_same(p, a) && is_before(q, b))) *this = {0, p, q, square};
    }
};

// One point twice: every pair of different points is wider.
inline Stretch of_one(Point p) { return {0, p, p, 0}; }

using Way = Stretch(const Point* list, size_t n, std::vector<Point>& scratch);

template <Way way>
Stretch after_checks(const Point* list, size_t n, std::vector<Point>& scratch) {
    int refusal = refusal_of(list, n);
    return refusal ? Stretch{refusal, {}, {}, 0} : way(list, n, scratch);
}

// The points of a list, at least one, and behind them the last again and again, since a row is looked at in steps of sixteen points.
struct Padded {
    static constexpr size_t MOST = 4096, STEP = 16;
    Point points[MOST + STEP];
    size_t n;

    Padded(const Point* list, size_t n) : n(n) {
        std::copy(list, list + n, points);
        pad();
    }

    void pad() { std::fill_n(points + n, STEP, points[n - 1]); }

    // Into rising order, each point once.
    void sort() {
        std::sort(points, points + n, is_before);
        n = size_t(std::unique(points, points + n, is_same) - points);
        pad();
    }

    // The greatest squared distance of point i from those behind it. With SSE2, which every x86-64 has: differences fit 16 bits, and one
    // instruction multiplies and adds those of four points. It has no greater of two integers of 32 bits, but that of two floats serves:
    // positive floats have the order of their bits.
    int widest_of_row(size_t i) const {
        int32_t both;
        std::memcpy(&both, points + i, sizeof both);
        __m128i p = _mm_set1_epi32(both);
        __m128 most[STEP / 4] = {};
        for (size_t j = i + 1; j < n; j += STEP) {
            for (size_t k = 0; k < STEP / 4; k++) {
                __m128i d = _mm_sub_epi16(_mm_loadu_si128(reinterpret_cast<const __m128i*>(points + j + 4 * k)), p);
                most[k] = _mm_max_ps(most[k], _mm_castsi128_ps(_mm_madd_epi16(d, d)));
            }
        }
        int32_t squares[STEP];
        std::memcpy(squares, most, sizeof squares);
        return *std::max_element(squares, squares + STEP);
    }
};

// All pairs: the widest of each row of them, then the pairs of the rows that have the widest of all. Of what was tried on 4,096 uniform points this is
// the fastest: pair by pair in one pass takes 15 times as long, two passes (the greatest square, then the pairs that have it) 21 times, and
// rows that are left to g++ to make vectors of 3.6 times in 16 bits, 6.3 times in 32 bits and 9 times in floats.
inline Stretch widest_of_pairs(const Point* list, size_t n, std::vector<Point>&) {
    Padded padded(list, n);
    int rows[Padded::MOST], w = 0;
    for (size_t i = 0; i < n; i++) w = std::max(w, rows[i] = padded.widest_of_row(i));
    Stretch found = of_one(list[0]);
    for (size_t i = 0; i < n; i++) {
        if (rows[i] < w) continue;
        for (size_t j = i + 1; j < n; j++) found.see(list[i], list[j]);
    }
    return found;
}

// All pairs of different points in rising order: the first of the widest is the least. Faster where many points are repeated.
inline Stretch widest_of_sorted(const Point* list, size_t n, std::vector<Point>&) {
    Padded padded(list, n);
    padded.sort();
    size_t first = 0;
    int w = 0;
    for (size_t i = 0; i < padded.n; i++) {
        int widest = padded.widest_of_row(i);
        if (widest > w) first = i, w = widest;
    }
    size_t second = first;
    while (square_distance(padded.points[first], padded.points[second]) < w) second++;
    return {0, padded.points[first], padded.points[second], w};
}

// All pairs of corners of the hull: the points farthest apart are such.
inline Stretch widest_of_corners(const Point* list, size_t n, std::vector<Point>& scratch) {
    Chain corners = chain_by_columns(list, n, scratch);
    return widest_of_pairs(corners.points, corners.size, scratch);
}

// Fewer pairs of corners, by rotating calipers (Shamos, 1978): the ends of each side with the corner that is farthest from it, or with the two that are.
// No pair is left out through which two parallel lines go with all corners between them, and the widest are such pairs.
inline Stretch widest_by_calipers(const Point* list, size_t n, std::vector<Point>& scratch) {
    Chain corners = chain_by_columns(list, n, scratch);
    const Point* at = corners.points;
    auto next = [&](size_t i) { return i + 1 < corners.size ? i + 1 : 0; };
    Stretch found = of_one(at[0]);
    for (size_t i = 0, far = next(0); i < corners.size; i++) {
        Point a = at[i], b = at[next(i)];
        while (turn(a, b, at[next(far)]) > turn(a, b, at[far])) far = next(far);
        found.see(a, at[far]);
        found.see(b, at[far]);
        if (turn(a, b, at[next(far)]) < turn(a, b, at[far])) continue;
        found.see(a, at[next(far)]);
        found.see(b, at[next(far)]);
    }
    return found;
}

}  // namespace by_hand
