// The convex hull of a list by hand in C++, in two ways: what a careful programmer would write without proofs.
//
// Both do what the engine's call does: the checks, the corners of the hull to the front of the list, counterclockwise from the least
// (x, then y) with no three in a row, zeros behind them, and how many are kept.
#pragma once
#include <algorithm>
#include <cstdint>
#include <vector>

#include "by_hand.hpp"

namespace by_hand {

struct Reduced {
    int refusal;
    size_t count;
};

// Twice the area of the triangle: above 0 where the way from a over b to c turns left, 0 where the three are in a row.
inline int turn(Point a, Point b, Point c) { return (b.x - a.x) * (c.y - a.y) - (b.y - a.y) * (c.x - a.x); }

inline bool turns_left(Point a, Point b, Point c) { return turn(a, b, c) > 0; }

// A chain of strict left turns, from the point `first` of it on.
struct Chain {
    Point* points;
    size_t size, first;

    void add(Point p) {
        while (size >= first + 2 && !turns_left(points[size - 2], points[size - 1], p)) size--;
        points[size++] = p;
    }

    // The same on the way to the point `end`: a point that is not on the right of the way there cannot be a corner.
    void add_before(Point end, Point p) {
        if (turns_left(points[size - 1], p, end)) add(p);
    }
};

inline Reduced put_in_front(const Chain& chain, Point* list, size_t n) {
    std::copy(chain.points, chain.points + chain.size, list);
    std::fill(list + chain.size, list + n, Point{0, 0});
    return {0, chain.size};
}

// The points sorted, then a chain along their lower side and back along the upper one (Andrew, 1979).
inline Reduced hull_by_sorting(Point* list, size_t n, std::vector<Point>& scratch) {
    int refusal = refusal_of(list, n);
    if (refusal) return {refusal, 0};
    std::sort(list, list + n, is_before);
    size_t m = size_t(std::unique(list, list + n, is_same) - list);
    scratch.resize(std::max(scratch.size(), 2 * m));
    Chain chain{scratch.data(), 0, 0};
    for (size_t i = 0; i < m; i++) chain.add(list[i]);
    chain.first = chain.size - 1;
    for (size_t i = m - 1; i-- > 0;) chain.add(list[i]);
    // Back at the point that it began with.
    if (m > 1) chain.size--;
    return put_in_front(chain, list, n);
}

// The lowest and the highest point of each column x of the em box, and a bit for each column that has one.
struct Columns {
    static constexpr size_t WIDTH = 2049;
    int16_t low[WIDTH], high[WIDTH];
    uint64_t used[WIDTH / 64 + 1] = {};

    Columns(const Point* list, size_t n) {
        std::fill(low, low + WIDTH, INT16_MAX);
        std::fill(high, high + WIDTH, INT16_MIN);
        for (size_t i = 0; i < n; i++) {
            size_t x = size_t(list[i].x);
            low[x] = std::min(low[x], list[i].y);
            high[x] = std::max(high[x], list[i].y);
            used[x / 64] |= uint64_t(1) << (x % 64);
        }
    }

    // The columns in use, in rising order; how many there are.
    size_t gather(int16_t* columns) const {
        size_t m = 0;
        for (size_t k = 0; k < WIDTH / 64 + 1; k++)
            for (uint64_t bits = used[k]; bits != 0; bits &= bits - 1) columns[m++] = int16_t(64 * k + size_t(__builtin_ctzll(bits)));
        return m;
    }
};

// No sort: a chain along the lowest points of the columns and back along the highest. The list is only read; it has a point.
inline Chain chain_by_columns(const Point* list, size_t n, std::vector<Point>& scratch) {
    Columns columns(list, n);
    int16_t at[Columns::WIDTH];
    size_t m = columns.gather(at);
    scratch.resize(std::max(scratch.size(), 2 * m + 1));
    int16_t left = at[0], right = at[m - 1];
    Point bottom{right, columns.low[right]}, top{left, columns.high[left]};
    Chain chain{scratch.data(), 0, 0};
    chain.add({left, columns.low[left]});
    for (size_t i = 1; i + 1 < m; i++) chain.add_before(bottom, {at[i], columns.low[at[i]]});
    if (m > 1) chain.add(bottom);
    chain.first = chain.size - 1;
    if (columns.high[right] != columns.low[right]) chain.add({right, columns.high[right]});
    for (size_t i = m - 1; i-- > 1;) chain.add_before(top, {at[i], columns.high[at[i]]});
    // Back at the point that it began with, where that column has only one.
    if (m > 1) chain.add(top);
    if (m > 1 && columns.high[left] == columns.low[left]) chain.size--;
    return chain;
}

inline Reduced hull_by_columns(Point* list, size_t n, std::vector<Point>& scratch) {
    int refusal = refusal_of(list, n);
    if (refusal) return {refusal, 0};
    return put_in_front(chain_by_columns(list, n, scratch), list, n);
}

}  // namespace by_hand
