// The benchmark's lists, each by its kind, number of points and seed.
#pragma once
#include <string>
#include <vector>

#include "contestant.hpp"

namespace bench {

enum class Kind {
    // Anywhere in a box of 1,000 units.
    Uniform,
    // The 60 lattice points of a circle of whole radius, drawn with repeats.
    Circle,
    // Around a circle, in order, rounded to the lattice: convex position as far as whole numbers allow it.
    Convex,
    // Along a letter's outline, in order.
    Outline,
    // Drawn points, the nearest to the middle of the box first: the worst kind known for lists taken as given.
    Worst,
    // Anywhere in the em box, which has 2,048 units.
    Wider,
};

constexpr Kind KINDS[] = {Kind::Uniform, Kind::Circle, Kind::Convex, Kind::Outline, Kind::Worst, Kind::Wider};

std::string name_of(Kind kind);

// x from 0 to right, y from foot to top.
struct Box {
    int right, foot, top;
};

// Where the lists of the kind lie: but for the last kind in a box of 1,000 units.
Box box_of(Kind kind);

// The square of the distance from the middle of the box.
int from_middle(Point p, Box box);

// The outlines of a font, from a file that data/extract.py wrote; the lists of kind Outline are drawn from it.
bool read_outlines(const std::string& path);

List draw(Kind kind, size_t n, uint64_t seed);

}  // namespace bench
