// A hull of a library that begins with another corner than ours.
#pragma once
#include <algorithm>

#include "../contestant.hpp"

namespace bench {

// The same corners in the same direction, from the least (x, then y) on.
inline List from_least(List hull) {
    auto least = std::min_element(hull.begin(), hull.end(), is_before);
    std::rotate(hull.begin(), least, hull.end());
    return hull;
}

}  // namespace bench
