// The hull by hand, by columns and by sorting.
#include "../hull_by_hand.hpp"

#include "hull_in_place.hpp"

namespace {
using namespace bench;

class ByColumns : public HullInPlace {
    size_t reduce(List& list) override { return by_hand::hull_by_columns(list.data(), list.size(), scratch).count; }
    std::vector<Point> scratch;
};

class BySorting : public HullInPlace {
    size_t reduce(List& list) override { return by_hand::hull_by_sorting(list.data(), list.size(), scratch).count; }
    std::vector<Point> scratch;
};

Enter by_columns(1, "C++ by hand, columns", true, std::make_unique<ByColumns>());
Enter by_sorting(2, "C++ by hand, std::sort", true, std::make_unique<BySorting>());
}  // namespace
