// The hull through the C interface (include/volkhidar.h).
#include "../../include/volkhidar.h"
#include "hull_in_place.hpp"

namespace {
using namespace bench;

class Ours : public HullInPlace {
    size_t reduce(List& list) override { return volkhidar_reduce_to_hull(&list.data()->x, 2 * list.size()).count; }
};

Enter enter(0, "Volkhidar", true, std::make_unique<Ours>());
}  // namespace
