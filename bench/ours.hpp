// A disk of the C interface (include/volkhidar.h) as the benchmark has it.
#pragma once
#include "../include/volkhidar.h"
#include "contestant.hpp"

namespace bench {

inline Disk disk_of(const volkhidar_disk& d) {
    return {d.x, d.y, int64_t(d.e), Wide(d.s.hi) << 64 | d.s.lo};
}

}  // namespace bench
