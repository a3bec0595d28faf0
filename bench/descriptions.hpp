// Descriptions of the benchmark's lists.
#pragma once
#include <cstdio>
#include <string>

#include "lists.hpp"

namespace bench {

// Two numbers as a text file has them.
constexpr const char* PLAIN = "%d %d\n";

// A line for each point; the form is one of printf for x and y.
inline std::string described(const List& list, const char* form) {
    std::string text;
    char line[32];
    for (Point p : list) {
        std::snprintf(line, sizeof line, form, p.x, p.y);
        text += line;
    }
    return text;
}

}  // namespace bench
