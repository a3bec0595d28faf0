// Calls that take turns on the same lists, round by round. A time is the least of the rounds, for one list.
#pragma once
#include <algorithm>
#include <chrono>
#include <cstddef>
#include <functional>
#include <vector>

namespace bench {

// At least so many rounds, and more until they have run so long in all, each counted as the least so far.
struct Rounds {
    int least;
    double seconds;
};

// `prepare` is run before each call and is not timed.
struct Turn {
    std::function<void()> prepare, call;
};

inline double seconds_of(const std::function<void()>& call) {
    auto start = std::chrono::steady_clock::now();
    call();
    return std::chrono::duration<double>(std::chrono::steady_clock::now() - start).count();
}

// The times in the order of the turns.
inline std::vector<double> take_turns(Rounds rounds, size_t lists, const std::vector<Turn>& turns) {
    std::vector<double> times(turns.size(), 1e99);
    double spent = 0;
    for (int round = 0; round < rounds.least || spent < rounds.seconds; round++) {
        for (size_t k = 0; k < turns.size(); k++) {
            turns[k].prepare();
            times[k] = std::min(times[k], seconds_of(turns[k].call) / double(lists));
            spent += times[k] * double(lists);
        }
    }
    return times;
}

}  // namespace bench
