// The loader by hand in C++: what a careful programmer would write without proofs, with the duties of volkhidar_load. A refused call changes
// nothing, so the points stand in an array of their own until the whole text is judged. Of three ways to write it, the fastest here.
#pragma once
#include <cstddef>
#include <cstdint>
#include <cstring>

namespace by_hand {

struct Loaded {
    uint64_t refusal, count;
};

// One plus, one minus or no sign, then 1 to 4 digits, then a space, a line feed or the end.
inline bool read_number(const uint8_t* text, size_t length, size_t& at, int& value) {
    size_t i = at;
    bool is_minus = false;
    if (i < length && (text[i] == '-' || text[i] == '+')) {
        is_minus = text[i] == '-';
        i++;
    }
    size_t first = i;
    int v = 0;
    for (unsigned digit; i < length && (digit = unsigned(text[i]) - '0') <= 9; i++) {
        if (i - first == 4) return false;
        v = 10 * v + int(digit);
    }
    if (i == first || (i < length && text[i] != ' ' && text[i] != '\n')) return false;
    value = is_minus ? -v : v;
    at = i;
    return true;
}

inline void skip_spaces(const uint8_t* text, size_t length, size_t& at) {
    while (at < length && text[at] == ' ') at++;
}

inline Loaded load(const uint8_t* text, size_t length, int16_t* list, size_t room) {
    if (room < 8192) return {8, 0};
    if (length > 65535) return {1, 0};
    int16_t found[8192];
    size_t n = 0, at = 0;
    while (at < length) {
        skip_spaces(text, length, at);
        if (at == length) break;
        if (text[at] == '\n') {
            at++;
            continue;
        }
        int x, y;
        if (!read_number(text, length, at, x)) return {2, 0};
        skip_spaces(text, length, at);
        if (!read_number(text, length, at, y)) return {2, 0};
        skip_spaces(text, length, at);
        if (at < length && text[at++] != '\n') return {2, 0};
        if (x < 0 || x > 2048 || y < -512 || y > 1536) return {3, 0};
        if (n == 4096) return {4, 0};
        found[2 * n] = int16_t(x);
        found[2 * n + 1] = int16_t(y);
        n++;
    }
    if (n == 0) return {5, 0};
    std::memcpy(list, found, 4 * n);
    return {0, n};
}

}  // namespace by_hand
