// What the C++ twins of the benchmarks share.
#pragma once
#include <algorithm>
#include <cstdint>
#include <string>

typedef __int128 wide;

// The shortest decimal text.
inline std::string text(wide x) {
    if (x == 0) return "0";
    bool negative = x < 0;
    unsigned __int128 rest = negative ? -static_cast<unsigned __int128>(x) : x;
    std::string digits;
    for (; rest; rest /= 10) digits += static_cast<char>('0' + static_cast<int>(rest % 10));
    if (negative) digits += '-';
    std::reverse(digits.begin(), digits.end());
    return digits;
}

// Sums of numbers that follow one another: of all, and the greatest of a prefix, a suffix, a segment.
struct Segments {
    wide total = 0, prefix = 0, suffix = 0, best = 0;

    void add(wide x) {
        wide positive = std::max<wide>(x, 0);
        best = std::max(std::max(best, positive), suffix + positive);
        prefix = std::max(prefix, total + positive);
        suffix = std::max(positive, x + suffix);
        total += x;
    }

    void add(const Segments &next) {
        best = std::max(std::max(best, next.best), suffix + next.prefix);
        prefix = std::max(prefix, total + next.prefix);
        suffix = std::max(next.suffix, next.total + suffix);
        total += next.total;
    }
};
