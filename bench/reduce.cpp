// The reductions of bench/reduce as plain loops: reduce OP COUNT RUNS prints the least time of RUNS
// runs in nanoseconds, and what the list comes to.
#include "twin.hpp"

#include <algorithm>
#include <chrono>
#include <cstdint>
#include <cstdio>
#include <cstdlib>
#include <string>
#include <vector>

using std::int64_t;
using std::uint64_t;

static uint64_t state = 88172645463325252ull;

static int64_t next_number() {
    state ^= state << 13;
    state ^= state >> 7;
    state ^= state << 17;
    return static_cast<int64_t>((state | 1) ^ (1ull << 63));
}

typedef std::vector<int64_t> Column;

static std::string add(const Column &xs, const Column &) {
    wide sum = 0;
    for (int64_t x : xs) sum += x;
    return text(sum);
}

static std::string mul(const Column &xs, const Column &) {
    uint64_t product = 1;
    for (int64_t x : xs) product *= static_cast<uint64_t>(x);
    return text(static_cast<int64_t>(product));
}

static std::string least(const Column &xs, const Column &) {
    int64_t found = INT64_MAX;
    for (int64_t x : xs) found = std::min(found, x);
    return text(found);
}

static std::string greatest(const Column &xs, const Column &) {
    int64_t found = INT64_MIN;
    for (int64_t x : xs) found = std::max(found, x);
    return text(found);
}

static std::string all_bits(const Column &xs, const Column &) {
    int64_t bits = -1;
    for (int64_t x : xs) bits &= x;
    return text(bits);
}

static std::string some_bits(const Column &xs, const Column &) {
    int64_t bits = 0;
    for (int64_t x : xs) bits |= x;
    return text(bits);
}

static std::string odd_bits(const Column &xs, const Column &) {
    int64_t bits = 0;
    for (int64_t x : xs) bits ^= x;
    return text(bits);
}

// Total, greatest prefix, greatest suffix and greatest segment, combined element by element.
static std::string best_segment(const Column &xs, const Column &) {
    wide total = 0, front = 0, back = 0, best = 0;
    for (int64_t number : xs) {
        wide x = number, positive = std::max<wide>(x, 0);
        best = std::max(std::max(best, positive), back + positive);
        front = std::max(front, total + positive);
        back = std::max(positive, x + back);
        total += x;
    }
    return text(best);
}

static std::string affine(const Column &scales, const Column &offsets) {
    uint64_t scale = 1, offset = 0;
    for (size_t i = 0; i < scales.size(); i++) {
        uint64_t a = static_cast<uint64_t>(scales[i]), b = static_cast<uint64_t>(offsets[i]);
        offset = a * offset + b;
        scale *= a;
    }
    return text(static_cast<int64_t>(scale)) + "," + text(static_cast<int64_t>(offset));
}

struct Operator {
    const char *name;
    std::string (*reduce)(const Column &, const Column &);
};

static const Operator operators[] = {{"add", add},      {"mul", mul},       {"min", least},
                                     {"max", greatest}, {"and", all_bits},  {"or", some_bits},
                                     {"xor", odd_bits}, {"mss", best_segment}, {"affine", affine}};

int main(int argc, char **argv) {
    if (argc != 4) return 2;
    std::string name = argv[1];
    size_t count = std::strtoull(argv[2], nullptr, 10);
    int runs = std::atoi(argv[3]);
    Column first, second;
    for (size_t i = 0; i < count; i++) {
        first.push_back(next_number());
        if (name == "affine") second.push_back(next_number());
    }
    for (const Operator &op : operators) {
        if (name != op.name) continue;
        std::string answer;
        uint64_t time = UINT64_MAX;
        for (int run = 0; run < runs; run++) {
            auto start = std::chrono::steady_clock::now();
            answer = op.reduce(first, second);
            std::chrono::nanoseconds taken = std::chrono::steady_clock::now() - start;
            time = std::min(time, static_cast<uint64_t>(taken.count()));
        }
        std::printf("%llu (%s)\n", static_cast<unsigned long long>(time), answer.c_str());
        return 0;
    }
    return 2;
}
