// The forms of bench/lists in C++ with OpenMP: lists FORM WORKERS COUNT RUNS prints the least time of
// RUNS runs in nanoseconds, and what the numbers come to.
#include "skeletons.hpp"

#include <omp.h>

#include <algorithm>
#include <chrono>
#include <cstdint>
#include <cstdio>
#include <cstdlib>
#include <string>
#include <vector>

static std::uint64_t state = 88172645463325252ull;

static std::int64_t next_number() {
    state ^= state << 13;
    state ^= state >> 7;
    state ^= state << 17;
    return static_cast<std::int64_t>(state);
}

static wide middle_of_scan(const Numbers &xs) {
    wide *sums = scan(xs);
    wide middle = sums[xs.size() / 2];
    std::free(sums);
    return middle;
}

static wide none(const Numbers &) { return 0; }

struct Form {
    const char *name;
    wide (*run)(const Numbers &);
};

static const Form forms[] = {{"add", add}, {"mss", mss}, {"kept", kept}, {"scan", middle_of_scan}, {"list", none}};

int main(int argc, char **argv) {
    if (argc != 5) return 2;
    std::string name = argv[1];
    omp_set_num_threads(std::atoi(argv[2]));
    std::size_t count = std::strtoull(argv[3], nullptr, 10);
    int runs = std::atoi(argv[4]);
    Numbers numbers;
    numbers.reserve(count);
    for (std::size_t i = 0; i < count; i++) numbers.push_back(next_number());
    for (const Form &form : forms) {
        if (name != form.name) continue;
        wide answer = 0;
        std::uint64_t least = UINT64_MAX;
        for (int run = 0; run < runs; run++) {
            auto start = std::chrono::steady_clock::now();
            answer = form.run(numbers);
            std::chrono::nanoseconds taken = std::chrono::steady_clock::now() - start;
            least = std::min(least, static_cast<std::uint64_t>(taken.count()));
        }
        std::printf("%llu %s\n", static_cast<unsigned long long>(least), text(answer).c_str());
        return 0;
    }
    return 2;
}
