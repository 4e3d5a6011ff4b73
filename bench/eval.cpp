// The plain loops beside which bench/eval times the evaluation over columns: the sum modulo 2^128 of
// a function's results. With the words FUNCTION WAY COUNT RUNS it prints the least time of RUNS
// runs over COUNT numbers, in nanoseconds, and the sum; the words are those of `timing eval`.
#include <algorithm>
#include <chrono>
#include <cstdint>
#include <cstdio>
#include <cstdlib>
#include <string>
#include <vector>

typedef __int128 wide;

static int64_t product(int64_t a, int64_t b) { return (int64_t)((uint64_t)a * (uint64_t)b); }
static int64_t sum64(int64_t a, int64_t b) { return (int64_t)((uint64_t)a + (uint64_t)b); }

static int64_t square(int64_t x) { return product(x, x); }
static int64_t even(int64_t x) { return (x & 1) == 0; }
static int64_t mixed(int64_t x) { return sum64(product(x, 3), std::min<int64_t>(x, 7)); }

static wide square(wide x) { return product((int64_t)x, (int64_t)x); }
static wide even(wide x) { return ((int64_t)x & 1) == 0; }
static wide mixed(wide x) { return sum64(product((int64_t)x, 3), (int64_t)std::min<wide>(x, 7)); }

template <typename Number, Number f(Number)>
__attribute__((noinline)) static wide sum(const Number* x, size_t count) {
    wide total = 0;
    for (size_t i = 0; i < count; i++) total += f(x[i]);
    return total;
}

template <typename Number>
static wide by_function(int function, const std::vector<Number>& x) {
    switch (function) {
        case 0: return sum<Number, square>(x.data(), x.size());
        case 1: return sum<Number, even>(x.data(), x.size());
        default: return sum<Number, mixed>(x.data(), x.size());
    }
}

template <typename Number>
static void timed(int function, uint32_t count, uint32_t runs) {
    std::vector<Number> numbers;
    uint64_t x = 1;
    for (uint32_t i = 0; i < count; i++) {
        x = x * 6364136223846793005u + 1442695040888963407u;
        numbers.push_back((int64_t)x);
    }
    long long least = INT64_MAX;
    wide total = 0;
    for (uint32_t i = 0; i < runs; i++) {
        auto start = std::chrono::steady_clock::now();
        total = by_function(function, numbers);
        auto end = std::chrono::steady_clock::now();
        least = std::min<long long>(least, std::chrono::duration_cast<std::chrono::nanoseconds>(end - start).count());
    }
    std::string text;
    bool negative = total < 0;
    unsigned __int128 rest = negative ? -(unsigned __int128)total : (unsigned __int128)total;
    do { text.insert(text.begin(), '0' + (int)(rest % 10)); rest /= 10; } while (rest);
    std::printf("%lld %s%s\n", least, negative ? "-" : "", text.c_str());
}

int main(int argc, char** argv) {
    if (argc != 5) return 1;
    int function = std::atoi(argv[1]), way = std::atoi(argv[2]);
    uint32_t count = std::strtoul(argv[3], nullptr, 10), runs = std::strtoul(argv[4], nullptr, 10);
    if (way == 1) timed<wide>(function, count, runs);
    else timed<int64_t>(function, count, runs);
}
