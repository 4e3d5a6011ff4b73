// The folds of bench/bridges as one scan of the columns with a stack: bridges SHAPE OP NODES RUNS prints
// the least time of RUNS runs in nanoseconds, and what the tree comes to. SHAPE is 0 for a random tree, 1
// for a left chain, 2 for a balanced tree; OP is 0 for sum, 1 for heavy.
#include "twin.hpp"

#include <algorithm>
#include <chrono>
#include <cstdint>
#include <cstdio>
#include <cstdlib>
#include <string>
#include <vector>

using std::int64_t;
using std::uint32_t;
using std::uint64_t;

static const uint64_t seed = 88172645463325252ull;

static uint64_t next_word(uint64_t &state) {
    state ^= state << 13;
    state ^= state >> 7;
    state ^= state << 17;
    return state;
}

static std::vector<unsigned char> leaves;
static std::vector<int64_t> values;

static void make(int shape, uint32_t nodes) {
    uint64_t state = seed;
    std::vector<uint32_t> todo{nodes / 2};
    while (!todo.empty()) {
        uint32_t inner = todo.back();
        todo.pop_back();
        leaves.push_back(inner == 0);
        if (inner == 0) continue;
        uint32_t below = inner - 1;
        uint32_t left = shape == 0 ? next_word(state) % (uint64_t(below) + 1) : shape == 1 ? below : below / 2;
        todo.push_back(below - left);
        todo.push_back(left);
    }
    state = seed;
    for (uint32_t i = 0; i < nodes; i++) values.push_back(int64_t(next_word(state) >> 44) - 524288);
}

// From the last node to the first: a leaf is put on the stack, an inner node takes its children from it.
template <class Node> static wide scan(Node node) {
    std::vector<wide> stack;
    for (size_t i = leaves.size(); i-- > 0;) {
        if (leaves[i]) {
            stack.push_back(values[i]);
            continue;
        }
        wide left = stack.back();
        stack.pop_back();
        wide &top = stack.back();
        top = node(left, values[i], top);
    }
    return stack.back();
}

static wide fold(int op) {
    if (op == 0) return scan([](wide l, int64_t b, wide r) { return l + b + r; });
    return scan([](wide l, int64_t b, wide r) { return std::max(l, r) + b; });
}

int main(int argc, char **argv) {
    if (argc != 5) return 2;
    make(std::atoi(argv[1]), static_cast<uint32_t>(std::strtoul(argv[3], nullptr, 10)));
    int op = std::atoi(argv[2]), runs = std::atoi(argv[4]);
    wide answer = 0;
    uint64_t time = UINT64_MAX;
    for (int run = 0; run < runs; run++) {
        auto start = std::chrono::steady_clock::now();
        answer = fold(op);
        std::chrono::nanoseconds taken = std::chrono::steady_clock::now() - start;
        time = std::min(time, static_cast<uint64_t>(taken.count()));
    }
    std::printf("%llu %s\n", static_cast<unsigned long long>(time), text(answer).c_str());
    return 0;
}
