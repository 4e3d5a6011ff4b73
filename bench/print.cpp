// A plain twin of `timing print`: NUMBERS RANGE RUNS. Pieces of 4,096 bytes, std::to_chars, write.
#include <charconv>
#include <chrono>
#include <cstdint>
#include <cstdio>
#include <cstdlib>
#include <cstring>
#include <string>
#include <unistd.h>
#include <vector>

static char piece[4096];
static size_t held = 0;

static void hand_on(size_t count) {
    if (write(1, piece, count) != static_cast<ssize_t>(count)) exit(1);
}

static void give(const char* bytes, size_t count) {
    while (count > 0) {
        size_t most = std::min(count, sizeof piece - held);
        memcpy(piece + held, bytes, most);
        held += most;
        bytes += most;
        count -= most;
        if (held == sizeof piece) {
            hand_on(held);
            held = 0;
        }
    }
}

// A number after a space: into the piece itself where there is room for the longest.
static void give_number(int64_t number) {
    if (sizeof piece - held > 21) {
        piece[held] = ' ';
        held = std::to_chars(piece + held + 1, piece + sizeof piece, number).ptr - piece;
        return;
    }
    char text[24] = {' '};
    char* end = std::to_chars(text + 1, text + sizeof text, number).ptr;
    give(text, end - text);
}

static void print(const std::vector<int64_t>& numbers) {
    std::string head = "x list " + std::to_string(numbers.size());
    give(head.data(), head.size());
    for (int64_t number : numbers) give_number(number);
    give("\n", 1);
    if (held > 0) hand_on(held);
    held = 0;
}

int main(int count, char** words) {
    if (count != 4) return 2;
    std::vector<int64_t> numbers(strtoul(words[1], nullptr, 10));
    bool is_wide = atoi(words[2]) == 1;
    uint64_t x = 7;
    for (int64_t& number : numbers) {
        x = x * 6364136223846793005u + 1442695040888963407u;
        number = is_wide ? static_cast<int64_t>(x) : (static_cast<int64_t>(x) >> 33) % 1000;
    }
    long long least = INT64_MAX;
    for (int run = atoi(words[3]); run > 0; run--) {
        auto start = std::chrono::steady_clock::now();
        print(numbers);
        long long time = std::chrono::nanoseconds(std::chrono::steady_clock::now() - start).count();
        if (time < least) least = time;
    }
    fprintf(stderr, "%lld\n", least);
}
