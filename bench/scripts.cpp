// The scripts of bench/scripts as plain C++: scripts FORM FILE reads the list of a data file in pieces of
// 64 KiB by std::from_chars into a vector of numbers, computes by loops, and prints by std::to_chars. It
// checks no form. Compiled with -fopenmp, the loops over the numbers run on as many threads as OpenMP has.
#include "skeletons.hpp"

#include <algorithm>
#include <charconv>
#include <cstdint>
#include <cstdio>
#include <cstring>
#include <string>
#include <vector>

static Numbers numbers_of(const char* path) {
    Numbers numbers;
    FILE* file = std::fopen(path, "rb");
    if (!file) return numbers;
    std::vector<char> buffer(65536 + 64);
    std::size_t held = 0, word = 0;
    for (;;) {
        std::size_t got = std::fread(buffer.data() + held, 1, 65536, file);
        const char* at = buffer.data();
        const char* end = at + held + got;
        for (;;) {
            while (at != end && (unsigned char)*at <= ' ') ++at;
            const char* stop = at;
            while (stop != end && (unsigned char)*stop > ' ') ++stop;
            if (at == stop || (stop == end && got != 0)) break;
            std::int64_t v;
            if (++word > 3 && std::from_chars(at, stop, v).ec == std::errc()) numbers.push_back(v);
            at = stop;
        }
        held = std::size_t(end - at);
        std::memmove(buffer.data(), at, held);
        if (got == 0) break;
    }
    std::fclose(file);
    return numbers;
}

// Output in pieces of 4 KiB.
struct Out {
    char bytes[4096];
    std::size_t used = 0;
    ~Out() { std::fwrite(bytes, 1, used, stdout); }
    char* room(std::size_t n) {
        if (used + n > sizeof bytes) {
            std::fwrite(bytes, 1, used, stdout);
            used = 0;
        }
        return bytes + used;
    }
    void text(const char* s) {
        std::size_t n = std::strlen(s);
        std::memcpy(room(n), s, n);
        used += n;
    }
    void number(wide v) {
        char* at = room(41);
        if (v == (wide)(std::int64_t)v) {
            used += std::size_t(std::to_chars(at, at + 40, (std::int64_t)v).ptr - at);
            return;
        }
        std::string digits = ::text(v);
        std::memcpy(at, digits.data(), digits.size());
        used += digits.size();
    }
};

static void print_value(wide v) {
    Out out;
    out.text("r value ");
    out.number(v);
    out.text("\n");
}

static void print_scan(const Numbers& xs) {
    wide* sums = scan(xs);
    Out out;
    out.text("r list ");
    out.number(xs.size());
    for (std::size_t i = 0; i < xs.size(); ++i) {
        out.text(" ");
        out.number(sums[i]);
    }
    out.text("\n");
    std::free(sums);
}

int main(int argc, char** argv) {
    if (argc != 3) return 2;
    std::string form = argv[1];
    Numbers numbers = numbers_of(argv[2]);
    if (form == "sum") print_value(add(numbers));
    else if (form == "mss") print_value(mss(numbers));
    else if (form == "kept") print_value(kept(numbers));
    else if (form == "scan") print_scan(numbers);
    else return 2;
}
