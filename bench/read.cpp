// Reads a data file of one list, matrix or tree into columns, as the program does: 64 KiB pieces, each number
// by std::from_chars, marks in a vector of bytes, and the sizes of all subtrees. It checks no form. With
// `make KIND N FILE` it writes a file: short, full (lists of N numbers), matrix (N numbers), random, chain,
// balanced (trees of N nodes, N odd).
#include <charconv>
#include <cstdint>
#include <cstdio>
#include <cstring>
#include <random>
#include <string>
#include <vector>

static std::mt19937_64 words(7);

static int64_t short_number() { return int64_t(words() % 1999) - 999; }

struct Writer {
    FILE *file;
    explicit Writer(const char *path) : file(std::fopen(path, "wb")) {}
    ~Writer() { std::fclose(file); }
    void number(int64_t v) { std::fprintf(file, " %lld", (long long)v); }
    void node(bool leaf) { std::fprintf(file, leaf ? " L %lld" : " N %lld", (long long)short_number()); }
};

static void balanced(Writer &to, uint64_t nodes) {
    if (nodes == 1) return to.node(true);
    uint64_t left = (nodes - 1) / 2;
    if (left % 2 == 0) left -= 1;
    to.node(false);
    balanced(to, left);
    balanced(to, nodes - 1 - left);
}

static void tree(Writer &to, const std::string &kind, uint64_t nodes) {
    std::fprintf(to.file, "x tree %llu", (unsigned long long)nodes);
    if (kind == "balanced") return balanced(to, nodes);
    uint64_t open = 1;
    for (uint64_t i = 0; i < nodes; i++) {
        uint64_t rest = nodes - i;
        bool leaf = open == rest || (open > 1 && (kind == "chain" ? i > nodes / 2 : words() % 2 == 0));
        if (kind == "chain" && i < nodes / 2) leaf = false;
        to.node(leaf);
        open = leaf ? open - 1 : open + 1;
    }
}

static int make(const std::string &kind, uint64_t count, const char *path) {
    Writer to(path);
    if (kind == "short" || kind == "full") {
        std::fprintf(to.file, "x list %llu", (unsigned long long)count);
        for (uint64_t i = 0; i < count; i++) to.number(kind == "short" ? short_number() : int64_t(words()));
    } else if (kind == "matrix") {
        std::fprintf(to.file, "x matrix %llu 1000", (unsigned long long)(count / 1000));
        for (uint64_t i = 0; i < count; i++) to.number(short_number());
    } else {
        tree(to, kind, count);
    }
    std::fputc('\n', to.file);
    return 0;
}

static std::vector<int64_t> numbers;
static std::vector<unsigned char> leaves;
static std::vector<uint32_t> sizes;

static void measure() {
    sizes.resize(leaves.size());
    for (size_t i = leaves.size(); i-- > 0;) {
        if (leaves[i]) { sizes[i] = 1; continue; }
        uint32_t left = sizes[i + 1];
        sizes[i] = 1 + left + sizes[i + 1 + left];
    }
}

int main(int argc, char **argv) {
    if (argc == 5 && !std::strcmp(argv[1], "make")) return make(argv[2], std::strtoull(argv[3], nullptr, 10), argv[4]);
    FILE *file = argc == 2 ? std::fopen(argv[1], "rb") : nullptr;
    if (!file) return 1;
    std::vector<char> buffer(65536 + 64);
    size_t held = 0, word = 0, skip = 3;
    for (;;) {
        size_t got = std::fread(buffer.data() + held, 1, 65536, file);
        const char *at = buffer.data(), *end = at + held + got;
        for (;;) {
            while (at != end && (unsigned char)*at <= ' ') ++at;
            const char *stop = at;
            while (stop != end && (unsigned char)*stop > ' ') ++stop;
            if (at == stop || (stop == end && got != 0)) break;
            int64_t v;
            if (++word == 2 && *at == 'm') skip = 4;
            if (word > skip) {
                if (*at == 'N' || *at == 'L') leaves.push_back(*at == 'L');
                else if (std::from_chars(at, stop, v).ec == std::errc()) numbers.push_back(v);
            }
            at = stop;
        }
        held = size_t(end - at);
        std::memmove(buffer.data(), at, held);
        if (got == 0) break;
    }
    if (!leaves.empty()) measure();
    std::printf("%zu %zu\n", numbers.size(), sizes.empty() ? size_t(0) : size_t(sizes[0]));
}
