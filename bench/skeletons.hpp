// Skeletons on a list of 64-bit numbers in C++, with OpenMP where it is compiled in, for bench/lists and bench/scripts.
#pragma once
#include "twin.hpp"

#include <cstdint>
#include <cstdlib>
#include <vector>

#ifdef _OPENMP
#include <omp.h>
static int threads() { return omp_get_max_threads(); }
static int own_thread() { return omp_get_thread_num(); }
#else
static int threads() { return 1; }
static int own_thread() { return 0; }
#endif

typedef std::vector<std::int64_t> Numbers;

// The part of the numbers that a thread takes, which follow one another.
static void part_of(const Numbers &xs, std::size_t &from, std::size_t &to) {
    std::size_t count = threads(), own = own_thread();
    from = xs.size() * own / count;
    to = xs.size() * (own + 1) / count;
}

static wide total(const std::vector<wide> &parts) {
    wide all = 0;
    for (wide part : parts) all += part;
    return all;
}

static wide add(const Numbers &xs) {
    std::vector<wide> parts(threads());
#pragma omp parallel
    {
        wide own = 0;
#pragma omp for schedule(static)
        for (std::size_t i = 0; i < xs.size(); i++) own += xs[i];
        parts[own_thread()] = own;
    }
    return total(parts);
}

static wide mss(const Numbers &xs) {
    std::vector<Segments> parts(threads());
#pragma omp parallel
    {
        std::size_t from, to;
        part_of(xs, from, to);
        Segments own;
        for (std::size_t i = from; i < to; i++) own.add(xs[i]);
        parts[own_thread()] = own;
    }
    Segments all;
    for (const Segments &part : parts) all.add(part);
    return all.best;
}

// The sum of the squares of even numbers, which wrap at 64 bits.
static wide kept(const Numbers &xs) {
    std::vector<wide> parts(threads());
#pragma omp parallel
    {
        wide own = 0;
#pragma omp for schedule(static)
        for (std::size_t i = 0; i < xs.size(); i++) {
            std::uint64_t x = static_cast<std::uint64_t>(xs[i]);
            if ((x & 1) == 0) own += static_cast<std::int64_t>(x * x);
        }
        parts[own_thread()] = own;
    }
    return total(parts);
}

// Two rounds: the sum of each thread's part, and then its prefix sums with what stands before it. The
// caller frees them.
static wide *scan(const Numbers &xs) {
    wide *sums = static_cast<wide *>(std::malloc(xs.size() * sizeof(wide)));
    std::vector<wide> parts(threads() + 1);
#pragma omp parallel
    {
        std::size_t from, to, own = own_thread();
        part_of(xs, from, to);
        wide sum = 0;
        for (std::size_t i = from; i < to; i++) sum += xs[i];
        parts[own + 1] = sum;
#pragma omp barrier
        wide held = 0;
        for (std::size_t k = 0; k <= own; k++) held += parts[k];
        for (std::size_t i = from; i < to; i++) sums[i] = held += xs[i];
    }
    return sums;
}
