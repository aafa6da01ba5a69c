// The workload fronts of the crate bench_work, in C++ over std::vector: fronts of 64-bit vectors, and joins of two fronts.
// usage: fronts_baseline inserts|joins VECTORS ROUNDS. It prints what the workload prints.
#include <algorithm>
#include <cstdint>
#include <cstdio>
#include <cstdlib>
#include <cstring>
#include <vector>

using Vectors = std::vector<uint64_t>;

static bool dominates(uint64_t u, uint64_t v) { return (v & ~u) == 0; }

// More ones first; with equal counts, the vector that has the 1 at the first layout (the lowest bit) in which the two differ.
static bool precedes(uint64_t u, uint64_t v) {
    int mine = __builtin_popcountll(u), other = __builtin_popcountll(v);
    if (mine != other) return mine > other;
    uint64_t apart = u ^ v;
    return (apart & (~apart + 1) & u) != 0;
}

static void insert(Vectors &front, uint64_t vector) {
    for (uint64_t mine : front)
        if (dominates(mine, vector)) return;
    front.erase(std::remove_if(front.begin(), front.end(), [&](uint64_t mine) { return dominates(vector, mine); }),
                front.end());
    auto place = std::find_if(front.begin(), front.end(), [&](uint64_t mine) { return !precedes(mine, vector); });
    front.insert(place, vector);
}

// The bits put at the ones of the mask, and 1 at its zeros.
static uint64_t spread(uint64_t vector, uint64_t mask) {
    uint64_t bits = ~mask;
    while (mask != 0) {
        uint64_t lowest = mask & (~mask + 1);
        if (vector & 1) bits |= lowest;
        vector >>= 1;
        mask &= mask - 1;
    }
    return bits;
}

static void join(Vectors &front, const Vectors &child, uint64_t mask) {
    Vectors best;
    for (uint64_t vector : child) {
        uint64_t whole = spread(vector, mask);
        for (uint64_t mine : front) insert(best, mine & whole);
    }
    front = std::move(best);
}

static uint64_t scrambled(uint64_t state) {
    uint64_t z = (state ^ (state >> 30)) * 0xBF58476D1CE4E5B9u;
    z = (z ^ (z >> 27)) * 0x94D049BB133111EBu;
    return z ^ (z >> 31);
}

static Vectors split_vectors(uint64_t size) {
    Vectors vectors;
    uint64_t state = 1;
    for (uint64_t k = 0; k < size; k++) {
        state += 0x9E3779B97F4A7C15u;
        uint64_t number = scrambled(state), vector = 0;
        for (int place = 0; place < 32; place++) vector |= uint64_t(1) << (2 * place + ((number >> place) & 1));
        vectors.push_back(vector);
    }
    return vectors;
}

int main(int count, char **words) {
    bool is_join = count > 1 && strcmp(words[1], "joins") == 0;
    uint64_t size = count > 2 ? strtoull(words[2], nullptr, 10) : 0, rounds = count > 3 ? strtoull(words[3], nullptr, 10) : 0;
    Vectors base = split_vectors(size), last;
    uint64_t total = 0;
    if (is_join) {
        Vectors whole, half;
        uint64_t mask = 0;
        for (int place = 0; place < 32; place++) mask |= uint64_t(1) << (2 * place);
        for (uint64_t vector : base) {
            insert(whole, vector);
            uint64_t part = 0;
            for (int place = 0; place < 32; place++) part |= ((vector >> (2 * place)) & 1) << place;
            insert(half, part);
        }
        for (uint64_t round = 0; round <= rounds; round++) {
            Vectors front{~uint64_t(0)};
            join(front, whole, ~uint64_t(0));
            join(front, half, mask);
            if (round < rounds) total += front.size();
            else last = std::move(front);
        }
    } else {
        for (uint64_t round = 0; round < rounds; round++) {
            last.clear();
            for (uint64_t vector : base) insert(last, vector);
            for (uint64_t vector : base) insert(last, vector & ~uint64_t(3));
            for (uint64_t vector : base) insert(last, vector | 3);
            total += last.size();
        }
    }
    printf("%llu\n", (unsigned long long)total);
    if (!last.empty())
        for (int place = 0; place < 64; place++) putchar((last[0] >> place) & 1 ? '1' : '0');
    printf("\n");
}
