// A table of fronts as std::unordered_map, a baseline for alphamu's stores. The key is a whole position with its layouts and a
// number of moves, and a look copies the front out.
// usage: store_baseline ENTRIES LOOKS hits|misses
#include <cstdint>
#include <cstdio>
#include <cstdlib>
#include <cstring>
#include <unordered_map>
#include <vector>
using u64 = uint64_t;
struct Key {
    u64 declarer, dummy, unseen;
    uint8_t trick[3], played, leader, need, trump, moves;
    std::vector<u64> lefts;
    bool operator==(const Key &o) const {
        return declarer == o.declarer && dummy == o.dummy && unseen == o.unseen && !memcmp(trick, o.trick, 8) && lefts == o.lefts;
    }
};
struct Hash {
    size_t operator()(const Key &k) const {
        u64 h = 0, rest;
        memcpy(&rest, k.trick, 8);
        auto mix = [&](u64 x) { h = (h ^ x) * 0x9E3779B97F4A7C15ull, h ^= h >> 32; };
        mix(k.declarer), mix(k.dummy), mix(k.unseen), mix(rest);
        for (u64 left : k.lefts)
            mix(left);
        return h;
    }
};
static u64 state = 1;
static u64 draw(u64 bound) {
    state = state * 6364136223846793005ull + 1442695040888963407ull;
    return (state >> 33) % bound;
}
static u64 hand(int size, u64 &used) {
    u64 cards = 0;
    while (__builtin_popcountll(cards) < size) {
        u64 card = 1ull << draw(52);
        if (!(used & card))
            used |= card, cards |= card;
    }
    return cards;
}
int main(int argc, char **argv) {
    if (argc != 4)
        return 2;
    u64 entries = atoll(argv[1]), looks = atoll(argv[2]), hits = 0;
    std::unordered_map<Key, std::vector<u64>, Hash> table;
    std::vector<Key> keys;
    for (u64 i = 0; i < entries; i++) {
        u64 used = 0;
        Key key{hand(7, used), hand(7, used), hand(14, used), {}, 0, 0, 0, 4, 3, {}};
        for (int layout = 0; layout < 20; layout++) {
            u64 others = ~key.unseen & ((1ull << 52) - 1);
            key.lefts.push_back(hand(7, others));
        }
        table.emplace(key, std::vector<u64>{(1u << 20) - 1});
        keys.push_back(key);
    }
    std::vector<u64> out;
    if (!strcmp(argv[3], "misses"))
        for (Key &key : keys)
            key.moves++;
    for (u64 i = 0; i < looks; i++) {
        auto found = table.find(keys[draw(entries)]);
        if (found != table.end()) {
            out = found->second;
            hits++;
        }
    }
    printf("%zu entries, %llu hits\n", table.size(), (unsigned long long)hits);
}
