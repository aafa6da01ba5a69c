// αμ in C++ with cuts and a table, as an engineer writes it in an afternoon: a baseline for alphamu.
// Double dummy at the leaves has a memo without bound. Compiled with -DWITH_DDS and -ldds, it is DDS if --dds is given.
// usage: cuts_baseline DEAL LAYOUTS MOVES [--dds] [--no-table] [--no-cuts]
// It reads a deal file of five lines (Deal, Declarer, Contract, EndNeed, EndLead) and a layout file, and prints the vectors
// of the front, then how many nodes, hits and leaves there were, and seconds.
#include <algorithm>
#include <chrono>
#include <cstdint>
#include <cstdio>
#include <cstdlib>
#include <cstring>
#include <fstream>
#include <iostream>
#include <map>
#include <sstream>
#include <string>
#include <unordered_map>
#include <vector>
#ifdef WITH_DDS
#include <dds/dll.h>
#endif
using u64 = uint64_t;
using u8 = uint8_t;
using V = u64;
static const char *RANKS = "23456789TJQKA", *SUITS = "SHDC";
static inline int pop(u64 x) { return __builtin_popcountll(x); }
static inline int low(u64 x) { return __builtin_ctzll(x); }
static u64 suit_mask(int s) { return ((1ull << 13) - 1) << (13 * s); }
struct Pos {
    u64 decl, dummy, unseen;
    u8 leader, n, need;
    u8 trick[3];
};                    // seats 0 declarer 1 left 2 dummy 3 right
static int trump = 4; // 4: none
static int width_all;
static inline int seat_to_play(const Pos &p) { return (p.leader + p.n) & 3; }
static inline int tricks_left(const Pos &p) { // with the present trick
    // the seat to play has not played to the trick, so its hand has as many cards as there are tricks left
    int s = seat_to_play(p);
    if (s == 0)
        return pop(p.decl);
    if (s == 2)
        return pop(p.dummy);
    int other = pop(p.decl);
    bool declPlayed = false;
    for (int i = 0; i < p.n; i++)
        if (((p.leader + i) & 3) == 0)
            declPlayed = true;
    return other + (declPlayed ? 1 : 0);
}
static inline u64 legal(const Pos &p, u64 hand) {
    if (!p.n)
        return hand;
    u64 f = hand & suit_mask(p.trick[0] / 13);
    return f ? f : hand;
}
static Pos play(Pos p, int card) {
    int s = seat_to_play(p);
    u64 b = 1ull << card;
    if (s == 0)
        p.decl &= ~b;
    else if (s == 2)
        p.dummy &= ~b;
    else
        p.unseen &= ~b;
    if (p.n < 3) {
        p.trick[p.n++] = card;
        return p;
    }
    int best = p.trick[0], who = 0;
    for (int i = 1; i < 4; i++) {
        int c = i < 3 ? p.trick[i] : card;
        if (c / 13 == best / 13 ? c > best : c / 13 == trump)
            best = c, who = i;
    }
    p.leader = (p.leader + who) & 3;
    p.n = 0;
    if (!(p.leader & 1) && p.need)
        p.need--;
    p.trick[0] = p.trick[1] = p.trick[2] = 0;
    return p;
}
static u64 dd_nodes = 0, dd_calls = 0, nodes = 0, table_hits = 0;
struct Key {
    u64 a, b, c, d;
    bool operator==(const Key &o) const { return a == o.a && b == o.b && c == o.c && d == o.d; }
};
struct KeyHash {
    size_t operator()(const Key &k) const {
        u64 h = k.a * 0x9E3779B97F4A7C15ull;
        h ^= (h >> 29) + k.b * 0xBF58476D1CE4E5B9ull;
        h ^= (h >> 31) + k.c * 0x94D049BB133111EBull;
        h ^= (h >> 27) + k.d * 0xD6E8FEB86659FD93ull;
        return h ^ (h >> 32);
    }
};
static std::unordered_map<Key, bool, KeyHash> memo;
static u64 representatives(u64 moves,
                           u64 rest) { // one of each run of equal cards; rest: all other cards still in play
    u64 out = 0;
    for (int s = 0; s < 4; s++) {
        u64 m = moves & suit_mask(s);
        int last = -1;
        while (m) {
            int c = low(m);
            m &= m - 1;
            bool equal = last >= 0 && !(rest & (((1ull << c) - 1) & ~((2ull << last) - 1)));
            if (!equal)
                out |= 1ull << c;
            last = c;
        }
    }
    return out;
}
static bool makes(const Pos &p, u64 left) {
    dd_nodes++;
    if (!p.need)
        return true;
    if (p.need > tricks_left(p))
        return false;
    Key k;
    if (!p.n) {
        k = {p.decl, p.dummy, left, (p.unseen << 8) ^ (u64)(p.leader << 4 | p.need)};
        k.d = p.unseen;
        k.c = left | (u64)p.leader << 56 | (u64)p.need << 58;
        auto it = memo.find(k);
        if (it != memo.end())
            return it->second;
    }
    int s = seat_to_play(p);
    bool ours = !(s & 1);
    u64 hand = s == 0 ? p.decl : s == 2 ? p.dummy : s == 1 ? left : p.unseen & ~left;
    u64 all = p.decl | p.dummy | p.unseen;
    for (int i = 0; i < p.n; i++)
        all |= 1ull << p.trick[i];
    u64 m = representatives(legal(p, hand), all & ~hand);
    bool r = !ours;
    while (m) {
        int c = 63 - __builtin_clzll(m);
        m &= ~(1ull << c);
        if (makes(play(p, c), s == 1 ? left & ~(1ull << c) : left) == ours) {
            r = ours;
            break;
        }
    }
    if (!p.n)
        memo.emplace(k, r);
    return r;
}
static bool use_dds = false;
static bool leaf(const Pos &p, u64 left) {
    dd_calls++;
#ifdef WITH_DDS
    if (use_dds && p.need && p.need <= tricks_left(p)) {
        // seats to DDS hands: declarer S(2), left W(3), dummy N(0), right E(1)
        static const int dir[4] = {2, 3, 0, 1};
        static const int su[4] = {0, 1, 2, 3};
        deal d;
        memset(&d, 0, sizeof d);
        d.trump = trump;
        d.first = dir[p.leader];
        for (int i = 0; i < p.n; i++) {
            d.currentTrickSuit[i] = su[p.trick[i] / 13];
            d.currentTrickRank[i] = p.trick[i] % 13 + 2;
        }
        u64 h[4] = {p.decl, left, p.dummy, p.unseen & ~left};
        for (int s = 0; s < 4; s++)
            for (int c = 0; c < 52; c++)
                if (h[s] >> c & 1)
                    d.remainCards[dir[s]][c / 13] |= 1u << (c % 13 + 2);
        futureTricks f;
        int us = seat_to_play(p);
        int t = tricks_left(p);
        bool ours = !(us & 1);
        int target = ours ? p.need : t - p.need + 1;
        if (SolveBoard(d, target, 1, 1, &f, 0) != 1) {
            fprintf(stderr, "dds failed\n");
            exit(3);
        }
        bool reached = f.score[0] >= target && f.score[0] != -1;
        return ours ? reached : !reached;
    }
#endif
    return makes(p, left);
}
typedef std::vector<V> Front;
static bool dom(V u, V v) { return (u & v) == v; }
static bool covers(const Front &f, V v) {
    for (V u : f)
        if (dom(u, v))
            return true;
    return false;
}
static void insert(Front &f, V v) {
    if (covers(f, v))
        return;
    size_t j = 0;
    for (V u : f)
        if (!dom(v, u))
            f[j++] = u;
    f.resize(j);
    f.push_back(v);
}
static bool covered(const Front &f, const Front &by) {
    for (V v : f)
        if (!covers(by, v))
            return false;
    return true;
}
static V ones(int w) { return w == 64 ? ~0ull : (1ull << w) - 1; }
struct NodeKey {
    std::vector<u64> k;
    bool operator==(const NodeKey &o) const { return k == o.k; }
};
struct NodeHash {
    size_t operator()(const NodeKey &n) const {
        u64 h = 1469598103934665603ull;
        for (u64 x : n.k) {
            h ^= x;
            h *= 0x9E3779B97F4A7C15ull;
            h ^= h >> 29;
        }
        return h;
    }
};
static std::unordered_map<NodeKey, Front, NodeHash> table;
static bool use_table = true, use_cuts = true;
static NodeKey key_of(const Pos &p, const std::vector<u64> &l, int m) {
    NodeKey k;
    k.k = {p.decl, p.dummy, p.unseen,
           (u64)p.leader | (u64)p.n << 2 | (u64)p.need << 4 | (u64)p.trick[0] << 8 | (u64)p.trick[1] << 16 |
               (u64)p.trick[2] << 24 | (u64)m << 32};
    k.k.insert(k.k.end(), l.begin(), l.end());
    return k;
}
// the exact front, or nothing if alpha covers it (below = true)
static Front search(const Pos &p, const std::vector<u64> &L, int m, const Front &alpha, bool &below) {
    nodes++;
    below = false;
    int w = L.size();
    if (!p.need)
        return {ones(w)};
    if (p.need > tricks_left(p))
        return {0};
    auto dd = [&]() {
        V v = 0;
        for (int i = 0; i < w; i++)
            if (leaf(p, L[i]))
                v |= 1ull << i;
        return v;
    };
    if (!m)
        return {dd()};
    if (use_cuts && !alpha.empty() && covers(alpha, dd())) {
        below = true;
        return {};
    }
    NodeKey k;
    if (use_table) {
        k = key_of(p, L, m);
        auto it = table.find(k);
        if (it != table.end()) {
            table_hits++;
            return it->second;
        }
    }
    int s = seat_to_play(p);
    Front f;
    if (!(s & 1)) {
        u64 hand = s == 0 ? p.decl : p.dummy, all = p.decl | p.dummy | p.unseen;
        for (int i = 0; i < p.n; i++)
            all |= 1ull << p.trick[i];
        u64 c = representatives(legal(p, hand), all & ~hand);
        std::vector<int> again;
        for (u64 x = c; x; x &= x - 1) {
            int card = low(x);
            bool b;
            Front a = alpha;
            if (use_cuts)
                for (V v : f)
                    insert(a, v);
            else
                a.clear();
            Front g = search(play(p, card), L, m - 1, a, b);
            if (b)
                again.push_back(card);
            else
                for (V v : g)
                    insert(f, v);
        }
        if (use_cuts && !again.empty()) {
            if (covered(f, alpha)) {
                below = true;
                return {};
            }
            for (int card : again) {
                bool b;
                Front g = search(play(p, card), L, m - 1, f, b);
                if (!b)
                    for (V v : g)
                        insert(f, v);
            }
        }
    } else {
        f = {ones(w)};
        u64 cards = 0;
        std::vector<u64> lg(w);
        for (int i = 0; i < w; i++)
            cards |= lg[i] = legal(p, s == 1 ? L[i] : p.unseen & ~L[i]);
        for (; cards; cards &= cards - 1) {
            int card = low(cards);
            V mask = 0;
            std::vector<u64> sub;
            std::vector<int> at;
            for (int i = 0; i < w; i++)
                if (lg[i] >> card & 1) {
                    mask |= 1ull << i;
                    at.push_back(i);
                    sub.push_back(s == 1 ? L[i] & ~(1ull << card) : L[i]);
                }
            bool b;
            Front g = search(play(p, card), sub, m, {}, b), h;
            for (V v : g) {
                V sp = ones(w) & ~mask;
                for (size_t j = 0; j < at.size(); j++)
                    if (v >> j & 1)
                        sp |= 1ull << at[j];
                for (V u : f)
                    insert(h, u & sp);
            }
            f = h;
            if (use_cuts && !alpha.empty() && covered(f, alpha)) {
                below = true;
                return {};
            }
        }
    }
    if (use_table)
        table.emplace(k, f);
    return f;
}
static u64 hand_of(const std::string &t) {
    u64 h = 0;
    int s = 0;
    if (t == "-")
        return 0;
    for (char c : t)
        if (c == '.')
            s++;
        else
            h |= 1ull << (13 * s + (strchr(RANKS, c) - RANKS));
    return h;
}
static std::vector<u64> deal_of(std::string v) {
    std::istringstream in(v.substr(2));
    std::string t;
    std::vector<u64> h;
    while (in >> t)
        h.push_back(hand_of(t));
    std::rotate(h.begin(), h.begin() + (4 - std::string("NESW").find(v[0])) % 4, h.end());
    return h;
}
int main(int argc, char **argv) {
    std::map<std::string, std::string> tag;
    std::string line;
    std::ifstream d(argv[1]), l(argv[2]);
    int M = atoi(argv[3]);
    for (int i = 4; i < argc; i++) {
        std::string a = argv[i];
        if (a == "--dds")
            use_dds = true;
        if (a == "--no-table")
            use_table = false;
        if (a == "--no-cuts")
            use_cuts = false;
    }
    while (getline(d, line)) {
        size_t q = line.find('"');
        if (line[0] == '[')
            tag[line.substr(1, line.find_first_of(" \t") - 1)] = line.substr(q + 1, line.rfind('"') - q - 1);
    }
    auto h = deal_of(tag["Deal"]);
    int dec = std::string("NESW").find(tag["Declarer"]);
    const char *tr = strchr(SUITS, tag["Contract"][1]);
    trump = tag["Contract"].find("NT") != std::string::npos ? 4 : tr - SUITS;
    Pos p;
    memset(&p, 0, sizeof p);
    p.decl = h[dec];
    p.dummy = h[(dec + 2) % 4];
    p.need = atoi(tag["EndNeed"].c_str());
    p.leader = (std::string("NESW").find(tag["EndLead"]) - dec + 4) % 4;
    std::vector<u64> L;
    while (getline(l, line))
        if (!line.empty() && line[0] != '%') {
            auto x = deal_of(line);
            L.push_back(x[(dec + 1) % 4]);
            p.unseen = x[(dec + 1) % 4] | x[(dec + 3) % 4];
        }
#ifdef WITH_DDS
    if (use_dds)
        SetMaxThreads(1);
#endif
    auto t0 = std::chrono::steady_clock::now();
    Front best, less;
    u64 hand = p.leader == 0 ? p.decl : p.dummy;
    for (int m = use_cuts ? 0 : M; m <= M; m++) {
        Front f;
        int w = L.size();
        if (m == 0) {
            V v = 0;
            for (int i = 0; i < w; i++)
                if (leaf(p, L[i]))
                    v |= 1ull << i;
            f = {v};
        } else
            for (u64 x = hand; x; x &= x - 1) {
                bool b;
                Front g = search(play(p, low(x)), L, m - 1, use_cuts ? f : Front{}, b);
                if (!b)
                    for (V v : g)
                        insert(f, v);
                if (use_cuts && !less.empty() && covered(less, f))
                    break;
            }
        less = best = f;
    }
    double s = std::chrono::duration<double>(std::chrono::steady_clock::now() - t0).count();
    auto key = [&](V v) {
        std::string t;
        for (size_t i = 0; i < L.size(); i++)
            t += v >> i & 1 ? '1' : '0';
        return t;
    };
    std::sort(best.begin(), best.end(), [&](V a, V b) { return pop(a) != pop(b) ? pop(a) > pop(b) : key(a) > key(b); });
    for (V v : best)
        printf("%s\n", key(v).c_str());
    printf("M %d nodes %llu hits %llu leaves %llu dd_nodes %llu seconds %.6f\n", M, (unsigned long long)nodes,
           (unsigned long long)table_hits, (unsigned long long)dd_calls, (unsigned long long)dd_nodes, s);
}
