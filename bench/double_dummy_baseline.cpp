// Double dummy in C++, for bench/double_dummy.py: plain minimax, minimax with a memo, and Bo Haglund's DDS (Debian's
// libdds-dev; build with -DWITH_DDS and -ldds).
// usage: double_dummy_baseline plain|memo|dds|needs TRICKS FIRST ENDINGS [notrump|suit]
//     random endings, the same as those of the crate bench_work, from the one with the number FIRST on: whether declarer's
//     side takes the need; `needs` has DDS find which needs it takes after 0 to 7 random cards, as bits
// usage: double_dummy_baseline lines
//     has DDS answer each line of the input: QUESTION TRUMP NEED LAYOUTS DECLARER DUMMY, then LEFT RIGHT for each layout.
//     Hands are sums of 2 to the power of a card's number, from 0 for the two of spades to 51 for the ace of clubs; TRUMP is
//     0 to 3 for spades to clubs, 4 for no trump; declarer leads. It answers with the seconds of the processor and
//     tricks   the tricks that declarer's side takes, in one call
//     needs    the same, asked for 1 trick, 2 tricks and so on until there are too many
//     cards    for each layout the cards that reach the need
#include <cstdint>
#include <cstdio>
#include <cstdlib>
#include <cstring>
#include <ctime>
#include <unordered_map>
#include <vector>
#ifdef WITH_DDS
#include <dds/dll.h>
#else
struct futureTricks { int cards, suit[13], rank[13], equals[13], score[13]; };
#endif
using u64 = uint64_t;
static u64 state = 20191118;
static u64 draw(u64 bound) {
    state = state * 6364136223846793005ull + 1442695040888963407ull;
    return (state >> 33) % bound;
}
struct Pos { u64 hand[4]; int leader, n, need, trump; int trick[4]; };
static u64 suit_mask(int suit) { return 0x1fffull << (13 * suit); }
static bool use_memo = false;
struct Key { u64 a, b, c, d, e; bool operator==(const Key &o) const { return !memcmp(this, &o, sizeof *this); } };
struct Hash { size_t operator()(const Key &k) const {
    u64 h = k.a * 0x9E3779B97F4A7C15ull; h ^= (h >> 29) + k.b * 0xBF58476D1CE4E5B9ull; h ^= (h >> 31) + k.c * 0x94D049BB133111EBull;
    h ^= (h >> 27) + k.d * 0xD6E8FEB86659FD93ull; return h ^ (h >> 32) ^ k.e; } };
static std::unordered_map<Key, bool, Hash> memo;
static int winner(const Pos &p) {
    int best = p.trick[0], who = 0;
    for (int i = 1; i < 4; i++) { int c = p.trick[i]; if (c / 13 == best / 13 ? c > best : c / 13 == p.trump) best = c, who = i; }
    return (p.leader + who) & 3;
}
static bool makes(const Pos &p) {
    int seat = (p.leader + p.n) & 3;
    u64 hand = p.hand[seat];
    if (p.n == 0 && !hand) return p.need == 0;
    Key key{p.hand[0], p.hand[1], p.hand[2], p.hand[3], (u64)(p.leader * 16 + p.need)};
    if (use_memo && p.n == 0) {
        if (p.need == 0) return true;
        if (p.need > __builtin_popcountll(hand)) return false;
        auto found = memo.find(key);
        if (found != memo.end()) return found->second;
    }
    u64 legal = hand;
    if (p.n) { u64 follow = hand & suit_mask(p.trick[0] / 13); if (follow) legal = follow; }
    bool ours = !(seat & 1), answer = !ours;
    for (u64 m = legal; m; m &= m - 1) {
        int card = __builtin_ctzll(m);
        Pos q = p;
        q.hand[seat] &= ~(1ull << card);
        q.trick[q.n++] = card;
        if (q.n == 4) { q.leader = winner(q); q.n = 0; if (!(q.leader & 1) && q.need) q.need--; }
        bool got = makes(q);
        if (got == ours) { answer = ours; break; }
    }
    if (use_memo && p.n == 0) memo.emplace(key, answer);
    return answer;
}
#ifdef WITH_DDS
static deal dds_deal(const Pos &p) {
    deal d{};
    d.trump = p.trump;
    d.first = p.leader;
    for (int seat = 0; seat < 4; seat++)
        for (int suit = 0; suit < 4; suit++) d.remainCards[seat][suit] = (unsigned)((p.hand[seat] >> (13 * suit)) & 0x1fff) << 2;
    for (int i = 0; i < p.n; i++) d.currentTrickSuit[i] = p.trick[i] / 13, d.currentTrickRank[i] = p.trick[i] % 13 + 2;
    return d;
}
static futureTricks ask(const Pos &p, int target, int solutions) {
    futureTricks found;
    if (SolveBoard(dds_deal(p), target, solutions, 1, &found, 0) != 1) exit(3);
    return found;
}
#else
static futureTricks ask(const Pos &, int, int) { exit(2); }
#endif
static bool makes_dds(const Pos &p) {
    futureTricks found = ask(p, p.need, 1);
    return found.cards > 0 && found.score[0] >= p.need;
}
static void random_hand(u64 &hand, u64 &used, int tricks) {
    while (__builtin_popcountll(hand) < tricks) {
        u64 bit = 1ull << draw(52);
        if (!(used & bit)) used |= bit, hand |= bit;
    }
}
static u64 legal_cards(const Pos &p, int seat) {
    u64 follow = p.n ? p.hand[seat] & suit_mask(p.trick[0] / 13) : 0;
    return follow ? follow : p.hand[seat];
}
static void play(Pos &p, int seat, int card) {
    p.hand[seat] &= ~(1ull << card);
    p.trick[p.n++] = card;
    if (p.n == 4) p.leader = winner(p), p.n = 0;
}
// the needs that are made after some random cards, as bits
static long needs_made(Pos p, int tricks) {
    int numbers[7], played = (int)draw(8), won = 0;
    for (int &number : numbers) number = (int)draw(13);
    for (int i = 0; i < played; i++) {
        int seat = (p.leader + p.n) & 3;
        u64 legal = legal_cards(p, seat);
        for (int skip = numbers[i] % __builtin_popcountll(legal); skip; skip--) legal &= legal - 1;
        play(p, seat, __builtin_ctzll(legal));
        won += p.n == 0 && !(p.leader & 1);
    }
    int seat = (p.leader + p.n) & 3, taken = ask(p, -1, 1).score[0];
    int total = won + (seat & 1 ? __builtin_popcountll(p.hand[seat]) - taken : taken);
    long needs = 0;
    for (int need = 1; need <= tricks; need++) needs |= (long)(need <= total) << need;
    return needs;
}
// the cards of declarer that reach the need
static u64 cards_that_make(const Pos &p) {
    futureTricks found = ask(p, p.need, 2);
    u64 cards = 0;
    for (int i = 0; i < found.cards; i++)
        if (found.score[i] >= p.need) cards |= (u64)(found.equals[i] >> 2 | 1 << (found.rank[i] - 2)) << 13 * found.suit[i];
    return cards;
}
static u64 tricks_by_needs(Pos p) {
    int tricks = __builtin_popcountll(p.hand[0]), taken = 0;
    for (p.need = 1; p.need <= tricks && makes_dds(p); p.need++) taken = p.need;
    return taken;
}
// DDS answers a deal that it was asked before from its memory; a small deal with other trumps in between clears it.
static void clear_memory(int trump) {
    Pos p{};
    u64 used = 0;
    for (u64 &hand : p.hand) random_hand(hand, used, 5);
    p.trump = trump == 4 ? 0 : 4;
    ask(p, -1, 1);
}
static double processor_seconds() {
    timespec now;
    clock_gettime(CLOCK_PROCESS_CPUTIME_ID, &now);
    return now.tv_sec + 1e-9 * now.tv_nsec;
}
struct Question { char kind[8]; std::vector<Pos> layouts; };
// the next line of the input
static bool read_question(Question &question) {
    Pos p{};
    int layouts;
    if (scanf("%7s%d%d%d%lu%lu", question.kind, &p.trump, &p.need, &layouts, &p.hand[0], &p.hand[2]) != 6) return false;
    question.layouts.assign(layouts, p);
    for (Pos &layout : question.layouts)
        if (scanf("%lu%lu", &layout.hand[1], &layout.hand[3]) != 2) return false;
    return true;
}
static std::vector<u64> answers_of(const Question &question) {
    const Pos &first = question.layouts[0];
    if (!strcmp(question.kind, "tricks")) return {(u64)ask(first, -1, 1).score[0]};
    if (!strcmp(question.kind, "needs")) return {tricks_by_needs(first)};
    std::vector<u64> answers;
    for (const Pos &layout : question.layouts) answers.push_back(cards_that_make(layout));
    return answers;
}
static void answer_lines() {
    for (Question question; read_question(question);) {
        clear_memory(question.layouts[0].trump);
        double begun = processor_seconds();
        std::vector<u64> answers = answers_of(question);
        printf("%.9f", processor_seconds() - begun);
        for (u64 answer : answers) printf(" %lu", answer);
        puts("");
        fflush(stdout);
    }
}
int main(int argc, char **argv) {
#ifdef WITH_DDS
    SetMaxThreads(1);
#endif
    if (argc == 2 && !strcmp(argv[1], "lines")) return answer_lines(), 0;
    if (argc != 5 && argc != 6) return 2;
    use_memo = !strcmp(argv[1], "memo");
    bool use_dds = !strcmp(argv[1], "dds");
    const char *strain = argc == 6 ? argv[5] : "";
    int tricks = atoi(argv[2]);
    long first = atol(argv[3]), endings = atol(argv[4]);
    u64 answers = 0;
    for (long i = 0; i < first + endings; i++) {
        Pos p{};
        u64 used = 0;
        for (u64 &hand : p.hand) random_hand(hand, used, tricks);
        p.trump = draw(5);
        if (!strcmp(strain, "notrump")) p.trump = 4;
        if (!strcmp(strain, "suit") && p.trump == 4) p.trump = 0;
        p.need = 1 + draw(tricks);
        if (i < first) continue;
        memo.clear();
        long answer = !strcmp(argv[1], "needs") ? needs_made(p, tricks) : use_dds ? makes_dds(p) : makes(p);
        answers = answers * 31 + (u64)answer;
    }
    printf("%llu\n", (unsigned long long)answers);
}
