// Plain αμ in C++, without cuts or table, as an engineer writes it in an afternoon: a baseline for alphamu.
// Double dummy at the leaves has a memo without bound, and tries only one of equal cards, as alphamu's does.
// usage: search_baseline every|equals DEAL LAYOUTS MOVES
// `every` tries each legal card of declarer's side, as alphamu does; `equals` tries only the first of equal cards.
// It reads a deal file of five lines (Deal, Declarer, Contract, EndNeed, EndLead) and a layout file, and prints the lines
// `vector` and `card` as alphamu does, and how many nodes it entered.
#include <algorithm>
#include <cstdint>
#include <cstdio>
#include <cstdlib>
#include <cstring>
#include <fstream>
#include <iostream>
#include <map>
#include <sstream>
#include <string>
#include <unordered_map>
#include <vector>

using Cards = uint64_t;
using Vector = uint64_t;
using Front = std::vector<Vector>;

static const std::string RANKS = "23456789TJQKA", SUITS = "SHDC", SEATS = "NESW";
static const int NO_TRUMP = 4;
static int trump = NO_TRUMP;

static Cards bit(int card) { return Cards(1) << card; }
static Cards suit_of(int card) { return Cards(0x1fff) << (13 * (card / 13)); }
static int count(uint64_t bits) { return __builtin_popcountll(bits); }
static int first(uint64_t bits) { return __builtin_ctzll(bits); }
static int last(uint64_t bits) { return 63 - __builtin_clzll(bits); }
static Vector all(size_t width) { return width == 64 ? ~Vector(0) : (Vector(1) << width) - 1; }

// Seats clockwise from declarer: 0 declarer, 1 left, 2 dummy, 3 right. `unseen` is what the defenders hold together.
struct Position {
    Cards declarer, dummy, unseen;
    int leader, played, need, trick[3];

    int seat() const { return (leader + played) & 3; }
    bool is_ours() const { return seat() % 2 == 0; }
    Cards hand(Cards left) const {
        switch (seat()) {
        case 0: return declarer;
        case 1: return left;
        case 2: return dummy;
        default: return unseen & ~left;
        }
    }
    Cards legal(Cards left) const {
        Cards cards = hand(left), follow = played ? cards & suit_of(trick[0]) : 0;
        return follow ? follow : cards;
    }
    // It includes the present trick.
    int tricks_left() const {
        bool declarer_has_played = ((4 - leader) & 3) < played;
        return count(declarer) + declarer_has_played;
    }
    bool is_decided() const { return need == 0 || need > tricks_left(); }
};

static Position play(Position p, int card) {
    int seat = p.seat();
    (seat == 0 ? p.declarer : seat == 2 ? p.dummy : p.unseen) &= ~bit(card);
    if (p.played < 3) {
        p.trick[p.played++] = card;
        return p;
    }
    int best = p.trick[0], winner = 0;
    for (int place = 1; place < 4; place++) {
        int other = place < 3 ? p.trick[place] : card;
        if (other / 13 == best / 13 ? other > best : other / 13 == trump) best = other, winner = place;
    }
    p.leader = (p.leader + winner) & 3;
    p.played = 0;
    if (p.leader % 2 == 0 && p.need) p.need--;
    p.trick[0] = p.trick[1] = p.trick[2] = 0;
    return p;
}

// The first of each run of cards with no card of another hand or of the trick between them.
static Cards one_of_equals(const Position &p, Cards cards, Cards hand) {
    Cards others = (p.declarer | p.dummy | p.unseen) & ~hand, kept = 0;
    for (int place = 0; place < p.played; place++) others |= bit(p.trick[place]);
    int before = -1;
    for (Cards rest = cards; rest; rest &= rest - 1) {
        int card = first(rest);
        bool equal = before >= 0 && before / 13 == card / 13 && !(others & (bit(card) - bit(before)));
        if (!equal) kept |= bit(card);
        before = card;
    }
    return kept;
}

struct Key {
    Cards declarer, dummy, left, unseen;
    bool operator==(const Key &other) const { return !memcmp(this, &other, sizeof other); }
};
struct KeyHash {
    size_t operator()(const Key &key) const {
        uint64_t hash = key.declarer * 0x9E3779B97F4A7C15u;
        hash ^= (hash >> 29) + key.dummy * 0xBF58476D1CE4E5B9u;
        hash ^= (hash >> 31) + key.left * 0x94D049BB133111EBu;
        hash ^= (hash >> 27) + key.unseen * 0xD6E8FEB86659FD93u;
        return hash ^ (hash >> 32);
    }
};
static std::unordered_map<Key, bool, KeyHash> memo;

// Double dummy, the highest cards first.
static bool makes(const Position &p, Cards left) {
    if (p.is_decided()) return p.need == 0;
    Key key{p.declarer, p.dummy, left | uint64_t(p.leader) << 52 | uint64_t(p.need) << 54, p.unseen};
    if (!p.played) {
        auto found = memo.find(key);
        if (found != memo.end()) return found->second;
    }
    bool ours = p.is_ours(), answer = !ours;
    for (Cards rest = one_of_equals(p, p.legal(left), p.hand(left)); rest && answer != ours;) {
        int card = last(rest);
        rest &= ~bit(card);
        answer = makes(play(p, card), left & ~bit(card));
    }
    if (!p.played) memo.emplace(key, answer);
    return answer;
}

static bool dominates(Vector u, Vector v) { return (v & ~u) == 0; }

static void insert(Front &front, Vector vector) {
    for (Vector mine : front)
        if (dominates(mine, vector)) return;
    front.erase(std::remove_if(front.begin(), front.end(), [&](Vector mine) { return dominates(vector, mine); }), front.end());
    front.push_back(vector);
}

static bool tries_every = false;
static uint64_t nodes = 0;

static Front search(const Position &p, const std::vector<Cards> &lefts, int moves);

// The best of what the cards of declarer's side win.
static Front declarers_front(const Position &p, const std::vector<Cards> &lefts, int moves) {
    Front front;
    Cards legal = p.legal(0);
    for (Cards rest = tries_every ? legal : one_of_equals(p, legal, p.hand(0)); rest; rest &= rest - 1)
        for (Vector vector : search(play(p, first(rest)), lefts, moves - 1)) insert(front, vector);
    return front;
}

// The join: the best of all meets of what is won after each card of a defender.
static Front defenders_front(const Position &p, const std::vector<Cards> &lefts, int moves) {
    size_t width = lefts.size();
    Front front{all(width)};
    std::vector<Cards> legal(width);
    Cards cards = 0;
    for (size_t place = 0; place < width; place++) cards |= legal[place] = p.legal(lefts[place]);
    for (; cards; cards &= cards - 1) {
        int card = first(cards);
        std::vector<Cards> kept;
        std::vector<size_t> places;
        Vector others = all(width);
        for (size_t place = 0; place < width; place++)
            if (legal[place] & bit(card)) {
                kept.push_back(lefts[place] & ~bit(card));
                places.push_back(place);
                others &= ~(Vector(1) << place);
            }
        Front joined;
        for (Vector vector : search(play(p, card), kept, moves)) {
            Vector spread = others;
            for (size_t at = 0; at < places.size(); at++) spread |= (vector >> at & 1) << places[at];
            for (Vector mine : front) insert(joined, mine & spread);
        }
        front = std::move(joined);
    }
    return front;
}

static Front search(const Position &p, const std::vector<Cards> &lefts, int moves) {
    nodes++;
    if (p.is_decided()) return {p.need == 0 ? all(lefts.size()) : 0};
    if (moves > 0) return p.is_ours() ? declarers_front(p, lefts, moves) : defenders_front(p, lefts, moves);
    Vector made = 0;
    for (size_t place = 0; place < lefts.size(); place++)
        if (makes(p, lefts[place])) made |= Vector(1) << place;
    return {made};
}

static Cards hand_in(const std::string &text) {
    Cards hand = 0;
    int suit = 0;
    for (char letter : text)
        if (letter == '.') suit++;
        else if (letter != '-') hand |= bit(13 * suit + RANKS.find(letter));
    return hand;
}

// The hands of North, East, South and West.
static std::vector<Cards> deal_in(const std::string &text) {
    std::istringstream words(text.substr(2));
    std::vector<Cards> hands(4);
    std::string word;
    for (size_t seat = SEATS.find(text[0]); words >> word; seat++) hands[seat % 4] = hand_in(word);
    return hands;
}

static std::string bits_of(Vector vector, size_t width) {
    std::string text;
    for (size_t place = 0; place < width; place++) text += vector >> place & 1 ? '1' : '0';
    return text;
}

int main(int argc, char **argv) {
    if (argc != 5) return 2;
    tries_every = std::string(argv[1]) == "every";
    std::map<std::string, std::string> tags;
    std::ifstream deal(argv[2]), layouts(argv[3]);
    int moves = atoi(argv[4]);
    for (std::string line; getline(deal, line);) {
        size_t quote = line.find('"');
        tags[line.substr(1, line.find(' ') - 1)] = line.substr(quote + 1, line.rfind('"') - quote - 1);
    }
    size_t seat = SEATS.find(tags["Declarer"]);
    size_t suit = SUITS.find(tags["Contract"][1]);
    trump = suit == std::string::npos ? NO_TRUMP : int(suit);
    std::vector<Cards> hands = deal_in(tags["Deal"]), lefts;
    Position root{hands[seat], hands[(seat + 2) % 4], 0, int((SEATS.find(tags["EndLead"]) + 4 - seat) % 4), 0, atoi(tags["EndNeed"].c_str()), {0, 0, 0}};
    for (std::string line; getline(layouts, line);) {
        hands = deal_in(line);
        lefts.push_back(hands[(seat + 1) % 4]);
        root.unseen = hands[(seat + 1) % 4] | hands[(seat + 3) % 4];
    }
    Front front;
    int named = -1, most = -1;
    for (Cards rest = root.legal(0); rest; rest &= rest - 1) {
        int card = first(rest);
        for (Vector vector : search(play(root, card), lefts, moves - 1)) {
            insert(front, vector);
            if (count(vector) > most) named = card, most = count(vector);
        }
    }
    size_t width = lefts.size();
    std::sort(front.begin(), front.end(), [&](Vector u, Vector v) {
        return count(u) != count(v) ? count(u) > count(v) : bits_of(u, width) > bits_of(v, width);
    });
    for (Vector vector : front) std::cout << "vector " << bits_of(vector, width) << " count " << count(vector) << "\n";
    std::cout << "card " << SUITS[named / 13] << RANKS[named % 13] << " count " << most << " of " << width << "\n";
    std::cout << "nodes " << nodes << "\n";
}
