/* hostile SEED COUNT: this many calls by bits, of sound questions about small endings, of the same with one number made wrong, and
 * of mere noise. Each must come back with a code that fits: one fault has its own code. What is passed ends just before a page
 * that can't be touched, so that a call that reads or writes too far ends the process. Answers are looked over, and the four
 * calls compared with each other. */
#include "alphamu.h"
#include <inttypes.h>
#include <stdio.h>
#include <stdlib.h>
#include <string.h>
#include <sys/mman.h>
#include <unistd.h>

enum { MOST = 300, ROOM = 300, AREA = ROOM * sizeof(alphamu_worth), CALLS = 4, LAST = ALPHAMU_NO_VECTOR };
enum { CARD, CARDS, FRONT, STRATEGY };
#define SOUND (1ull << ALPHAMU_DONE | 1ull << ALPHAMU_SPENT | 1ull << ALPHAMU_NO_ROOM | 1ull << ALPHAMU_NO_VECTOR)
#define KNOWN (SOUND | 1ull << ALPHAMU_NO_TURN | ((1ull << (LAST - ALPHAMU_NOT_CARDS + 1)) - 1) << ALPHAMU_NOT_CARDS)
#define CODE(name) (1ull << ALPHAMU_##name)

static uint64_t state;

static uint64_t random64(void) {
    state ^= state << 13, state ^= state >> 7, state ^= state << 17;
    return state * 0x2545F4914F6CDD1Dull;
}

static uint32_t below(uint32_t bound) { return (uint32_t)(random64() >> 33) % bound; }

/* A number that is too great for its place: just so, or anything. */
static uint32_t beyond(uint32_t least) { return below(2) ? least : least + below(2) * (below(1u << 31)) + below(9); }

typedef struct {
    alphamu_question q;
    uint64_t lefts[MOST];
    uint32_t weights[MOST];
    size_t many, weighed, vector;
    uint64_t allowed; /* bit s: a call may answer s */
} trial;

static int count(uint64_t set) { return __builtin_popcountll(set); }

/* One card of a set, by chance. */
static uint64_t one_of(uint64_t set) {
    for (uint32_t skip = below((uint32_t)count(set)); skip; skip--) set &= set - 1;
    return set & -set;
}

/* This many cards of a set, by chance. */
static uint64_t some_of(uint64_t set, int wanted) {
    uint64_t found = 0;
    while (count(found) < wanted) found |= one_of(set & ~found);
    return found;
}

static uint64_t take(uint64_t *from, int wanted) {
    uint64_t found = some_of(*from, wanted);
    *from &= ~found;
    return found;
}

static uint32_t number_of(uint64_t card) { return (uint32_t)__builtin_ctzll(card); }

/* A sound question about an ending of up to four tricks. */
static void make_sound(trial *it) {
    int tricks = 1 + (int)below(below(8) ? 3 : 4);
    uint64_t pack = (1ull << 52) - 1, hands[4];
    alphamu_question *q = &it->q;
    q->played = below(4);
    /* The seat to play is declarer or dummy. */
    q->leader = (below(2) * 2 + 4 - q->played) % 4;
    for (int seat = 0; seat < 4; seat++) hands[seat] = take(&pack, tricks);
    for (uint32_t i = 0; i < 3; i++)
        q->trick[i] = i < q->played ? number_of(take(&hands[(q->leader + i) % 4], 1)) : (uint32_t)random64();
    q->declarer = hands[0], q->dummy = hands[2], q->unseen = hands[1] | hands[3];
    q->trump = below(5);
    q->need = below((uint32_t)tricks + 2);
    q->moves = below(16) ? 1 + below(2) : tricks < 3 ? 1 + below(26) : 3;
    q->nodes = below(8) ? 1 + below(2000) : 1 + below(3);
    it->many = it->weighed = below(64) ? 1 + below(6) : 1 + below(256);
    for (size_t i = 0; i < it->many; i++) {
        it->lefts[i] = some_of(q->unseen, count(hands[1]));
        it->weights[i] = below(16) ? 1 + below(5) : 1000000 - below(2);
    }
    it->vector = below(16) ? below(3) : random64() >> below(64);
    it->allowed = SOUND;
}

/* Exchanges a card of a set for another bit, so that its size stays. */
static void exchange(uint64_t *set, uint64_t with) {
    if (*set) *set = (*set & ~one_of(*set)) | with;
}

static void spoil_hands(trial *it) {
    alphamu_question *q = &it->q;
    uint64_t *hand = below(3) == 0 ? &q->declarer : below(2) ? &q->dummy : &q->unseen, was = *hand;
    switch (below(5)) {
        case 0:
            exchange(hand, 1ull << (52 + below(12)));
            if (was) it->allowed = CODE(NOT_CARDS);
            break;
        case 1:
            if (q->declarer && q->dummy) exchange(&q->dummy, one_of(q->declarer)), it->allowed = CODE(HANDS_OVERLAP);
            break;
        case 2:
            *hand &= *hand - 1;
            if (was) it->allowed = CODE(BAD_SIZES);
            break;
        case 3:
            if (q->unseen && q->declarer) exchange(&q->unseen, one_of(q->declarer)), it->allowed = CODE(HANDS_OVERLAP);
            break;
        default:
            *hand = random64();
            it->allowed = KNOWN;
    }
}

static void spoil_trick(trial *it) {
    alphamu_question *q = &it->q;
    uint64_t held = q->declarer | q->dummy | q->unseen;
    switch (below(4)) {
        case 0:
            q->played = beyond(4), it->allowed = CODE(BAD_TRICK);
            break;
        case 1:
            if (q->played) q->trick[below(q->played)] = beyond(52), it->allowed = CODE(BAD_TRICK);
            break;
        case 2:
            if (q->played && held) q->trick[below(q->played)] = number_of(one_of(held)), it->allowed = CODE(PLAYED_TWICE);
            break;
        default:
            if (q->played > 1) q->trick[1] = q->trick[0], it->allowed = CODE(PLAYED_TWICE);
    }
}

static void spoil_layouts(trial *it) {
    uint32_t at = below((uint32_t)it->many);
    switch (below(6)) {
        case 0: it->many = it->weighed = 0, it->allowed = CODE(NO_LAYOUTS); break;
        case 1:
            for (size_t i = it->many; i < MOST; i++) it->lefts[i] = it->lefts[0], it->weights[i] = 1;
            it->many = it->weighed = 257 + below(MOST - 256), it->allowed = CODE(TOO_MANY_LAYOUTS);
            break;
        case 2: it->lefts[at] = random64(), it->allowed = CODE(LAYOUT_MISFIT); break;
        case 3:
            if (it->lefts[at]) it->lefts[at] &= it->lefts[at] - 1, it->allowed = CODE(LAYOUT_MISFIT);
            break;
        case 4:
            it->weighed += below(2) ? 1 : (size_t)-1;
            it->weights[it->many] = 1, it->allowed = CODE(WEIGHT_COUNT);
            break;
        default: it->weights[at] = below(2) ? 0 : beyond(1000001), it->allowed = CODE(BAD_WEIGHT);
    }
}

static void spoil_numbers(trial *it) {
    alphamu_question *q = &it->q;
    switch (below(6)) {
        case 0: q->leader = beyond(4), it->allowed = CODE(BAD_LEADER); break;
        case 1: q->trump = beyond(5), it->allowed = CODE(BAD_TRUMP); break;
        case 2: q->need = beyond(14), it->allowed = CODE(BAD_NEED); break;
        case 3: q->moves = below(2) ? 0 : beyond(27), it->allowed = CODE(BAD_MOVES); break;
        case 4: q->nodes = 0, it->allowed = CODE(BAD_NODES); break;
        default:
            /* No card is left. */
            q->declarer = q->dummy = q->unseen = 0, q->played = 0;
            for (size_t i = 0; i < it->many; i++) it->lefts[i] = 0;
            it->allowed = CODE(NO_TURN);
    }
}

/* A defender is to play: each hand has its cards, and the trick none. */
static void spoil_turn(trial *it) {
    if (!it->q.played) it->q.leader |= 1, it->allowed = CODE(NO_TURN);
}

static void make_noise(trial *it) {
    uint64_t *words = (uint64_t *)&it->q;
    for (size_t i = 0; i < sizeof it->q / 8; i++) words[i] = random64() >> below(64);
    it->many = below(MOST + 1), it->weighed = below(MOST + 1);
    for (size_t i = 0; i < MOST; i++) it->lefts[i] = random64() >> below(64), it->weights[i] = (uint32_t)(random64() >> below(64));
    it->allowed = KNOWN;
}

static void make(trial *it) {
    static void (*const spoil[])(trial *) = {spoil_hands, spoil_trick, spoil_layouts, spoil_numbers, spoil_turn};
    make_sound(it);
    uint32_t kind = below(12);
    if (kind == 0) make_noise(it);
    else if (kind < 6) spoil[kind - 1](it);
}

/* Memory that ends just before a page that can't be touched. */
static uint8_t *guarded(size_t size) {
    size_t page = (size_t)sysconf(_SC_PAGESIZE), whole = (size + page - 1) / page * page;
    uint8_t *at = mmap(0, whole + page, PROT_READ | PROT_WRITE, MAP_PRIVATE | MAP_ANONYMOUS, -1, 0);
    if (at == MAP_FAILED || mprotect(at + whole, page, PROT_NONE)) exit(70);
    return at + whole;
}

static uint8_t *question_end, *lefts_end, *weights_end, *out_end, untouched[AREA];
static const size_t sizes[CALLS] = {sizeof(alphamu_choice), sizeof(alphamu_worth), sizeof(uint64_t), sizeof(alphamu_node)};
static size_t written;

static void *placed(uint8_t *end, const void *from, size_t size) { return memcpy(end - size, from, size); }

/* Asks one of the calls with this much room; the answer ends at out_end. */
static uint32_t ask(const trial *it, uint32_t call, size_t room) {
    alphamu_question *q = placed(question_end, &it->q, sizeof it->q);
    uint64_t *lefts = placed(lefts_end, it->lefts, it->many * sizeof *it->lefts);
    uint32_t *weights = placed(weights_end, it->weights, it->weighed * sizeof *it->weights);
    void *out = out_end - room * sizes[call];
    memcpy(out_end - AREA, untouched, AREA);
    written = call == CARD ? 1 : (size_t)-1;
    switch (call) {
        case CARD: return alphamu_bits_card(q, lefts, it->many, weights, it->weighed, out);
        case CARDS: return alphamu_bits_cards(q, lefts, it->many, weights, it->weighed, out, room, &written);
        case FRONT: return alphamu_bits_front(q, lefts, it->many, weights, it->weighed, out, room, &written);
        default: return alphamu_bits_strategy(q, lefts, it->many, weights, it->weighed, it->vector, out, room, &written);
    }
}

static int is_untouched(const uint8_t *from, const uint8_t *to) { return !memcmp(from, untouched, (size_t)(to - from)); }

/* The cards that the side to play may play. */
static uint64_t legal(const alphamu_question *q) {
    uint64_t hand = (q->leader + q->played) % 4 == 0 ? q->declarer : q->dummy;
    uint64_t suit = q->played ? hand & 0x1fffull << q->trick[0] / 13 * 13 : 0;
    return suit ? suit : hand;
}

static uint64_t weight_of(const trial *it, const uint64_t *vector) {
    uint64_t sum = 0;
    for (size_t i = 0; i < 256; i++)
        if (vector[i / 64] >> i % 64 & 1) sum += i < it->many ? it->weights[i] : 1ull << 40;
    return sum;
}

static int ones_of(const uint64_t *vector) { return count(vector[0]) + count(vector[1]) + count(vector[2]) + count(vector[3]); }

/* What a call names: the best weight, and the card that wins it, how many vectors there are, and the code. */
typedef struct {
    uint64_t weight;
    uint32_t card, status;
    size_t vectors;
} best;

/* What is wrong with an answer, or nothing. */
static const char *look_at_choice(const trial *it, const alphamu_choice *found, best *names) {
    names->weight = found->weight, names->card = found->card;
    return found->card < 52 && legal(&it->q) >> found->card & 1 ? 0 : "the card isn't legal";
}

static const char *look_at_worths(const trial *it, const alphamu_worth *worth, best *names) {
    uint64_t may = legal(&it->q);
    names->weight = 0, names->card = worth[0].card;
    for (size_t i = 0; i < written; i++) {
        if (worth[i].card >= 52 || !(may >> worth[i].card & 1)) return "a card that isn't legal";
        if (i && worth[i].card <= worth[i - 1].card) return "the cards aren't in order";
        if (weight_of(it, worth[i].vector) != worth[i].weight) return "a vector that weighs something else";
        if (worth[i].weight > worth[i].double_dummy) return "a card worth more than with open hands";
        if (worth[i].weight > names->weight) names->weight = worth[i].weight, names->card = worth[i].card;
    }
    return written == (size_t)count(may) ? 0 : "not as many cards as are legal";
}

static const char *look_at_front(const trial *it, const uint64_t *vectors, best *names) {
    int last = 256;
    names->weight = 0, names->vectors = written / 4;
    for (size_t i = 0; i < written; i += 4) {
        uint64_t weight = weight_of(it, vectors + i);
        if (written % 4 || ones_of(vectors + i) > last) return "the vectors aren't in order";
        if (weight > 256000000) return "a vector of another layout";
        last = ones_of(vectors + i);
        if (weight > names->weight) names->weight = weight;
    }
    return 0;
}

/* Each node but the first is the reply of one other, in card order, and no card comes twice on the way to it. */
static const char *look_at_strategy(const trial *it, const alphamu_node *nodes) {
    static uint8_t reached[ROOM];
    memset(reached, 0, sizeof reached);
    if (nodes[0].card != ALPHAMU_NO_CARD) return "the first node has a card";
    if (nodes[0].replies && !(legal(&it->q) >> alphamu_next_card(nodes, 0) & 1)) return "a card that isn't legal";
    for (size_t i = 0; i < written; i++) {
        size_t first = nodes[i].first_reply, many = nodes[i].replies;
        if (many && (first >= written || many > written - first)) return "a reply that isn't there";
        for (size_t k = first; k < first + many; k++) {
            if (reached[k]++ || !k) return "a node that is reached twice";
            if (nodes[k].card >= 52 || (k > first && nodes[k].card <= nodes[k - 1].card)) return "the replies aren't in order";
            if (alphamu_after_card(nodes, i, nodes[k].card) != k) return "a card that leads to another node";
        }
    }
    return memchr(reached + 1, 0, written - 1) ? "a node that isn't reached" : 0;
}

static const char *look(const trial *it, uint32_t call, const void *out, best *names) {
    if (!written) return "an empty answer";
    switch (call) {
        case CARD: return look_at_choice(it, out, names);
        case CARDS: return look_at_worths(it, out, names);
        case FRONT: return look_at_front(it, out, names);
        default: return look_at_strategy(it, out);
    }
}

static uint64_t calls, counts[LAST + 1], faults;

static void fault(const trial *it, uint32_t call, uint32_t status, const char *what) {
    if (faults++ < 20)
        printf("call %u, status %u: %s; %" PRIx64 " %" PRIx64 " %" PRIx64 ", trick %u %u %u, played %u leader %u trump %u need %u "
            "moves %u nodes %" PRIu64 ", %zu layouts %" PRIx64 ", %zu weights %u\n", call, status, what, it->q.declarer, it->q.dummy,
            it->q.unseen, it->q.trick[0], it->q.trick[1], it->q.trick[2], it->q.played, it->q.leader, it->q.trump, it->q.need,
            it->q.moves, it->q.nodes, it->many, it->lefts[0], it->weighed, it->weights[0]);
}

/* Asks a call. Whether it is done and nothing is wrong. */
static int try_call(const trial *it, uint32_t call, best *names) {
    size_t room = call == CARD ? 1 : below(8) ? ROOM : below(6);
    uint32_t status = ask(it, call, room);
    uint8_t *out = out_end - room * sizes[call];
    const char *wrong = 0;
    calls++, names->status = status;
    if (status > LAST || !(KNOWN >> status & 1)) return fault(it, call, status, "no such code"), 0;
    counts[status]++;
    if (!(it->allowed >> status & 1) || (status == ALPHAMU_NO_VECTOR && call != STRATEGY))
        wrong = "a code that doesn't fit";
    else if (!is_untouched(out_end - AREA, status ? out_end : out))
        wrong = "it wrote where it shouldn't";
    else if (status && call != CARD && (status == ALPHAMU_NO_ROOM ? written <= room : written != 0))
        wrong = "the number written isn't right";
    else if (status == ALPHAMU_DONE)
        wrong = written > room ? "it says that it wrote more than its room" : look(it, call, out, names);
    if (wrong) fault(it, call, status, wrong);
    return status == ALPHAMU_DONE && !wrong;
}

int main(int argc, char **argv) {
    if (argc != 3) return 70;
    state = strtoull(argv[1], 0, 10) * 2 + 1;
    uint64_t wanted = strtoull(argv[2], 0, 10);
    question_end = guarded(sizeof(alphamu_question)), lefts_end = guarded(MOST * 8), weights_end = guarded((MOST + 1) * 4);
    out_end = guarded(AREA);
    memset(untouched, 0xa5, AREA);
    while (calls < wanted) {
        static trial it;
        make(&it);
        best names[CALLS] = {{0}};
        int done[CALLS];
        for (uint32_t call = 0; call < CALLS; call++) done[call] = try_call(&it, call, &names[call]);
        if (done[CARD] && done[CARDS] && (names[CARD].weight != names[CARDS].weight || names[CARD].card != names[CARDS].card))
            fault(&it, CARDS, 0, "another card than that of the first call");
        if (done[CARD] && done[FRONT] && names[CARD].weight != names[FRONT].weight)
            fault(&it, FRONT, 0, "another weight than that of the first call");
        if (done[FRONT] && (names[STRATEGY].status == ALPHAMU_NO_VECTOR) != (it.vector >= names[FRONT].vectors) &&
            names[STRATEGY].status != ALPHAMU_SPENT)
            fault(&it, STRATEGY, names[STRATEGY].status, "not the code of whether the front has the vector");
    }
    printf("%" PRIu64 " calls:", calls);
    for (uint32_t status = 0; status <= LAST; status++)
        if (counts[status]) printf(" %" PRIu64 " with %u,", counts[status], status);
    printf(" %" PRIu64 " wrong\n", faults);
    return faults != 0;
}
