/* alphamu: which card should declarer play now, over the layouts that are thought possible?
 *
 * Two ways to ask. By text: a deal file and a layout file in memory, and the text of the answer in your buffer; files,
 * texts and refusals are those of the program alphamu. By bits: hands as 52-bit sets, and numbers back.
 *
 * For C from C99 on, and C++ from C++11 on.
 *
 * Nothing is kept between calls, no file is opened, nothing is printed and no thread is started, so any number of your
 * own threads may ask at once. What each call promises is proved; README.md beside this file says what is not: that you
 * keep to the following.
 *
 * - No pointer is null, even if its length is 0, and each points to as many elements as its length says.
 * - No length is 2^63 or more.
 * - What a call writes to overlaps nothing else that you pass.
 * - malloc, realloc and free are of one allocator, and you don't call from a signal handler.
 * - There is a stack of 512 KiB or more.
 */
#ifndef ALPHAMU_H
#define ALPHAMU_H

#include <stddef.h>
#include <stdint.h>

#ifdef __cplusplus
extern "C" {
#endif

/* The version of this interface. It changes if a function, a struct or a number of this header does. */
#define ALPHAMU_VERSION 1

/* The version of the interface that the library was built with. */
uint32_t alphamu_version(void);

/* What a call returns. 0 to 17 are the numbers of the program's statuses; the others are of questions by bits alone. */
enum {
    ALPHAMU_DONE = 0,              /* the whole answer is there */
    ALPHAMU_REFUTED = 1,           /* check: a plan of the report is at fault */
    ALPHAMU_BAD_WORDS = 2,         /* moves aren't 1 to 26, or nodes are 0 */
    ALPHAMU_BAD_DEAL = 4,          /* the deal file is refused */
    ALPHAMU_BAD_LAYOUTS = 5,       /* the layout file is refused */
    ALPHAMU_NO_TURN = 6,           /* a defender is to play, or no card is left */
    ALPHAMU_SPENT = 7,             /* a search needs more nodes than you allowed */
    ALPHAMU_NO_ROOM = 8,           /* your buffer is too small; *written is the length that is needed */
    ALPHAMU_OUT_OF_MEMORY = 9,     /* an allocation failed */
    ALPHAMU_TOO_LONG = 10,         /* a deal or layout file has more than 1,048,576 bytes, or a report more than 16,777,216 */
    ALPHAMU_BAD_REPORT = 11,       /* check: the report is refused */
    ALPHAMU_NOT_LISTED = 12,       /* list: no layouts fit, or too many, or the defenders' cards aren't known */

    ALPHAMU_NOT_CARDS = 32,        /* a hand has a bit from 52 on */
    ALPHAMU_HANDS_OVERLAP = 33,    /* a card is in two of declarer, dummy and unseen */
    ALPHAMU_BAD_TRICK = 34,        /* the trick has more than 3 cards, or one that is no card */
    ALPHAMU_PLAYED_TWICE = 35,     /* a card of the trick is in it twice, or still in a hand */
    ALPHAMU_BAD_SIZES = 36,        /* the hands don't have the sizes that go with each other and the trick */
    ALPHAMU_BAD_LEADER = 37,       /* leader is more than 3 */
    ALPHAMU_BAD_TRUMP = 38,        /* trump is more than 4 */
    ALPHAMU_BAD_NEED = 39,         /* need is more than 13 */
    ALPHAMU_NO_LAYOUTS = 40,       /* there is no layout */
    ALPHAMU_TOO_MANY_LAYOUTS = 41, /* there are more than 256 */
    ALPHAMU_LAYOUT_MISFIT = 42,    /* a layout isn't a part of unseen of Left's size */
    ALPHAMU_WEIGHT_COUNT = 43,     /* there isn't one weight for each layout */
    ALPHAMU_BAD_WEIGHT = 44,       /* a weight is 0 or more than 1,000,000 */
    ALPHAMU_BAD_MOVES = 45,        /* moves aren't 1 to 26 */
    ALPHAMU_BAD_NODES = 46,        /* nodes are 0 */
    ALPHAMU_NO_VECTOR = 47         /* a strategy: the front has fewer vectors */
};

/* ---- by text
 *
 * moves: how many cards of declarer's side the search plans, 1 to 26. nodes: the most nodes that the search after one
 * card may enter, 1 or more; 10000000 is the program's default.
 *
 * ALPHAMU_DONE: the first *written bytes of out are the text, the same as the program's.
 * ALPHAMU_NO_ROOM: the text has *written bytes, and out is untouched. Ask again with as much room: nothing is kept, so
 * the answer is found once more.
 * Any other number: the first *written bytes of out are the program's line on standard error, or as much of its
 * beginning as there is room for. 128 bytes are enough for each line.
 */

/* The report: the front's vectors with a plan for each, and the card to play. */
uint32_t alphamu_report(
    const uint8_t *deal, size_t deal_length, const uint8_t *layouts, size_t layouts_length,
    uint32_t moves, uint64_t nodes, uint8_t *out, size_t out_length, size_t *written);

/* The card to play, with its weight. */
uint32_t alphamu_card(
    const uint8_t *deal, size_t deal_length, const uint8_t *layouts, size_t layouts_length,
    uint32_t moves, uint64_t nodes, uint8_t *out, size_t out_length, size_t *written);

/* What a simulation with open hands believes of each card. */
uint32_t alphamu_fusion(
    const uint8_t *deal, size_t deal_length, const uint8_t *layouts, size_t layouts_length,
    uint8_t *out, size_t out_length, size_t *written);

/* A layout file of all layouts that the play of the deal allows. */
uint32_t alphamu_list(
    const uint8_t *deal, size_t deal_length, uint8_t *out, size_t out_length, size_t *written);

/* Whether each plan of a report wins exactly its vector. */
uint32_t alphamu_check(
    const uint8_t *deal, size_t deal_length, const uint8_t *layouts, size_t layouts_length,
    const uint8_t *report, size_t report_length, uint8_t *out, size_t out_length, size_t *written);

/* ---- by bits
 *
 * A card is a number: spades 0 to 12 from the two up to the ace, hearts 13 to 25, diamonds 26 to 38, clubs 39 to 51. A
 * set of cards has bit i set if it has card i. A suit is 0 to 3 in the same order, and 4 is no trump, as in DDS. A seat
 * is 0 for declarer and then clockwise: 1 the defender on declarer's left (Left), 2 dummy, 3 the other (Right).
 */
typedef struct {
    uint64_t declarer;   /* the cards that declarer still holds */
    uint64_t dummy;      /* and dummy */
    uint64_t unseen;     /* and the two defenders together */
    uint64_t nodes;      /* the most nodes that the search after one card may enter, 1 or more */
    uint32_t trick[3];   /* the cards of the present trick, in the order of play: they are in no hand */
    uint32_t played;     /* how many they are, 0 to 3 */
    uint32_t leader;     /* the seat that led to it, or is to lead */
    uint32_t trump;      /* 0 to 3, or 4 for no trump */
    uint32_t need;       /* the tricks that declarer's side still needs, 0 to 13, the present one counted */
    uint32_t moves;      /* how many cards of declarer's side to plan, 1 to 26 */
} alphamu_question;

/* In each call a layout is Left's hand, a part of unseen: lefts has 1 to 256, and weights as many, each 1 to 1,000,000.
 * Leave out layouts in which a defender would have revoked: the calls don't know the tricks before.
 *
 * A vector has a bit for each layout, set if the contract is made there: layout i is bit i % 64 of word i / 64 of four
 * words. It weighs the sum of the weights of the layouts at its ones.
 */

/* A card, and the weight that it wins. */
typedef struct {
    uint32_t card;
    uint32_t weight;
} alphamu_choice;

/* The card to play: the first that keeps the best weight, and that weight. */
uint32_t alphamu_bits_card(
    const alphamu_question *question, const uint64_t *lefts, size_t lefts_length,
    const uint32_t *weights, size_t weights_length, alphamu_choice *choice);

/* What a card is worth. */
typedef struct {
    uint64_t vector[4];    /* the first best vector of the front after the card */
    uint32_t card;
    uint32_t weight;       /* what that vector weighs: the most that a strategy wins which begins with the card */
    uint32_t double_dummy; /* what a simulation with open hands believes: at least as much */
} alphamu_worth;

/* Each legal card with what it is worth, in card order: *written of them. */
uint32_t alphamu_bits_cards(
    const alphamu_question *question, const uint64_t *lefts, size_t lefts_length,
    const uint32_t *weights, size_t weights_length,
    alphamu_worth *worths, size_t worths_length, size_t *written);

/* The vectors of the front, four words for each: *written words. The vector with more ones comes first, and of two with as
 * many the one with a 1 at the first layout at which they differ. */
uint32_t alphamu_bits_front(
    const alphamu_question *question, const uint64_t *lefts, size_t lefts_length,
    const uint32_t *weights, size_t weights_length,
    uint64_t *vectors, size_t vectors_length, size_t *written);

/* A node of a strategy: a card that is played, and the nodes of the cards that can come next, its replies. They stand one
 * after another in the array. There is none if the strategy stops after the card: no moves are left, or the result is decided.
 * There is one if declarer or dummy plays next, and otherwise there is one for each card that the defender may play in some
 * layout, in card order. */
typedef struct {
    size_t first_reply;  /* the place of the first reply in the array */
    size_t replies;      /* how many there are */
    uint32_t card;       /* ALPHAMU_NO_CARD in node 0, which stands for what has been played already */
} alphamu_node;

#define ALPHAMU_NO_CARD 52

/* The strategy for a vector of the front: *written nodes, from node 0 on. It wins exactly the layouts of the vector, whatever
 * the defenders do. vector is 0 for the first vector that alphamu_bits_front gives, and so on. */
uint32_t alphamu_bits_strategy(
    const alphamu_question *question, const uint64_t *lefts, size_t lefts_length,
    const uint32_t *weights, size_t weights_length,
    size_t vector, alphamu_node *nodes, size_t nodes_length, size_t *written);

/* The card that the strategy plays at a node at which declarer or dummy is to play, or ALPHAMU_NO_CARD if it has stopped. */
static inline uint32_t alphamu_next_card(const alphamu_node *nodes, size_t place) {
    return nodes[place].replies ? nodes[nodes[place].first_reply].card : ALPHAMU_NO_CARD;
}

/* The place of the node to which a card leads, or 0 if the strategy has no reply to it. */
static inline size_t alphamu_after_card(const alphamu_node *nodes, size_t place, uint32_t card) {
    size_t first = nodes[place].first_reply;
    for (size_t i = 0; i < nodes[place].replies; i++)
        if (nodes[first + i].card == card) return first + i;
    return 0;
}

/* ---- to and from the holdings of DDS
 *
 * A holding of remainCards[hand][suit] has bit 2 for the two up to bit 14 for the ace. The suits have the same order.
 */

/* A holding as cards of its suit. */
static inline uint64_t alphamu_from_dds(unsigned int holding, unsigned int suit) {
    return (uint64_t)(holding >> 2 & 0x1fff) << 13 * suit;
}

/* The holding of a set in a suit. */
static inline unsigned int alphamu_to_dds(uint64_t cards, unsigned int suit) {
    return (unsigned int)(cards >> 13 * suit & 0x1fff) << 2;
}

/* A card by DDS's suit, 0 to 3, and rank, 2 to 14. */
static inline uint32_t alphamu_card_from_dds(int suit, int rank) {
    return (uint32_t)(13 * suit + rank - 2);
}

#ifdef __cplusplus
}
#endif

#endif
