/* The front page's suit combination: K 10 2 in dummy opposite A Q 9 4 3, with an entry to each hand.
 *
 *     cc ending.c $(pkg-config --cflags --libs alphamu) -o ending
 *     ./ending                  by bits: what each card is worth, the card to play, and how a strategy begins
 *     ./ending DEAL LAYOUTS     by text: the card to play, from two files
 */
#include <alphamu.h>
#include <stdio.h>
#include <stdlib.h>

enum { SPADES, HEARTS = 13, DIAMONDS = 26, ROOM = 1 << 20, NODES = 1 << 16 };

static const char *name(uint32_t card) {
    static char found[4][3];
    static int next;
    char *it = found[next++ % 4];
    it[0] = "SHDC"[card / 13], it[1] = "23456789TJQKA"[card % 13];
    return it;
}

/* Cards of a suit by their ranks, as "KT2". */
static uint64_t ranks(const char *letters, int suit) {
    uint64_t cards = 0;
    for (; *letters; letters++)
        for (int rank = 0; rank < 13; rank++)
            if ("23456789TJQKA"[rank] == *letters) cards |= (uint64_t)1 << (suit + rank);
    return cards;
}

/* What West has in a layout: spades of the missing J 8 7 6 5, and of the other suits enough to fill up seven cards. */
static uint64_t west(int layout, int *spades) {
    uint64_t hand = 0;
    *spades = 0;
    for (int i = 0; i < 5; i++)
        if (layout >> i & 1) hand |= ranks((const char *[]){"5", "6", "7", "8", "J"}[i], SPADES), ++*spades;
    for (int i = 0; i < 7 - *spades; i++)
        hand |= (uint64_t)1 << ((i % 2 ? DIAMONDS : HEARTS) + 11 - i / 2);
    return hand;
}

/* Prints how the strategy for the front's first vector begins, if six cards of declarer's side are planned. */
static uint32_t begin_strategy(alphamu_question question, const uint64_t *lefts, const uint32_t *weights) {
    static alphamu_node nodes[NODES];
    size_t written;
    question.moves = 6;
    uint32_t status = alphamu_bits_strategy(&question, lefts, 32, weights, 32, 0, nodes, NODES, &written);
    if (status) return status;
    size_t place = alphamu_after_card(nodes, 0, alphamu_next_card(nodes, 0));
    printf("a strategy: play %s\n", name(nodes[place].card));
    for (size_t i = 0; i < nodes[place].replies; i++) {
        size_t reply = nodes[place].first_reply + i;
        printf("on %s play %s\n", name(nodes[reply].card), name(alphamu_next_card(nodes, reply)));
    }
    return status;
}

static int by_bits(void) {
    /* In how many ways the other 21 cards of the defenders fill up West's hand, by the number of his spades. */
    static const uint32_t ways[] = {45, 65, 78, 78, 65, 45};
    alphamu_question question = {
        .declarer = ranks("AQ943", SPADES) | ranks("2", HEARTS) | ranks("A", DIAMONDS),
        .dummy = ranks("KT2", SPADES) | ranks("A", HEARTS) | ranks("432", DIAMONDS),
        .unseen = ranks("J8765", SPADES) | ranks("KQJT9", HEARTS) | ranks("KQJT", DIAMONDS),
        .nodes = 10000000, .leader = 0, .trump = 4, .need = 7, .moves = 26,
    };
    uint64_t lefts[32];
    uint32_t weights[32], total = 0;
    for (int i = 0; i < 32; i++) {
        int spades;
        lefts[i] = west(i, &spades);
        total += weights[i] = ways[spades];
    }
    alphamu_worth worths[13];
    alphamu_choice choice;
    size_t written;
    uint32_t status = alphamu_bits_cards(&question, lefts, 32, weights, 32, worths, 13, &written);
    if (!status) status = alphamu_bits_card(&question, lefts, 32, weights, 32, &choice);
    for (size_t i = 0; !status && i < written; i++)
        printf("%s wins %u of %u; a simulation believes in %u\n", name(worths[i].card), worths[i].weight, total,
            worths[i].double_dummy);
    if (!status) printf("play %s\n", name(choice.card));
    if (!status) status = begin_strategy(question, lefts, weights);
    if (status) fprintf(stderr, "refused: %u\n", status);
    return (int)status;
}

/* The bytes of a file, with room for one more than the library takes. */
static size_t read_all(const char *name, uint8_t *bytes) {
    FILE *file = fopen(name, "rb");
    if (!file) perror(name), exit(70);
    size_t length = fread(bytes, 1, ROOM + 1, file);
    fclose(file);
    return length;
}

static int by_text(char **names) {
    static uint8_t deal[ROOM + 1], layouts[ROOM + 1], out[256];
    size_t deal_length = read_all(names[0], deal), layouts_length = read_all(names[1], layouts), written;
    uint32_t status = alphamu_card(deal, deal_length, layouts, layouts_length, 26, 10000000, out, sizeof out, &written);
    fwrite(out, 1, written, status ? stderr : stdout);
    return (int)status;
}

int main(int argc, char **argv) { return argc == 3 ? by_text(argv + 1) : by_bits(); }
