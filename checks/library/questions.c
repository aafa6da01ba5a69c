#include "questions.h"
#include <stdio.h>
#include <stdlib.h>
#include <string.h>

static uint8_t *whole, *next;

static uint64_t number(size_t size) {
    uint64_t found = 0;
    memcpy(&found, next, size);
    next += size;
    return found;
}

/* Numbers of C stand at multiples of 8, as the calls by bits need them. */
static bytes part(void) {
    bytes it;
    it.length = number(8);
    it.at = next;
    next += (it.length + 7) / 8 * 8;
    return it;
}

static question one(void) {
    question it;
    it.call = (uint32_t)number(4);
    it.status = (uint32_t)number(4);
    it.moves = (uint32_t)number(8);
    it.nodes = number(8);
    for (int i = 0; i < 3; i++) it.given[i] = part();
    it.answer = part();
    return it;
}

question *read_questions(const char *name, size_t *count) {
    FILE *file = fopen(name, "rb");
    if (!file || fseek(file, 0, SEEK_END)) { perror(name); exit(70); }
    long size = ftell(file);
    whole = malloc((size_t)size);
    rewind(file);
    if (!whole || fread(whole, 1, (size_t)size, file) != (size_t)size) { perror(name); exit(70); }
    fclose(file);
    next = whole;
    *count = number(8);
    question *found = malloc(*count * sizeof *found);
    for (size_t i = 0; i < *count; i++) found[i] = one();
    return found;
}

void release_questions(question *all) {
    free(all);
    free(whole);
}

static uint32_t ask_by_text(const question *it, uint8_t *out, size_t room, size_t *used) {
    const bytes *d = &it->given[0], *l = &it->given[1], *r = &it->given[2];
    switch (it->call) {
        case REPORT: return alphamu_report(d->at, d->length, l->at, l->length, it->moves, it->nodes, out, room, used);
        case CARD: return alphamu_card(d->at, d->length, l->at, l->length, it->moves, it->nodes, out, room, used);
        case FUSION: return alphamu_fusion(d->at, d->length, l->at, l->length, out, room, used);
        case LIST: return alphamu_list(d->at, d->length, out, room, used);
        default: return alphamu_check(d->at, d->length, l->at, l->length, r->at, r->length, out, room, used);
    }
}

/* Nothing is said of the bytes that fill up a struct, those from `used` on in each of `size`. */
static void clear_padding(uint8_t *structs, size_t count, size_t size, size_t used) {
    for (size_t i = 0; i < count; i++) memset(structs + i * size + used, 0, size - used);
}

static uint32_t ask_by_bits(const question *it, uint8_t *out, size_t room, size_t *used) {
    const alphamu_question *q = (const void *)it->given[0].at;
    const uint64_t *lefts = (const void *)it->given[1].at;
    const uint32_t *weights = (const void *)it->given[2].at;
    size_t many = it->given[1].length / 8, weighed = it->given[2].length / 4, written = 1, size = sizeof(alphamu_choice);
    uint32_t status;
    switch (it->call) {
        case BITS_CARD:
            status = alphamu_bits_card(q, lefts, many, weights, weighed, (alphamu_choice *)out);
            break;
        case BITS_CARDS:
            size = sizeof(alphamu_worth);
            status = alphamu_bits_cards(q, lefts, many, weights, weighed, (alphamu_worth *)out, room / size, &written);
            if (status == ALPHAMU_DONE) clear_padding(out, written, size, offsetof(alphamu_worth, double_dummy) + 4);
            break;
        case BITS_STRATEGY:
            size = sizeof(alphamu_node);
            status = alphamu_bits_strategy(q, lefts, many, weights, weighed, 0, (alphamu_node *)out, room / size, &written);
            if (status == ALPHAMU_DONE) clear_padding(out, written, size, offsetof(alphamu_node, card) + 4);
            break;
        default:
            size = sizeof(uint64_t);
            status = alphamu_bits_front(q, lefts, many, weights, weighed, (uint64_t *)out, room / size, &written);
    }
    *used = status == ALPHAMU_DONE ? written * size : 0;
    return status;
}

uint32_t ask(const question *it, uint8_t *out, size_t room, size_t *used) {
    return (it->call < BITS_CARD ? ask_by_text : ask_by_bits)(it, out, room, used);
}

int is_right(const question *it, uint32_t status, const uint8_t *out, size_t used) {
    return status == it->status && used == it->answer.length && !memcmp(out, it->answer.at, used);
}
