/* memory FILE [STEP]: asks each question of a file again and again, and lets the first allocation fail, then the second, and so on,
 * or in steps: once that one alone, and once all from it on. Each call must run out of memory or give the right answer. Link it with
 * -Wl,--wrap=malloc,--wrap=realloc,--wrap=free. Whatever the library allocates has to be given back by the end of the call. */
#include "questions.h"
#include <stdio.h>
#include <stdlib.h>
#include <string.h>

enum { ROOM = 1 << 23 };

void *__real_malloc(size_t), *__real_realloc(void *, size_t);
void __real_free(void *);

/* Counts while a call is under way. */
static int is_asking;
static size_t asked, first, last;
static long held;

static int is_refused(void) {
    if (!is_asking) return 0;
    asked++;
    return first <= asked && asked <= last;
}

void *__wrap_malloc(size_t size) {
    void *found = is_refused() ? 0 : __real_malloc(size);
    held += is_asking && found;
    return found;
}

void *__wrap_realloc(void *old, size_t size) {
    void *found = is_refused() ? 0 : __real_realloc(old, size);
    held += is_asking && !old && found;
    return found;
}

void __wrap_free(void *it) {
    held -= is_asking && it;
    __real_free(it);
}

static size_t trials, ran_out, wrong;

/* Asks while these allocations fail. Whether one did. */
static int try_once(const question *it, uint8_t *out, size_t from, size_t to) {
    size_t used = 0;
    first = from, last = to, asked = 0, held = 0, is_asking = 1;
    uint32_t status = ask(it, out, ROOM, &used);
    is_asking = 0;
    static const char line[] = "alphamu: out of memory\n";
    int is_out = status == ALPHAMU_OUT_OF_MEMORY &&
        (it->call >= BITS_CARD || (used == sizeof line - 1 && !memcmp(out, line, used)));
    trials++;
    ran_out += (size_t)is_out;
    if ((!is_out && !is_right(it, status, out, used)) || held) {
        wrong++;
        printf("call %u, allocation %zu to %zu: status %u, %ld not given back\n", it->call, from, to, status, held);
    }
    return asked >= from;
}

int main(int argc, char **argv) {
    if (argc < 2) return 70;
    size_t step = argc > 2 ? strtoul(argv[2], 0, 10) : 1;
    size_t many;
    question *all = read_questions(argv[1], &many);
    uint8_t *out = malloc(ROOM);
    for (size_t i = 0; i < many; i++)
        for (int alone = 0; alone < 2; alone++)
            for (size_t number = 1; try_once(&all[i], out, number, alone ? number : (size_t)-1); number += step)
                ;
    printf("%zu questions, %zu trials, %zu ran out of memory: %zu wrong\n", many, trials, ran_out, wrong);
    free(out);
    release_questions(all);
    return wrong || !ran_out;
}
