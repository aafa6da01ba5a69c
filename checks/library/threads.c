/* threads FILE THREADS COUNT [KIB]: asks the questions of a file from many threads at once, COUNT in each, and compares the answers.
 * Each thread has the stack that the header asks for, 512 KiB, or one of KIB, and begins at another question. */
#include "questions.h"
#include <pthread.h>
#include <stdio.h>
#include <stdlib.h>

enum { ROOM = 1 << 23 };

static question *all;
static size_t many, each;

static void *work(void *number) {
    size_t first = (size_t)number, wrong = 0;
    uint8_t *out = malloc(ROOM);
    for (size_t i = 0; i < each; i++) {
        const question *it = &all[(first * 37 + i) % many];
        size_t used = 0;
        uint32_t status = ask(it, out, ROOM, &used);
        wrong += !is_right(it, status, out, used);
    }
    free(out);
    return (void *)wrong;
}

int main(int argc, char **argv) {
    if (argc < 4) return 70;
    all = read_questions(argv[1], &many);
    each = strtoul(argv[3], 0, 10);
    size_t threads = strtoul(argv[2], 0, 10), wrong = 0;
    pthread_t *started = malloc(threads * sizeof *started);
    pthread_attr_t with;
    pthread_attr_init(&with);
    pthread_attr_setstacksize(&with, (argc > 4 ? strtoul(argv[4], 0, 10) : 512) << 10);
    for (size_t i = 0; i < threads; i++)
        if (pthread_create(&started[i], &with, work, (void *)i)) return 70;
    for (size_t i = 0; i < threads; i++) {
        void *found;
        pthread_join(started[i], &found);
        wrong += (size_t)found;
    }
    free(started);
    release_questions(all);
    printf("%zu threads, %zu questions each: %zu wrong\n", threads, each, wrong);
    return wrong != 0;
}
