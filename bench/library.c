/* Microseconds a question, for bench/library.py: the least and the mean of COUNT times, or of as many as fit into five seconds.
 *
 *     library process COUNT PROGRAM WORD..   a process for each, whose output is read through a pipe
 *     library calls COUNT FILE               a line for each question of the file, by the library's calls
 *     library dds COUNT FILE                 the first layout of each question by bits, by DDS's SolveBoard; only with -DWITH_DDS
 */
#define _GNU_SOURCE
#include "../checks/library/questions.h"
#include <fcntl.h>
#include <spawn.h>
#include <stdio.h>
#include <stdlib.h>
#include <string.h>
#include <sys/wait.h>
#include <time.h>
#include <unistd.h>
#ifdef WITH_DDS
#include <dds/dll.h>
#endif

enum { ROOM = 1 << 23, ENOUGH = 5000000 };

extern char **environ;

static double now(void) {
    struct timespec it;
    clock_gettime(CLOCK_MONOTONIC, &it);
    return (double)it.tv_sec * 1e6 + (double)it.tv_nsec / 1e3;
}

/* How to ask a question once, and what is done before without being timed. Both return 0 if it went well. */
typedef struct {
    int (*ask)(void *), (*prepare)(void *);
} way;

/* Prints what it takes to ask a question again and again. */
static int measure(int count, way by, void *what) {
    double least = 1e18, all = 0;
    int asked = 0;
    for (; asked < count && all < ENOUGH; asked++) {
        if (by.prepare && by.prepare(what)) return fprintf(stderr, "a question went wrong\n"), 1;
        double began = now();
        if (by.ask(what)) return fprintf(stderr, "a question went wrong\n"), 1;
        double took = now() - began;
        all += took;
        if (took < least) least = took;
    }
    printf("%.1f %.1f\n", least, all / asked);
    return 0;
}

static int by_process(void *words) {
    int ends[2], status;
    char buffer[1 << 16];
    pid_t child;
    posix_spawn_file_actions_t actions;
    if (pipe2(ends, O_CLOEXEC) || posix_spawn_file_actions_init(&actions)) return 1;
    posix_spawn_file_actions_adddup2(&actions, ends[1], 1);
    int failed = posix_spawn(&child, *(char **)words, &actions, 0, words, environ);
    posix_spawn_file_actions_destroy(&actions);
    close(ends[1]);
    while (!failed && read(ends[0], buffer, sizeof buffer) > 0)
        ;
    close(ends[0]);
    return failed || waitpid(child, &status, 0) != child || status;
}

static int by_call(void *it) {
    static uint8_t out[ROOM];
    size_t used;
    return (int)ask(it, out, ROOM, &used);
}

#ifdef WITH_DDS
/* The first layout, with declarer in this seat clockwise from North. */
static int solve(void *it, int declarer) {
    const alphamu_question *q = (const void *)((question *)it)->given[0].at;
    uint64_t left = *(const uint64_t *)(const void *)((question *)it)->given[1].at;
    uint64_t hands[] = {q->declarer, left, q->dummy, q->unseen & ~left};
    struct deal deal;
    struct futureTricks found;
    memset(&deal, 0, sizeof deal);
    deal.trump = (int)q->trump;
    deal.first = ((int)q->leader + declarer) % 4;
    for (int seat = 0; seat < 4; seat++)
        for (unsigned suit = 0; suit < 4; suit++) deal.remainCards[(seat + declarer) % 4][suit] = alphamu_to_dds(hands[seat], suit);
    for (unsigned i = 0; i < q->played; i++)
        deal.currentTrickSuit[i] = (int)q->trick[i] / 13, deal.currentTrickRank[i] = (int)q->trick[i] % 13 + 2;
    return SolveBoard(deal, -1, 3, 1, &found, 0) != 1;
}

static int by_dds(void *it) { return solve(it, 2); }

/* DDS remembers what it was asked, so it is asked about another deal before each question: here the same one turned by a seat. */
static int turned(void *it) { return solve(it, 3); }
#endif

static int measure_all(int count, const char *name, way by) {
    size_t many;
    question *all = read_questions(name, &many);
    int status = 0;
    for (size_t i = 0; i < many && !status; i++) status = measure(count, by, &all[i]);
    release_questions(all);
    return status;
}

int main(int argc, char **argv) {
    if (argc < 4) return 70;
    int count = atoi(argv[2]);
    if (!strcmp(argv[1], "process")) return measure(count, (way){by_process, 0}, argv + 3);
    if (!strcmp(argv[1], "calls")) return measure_all(count, argv[3], (way){by_call, 0});
#ifdef WITH_DDS
    SetMaxThreads(1);
    return measure_all(count, argv[3], (way){by_dds, turned});
#endif
    return 70;
}
