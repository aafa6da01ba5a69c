/* Questions with their right answers, as checks/library.py writes them to a file. */
#ifndef QUESTIONS_H
#define QUESTIONS_H

#include "alphamu.h"

/* The calls, in the order of the header. */
enum { REPORT, CARD, FUSION, LIST, CHECK, BITS_CARD, BITS_CARDS, BITS_FRONT, BITS_STRATEGY };

typedef struct {
    const uint8_t *at;
    uint64_t length;
} bytes;

typedef struct {
    uint32_t call, status;
    uint32_t moves; /* of a question by text */
    uint64_t nodes;
    bytes given[3];  /* by text: deal, layouts, report. By bits: the question, the layouts and the weights as the call takes them */
    bytes answer;
} question;

/* All questions of a file, which is read once in a process. Ends the process if it can't be read. */
question *read_questions(const char *name, size_t *count);

/* Gives back what was read. */
void release_questions(question *all);

/* Asks, and returns the status; *used is how many bytes of out are the answer. */
uint32_t ask(const question *it, uint8_t *out, size_t room, size_t *used);

/* Whether a status and an answer are the right ones. */
int is_right(const question *it, uint32_t status, const uint8_t *out, size_t used);

#endif
