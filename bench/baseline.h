/* A plain C version of the tables, the loader and the evaluators: the same algorithms as the proved code, written for speed. */
#ifndef BASELINE_H
#define BASELINE_H

#include <stdbool.h>
#include <stddef.h>
#include <stdint.h>

enum { CODES = 16, FETCHABLE = 12, FORMS = 4, STATES = 32, FORM_STATES = 8 };
enum { MOST_TAGS = 4096, MOST_OPEN = 4, MOST_REPLY_OPEN = 64, LARGEST_FILE = 37436 };

struct part {
    const uint8_t *bytes;
    size_t length;
};

/* Where the bodies of a file lie: target, replies by rising code, record. */
struct job {
    struct part target, replies[FORMS], record;
};

/* The effects of the four forms. For each two target states a number: 0 if no lawful reply leads from the one to the other, else one more
   than the elements of the shortest that does; LONG_NUMBER if they are too many to be counted. For each target state a mask of the states
   that have a number. */
enum { MOST_COUNTED = 4096, LONG_NUMBER = MOST_COUNTED / 2 + 2 };

struct effects {
    uint16_t numbers[FORMS * STATES * STATES];
    uint32_t masks[FORMS * STATES];
};

struct judged {
    size_t start;
    uint32_t states;
};

static inline unsigned two(const uint8_t *bytes) {
    return bytes[0] | bytes[1] << 8;
}

/* The target's results for an opening and a closing tag. */

static inline unsigned open_to(const uint8_t *target, unsigned q, unsigned c) {
    return target[6 + 16 * q + c];
}

static inline unsigned close_to(const uint8_t *target, unsigned r, unsigned q, unsigned c) {
    unsigned n = target[0];
    return target[6 + 16 * n + 16 * (n * r + q) + c];
}

/* 0, or the number of the refusal. The effects of the four forms, which tell whether one has no lawful reply, are left behind. */
unsigned load(const uint8_t *file, size_t length, struct job *job, struct effects *effects);

/* The depth of a word; -1 if it is too long, has a byte above 31 or is not well nested. */
int depth_of(struct part word);

/* The rules of a form, a relation on its states for each code and kept state: where an opening and where a closing tag leads. */
struct rules {
    uint64_t opening[CODES][FORM_STATES], closing[CODES][FORM_STATES];
};

void compile_rules(const uint8_t *reply, struct rules *rules);

/* Whether a well-nested word of depth at most 64 is a lawful reply. */
bool lawful(const struct rules *rules, const uint8_t *reply, struct part word);

static inline bool has(uint32_t set, unsigned state) {
    return set >> state & 1;
}

/* How many tags the shortest lawful reply has that takes the target from q out of the goal, or one of these two; the first of the shortest
   is written to the buffer if it has room. */
enum { UNREACHED = -1, LONGER = -2 };

int shortest_outside(const uint8_t *target, const uint8_t *reply, unsigned q, uint32_t goal, uint8_t *buffer, size_t room);

/* Whether a fetch of an element of code c, opened in q, leads into the goal with every lawful reply. */
static inline bool fetch_wins(const uint32_t *masks, unsigned c, unsigned q, uint32_t goal) {
    return c >= FETCHABLE && (masks[STATES * (c - FETCHABLE) + q] & ~goal) == 0;
}

/* The goal that the inside of an element of code c, opened in q, must meet: every state will do where a fetch wins. */
uint32_t inner_goal(const uint8_t *target, const uint32_t *masks, unsigned c, unsigned q, uint32_t goal);

/* The states from which the longest forest that ends at `end` is won, if the states after it are to be in the goal. */
struct judged forest(const uint8_t *target, const uint32_t *masks, const uint8_t *record, size_t end, uint32_t goal);

bool verdict(const struct job *job, const uint32_t *masks);

uint32_t accepting(const uint8_t *target);

#endif
