/* The program any_play in plain C: any play, reached or not, judged on a job. tests/README.md has its input and output. */
#include "entries.h"

#include <stdio.h>

enum { MOST_LENT = 65536, CASE = 37 };

static uint8_t file[LARGEST_FILE + 1], bytes[CASE], reply[UINT16_MAX], lent[MOST_LENT];

static uint32_t four(const uint8_t *at) {
    return two(at) | (uint32_t)two(at + 2) << 16;
}

static bool take(uint8_t *into, size_t length) {
    return fread(into, 1, length, stdin) == length;
}

/* The job, of which no more is kept than tells that it is too long. */
static bool take_job(size_t *length) {
    if (!take(bytes, 4))
        return false;
    uint32_t all = four(bytes);
    *length = all < sizeof file ? all : sizeof file;
    if (!take(file, *length))
        return false;
    for (size_t i = *length; i < all; i++)
        if (getchar() == EOF)
            return false;
    return true;
}

static size_t answer(const struct job *job, const uint32_t *masks, struct play *play, struct part with) {
    uint32_t asked = four(bytes + 31);
    struct lent buffer = {lent, asked < MOST_LENT ? asked : MOST_LENT};
    if (bytes[0] == 0)
        return play_advice(job, masks, play);
    if (bytes[0] == 3)
        return play_losing(job, masks, play, buffer);
    return bytes[0] == 1 ? play_read(job, play, buffer) : play_fetch(job, play, with, buffer);
}

int main(void) {
    struct job job;
    struct effects effects;
    size_t length;
    if (!take_job(&length))
        return 0;
    unsigned refused = load(file, length, &job, &effects);
    while (take(bytes, CASE) && bytes[0] <= 3 && take(reply, two(bytes + 35))) {
        struct play play = {four(bytes + 1), bytes[5], four(bytes + 6), bytes[10], {0}, {0}};
        for (unsigned i = 0; i < MOST_OPEN; i++) {
            play.kept[i] = bytes[11 + i];
            play.marks[i] = four(bytes + 15 + 4 * i);
        }
        size_t number = refused ? refused : answer(&job, effects.masks, &play, (struct part){reply, two(bytes + 35)});
        printf("%zu %u %u %u %u", number, play.position, play.state, play.count, play.open);
        for (unsigned i = 0; i < MOST_OPEN; i++)
            printf(" %u", play.kept[i]);
        for (unsigned i = 0; i < MOST_OPEN; i++)
            printf(" %u", play.marks[i]);
        if (bytes[0] == 3 && number >= 100)
            printf(" ");
        for (size_t i = 100; bytes[0] == 3 && i < number; i++)
            printf("%02x", lent[i - 100]);
        printf("\n");
    }
    return 0;
}
