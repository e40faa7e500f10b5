/* Plays, moves and the entries in plain C: what include/sakonite.h declares and the program any_play asks for, on a baseline's job. */
#ifndef ENTRIES_H
#define ENTRIES_H

#include "baseline.h"

struct play {
    uint32_t position, state, count, open;
    uint32_t kept[MOST_OPEN], marks[MOST_OPEN];
};

/* The bytes lent to a move. Without bytes the move is only judged; without bounds nothing is too short. */
struct lent {
    uint8_t *bytes;
    size_t length;
};

struct play play_start(const struct job *job);

/* Each gives 0 with the play after the move, or the number of the refusal, 21 to 24, with everything as it was. */
unsigned play_read(const struct job *job, struct play *play, struct lent buffer);
unsigned play_fetch(const struct job *job, struct play *play, struct part reply, struct lent buffer);

/* 0 to 4, or 21. */
unsigned play_advice(const struct job *job, const uint32_t *masks, const struct play *play);

/* 0 for none, 100 plus the losing reply's length, or the number of the refusal, 21, 22, 23, 25 or 26. */
size_t play_losing(const struct job *job, const uint32_t *masks, const struct play *play, struct lent buffer);

/* The entries of include/sakonite.h. */
uint32_t plain_check(const uint8_t *file, size_t file_length);
uint32_t plain_verdict(const uint8_t *file, size_t file_length);
uint32_t plain_advice(const uint8_t *file, size_t file_length, const uint8_t *history, size_t history_length);
size_t plain_finished(const uint8_t *file, size_t file_length, const uint8_t *history, size_t history_length, uint8_t *buffer,
                      size_t buffer_length);
size_t plain_losing_reply(const uint8_t *file, size_t file_length, const uint8_t *history, size_t history_length, uint8_t *buffer,
                          size_t buffer_length);
uint32_t plain_version(void);

#endif
