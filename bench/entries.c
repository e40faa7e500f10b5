/* Plays, moves and the five entries in plain C. */
#include "entries.h"

#include <string.h>

/* Plays. */

struct play play_start(const struct job *job) {
    struct play play = {0};
    play.state = job->target.bytes[1];
    return play;
}

static unsigned open_at(struct part record, size_t position) {
    unsigned open = 0;
    for (size_t i = 0; i < position; i++)
        open += record.bytes[i] < 16 ? 1 : -1;
    return open;
}

static bool fits(const struct job *job, const struct play *play) {
    unsigned n = job->target.bytes[0];
    if (play->position > job->record.length || play->state >= n || play->open != open_at(job->record, play->position))
        return false;
    for (unsigned i = 0; i < MOST_OPEN; i++) {
        uint32_t least = i > 0 ? play->marks[i - 1] : 0;
        if (i < play->open ? play->kept[i] >= n || play->marks[i] < least || play->marks[i] > play->count : play->kept[i] || play->marks[i])
            return false;
    }
    return true;
}

/* The forms' rules are compiled once in a call. */

static void compile_forms(const struct job *job, struct rules rules[FORMS]) {
    for (unsigned i = 0; i < FORMS; i++)
        compile_rules(job->replies[i].bytes, rules + i);
}

/* Moves. A play that came from its start by moves fits, and is not judged again. */

static void put(struct lent buffer, size_t at, struct part piece) {
    if (buffer.bytes && piece.length)
        memcpy(buffer.bytes + at, piece.bytes, piece.length);
}

static void drop_newest(struct play *play) {
    play->open--;
    play->kept[play->open] = play->marks[play->open] = 0;
}

static unsigned read_tag(const struct job *job, struct play *play, struct lent buffer) {
    const uint8_t *target = job->target.bytes;
    if (play->position == job->record.length)
        return 22;
    if (play->count + (size_t)1 > buffer.length)
        return 24;
    const uint8_t *tag = job->record.bytes + play->position;
    put(buffer, play->count, (struct part){tag, 1});
    if (*tag < 16) {
        play->kept[play->open] = play->state;
        play->marks[play->open++] = play->count;
        play->state = open_to(target, play->state, *tag);
    } else {
        play->state = close_to(target, play->state, play->kept[play->open - 1], *tag - 16);
        drop_newest(play);
    }
    play->position++;
    play->count++;
    return 0;
}

/* The target's state after a well-nested word of depth at most 64. */
static unsigned run_over(const uint8_t *target, struct part word, unsigned state) {
    uint8_t kept[MOST_REPLY_OPEN];
    unsigned open = 0;
    for (size_t i = 0; i < word.length; i++) {
        uint8_t tag = word.bytes[i];
        if (tag < 16) {
            kept[open++] = state;
            state = open_to(target, state, tag);
        } else {
            state = close_to(target, state, kept[--open], tag - 16);
        }
    }
    return state;
}

static unsigned fetch_reply(const struct job *job, const struct rules *rules, struct play *play, struct part reply, struct lent buffer) {
    if (play->position == job->record.length)
        return 22;
    unsigned tag = job->record.bytes[play->position], form = tag - 16 - FETCHABLE;
    if (tag < 16 + FETCHABLE)
        return 23;
    int depth = depth_of(reply);
    if (depth < 0 || depth > MOST_REPLY_OPEN)
        return 18;
    if (!lawful(rules + form, job->replies[form].bytes, reply))
        return 19;
    uint32_t mark = play->marks[play->open - 1];
    if (mark + reply.length > buffer.length)
        return 24;
    put(buffer, mark, reply);
    play->state = run_over(job->target.bytes, reply, play->kept[play->open - 1]);
    drop_newest(play);
    play->position++;
    play->count = mark + reply.length;
    return 0;
}

unsigned play_read(const struct job *job, struct play *play, struct lent buffer) {
    return fits(job, play) && play->count <= buffer.length ? read_tag(job, play, buffer) : 21;
}

unsigned play_fetch(const struct job *job, struct play *play, struct part reply, struct lent buffer) {
    struct rules rules[FORMS];
    compile_forms(job, rules);
    return fits(job, play) && play->count <= buffer.length ? fetch_reply(job, rules, play, reply, buffer) : 21;
}

/* Advice. */

/* The states from which a rest of the record is won, with elements open whose kept states are given. */
static uint32_t won_states(const uint8_t *target, const uint32_t *masks, struct part rest, const uint32_t *kept, unsigned open) {
    if (open == 0)
        return forest(target, masks, rest.bytes, rest.length, accepting(target)).states;
    size_t closing = 0;
    for (unsigned within = 0; rest.bytes[closing] < 16 || within > 0; closing++)
        within += rest.bytes[closing] < 16 ? 1 : -1;
    struct part after = {rest.bytes + closing + 1, rest.length - closing - 1};
    uint32_t outer = won_states(target, masks, after, kept, open - 1);
    uint32_t goal = inner_goal(target, masks, rest.bytes[closing] - 16, kept[open - 1], outer);
    return forest(target, masks, rest.bytes, closing, goal).states;
}

static unsigned advice(const struct job *job, const uint32_t *masks, const struct play *play) {
    const uint8_t *target = job->target.bytes;
    if (play->position == job->record.length)
        return has(accepting(target), play->state) ? 3 : 4;
    unsigned tag = job->record.bytes[play->position], open = play->open;
    struct part rest = {job->record.bytes + play->position + 1, job->record.length - play->position - 1};
    uint32_t kept[MOST_OPEN + 1];
    memcpy(kept, play->kept, sizeof play->kept);
    if (tag < 16) {
        kept[open] = play->state;
        return has(won_states(target, masks, rest, kept, open + 1), open_to(target, play->state, tag));
    }
    unsigned q = kept[open - 1];
    uint32_t won = won_states(target, masks, rest, kept, open - 1);
    if (has(won, close_to(target, play->state, q, tag - 16)))
        return 1;
    return fetch_wins(masks, tag - 16, q, won) ? 2 : 0;
}

unsigned play_advice(const struct job *job, const uint32_t *masks, const struct play *play) {
    return fits(job, play) ? advice(job, masks, play) : 21;
}

/* The losing reply. */

static size_t losing(const struct job *job, const uint32_t *masks, const struct play *play, struct lent buffer) {
    const uint8_t *target = job->target.bytes;
    if (play->position == job->record.length)
        return 22;
    unsigned tag = job->record.bytes[play->position], form = tag - 16 - FETCHABLE;
    if (tag < 16 + FETCHABLE)
        return 23;
    struct part rest = {job->record.bytes + play->position + 1, job->record.length - play->position - 1};
    uint32_t won = won_states(target, masks, rest, play->kept, play->open - 1);
    int tags = shortest_outside(target, job->replies[form].bytes, play->kept[play->open - 1], won, buffer.bytes, buffer.length);
    if (tags < 0)
        return tags == UNREACHED ? 0 : 25;
    return (size_t)tags > buffer.length ? 26 : 100 + (size_t)tags;
}

size_t play_losing(const struct job *job, const uint32_t *masks, const struct play *play, struct lent buffer) {
    return fits(job, play) ? losing(job, masks, play, buffer) : 21;
}

/* Histories. */

/* Where the move at the front of a history ends, with the reply if it is a fetch; 0 if it is no move. */
static size_t next_move(struct part history, struct part *reply) {
    *reply = (struct part){0};
    if (history.bytes[0] == 0x20)
        return 1;
    if (history.bytes[0] != 0x21 || history.length < 3)
        return 0;
    *reply = (struct part){history.bytes + 3, two(history.bytes + 1)};
    return history.length - 3 < reply->length ? 0 : 3 + reply->length;
}

static struct part beyond(struct part history, size_t length) {
    return (struct part){history.bytes + length, history.length - length};
}

static bool is_history(struct part history) {
    struct part reply;
    while (history.length) {
        size_t length = next_move(history, &reply);
        if (!length)
            return false;
        history = beyond(history, length);
    }
    return true;
}

/* The moves of a history from the start, in one buffer; 0 or the first refusal. */
static unsigned judge_moves(const struct job *job, struct part history, struct play *play, struct lent buffer) {
    struct rules rules[FORMS];
    struct part reply;
    if (!is_history(history))
        return 20;
    compile_forms(job, rules);
    *play = play_start(job);
    while (history.length) {
        bool fetch = history.bytes[0] == 0x21;
        size_t length = next_move(history, &reply);
        unsigned refused = fetch ? fetch_reply(job, rules, play, reply, buffer) : read_tag(job, play, buffer);
        if (refused)
            return refused;
        history = beyond(history, length);
    }
    return 0;
}

/* The pieces of a history whose moves are accepted, written as they are made. */
static void write_pieces(const struct job *job, struct part history, struct lent buffer) {
    size_t marks[MOST_OPEN], count = 0;
    unsigned open = 0;
    struct part piece;
    for (const uint8_t *tag = job->record.bytes; history.length; tag++) {
        bool fetch = history.bytes[0] == 0x21;
        history = beyond(history, next_move(history, &piece));
        if (*tag < 16)
            marks[open++] = count;
        else
            open--;
        if (fetch)
            count = marks[open];
        else
            piece = (struct part){tag, 1};
        put(buffer, count, piece);
        count += piece.length;
    }
}

/* The entries. */

uint32_t plain_check(const uint8_t *file, size_t file_length) {
    struct job job;
    struct effects effects;
    return load(file, file_length, &job, &effects);
}

uint32_t plain_verdict(const uint8_t *file, size_t file_length) {
    struct job job;
    struct effects effects;
    unsigned refused = load(file, file_length, &job, &effects);
    return refused ? refused : verdict(&job, effects.masks);
}

/* What a history leads to: the job, its effects and the play, or the number of the first refusal. */
struct reached {
    struct job job;
    struct effects effects;
    struct play play;
};

static unsigned reach(struct reached *at, struct part file, struct part history, size_t room) {
    unsigned refused = load(file.bytes, file.length, &at->job, &at->effects);
    return refused ? refused : judge_moves(&at->job, history, &at->play, (struct lent){NULL, room});
}

uint32_t plain_advice(const uint8_t *file, size_t file_length, const uint8_t *history, size_t history_length) {
    struct reached at;
    unsigned refused = reach(&at, (struct part){file, file_length}, (struct part){history, history_length}, SIZE_MAX);
    return refused ? refused : advice(&at.job, at.effects.masks, &at.play);
}

size_t plain_finished(const uint8_t *file, size_t file_length, const uint8_t *history, size_t history_length, uint8_t *buffer,
                      size_t buffer_length) {
    struct reached at;
    struct part moves = {history, history_length};
    unsigned refused = reach(&at, (struct part){file, file_length}, moves, buffer_length);
    if (refused)
        return refused;
    write_pieces(&at.job, moves, (struct lent){buffer, buffer_length});
    return (size_t)100 + at.play.count;
}

size_t plain_losing_reply(const uint8_t *file, size_t file_length, const uint8_t *history, size_t history_length, uint8_t *buffer,
                          size_t buffer_length) {
    struct reached at;
    unsigned refused = reach(&at, (struct part){file, file_length}, (struct part){history, history_length}, SIZE_MAX);
    return refused ? refused : losing(&at.job, at.effects.masks, &at.play, (struct lent){buffer, buffer_length});
}

uint32_t plain_version(void) {
    return 500;
}
