/* The entries of a library against the plain C ones, on inputs built to be hard: a row for each input, with the time of both and their
   ratio. Both must give the same answers. Argument: slow, for the slow rows too. Times are the processor's. */
#define _XOPEN_SOURCE 700
#include "../include/sakonite.h"
#include "entries.h"

#include <stdio.h>
#include <stdlib.h>
#include <string.h>
#include <time.h>

/* Random numbers from a fixed seed. */

static uint64_t seed;

static unsigned below(unsigned n) {
    uint64_t z = seed += 0x9e3779b97f4a7c15;
    z = (z ^ z >> 30) * 0xbf58476d1ce4e5b9;
    z = (z ^ z >> 27) * 0x94d049bb133111eb;
    return (z ^ z >> 31) % n;
}

/* Bodies. */

struct body {
    uint8_t bytes[20000];
    size_t length;
};

static void write_two(uint8_t *at, size_t number) {
    at[0] = number & 0xff;
    at[1] = number >> 8;
}

static void set_open(struct body *t, unsigned q, unsigned c, unsigned to) {
    t->bytes[6 + 16 * q + c] = to;
}

static void set_close(struct body *t, unsigned r, unsigned q, unsigned c, unsigned to) {
    t->bytes[6 + 16 * STATES + 16 * (STATES * r + q) + c] = to;
}

static void target_begin(struct body *t, uint32_t accepting) {
    t->length = 6 + 16 * STATES + 16 * STATES * STATES;
    t->bytes[0] = STATES;
    t->bytes[1] = 0;
    for (unsigned i = 0; i < 4; i++)
        t->bytes[2 + i] = accepting >> (8 * i);
}

static void random_target(struct body *t) {
    target_begin(t, 0x5a5a5a5a);
    for (size_t i = 6; i < t->length; i++)
        t->bytes[i] = below(STATES);
}

/* One state, so that next to nothing goes into the effects. */
static void one_state_target(struct body *t) {
    memset(t, 0, sizeof *t);
    t->length = 6 + 16 + 16;
    t->bytes[0] = t->bytes[2] = 1;
}

/* A target as a schema gives it: the state within an element does not depend on the one around it, what comes after depends on the
   inside only in that it is right or wrong, and a code may stand in few states, which it does not change. */
static void schema_target(struct body *t) {
    enum { WRONG = STATES - 1 };
    target_begin(t, UINT32_MAX >> 1);
    for (unsigned c = 0; c < CODES; c++) {
        unsigned within = c < 3 ? c + 1 : 4;
        for (unsigned q = 0; q < STATES; q++) {
            bool may_stand = q == c || q == 3 || (q < WRONG && below(16) == 0);
            set_open(t, q, c, q == WRONG ? WRONG : within);
            for (unsigned r = 0; r < STATES; r++)
                set_close(t, r, q, c, may_stand && r == within ? q : WRONG);
        }
    }
}

static void reply_begin(struct body *f, unsigned start, unsigned accepting) {
    memset(f, 0, sizeof *f);
    f->bytes[0] = FORM_STATES;
    f->bytes[1] = start;
    f->bytes[2] = accepting;
    f->length = 7;
}

/* Opening rules go before closing ones. */
static void rule(struct body *f, unsigned count_at, unsigned a, unsigned b, unsigned c, unsigned d) {
    uint8_t *count = f->bytes + count_at, *at = f->bytes + f->length;
    write_two(count, count[0] + 256 * count[1] + 1);
    at[0] = a;
    at[1] = b;
    at[2] = c;
    at[3] = d;
    f->length += 4;
}

static void opening(struct body *f, unsigned state, unsigned code, unsigned next, unsigned kept) {
    rule(f, 3, state, code, next, kept);
}

static void closing(struct body *f, unsigned state, unsigned kept, unsigned code, unsigned next) {
    rule(f, 5, state, kept, code, next);
}

/* 512 and 512 different rules out of the 8,192 and 8,192 there are. */
static void random_form(struct body *f) {
    bool used[2][8192] = {{0}};
    reply_begin(f, 0, 0x80);
    for (unsigned kind = 0; kind < 2; kind++)
        for (unsigned i = 0; i < 512;) {
            unsigned x = below(8192), a = x % 8, b = x / 8 % 8, c = x / 64 % 8, code = x / 512;
            if (used[kind][x])
                continue;
            used[kind][x] = true;
            i++;
            if (kind == 0)
                opening(f, a, code, b, c);
            else
                closing(f, a, b, code, c);
        }
}

/* Any elements of code 9 within each other. */
static void dates_form(struct body *f) {
    reply_begin(f, 0, 1);
    opening(f, 0, 9, 0, 0);
    closing(f, 0, 0, 9, 0);
}

/* A form and a target whose pairs of states can only be found one after another, 4 * 31 * 4 * 31 of them: each element nests the one
   before it.

   Outwards from an innermost X the form counts p from 3 down to 0, by elements A; after 0 comes 3 again, by a B or a D, with the target's
   state one less. Each time that the target's state comes round from 0 to 30, the target's state after the element goes up by one, by a
   B, or from 30 to 0, by a D, with the form's state after it going up. A wrong guess leads the target to state 31 for good. With
   `all_rules` eight more codes link every state of the form with every other and lead the target to 31, so that there is much to do
   beside. */
static void deep_form(struct body *f, bool all_rules) {
    enum { A, B, D, X, MORE };
    reply_begin(f, 3, 0xf0);
    for (unsigned p = 0; p < 3; p++)
        opening(f, p, A, p + 1, p);
    opening(f, 3, B, 0, 3);
    opening(f, 3, D, 0, 3);
    opening(f, 3, X, 3, 0);
    for (unsigned i = 0; all_rules && i < 506; i++)
        opening(f, i % 8, MORE + i / 64, i / 8 % 8, 0);
    closing(f, 3, 0, X, 4);
    for (unsigned e = 4; e < 8; e++) {
        for (unsigned p = 0; p < 3; p++)
            closing(f, e, p, A, e);
        closing(f, e, 3, B, e);
        if (e < 7)
            closing(f, e, 3, D, e + 1);
    }
    for (unsigned i = 0; all_rules && i < 492; i++)
        closing(f, i % 8, 0, MORE + i / 64, i / 8 % 8);
}

static void deep_target(struct body *t) {
    enum { A, B, D, X, LAST = 30, LOST = 31 };
    target_begin(t, 1);
    for (unsigned q = 0; q < STATES; q++)
        for (unsigned c = 0; c < CODES; c++) {
            unsigned next = c == B || c == D ? (q + 1) % LOST : q;
            set_open(t, q, c, q == LOST ? LOST : next);
            for (unsigned r = 0; r < STATES; r++) {
                unsigned to = LOST;
                if (r != LOST && q != LOST) {
                    if (c == A || (c == B && q != LAST))
                        to = r;
                    if (c == B && q == LAST && r != LAST)
                        to = r + 1;
                    if (c == D && q == LAST && r == LAST)
                        to = 0;
                    if (c == X && q == LAST)
                        to = 0;
                }
                set_close(t, r, q, c, to);
            }
        }
}

/* Targets that leave one shortest reply of many tags: wherever a tag does not suit, they go to state 31 for good. Every state is accepted
   but the one that this reply leads to. */

static void strict_begin(struct body *t, unsigned end) {
    target_begin(t, ~((uint32_t)1 << end));
    memset(t->bytes + 6, STATES - 1, t->length - 6);
}

/* Two trees of ten levels side by side, 2,046 elements: an element of code l has two of code l + 1 within it. The state says the level, and
   how many elements there are so far. */
enum { LEVELS = 10, TREE_END = 2 };

static void tree_target(struct body *t) {
    enum { LEAF = 3 * LEVELS };
    strict_begin(t, TREE_END);
    for (unsigned l = 0; l < LEVELS; l++)
        for (unsigned k = 0; k < 3; k++) {
            unsigned q = 3 * l + k, within = l < LEVELS - 1 ? q - k + 3 : LEAF, full = l < LEVELS - 1 ? within + 2 : LEAF;
            set_open(t, q, l, within);
            if (k < 2)
                set_close(t, full, q, l, q + 1);
        }
}

/* Any elements of these levels within each other, by so many states that are all alike: each word has as many runs as can be. */
static void twins_form(struct body *f, unsigned twins) {
    reply_begin(f, 0, 0xff >> (8 - twins));
    for (unsigned i = 0; i < LEVELS * twins * twins; i++)
        opening(f, i % twins, i / twins / twins, i / twins % twins, 0);
    for (unsigned i = 0; i < LEVELS * twins * twins; i++)
        closing(f, i % twins, 0, i / twins / twins, i / twins % twins);
}

/* A tower of elements A around an X, and how many of them counted by 31 going in, by 30 coming out and by 7 in the form: 2,047. */
enum { TOWER_END = 7 };

static void tower_target(struct body *t) {
    enum { A, X, IN = 31, OUT = 30 };
    strict_begin(t, TOWER_END);
    t->bytes[1] = IN - 1;
    for (unsigned q = 0; q < IN; q++) {
        set_open(t, q, A, (q + 1) % IN);
        for (unsigned r = 0; r < IN; r++)
            set_close(t, r, q, A, (r + 1) % OUT);
    }
    set_open(t, 0, X, 0);
    set_close(t, 0, 0, X, 0);
}

static void tower_form(struct body *f) {
    enum { A, X, TURNS = 7, REST = 2047 % TURNS };
    reply_begin(f, 0, 1 << (1 + REST));
    opening(f, 0, A, 0, 0);
    opening(f, 0, X, 1, 1);
    closing(f, 1, 1, X, 1);
    for (unsigned turn = 0; turn < TURNS; turn++)
        closing(f, 1 + turn, 0, A, 1 + (turn + 1) % TURNS);
}

/* A word of 4,096 tags that goes up and down between depth 0 and 64. */
static void long_word(struct body *w) {
    uint8_t open[64];
    unsigned depth = 0;
    for (w->length = 0; w->length < MOST_TAGS;) {
        bool must_close = depth == 64 || depth == MOST_TAGS - w->length;
        if (depth == 0 || (!must_close && below(2))) {
            open[depth] = below(CODES);
            w->bytes[w->length++] = open[depth++];
        } else {
            w->bytes[w->length++] = 16 + open[--depth];
        }
    }
}

/* Elements of codes 0, 1 and 2, as many as said, within each other around empty ones of any codes: so many tags in all. */
static void record_of(struct body *w, unsigned outer, unsigned tags) {
    w->length = 0;
    for (unsigned i = 0; i < outer; i++)
        w->bytes[w->length++] = i;
    while (w->length + outer < tags) {
        unsigned c = below(CODES);
        w->bytes[w->length++] = c;
        w->bytes[w->length++] = 16 + c;
    }
    for (unsigned i = outer; i > 0; i--)
        w->bytes[w->length++] = 16 + i - 1;
}

/* Empty elements that can be fetched, of so many codes in turns. */
static void fetchable_record(struct body *w, unsigned elements, unsigned codes) {
    w->length = 0;
    for (unsigned i = 0; i < elements; i++) {
        w->bytes[w->length++] = FETCHABLE + i % codes;
        w->bytes[w->length++] = 16 + FETCHABLE + i % codes;
    }
}

/* A job file of these bodies. As many codes as said have the form, and the others only the empty reply. */
struct file {
    uint8_t bytes[LARGEST_FILE];
    size_t length;
};

static void add(struct file *file, unsigned i, unsigned kind, unsigned code, const struct body *body) {
    uint8_t *entry = file->bytes + 2 + 4 * i;
    entry[0] = kind;
    entry[1] = code;
    write_two(entry + 2, body->length);
    memcpy(file->bytes + file->length, body->bytes, body->length);
    file->length += body->length;
}

static void pack(struct file *file, const struct body *target, const struct body *form, unsigned forms, const struct body *record) {
    static struct body empty_reply;
    reply_begin(&empty_reply, 0, 1);
    file->length = 26;
    write_two(file->bytes, 6);
    add(file, 0, 1, 0, target);
    for (unsigned i = 0; i < FORMS; i++)
        add(file, 1 + i, 2, FETCHABLE + i, i < forms ? form : &empty_reply);
    add(file, 5, 3, 0, record);
}

/* Histories. */

struct history {
    uint8_t bytes[1 << 18];
    size_t length;
};

static void reads(struct history *h, size_t moves) {
    h->length = moves;
    memset(h->bytes, SAKONITE_MOVE_READ, moves);
}

/* At each closing tag of the record the same reply. */
static void fetches(struct history *h, unsigned elements, const struct body *reply) {
    for (h->length = 0; elements > 0; elements--) {
        h->bytes[h->length++] = SAKONITE_MOVE_READ;
        h->bytes[h->length++] = SAKONITE_MOVE_FETCH;
        write_two(h->bytes + h->length, reply->length);
        memcpy(h->bytes + h->length + 2, reply->bytes, reply->length);
        h->length += 2 + reply->length;
    }
}

/* The two versions of the entries. */
struct entries {
    uint32_t (*check)(const uint8_t *, size_t);
    uint32_t (*verdict)(const uint8_t *, size_t);
    uint32_t (*advice)(const uint8_t *, size_t, const uint8_t *, size_t);
    size_t (*finished)(const uint8_t *, size_t, const uint8_t *, size_t, uint8_t *, size_t);
    size_t (*losing)(const uint8_t *, size_t, const uint8_t *, size_t, uint8_t *, size_t);
};

static const struct entries versions[2] = {
    {plain_check, plain_verdict, plain_advice, plain_finished, plain_losing_reply},
    {sakonite_check, sakonite_verdict, sakonite_advice, sakonite_finished, sakonite_losing_reply},
};

/* What is timed: a kind of work on these. */
static struct file the_file;
static struct history the_history;
static uint8_t buffers[2][1 << 18];

static size_t run_check(unsigned i) {
    return versions[i].check(the_file.bytes, the_file.length);
}

static size_t run_verdict(unsigned i) {
    return versions[i].verdict(the_file.bytes, the_file.length);
}

/* At every point of a history of reads; the answers as one number. */
static size_t run_advice(unsigned i) {
    size_t all = 0;
    for (size_t moves = 0; moves <= the_history.length; moves++)
        all = 5 * all + versions[i].advice(the_file.bytes, the_file.length, the_history.bytes, moves);
    return all;
}

/* After the whole history. */
static size_t run_advice_last(unsigned i) {
    return versions[i].advice(the_file.bytes, the_file.length, the_history.bytes, the_history.length);
}

/* Call after call on one file, at the record's start; and what of it is loading. */
enum { CALLS = 20 };

static size_t run_advice_often(unsigned i) {
    size_t all = 0;
    for (unsigned calls = 0; calls < CALLS; calls++)
        all += versions[i].advice(the_file.bytes, the_file.length, NULL, 0);
    return all;
}

static size_t run_check_often(unsigned i) {
    size_t all = 0;
    for (unsigned calls = 0; calls < CALLS; calls++)
        all += versions[i].check(the_file.bytes, the_file.length);
    return all;
}

static size_t run_finished(unsigned i) {
    return versions[i].finished(the_file.bytes, the_file.length, the_history.bytes, the_history.length, buffers[i], sizeof buffers[i]);
}

static size_t run_losing(unsigned i) {
    return versions[i].losing(the_file.bytes, the_file.length, the_history.bytes, the_history.length, buffers[i], sizeof buffers[i]);
}

/* Time of the processor, in milliseconds. */
static double now(void) {
    struct timespec t;
    clock_gettime(CLOCK_PROCESS_CPUTIME_ID, &t);
    return t.tv_sec * 1e3 + t.tv_nsec / 1e6;
}

static bool all_same = true;

/* The least time of some runs of each version, taken in turns, within a second or one run. */
static void row(const char *name, size_t (*work)(unsigned)) {
    double least[2] = {0, 0}, begun = now();
    size_t answers[2];
    for (unsigned runs = 0; runs == 0 || (runs < 50 && now() - begun < 1000); runs++)
        for (unsigned i = 0; i < 2; i++) {
            double start = now();
            answers[i] = work(i);
            double took = now() - start;
            if (runs == 0 || took < least[i])
                least[i] = took;
        }
    bool same = answers[0] == answers[1] && memcmp(buffers[0], buffers[1], sizeof buffers[0]) == 0;
    all_same &= same;
    printf("%-72s %10.3f %10.3f %7.2f%s\n", name, least[0], least[1], least[1] / least[0], same ? "" : "   OTHER ANSWER");
    fflush(stdout);
}

static struct body tree, tower, twins, tower_rules;
static struct body any_target, schema, deep, one_state, any_form, deep_small, deep_large, dates, word, few_dates, record, nothing;

int main(int count, char **arguments) {
    bool slow = count == 2 && strcmp(arguments[1], "slow") == 0;
    seed = 1;
    random_target(&any_target);
    schema_target(&schema);
    deep_target(&deep);
    one_state_target(&one_state);
    random_form(&any_form);
    deep_form(&deep_small, false);
    deep_form(&deep_large, true);
    dates_form(&dates);
    long_word(&word);

    printf("%-72s %10s %10s %7s\n", "", "plain C ms", "proved ms", "ratio");
    record_of(&record, 3, MOST_TAGS);
    pack(&the_file, &any_target, &dates, 0, &record);
    row("check: largest record, no rules", run_check);
    pack(&the_file, &any_target, &any_form, 4, &nothing);
    row("check: effects of four random forms of 512 and 512 rules", run_check);
    pack(&the_file, &deep, &deep_small, 1, &nothing);
    row("check: effects of a form that nests as deep as it can", run_check);
    pack(&the_file, &deep, &deep_large, 1, &nothing);
    row("check: effects of the same form with 512 and 512 rules", run_check);
    pack(&the_file, &schema, &dates, 4, &record);
    row("verdict: largest record, target as of a schema", run_verdict);
    record_of(&record, 2, MOST_TAGS);
    pack(&the_file, &any_target, &dates, 4, &record);
    row("verdict: 4,096 tags, 3 deep, random target", run_verdict);
    if (slow) {
        record_of(&record, 3, MOST_TAGS);
        pack(&the_file, &any_target, &dates, 4, &record);
        row("verdict: 4,096 tags, 4 deep, random target", run_verdict);
    }
    record_of(&record, 3, 400);
    reads(&the_history, record.length);
    pack(&the_file, &schema, &dates, 4, &record);
    row("advice: every point of a play of 400 tags", run_advice);
    fetchable_record(&record, 12, 1);
    fetches(&the_history, 12, &word);
    pack(&the_file, &one_state, &any_form, 1, &record);
    row("finished: lawful, 12 replies of 4,096 tags, 512 and 512 rules", run_finished);
    for (few_dates.length = 0; few_dates.length < 100; few_dates.length++)
        few_dates.bytes[few_dates.length] = few_dates.length % 2 ? 16 + 9 : 9;
    fetchable_record(&record, MOST_TAGS / 2, 1);
    fetches(&the_history, MOST_TAGS / 2, &few_dates);
    pack(&the_file, &one_state, &dates, 1, &record);
    row("finished: 4,096 moves, half of them fetches of 100 tags", run_finished);
    fetchable_record(&record, MOST_TAGS / 2, FORMS);
    pack(&the_file, &one_state, &dates, FORMS, &record);
    row("finished: the same, four forms in turns", run_finished);
    fetchable_record(&record, 12, FORMS);
    fetches(&the_history, 12, &word);
    pack(&the_file, &one_state, &any_form, FORMS, &record);
    row("finished: 12 replies of 4,096 tags, four forms of 512 and 512 rules", run_finished);
    fetchable_record(&record, MOST_TAGS / 2, FORMS);
    fetches(&the_history, 2000, &few_dates);
    pack(&the_file, &schema, &dates, FORMS, &record);
    row("advice: after 2,000 fetches of 100 tags", run_advice_last);
    record_of(&record, 3, MOST_TAGS);
    pack(&the_file, &schema, &dates, FORMS, &record);
    row("advice: 20 calls on one file, largest record", run_advice_often);
    row("check: 20 calls on the same file", run_check_often);
    record_of(&record, 3, 400);
    pack(&the_file, &any_target, &any_form, FORMS, &record);
    row("advice: 20 calls on one file, four forms of 512 and 512 rules", run_advice_often);
    row("check: 20 calls on the same file", run_check_often);
    fetchable_record(&record, 1, 1);
    reads(&the_history, 1);
    pack(&the_file, &any_target, &any_form, 1, &record);
    row("losing: a random form of 512 and 512 rules", run_losing);
    tower_target(&tower);
    tower_form(&tower_rules);
    pack(&the_file, &tower, &tower_rules, 1, &record);
    row("losing: 2,048 elements within each other", run_losing);
    tree_target(&tree);
    twins_form(&twins, 1);
    pack(&the_file, &tree, &twins, 1, &record);
    row("losing: a tree of 2,046 elements, one run", run_losing);
    twins_form(&twins, 7);
    pack(&the_file, &tree, &twins, 1, &record);
    row("losing: the same tree, seven twin states", run_losing);
    return all_same ? 0 : 1;
}
