/* A plain C version of the tables, the loader and the evaluators. */
#include "baseline.h"

#include <string.h>

/* Target bodies. */

uint32_t accepting(const uint8_t *target) {
    return target[2] | (uint32_t)target[3] << 8 | (uint32_t)target[4] << 16 | (uint32_t)target[5] << 24;
}

/* Reply bodies. */

/* At 512 c + 64 p + 8 a + b: where an element of code c leads from p, if its inside leads from a to b. */
static void compile(const uint8_t *reply, uint8_t links[8192]) {
    unsigned openings = two(reply + 3), closings = two(reply + 5);
    const uint8_t *opening = reply + 7, *closing = opening + 4 * openings;
    memset(links, 0, 8192);
    for (unsigned i = 0; i < openings; i++) {
        const uint8_t *o = opening + 4 * i;
        for (unsigned j = 0; j < closings; j++) {
            const uint8_t *c = closing + 4 * j;
            if (o[1] == c[2] && o[3] == c[1])
                links[512 * o[1] + 64 * o[0] + 8 * o[2] + c[0]] |= 1 << c[3];
        }
    }
}

/* Effects: the least lengths of forests, by rising length. A length is a number of elements; LENGTH_CAP stands for itself and all above it.
   A pair is a state of the form and one of the target as one number, 32 times the form's and the target's. A table of sets has for
   each pair a set of pairs, its members. */

enum { PAIRS = FORM_STATES * STATES, MASKS = PAIRS * FORM_STATES, LENGTH_CAP = LONG_NUMBER - 1, NO_LENGTH = UINT16_MAX };

/* From pair x to z at 256 x + z: the least length found so far; least has that of each row, of what is not settled. Known is what can fall
   no more; settled is what was used or is used in this round, where it is fresh; into has, for each pair, those that lead to it by what was
   settled in earlier rounds. */
struct search {
    uint16_t lengths[PAIRS * PAIRS], least[PAIRS];
    uint32_t known[MASKS], settled[MASKS], into[MASKS], fresh[MASKS];
};

static void insert(uint32_t *table, unsigned x, unsigned z) {
    table[FORM_STATES * x + z / STATES] |= (uint32_t)1 << z % STATES;
}

static unsigned sum(unsigned a, unsigned b) {
    return a + b < LENGTH_CAP ? a + b : LENGTH_CAP;
}

/* A forest of k elements leads from x to z. What gets length next can fall no more. */
static void relax(struct search *found, unsigned x, unsigned z, unsigned k, unsigned next) {
    if (k < found->lengths[PAIRS * x + z]) {
        found->lengths[PAIRS * x + z] = k;
        if (k < found->least[x])
            found->least[x] = k;
        if (k == next)
            insert(found->known, x, z);
    }
}

/* From x over y to every member of the set of y, but for those that are known. */
static void join(struct search *found, const uint32_t *members, unsigned x, unsigned y, unsigned next) {
    unsigned first = found->lengths[PAIRS * x + y];
    for (unsigned r = 0; r < FORM_STATES; r++)
        for (uint32_t mask = members[FORM_STATES * y + r] & ~found->known[FORM_STATES * x + r]; mask; mask &= mask - 1) {
            unsigned z = STATES * r + __builtin_ctz(mask);
            relax(found, x, z, sum(first, found->lengths[PAIRS * y + z]), next);
        }
}

/* next elements lead from x to the pairs of form state r that the mask has. */
static void relax_ends(struct search *found, unsigned x, unsigned r, uint32_t mask, unsigned next) {
    for (mask &= ~found->known[FORM_STATES * x + r]; mask; mask &= mask - 1)
        relax(found, x, STATES * r + __builtin_ctz(mask), next, next);
}

static uint32_t image(const uint8_t *target, uint32_t mask, unsigned q, unsigned c) {
    uint32_t found = 0;
    for (; mask; mask &= mask - 1)
        found |= (uint32_t)1 << close_to(target, __builtin_ctz(mask), q, c);
    return found;
}

static bool is_linked(const uint8_t *links, unsigned c, unsigned a, unsigned b) {
    for (unsigned p = 0; p < FORM_STATES; p++)
        if (links[512 * c + 64 * p + 8 * a + b])
            return true;
    return false;
}

/* Every element of code c whose inside leads from form state a to b leads from target state q to the states of a mask. */
static void around_state(const uint8_t *links, struct search *found, unsigned c, unsigned q, unsigned a, unsigned b, uint32_t mask,
                         unsigned next) {
    for (unsigned p = 0; p < FORM_STATES; p++)
        for (unsigned to = links[512 * c + 64 * p + 8 * a + b]; to; to &= to - 1)
            relax_ends(found, STATES * p + q, __builtin_ctz(to), mask, next);
}

/* The elements of every code whose inside leads from pair y to form state b and the target states of a mask: they have next elements. */
static void around(const uint8_t *target, const uint8_t *links, struct search *found, unsigned y, unsigned b, uint32_t inside,
                   unsigned next) {
    unsigned a = y / STATES;
    for (unsigned c = 0; c < CODES; c++)
        if (is_linked(links, c, a, b))
            for (unsigned q = 0; q < target[0]; q++)
                if (open_to(target, q, c) == y % STATES)
                    around_state(links, found, c, q, a, b, image(target, inside, q, c), next);
}

/* Settles every length of row x that is l. The row's least length is that of the others. */
static void settle_row(struct search *found, unsigned x, unsigned l) {
    unsigned left = NO_LENGTH;
    for (unsigned i = FORM_STATES * x; i < FORM_STATES * (x + 1); i++) {
        uint32_t fresh = 0;
        for (uint32_t mask = ~found->settled[i]; mask; mask &= mask - 1) {
            unsigned k = found->lengths[STATES * i + __builtin_ctz(mask)];
            if (k == l)
                fresh |= mask & -mask;
            else
                left = k < left ? k : left;
        }
        found->settled[i] |= fresh;
        found->known[i] |= fresh;
        found->fresh[i] |= fresh;
    }
    found->least[x] = left;
}

/* What is new in row x is used: as an inside, before what is settled, and after it. */
static void use_row(const uint8_t *target, const uint8_t *links, struct search *found, unsigned x, unsigned next) {
    const uint32_t *fresh = found->fresh + FORM_STATES * x, *into = found->into + FORM_STATES * x;
    for (unsigned b = 0; b < FORM_STATES; b++)
        if (fresh[b])
            around(target, links, found, x, b, fresh[b], next);
    for (unsigned r = 0; r < FORM_STATES; r++)
        for (uint32_t mask = fresh[r]; mask; mask &= mask - 1)
            join(found, found->settled, x, STATES * r + __builtin_ctz(mask), next);
    for (unsigned r = 0; r < FORM_STATES; r++)
        for (uint32_t mask = into[r]; mask; mask &= mask - 1)
            join(found, found->fresh, STATES * r + __builtin_ctz(mask), x, next);
}

/* Puts row x aside: what was new there leads into its ends, and is new no more. */
static void forget_row(struct search *found, unsigned x) {
    uint32_t *fresh = found->fresh + FORM_STATES * x;
    for (unsigned r = 0; r < FORM_STATES; r++)
        for (; fresh[r]; fresh[r] &= fresh[r] - 1)
            insert(found->into, STATES * r + __builtin_ctz(fresh[r]), x);
}

/* A round: everything of length l is settled and used. */
static void settle_length(const uint8_t *target, const uint8_t *links, struct search *found, unsigned l) {
    uint32_t rows[FORM_STATES] = {0};
    for (unsigned x = 0; x < PAIRS; x++)
        if (found->least[x] == l) {
            settle_row(found, x, l);
            insert(rows, 0, x);
        }
    for (unsigned r = 0; r < FORM_STATES; r++)
        for (uint32_t mask = rows[r]; mask; mask &= mask - 1)
            use_row(target, links, found, STATES * r + __builtin_ctz(mask), sum(l, 1));
    for (unsigned r = 0; r < FORM_STATES; r++)
        for (uint32_t mask = rows[r]; mask; mask &= mask - 1)
            forget_row(found, STATES * r + __builtin_ctz(mask));
}

static unsigned least_row(const struct search *found) {
    unsigned l = NO_LENGTH;
    for (unsigned x = 0; x < PAIRS; x++)
        l = found->least[x] < l ? found->least[x] : l;
    return l;
}

/* Each pair of one of the n target states leads to itself over nothing. */
static void stay(struct search *found, unsigned n) {
    for (unsigned x = 0; x < PAIRS; x++)
        if (x % STATES < n) {
            found->lengths[PAIRS * x + x] = 0;
            insert(found->known, x, x);
            insert(found->settled, x, x);
            insert(found->into, x, x);
        }
}

/* The elements with nothing within them. */
static void use_empty(const uint8_t *target, const uint8_t *links, struct search *found) {
    for (unsigned y = 0; y < PAIRS; y++)
        if (y % STATES < target[0])
            around(target, links, found, y, y / STATES, (uint32_t)1 << y % STATES, 1);
}

static void find_lengths(const uint8_t *target, const uint8_t *links, struct search *found) {
    memset(found, 0, sizeof *found);
    memset(found->lengths, 0xff, sizeof found->lengths);
    memset(found->least, 0xff, sizeof found->least);
    stay(found, target[0]);
    use_empty(target, links, found);
    for (unsigned l = least_row(found); l < NO_LENGTH; l = least_row(found))
        settle_length(target, links, found, l);
}

/* The numbers of one form and the sets of the states that have one. */
static void find_effects(const uint8_t *target, const uint8_t *reply, uint16_t numbers[STATES * STATES], uint32_t masks[STATES]) {
    uint8_t links[8192];
    struct search found;
    compile(reply, links);
    find_lengths(target, links, &found);
    for (unsigned q = 0; q < STATES; q++) {
        const uint16_t *lengths = found.lengths + PAIRS * (STATES * reply[1] + q);
        masks[q] = 0;
        for (unsigned s = 0; s < STATES; s++) {
            unsigned least = NO_LENGTH;
            for (unsigned r = 0; r < FORM_STATES; r++)
                if (reply[2] >> r & 1 && lengths[STATES * r + s] < least)
                    least = lengths[STATES * r + s];
            numbers[STATES * q + s] = least == NO_LENGTH ? 0 : least + 1;
            masks[q] |= (uint32_t)(least != NO_LENGTH) << s;
        }
    }
}

/* Lawful replies: relations on the form's states, bit 8 a + b. */

static const uint64_t identity = 0x8040201008040201;

void compile_rules(const uint8_t *reply, struct rules *rules) {
    unsigned openings = two(reply + 3), closings = two(reply + 5);
    const uint8_t *opening = reply + 7, *closing = opening + 4 * openings;
    memset(rules, 0, sizeof *rules);
    for (const uint8_t *o = opening; o < closing; o += 4)
        rules->opening[o[1]][o[3]] |= (uint64_t)1 << (8 * o[0] + o[2]);
    for (const uint8_t *c = closing; c < closing + 4 * closings; c += 4)
        rules->closing[c[2]][c[1]] |= (uint64_t)1 << (8 * c[0] + c[3]);
}

/* A column of x times a row of y has that row at each state of the column. */
static uint64_t compose(uint64_t x, uint64_t y) {
    uint64_t found = 0;
    for (unsigned p = 0; p < FORM_STATES; p++)
        found |= (x >> p & 0x0101010101010101) * (y >> (8 * p) & 0xff);
    return found;
}

static uint64_t element_relation(const struct rules *rules, unsigned c, uint64_t inside) {
    uint64_t found = 0;
    for (unsigned k = 0; k < FORM_STATES; k++)
        if (rules->opening[c][k])
            found |= compose(compose(rules->opening[c][k], inside), rules->closing[c][k]);
    return found;
}

bool lawful(const struct rules *rules, const uint8_t *reply, struct part word) {
    uint64_t open[MOST_REPLY_OPEN + 1];
    unsigned depth = 0;
    open[0] = identity;
    for (size_t i = 0; i < word.length; i++)
        if (word.bytes[i] < 16) {
            open[++depth] = identity;
        } else {
            uint64_t inside = open[depth--];
            open[depth] = compose(open[depth], element_relation(rules, word.bytes[i] - 16, inside));
        }
    return (open[0] >> (8 * reply[1]) & reply[2]) != 0;
}

/* The first of the shortest replies that lead out of a set of target states. The goals of a form state p are pairs: the word
   that is written leads from p, and the target state q at hand, to one of them, with as few elements as any forest can. */

enum { GOALS = FORM_STATES * FORM_STATES };

static bool is_member(const uint32_t *table, unsigned x, unsigned z) {
    return has(table[FORM_STATES * x + z / STATES], z % STATES);
}

static unsigned next_member(const uint32_t *table, unsigned x, unsigned from) {
    for (unsigned z = from; z < PAIRS; z = z / STATES * STATES + STATES) {
        uint32_t rest = table[FORM_STATES * x + z / STATES] >> z % STATES;
        if (rest)
            return z + __builtin_ctz(rest);
    }
    return PAIRS;
}

/* Whether y is on a shortest way from x to a goal of p. */
static bool on_way(const uint16_t *lengths, const uint32_t *goals, unsigned p, unsigned x, unsigned y) {
    unsigned k = lengths[PAIRS * x + y];
    for (unsigned z = next_member(goals, p, 0); z < PAIRS; z = next_member(goals, p, z + 1))
        if (lengths[PAIRS * x + z] == k + lengths[PAIRS * y + z])
            return true;
    return false;
}

/* The stops: pairs on such a way where a first element may end. Gives the target states of all stops. */
static uint32_t find_stops(const uint16_t *lengths, const uint32_t *goals, unsigned q, uint32_t *stops) {
    uint32_t states = 0;
    for (unsigned p = 0; p < FORM_STATES; p++) {
        unsigned x = STATES * p + q;
        if (next_member(goals, p, 0) < PAIRS)
            for (unsigned y = 0; y < PAIRS; y++) {
                unsigned k = lengths[PAIRS * x + y];
                if (0 < k && k < LENGTH_CAP && on_way(lengths, goals, p, x, y))
                    insert(stops, p, y);
            }
    }
    for (unsigned i = 0; i < GOALS; i++)
        states |= stops[i];
    return states;
}

/* Whether an element of e elements, of code c and with an inside from a to b, leads from some form state to one of its stops, with target
   state t. */
static bool some_element(const uint8_t *links, const uint16_t *lengths, const uint32_t *stops, unsigned q, unsigned c, unsigned a,
                         unsigned b, unsigned t, unsigned e) {
    for (unsigned p = 0; p < FORM_STATES; p++)
        for (unsigned link = links[512 * c + 64 * p + 8 * a + b]; link; link &= link - 1) {
            unsigned y = STATES * __builtin_ctz(link) + t;
            if (lengths[PAIRS * (STATES * p + q) + y] == e && is_member(stops, p, y))
                return true;
        }
    return false;
}

/* The goals of the inside of an element of code c. */
static void open_code(const uint8_t *target, const uint8_t *links, const uint16_t *lengths, const uint32_t *stops, uint32_t ends,
                      unsigned q, unsigned c, uint32_t *inside) {
    unsigned n = target[0], first = open_to(target, q, c);
    for (unsigned a = 0; a < FORM_STATES; a++)
        for (unsigned b = 0; b < FORM_STATES; b++)
            if (is_linked(links, c, a, b))
                for (unsigned r = 0; r < n; r++) {
                    unsigned y = STATES * b + r, k = lengths[PAIRS * (STATES * a + first) + y];
                    if (k < LENGTH_CAP) {
                        unsigned t = close_to(target, r, q, c);
                        if (has(ends, t) && some_element(links, lengths, stops, q, c, a, b, t, k + 1))
                            insert(inside, a, y);
                    }
                }
}

/* The first code whose inside has a goal, with these goals; CODES if nothing is to be written any more. */
static unsigned choose(const uint8_t *target, const uint8_t *links, const uint16_t *lengths, const uint32_t *goals, unsigned q,
                       uint32_t *inside) {
    uint32_t stops[GOALS] = {0}, ends = find_stops(lengths, goals, q, stops);
    for (unsigned c = 0; ends && c < CODES; c++) {
        open_code(target, links, lengths, stops, ends, q, c, inside);
        for (unsigned i = 0; i < GOALS; i++)
            if (inside[i])
                return c;
    }
    return CODES;
}

/* The goals after an element of e elements that relates form states and leads to target state t. */
static void find_onward(const uint16_t *lengths, const uint32_t *goals, unsigned q, uint64_t relation, unsigned t, unsigned e,
                        uint32_t *next) {
    for (unsigned p = 0; p < FORM_STATES; p++)
        for (unsigned s = 0; s < FORM_STATES; s++)
            if (relation >> (8 * p + s) & 1)
                for (unsigned z = next_member(goals, p, 0); z < PAIRS; z = next_member(goals, p, z + 1))
                    if (lengths[PAIRS * (STATES * p + q) + z] == e + lengths[PAIRS * (STATES * s + t) + z])
                        insert(next, s, z);
}

/* What was written: the runs over it, the target's state after it, and where it ends. */
struct spelled {
    uint64_t relation;
    unsigned state;
    size_t end;
};

static struct spelled spell(const uint8_t *target, const uint8_t *links, const struct rules *rules, const uint16_t *lengths,
                            const uint32_t *goals, unsigned q, uint8_t *buffer, size_t at) {
    uint32_t next[GOALS] = {0};
    unsigned c = choose(target, links, lengths, goals, q, next);
    if (c == CODES)
        return (struct spelled){identity, q, at};
    buffer[at] = c;
    struct spelled inside = spell(target, links, rules, lengths, next, open_to(target, q, c), buffer, at + 1);
    buffer[inside.end] = 16 + c;
    uint64_t element = element_relation(rules, c, inside.relation);
    unsigned t = close_to(target, inside.state, q, c);
    memset(next, 0, sizeof next);
    find_onward(lengths, goals, q, element, t, (inside.end + 1 - at) / 2, next);
    struct spelled after = spell(target, links, rules, lengths, next, t, buffer, inside.end + 1);
    return (struct spelled){compose(element, after.relation), after.state, after.end};
}

int shortest_outside(const uint8_t *target, const uint8_t *reply, unsigned q, uint32_t goal, uint8_t *buffer, size_t room) {
    uint8_t links[8192];
    struct search found;
    struct rules rules;
    uint32_t goals[GOALS] = {0};
    compile(reply, links);
    find_lengths(target, links, &found);
    const uint16_t *lengths = found.lengths + PAIRS * (STATES * reply[1] + q);
    unsigned least = NO_LENGTH;
    for (unsigned z = 0; z < PAIRS; z++)
        if (has(reply[2], z / STATES) && !has(goal, z % STATES) && lengths[z] < least)
            least = lengths[z];
    if (least >= LENGTH_CAP)
        return least == NO_LENGTH ? UNREACHED : LONGER;
    if (2 * least <= room) {
        compile_rules(reply, &rules);
        for (unsigned z = 0; z < PAIRS; z++)
            if (has(reply[2], z / STATES) && !has(goal, z % STATES) && lengths[z] == least)
                insert(goals, reply[1], z);
        spell(target, links, &rules, found.lengths, goals, q, buffer, 0);
    }
    return 2 * least;
}

/* The evaluators. */

static uint32_t every(unsigned n) {
    return UINT32_MAX >> (32 - n);
}

static bool at_closing(const uint8_t *target, const uint32_t *masks, unsigned c, unsigned q, unsigned r, uint32_t goal) {
    return fetch_wins(masks, c, q, goal) || has(goal, close_to(target, r, q, c));
}

uint32_t inner_goal(const uint8_t *target, const uint32_t *masks, unsigned c, unsigned q, uint32_t goal) {
    unsigned n = target[0];
    uint32_t found = 0;
    for (unsigned r = 0; r < n; r++)
        found |= (uint32_t)at_closing(target, masks, c, q, r, goal) << r;
    return found;
}

/* The element whose closing tag stands before `end`. An empty one asks one state of its goal. The inside is judged for the goal of state 0,
   and then for no goal that is nothing, everything or one of the last two for which it was judged. */
static struct judged element(const uint8_t *target, const uint32_t *masks, const uint8_t *record, size_t end, uint32_t goal) {
    unsigned n = target[0], c = record[end - 1] - 16;
    uint32_t found = 0;
    if (record[end - 2] < 16) {
        for (unsigned q = 0; q < n; q++)
            found |= (uint32_t)at_closing(target, masks, c, q, open_to(target, q, c), goal) << q;
        return (struct judged){end - 2, found};
    }
    uint32_t last = inner_goal(target, masks, c, 0, goal);
    struct judged inside = forest(target, masks, record, end - 1, last);
    uint32_t won = inside.states, older = last, known = won;
    for (unsigned q = 0; q < n; q++) {
        uint32_t next = inner_goal(target, masks, c, q, goal), states = next;
        if (next != last && next != 0 && next != every(n)) {
            states = next == older ? known : forest(target, masks, record, end - 1, next).states;
            older = last, known = won;
            last = next, won = states;
        } else if (next == last) {
            states = won;
        }
        found |= (uint32_t)has(states, open_to(target, q, c)) << q;
    }
    return (struct judged){inside.start - 1, found};
}

struct judged forest(const uint8_t *target, const uint32_t *masks, const uint8_t *record, size_t end, uint32_t goal) {
    struct judged now = {end, goal};
    while (now.start > 0 && record[now.start - 1] >= 16)
        now = element(target, masks, record, now.start, now.states);
    return now;
}

bool verdict(const struct job *job, const uint32_t *masks) {
    const uint8_t *target = job->target.bytes;
    struct judged all = forest(target, masks, job->record.bytes, job->record.length, accepting(target));
    return all.states >> target[1] & 1;
}

/* The loader. */

static bool contents(const uint8_t *file, size_t length, struct job *job) {
    static const uint8_t kinds[6] = {1, 2, 2, 2, 2, 3}, codes[6] = {0, FETCHABLE, FETCHABLE + 1, FETCHABLE + 2, FETCHABLE + 3, 0};
    struct part *places[6] = {&job->target, &job->replies[0], &job->replies[1], &job->replies[2], &job->replies[3], &job->record};
    size_t at = 26;
    if (two(file) != 6)
        return false;
    for (unsigned i = 0; i < 6; i++) {
        const uint8_t *entry = file + 2 + 4 * i;
        if (entry[0] != kinds[i] || entry[1] != codes[i])
            return false;
        *places[i] = (struct part){file + at, two(entry + 2)};
        at += places[i]->length;
    }
    return at == length;
}

static bool target_ok(struct part body) {
    if (body.length < 6)
        return false;
    unsigned n = body.bytes[0];
    if (n < 1 || n > STATES || body.length != 6 + 16 * n + 16 * n * n || body.bytes[1] >= n)
        return false;
    if (n < 32 && accepting(body.bytes) >> n)
        return false;
    for (size_t i = 6; i < body.length; i++)
        if (body.bytes[i] >= n)
            return false;
    return true;
}

static bool reply_ok(struct part body) {
    if (body.length < 7)
        return false;
    unsigned m = body.bytes[0], openings = two(body.bytes + 3), closings = two(body.bytes + 5);
    if (m < 1 || m > FORM_STATES || body.bytes[1] >= m || body.bytes[2] >> m)
        return false;
    if (openings > 512 || closings > 512 || body.length != 7 + 4 * (openings + closings))
        return false;
    for (unsigned i = 0; i < 4 * (openings + closings); i++) {
        bool code = i % 4 == (i < 4 * openings ? 1 : 2);
        if (body.bytes[7 + i] >= (code ? CODES : m))
            return false;
    }
    return true;
}

int depth_of(struct part word) {
    uint8_t open[MOST_TAGS];
    int depth = 0, deepest = 0;
    if (word.length > MOST_TAGS)
        return -1;
    for (size_t i = 0; i < word.length; i++) {
        uint8_t tag = word.bytes[i];
        if (tag < 16) {
            open[depth++] = tag;
            deepest = depth > deepest ? depth : deepest;
        } else if (depth == 0 || tag != 16 + open[--depth]) {
            return -1;
        }
    }
    return depth ? -1 : deepest;
}

unsigned load(const uint8_t *file, size_t length, struct job *job, struct effects *effects) {
    if (length < 26 || length > LARGEST_FILE)
        return 11;
    if (!contents(file, length, job))
        return 12;
    if (!target_ok(job->target))
        return 13;
    for (unsigned i = 0; i < FORMS; i++)
        if (!reply_ok(job->replies[i]))
            return 14;
    for (unsigned i = 0; i < FORMS; i++) {
        find_effects(job->target.bytes, job->replies[i].bytes, effects->numbers + STATES * STATES * i, effects->masks + STATES * i);
        if (!effects->masks[STATES * i])
            return 17;
    }
    int depth = depth_of(job->record);
    return depth < 0 ? 15 : depth > MOST_OPEN ? 16 : 0;
}
