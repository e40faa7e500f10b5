/* sakonite: completing a record whose open elements are fetched from partners.
 *
 * A job file holds an archive's deposit form, the partners' four reply forms and a record; the command sakonite packs one from a text. The
 * record may hold open elements (getmatch, getsap, getspec, getplace), each of which is kept or fetched; what a partner replies then takes
 * the element's place. A reply is lawful if its form allows it. Five functions tell whether the record can still be brought into deposit
 * form, whatever lawful replies come, what to do next, and which reply would spoil it:
 *
 *     sakonite_check          is this a job file?
 *     sakonite_verdict        can the record be brought into deposit form, whatever the partners reply?
 *     sakonite_advice         after these moves: read, fetch, or is the play lost?
 *     sakonite_finished       after these moves: the finished part of the record
 *     sakonite_losing_reply   after these moves: the shortest reply to a fetch that leaves the play lost, or outside the form at its end
 *
 * and sakonite_version gives the version of the library that a program runs with.
 *
 * Each of the five either answers or refuses. A refusal is a number from 11 to 26 (below), and then no byte has been written. It is never
 * 0, so what comes back is not a boolean: if (sakonite_verdict(..)) takes a refusal for a yes. Compare it with a name, as in
 * sakonite_verdict(..) == SAKONITE_YES, and test it with SAKONITE_REFUSED. sakonite_text.h has the refusals and the codes in words.
 *
 * TAGS. A record and a reply are tags, a byte each. An element has a code, 0 to 15. Its opening tag is the code, its closing tag is
 * 16 + the code:
 *
 *     0 project   1 object   2 element   3 sample   4 series     5 ring     6 species   7 sapwood
 *     8 match     9 date    10 place    11 note    12 getmatch  13 getsap  14 getspec  15 getplace
 *
 * An empty date is the bytes 9, 25: SAKONITE_OPENING(SAKONITE_CODE_DATE), SAKONITE_CLOSING(SAKONITE_CODE_DATE). Every element is closed by
 * a tag of its own code, after the elements within it: the tags are well nested. Elements of codes 12 to 15 can be fetched.
 *
 * REPLIES. Verdict, advice and losing reply take lawful replies of every length and depth into account, even those that are too long or
 * too deep to be put into a history (SAKONITE_REPLY).
 *
 * PLAY AND HISTORY. A play goes through the record from its first tag to its last, with a move for each tag. At the closing tag of an
 * element that can be fetched there are two moves: read leaves the element as it is, fetch puts a reply in its place. Every other tag can
 * only be read. The library keeps nothing between calls: the caller keeps the moves made so far, the history, and passes it with each call.
 * To take a move back, drop it from the history. In bytes, one move after another:
 *
 *     read     SAKONITE_MOVE_READ
 *     fetch    SAKONITE_MOVE_FETCH, the reply's length in 2 bytes, least significant byte first, and the reply
 *
 * An empty history stands for the start of the record. A history is refused as a whole, for the first of its moves that is refused; to know
 * which move that is, ask after each one.
 *
 * POINTERS. Bytes are passed as a pointer and a length. Where the length is 0, nothing is read or written through the pointer, which may be
 * null. Otherwise all the bytes must be there and must not change during the call. The buffer must not overlap the file or the history.
 *
 * THREADS. No memory is allocated and nothing is kept, so several threads may call at the same time. 384 KB of stack are enough, a KB being
 * 1,024 bytes; sakonite_losing_reply needs up to 2,304 KB of stack, most of it only for the longest replies.
 *
 * VERSIONS. As long as the first number of the version is 0, any name, number, size or meaning, and the layout of a job file, may change
 * when the second number does; 0.N goes with change request 2.N. The shared library is then libsakonite.so.0 whatever N is, so a program
 * that may meet another library compares sakonite_version() with SAKONITE_VERSION. The third number rises where nothing of this changes.
 *
 * This is C99, and C++98.
 */
#ifndef SAKONITE_H
#define SAKONITE_H

#include <stddef.h>
#include <stdint.h>

/* What is between "facts:" and "facts: end" is written by `make facts`. */

/* facts: version */
#define SAKONITE_VERSION_MAJOR 0
#define SAKONITE_VERSION_MINOR 5
#define SAKONITE_VERSION_PATCH 0
/* facts: end */

/* The version as one number, as sakonite_version gives it: 500 is 0.5.0. */
#define SAKONITE_VERSION (SAKONITE_VERSION_MAJOR * 10000 + SAKONITE_VERSION_MINOR * 100 + SAKONITE_VERSION_PATCH)

#ifdef __cplusplus
extern "C" {
#endif

/* What sakonite_check answers. */
enum {
    SAKONITE_ACCEPTED = 0 /* a job file, which no other function refuses as such */
};

/* What sakonite_verdict answers. */
enum {
    SAKONITE_NO = 0, /* for each way of reading and fetching there are lawful replies that lead outside the form */
    SAKONITE_YES = 1 /* some way of reading and fetching ends in the form, whatever lawful replies come */
};

/* What sakonite_advice answers: 0 to 2 while tags are left, 3 and 4 at the record's end. */
enum {
    SAKONITE_LOST = 0,    /* for each way of going on there are lawful replies that lead outside the form */
    SAKONITE_READ = 1,    /* read: the form can then still be reached, whatever is replied */
    SAKONITE_FETCH = 2,   /* fetch: the form can then still be reached, whatever is replied; after a read it could not */
    SAKONITE_IN_FORM = 3, /* the record is finished and in deposit form */
    SAKONITE_OUTSIDE = 4  /* the record is finished and outside the form */
};

/* What sakonite_finished answers: this plus the number of tags in the finished part. */
enum {
    SAKONITE_FINISHED = 100
};

/* What sakonite_losing_reply answers: none, or SAKONITE_LOSING plus the number of tags in the reply. */
enum {
    SAKONITE_NONE = 0, /* after a fetch the form can still be reached, whatever is replied */
    SAKONITE_LOSING = 100
};

/* facts: refusals */
/* Refusals. Where several conditions hold, the first in this order decides: 11, 12, 13, 14, 17, 15, 16, 20, and then, for the history's
   moves one after another, 22, 23, 18, 19, 24; by sakonite_losing_reply, after all moves, 22, 23, 25, 26. */
enum {
    /* of the file, by the five functions that take one */
    SAKONITE_FILE_SIZE = 11,   /* fewer than 26 bytes, or more than 37,436 */
    SAKONITE_CONTENTS = 12,    /* the contents are wrong, or not in the order deposit form, reply forms by rising code, record; or the
                                  lengths do not add up */
    SAKONITE_TARGET = 13,      /* the deposit form is not valid */
    SAKONITE_REPLY_FORM = 14,  /* a reply form is not valid */
    SAKONITE_RECORD = 15,      /* the record has more than 4,096 tags, has a byte above 31, or is not well nested */
    SAKONITE_RECORD_DEEP = 16, /* the record has more than 4 elements open together */
    SAKONITE_NO_REPLY = 17,    /* a reply form has no lawful reply */

    /* of a reply in the history */
    SAKONITE_REPLY = 18,    /* more than 4,096 tags, more than 64 elements open together, a byte above 31, or not well nested */
    SAKONITE_UNLAWFUL = 19, /* the reply is not lawful for this element */

    /* of the history */
    SAKONITE_HISTORY = 20,  /* the bytes are not a list of moves; judged before any move */
    SAKONITE_PLAY = 21,     /* a play that does not fit; no history leads to one, so these functions never give it */
    SAKONITE_AT_END = 22,   /* a move after the record's last tag, or a losing reply asked for there */
    SAKONITE_NO_FETCH = 23, /* a fetch, or a losing reply asked for, at an opening tag or at an element that cannot be fetched */

    /* of the buffer, by sakonite_finished */
    SAKONITE_BUFFER = 24, /* too short for the finished part after some move */

    /* by sakonite_losing_reply */
    SAKONITE_LOSING_LONG = 25,  /* the losing reply has more than 4,096 tags */
    SAKONITE_LOSING_BUFFER = 26 /* the buffer is too short for the losing reply */
};

/* Whether what a function returned is a refusal. */
#define SAKONITE_REFUSED(returned) ((size_t)(returned) - 11 < 16)
/* facts: end */

/* The number of tags that an answer of sakonite_finished, or of sakonite_losing_reply, tells of. Only for such an answer: for a refusal, or
   SAKONITE_NONE, the result means nothing. */
#define SAKONITE_FINISHED_LENGTH(answer) ((size_t)(answer) - SAKONITE_FINISHED)
#define SAKONITE_LOSING_LENGTH(answer) ((size_t)(answer) - SAKONITE_LOSING)

/* Codes. */
/* facts: codes */
enum {
    SAKONITE_CODE_PROJECT = 0,
    SAKONITE_CODE_OBJECT = 1,
    SAKONITE_CODE_ELEMENT = 2,
    SAKONITE_CODE_SAMPLE = 3,
    SAKONITE_CODE_SERIES = 4,
    SAKONITE_CODE_RING = 5,
    SAKONITE_CODE_SPECIES = 6,
    SAKONITE_CODE_SAPWOOD = 7,
    SAKONITE_CODE_MATCH = 8,
    SAKONITE_CODE_DATE = 9,
    SAKONITE_CODE_PLACE = 10,
    SAKONITE_CODE_NOTE = 11,
    SAKONITE_CODE_GETMATCH = 12,
    SAKONITE_CODE_GETSAP = 13,
    SAKONITE_CODE_GETSPEC = 14,
    SAKONITE_CODE_GETPLACE = 15
};
/* facts: end */

/* The tags of a code, 0 to 15. */
#define SAKONITE_OPENING(code) ((uint8_t)(code))
#define SAKONITE_CLOSING(code) ((uint8_t)(16 + (code)))

/* Of a tag, 0 to 31: whether it opens an element, the element's code, and whether the element can be fetched at this tag. */
#define SAKONITE_OPENS(tag) ((uint8_t)(tag) < 16)
#define SAKONITE_CODE(tag) ((uint8_t)((tag) & 15))
#define SAKONITE_FETCHABLE(tag) ((size_t)(tag) - SAKONITE_CLOSING(SAKONITE_CODE_GETMATCH) < 4)

/* In a job file: how many entries there are, and their kinds. */
enum {
    SAKONITE_ENTRIES = 6,
    SAKONITE_KIND_TARGET = 1,
    SAKONITE_KIND_REPLY_FORM = 2,
    SAKONITE_KIND_RECORD = 3
};

/* The first byte of a move in a history. These are not the numbers of an advice: where SAKONITE_READ is advised, the move is
   SAKONITE_MOVE_READ. */
enum {
    SAKONITE_MOVE_READ = 0x20,
    SAKONITE_MOVE_FETCH = 0x21
};

/* Sizes. Whatever exceeds them is refused. */
/* facts: sizes */
enum {
    SAKONITE_SMALLEST_FILE = 26,      /* a file's contents, without any body */
    SAKONITE_LARGEST_FILE = 37436,
    SAKONITE_MOST_TAGS = 4096,        /* of a record, and of a reply */
    SAKONITE_DEEPEST_RECORD = 4,      /* elements open together */
    SAKONITE_DEEPEST_REPLY = 64,      /* the same */
    SAKONITE_MOST_TARGET_STATES = 32, /* of the deposit form */
    SAKONITE_MOST_FORM_STATES = 8,    /* of a reply form */
    SAKONITE_MOST_RULES = 512         /* of a reply form: as many opening rules, and as many closing rules */
};
/* facts: end */

/* A compiler that knows how warns of a call whose result is dropped. */
#ifdef __GNUC__
#define SAKONITE_ANSWER __attribute__((warn_unused_result))
#else
#define SAKONITE_ANSWER
#endif

/* SAKONITE_ACCEPTED, which is 0, or a refusal from 11 to 17: compare with SAKONITE_ACCEPTED. */
SAKONITE_ANSWER uint32_t sakonite_check(const uint8_t *file, size_t file_length);

/* SAKONITE_YES or SAKONITE_NO, or a refusal from 11 to 17, which is not a yes: compare with SAKONITE_YES. */
SAKONITE_ANSWER uint32_t sakonite_verdict(const uint8_t *file, size_t file_length);

/* What to do after the history's moves: SAKONITE_LOST to SAKONITE_OUTSIDE, or a refusal from 11 to 20, or 22 or 23. From a point that is
   not lost, following the advice ends in the form. The moves so far need not have followed it. A refusal is not SAKONITE_LOST, and says
   nothing about whether the play is lost. */
SAKONITE_ANSWER uint32_t sakonite_advice(const uint8_t *file, size_t file_length, const uint8_t *history, size_t history_length);

/* The finished part after the history's moves, from the buffer's first byte on: read appends the tag, fetch cuts the part back to where
   the element opened and appends the reply. The answer is SAKONITE_FINISHED plus the part's length, or a refusal from 11 to 20, or 22 to
   24. The buffer is left as if the moves had been made in it one after another: bytes after the finished part that belonged to a longer
   part earlier stay as they were written then, and all others stay as they were. A buffer as long as the history is always long enough. */
SAKONITE_ANSWER size_t sakonite_finished(const uint8_t *file, size_t file_length, const uint8_t *history, size_t history_length,
                                         uint8_t *buffer, size_t buffer_length);

/* The losing reply: the shortest lawful reply that, fetched after the history's moves, leaves the play lost, or the record outside the form
   if this is its last tag; of several that are equally short, the first in byte order. There may be one even where the advice is to read,
   or where the play is lost already. The answer is SAKONITE_LOSING plus its length, which may be 0; the buffer then begins with it, and is
   otherwise as it was. Where the form can still be reached after a fetch, whatever is replied, the answer is SAKONITE_NONE, whatever the
   buffer. Otherwise it is a refusal from 11 to 20, or 22, 23, 25 or 26. A buffer of SAKONITE_MOST_TAGS bytes is always long enough.
   Appended to the history as a fetch, the reply makes the advice SAKONITE_LOST or SAKONITE_OUTSIDE; one with more than
   SAKONITE_DEEPEST_REPLY elements open together cannot be appended (SAKONITE_REPLY). */
SAKONITE_ANSWER size_t sakonite_losing_reply(const uint8_t *file, size_t file_length, const uint8_t *history, size_t history_length,
                                             uint8_t *buffer, size_t buffer_length);

/* The version of the library that this program runs with, as SAKONITE_VERSION is that of the header. It is never refused. */
SAKONITE_ANSWER uint32_t sakonite_version(void);

#ifdef __cplusplus
}
#endif

#endif
