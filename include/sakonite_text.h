/* sakonite in words: the texts of the refusals and the names of the codes, for messages and for what is typed. Nothing has to be
 * linked for it. `make facts` writes it from facts.txt.
 */
#ifndef SAKONITE_TEXT_H
#define SAKONITE_TEXT_H

#include "sakonite.h"

/* Why something was refused; "not a refusal" for every number that is none. */
static inline const char *sakonite_text(size_t returned) {
    switch (returned) {
    case SAKONITE_FILE_SIZE: return "the file has fewer than 26 bytes, or more than 37,436";
    case SAKONITE_CONTENTS: return "the contents are not those of a job file, or in another order, or the lengths do not add up";
    case SAKONITE_TARGET: return "the deposit form is not valid";
    case SAKONITE_REPLY_FORM: return "a reply form is not valid";
    case SAKONITE_RECORD: return "the record is too long, has a byte above 31, or is not well nested";
    case SAKONITE_RECORD_DEEP: return "the record has more than 4 elements open together";
    case SAKONITE_NO_REPLY: return "a reply form has no lawful reply";
    case SAKONITE_REPLY: return "the reply is too long, too deep, has a byte above 31, or is not well nested";
    case SAKONITE_UNLAWFUL: return "the reply is not lawful for this element";
    case SAKONITE_HISTORY: return "the history is not a list of moves";
    case SAKONITE_PLAY: return "the play does not fit the file or the buffer";
    case SAKONITE_AT_END: return "the record has no tag left";
    case SAKONITE_NO_FETCH: return "nothing can be fetched here";
    case SAKONITE_BUFFER: return "the buffer is too short for the finished part after some move";
    case SAKONITE_LOSING_LONG: return "the losing reply has more than 4,096 tags";
    case SAKONITE_LOSING_BUFFER: return "the buffer is too short for the losing reply";
    default: return "not a refusal";
    }
}

/* The name of a code, 0 to 15, as SAKONITE_CODE gives it. For every other number, and so for a closing tag, the empty text, which can be
   printed and is not a name. */
static inline const char *sakonite_name(unsigned code) {
    static const char *const names[16] = {
        "project", "object", "element", "sample", "series", "ring", "species", "sapwood", "match", "date", "place", "note", "getmatch",
        "getsap", "getspec", "getplace"};
    return code < 16 ? names[code] : "";
}

#endif
