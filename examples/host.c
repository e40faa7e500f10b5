/* Plays the record of a job file: gives advice, takes the moves and replies that are typed, and shows the record so far and which reply
   would spoil it.

       cc host.c $(pkg-config --cflags --libs sakonite) -o host     (installed in a folder of your own: see README)
       ./host JOB            moves from standard input; `help` lists them
       ./host JOB SCRIPT     moves from a file, in which # starts a comment line

   The exit status is 0 if the record ends in deposit form, 1 if it does not, 2 if there is nothing to play. */
#include <sakonite.h>
#include <sakonite_text.h>
#include <stdio.h>
#include <stdlib.h>
#include <string.h>

static const char help[] = "read           leave the tag as it is\n"
                           "fetch REPLY    fetch the element; REPLY is what came back: names, with what they hold in brackets,\n"
                           "               as in date(match match) note; nothing at all for an empty reply\n"
                           "go             read as long as that is the advice\n"
                           "back           take the last move back\n"
                           "tree           show the record so far, and what is ahead\n"
                           "losing         show the losing reply: the shortest that, fetched here, leaves the play lost or\n"
                           "               finished outside the form\n"
                           "lose           play on to the end with the losing replies: fetch where there is one,\n"
                           "               and read elsewhere\n"
                           "quit           stop here\n";

/* Advice, or a refusal, in words. */
static void say(size_t answer) {
    switch (answer) {
    case SAKONITE_LOST: printf("lost; whatever you do, there are replies that lead outside the form\n"); break;
    case SAKONITE_READ: printf("read\n"); break;
    case SAKONITE_FETCH: printf("fetch\n"); break;
    case SAKONITE_IN_FORM: printf("finished, in deposit form\n"); break;
    case SAKONITE_OUTSIDE: printf("finished, outside the form\n"); break;
    default: printf("refused %u: %s\n", (unsigned)answer, sakonite_text(answer));
    }
}

/* The job file, and where its record is. */
static uint8_t file[SAKONITE_LARGEST_FILE + 1];
static size_t file_length;
static const uint8_t *record;
static size_t record_length;

/* The moves so far in bytes, where each of them begins, and how many there are: one for each tag gone by. */
static uint8_t *history;
static size_t history_length, move_at[SAKONITE_MOST_TAGS + 1], moves;

static uint32_t advice(void) {
    return sakonite_advice(file, file_length, history, history_length);
}

/* The record is the last entry of an accepted file: its length is in bytes 24 and 25, and its tags end the file. */
static void find_record(void) {
    record_length = file[24] | (size_t)file[25] << 8;
    record = file + file_length - record_length;
}

static void back(void) {
    if (moves > 0)
        history_length = move_at[--moves];
}

/* Adds a move and gives the advice after it. If the library refuses the move, it is taken back, and the refusal is given. */
static uint32_t add(uint8_t move, const uint8_t *reply, size_t length) {
    uint8_t *more = realloc(history, history_length + 3 + length);
    if (!more) {
        perror("history");
        exit(2);
    }
    history = more;
    move_at[moves++] = history_length;
    history[history_length++] = move;
    if (move == SAKONITE_MOVE_FETCH) {
        history[history_length++] = (uint8_t)(length & 0xff);
        history[history_length++] = (uint8_t)(length >> 8);
        memcpy(history + history_length, reply, length);
        history_length += length;
    }
    uint32_t answer = advice();
    if (SAKONITE_REFUSED(answer))
        back();
    return answer;
}

static void make(uint8_t move, const uint8_t *reply, size_t length) {
    uint32_t answer = add(move, reply, length);
    if (SAKONITE_REFUSED(answer))
        say(answer);
}

static void read_tag(void) {
    make(SAKONITE_MOVE_READ, NULL, 0);
}

/* The tags of a reply typed as names, as many as a history can hold. If a word is wrong, it is named, and the length is (size_t)-1. */
static size_t reply_tags(const char *text, uint8_t tags[UINT16_MAX]) {
    static uint8_t open[UINT16_MAX];
    size_t length = 0, depth = 0;
    while (*(text += strspn(text, " \t\r\n"))) {
        size_t word = strcspn(text, "() \t\r\n");
        if (*text == ')' && depth > 0) {
            tags[length++] = SAKONITE_CLOSING(open[--depth]);
            text++;
            continue;
        }
        uint8_t code = 0;
        while (code < 16 && (strlen(sakonite_name(code)) != word || strncmp(sakonite_name(code), text, word) != 0))
            code++;
        if (code == 16) {
            printf("not understood: %.*s\n", word ? (int)word : 1, text);
            return (size_t)-1;
        }
        if (length + depth + 2 > UINT16_MAX) {
            printf("a reply of more than %d tags cannot be put into a history\n", UINT16_MAX);
            return (size_t)-1;
        }
        text += word;
        text += strspn(text, " \t\r\n");
        tags[length++] = SAKONITE_OPENING(code);
        if (*text == '(') {
            open[depth++] = code;
            text++;
        } else {
            tags[length++] = SAKONITE_CLOSING(code);
        }
    }
    if (depth > 0) {
        printf("not closed: %s\n", sakonite_name(open[depth - 1]));
        return (size_t)-1;
    }
    return length;
}

static void fetch(const char *text) {
    static uint8_t tags[UINT16_MAX];
    size_t length = reply_tags(text, tags);
    if (length != (size_t)-1)
        make(SAKONITE_MOVE_FETCH, tags, length);
}

/* Shows tags as a tree, the name of each element that opens, starting at this depth. Returns the depth after them. */
static int show_tree(int depth, const uint8_t *tags, size_t length) {
    for (size_t i = 0; i < length; i++) {
        if (SAKONITE_OPENS(tags[i]))
            printf("  %*s%s\n", 2 * depth++, "", sakonite_name(tags[i]));
        else
            depth--;
    }
    return depth;
}

/* The move that fetches a reply, as it is typed. */
static void show_fetch(const uint8_t *reply, size_t length) {
    printf("fetch");
    for (size_t i = 0; i < length; i++) {
        int first_within = i > 0 && SAKONITE_OPENS(reply[i - 1]);
        if (SAKONITE_OPENS(reply[i]))
            printf("%s%s", first_within ? "(" : " ", sakonite_name(reply[i]));
        else if (!first_within)
            printf(")");
    }
    printf("%s\n", length > 0 ? "" : ", and the reply is empty");
}

/* Shows the finished part, and what is ahead of it. Both have the same elements open where they meet. */
static void tree(void) {
    uint8_t *part = malloc(history_length + 1);
    size_t answer = sakonite_finished(file, file_length, history, history_length, part, part ? history_length : 0);
    if (SAKONITE_REFUSED(answer)) {
        say(answer);
    } else {
        int depth = show_tree(0, part, SAKONITE_FINISHED_LENGTH(answer));
        if (moves < record_length) {
            printf("  %*s.. ahead from tag %lu of %lu\n", 2 * depth, "", (unsigned long)moves + 1, (unsigned long)record_length);
            show_tree(depth, record + moves, record_length - moves);
        }
    }
    free(part);
}

static uint8_t losing_reply[SAKONITE_MOST_TAGS];

static size_t find_losing(void) {
    return sakonite_losing_reply(file, file_length, history, history_length, losing_reply, sizeof losing_reply);
}

/* The losing reply, and what the advice would be after it. */
static void losing(void) {
    size_t answer = find_losing();
    if (answer == SAKONITE_NONE) {
        printf("none: after a fetch the form can still be reached, whatever is replied\n");
        return;
    }
    if (SAKONITE_REFUSED(answer)) {
        say(answer);
        return;
    }
    size_t length = SAKONITE_LOSING_LENGTH(answer);
    printf("losing reply:%s\n", length > 0 ? "" : " empty");
    show_tree(0, losing_reply, length);
    uint32_t after = add(SAKONITE_MOVE_FETCH, losing_reply, length);
    if (after == SAKONITE_REPLY) {
        printf("it cannot be played: it has more than %d elements open together\n", SAKONITE_DEEPEST_REPLY);
        return;
    }
    printf("after it: ");
    say(after);
    if (!SAKONITE_REFUSED(after))
        back();
}

/* Where the play stands; nothing at its end. */
static void show_tag(void) {
    if (moves < record_length) {
        uint8_t tag = record[moves];
        printf("tag %lu of %lu, <%s%s>: ", (unsigned long)moves + 1, (unsigned long)record_length, SAKONITE_OPENS(tag) ? "" : "/",
               sakonite_name(SAKONITE_CODE(tag)));
    }
}

/* Plays on to the end. Where a losing reply cannot be played, the tag is read instead; a play that was lost stays lost. */
static void lose(void) {
    for (size_t left = record_length - moves; left > 0; left--) {
        size_t answer = find_losing();
        printf("  ");
        show_tag();
        if (answer != SAKONITE_NONE && !SAKONITE_REFUSED(answer)) {
            size_t length = SAKONITE_LOSING_LENGTH(answer);
            if (!SAKONITE_REFUSED(add(SAKONITE_MOVE_FETCH, losing_reply, length))) {
                show_fetch(losing_reply, length);
                continue;
            }
        }
        if (answer == SAKONITE_NO_FETCH)
            printf("read\n");
        else if (answer == SAKONITE_NONE)
            printf("read, since no reply loses\n");
        else
            printf("read, since the losing reply is too long or too deep to be played\n");
        read_tag();
    }
}

/* Where the play stands, and the advice. */
static uint32_t show(void) {
    uint32_t said = advice();
    show_tag();
    say(said);
    return said;
}

static void take_back(void) {
    if (moves == 0)
        printf("there is no move to take back\n");
    back();
}

static void go(void) {
    while (advice() == SAKONITE_READ)
        read_tag();
}

static void show_help(void) {
    printf("%s", help);
}

/* The commands that stand alone in a line; for quit there is nothing to call. */
static const struct {
    const char *name;
    void (*call)(void);
} commands[] = {
    {"read", read_tag}, {"go", go},     {"back", take_back}, {"tree", tree},
    {"losing", losing}, {"lose", lose}, {"help", show_help}, {"quit", NULL},
};

/* Does what a line says. Returns whether to go on after it. */
static int act(char *line) {
    static const char blanks[] = " \t\r";
    char *word = line + strspn(line, blanks);
    char *rest = word + strcspn(word, blanks);
    if (*rest)
        *rest++ = '\0';
    rest += strspn(rest, blanks);
    if (*word == '\0' || *word == '#')
        return 1;
    if (strcmp(word, "fetch") == 0) {
        fetch(rest);
        return 1;
    }
    for (size_t i = 0; i < sizeof commands / sizeof *commands; i++) {
        if (strcmp(word, commands[i].name) != 0)
            continue;
        if (*rest)
            printf("%s takes no argument: %.*s\n", word, (int)strcspn(rest, blanks), rest);
        else if (commands[i].call)
            commands[i].call();
        else
            return 0;
        return 1;
    }
    printf("not understood: %s; help lists the commands\n", word);
    return 1;
}

/* Room for the names of every reply that is not too long. */
enum { LONGEST_LINE = 1 << 18 };
static char line[LONGEST_LINE + 1];

/* Reads the next line, without its end, and returns its length; the rest of a line that is too long is passed over. At the end of the input
   it returns (size_t)-1. */
static size_t next_line(FILE *from) {
    size_t length = 0;
    int c = getc(from);
    if (c == EOF)
        return (size_t)-1;
    for (; c != EOF && c != '\n'; c = getc(from), length++)
        if (length < LONGEST_LINE)
            line[length] = c ? (char)c : '?';
    size_t end = length < LONGEST_LINE ? length : LONGEST_LINE;
    while (end > 0 && line[end - 1] == '\r')
        end--;
    line[end] = '\0';
    return length;
}

int main(int count, char **arguments) {
    if (count != 2 && count != 3) {
        fprintf(stderr, "usage: host JOB [SCRIPT]\n");
        return 2;
    }
    FILE *job = fopen(arguments[1], "rb");
    if (!job) {
        perror(arguments[1]);
        return 2;
    }
    file_length = fread(file, 1, sizeof file, job);
    if (ferror(job)) {
        perror(arguments[1]);
        return 2;
    }
    fclose(job);
    FILE *from = count == 3 ? fopen(arguments[2], "r") : stdin;
    if (!from) {
        perror(arguments[2]);
        return 2;
    }
    uint32_t yes = sakonite_verdict(file, file_length);
    if (SAKONITE_REFUSED(yes)) {
        say(yes);
        return 2;
    }
    printf("verdict %s\n", yes == SAKONITE_YES ? "yes" : "no");
    find_record();
    for (int on = 1; on;) {
        show();
        printf("> ");
        fflush(stdout);
        size_t length = next_line(from);
        if (ferror(from)) {
            printf("\n");
            perror(count == 3 ? arguments[2] : "standard input");
            return 2;
        }
        if (length == (size_t)-1) {
            printf("\n");
            break;
        }
        if (count == 3)
            printf("%s\n", line);
        if (length > LONGEST_LINE)
            printf("not understood: a line of more than %d characters\n", LONGEST_LINE);
        else
            on = act(line);
    }
    tree();
    uint32_t last = show();
    free(history);
    return last == SAKONITE_IN_FORM ? 0 : 1;
}
