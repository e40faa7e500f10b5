/* What the headers have besides the functions, from C and from C++: a line for each text and each code, and one for each fact that does not
   hold. */
#include <sakonite.h>
#include <sakonite_text.h>

#include <stdio.h>
#include <string.h>

static int wrong = 0;

static void expect(int holds, const char *fact) {
    if (!holds) {
        printf("wrong: %s\n", fact);
        wrong = 1;
    }
}

#define EXPECT(fact) expect(fact, #fact)

static void refusals(void) {
    static const uint8_t zeros[30] = {0};
    uint32_t verdict = sakonite_verdict(zeros, sizeof zeros);
    EXPECT(SAKONITE_REFUSED(verdict));
    EXPECT(verdict != SAKONITE_YES && verdict != SAKONITE_NO);
    EXPECT(SAKONITE_REFUSED(sakonite_check(zeros, sizeof zeros)));
    EXPECT(SAKONITE_REFUSED(sakonite_finished(zeros, sizeof zeros, NULL, 0, NULL, 0)));
    for (size_t returned = 0; returned <= 200; returned++)
        EXPECT(SAKONITE_REFUSED(returned) == (returned >= SAKONITE_FILE_SIZE && returned <= SAKONITE_LOSING_BUFFER));
    for (uint32_t answer = SAKONITE_LOST; answer <= SAKONITE_OUTSIDE; answer++)
        EXPECT(!SAKONITE_REFUSED(answer));
    EXPECT(!SAKONITE_REFUSED((size_t)SAKONITE_FINISHED + SAKONITE_MOST_TAGS));
    EXPECT(!SAKONITE_REFUSED((size_t)-1));
    EXPECT(!SAKONITE_REFUSED(10) && SAKONITE_REFUSED(11) && SAKONITE_REFUSED(26) && !SAKONITE_REFUSED(27));
}

static void lengths(void) {
    EXPECT(SAKONITE_FINISHED_LENGTH(SAKONITE_FINISHED) == 0);
    EXPECT(SAKONITE_FINISHED_LENGTH((size_t)SAKONITE_FINISHED + 100000) == 100000);
    EXPECT(SAKONITE_LOSING_LENGTH(SAKONITE_LOSING) == 0);
    EXPECT(SAKONITE_LOSING_LENGTH((size_t)SAKONITE_LOSING + SAKONITE_MOST_TAGS) == SAKONITE_MOST_TAGS);
    EXPECT(SAKONITE_LARGEST_FILE == SAKONITE_SMALLEST_FILE + 6 + 16 * SAKONITE_MOST_TARGET_STATES * (1 + SAKONITE_MOST_TARGET_STATES) +
                                        4 * (7 + 4 * 2 * SAKONITE_MOST_RULES) + SAKONITE_MOST_TAGS);
}

/* An argument that counts is evaluated once by each macro. */
static void once(void) {
    size_t count = 11;
    EXPECT(SAKONITE_REFUSED(count++) && count == 12);
    EXPECT(SAKONITE_FINISHED_LENGTH(100 + count++) == 12 && count == 13);
    EXPECT(SAKONITE_LOSING_LENGTH(100 + count++) == 13 && count == 14);
    EXPECT(SAKONITE_OPENING(count++) == 14 && count == 15);
    EXPECT(SAKONITE_CLOSING(count++) == 31 && count == 16);
    EXPECT(!SAKONITE_OPENS(count++) && count == 17);
    EXPECT(SAKONITE_CODE(count++) == 1 && count == 18);
    EXPECT(!SAKONITE_FETCHABLE(count++) && count == 19);
}

static void code(const char *name, unsigned number) {
    const uint8_t tags[] = {SAKONITE_OPENING(number), SAKONITE_CLOSING(number)};
    printf("%s %u %s %u %u\n", name, number, sakonite_name(number), (unsigned)tags[0], (unsigned)tags[1]);
    EXPECT(SAKONITE_OPENS(tags[0]) && !SAKONITE_OPENS(tags[1]));
    EXPECT(SAKONITE_CODE(tags[0]) == number && SAKONITE_CODE(tags[1]) == number);
    EXPECT(!SAKONITE_FETCHABLE(tags[0]) && SAKONITE_FETCHABLE(tags[1]) == (number >= SAKONITE_CODE_GETMATCH));
}

#define CODE(name) code(#name, SAKONITE_CODE_##name)

int main(void) {
    refusals();
    lengths();
    once();
    for (size_t returned = 10; returned <= 27; returned++)
        printf("%u %s\n", (unsigned)returned, sakonite_text(returned));
    CODE(PROJECT);
    CODE(OBJECT);
    CODE(ELEMENT);
    CODE(SAMPLE);
    CODE(SERIES);
    CODE(RING);
    CODE(SPECIES);
    CODE(SAPWOOD);
    CODE(MATCH);
    CODE(DATE);
    CODE(PLACE);
    CODE(NOTE);
    CODE(GETMATCH);
    CODE(GETSAP);
    CODE(GETSPEC);
    CODE(GETPLACE);
    EXPECT(sakonite_name(16)[0] == '\0' && sakonite_name((unsigned)-1)[0] == '\0');
    EXPECT(strcmp(sakonite_text(0), "not a refusal") == 0 && strcmp(sakonite_text((size_t)-1), "not a refusal") == 0);
    EXPECT(sakonite_version() == SAKONITE_VERSION);
    return wrong;
}
