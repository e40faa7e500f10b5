/* The program verdict in plain C, so that the tests of the proved one also test what it is measured against. */
#include "baseline.h"

#include <stdio.h>

/* A state of an effect and the least number of tags with which it is reached. */
static void print_state(unsigned s, unsigned number) {
    if (number == LONG_NUMBER)
        printf(" %u/long", s);
    else if (number)
        printf(" %u/%u", s, 2 * (number - 1));
}

int main(void) {
    static const char *names[FORMS] = {"getmatch", "getsap", "getspec", "getplace"};
    static uint8_t file[LARGEST_FILE + 1];
    struct job job;
    struct effects effects;
    size_t length = fread(file, 1, sizeof file, stdin);
    unsigned refused = load(file, length, &job, &effects);
    if (refused) {
        printf("refused %u\n", refused);
        return 0;
    }
    printf("verdict %s\n", verdict(&job, effects.masks) ? "yes" : "no");
    for (unsigned i = 0; i < FORMS; i++)
        for (unsigned q = 0; q < job.target.bytes[0]; q++) {
            printf("%s %u:", names[i], q);
            for (unsigned s = 0; s < STATES; s++)
                print_state(s, effects.numbers[STATES * (STATES * i + q) + s]);
            printf("\n");
        }
    return 0;
}
