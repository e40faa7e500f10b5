/* How much stack the five entries take on a job and a history.
 *
 *     stack FILE HISTORY                 the bytes that each entry takes, a line for each
 *     stack FILE HISTORY KB ENTRY..      what these entries answer in threads with so many KB of stack; too few end the program
 */
#define _DEFAULT_SOURCE

#include <sakonite.h>

#include <pthread.h>
#include <stdio.h>
#include <stdlib.h>
#include <string.h>
#include <sys/mman.h>

enum { FILL = 0xa5, MEASURED = 16 << 20, MOST_HISTORY = 1 << 20 };

static uint8_t file[SAKONITE_LARGEST_FILE + 1], history[MOST_HISTORY], buffer[MOST_HISTORY];
static size_t file_length, history_length;

static size_t check(void) {
    return sakonite_check(file, file_length);
}

static size_t verdict(void) {
    return sakonite_verdict(file, file_length);
}

static size_t advice(void) {
    return sakonite_advice(file, file_length, history, history_length);
}

static size_t finished(void) {
    return sakonite_finished(file, file_length, history, history_length, buffer, sizeof buffer);
}

static size_t losing(void) {
    return sakonite_losing_reply(file, file_length, history, history_length, buffer, sizeof buffer);
}

/* A call, what it answers, and where the stack was before it. */
struct call {
    const char *name;
    size_t (*entry)(void);
    size_t answer;
    const volatile uint8_t *top;
};

static struct call calls[] = {
    {"check", check, 0, NULL},       {"verdict", verdict, 0, NULL}, {"advice", advice, 0, NULL},
    {"finished", finished, 0, NULL}, {"losing", losing, 0, NULL},
};

enum { CALLS = sizeof calls / sizeof *calls };

static void fail(const char *what) {
    fprintf(stderr, "stack: %s\n", what);
    exit(2);
}

static void *run(void *argument) {
    struct call *call = argument;
    volatile uint8_t here = 0;
    call->top = &here;
    call->answer = call->entry();
    return NULL;
}

static void run_in_thread(struct call *call, pthread_attr_t *attributes) {
    pthread_t thread;
    if (pthread_create(&thread, attributes, run, call) || pthread_join(thread, NULL))
        fail("no thread");
}

/* The stack grows downwards over bytes that were filled: the lowest that was changed tells how far it came. */
static size_t used(struct call *call) {
    uint8_t *stack = mmap(NULL, MEASURED, PROT_READ | PROT_WRITE, MAP_PRIVATE | MAP_ANONYMOUS, -1, 0);
    pthread_attr_t attributes;
    if (stack == MAP_FAILED)
        fail("no memory");
    memset(stack, FILL, MEASURED);
    if (pthread_attr_init(&attributes) || pthread_attr_setstack(&attributes, stack, MEASURED))
        fail("no such stack");
    run_in_thread(call, &attributes);
    size_t untouched = 0;
    while (stack[untouched] == FILL)
        untouched++;
    size_t bytes = (size_t)(call->top - (stack + untouched));
    munmap(stack, MEASURED);
    return bytes;
}

static size_t answer_within(struct call *call, size_t kilobytes) {
    pthread_attr_t attributes;
    if (pthread_attr_init(&attributes) || pthread_attr_setstacksize(&attributes, kilobytes << 10))
        fail("no such stack");
    run_in_thread(call, &attributes);
    return call->answer;
}

static size_t read_all(const char *path, uint8_t *into, size_t room) {
    FILE *from = fopen(path, "rb");
    if (!from)
        fail(path);
    size_t length = fread(into, 1, room, from);
    fclose(from);
    return length;
}

static struct call *named(const char *name) {
    for (size_t i = 0; i < CALLS; i++)
        if (strcmp(calls[i].name, name) == 0)
            return calls + i;
    fail(name);
    return NULL;
}

int main(int count, char **arguments) {
    if (count != 3 && count < 5)
        fail("FILE HISTORY [KB ENTRY..]");
    file_length = read_all(arguments[1], file, sizeof file);
    history_length = read_all(arguments[2], history, sizeof history);
    for (size_t i = 0; count == 3 && i < CALLS; i++)
        printf("%s %zu\n", calls[i].name, used(calls + i));
    for (int i = 4; i < count; i++) {
        printf("%s %zu\n", arguments[i], answer_within(named(arguments[i]), strtoul(arguments[3], NULL, 10)));
        fflush(stdout);
    }
    return 0;
}
