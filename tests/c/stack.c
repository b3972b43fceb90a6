/* The most stack that each function takes over stored units: no more than docs/HOST.md says. Every
 * call has a thread of its own on a painted stack, and the lowest byte that is no longer paint tells
 * how deep it went.
 *
 *     stack NAME=BYTES.. FILES..
 */
#define _DEFAULT_SOURCE
#include <pthread.h>
#include <stdlib.h>

#include "expect.h"

#define UNIT_MOST 57353
#define STACK (256 * 1024)
#define PAINT 0xA5
#define ASKED 40

/* The unit that is asked about, and what is lent beside it. */
static uint8_t unit[UNIT_MOST + 1], data[UNIT_MOST], text[64];
static size_t unit_len, data_len;
static uint64_t state[DIBOL_STATE_LEN], answer[DIBOL_ROW_LEN];

static void check(void)
{
    dibol_check(unit, unit_len, answer, 3);
}

static void parts(void)
{
    dibol_parts(unit, unit_len, answer, 6);
}

static void field(void)
{
    for (size_t i = 0; i < ASKED; i++)
        dibol_field(unit, unit_len, i, answer, 5);
}

static void run(void)
{
    dibol_run(unit, unit_len, data, data_len, state, DIBOL_STATE_LEN, 1000, answer, 3);
}

static void fence(void)
{
    dibol_fence(unit, unit_len, answer, 3);
}

static void invalid(void)
{
    dibol_invalid(unit, unit_len, data, data_len, answer, 4);
}

static void breaches(void)
{
    dibol_breaches(unit, unit_len, 0, answer, DIBOL_ROW_LEN);
}

static void breach(void)
{
    for (size_t i = 0; i < ASKED; i++)
        dibol_breach(unit, unit_len, i);
}

static void literal(void)
{
    for (size_t i = 0; i < ASKED; i++)
        dibol_literal(unit, unit_len, i, answer, 3);
}

static void words(void)
{
    for (uint64_t stop = 0; stop < ASKED; stop++)
        dibol_words(stop, text, sizeof text);
}

static void breach_words(void)
{
    for (uint64_t rule = 0; rule < ASKED; rule++)
        dibol_breach_words(rule, text, sizeof text);
}

static void version(void)
{
    dibol_version();
}

static void state_len(void)
{
    dibol_state_len();
}

/* Each function with its name, the bytes that the page has for it, and the most that were seen. */
static struct {
    const char *name;
    void (*call)(void);
    size_t told, seen;
} calls[] = {
    {"dibol_check", check, 0, 0},       {"dibol_parts", parts, 0, 0},
    {"dibol_field", field, 0, 0},       {"dibol_run", run, 0, 0},
    {"dibol_fence", fence, 0, 0},       {"dibol_invalid", invalid, 0, 0},
    {"dibol_breach", breach, 0, 0},     {"dibol_breaches", breaches, 0, 0},
    {"dibol_literal", literal, 0, 0},   {"dibol_words", words, 0, 0},
    {"dibol_breach_words", breach_words, 0, 0},
    {"dibol_version", version, 0, 0},   {"dibol_state_len", state_len, 0, 0},
};
#define CALLS (sizeof calls / sizeof *calls)

static _Alignas(4096) uint8_t stack[STACK];
static uint8_t *top;

/* Makes a call, and notes where the stack was before it. */
static void *work(void *call)
{
    top = __builtin_frame_address(0);
    calls[*(size_t *)call].call();
    return NULL;
}

/* The bytes of stack that a call takes. */
static size_t depth(size_t call)
{
    pthread_attr_t attributes;
    pthread_t thread;
    uint8_t *lowest = stack;

    memset(stack, PAINT, sizeof stack);
    if (pthread_attr_init(&attributes) || pthread_attr_setstack(&attributes, stack, sizeof stack) ||
        pthread_create(&thread, &attributes, work, &call) || pthread_join(thread, NULL)) {
        printf("stack: there is no thread\n");
        exit(2);
    }
    pthread_attr_destroy(&attributes);
    while (*lowest == PAINT)
        lowest++;
    return (size_t)(top - lowest);
}

static void read_file(const char *name)
{
    FILE *file = fopen(name, "rb");

    if (!file) {
        perror(name);
        exit(2);
    }
    unit_len = fread(unit, 1, sizeof unit, file);
    fclose(file);
    dibol_check(unit, unit_len, answer, 3);
    data_len = answer[2];
    memcpy(data, unit, data_len);
    memset(state, 0, sizeof state);
}

/* Notes what the page has for a function, and tells whether the word is of that form. */
static int is_told(const char *word)
{
    for (size_t i = 0; i < CALLS; i++) {
        size_t length = strlen(calls[i].name);

        if (strncmp(word, calls[i].name, length) == 0 && word[length] == '=') {
            calls[i].told = strtoul(word + length + 1, NULL, 10);
            return 1;
        }
    }
    return 0;
}

int main(int argc, char **argv)
{
    for (int i = 1; i < argc; i++) {
        if (is_told(argv[i]))
            continue;
        read_file(argv[i]);
        for (size_t call = 0; call < CALLS; call++) {
            size_t seen = depth(call);

            calls[call].seen = seen > calls[call].seen ? seen : calls[call].seen;
        }
    }
    for (size_t call = 0; call < CALLS; call++) {
        int is_kept = calls[call].seen > 0 && calls[call].seen <= calls[call].told;

        SAME(is_kept, 1);
        if (!is_kept)
            printf("%s: %zu bytes of stack, and the page has %zu\n", calls[call].name,
                   calls[call].seen, calls[call].told);
    }
    return told("stack");
}
