/* The times that docs/HOST.md speaks of, taken anew and printed: of a call before its first
 * statement, of statements, FORs that share a long row of numbers among them, and of the list of
 * breaches, also where thousands of references break a rule in each statement. What is expected of
 * them leaves room for a busy machine.
 *
 *     cost [FILES..]     of these units as well
 */
#include <stdlib.h>
#include <time.h>

#include "expect.h"

#define UNIT_MOST 57353
#define TRIALS 15
#define ALLOWANCE 1000

/* The unit that is asked about. */
static uint8_t unit[UNIT_MOST + 1], data[UNIT_MOST];
static size_t unit_len;

static void put(const char *bytes, size_t length)
{
    memcpy(unit + unit_len, bytes, length);
    unit_len += length;
}

static void put_words(size_t count, const size_t *words)
{
    for (size_t i = 0; i < count; i++) {
        unit[unit_len++] = (uint8_t)(words[i] >> 8);
        unit[unit_len++] = (uint8_t)words[i];
    }
}

#define WORDS(...)                                                                                 \
    put_words(sizeof((size_t[]){__VA_ARGS__}) / sizeof(size_t), (size_t[]){__VA_ARGS__})

/* Kinds and codes, each with the zero byte behind it. */
enum { ALPHA = 0x0000, DECIMAL = 0x0100, MARK = 0x4442 };
enum { SET = 0x0100, GOTO = 0x0700, TEST = 0x0800, FOR = 0x0E00, LOOP_END = 0x0F00 };

/* The statements of a unit at the most, and the references with a subscript that an expression has room
 * for. */
#define STATEMENTS 2048
#define REFERENCES 2340

/* A SET of A from a sum of so many terms B, and a GOTO back to it; both have seven digits. */
static void loop_of(size_t terms)
{
    unit_len = 0;
    put("0000000" "0000001", 14);
    WORDS(DECIMAL, 0, 7, 1, DECIMAL, 7, 7, 1);
    put("\2\0\0\0" "\2\0\1", 7);
    for (size_t i = 1; i < terms; i++)
        put("\2\0\1\20", 4);
    put("\0", 1);
    WORDS(SET, 0, 4, 0, GOTO, 0, 0, 0);
    WORDS(14, 2, 4 * terms + 4, 0, 2, MARK);
}

/* The longest unit: 512 decimals, and 2,048 times a SET from a sum of literals of 18 digits. */
static void longest(void)
{
    memset(unit, '0', 16383);
    unit_len = 16383;
    for (size_t i = 0; i < 512; i++)
        WORDS(DECIMAL, 18 * i, 18, 1);
    put("\2\0\0\0" "\1\0\0\22", 8);
    for (size_t i = 1; i < 3275; i++)
        put("\1\0\0\22\20", 5);
    put("\0\0\0\0\0", 5);
    memset(unit + unit_len, '1', 4095);
    unit_len += 4095;
    for (size_t i = 0; i < 2048; i++)
        WORDS(SET, 0, 4, 0);
    WORDS(16383, 512, 16383, 4095, 2048, MARK);
}

/* 2,047 FORs to one loop end. In the row of numbers at 4 the start is a sum of 3,273 ones, so that
 * limit and step stand behind 16 KB. At 10, and every 5 bytes on, a row starts inside one of these
 * ones, at 01 00 [02 01 10], and shares all that stands behind it. Each FOR has the row so many bytes
 * behind that of the FOR before it. */
static void loops_by_rows(size_t first, size_t stride)
{
    memset(unit, '0', 279);
    unit_len = 279;
    for (size_t i = 0; i < 272; i++)
        WORDS(ALPHA, i, 1, 1);
    WORDS(DECIMAL, 272, 7, 1);
    put("\2\1\20\0" "\1\0\2\1", 8);
    for (size_t i = 1; i < 3273; i++)
        put("\1\0\2\1\20", 5);
    put("\0" "\1\0\2\7\0" "\1\0\2\1\0", 11);
    put("..1999999", 9);
    for (size_t i = 0; i < 2047; i++)
        WORDS(FOR, 0, first + stride * i, 2047);
    WORDS(LOOP_END, 0, 0, 0);
    WORDS(279, 273, 16379, 9, 2048, MARK);
}

/* 2,048 tests of one sum of amounts, each of which is found by its own subscript alone: all of them
 * break rule 1 in every statement. */
static void breaking(void)
{
    unit_len = 0;
    put("1", 1);
    WORDS(DECIMAL, 0, 1, 1);
    put("\2\0\0" "\3\0\0", 6);
    for (size_t i = 1; i < REFERENCES; i++)
        put("\2\0\0" "\3\0\0" "\20", 7);
    put("\0", 1);
    for (size_t i = 0; i < STATEMENTS; i++)
        WORDS(TEST, 0, 0, 0);
    WORDS(1, 1, 7 * REFERENCES, 0, STATEMENTS, MARK);
}

static void read_file(const char *name)
{
    FILE *file = fopen(name, "rb");

    if (!file) {
        perror(name);
        exit(2);
    }
    unit_len = fread(unit, 1, sizeof unit, file);
    fclose(file);
}

static void check(void)
{
    uint64_t answer[3];

    dibol_check(unit, unit_len, answer, 3);
}

static void fence(void)
{
    uint64_t answer[2];

    dibol_fence(unit, unit_len, answer, 2);
}

/* The references that break a rule. */
static uint64_t broken;

static void breaches(void)
{
    uint64_t row[DIBOL_ROW_LEN];

    broken = dibol_breaches(unit, unit_len, 0, row, DIBOL_ROW_LEN);
}

static void invalid(void)
{
    uint64_t answer[4];
    size_t data_len = (size_t)unit[unit_len - 12] << 8 | unit[unit_len - 11];

    dibol_invalid(unit, unit_len, unit, data_len, answer, 4);
}

/* The statements that a run completed. */
static uint64_t completed;

static void run(void)
{
    uint64_t state[DIBOL_STATE_LEN] = {0}, answer[3];
    size_t data_len = (size_t)unit[unit_len - 12] << 8 | unit[unit_len - 11];

    memcpy(data, unit, data_len);
    dibol_run(unit, unit_len, data, data_len, state, DIBOL_STATE_LEN, ALLOWANCE, answer, 3);
    completed = answer[2];
}

/* The microseconds of the fastest of some calls. */
static double fastest(void (*call)(void))
{
    double least = 1e9;

    for (int i = 0; i < TRIALS; i++) {
        struct timespec before, after;
        double taken;

        timespec_get(&before, TIME_UTC);
        call();
        timespec_get(&after, TIME_UTC);
        taken = (double)(after.tv_sec - before.tv_sec) * 1e6 +
                (double)(after.tv_nsec - before.tv_nsec) / 1e3;
        least = taken < least ? taken : least;
    }
    return least;
}

/* Prints the times of the unit. */
static void print_times(const char *name)
{
    uint64_t answer[3];

    SAME(dibol_check(unit, unit_len, answer, 3), DIBOL_END);
    printf("%s, %zu bytes: check %.1f microseconds, fence %.1f", name, unit_len, fastest(check),
           fastest(fence));
    printf(", breaches %.1f, valid data %.1f, a run %.1f", fastest(breaches), fastest(invalid),
           fastest(run));
    printf(" with %" PRIu64 " statements\n", completed);
}

int main(int argc, char **argv)
{
    double short_check, short_run, long_check;

    loop_of(1);
    print_times("A = B");
    SAME(completed, ALLOWANCE);
    short_check = fastest(check);
    short_run = fastest(run);
    loop_of(4093);
    print_times("4,093 terms");
    SAME(completed, ALLOWANCE);
    SAME(fastest(run) > 100 * short_run, 1);
    longest();
    SAME(unit_len, UNIT_MOST);
    print_times("the longest");
    long_check = fastest(check);
    SAME(long_check > 10 * short_check, 1);
    for (size_t stride = 0; stride <= 5; stride += 5) {
        loops_by_rows(stride ? 10 : 4, stride);
        print_times(stride ? "FORs by the ends of one row" : "FORs by one row");
        SAME(completed, 16);
        SAME(fastest(check) < 20 * long_check, 1);
        SAME(fastest(fence) < 20 * long_check, 1);
    }
    breaking();
    print_times("tests that break a rule");
    SAME(broken, STATEMENTS * REFERENCES);
    SAME(fastest(breaches) < 10000 * long_check, 1);
    for (int i = 1; i < argc; i++) {
        read_file(argv[i]);
        print_times(argv[i]);
    }
    return told("cost");
}
