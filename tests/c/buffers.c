/* Buffers of every length that matters, with red zones around them: as many numbers and bytes are
 * written as fit, and nothing outside. */
#include "expect.h"

#define ZONE 16
#define MOST 128
#define WORDS_MOST 64
#define UNTOUCHED 0xA5A5A5A5A5A5A5A5u

static const size_t LENGTHS[] = {0,  1,  2,  3,  4,  5,  6,   7,   8,   9,   10,  15, 16,
                                 17, 23, 24, 51, 52, 53, 100, 101, 102, 103, 104, 105};
#define LENGTH_COUNT (sizeof LENGTHS / sizeof *LENGTHS)

/* Numbers to lend, between two red zones. */
static uint64_t numbers[ZONE + MOST + ZONE];
static uint64_t *const lent = numbers + ZONE;

static void clean(void)
{
    for (size_t i = 0; i < sizeof numbers / sizeof *numbers; i++)
        numbers[i] = UNTOUCHED;
}

/* Expects the first of the wanted numbers, as many as fit, and all else to be untouched. */
static void holds(size_t length, const uint64_t *wanted, size_t count)
{
    uint64_t expected_numbers[ZONE + MOST + ZONE];

    for (size_t i = 0; i < sizeof numbers / sizeof *numbers; i++)
        expected_numbers[i] = UNTOUCHED;
    for (size_t i = 0; i < count && i < length; i++)
        expected_numbers[ZONE + i] = wanted[i];
    SAME_BYTES(numbers, expected_numbers, sizeof numbers);
}

/* Answers of every length: three numbers, or two. */
static void answers(size_t length)
{
    const uint64_t checked[] = {0, 0, 2}, refused[] = {1, 0, 0}, yes[] = {0, 0}, ran[] = {0, 2, 2};
    uint64_t state[DIBOL_STATE_LEN] = {0};
    uint8_t data[2] = {'4', '1'};

    clean();
    SAME(dibol_check(EXAMPLE, 42, lent, length), 0);
    holds(length, checked, 3);
    clean();
    SAME(dibol_check(EXAMPLE, 41, lent, length), 1);
    holds(length, refused, 3);
    clean();
    SAME(dibol_fence(EXAMPLE, 42, lent, length), 0);
    holds(length, yes, 2);
    clean();
    SAME(dibol_fence(EXAMPLE, 41, lent, length), 2);
    holds(length, refused, 2);
    clean();
    SAME(dibol_literal(EXAMPLE, 42, 0, lent, length), 0);
    holds(length, yes, 2);
    clean();
    SAME(dibol_run(EXAMPLE, 42, data, 2, state, DIBOL_STATE_LEN, 9, lent, length), 0);
    holds(length, ran, 3);
}

/* The same of parts and fields, of data, and of rows. */
static void told_numbers(size_t length)
{
    const uint64_t all[] = {2, 1, 4, 0, 2, 18}, field[] = {1, 0, 2, 1, 0}, zeros[6] = {0};
    const uint64_t refused[] = {1, 0, 0, 0}, size[] = {6, 0, 0, 0}, digit[] = {22, 0, 1, 0};

    clean();
    SAME(dibol_parts(EXAMPLE, 42, lent, length), 0);
    holds(length, all, 6);
    clean();
    SAME(dibol_parts(EXAMPLE, 41, lent, length), 1);
    holds(length, zeros, 6);
    clean();
    SAME(dibol_field(EXAMPLE, 42, 0, lent, length), 1);
    holds(length, field, 5);
    clean();
    SAME(dibol_field(EXAMPLE, 42, 1, lent, length), 0);
    holds(length, zeros, 5);
    clean();
    SAME(dibol_field(EXAMPLE, 41, 0, lent, length), 0);
    holds(length, zeros, 5);
    clean();
    SAME(dibol_invalid(EXAMPLE, 42, EXAMPLE, 2, lent, length), 0);
    holds(length, zeros, 4);
    clean();
    SAME(dibol_invalid(EXAMPLE, 42, (const uint8_t *)"4U", 2, lent, length), 22);
    holds(length, digit, 4);
    clean();
    SAME(dibol_invalid(EXAMPLE, 42, EXAMPLE, 3, lent, length), 6);
    holds(length, size, 4);
    clean();
    SAME(dibol_invalid(EXAMPLE, 41, EXAMPLE, 2, lent, length), 1);
    holds(length, refused, 4);
}

/* Rows of every length: whole ones alone. The example breaks no rule; in the other unit both statements
 * are an INCR of a span over two elements. */
static void rows(size_t length)
{
    const uint64_t both[] = {0, 4, 1, 0, 4, 0, 2, 8, 1, 4, 1, 0, 4, 0, 2, 8};
    static const uint8_t two[] = {
        0x34, 0x31,                                     /* data image: "41" */
        0x01, 0x00, 0x00, 0x00, 0x00, 0x01, 0x00, 0x02, /* field 0: two decimals */
        0x01, 0x00, 0x00, 0x01, 0x01, 0x00, 0x01, 0x01, /* expression at 0: 1, 2, */
        0x04, 0x00, 0x00, 0x00,                         /* field 0 (start,end) */
        0x31, 0x32,                                     /* literals */
        0x03, 0x00, 0x00, 0x00, 0x00, 0x00, 0x00, 0x00, /* statement 0: INCR */
        0x03, 0x00, 0x00, 0x00, 0x00, 0x00, 0x00, 0x00, /* statement 1: INCR */
        0x00, 0x02, 0x00, 0x01, 0x00, 0x0C, 0x00, 0x02, 0x00, 0x02, 0x44, 0x42};

    for (size_t skip = 0; skip < 4; skip++) {
        size_t left = skip < 2 ? 2 - skip : 0, room = length / DIBOL_ROW_LEN;

        clean();
        SAME(dibol_breaches(two, sizeof two, skip, lent, length), 2);
        holds(length, both + (2 - left) * DIBOL_ROW_LEN, (left < room ? left : room) * DIBOL_ROW_LEN);
        clean();
        SAME(dibol_breaches(EXAMPLE, 42, skip, lent, length), 0);
        holds(length, both, 0);
        clean();
        SAME(dibol_breaches(two, sizeof two - 1, skip, lent, length), 0);
        holds(length, both, 0);
    }
}

/* A state of every length, all zero: 104 numbers are run from, and any other length is 7. */
static void states(size_t length)
{
    const uint64_t zeros[MOST] = {0}, next[DIBOL_STATE_LEN] = {2};
    uint64_t answer[3] = {0, 0, 0};
    uint8_t data[] = "[41]";
    int sound = length == DIBOL_STATE_LEN;

    clean();
    memset(lent, 0, length * sizeof *lent);
    SAME(dibol_run(EXAMPLE, 42, data + 1, 2, lent, length, 9, answer, 3), sound ? 0 : 7);
    holds(length, sound ? next : zeros, length);
    SAME(answer[0], sound ? 0 : 7);
    SAME(answer[1], sound ? 2 : 0);
    SAME(answer[2], sound ? 2 : 0);
    SAME_BYTES(data, sound ? "[42]" : "[41]", 4);
}

/* Writes the words of a number: of a stop, or of a fence rule. */
typedef uint64_t writes(uint64_t number, uint8_t *text, size_t text_len);

/* The words of a number with room for none, some and all of them. */
static void words_of(writes *words, uint64_t number)
{
    uint8_t whole[WORDS_MOST], some[ZONE + WORDS_MOST + ZONE], expected_bytes[sizeof some];
    size_t length = words(number, whole, sizeof whole);

    SAME(length < sizeof whole, 1);
    for (size_t room = 0; room <= length + 2 && room <= WORDS_MOST; room++) {
        memset(some, 0xA5, sizeof some);
        memset(expected_bytes, 0xA5, sizeof expected_bytes);
        memcpy(expected_bytes + ZONE, whole, room < length ? room : length);
        SAME(words(number, some + ZONE, room), length);
        SAME_BYTES(some, expected_bytes, sizeof some);
    }
    for (size_t i = 0; i < length; i++)
        SAME(whole[i] >= ' ' && whole[i] <= '~', 1);
}

/* Every stop has words, no other number has, and where the manuals have words they are these. */
static void words(void)
{
    static const uint64_t stops[] = {0,  1,  2,  3,  4,  5,  6,  7,  20, 21,
                                     22, 23, 24, 25, 26, 27, 28, 29, 30};
    static const struct {
        uint64_t stop;
        const char *words;
    } manual[] = {{20, "Arithmetic operand exceeds 18 digits"},
                  {21, "Invalid subscript specified"},
                  {22, "Bad digit encountered"},
                  {23, "Attempt to divide by zero"},
                  {25, "RETURN with no CALL or XCALL"}};
    uint8_t text[WORDS_MOST];
    size_t next = 0;

    for (uint64_t stop = 0; stop < 300; stop++) {
        int is_stop = next < sizeof stops / sizeof *stops && stops[next] == stop;

        next += (size_t)is_stop;
        SAME(dibol_words(stop, text, 0) > 0, is_stop);
        words_of(dibol_words, stop);
    }
    SAME(dibol_words(UINT64_MAX, text, WORDS_MOST), 0);
    SAME(dibol_words((1ULL << 32) + 20, text, WORDS_MOST), 0);
    for (size_t i = 0; i < sizeof manual / sizeof *manual; i++) {
        SAME(dibol_words(manual[i].stop, text, WORDS_MOST), strlen(manual[i].words));
        SAME_BYTES(text, manual[i].words, strlen(manual[i].words));
    }
}

/* The fence rules have these words, and no other number has any. */
static void breach_words(void)
{
    static const char *const wanted[] = {"",
                                         "A bound is not a literal",
                                         "The bounds give 21",
                                         "A span leaves its field",
                                         "A decimal span is not in one element",
                                         "A decimal destination ends inside its element",
                                         "An alpha destination shares a byte with a decimal field"};
    uint8_t text[WORDS_MOST];

    for (uint64_t rule = 0; rule < 300; rule++) {
        const char *own = rule <= 6 ? wanted[rule] : "";

        SAME(dibol_breach_words(rule, text, WORDS_MOST), strlen(own));
        SAME_BYTES(text, own, strlen(own));
        words_of(dibol_breach_words, rule);
    }
    SAME(dibol_breach_words(UINT64_MAX, text, WORDS_MOST), 0);
    SAME(dibol_breach_words((1ULL << 32) + 1, text, WORDS_MOST), 0);
}

int main(void)
{
    for (size_t i = 0; i < LENGTH_COUNT; i++) {
        answers(LENGTHS[i]);
        told_numbers(LENGTHS[i]);
        rows(LENGTHS[i]);
        states(LENGTHS[i]);
    }
    words();
    breach_words();
    return told("buffers");
}
