/* The exact answers of the C library: document 01's example, every refusal, every run error, a
 * formatted move, loops and their numbers in the state, trapped errors and theirs, states of earlier
 * versions, parts and fields, the fence, its rules and the references that break them, data that is
 * valid and data that is not, literals. */
#include "expect.h"

#define LENGTH(array) (sizeof(array) / sizeof *(array))

/* A field entry or a statement: its first byte and its three numbers. */
typedef struct {
    uint8_t first;
    uint16_t a, b, c;
} entry;

/* The parts of a unit. */
typedef struct {
    const char *image;
    const entry *fields;
    size_t field_count;
    const char *expressions;
    size_t expressions_len;
    const char *literals;
    const entry *statements;
    size_t statement_count;
} parts;

typedef struct {
    size_t len;
    uint8_t bytes[4096];
} coded;

static void put_byte(coded *unit, unsigned byte)
{
    unit->bytes[unit->len++] = (uint8_t)byte;
}

static void put_word(coded *unit, size_t word)
{
    put_byte(unit, (unsigned)(word >> 8 & 0xFF));
    put_byte(unit, (unsigned)(word & 0xFF));
}

static void put_entries(coded *unit, const entry *entries, size_t count)
{
    for (size_t i = 0; i < count; i++) {
        put_byte(unit, entries[i].first);
        put_byte(unit, 0);
        put_word(unit, entries[i].a);
        put_word(unit, entries[i].b);
        put_word(unit, entries[i].c);
    }
}

static void put_bytes(coded *unit, const char *bytes, size_t length)
{
    memcpy(unit->bytes + unit->len, bytes, length);
    unit->len += length;
}

/* The coded unit of some parts. */
static coded unit_of(const parts *p)
{
    coded unit = {0, {0}};
    size_t image = strlen(p->image), literals = strlen(p->literals);

    put_bytes(&unit, p->image, image);
    put_entries(&unit, p->fields, p->field_count);
    put_bytes(&unit, p->expressions, p->expressions_len);
    put_bytes(&unit, p->literals, literals);
    put_entries(&unit, p->statements, p->statement_count);
    put_word(&unit, image);
    put_word(&unit, p->field_count);
    put_word(&unit, p->expressions_len);
    put_word(&unit, literals);
    put_word(&unit, p->statement_count);
    put_word(&unit, 0x4442);
    return unit;
}

/* Two decimals of two characters (field 0), an alpha of four (1), a record over both (2), and a
 * decimal of one character (3). */
static const char IMAGE[] = "0102wxyz0";
static const entry FIELDS[] = {{1, 0, 2, 2}, {0, 4, 4, 1}, {2, 0, 8, 1}, {1, 8, 1, 1}};

/* The greatest value at 0, the ten digits from 18 on, text at 28, an amount with two minuses, and a
 * mask. */
static const char LITERALS[] = "999999999999999999"
                               "0123456789"
                               "ab"
                               "1-2-"
                               "Z.X-";

/* Items. A field is named by its last byte. */
#define GREATEST "\1\0\0\22"
#define NUMBER_0 "\1\0\22\1"
#define NUMBER_1 "\1\0\23\1"
#define NUMBER_2 "\1\0\24\1"
#define NUMBER_3 "\1\0\25\1"
#define NUMBER_9 "\1\0\33\1"
#define NUMBER_99 "\1\0\0\2"
#define FIELD(f) "\2\0" f
#define SUBSCRIPT(f) "\3\0" f
#define START_END(f) "\4\0" f
#define POS_LENGTH(f) "\5\0" f
#define AB "\6\0\34\0\2"
#define AMOUNT "\6\0\36\0\4"
#define MASK "\6\0\42\0\4"
#define ADD "\20"
#define DIVIDE "\23"
#define ROUND "\24"
#define NEGATE "\25"
#define CLOSE "\0"

/* A unit of some statements over these fields. */
static coded unit_with(const char *expressions, size_t length, const entry *statements,
                       size_t count)
{
    parts p = {IMAGE, FIELDS, LENGTH(FIELDS), expressions, length, LITERALS, statements, count};
    return unit_of(&p);
}

/* A unit of one statement. */
static coded unit_one(const char *expressions, size_t length, entry statement)
{
    return unit_with(expressions, length, &statement, 1);
}

#define ONE(expressions, ...) unit_one(expressions, sizeof(expressions) - 1, (entry){__VA_ARGS__})

/* Runs a unit from its image at statement 0, and expects a stop, a place, a count and the data. */
static void ran(const coded *unit, uint64_t stop, uint64_t place, uint64_t count, const char *data)
{
    uint8_t bytes[sizeof IMAGE - 1];
    uint64_t state[DIBOL_STATE_LEN] = {0}, answer[3] = {99, 99, 99};

    memcpy(bytes, IMAGE, sizeof bytes);
    SAME(dibol_run(unit->bytes, unit->len, bytes, sizeof bytes, state, DIBOL_STATE_LEN, 100, answer,
                   3),
         stop);
    SAME(answer[0], stop);
    SAME(answer[1], place);
    SAME(answer[2], count);
    SAME_BYTES(bytes, data, sizeof bytes);
    if (stop == 0 || stop >= 20)
        SAME(state[0], place);
}

/* Expects numbers, and as many as there are in an answer. */
static void are(const uint64_t *found, const uint64_t *wanted, size_t count)
{
    for (size_t i = 0; i < count; i++)
        SAME(found[i], wanted[i]);
}

#define ARE(found, ...)                                                                            \
    are(found, (uint64_t[]){__VA_ARGS__}, sizeof((uint64_t[]){__VA_ARGS__}) / sizeof(uint64_t))

/* Expects a refused unit to have no parts, no fields and no breaches, whatever is asked. */
static void empty(const uint8_t *unit, size_t length, uint64_t stop)
{
    uint64_t answer[DIBOL_ROW_LEN] = {99, 99, 99, 99, 99, 99, 99, 99};

    SAME(dibol_breaches(unit, length, 0, answer, DIBOL_ROW_LEN), 0);
    ARE(answer, 99, 99, 99, 99, 99, 99, 99, 99);
    SAME(dibol_parts(unit, length, answer, 6), stop);
    ARE(answer, 0, 0, 0, 0, 0, 0, 99, 99);
    memset(answer, 99, sizeof answer);
    SAME(dibol_field(unit, length, 0, answer, 5), 0);
    ARE(answer, 0, 0, 0, 0, 0);
    memset(answer, 99, sizeof answer);
    SAME(dibol_invalid(unit, length, (const uint8_t *)"x", 1, answer, 4), stop);
    ARE(answer, stop, 0, 0, 0);
}

/* Expects check, fence and run to refuse a unit alike, and nothing else to be found in it. */
static void refused(const uint8_t *unit, size_t length, uint64_t stop, uint64_t place)
{
    uint64_t answer[3] = {99, 99, 99}, state[DIBOL_STATE_LEN] = {0};
    uint8_t data[1] = {'x'};

    empty(unit, length, stop);

    SAME(dibol_check(unit, length, answer, 3), stop);
    SAME(answer[0], stop);
    SAME(answer[1], place);
    SAME(answer[2], 0);
    SAME(dibol_fence(unit, length, answer, 2), 2);
    SAME(answer[0], stop);
    SAME(answer[1], place);
    SAME(dibol_breach(unit, length, 0), 0);
    SAME(dibol_literal(unit, length, 0, answer, 2), 0);
    SAME(dibol_run(unit, length, data, 1, state, DIBOL_STATE_LEN, 9, answer, 3), stop);
    SAME(answer[0], stop);
    SAME(answer[1], place);
    SAME(answer[2], 0);
    SAME(data[0], 'x');
}

static void the_example(void)
{
    uint64_t answer[3] = {99, 99, 99}, state[DIBOL_STATE_LEN] = {0};
    uint8_t data[2] = {'4', '1'};

    SAME(dibol_check(EXAMPLE, 42, answer, 3), 0);
    SAME(answer[0], 0);
    SAME(answer[1], 0);
    SAME(answer[2], 2);
    SAME(dibol_fence(EXAMPLE, 42, answer, 2), 0);
    SAME(answer[0], 0);
    SAME(answer[1], 0);
    SAME(dibol_run(EXAMPLE, 42, data, 2, state, DIBOL_STATE_LEN, 100000, answer, 3), 0);
    SAME(answer[0], 0);
    SAME(answer[1], 2);
    SAME(answer[2], 2);
    SAME(state[0], 2);
    SAME(state[1], 0);
    SAME_BYTES(data, "42", 2);
}

static void refusals(void)
{
    static const uint8_t none[12] = {0, 0, 0, 0, 0, 0, 0, 0, 0, 0, 0x44, 0x42};
    static uint8_t long_unit[57354];
    const entry bad_field[] = {{0, 0, 1, 1}, {0, 0, 1, 1}}, stop[] = {{11, 0, 0, 0}};
    parts p = {"x", bad_field, 2, "", 0, "", stop, 1};
    coded unit = unit_of(&p);

    for (size_t length = 0; length < 42; length++)
        refused(EXAMPLE, length, 1, 0);
    refused(long_unit, sizeof long_unit, 1, 0);
    refused(none, 12, 2, 0);
    refused(unit.bytes, unit.len, 3, 1);
    unit = ONE(FIELD("\0"), 2, 0, 0, 0);
    refused(unit.bytes, unit.len, 4, 0);
    unit = ONE(FIELD("\0") CLOSE, 27, 0, 0, 0);
    refused(unit.bytes, unit.len, 5, 0);
}

/* 6 for the data, and 7 for each way in which a state is unsound. */
static void refused_calls(void)
{
    static const struct {
        size_t at;
        uint64_t number;
    } unsound[] = {{0, 3},     {1, 51},         {2, 1},          {51, 1},    {52, 1},  {101, 3},
                   {0, 65536}, {1, 1ULL << 32}, {2, UINT64_MAX}, {51, 65536}, {53, 1}, {103, 1}};
    uint8_t data[3] = {'4', '1', '!'};
    uint64_t answer[3], state[DIBOL_STATE_LEN] = {0};

    SAME(dibol_run(EXAMPLE, 42, data, 1, state, DIBOL_STATE_LEN, 9, answer, 3), 6);
    SAME(dibol_run(EXAMPLE, 42, data, 3, state, DIBOL_STATE_LEN, 9, answer, 3), 6);
    SAME(dibol_run(EXAMPLE, 42, data, 3, state, 52, 9, answer, 3), 6);
    SAME(dibol_run(EXAMPLE, 42, data, 2, state, 101, 9, answer, 3), 7);
    for (size_t i = 0; i < LENGTH(unsound); i++) {
        memset(state, 0, sizeof state);
        state[unsound[i].at] = unsound[i].number;
        SAME(dibol_run(EXAMPLE, 42, data, 2, state, DIBOL_STATE_LEN, 9, answer, 3), 7);
        SAME(answer[1], 0);
        SAME(answer[2], 0);
        SAME(state[unsound[i].at], unsound[i].number);
        SAME_BYTES(data, "41!", 3);
    }
}

static void run_errors(void)
{
    const entry call[] = {{9, 0, 0, 0}}, back[] = {{10, 0, 0, 0}};
    coded unit;

    unit = ONE(FIELD("\0") CLOSE GREATEST NUMBER_1 ADD CLOSE, 1, 0, 4, 0);
    ran(&unit, 20, 0, 0, IMAGE);
    unit = ONE(GREATEST SUBSCRIPT("\0") CLOSE, 2, 0, 0, 0);
    ran(&unit, 21, 0, 0, IMAGE);
    unit = ONE(FIELD("\0") CLOSE AMOUNT CLOSE, 1, 0, 4, 0);
    ran(&unit, 22, 0, 0, IMAGE);
    unit = ONE(FIELD("\0") CLOSE NUMBER_1 NUMBER_0 DIVIDE CLOSE, 1, 0, 4, 0);
    ran(&unit, 23, 0, 0, IMAGE);
    unit = unit_with("", 0, call, 1);
    ran(&unit, 24, 0, 50, IMAGE);
    unit = unit_with("", 0, back, 1);
    ran(&unit, 25, 0, 0, IMAGE);
    unit = ONE(FIELD("\0") CLOSE NUMBER_1 NUMBER_99 ROUND CLOSE, 1, 0, 4, 0);
    ran(&unit, 26, 0, 0, IMAGE);
}

/* A formatted move stores what its mask shows, and the mask is not the literal of its statement. */
static void a_formatted_move(void)
{
    const coded unit = ONE(FIELD("\1") CLOSE MASK CLOSE FIELD("\0") NEGATE CLOSE, 13, 0, 4, 10);
    uint64_t answer[2] = {99, 99};

    ran(&unit, 0, 1, 1, "0102 .1-0");
    SAME(dibol_literal(unit.bytes, unit.len, 0, answer, 2), 0);
    SAME(answer[0], 0);
    SAME(answer[1], 0);
}

/* The control place is the decimal of one character, and the numbers stand in a row behind it. */
#define LOOP(start, limit, step) FIELD("\3") CLOSE start CLOSE limit CLOSE step CLOSE

/* A FOR of these numbers in statement 1, behind a CLEAR of its control place, with its loop end
 * behind it. */
static coded loop_of(const char *expressions, size_t length)
{
    const entry loop[] = {{2, 0, 0, 0}, {14, 0, 4, 2}, {15, 0, 0, 0}};

    return unit_with(expressions, length, loop, 3);
}

#define LOOP_OF(...) loop_of(LOOP(__VA_ARGS__), sizeof(LOOP(__VA_ARGS__)) - 1)

/* 27, 28 and 29, and 20 for a control value that does not fit. */
static void loop_errors(void)
{
    static const uint8_t acting[] = {15, 16, 17};
    const char numbers[] = LOOP(NUMBER_1, NUMBER_9, NUMBER_1);
    const entry leaking[] = {{14, 0, 4, 2}, {7, 0, 0, 0}, {15, 0, 0, 0}};
    coded unit = LOOP_OF(NUMBER_1, NUMBER_9, NUMBER_1);

    ran(&unit, 20, 2, 10, "0102wxyz9");
    unit = LOOP_OF(GREATEST, NUMBER_1, NUMBER_1);
    ran(&unit, 20, 1, 1, IMAGE);
    unit = LOOP_OF(GREATEST, NUMBER_1, NUMBER_0);
    ran(&unit, 27, 1, 1, IMAGE);
    unit = unit_with(numbers, sizeof numbers - 1, leaking, 3);
    ran(&unit, 28, 0, 32, "0102wxyz1");
    for (size_t i = 0; i < LENGTH(acting); i++) {
        unit = unit_one("", 0, (entry){acting[i], 0, 0, 0});
        ran(&unit, 29, 0, 0, IMAGE);
    }
}

/* An open loop stands in the state, its limit and its step with their signs, and is gone from it
 * when the loop is left. */
static void a_loop(void)
{
    const coded unit = LOOP_OF(NUMBER_3, NUMBER_1 NEGATE, NUMBER_2 NEGATE);
    uint8_t data[sizeof IMAGE - 1];
    uint64_t answer[3], state[DIBOL_STATE_LEN] = {0}, next[DIBOL_STATE_LEN] = {2};

    next[52] = 1;
    next[53] = 1;
    next[54] = (uint64_t)(int64_t)-1;
    next[55] = (uint64_t)(int64_t)-2;
    memcpy(data, IMAGE, sizeof data);
    SAME(dibol_run(unit.bytes, unit.len, data, sizeof data, state, DIBOL_STATE_LEN, 2, answer, 3),
         30);
    SAME_BYTES(state, next, sizeof state);
    SAME_BYTES(data, "0102wxyz3", sizeof data);
    SAME(dibol_run(unit.bytes, unit.len, data, sizeof data, state, DIBOL_STATE_LEN, 9, answer, 3),
         0);
    SAME(answer[2], 3);
    memset(next, 0, sizeof next);
    next[0] = 3;
    SAME_BYTES(state, next, sizeof state);
    SAME_BYTES(data, "0102wxyzs", sizeof data);
}

/* A state with one open loop that has another number in one place, and what a run with nothing
 * allowed says of it: 30, or 7. */
static void loop_state(const coded *unit, size_t at, uint64_t number, uint64_t stop)
{
    uint8_t data[sizeof IMAGE - 1];
    uint64_t answer[3], state[DIBOL_STATE_LEN] = {2};

    state[52] = 1;
    state[53] = 1;
    state[54] = 9;
    state[55] = 1;
    state[at] = number;
    memcpy(data, IMAGE, sizeof data);
    SAME(dibol_run(unit->bytes, unit->len, data, sizeof data, state, DIBOL_STATE_LEN, 0, answer, 3),
         stop);
    SAME(state[at], number);
}

/* Each way in which an open loop is unsound, beside the numbers that are just sound. */
static void loop_states(void)
{
    static const struct {
        size_t at;
        uint64_t number;
    } unsound[] = {{52, 0}, {52, 2}, {52, 17}, {52, 65537}, {53, 0}, {53, 2}, {53, 3},
                   {53, 65537}, {55, 0}, {56, 1}, {57, 1}, {58, 1}, {98, 1}, {100, UINT64_MAX}};
    const uint64_t greatest = 999999999999999999;
    const coded unit = LOOP_OF(NUMBER_1, NUMBER_9, NUMBER_1);

    loop_state(&unit, 52, 1, 30);
    for (size_t at = 54; at <= 55; at++) {
        loop_state(&unit, at, greatest, 30);
        loop_state(&unit, at, greatest + 1, 7);
        loop_state(&unit, at, -greatest, 30);
        loop_state(&unit, at, -greatest - 1, 7);
    }
    loop_state(&unit, 54, 0, 30);
    for (size_t i = 0; i < LENGTH(unsound); i++)
        loop_state(&unit, unsound[i].at, unsound[i].number, 7);
}

/* An ONERROR to statement 2, the INCR of field 3 with which the run goes on, and between them a
 * statement. */
#define COUNTED FIELD("\3") CLOSE

static coded under_onerror(const char *expressions, size_t length, entry statement)
{
    const entry trapping[] = {{18, 0, 0, 2}, statement, {3, 0, 0, 0}};

    return unit_with(expressions, length, trapping, 3);
}

#define UNDER_ONERROR(expressions, ...)                                                            \
    under_onerror(COUNTED expressions, sizeof(COUNTED expressions) - 1, (entry){__VA_ARGS__})

/* Expects what a run from the image leaves of the handler, plus 1, and of the last error. */
static void kept(const coded *unit, uint64_t handler, uint64_t error, uint64_t statement)
{
    uint8_t data[sizeof IMAGE - 1];
    uint64_t answer[3], state[DIBOL_STATE_LEN] = {0};

    memcpy(data, IMAGE, sizeof data);
    dibol_run(unit->bytes, unit->len, data, sizeof data, state, DIBOL_STATE_LEN, 100, answer, 3);
    SAME(state[101], handler);
    SAME(state[102], error);
    SAME(state[103], statement);
}

/* Expects a run to trap an error at statement 1, to count that statement, and to go on at 2. */
static void trapped(const coded *unit, uint64_t error)
{
    ran(unit, 0, 3, 3, "0102wxyz1");
    kept(unit, 3, error, 1);
}

/* Each of the five is trapped. */
static void trapped_errors(void)
{
    coded unit;

    unit = UNDER_ONERROR(FIELD("\0") CLOSE GREATEST NUMBER_1 ADD CLOSE, 1, 4, 8, 0);
    trapped(&unit, 20);
    unit = UNDER_ONERROR(GREATEST SUBSCRIPT("\0") CLOSE, 2, 4, 0, 0);
    trapped(&unit, 21);
    unit = UNDER_ONERROR(FIELD("\0") CLOSE AMOUNT CLOSE, 1, 4, 8, 0);
    trapped(&unit, 22);
    unit = UNDER_ONERROR(FIELD("\0") CLOSE NUMBER_1 NUMBER_0 DIVIDE CLOSE, 1, 4, 8, 0);
    trapped(&unit, 23);
    unit = UNDER_ONERROR(FIELD("\0") CLOSE NUMBER_1 NUMBER_99 ROUND CLOSE, 1, 4, 8, 0);
    trapped(&unit, 26);
}

/* Expects a run to stop at statement 1 with an error that a handler at statement 2 does not trap. */
static void not_trapped(const coded *unit, uint64_t stop, uint64_t count, const char *data)
{
    ran(unit, stop, 1, count, data);
    kept(unit, 3, 0, 0);
}

/* The other run errors are not, whatever the handler. */
static void errors_not_trapped(void)
{
    const char steady[] = LOOP(NUMBER_1, NUMBER_9, NUMBER_0);
    const char leaving[] = LOOP(NUMBER_1, NUMBER_9, NUMBER_1);
    const entry zero_step[] = {{18, 0, 0, 2}, {14, 0, 4, 2}, {15, 0, 0, 0}};
    const entry leaking[] = {{18, 0, 0, 2}, {14, 0, 4, 3}, {7, 0, 0, 1}, {15, 0, 0, 0}};
    coded unit;

    unit = UNDER_ONERROR("", 9, 0, 0, 1);
    not_trapped(&unit, 24, 51, IMAGE);
    unit = UNDER_ONERROR("", 10, 0, 0, 0);
    not_trapped(&unit, 25, 1, IMAGE);
    unit = unit_with(steady, sizeof steady - 1, zero_step, 3);
    not_trapped(&unit, 27, 1, IMAGE);
    unit = unit_with(leaving, sizeof leaving - 1, leaking, 4);
    not_trapped(&unit, 28, 33, "0102wxyz1");
    unit = UNDER_ONERROR("", 15, 0, 0, 0);
    not_trapped(&unit, 29, 1, IMAGE);
}

/* OFFERROR takes the handler away, and the next error stops the run; the error that was trapped
 * before stays the last. A handler must be a statement of the unit. */
static void handlers(void)
{
    const char expressions[] = COUNTED GREATEST SUBSCRIPT("\0") CLOSE;
    const entry once[] = {{18, 0, 0, 2}, {2, 4, 0, 0}, {19, 0, 0, 0}, {3, 0, 0, 0}, {2, 4, 0, 0}};
    const entry itself[] = {{18, 0, 0, 1}, {2, 4, 0, 0}};
    coded unit = unit_with(expressions, sizeof expressions - 1, once, 5);

    ran(&unit, 21, 4, 4, "0102wxyz1");
    kept(&unit, 0, 21, 1);
    unit = unit_with(expressions, sizeof expressions - 1, itself, 2);
    ran(&unit, 30, 1, 100, IMAGE);
    kept(&unit, 2, 21, 1);
    unit = ONE("", 18, 0, 0, 0);
    ran(&unit, 0, 1, 1, IMAGE);
    kept(&unit, 1, 0, 0);
    unit = ONE("", 18, 0, 0, 1);
    refused(unit.bytes, unit.len, 5, 0);
}

/* A state of a unit of two statements with these numbers of ONERROR, and what a run with nothing
 * allowed says of it: 30, or 7. */
static void trap_state(uint64_t handler, uint64_t error, uint64_t statement, uint64_t stop)
{
    uint8_t data[2] = {'4', '1'};
    uint64_t answer[3], state[DIBOL_STATE_LEN] = {0}, before[DIBOL_STATE_LEN];

    state[101] = handler;
    state[102] = error;
    state[103] = statement;
    memcpy(before, state, sizeof before);
    SAME(dibol_run(EXAMPLE, 42, data, 2, state, DIBOL_STATE_LEN, 0, answer, 3), stop);
    SAME_BYTES(state, before, sizeof state);
}

/* Each way in which a handler or a last error is unsound, beside the numbers that are just sound. */
static void trap_states(void)
{
    static const uint64_t five[] = {20, 21, 22, 23, 26};
    static const uint64_t others[] = {1,  4,  7,  19, 24,  25,  27,       28,
                                      29, 30, 34, 99, 255, 256, 256 + 22, UINT64_MAX};

    trap_state(0, 0, 0, 30);
    trap_state(1, 0, 0, 30);
    trap_state(2, 0, 0, 30);
    trap_state(3, 0, 0, 7);
    trap_state(65535, 0, 0, 7);
    trap_state(65536, 0, 0, 7);
    trap_state(UINT64_MAX, 0, 0, 7);
    for (size_t i = 0; i < LENGTH(five); i++) {
        trap_state(0, five[i], 0, 30);
        trap_state(2, five[i], 1, 30);
        trap_state(0, five[i], 2, 7);
        trap_state(0, five[i], 65535, 7);
        trap_state(0, five[i], 65536, 7);
        trap_state(3, five[i], 1, 7);
    }
    for (size_t i = 0; i < LENGTH(others); i++)
        trap_state(0, others[i], 0, 7);
    trap_state(0, 0, 1, 7);
    trap_state(1, 0, 65536, 7);
}

/* A host reads the last error off the state, with its words; the run itself came to its end. */
static void reading_the_last_error(void)
{
    const coded unit = UNDER_ONERROR(FIELD("\0") CLOSE AMOUNT CLOSE, 1, 4, 8, 0);
    uint8_t data[sizeof IMAGE - 1], words[64];
    uint64_t answer[3], state[DIBOL_STATE_LEN] = {0};
    char line[100];

    memcpy(data, IMAGE, sizeof data);
    SAME(dibol_run(unit.bytes, unit.len, data, sizeof data, state, DIBOL_STATE_LEN, 9, answer, 3),
         DIBOL_END);
    SAME(state[102], DIBOL_BAD_DIGIT);
    snprintf(line, sizeof line, "error %d at statement %d: %.*s", (int)state[102], (int)state[103],
             (int)dibol_words(state[102], words, sizeof words), (char *)words);
    SAME(strcmp(line, "error 22 at statement 1: Bad digit encountered"), 0);
}

static void pausing(void)
{
    const entry loop[] = {{3, 0, 0, 0}, {7, 0, 0, 0}};
    const coded unit = unit_with(FIELD("\0") CLOSE, 4, loop, 2);
    uint8_t data[sizeof IMAGE - 1];
    uint64_t answer[3], state[DIBOL_STATE_LEN] = {0};

    ran(&unit, 30, 0, 100, "5102wxyz0");
    memcpy(data, IMAGE, sizeof data);
    for (uint64_t i = 1; i <= 100; i++) {
        SAME(dibol_run(unit.bytes, unit.len, data, sizeof data, state, DIBOL_STATE_LEN, 1, answer,
                       3),
             30);
        SAME(answer[1], i % 2);
        SAME(answer[2], 1);
    }
    SAME_BYTES(data, "5102wxyz0", sizeof data);
    SAME(dibol_run(unit.bytes, unit.len, data, sizeof data, state, DIBOL_STATE_LEN, 0, answer, 3),
         30);
    SAME(answer[2], 0);
}

/* A finished state runs nothing, whatever is allowed; a state of zeros runs the unit anew. */
static void starting_anew(void)
{
    uint8_t data[2] = {'4', '1'};
    uint64_t answer[3], state[DIBOL_STATE_LEN] = {0};

    SAME(dibol_run(EXAMPLE, 42, data, 2, state, DIBOL_STATE_LEN, 9, answer, 3), 0);
    SAME_BYTES(data, "42", 2);
    for (uint64_t allowance = 0; allowance < 3; allowance++) {
        SAME(dibol_run(EXAMPLE, 42, data, 2, state, DIBOL_STATE_LEN, allowance, answer, 3), 0);
        SAME(answer[1], 2);
        SAME(answer[2], 0);
        SAME(state[0], 2);
        SAME_BYTES(data, "42", 2);
    }
    memset(state, 0, sizeof state);
    SAME(dibol_run(EXAMPLE, 42, data, 2, state, DIBOL_STATE_LEN, 9, answer, 3), 0);
    SAME(answer[2], 2);
    SAME_BYTES(data, "43", 2);
}

/* A state that another unit left is accepted where it is in range, and the run goes on there. */
static void foreign_states(void)
{
    const entry call[] = {{9, 0, 0, 1}, {11, 0, 0, 0}, {9, 0, 0, 3}, {11, 0, 0, 0}};
    const coded other = unit_with("", 0, call, 4);
    uint8_t data[sizeof IMAGE - 1], example[2] = {'4', '1'};
    uint64_t answer[3], state[DIBOL_STATE_LEN] = {0};

    memcpy(data, IMAGE, sizeof data);
    SAME(dibol_run(other.bytes, other.len, data, sizeof data, state, DIBOL_STATE_LEN, 1, answer, 3),
         30);
    SAME(dibol_run(EXAMPLE, 42, example, 2, state, DIBOL_STATE_LEN, 9, answer, 3), 0);
    SAME(answer[2], 1);
    SAME(state[0], 2);
    SAME(state[1], 1);
    SAME(state[2], 1);
    SAME_BYTES(example, "41", 2);
    memset(state, 0, sizeof state);
    state[0] = 2;
    SAME(dibol_run(other.bytes, other.len, data, sizeof data, state, DIBOL_STATE_LEN, 1, answer, 3),
         30);
    SAME(dibol_run(EXAMPLE, 42, example, 2, state, DIBOL_STATE_LEN, 9, answer, 3), 7);
}

/* A state that an earlier version saved after so many statements has fewer numbers: 52 in version 0.1,
 * and 101 in 0.2. With zeros behind them it is the state that is handed back now, and the run goes on
 * as it would have. */
static void old_state(const coded *unit, const uint64_t *saved, size_t length, uint64_t allowance,
                      uint64_t stop, uint64_t place, const char *wanted)
{
    uint8_t data[sizeof IMAGE - 1];
    uint64_t answer[3], state[DIBOL_STATE_LEN] = {0}, now[DIBOL_STATE_LEN] = {0};

    memcpy(data, IMAGE, sizeof data);
    memcpy(state, saved, length * sizeof *saved);
    SAME(dibol_run(unit->bytes, unit->len, data, sizeof data, now, DIBOL_STATE_LEN, allowance,
                   answer, 3),
         30);
    SAME_BYTES(state, now, sizeof state);
    SAME(dibol_run(unit->bytes, unit->len, data, sizeof data, state, DIBOL_STATE_LEN, 9, answer, 3),
         stop);
    SAME(answer[1], place);
    SAME_BYTES(data, wanted, sizeof data);
}

/* Such states inside a call, with all 50 calls open, and of 0.2 inside a loop. */
static void old_states(void)
{
    const entry called[] = {{9, 0, 0, 2}, {11, 0, 0, 0}, {3, 0, 0, 0}, {10, 0, 0, 0}};
    const entry calling[] = {{9, 0, 0, 0}};
    const coded inside = unit_with(FIELD("\0") CLOSE, 4, called, 4);
    const coded full = unit_with("", 0, calling, 1);
    const coded loop = LOOP_OF(NUMBER_1, NUMBER_3, NUMBER_2);
    uint64_t calls[52] = {0, 50}, looping[101] = {2};

    for (size_t i = 2; i < LENGTH(calls); i++)
        calls[i] = 1;
    looping[52] = 1;
    looping[53] = 1;
    looping[54] = 3;
    looping[55] = 2;
    old_state(&inside, (uint64_t[52]){3, 1, 1}, 52, 2, 0, 4, "0202wxyz0");
    old_state(&full, calls, 52, 50, 24, 0, IMAGE);
    old_state(&loop, looping, 101, 2, 0, 3, "0102wxyz5");
}

/* Expects the parts and the fields that a unit tells of. */
static void parts_and_fields(void)
{
    coded unit = ONE(FIELD("\1") CLOSE, 2, 0, 0, 0);
    uint64_t answer[6];

    SAME(dibol_parts(EXAMPLE, 42, answer, 6), 0);
    ARE(answer, 2, 1, 4, 0, 2, 18);
    SAME(dibol_parts(unit.bytes, unit.len, answer, 6), 0);
    ARE(answer, sizeof IMAGE - 1, LENGTH(FIELDS), 4, sizeof LITERALS - 1, 1, 18);
    for (size_t i = 0; i < LENGTH(FIELDS); i++) {
        SAME(dibol_field(unit.bytes, unit.len, i, answer, 5), 1);
        ARE(answer, FIELDS[i].first, FIELDS[i].a, FIELDS[i].b, FIELDS[i].c, 0);
    }
    unit.bytes[sizeof IMAGE - 1 + 8 + 1] = 0x80;
    SAME(dibol_field(unit.bytes, unit.len, 1, answer, 5), 1);
    ARE(answer, DIBOL_ALPHA, 4, 4, 1, 1);
    SAME(dibol_field(unit.bytes, unit.len, 2, answer, 5), 1);
    ARE(answer, DIBOL_RECORD, 0, 8, 1, 0);
}

/* Past the last field there is none, however far. */
static void past_the_fields(void)
{
    static const size_t past[] = {4, 5, 512, 65535, 65536, 65537, SIZE_MAX};
    const entry stop[] = {{11, 0, 0, 0}};
    parts p = {"x", FIELDS, 0, "", 0, "", stop, 1};
    coded unit = unit_with("", 0, stop, 1);
    uint64_t answer[6];

    for (size_t i = 0; i < LENGTH(past); i++) {
        memset(answer, 99, sizeof answer);
        SAME(dibol_field(unit.bytes, unit.len, past[i], answer, 5), 0);
        ARE(answer, 0, 0, 0, 0, 0);
    }
    unit = unit_of(&p);
    SAME(dibol_parts(unit.bytes, unit.len, answer, 6), 0);
    ARE(answer, 1, 0, 0, 0, 1, 18);
    SAME(dibol_field(unit.bytes, unit.len, 0, answer, 5), 0);
    ARE(answer, 0, 0, 0, 0, 0);
}

/* Expects what is answered of data for the fields above: 0, or 22 with a field, an element and an
 * offset. Nothing of the data is changed. */
static void held(const char *data, uint64_t number, uint64_t field, uint64_t element,
                 uint64_t offset)
{
    const coded unit = ONE(FIELD("\1") CLOSE, 2, 0, 0, 0);
    uint8_t bytes[sizeof IMAGE - 1];
    uint64_t answer[4] = {99, 99, 99, 99};

    memcpy(bytes, data, sizeof bytes);
    SAME(dibol_invalid(unit.bytes, unit.len, bytes, sizeof bytes, answer, 4), number);
    ARE(answer, number, field, element, offset);
    SAME_BYTES(bytes, data, sizeof bytes);
}

/* Elements in turn, each with its last character judged otherwise than the others, and spaces in
 * front; alpha may hold anything, and of the record nothing is asked. */
static void valid_data(void)
{
    const coded unit = ONE(FIELD("\1") CLOSE, 2, 0, 0, 0);
    uint8_t bytes[16] = {0};
    uint64_t answer[4];

    held(IMAGE, 0, 0, 0, 0);
    held("0p9y\0\377\n 9", 0, 0, 0, 0);
    held("  " " 7" "...." " ", 0, 0, 0, 0);
    held("P102" "wxyz" "0", 22, 0, 1, 0);
    held("p102" "wxyz" "0", 22, 0, 1, 0);
    held("1 02" "wxyz" "0", 22, 0, 1, 0);
    held("01z2" "wxyz" "0", 22, 0, 2, 2);
    held("010z" "wxyz" "0", 22, 0, 2, 2);
    held("p1p1" "wxyz" "z", 22, 0, 1, 0);
    held("0102" "wxyz" "z", 22, 3, 1, 8);
    held("0102" "wxyz" "o", 22, 3, 1, 8);
    held("0102" "wxyz" ":", 22, 3, 1, 8);
    held("0102" "wxyz" "/", 22, 3, 1, 8);
    for (size_t length = 0; length < sizeof bytes; length++)
        if (length != sizeof IMAGE - 1) {
            memset(answer, 99, sizeof answer);
            SAME(dibol_invalid(unit.bytes, unit.len, bytes, length, answer, 4), DIBOL_WRONG_SIZE);
            ARE(answer, DIBOL_WRONG_SIZE, 0, 0, 0);
        }
}

/* Expects the fence to name statement 1, behind a STOP, and the number of a rule, and one reference to
 * break it: its row is this. */
static void fenced_off(const char *expressions, size_t length, entry statement, const uint64_t *row)
{
    const entry both[] = {{11, 0, 0, 0}, statement};
    const coded unit = unit_with(expressions, length, both, 2);
    const uint64_t rule = row[1];
    uint64_t answer[2] = {99, 99}, rows[DIBOL_ROW_LEN];

    SAME(dibol_breaches(unit.bytes, unit.len, 0, rows, DIBOL_ROW_LEN), 1);
    are(rows, row, DIBOL_ROW_LEN);

    SAME(dibol_fence(unit.bytes, unit.len, answer, 2), 1);
    SAME(answer[0], 1);
    SAME(answer[1], rule);
    SAME(dibol_breach(unit.bytes, unit.len, 0), 0);
    SAME(dibol_breach(unit.bytes, unit.len, 1), rule);
    SAME(dibol_breach(unit.bytes, unit.len, 2), 0);
    SAME(dibol_breach(unit.bytes, unit.len, SIZE_MAX), 0);
}

#define OFF(row, expressions, ...)                                                                 \
    fenced_off(expressions, sizeof(expressions) - 1, (entry){__VA_ARGS__}, row)
#define ROW(...) ((uint64_t[]){__VA_ARGS__})

/* For each rule a place that breaks it: statement, rule, written, field, form, start, length, item. */
static void fence_rules(void)
{
    OFF(ROW(1, 1, 1, 0, 3, 0, 0, 3), FIELD("\3") SUBSCRIPT("\0") CLOSE, 2, 0, 0, 0);
    OFF(ROW(1, 2, 1, 1, 4, 0, 0, 8), NUMBER_0 NUMBER_2 START_END("\1") CLOSE, 2, 0, 0, 0);
    OFF(ROW(1, 3, 1, 0, 3, 4, 2, 4), NUMBER_3 SUBSCRIPT("\0") CLOSE, 2, 0, 0, 0);
    OFF(ROW(1, 4, 1, 0, 4, 1, 2, 8), NUMBER_2 NUMBER_3 START_END("\0") CLOSE, 2, 0, 0, 0);
    OFF(ROW(1, 5, 1, 0, 4, 0, 1, 8), NUMBER_1 NUMBER_1 START_END("\0") CLOSE, 2, 0, 0, 0);
    OFF(ROW(1, 6, 1, 2, 2, 0, 8, 0), FIELD("\2") CLOSE, 5, 0, 0, 0);
    OFF(ROW(1, 3, 1, 1, 5, 2, 3, 9), NUMBER_1 NUMBER_3 NEGATE POS_LENGTH("\1") CLOSE, 2, 0, 0, 0);
}

/* A SET of field 0 by its own value from the sum of three references, of which the first leaves its
 * field, the second keeps the rules, and the third is over two elements; then an UPCASE of the record,
 * and the SET once more. */
static const char BROKEN[] = FIELD("\0") SUBSCRIPT("\0") CLOSE                /* the place, at 0 */
    NUMBER_3 SUBSCRIPT("\0") NUMBER_2 SUBSCRIPT("\0") ADD                    /* the source, at 7 */
    NUMBER_2 NUMBER_3 START_END("\0") ADD CLOSE FIELD("\2") CLOSE;           /* the record, at 35 */

static const uint64_t BROKEN_ROWS[7 * DIBOL_ROW_LEN] = {
    0, 1, 1, 0, 3, 0, 0, 3,  /* the place, by rule 1; the reference in its bound is read */
    0, 3, 0, 0, 3, 4, 2, 11, /* the others by their own rules */
    0, 4, 0, 0, 4, 1, 2, 30,
    2, 6, 1, 2, 2, 0, 8, 35, /* statement 1, a STOP, has none */
    3, 1, 1, 0, 3, 0, 0, 3,  /* the same items, of another statement */
    3, 3, 0, 0, 3, 4, 2, 11,
    3, 4, 0, 0, 4, 1, 2, 30};

/* Every reference that breaks a rule has a row, from any one on, and whole rows alone are written. */
static void breaches(void)
{
    static const size_t skips[] = {0, 1, 2, 5, 6, 7, 8, 65536, SIZE_MAX / 8, SIZE_MAX};
    const entry set = {1, 0, 7, 0};
    const entry all[] = {set, {11, 0, 0, 0}, {5, 35, 0, 0}, set};
    const coded unit = unit_with(BROKEN, sizeof BROKEN - 1, all, 4);
    uint64_t rows[8 * DIBOL_ROW_LEN], wanted[8 * DIBOL_ROW_LEN];

    for (size_t i = 0; i < LENGTH(skips); i++)
        for (size_t length = 0; length <= LENGTH(rows); length++) {
            size_t left = skips[i] < 7 ? 7 - skips[i] : 0, room = length / DIBOL_ROW_LEN;
            size_t put = (left < room ? left : room) * DIBOL_ROW_LEN;

            memset(rows, 99, sizeof rows);
            memset(wanted, 99, sizeof wanted);
            if (put > 0)
                memcpy(wanted, BROKEN_ROWS + skips[i] * DIBOL_ROW_LEN, put * sizeof *rows);
            SAME(dibol_breaches(unit.bytes, unit.len, skips[i], rows, length), 7);
            SAME_BYTES(rows, wanted, sizeof rows);
        }
}

/* Expects one reference that breaks a rule, the first of a unit of one statement, and its row. */
static void first_row(const coded *unit, uint64_t count, const uint64_t *row)
{
    uint64_t rows[DIBOL_ROW_LEN];

    SAME(dibol_breaches(unit->bytes, unit->len, 0, rows, DIBOL_ROW_LEN), count);
    are(rows, row, DIBOL_ROW_LEN);
}

/* Lent where no row is wanted. */
static uint64_t no_rows[1];

/* What is written of each statement that has more than one expression: a mask and the numbers of a FOR
 * are read, in the order in which a run works them out; an alpha source may cover decimals. */
static void written_and_read(void)
{
    coded unit = ONE(FIELD("\1") CLOSE FIELD("\2") CLOSE, 1, 0, 4, 0);

    SAME(dibol_breaches(unit.bytes, unit.len, 0, no_rows, 0), 0);
    unit = ONE(FIELD("\2") CLOSE NUMBER_9 NUMBER_9 START_END("\1") CLOSE FIELD("\3") CLOSE, 13, 0, 4,
               16);
    first_row(&unit, 2, ROW(0, 6, 1, 2, 2, 0, 8, 0));
    unit = ONE(FIELD("\1") CLOSE NUMBER_9 NUMBER_9 START_END("\1") CLOSE FIELD("\3") CLOSE, 13, 0, 4,
               16);
    first_row(&unit, 1, ROW(0, 2, 0, 1, 4, 0, 0, 12));
    unit = LOOP_OF(NUMBER_3 SUBSCRIPT("\0"), FIELD("\3") SUBSCRIPT("\0"), NUMBER_1);
    first_row(&unit, 2, ROW(1, 3, 0, 0, 3, 4, 2, 8));
    SAME(dibol_breaches(EXAMPLE, 42, 0, no_rows, 0), 0);
}

static void literals(void)
{
    const coded unit = ONE(FIELD("\1") CLOSE AB CLOSE, 1, 0, 4, 0);
    const uint64_t offset = 9 + 4 * 8 + 10 + 28;
    uint64_t answer[2] = {99, 99};

    SAME(dibol_literal(unit.bytes, unit.len, 0, answer, 2), 2);
    SAME(answer[0], offset);
    SAME(answer[1], 2);
    SAME_BYTES(unit.bytes + answer[0], "ab", 2);
    SAME(dibol_literal(unit.bytes, unit.len, 1, answer, 2), 0);
    SAME(answer[0], 0);
    SAME(answer[1], 0);
    SAME(dibol_literal(EXAMPLE, 42, 0, answer, 2), 0);
    ran(&unit, 0, 1, 1, "0102ab  0");
}

static void versions(void)
{
    SAME(dibol_version(), 400);
    SAME(dibol_state_len(), DIBOL_STATE_LEN);
    SAME(DIBOL_STATE_LEN, 104);
}

int main(void)
{
    the_example();
    refusals();
    refused_calls();
    run_errors();
    a_formatted_move();
    loop_errors();
    a_loop();
    loop_states();
    trapped_errors();
    errors_not_trapped();
    handlers();
    trap_states();
    reading_the_last_error();
    pausing();
    starting_anew();
    foreign_states();
    old_states();
    parts_and_fields();
    past_the_fields();
    valid_data();
    fence_rules();
    breaches();
    written_and_read();
    literals();
    versions();
    return told("answers");
}
