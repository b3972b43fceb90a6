/* Stored units, with every lent buffer against a page that cannot be touched: first behind its last
 * byte, then before its first. The unit itself cannot be written. What the library reads or writes
 * outside what it was lent ends the program, and the answers are those from ordinary memory.
 *
 *     pages FILES..
 */
#define _DEFAULT_SOURCE
#include <stdlib.h>
#include <sys/mman.h>
#include <unistd.h>

#include "expect.h"

#define UNIT_MOST 57353
#define SLICE 7
#define SLICES_MOST 200

/* The longest answer is a row of a breach. */
#define ROOMS (DIBOL_ROW_LEN + 1)

/* A stretch of memory between two pages that cannot be touched. */
typedef struct {
    uint8_t *start;
    size_t length;
} arena;

/* All that a unit is asked, in its order. */
typedef struct {
    size_t count;
    uint64_t answers[32768];
} record;

static arena arena_of(size_t least)
{
    size_t page = (size_t)sysconf(_SC_PAGESIZE), length = (least + page - 1) / page * page;
    uint8_t *all = mmap(NULL, length + 2 * page, PROT_NONE, MAP_PRIVATE | MAP_ANONYMOUS, -1, 0);

    if (all == MAP_FAILED || mprotect(all + page, length, PROT_READ | PROT_WRITE) != 0) {
        perror("pages");
        exit(2);
    }
    return (arena){all + page, length};
}

/* The place of so many bytes at an end of an arena. */
static void *place(const arena *a, size_t length, int is_last)
{
    return is_last ? a->start + a->length - length : a->start;
}

static void note(record *r, uint64_t number)
{
    if (r->count < sizeof r->answers / sizeof *r->answers)
        r->answers[r->count++] = number;
}

static void note_all(record *r, const uint64_t *numbers, size_t count)
{
    for (size_t i = 0; i < count; i++)
        note(r, numbers[i]);
}

/* Buffers to lend. */
typedef struct {
    const uint8_t *unit;
    size_t unit_len;
    uint8_t *data;
    size_t data_len;
    uint64_t *state;
    uint64_t *answers[ROOMS]; /* room for no number, for one, and so on */
} lent;

static size_t least(size_t a, size_t b)
{
    return a < b ? a : b;
}

/* Asks for the first breaches of a unit, one by one, and past the last. */
static void ask_rows(const lent *l, record *r)
{
    uint64_t *row = l->answers[DIBOL_ROW_LEN];
    uint64_t count = dibol_breaches(l->unit, l->unit_len, 0, l->answers[0], 0);

    note(r, count);
    for (size_t i = 0; i <= count && i < 40; i++) {
        memset(row, 0, DIBOL_ROW_LEN * sizeof *row);
        note(r, dibol_breaches(l->unit, l->unit_len, i, row, DIBOL_ROW_LEN));
        note_all(r, row, DIBOL_ROW_LEN);
    }
}

/* Asks all about a unit but its runs. */
static void ask(const lent *l, record *r)
{
    size_t n =
        l->unit_len < 12 ? 0 : (size_t)l->unit[l->unit_len - 4] << 8 | l->unit[l->unit_len - 3];

    memcpy(l->data, l->unit, l->data_len);
    for (size_t room = 0; room < ROOMS; room++) {
        uint64_t *answer = l->answers[room];

        note(r, dibol_check(l->unit, l->unit_len, answer, room));
        note_all(r, answer, least(room, 3));
        note(r, dibol_parts(l->unit, l->unit_len, answer, room));
        note_all(r, answer, least(room, 6));
        note(r, dibol_fence(l->unit, l->unit_len, answer, room));
        note_all(r, answer, least(room, 2));
        note(r, dibol_invalid(l->unit, l->unit_len, l->data, l->data_len, answer, room));
        note_all(r, answer, least(room, 4));
    }
    for (size_t i = 0; i <= n && i < 40; i++) {
        note(r, dibol_breach(l->unit, l->unit_len, i));
        note(r, dibol_literal(l->unit, l->unit_len, i, l->answers[2], 2));
        note_all(r, l->answers[2], 2);
        note(r, dibol_field(l->unit, l->unit_len, i, l->answers[5], 5));
        note_all(r, l->answers[5], 5);
    }
    ask_rows(l, r);
}

/* Runs a unit in slices and notes how each of them ended. */
static void run(const lent *l, record *r)
{
    uint64_t stop = 30;

    memset(l->state, 0, DIBOL_STATE_LEN * sizeof *l->state);
    memcpy(l->data, l->unit, l->data_len);
    for (size_t i = 0; i < SLICES_MOST && stop == 30; i++) {
        stop = dibol_run(l->unit, l->unit_len, l->data, l->data_len, l->state, DIBOL_STATE_LEN,
                         SLICE, l->answers[3], 3);
        note(r, stop);
        note_all(r, l->answers[3], 3);
        note_all(r, l->state, 4);
        note_all(r, l->state + 52, 4);
        note_all(r, l->state + 101, 3);
    }
    for (size_t i = 0; i < l->data_len; i++)
        note(r, l->data[i]);
}

static size_t read_file(const char *name, uint8_t *bytes)
{
    FILE *file = fopen(name, "rb");
    size_t length;

    if (!file) {
        perror(name);
        exit(2);
    }
    length = fread(bytes, 1, UNIT_MOST + 1, file);
    fclose(file);
    return length;
}

/* Asks all about a unit in ordinary memory. */
static void in_memory(const uint8_t *unit, size_t length, size_t data_len, record *r)
{
    static uint8_t data[UNIT_MOST];
    static uint64_t state[DIBOL_STATE_LEN], answer[ROOMS];
    lent l = {unit, length, data, data_len, state, {0}};

    for (size_t room = 0; room < ROOMS; room++)
        l.answers[room] = answer;
    r->count = 0;
    ask(&l, r);
    run(&l, r);
}

/* Asks all about a unit with every buffer at an end of its arena. */
static void at_an_end(const uint8_t *unit, size_t length, size_t data_len, int is_last, record *r)
{
    static arena arenas[3 + ROOMS];
    lent l;

    for (size_t i = 0; i < 3 + ROOMS && arenas[i].start == NULL; i++)
        arenas[i] = arena_of(i == 0 ? UNIT_MOST + 1 : i == 1 ? UNIT_MOST : 1);
    memcpy(place(&arenas[0], length, is_last), unit, length);
    mprotect(arenas[0].start, arenas[0].length, PROT_READ);
    l.unit = place(&arenas[0], length, is_last);
    l.unit_len = length;
    l.data = place(&arenas[1], data_len, is_last);
    l.data_len = data_len;
    l.state = place(&arenas[2], DIBOL_STATE_LEN * sizeof *l.state, is_last);
    for (size_t room = 0; room < ROOMS; room++)
        l.answers[room] = place(&arenas[3 + room], room * sizeof *l.state, is_last);
    r->count = 0;
    ask(&l, r);
    run(&l, r);
    mprotect(arenas[0].start, arenas[0].length, PROT_READ | PROT_WRITE);
}

int main(int argc, char **argv)
{
    static uint8_t unit[UNIT_MOST + 1];
    static record plain, guarded;
    uint64_t checked[3];

    for (int i = 1; i < argc; i++) {
        size_t length = read_file(argv[i], unit);

        dibol_check(unit, length, checked, 3);
        in_memory(unit, length, checked[2], &plain);
        for (int is_last = 0; is_last < 2; is_last++) {
            at_an_end(unit, length, checked[2], is_last, &guarded);
            SAME(guarded.count, plain.count);
            SAME_BYTES(guarded.answers, plain.answers, plain.count * sizeof *plain.answers);
        }
    }
    return told("pages");
}
