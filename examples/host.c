/* A host in C: it loads a unit from a file, checks it, shows its fields, asks the fence and whether
 * its data is valid, and runs it in slices of a few statements, as a host does that has a terminal or
 * a printer to see to between them.
 *
 *     host FILE [SLICE]
 *
 * The exit status is 0 when the run came to its end, 1 when it stopped otherwise, 2 when the unit
 * was refused, and 3 when there was nothing to run.
 */
#include <errno.h>
#include <inttypes.h>
#include <stdio.h>
#include <stdlib.h>
#include <string.h>

#include "dibol.h"

/* No unit is longer; one byte more is read to see that a file is. */
#define UNIT_MOST 57353

/* The statements that the whole run may complete. */
#define STATEMENTS_MOST UINT64_C(100000)

/* The breaches that are shown; of the others there is the number. */
#define BREACHES_MOST 5

/* Prints bytes that come from outside, so that none of them commands a terminal: printable ASCII as
 * it is, but a backslash twice, and any other byte as \xHH. */
static void print_bytes(FILE *file, const char *bytes, size_t length)
{
    for (size_t i = 0; i < length; i++)
        if (bytes[i] == '\\')
            fputs("\\\\", file);
        else if (bytes[i] < ' ' || bytes[i] > '~')
            fprintf(file, "\\x%02X", (unsigned)(uint8_t)bytes[i]);
        else
            fputc(bytes[i], file);
}

/* Prints a stop, or an error that was trapped: its number, its place and the library's words for
 * it. */
static void print_stop(const char *what, uint64_t stop, uint64_t place)
{
    uint8_t words[64]; /* no words are longer */
    uint64_t length = dibol_words(stop, words, sizeof words);

    printf("%s %" PRIu64 " at %" PRIu64 ": %.*s\n", what, stop, place, (int)length, (char *)words);
}

/* Prints the fields of a unit that has passed its check. */
static void print_fields(const uint8_t *unit, size_t unit_len)
{
    static const char *const kinds[] = {"alpha", "decimal", "record"};
    uint64_t answer[5]; /* kind, offset, size, count, whether it is strict */

    for (size_t i = 0; dibol_field(unit, unit_len, i, answer, 5); i++)
        printf("field %zu: %s%s, at %" PRIu64 ", size %" PRIu64 ", count %" PRIu64 "\n", i,
               answer[0] <= DIBOL_RECORD ? kinds[answer[0]] : "of another kind",
               answer[4] ? " strict" : "", answer[1], answer[2], answer[3]);
}

/* Prints a reference that breaks a fence rule: its statement, its field, the bytes that it names, if
 * its bounds fix any, and the library's words for the rule. */
static void print_breach(const uint64_t *row)
{
    uint8_t words[64]; /* no words are longer */
    uint64_t length = dibol_breach_words(row[1], words, sizeof words);

    printf("statement %" PRIu64 ", field %" PRIu64 " %s", row[0], row[3], row[2] ? "written" : "read");
    if (row[6] == 1)
        printf(", byte %" PRIu64, row[5]);
    else if (row[6] > 1)
        printf(", bytes %" PRIu64 " to %" PRIu64, row[5], row[5] + row[6] - 1);
    printf(": %.*s\n", (int)length, (char *)words);
}

/* Prints the first references of a unit that break a fence rule, and how many more there are. */
static void print_breaches(const uint8_t *unit, size_t unit_len)
{
    uint64_t rows[BREACHES_MOST * DIBOL_ROW_LEN];
    uint64_t count = dibol_breaches(unit, unit_len, 0, rows, BREACHES_MOST * DIBOL_ROW_LEN);

    for (size_t i = 0; i < count && i < BREACHES_MOST; i++)
        print_breach(rows + i * DIBOL_ROW_LEN);
    if (count > BREACHES_MOST)
        printf("and %" PRIu64 " more\n", count - BREACHES_MOST);
}

/* Prints what the fence says of a unit that has passed its check: for a no what breaks its rules, for
 * a yes whether the data is what a yes asks for. A host that trusts a yes asks that first. */
static void print_fence(const uint8_t *unit, size_t unit_len, const uint8_t *data, size_t data_len)
{
    uint64_t answer[4]; /* of a no the statement and the rule; of data that is not valid 22, the
                         * field, the element and its offset */

    if (dibol_fence(unit, unit_len, answer, 2) != DIBOL_YES) {
        printf("fence no %" PRIu64 ": rule %" PRIu64 "\n", answer[0], answer[1]);
        print_breaches(unit, unit_len);
    } else if (dibol_invalid(unit, unit_len, data, data_len, answer, 4) != 0) {
        printf("fence yes, but not for this data: element %" PRIu64 " of field %" PRIu64
               ", at byte %" PRIu64 ", is no number\n", answer[2], answer[1], answer[3]);
    } else {
        printf("fence yes\n");
    }
}

/* Runs a unit over its data in slices, and prints how it stopped. A run that reached its end may have
 * trapped errors: the last of them is printed too. */
static uint64_t run_in_slices(const uint8_t *unit, size_t unit_len, uint8_t *data, size_t data_len,
                              uint64_t slice)
{
    uint64_t state[DIBOL_STATE_LEN] = {0}; /* statement 0, nothing open */
    uint64_t answer[3] = {0, 0, 0};        /* stop, place, count */
    uint64_t stop, allowance, left = STATEMENTS_MOST, slices = 0;

    do {
        allowance = slice < left ? slice : left;
        stop =
            dibol_run(unit, unit_len, data, data_len, state, DIBOL_STATE_LEN, allowance, answer, 3);
        left -= answer[2];
        slices++;
        /* The host does its own work here; data and state stay as they are until it goes on. */
    } while (stop == DIBOL_SPENT && allowance > 0 && left > 0);
    printf("statements: %" PRIu64 " completed, in slices: %" PRIu64 "\n", STATEMENTS_MOST - left, slices);
    print_stop("stop", stop, answer[1]);
    if (state[102] != 0) /* the number of the last error; its statement stands behind it */
        print_stop("last trapped error", state[102], state[103]);
    return stop;
}

/* Reads at most UNIT_MOST + 1 bytes of a file, and gives their number, or -1 where it cannot be
 * read, as a folder cannot. */
static long read_file(const char *name, uint8_t *bytes)
{
    FILE *file = fopen(name, "rb");
    long length = -1;

    if (file)
        length = (long)fread(bytes, 1, UNIT_MOST + 1, file);
    if (!file || ferror(file)) {
        const char *reason = strerror(errno);

        print_bytes(stderr, name, strlen(name));
        fprintf(stderr, ": %s\n", reason);
        length = -1;
    }
    if (file)
        fclose(file);
    return length;
}

/* Checks a unit, shows its fields, asks the fence, runs it over a copy of its image and prints the
 * data. */
static int host(const uint8_t *unit, size_t unit_len, uint64_t slice)
{
    uint64_t answer[3] = {0, 0, 0}; /* stop, place, D */
    uint64_t stop;
    uint8_t *data;

    if (dibol_check(unit, unit_len, answer, 3) != DIBOL_END) {
        print_stop("stop", answer[0], answer[1]);
        return 2;
    }
    printf("unit %zu bytes, data %" PRIu64 "\n", unit_len, answer[2]);
    print_fields(unit, unit_len);
    data = (uint8_t *)malloc(answer[2]);
    if (!data)
        return 3;
    memcpy(data, unit, answer[2]); /* the data image stands first in a unit */
    print_fence(unit, unit_len, data, answer[2]);
    stop = run_in_slices(unit, unit_len, data, answer[2], slice);
    print_bytes(stdout, (const char *)data, answer[2]);
    printf("\n");
    free(data);
    return stop == DIBOL_END ? 0 : 1;
}

int main(int argc, char **argv)
{
    static uint8_t unit[UNIT_MOST + 1];
    uint64_t slice = argc > 2 ? strtoull(argv[2], NULL, 10) : 7;
    long length;

    if (argc < 2) {
        fprintf(stderr, "usage: host FILE [SLICE]\n");
        return 3;
    }
    if (dibol_state_len() != DIBOL_STATE_LEN) {
        fprintf(stderr, "host: dibol.h is of another version than the library\n");
        return 3;
    }
    length = read_file(argv[1], unit);
    return length < 0 ? 3 : host(unit, (size_t)length, slice);
}
