/* What the tests of the C library share: expectations, and document 01's example. */
#ifndef EXPECT_H
#define EXPECT_H

#include <inttypes.h>
#include <stdio.h>
#include <string.h>

#include "dibol.h"

static int expected, failed;

/* Expects two numbers to be the same. */
#define SAME(found, wanted) same(__FILE__, __LINE__, #found, (uint64_t)(found), (uint64_t)(wanted))

/* Expects so many bytes to be the same. */
#define SAME_BYTES(found, wanted, length)                                                          \
    same(__FILE__, __LINE__, #found, memcmp((found), (wanted), (length)) == 0, 1)

static void same(const char *file, int line, const char *what, uint64_t found, uint64_t wanted)
{
    expected++;
    if (found == wanted)
        return;
    failed++;
    printf("%s:%d: %s is %" PRIu64 ", not %" PRIu64 "\n", file, line, what, found, wanted);
}

/* Tells how many expectations were met; the exit status of a test. */
static int told(const char *test)
{
    printf("%s: %d expectations: %d met, %d not\n", test, expected, expected - failed, failed);
    return failed > 0 || expected == 0;
}

/* Document 01's example: INCR of "41", then STOP. */
static const uint8_t EXAMPLE[42] = {
    0x34, 0x31,                                     /* data image: "41" */
    0x01, 0x00, 0x00, 0x00, 0x00, 0x02, 0x00, 0x01, /* field 0: decimal */
    0x02, 0x00, 0x00, 0x00,                         /* expression at 0: field 0 */
    0x03, 0x00, 0x00, 0x00, 0x00, 0x00, 0x00, 0x00, /* statement 0: INCR */
    0x0B, 0x00, 0x00, 0x00, 0x00, 0x00, 0x00, 0x00, /* statement 1: STOP */
    0x00, 0x02, 0x00, 0x01, 0x00, 0x04, 0x00, 0x00, 0x00, 0x02, 0x44, 0x42};

#endif
