/* The header in strict C11, included twice, with what a host relies on at compile time. */
#include "dibol.h"

_Static_assert(DIBOL_STATE_LEN == 1 + 1 + 50 + 1 + 3 * 16 + 1 + 2,
               "a statement, the calls, the loops, the handler, the last error");
_Static_assert(sizeof DIBOL_VERSION > 1, "the version as text");
_Static_assert(DIBOL_END == 0 && DIBOL_SPENT == 30, "the stops have document 01's numbers");
_Static_assert(DIBOL_YES == 0 && DIBOL_NO == 1 && DIBOL_REFUSED == 2, "the fence's answers");
_Static_assert(DIBOL_ALPHA == 0 && DIBOL_DECIMAL == 1 && DIBOL_RECORD == 2,
               "the kinds have document 01's numbers");
_Static_assert(DIBOL_ROW_LEN == 8, "a row of a breach");

/* Every function, with the type that the header declares. */
typedef uint64_t answers(const uint8_t *, size_t, uint64_t *, size_t);
typedef uint64_t asks(const uint8_t *, size_t, size_t);
typedef uint64_t finds(const uint8_t *, size_t, size_t, uint64_t *, size_t);
typedef uint64_t looks(const uint8_t *, size_t, const uint8_t *, size_t, uint64_t *, size_t);
typedef uint64_t runs(const uint8_t *, size_t, uint8_t *, size_t, uint64_t *, size_t, uint64_t,
                      uint64_t *, size_t);
typedef uint64_t tells(uint64_t, uint8_t *, size_t);
typedef uint64_t counts(void);

static answers *const check = dibol_check, *const parts = dibol_parts, *const fence = dibol_fence;
static asks *const breach = dibol_breach;
static finds *const field = dibol_field, *const breaches = dibol_breaches;
static finds *const literal = dibol_literal;
static looks *const invalid = dibol_invalid;
static runs *const run = dibol_run;
static tells *const words = dibol_words, *const breach_words = dibol_breach_words;
static counts *const version = dibol_version, *const state_len = dibol_state_len;

int main(void)
{
    return !check || !parts || !fence || !breach || !field || !breaches || !literal || !invalid ||
           !run || !words || !breach_words || version() != DIBOL_VERSION_NUMBER ||
           state_len() != DIBOL_STATE_LEN;
}
