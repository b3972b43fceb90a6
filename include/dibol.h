/* dibol.h -- checks and runs coded DIBOL units over a lent data buffer.

   The library is proved: for every input a call returns, touches nothing but
   the memory that it is lent, and gives the one outcome that the written rules
   allow (SETTLED.md names the theorems, TRUST.md what they rest on).
   This header is not proved; the tests compare it with the library.

   ENCODING.md describes the coded unit, OWNER.md what each stop and each fence
   rule means, HOST.md how a host uses these calls and what they cost. These
   pages are installed in share/doc/boxlever, and are in docs/ in the source.

   Any bytes may be lent as a unit or as data, and any numbers as a resume
   state: anything invalid is refused with a stop number. There is nothing to
   set up, to free or to lock. The library keeps nothing between calls, and
   calls in several threads do not disturb each other.

   The host's duties, for every call:

   - A pointer is valid for its length: that many bytes, or that many numbers,
     may be read, and written if it is not const.
   - A pointer is never null. If its length is 0, nothing is read or written
     through it, and any other pointer will do.
   - A pointer to numbers is aligned as uint64_t is. Bytes may lie anywhere.
   - Memory that is not const (`bytes` of dibol_run, `state`, `answer`, `rows`,
     `text`) overlaps nothing else that the same call is lent.
   - During the call nobody else writes to the lent memory, or reads what is
     not const.

   A call writes its numbers to the front of `answer`, as many as fit. A host
   that wants none of them lends a length of 0; the rest of a longer answer
   stays as it was. */

#ifndef DIBOL_H
#define DIBOL_H

#include <stddef.h>
#include <stdint.h>

#ifdef __cplusplus
extern "C" {
#endif

#define DIBOL_VERSION "0.4.0"

/* Ten thousand for the first number, a hundred for the second, one for the
   third. */
#define DIBOL_VERSION_NUMBER 400

/* How many numbers a resume state has. */
#define DIBOL_STATE_LEN 104

/* How many numbers a row of dibol_breaches has. */
#define DIBOL_ROW_LEN 8

/* Why a call ended: the stop. Each has the words that dibol_words gives.

   The place of a stop is N, the number of statements, for 0; the field entry
   for 3; the statement for 4, 5 and 20 to 29; the next statement for 30; and 0
   for 1, 2, 6 and 7. Fields and statements are counted from 0.

   Later versions may add numbers. */
enum dibol_stop {
    DIBOL_END = 0,            /* The end was reached */
    DIBOL_NOT_FILLED = 1,     /* The length, the mark or the parts do not fit */
    DIBOL_BAD_RANGE = 2,      /* A part is outside its range */
    DIBOL_BAD_FIELD = 3,      /* A field entry breaks its rule */
    DIBOL_BAD_EXPRESSION = 4, /* An expression is badly formed or of the wrong sort */
    DIBOL_BAD_STATEMENT = 5,  /* A statement's code, zero part, count or target is wrong */
    DIBOL_WRONG_SIZE = 6,     /* The data buffer does not have the unit's D bytes */
    DIBOL_UNSOUND = 7,        /* The resume state is unsound */
    DIBOL_TOO_LONG = 20,      /* Arithmetic operand exceeds 18 digits */
    DIBOL_OUTSIDE = 21,       /* Invalid subscript specified */
    DIBOL_BAD_DIGIT = 22,     /* Bad digit encountered */
    DIBOL_ZERO_DIVISOR = 23,  /* Attempt to divide by zero */
    DIBOL_CALLS_FULL = 24,    /* Calls nested to a depth greater than 50 */
    DIBOL_NO_CALL = 25,       /* RETURN with no CALL or XCALL */
    DIBOL_ROUND_COUNT = 26,   /* The rounding count is not 0 to 18 */
    DIBOL_ZERO_STEP = 27,     /* The step of a loop is zero */
    DIBOL_LOOPS_FULL = 28,    /* Loops nested to a depth greater than 16 */
    DIBOL_NO_LOOP = 29,       /* Loop end, EXITLOOP or NEXTLOOP with no loop open */
    DIBOL_SPENT = 30          /* The allowance was spent before the end */
};

/* What the fence check says. */
enum dibol_verdict {
    DIBOL_YES = 0,
    DIBOL_NO = 1,
    DIBOL_REFUSED = 2
};

/* The fence rule that a statement, or a reference, breaks first. Each has the
   words that dibol_breach_words gives. */
enum dibol_breach {
    DIBOL_BREACH_NONE = 0,
    DIBOL_BREACH_BOUND_NOT_LITERAL = 1, /* A bound is not a literal */
    DIBOL_BREACH_BOUNDS_WRONG = 2,      /* The bounds give 21 */
    DIBOL_BREACH_LEAVES_FIELD = 3,      /* A span leaves its field */
    DIBOL_BREACH_OVER_ELEMENTS = 4,     /* A decimal span is not in one element */
    DIBOL_BREACH_STOPS_MID_ELEMENT = 5, /* A decimal destination ends inside its element */
    DIBOL_BREACH_ON_DECIMAL = 6         /* An alpha destination shares a byte with a decimal field */
};

/* The kind of a field. */
enum dibol_kind {
    DIBOL_ALPHA = 0,
    DIBOL_DECIMAL = 1,
    DIBOL_RECORD = 2
};

/* Runs a unit over a data buffer, from a resume state and for at most
   `allowance` statements, and gives the stop. `answer` gets three numbers: the
   stop, its place, and how many statements this call completed.

   `state` holds DIBOL_STATE_LEN numbers: the statement to go on at, the number
   of open calls, 50 return numbers, the number of open loops, for each of 16
   loops its FOR, its limit and its step, then the handler plus 1, or 0 for
   none, and the last error's number and its statement, or 0 and 0 for none. A
   limit or a step is signed: read it as (int64_t)state[i]. The call rewrites
   `state` with the next one. After DIBOL_SPENT, call again with the same unit,
   buffer and state, and the run goes on as if it had not stopped.

   - A state at N gives DIBOL_END and the count 0, and runs nothing; zero the
     state for a new run.
   - Keep each state with its unit and its data. It bears no mark of its unit:
     any state that is sound for the unit is accepted.
   - An allowance is not a time, and each call checks the unit first:
     HOST.md has figures. An allowance of 0 gives DIBOL_SPENT, or DIBOL_END
     at the end.

   The unit is checked first (1 to 5). Then the buffer must have the unit's D
   bytes (6), and the state must be sound (7): DIBOL_STATE_LEN numbers, its
   statement and the return numbers of its open calls at most N, at most 50
   calls and 16 loops open, each open loop with a FOR of the unit, a limit and
   a step of at most 18 digits and a step that is not 0, a handler, if there is
   one, below N, a last error, if there is one, of 20, 21, 22, 23 or 26 with
   its statement below N, all other numbers 0. After 1 to 7 no byte of `bytes`
   and no number of `state` is changed, and the count is 0. A statement that
   stops the run with 20 to 29 has changed nothing: the state stands at it, and
   it is not counted.

   Where ONERROR has set a handler, 20, 21, 22, 23 and 26 are trapped: the
   statement changes no byte of `bytes`, is counted, and the run goes on at the
   handler. So DIBOL_END does not say that no error was trapped; state[102]
   does, by being 0.

       uint64_t state[DIBOL_STATE_LEN] = {0}, answer[3];
       uint64_t stop;
       do
           stop = dibol_run(unit, unit_len, data, data_len,
                            state, DIBOL_STATE_LEN, 1000, answer, 3);
       while (stop == DIBOL_SPENT);
*/
uint64_t dibol_run(const uint8_t *unit, size_t unit_len,
                   uint8_t *bytes, size_t bytes_len,
                   uint64_t *state, size_t state_len,
                   uint64_t allowance,
                   uint64_t *answer, size_t answer_len);

/* Checks a unit, and gives the stop: 0 if it is sound, else 1 to 5. `answer`
   gets three numbers: the stop, its place, and D, the length of the unit's
   data. The place of a sound unit is 0, and D of a refused one is 0. The first
   D bytes of a sound unit are the data that its run starts with. A run checks
   the unit by itself. */
uint64_t dibol_check(const uint8_t *unit, size_t unit_len,
                     uint64_t *answer, size_t answer_len);

/* Checks a unit, and gives the stop as dibol_check does. `answer` gets six
   numbers: D, the length of the data; F, the number of field entries; E and P,
   the lengths of the expressions and the literals; N, the number of statements;
   and how many digits a decimal of the unit has at most, which is 18. All six
   are 0 for a refused unit. */
uint64_t dibol_parts(const uint8_t *unit, size_t unit_len,
                     uint64_t *answer, size_t answer_len);

/* Gives 1 if the unit is sound and has a field entry of this number, counted
   from 0, else 0. `answer` gets five numbers: the kind (enum dibol_kind), the
   offset in the data, the size of an element, the count of elements, and 1 if
   the field is strict, else 0. All five are 0 if there is no such entry. */
uint64_t dibol_field(const uint8_t *unit, size_t unit_len, size_t field,
                     uint64_t *answer, size_t answer_len);

/* Checks a unit, holds each of its statements to the fence rules, and gives a
   verdict. `answer` gets two numbers: for DIBOL_NO the first statement that
   breaks a rule and the number of the rule, for DIBOL_REFUSED the stop (1 to 5)
   and its place, for DIBOL_YES 0 and 0. OWNER.md says what a yes promises,
   for data whose decimal fields are all valid: ask dibol_invalid of the data
   that a run is to start with. A unit with a no can still be run. */
uint64_t dibol_fence(const uint8_t *unit, size_t unit_len,
                     uint64_t *answer, size_t answer_len);

/* Says whether the decimals of a data buffer are valid: 0 if all of them are,
   else 1 to 5 if the unit is refused, DIBOL_WRONG_SIZE (6) if the buffer does
   not have the unit's D bytes, and DIBOL_BAD_DIGIT (22) if an element of a
   decimal field cannot be read as a number. `answer` gets four numbers: the
   number that the call gives, and for 22 the first such element, by its field
   entry, its number in the field, counted from 1 as a subscript counts, and
   its offset in the data; otherwise these three are 0. Alpha and record entries
   are not looked at. Nothing is written to `bytes`. */
uint64_t dibol_invalid(const uint8_t *unit, size_t unit_len,
                       const uint8_t *bytes, size_t bytes_len,
                       uint64_t *answer, size_t answer_len);

/* The number of the fence rule that a statement, counted from 0, breaks first.
   It is DIBOL_BREACH_NONE if the statement breaks none, if there is no such
   statement, and if the unit is refused: so ask dibol_fence first. */
uint64_t dibol_breach(const uint8_t *unit, size_t unit_len, size_t statement);

/* The number of references of a unit that break a fence rule; 0 for a yes, and
   for a refused unit. `rows` gets a row of DIBOL_ROW_LEN numbers for each, from
   the breach numbered `skip`, counted from 0, on: whole rows alone, as many as
   fit; the rest of `rows` stays as it was. The numbers of a row are

   0  the statement
   1  the first rule that this reference breaks by itself (enum dibol_breach)
   2  1 if the reference names what the statement writes, 0 if it is read
   3  the field entry
   4  the form of the reference, which is the code of its item: 2 field,
      3 field(subscript), 4 field(start,end), 5 field(pos:length)
   5  the offset in the data of the bytes that it names
   6  their number; both are 0 for the rules 1 and 2, which fix no bytes
   7  the offset of the item in the expressions

   Statements come in their order, the expressions of a statement in the order
   in which a run works them out, and the references of an expression from left
   to right. So the first row has the statement and the rule of dibol_fence's
   no. To go through all of them, call again with a greater `skip`. */
uint64_t dibol_breaches(const uint8_t *unit, size_t unit_len, size_t skip,
                        uint64_t *rows, size_t rows_len);

/* The length of the alpha literal of a statement, counted from 0. There is one
   if the statement is a SET whose source is an alpha literal and nothing more;
   otherwise, and if the unit is refused, the length is 0. A formatted move
   (statement 13) has none: a literal there is its mask, and no source. `answer`
   gets two numbers: where the literal starts in the unit, and its length; both
   are 0 if there is none. */
uint64_t dibol_literal(const uint8_t *unit, size_t unit_len, size_t statement,
                       uint64_t *answer, size_t answer_len);

/* Writes the words of a stop, in ASCII, to the front of `text`, as many bytes
   as fit and no zero byte behind them; the rest of `text` stays as it was. It
   gives their whole length, as snprintf does, and 0 for a number that is no
   stop. No words are longer than 63 bytes. */
uint64_t dibol_words(uint64_t stop, uint8_t *text, size_t text_len);

/* The same of a fence rule, 1 to 6; any other number has no words. */
uint64_t dibol_breach_words(uint64_t rule, uint8_t *text, size_t text_len);

/* The library's own DIBOL_VERSION_NUMBER and DIBOL_STATE_LEN, for a host to
   compare once with this header's. */
uint64_t dibol_version(void);
uint64_t dibol_state_len(void);

#ifdef __cplusplus
}
#endif

#endif
