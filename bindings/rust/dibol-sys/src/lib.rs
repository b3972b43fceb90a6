//! The C functions of `dibol.h`, declared.
//!
//! Nothing here is safe to call with pointers that do not fit their lengths; the crate `dibol` has
//! the same functions for Rust's slices. Numbers of `size_t` are `usize` here.
//!
//! What every caller owes: each pointer is valid for its length, not null, and aligned for what it
//! points to; the lent buffers do not overlap, and nobody writes to them during the call. Of an
//! answer, as many numbers are written as fit into the `answer_len` that are lent; the rest of a
//! longer buffer stays as it was. `dibol.h` has all of it.

#![no_std]
#![warn(missing_docs)]

/// How many numbers a resume state has: the statement, the open calls, 50 return numbers, the open
/// loops, the FOR, the limit and the step of each of 16 loops, the handler plus 1, and the number and
/// the statement of the last error.
pub const DIBOL_STATE_LEN: usize = 104;

/// How many numbers a row of `dibol_breaches` has.
pub const DIBOL_ROW_LEN: usize = 8;

extern "C" {
    /// The version of the library: 400 is 0.4.0.
    pub fn dibol_version() -> u64;

    /// How many numbers the library's resume state has.
    pub fn dibol_state_len() -> u64;

    /// Checks a unit. It gives 0, or the refusal 1 to 5; the answer is the stop, the place and D.
    pub fn dibol_check(
        unit: *const u8,
        unit_len: usize,
        answer: *mut u64,
        answer_len: usize,
    ) -> u64;

    /// Checks a unit, and gives what `dibol_check` gives; the answer is D, F, E, P, N and the most
    /// digits of a decimal, all 0 for a refused unit.
    pub fn dibol_parts(
        unit: *const u8,
        unit_len: usize,
        answer: *mut u64,
        answer_len: usize,
    ) -> u64;

    /// A field entry, counted from 0. It gives 1, or 0 where there is none or the unit is refused; the
    /// answer is the kind (0 alpha, 1 decimal, 2 record), the offset, the size, the count, and 1 for a
    /// strict field, all 0 where there is none.
    pub fn dibol_field(
        unit: *const u8,
        unit_len: usize,
        field: usize,
        answer: *mut u64,
        answer_len: usize,
    ) -> u64;

    /// Runs a unit over a data buffer, from a resume state and for at most `allowance` statements.
    /// It gives the stop; the answer is the stop, the place and the count. The state is rewritten
    /// with the next one. After 1 to 7 neither the bytes nor the state are changed.
    pub fn dibol_run(
        unit: *const u8,
        unit_len: usize,
        bytes: *mut u8,
        bytes_len: usize,
        state: *mut u64,
        state_len: usize,
        allowance: u64,
        answer: *mut u64,
        answer_len: usize,
    ) -> u64;

    /// The fence check. It gives 0 for yes, 1 for no and 2 for refused; the answer is the statement
    /// and the number of its breach for a no, the stop and the place for a refusal.
    pub fn dibol_fence(
        unit: *const u8,
        unit_len: usize,
        answer: *mut u64,
        answer_len: usize,
    ) -> u64;

    /// Whether the decimals of a data buffer are valid. It gives 0 where all are, the refusal 1 to 5,
    /// 6 for a buffer of another length, and 22 where an element is not valid; the answer is that
    /// number, and for 22 the field, the element, counted from 1, and its offset in the data.
    pub fn dibol_invalid(
        unit: *const u8,
        unit_len: usize,
        bytes: *const u8,
        bytes_len: usize,
        answer: *mut u64,
        answer_len: usize,
    ) -> u64;

    /// The number, 1 to 6, of the fence rule that a statement breaks first, or 0 for none.
    pub fn dibol_breach(unit: *const u8, unit_len: usize, statement: usize) -> u64;

    /// How many references of a unit break a fence rule; 0 for a refused unit. From the breach
    /// numbered `skip`, counted from 0, on, whole rows are written, as many as fit: the statement, the
    /// rule, 1 for one that is written, the field, the form (2 to 5), the start and the length of the
    /// span, both 0 for the rules 1 and 2, and the item's offset in the expressions.
    pub fn dibol_breaches(
        unit: *const u8,
        unit_len: usize,
        skip: usize,
        rows: *mut u64,
        rows_len: usize,
    ) -> u64;

    /// The alpha literal of a statement. It gives the length, 0 where there is none, as for a
    /// formatted move, whose literal is a mask and no source; the answer is its offset in the unit
    /// and its length.
    pub fn dibol_literal(
        unit: *const u8,
        unit_len: usize,
        statement: usize,
        answer: *mut u64,
        answer_len: usize,
    ) -> u64;

    /// The words of a stop. It gives their whole length, 0 for a number that is no stop, and writes
    /// as many of their bytes as fit; no zero byte is added.
    pub fn dibol_words(stop: u64, text: *mut u8, room: usize) -> u64;

    /// The words of a fence rule, 1 to 6, in the same way; any other number has none.
    pub fn dibol_breach_words(rule: u64, text: *mut u8, room: usize) -> u64;
}
