//! The C library's functions, called with buffers that have guards on both sides.

use crate::report::Hex;
use dibol_sys as c;
use std::fmt;

/// How many guards stand on each side of a lent buffer.
const GUARDS: usize = 4;

/// The most numbers that are lent for an answer.
pub const ROOM_MOST: usize = 8;

/// What stands in a guard and in an answer before the call.
const UNTOUCHED: u64 = 0xA5A5_A5A5_A5A5_A5A5;

/// A buffer to be lent, with guards on both sides.
#[derive(Clone, PartialEq, Eq)]
pub struct Lent<T> {
    guard: T,
    all: Vec<T>,
}

impl<T: Copy + PartialEq> Lent<T> {
    fn guarded(part: &[T], guard: T) -> Lent<T> {
        let mut all = vec![guard; GUARDS];
        all.extend(part);
        all.extend([guard; GUARDS]);
        Lent { guard, all }
    }

    pub fn part(&self) -> &[T] {
        &self.all[GUARDS..self.all.len() - GUARDS]
    }

    pub fn part_mut(&mut self) -> &mut [T] {
        let end = self.all.len() - GUARDS;
        &mut self.all[GUARDS..end]
    }

    /// Words for guards that are not as they were.
    fn guards(&self) -> &'static str {
        let ends = [&self.all[..GUARDS], &self.all[self.all.len() - GUARDS..]];
        match ends.concat().iter().all(|guard| *guard == self.guard) {
            true => "",
            false => " and changed guards",
        }
    }
}

impl fmt::Debug for Lent<u8> {
    fn fmt(&self, f: &mut fmt::Formatter<'_>) -> fmt::Result {
        write!(f, "{:?}{}", Hex(self.part()), self.guards())
    }
}

impl fmt::Debug for Lent<u64> {
    fn fmt(&self, f: &mut fmt::Formatter<'_>) -> fmt::Result {
        write!(f, "{:?}{}", self.part(), self.guards())
    }
}

impl Lent<u8> {
    pub fn bytes(part: &[u8]) -> Lent<u8> {
        Lent::guarded(part, UNTOUCHED as u8)
    }
}

impl Lent<u64> {
    pub fn numbers(part: &[u64]) -> Lent<u64> {
        Lent::guarded(part, UNTOUCHED)
    }

    /// Room for so many numbers, of which none was touched yet.
    pub fn room(length: usize) -> Lent<u64> {
        Lent::numbers(&vec![UNTOUCHED; length])
    }
}

/// What a call gives: its result, and the numbers where its answer is lent room.
#[derive(Clone, PartialEq, Eq)]
pub struct Given {
    pub result: u64,
    /// The guards before, the answer, and guards behind it: all that is not lent is guards.
    numbers: Numbers,
}

/// The room for an answer with its guards.
type Numbers = [u64; GUARDS + ROOM_MOST + GUARDS];

impl Given {
    /// What a call should give that lends room for `room` numbers: as many of the answer as fit,
    /// and all else as it was.
    pub fn expected(result: u64, answer: &[u64], room: usize) -> Given {
        let mut numbers: Numbers = [UNTOUCHED; GUARDS + ROOM_MOST + GUARDS];
        let lent = &mut numbers[GUARDS..GUARDS + room];
        lent.iter_mut()
            .zip(answer)
            .for_each(|(number, wanted)| *number = *wanted);
        Given { result, numbers }
    }

    /// Number `i` of an answer for which there was room.
    pub fn answer_mut(&mut self, i: usize) -> &mut u64 {
        &mut self.numbers[GUARDS + i]
    }
}

/// The numbers are shown with `-` for one that is untouched; the first four are guards.
impl fmt::Debug for Given {
    fn fmt(&self, f: &mut fmt::Formatter<'_>) -> fmt::Result {
        write!(f, "result {}, numbers", self.result)?;
        self.numbers.iter().try_for_each(|&number| match number {
            UNTOUCHED => write!(f, " -"),
            _ => write!(f, " {number}"),
        })
    }
}

/// Makes a call that lends room for an answer.
fn given(room: usize, call: impl FnOnce(*mut u64, usize) -> u64) -> Given {
    let mut numbers: Numbers = [UNTOUCHED; GUARDS + ROOM_MOST + GUARDS];
    let lent = &mut numbers[GUARDS..GUARDS + room];
    let result = call(lent.as_mut_ptr(), lent.len());
    Given { result, numbers }
}

/// How many numbers the library's resume state has.
pub fn state_len() -> usize {
    // SAFETY: the function takes nothing.
    unsafe { c::dibol_state_len() as usize }
}

pub fn check(unit: &[u8], room: usize) -> Given {
    // SAFETY: the pointers are those of slices, lent for their lengths.
    given(room, |answer, len| unsafe {
        c::dibol_check(unit.as_ptr(), unit.len(), answer, len)
    })
}

pub fn fence(unit: &[u8], room: usize) -> Given {
    // SAFETY: the pointers are those of slices, lent for their lengths.
    given(room, |answer, len| unsafe {
        c::dibol_fence(unit.as_ptr(), unit.len(), answer, len)
    })
}

pub fn breach(unit: &[u8], statement: usize) -> u64 {
    // SAFETY: the pointer is that of a slice, lent for its length.
    unsafe { c::dibol_breach(unit.as_ptr(), unit.len(), statement) }
}

/// Puts the rows of the references that break a rule from number `skip` on into `rows`, and gives how
/// many such references there are.
pub fn breaches(unit: &[u8], skip: usize, rows: &mut Lent<u64>) -> u64 {
    let rows = rows.part_mut();
    // SAFETY: the pointers are those of slices, lent for their lengths, and none overlaps another.
    unsafe {
        c::dibol_breaches(
            unit.as_ptr(),
            unit.len(),
            skip,
            rows.as_mut_ptr(),
            rows.len(),
        )
    }
}

pub fn invalid(unit: &[u8], data: &Lent<u8>, room: usize) -> Given {
    let data = data.part();
    // SAFETY: the pointers are those of slices, lent for their lengths, and none overlaps another.
    given(room, |answer, len| unsafe {
        c::dibol_invalid(
            unit.as_ptr(),
            unit.len(),
            data.as_ptr(),
            data.len(),
            answer,
            len,
        )
    })
}

pub fn parts(unit: &[u8], room: usize) -> Given {
    // SAFETY: the pointers are those of slices, lent for their lengths.
    given(room, |answer, len| unsafe {
        c::dibol_parts(unit.as_ptr(), unit.len(), answer, len)
    })
}

pub fn field(unit: &[u8], entry: usize, room: usize) -> Given {
    // SAFETY: the pointers are those of slices, lent for their lengths.
    given(room, |answer, len| unsafe {
        c::dibol_field(unit.as_ptr(), unit.len(), entry, answer, len)
    })
}

pub fn literal(unit: &[u8], statement: usize, room: usize) -> Given {
    // SAFETY: the pointers are those of slices, lent for their lengths.
    given(room, |answer, len| unsafe {
        c::dibol_literal(unit.as_ptr(), unit.len(), statement, answer, len)
    })
}

pub fn run(
    unit: &[u8],
    data: &mut Lent<u8>,
    state: &mut Lent<u64>,
    allowance: u64,
    room: usize,
) -> Given {
    let (data, state) = (data.part_mut(), state.part_mut());
    // SAFETY: the pointers are those of slices, lent for their lengths, and none overlaps another.
    given(room, |answer, len| unsafe {
        c::dibol_run(
            unit.as_ptr(),
            unit.len(),
            data.as_mut_ptr(),
            data.len(),
            state.as_mut_ptr(),
            state.len(),
            allowance,
            answer,
            len,
        )
    })
}
