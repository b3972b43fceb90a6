//! The resume state, held by value.

use crate::ffi::DIBOL_STATE_LEN;
use crate::stop::Stop;
use crate::unit::Unit;
use std::fmt;

/// How many calls can be open, each with a return number.
const CALLS: usize = 50;

/// How many loops can be open, each with a slot of three numbers.
const LOOPS: usize = 16;

/// Where the number of open loops stands, with the slots behind it.
const OPEN_LOOPS: usize = 2 + CALLS;

/// Where the handler stands, with the number and the statement of the last error behind it.
const HANDLER: usize = OPEN_LOOPS + 1 + 3 * LOOPS;

/// Where a run goes on: the next statement, the open calls with their return numbers, the open loops,
/// and the handler; beside them the error that was trapped last.
///
/// A state is a value: [`Unit::run`](crate::Unit::run) takes it and hands back the next one. A new
/// run takes [`State::START`]; a finished state, as [`State::is_end`] says, runs nothing.
///
/// Any numbers can be made a state. A run refuses one that is unsound for its unit with 7, and
/// accepts any other, even if another unit left it: keep each state with its unit and its data.
///
/// ```
/// use dibol::State;
/// let saved: [u64; 104] = State::START.into();
/// assert_eq!(State::from(saved), State::START);
/// ```
#[derive(Clone, Copy, Debug, PartialEq, Eq, Hash)]
pub struct State {
    numbers: [u64; DIBOL_STATE_LEN],
}

/// An open loop: its FOR, its limit and its step.
#[derive(Clone, Copy, Debug, PartialEq, Eq, Hash)]
pub struct Loop {
    /// The number of its FOR statement.
    pub entry: u64,
    /// The limit that the FOR has worked out.
    pub limit: i64,
    /// The step that the FOR has worked out.
    pub step: i64,
}

/// An error that was trapped, with the statement that gave it.
///
/// Shown by `{}`, it is the library's own words for the error, and the statement.
///
/// ```
/// use dibol::{Stop, Trapped};
/// let trapped = Trapped { error: Stop::BadDigit, statement: 3 };
/// assert_eq!(trapped.to_string(), "Bad digit encountered, at statement 3");
/// ```
#[derive(Clone, Copy, Debug, PartialEq, Eq, Hash)]
pub struct Trapped {
    /// The error: in a sound state 20, 21, 22, 23 or 26.
    pub error: Stop,
    /// The number of the statement that gave it.
    pub statement: u64,
}

impl fmt::Display for Trapped {
    fn fmt(&self, f: &mut fmt::Formatter<'_>) -> fmt::Result {
        write!(f, "{}, at statement {}", self.error, self.statement)
    }
}

impl State {
    /// The state of a new run: statement 0, with no call and no loop open, no handler and no last error.
    pub const START: State = State {
        numbers: [0; DIBOL_STATE_LEN],
    };

    /// The number of the next statement.
    pub fn statement(&self) -> u64 {
        self.numbers[0]
    }

    /// Whether the state stands at the end of a unit. A run from there runs nothing, changes nothing,
    /// and gives [`Stop::End`](crate::Stop::End) with the count 0.
    pub fn is_end(&self, unit: &Unit) -> bool {
        self.statement() == unit.statements() as u64
    }

    /// The number of open calls.
    pub fn open_calls(&self) -> u64 {
        self.numbers[1]
    }

    /// The 50 return numbers. Those of the open calls come first, the last opened last; the others
    /// of a sound state are zero.
    pub fn returns(&self) -> &[u64] {
        &self.numbers[2..OPEN_LOOPS]
    }

    /// The number of open loops.
    pub fn open_loops(&self) -> u64 {
        self.numbers[OPEN_LOOPS]
    }

    /// The 16 slots for loops. Those of the open loops come first, the last opened last; the others
    /// of a sound state are zero.
    pub fn loops(&self) -> [Loop; LOOPS] {
        let slots = &self.numbers[OPEN_LOOPS + 1..];
        std::array::from_fn(|k| Loop {
            entry: slots[3 * k],
            limit: slots[3 * k + 1] as i64,
            step: slots[3 * k + 2] as i64,
        })
    }

    /// The statement at which a run goes on where an error is trapped. There is one from an ONERROR on
    /// until an OFFERROR.
    pub fn handler(&self) -> Option<u64> {
        self.numbers[HANDLER].checked_sub(1)
    }

    /// The error that was trapped last, if one was. It stays until another one is trapped, at the end
    /// too: a run that stops with [`Stop::End`] may have trapped errors.
    ///
    /// ```
    /// use dibol::{State, Stop, Trapped, Unit};
    ///
    /// // ONERROR to the last statement, INCR of a decimal field that holds "q2", and STOP.
    /// let bytes = *b"q2\x01\0\0\0\0\x02\0\x01\x02\0\0\0\x12\0\0\0\0\0\0\x02\
    ///     \x03\0\0\0\0\0\0\0\x0B\0\0\0\0\0\0\0\0\x02\0\x01\0\x04\0\0\0\x03DB";
    ///
    /// let unit = Unit::check(&bytes)?;
    /// let mut data = unit.image().to_vec();
    /// let outcome = unit.run(&mut data, State::START, 100_000);
    ///
    /// assert_eq!((outcome.stop, outcome.count), (Stop::End, 3));
    /// let (error, statement) = (Stop::BadDigit, 1);
    /// assert_eq!(outcome.state.last_error(), Some(Trapped { error, statement }));
    /// assert_eq!(data, b"q2");
    /// # Ok::<(), dibol::Refusal>(())
    /// ```
    pub fn last_error(&self) -> Option<Trapped> {
        let [number, statement] = [self.numbers[HANDLER + 1], self.numbers[HANDLER + 2]];
        let error = Stop::from(number);
        (number != 0).then_some(Trapped { error, statement })
    }

    /// The numbers as the C library takes them, to be rewritten.
    pub(crate) fn numbers_mut(&mut self) -> &mut [u64] {
        &mut self.numbers
    }
}

/// The same as [`State::START`].
impl Default for State {
    fn default() -> State {
        State::START
    }
}

/// A state from its numbers, which docs/HOST.md lists.
impl From<[u64; DIBOL_STATE_LEN]> for State {
    fn from(numbers: [u64; DIBOL_STATE_LEN]) -> State {
        State { numbers }
    }
}

/// The numbers of a state, to be saved.
impl From<State> for [u64; DIBOL_STATE_LEN] {
    fn from(state: State) -> [u64; DIBOL_STATE_LEN] {
        state.numbers
    }
}
