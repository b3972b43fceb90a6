//! Why a call ended: the stops of the papers, with their numbers and words.

use crate::ffi;
use crate::words;
use std::error::Error;
use std::fmt;

/// Why a call ended.
///
/// Shown by `{}`, it is the library's own words for it.
///
/// ```
/// use dibol::Stop;
/// assert_eq!(Stop::ZeroDivisor.number(), 23);
/// assert_eq!(Stop::from(23), Stop::ZeroDivisor);
/// assert!(!Stop::ZeroDivisor.to_string().is_empty());
/// ```
#[derive(Clone, Copy, Debug, PartialEq, Eq, Hash)]
#[non_exhaustive]
pub enum Stop {
    /// 0: The end was reached.
    End,
    /// 1: The length, the mark or the parts do not fit.
    NotFilled,
    /// 2: A part is outside its range.
    BadRange,
    /// 3: A field entry breaks its rule.
    BadField,
    /// 4: An expression is badly formed or of the wrong sort.
    BadExpression,
    /// 5: A statement's code, zero part, count or target is wrong.
    BadStatement,
    /// 6: The data buffer does not have the unit's D bytes.
    WrongSize,
    /// 7: The resume state is unsound.
    Unsound,
    /// 20: Arithmetic operand exceeds 18 digits.
    TooLong,
    /// 21: Invalid subscript specified.
    Outside,
    /// 22: Bad digit encountered.
    BadDigit,
    /// 23: Attempt to divide by zero.
    ZeroDivisor,
    /// 24: Calls nested to a depth greater than 50.
    CallsFull,
    /// 25: RETURN with no CALL or XCALL.
    NoCall,
    /// 26: The rounding count is not 0 to 18.
    RoundCount,
    /// 27: The step of a loop is zero.
    ZeroStep,
    /// 28: Loops nested to a depth greater than 16.
    LoopsFull,
    /// 29: Loop end, EXITLOOP or NEXTLOOP with no loop open.
    NoLoop,
    /// 30: The allowance was spent before the end.
    Spent,
    /// A number that this version of the crate has no name for.
    Other(u64),
}

/// The stops that have a name, each with its number.
const NAMED: [(u64, Stop); 19] = [
    (0, Stop::End),
    (1, Stop::NotFilled),
    (2, Stop::BadRange),
    (3, Stop::BadField),
    (4, Stop::BadExpression),
    (5, Stop::BadStatement),
    (6, Stop::WrongSize),
    (7, Stop::Unsound),
    (20, Stop::TooLong),
    (21, Stop::Outside),
    (22, Stop::BadDigit),
    (23, Stop::ZeroDivisor),
    (24, Stop::CallsFull),
    (25, Stop::NoCall),
    (26, Stop::RoundCount),
    (27, Stop::ZeroStep),
    (28, Stop::LoopsFull),
    (29, Stop::NoLoop),
    (30, Stop::Spent),
];

impl Stop {
    /// The papers' number of the stop.
    pub fn number(self) -> u64 {
        if let Stop::Other(number) = self {
            return number;
        }
        let named = NAMED.iter().find(|(_, stop)| *stop == self);
        named.expect("every other stop is named").0
    }

    /// Whether the call was refused, 1 to 7: nothing was changed.
    pub fn is_refusal(self) -> bool {
        (1..=7).contains(&self.number())
    }

    /// Whether a statement could not be completed, 20 to 29. One that stops a run has changed nothing;
    /// one whose error was trapped has changed no data.
    pub fn is_run_error(self) -> bool {
        (20..=29).contains(&self.number())
    }
}

impl From<u64> for Stop {
    fn from(number: u64) -> Stop {
        let named = NAMED.iter().find(|(named, _)| *named == number);
        named.map_or(Stop::Other(number), |(_, stop)| *stop)
    }
}

impl fmt::Display for Stop {
    fn fmt(&self, f: &mut fmt::Formatter<'_>) -> fmt::Result {
        let words = words::of(self.number(), ffi::dibol_words);
        if words.is_empty() {
            return write!(f, "stop {}", self.number());
        }
        f.pad(&words)
    }
}

/// A unit that is refused: the stop, 1 to 5, and the place it names.
///
/// ```
/// use dibol::{Stop, Unit};
/// let refusal = Unit::check(b"no unit at all").unwrap_err();
/// assert_eq!((refusal.stop, refusal.place), (Stop::NotFilled, 0));
/// ```
#[derive(Clone, Copy, Debug, PartialEq, Eq, Hash)]
pub struct Refusal {
    /// Why the unit is refused.
    pub stop: Stop,
    /// The field entry for 3, the statement for 4 and 5, and 0 for 1 and 2.
    pub place: usize,
}

impl fmt::Display for Refusal {
    fn fmt(&self, f: &mut fmt::Formatter<'_>) -> fmt::Result {
        let number = self.stop.number();
        write!(f, "refused {number} at {}: {}", self.place, self.stop)
    }
}

impl Error for Refusal {}

#[cfg(test)]
mod tests {
    use super::*;

    #[test]
    fn numbers_and_names_go_both_ways() {
        for number in 0..=100 {
            assert_eq!(Stop::from(number).number(), number);
        }
        let named = |number: &u64| !matches!(Stop::from(*number), Stop::Other(_));
        let numbers: Vec<u64> = (0..=100).filter(named).collect();
        let papers: Vec<u64> = (0..=7).chain(20..=30).collect();
        assert_eq!(numbers, papers);
    }

    #[test]
    fn each_stop_has_words_of_its_own() {
        let mut all: Vec<String> = NAMED.iter().map(|(_, stop)| stop.to_string()).collect();
        all.sort();
        all.dedup();
        assert_eq!(all.len(), NAMED.len());
        assert!(all.iter().all(|words| words.len() > 5 && words.is_ascii()));
        assert_eq!(Stop::Other(99).to_string(), "stop 99");
    }

    #[test]
    fn sorts_of_stop() {
        let numbers = |test: fn(Stop) -> bool| -> Vec<u64> {
            (0..=40)
                .filter(|&number| test(Stop::from(number)))
                .collect()
        };
        assert_eq!(numbers(Stop::is_refusal), [1, 2, 3, 4, 5, 6, 7]);
        let run_errors: Vec<u64> = (20..=29).collect();
        assert_eq!(numbers(Stop::is_run_error), run_errors);
    }
}
