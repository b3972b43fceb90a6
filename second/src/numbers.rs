//! The resume state as a row of numbers, as hosts in C keep it.

use crate::arithmetic::is_value;
use crate::run::run;
use crate::state::{LastError, Loop, State, CALLS_MOST, LOOPS_MOST};

/// How many numbers a slot for an open loop has: its entry, limit and step.
const SLOT: usize = 3;

/// Where the number of open loops stands, with the slots behind it.
const OPENED: usize = 2 + CALLS_MOST;

/// Where the handler stands, with the last error's number and its statement behind it.
const HANDLER: usize = OPENED + 1 + SLOT * LOOPS_MOST;

/// How many numbers a resume state has.
pub const STATE_LEN: usize = HANDLER + 3;

impl State {
    /// The numbers of the state. A limit and a step are signed, and stand in two's complement. The
    /// handler stands as one more than its statement, and all zeros where there is no handler or no
    /// last error.
    pub fn numbers(&self) -> [u64; STATE_LEN] {
        let mut numbers = [0; STATE_LEN];
        numbers[0] = self.at as u64;
        numbers[1] = self.depth as u64;
        for (number, back) in numbers[2..OPENED].iter_mut().zip(self.returns) {
            *number = back.into();
        }
        numbers[OPENED] = self.opened as u64;
        let slots = numbers[OPENED + 1..HANDLER].chunks_exact_mut(SLOT);
        for (slot, Loop { entry, limit, step }) in slots.zip(self.loops) {
            slot.copy_from_slice(&[entry as u64, limit as u64, step as u64]);
        }
        numbers[HANDLER] = self.handler.map_or(0, |handler| handler as u64 + 1);
        if let Some(LastError { stop, statement }) = self.last_error {
            numbers[HANDLER + 1..].copy_from_slice(&[stop.into(), statement as u64]);
        }
        numbers
    }

    /// The state that some numbers stand for; or nothing if there are more or fewer of them, or one
    /// of them stands for no value.
    pub fn of_numbers(numbers: &[u64]) -> Option<State> {
        if numbers.len() != STATE_LEN {
            return None;
        }
        let mut state = State {
            at: small(numbers[0])?.into(),
            depth: small(numbers[1])?.into(),
            opened: small(numbers[OPENED])?.into(),
            handler: small(numbers[HANDLER])?.checked_sub(1).map(usize::from),
            last_error: last_error(numbers[HANDLER + 1], numbers[HANDLER + 2])?,
            ..State::START
        };
        for (back, &number) in state.returns.iter_mut().zip(&numbers[2..OPENED]) {
            *back = small(number)?;
        }
        let slots = numbers[OPENED + 1..HANDLER].chunks_exact(SLOT);
        for (open, slot) in state.loops.iter_mut().zip(slots) {
            *open = Loop {
                entry: small(slot[0])?.into(),
                limit: value(slot[1])?,
                step: value(slot[2])?,
            };
        }
        Some(state)
    }
}

/// A statement number or a count.
fn small(number: u64) -> Option<u16> {
    u16::try_from(number).ok()
}

/// The last error that two numbers stand for, if they stand for one or for none. There is none where
/// both are 0, and where the stop alone is 0 they stand for nothing.
fn last_error(stop: u64, statement: u64) -> Option<Option<LastError>> {
    let (stop, statement) = (u8::try_from(stop).ok()?, small(statement)?.into());
    match (stop, statement) {
        (0, 0) => Some(None),
        (0, _) => None,
        _ => Some(Some(LastError { stop, statement })),
    }
}

/// A limit or a step.
fn value(number: u64) -> Option<i64> {
    let value = number as i64;
    is_value(value).then_some(value)
}

/// Runs a unit from the numbers of a state, which are rewritten with those of the next one, and
/// gives the stop, the place and the count. Numbers that stand for no state are 7, after 1 to 6; a
/// refusal leaves them as they are.
pub fn run_numbers(unit: &[u8], bytes: &mut [u8], numbers: &mut [u64], allowance: u64) -> [u64; 3] {
    // No unit has so many statements, so this one is never sound.
    let unsound = State {
        at: usize::MAX,
        ..State::START
    };
    let state = State::of_numbers(numbers).unwrap_or(unsound);
    let outcome = run(unit, bytes, state, allowance);
    if !(1..=7).contains(&outcome.stop) {
        numbers.copy_from_slice(&outcome.state.numbers());
    }
    [outcome.stop.into(), outcome.place as u64, outcome.count]
}

#[cfg(test)]
mod tests {
    use super::*;
    use crate::sample::Sample;

    /// A state with something in every part, and its numbers.
    fn example() -> (State, [u64; STATE_LEN]) {
        let mut state = State {
            at: 3,
            depth: 2,
            opened: 2,
            handler: Some(6),
            last_error: Some(LastError {
                stop: 22,
                statement: 8,
            }),
            ..State::START
        };
        state.returns[..2].copy_from_slice(&[5, 7]);
        let open = |entry, limit, step| Loop { entry, limit, step };
        state.loops[0] = open(1, 9, -2);
        state.loops[1] = open(4, -999_999_999_999_999_999, 999_999_999_999_999_999);
        let mut numbers = [0; STATE_LEN];
        numbers[..4].copy_from_slice(&[3, 2, 5, 7]);
        numbers[52..56].copy_from_slice(&[2, 1, 9, u64::MAX - 1]);
        let least = 17_446_744_073_709_551_617;
        numbers[56..59].copy_from_slice(&[4, least, 999_999_999_999_999_999]);
        numbers[101..].copy_from_slice(&[7, 22, 8]);
        (state, numbers)
    }

    #[test]
    fn each_number_has_its_place() {
        assert_eq!(STATE_LEN, 104);
        assert_eq!(State::START.numbers(), [0; 104]);
        let (state, numbers) = example();
        assert_eq!(state.numbers(), numbers);
        assert_eq!(State::of_numbers(&numbers), Some(state));
        let mut last = State::START;
        last.loops[15].step = -1;
        assert_eq!(last.numbers()[100], u64::MAX);
    }

    #[test]
    fn more_numbers_or_fewer_are_no_state() {
        for length in [0, 1, 52, 100, 101, 102, 103, 105] {
            assert_eq!(State::of_numbers(&vec![0; length]), None);
        }
        assert_eq!(State::of_numbers(&[0; 104]), Some(State::START));
    }

    #[test]
    fn a_number_that_stands_for_no_value_makes_no_state() {
        let greatest = 999_999_999_999_999_999;
        for at in 0..HANDLER {
            let is_state = |number| {
                let mut numbers = [0; STATE_LEN];
                numbers[at] = number;
                State::of_numbers(&numbers).is_some_and(|state| state.numbers() == numbers)
            };
            let is_signed = at > 52 && !(at - 53).is_multiple_of(3);
            assert!(is_state(65_535));
            assert_eq!(is_state(65_536), is_signed, "{at}");
            assert_eq!(is_state(u64::MAX), is_signed, "{at}");
            for value in [greatest, -greatest] {
                assert_eq!(is_state(value as u64), is_signed, "{at}");
            }
            for value in [greatest + 1, -greatest - 1, i64::MAX, i64::MIN] {
                assert!(!is_state(value as u64), "{at}");
            }
        }
    }

    #[test]
    fn a_handler_is_one_more_than_its_statement() {
        let handler = |number| {
            let mut numbers = [0; STATE_LEN];
            numbers[101] = number;
            let state = State::of_numbers(&numbers)?;
            assert_eq!(state.numbers(), numbers);
            Some(state.handler)
        };
        assert_eq!(handler(0), Some(None));
        assert_eq!(handler(1), Some(Some(0)));
        assert_eq!(handler(65_535), Some(Some(65_534)));
        for number in [65_536, 65_537, 1 << 32, u64::MAX] {
            assert_eq!(handler(number), None, "{number}");
        }
    }

    #[test]
    fn a_last_error_has_a_number_and_a_statement() {
        let last_error = |stop, statement| {
            let mut numbers = [0; STATE_LEN];
            numbers[102..].copy_from_slice(&[stop, statement]);
            let state = State::of_numbers(&numbers)?;
            assert_eq!(state.numbers(), numbers);
            let error = state.last_error;
            Some(error.map(|error| (error.stop, error.statement)))
        };
        assert_eq!(last_error(0, 0), Some(None));
        assert_eq!(last_error(22, 0), Some(Some((22, 0))));
        assert_eq!(last_error(255, 65_535), Some(Some((255, 65_535))));
        for (stop, statement) in [
            (0, 1),
            (0, 65_535),
            (0, 65_536),
            (22, 65_536),
            (22, u64::MAX),
            (256, 0),
            (256 + 22, 0),
            (u64::MAX, 0),
        ] {
            assert_eq!(last_error(stop, statement), None, "{stop} {statement}");
        }
    }

    #[test]
    fn a_run_rewrites_the_numbers_and_a_refusal_does_not() {
        let sample = Sample::over("0", &[(1, 0, 1, 1)]);
        let unit = sample.looped("%0", ["1", "3", "2"], |body| body).unit();
        let mut numbers = vec![0; STATE_LEN];
        let ran = |numbers: &mut [u64], data: &str| {
            run_numbers(&unit, &mut data.as_bytes().to_vec(), numbers, 1)
        };
        assert_eq!(ran(&mut numbers, "0"), [30, 1, 1]);
        assert_eq!((numbers[0], &numbers[52..56]), (1, &[1, 0, 3, 2][..]));
        let open = numbers.clone();
        for (at, number) in [
            (0, 1 << 16),
            (52, 1 << 32),
            (54, 1 << 63),
            (100, 10_u64.pow(18)),
            (101, 1 << 16),
            (102, 1 << 8),
            (103, 1),
        ] {
            let mut wrong = open.clone();
            wrong[at] = number;
            let before = wrong.clone();
            assert_eq!(ran(&mut wrong, "1"), [7, 0, 0]);
            assert_eq!(ran(&mut wrong, ""), [6, 0, 0]);
            assert_eq!(wrong, before);
        }
        let mut short = open[..52].to_vec();
        assert_eq!(ran(&mut short, "1"), [7, 0, 0]);
        assert_eq!(short, open[..52]);
        assert_eq!(ran(&mut numbers, "1"), [30, 1, 1]);
        assert_eq!(numbers, open);
        assert_eq!(ran(&mut numbers, "3"), [0, 2, 1]);
        assert_eq!((numbers[0], &numbers[1..]), (2, &[0; 103][..]));
    }
}
