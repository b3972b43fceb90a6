//! The resume state: where a run goes on, the calls and loops still open, the handler and the last
//! error.

use crate::arithmetic::is_value;
use crate::stop::{Fault, TRAPPED};
use crate::unit::{code, Parts};

/// The most calls that may be open.
pub const CALLS_MOST: usize = 50;

/// The most loops that may be open.
pub const LOOPS_MOST: usize = 16;

/// A resume state. It is sound for a unit of N statements when the statement number is 0 to N,
/// the number of open calls is 0 to 50, the return numbers in use are 0 to N and the unused ones
/// are zero; and when the number of open loops is 0 to 16, each of them is sound, and the unused
/// slots are zero; and when the handler, if there is one, is below N, and the last error, if there is
/// one, is sound.
#[derive(Clone, Copy, Debug, PartialEq, Eq)]
pub struct State {
    /// The number of the next statement.
    pub at: usize,
    /// The number of open calls.
    pub depth: usize,
    /// The return numbers, that of the last open call at `depth - 1`.
    pub returns: [u16; CALLS_MOST],
    /// The number of open loops.
    pub opened: usize,
    /// The open loops, the one opened last at `opened - 1`.
    pub loops: [Loop; LOOPS_MOST],
    /// The statement at which a run goes on after an error that is trapped.
    pub handler: Option<usize>,
    /// The error that was trapped last.
    pub last_error: Option<LastError>,
}

/// An error that was trapped: its stop number, and the statement that gave it. It is sound when it
/// is one of the five that are trapped, and the statement is below N.
#[derive(Clone, Copy, Debug, PartialEq, Eq)]
pub struct LastError {
    pub stop: u8,
    pub statement: usize,
}

/// An open loop: the number of its FOR, and the limit and the step that were worked out there. It
/// is sound when that statement is a FOR, both are values, and the step is not 0.
#[derive(Clone, Copy, Debug, PartialEq, Eq)]
pub struct Loop {
    pub entry: usize,
    pub limit: i64,
    pub step: i64,
}

impl Loop {
    /// What stands in a slot that no open loop uses.
    pub const NONE: Loop = Loop {
        entry: 0,
        limit: 0,
        step: 0,
    };

    /// The test before each pass: with a positive step the loop goes on while the control value is
    /// not above the limit, with a negative step while it is not below.
    pub fn goes_on(&self, value: i64) -> bool {
        if self.step > 0 {
            value <= self.limit
        } else {
            value >= self.limit
        }
    }

    fn is_sound(&self, parts: &Parts) -> bool {
        let entry = parts.statement(self.entry);
        entry.is_some_and(|entry| entry.code == code::FOR)
            && is_value(self.limit)
            && is_value(self.step)
            && self.step != 0
    }
}

impl LastError {
    fn is_sound(&self, count: usize) -> bool {
        TRAPPED.contains(&self.stop) && self.statement < count
    }
}

impl State {
    /// The state from which a unit starts: statement 0, no open calls, no open loops, no handler and
    /// no last error.
    pub const START: State = State {
        at: 0,
        depth: 0,
        returns: [0; CALLS_MOST],
        opened: 0,
        loops: [Loop::NONE; LOOPS_MOST],
        handler: None,
        last_error: None,
    };

    /// Check 7.
    pub fn is_sound(&self, parts: &Parts) -> bool {
        let count = parts.statement_count();
        self.at <= count
            && self.are_calls_sound(count)
            && self.are_loops_sound(parts)
            && self.handler.is_none_or(|handler| handler < count)
            && self.last_error.is_none_or(|error| error.is_sound(count))
    }

    fn are_calls_sound(&self, count: usize) -> bool {
        let Some((used, unused)) = self.returns.split_at_checked(self.depth) else {
            return false;
        };
        used.iter().all(|&number| usize::from(number) <= count)
            && unused.iter().all(|&number| number == 0)
    }

    fn are_loops_sound(&self, parts: &Parts) -> bool {
        let Some((open, closed)) = self.loops.split_at_checked(self.opened) else {
            return false;
        };
        open.iter().all(|open| open.is_sound(parts))
            && closed.iter().all(|slot| *slot == Loop::NONE)
    }

    pub fn advance(&mut self) {
        self.at += 1;
    }

    pub fn go_to(&mut self, target: usize) {
        self.at = target;
    }

    /// A CALL at i stores i + 1. With 50 calls open it is 24.
    pub fn call(&mut self, target: usize) -> Result<(), Fault> {
        let entry = self.returns.get_mut(self.depth).ok_or(Fault::Call)?;
        // A sound unit has at most 2,048 statements.
        *entry = self.at as u16 + 1;
        self.depth += 1;
        self.at = target;
        Ok(())
    }

    /// A RETURN goes on where the last open call has stored, and its entry becomes zero. With
    /// none open it is 25.
    pub fn go_back(&mut self) -> Result<(), Fault> {
        self.depth = self.depth.checked_sub(1).ok_or(Fault::Return)?;
        let entry = &mut self.returns[self.depth];
        self.at = usize::from(*entry);
        *entry = 0;
        Ok(())
    }

    /// Whether as many loops are open as may be.
    pub fn has_no_slot(&self) -> bool {
        self.opened == LOOPS_MOST
    }

    /// Opens a loop, for which there is a slot.
    pub fn open_loop(&mut self, new: Loop) {
        self.loops[self.opened] = new;
        self.opened += 1;
    }

    /// The loop opened last. With none open it is 29.
    pub fn open_last(&self) -> Result<Loop, Fault> {
        let last = self.opened.checked_sub(1).ok_or(Fault::NoLoop)?;
        Ok(self.loops[last])
    }

    /// Closes the loop opened last, which there is, and its slot becomes zero.
    pub fn close_loop(&mut self) {
        self.opened -= 1;
        self.loops[self.opened] = Loop::NONE;
    }

    /// Goes on at the handler after an error of the statement at which the state stands, and keeps
    /// that as the last error. The answer is whether the error is trapped; if it is not, the state
    /// stays as it is.
    pub fn trap(&mut self, fault: Fault) -> bool {
        let Some(handler) = self.handler.filter(|_| fault.is_trapped()) else {
            return false;
        };
        self.last_error = Some(LastError {
            stop: fault.stop(),
            statement: self.at,
        });
        self.at = handler;
        true
    }
}

#[cfg(test)]
mod tests {
    use super::*;
    use crate::sample::Sample;

    /// Whether the start state, changed, is sound for a unit of three statements: a STOP, a FOR
    /// and its loop end.
    fn is_sound(change: impl Fn(&mut State)) -> bool {
        let unit = Sample::over("0", &[(1, 0, 1, 1)])
            .to(code::STOP, 0)
            .looped("%0", ["1", "2", "3"], |body| body)
            .unit();
        let mut state = State::START;
        change(&mut state);
        state.is_sound(&Parts::of(&unit).unwrap())
    }

    /// A loop of the FOR, which is sound.
    const OPEN: Loop = Loop {
        entry: 1,
        limit: 0,
        step: 1,
    };

    #[test]
    fn each_part_keeps_its_range() {
        assert!(is_sound(|_| ()));
        assert!(is_sound(|state| state.at = 3));
        assert!(!is_sound(|state| state.at = 4));
        assert!(!is_sound(|state| state.at = usize::MAX));
        assert!(is_sound(|state| state.depth = 50));
        assert!(!is_sound(|state| state.depth = 51));
        assert!(!is_sound(|state| state.depth = usize::MAX));
    }

    #[test]
    fn return_numbers_in_use_are_0_to_n_and_the_others_zero() {
        for depth in 0..=CALLS_MOST {
            for entry in 0..CALLS_MOST {
                for (number, in_use) in [(1, true), (3, true), (4, false), (65_535, false)] {
                    let sound = is_sound(|state| {
                        state.depth = depth;
                        state.returns[entry] = number;
                    });
                    assert_eq!(sound, in_use && entry < depth, "{number} at {entry}");
                }
            }
        }
    }

    #[test]
    fn the_number_of_open_loops_is_0_to_16() {
        for opened in 0..=LOOPS_MOST {
            assert!(is_sound(|state| {
                state.opened = opened;
                state.loops[..opened].fill(OPEN);
            }));
        }
        for opened in [17, 18, 65_535, usize::MAX] {
            assert!(!is_sound(|state| {
                state.opened = opened;
                state.loops.fill(OPEN);
            }));
        }
    }

    #[test]
    fn an_open_loop_names_a_for_beside_its_limit_and_its_step() {
        let greatest = 999_999_999_999_999_999;
        for (entry, limit, step, sound) in [
            (1, 0, 1, true),
            (1, greatest, greatest, true),
            (1, -greatest, -greatest, true),
            (0, 0, 1, false),
            (2, 0, 1, false),
            (3, 0, 1, false),
            (usize::MAX, 0, 1, false),
            (1, greatest + 1, 1, false),
            (1, -greatest - 1, 1, false),
            (1, 0, greatest + 1, false),
            (1, 0, -greatest - 1, false),
            (1, i64::MAX, 1, false),
            (1, 0, i64::MIN, false),
            (1, 9, 0, false),
        ] {
            let one = Loop { entry, limit, step };
            for opened in 1..=LOOPS_MOST {
                for slot in 0..opened {
                    let found = is_sound(|state| {
                        state.opened = opened;
                        state.loops[..opened].fill(OPEN);
                        state.loops[slot] = one;
                    });
                    assert_eq!(found, sound, "{one:?} at {slot}");
                }
            }
        }
    }

    #[test]
    fn the_other_slots_are_zero() {
        let (entry, limit, step) = (1, 1, 1);
        for left_over in [
            Loop {
                entry,
                ..Loop::NONE
            },
            Loop {
                limit,
                ..Loop::NONE
            },
            Loop { step, ..Loop::NONE },
        ] {
            for opened in 0..LOOPS_MOST {
                for slot in opened..LOOPS_MOST {
                    assert!(!is_sound(|state| {
                        state.opened = opened;
                        state.loops[..opened].fill(OPEN);
                        state.loops[slot] = left_over;
                    }));
                }
            }
        }
    }

    #[test]
    fn nothing_more_is_asked_of_open_loops() {
        // The place may lie anywhere, and at the end; the same entry may be open twice.
        for at in 0..=3 {
            assert!(is_sound(|state| {
                state.at = at;
                state.opened = 2;
                state.loops[..2].fill(OPEN);
            }));
        }
    }

    #[test]
    fn a_handler_is_below_n() {
        for (handler, sound) in [(0, true), (2, true), (3, false), (usize::MAX, false)] {
            let found = is_sound(|state| state.handler = Some(handler));
            assert_eq!(found, sound, "{handler}");
        }
    }

    #[test]
    fn a_last_error_is_one_of_the_five_at_a_statement_below_n() {
        for stop in 0..=255 {
            for (statement, is_below) in [(0, true), (2, true), (3, false), (usize::MAX, false)] {
                let found =
                    is_sound(|state| state.last_error = Some(LastError { stop, statement }));
                let wanted = is_below && [20, 21, 22, 23, 26].contains(&stop);
                assert_eq!(found, wanted, "{stop} at {statement}");
            }
        }
    }

    #[test]
    fn a_last_error_stands_without_a_handler_and_anywhere() {
        for at in 0..=3 {
            assert!(is_sound(|state| {
                state.at = at;
                state.last_error = Some(LastError {
                    stop: 20,
                    statement: 0,
                });
            }));
        }
    }

    #[test]
    fn five_errors_are_trapped_and_the_others_are_not() {
        let traps = |fault: Fault| {
            let mut state = State {
                at: 7,
                depth: 1,
                handler: Some(4),
                ..State::START
            };
            state.returns[0] = 3;
            state.open_loop(OPEN);
            let before = state;
            if !state.trap(fault) {
                assert_eq!(state, before);
                return None;
            }
            let after = State {
                at: 4,
                last_error: state.last_error,
                ..before
            };
            assert_eq!(state, after);
            state.last_error.map(|error| (error.stop, error.statement))
        };
        assert_eq!(traps(Fault::Digits), Some((20, 7)));
        assert_eq!(traps(Fault::Subscript), Some((21, 7)));
        assert_eq!(traps(Fault::BadDigit), Some((22, 7)));
        assert_eq!(traps(Fault::ZeroDivisor), Some((23, 7)));
        assert_eq!(traps(Fault::Rounding), Some((26, 7)));
        for fault in [
            Fault::Call,
            Fault::Return,
            Fault::ZeroStep,
            Fault::Loop,
            Fault::NoLoop,
        ] {
            assert_eq!(traps(fault), None, "{fault:?}");
        }
    }

    #[test]
    fn without_a_handler_nothing_is_trapped() {
        let mut state = State::START;
        assert!(!state.trap(Fault::BadDigit));
        assert_eq!(state, State::START);
    }

    #[test]
    fn calls_are_stored_and_taken_back() {
        let mut state = State::START;
        state.at = 7;
        state.call(2).unwrap();
        assert_eq!((state.at, state.depth, state.returns[0]), (2, 1, 8));
        state.go_back().unwrap();
        assert_eq!((state.at, state.depth, state.returns[0]), (8, 0, 0));
        assert_eq!(state.go_back(), Err(Fault::Return));
        assert_eq!((state.at, state.depth), (8, 0));
    }

    #[test]
    fn the_fiftieth_call_is_taken_and_the_next_is_24() {
        let mut state = State::START;
        for _ in 0..50 {
            state.call(1).unwrap();
        }
        let full = state;
        assert_eq!(state.call(1), Err(Fault::Call));
        assert_eq!(state, full);
    }

    #[test]
    fn loops_are_opened_and_closed_last_first() {
        let mut state = State::START;
        assert_eq!(state.open_last(), Err(Fault::NoLoop));
        for entry in 0..LOOPS_MOST {
            assert!(!state.has_no_slot());
            state.open_loop(Loop { entry, ..OPEN });
        }
        assert!(state.has_no_slot());
        for entry in (0..LOOPS_MOST).rev() {
            assert_eq!(state.open_last(), Ok(Loop { entry, ..OPEN }));
            state.close_loop();
        }
        assert_eq!(state, State::START);
    }

    #[test]
    fn the_test_goes_by_the_sign_of_the_step() {
        // Whether a loop goes on with a value below, at and above its limit.
        for (step, wanted) in [(1, [true, true, false]), (-1, [false, true, true])] {
            for size in [1, 2, 999_999_999_999_999_999] {
                let open = Loop {
                    entry: 0,
                    limit: -5,
                    step: step * size,
                };
                assert_eq!([-6, -5, -4].map(|value| open.goes_on(value)), wanted);
            }
        }
    }
}
