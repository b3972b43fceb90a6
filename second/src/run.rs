//! Runs: checks 1 to 7, then statement by statement over the lent data buffer.

use crate::arithmetic;
use crate::check::check;
use crate::decimal;
use crate::loops;
use crate::mask::edited;
use crate::span::Span;
use crate::state::State;
use crate::stop::{Fault, Refusal, ALLOWANCE_SPENT, END};
use crate::text;
use crate::unit::{code, Parts, Statement};
use crate::work::{number, place, read, work, Worked, SOUND};

/// How a run stopped.
#[derive(Clone, Copy, Debug, PartialEq, Eq)]
pub struct Outcome {
    /// The stop number.
    pub stop: u8,
    /// The place that the stop names.
    pub place: usize,
    /// The number of statements completed.
    pub count: u64,
    /// The next resume state.
    pub state: State,
}

/// Runs a unit over a data buffer from a resume state, for at most `allowance` statements. After
/// a refusal nothing is changed and the count is 0.
pub fn run(unit: &[u8], bytes: &mut [u8], state: State, allowance: u64) -> Outcome {
    match sound(unit, bytes, &state) {
        Ok(parts) => run_checked(&parts, bytes, state, allowance),
        Err(Refusal { stop, place }) => Outcome {
            stop,
            place,
            count: 0,
            state,
        },
    }
}

/// Checks 1 to 7, in order.
fn sound<'a>(unit: &'a [u8], bytes: &[u8], state: &State) -> Result<Parts<'a>, Refusal> {
    let parts = check(unit)?;
    if bytes.len() != parts.image.len() {
        return Err(Refusal { stop: 6, place: 0 });
    }
    if !state.is_sound(&parts) {
        return Err(Refusal { stop: 7, place: 0 });
    }
    Ok(parts)
}

/// The run itself. The end is tested before the allowance, so that a run which reaches it with
/// its last statement gives 0. A statement whose error is trapped counts as completed.
fn run_checked(parts: &Parts, data: &mut [u8], mut state: State, allowance: u64) -> Outcome {
    let end = parts.statement_count();
    let mut count = 0;
    let stop = loop {
        if state.at == end {
            break END;
        }
        if count == allowance {
            break ALLOWANCE_SPENT;
        }
        if let Err(fault) = step(parts, data, &mut state) {
            if !state.trap(fault) {
                break fault.stop();
            }
        }
        count += 1;
    };
    Outcome {
        stop,
        place: state.at,
        count,
        state,
    }
}

/// Works the statement at which the state stands. A run error changes nothing.
fn step(parts: &Parts, data: &mut [u8], state: &mut State) -> Result<(), Fault> {
    let i = state.at;
    let Statement { code, a, b, c, .. } = parts.statement(i).expect(SOUND);
    match code {
        code::SET => set(parts, data, a, b)?,
        code::CLEAR => clear(parts, data, a)?,
        code::INCR => add_to(parts, data, a, 1)?,
        code::DECR => add_to(parts, data, a, -1)?,
        code::UPCASE => {
            let place = place(parts, data, a)?;
            data[place.range()].make_ascii_uppercase();
        }
        code::LOCASE => {
            let place = place(parts, data, a)?;
            data[place.range()].make_ascii_lowercase();
        }
        code::GOTO => {
            state.go_to(c);
            return Ok(());
        }
        code::GOTO_IF_ZERO => {
            if number(parts, data, b)? == 0 {
                state.go_to(c);
                return Ok(());
            }
        }
        code::CALL => return state.call(c),
        code::RETURN => return state.go_back(),
        code::STOP => {
            state.go_to(parts.statement_count());
            return Ok(());
        }
        code::COMPUTED_GOTO => {
            state.go_to(i + chosen(number(parts, data, b)?, a));
            return Ok(());
        }
        code::FORMAT => format(parts, data, [a, b, c])?,
        code::FOR => return loops::enter(parts, data, state),
        code::LOOP_END | code::NEXTLOOP => return loops::go_on(parts, data, state),
        code::EXITLOOP => return loops::leave(parts, state),
        code::ONERROR => state.handler = Some(c),
        code::OFFERROR => state.handler = None,
        _ => unreachable!("a sound unit has no statement {code}"),
    }
    state.advance();
    Ok(())
}

/// How far a computed GOTO goes on: to the one of its `n` GOTOs that a value from 1 to n chooses,
/// and past them all for any other.
fn chosen(value: i64, n: usize) -> usize {
    let label = usize::try_from(value).ok().filter(|v| (1..=n).contains(v));
    label.unwrap_or(n + 1)
}

/// SET: a is worked out before b, and storing comes last.
fn set(parts: &Parts, data: &mut [u8], a: usize, b: usize) -> Result<(), Fault> {
    let place = place(parts, data, a)?;
    match work(parts, data, b)? {
        Worked::Number(value) => set_number(data, place, value),
        Worked::Span(source) if source.is_decimal => {
            let value = read(data, source)?;
            set_number(data, place, value);
        }
        Worked::Span(source) if place.is_decimal => {
            let value = text::number_in(&data[source.range()])?;
            set_number(data, place, value);
        }
        Worked::Span(source) => text::write_within(data, place.range(), source.range()),
        Worked::Literal(range) if place.is_decimal => {
            let value = text::number_in(&parts.literals[range])?;
            set_number(data, place, value);
        }
        Worked::Literal(range) => {
            text::write_text(&mut data[place.range()], &parts.literals[range]);
        }
    }
    Ok(())
}

/// The formatted move: the place a, the mask b and the number c are worked out in this order, and
/// storing comes last. The mask is edited whole before the place is written, which may share bytes
/// with it.
fn format(parts: &Parts, data: &mut [u8], [a, b, c]: [usize; 3]) -> Result<(), Fault> {
    let place = place(parts, data, a)?;
    let mask = work(parts, data, b)?;
    let value = number(parts, data, c)?;
    let shown = match mask {
        Worked::Span(span) => edited(&data[span.range()], value),
        Worked::Literal(range) => edited(&parts.literals[range], value),
        Worked::Number(_) => unreachable!("a mask is an alpha source"),
    };
    text::write_right(&mut data[place.range()], &shown);
    Ok(())
}

/// CLEAR: zeros for decimal, spaces for alpha.
fn clear(parts: &Parts, data: &mut [u8], a: usize) -> Result<(), Fault> {
    let place = place(parts, data, a)?;
    let filling = if place.is_decimal { b'0' } else { b' ' };
    data[place.range()].fill(filling);
    Ok(())
}

/// Moves a number to a place.
fn set_number(data: &mut [u8], place: Span, value: i64) {
    let bytes = &mut data[place.range()];
    if place.is_decimal {
        decimal::write(bytes, value);
    } else {
        text::write_number(bytes, value);
    }
}

/// INCR and DECR: the place is read before the sum.
fn add_to(parts: &Parts, data: &mut [u8], a: usize, change: i64) -> Result<(), Fault> {
    let place = place(parts, data, a)?;
    let sum = arithmetic::add(read(data, place)?, change)?;
    set_number(data, place, sum);
    Ok(())
}

#[cfg(test)]
mod tests;
