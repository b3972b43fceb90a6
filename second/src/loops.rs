//! FOR loops: how one is entered, goes on and is left.

use crate::arithmetic::add;
use crate::decimal;
use crate::expression::three_from;
use crate::span::Span;
use crate::state::{Loop, State};
use crate::stop::Fault;
use crate::unit::{Parts, Statement};
use crate::work::{number, place, read, SOUND};

/// FOR: with 16 loops open it is 28. The control place is found, but not read; start, limit and
/// step are worked out in this order; a step of 0 is 27; and the start is stored. The loop is
/// opened if the test is passed. If not, the run goes on behind the loop end.
pub fn enter(parts: &Parts, data: &mut [u8], state: &mut State) -> Result<(), Fault> {
    if state.has_no_slot() {
        return Err(Fault::Loop);
    }
    let entry = state.at;
    let Statement { a, b, c, .. } = parts.statement(entry).expect(SOUND);
    let control = place(parts, data, a)?;
    let [start, limit, step] = three_from(parts.expressions, b).expect(SOUND);
    let start = number(parts, data, start)?;
    let limit = number(parts, data, limit)?;
    let step = number(parts, data, step)?;
    if step == 0 {
        return Err(Fault::ZeroStep);
    }
    store(data, control, start)?;
    let new = Loop { entry, limit, step };
    if new.goes_on(start) {
        state.open_loop(new);
        state.go_to(entry + 1);
    } else {
        state.go_to(c + 1);
    }
    Ok(())
}

/// Loop end and NEXTLOOP: the control place of the loop opened last is found again from its FOR,
/// and the step is added to what is read there. The loop stays open if the test is passed.
pub fn go_on(parts: &Parts, data: &mut [u8], state: &mut State) -> Result<(), Fault> {
    let open = state.open_last()?;
    let Statement { a, c, .. } = parts.statement(open.entry).expect(SOUND);
    let control = place(parts, data, a)?;
    let value = add(read(data, control)?, open.step)?;
    store(data, control, value)?;
    if open.goes_on(value) {
        state.go_to(open.entry + 1);
    } else {
        state.close_loop();
        state.go_to(c + 1);
    }
    Ok(())
}

/// EXITLOOP: the loop opened last is closed, and the run goes on behind its loop end.
pub fn leave(parts: &Parts, state: &mut State) -> Result<(), Fault> {
    let open = state.open_last()?;
    let Statement { c, .. } = parts.statement(open.entry).expect(SOUND);
    state.close_loop();
    state.go_to(c + 1);
    Ok(())
}

/// Stores a control value: 20 if it does not fit, before it is stored.
fn store(data: &mut [u8], control: Span, value: i64) -> Result<(), Fault> {
    let characters = &mut data[control.range()];
    if !decimal::fits(characters.len(), value) {
        return Err(Fault::Digits);
    }
    decimal::write(characters, value);
    Ok(())
}

#[cfg(test)]
mod tests;
