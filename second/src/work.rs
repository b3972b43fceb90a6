//! Working an expression out, straight from its coded bytes.

use crate::arithmetic::{one, two};
use crate::decimal;
use crate::expression::{Form, CLOSE, HELD_MOST};
use crate::span::{span, Span};
use crate::stop::Fault;
use crate::unit::{number_at, Parts};
use std::ops::Range;

/// Why the parts of a unit that passes checks 1 to 5 hold what is looked for.
pub const SOUND: &str = "the unit is sound";

/// What an expression comes to.
pub enum Worked {
    /// It ends with a number literal or an operator.
    Number(i64),
    /// It ends with a reference. The span is found, but not read.
    Span(Span),
    /// It is a lone alpha literal, by its range in the literals.
    Literal(Range<usize>),
}

/// The values held while an expression is worked out.
struct Values {
    values: [i64; HELD_MOST],
    held: usize,
}

impl Values {
    fn none() -> Values {
        Values {
            values: [0; HELD_MOST],
            held: 0,
        }
    }

    fn hold(&mut self, value: i64) {
        self.values[self.held] = value;
        self.held += 1;
    }

    fn take(&mut self) -> i64 {
        self.held -= 1;
        self.values[self.held]
    }

    fn take_two(&mut self) -> [i64; 2] {
        let second = self.take();
        [self.take(), second]
    }

    /// Takes the bounds of a reference.
    fn take_bounds(&mut self, form: Form) -> [i64; 2] {
        match form.bounds() {
            0 => [0, 0],
            1 => [self.take(), 0],
            _ => self.take_two(),
        }
    }
}

/// Works out the expression at `offset` of a sound unit: items left to right, reads where they
/// stand.
pub fn work(parts: &Parts, data: &[u8], offset: usize) -> Result<Worked, Fault> {
    let expressions = parts.expressions;
    let mut values = Values::none();
    let mut at = offset;
    loop {
        let code = expressions[at];
        match code {
            CLOSE => return Ok(Worked::Number(values.take())),
            0x01 => {
                values.hold(literal_number(parts, at));
                at += 4;
            }
            0x02..=0x05 => {
                let field = parts.field(number_at(expressions, at + 1)).expect(SOUND);
                let form = Form::of(code);
                let span = span(&field, form, values.take_bounds(form), data.len())?;
                at += 3;
                if expressions[at] == CLOSE {
                    return Ok(Worked::Span(span));
                }
                values.hold(read(data, span)?);
            }
            0x06 => {
                let place = number_at(expressions, at + 1);
                let length = number_at(expressions, at + 3);
                return Ok(Worked::Literal(place..place + length));
            }
            0x15 | 0x1C => {
                let x = values.take();
                values.hold(one(code, x));
                at += 1;
            }
            _ => {
                let [x, y] = values.take_two();
                values.hold(two(code, x, y)?);
                at += 1;
            }
        }
    }
}

/// The number of the literal whose item stands at `at`.
fn literal_number(parts: &Parts, at: usize) -> i64 {
    let place = number_at(parts.expressions, at + 1);
    let length = usize::from(parts.expressions[at + 3]);
    decimal::read_literal(&parts.literals[place..place + length])
}

/// The place that the expression at `offset` names.
pub fn place(parts: &Parts, data: &[u8], offset: usize) -> Result<Span, Fault> {
    match work(parts, data, offset)? {
        Worked::Span(span) => Ok(span),
        _ => unreachable!("a place ends with a reference"),
    }
}

/// The number that the expression at `offset` comes to.
pub fn number(parts: &Parts, data: &[u8], offset: usize) -> Result<i64, Fault> {
    match work(parts, data, offset)? {
        Worked::Number(value) => Ok(value),
        Worked::Span(span) => read(data, span),
        Worked::Literal(_) => unreachable!("a number is no alpha literal"),
    }
}

/// Reads a decimal span: 22 if it is not valid.
#[inline]
pub fn read(data: &[u8], span: Span) -> Result<i64, Fault> {
    decimal::read(&data[span.range()]).ok_or(Fault::BadDigit)
}
