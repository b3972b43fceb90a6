//! Spans: the stretches of the data that references name.

use crate::decimal::DIGITS_MOST;
use crate::expression::Form;
use crate::stop::Fault;
use crate::unit::Field;
use std::ops::Range;

/// A span of the data, and how it is to be treated.
#[derive(Clone, Copy, Debug, PartialEq, Eq)]
pub struct Span {
    pub start: usize,
    pub end: usize,
    pub is_decimal: bool,
}

impl Span {
    pub fn range(self) -> Range<usize> {
        self.start..self.end
    }
}

/// The stretch that a reference names, counted from the field's first byte, wherever it may lie;
/// or nothing if 21 is given for the bounds themselves. Unused bounds are not looked at.
fn stretch(form: Form, bounds: [i64; 2], size: usize) -> Option<Range<i64>> {
    let size = size as i64;
    match (form, bounds) {
        (Form::First, _) => Some(0..size),
        // An element too far away for 64 bits lies outside all data, and so does the outermost
        // one that stands in for it.
        (Form::Subscript, [subscript, _]) => {
            let start = (subscript - 1).saturating_mul(size);
            Some(start..start.saturating_add(size))
        }
        (Form::StartEnd, [start, end]) => (1 <= start && start <= end).then_some(start - 1..end),
        (Form::PosLength, [pos, length]) if pos >= 1 && length > 0 => {
            Some(pos - 1..pos - 1 + length)
        }
        // A negative length ends at pos.
        (Form::PosLength, [pos, length]) if pos >= 1 && length < 0 => Some(pos + length..pos),
        (Form::PosLength, _) => None,
    }
}

/// The bytes that a reference names in `length` bytes of data; or nothing if 21 is given for any
/// field, for the bounds themselves or because these bytes do not stay inside the data.
pub fn named(field: &Field, form: Form, bounds: [i64; 2], length: usize) -> Option<Range<usize>> {
    let stretch = stretch(form, bounds, field.size)?;
    let offset = field.offset as i64;
    let is_inside = -offset <= stretch.start && stretch.end <= length as i64 - offset;
    is_inside.then(|| (offset + stretch.start) as usize..(offset + stretch.end) as usize)
}

/// The span of a reference in `length` bytes of data: 21 if there is none, or if it leaves the bytes
/// of a strict field; then 20 if it is a decimal span of more than 18 characters.
pub fn span(field: &Field, form: Form, bounds: [i64; 2], length: usize) -> Result<Span, Fault> {
    let Range { start, end } = named(field, form, bounds, length)
        .filter(|span| !field.is_strict() || field.holds(span))
        .ok_or(Fault::Subscript)?;
    let is_decimal = field.is_decimal();
    if is_decimal && end - start > DIGITS_MOST {
        return Err(Fault::Digits);
    }
    Ok(Span {
        start,
        end,
        is_decimal,
    })
}

#[cfg(test)]
mod tests {
    use super::*;
    use crate::unit::{ALPHA, DECIMAL, LOOSE, RECORD, STRICT};

    const FAR: i64 = 999_999_999_999_999_999;

    fn field(kind: u8, offset: usize, size: usize, count: usize) -> Field {
        Field {
            kind,
            choice: LOOSE,
            offset,
            size,
            count,
        }
    }

    /// Start and end of a span in the 36 bytes of the bench values, or the stop number.
    fn found(field: Field, form: Form, bounds: [i64; 2]) -> Result<(usize, usize), u8> {
        span(&field, form, bounds, 36)
            .map(|span| (span.start, span.end))
            .map_err(Fault::stop)
    }

    fn am() -> Field {
        field(ALPHA, 0, 13, 1)
    }

    fn nz() -> Field {
        field(ALPHA, 13, 13, 1)
    }

    fn num() -> Field {
        field(DECIMAL, 26, 10, 1)
    }

    #[test]
    fn no_bounds_give_the_first_element() {
        assert_eq!(found(num(), Form::First, [0, 0]), Ok((26, 36)));
        let seats = field(DECIMAL, 4, 3, 5);
        assert_eq!(found(seats, Form::First, [0, 0]), Ok((4, 7)));
    }

    #[test]
    fn subscripts_give_elements_on_both_sides() {
        let seats = field(ALPHA, 10, 4, 3);
        let element = |s| found(seats, Form::Subscript, [s, 0]);
        assert_eq!(element(1), Ok((10, 14)));
        assert_eq!(element(3), Ok((18, 22)));
        assert_eq!(element(4), Ok((22, 26)));
        assert_eq!(element(7), Err(21));
        assert_eq!(element(0), Ok((6, 10)));
        assert_eq!(element(-1), Ok((2, 6)));
        assert_eq!(element(-2), Err(21));
    }

    #[test]
    fn far_subscripts_do_not_come_back() {
        for size in [1, 4, 256, 16_383] {
            let field = field(ALPHA, 0, size, 1);
            for s in [FAR, -FAR, 1 << 16, 1 << 32, 1 << 48, 1 << 56, (1 << 59) + 1] {
                for s in [s, -s, s + 1] {
                    let bounds = [s, 0];
                    let found = span(&field, Form::Subscript, bounds, 16_383);
                    assert_eq!(found, Err(Fault::Subscript), "{s} x {size}");
                }
            }
        }
    }

    #[test]
    fn start_and_end() {
        let part = |field, start, end| found(field, Form::StartEnd, [start, end]);
        assert_eq!(part(am(), 12, 15), Ok((11, 15)));
        assert_eq!(part(am(), 1, 36), Ok((0, 36)));
        assert_eq!(part(am(), 1, 37), Err(21));
        assert_eq!(part(am(), 0, 3), Err(21));
        assert_eq!(part(am(), 3, 2), Err(21));
        assert_eq!(part(am(), 3, 3), Ok((2, 3)));
        assert_eq!(part(num(), 10, 10), Ok((35, 36)));
        assert_eq!(part(num(), 10, 11), Err(21));
        assert_eq!(part(num(), 4, 8), Ok((29, 34)));
        assert_eq!(part(am(), 1, FAR), Err(21));
        assert_eq!(part(am(), -FAR, FAR), Err(21));
    }

    #[test]
    fn position_and_length() {
        let part = |field, pos, length| found(field, Form::PosLength, [pos, length]);
        assert_eq!(part(nz(), 2, -5), Ok((10, 15)));
        assert_eq!(part(am(), 2, -5), Err(21));
        assert_eq!(part(am(), 2, -2), Ok((0, 2)));
        assert_eq!(part(am(), 12, 4), Ok((11, 15)));
        assert_eq!(part(am(), 1, 36), Ok((0, 36)));
        assert_eq!(part(am(), 1, 37), Err(21));
        assert_eq!(part(am(), 0, 1), Err(21));
        assert_eq!(part(nz(), 0, -1), Err(21));
        assert_eq!(part(nz(), 1, 0), Err(21));
        assert_eq!(part(num(), 4, 5), Ok((29, 34)));
        assert_eq!(part(am(), FAR, FAR), Err(21));
        assert_eq!(part(am(), 1, -FAR), Err(21));
        assert_eq!(part(am(), FAR, -FAR), Err(21));
    }

    #[test]
    fn a_decimal_span_over_18_is_20_and_21_comes_first() {
        let fares = field(DECIMAL, 0, 12, 3);
        let part = |start, end| found(fares, Form::StartEnd, [start, end]);
        assert_eq!(part(1, 18), Ok((0, 18)));
        assert_eq!(part(1, 19), Err(20));
        assert_eq!(part(1, 36), Err(20));
        assert_eq!(part(1, 37), Err(21));
        let text = field(ALPHA, 0, 12, 3);
        assert_eq!(found(text, Form::StartEnd, [1, 19]), Ok((0, 19)));
    }

    /// A field that is strict.
    fn strict(kind: u8, offset: usize, size: usize, count: usize) -> Field {
        Field {
            choice: STRICT,
            ..field(kind, offset, size, count)
        }
    }

    #[test]
    fn a_strict_field_holds_its_subscripts() {
        for kind in [ALPHA, DECIMAL] {
            let element = |s| found(strict(kind, 10, 4, 3), Form::Subscript, [s, 0]);
            assert_eq!(element(1), Ok((10, 14)));
            assert_eq!(element(3), Ok((18, 22)));
            for s in [0, 4, -1, -2, 7, FAR, -FAR] {
                assert_eq!(element(s), Err(21), "{s}");
            }
        }
        let first = found(strict(ALPHA, 10, 4, 3), Form::First, [0, 0]);
        assert_eq!(first, Ok((10, 14)));
    }

    #[test]
    fn a_strict_field_holds_its_substrings() {
        let seats = strict(ALPHA, 10, 4, 3);
        let part = |start, end| found(seats, Form::StartEnd, [start, end]);
        assert_eq!(part(1, 12), Ok((10, 22)));
        assert_eq!(part(3, 9), Ok((12, 19)));
        assert_eq!(part(12, 12), Ok((21, 22)));
        assert_eq!(part(12, 13), Err(21));
        assert_eq!(part(13, 13), Err(21));
        assert_eq!(part(1, 27), Err(21));
        let part = |pos, length| found(seats, Form::PosLength, [pos, length]);
        assert_eq!(part(3, 10), Ok((12, 22)));
        assert_eq!(part(3, 11), Err(21));
        assert_eq!(part(12, -12), Ok((10, 22)));
        assert_eq!(part(12, -13), Err(21));
        assert_eq!(part(1, -1), Ok((10, 11)));
        assert_eq!(part(1, -2), Err(21));
        assert_eq!(part(13, -1), Err(21));
        assert_eq!(part(13, -14), Err(21));
    }

    #[test]
    fn a_strict_record_holds_its_own_size() {
        let middle = strict(RECORD, 10, 5, 1);
        let part = |start, end| found(middle, Form::StartEnd, [start, end]);
        assert_eq!(part(1, 5), Ok((10, 15)));
        assert_eq!(part(1, 6), Err(21));
        let element = |s| found(middle, Form::Subscript, [s, 0]);
        assert_eq!(element(1), Ok((10, 15)));
        assert_eq!([element(0), element(2)], [Err(21), Err(21)]);
    }

    #[test]
    fn a_strict_decimal_is_21_before_20() {
        let fares = strict(DECIMAL, 0, 12, 2);
        let part = |start, end| found(fares, Form::StartEnd, [start, end]);
        assert_eq!(part(7, 24), Ok((6, 24)));
        assert_eq!(part(6, 24), Err(20));
        assert_eq!(part(6, 25), Err(21));
    }

    #[test]
    fn the_data_end_before_a_strict_field_that_is_not_sound() {
        let long = strict(ALPHA, 30, 10, 1);
        assert_eq!(found(long, Form::StartEnd, [1, 6]), Ok((30, 36)));
        assert_eq!(found(long, Form::StartEnd, [1, 7]), Err(21));
    }
}
