//! Expressions: their items, and what sort of expression they make.

use crate::decimal::DIGITS_MOST;
use crate::unit::{number_at, Parts};
use std::ops::Range;

/// The most values an expression may hold at once.
pub const HELD_MOST: usize = 16;

/// The code of the item that closes an expression.
pub const CLOSE: u8 = 0x00;

/// The code of the operator that negates a value.
pub const NEGATE: u8 = 0x15;

/// One item of an expression.
#[derive(Clone, Debug, PartialEq, Eq)]
pub enum Item {
    /// 00: the expression is closed.
    Close,
    /// 01: a number literal, by its range in the literals.
    Number(Range<usize>),
    /// 02 to 05: a reference to the field of this number, its bounds being the values before it.
    Reference { form: Form, field: usize },
    /// 06: an alpha literal, by its range in the literals.
    Alpha(Range<usize>),
    /// 15 and 1C: an operator on one value.
    One(u8),
    /// The other codes from 10 to 1F: an operator on two values.
    Two(u8),
}

/// The form of a reference: what its bounds mean.
#[derive(Clone, Copy, Debug, PartialEq, Eq)]
pub enum Form {
    /// 02: no bounds.
    First,
    /// 03: (subscript).
    Subscript,
    /// 04: (start,end).
    StartEnd,
    /// 05: (pos:length).
    PosLength,
}

impl Form {
    /// The form of the reference with this code.
    pub fn of(code: u8) -> Form {
        match code {
            0x02 => Form::First,
            0x03 => Form::Subscript,
            0x04 => Form::StartEnd,
            0x05 => Form::PosLength,
            _ => unreachable!("{code:02X} is no reference"),
        }
    }

    /// The code of the references of this form.
    pub fn code(self) -> u8 {
        match self {
            Form::First => 0x02,
            Form::Subscript => 0x03,
            Form::StartEnd => 0x04,
            Form::PosLength => 0x05,
        }
    }

    /// The number of bounds.
    pub fn bounds(self) -> usize {
        match self {
            Form::First => 0,
            Form::Subscript => 1,
            Form::StartEnd | Form::PosLength => 2,
        }
    }
}

/// What a well-formed expression is good for.
#[derive(Clone, Copy, Debug, PartialEq, Eq)]
pub enum Sort {
    /// A number that is no place: it ends with a number literal or an operator.
    Number,
    /// A reference to a decimal field: a place, and a number as well.
    DecimalPlace,
    /// A reference to an alpha field or a record: a place, and an alpha source as well.
    AlphaPlace,
    /// A lone alpha literal: an alpha source.
    AlphaLiteral,
}

impl Sort {
    pub fn is_place(self) -> bool {
        matches!(self, Sort::DecimalPlace | Sort::AlphaPlace)
    }

    pub fn is_number(self) -> bool {
        matches!(self, Sort::Number | Sort::DecimalPlace)
    }

    pub fn is_alpha_source(self) -> bool {
        matches!(self, Sort::AlphaPlace | Sort::AlphaLiteral)
    }
}

/// The item at `at` and the offset behind it, or nothing if its code is unknown or the
/// expressions end before it does.
pub fn item_at(expressions: &[u8], at: usize) -> Option<(Item, usize)> {
    let (code, operands) = expressions.get(at..)?.split_first()?;
    let width = match code {
        0x02..=0x05 => 2,
        0x01 => 3,
        0x06 => 4,
        _ => 0,
    };
    let operands = operands.get(..width)?;
    let item = match *code {
        CLOSE => Item::Close,
        0x01 => {
            let place = number_at(operands, 0);
            Item::Number(place..place + usize::from(operands[2]))
        }
        0x02 => reference(Form::First, operands),
        0x03 => reference(Form::Subscript, operands),
        0x04 => reference(Form::StartEnd, operands),
        0x05 => reference(Form::PosLength, operands),
        0x06 => {
            let place = number_at(operands, 0);
            Item::Alpha(place..place + number_at(operands, 2))
        }
        code @ (NEGATE | 0x1C) => Item::One(code),
        code @ 0x10..=0x1F => Item::Two(code),
        _ => return None,
    };
    Some((item, at + 1 + width))
}

fn reference(form: Form, operands: &[u8]) -> Item {
    Item::Reference {
        form,
        field: number_at(operands, 0),
    }
}

/// Whether the expression is closed at `at`, so that the item before stands last.
pub fn is_closed_at(expressions: &[u8], at: usize) -> bool {
    expressions.get(at) == Some(&CLOSE)
}

/// The offset behind the 00 that closes the expression at `offset`, or nothing if none is met.
fn behind(expressions: &[u8], offset: usize) -> Option<usize> {
    let mut at = offset;
    loop {
        let (item, next) = item_at(expressions, at)?;
        if item == Item::Close {
            return Some(next);
        }
        at = next;
    }
}

/// The offsets of three expressions in a row, each behind the 00 that closes the one before; or
/// nothing if the first or the second is not closed.
pub fn three_from(expressions: &[u8], first: usize) -> Option<[usize; 3]> {
    let second = behind(expressions, first)?;
    let third = behind(expressions, second)?;
    Some([first, second, third])
}

/// The sort of the expression at `offset`, or nothing if it is badly formed.
pub fn sort_at(parts: &Parts, offset: usize) -> Option<Sort> {
    let mut at = offset;
    let mut held = 0;
    // The sort of what stands so far, were the expression closed here.
    let mut sort = None;
    loop {
        let (item, next) = item_at(parts.expressions, at)?;
        if item == Item::Close {
            return if held == 1 { sort } else { None };
        }
        // Whatever is alpha stands only last.
        if sort.is_some_and(Sort::is_alpha_source) {
            return None;
        }
        sort = Some(sort_of(parts, &item)?);
        held = held_after(held, &item)?;
        at = next;
    }
}

/// The sort of an expression that ends with `item`, or nothing if what the item names is not
/// there or breaks its rule.
fn sort_of(parts: &Parts, item: &Item) -> Option<Sort> {
    match item {
        Item::Number(range) => {
            let digits = parts.literals.get(range.clone())?;
            let sound =
                (1..=DIGITS_MOST).contains(&digits.len()) && digits.iter().all(u8::is_ascii_digit);
            sound.then_some(Sort::Number)
        }
        Item::Alpha(range) => {
            let text = parts.literals.get(range.clone())?;
            (!text.is_empty()).then_some(Sort::AlphaLiteral)
        }
        Item::Reference { field, .. } => Some(match parts.field(*field)?.is_decimal() {
            true => Sort::DecimalPlace,
            false => Sort::AlphaPlace,
        }),
        Item::Close | Item::One(_) | Item::Two(_) => Some(Sort::Number),
    }
}

/// The number of values held after `item` has taken its own and given one, or nothing if it
/// takes what is not there or too many are held.
fn held_after(held: usize, item: &Item) -> Option<usize> {
    let taken = match item {
        Item::Reference { form, .. } => form.bounds(),
        Item::One(_) => 1,
        Item::Two(_) => 2,
        Item::Close | Item::Number(_) | Item::Alpha(_) => 0,
    };
    let left = held.checked_sub(taken)? + 1;
    (left <= HELD_MOST).then_some(left)
}

#[cfg(test)]
mod tests {
    use super::*;
    use crate::sample::Sample;

    /// The sort of an expression over the sample's fields, or nothing.
    fn sort(expression: &[u8]) -> Option<Sort> {
        let unit = Sample::fields((11, 0, 0, 0), expression).unit();
        sort_at(&Parts::of(&unit).unwrap(), 0)
    }

    #[test]
    fn sorts() {
        assert_eq!(sort(b"\x01\0\0\x01\0"), Some(Sort::Number));
        assert_eq!(sort(b"\x02\0\0\0"), Some(Sort::DecimalPlace));
        assert_eq!(sort(b"\x02\0\x01\0"), Some(Sort::AlphaPlace));
        assert_eq!(sort(b"\x02\0\x02\0"), Some(Sort::AlphaPlace));
        assert_eq!(sort(b"\x06\0\0\0\x01\0"), Some(Sort::AlphaLiteral));
        assert_eq!(sort(b"\x02\0\0\x15\0"), Some(Sort::Number));
        assert_eq!(sort(b"\x02\0\0\x03\0\x01\0"), Some(Sort::AlphaPlace));
    }

    #[test]
    fn closing_and_operands_lie_inside() {
        assert_eq!(sort(b""), None);
        assert_eq!(sort(b"\0"), None);
        assert_eq!(sort(b"\x02\0\0"), None);
        assert_eq!(sort(b"\x02\0"), None);
        assert_eq!(sort(b"\x01\0\0"), None);
        assert_eq!(sort(b"\x06\0\0\0"), None);
    }

    #[test]
    fn codes() {
        for code in 0..=255 {
            // Two numbers stand before the item and serve as its operands or bounds.
            let known = sort(&[1, 0, 0, 1, 1, 0, 0, 1, code, 0, 0, 0]).is_some();
            let two = matches!(code, 0x04 | 0x05 | 0x10..=0x14 | 0x16..=0x1B | 0x1D..=0x1F);
            assert_eq!(known, two, "{code:02X}");
            let known = sort(&[1, 0, 0, 1, code, 0, 0, 0]).is_some();
            assert_eq!(
                known,
                matches!(code, 0x00 | 0x03 | 0x15 | 0x1C),
                "{code:02X}"
            );
        }
    }

    #[test]
    fn a_form_has_the_code_that_it_is_of() {
        for code in 0x02..=0x05 {
            assert_eq!(Form::of(code).code(), code);
        }
    }

    #[test]
    fn literals_keep_their_limits() {
        assert_eq!(sort(b"\x01\0\0\0\0"), None);
        assert_eq!(sort(b"\x01\0\0\x12\0"), Some(Sort::Number));
        assert_eq!(sort(b"\x01\0\0\x13\0"), None);
        assert_eq!(sort(b"\x01\0\x01\x12\0"), Some(Sort::Number));
        assert_eq!(sort(b"\x01\0\x02\x12\0"), None);
        assert_eq!(sort(b"\x06\0\0\0\0\0"), None);
        assert_eq!(sort(b"\x06\0\0\0\x13\0"), Some(Sort::AlphaLiteral));
        assert_eq!(sort(b"\x06\0\0\0\x14\0"), None);
        assert_eq!(sort(b"\x06\xFF\xFF\xFF\xFF\0"), None);
        let mut sample = Sample::fields((11, 0, 0, 0), b"\x01\0\0\x02\0");
        sample.literals[1] = b'/';
        assert_eq!(sort_at(&Parts::of(&sample.unit()).unwrap(), 0), None);
    }

    #[test]
    fn expressions_in_a_row_begin_behind_a_00() {
        // The operands have zeros too, which close nothing.
        let row = b"\x02\0\0\0\x01\0\0\x01\x15\0\x06\0\0\0\0\0";
        assert_eq!(three_from(row, 0), Some([0, 4, 10]));
        assert_eq!(three_from(row, 4), Some([4, 10, 16]));
        assert_eq!(three_from(row, 10), None);
        assert_eq!(three_from(row, 16), None);
        assert_eq!(three_from(b"\0\0", 0), Some([0, 1, 2]));
        assert_eq!(three_from(b"\0\x20\0", 0), None);
        assert_eq!(three_from(b"\0\x02\0\0", 0), None);
    }

    #[test]
    fn sixteen_values_and_not_seventeen() {
        let number = b"\x01\0\0\x01";
        for (count, good) in [(15, true), (16, true), (17, false)] {
            let mut expression = number.repeat(count);
            expression.extend(b"\x15\x03\0\0");
            expression.extend(vec![0x10; count - 1]);
            expression.push(0);
            assert_eq!(sort(&expression).is_some(), good, "{count}");
        }
    }

    #[test]
    fn what_is_alpha_stands_last() {
        assert_eq!(sort(b"\x02\0\x01\x15\0"), None);
        assert_eq!(sort(b"\x02\0\x01\x03\0\0\0"), None);
        assert_eq!(sort(b"\x06\0\0\0\x01\x03\0\x01\0"), None);
        assert_eq!(sort(b"\x01\0\0\x01\x06\0\0\0\x01\0"), None);
    }

    #[test]
    fn fields_are_there() {
        assert_eq!(sort(b"\x02\0\x03\0"), None);
        assert_eq!(sort(b"\x02\xFF\xFF\0"), None);
    }
}
