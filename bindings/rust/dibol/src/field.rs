//! The field entries of a unit.

use crate::unit::Unit;
use std::iter::FusedIterator;
use std::ops::Range;

/// What a field holds.
#[derive(Clone, Copy, Debug, PartialEq, Eq, Hash)]
#[non_exhaustive]
pub enum Kind {
    /// Text.
    Alpha,
    /// Amounts, whose sign stands in their last character.
    Decimal,
    /// A record, which may cover other fields and is treated as alpha.
    Record,
    /// A number that this version of the crate has no name for.
    Other(u64),
}

impl From<u64> for Kind {
    fn from(number: u64) -> Kind {
        match number {
            0 => Kind::Alpha,
            1 => Kind::Decimal,
            2 => Kind::Record,
            _ => Kind::Other(number),
        }
    }
}

/// A field entry of a unit.
#[derive(Clone, Copy, Debug, PartialEq, Eq, Hash)]
pub struct Field {
    /// What it holds.
    pub kind: Kind,
    /// Where its first element starts in the data.
    pub offset: usize,
    /// The length of an element.
    pub size: usize,
    /// How many elements it has.
    pub count: usize,
    /// Whether a reference that leaves it is 21.
    pub strict: bool,
}

impl Field {
    /// The bytes of the data that it has, which are those of all its elements.
    ///
    /// ```
    /// use dibol::{Field, Kind};
    /// let (kind, offset, size, count) = (Kind::Alpha, 24, 6, 4);
    /// let field = Field { kind, offset, size, count, strict: false };
    /// assert_eq!(field.bytes(), 24..48);
    /// ```
    pub fn bytes(&self) -> Range<usize> {
        self.offset..self.offset + self.size * self.count
    }
}

/// The field entries of a unit, in their order, as [`Unit::fields`] answers them.
#[derive(Clone, Debug)]
pub struct Fields<'a> {
    unit: Unit<'a>,
    next: usize,
}

impl<'a> Fields<'a> {
    pub(crate) fn of(unit: Unit<'a>) -> Fields<'a> {
        Fields { unit, next: 0 }
    }
}

impl Iterator for Fields<'_> {
    type Item = Field;

    fn next(&mut self) -> Option<Field> {
        let field = self.unit.field(self.next)?;
        self.next += 1;
        Some(field)
    }

    fn size_hint(&self) -> (usize, Option<usize>) {
        let left = self.unit.parts().fields - self.next;
        (left, Some(left))
    }
}

impl ExactSizeIterator for Fields<'_> {}
impl FusedIterator for Fields<'_> {}
