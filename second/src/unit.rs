//! The coded unit: its five parts, and how field entries and statements are read from them.

use std::ops::Range;

/// The length of the trailer in bytes.
pub const TRAILER: usize = 12;

/// The length of a field entry and of a statement in bytes.
pub const ENTRY: usize = 8;

/// The length of the longest unit in bytes: every part at its greatest length, and the trailer.
pub const LONGEST: usize = 57_353;

/// The two bytes that close the trailer.
pub const MARK: [u8; 2] = [0x44, 0x42];

pub const ALPHA: u8 = 0;
pub const DECIMAL: u8 = 1;
pub const RECORD: u8 = 2;

/// What a field may choose in byte 1 of its entry.
pub const LOOSE: u8 = 0x00;
pub const STRICT: u8 = 0x80;

/// The codes of the statements.
pub mod code {
    pub const SET: u8 = 1;
    pub const CLEAR: u8 = 2;
    pub const INCR: u8 = 3;
    pub const DECR: u8 = 4;
    pub const UPCASE: u8 = 5;
    pub const LOCASE: u8 = 6;
    pub const GOTO: u8 = 7;
    pub const GOTO_IF_ZERO: u8 = 8;
    pub const CALL: u8 = 9;
    pub const RETURN: u8 = 10;
    pub const STOP: u8 = 11;
    pub const COMPUTED_GOTO: u8 = 12;
    pub const FORMAT: u8 = 13;
    pub const FOR: u8 = 14;
    pub const LOOP_END: u8 = 15;
    pub const EXITLOOP: u8 = 16;
    pub const NEXTLOOP: u8 = 17;
    pub const ONERROR: u8 = 18;
    pub const OFFERROR: u8 = 19;
}

/// The five parts of a unit, each a stretch of the unit itself.
#[derive(Clone, Copy, Debug, PartialEq, Eq)]
pub struct Parts<'a> {
    pub image: &'a [u8],
    pub fields: &'a [u8],
    pub expressions: &'a [u8],
    pub literals: &'a [u8],
    pub statements: &'a [u8],
}

/// A field entry, as coded.
#[derive(Clone, Copy, Debug, PartialEq, Eq)]
pub struct Field {
    pub kind: u8,
    pub choice: u8,
    pub offset: usize,
    pub size: usize,
    pub count: usize,
}

/// A statement, as coded.
#[derive(Clone, Copy, Debug, PartialEq, Eq)]
pub struct Statement {
    pub code: u8,
    pub zero: u8,
    pub a: usize,
    pub b: usize,
    pub c: usize,
}

/// The number in the two bytes at `at`, high byte first.
pub fn number_at(bytes: &[u8], at: usize) -> usize {
    usize::from(bytes[at]) << 8 | usize::from(bytes[at + 1])
}

impl<'a> Parts<'a> {
    /// The parts that the trailer of `unit` tells of, or nothing if the unit is too short or too
    /// long, bears another mark or is not filled exactly.
    pub fn of(unit: &'a [u8]) -> Option<Parts<'a>> {
        if unit.len() < TRAILER || unit.len() > LONGEST {
            return None;
        }
        let (body, trailer) = unit.split_at(unit.len() - TRAILER);
        if trailer[10..] != MARK {
            return None;
        }
        let mut rest = body;
        let mut take = |length: usize| {
            let (part, after) = rest.split_at_checked(length)?;
            rest = after;
            Some(part)
        };
        let parts = Parts {
            image: take(number_at(trailer, 0))?,
            fields: take(ENTRY * number_at(trailer, 2))?,
            expressions: take(number_at(trailer, 4))?,
            literals: take(number_at(trailer, 6))?,
            statements: take(ENTRY * number_at(trailer, 8))?,
        };
        rest.is_empty().then_some(parts)
    }

    /// F, the number of field entries.
    pub fn field_count(&self) -> usize {
        self.fields.len() / ENTRY
    }

    /// N, the number of statements.
    pub fn statement_count(&self) -> usize {
        self.statements.len() / ENTRY
    }

    /// Field entry `i`, or nothing if there is none of that number.
    pub fn field(&self, i: usize) -> Option<Field> {
        let entry = self.fields.chunks_exact(ENTRY).nth(i)?;
        Some(Field {
            kind: entry[0],
            choice: entry[1],
            offset: number_at(entry, 2),
            size: number_at(entry, 4),
            count: number_at(entry, 6),
        })
    }

    /// Statement `i`, or nothing if there is none of that number.
    pub fn statement(&self, i: usize) -> Option<Statement> {
        let entry = self.statements.chunks_exact(ENTRY).nth(i)?;
        Some(Statement {
            code: entry[0],
            zero: entry[1],
            a: number_at(entry, 2),
            b: number_at(entry, 4),
            c: number_at(entry, 6),
        })
    }

    /// The place in the unit where the literals begin.
    pub fn literals_start(&self) -> usize {
        self.image.len() + self.fields.len() + self.expressions.len()
    }
}

impl Field {
    /// The length of all the elements together: size x count bytes.
    pub fn length(&self) -> usize {
        self.size * self.count
    }

    /// The place in the data where the field's last element ends.
    pub fn end(&self) -> usize {
        self.offset + self.length()
    }

    pub fn is_decimal(&self) -> bool {
        self.kind == DECIMAL
    }

    /// Whether a reference to the field that leaves its bytes is 21.
    pub fn is_strict(&self) -> bool {
        self.choice == STRICT
    }

    /// Whether a span lies inside the field's size x count bytes.
    pub fn holds(&self, span: &Range<usize>) -> bool {
        self.offset <= span.start && span.end <= self.end()
    }
}
