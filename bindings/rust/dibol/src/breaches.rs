//! The references of a unit that break a fence rule.

use crate::fence::Breach;
use crate::ffi::DIBOL_ROW_LEN;
use crate::unit::Unit;
use std::fmt;
use std::iter::FusedIterator;
use std::ops::Range;

/// How many breaches are asked for at first, and at most, at a time. Each call goes through the whole
/// unit, so a call asks for twice as many as the one before.
const FIRST: usize = 16;
const MOST: usize = 65_536;

/// How a reference names its bytes.
#[derive(Clone, Copy, Debug, PartialEq, Eq, Hash)]
#[non_exhaustive]
pub enum Form {
    /// 2: a field without bounds, which is its first element.
    First,
    /// 3: field(subscript).
    Subscript,
    /// 4: field(start,end).
    StartEnd,
    /// 5: field(pos:length).
    PosLength,
    /// A number that this version of the crate has no name for.
    Other(u64),
}

impl From<u64> for Form {
    fn from(number: u64) -> Form {
        match number {
            2 => Form::First,
            3 => Form::Subscript,
            4 => Form::StartEnd,
            5 => Form::PosLength,
            _ => Form::Other(number),
        }
    }
}

/// A reference that breaks a fence rule.
///
/// Shown by `{}`, it is the statement, the field and the library's own words for the rule.
#[derive(Clone, Debug, PartialEq, Eq, Hash)]
pub struct Broken {
    /// The statement that it stands in.
    pub statement: usize,
    /// The first rule that it breaks by itself, whatever stands before it.
    pub rule: Breach,
    /// Whether it names what the statement writes; otherwise it is read.
    pub written: bool,
    /// The number of the field.
    pub field: usize,
    /// How it names its bytes.
    pub form: Form,
    /// The bytes of the data that it names; none for the rules 1 and 2, where its bounds fix none.
    pub span: Option<Range<usize>>,
    /// The offset of the reference in the expressions.
    pub item: usize,
}

impl Broken {
    fn from_row(row: &[u64; DIBOL_ROW_LEN]) -> Broken {
        let [statement, rule, written, field, form, start, length, item] = *row;
        let (start, length) = (start as usize, length as usize);
        Broken {
            statement: statement as usize,
            rule: Breach::from_number(rule).expect("a row has a rule"),
            written: written != 0,
            field: field as usize,
            form: Form::from(form),
            span: (length > 0).then_some(start..start + length),
            item: item as usize,
        }
    }
}

impl fmt::Display for Broken {
    fn fmt(&self, f: &mut fmt::Formatter<'_>) -> fmt::Result {
        let use_of = if self.written { "written" } else { "read" };
        let (statement, field) = (self.statement, self.field);
        write!(f, "statement {statement}, field {field} {use_of}")?;
        match &self.span {
            Some(span) if span.len() == 1 => write!(f, ", byte {}", span.start)?,
            Some(span) => write!(f, ", bytes {} to {}", span.start, span.end - 1)?,
            None => {}
        }
        write!(f, ": {}", self.rule)
    }
}

/// The references of a unit that break a fence rule, in their order, as [`Unit::breaches`] answers
/// them. They are asked for as they are taken.
#[derive(Clone, Debug)]
pub struct Breaches<'a> {
    unit: Unit<'a>,
    /// How many have been asked for, of how many.
    asked: usize,
    count: usize,
    /// Those that have been asked for and not yet taken, the next last.
    rows: Vec<[u64; DIBOL_ROW_LEN]>,
    /// How many are asked for next.
    room: usize,
}

impl<'a> Breaches<'a> {
    pub(crate) fn of(unit: Unit<'a>) -> Breaches<'a> {
        let mut breaches = Breaches {
            unit,
            asked: 0,
            count: 0,
            rows: Vec::new(),
            room: FIRST,
        };
        breaches.ask();
        breaches
    }

    /// Asks for the next breaches.
    fn ask(&mut self) {
        self.rows = vec![[0; DIBOL_ROW_LEN]; self.room];
        self.count = self.unit.breach_rows(self.asked, &mut self.rows);
        self.rows.truncate(self.count - self.asked);
        self.rows.reverse();
        self.asked += self.rows.len();
        self.room = MOST.min(2 * self.room);
    }
}

impl Iterator for Breaches<'_> {
    type Item = Broken;

    fn next(&mut self) -> Option<Broken> {
        if self.rows.is_empty() && self.asked < self.count {
            self.ask();
        }
        self.rows.pop().as_ref().map(Broken::from_row)
    }

    fn size_hint(&self) -> (usize, Option<usize>) {
        let left = self.count - self.asked + self.rows.len();
        (left, Some(left))
    }
}

impl ExactSizeIterator for Breaches<'_> {}
impl FusedIterator for Breaches<'_> {}
