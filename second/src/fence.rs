//! The fence check: whether a unit keeps the fence rules, why a statement does not, and which
//! references break one.

use crate::check::check;
use crate::decimal;
use crate::expression::{is_closed_at, item_at, three_from, Form, Item, NEGATE};
use crate::span::named;
use crate::stop::Refusal;
use crate::unit::{code, Parts, Statement};
use crate::work::SOUND;
use std::ops::Range;

/// The answer of the fence check.
#[derive(Clone, Copy, Debug, PartialEq, Eq)]
pub enum Fence {
    /// The unit is refused by checks 1 to 5.
    Refused(Refusal),
    /// Every statement keeps the rules.
    Yes,
    /// This is the first statement that breaks a rule.
    No(usize),
}

/// Why a statement breaks the fence rules, each rule with its number.
#[derive(Clone, Copy, Debug, PartialEq, Eq)]
pub enum Breach {
    /// A bound is neither a number literal nor one followed by negate, standing directly before.
    BoundNotLiteral = 1,
    /// The bounds are ones that 21 is given for. It is also given where the span does not stay
    /// inside the D bytes.
    BoundsWrong = 2,
    /// The span lies inside the D bytes, but not inside the field's size x count bytes.
    LeavesField = 3,
    /// A decimal span does not lie in one element.
    OverElements = 4,
    /// A decimal destination does not end at its element's last character.
    StopsMidElement = 5,
    /// An alpha destination shares a byte with a decimal field.
    OnDecimal = 6,
}

impl Breach {
    pub fn number(self) -> u8 {
        self as u8
    }

    pub fn words(self) -> &'static str {
        match self {
            Breach::BoundNotLiteral => "a bound is not a literal",
            Breach::BoundsWrong => "the bounds give 21",
            Breach::LeavesField => "a span leaves its field",
            Breach::OverElements => "a decimal span is not in one element",
            Breach::StopsMidElement => "a decimal destination ends inside its element",
            Breach::OnDecimal => "an alpha destination shares a byte with a decimal field",
        }
    }
}

/// A reference that breaks a fence rule.
#[derive(Clone, Debug, PartialEq, Eq)]
pub struct Breaking {
    /// The statement that it stands in.
    pub statement: usize,
    /// The first rule that it breaks, whatever other references break.
    pub rule: Breach,
    /// Whether it names a destination.
    pub is_written: bool,
    /// The number of its field.
    pub field: usize,
    /// The code of its item, 02 to 05.
    pub form: u8,
    /// The span that it names, or `0..0` where it breaks one of the rules 1 and 2.
    pub span: Range<usize>,
    /// Where its item stands in the expressions.
    pub offset: usize,
    /// Where the expression that it stands in begins.
    pub expression: usize,
}

impl Breaking {
    /// The eight numbers that it is for hosts in C: statement, rule, 1 for a destination and 0 for
    /// what is read, field, form, start and length of the span, and the item's offset.
    pub fn numbers(&self) -> [u64; 8] {
        [
            self.statement,
            usize::from(self.rule.number()),
            usize::from(self.is_written),
            self.field,
            usize::from(self.form),
            self.span.start,
            self.span.len(),
            self.offset,
        ]
        .map(|number| number as u64)
    }
}

/// The fence check. Unreachable statements count too.
pub fn fence(unit: &[u8]) -> Fence {
    let parts = match check(unit) {
        Ok(parts) => parts,
        Err(refusal) => return Fence::Refused(refusal),
    };
    (0..parts.statement_count())
        .find(|&i| !statement_breaches(&parts, i).is_empty())
        .map_or(Fence::Yes, Fence::No)
}

/// Why statement `i` breaks the fence rules: the first rule broken, going over a before b before c,
/// references left to right and the rules of each in their order. There is none if the statement
/// keeps the rules, is not there, or the unit is refused.
pub fn breach(unit: &[u8], i: usize) -> Option<Breach> {
    let parts = check(unit).ok()?;
    let first = statement_breaches(&parts, i).into_iter().next();
    first.map(|reference| reference.rule)
}

/// Every reference that breaks a fence rule: statement by statement, a before b before c, left to
/// right. There is none if the unit keeps the rules or is refused. One that stands in several
/// statements, or in two parts of one, comes for each.
pub fn breaches(unit: &[u8]) -> impl Iterator<Item = Breaking> + '_ {
    check(unit).into_iter().flat_map(|parts| {
        let statements = 0..parts.statement_count();
        statements.flat_map(move |i| statement_breaches(&parts, i))
    })
}

/// The references of statement `i` that break a rule; none if there is no such statement.
fn statement_breaches(parts: &Parts, i: usize) -> Vec<Breaking> {
    let statement = parts.statement(i);
    let expressions = statement.map_or(vec![], |statement| expressions(parts, &statement));
    expressions
        .into_iter()
        .flat_map(|(offset, is_place)| references(parts, offset, is_place))
        .filter_map(|reference| breaking(parts, i, reference))
        .collect()
}

/// The offsets of a statement's expressions, in the order in which they are worked out, each with
/// whether it is a place to be written.
fn expressions(parts: &Parts, statement: &Statement) -> Vec<(usize, bool)> {
    let Statement { code, a, b, c, .. } = *statement;
    match code {
        code::SET => vec![(a, true), (b, false)],
        code::CLEAR..=code::LOCASE => vec![(a, true)],
        code::GOTO_IF_ZERO | code::COMPUTED_GOTO => vec![(b, false)],
        code::FORMAT => vec![(a, true), (b, false), (c, false)],
        code::FOR => {
            let [start, limit, step] = three_from(parts.expressions, b).expect(SOUND);
            vec![(a, true), (start, false), (limit, false), (step, false)]
        }
        _ => vec![],
    }
}

/// What is known beforehand of a value held in an expression.
#[derive(Clone, Copy)]
enum Known {
    /// It is a number literal.
    Literal(i64),
    /// It is a number literal followed by negate.
    Negated(i64),
    /// It is something else, whether or not its value is fixed.
    Other,
}

impl Known {
    fn bound(self) -> Option<i64> {
        match self {
            Known::Literal(value) | Known::Negated(value) => Some(value),
            Known::Other => None,
        }
    }

    fn negated(self) -> Known {
        match self {
            Known::Literal(value) => Known::Negated(-value),
            Known::Negated(_) | Known::Other => Known::Other,
        }
    }
}

/// A reference as it stands in an expression.
struct Reference {
    /// Where the expression begins.
    expression: usize,
    /// Where its item stands in the expressions.
    offset: usize,
    form: Form,
    /// The number of its field.
    field: usize,
    bounds: Vec<Known>,
    /// Whether it names a destination.
    is_written: bool,
}

/// The references in the expression at `offset`, left to right. The last item is a destination if
/// the expression is a place to be written; what stands in its bounds is read.
fn references(parts: &Parts, offset: usize, is_place: bool) -> Vec<Reference> {
    let mut found = Vec::new();
    let mut held: Vec<Known> = Vec::new();
    let mut at = offset;
    loop {
        let (item, next) = item_at(parts.expressions, at).expect(SOUND);
        let given = match item {
            Item::Close => return found,
            Item::Number(range) => Known::Literal(decimal::read_literal(&parts.literals[range])),
            Item::Alpha(_) => Known::Other,
            Item::Reference { form, field } => {
                found.push(Reference {
                    expression: offset,
                    offset: at,
                    form,
                    field,
                    bounds: held.split_off(held.len() - form.bounds()),
                    is_written: is_place && is_closed_at(parts.expressions, next),
                });
                Known::Other
            }
            Item::One(code) => {
                let value = held.pop().expect(SOUND);
                if code == NEGATE {
                    value.negated()
                } else {
                    Known::Other
                }
            }
            Item::Two(_) => {
                held.truncate(held.len() - 2);
                Known::Other
            }
        };
        held.push(given);
        at = next;
    }
}

/// What is told of a reference of statement `i` that breaks a rule: of the rules, the first.
fn breaking(parts: &Parts, i: usize, reference: Reference) -> Option<Breaking> {
    let (rule, span) = match span_of(parts, &reference) {
        Ok(span) => (span_breach(parts, &reference, &span)?, span),
        Err(rule) => (rule, 0..0),
    };
    Some(Breaking {
        statement: i,
        rule,
        is_written: reference.is_written,
        field: reference.field,
        form: reference.form.code(),
        span,
        offset: reference.offset,
        expression: reference.expression,
    })
}

/// The span that a reference always names, or why there is none: rules 1 and 2.
fn span_of(parts: &Parts, reference: &Reference) -> Result<Range<usize>, Breach> {
    let mut values = [0; 2];
    for (value, known) in values.iter_mut().zip(&reference.bounds) {
        *value = known.bound().ok_or(Breach::BoundNotLiteral)?;
    }
    // "the bounds are ones that 21 isn't given for, and the span lies inside the field's size x
    // count bytes": a span "must stay inside the D bytes. Otherwise 21." Whether the field is strict
    // is not asked, since every field is held to its bytes here.
    let field = parts.field(reference.field).expect(SOUND);
    named(&field, reference.form, values, parts.image.len()).ok_or(Breach::BoundsWrong)
}

/// The first of the rules 3 to 6 that a reference with this span breaks.
fn span_breach(parts: &Parts, reference: &Reference, span: &Range<usize>) -> Option<Breach> {
    let field = parts.field(reference.field).expect(SOUND);
    if !field.holds(span) {
        return Some(Breach::LeavesField);
    }
    if field.is_decimal() {
        let inside = span.start - field.offset..span.end - field.offset;
        decimal_breach(field.size, inside, reference.is_written)
    } else if reference.is_written {
        shares_decimal(parts, span).then_some(Breach::OnDecimal)
    } else {
        None
    }
}

/// The rules of a decimal span that lies inside its field of elements of `size` characters.
fn decimal_breach(size: usize, inside: Range<usize>, is_destination: bool) -> Option<Breach> {
    if inside.start / size != (inside.end - 1) / size {
        Some(Breach::OverElements)
    } else if is_destination && !inside.end.is_multiple_of(size) {
        Some(Breach::StopsMidElement)
    } else {
        None
    }
}

/// Whether a span of the data shares a byte with a decimal field.
fn shares_decimal(parts: &Parts, span: &Range<usize>) -> bool {
    (0..parts.field_count())
        .filter_map(|i| parts.field(i))
        .any(|field| field.is_decimal() && field.offset < span.end && span.start < field.end())
}

#[cfg(test)]
mod tests;
