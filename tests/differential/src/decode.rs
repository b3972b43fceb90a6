//! A sound unit, read by the harness itself: what its statements name. Nothing of this is taken
//! from either interpreter.

use crate::draft::{code, Field, Statement};
use std::ops::Range;

/// A unit that has passed checks 1 to 5.
pub struct Sound<'a> {
    image: usize,
    fields: &'a [u8],
    expressions: &'a [u8],
    literals: &'a [u8],
    statements: &'a [u8],
}

/// An item of an expression: where it stands, its code, and the number and the length that follow
/// it, if any.
#[derive(Clone, Copy, Debug, PartialEq, Eq)]
pub struct Item {
    at: usize,
    pub code: u8,
    number: usize,
    length: usize,
}

/// How many bounds the items 02 to 05 have.
const BOUNDS: [usize; 4] = [0, 1, 2, 2];

fn word(bytes: &[u8], at: usize) -> u16 {
    u16::from_be_bytes([bytes[at], bytes[at + 1]])
}

impl<'a> Sound<'a> {
    pub fn of(unit: &'a [u8]) -> Sound<'a> {
        let (body, trailer) = unit.split_at(unit.len() - 12);
        let length = |i: usize| usize::from(word(trailer, 2 * i));
        let (fields, rest) = body[length(0)..].split_at(8 * length(1));
        let (expressions, rest) = rest.split_at(length(2));
        let (literals, statements) = rest.split_at(length(3));
        Sound {
            image: length(0),
            fields,
            expressions,
            literals,
            statements,
        }
    }

    pub fn statement_count(&self) -> usize {
        self.statements.len() / 8
    }

    pub fn field_count(&self) -> usize {
        self.fields.len() / 8
    }

    pub fn statement(&self, i: usize) -> Statement {
        let entry = &self.statements[8 * i..][..8];
        Statement {
            code: entry[0],
            zero: entry[1],
            a: word(entry, 2),
            b: word(entry, 4),
            c: word(entry, 6),
        }
    }

    /// E.
    pub fn expressions_len(&self) -> usize {
        self.expressions.len()
    }

    /// Where statement `i` stands in the unit.
    pub fn place_of(&self, i: usize) -> usize {
        let parts = [self.fields, self.expressions, self.literals];
        self.image + parts.iter().map(|part| part.len()).sum::<usize>() + 8 * i
    }

    pub fn field(&self, i: usize) -> Field {
        let entry = &self.fields[8 * i..][..8];
        let number = |at| usize::from(word(entry, at));
        Field {
            zero: entry[1],
            ..Field::new(entry[0], number(2), number(4), number(6))
        }
    }

    /// The items of the expression at `offset`, without the 00 that closes it.
    pub fn items(&self, offset: u16) -> Vec<Item> {
        let mut items = Vec::new();
        let mut at = usize::from(offset);
        while self.expressions[at] != 0 {
            let rest = &self.expressions[at..];
            let code = rest[0];
            let (number, length, width) = match code {
                0x01 => (word(rest, 1), u16::from(rest[3]), 4),
                0x02..=0x05 => (word(rest, 1), 0, 3),
                0x06 => (word(rest, 1), word(rest, 3), 5),
                _ => (0, 0, 1),
            };
            items.push(Item {
                at,
                code,
                number: number.into(),
                length: length.into(),
            });
            at += width;
        }
        items
    }

    /// The offsets of a FOR's start, limit and step, which stand in a row from `offset` on.
    pub fn numbers(&self, offset: u16) -> [u16; 3] {
        let limit = self.behind(offset);
        [offset, limit, self.behind(limit)]
    }

    /// The offset behind the 00 that closes the expression at `offset`.
    pub fn behind(&self, offset: u16) -> u16 {
        let width = |item: &Item| match item.code {
            0x01 => 4,
            0x02..=0x05 => 3,
            0x06 => 5,
            _ => 1,
        };
        offset + self.items(offset).iter().map(width).sum::<u16>() + 1
    }

    /// The expressions that a statement names.
    pub fn uses(&self, statement: &Statement) -> Vec<u16> {
        match statement.code {
            code::SET => vec![statement.a, statement.b],
            code::CLEAR..=code::LOCASE => vec![statement.a],
            code::GOTO_IF_ZERO | code::COMPUTED_GOTO => vec![statement.b],
            code::FORMAT => vec![statement.a, statement.b, statement.c],
            code::FOR => [&[statement.a][..], &self.numbers(statement.b)].concat(),
            _ => vec![],
        }
    }

    /// The codes in the table of a computed GOTO, as far as there are statements.
    pub fn table(&self, i: usize) -> Vec<u8> {
        let end = i + usize::from(self.statement(i).a);
        let there = (i + 1..=end).take_while(|&i| i < self.statement_count());
        there.map(|i| self.statement(i).code).collect()
    }

    /// The first code in that table that is not GOTO.
    pub fn stray(&self, i: usize) -> Option<u8> {
        self.table(i).into_iter().find(|&code| code != code::GOTO)
    }

    /// Whether there is a statement `i`, and it has this code.
    pub fn is_code(&self, i: usize, code: u8) -> bool {
        i < self.statement_count() && self.statement(i).code == code
    }

    /// Whether statement `i` moves alpha text to a decimal place.
    pub fn is_text_to_decimal(&self, i: usize) -> bool {
        let statement = self.statement(i);
        if statement.code != code::SET {
            return false;
        }
        let place = self.items(statement.a).pop();
        let source = self.items(statement.b).pop();
        let is_decimal = |item: Item| self.field(item.number).is_decimal();
        let is_text = |item: Item| match item.code {
            0x02..=0x05 => !is_decimal(item),
            code => code == 0x06,
        };
        place.is_some_and(is_decimal) && source.is_some_and(is_text)
    }

    /// The destinations of a unit that the fence says yes to: the span of each place that is
    /// written, reachable or not.
    pub fn destinations(&self) -> Vec<Range<usize>> {
        (0..self.statement_count())
            .map(|i| self.statement(i))
            .filter(|statement| is_written(statement.code))
            .map(|statement| {
                let span = self.span(statement.a);
                span.expect("the bounds of a destination are literals")
            })
            .collect()
    }

    /// The values of some items that are number literals, each with a negate behind it or not; or
    /// nothing where another item is among them.
    fn constants(&self, items: &[Item]) -> Option<Vec<i64>> {
        let mut values: Vec<i64> = Vec::new();
        for &item in items {
            match item.code {
                0x01 => values.push(self.literal_value(item)),
                0x15 => *values.last_mut()? *= -1,
                _ => return None,
            }
        }
        Some(values)
    }

    /// The references of an expression, left to right.
    pub fn references(&self, offset: u16) -> Vec<Reference> {
        let items = self.items(offset);
        let mut found = Vec::new();
        // The values held, where they are literals, some of them with a negate.
        let mut held: Vec<Option<i64>> = Vec::new();
        for (i, &item) in items.iter().enumerate() {
            let value = match item.code {
                0x01 => Some(self.literal_value(item)),
                0x02..=0x05 => {
                    let count = BOUNDS[usize::from(item.code) - 2];
                    let bounds = held.split_off(held.len() - count).into_iter();
                    let bounds: Option<Vec<i64>> = bounds.collect();
                    let bounds = bounds.as_deref();
                    found.push(Reference {
                        at: item.at,
                        code: item.code,
                        field: self.field(item.number),
                        stretch: bounds.and_then(|bounds| self.stretch(item, bounds)),
                        span: bounds.and_then(|bounds| self.named(item, bounds)),
                        is_last: i + 1 == items.len(),
                        is_bound: is_bound(&items[i + 1..]),
                    });
                    None
                }
                0x06 => None,
                0x15 => held.pop().flatten().map(|value| -value),
                0x1C => {
                    held.pop();
                    None
                }
                _ => {
                    held.truncate(held.len() - 2);
                    None
                }
            };
            held.push(value);
        }
        found
    }

    /// Where the bytes lie that a reference with these bounds names, counted from the first of the
    /// data; or nothing where the bounds themselves are wrong.
    fn stretch(&self, reference: Item, bounds: &[i64]) -> Option<Range<i64>> {
        let field = self.field(reference.number);
        let size = field.size() as i64;
        let (start, end) = match (reference.code, bounds) {
            (0x02, _) => (0, size),
            (0x03, [s]) => ((s - 1).saturating_mul(size), s.saturating_mul(size)),
            (0x04, [start, end]) if 1 <= *start && start <= end => (start - 1, *end),
            (0x05, [pos, length]) if *pos >= 1 && *length > 0 => (pos - 1, pos - 1 + length),
            (0x05, [pos, length]) if *pos >= 1 && *length < 0 => (pos + length, *pos),
            _ => return None,
        };
        let at = |bound: i64| bound.saturating_add(field.start() as i64);
        Some(at(start)..at(end))
    }

    /// The bytes that a reference with these bounds names, where it has found them in the data: a
    /// strict field has no others than its own.
    fn named(&self, reference: Item, bounds: &[i64]) -> Option<Range<usize>> {
        let Range { start, end } = self.stretch(reference, bounds)?;
        let span = usize::try_from(start).ok()?..usize::try_from(end).ok()?;
        let field = self.field(reference.number);
        let is_found = span.end <= self.image && (!field.is_strict() || field.holds(&span));
        is_found.then_some(span)
    }

    /// The references of an expression with what they name over this data, left to right, and whether
    /// these are all. None is told behind one that gives an error, or behind other items than those
    /// of `held`.
    pub fn met(&self, offset: u16, data: &[u8]) -> (Vec<Met>, bool) {
        let items = self.items(offset);
        let mut met = Vec::new();
        for (i, &item) in items.iter().enumerate() {
            if !(0x02..=0x05).contains(&item.code) {
                continue;
            }
            let Some(mut held) = self.held(&items[..i], data) else {
                return (met, false);
            };
            let bounds = held.split_off(held.len() - taken(item));
            met.push(Met {
                code: item.code,
                field: self.field(item.number),
                stretch: self.stretch(item, &bounds),
                bounds,
                is_last: i + 1 == items.len(),
                is_bound: is_bound(&items[i + 1..]),
            });
        }
        (met, true)
    }

    /// Whether an expression gives no error over this data, where its items are no others than those
    /// of `held`. What stands last is read where it is a number, and found where it is a place.
    pub fn works(&self, offset: u16, is_number: bool, data: &[u8]) -> bool {
        if is_number {
            return self.value_over(offset, data).is_some();
        }
        let Some(place) = self.place(offset) else {
            return true;
        };
        let is_short = |span: Range<usize>| !place.field.is_decimal() || span.len() <= 18;
        self.span_over(offset, data).is_some_and(is_short)
    }

    /// The reference that an expression ends with, if it does.
    pub fn place(&self, offset: u16) -> Option<Reference> {
        let last = self.references(offset).pop();
        last.filter(|reference| reference.is_last)
    }

    /// The span that a statement has found of such an expression, where its bounds are literals.
    fn span(&self, offset: u16) -> Option<Range<usize>> {
        self.place(offset)?.span
    }

    /// The values that some items come to over this data, where they are literals, references, sums,
    /// differences and negates that give no error.
    fn held(&self, items: &[Item], data: &[u8]) -> Option<Vec<i64>> {
        let mut held = Vec::new();
        for &item in items {
            let value = match item.code {
                0x01 => self.literal_value(item),
                0x02..=0x05 => {
                    let count = BOUNDS[usize::from(item.code) - 2];
                    let bounds = held.split_off(held.len().checked_sub(count)?);
                    readable(&data[self.named(item, &bounds)?])?
                }
                0x10 | 0x11 => {
                    let (y, x): (i64, i64) = (held.pop()?, held.pop()?);
                    let sum = x + if item.code == 0x10 { y } else { -y };
                    Some(sum).filter(|sum| sum.unsigned_abs() < 10_u64.pow(18))?
                }
                0x15 => -held.pop()?,
                _ => return None,
            };
            held.push(value);
        }
        Some(held)
    }

    /// The number that an expression which gives no error comes to over this data, where its items
    /// are no others than those.
    pub fn value_over(&self, offset: u16, data: &[u8]) -> Option<i64> {
        self.held(&self.items(offset), data)?.pop()
    }

    /// The span that a place which is found names over this data, where the items of its bounds are
    /// no others than those.
    pub fn span_over(&self, offset: u16, data: &[u8]) -> Option<Range<usize>> {
        let items = self.items(offset);
        let (&reference, bounds) = items.split_last()?;
        self.named(reference, &self.held(bounds, data)?)
    }

    /// Whether a place is not found over this data, though its bounds give no error and their items
    /// are no others than those.
    pub fn is_lost_over(&self, offset: u16, data: &[u8]) -> bool {
        let items = self.items(offset);
        let Some((&reference, bounds)) = items.split_last() else {
            return false;
        };
        let bounds = self.held(bounds, data);
        bounds.is_some_and(|bounds| self.named(reference, &bounds).is_none())
    }

    /// The decimals that statement `i` reads. A place that is written is read by INCR and DECR alone.
    pub fn reads(&self, i: usize) -> Vec<Reference> {
        let statement = self.statement(i);
        let is_changed = matches!(statement.code, code::INCR | code::DECR);
        let is_place = |k: usize| k == 0 && is_written(statement.code) && !is_changed;
        let uses = self.uses(&statement).into_iter().enumerate();
        uses.flat_map(|(k, offset)| {
            let references = self.references(offset).into_iter();
            references.filter(move |reference| !(reference.is_last && is_place(k)))
        })
        .filter(|reference| reference.field.is_decimal())
        .collect()
    }

    /// What statement `i`, a formatted move that was completed over this data, has named, where
    /// the bounds of its place and its mask are literals.
    pub fn formatted(&self, i: usize, data: &[u8]) -> Option<Formatted> {
        let Statement { a, b, c, .. } = self.statement(i);
        let destination = self.span(a)?;
        let (mask_span, mask) = match self.items(b)[..] {
            [item] if item.code == 0x06 => {
                let end = item.number + item.length;
                (None, self.literals[item.number..end].to_vec())
            }
            _ => {
                let span = self.span(b)?;
                (Some(span.clone()), data[span].to_vec())
            }
        };
        let number_span = self.span(c);
        let number = match &number_span {
            Some(span) => Some(decimal_value(&data[span.clone()])),
            None => self.constants(&self.items(c)).map(|values| values[0]),
        };
        Some(Formatted {
            destination,
            mask,
            mask_span,
            number,
            number_span,
        })
    }

    fn literal_value(&self, item: Item) -> i64 {
        let digits = &self.literals[item.number..item.number + item.length];
        let value = |value: i64, digit: &u8| 10 * value + i64::from(digit - b'0');
        digits.iter().fold(0, value)
    }

    /// All fields, in their order.
    pub fn fields(&self) -> impl Iterator<Item = Field> + '_ {
        (0..self.field_count()).map(|i| self.field(i))
    }

    /// The elements of every decimal field.
    fn elements<'d>(&self, data: &'d [u8]) -> Vec<&'d [u8]> {
        let decimals = self.fields().filter(Field::is_decimal);
        decimals
            .flat_map(|field| data[field.start()..field.end()].chunks(field.size()))
            .collect()
    }

    /// Whether every element of every decimal field is valid.
    pub fn is_valid(&self, data: &[u8]) -> bool {
        self.elements(data)
            .into_iter()
            .all(|element| bad_character(element).is_none())
    }

    /// The elements of decimal fields that are invalid, each by its field and its number there, from 1.
    pub fn invalid_elements(&self, data: &[u8]) -> Vec<(usize, usize)> {
        let mut invalid = Vec::new();
        for (i, field) in self
            .fields()
            .enumerate()
            .filter(|(_, field)| field.is_decimal())
        {
            let elements = data[field.start()..field.end()].chunks(field.size());
            for (element, characters) in (1..).zip(elements) {
                if bad_character(characters).is_some() {
                    invalid.push((i, element));
                }
            }
        }
        invalid
    }

    /// Whether an element of a decimal field begins with a space.
    pub fn is_padded(&self, data: &[u8]) -> bool {
        let elements = self.elements(data);
        elements.into_iter().any(|element| element[0] == b' ')
    }

    /// Whether a resume state is sound.
    pub fn is_sound_state(&self, state: &[u64]) -> bool {
        self.are_calls_sound(state)
            && self.wrong_loops(state) == Some(vec![])
            && self.wrong_traps(state) == Some(vec![])
    }

    /// Whether the statement number and the open calls of a state are sound.
    pub fn are_calls_sound(&self, state: &[u64]) -> bool {
        let end = self.statement_count() as u64;
        let Some([at, depth, returns @ ..]) = state.get(..OPENED) else {
            return false;
        };
        let open = |(i, back): (usize, &u64)| *back <= if (i as u64) < *depth { end } else { 0 };
        *at <= end && *depth <= 50 && returns.iter().enumerate().all(open)
    }

    /// What is wrong with the open loops of a state, each in words; or nothing where there are fewer
    /// numbers.
    pub fn wrong_loops(&self, state: &[u64]) -> Option<Vec<&'static str>> {
        let (&opened, slots) = state.get(OPENED..HANDLER)?.split_first()?;
        let mut wrong = match opened {
            0..=16 => vec![],
            17 => vec!["17 open"],
            65_536.. => vec!["a count over 65,535"],
            _ => vec!["a count over 17"],
        };
        for (i, slot) in slots.chunks_exact(3).enumerate() {
            if (i as u64) < opened {
                wrong.extend(self.wrong_open(slot));
            } else {
                let words = [
                    "an entry left over",
                    "a limit left over",
                    "a step left over",
                ];
                let left = words.into_iter().zip(slot);
                wrong.extend(
                    left.filter(|(_, &number)| number != 0)
                        .map(|(word, _)| word),
                );
            }
        }
        Some(wrong)
    }

    /// What is wrong with a loop that is open.
    fn wrong_open(&self, slot: &[u64]) -> Vec<&'static str> {
        let is_value = |number: u64| (number as i64).unsigned_abs() < 10_u64.pow(18);
        let entry = usize::try_from(slot[0]).unwrap_or(usize::MAX);
        let wrong = [
            (slot[0] > 65_535, "an entry over 65,535"),
            (
                slot[0] <= 65_535 && entry >= self.statement_count(),
                "an entry not below N",
            ),
            (
                entry < self.statement_count() && !self.is_code(entry, code::FOR),
                "an entry that is no FOR",
            ),
            (!is_value(slot[1]), "a limit that is no value"),
            (!is_value(slot[2]), "a step that is no value"),
            (slot[2] == 0, "a step of 0"),
        ];
        wrong
            .into_iter()
            .filter_map(|(is_so, word)| is_so.then_some(word))
            .collect()
    }

    /// What is wrong with the handler and the last error of a state, each in words; or nothing where
    /// there are more or fewer numbers.
    pub fn wrong_traps(&self, state: &[u64]) -> Option<Vec<&'static str>> {
        let [handler, error, statement] = *state.get(HANDLER..)? else {
            return None;
        };
        let end = self.statement_count() as u64;
        let wrong_handler = match handler {
            65_536.. => Some("a handler over 65,535"),
            65_535 => Some("a handler of 65,534"),
            _ if handler > end + 1 => Some("a handler past N"),
            _ if handler > end => Some("a handler at N"),
            _ => None,
        };
        let wrong_error = match error {
            0 if statement != 0 => Some("a statement without an error"),
            0 => None,
            256.. => Some("an error over 255"),
            _ if !TRAPPED.contains(&error) => Some("an error that is not trapped"),
            _ => None,
        };
        let wrong_statement = match statement {
            _ if error == 0 => None,
            65_536.. => Some("a statement over 65,535"),
            65_535 => Some("a statement of 65,535"),
            _ if statement > end => Some("a statement past N"),
            _ if statement == end => Some("a statement at N"),
            _ => None,
        };
        let wrong = [wrong_handler, wrong_error, wrong_statement];
        Some(wrong.into_iter().flatten().collect())
    }

    /// D.
    pub fn image_len(&self) -> usize {
        self.image
    }
}

/// How many values an item takes.
fn taken(item: Item) -> usize {
    match item.code {
        0x01 | 0x06 => 0,
        0x02..=0x05 => BOUNDS[usize::from(item.code) - 2],
        0x15 | 0x1C => 1,
        _ => 2,
    }
}

/// Which of some items takes the value that was held last before them, if one does.
fn taker(items: &[Item]) -> Option<Item> {
    // How many values are held from that one on.
    let mut held = 1;
    for &item in items {
        if taken(item) >= held {
            return Some(item);
        }
        held = held + 1 - taken(item);
    }
    None
}

/// Whether one of some items takes the value that was held last before them as a bound.
fn is_bound(items: &[Item]) -> bool {
    taker(items).is_some_and(|taker| (0x03..=0x05).contains(&taker.code))
}

/// A reference with what it names over some data.
pub struct Met {
    pub code: u8,
    pub field: Field,
    pub bounds: Vec<i64>,
    /// Where its bytes lie, counted from the first of the data, if its bounds are not wrong in themselves.
    pub stretch: Option<Range<i64>>,
    /// Whether it is the last item.
    pub is_last: bool,
    /// Whether its value is a bound of another.
    pub is_bound: bool,
}

/// A reference in an expression.
pub struct Reference {
    /// Where its item stands in the expressions.
    pub at: usize,
    pub code: u8,
    pub field: Field,
    /// Where its bytes lie, counted from the first of the data, if its bounds are literals that are
    /// not wrong in themselves.
    pub stretch: Option<Range<i64>>,
    /// Where the bytes that it names stand in the data, if its bounds are literals.
    pub span: Option<Range<usize>>,
    /// Whether it is the last item.
    pub is_last: bool,
    /// Whether its value is a bound of another.
    pub is_bound: bool,
}

impl Reference {
    /// Whether it has bounds.
    pub fn is_bounded(&self) -> bool {
        self.code != 0x02
    }
}

/// What a formatted move has named.
pub struct Formatted {
    pub destination: Range<usize>,
    pub mask: Vec<u8>,
    /// Where the mask stands in the data, if it is no literal.
    pub mask_span: Option<Range<usize>>,
    /// The number, where it is a literal or a reference with literal bounds.
    pub number: Option<i64>,
    /// Where the number stands in the data, if it is such a reference.
    pub number_span: Option<Range<usize>>,
}

/// Whether a statement writes the place that it names.
pub fn is_written(code: u8) -> bool {
    matches!(code, code::SET..=code::LOCASE | code::FORMAT | code::FOR)
}

/// Where the number of open loops stands in a state, with 16 slots behind it.
pub const OPENED: usize = 52;
pub const LOOPS_MOST: usize = 16;

/// Where the handler stands in a state, as one more than its statement, with the last error's number
/// and its statement behind it.
pub const HANDLER: usize = 101;

/// The errors that a handler traps.
pub const TRAPPED: [u64; 5] = [20, 21, 22, 23, 26];

/// The handler of a sound state, if there is one.
pub fn handler(state: &[u64]) -> Option<usize> {
    (state[HANDLER] as usize).checked_sub(1)
}

/// The last error of a sound state, by its number and its statement, if there is one.
pub fn last_error(state: &[u64]) -> Option<(u64, usize)> {
    let [number, statement] = [state[HANDLER + 1], state[HANDLER + 2]];
    (number != 0).then_some((number, statement as usize))
}

/// An open loop of a state.
#[derive(Clone, Copy, Debug, PartialEq, Eq)]
pub struct Open {
    pub entry: usize,
    pub limit: i64,
    pub step: i64,
}

/// The open loops of a sound state, the one opened last at the end.
pub fn open_loops(state: &[u64]) -> Vec<Open> {
    let opened = state[OPENED] as usize;
    let slots = state[OPENED + 1..HANDLER].chunks_exact(3).take(opened);
    slots
        .map(|slot| Open {
            entry: slot[0] as usize,
            limit: slot[1] as i64,
            step: slot[2] as i64,
        })
        .collect()
}

/// Whether two stretches of the data share a byte.
pub fn shares(one: &Range<usize>, other: &Range<usize>) -> bool {
    one.start < other.end && other.start < one.end
}

/// The value of a valid decimal. A space in front is a zero, as its low bits are.
pub fn decimal_value(characters: &[u8]) -> i64 {
    let digit = |character: &u8| i64::from(character & 0x0F);
    let magnitude = characters
        .iter()
        .fold(0, |value, character| 10 * value + digit(character));
    match characters.last() {
        Some(b'p'..=b'y') => -magnitude,
        _ => magnitude,
    }
}

/// The value of some characters, where they are a valid decimal of at most 18.
fn readable(characters: &[u8]) -> Option<i64> {
    let is_valid = characters.len() <= 18 && bad_character(characters).is_none();
    is_valid.then(|| decimal_value(characters))
}

/// How many spaces some characters begin with.
pub fn spaces_in_front(characters: &[u8]) -> usize {
    let is_space = |character: &&u8| **character == b' ';
    characters.iter().take_while(is_space).count()
}

/// Where the first character stands that makes a decimal invalid: behind the spaces in front, one
/// that is no digit, or at the end no sign letter either.
pub fn bad_character(characters: &[u8]) -> Option<usize> {
    let last = characters.len() - 1;
    (spaces_in_front(characters)..=last).find(|&at| {
        let is_sign = at == last && (b'p'..=b'y').contains(&characters[at]);
        !characters[at].is_ascii_digit() && !is_sign
    })
}

#[cfg(test)]
mod tests {
    use super::{Sound, HANDLER, TRAPPED};
    use crate::draft::{Draft, Field, Statement, ALPHA, DECIMAL, STRICT};

    /// SET A(2:-2) from `x`, CLEAR D(2), INCR D(1,3), LOCASE A, over A at 1 and D at 6.
    fn unit() -> Vec<u8> {
        let draft = Draft {
            image: b".abcde123456".to_vec(),
            fields: vec![Field::new(ALPHA, 1, 5, 1), Field::new(DECIMAL, 6, 3, 2)],
            expressions: [
                &b"\x01\0\x01\x01\x01\0\x01\x01\x15\x05\0\0\0"[..],
                b"\x06\0\0\0\x01\0",
                b"\x01\0\x01\x01\x03\0\x01\0",
                b"\x01\0\x02\x01\x01\0\x03\x01\x04\0\x01\0",
                b"\x02\0\0\0",
            ]
            .concat(),
            literals: b"x213".to_vec(),
            statements: [(1, 0, 13), (2, 19, 0), (3, 27, 0), (6, 39, 0), (11, 0, 0)]
                .map(|(code, a, b)| Statement::new(code, a, b, 0))
                .to_vec(),
        };
        draft.unit()
    }

    #[test]
    fn destinations_are_the_spans_written() {
        let unit = unit();
        assert!(second::check(&unit).is_ok());
        let destinations = Sound::of(&unit).destinations();
        assert_eq!(destinations, [1..3, 9..12, 6..9, 1..6]);
    }

    #[test]
    fn a_formatted_move_names_place_mask_and_number() {
        let mut draft = Draft::formatted_move(0, 26, 4);
        draft.statements.push(Statement::new(13, 0, 26, 38));
        let unit = draft.unit();
        assert!(second::check(&unit).is_ok());
        let sound = Sound::of(&unit);
        assert_eq!(sound.destinations(), [0..4, 0..4]);
        let first = sound.formatted(0, &draft.image).unwrap();
        assert_eq!((first.destination, first.mask_span), (0..4, Some(0..3)));
        assert_eq!(
            (&first.mask[..], first.number_span),
            (&b"Z.X"[..], Some(4..7))
        );
        assert_eq!(first.number, Some(-22));
        let second = sound.formatted(1, &draft.image).unwrap();
        assert_eq!((second.number, second.number_span), (Some(-1), None));
        assert_eq!(unit[sound.place_of(1)], 13);
    }

    #[test]
    fn a_for_names_its_numbers_and_its_control_over_the_data() {
        let draft = Draft::counting_loop();
        let unit = draft.unit();
        assert!(second::check(&unit).is_ok());
        let sound = Sound::of(&unit);
        let entry = sound.statement(0);
        assert_eq!(sound.uses(&entry), [0, 7, 11, 16]);
        assert_eq!(
            sound.numbers(entry.b).map(|b| sound.value_over(b, b"2003")),
            [Some(2), Some(9), Some(-4)]
        );
        // T(I), over I at 0 and T at 1.
        assert_eq!(sound.span_over(entry.a, b"2003"), Some(2..3));
        assert_eq!(sound.span_over(entry.a, b"3003"), Some(3..4));
        assert_eq!(sound.span_over(entry.a, b"9003"), None);
        assert_eq!(sound.span_over(entry.a, b"?003"), None);
    }

    #[test]
    fn a_strict_field_has_its_own_bytes_alone() {
        let mut draft = Draft::counting_loop();
        draft.image = b"20030".to_vec();
        let met = |draft: &Draft, data: &[u8]| {
            let unit = draft.unit();
            let sound = Sound::of(&unit);
            let control = sound.statement(0).a;
            let (met, is_all) = sound.met(control, data);
            let stretch = met.last().unwrap().stretch.clone().unwrap();
            assert!(is_all && met[0].is_bound && met[1].is_last && !met[1].is_bound);
            assert_eq!(
                sound.works(control, false, data),
                !sound.is_lost_over(control, data)
            );
            (stretch, sound.span_over(control, data))
        };
        assert_eq!(met(&draft, b"40030"), (4..5, Some(4..5)));
        assert_eq!(met(&draft, b"00030"), (0..1, Some(0..1)));
        draft.fields[1].zero = STRICT;
        assert_eq!(met(&draft, b"40030"), (4..5, None));
        assert_eq!(met(&draft, b"30030"), (3..4, Some(3..4)));
        assert_eq!(met(&draft, b"10030"), (1..2, Some(1..2)));
        assert_eq!(met(&draft, b"00030"), (0..1, None));
        assert_eq!(met(&draft, b"y0030"), (-9..-8, None));
    }

    #[test]
    fn a_sound_state_has_sound_loops() {
        let unit = Draft::counting_loop().unit();
        let sound = Sound::of(&unit);
        let wrong = |numbers: &[(usize, u64)]| {
            let mut state = vec![0; 104];
            for &(at, number) in numbers {
                state[at] = number;
            }
            let wrong = sound.wrong_loops(&state).unwrap();
            assert_eq!(sound.is_sound_state(&state), wrong.is_empty());
            wrong
        };
        let open = [(52, 1), (54, 9), (55, u64::MAX)];
        let changed = |more: &[(usize, u64)]| wrong(&[&open[..], more].concat());
        assert_eq!(wrong(&[]), [""; 0]);
        assert_eq!(changed(&[]), [""; 0]);
        assert_eq!(changed(&[(53, 1)]), ["an entry that is no FOR"]);
        assert_eq!(changed(&[(53, 3)]), ["an entry not below N"]);
        assert_eq!(changed(&[(53, 65_536)]), ["an entry over 65,535"]);
        assert_eq!(
            changed(&[(54, 10_u64.pow(18))]),
            ["a limit that is no value"]
        );
        assert_eq!(changed(&[(55, 1 << 63)]), ["a step that is no value"]);
        assert_eq!(changed(&[(55, 0)]), ["a step of 0"]);
        assert_eq!(changed(&[(56, 1)]), ["an entry left over"]);
        assert_eq!(changed(&[(99, 1)]), ["a limit left over"]);
        assert_eq!(changed(&[(100, 1)]), ["a step left over"]);
        let steps: Vec<(usize, u64)> = (0..16).map(|k| (55 + 3 * k, 1)).collect();
        let full = |opened| wrong(&[&steps[..], &[(52, opened)]].concat());
        assert_eq!(full(16), [""; 0]);
        assert_eq!(full(17), ["17 open"]);
        assert_eq!(full(18), ["a count over 17"]);
        assert_eq!(full(1 << 32), ["a count over 65,535"]);
        for length in [0, 52, 101, 103, 105] {
            assert!(!sound.is_sound_state(&vec![0; length]));
        }
    }

    #[test]
    fn a_sound_state_has_a_sound_handler_and_last_error() {
        let unit = Draft::counting_loop().unit();
        let sound = Sound::of(&unit);
        let wrong = |handler: u64, error: u64, statement: u64| {
            let mut state = vec![0; 104];
            state[HANDLER..].copy_from_slice(&[handler, error, statement]);
            let wrong = sound.wrong_traps(&state).unwrap();
            assert_eq!(sound.is_sound_state(&state), wrong.is_empty());
            wrong
        };
        for handler in 0..=3 {
            assert_eq!(wrong(handler, 0, 0), [""; 0]);
        }
        assert_eq!(wrong(4, 0, 0), ["a handler at N"]);
        assert_eq!(wrong(5, 0, 0), ["a handler past N"]);
        assert_eq!(wrong(65_535, 0, 0), ["a handler of 65,534"]);
        assert_eq!(wrong(65_536, 0, 0), ["a handler over 65,535"]);
        for error in 1..=255 {
            let is_sound = wrong(0, error, 2).is_empty();
            assert_eq!(is_sound, TRAPPED.contains(&error), "{error}");
        }
        assert_eq!(wrong(0, 24, 0), ["an error that is not trapped"]);
        assert_eq!(wrong(0, 256, 0), ["an error over 255"]);
        assert_eq!(wrong(0, 0, 1), ["a statement without an error"]);
        assert_eq!(wrong(0, 22, 3), ["a statement at N"]);
        assert_eq!(wrong(0, 22, 4), ["a statement past N"]);
        assert_eq!(wrong(0, 22, 65_535), ["a statement of 65,535"]);
        assert_eq!(wrong(0, 22, 65_536), ["a statement over 65,535"]);
        assert_eq!(
            wrong(4, 30, 3),
            [
                "a handler at N",
                "an error that is not trapped",
                "a statement at N"
            ]
        );
    }

    #[test]
    fn validity_is_about_decimal_elements() {
        let unit = unit();
        let sound = Sound::of(&unit);
        assert!(sound.is_valid(b".abcde12345p"));
        assert!(sound.is_valid(b"......12p00y"));
        assert!(sound.is_valid(b".abcde  1  p") && sound.is_valid(b".abcde    00"));
        assert!(sound.is_padded(b".abcde123 45") && !sound.is_padded(b"  abcd1 3456"));
        assert!(!sound.is_valid(b".abcde1 3456") && !sound.is_valid(b".abcde123 4 "));
        assert!(!sound.is_valid(b".abcde\t23456") && !sound.is_valid(b".abcde1234\x006"));
        assert!(!sound.is_valid(b".abcde1p3456"));
        assert!(!sound.is_valid(b".abcde12345z"));
        assert_eq!(sound.invalid_elements(b".abcde12345p"), []);
        assert_eq!(sound.invalid_elements(b".abcde1p345z"), [(1, 1), (1, 2)]);
        assert_eq!(sound.invalid_elements(b"?abcde123??6"), [(1, 2)]);
        assert!(!sound.is_text_to_decimal(0) && !sound.is_text_to_decimal(3));
    }
}
