//! Random expressions of a wanted sort, well-formed, with bounds in and out of range.

use crate::data::{amount, mask, text};
use crate::draft::{Draft, Field};
use crate::random::Random;

/// A unit in the making, with what is needed to go on with it.
pub struct Maker<'a> {
    pub random: &'a mut Random,
    pub draft: Draft,
    /// Whether references mostly keep the fence rules.
    pub is_fenced: bool,
    /// The numbers of the decimal fields.
    decimals: Vec<usize>,
    /// The numbers of the alpha fields and records.
    alphas: Vec<usize>,
    /// The expressions made so far, to be used again.
    made: Vec<(Sort, u16)>,
}

/// What an expression is.
#[derive(Clone, Copy, Debug, PartialEq, Eq)]
pub enum Sort {
    /// A number that ends with a literal, an operator or a decimal reference.
    Number,
    /// A decimal place or, if not, an alpha place. One that is written is a destination.
    Place { is_decimal: bool, is_written: bool },
    /// A lone alpha literal.
    AlphaLiteral,
    /// A lone alpha literal with a mask in it.
    MaskLiteral,
}

impl Sort {
    /// Whether an expression of this sort may stand where `wanted` does: a place may be read and written, and a decimal place is a number.
    fn serves(self, wanted: Sort) -> bool {
        match (self, wanted) {
            (
                Sort::Place {
                    is_decimal: made, ..
                },
                Sort::Place { is_decimal, .. },
            ) => made == is_decimal,
            (Sort::Place { is_decimal, .. }, Sort::Number) => is_decimal,
            (Sort::AlphaLiteral, Sort::MaskLiteral) => true,
            (Sort::MaskLiteral, Sort::AlphaLiteral) => true,
            _ => self == wanted,
        }
    }
}

/// How deep expressions nest at first.
const DEPTH: usize = 3;

/// The greatest value.
pub const GREATEST: u64 = 999_999_999_999_999_999;

impl<'a> Maker<'a> {
    /// A unit with its data and fields, and nothing else yet.
    pub fn new(random: &'a mut Random, draft: Draft, is_fenced: bool) -> Maker<'a> {
        let (decimals, alphas) = (draft.numbers_of(true), draft.numbers_of(false));
        let made = Vec::new();
        Maker {
            random,
            draft,
            is_fenced,
            decimals,
            alphas,
            made,
        }
    }

    pub fn has_decimals(&self) -> bool {
        !self.decimals.is_empty()
    }

    pub fn has_alphas(&self) -> bool {
        !self.alphas.is_empty()
    }

    /// An expression of this sort, mostly a new one, and its offset.
    pub fn expression(&mut self, sort: Sort) -> u16 {
        if self.random.chance(25) && !self.made.is_empty() {
            let (made, offset) = self.random.pick(&self.made);
            if made.serves(sort) {
                return offset;
            }
        }
        let offset = self.draft.expressions.len() as u16;
        match sort {
            Sort::Number => self.value(DEPTH),
            Sort::AlphaLiteral => self.alpha_literal(),
            Sort::MaskLiteral => self.mask_literal(),
            Sort::Place {
                is_decimal,
                is_written,
            } => self.place(is_decimal, is_written),
        }
        self.draft.expressions.push(0);
        self.made.push((sort, offset));
        offset
    }

    /// Three numbers in a row, and the offset of the first. One that is not told is any.
    pub fn row(&mut self, numbers: [Option<i64>; 3]) -> u16 {
        let [offset, ..] = numbers.map(|number| {
            let offset = self.draft.expressions.len() as u16;
            match number {
                Some(value) => self.constant(value),
                None => self.value(DEPTH),
            }
            self.draft.expressions.push(0);
            self.made.push((Sort::Number, offset));
            offset
        });
        offset
    }

    /// A reference that stands last.
    fn place(&mut self, is_decimal: bool, is_written: bool) {
        let fields = if is_decimal {
            &self.decimals
        } else {
            &self.alphas
        };
        let field = self.random.pick(fields);
        self.reference(field, DEPTH, is_written);
    }

    /// A number of some depth, which leaves one value.
    fn value(&mut self, depth: usize) {
        let deeper = usize::from(depth > 0);
        match self.random.weighed(&[
            (30, 0),
            (35 * usize::from(self.has_decimals()), 1),
            (12 * deeper, 2),
            (28 * deeper, 3),
        ]) {
            0 => self.any_literal(),
            1 => {
                let field = self.random.pick(&self.decimals);
                self.reference(field, depth, false);
            }
            2 => {
                self.value(depth - 1);
                let operator = self.random.pick(&[0x15, 0x15, 0x1C]);
                self.draft.expressions.push(operator);
            }
            _ => self.two_operands(depth - 1),
        }
    }

    /// Two values and an operator on them.
    fn two_operands(&mut self, depth: usize) {
        const OPERATORS: [u8; 14] = [
            0x10, 0x11, 0x12, 0x13, 0x14, 0x16, 0x17, 0x18, 0x19, 0x1A, 0x1B, 0x1D, 0x1E, 0x1F,
        ];
        let operator = self.random.pick(&OPERATORS);
        self.value(depth);
        if operator == 0x14 && self.random.chance(85) {
            let count = self.random.weighed(&[(20, 1), (20, 2), (20, 18), (3, 19)]);
            let count = self.random.within(0..=count) as i64;
            self.constant(count);
        } else {
            self.value(depth);
        }
        self.draft.expressions.push(operator);
    }

    /// A number literal of any sort of value.
    fn any_literal(&mut self) {
        let value = match self.random.below(20) {
            0..9 => self.random.below(13) as u64,
            9..14 => self.random.below(1_000) as u64,
            14..17 => self.random.next() % (GREATEST + 1),
            _ => self.edge(),
        };
        self.number_literal(value);
    }

    /// A value at or beside a power of ten, or the greatest.
    pub fn edge(&mut self) -> u64 {
        let power = 10_u64.pow(self.random.below(19) as u32);
        let change = self.random.pick(&[0, 1, 2]);
        (power + change - 1).min(GREATEST)
    }

    /// A number literal, sometimes with leading zeros.
    pub fn number_literal(&mut self, value: u64) {
        let mut digits = value.to_string();
        if self.random.chance(10) {
            let width = self.random.within(digits.len()..=18);
            digits = format!("{value:0width$}");
        }
        let place = self.literal_place(digits.as_bytes());
        self.number_at(place, digits.len());
    }

    /// The item of a number literal, whose digits stand among the literals.
    pub fn number_at(&mut self, place: usize, length: usize) {
        let [high, low] = (place as u16).to_be_bytes();
        self.draft
            .expressions
            .extend([0x01, high, low, length as u8]);
    }

    /// A number literal, with a negate behind it for a number below 0 and sometimes for 0.
    pub fn constant(&mut self, value: i64) {
        self.number_literal(value.unsigned_abs().min(GREATEST));
        if value < 0 || value == 0 && self.random.chance(5) {
            self.draft.expressions.push(0x15);
        }
    }

    /// A lone alpha literal: a number as text, other text, or sometimes all the literals so far.
    fn alpha_literal(&mut self) {
        let so_far = self.draft.literals.len();
        let (place, length) = match self.random.below(20) {
            0 if so_far > 0 => (0, so_far),
            0..13 => {
                let bytes = amount(self.random);
                (self.literal_place(&bytes), bytes.len())
            }
            _ => {
                let mut bytes = vec![0; self.random.within(1..=12)];
                text(self.random, &mut bytes);
                (self.literal_place(&bytes), bytes.len())
            }
        };
        self.alpha_at(place, length);
    }

    /// A lone alpha literal with a mask in it.
    fn mask_literal(&mut self) {
        let bytes = mask(self.random);
        let place = self.literal_place(&bytes);
        self.alpha_at(place, bytes.len());
    }

    /// The item of an alpha literal, whose bytes stand among the literals.
    pub fn alpha_at(&mut self, place: usize, length: usize) {
        self.draft.expressions.push(0x06);
        self.draft.expressions.extend((place as u16).to_be_bytes());
        self.draft.expressions.extend((length as u16).to_be_bytes());
    }

    /// The place of some bytes among the literals, where they stand already or are added.
    fn literal_place(&mut self, bytes: &[u8]) -> usize {
        let literals = &mut self.draft.literals;
        let found = literals.windows(bytes.len()).position(|part| part == bytes);
        found.unwrap_or_else(|| {
            literals.extend(bytes);
            literals.len() - bytes.len()
        })
    }

    /// A reference to a field, with its bounds before it.
    pub fn reference(&mut self, field: usize, depth: usize, is_written: bool) {
        if self.is_fenced && self.random.chance(96) {
            self.kept_reference(field, is_written);
        } else {
            self.free_reference(field, depth);
        }
    }

    /// A reference that keeps the fence rules wherever that is easy.
    fn kept_reference(&mut self, number: usize, is_written: bool) {
        let field = self.draft.fields[number];
        let (mut start, mut end) = self.kept_span(&field, is_written);
        if !field.is_decimal() && is_written {
            for _ in 0..4 {
                if !self
                    .draft
                    .shares_decimal(field.start() + start - 1, field.start() + end)
                {
                    break;
                }
                (start, end) = self.kept_span(&field, is_written);
            }
        }
        self.span(number, start, end);
    }

    /// A span inside a field, by its first and last byte, counted from 1. One of a decimal lies in
    /// one element, and ends with it if it is written.
    fn kept_span(&mut self, field: &Field, is_written: bool) -> (usize, usize) {
        let size = field.size();
        let element = self.random.below(usize::from(field.count)) * size;
        if self.random.chance(55) {
            return (element + 1, element + size);
        }
        if !field.is_decimal() {
            let start = self.random.within(1..=field.length());
            return (start, self.random.within(start..=field.length()));
        }
        let end = if is_written {
            size
        } else {
            self.random.within(1..=size)
        };
        let start = self.random.within(1..=end);
        (element + start, element + end)
    }

    /// A reference to the span from `start` to `end` of a field, in one of the forms that name it.
    fn span(&mut self, number: usize, start: usize, end: usize) {
        let size = self.draft.fields[number].size();
        let length = end + 1 - start;
        let is_element = length == size && (start - 1).is_multiple_of(size);
        let form = match (is_element, start) {
            (true, 1) => self
                .random
                .weighed(&[(5, 2), (2, 3), (1, 4), (1, 5), (1, 6)]),
            (true, _) => self.random.weighed(&[(5, 3), (1, 4), (1, 5), (1, 6)]),
            _ => self.random.weighed(&[(2, 4), (1, 5), (1, 6)]),
        };
        let (start, end, length) = (start as i64, end as i64, length as i64);
        let bounds = match form {
            2 => vec![],
            3 => vec![(start - 1) / size as i64 + 1],
            4 => vec![start, end],
            5 => vec![start, length],
            _ => vec![end, -length],
        };
        for bound in bounds {
            self.constant(bound);
        }
        self.refer(form.min(5), number);
    }

    /// A reference of any form, mostly with bounds that can be found.
    fn free_reference(&mut self, number: usize, depth: usize) {
        let field = self.draft.fields[number];
        let (length, depth) = (field.length() as i64, depth.saturating_sub(1));
        let form = self.random.weighed(&[(35, 2), (30, 3), (18, 4), (17, 5)]);
        let within = |random: &mut Random, low: i64, high: i64| {
            low + random.below((high - low + 1).max(1) as usize) as i64
        };
        match form {
            2 => {}
            3 => {
                let mut subscript = within(self.random, 1, i64::from(field.count));
                if self.random.chance(3) {
                    subscript = self.wrapping(field.size());
                }
                self.bound(subscript, depth);
            }
            4 => {
                let start = within(self.random, 1, length);
                let end = within(self.random, start, length.min(start + 17));
                self.bound(start, depth);
                self.bound(end, depth);
            }
            _ => {
                let pos = within(self.random, 1, length);
                let back = -within(self.random, 1, pos.min(18));
                let on = within(self.random, 1, (length + 1 - pos).min(18));
                let extent = self.random.pick(&[back, on]);
                self.bound(pos, depth);
                self.bound(extent, depth);
            }
        }
        self.refer(form, number);
    }

    /// A bound that mostly has this value, written in one way or another.
    fn bound(&mut self, value: i64, depth: usize) {
        match self.random.below(100) {
            0..60 => self.constant(value),
            60..72 => {
                let change = self.random.below(9) as i64 - 4;
                self.constant(value + change);
            }
            72..76 => self.far(),
            76..81 => {
                self.constant(-value);
                self.draft.expressions.push(0x15);
            }
            81..90 => {
                let part = self.random.below(5) as i64;
                self.constant(value - part);
                self.constant(part);
                self.draft.expressions.push(0x10);
            }
            _ => self.value(depth),
        }
    }

    /// A bound far away: an edge, or a number of so many bits.
    fn far(&mut self) {
        let bits = self.random.pick(&[8, 15, 16, 31, 32, 48, 56, 59]);
        let value = match self.random.below(2) {
            0 => self.edge(),
            _ => (1 << bits) + self.random.below(3) as u64,
        };
        let value = value as i64;
        let value = self.random.pick(&[value, -value]);
        self.constant(value);
    }

    /// A subscript that a product of too few bits would bring back to the field.
    pub fn wrapping(&mut self, size: usize) -> i64 {
        let bits = self.random.pick(&[15, 16, 31, 32, 63, 64]);
        let value = (1_u128 << bits).div_ceil(size as u128) + 1;
        let value = value.min(GREATEST.into()) as i64;
        self.random.pick(&[value, value, 2 - value])
    }

    /// The item of a reference, whose bounds stand before it.
    pub fn refer(&mut self, form: u8, number: usize) {
        let [high, low] = (number as u16).to_be_bytes();
        self.draft.expressions.extend([form, high, low]);
    }
}
