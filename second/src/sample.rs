//! Units for the tests, built from their parts, and places to write.

use crate::bench::{image, BENCH_ALLOWANCE};
use crate::check::check;
use crate::run::run;
use crate::state::State;
use crate::unit::{code, LOOSE, STRICT};
use std::iter::repeat;

pub type FieldEntry = (u8, u16, u16, u16);
pub type StatementEntry = (u8, u16, u16, u16);

/// The parts of a unit; the trailer follows from them.
#[derive(Clone)]
pub struct Sample {
    pub image: Vec<u8>,
    pub fields: Vec<FieldEntry>,
    /// Byte 1 of the first field entries; that of the others is 0.
    pub choices: Vec<u8>,
    pub expressions: Vec<u8>,
    pub literals: Vec<u8>,
    pub statements: Vec<StatementEntry>,
}

impl Sample {
    /// One byte of data and a STOP.
    pub fn least() -> Sample {
        Sample {
            image: vec![b' '],
            fields: vec![],
            choices: vec![],
            expressions: vec![],
            literals: vec![],
            statements: vec![(11, 0, 0, 0)],
        }
    }

    /// Ten bytes of data under a decimal (field 0), an alpha (1) and a record (2), and the
    /// literals `1234567890123456789`, with one statement to fill in.
    pub fn fields(statement: StatementEntry, expressions: &[u8]) -> Sample {
        Sample {
            image: vec![b'0'; 10],
            fields: vec![(1, 0, 2, 2), (0, 4, 6, 1), (2, 0, 10, 1)],
            choices: vec![],
            expressions: expressions.to_vec(),
            literals: b"1234567890123456789".to_vec(),
            statements: vec![statement],
        }
    }

    /// An image with its fields, and no statement yet.
    pub fn over(image: &str, fields: &[FieldEntry]) -> Sample {
        Sample {
            image: image.as_bytes().to_vec(),
            fields: fields.to_vec(),
            choices: vec![],
            expressions: vec![],
            literals: vec![],
            statements: vec![],
        }
    }

    /// The fields of the bench values: AM is field 0, NZ 1 and NUM 2.
    pub fn bench_values() -> Sample {
        Sample::over(
            "abcdefghijklmnopqrstuvwxyz1234567890",
            &[(0, 0, 13, 1), (0, 13, 13, 1), (1, 26, 10, 1)],
        )
    }

    /// The same with all its fields strict.
    pub fn strict(mut self) -> Sample {
        self.choices = vec![STRICT; self.fields.len()];
        self
    }

    /// Adds an expression, told by its items in postfix order, and gives its offset. Items are
    /// digits, text in quotes with `_` for a space, the references `%0`, `%0()`, `%0(,)` and
    /// `%0(:)` to field 0, and the operators.
    pub fn expression(&mut self, items: &str) -> u16 {
        let offset = self.expressions.len() as u16;
        for item in items.split_whitespace() {
            let coded = self.item(item);
            self.expressions.extend(coded);
        }
        self.expressions.push(0);
        offset
    }

    fn item(&mut self, item: &str) -> Vec<u8> {
        const OPERATORS: [&str; 16] = [
            "+", "-", "*", "/", "#", "neg", "EQ", "NE", "GT", "LT", "GE", "LE", "NOT", "AND", "OR",
            "XOR",
        ];
        if let Some(operator) = OPERATORS.iter().position(|&sign| sign == item) {
            return vec![0x10 + operator as u8];
        }
        if let Some(reference) = item.strip_prefix('%') {
            let digits = reference.trim_end_matches(['(', ')', ',', ':']);
            let code = match &reference[digits.len()..] {
                "" => 0x02,
                "()" => 0x03,
                "(,)" => 0x04,
                _ => 0x05,
            };
            return vec![code, 0, digits.parse().unwrap()];
        }
        let place = self.literals.len() as u16;
        let text = item.trim_matches('"').replace('_', " ");
        self.literals.extend(text.bytes());
        let [high, low] = place.to_be_bytes();
        match item.starts_with('"') {
            true => vec![0x06, high, low, 0, text.len() as u8],
            false => vec![0x01, high, low, text.len() as u8],
        }
    }

    /// Adds a SET.
    pub fn set(mut self, place: &str, source: &str) -> Sample {
        let (a, b) = (self.expression(place), self.expression(source));
        self.statements.push((code::SET, a, b, 0));
        self
    }

    /// Adds a formatted move.
    pub fn format(mut self, place: &str, mask: &str, number: &str) -> Sample {
        let [a, b, c] = [place, mask, number].map(|items| self.expression(items));
        self.statements.push((code::FORMAT, a, b, c));
        self
    }

    /// Adds a FOR over a control place, from its start, limit and step to its loop end.
    pub fn repeated(mut self, control: &str, numbers: [&str; 3], end: u16) -> Sample {
        let a = self.expression(control);
        let [b, ..] = numbers.map(|items| self.expression(items));
        self.statements.push((code::FOR, a, b, end));
        self
    }

    /// Adds a loop: such a FOR, what a body adds, and the loop end behind it.
    pub fn looped(
        self,
        control: &str,
        numbers: [&str; 3],
        body: impl FnOnce(Sample) -> Sample,
    ) -> Sample {
        let entry = self.statements.len();
        let mut looped = body(self.repeated(control, numbers, 0));
        looped.statements[entry].3 = looped.statements.len() as u16;
        looped.to(code::LOOP_END, 0)
    }

    /// Adds a statement with a place alone.
    pub fn on(mut self, code: u8, place: &str) -> Sample {
        let a = self.expression(place);
        self.statements.push((code, a, 0, 0));
        self
    }

    /// Adds a statement with a number, GOTO_IF_ZERO with its target or a computed GOTO with its n.
    pub fn by(mut self, code: u8, number: &str, part: u16) -> Sample {
        let b = self.expression(number);
        self.statements.push(match code {
            code::COMPUTED_GOTO => (code, part, b, 0),
            _ => (code, 0, b, part),
        });
        self
    }

    /// Adds a statement with a target, or with a target of 0 one that has no parts.
    pub fn to(mut self, code: u8, target: u16) -> Sample {
        self.statements.push((code, 0, 0, target));
        self
    }

    pub fn unit(&self) -> Vec<u8> {
        let mut unit = self.image.clone();
        let choices = self.choices.iter().copied().chain(repeat(LOOSE));
        for (&(kind, offset, size, count), choice) in self.fields.iter().zip(choices) {
            unit.extend(entry(kind, choice, [offset, size, count]));
        }
        unit.extend(&self.expressions);
        unit.extend(&self.literals);
        for &(code, a, b, c) in &self.statements {
            unit.extend(entry(code, 0, [a, b, c]));
        }
        let (image, fields) = (self.image.len(), self.fields.len());
        let (expressions, literals) = (self.expressions.len(), self.literals.len());
        for length in [image, fields, expressions, literals, self.statements.len()] {
            unit.extend((length as u16).to_be_bytes());
        }
        unit.extend([0x44, 0x42]);
        unit
    }

    /// The stop number and place of the refusal, or (0, 0) if the unit passes.
    pub fn answer(&self) -> (u8, usize) {
        answer(&self.unit())
    }

    /// Stop number, place, count and data after a run from the image.
    pub fn ran(&self) -> (u8, usize, u64, String) {
        let unit = self.unit();
        let mut data = image(&unit);
        let outcome = run(&unit, &mut data, State::START, BENCH_ALLOWANCE);
        let data = String::from_utf8(data).unwrap();
        (outcome.stop, outcome.place, outcome.count, data)
    }

    /// The data after a run from the image that reaches the end.
    pub fn data(&self) -> String {
        let (stop, _, _, data) = self.ran();
        assert_eq!(stop, 0);
        data
    }

    /// The stop number and place of a run error, which has left the data as the image is when
    /// the first statement is the one that fails.
    pub fn fault(&self) -> (u8, usize) {
        let (stop, place, count, data) = self.ran();
        assert!((20..=29).contains(&stop), "stop {stop}");
        if count == 0 {
            assert_eq!(data.as_bytes(), self.image);
        }
        (stop, place)
    }
}

pub fn answer(unit: &[u8]) -> (u8, usize) {
    check(unit).map_or_else(|refusal| (refusal.stop, refusal.place), |_| (0, 0))
}

/// What stands in a place of `length` bytes after it was written.
pub fn written(length: usize, write: impl FnOnce(&mut [u8])) -> String {
    let mut place = vec![b'?'; length];
    write(&mut place);
    String::from_utf8(place).unwrap()
}

fn entry(first: u8, second: u8, numbers: [u16; 3]) -> Vec<u8> {
    let mut bytes = vec![first, second];
    bytes.extend(numbers.iter().flat_map(|number| number.to_be_bytes()));
    bytes
}
