//! A unit in the making: its parts, not yet coded.

use std::ops::Range;

/// A field entry.
#[derive(Clone, Copy, Debug)]
pub struct Field {
    pub kind: u8,
    pub zero: u8,
    pub offset: u16,
    pub size: u16,
    pub count: u16,
}

pub const ALPHA: u8 = 0;
pub const DECIMAL: u8 = 1;
pub const RECORD: u8 = 2;

/// Byte 1 of the entry of a strict field.
pub const STRICT: u8 = 0x80;

impl Field {
    pub fn new(kind: u8, offset: usize, size: usize, count: usize) -> Field {
        Field {
            kind,
            zero: 0,
            offset: offset as u16,
            size: size as u16,
            count: count as u16,
        }
    }

    pub fn is_decimal(&self) -> bool {
        self.kind == DECIMAL
    }

    pub fn is_strict(&self) -> bool {
        self.zero == STRICT
    }

    /// Whether a stretch of the data lies inside the field's bytes.
    pub fn holds(&self, span: &Range<usize>) -> bool {
        self.start() <= span.start && span.end <= self.end()
    }

    pub fn start(&self) -> usize {
        usize::from(self.offset)
    }

    pub fn size(&self) -> usize {
        usize::from(self.size)
    }

    /// The bytes of all the elements together.
    pub fn length(&self) -> usize {
        self.size() * usize::from(self.count)
    }

    pub fn end(&self) -> usize {
        self.start() + self.length()
    }

    /// Whether a byte of the data lies in an element, behind its first.
    pub fn is_inside_element(&self, at: usize) -> bool {
        let is_here = self.start() <= at && at < self.end();
        is_here && !(at - self.start()).is_multiple_of(self.size())
    }
}

/// A statement.
#[derive(Clone, Copy, Debug)]
pub struct Statement {
    pub code: u8,
    pub zero: u8,
    pub a: u16,
    pub b: u16,
    pub c: u16,
}

/// The codes of the statements.
pub mod code {
    pub const SET: u8 = 1;
    pub const CLEAR: u8 = 2;
    pub const INCR: u8 = 3;
    pub const DECR: u8 = 4;
    pub const UPCASE: u8 = 5;
    pub const LOCASE: u8 = 6;
    pub const GOTO: u8 = 7;
    pub const GOTO_IF_ZERO: u8 = 8;
    pub const CALL: u8 = 9;
    pub const RETURN: u8 = 10;
    pub const STOP: u8 = 11;
    pub const COMPUTED_GOTO: u8 = 12;
    pub const FORMAT: u8 = 13;
    pub const FOR: u8 = 14;
    pub const LOOP_END: u8 = 15;
    pub const EXITLOOP: u8 = 16;
    pub const NEXTLOOP: u8 = 17;
    pub const ONERROR: u8 = 18;
    pub const OFFERROR: u8 = 19;
}

impl Statement {
    pub fn new(code: u8, a: u16, b: u16, c: u16) -> Statement {
        let zero = 0;
        Statement {
            code,
            zero,
            a,
            b,
            c,
        }
    }

    /// Whether part c names a statement.
    fn has_target(&self) -> bool {
        matches!(
            self.code,
            code::GOTO | code::GOTO_IF_ZERO | code::CALL | code::FOR | code::ONERROR
        )
    }
}

/// The five parts of a unit. The trailer follows from them.
#[derive(Clone, Debug, Default)]
pub struct Draft {
    pub image: Vec<u8>,
    pub fields: Vec<Field>,
    pub expressions: Vec<u8>,
    pub literals: Vec<u8>,
    pub statements: Vec<Statement>,
}

impl Draft {
    /// The numbers of the fields that are decimal, or of those that are not.
    pub fn numbers_of(&self, is_decimal: bool) -> Vec<usize> {
        (0..self.fields.len())
            .filter(|&i| self.fields[i].is_decimal() == is_decimal)
            .collect()
    }

    /// The numbers of the statements that are FORs.
    pub fn entries(&self) -> Vec<usize> {
        (0..self.statements.len())
            .filter(|&i| self.statements[i].code == code::FOR)
            .collect()
    }

    /// The places where a statement may be put in: all but those inside the table of a computed GOTO.
    pub fn free_places(&self) -> Vec<usize> {
        let mut free = Vec::new();
        // The last statement of the tables so far.
        let mut last = None;
        for at in 0..=self.statements.len() {
            if last.is_none_or(|last| last < at) {
                free.push(at);
            }
            let statement = self.statements.get(at);
            let table = statement.filter(|statement| statement.code == code::COMPUTED_GOTO);
            last = last.max(table.map(|table| at + usize::from(table.a)));
        }
        free
    }

    /// Puts a statement before statement `at`. All that names a statement from there on names the next
    /// one, but for the new statement itself.
    pub fn insert(&mut self, at: usize, new: Statement) {
        for statement in &mut self.statements {
            if statement.has_target() && usize::from(statement.c) >= at {
                statement.c = statement.c.saturating_add(1);
            }
        }
        self.statements.insert(at, new);
    }

    /// Whether a stretch of the data shares a byte with a decimal field.
    pub fn shares_decimal(&self, start: usize, end: usize) -> bool {
        let shares = |field: &Field| field.start() < end && start < field.end();
        self.fields
            .iter()
            .any(|field| field.is_decimal() && shares(field))
    }

    /// The coded unit.
    pub fn unit(&self) -> Vec<u8> {
        let mut unit = self.image.clone();
        for field in &self.fields {
            let numbers = [field.offset, field.size, field.count];
            entry(&mut unit, field.kind, field.zero, numbers);
        }
        unit.extend(&self.expressions);
        unit.extend(&self.literals);
        for statement in &self.statements {
            let numbers = [statement.a, statement.b, statement.c];
            entry(&mut unit, statement.code, statement.zero, numbers);
        }
        let (image, fields) = (self.image.len(), self.fields.len());
        let (expressions, literals) = (self.expressions.len(), self.literals.len());
        for length in [image, fields, expressions, literals, self.statements.len()] {
            unit.extend((length as u16).to_be_bytes());
        }
        unit.extend(b"DB");
        unit
    }
}

#[cfg(test)]
impl Draft {
    /// A formatted move over A and D, whose parts are the expressions at these offsets: A at 0, D at
    /// 4, A(9) at 8, 1 / 0 at 16, A(1,3) at 26 and -1 at 38. E is 44.
    pub fn formatted_move(a: u16, b: u16, c: u16) -> Draft {
        Draft {
            image: b"Z.X.02r".to_vec(),
            fields: vec![Field::new(ALPHA, 0, 4, 1), Field::new(DECIMAL, 4, 3, 1)],
            expressions: b"\x02\0\0\0\x02\0\x01\0\
                \x01\0\0\x01\x03\0\0\0\
                \x01\0\x01\x01\x01\0\x02\x01\x13\0\
                \x01\0\x01\x01\x01\0\x03\x01\x04\0\0\0\
                \x01\0\x01\x01\x15\0"
                .to_vec(),
            literals: b"9103".to_vec(),
            statements: vec![Statement::new(code::FORMAT, a, b, c)],
        }
    }
}

#[cfg(test)]
impl Draft {
    /// FOR T(I) = I to 9 by -4, with EXITLOOP in its body, over I and T of three, all of one digit.
    /// The control stands at 0 of the expressions, the numbers at 7, 11 and 16. E is 22.
    pub fn counting_loop() -> Draft {
        Draft {
            image: b"2003".to_vec(),
            fields: vec![Field::new(DECIMAL, 0, 1, 1), Field::new(DECIMAL, 1, 1, 3)],
            expressions: b"\x02\0\0\x03\0\x01\0\
                \x02\0\0\0\x01\0\0\x01\0\x01\0\x01\x01\x15\0"
                .to_vec(),
            literals: b"94".to_vec(),
            statements: vec![
                Statement::new(code::FOR, 0, 7, 2),
                Statement::new(code::EXITLOOP, 0, 0, 0),
                Statement::new(code::LOOP_END, 0, 0, 0),
            ],
        }
    }
}

fn entry(unit: &mut Vec<u8>, first: u8, zero: u8, numbers: [u16; 3]) {
    unit.extend([first, zero]);
    for number in numbers {
        unit.extend(number.to_be_bytes());
    }
}

#[cfg(test)]
mod tests {
    use super::*;

    #[test]
    fn a_statement_is_put_in_and_the_targets_move() {
        let jump = |target| Statement::new(code::GOTO, 0, 0, target);
        let mut draft = Draft {
            statements: vec![
                jump(1),
                Statement::new(code::COMPUTED_GOTO, 2, 1, 0),
                jump(0),
                jump(2),
                Statement::new(code::STOP, 0, 0, 0),
            ],
            ..Draft::default()
        };
        assert_eq!(draft.free_places(), [0, 1, 4, 5]);
        draft.insert(1, Statement::new(code::ONERROR, 0, 0, 1));
        let targets: Vec<u16> = draft.statements.iter().map(|one| one.c).collect();
        assert_eq!(targets, [2, 1, 0, 0, 3, 0]);
        assert_eq!(draft.free_places(), [0, 1, 2, 5, 6]);
    }
}
