//! The bytes that UPCASE and LOCASE have met, counted.

use crate::decode::Sound;
use crate::draft::code;

/// The two statements, with their names.
const STATEMENTS: [(u8, &str); 2] = [(code::UPCASE, "UPCASE"), (code::LOCASE, "LOCASE")];

/// For each of the two, how often each byte stood in its place.
#[derive(Clone)]
pub struct Letters([[u64; 256]; 2]);

impl Default for Letters {
    fn default() -> Letters {
        Letters([[0; 256]; 2])
    }
}

impl Letters {
    /// Counts the bytes of statement `i`, which was completed over this data, if it is one of the two.
    /// Where the bounds of its place are no literals, they are not looked for.
    pub fn completed(&mut self, unit: &Sound, i: usize, data: &[u8]) {
        let statement = unit.statement(i);
        for ((code, _), counts) in STATEMENTS.iter().zip(&mut self.0) {
            if statement.code == *code {
                let span = unit.place(statement.a).and_then(|place| place.span);
                for &byte in &data[span.unwrap_or(0..0)] {
                    counts[usize::from(byte)] += 1;
                }
            }
        }
    }

    /// Adds what another thread has counted.
    pub fn add(&mut self, other: &Letters) {
        let sums = self.0.iter_mut().flatten();
        for (sum, more) in sums.zip(other.0.iter().flatten()) {
            *sum += more;
        }
    }

    /// Each of the two by its name, with the bytes that it has never met.
    pub fn unmet(&self) -> impl Iterator<Item = (&str, Vec<usize>)> {
        let never = |counts: &[u64; 256]| (0..256).filter(|&byte| counts[byte] == 0).collect();
        let names = STATEMENTS.iter().map(|(_, name)| *name);
        names.zip(self.0.iter().map(never))
    }
}

#[cfg(test)]
mod tests {
    use super::*;
    use crate::draft::{Draft, Field, Statement, ALPHA};

    /// How many bytes UPCASE and LOCASE have not met after a statement over all 256 bytes.
    fn left(code: u8) -> Vec<usize> {
        let draft = Draft {
            image: (0..=255).collect(),
            fields: vec![Field::new(ALPHA, 0, 256, 1)],
            expressions: b"\x02\0\0\0".to_vec(),
            literals: Vec::new(),
            statements: vec![Statement::new(code, 0, 0, 0)],
        };
        let mut letters = Letters::default();
        letters.completed(&Sound::of(&draft.unit()), 0, &draft.image);
        letters.unmet().map(|(_, bytes)| bytes.len()).collect()
    }

    #[test]
    fn each_statement_has_its_own_bytes() {
        assert_eq!(left(code::UPCASE), [0, 256]);
        assert_eq!(left(code::LOCASE), [256, 0]);
        assert_eq!(left(code::CLEAR), [256, 256]);
    }
}
