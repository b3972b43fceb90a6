//! What the fence check answers, and what is answered of data.

use crate::ffi;
use crate::words;
use std::fmt;

/// The answer of the fence check for a unit that passes checks 1 to 5.
#[derive(Clone, Copy, Debug, PartialEq, Eq, Hash)]
pub enum Verdict {
    /// Every statement keeps the fence rules.
    Yes,
    /// A statement breaks a rule.
    No {
        /// The first statement that does.
        statement: usize,
        /// The rule that it breaks first.
        breach: Breach,
    },
}

impl Verdict {
    /// Whether every statement keeps the fence rules.
    pub fn is_yes(self) -> bool {
        self == Verdict::Yes
    }
}

impl fmt::Display for Verdict {
    fn fmt(&self, f: &mut fmt::Formatter<'_>) -> fmt::Result {
        match self {
            Verdict::Yes => f.write_str("yes"),
            Verdict::No { statement, breach } => write!(f, "no {statement}: {breach}"),
        }
    }
}

/// Whether the decimals of a data buffer are valid, as [`Unit::invalid`](crate::Unit::invalid)
/// answers it.
///
/// ```
/// use dibol::Validity;
/// let (field, element, offset) = (1, 3, 16);
/// let invalid = Validity::Invalid { field, element, offset };
/// assert_eq!(invalid.to_string(), "element 3 of field 1, at byte 16, is no number");
/// assert!(!invalid.is_all_valid());
/// ```
#[derive(Clone, Copy, Debug, PartialEq, Eq, Hash)]
pub enum Validity {
    /// The buffer does not have the unit's D bytes.
    WrongSize,
    /// Every element of every decimal field is valid.
    AllValid,
    /// An element of a decimal field cannot be read as a number.
    Invalid {
        /// The first field that has such an element.
        field: usize,
        /// Its first such element, counted from 1 as a subscript counts.
        element: usize,
        /// Where that element starts in the data.
        offset: usize,
    },
}

impl Validity {
    /// Whether every decimal is valid, as a yes of the fence asks of the data.
    pub fn is_all_valid(self) -> bool {
        self == Validity::AllValid
    }
}

impl fmt::Display for Validity {
    fn fmt(&self, f: &mut fmt::Formatter<'_>) -> fmt::Result {
        match self {
            Validity::WrongSize => f.write_str("the data is not of the unit's length"),
            Validity::AllValid => f.write_str("all decimals are valid"),
            Validity::Invalid {
                field,
                element,
                offset,
            } => write!(
                f,
                "element {element} of field {field}, at byte {offset}, is no number"
            ),
        }
    }
}

/// Why a statement or a reference breaks the fence rules.
///
/// Shown by `{}`, it is the library's own words for the rule.
///
/// ```
/// use dibol::Breach;
/// assert_eq!(Breach::LeavesField.number(), 3);
/// assert_eq!(Breach::LeavesField.to_string(), "A span leaves its field");
/// ```
#[derive(Clone, Copy, Debug, PartialEq, Eq, Hash)]
#[non_exhaustive]
pub enum Breach {
    /// 1: A bound is not a literal.
    BoundNotLiteral,
    /// 2: The bounds give 21.
    BoundsWrong,
    /// 3: A span leaves its field.
    LeavesField,
    /// 4: A decimal span is not in one element.
    OverElements,
    /// 5: A decimal destination ends inside its element.
    StopsMidElement,
    /// 6: An alpha destination shares a byte with a decimal field.
    OnDecimal,
    /// A number that this version of the crate has no name for.
    Other(u64),
}

impl Breach {
    /// The breach of a number; none for 0, which stands for no breach.
    pub fn from_number(number: u64) -> Option<Breach> {
        Some(match number {
            0 => return None,
            1 => Breach::BoundNotLiteral,
            2 => Breach::BoundsWrong,
            3 => Breach::LeavesField,
            4 => Breach::OverElements,
            5 => Breach::StopsMidElement,
            6 => Breach::OnDecimal,
            _ => Breach::Other(number),
        })
    }

    /// The number of the rule, in the order in which document 01 lists them.
    pub fn number(self) -> u64 {
        match self {
            Breach::BoundNotLiteral => 1,
            Breach::BoundsWrong => 2,
            Breach::LeavesField => 3,
            Breach::OverElements => 4,
            Breach::StopsMidElement => 5,
            Breach::OnDecimal => 6,
            Breach::Other(number) => number,
        }
    }
}

impl fmt::Display for Breach {
    fn fmt(&self, f: &mut fmt::Formatter<'_>) -> fmt::Result {
        let words = words::of(self.number(), ffi::dibol_breach_words);
        if words.is_empty() {
            return write!(f, "rule {}", self.number());
        }
        f.pad(&words)
    }
}

#[cfg(test)]
mod tests {
    use super::*;

    #[test]
    fn numbers_and_names_go_both_ways() {
        assert_eq!(Breach::from_number(0), None);
        for number in 1..=100 {
            assert_eq!(
                Breach::from_number(number).map(Breach::number),
                Some(number)
            );
        }
        let is_named =
            |number: &u64| !matches!(Breach::from_number(*number), Some(Breach::Other(_)));
        let named: Vec<u64> = (1..=100).filter(is_named).collect();
        assert_eq!(named, [1, 2, 3, 4, 5, 6]);
    }

    #[test]
    fn each_rule_has_words_of_its_own() {
        let words = |number| Breach::from_number(number).map(|breach| breach.to_string());
        let mut all: Vec<String> = (1..=6).filter_map(words).collect();
        assert!(all.iter().all(|words| words.len() > 5 && words.is_ascii()));
        all.sort();
        all.dedup();
        assert_eq!(all.len(), 6);
        assert_eq!(words(7), Some("rule 7".to_string()));
    }
}
