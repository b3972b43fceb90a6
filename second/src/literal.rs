//! The alpha literal of a statement, for a host that asks for it.

use crate::check::check;
use crate::expression::{item_at, Item};
use crate::unit::code;
use std::ops::Range;

/// The alpha literal of statement `i`: that stretch of the unit itself if the unit passes checks
/// 1 to 5 and the statement is a SET whose source is a lone alpha literal, and an empty stretch
/// otherwise.
pub fn literal(unit: &[u8], i: usize) -> &[u8] {
    literal_range(unit, i).map_or(&[], |range| &unit[range])
}

/// Where in the unit the alpha literal of statement `i` stands, if there is one.
pub fn literal_range(unit: &[u8], i: usize) -> Option<Range<usize>> {
    let parts = check(unit).ok()?;
    let statement = parts
        .statement(i)
        .filter(|statement| statement.code == code::SET)?;
    match item_at(parts.expressions, statement.b)? {
        // In a sound unit nothing but 00 follows an alpha literal.
        (Item::Alpha(range), _) => {
            let start = parts.literals_start();
            Some(start + range.start..start + range.end)
        }
        _ => None,
    }
}

#[cfg(test)]
mod tests {
    use super::literal;
    use crate::sample::Sample;

    #[test]
    fn literal_is_a_stretch_of_the_unit() {
        // The places are a decimal at 0 and an alpha at 4; the alpha literal is at 8.
        let expressions = b"\x02\0\0\0\x02\0\x01\0\x06\0\x02\0\x03\0";
        for (statement, length) in [
            ((1, 4, 8, 0), 3),
            ((1, 0, 8, 0), 3),
            ((1, 4, 0, 0), 0),
            ((2, 4, 0, 0), 0),
            ((13, 4, 8, 0), 0),
        ] {
            let sample = Sample::fields(statement, expressions);
            let unit = sample.unit();
            let start = 10 + 24 + expressions.len() + 2;
            assert_eq!(literal(&unit, 0), &unit[start..start + length]);
            if length > 0 {
                assert_eq!(literal(&unit, 0).as_ptr(), unit[start..].as_ptr());
            }
            assert!(literal(&unit, 1).is_empty());
            let mut refused = sample.clone();
            refused.statements.push((0, 0, 0, 0));
            assert!(literal(&refused.unit(), 0).is_empty());
        }
    }
}
