//! Whether the decimals of a data buffer are valid, and which is the first that is not.

use crate::check::check;
use crate::decimal;
use crate::stop::Refusal;
use crate::unit::Field;
use std::fmt;

/// The answer for a data buffer.
#[derive(Clone, Copy, Debug, PartialEq, Eq)]
pub enum Validity {
    /// The unit is refused by checks 1 to 5.
    Refused(Refusal),
    /// The data buffer isn't D bytes.
    WrongSize,
    /// Every element of every decimal field is a valid decimal.
    AllValid,
    /// This is the first that is not: its field, its number there, which counts from 1, and where in
    /// the data it begins.
    Invalid {
        field: usize,
        element: usize,
        offset: usize,
    },
}

/// The answer in words and numbers, as the program `second` writes it.
impl fmt::Display for Validity {
    fn fmt(&self, f: &mut fmt::Formatter<'_>) -> fmt::Result {
        match self {
            Validity::Refused(Refusal { stop, place }) => write!(f, "refused {stop} {place}"),
            Validity::WrongSize => write!(f, "wrong size"),
            Validity::AllValid => write!(f, "valid"),
            Validity::Invalid {
                field,
                element,
                offset,
            } => write!(f, "invalid {field} {element} {offset}"),
        }
    }
}

/// The first decimal element of a data buffer, by field and then by element, that is no valid
/// decimal. Alpha fields and records are not looked at: they may hold any bytes.
pub fn invalid(unit: &[u8], data: &[u8]) -> Validity {
    let parts = match check(unit) {
        Ok(parts) => parts,
        Err(refusal) => return Validity::Refused(refusal),
    };
    if data.len() != parts.image.len() {
        return Validity::WrongSize;
    }
    for i in 0..parts.field_count() {
        let decimal = parts.field(i).filter(Field::is_decimal);
        let found = decimal.and_then(|field| Some((field, first_invalid(&field, data)?)));
        if let Some((field, before)) = found {
            return Validity::Invalid {
                field: i,
                element: before + 1,
                offset: field.offset + before * field.size,
            };
        }
    }
    Validity::AllValid
}

/// How many elements of a decimal field stand before its first that is invalid, if one is.
fn first_invalid(field: &Field, data: &[u8]) -> Option<usize> {
    data[field.offset..field.end()]
        .chunks(field.size)
        .position(|element| decimal::read(element).is_none())
}

#[cfg(test)]
mod tests {
    use super::*;
    use crate::sample::Sample;
    use crate::unit::code;

    /// A record over everything (field 0), an alpha A2 (1), a D3 array of three (2), a gap of one
    /// byte, a record over it and what follows (3), a D1 (4) and an alpha A1 (5).
    fn unit() -> Vec<u8> {
        let fields = [
            (2, 0, 14, 1),
            (0, 0, 2, 1),
            (1, 2, 3, 3),
            (2, 11, 3, 1),
            (1, 12, 1, 1),
            (0, 13, 1, 1),
        ];
        let sample = Sample::over("ab001002003.7z", &fields);
        sample.to(code::STOP, 0).unit()
    }

    /// The answer for some data, in words and numbers; with strict fields it is the same.
    fn answer(data: &str) -> String {
        let mut strict = unit();
        for entry in strict[14..14 + 6 * 8].chunks_mut(8) {
            entry[1] = 0x80;
        }
        let answer = invalid(&unit(), data.as_bytes());
        assert_eq!(invalid(&strict, data.as_bytes()), answer);
        answer.to_string()
    }

    #[test]
    fn all_elements_are_looked_at_and_nothing_else() {
        assert_eq!(answer("ab001002003.7z"), "valid");
        assert_eq!(answer("?\t001002003\x007 "), "valid");
        for (data, wanted) in [
            ("ab0x1002003.7z", "invalid 2 1 2"),
            ("ab001?02003.7z", "invalid 2 2 5"),
            ("ab00100200/.7z", "invalid 2 3 8"),
            ("ab001002003.Pz", "invalid 4 1 12"),
        ] {
            assert_eq!(answer(data), wanted, "{data}");
        }
    }

    #[test]
    fn the_first_is_told() {
        assert_eq!(answer("abPPPPPPPPP.Pz"), "invalid 2 1 2");
        assert_eq!(answer("ab001PPPPPP.Pz"), "invalid 2 2 5");
        assert_eq!(answer("ab00100200P.Pz"), "invalid 2 3 8");
    }

    #[test]
    fn the_last_character_is_judged_by_its_own_rule() {
        for (element, is_valid) in [
            ("00p", true),
            ("00y", true),
            ("00o", false),
            ("00z", false),
            ("00P", false),
            ("0p0", false),
            ("y00", false),
            ("00:", false),
            ("00/", false),
            ("00 ", false),
            ("0\x000", false),
        ] {
            let data = format!("ab001{element}003.7z");
            let wanted = ["invalid 2 2 5", "valid"][usize::from(is_valid)];
            assert_eq!(answer(&data), wanted, "{element:?}");
        }
    }

    #[test]
    fn leading_spaces_are_valid() {
        assert_eq!(answer("ab   00p  q.yz"), "valid");
        assert_eq!(answer("ab001 1 003. z"), "invalid 2 2 5");
        assert_eq!(answer("ab001002003. z"), "valid");
        assert_eq!(answer("ab0010021  . z"), "invalid 2 3 8");
        assert_eq!(answer("ab001002 \t1.7z"), "invalid 2 3 8");
    }

    #[test]
    fn every_character_of_an_element_of_18() {
        let sample = Sample::over("000000000000000000", &[(1, 0, 18, 1)]);
        let unit = sample.to(code::STOP, 0).unit();
        for at in 0..18 {
            for (character, is_valid) in [(b'9', true), (b'x', at == 17), (b'x' - 32, false)] {
                let mut data = [b'0'; 18];
                data[at] = character;
                let answer = invalid(&unit, &data);
                assert_eq!(
                    answer == Validity::AllValid,
                    is_valid,
                    "{character} at {at}"
                );
            }
        }
    }

    #[test]
    fn the_size_is_asked_after_the_unit_and_before_the_data() {
        for data in ["", "ab001002003.7", "ab001002003.7z?", "abPPPPPPPPP.P"] {
            assert_eq!(answer(data), "wrong size");
        }
        let refused = Sample::over("P", &[(1, 0, 1, 1)]).to(code::GOTO, 1).unit();
        for data in ["", "1", "P", "12"] {
            let found = invalid(&refused, data.as_bytes());
            assert_eq!(found.to_string(), "refused 5 0");
        }
        assert_eq!(invalid(b"", b"").to_string(), "refused 1 0");
    }

    #[test]
    fn a_unit_without_decimals_has_valid_data_alone() {
        assert_eq!(invalid(&Sample::least().unit(), b"?"), Validity::AllValid);
        let record = Sample::over("P?", &[(2, 0, 2, 1)]).to(code::STOP, 0);
        assert_eq!(invalid(&record.unit(), b"P?"), Validity::AllValid);
    }
}
