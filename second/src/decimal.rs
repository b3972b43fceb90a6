//! Decimals: how a number stands in characters, with its sign in the last of them.

/// The most digits that a decimal, a number literal or a value has.
pub const DIGITS_MOST: usize = 18;

/// What is added to the last digit of a negative number: `0` to `9` become `p` to `y`.
const SIGN: u8 = b'p' - b'0';

/// The number that the characters stand for, or nothing if they are not a valid decimal. Leading
/// spaces are taken as zeros, and spaces alone as 0. Behind them all but the last are 0 to 9, and
/// the last is 0 to 9, or p to y for a negative number. There are at most 18 characters, spaces
/// counted.
pub fn read(characters: &[u8]) -> Option<i64> {
    let is_space = |&&character: &&u8| character == b' ';
    let spaces = characters.iter().take_while(is_space).count();
    let Some((&last, leading)) = characters[spaces..].split_last() else {
        return (spaces > 0).then_some(0);
    };
    let mut magnitude = 0;
    for &character in leading {
        if !character.is_ascii_digit() {
            return None;
        }
        magnitude = 10 * magnitude + digit(character);
    }
    match last {
        b'0'..=b'9' => Some(10 * magnitude + digit(last)),
        b'p'..=b'y' => Some(-(10 * magnitude + digit(last - SIGN))),
        _ => None,
    }
}

/// The number that a literal of digits stands for.
pub fn read_literal(digits: &[u8]) -> i64 {
    digits
        .iter()
        .fold(0, |value, &character| 10 * value + digit(character))
}

/// Moves a number to a decimal place: right-justified, with zeros in front, the high digits
/// dropped silently. The sign stays if the digits kept are not all 0.
pub fn write(place: &mut [u8], value: i64) {
    let mut rest = value.unsigned_abs();
    let mut all_zero = true;
    for character in place.iter_mut().rev() {
        let digit = (rest % 10) as u8;
        all_zero &= digit == 0;
        *character = b'0' + digit;
        rest /= 10;
    }
    if let Some(last) = place.last_mut() {
        if value < 0 && !all_zero {
            *last += SIGN;
        }
    }
}

/// Whether a place of `length` characters, which are at most 18, holds all digits of a number. Its
/// sign takes no character.
pub fn fits(length: usize, value: i64) -> bool {
    value.unsigned_abs() < 10_u64.pow(length as u32)
}

fn digit(character: u8) -> i64 {
    i64::from(character - b'0')
}

#[cfg(test)]
mod tests {
    use super::*;
    use crate::sample::written;

    #[test]
    fn values_are_read() {
        assert_eq!(read(b"2s"), Some(-23));
        assert_eq!(read(b"0p"), Some(0));
        assert_eq!(read(b"q2"), None);
        assert_eq!(read(b"41"), Some(41));
        assert_eq!(read(b"7"), Some(7));
        assert_eq!(read(b"y"), Some(-9));
        assert_eq!(read(b"p"), Some(0));
        assert_eq!(read(b"00p"), Some(0));
        assert_eq!(read(b"1p"), Some(-10));
        assert_eq!(read(b"999999999999999999"), Some(999_999_999_999_999_999));
        assert_eq!(read(b"99999999999999999y"), Some(-999_999_999_999_999_999));
        assert_eq!(read(b"000000000000000000"), Some(0));
    }

    #[test]
    fn leading_spaces_are_zeros() {
        for (characters, value) in [
            ("  12", Some(12)),
            (" 0", Some(0)),
            ("   ", Some(0)),
            (" ", Some(0)),
            (" s", Some(-3)),
            ("  0p", Some(0)),
            (" p", Some(0)),
            ("1 2", None),
            ("1 ", None),
            (" 1 ", None),
            ("0 ", None),
            (" 1 2", None),
            ("\t1", None),
            ("\x001", None),
            ("+1", None),
            (" -1", None),
            ("   1204", Some(1204)),
            ("1 204", None),
            (" 2s", Some(-23)),
            (" s ", None),
            ("s ", None),
            (" s2", None),
            (" \t1", None),
            (" \t", None),
            ("\t", None),
            (" \x00", None),
            ("                 9", Some(9)),
            ("                 y", Some(-9)),
            ("                  ", Some(0)),
            (" 99999999999999999", Some(99_999_999_999_999_999)),
        ] {
            assert_eq!(read(characters.as_bytes()), value, "{characters:?}");
        }
        assert_eq!(read(b""), None);
    }

    #[test]
    fn each_character_is_judged_by_its_place() {
        for character in 0..=255_u8 {
            let digit = character.is_ascii_digit();
            let sign = (b'p'..=b'y').contains(&character);
            let space = character == 0x20;
            let first = read(&[character, b'1']);
            assert_eq!(first.is_some(), digit || space, "{character}");
            assert_eq!(read(&[b'1', character, b'1']).is_some(), digit);
            for before in [b'1', b' '] {
                let last = read(&[before, character]);
                let is_blank = before == b' ' && space;
                assert_eq!(last.is_some(), digit || sign || is_blank, "{character}");
                let is_negative = last.is_some_and(|value| value < 0);
                let is_zero = before == b' ' && character == b'p';
                assert_eq!(is_negative, sign && !is_zero, "{character}");
            }
        }
    }

    /// What stands in a place of `length` characters after the number has moved there.
    fn moved(value: i64, length: usize) -> String {
        written(length, |place| write(place, value))
    }

    #[test]
    fn numbers_move_to_decimals() {
        assert_eq!(moved(1234, 2), "34");
        assert_eq!(moved(-123, 2), "2s");
        assert_eq!(moved(-100, 2), "00");
        assert_eq!(moved(-110, 2), "1p");
        assert_eq!(moved(7, 4), "0007");
        assert_eq!(moved(-7, 4), "000w");
        assert_eq!(moved(0, 3), "000");
        assert_eq!(moved(-5, 1), "u");
        assert_eq!(moved(-999_999_999_999_999_999, 18), "99999999999999999y");
    }

    #[test]
    fn a_number_fits_if_no_digit_is_lost() {
        for (length, greatest) in [(1, 9), (2, 99), (18, 999_999_999_999_999_999)] {
            for value in [greatest, -greatest] {
                assert!(fits(length, value));
                assert_eq!(read(moved(value, length).as_bytes()), Some(value));
            }
            assert!(!fits(length, greatest + 1) && !fits(length, -greatest - 1));
            assert!(fits(length, 0));
        }
        assert!(fits(17, 99_999_999_999_999_999) && !fits(17, 100_000_000_000_000_000));
    }

    #[test]
    fn what_is_written_reads_back() {
        for value in -1100..=1100 {
            let written = moved(value, 4);
            assert_eq!(read(written.as_bytes()), Some(value));
            assert!(!written.contains(' '));
            let kept = read(moved(value, 2).as_bytes());
            assert_eq!(kept, Some(value % 100));
        }
    }
}
