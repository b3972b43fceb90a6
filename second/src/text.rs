//! Alpha text: the moves to it, and the number that stands in it.

use crate::decimal::DIGITS_MOST;
use crate::stop::Fault;
use std::ops::Range;

const SPACE: u8 = b' ';

/// The number that moves when alpha text moves to a decimal place. Spaces and + are skipped, and
/// one minus anywhere makes it negative. A second minus or any other character is 22; more than
/// 18 digits after leading zeros is 20, but 22 comes before it. No digits is 0.
pub fn number_in(text: &[u8]) -> Result<i64, Fault> {
    let mut is_negative = false;
    let mut magnitude = 0;
    // The number of digits after leading zeros.
    let mut digits = 0;
    for &character in text {
        match character {
            b' ' | b'+' => {}
            b'-' if !is_negative => is_negative = true,
            b'0'..=b'9' => {
                if digits > 0 || character != b'0' {
                    digits += 1;
                }
                if digits <= DIGITS_MOST {
                    magnitude = 10 * magnitude + i64::from(character - b'0');
                }
            }
            _ => return Err(Fault::BadDigit),
        }
    }
    if digits > DIGITS_MOST {
        return Err(Fault::Digits);
    }
    Ok(if is_negative { -magnitude } else { magnitude })
}

/// Moves a number to an alpha place: its shortest digits, a minus in front if it is negative,
/// right-justified behind spaces. The left is cut if it is too long.
pub fn write_number(place: &mut [u8], value: i64) {
    let mut rest = value.unsigned_abs();
    // Zero has one digit.
    let mut wants_digit = true;
    let mut wants_minus = value < 0;
    for character in place.iter_mut().rev() {
        *character = if wants_digit {
            let digit = (rest % 10) as u8;
            rest /= 10;
            wants_digit = rest > 0;
            b'0' + digit
        } else if wants_minus {
            wants_minus = false;
            b'-'
        } else {
            SPACE
        };
    }
}

/// Moves text from elsewhere to an alpha place: left-justified, cut or filled with spaces on the
/// right.
pub fn write_text(place: &mut [u8], text: &[u8]) {
    let length = place.len().min(text.len());
    place[..length].copy_from_slice(&text[..length]);
    place[length..].fill(SPACE);
}

/// Moves formatted data to an alpha place: right-justified, cut or filled with spaces on the left.
pub fn write_right(place: &mut [u8], text: &[u8]) {
    let length = place.len().min(text.len());
    let (left, right) = place.split_at_mut(place.len() - length);
    left.fill(SPACE);
    right.copy_from_slice(&text[text.len() - length..]);
}

/// Moves text that stands in the data itself. The result is as if the source had been copied away
/// first.
pub fn write_within(data: &mut [u8], place: Range<usize>, source: Range<usize>) {
    let length = place.len().min(source.len());
    data.copy_within(source.start..source.start + length, place.start);
    data[place.start + length..place.end].fill(SPACE);
}

#[cfg(test)]
mod tests {
    use super::*;
    use crate::sample::written;

    #[test]
    fn text_is_read_as_a_number() {
        assert_eq!(number_in(b" 1-2 "), Ok(-12));
        assert_eq!(number_in(b"1--2"), Err(Fault::BadDigit));
        assert_eq!(number_in(b"-1-"), Err(Fault::BadDigit));
        assert_eq!(number_in(b"  "), Ok(0));
        assert_eq!(number_in(b"-"), Ok(0));
        assert_eq!(number_in(b"+-+"), Ok(0));
        assert_eq!(number_in(b"++1+2+"), Ok(12));
        assert_eq!(number_in(b"12-"), Ok(-12));
        assert_eq!(number_in(b"0 0-0 1"), Ok(-1));
        assert_eq!(number_in(b"1r"), Err(Fault::BadDigit));
        assert_eq!(number_in(b"1.2"), Err(Fault::BadDigit));
        assert_eq!(number_in(b"1\x002"), Err(Fault::BadDigit));
    }

    #[test]
    fn digits_count_after_leading_zeros() {
        let greatest = 999_999_999_999_999_999;
        assert_eq!(number_in(b"999999999999999999"), Ok(greatest));
        assert_eq!(number_in(b"- 00999999999999999999 "), Ok(-greatest));
        assert_eq!(number_in(b"1000000000000000000"), Err(Fault::Digits));
        assert_eq!(number_in(b"0 1000000000 000000000-"), Err(Fault::Digits));
        assert_eq!(number_in(&[b'0'; 4000]), Ok(0));
        assert_eq!(number_in(&[b'9'; 4000]), Err(Fault::Digits));
    }

    #[test]
    fn a_bad_digit_comes_before_too_many() {
        assert_eq!(number_in(b"1234567890123456789x"), Err(Fault::BadDigit));
        assert_eq!(number_in(b"-1234567890123456789-"), Err(Fault::BadDigit));
    }

    /// What stands in a place of `length` bytes after the number has moved there.
    fn moved(value: i64, length: usize) -> String {
        written(length, |place| write_number(place, value))
    }

    #[test]
    fn numbers_move_to_alpha() {
        assert_eq!(moved(-45, 5), "  -45");
        assert_eq!(moved(-45, 3), "-45");
        assert_eq!(moved(-45, 2), "45");
        assert_eq!(moved(-45, 1), "5");
        assert_eq!(moved(45, 5), "   45");
        assert_eq!(moved(0, 3), "  0");
        assert_eq!(moved(0, 1), "0");
        assert_eq!(moved(100, 2), "00");
        assert_eq!(moved(-999_999_999_999_999_999, 20), " -999999999999999999");
    }

    #[test]
    fn text_is_cut_or_filled_on_the_right_and_formatted_data_on_the_left() {
        for (text, moved, formatted) in [
            ("ab", "ab   ", "   ab"),
            ("klmno", "klmno", "klmno"),
            ("cdefghij", "cdefg", "fghij"),
        ] {
            let text = text.as_bytes();
            assert_eq!(written(5, |place| write_text(place, text)), moved);
            assert_eq!(written(5, |place| write_right(place, text)), formatted);
        }
    }

    #[test]
    fn text_moves_over_itself() {
        for (place, source, result) in [
            (1..6, 0..5, "aabcdeghij"),
            (0..5, 1..6, "bcdeffghij"),
            (0..6, 2..4, "cd    ghij"),
            (2..6, 0..10, "ababcdghij"),
            (0..10, 4..7, "efg       "),
            (3..9, 2..5, "abccde   j"),
            (2..4, 2..4, "abcdefghij"),
        ] {
            let mut data = *b"abcdefghij";
            write_within(&mut data, place.clone(), source.clone());
            assert_eq!(data, result.as_bytes(), "{place:?} from {source:?}");
        }
    }
}
