//! Edit masks: a number as the mask of a formatted move shows it (000 3.2.5, Table 3-1).

/// What a character of a mask does. It goes by the character, by where it stands, and by the money
/// signs on both sides of it.
#[derive(Clone, Copy, Debug, PartialEq, Eq)]
enum Class {
    /// A digit of the number stands here, or what suppresses a leading zero.
    Place,
    /// A comma, shown where a digit is significant before it.
    Comma,
    /// The decimal point, from which on zeros are significant.
    Point,
    /// The sign of the number.
    Sign,
    /// The character itself.
    Mark,
}

const MONEY: u8 = b'$';
const SPACE: u8 = b' ';

/// Where the first and the last money sign of a mask stand, if it has any.
#[derive(Clone, Copy)]
struct Money {
    first: Option<usize>,
    last: Option<usize>,
}

impl Money {
    fn of(mask: &[u8]) -> Money {
        let is_money = |&character: &u8| character == MONEY;
        Money {
            first: mask.iter().position(is_money),
            last: mask.iter().rposition(is_money),
        }
    }

    fn is_before(self, at: usize) -> bool {
        self.first.is_some_and(|first| first < at)
    }

    fn is_behind(self, at: usize) -> bool {
        self.last.is_some_and(|last| at < last)
    }
}

/// The class of the character at `at`. What stands left of a money sign is a mark, but for the sign
/// and for a comma between two of them.
fn class(mask: &[u8], money: Money, at: usize) -> Class {
    let is_at_an_end = at == 0 || at == mask.len() - 1;
    match mask[at] {
        b'-' if is_at_an_end => Class::Sign,
        MONEY => Class::Place,
        b',' if money.is_before(at) => Class::Comma,
        _ if money.is_behind(at) => Class::Mark,
        b'X' | b'Z' | b'*' => Class::Place,
        b',' => Class::Comma,
        b'.' => Class::Point,
        _ => Class::Mark,
    }
}

/// The digits left of a number: as many as the mask has places, each at its place and counted from
/// the right. The high digits that have no place are dropped.
struct Digits {
    /// The characters of the mask, each place with its digit as a character.
    characters: Vec<u8>,
    /// Whether there is a place.
    any: bool,
    /// Whether the digits left are all 0.
    all_zero: bool,
    /// Whether a place is an X.
    any_x: bool,
}

impl Digits {
    /// The first pass, from the right.
    fn of(mask: &[u8], money: Money, magnitude: u64) -> Digits {
        let mut digits = Digits {
            characters: mask.to_vec(),
            any: false,
            all_zero: true,
            any_x: false,
        };
        let mut rest = magnitude;
        for (at, character) in digits.characters.iter_mut().enumerate().rev() {
            if class(mask, money, at) != Class::Place {
                continue;
            }
            let digit = (rest % 10) as u8;
            rest /= 10;
            digits.any = true;
            digits.all_zero &= digit == 0;
            digits.any_x |= *character == b'X';
            *character = b'0' + digit;
        }
        digits
    }

    /// Whether the number shows blank: it has places, and every one of them suppresses a zero.
    fn is_blank(&self) -> bool {
        self.any && self.all_zero && !self.any_x
    }
}

/// What stands before significance, from the left: the zeros that are suppressed.
struct Front {
    is_blank: bool,
    is_significant: bool,
    /// The mask character of the nearest place so far, a space if there is none.
    lead: u8,
    /// The last position so far where the money sign may stand.
    spot: Option<usize>,
}

impl Front {
    fn new(is_blank: bool) -> Front {
        Front {
            is_blank,
            is_significant: false,
            lead: SPACE,
            spot: None,
        }
    }

    /// What fills the place, comma or point at `at`, whose mask character is `character`, or
    /// nothing if it is shown. `shown` is the digit of a place.
    fn fill(&mut self, at: usize, class: Class, character: u8, shown: u8) -> Option<u8> {
        if class == Class::Place {
            self.lead = character;
        }
        self.is_significant |= match class {
            Class::Place => character == b'X' || shown != b'0',
            Class::Point => !self.is_blank,
            _ => false,
        };
        if self.is_significant {
            return None;
        }
        if self.lead == MONEY && class != Class::Point {
            self.spot = Some(at);
        }
        Some(if self.lead == b'*' { b'*' } else { SPACE })
    }

    /// Where the money sign stands, if it is shown.
    fn money_sign(&self) -> Option<usize> {
        self.spot.filter(|_| !self.is_blank)
    }
}

/// The characters that a mask makes of a number, as many as the mask has.
pub fn edited(mask: &[u8], value: i64) -> Vec<u8> {
    let money = Money::of(mask);
    let digits = Digits::of(mask, money, value.unsigned_abs());
    let is_negative = value < 0 && !digits.all_zero;
    let mut front = Front::new(digits.is_blank());
    let mut shown = digits.characters;
    for (at, shown) in shown.iter_mut().enumerate() {
        match class(mask, money, at) {
            Class::Mark => {}
            Class::Sign => *shown = if is_negative { b'-' } else { SPACE },
            class => *shown = front.fill(at, class, mask[at], *shown).unwrap_or(*shown),
        }
    }
    if let Some(at) = front.money_sign() {
        shown[at] = MONEY;
    }
    shown
}

#[cfg(test)]
mod tests;
