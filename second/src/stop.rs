//! The stop numbers, and words for each of them.

/// The stop number of a run that reached the end.
pub const END: u8 = 0;

/// The stop number of a run whose allowance was spent before the end.
pub const ALLOWANCE_SPENT: u8 = 30;

/// The stop numbers of the errors that a handler traps.
pub const TRAPPED: [u8; 5] = [20, 21, 22, 23, 26];

/// A refusal: its stop number, 1 to 7, and the place it names.
#[derive(Clone, Copy, Debug, PartialEq, Eq)]
pub struct Refusal {
    pub stop: u8,
    pub place: usize,
}

/// A run error, with its stop number.
#[derive(Clone, Copy, Debug, PartialEq, Eq)]
pub enum Fault {
    Digits = 20,
    Subscript = 21,
    BadDigit = 22,
    ZeroDivisor = 23,
    Call = 24,
    Return = 25,
    Rounding = 26,
    ZeroStep = 27,
    Loop = 28,
    NoLoop = 29,
}

impl Fault {
    /// The stop number of the run error.
    pub fn stop(self) -> u8 {
        self as u8
    }

    /// Whether the error is one that a handler traps.
    pub fn is_trapped(self) -> bool {
        TRAPPED.contains(&self.stop())
    }
}

/// What stop number `stop` means, or nothing if there is no such stop.
pub fn words(stop: u8) -> Option<&'static str> {
    Some(match stop {
        0 => "the end is reached",
        1 => "the length, the mark or the parts do not fit",
        2 => "a part is outside its range",
        3 => "a field entry breaks its rule",
        4 => "an expression is badly formed or of the wrong sort",
        5 => "a statement's code, zero part, count or target is wrong",
        6 => "the data buffer is not as long as the image",
        7 => "the resume state is unsound",
        20 => "more than 18 digits",
        21 => "a subscript or substring does not fit",
        22 => "a bad digit",
        23 => "a zero divisor",
        24 => "a CALL with 50 calls open",
        25 => "a RETURN with no call open",
        26 => "a rounding count outside 0 to 18",
        27 => "a FOR with a step of 0",
        28 => "a FOR with 16 loops open",
        29 => "a loop end, EXITLOOP or NEXTLOOP with no loop open",
        30 => "the allowance is spent before the end",
        _ => return None,
    })
}

#[cfg(test)]
mod tests {
    use super::words;

    #[test]
    fn the_stops_of_the_table_have_words() {
        let stops: Vec<u8> = (0..=255).filter(|&stop| words(stop).is_some()).collect();
        assert_eq!(
            stops,
            [0, 1, 2, 3, 4, 5, 6, 7, 20, 21, 22, 23, 24, 25, 26, 27, 28, 29, 30]
        );
        assert!(stops.iter().all(|&stop| words(stop).unwrap().len() <= 63));
    }
}
