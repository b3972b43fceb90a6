//! Whether data is valid, asked on both sides; and what these questions have reached, counted: which
//! element is the first that is not, by which of its characters, and what is refused.

use crate::cases::Case;
use crate::compare::{same, Difference};
use crate::decode::{bad_character, shares, spaces_in_front, Sound};
use crate::draft::RECORD;
use crate::library::{self, Given, Lent};
use crate::ways::Ways;
use second::Validity;

/// The ways, in words.
const WAYS: &[&str] = &[
    "refused 1",
    "refused 2",
    "refused 3",
    "refused 4",
    "refused 5",
    "6 for no bytes",
    "6 for one byte less",
    "6 for one byte more",
    "6 for a length that wraps",
    "6 for another length",
    "valid without a decimal",
    "valid",
    "valid, blank-padded",
    "valid, under a record",
    "22 by its only character",
    "22 by its first character",
    "22 by a middle character",
    "22 by its last character",
    "22 by its last of 18",
    "22 behind spaces in front",
    "22 for a space behind a digit",
    "22 for a sign letter before the end",
    "22 for the capital of a sign letter",
    "22 for a character beside those that are valid",
    "22 for a plus or a minus",
    "22 for a control character",
    "22 for a byte beyond 7E",
    "22 in the only element",
    "22 in the first of several elements",
    "22 in a middle element",
    "22 in the last of several elements",
    "22 in the first decimal field",
    "22 in a later decimal field",
    "22 in the last entry",
    "22 behind the entry of a record",
    "22 in a strict field",
    "22 in the last bytes of the data",
    "22 before another of its field",
    "22 before one of a later field",
];

/// Counts of what these questions have reached.
#[derive(Clone)]
pub struct Validities(Ways);

impl Default for Validities {
    fn default() -> Validities {
        Validities(Ways::of(WAYS))
    }
}

/// Asks on both sides whether the image, the data of the run and the others of a case are valid.
pub fn compare(case: &Case, validities: &mut Validities) -> Result<(), Difference> {
    let image = second::image(&case.unit);
    let all = [&image, &case.data].into_iter().chain(&case.others);
    for data in all {
        let answer = answer(&case.unit, data);
        let (lent, kept) = (Lent::bytes(data), Lent::bytes(data));
        let given = library::invalid(&case.unit, &lent, case.long_room);
        let expected = Given::expected(answer[0], &answer, case.long_room);
        let what = || format!("invalid, with {} bytes of data", data.len());
        same(what, (&given, &lent), (&expected, &kept))?;
        if let 0 | 22 = given.result {
            first_read(&Sound::of(&case.unit), data, answer)?;
        }
        validities.asked(&case.unit, data, answer);
    }
    Ok(())
}

/// The second interpreter's answer, in numbers.
fn answer(unit: &[u8], data: &[u8]) -> [u64; 4] {
    match second::invalid(unit, data) {
        Validity::Refused(refusal) => [refusal.stop.into(), 0, 0, 0],
        Validity::WrongSize => [6, 0, 0, 0],
        Validity::AllValid => [0; 4],
        Validity::Invalid {
            field,
            element,
            offset,
        } => [22, field as u64, element as u64, offset as u64],
    }
}

/// Holds an answer to the elements that the harness itself finds invalid.
fn first_read(unit: &Sound, data: &[u8], answer: [u64; 4]) -> Result<(), Difference> {
    let first = unit.invalid_elements(data).into_iter().next();
    let wanted = first.map_or([0; 4], |(field, element)| {
        let entry = unit.field(field);
        let offset = entry.start() + (element - 1) * entry.size();
        [22, field as u64, element as u64, offset as u64]
    });
    let what = || "the first invalid decimal, as the harness reads them".to_string();
    same(what, answer, wanted)
}

impl Validities {
    /// Adds what another thread has counted.
    pub fn add(&mut self, other: &Validities) {
        self.0.add(&other.0);
    }

    /// Each way with how often it was reached.
    pub fn reached(&self) -> impl Iterator<Item = (&str, u64)> {
        self.0.reached()
    }

    /// Counts an answer for some data.
    fn asked(&mut self, unit: &[u8], data: &[u8], answer: [u64; 4]) {
        match answer {
            [0, ..] => self.valid(&Sound::of(unit), data),
            [stop @ 1..=5, ..] => self.0.count(&format!("refused {stop}")),
            [6, ..] => self.size(Sound::of(unit).image_len(), data.len()),
            [_, field, element, _] => {
                let unit = Sound::of(unit);
                let first = (field as usize, element as usize);
                self.character(&unit, data, first);
                self.element(&unit, first);
                self.others(&unit, data, first);
            }
        }
    }

    /// Data of another length than the image.
    fn size(&mut self, image: usize, length: usize) {
        self.0.count(match length {
            0 => "6 for no bytes",
            _ if length + 1 == image => "6 for one byte less",
            _ if image + 1 == length => "6 for one byte more",
            _ if length == image + 65_536 => "6 for a length that wraps",
            _ => "6 for another length",
        });
    }

    /// Data that is valid.
    fn valid(&mut self, unit: &Sound, data: &[u8]) {
        let decimals: Vec<_> = unit.fields().filter(|field| field.is_decimal()).collect();
        if decimals.is_empty() {
            return self.0.count("valid without a decimal");
        }
        self.0.count("valid");
        let is_padded = unit.is_padded(data);
        self.0.count_if(is_padded, "valid, blank-padded");
        let mut records = unit.fields().filter(|field| field.kind == RECORD);
        let is_under = records.any(|record| {
            let own = record.start()..record.end();
            let mut decimals = decimals.iter();
            decimals.any(|field| shares(&own, &(field.start()..field.end())))
        });
        self.0.count_if(is_under, "valid, under a record");
    }

    /// The character by which an element is invalid.
    fn character(&mut self, unit: &Sound, data: &[u8], (field, element): (usize, usize)) {
        let field = unit.field(field);
        let start = field.start() + (element - 1) * field.size();
        let characters = &data[start..start + field.size()];
        let at = bad_character(characters).expect("the element is invalid");
        let last = characters.len() - 1;
        self.0.count(match at {
            _ if last == 0 => "22 by its only character",
            0 => "22 by its first character",
            _ if at == last => "22 by its last character",
            _ => "22 by a middle character",
        });
        self.0.count_if(at == 17, "22 by its last of 18");
        let is_behind = spaces_in_front(characters) > 0;
        self.0.count_if(is_behind, "22 behind spaces in front");
        let way = match characters[at] {
            b' ' => "22 for a space behind a digit",
            b'p'..=b'y' => "22 for a sign letter before the end",
            b'P'..=b'Y' => "22 for the capital of a sign letter",
            b'/' | b':' | b'o' | b'z' => "22 for a character beside those that are valid",
            b'+' | b'-' => "22 for a plus or a minus",
            0..b' ' => "22 for a control character",
            0x7F.. => "22 for a byte beyond 7E",
            _ => return,
        };
        self.0.count(way);
    }

    /// Where the first invalid element stands in its field, and that among the entries.
    fn element(&mut self, unit: &Sound, (number, element): (usize, usize)) {
        let field = unit.field(number);
        let count = usize::from(field.count);
        self.0.count(match element {
            _ if count == 1 => "22 in the only element",
            1 => "22 in the first of several elements",
            _ if element == count => "22 in the last of several elements",
            _ => "22 in a middle element",
        });
        let is_first = !unit.fields().take(number).any(|field| field.is_decimal());
        self.0.count(match is_first {
            true => "22 in the first decimal field",
            false => "22 in a later decimal field",
        });
        let is_last = number + 1 == unit.field_count();
        self.0.count_if(is_last, "22 in the last entry");
        let is_behind = unit.fields().take(number).any(|field| field.kind == RECORD);
        let way = "22 behind the entry of a record";
        self.0.count_if(is_behind, way);
        self.0.count_if(field.is_strict(), "22 in a strict field");
        let end = field.start() + element * field.size();
        let is_at_the_end = end == unit.image_len();
        let way = "22 in the last bytes of the data";
        self.0.count_if(is_at_the_end, way);
    }

    /// Other invalid elements behind the first.
    fn others(&mut self, unit: &Sound, data: &[u8], (number, _): (usize, usize)) {
        let behind = unit.invalid_elements(data).split_off(1);
        let is_here = behind.iter().any(|&(field, _)| field == number);
        self.0.count_if(is_here, "22 before another of its field");
        let is_later = behind.iter().any(|&(field, _)| field != number);
        self.0.count_if(is_later, "22 before one of a later field");
    }
}

#[cfg(test)]
mod tests {
    use super::*;
    use crate::draft::{code, Draft, Field, Statement, ALPHA, DECIMAL, STRICT};

    /// An alpha of one byte, a record over all, an array of three decimals of two digits, strict, a gap
    /// and a decimal of one digit, in nine bytes.
    fn draft() -> Draft {
        let mut draft = Draft {
            image: b"a010203.4".to_vec(),
            fields: vec![
                Field::new(ALPHA, 0, 1, 1),
                Field::new(RECORD, 0, 9, 1),
                Field::new(DECIMAL, 1, 2, 3),
                Field::new(DECIMAL, 8, 1, 1),
            ],
            expressions: Vec::new(),
            literals: Vec::new(),
            statements: vec![Statement::new(code::STOP, 0, 0, 0)],
        };
        draft.fields[2].zero = STRICT;
        draft
    }

    /// The ways that are counted of some data.
    fn counted(draft: &Draft, data: &[u8]) -> Vec<String> {
        let unit = draft.unit();
        let answer = answer(&unit, data);
        if let [0 | 22, ..] = answer {
            assert!(first_read(&Sound::of(&unit), data, answer).is_ok());
        }
        let mut validities = Validities::default();
        validities.asked(&unit, data, answer);
        validities.0.met()
    }

    #[test]
    fn valid_data_is_counted_by_what_it_has() {
        let valid = ["valid", "valid, under a record"];
        assert_eq!(counted(&draft(), b"a010203.4"), valid);
        let padded = ["valid", "valid, blank-padded", "valid, under a record"];
        assert_eq!(counted(&draft(), b"?01 2 p? "), padded);
        let mut none = draft();
        none.fields.truncate(2);
        assert_eq!(counted(&none, b"?????????"), ["valid without a decimal"]);
    }

    #[test]
    fn an_invalid_element_is_counted_by_its_character_and_its_place() {
        assert_eq!(
            counted(&draft(), b"a0102p3.P"),
            [
                "22 by its first character",
                "22 for a sign letter before the end",
                "22 in the last of several elements",
                "22 in the first decimal field",
                "22 behind the entry of a record",
                "22 in a strict field",
                "22 before one of a later field",
            ]
        );
        assert_eq!(
            counted(&draft(), b"a010203.P"),
            [
                "22 by its only character",
                "22 for the capital of a sign letter",
                "22 in the only element",
                "22 in a later decimal field",
                "22 in the last entry",
                "22 behind the entry of a record",
                "22 in the last bytes of the data",
            ]
        );
        assert_eq!(
            counted(&draft(), b"a \t0 03.4"),
            [
                "22 by its last character",
                "22 behind spaces in front",
                "22 for a control character",
                "22 in the first of several elements",
                "22 in the first decimal field",
                "22 behind the entry of a record",
                "22 in a strict field",
                "22 before another of its field",
            ]
        );
    }

    #[test]
    fn refusals_and_other_lengths_are_counted() {
        assert_eq!(counted(&draft(), b""), ["6 for no bytes"]);
        assert_eq!(counted(&draft(), b"a010203."), ["6 for one byte less"]);
        assert_eq!(counted(&draft(), b"a010203.4?"), ["6 for one byte more"]);
        let far = [b'0'; 65_545];
        assert_eq!(counted(&draft(), &far), ["6 for a length that wraps"]);
        assert_eq!(counted(&draft(), b"a0"), ["6 for another length"]);
        let mut refused = draft();
        refused.statements[0].c = 1;
        assert_eq!(counted(&refused, b"a010203.4"), ["refused 5"]);
    }
}
