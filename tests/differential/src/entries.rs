//! The parts and the field entries of a unit, asked on both sides; and what these questions have reached,
//! counted.

use crate::cases::Case;
use crate::compare::{asked, same, Difference};
use crate::library::{self, Given};
use crate::strict::KINDS;
use crate::ways::Ways;
use second::Field;

/// The most digits of a decimal, which is told with the parts.
const DIGITS_MOST: u64 = 18;

/// The ways besides those of kinds and rooms, in words.
const WAYS: [&str; 6] = [
    "parts",
    "parts of a refused unit",
    "a field of a refused unit",
    "one past the last field",
    "far past the last field",
    "field 511",
];

/// All ways, in words.
fn ways() -> Vec<String> {
    let mut ways = WAYS.map(str::to_string).to_vec();
    for kind in KINDS {
        ways.extend(["loose", "strict"].map(|choice| format!("{kind}, {choice}")));
    }
    ways.extend((0..library::ROOM_MOST).map(|room| format!("room for {room} numbers")));
    ways
}

/// Counts of what these questions have reached.
#[derive(Clone)]
pub struct Entries(Ways);

impl Default for Entries {
    fn default() -> Entries {
        Entries(Ways::of(&ways()))
    }
}

/// Asks on both sides for the parts of a unit, and for all its fields or some of many with the last, and
/// for one that is not there.
pub fn compare(case: &Case, entries: &mut Entries) -> Result<(), Difference> {
    let room = case.long_room;
    entries.0.count(&format!("room for {room} numbers"));
    let found = second::check(&case.unit);
    let (stop, numbers) = match &found {
        Ok(parts) => {
            let [image, fields] = [parts.image.len(), parts.field_count()];
            let [expressions, literals] = [parts.expressions.len(), parts.literals.len()];
            let lengths = [
                image,
                fields,
                expressions,
                literals,
                parts.statement_count(),
            ];
            let [d, f, e, p, n] = lengths.map(|length| length as u64);
            (0, [d, f, e, p, n, DIGITS_MOST])
        }
        Err(refusal) => (refusal.stop.into(), [0; 6]),
    };
    let expected = Given::expected(stop, &numbers, room);
    same(
        || "parts".to_string(),
        library::parts(&case.unit, room),
        expected,
    )?;
    let count = found.map_or(1, |parts| parts.field_count());
    entries.parts(stop);
    for i in asked(case, count).chain([count.saturating_sub(1)]) {
        let entry = found.ok().and_then(|parts| parts.field(i));
        let given = library::field(&case.unit, i, room);
        let what = || format!("field {i}");
        same(what, given, answer(entry, room))?;
        entries.field(stop, i, count, entry);
    }
    Ok(())
}

/// What should be given for an entry, or where there is none.
fn answer(entry: Option<Field>, room: usize) -> Given {
    let Some(field) = entry else {
        return Given::expected(0, &[0; 5], room);
    };
    let strict = usize::from(field.is_strict());
    let numbers = [
        field.kind.into(),
        field.offset,
        field.size,
        field.count,
        strict,
    ];
    Given::expected(1, &numbers.map(|number| number as u64), room)
}

impl Entries {
    /// Adds what another thread has counted.
    pub fn add(&mut self, other: &Entries) {
        self.0.add(&other.0);
    }

    /// Each way with how often it was reached.
    pub fn reached(&self) -> impl Iterator<Item = (&str, u64)> {
        self.0.reached()
    }

    /// Counts the parts of a unit with this refusal, 0 for none.
    fn parts(&mut self, stop: u64) {
        self.0.count(match stop {
            0 => "parts",
            _ => "parts of a refused unit",
        });
    }

    /// Counts entry `i` of a unit that has so many, with this refusal, 0 for none.
    fn field(&mut self, stop: u64, i: usize, count: usize, entry: Option<Field>) {
        let Some(field) = entry else {
            return self.0.count(match i {
                _ if stop != 0 => "a field of a refused unit",
                _ if i == count => "one past the last field",
                _ => "far past the last field",
            });
        };
        let choice = ["loose", "strict"][usize::from(field.is_strict())];
        let kind = KINDS[usize::from(field.kind)];
        self.0.count(&format!("{kind}, {choice}"));
        self.0.count_if(i == 511, "field 511");
    }
}

#[cfg(test)]
mod tests {
    use super::*;

    #[test]
    fn entries_are_counted_by_kind_and_place() {
        let field = Field {
            kind: 1,
            choice: 0x80,
            offset: 3,
            size: 2,
            count: 4,
        };
        assert_eq!(
            answer(Some(field), 5),
            Given::expected(1, &[1, 3, 2, 4, 1], 5)
        );
        assert_eq!(answer(None, 7), Given::expected(0, &[0; 5], 7));
        let mut entries = Entries::default();
        entries.field(0, 511, 512, Some(field));
        entries.field(0, 512, 512, None);
        entries.field(5, 0, 1, None);
        let met = [
            "a field of a refused unit",
            "one past the last field",
            "field 511",
            "decimal, strict",
        ];
        assert_eq!(entries.0.met(), met);
    }
}
