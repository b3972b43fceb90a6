//! The references that break a fence rule, asked on both sides; and what they have reached, counted: by
//! which rule, form and kind, in which part of a statement, beside which others, and how many of them
//! are asked for.

use crate::cases::Case;
use crate::compare::{same, Difference};
use crate::decode::{Reference, Sound};
use crate::library::{self, Lent};
use crate::strict::{is_written, own_parts, KINDS};
use crate::ways::Ways;

/// What is told of a reference: statement, rule, whether it is written, field, form, start and length of
/// its span, and where its item stands.
pub type Row = [u64; 8];

/// The forms, in words, from 02 on, with the rules that a reference of each may break.
const FORMS: [(&str, &[u64]); 4] = [
    ("no bounds", &[6]),
    ("(s)", &[1, 2, 3, 6]),
    ("(start,end)", &[1, 2, 3, 4, 5, 6]),
    ("(pos:length)", &[1, 2, 3, 4, 5, 6]),
];

/// The rules that references to each kind of field may break. An alpha field has no byte of a decimal.
const RULES_OF_KINDS: [&[u64]; 3] = [&[1, 2, 3], &[1, 2, 3, 4, 5], &[1, 2, 3, 6]];

/// Where a reference may stand, in words, with the rules that one may break there.
const ROLES: [(&str, &[u64]); 19] = [
    ("destination of SET", &[1, 2, 3, 4, 5, 6]),
    ("destination of CLEAR", &[1, 2, 3, 4, 5, 6]),
    ("destination of INCR", &[1, 2, 3, 4, 5]),
    ("destination of DECR", &[1, 2, 3, 4, 5]),
    ("destination of UPCASE", &[1, 2, 3, 6]),
    ("destination of LOCASE", &[1, 2, 3, 6]),
    ("destination of a formatted move", &[1, 2, 3, 6]),
    ("control of a FOR", &[1, 2, 3, 4, 5]),
    ("source", &[1, 2, 3, 4]),
    ("mask", &[1, 2, 3]),
    ("number of a formatted move", &[1, 2, 3, 4]),
    ("number of a branch on zero", &[1, 2, 3, 4]),
    ("number of a computed GOTO", &[1, 2, 3, 4]),
    ("start", &[1, 2, 3, 4]),
    ("limit", &[1, 2, 3, 4]),
    ("step", &[1, 2, 3, 4]),
    ("bound of a destination", &[1, 2, 3, 4]),
    ("bound", &[1, 2, 3, 4]),
    ("operand", &[1, 2, 3, 4]),
];

/// The room that is lent for rows and counted: around one row and around two.
const ROOMS: [usize; 8] = [0, 1, 7, 8, 9, 15, 16, 17];

/// The other ways, in words.
const WAYS: [&str; 23] = [
    "none",
    "one alone",
    "over 16",
    "in several statements",
    "none, of a refused unit",
    "of a strict field",
    "one item in several statements",
    "one item both read and written",
    "rule 2 for the bounds themselves",
    "rule 2 before the data",
    "rule 2 behind the data",
    "rule 3 before the field",
    "rule 3 behind the field",
    "rule 3 on both sides of the field",
    "from the first on",
    "some passed over",
    "all but one passed over",
    "all passed over",
    "more than all passed over",
    "so many passed over that bits of the number are lost",
    "some left out for want of room",
    "room for all",
    "room left over",
];

/// All ways, in words.
fn ways() -> Vec<String> {
    let mut ways = WAYS.map(str::to_string).to_vec();
    for rule in 1..=6 {
        ways.push(format!("rule {rule} written"));
        ways.push(format!("rule {rule} before one that keeps the rules"));
        for next in (1..=4).filter(|&next| next != rule) {
            ways.push(format!("rule {rule}, then rule {next}"));
        }
    }
    for rule in 1..=4 {
        ways.push(format!("rule {rule} read"));
        ways.push(format!("rule {rule} behind one that keeps the rules"));
    }
    let kinds = KINDS.into_iter().zip(RULES_OF_KINDS);
    for (what, rules) in kinds.chain(FORMS).chain(ROLES) {
        ways.extend(rules.iter().map(|rule| way_of(what, *rule)));
    }
    ways.extend(ROOMS.map(room_way));
    ways
}

fn way_of(what: &str, rule: u64) -> String {
    format!("{what}, rule {rule}")
}

fn room_way(room: usize) -> String {
    format!("room for {room} numbers")
}

/// Counts of what references that break a rule have reached.
#[derive(Clone)]
pub struct Breakings(Ways);

impl Default for Breakings {
    fn default() -> Breakings {
        Breakings(Ways::of(&ways()))
    }
}

/// Asks for these references on both sides: for all, for some as the case says, and around the last. The
/// answer are the rows of all.
pub fn compare(
    case: &Case,
    has_passed: bool,
    breakings: &mut Breakings,
) -> Result<Vec<Row>, Difference> {
    let rows: Vec<Row> = second::breaches(&case.unit)
        .map(|breaking| breaking.numbers())
        .collect();
    let last = (rows.len() + case.rows.near).saturating_sub(1);
    for (skip, room) in [
        (0, 8 * rows.len() + case.rows.near),
        (case.rows.skip, case.rows.room),
        (last, 16),
    ] {
        ask(&case.unit, &rows, skip, room)?;
        breakings.asked(rows.len(), skip, room);
    }
    if !has_passed {
        breakings.0.count("none, of a refused unit");
        return Ok(rows);
    }
    let what = || "rows of the references of their statements, in their order".to_string();
    let are_found = breakings.unit(&Sound::of(&case.unit), &rows);
    same(what, are_found, true)?;
    Ok(rows)
}

/// Asks the library for the rows from number `skip` on, with room for so many numbers: it gives how many
/// there are, and puts whole rows there and nothing else.
fn ask(unit: &[u8], rows: &[Row], skip: usize, room: usize) -> Result<(), Difference> {
    let mut wanted = Lent::room(room);
    let places = wanted.part_mut().chunks_exact_mut(8);
    for (place, row) in places.zip(rows.iter().skip(skip)) {
        place.copy_from_slice(row);
    }
    let mut lent = Lent::room(room);
    let count = library::breaches(unit, skip, &mut lent);
    let what = || format!("breaches from {skip} on, with room for {room} numbers");
    same(what, (count, lent), (rows.len() as u64, wanted))
}

impl Breakings {
    /// Adds what another thread has counted.
    pub fn add(&mut self, other: &Breakings) {
        self.0.add(&other.0);
    }

    /// Each way with how often it was reached.
    pub fn reached(&self) -> impl Iterator<Item = (&str, u64)> {
        self.0.reached()
    }

    /// Counts a question for some of so many rows.
    fn asked(&mut self, count: usize, skip: usize, room: usize) {
        if count == 0 {
            return;
        }
        self.0.count(match skip {
            0 => "from the first on",
            65_536.. => "so many passed over that bits of the number are lost",
            _ if skip + 1 < count => "some passed over",
            _ if skip + 1 == count => "all but one passed over",
            _ if skip == count => "all passed over",
            _ => "more than all passed over",
        });
        let left = count.saturating_sub(skip);
        if left == 0 {
            return;
        }
        if ROOMS.contains(&room) {
            self.0.count(&room_way(room));
        }
        self.0.count(match room / 8 {
            whole if whole < left => "some left out for want of room",
            _ if room == 8 * left => "room for all",
            _ => "room left over",
        });
    }

    /// Counts the rows of a unit that passes. The answer is whether they are of the references of their
    /// statements, in their order.
    fn unit(&mut self, unit: &Sound, rows: &[Row]) -> bool {
        match rows.len() {
            0 => self.0.count("none"),
            1 => self.0.count("one alone"),
            count => self.0.count_if(count > 16, "over 16"),
        }
        self.shared(rows);
        let mut statements: Vec<&[Row]> = rows.chunk_by(|one, next| one[0] == next[0]).collect();
        let is_several = statements.len() > 1;
        self.0.count_if(is_several, "in several statements");
        statements.retain(|rows| !self.statement(unit, rows));
        statements.is_empty()
    }

    /// Counts items that are told of several times.
    fn shared(&mut self, rows: &[Row]) {
        let mut is_again = |differs_in: usize, way| {
            let is_so = |pair: &[Row]| {
                pair[0][7] == pair[1][7] && pair[0][differs_in] != pair[1][differs_in]
            };
            self.0.count_if(rows.windows(2).any(is_so), way);
        };
        is_again(0, "one item in several statements");
        is_again(2, "one item both read and written");
    }

    /// Counts the rows of a statement, which has some. The answer is whether each is of one of its
    /// references, and in their order.
    fn statement(&mut self, unit: &Sound, rows: &[Row]) -> bool {
        let mut left = rows;
        // The rule that the reference before breaks, 0 for none, if there is one before.
        let mut before = None;
        for (role, offset) in own_parts(unit, rows[0][0] as usize) {
            for reference in unit.references(offset) {
                let is_written = u64::from(is_written(role) && reference.is_last);
                let own = [is_written, reference.code.into(), reference.at as u64];
                let row = left.first().filter(|row| [row[2], row[4], row[7]] == own);
                if let Some(row) = row {
                    left = &left[1..];
                    self.reference(unit, role, &reference, row);
                }
                let rule = row.map_or(0, |row| row[1]);
                self.neighbours(before, rule);
                before = Some(rule);
            }
        }
        left.is_empty()
    }

    /// Counts two references that stand one behind the other, by the rules that they break.
    fn neighbours(&mut self, before: Option<u64>, rule: u64) {
        let way = match (before, rule) {
            (None, _) | (Some(0), 0) => return,
            (Some(0), rule) => format!("rule {rule} behind one that keeps the rules"),
            (Some(before), 0) => format!("rule {before} before one that keeps the rules"),
            (Some(before), rule) if before == rule => return,
            (Some(before), rule) => format!("rule {before}, then rule {rule}"),
        };
        self.0.count(&way);
    }

    /// Counts a reference that breaks a rule, in a part of a statement.
    fn reference(&mut self, unit: &Sound, role: &str, reference: &Reference, row: &Row) {
        let (field, rule) = (&reference.field, row[1]);
        let use_of = ["read", "written"][row[2] as usize];
        self.0.count(&format!("rule {rule} {use_of}"));
        let form = FORMS[usize::from(reference.code) - 2].0;
        self.0.count(&way_of(form, rule));
        self.0.count(&way_of(KINDS[usize::from(field.kind)], rule));
        let role = match (reference.is_last, reference.is_bound) {
            (true, _) => role,
            (_, true) if is_written(role) => "bound of a destination",
            (_, true) => "bound",
            _ => "operand",
        };
        self.0.count(&way_of(role, rule));
        self.0.count_if(field.is_strict(), "of a strict field");
        match rule {
            2 => self.outside_data(unit, reference),
            3 => self.outside_field(reference),
            _ => {}
        }
    }

    /// Why 21 is given for a reference.
    fn outside_data(&mut self, unit: &Sound, reference: &Reference) {
        let end = unit.image_len() as i64;
        self.0.count(match &reference.stretch {
            None => "rule 2 for the bounds themselves",
            Some(stretch) if end < stretch.end => "rule 2 behind the data",
            Some(_) => "rule 2 before the data",
        });
    }

    /// Where a span leaves its field.
    fn outside_field(&mut self, reference: &Reference) {
        let Reference { field, stretch, .. } = reference;
        let Some(stretch) = stretch else { return };
        let is_before = stretch.start < field.start() as i64;
        let is_behind = (field.end() as i64) < stretch.end;
        self.0.count(match (is_before, is_behind) {
            (true, true) => "rule 3 on both sides of the field",
            (true, false) => "rule 3 before the field",
            _ => "rule 3 behind the field",
        });
    }
}

#[cfg(test)]
mod tests {
    use super::*;
    use crate::draft::{code, Draft, Field, Statement, ALPHA, DECIMAL, RECORD, STRICT};

    /// Statements over A of two bytes, D of two digits, two of them, strict, and R over all, in six
    /// bytes. At 0 of the expressions stands R, at 4 A(3), at 12 D(D(3)), at 23 D(2,3) + D - D(0) and
    /// at 47 A(9).
    fn draft(statements: &[(u8, u16, u16)]) -> Draft {
        let mut draft = Draft {
            image: b"ab0102".to_vec(),
            fields: vec![
                Field::new(ALPHA, 0, 2, 1),
                Field::new(DECIMAL, 2, 2, 2),
                Field::new(RECORD, 0, 6, 1),
            ],
            expressions: [
                &b"\x02\0\x02\0"[..],
                b"\x01\0\x03\x01\x03\0\0\0",
                b"\x01\0\x03\x01\x03\0\x01\x03\0\x01\0",
                b"\x01\0\x02\x01\x01\0\x03\x01\x04\0\x01",
                b"\x02\0\x01\x10",
                b"\x01\0\0\x01\x03\0\x01\x11\0",
                b"\x01\0\x04\x01\x03\0\0\0",
            ]
            .concat(),
            literals: b"01239".to_vec(),
            statements: statements
                .iter()
                .map(|&(code, a, b)| Statement::new(code, a, b, 0))
                .collect(),
        };
        draft.fields[1].zero = STRICT;
        draft
    }

    /// The ways that are counted of a unit, and whether all its rows are found.
    fn counted(statements: &[(u8, u16, u16)]) -> Vec<String> {
        let unit = draft(statements).unit();
        let rows: Vec<Row> = second::breaches(&unit).map(|one| one.numbers()).collect();
        let mut breakings = Breakings::default();
        assert!(breakings.unit(&Sound::of(&unit), &rows));
        breakings.0.met()
    }

    /// Some ways, in the order in which all are listed.
    fn sorted(words: &[&str]) -> Vec<String> {
        let all = ways();
        let mut words: Vec<String> = words.iter().map(|way| way.to_string()).collect();
        words.sort_by_key(|way| all.iter().position(|known| known == way));
        words
    }

    #[test]
    fn a_reference_is_counted_by_rule_form_kind_and_part() {
        let wanted = [
            "one alone",
            "rule 6 written",
            "no bounds, rule 6",
            "record, rule 6",
            "destination of UPCASE, rule 6",
        ];
        assert_eq!(counted(&[(code::UPCASE, 0, 0)]), sorted(&wanted));
        assert_eq!(counted(&[(code::STOP, 0, 0)]), ["none"]);
        let wanted = [
            "one alone",
            "rule 2 written",
            "rule 2 behind the data",
            "(s), rule 2",
            "alpha, rule 2",
            "destination of CLEAR, rule 2",
        ];
        assert_eq!(counted(&[(code::CLEAR, 47, 0)]), sorted(&wanted));
    }

    #[test]
    fn neighbours_and_bounds_are_told_apart() {
        let wanted = [
            "of a strict field",
            "rule 2 behind the data",
            "rule 2 read",
            "rule 1 written",
            "rule 2, then rule 1",
            "(s), rule 2",
            "(s), rule 1",
            "decimal, rule 2",
            "decimal, rule 1",
            "bound of a destination, rule 2",
            "destination of INCR, rule 1",
        ];
        assert_eq!(counted(&[(code::INCR, 12, 0)]), sorted(&wanted));
        let wanted = [
            "of a strict field",
            "rule 3 before the field",
            "rule 4 read",
            "rule 3 read",
            "rule 4 before one that keeps the rules",
            "rule 3 behind one that keeps the rules",
            "(start,end), rule 4",
            "(s), rule 3",
            "decimal, rule 4",
            "decimal, rule 3",
            "operand, rule 4",
            "operand, rule 3",
        ];
        assert_eq!(counted(&[(code::GOTO_IF_ZERO, 0, 23)]), sorted(&wanted));
    }

    #[test]
    fn an_item_of_several_statements_is_counted() {
        let twice = counted(&[(code::CLEAR, 4, 0), (code::SET, 4, 4)]);
        for way in [
            "in several statements",
            "one item in several statements",
            "one item both read and written",
            "source, rule 3",
        ] {
            assert!(twice.contains(&way.to_string()), "{way}");
        }
    }

    #[test]
    fn rows_of_other_references_are_not_found() {
        let unit = draft(&[(code::SET, 0, 4)]).unit();
        let rows: Vec<Row> = second::breaches(&unit).map(|one| one.numbers()).collect();
        let are_found = |rows: &[Row]| Breakings::default().unit(&Sound::of(&unit), rows);
        assert!(are_found(&rows) && rows.len() == 2);
        assert!(!are_found(&[rows[1], rows[0]]));
        assert!(!are_found(&[rows[0], rows[0]]));
        let mut other = rows.clone();
        other[1][7] += 1;
        assert!(!are_found(&other));
    }

    #[test]
    fn questions_are_counted_by_skip_and_room() {
        let asked = |count, skip, room| {
            let mut breakings = Breakings::default();
            breakings.asked(count, skip, room);
            breakings.0.met()
        };
        let all = ["from the first on", "room for all"];
        assert_eq!(asked(5, 0, 40), all);
        let cut = [
            "all but one passed over",
            "some left out for want of room",
            "room for 7 numbers",
        ];
        assert_eq!(asked(5, 4, 7), cut);
        assert_eq!(asked(5, 5, 8), ["all passed over"]);
        assert_eq!(asked(5, 6, 8), ["more than all passed over"]);
        assert_eq!(asked(0, 0, 8), [""; 0]);
        let over = ["some passed over", "room left over"];
        assert_eq!(asked(5, 2, 80), over);
    }
}
