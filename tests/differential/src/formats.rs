//! What formatted moves have reached, counted: how place, mask and number lie, what the mask shows,
//! which part gives an error before which other, and how a unit with one is refused or fenced.

use crate::decode::{shares, Formatted, Sound};
use crate::draft::{code, Statement};
use crate::probes::{fault, passes, probed};
use crate::ways::{ways_of, Ways};
use std::cmp::Ordering;
use std::ops::Range;

/// The ways of the whole move, in words.
const WAYS: [&str; 40] = [
    "mask a literal",
    "mask a field",
    "mask over its destination",
    "number over its destination",
    "cut",
    "filled",
    "neither",
    "X",
    "Z",
    "*",
    "$",
    "comma",
    "comma between money signs",
    "point",
    "sign",
    "minus as a mark",
    "mark before a money sign",
    "mark over 7F",
    "other mark",
    "no place",
    "18 places",
    "19 places or more",
    "1,000 places or more",
    "zero",
    "negative",
    "high digits lost",
    "all digits lost with a minus",
    "digit shown",
    "space for a zero",
    "asterisk for a zero",
    "money sign shown",
    "comma shown",
    "comma suppressed",
    "point shown",
    "point suppressed",
    "minus shown",
    "no minus shown",
    "5 for the zero byte",
    "5 in a table",
    "inside the fence",
];

/// The parts, in the order in which they are worked out.
const PARTS: [&str; 3] = ["a", "b", "c"];

/// The fence rules that a formatted move may break: it has no decimal destination.
const BREACHES: [u64; 5] = [1, 2, 3, 4, 6];

/// All ways, in words: those of the whole move, of each part and of the fence.
fn ways() -> Vec<String> {
    let mut ways = WAYS.map(str::to_string).to_vec();
    ways.extend(ways_of(&PARTS));
    ways.extend(BREACHES.map(|rule| format!("rule {rule} broken")));
    ways
}

/// Counts of what formatted moves have reached.
#[derive(Clone)]
pub struct Formats(Ways);

impl Default for Formats {
    fn default() -> Formats {
        Formats(Ways::of(&ways()))
    }
}

impl Formats {
    fn count(&mut self, way: &str) {
        self.0.count(way);
    }

    fn count_if(&mut self, is_so: bool, way: &str) {
        self.0.count_if(is_so, way);
    }

    /// Adds what another thread has counted.
    pub fn add(&mut self, other: &Formats) {
        self.0.add(&other.0);
    }

    /// Each way with how often it was reached.
    pub fn reached(&self) -> impl Iterator<Item = (&str, u64)> {
        self.0.reached()
    }

    /// Counts the rule of the fence that statement `i` breaks, 0 for none, if it is a formatted move.
    pub fn breach(&mut self, unit: &Sound, i: usize, rule: u64) {
        let is_there = i < unit.statement_count();
        if rule > 0 && is_there && unit.statement(i).code == code::FORMAT {
            self.count(&format!("rule {rule} broken"));
        }
    }

    /// Counts statement `i` if it is a formatted move, which was completed: the data before it and
    /// after it. Where its bounds are no literals, what it named is not looked for.
    pub fn completed(&mut self, unit: &Sound, i: usize, before: &[u8], after: &[u8]) {
        if unit.statement(i).code != code::FORMAT {
            return;
        }
        if let Some(formatted) = unit.formatted(i, before) {
            self.spans(&formatted);
            self.classes(&formatted.mask);
            self.digits(&formatted);
            let destination = &after[formatted.destination.clone()];
            self.shown(&formatted.mask, destination);
        }
    }

    /// How place, mask and number lie.
    fn spans(&mut self, formatted: &Formatted) {
        let place = &formatted.destination;
        let is_over = |span: &Range<usize>| shares(span, place);
        let (mask, number) = (&formatted.mask_span, &formatted.number_span);
        self.count(match mask {
            Some(_) => "mask a field",
            None => "mask a literal",
        });
        self.count_if(
            mask.as_ref().is_some_and(is_over),
            "mask over its destination",
        );
        self.count_if(
            number.as_ref().is_some_and(is_over),
            "number over its destination",
        );
        self.count(match formatted.mask.len().cmp(&place.len()) {
            Ordering::Greater => "cut",
            Ordering::Less => "filled",
            Ordering::Equal => "neither",
        });
    }

    /// The classes of the mask's characters, and how many places there are.
    fn classes(&mut self, mask: &[u8]) {
        let classes = classes(mask);
        for class in &classes {
            self.count(class);
        }
        match places(&classes) {
            0 => self.count("no place"),
            18 => self.count("18 places"),
            19..1_000 => self.count("19 places or more"),
            1_000.. => self.count("1,000 places or more"),
            _ => {}
        }
    }

    /// What of the number the places hold.
    fn digits(&mut self, formatted: &Formatted) {
        let Some(number) = formatted.number else {
            return;
        };
        let magnitude = number.unsigned_abs();
        let places = places(&classes(&formatted.mask)).min(18) as u32;
        let left = magnitude % 10_u64.pow(places);
        self.count_if(number == 0, "zero");
        self.count_if(number < 0, "negative");
        self.count_if(left < magnitude, "high digits lost");
        self.count_if(number < 0 && left == 0, "all digits lost with a minus");
    }

    /// What stands in the destination for each class, where it holds all of the mask.
    fn shown(&mut self, mask: &[u8], destination: &[u8]) {
        let Some(start) = destination.len().checked_sub(mask.len()) else {
            return;
        };
        for (class, shown) in classes(mask).into_iter().zip(&destination[start..]) {
            let way = match (class, shown) {
                ("comma" | "comma between money signs", b',') => "comma shown",
                ("point", b'.') => "point shown",
                ("sign", b'-') => "minus shown",
                ("sign", _) => "no minus shown",
                ("X" | "Z" | "*" | "$", b'0'..=b'9') => "digit shown",
                ("X" | "Z" | "*" | "$" | "comma" | "comma between money signs", b'$') => {
                    "money sign shown"
                }
                ("comma" | "comma between money signs", _) => "comma suppressed",
                ("point", _) => "point suppressed",
                ("Z" | "$", b' ') => "space for a zero",
                ("*", b'*') => "asterisk for a zero",
                _ => continue,
            };
            self.count(way);
        }
    }

    /// Counts statement `i` if it is a formatted move, which has ended in a run error: the part that
    /// gives it, and the parts behind that would give another.
    pub fn failed(&mut self, unit: &[u8], i: usize, data: &[u8]) {
        let sound = Sound::of(unit);
        let Statement { code, a, b, c, .. } = sound.statement(i);
        if code != code::FORMAT {
            return;
        }
        let is_literal = sound.items(b)[0].code == 0x06;
        let probe = |statement| fault(&probed(unit, &sound, i, statement), i, data);
        let faults = [
            probe(Statement::new(code::CLEAR, a, 0, 0)),
            probe(Statement::new(code::CLEAR, b, 0, 0)).filter(|_| !is_literal),
            probe(Statement::new(code::GOTO_IF_ZERO, 0, c, 0)),
        ];
        self.0.count_faults(&PARTS, &faults);
    }

    /// Counts a refusal by 4 or 5 of a formatted move, or of a table that has one.
    pub fn refused(&mut self, unit: &[u8], stop: u8, place: usize) {
        let sound = Sound::of(unit);
        let statement = sound.statement(place);
        match (stop, statement.code) {
            (5, code::COMPUTED_GOTO) => {
                let has_one = sound.table(place).contains(&code::FORMAT);
                self.count_if(has_one, "5 in a table");
            }
            (5, code::FORMAT) => self.count("5 for the zero byte"),
            (4, code::FORMAT) => self.wrong_parts(unit, &sound, place),
            _ => {}
        }
    }

    /// Which parts of a formatted move that is refused by 4 lie outside the expressions, and which
    /// are well-formed and of another sort.
    fn wrong_parts(&mut self, unit: &[u8], sound: &Sound, i: usize) {
        let Statement { a, b, c, .. } = sound.statement(i);
        let serves = |statement| passes(&probed(unit, sound, i, statement), i);
        let is_number = |part| serves(Statement::new(code::GOTO_IF_ZERO, 0, part, 0));
        let is_alpha = |part| serves(Statement::new(code::UPCASE, part, 0, 0));
        let is_other = [is_number(a), is_number(b), is_alpha(c)];
        for ((name, part), is_other) in PARTS.into_iter().zip([a, b, c]).zip(is_other) {
            let is_outside = usize::from(part) >= sound.expressions_len();
            self.count_if(is_outside, &format!("4 for {name} outside"));
            self.count_if(is_other, &format!("4 for {name} of another sort"));
        }
    }

    /// Counts a unit that the fence says yes to, if it has a formatted move.
    pub fn fenced(&mut self, unit: &Sound) {
        let mut statements = (0..unit.statement_count()).map(|i| unit.statement(i));
        let has_one = statements.any(|statement| statement.code == code::FORMAT);
        self.count_if(has_one, "inside the fence");
    }
}

/// The classes of a mask's characters, each by the name of its way.
fn classes(mask: &[u8]) -> Vec<&'static str> {
    let first = mask.iter().position(|&character| character == b'$');
    let last = mask.iter().rposition(|&character| character == b'$');
    let class = |i: usize| {
        let is_behind = first.is_some_and(|first| first < i);
        let is_before = last.is_some_and(|last| i < last);
        match mask[i] {
            b'-' if i == 0 || i == mask.len() - 1 => "sign",
            b'-' => "minus as a mark",
            b'$' => "$",
            b',' if is_behind && is_before => "comma between money signs",
            b'X' | b'Z' | b'*' | b'.' | b',' if is_before => "mark before a money sign",
            b'X' => "X",
            b'Z' => "Z",
            b'*' => "*",
            b',' => "comma",
            b'.' => "point",
            0x80.. => "mark over 7F",
            _ => "other mark",
        }
    };
    (0..mask.len()).map(class).collect()
}

fn places(classes: &[&str]) -> usize {
    let is_place = |class: &&&str| ["X", "Z", "*", "$"].contains(class);
    classes.iter().filter(is_place).count()
}

#[cfg(test)]
mod tests {
    use super::*;
    use crate::draft::Draft;

    /// The ways that were counted.
    fn counted(count: impl FnOnce(&mut Formats)) -> Vec<String> {
        let mut formats = Formats::default();
        count(&mut formats);
        formats.0.met()
    }

    #[test]
    fn a_completed_move_is_counted_by_what_it_shows() {
        let draft = Draft::formatted_move(0, 0, 4);
        let unit = draft.unit();
        let sound = Sound::of(&unit);
        let ways = counted(|formats| formats.completed(&sound, 0, &draft.image, b"2.2.02r"));
        let wanted = [
            "mask a field",
            "mask over its destination",
            "neither",
            "X",
            "Z",
            "point",
            "negative",
            "digit shown",
            "point shown",
        ];
        assert_eq!(ways, wanted);
    }

    #[test]
    fn an_error_is_that_of_its_part() {
        let failed = |a, b, c| {
            let draft = Draft::formatted_move(a, b, c);
            counted(|formats| formats.failed(&draft.unit(), 0, &draft.image))
        };
        assert_eq!(failed(8, 0, 4), ["a gives 21"]);
        assert_eq!(failed(0, 8, 16), ["b gives 21", "b before another of c"]);
        assert_eq!(failed(8, 8, 16), ["a gives 21", "a before another of c"]);
        assert_eq!(failed(0, 0, 16), ["c gives 23"]);
    }

    #[test]
    fn a_refusal_is_that_of_its_part() {
        let refused = |draft: Draft, stop| {
            let unit = draft.unit();
            let refusal = second::check(&unit).unwrap_err();
            assert_eq!((refusal.stop, refusal.place), (stop, 0));
            counted(|formats| formats.refused(&unit, stop, 0))
        };
        for (a, b, c, way) in [
            (44, 0, 4, "4 for a outside"),
            (4, 0, 4, "4 for a of another sort"),
            (0, 4, 4, "4 for b of another sort"),
            (0, 0, 0, "4 for c of another sort"),
            (0, 0, 99, "4 for c outside"),
        ] {
            assert_eq!(refused(Draft::formatted_move(a, b, c), 4), [way]);
        }
        let mut damaged = Draft::formatted_move(0, 0, 4);
        damaged.statements[0].zero = 1;
        assert_eq!(refused(damaged, 5), ["5 for the zero byte"]);
        let mut table = Draft::formatted_move(0, 0, 4);
        let head = Statement::new(code::COMPUTED_GOTO, 1, 4, 0);
        table.statements.insert(0, head);
        assert_eq!(refused(table, 5), ["5 in a table"]);
    }
}
