//! What references to strict fields have reached, counted: by which form, to which kind of field and in
//! which part of a statement they are found, leave their field or leave the data, and how entries with
//! another byte are refused.

use crate::decode::{bad_character, open_loops, shares, Met, Sound, LOOPS_MOST};
use crate::draft::{code, Field, Statement, STRICT};
use crate::ways::Ways;
use std::ops::Range;

/// The kinds of fields, in words, by their codes.
pub const KINDS: [&str; 3] = ["alpha", "decimal", "record"];

/// The forms with bounds, in words, from 03 on.
const FORMS: [&str; 3] = ["(s)", "(start,end)", "(pos:length)"];

/// Where a reference lies.
#[derive(Clone, Copy, Debug, PartialEq, Eq)]
enum Lies {
    Inside,
    BeforeField,
    BehindField,
    AroundField,
    BeforeData,
    BehindData,
}

impl Lies {
    /// Where a stretch lies, over data of `length` bytes.
    fn of(stretch: &Range<i64>, field: &Field, length: usize) -> Lies {
        let is_before = stretch.start < field.start() as i64;
        let is_behind = (field.end() as i64) < stretch.end;
        match (is_before, is_behind) {
            _ if stretch.start < 0 => Lies::BeforeData,
            _ if (length as i64) < stretch.end => Lies::BehindData,
            (true, true) => Lies::AroundField,
            (true, false) => Lies::BeforeField,
            (false, true) => Lies::BehindField,
            (false, false) => Lies::Inside,
        }
    }

    fn words(self) -> &'static str {
        match self {
            Lies::Inside => "found",
            Lies::BeforeField => "21 before the field",
            Lies::BehindField => "21 behind the field",
            Lies::AroundField => "21 on both sides of the field",
            Lies::BeforeData => "21 before the data",
            Lies::BehindData => "21 behind the data",
        }
    }

    /// The rule that is followed, in words.
    fn rule(self) -> &'static str {
        match self {
            Lies::Inside => "found",
            Lies::BeforeData | Lies::BehindData => "21 by the rule of the data",
            _ => "21 by its own rule",
        }
    }
}

/// Where a reference may stand, in words, with the kinds that it may have there.
const ROLES: [(&str, &[usize]); 21] = [
    ("destination of SET", &[0, 1, 2]),
    ("destination of CLEAR", &[0, 1, 2]),
    ("destination of INCR", &[1]),
    ("destination of DECR", &[1]),
    ("destination of UPCASE", &[0, 2]),
    ("destination of LOCASE", &[0, 2]),
    ("destination of a formatted move", &[0, 2]),
    ("source", &[0, 1, 2]),
    ("mask", &[0, 2]),
    ("number of a formatted move", &[1]),
    ("number of a branch on zero", &[1]),
    ("number of a computed GOTO", &[1]),
    ("control of a FOR", &[1]),
    ("start", &[1]),
    ("limit", &[1]),
    ("step", &[1]),
    ("control at a loop end", &[1]),
    ("control at NEXTLOOP", &[1]),
    ("bound", &[1]),
    ("bound of a control", &[1]),
    ("operand", &[1]),
];

/// The other ways, in words.
const WAYS: [&str; 24] = [
    "over several elements of alpha",
    "over several elements of decimal",
    "21 for the bounds themselves",
    "21 for bounds of eighteen digits",
    "21 before 20",
    "21 before 22",
    "20 inside its field",
    "22 inside its field",
    "loose reference written over a strict field",
    "loose reference read from a strict field",
    "loose record written over a strict field",
    "inside the fence",
    "rule 1 broken",
    "rule 2 broken",
    "rule 3 broken",
    "rule 4 broken",
    "rule 5 broken",
    "rule 6 broken",
    "run as its loose twin",
    "stopped where its loose twin runs on",
    "3 of a strict entry",
    "3 for byte 1 and something else",
    "3 for a bit beside that of a strict field",
    "3 for bits without that of a strict field",
];

/// All ways, in words.
fn ways() -> Vec<String> {
    let lies = [
        Lies::Inside,
        Lies::BehindField,
        Lies::BehindData,
        Lies::BeforeField,
        Lies::BeforeData,
        Lies::AroundField,
    ];
    let edges = [
        "to the first byte",
        "one byte before the first",
        "to the last byte",
        "one byte behind the last",
        "without bounds",
        "3 for byte 1",
    ];
    let mut ways = WAYS.map(str::to_string).to_vec();
    for kind in KINDS {
        for (form, lies) in FORMS.into_iter().zip([&lies[..5], &lies[..3], &lies[..]]) {
            let told = lies.iter().map(|lies| lies.words());
            ways.extend(told.map(|lies| format!("{form} of {kind} {lies}")));
        }
        ways.extend(edges.map(|edge| format!("{edge} of {kind}")));
    }
    for (role, kinds) in ROLES {
        for rule in [Lies::Inside, Lies::BeforeField, Lies::BeforeData].map(Lies::rule) {
            ways.extend(kinds.iter().map(|&k| way_of(role, KINDS[k], rule)));
        }
    }
    ways
}

fn way_of(role: &str, kind: &str, rule: &str) -> String {
    format!("{role}, {kind}, {rule}")
}

/// Whether what stands in a part is written.
pub fn is_written(role: &str) -> bool {
    role.starts_with("destination") || role.starts_with("control")
}

/// Whether what stands last in a part is read as a number.
fn is_read(role: &str) -> bool {
    let is_changed = role.ends_with("CR") || role.starts_with("control at");
    is_changed || !is_written(role) && role != "mask"
}

/// Counts of what references to strict fields have reached.
#[derive(Clone)]
pub struct Stricts(Ways);

impl Default for Stricts {
    fn default() -> Stricts {
        Stricts(Ways::of(&ways()))
    }
}

impl Stricts {
    /// Adds what another thread has counted.
    pub fn add(&mut self, other: &Stricts) {
        self.0.add(&other.0);
    }

    /// Each way with how often it was reached.
    pub fn reached(&self) -> impl Iterator<Item = (&str, u64)> {
        self.0.reached()
    }

    /// Counts the references of statement `i` over this data and in this state, up to one that gives
    /// an error. The answer is whether one of them is 21, where that is known.
    pub fn worked(&mut self, unit: &Sound, i: usize, data: &[u8], state: &[u64]) -> Option<bool> {
        let parts = parts(unit, i, state);
        for (k, &(role, offset)) in parts.iter().enumerate() {
            let (met, is_all) = unit.met(offset, data);
            for one in &met {
                let role = match (one.is_last, one.is_bound) {
                    (true, _) => role,
                    (_, true) if role.starts_with("control") => "bound of a control",
                    (_, true) => "bound",
                    _ => "operand",
                };
                if self.reference(unit, one, role, data) {
                    return Some(true);
                }
            }
            let is_end = k + 1 == parts.len();
            if !is_all || !is_end && !unit.works(offset, is_read(role), data) {
                return None;
            }
        }
        Some(false)
    }

    /// Counts a reference that was met in a part of a statement. The answer is whether it is 21.
    fn reference(&mut self, unit: &Sound, met: &Met, role: &str, data: &[u8]) -> bool {
        let field = &met.field;
        let Some(stretch) = &met.stretch else {
            let way = "21 for the bounds themselves";
            self.0.count_if(field.is_strict(), way);
            return true;
        };
        let lies = Lies::of(stretch, field, data.len());
        let is_outside = matches!(lies, Lies::BeforeData | Lies::BehindData);
        let is_lost = is_outside || field.is_strict() && lies != Lies::Inside;
        if field.is_strict() {
            self.strict(met, stretch, lies, role);
        }
        if !is_outside {
            let span = stretch.start as usize..stretch.end as usize;
            match field.is_strict() {
                true => self.errors(met, &data[span], lies, role),
                false if lies != Lies::Inside || field.kind == 2 => {
                    self.loose(unit, field, &span, role);
                }
                false => {}
            }
        }
        is_lost
    }

    /// A reference to a strict field.
    fn strict(&mut self, met: &Met, stretch: &Range<i64>, lies: Lies, role: &str) {
        let field = &met.field;
        let kind = KINDS[usize::from(field.kind)];
        if met.code == 0x02 {
            return self.0.count(&format!("without bounds of {kind}"));
        }
        let form = FORMS[usize::from(met.code) - 3];
        self.0.count(&format!("{form} of {kind} {}", lies.words()));
        self.0.count(&way_of(role, kind, lies.rule()));
        let (first, end) = (field.start() as i64, field.end() as i64);
        let is_far = |bound: &i64| bound.unsigned_abs() >= 10_u64.pow(17);
        let way = "21 for bounds of eighteen digits";
        self.0.count_if(met.bounds.iter().any(is_far), way);
        let mut at = |is_so: bool, edge: &str| self.0.count_if(is_so, &format!("{edge} of {kind}"));
        match lies {
            Lies::Inside => {
                at(stretch.start == first, "to the first byte");
                at(stretch.end == end, "to the last byte");
                let element = |at: i64| (at - first) / i64::from(field.size);
                let is_over = element(stretch.start) != element(stretch.end - 1);
                at(is_over, "over several elements");
            }
            Lies::BeforeField => at(stretch.start + 1 == first, "one byte before the first"),
            Lies::BehindField => at(stretch.end - 1 == end, "one byte behind the last"),
            _ => {}
        }
    }

    /// The errors that a decimal of a strict field gives or would give.
    fn errors(&mut self, met: &Met, characters: &[u8], lies: Lies, role: &str) {
        if !met.field.is_decimal() || met.code == 0x02 {
            return;
        }
        let is_inside = lies == Lies::Inside;
        let is_long = characters.len() > 18;
        let is_bad = !is_long && bad_character(characters).is_some() && is_read(role);
        self.0.count_if(is_long && !is_inside, "21 before 20");
        self.0.count_if(is_long && is_inside, "20 inside its field");
        self.0.count_if(is_bad && !is_inside, "21 before 22");
        self.0.count_if(is_bad && is_inside, "22 inside its field");
    }

    /// A reference to a loose field, if its bytes are some of a strict one.
    fn loose(&mut self, unit: &Sound, field: &Field, span: &Range<usize>, role: &str) {
        let is_over =
            |other: Field| other.is_strict() && shares(&(other.start()..other.end()), span);
        if !unit.fields().any(is_over) {
            return;
        }
        let how = if is_written(role) {
            "written over"
        } else {
            "read from"
        };
        let way = format!("loose reference {how} a strict field");
        self.0.count(&way);
        let is_record = field.kind == 2 && is_written(role);
        self.0
            .count_if(is_record, "loose record written over a strict field");
    }

    /// Counts a unit that the fence says yes to, if it has a reference with bounds to a strict field.
    pub fn fenced(&mut self, unit: &Sound) {
        let statements = (0..unit.statement_count()).map(|i| unit.statement(i));
        let uses = statements.flat_map(|statement| unit.uses(&statement));
        let mut references = uses.flat_map(|offset| unit.references(offset));
        let has_one = references.any(|one| one.field.is_strict() && one.is_bounded());
        self.0.count_if(has_one, "inside the fence");
    }

    /// Counts the rule of the fence that statement `i` breaks, 0 for none, if all that it refers to is
    /// strict.
    pub fn breach(&mut self, unit: &Sound, i: usize, rule: u64) {
        if rule == 0 {
            return;
        }
        let uses = unit.uses(&unit.statement(i)).into_iter();
        let mut references = uses.flat_map(|offset| unit.references(offset));
        let is_strict = references.all(|one| one.field.is_strict());
        self.0.count_if(is_strict, &format!("rule {rule} broken"));
    }

    /// Counts a unit with strict fields, by whether it ran as it does with loose ones.
    pub fn twin(&mut self, is_same: bool) {
        self.0.count(match is_same {
            true => "run as its loose twin",
            false => "stopped where its loose twin runs on",
        });
    }

    /// Counts a refusal by 3.
    pub fn refused(&mut self, unit: &[u8], entry: usize) {
        let sound = Sound::of(unit);
        let Field { kind, zero, .. } = sound.field(entry);
        if zero == 0 || zero == STRICT {
            return self.0.count_if(zero == STRICT, "3 of a strict entry");
        }
        let mut other = unit.to_vec();
        other[sound.image_len() + 8 * entry + 1] = 0;
        let is_alone = second::check(&other).map_or_else(
            |refusal| (refusal.stop, refusal.place) != (3, entry),
            |_| true,
        );
        if !is_alone {
            return self.0.count("3 for byte 1 and something else");
        }
        let kind = KINDS[usize::from(kind)];
        self.0.count(&format!("3 for byte 1 of {kind}"));
        self.0.count(match zero & STRICT {
            0 => "3 for bits without that of a strict field",
            _ => "3 for a bit beside that of a strict field",
        });
    }
}

/// The parts of statement `i` that hold expressions, in the order in which they are worked out in this
/// state, each with its words.
fn parts(unit: &Sound, i: usize, state: &[u64]) -> Vec<(&'static str, u16)> {
    let control = || {
        open_loops(state)
            .last()
            .map(|open| unit.statement(open.entry).a)
    };
    let found = |role| control().map(|control| (role, control));
    match unit.statement(i).code {
        code::FOR if open_loops(state).len() == LOOPS_MOST => vec![],
        code::LOOP_END => found("control at a loop end").into_iter().collect(),
        code::NEXTLOOP => found("control at NEXTLOOP").into_iter().collect(),
        _ => own_parts(unit, i),
    }
}

/// The parts of statement `i` itself that hold expressions, in the order in which they are worked out,
/// each with its words.
pub fn own_parts(unit: &Sound, i: usize) -> Vec<(&'static str, u16)> {
    let Statement { code, a, b, c, .. } = unit.statement(i);
    match code {
        code::SET => vec![("destination of SET", a), ("source", b)],
        code::CLEAR => vec![("destination of CLEAR", a)],
        code::INCR => vec![("destination of INCR", a)],
        code::DECR => vec![("destination of DECR", a)],
        code::UPCASE => vec![("destination of UPCASE", a)],
        code::LOCASE => vec![("destination of LOCASE", a)],
        code::GOTO_IF_ZERO => vec![("number of a branch on zero", b)],
        code::COMPUTED_GOTO => vec![("number of a computed GOTO", b)],
        code::FORMAT => vec![
            ("destination of a formatted move", a),
            ("mask", b),
            ("number of a formatted move", c),
        ],
        code::FOR => {
            let [start, limit, step] = unit.numbers(b);
            vec![
                ("control of a FOR", a),
                ("start", start),
                ("limit", limit),
                ("step", step),
            ]
        }
        _ => vec![],
    }
}

#[cfg(test)]
mod tests {
    use super::*;
    use crate::draft::{Draft, ALPHA, DECIMAL};

    /// One statement over A of two bytes at 2, strict, and D of two digits, two of them at 4, strict, in
    /// ten bytes. At 0 of the expressions stands A(2), at 8 A(3:-4), at 22 D(2), at 30 D(0) + D(9), at
    /// 46 D(D(1)) and at 57 A(1,2).
    fn draft(code: u8, a: u16, b: u16) -> Draft {
        let mut draft = Draft {
            image: b"..ab0102..".to_vec(),
            fields: vec![Field::new(ALPHA, 2, 2, 1), Field::new(DECIMAL, 4, 2, 2)],
            expressions: [
                &b"\x01\0\x02\x01\x03\0\0\0"[..],
                b"\x01\0\x03\x01\x01\0\x04\x01\x15\x05\0\0\0",
                b"\0\x01\0\x02\x01\x03\0\x01\0",
                b"\x01\0\0\x01\x03\0\x01\x01\0\x05\x01\x03\0\x01\x10\0",
                b"\x01\0\x01\x01\x03\0\x01\x03\0\x01\0",
                b"\x01\0\x01\x01\x01\0\x02\x01\x04\0\0\0",
            ]
            .concat(),
            literals: b"012349".to_vec(),
            statements: vec![Statement::new(code, a, b, 0)],
        };
        for field in &mut draft.fields {
            field.zero = STRICT;
        }
        draft
    }

    /// The ways that are counted of a statement, and whether it is 21.
    fn counted(code: u8, a: u16, b: u16) -> (Vec<String>, Option<bool>) {
        let draft = draft(code, a, b);
        let unit = draft.unit();
        assert!(second::check(&unit).is_ok());
        let mut stricts = Stricts::default();
        let sound = Sound::of(&unit);
        let is_lost = stricts.worked(&sound, 0, &draft.image, &[0; second::STATE_LEN]);
        let stop = second::run(&unit, &mut draft.image.clone(), second::State::START, 1).stop;
        assert_eq!(is_lost, Some(stop == 21));
        (stricts.0.met(), is_lost)
    }

    fn ways(words: &[&str], is_lost: bool) -> (Vec<String>, Option<bool>) {
        let mut words: Vec<String> = words.iter().map(|way| way.to_string()).collect();
        let all = super::ways();
        let place = |way: &String| all.iter().position(|known| known == way);
        words.sort_by_key(place);
        (words, Some(is_lost))
    }

    #[test]
    fn a_reference_is_counted_by_form_kind_part_and_where_it_lies() {
        let found = [
            "(start,end) of alpha found",
            "to the first byte of alpha",
            "to the last byte of alpha",
            "destination of CLEAR, alpha, found",
        ];
        assert_eq!(counted(code::CLEAR, 57, 0), ways(&found, false));
        let behind = [
            "(s) of alpha 21 behind the field",
            "destination of UPCASE, alpha, 21 by its own rule",
        ];
        assert_eq!(counted(code::UPCASE, 0, 0), ways(&behind, true));
        let around = [
            "(pos:length) of alpha 21 on both sides of the field",
            "destination of CLEAR, alpha, 21 by its own rule",
        ];
        assert_eq!(counted(code::CLEAR, 8, 0), ways(&around, true));
    }

    #[test]
    fn bounds_and_operands_are_told_apart() {
        let bound = [
            "(s) of decimal found",
            "to the first byte of decimal",
            "bound, decimal, found",
            "destination of INCR, decimal, found",
        ];
        assert_eq!(counted(code::INCR, 46, 0), ways(&bound, false));
        let operand = [
            "(s) of decimal 21 before the field",
            "operand, decimal, 21 by its own rule",
            "21 before 22",
        ];
        assert_eq!(counted(code::GOTO_IF_ZERO, 0, 30), ways(&operand, true));
    }

    #[test]
    fn a_refusal_is_counted_by_its_byte() {
        let refused = |zero: u8, size: u16| {
            let mut draft = draft(code::CLEAR, 0, 0);
            (draft.fields[1].zero, draft.fields[1].size) = (zero, size);
            let unit = draft.unit();
            let refusal = second::check(&unit).unwrap_err();
            assert_eq!((refusal.stop, refusal.place), (3, 1));
            let mut stricts = Stricts::default();
            stricts.refused(&unit, 1);
            stricts.0.met()
        };
        let beside = "3 for a bit beside that of a strict field";
        let without = "3 for bits without that of a strict field";
        assert_eq!(refused(0x81, 2), [beside, "3 for byte 1 of decimal"]);
        assert_eq!(refused(0x40, 2), [without, "3 for byte 1 of decimal"]);
        assert_eq!(refused(0x80, 9), ["3 of a strict entry"]);
        assert_eq!(refused(0x01, 9), ["3 for byte 1 and something else"]);
        assert_eq!(refused(0x00, 9), [""; 0]);
    }
}
