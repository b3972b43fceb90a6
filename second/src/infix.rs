//! References as text, in the form of docs/DIBASM.md: fields by their kind and number, and operators
//! between their values, with no more brackets than are needed.

use crate::expression::{item_at, Form, Item, NEGATE};
use crate::fence::Breaking;
use crate::unit::{Parts, ALPHA, DECIMAL};
use crate::work::SOUND;

/// How tightly .NOT. binds, and negate, which binds as tightly as a literal or a reference.
const NOT_LEVEL: u8 = 2;
const TIGHTEST: u8 = 7;

/// The text of a value, and how tightly the outermost operator in it binds.
struct Text {
    characters: String,
    level: u8,
}

impl Text {
    /// What binds as tightly as a name.
    fn tight(characters: String) -> Text {
        let level = TIGHTEST;
        Text { characters, level }
    }

    /// The text for a place where what stands there binds at this level or tighter.
    fn at_least(self, level: u8) -> String {
        if self.level < level {
            return format!("({})", self.characters);
        }
        self.characters
    }
}

/// The name of field `i`: a letter for its kind, and its number.
pub fn field_name(parts: &Parts, i: usize) -> String {
    let letter = match parts.field(i).expect(SOUND).kind {
        ALPHA => 'A',
        DECIMAL => 'D',
        _ => 'R',
    };
    format!("{letter}{i}")
}

/// The text of a reference that breaks a rule, with its bounds.
pub fn reference_text(parts: &Parts, reference: &Breaking) -> String {
    let mut held = Vec::new();
    let mut at = reference.expression;
    loop {
        let (item, next) = item_at(parts.expressions, at).expect(SOUND);
        let text = item_text(parts, item, &mut held);
        if at == reference.offset {
            return text.characters;
        }
        held.push(text);
        at = next;
    }
}

/// The text of an item with the values that it takes, which are the last of those held.
fn item_text(parts: &Parts, item: Item, held: &mut Vec<Text>) -> Text {
    let mut take = || held.pop().expect(SOUND);
    match item {
        Item::Number(range) => {
            let digits = parts.literals[range].iter().copied().map(char::from);
            Text::tight(digits.collect())
        }
        Item::Reference { form, field } => {
            let name = field_name(parts, field);
            Text::tight(name + &bounds_text(form, take))
        }
        Item::One(NEGATE) => Text::tight(format!("-{}", take().at_least(TIGHTEST))),
        // The other operator on one value is .NOT. alone.
        Item::One(_) => Text {
            characters: format!(".NOT. {}", take().at_least(NOT_LEVEL)),
            level: NOT_LEVEL,
        },
        Item::Two(code) => {
            let (sign, level) = sign(code);
            // Operators of one level bind from the left, so that the right side binds tighter.
            let right = take().at_least(level + 1);
            let left = take().at_least(level);
            let characters = format!("{left} {sign} {right}");
            Text { characters, level }
        }
        Item::Alpha(_) | Item::Close => unreachable!("no reference stands behind it"),
    }
}

/// The bounds of a reference in their brackets. The last is taken first.
fn bounds_text(form: Form, mut take: impl FnMut() -> Text) -> String {
    let mut bound = || take().characters;
    match form {
        Form::First => String::new(),
        Form::Subscript => format!("({})", bound()),
        Form::StartEnd => {
            let end = bound();
            format!("({},{end})", bound())
        }
        Form::PosLength => {
            let length = bound();
            format!("({}:{length})", bound())
        }
    }
}

/// The sign of an operator on two values, and how tightly it binds.
fn sign(code: u8) -> (&'static str, u8) {
    match code {
        0x1E => (".OR.", 0),
        0x1F => (".XOR.", 0),
        0x1D => (".AND.", 1),
        0x16 => (".EQ.", 3),
        0x17 => (".NE.", 3),
        0x18 => (".GT.", 3),
        0x19 => (".LT.", 3),
        0x1A => (".GE.", 3),
        0x1B => (".LE.", 3),
        0x10 => ("+", 4),
        0x11 => ("-", 4),
        0x12 => ("*", 5),
        0x13 => ("/", 5),
        0x14 => ("#", 6),
        _ => unreachable!("{code:02X} is no operator on two values"),
    }
}

#[cfg(test)]
mod tests {
    use super::*;
    use crate::fence::breaches;
    use crate::sample::Sample;
    use crate::unit::code;

    /// The texts of all references that break a rule in an assignment. Field 0 is an alpha A4, field 1
    /// a D3 array of two, field 2 a record over both.
    fn texts(place: &str, source: &str) -> Vec<String> {
        let fields = [(0, 0, 4, 1), (1, 4, 3, 2), (2, 0, 10, 1)];
        let sample = Sample::over("abcd001002", &fields).set(place, source);
        let unit = sample.unit();
        let parts = Parts::of(&unit).unwrap();
        breaches(&unit)
            .map(|breaking| reference_text(&parts, &breaking))
            .collect()
    }

    /// The text of a subscript that is no literal.
    fn subscript(items: &str) -> String {
        let found = texts("%0", &format!("{items} %1()"));
        let text = found.last().unwrap().strip_prefix("D1(").unwrap();
        text.strip_suffix(')').unwrap().to_string()
    }

    #[test]
    fn references_have_kind_number_and_bounds() {
        assert_eq!(texts("%0", "%1 %1()"), ["D1(D1)"]);
        assert_eq!(texts("%0", "2 %1 %1(,)"), ["D1(2,D1)"]);
        assert_eq!(texts("%0", "%1 2 neg %0(:)"), ["A0(D1:-2)"]);
        assert_eq!(texts("%2", "%1"), ["R2"]);
        assert_eq!(texts("1 07 %2(,)", "%1"), ["R2(1,07)"]);
        assert_eq!(texts("3 4 %1(,)", "%1"), ["D1(3,4)"]);
    }

    #[test]
    fn each_reference_has_its_own_text() {
        assert_eq!(
            texts("%1 %2()", "%1 1 + %1() 2 * 9 %1() - %0()"),
            [
                "R2(D1)",
                "D1(D1 + 1)",
                "D1(9)",
                "A0(D1(D1 + 1) * 2 - D1(9))"
            ]
        );
    }

    #[test]
    fn rounding_binds_tightest() {
        assert_eq!(subscript("2 25 1 # *"), "2 * 25 # 1");
        assert_eq!(subscript("2 25 * 1 #"), "(2 * 25) # 1");
        assert_eq!(subscript("2 neg 1 #"), "-2 # 1");
        assert_eq!(subscript("2 1 # neg"), "-(2 # 1)");
    }

    #[test]
    fn operators_of_one_level_bind_from_the_left() {
        for (low, high) in [("+", "-"), ("*", "/"), ("#", "#")] {
            let left = format!("1 {low} 2 {high} 3");
            assert_eq!(subscript(&format!("1 2 {low} 3 {high}")), left);
            let right = format!("1 {low} (2 {high} 3)");
            assert_eq!(subscript(&format!("1 2 3 {high} {low}")), right);
        }
        assert_eq!(subscript("1 2 OR 3 XOR"), "1 .OR. 2 .XOR. 3");
        assert_eq!(subscript("1 2 3 XOR OR"), "1 .OR. (2 .XOR. 3)");
        assert_eq!(subscript("1 2 EQ 3 LE"), "1 .EQ. 2 .LE. 3");
        assert_eq!(subscript("1 2 3 GE LT"), "1 .LT. (2 .GE. 3)");
    }

    #[test]
    fn each_level_stands_bare_in_those_below_it() {
        let levels = [
            ("OR", ".OR."),
            ("AND", ".AND."),
            ("NE", ".NE."),
            ("+", "+"),
            ("*", "*"),
            ("#", "#"),
        ];
        for (i, (loose, loose_sign)) in levels.iter().enumerate() {
            for (tight, tight_sign) in &levels[i + 1..] {
                for (items, wanted) in [
                    (
                        format!("1 2 {tight} 3 {loose}"),
                        format!("1 {tight_sign} 2 {loose_sign} 3"),
                    ),
                    (
                        format!("1 2 3 {tight} {loose}"),
                        format!("1 {loose_sign} 2 {tight_sign} 3"),
                    ),
                    (
                        format!("1 2 {loose} 3 {tight}"),
                        format!("(1 {loose_sign} 2) {tight_sign} 3"),
                    ),
                    (
                        format!("1 2 3 {loose} {tight}"),
                        format!("1 {tight_sign} (2 {loose_sign} 3)"),
                    ),
                ] {
                    assert_eq!(subscript(&items), wanted);
                }
            }
        }
    }

    #[test]
    fn operators_on_one_value() {
        assert_eq!(subscript("1 neg neg"), "--1");
        assert_eq!(subscript("1 %1 neg -"), "1 - -D1");
        assert_eq!(subscript("%1 1 + neg"), "-(D1 + 1)");
        assert_eq!(subscript("0 NOT NOT"), ".NOT. .NOT. 0");
        assert_eq!(subscript("0 1 EQ NOT"), ".NOT. 0 .EQ. 1");
        assert_eq!(subscript("0 NOT 1 EQ"), "(.NOT. 0) .EQ. 1");
        assert_eq!(subscript("0 1 AND NOT"), ".NOT. (0 .AND. 1)");
        assert_eq!(subscript("0 NOT 1 NOT AND"), ".NOT. 0 .AND. .NOT. 1");
        assert_eq!(subscript("0 NOT neg"), "-(.NOT. 0)");
        assert_eq!(subscript("0 neg NOT"), ".NOT. -0");
    }

    #[test]
    fn the_numbers_of_a_loop_have_texts_too() {
        let fields = [(1, 0, 1, 3), (0, 3, 1, 1)];
        let numbers = ["%0 %0()", "2", "%0 1 + %0()"];
        let sample = Sample::over("123 ", &fields).repeated("%0", numbers, 1);
        let unit = sample.to(code::LOOP_END, 0).unit();
        let parts = Parts::of(&unit).unwrap();
        let found: Vec<String> = breaches(&unit)
            .map(|breaking| reference_text(&parts, &breaking))
            .collect();
        assert_eq!(found, ["D0(D0)", "D0(D0 + 1)"]);
    }
}
