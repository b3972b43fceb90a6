//! What ONERROR and OFFERROR are refused for, and how a handler or a last error makes a state unsound,
//! counted.

use crate::decode::{Sound, HANDLER, TRAPPED};
use crate::draft::{code, Statement};
use crate::traps::Traps;

/// What may be wrong with a handler or with a last error, in words.
const WRONG: [&str; 11] = [
    "a handler at N",
    "a handler past N",
    "a handler of 65,534",
    "a handler over 65,535",
    "a statement without an error",
    "an error over 255",
    "an error over 255 that ends in one of the five",
    "a statement at N",
    "a statement past N",
    "a statement of 65,535",
    "a statement over 65,535",
];

/// The errors that no state has, of those that are looked for.
const ERRORS: [u64; 10] = [1, 19, 24, 25, 27, 28, 29, 30, 34, 255];

/// The lengths beside that of a state, and that of one without handlers.
const LENGTHS: [usize; 3] = [HANDLER, HANDLER + 2, HANDLER + 4];

/// The statements, in words.
const WORDS: [&str; 2] = ["ONERROR", "OFFERROR"];

fn word(code: u8) -> &'static str {
    WORDS[usize::from(code - code::ONERROR)]
}

/// All ways that are counted here, in words.
pub fn ways() -> Vec<String> {
    let mut ways = WRONG.map(|wrong| format!("7 for {wrong}")).to_vec();
    ways.extend(ERRORS.map(|error| format!("7 for an error {error}")));
    ways.extend(LENGTHS.map(|length| format!("7 for {length} numbers")));
    for word in WORDS {
        ways.push(format!("5 for {word} in a table"));
        let parts = ["the zero byte", "a", "b"];
        ways.extend(parts.map(|part| format!("5 for {part} of {word}")));
        ways.push(format!("a unit of {word} inside the fence"));
    }
    ways.push("5 for c of OFFERROR".to_string());
    ways.extend(["at", "past"].map(|how| format!("5 for a target {how} N")));
    ways
}

impl Traps {
    /// Counts a refusal by 5 of an ONERROR or an OFFERROR, or of a table that has one.
    pub fn refused(&mut self, unit: &[u8], place: usize) {
        let sound = Sound::of(unit);
        match sound.statement(place).code {
            code::COMPUTED_GOTO => {
                if let Some(code @ code::ONERROR..=code::OFFERROR) = sound.stray(place) {
                    self.0.count(&format!("5 for {} in a table", word(code)));
                }
            }
            code::ONERROR..=code::OFFERROR => self.wrong_statement(&sound, place),
            _ => {}
        }
    }

    /// What is wrong with such a statement, where it is one thing.
    fn wrong_statement(&mut self, unit: &Sound, i: usize) {
        let Statement {
            code,
            zero,
            a,
            b,
            c,
        } = unit.statement(i);
        let word = word(code);
        let (is_off, target) = (code == code::OFFERROR, usize::from(c));
        let count = unit.statement_count();
        let wrong = [
            (zero != 0, format!("5 for the zero byte of {word}")),
            (a != 0, format!("5 for a of {word}")),
            (b != 0, format!("5 for b of {word}")),
            (is_off && c != 0, "5 for c of OFFERROR".to_string()),
            (
                !is_off && target == count,
                "5 for a target at N".to_string(),
            ),
            (
                !is_off && target > count,
                "5 for a target past N".to_string(),
            ),
        ];
        let mut wrong = wrong.into_iter().filter(|(is_so, _)| *is_so);
        if let (Some((_, way)), None) = (wrong.next(), wrong.next()) {
            self.0.count(&way);
        }
    }

    /// Counts a unit that the fence says yes to, if it has an ONERROR or an OFFERROR.
    pub fn inside(&mut self, unit: &Sound) {
        for code in [code::ONERROR, code::OFFERROR] {
            let mut all = 0..unit.statement_count();
            let has_one = all.any(|i| unit.is_code(i, code));
            let way = format!("a unit of {} inside the fence", word(code));
            self.0.count_if(has_one, &way);
        }
    }

    /// Counts a state that was refused with 7, if one thing is wrong with its handler or its last error
    /// and nothing else, or if it has more or fewer numbers.
    pub fn unsound(&mut self, unit: &Sound, state: &[u64]) {
        if LENGTHS.contains(&state.len()) {
            let way = format!("7 for {} numbers", state.len());
            return self.0.count(&way);
        }
        let is_rest_sound = unit.are_calls_sound(state) && unit.wrong_loops(state) == Some(vec![]);
        let wrong = unit.wrong_traps(state).unwrap_or_default();
        let (true, [wrong]) = (is_rest_sound, &wrong[..]) else {
            return;
        };
        let error = state[HANDLER + 1];
        if *wrong == "an error that is not trapped" {
            let way = format!("7 for an error {error}");
            return self.0.count_if(ERRORS.contains(&error), &way);
        }
        self.0.count(&format!("7 for {wrong}"));
        let is_near = *wrong == "an error over 255" && TRAPPED.contains(&(error % 256));
        self.0.count_if(
            is_near,
            "7 for an error over 255 that ends in one of the five",
        );
    }
}

#[cfg(test)]
mod tests {
    use super::*;
    use crate::draft::Draft;

    /// The ways that were counted.
    fn counted(count: impl FnOnce(&mut Traps)) -> Vec<String> {
        let mut traps = Traps::default();
        count(&mut traps);
        traps.0.met()
    }

    #[test]
    fn a_refusal_is_that_of_its_part() {
        let refused = |new: Statement| {
            let mut draft = Draft::counting_loop();
            draft.statements[1] = new;
            let unit = draft.unit();
            let refusal = second::check(&unit).unwrap_err();
            assert_eq!((refusal.stop, refusal.place), (5, 1));
            counted(|traps| traps.refused(&unit, 1))
        };
        let on = |a, b, c| refused(Statement::new(code::ONERROR, a, b, c));
        let off = |a, b, c| refused(Statement::new(code::OFFERROR, a, b, c));
        assert_eq!(on(1, 0, 0), ["5 for a of ONERROR"]);
        assert_eq!(on(0, 256, 2), ["5 for b of ONERROR"]);
        assert_eq!(on(0, 0, 3), ["5 for a target at N"]);
        assert_eq!(on(0, 0, 4), ["5 for a target past N"]);
        assert_eq!(on(1, 0, 3), [""; 0]);
        assert_eq!(off(1, 0, 0), ["5 for a of OFFERROR"]);
        assert_eq!(off(0, 1, 0), ["5 for b of OFFERROR"]);
        assert_eq!(off(0, 0, 1), ["5 for c of OFFERROR"]);
        let zero = Statement {
            zero: 1,
            ..Statement::new(code::OFFERROR, 0, 0, 0)
        };
        assert_eq!(refused(zero), ["5 for the zero byte of OFFERROR"]);
    }

    #[test]
    fn a_table_is_counted_by_what_stands_in_it() {
        for (code, word) in [(code::ONERROR, "ONERROR"), (code::OFFERROR, "OFFERROR")] {
            let mut draft = Draft::counting_loop();
            draft.statements = vec![
                Statement::new(code::COMPUTED_GOTO, 2, 7, 0),
                Statement::new(code::GOTO, 0, 0, 0),
                Statement::new(code, 0, 0, 0),
            ];
            let unit = draft.unit();
            assert_eq!(second::check(&unit).unwrap_err().stop, 5);
            let ways = counted(|traps| traps.refused(&unit, 0));
            assert_eq!(ways, [format!("5 for {word} in a table")]);
        }
    }

    #[test]
    fn an_unsound_state_is_counted_by_the_one_thing_that_is_wrong() {
        let unit = Draft::counting_loop().unit();
        let ways = |at: u64, traps: [u64; 3]| {
            let mut state = vec![0; second::STATE_LEN];
            state[0] = at;
            state[HANDLER..].copy_from_slice(&traps);
            counted(|traps| traps.unsound(&Sound::of(&unit), &state))
        };
        assert_eq!(ways(0, [4, 0, 0]), ["7 for a handler at N"]);
        assert_eq!(ways(0, [3, 24, 0]), ["7 for an error 24"]);
        assert_eq!(ways(0, [0, 2, 0]), [""; 0]);
        assert_eq!(
            ways(0, [0, 256 + 26, 0]),
            [
                "7 for an error over 255",
                "7 for an error over 255 that ends in one of the five"
            ]
        );
        assert_eq!(ways(0, [0, 22, 3]), ["7 for a statement at N"]);
        assert_eq!(ways(0, [4, 22, 3]), [""; 0]);
        assert_eq!(ways(4, [4, 0, 0]), [""; 0]);
        let short = counted(|traps| traps.unsound(&Sound::of(&unit), &[0; 101]));
        assert_eq!(short, ["7 for 101 numbers"]);
    }
}
