//! Units with handlers: ONERRORs and OFFERRORs put into units of all kinds, statements of which every
//! part may give an error, and handlers at the last statements of a long unit.

use crate::draft::{code, Draft, Statement};
use crate::expressions::Maker;
use crate::limits::{added, base, faulty_number, wide};
use crate::random::Random;
use crate::units::name_ends;

/// The most statements that a unit may have.
const STATEMENTS_MOST: usize = 2_048;

/// Puts one or two ONERRORs into a unit that has room for them, mostly the first at its front, and
/// sometimes an OFFERROR.
pub fn arm(random: &mut Random, draft: &mut Draft) {
    let codes = [code::ONERROR, code::ONERROR, code::OFFERROR];
    let count = random.weighed(&[(6, 1), (2, 2), (2, 3)]);
    for &code in &codes[..count] {
        if draft.statements.len() >= STATEMENTS_MOST {
            return;
        }
        let any = random.pick(&draft.free_places());
        let at = random.weighed(&[(6, 0), (4, any)]);
        let at = if code == code::OFFERROR { any } else { at };
        let target = target(random, draft.statements.len() + 1, at);
        let new = match code {
            code::ONERROR => Statement::new(code, 0, 0, target as u16),
            _ => Statement::new(code, 0, 0, 0),
        };
        draft.insert(at, new);
    }
}

/// The statement to which an ONERROR at `at` goes, of so many.
fn target(random: &mut Random, count: usize, at: usize) -> usize {
    let any = random.below(count);
    random.weighed(&[(6, any), (1, 0), (1, count - 1), (1, at)])
}

/// One to three statements of which each may give any of the five errors in one of its parts, mostly
/// under a handler.
pub fn every_error(random: &mut Random) -> Draft {
    let draft = base(random);
    let mut maker = Maker::new(random, draft, false);
    for _ in 0..maker.random.within(1..=3) {
        statement(&mut maker);
    }
    name_ends(&mut maker);
    let mut draft = maker.draft;
    if random.chance(50) {
        arm(random, &mut draft);
    }
    draft
}

/// Adds a statement with a part that may give an error.
fn statement(maker: &mut Maker) {
    let decimal = wide(&maker.draft);
    let (alpha, array) = (decimal + 1, decimal + 2);
    let one = added(maker, |maker| maker.constant(1));
    let [number, decimal_place, alpha_place] = [
        added(maker, |maker| faulty_number(maker, decimal)),
        faulty_place(maker, array),
        faulty_place(maker, alpha),
    ];
    let any_place = maker.random.pick(&[decimal_place, alpha_place]);
    let new = match maker.random.below(14) {
        0 => Statement::new(code::SET, any_place, one, 0),
        1 => Statement::new(code::SET, one_place(maker, array), number, 0),
        2 => Statement::new(code::CLEAR, any_place, 0, 0),
        3 => Statement::new(code::INCR, decimal_place, 0, 0),
        4 => Statement::new(code::DECR, decimal_place, 0, 0),
        5 => Statement::new(code::UPCASE, alpha_place, 0, 0),
        6 => Statement::new(code::LOCASE, alpha_place, 0, 0),
        7 => Statement::new(code::GOTO_IF_ZERO, 0, number, 0),
        8 => return computed(maker, number),
        9 => formatted(maker, alpha_place, number),
        10 | 11 => return looped(maker, decimal_place),
        12 => return handled(maker),
        _ => text_to_decimal(maker, array),
    };
    maker.draft.statements.push(new);
}

/// A reference to an element of a field by a number that may give an error.
fn faulty_place(maker: &mut Maker, field: usize) -> u16 {
    let decimal = wide(&maker.draft);
    added(maker, |maker| {
        faulty_number(maker, decimal);
        maker.refer(3, field);
    })
}

/// A reference to the first element of a field.
fn one_place(maker: &mut Maker, field: usize) -> u16 {
    added(maker, |maker| maker.refer(2, field))
}

/// Adds a computed GOTO with one GOTO.
fn computed(maker: &mut Maker, number: u16) {
    let statements = [
        Statement::new(code::COMPUTED_GOTO, 1, number, 0),
        Statement::new(code::GOTO, 0, 0, 0),
    ];
    maker.draft.statements.extend(statements);
}

/// A formatted move of which the place, the mask or the number may give an error.
fn formatted(maker: &mut Maker, faulty: u16, number: u16) -> Statement {
    let alpha = wide(&maker.draft) + 1;
    let good = one_place(maker, alpha);
    let one = added(maker, |maker| maker.constant(1));
    let [a, b, c] = maker.random.pick(&[
        [faulty, good, one],
        [good, faulty, one],
        [good, good, number],
    ]);
    Statement::new(code::FORMAT, a, b, c)
}

/// Adds a loop over a place that may give an error, of which one number may give one as well.
fn looped(maker: &mut Maker, faulty: u16) {
    let decimal = wide(&maker.draft);
    let part = maker.random.below(5);
    let control = match part {
        0 => faulty,
        _ => one_place(maker, decimal + 2),
    };
    let [numbers, ..] = [1, 2, 3].map(|own| {
        added(maker, |maker| match part {
            4 if own == 1 => maker.constant(100),
            _ if part == own => faulty_number(maker, decimal),
            _ => maker.constant(1),
        })
    });
    let end = maker.random.pick(&[code::LOOP_END, code::NEXTLOOP]);
    let entry = Statement::new(code::FOR, control, numbers, 0);
    let ends = [end, code::LOOP_END].map(|code| Statement::new(code, 0, 0, 0));
    maker.draft.statements.push(entry);
    maker.draft.statements.extend(ends);
}

/// Adds a statement whose error is not trapped, or that gives none, to be met under a handler.
fn handled(maker: &mut Maker) {
    let code = maker.random.pick(&[
        code::CALL,
        code::RETURN,
        code::STOP,
        code::LOOP_END,
        code::EXITLOOP,
        code::NEXTLOOP,
        code::ONERROR,
        code::OFFERROR,
    ]);
    let statement = Statement::new(code, 0, 0, 0);
    maker.draft.statements.push(statement);
}

/// A SET of a decimal from alpha text that may be no number, or one that is too long.
fn text_to_decimal(maker: &mut Maker, array: usize) -> Statement {
    let text: &[u8] = maker
        .random
        .pick(&[&b"1--2"[..], b"1x", b" 7-", b"1234567890123456789"]);
    let place = maker.draft.literals.len();
    maker.draft.literals.extend(text);
    let source = added(maker, |maker| maker.alpha_at(place, text.len()));
    Statement::new(code::SET, one_place(maker, array), source, 0)
}

/// An ONERROR of the last statement of a unit, or of the one behind that, and an error behind it. The
/// number of the handler takes two bytes, and may be the greatest that there is.
pub fn far_handler(random: &mut Random) -> Draft {
    let draft = base(random);
    let mut maker = Maker::new(random, draft, false);
    let decimal = wide(&maker.draft);
    let count = maker.random.pick(&[256, 257, STATEMENTS_MOST]);
    let past = usize::from(maker.random.chance(10));
    let armed = Statement::new(code::ONERROR, 0, 0, (count - 1 + past) as u16);
    let number = added(&mut maker, |maker| faulty_number(maker, decimal));
    let failing = Statement::new(code::SET, one_place(&mut maker, decimal), number, 0);
    let mut statements = vec![armed, failing];
    statements.resize(count, Statement::new(code::STOP, 0, 0, 0));
    if maker.random.chance(50) {
        statements[count - 1] = failing;
    }
    maker.draft.statements = statements;
    maker.draft
}

#[cfg(test)]
mod tests {
    use super::*;
    use second::check;

    #[test]
    fn armed_units_stay_sound() {
        for case in 0..2_000 {
            let mut random = Random::of_case(6, case);
            let mut draft = every_error(&mut random);
            assert!(check(&draft.unit()).is_ok(), "case {case}");
            let count = draft.statements.len();
            arm(&mut random, &mut draft);
            assert!(draft.statements.len() > count, "case {case}");
            assert!(check(&draft.unit()).is_ok(), "case {case} armed");
        }
    }

    #[test]
    fn a_full_unit_has_no_room_for_a_handler() {
        let mut random = Random::of_case(6, 0);
        let mut draft = base(&mut random);
        let stop = Statement::new(code::STOP, 0, 0, 0);
        draft.statements.resize(STATEMENTS_MOST, stop);
        arm(&mut random, &mut draft);
        assert_eq!(draft.statements.len(), STATEMENTS_MOST);
    }
}
