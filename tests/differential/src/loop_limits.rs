//! Units with loops at their limits: controls at the edge of their digits, sixteen open loops, controls
//! that move or fail between passes, FORs of which every part may give an error, and loops at the last
//! statements of a long unit.

use crate::draft::{code, Draft, Field, Statement, DECIMAL, RECORD};
use crate::expressions::{Maker, GREATEST};
use crate::limits::{added, base, faulty_number, wide};
use crate::random::Random;
use crate::units::name_ends;

/// Adds a statement that has no parts.
fn bare(maker: &mut Maker, code: u8) {
    let statement = Statement::new(code, 0, 0, 0);
    maker.draft.statements.push(statement);
}

/// Adds a FOR, whose end is named later.
fn enter(maker: &mut Maker, control: u16, numbers: u16) {
    let statement = Statement::new(code::FOR, control, numbers, 0);
    maker.draft.statements.push(statement);
}

/// A unit with a control of two digits.
fn two_digits(random: &mut Random) -> (Maker<'_>, u16) {
    let draft = base(random);
    let array = wide(&draft) + 2;
    let mut maker = Maker::new(random, draft, false);
    let control = added(&mut maker, |maker| maker.refer(2, array));
    (maker, control)
}

/// The unit, with a loop end behind it, and before that some with a NEXTLOOP or an EXITLOOP.
fn ended(mut maker: Maker) -> Draft {
    let last = maker.random.weighed(&[
        (4, code::LOOP_END),
        (4, code::NEXTLOOP),
        (1, code::EXITLOOP),
    ]);
    if last != code::LOOP_END {
        bare(&mut maker, last);
    }
    bare(&mut maker, code::LOOP_END);
    name_ends(&mut maker);
    maker.draft
}

/// A loop whose control of 1, 2 or 18 digits comes to the edge of what fits or of the values.
pub fn control_edges(random: &mut Random) -> Draft {
    let draft = base(random);
    let (long, array) = (wide(&draft), wide(&draft) + 2);
    let mut maker = Maker::new(random, draft, false);
    let length = maker.random.pick(&[1, 2, 18]);
    let control = added(&mut maker, |maker| match length {
        1 => {
            maker.constant(2);
            maker.constant(2);
            maker.refer(4, array);
        }
        2 => maker.refer(2, array),
        _ => maker.refer(2, long),
    });
    let (greatest, edge) = (GREATEST as i64, 10_i64.pow(length) - 1);
    let start = edge + 1 - maker.random.below(5) as i64;
    let start = maker.random.pick(&[start, -start, 0]);
    let step = maker.random.pick(&[1, 1, 2, edge, greatest]);
    let step = maker.random.pick(&[step, -step]);
    let limit = maker
        .random
        .pick(&[start, edge, -edge, 0, greatest, -greatest]);
    let numbers = maker.row([start, limit, step].map(Some));
    enter(&mut maker, control, numbers);
    if maker.random.chance(20) {
        let change = maker.random.pick(&[code::INCR, code::DECR]);
        let change = Statement::new(change, control, 0, 0);
        maker.draft.statements.push(change);
    }
    ended(maker)
}

/// FORs in a row that open 14 to 18 loops, with statements behind them that act on those. The last
/// FOR may be one that does not run.
pub fn many_open(random: &mut Random) -> Draft {
    let (mut maker, control) = two_digits(random);
    let numbers = maker.row([1, 2, 1].map(Some));
    let limit = maker.random.pick(&[0, 2]);
    let last = maker.row([1, limit, 1].map(Some));
    for _ in 0..maker.random.within(13..=17) {
        enter(&mut maker, control, numbers);
    }
    enter(&mut maker, control, last);
    for _ in 0..maker.random.below(8) {
        let act = maker
            .random
            .pick(&[code::LOOP_END, code::EXITLOOP, code::NEXTLOOP]);
        bare(&mut maker, act);
    }
    if maker.random.chance(20) {
        bare(&mut maker, code::GOTO);
    }
    ended(maker)
}

/// The fields of `moving`, by their numbers: what the subscript of the control is worked out from,
/// the array that it is of, and a record over all.
const FAR: usize = 0;
const NEAR: usize = 1;
const COUNT: usize = 2;
const DIVISOR: usize = 3;
const TABLE: usize = 4;
const ALL: usize = 5;

/// A loop over an element of an array by other fields, which its body changes, so that the control
/// moves or cannot be found or read any more. It may also lie over these fields.
pub fn moving(random: &mut Random) -> Draft {
    let near = random.pick(b"11120qr");
    let draft = Draft {
        image: [&[b'0'; 18][..], &[near], b"001", b"0102030405"].concat(),
        fields: vec![
            Field::new(DECIMAL, 0, 18, 1),
            Field::new(DECIMAL, 18, 1, 1),
            Field::new(DECIMAL, 19, 2, 1),
            Field::new(DECIMAL, 21, 1, 1),
            Field::new(DECIMAL, 22, 2, 5),
            Field::new(RECORD, 0, 32, 1),
        ],
        ..Draft::default()
    };
    let mut maker = Maker::new(random, draft, false);
    let form = maker.random.below(3);
    let control = added(&mut maker, |maker| element(maker, form));
    let start = maker.random.within(1..=4) as i64;
    let step = maker.random.pick(&[1, 1, 2, -1, 99]);
    let limit = maker.random.pick(&[start, 9, -9, 99]);
    let numbers = match maker.random.below(10) {
        0 => own_numbers(&mut maker),
        _ => maker.row([start, limit, step].map(Some)),
    };
    enter(&mut maker, control, numbers);
    change(&mut maker);
    ended(maker)
}

/// A reference to an element of the table, by one field, a sum of two, or by all of them.
fn element(maker: &mut Maker, form: usize) {
    maker.refer(2, NEAR);
    if form > 0 {
        maker.refer(2, FAR);
        maker.draft.expressions.push(0x10);
    }
    if form > 1 {
        maker.refer(2, COUNT);
        maker.draft.expressions.push(0x14);
        maker.refer(2, DIVISOR);
        maker.draft.expressions.push(0x13);
    }
    maker.refer(3, TABLE);
}

/// Numbers of which the start and the limit are elements of the table, and the step is another field.
fn own_numbers(maker: &mut Maker) -> u16 {
    let start = added(maker, |maker| maker.refer(2, TABLE));
    added(maker, |maker| {
        maker.constant(5);
        maker.refer(3, TABLE);
    });
    added(maker, |maker| maker.refer(2, DIVISOR));
    start
}

/// Adds a SET of one of the fields, or of a byte anywhere.
fn change(maker: &mut Maker) {
    let greatest = GREATEST as i64;
    let far = maker
        .random
        .pick(&[1, 2, 9_999, greatest, greatest, greatest]);
    let near = maker.random.below(5) as i64;
    let (field, value) = maker.random.pick(&[
        (FAR, far),
        (FAR, far),
        (NEAR, near),
        (COUNT, 19),
        (DIVISOR, 0),
        (TABLE, 99),
        (TABLE, 0),
        (ALL, 0),
        (ALL, 0),
    ]);
    let place = added(maker, |maker| {
        if field == ALL {
            let at = maker.random.within(1..=32) as i64;
            maker.constant(at);
            maker.constant(1);
        }
        maker.refer(if field == ALL { 5 } else { 2 }, field);
    });
    let source = added(maker, |maker| match field {
        ALL => {
            let text = maker.random.pick(b"?  -p");
            maker.draft.literals.push(text);
            let place = maker.draft.literals.len() - 1;
            maker.alpha_at(place, 1);
        }
        _ => maker.constant(value),
    });
    let set = Statement::new(code::SET, place, source, 0);
    maker.draft.statements.push(set);
}

/// A FOR of which every part may give a run error: the control by its subscript, and each of its
/// numbers. The step may be 0, and the start too long.
pub fn entry_errors(random: &mut Random) -> Draft {
    let draft = base(random);
    let (decimal, array) = (wide(&draft), wide(&draft) + 2);
    let mut maker = Maker::new(random, draft, false);
    let control = added(&mut maker, |maker| {
        let form = maker.random.pick(&[2, 2, 3]);
        if form == 3 {
            faulty_number(maker, decimal);
        }
        maker.refer(form, array);
    });
    let numbers = added(&mut maker, |maker| match maker.random.below(4) {
        0 => maker.constant(100),
        _ => faulty_number(maker, decimal),
    });
    added(&mut maker, |maker| faulty_number(maker, decimal));
    added(&mut maker, |maker| match maker.random.below(4) {
        0 => maker.constant(0),
        1 => maker.constant(-1),
        _ => faulty_number(maker, decimal),
    });
    enter(&mut maker, control, numbers);
    ended(maker)
}

/// A loop behind so many statements that the numbers of its FOR and its end take two bytes. The end may
/// be the last statement that a unit can have, or one past it.
pub fn far(random: &mut Random) -> Draft {
    let (mut maker, control) = two_digits(random);
    let numbers = far_numbers(&mut maker);
    let entry = maker.random.pick(&[255, 256, 2_045, 2_046]);
    let jump = Statement::new(code::GOTO, 0, 0, entry as u16);
    maker.draft.statements.resize(entry, jump);
    enter(&mut maker, control, numbers);
    ended(maker)
}

/// Numbers for two passes. The start is 1 with many zeros added, so that limit and step may stand far
/// behind it.
fn far_numbers(maker: &mut Maker) -> u16 {
    let step = maker.random.pick(&[1, -1]);
    let zeros = maker.random.pick(&[0, 60, 3_000]);
    let numbers = added(maker, |maker| {
        maker.constant(1);
        for _ in 0..zeros {
            maker.constant(0);
            maker.draft.expressions.push(0x10);
        }
    });
    for number in [1 + step, step] {
        added(maker, |maker| maker.constant(number));
    }
    numbers
}
