//! Whole random units, well-formed, with every statement.

use crate::data::{fill, table, Quality};
use crate::draft::{code, Draft, Statement};
use crate::expressions::{Maker, Sort};
use crate::random::Random;

/// A random unit. One that is fenced mostly keeps the fence rules.
pub fn random_unit(random: &mut Random, is_fenced: bool) -> Draft {
    let image = data_and_fields(random);
    let mut maker = Maker::new(random, image, is_fenced);
    let count = maker.random.weighed(&[(4, 3), (8, 8), (2, 16)]);
    let count = maker.random.within(1..=count);
    while maker.draft.statements.len() < count {
        statement(&mut maker, count);
    }
    name_ends(&mut maker);
    if maker.random.chance(5) {
        unused_bytes(&mut maker);
    }
    maker.draft
}

/// An image with its fields. The image is mostly valid.
pub fn data_and_fields(random: &mut Random) -> Draft {
    let most = random.weighed(&[(5, 24), (5, 60), (1, 300)]);
    let length = random.within(1..=most);
    let mut draft = Draft {
        image: vec![0; length],
        fields: table(random, length),
        ..Draft::default()
    };
    let quality = random.weighed(&[(8, Quality::Valid), (1, Quality::Mixed)]);
    fill(random, &draft.fields, &mut draft.image, quality);
    draft
}

/// Bytes behind the expressions and the literals that nothing names.
fn unused_bytes(maker: &mut Maker) {
    for _ in 0..maker.random.below(4) {
        let byte = maker.random.byte();
        maker.draft.expressions.push(byte);
        let byte = maker.random.byte();
        maker.draft.literals.push(byte);
    }
}

/// Adds a statement to a unit that is to have `count` of them; a computed GOTO brings its own GOTOs.
fn statement(maker: &mut Maker, count: usize) {
    let code = code_of(maker, count);
    let target = maker.random.below(count) as u16;
    let new = match code {
        code::SET => {
            let is_decimal = chosen_kind(maker);
            let a = written(maker, is_decimal);
            let b = source(maker, is_decimal);
            Statement::new(code, a, b, 0)
        }
        code::CLEAR => {
            let is_decimal = chosen_kind(maker);
            Statement::new(code, written(maker, is_decimal), 0, 0)
        }
        code::INCR | code::DECR => Statement::new(code, written(maker, true), 0, 0),
        code::UPCASE | code::LOCASE => Statement::new(code, written(maker, false), 0, 0),
        code::GOTO | code::CALL | code::ONERROR => Statement::new(code, 0, 0, target),
        code::GOTO_IF_ZERO => Statement::new(code, 0, maker.expression(Sort::Number), target),
        code::COMPUTED_GOTO => return computed_goto(maker, count),
        code::FORMAT => formatted_move(maker),
        code::FOR => {
            let a = written(maker, true);
            // Its end is named when all statements are there.
            Statement::new(code, a, numbers(maker), 0)
        }
        _ => Statement::new(code, 0, 0, 0),
    };
    maker.draft.statements.push(new);
}

/// A code for the next statement, of those for which there are fields and room.
fn code_of(maker: &mut Maker, count: usize) -> u8 {
    let decimals = usize::from(maker.has_decimals());
    let alphas = usize::from(maker.has_alphas());
    let room = usize::from(maker.draft.statements.len() + 2 <= count);
    let open = usize::from(is_open(maker));
    maker.random.weighed(&[
        (45 * decimals.max(alphas), code::SET),
        (6 * decimals.max(alphas), code::CLEAR),
        (8 * decimals, code::INCR),
        (8 * decimals, code::DECR),
        (5 * alphas, code::UPCASE),
        (5 * alphas, code::LOCASE),
        (4, code::GOTO),
        (8, code::GOTO_IF_ZERO),
        (7, code::CALL),
        (5, code::RETURN),
        (2, code::STOP),
        (6 * room, code::COMPUTED_GOTO),
        (18 * alphas, code::FORMAT),
        (16 * decimals, code::FOR),
        (2 + 24 * open, code::LOOP_END),
        (1 + 3 * open, code::EXITLOOP),
        (1 + 4 * open, code::NEXTLOOP),
        (5, code::ONERROR),
        (2, code::OFFERROR),
    ])
}

/// Whether there are more FORs than loop ends so far.
fn is_open(maker: &Maker) -> bool {
    let statements = maker.draft.statements.iter();
    let count = |code: u8| {
        let coded = statements
            .clone()
            .filter(|statement| statement.code == code);
        coded.count()
    };
    count(code::LOOP_END) < count(code::FOR)
}

/// Whether a place is to be decimal, where there are both sorts of fields or only one.
fn chosen_kind(maker: &mut Maker) -> bool {
    maker.has_decimals() && (!maker.has_alphas() || maker.random.chance(55))
}

fn written(maker: &mut Maker, is_decimal: bool) -> u16 {
    maker.expression(Sort::Place {
        is_decimal,
        is_written: true,
    })
}

/// The source of a SET: a number or an alpha source.
fn source(maker: &mut Maker, is_decimal: bool) -> u16 {
    let read = Sort::Place {
        is_decimal: false,
        is_written: false,
    };
    let alphas = usize::from(maker.has_alphas());
    let numbers = if is_decimal { 60 } else { 35 };
    let sort = maker.random.weighed(&[
        (numbers, Sort::Number),
        (35 * alphas, read),
        (20, Sort::AlphaLiteral),
    ]);
    maker.expression(sort)
}

/// A formatted move. Some have the destination for a mask as well.
fn formatted_move(maker: &mut Maker) -> Statement {
    let a = written(maker, false);
    let b = match maker.random.below(100) {
        0..12 => a,
        12..40 => maker.expression(Sort::Place {
            is_decimal: false,
            is_written: false,
        }),
        _ => maker.expression(Sort::MaskLiteral),
    };
    Statement::new(code::FORMAT, a, b, printed(maker))
}

/// The number of a formatted move: any, or a small one before some zeros, with a minus or without.
fn printed(maker: &mut Maker) -> u16 {
    if maker.random.chance(65) {
        return maker.expression(Sort::Number);
    }
    let offset = maker.draft.expressions.len() as u16;
    let power = 10_i64.pow(maker.random.below(19) as u32);
    let value = maker.random.below(4) as i64 * power;
    let value = maker.random.pick(&[value, -value]);
    maker.constant(value);
    maker.draft.expressions.push(0);
    offset
}

/// The numbers of a FOR: mostly some that come to a few passes, or those of a FOR before it.
fn numbers(maker: &mut Maker) -> u16 {
    let made = maker.draft.entries();
    if !made.is_empty() && maker.random.chance(10) {
        let other = maker.random.pick(&made);
        return maker.draft.statements[other].b;
    }
    let start = maker.random.below(8) as i64 - 2;
    let step = maker.random.pick(&[1, 1, 1, 2, 3, -1, -1, -2, -3, 0]);
    let passes = maker.random.below(5) as i64 - 1;
    let limit = start + step * passes + maker.random.below(2) as i64;
    let told = [start, limit, step].map(|number| maker.random.chance(85).then_some(number));
    maker.row(told)
}

/// Has each FOR name a loop end behind it, mostly the one that closes it as a bracket does. Where
/// the last has none, one is added.
pub fn name_ends(maker: &mut Maker) {
    let is_end = |statement: &Statement| statement.code == code::LOOP_END;
    let entries = maker.draft.entries();
    let statements = &mut maker.draft.statements;
    let Some(&last) = entries.last() else {
        return;
    };
    if !statements[last..].iter().any(is_end) {
        statements.push(Statement::new(code::LOOP_END, 0, 0, 0));
    }
    for i in entries {
        let ends = (i + 1..statements.len()).filter(|&end| is_end(&statements[end]));
        let ends: Vec<usize> = ends.collect();
        let other = maker.random.pick(&ends);
        let end = match maker.random.below(100) {
            0..80 => closing(statements, i).unwrap_or(other),
            _ => other,
        };
        statements[i].c = end as u16;
    }
}

/// The loop end that closes the FOR at `i` as a bracket does, if there is one.
fn closing(statements: &[Statement], i: usize) -> Option<usize> {
    let mut depth = 0;
    (i + 1..statements.len()).find(|&at| {
        match statements[at].code {
            code::FOR => depth += 1,
            code::LOOP_END => depth -= 1,
            _ => {}
        }
        depth < 0
    })
}

/// Adds a computed GOTO and its table, which may fill the unit to its last statement.
fn computed_goto(maker: &mut Maker, count: usize) {
    let number = maker.expression(Sort::Number);
    let room = count - maker.draft.statements.len() - 1;
    let n = maker.random.within(1..=room.min(5));
    let head = Statement::new(code::COMPUTED_GOTO, n as u16, number, 0);
    maker.draft.statements.push(head);
    for _ in 0..n {
        let target = maker.random.below(count) as u16;
        let goto = Statement::new(code::GOTO, 0, 0, target);
        maker.draft.statements.push(goto);
    }
}

#[cfg(test)]
mod tests {
    use super::random_unit;
    use crate::random::Random;
    use second::{check, fence, Fence};

    #[test]
    fn random_units_are_sound_and_fenced_ones_mostly_fenced() {
        let mut fenced = 0;
        for case in 0..2_000 {
            let mut random = Random::of_case(3, case);
            let is_fenced = case % 2 == 0;
            let unit = random_unit(&mut random, is_fenced).unit();
            assert!(check(&unit).is_ok(), "case {case}");
            fenced += u32::from(is_fenced && fence(&unit) == Fence::Yes);
        }
        assert!(fenced > 500, "{fenced} of 1000");
    }
}
