//! Checks 1 to 5, in their order.

use crate::decimal::DIGITS_MOST;
use crate::expression::{sort_at, three_from, Sort};
use crate::stop::Refusal;
use crate::unit::{code, Field, Parts, Statement, ALPHA, DECIMAL, LOOSE, RECORD, STRICT};
use std::ops::RangeInclusive;

const IMAGE_RANGE: RangeInclusive<usize> = 1..=16_383;
const FIELD_RANGE: RangeInclusive<usize> = 0..=512;
const EXPRESSION_RANGE: RangeInclusive<usize> = 0..=16_383;
const LITERAL_RANGE: RangeInclusive<usize> = 0..=4_095;
const STATEMENT_RANGE: RangeInclusive<usize> = 1..=2_048;

/// The numbers of GOTO statements that a computed GOTO may have.
const TABLE_RANGE: RangeInclusive<usize> = 1..=255;

/// The parts of a unit that passes checks 1 to 5, or the first refusal.
pub fn check(unit: &[u8]) -> Result<Parts<'_>, Refusal> {
    let refuse = |stop, place| Err(Refusal { stop, place });
    let Some(parts) = Parts::of(unit) else {
        return refuse(1, 0);
    };
    if !in_range(&parts) {
        return refuse(2, 0);
    }
    if let Some(entry) = bad_field(&parts) {
        return refuse(3, entry);
    }
    for i in 0..parts.statement_count() {
        let Some(statement) = parts.statement(i) else {
            break;
        };
        if !statement_fits(&parts, i, &statement) {
            return refuse(5, i);
        }
        if !expressions_fit(&parts, &statement) {
            return refuse(4, i);
        }
    }
    Ok(parts)
}

/// Check 2: D, F, E, P and N are each in range.
fn in_range(parts: &Parts) -> bool {
    IMAGE_RANGE.contains(&parts.image.len())
        && FIELD_RANGE.contains(&parts.field_count())
        && EXPRESSION_RANGE.contains(&parts.expressions.len())
        && LITERAL_RANGE.contains(&parts.literals.len())
        && STATEMENT_RANGE.contains(&parts.statement_count())
}

/// Check 3: the first field entry that breaks its rule, if there is one.
fn bad_field(parts: &Parts) -> Option<usize> {
    // The end of the last alpha or decimal entry so far.
    let mut taken = 0;
    for i in 0..parts.field_count() {
        let field = parts.field(i)?;
        if !field_fits(&field, parts.image.len()) {
            return Some(i);
        }
        if field.kind != RECORD {
            if field.offset < taken {
                return Some(i);
            }
            taken = field.end();
        }
    }
    None
}

/// The rules that a field entry keeps by itself, over an image of `length` bytes.
fn field_fits(field: &Field, length: usize) -> bool {
    let kind_fits = match field.kind {
        ALPHA => true,
        DECIMAL => field.size <= DIGITS_MOST,
        RECORD => field.count == 1,
        _ => false,
    };
    let choice_fits = matches!(field.choice, LOOSE | STRICT);
    kind_fits && choice_fits && field.size >= 1 && field.count >= 1 && field.end() <= length
}

/// Check 5: code, zero parts, count and target of statement `i`.
fn statement_fits(parts: &Parts, i: usize, statement: &Statement) -> bool {
    let Statement { a, b, c, .. } = *statement;
    let target_fits = c < parts.statement_count();
    let parts_fit = match statement.code {
        code::SET => c == 0,
        code::CLEAR..=code::LOCASE => b == 0 && c == 0,
        code::GOTO | code::CALL | code::ONERROR => a == 0 && b == 0 && target_fits,
        code::GOTO_IF_ZERO => a == 0 && target_fits,
        code::RETURN | code::STOP => a == 0 && b == 0 && c == 0,
        code::COMPUTED_GOTO => c == 0 && table_fits(parts, i, a),
        code::FORMAT => true,
        code::FOR => i < c && is_code(parts, c, code::LOOP_END),
        code::LOOP_END..=code::NEXTLOOP | code::OFFERROR => a == 0 && b == 0 && c == 0,
        _ => false,
    };
    statement.zero == 0 && parts_fit
}

/// Whether there is a statement `i` with this code. The rest of it is judged when its own turn
/// comes.
fn is_code(parts: &Parts, i: usize, code: u8) -> bool {
    parts
        .statement(i)
        .is_some_and(|statement| statement.code == code)
}

/// The computed GOTO at `i` has `n` GOTO statements right after it.
fn table_fits(parts: &Parts, i: usize, n: usize) -> bool {
    TABLE_RANGE.contains(&n) && (i + 1..=i + n).all(|j| is_code(parts, j, code::GOTO))
}

/// Check 4: the expressions a, b and c of a statement that passes check 5, those of a FOR's start,
/// limit and step in a row at b.
fn expressions_fit(parts: &Parts, statement: &Statement) -> bool {
    let fits = |offset, wanted: fn(Sort) -> bool| sort_at(parts, offset).is_some_and(wanted);
    let Statement { a, b, c, .. } = *statement;
    match statement.code {
        code::SET => fits(a, Sort::is_place) && fits(b, |_| true),
        code::CLEAR => fits(a, Sort::is_place),
        code::INCR | code::DECR => fits(a, |sort| sort == Sort::DecimalPlace),
        code::UPCASE | code::LOCASE => fits(a, |sort| sort == Sort::AlphaPlace),
        code::GOTO_IF_ZERO | code::COMPUTED_GOTO => fits(b, Sort::is_number),
        code::FORMAT => {
            fits(a, |sort| sort == Sort::AlphaPlace)
                && fits(b, Sort::is_alpha_source)
                && fits(c, Sort::is_number)
        }
        code::FOR => {
            fits(a, |sort| sort == Sort::DecimalPlace)
                && three_from(parts.expressions, b)
                    .is_some_and(|numbers| numbers.iter().all(|&b| fits(b, Sort::is_number)))
        }
        _ => true,
    }
}

#[cfg(test)]
mod tests {
    use crate::sample::{answer, Sample, StatementEntry};
    use crate::unit::LONGEST;

    const PASSED: (u8, usize) = (0, 0);

    #[test]
    fn example_of_the_paper_passes() {
        let unit = *b"41\x01\0\0\0\0\x02\0\x01\x02\0\0\0\x03\0\0\0\0\0\0\0\x0B\0\0\0\0\0\0\0\
            \0\x02\0\x01\0\x04\0\0\0\x02\x44\x42";
        assert_eq!(unit.len(), 42);
        assert_eq!(answer(&unit), PASSED);
        for length in 0..unit.len() {
            assert_eq!(answer(&unit[..length]), (1, 0));
        }
    }

    #[test]
    fn shortest_unit_is_out_of_range_and_not_unfilled() {
        let mut unit = vec![0; 12];
        assert_eq!(answer(&unit), (1, 0));
        unit[10..].copy_from_slice(&[0x44, 0x42]);
        assert_eq!(answer(&unit), (2, 0));
        unit[1] = 1;
        assert_eq!(answer(&unit), (1, 0));
    }

    #[test]
    fn longest_unit_passes_and_one_byte_more_is_1() {
        let mut longest = Sample {
            image: vec![b' '; 16_383],
            fields: vec![(0, 0, 1, 1); 512],
            choices: vec![0x80; 512],
            expressions: vec![0; 16_383],
            literals: vec![b' '; 4_095],
            statements: vec![(11, 0, 0, 0); 2_048],
        };
        for (offset, field) in (0..).zip(&mut longest.fields) {
            field.1 = offset;
        }
        assert_eq!(longest.unit().len(), LONGEST);
        assert_eq!(longest.answer(), PASSED);
        longest.literals.push(b' ');
        assert_eq!(longest.answer(), (1, 0));
    }

    /// The answers for the least unit changed in one part.
    fn answer_with(change: impl Fn(&mut Sample)) -> (u8, usize) {
        let mut sample = Sample::least();
        change(&mut sample);
        sample.answer()
    }

    #[test]
    fn both_sides_of_each_range() {
        assert_eq!(answer_with(|sample| sample.image.clear()), (2, 0));
        assert_eq!(answer_with(|_| ()), PASSED);
        assert_eq!(
            answer_with(|sample| sample.image.resize(16_383, b' ')),
            PASSED
        );
        assert_eq!(
            answer_with(|sample| sample.image.resize(16_384, b' ')),
            (2, 0)
        );
        assert_eq!(
            answer_with(|sample| sample.fields.resize(512, (2, 0, 1, 1))),
            PASSED
        );
        assert_eq!(
            answer_with(|sample| sample.fields.resize(513, (2, 0, 1, 1))),
            (2, 0)
        );
        assert_eq!(
            answer_with(|sample| sample.expressions.resize(16_383, 0)),
            PASSED
        );
        assert_eq!(
            answer_with(|sample| sample.expressions.resize(16_384, 0)),
            (2, 0)
        );
        assert_eq!(
            answer_with(|sample| sample.literals.resize(4_095, 0)),
            PASSED
        );
        assert_eq!(
            answer_with(|sample| sample.literals.resize(4_096, 0)),
            (2, 0)
        );
        assert_eq!(answer_with(|sample| sample.statements.clear()), (2, 0));
        assert_eq!(
            answer_with(|sample| sample.statements.resize(2_048, (10, 0, 0, 0))),
            PASSED
        );
        assert_eq!(
            answer_with(|sample| sample.statements.resize(2_049, (10, 0, 0, 0))),
            (2, 0)
        );
    }

    #[test]
    fn field_rules() {
        let over_twenty = |fields: &[_]| {
            answer_with(|sample| {
                sample.image.resize(20, b'0');
                sample.fields = fields.to_vec();
            })
        };
        assert_eq!(over_twenty(&[(0, 0, 20, 1)]), PASSED);
        assert_eq!(over_twenty(&[(0, 0, 21, 1)]), (3, 0));
        assert_eq!(over_twenty(&[(0, 20, 1, 1)]), (3, 0));
        assert_eq!(over_twenty(&[(0, 0, 0, 1)]), (3, 0));
        assert_eq!(over_twenty(&[(0, 0, 1, 0)]), (3, 0));
        assert_eq!(over_twenty(&[(0, 0, 65_535, 65_535)]), (3, 0));
        assert_eq!(over_twenty(&[(1, 0, 18, 1)]), PASSED);
        assert_eq!(over_twenty(&[(1, 0, 19, 1)]), (3, 0));
        assert_eq!(over_twenty(&[(1, 0, 10, 2)]), PASSED);
        assert_eq!(over_twenty(&[(2, 0, 10, 2)]), (3, 0));
        assert_eq!(over_twenty(&[(3, 0, 1, 1)]), (3, 0));
        assert_eq!(over_twenty(&[(0, 0, 2, 2), (1, 4, 1, 1)]), PASSED);
        assert_eq!(over_twenty(&[(0, 0, 2, 2), (1, 3, 1, 1)]), (3, 1));
        assert_eq!(
            over_twenty(&[(0, 4, 1, 1), (2, 0, 20, 1), (1, 3, 1, 1)]),
            (3, 2)
        );
        assert_eq!(
            over_twenty(&[(2, 9, 9, 1), (0, 4, 1, 1), (2, 0, 1, 1), (1, 5, 1, 1)]),
            PASSED
        );
    }

    #[test]
    fn byte_1_of_an_entry_is_00_or_80() {
        for entry in 0..3 {
            for byte in 0..=255 {
                let mut sample = Sample::fields((11, 0, 0, 0), b"");
                sample.choices = vec![0; entry];
                sample.choices.push(byte);
                let wanted = match byte {
                    0x00 | 0x80 => PASSED,
                    _ => (3, entry),
                };
                assert_eq!(sample.answer(), wanted, "{byte:02X} of entry {entry}");
            }
        }
    }

    #[test]
    fn a_strict_entry_keeps_the_other_rules() {
        for bad in [
            (0, 0, 11, 1),
            (0, 10, 1, 1),
            (0, 0, 0, 1),
            (0, 0, 1, 0),
            (1, 0, 19, 1),
            (2, 0, 5, 2),
            (3, 0, 1, 1),
        ] {
            let mut sample = Sample::fields((11, 0, 0, 0), b"");
            sample.fields = vec![bad];
            assert_eq!(sample.strict().answer(), (3, 0), "{bad:?}");
        }
        let mut shared = Sample::fields((11, 0, 0, 0), b"");
        shared.fields = vec![(0, 0, 2, 2), (1, 3, 1, 1)];
        assert_eq!(shared.strict().answer(), (3, 1));
        let mut both = Sample::fields((11, 0, 0, 0), b"");
        (both.fields, both.choices) = (vec![(0, 0, 1, 1), (0, 0, 0, 1)], vec![0x80, 0x81]);
        assert_eq!(both.answer(), (3, 1));
    }

    fn answer_to(statements: &[StatementEntry]) -> (u8, usize) {
        // The expressions are a decimal place at 0, an alpha place at 4 and a number at 8.
        let expressions = b"\x02\0\0\0\x02\0\x01\0\x01\0\0\x01\0";
        let mut sample = Sample::fields((11, 0, 0, 0), expressions);
        sample.statements = statements.to_vec();
        sample.answer()
    }

    #[test]
    fn unused_parts_are_zero() {
        for (statement, used) in [
            ((1, 0, 8, 0), [true, true, false]),
            ((2, 0, 0, 0), [true, false, false]),
            ((3, 0, 0, 0), [true, false, false]),
            ((4, 0, 0, 0), [true, false, false]),
            ((5, 4, 0, 0), [true, false, false]),
            ((6, 4, 0, 0), [true, false, false]),
            ((7, 0, 0, 0), [false, false, true]),
            ((8, 0, 8, 0), [false, true, true]),
            ((9, 0, 0, 0), [false, false, true]),
            ((10, 0, 0, 0), [false, false, false]),
            ((11, 0, 0, 0), [false, false, false]),
            ((12, 1, 8, 0), [true, true, false]),
            ((13, 4, 4, 8), [true, true, true]),
            ((15, 0, 0, 0), [false, false, false]),
            ((16, 0, 0, 0), [false, false, false]),
            ((17, 0, 0, 0), [false, false, false]),
            ((18, 0, 0, 0), [false, false, true]),
            ((19, 0, 0, 0), [false, false, false]),
        ] {
            let goto = (7, 0, 0, 0);
            assert_eq!(answer_to(&[statement, goto]), PASSED, "{statement:?}");
            let (code, a, b, c) = statement;
            let changed = [(code, 1, b, c), (code, a, 1, c), (code, a, b, 1)];
            for (changed, used) in changed.into_iter().zip(used) {
                if !used {
                    assert_eq!(answer_to(&[changed, goto]), (5, 0), "{changed:?}");
                }
            }
        }
    }

    #[test]
    fn codes_and_targets() {
        for code in (0..=255).filter(|code| !(1..=19).contains(code)) {
            assert_eq!(answer_to(&[(code, 0, 0, 0)]), (5, 0), "{code}");
        }
        for code in [7, 9, 18] {
            assert_eq!(answer_to(&[(11, 0, 0, 0), (code, 0, 0, 1)]), PASSED);
            for target in [2, 256, 257, 65_535] {
                let statements = [(11, 0, 0, 0), (code, 0, 0, target)];
                assert_eq!(answer_to(&statements), (5, 1), "{code} {target}");
            }
        }
        assert_eq!(answer_to(&[(8, 0, 8, 1)]), (5, 0));
        assert_eq!(answer_to(&[(8, 0, 13, 1)]), (5, 0));
        assert_eq!(answer_to(&[(8, 0, 13, 0)]), (4, 0));
    }

    #[test]
    fn tables() {
        let table = |n: u16, gotos: usize| {
            let mut statements = vec![(12, n, 8, 0)];
            statements.resize(gotos + 1, (7, 0, 0, 0));
            answer_to(&statements)
        };
        assert_eq!(table(0, 1), (5, 0));
        assert_eq!(table(1, 1), PASSED);
        assert_eq!(table(2, 1), (5, 0));
        assert_eq!(table(255, 255), PASSED);
        assert_eq!(table(255, 254), (5, 0));
        assert_eq!(table(256, 256), (5, 0));
        assert_eq!(answer_to(&[(12, 1, 8, 0), (7, 0, 0, 2)]), (5, 1));
        assert_eq!(answer_to(&[(12, 1, 4, 0), (7, 0, 0, 2)]), (4, 0));
        assert_eq!(
            answer_to(&[(12, 2, 8, 0), (7, 0, 0, 0), (11, 0, 0, 0)]),
            (5, 0)
        );
    }

    #[test]
    fn sorts_wanted() {
        // For each code: whether a decimal place, an alpha place and a number serve.
        for (code, wanted) in [
            (1, [true, true, false]),
            (2, [true, true, false]),
            (3, [true, false, false]),
            (4, [true, false, false]),
            (5, [false, true, false]),
            (6, [false, true, false]),
            (8, [true, false, true]),
            (12, [true, false, true]),
        ] {
            for (offset, serves) in [0, 4, 8].into_iter().zip(wanted) {
                let statement = match code {
                    8 => (code, 0, offset, 0),
                    12 => (code, 1, offset, 0),
                    _ => (code, offset, 0, 0),
                };
                let answer = answer_to(&[statement, (7, 0, 0, 0)]);
                assert_eq!(
                    answer,
                    if serves { PASSED } else { (4, 0) },
                    "{statement:?}"
                );
            }
        }
    }

    #[test]
    fn a_formatted_move_has_a_place_a_mask_and_a_number() {
        // For each part: whether a decimal place, an alpha place, a number, an alpha literal, and
        // an offset outside the expressions serve.
        let expressions = b"\x02\0\0\0\x02\0\x01\0\x01\0\0\x01\0\x06\0\0\0\x02\0";
        let good: [u16; 3] = [4, 13, 8];
        for (part, wanted) in [
            [false, true, false, false, false],
            [false, true, false, true, false],
            [true, false, true, false, false],
        ]
        .into_iter()
        .enumerate()
        {
            for (offset, serves) in [0, 4, 8, 13, 19].into_iter().zip(wanted) {
                let mut parts = good;
                parts[part] = offset;
                let [a, b, c] = parts;
                let sample = Sample::fields((13, a, b, c), expressions);
                let wanted = if serves { PASSED } else { (4, 0) };
                assert_eq!(sample.answer(), wanted, "part {part} at {offset}");
                let mut unit = sample.unit();
                let zero = unit.len() - 12 - 8 + 1;
                unit[zero] = 1;
                assert_eq!(answer(&unit), (5, 0));
            }
        }
    }

    #[test]
    fn a_formatted_move_is_no_goto_of_a_table() {
        assert_eq!(answer_to(&[(12, 1, 8, 0), (13, 4, 4, 8)]), (5, 0));
        assert_eq!(
            answer_to(&[(12, 1, 8, 0), (7, 0, 0, 2), (13, 4, 4, 8)]),
            PASSED
        );
    }

    /// The answer for these statements over a decimal place at 0, an alpha place at 4, the numbers
    /// 1, 2 and 3 at 8, 13 and 18, an alpha literal at 23 and two numbers behind it at 29.
    fn answer_to_loops(statements: &[StatementEntry]) -> (u8, usize) {
        let expressions = b"\x02\0\0\0\x02\0\x01\0\
            \x01\0\0\x01\0\x01\0\x01\x01\0\x01\0\x02\x01\0\
            \x06\0\0\0\x02\0\x01\0\0\x01\0\x01\0\0\x01\0";
        let mut sample = Sample::fields((11, 0, 0, 0), expressions);
        sample.statements = statements.to_vec();
        sample.answer()
    }

    #[test]
    fn a_for_names_a_loop_end_behind_it() {
        let (stop, end) = ((11, 0, 0, 0), (15, 0, 0, 0));
        let entered = |c| (14, 0, 8, c);
        assert_eq!(answer_to_loops(&[entered(1), end]), PASSED);
        assert_eq!(answer_to_loops(&[end, entered(2), end]), PASSED);
        assert_eq!(answer_to_loops(&[end, entered(0), end]), (5, 1));
        assert_eq!(answer_to_loops(&[end, entered(1), end]), (5, 1));
        assert_eq!(answer_to_loops(&[entered(0), end]), (5, 0));
        assert_eq!(answer_to_loops(&[entered(1), stop, end]), (5, 0));
        assert_eq!(answer_to_loops(&[entered(2), stop, end]), PASSED);
        for c in [2, 256, 257, 65_535] {
            assert_eq!(answer_to_loops(&[entered(c), end]), (5, 0), "{c}");
        }
        for code in (0..=255).filter(|&code| code != 15) {
            let other = (code, 0, 0, 0);
            assert_eq!(answer_to_loops(&[entered(1), other]), (5, 0), "{code}");
        }
    }

    #[test]
    fn a_table_has_no_handlers() {
        for code in [18, 19] {
            assert_eq!(answer_to(&[(12, 1, 8, 0), (code, 0, 0, 0)]), (5, 0));
            let behind = [(12, 1, 8, 0), (7, 0, 0, 0), (code, 0, 0, 0)];
            assert_eq!(answer_to(&behind), PASSED);
        }
    }

    #[test]
    fn a_handler_has_a_zero_byte() {
        for code in [18, 19] {
            let sample = Sample::fields((code, 0, 0, 0), b"");
            let mut unit = sample.unit();
            assert_eq!(answer(&unit), PASSED);
            let zero = unit.len() - 12 - 8 + 1;
            unit[zero] = 1;
            assert_eq!(answer(&unit), (5, 0));
        }
    }

    #[test]
    fn a_loop_end_is_judged_in_its_own_turn() {
        assert_eq!(answer_to_loops(&[(14, 0, 8, 1), (15, 0, 0, 1)]), (5, 1));
        assert_eq!(answer_to_loops(&[(14, 4, 8, 1), (15, 0, 0, 1)]), (4, 0));
        let mut sample = Sample::fields((15, 0, 0, 0), b"");
        for code in [15, 16, 17] {
            sample.statements[0].0 = code;
            let mut unit = sample.unit();
            let zero = unit.len() - 12 - 8 + 1;
            assert_eq!(answer(&unit), PASSED);
            unit[zero] = 1;
            assert_eq!(answer(&unit), (5, 0));
        }
    }

    #[test]
    fn entries_may_share_an_end_and_ends_stand_alone() {
        let (end, entered) = ((15, 0, 0, 0), |c| (14, 0, 8, c));
        assert_eq!(answer_to_loops(&[end]), PASSED);
        assert_eq!(answer_to_loops(&[entered(2), entered(2), end]), PASSED);
        assert_eq!(answer_to_loops(&[entered(2), entered(3), end, end]), PASSED);
    }

    #[test]
    fn a_table_has_no_loops() {
        for code in 14..=17 {
            let statements = [(12, 1, 8, 0), (code, 0, 0, 0), (15, 0, 0, 0)];
            assert_eq!(answer_to_loops(&statements), (5, 0));
        }
    }

    #[test]
    fn a_for_has_a_decimal_place_and_three_numbers_in_a_row() {
        let answer = |a, b| answer_to_loops(&[(14, a, b, 1), (15, 0, 0, 0)]);
        assert_eq!(answer(0, 8), PASSED);
        for a in [4, 8, 23, 45, 65_535] {
            assert_eq!(answer(a, 8), (4, 0), "place at {a}");
        }
        // The numbers from 13 on are two, and then the alpha literal is the step; from 18 on it is
        // the limit, and from 23 on the start.
        for b in [4, 13, 18, 23, 29, 39, 44, 45, 65_535] {
            assert_eq!(answer(0, b), (4, 0), "numbers at {b}");
        }
        // A decimal place is a number, and the row may begin inside another expression.
        let row = |items: &[u8], b| {
            let mut sample = Sample::fields((14, 0, b, 1), items);
            sample.statements.push((15, 0, 0, 0));
            sample.answer()
        };
        assert_eq!(row(b"\x02\0\0\0\x02\0\0\0\x02\0\0\0", 0), PASSED);
        assert_eq!(row(b"\x02\0\0\0\x02\0\0\0\x02\0\x01\0", 0), (4, 0));
        assert_eq!(row(b"\x02\0\0\0\x02\0\x01\0\x02\0\0\0", 0), (4, 0));
        assert_eq!(row(b"\x02\0\0\0\x02\0\0\0\x02\0\0", 0), (4, 0));
        assert_eq!(row(b"\x02\0\0\0\x02\0\0\0\0", 0), (4, 0));
        let inside = b"\x02\0\0\x02\0\0\x10\0\x02\0\0\0\x02\0\0\0";
        assert_eq!(row(inside, 0), (4, 0), "no place at 0");
        let shared = b"\x02\0\0\0\x02\0\0\x02\0\0\x10\0\x02\0\0\0\x02\0\0\0";
        assert_eq!(row(shared, 4), PASSED);
        assert_eq!(row(shared, 0), PASSED);
        assert_eq!(row(shared, 7), (4, 0), "a value is missing");
    }

    #[test]
    fn five_goes_before_four_and_statements_in_turn() {
        assert_eq!(answer_to(&[(3, 99, 1, 0)]), (5, 0));
        assert_eq!(answer_to(&[(3, 99, 0, 0), (0, 0, 0, 0)]), (4, 0));
        assert_eq!(answer_to(&[(3, 0, 0, 0), (0, 0, 0, 0)]), (5, 1));
    }
}
