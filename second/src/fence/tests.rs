//! Tests of the fence check.

use super::*;
use crate::sample::Sample;

/// An alpha A4 (field 0), a D3 array of two (1), an alpha array of A2 (2), a gap of two bytes, a
/// D2 (3), and records over everything (4) and over the alphas and the gap (5).
fn sample() -> Sample {
    Sample::over(
        "abcd001002wxyz..07",
        &[
            (0, 0, 4, 1),
            (1, 4, 3, 2),
            (0, 10, 2, 2),
            (1, 16, 2, 1),
            (2, 0, 18, 1),
            (2, 10, 6, 1),
        ],
    )
}

/// The number of the rule that the only statement breaks, or 0. With strict fields it is the same.
fn broken(sample: Sample) -> u8 {
    let unit = sample.unit();
    let number = breach(&unit, 0).map_or(0, Breach::number);
    let wanted = if number == 0 {
        Fence::Yes
    } else {
        Fence::No(0)
    };
    assert_eq!(fence(&unit), wanted);
    let first = breaches(&unit).next();
    assert_eq!(
        first
            .map(|one| (one.statement, one.rule.number()))
            .unwrap_or_default(),
        (0, number)
    );
    let strict = sample.strict().unit();
    assert_eq!(fence(&strict), wanted);
    assert_eq!(breach(&strict, 0), breach(&unit, 0));
    assert!(breaches(&strict).eq(breaches(&unit)));
    number
}

/// The numbers of every reference that breaks a rule. The first of each statement has the rule that
/// is told of the statement, and others have none.
fn rows(sample: &Sample) -> Vec<[u64; 8]> {
    let unit = sample.unit();
    let rows: Vec<[u64; 8]> = breaches(&unit).map(|one| one.numbers()).collect();
    for i in 0..sample.statements.len() {
        let first = rows.iter().find(|row| row[0] == i as u64);
        let rule = breach(&unit, i).map(|rule| u64::from(rule.number()));
        assert_eq!(first.map(|row| row[1]), rule, "statement {i}");
    }
    let first = rows.first().map(|row| Fence::No(row[0] as usize));
    assert_eq!(fence(&unit), first.unwrap_or(Fence::Yes));
    rows
}

/// A read of a decimal reference, by the branch on zero.
fn read(reference: &str) -> u8 {
    broken(sample().by(code::GOTO_IF_ZERO, reference, 0))
}

/// A read of an alpha reference, by a SET of field 0.
fn read_alpha(reference: &str) -> u8 {
    broken(sample().set("%0", reference))
}

/// A write, by a CLEAR.
fn written(place: &str) -> u8 {
    broken(sample().on(code::CLEAR, place))
}

#[test]
fn bounds_are_literals_or_negated_literals() {
    assert_eq!(read("2 %1()"), 0);
    assert_eq!(read("02 %1()"), 0);
    assert_eq!(read("000000000000000002 %1()"), 0);
    assert_eq!(read("%3 %1()"), 1);
    assert_eq!(read("1 1 + %1()"), 1);
    assert_eq!(read("1 neg neg %1()"), 1);
    assert_eq!(read("0 NOT %1()"), 1);
    assert_eq!(read("1 %1() %1()"), 1);
    assert_eq!(read("4 6 %1(,)"), 0);
    assert_eq!(read("%3 6 %1(,)"), 1);
    assert_eq!(read("4 %3 %1(,)"), 1);
    assert_eq!(read("4 3 3 + %1(,)"), 1);
    assert_eq!(read("6 3 neg %1(:)"), 0);
    assert_eq!(read("6 3 neg neg %1(:)"), 1);
    assert_eq!(read("6 1 + 3 neg %1(:)"), 1);
    assert_eq!(written("2 3 %0(,)"), 0);
    assert_eq!(written("2 %3 %0(,)"), 1);
}

#[test]
fn bounds_are_not_ones_that_21_is_given_for() {
    assert_eq!(read("0 3 %1(,)"), 2);
    assert_eq!(read("3 neg 3 %1(,)"), 2);
    assert_eq!(read("3 2 %1(,)"), 2);
    assert_eq!(read("3 3 neg %1(,)"), 2);
    assert_eq!(read("3 3 %1(,)"), 0);
    assert_eq!(read("0 1 %1(:)"), 2);
    assert_eq!(read("1 neg 1 %1(:)"), 2);
    assert_eq!(read("1 0 %1(:)"), 2);
    assert_eq!(read("1 0 neg %1(:)"), 2);
    assert_eq!(read("1 1 neg %1(:)"), 0);
}

#[test]
fn subscripts_of_the_field_the_data_and_neither() {
    for (subscript, rule) in [
        ("1", 0),
        ("2", 0),
        ("3", 3),
        ("4", 3),
        ("5", 2),
        ("0", 3),
        ("0 neg", 3),
        ("1 neg", 2),
        ("999999999999999999", 2),
        ("999999999999999999 neg", 2),
    ] {
        assert_eq!(read(&format!("{subscript} %1()")), rule, "{subscript}");
    }
}

#[test]
fn a_span_outside_the_data_is_given_21() {
    assert_eq!(read("7 14 %1(,)"), 3);
    assert_eq!(read("7 15 %1(,)"), 2);
    assert_eq!(read("7 999999999999999999 %1(,)"), 2);
    assert_eq!(read("1 5 neg %1(:)"), 3);
    assert_eq!(read("1 6 neg %1(:)"), 2);
    assert_eq!(read("6 9 %1(:)"), 3);
    assert_eq!(read("6 10 %1(:)"), 2);
    assert_eq!(read("2 %3()"), 2);
    assert_eq!(read_alpha("2 %4()"), 2);
    assert_eq!(read_alpha("18 1 %4(:)"), 0);
    assert_eq!(read_alpha("18 2 %4(:)"), 2);
    assert_eq!(written("1 19 %4(,)"), 2);
}

#[test]
fn a_span_lies_inside_its_field() {
    assert_eq!(read("6 6 %1(,)"), 0);
    assert_eq!(read("6 7 %1(,)"), 3);
    assert_eq!(read("7 7 %1(,)"), 3);
    assert_eq!(read("1 2 neg %1(:)"), 3);
    assert_eq!(read("6 1 %1(:)"), 0);
    assert_eq!(read("6 2 %1(:)"), 3);
    assert_eq!(read_alpha("1 4 %2(,)"), 0);
    assert_eq!(read_alpha("1 5 %2(,)"), 3);
    assert_eq!(read_alpha("2 %2()"), 0);
    assert_eq!(read_alpha("3 %2()"), 3);
    assert_eq!(read_alpha("2 %0()"), 3);
    assert_eq!(read_alpha("1 %4()"), 0);
    assert_eq!(written("1 5 %0(,)"), 3);
}

#[test]
fn a_decimal_span_lies_in_one_element() {
    assert_eq!(read("2 3 %1(,)"), 0);
    assert_eq!(read("3 4 %1(,)"), 4);
    assert_eq!(read("1 6 %1(,)"), 4);
    assert_eq!(read("4 2 neg %1(:)"), 4);
    assert_eq!(written("3 6 %1(,)"), 4);
    assert_eq!(written("3 4 %1(,)"), 4);
    assert_eq!(read_alpha("2 3 %2(,)"), 0);
}

#[test]
fn a_decimal_destination_ends_at_the_last_character() {
    assert_eq!(written("%1"), 0);
    assert_eq!(written("2 %1()"), 0);
    assert_eq!(written("2 3 %1(,)"), 0);
    assert_eq!(written("6 6 %1(,)"), 0);
    assert_eq!(written("1 2 %1(,)"), 5);
    assert_eq!(written("4 5 %1(,)"), 5);
    assert_eq!(written("1 1 %3(:)"), 5);
    assert_eq!(read("1 2 %1(,)"), 0);
    for statement in [code::INCR, code::DECR] {
        assert_eq!(broken(sample().on(statement, "1 1 %3(,)")), 5);
        assert_eq!(broken(sample().on(statement, "2 2 %3(,)")), 0);
    }
    assert_eq!(broken(sample().set("1 2 %1(,)", "5")), 5);
}

#[test]
fn an_alpha_destination_shares_no_byte_with_a_decimal() {
    assert_eq!(written("%0"), 0);
    assert_eq!(written("%4"), 6);
    assert_eq!(written("%5"), 0);
    assert_eq!(written("1 4 %4(,)"), 0);
    assert_eq!(written("1 5 %4(,)"), 6);
    assert_eq!(written("10 10 %4(,)"), 6);
    assert_eq!(written("11 16 %4(,)"), 0);
    assert_eq!(written("16 2 %4(:)"), 6);
    assert_eq!(written("15 2 %4(:)"), 0);
    assert_eq!(read_alpha("%4"), 0);
    for statement in [code::UPCASE, code::LOCASE] {
        assert_eq!(broken(sample().on(statement, "%4")), 6);
        assert_eq!(broken(sample().on(statement, "%5")), 0);
    }
    assert_eq!(broken(sample().set("%4", "\"x\"")), 6);
}

#[test]
fn a_formatted_move_writes_its_place_and_reads_mask_and_number() {
    let rule = |place, mask, number| broken(sample().format(place, mask, number));
    let (place, mask, number) = ("%0", "\"ZZ\"", "%3");
    assert_eq!(rule(place, mask, number), 0);
    assert_eq!(rule(place, "%4", "1 2 %1(,)"), 0);
    assert_eq!(rule("%5", "%0", "7 neg"), 0);
    for (place, wanted) in [("%4", 6), ("1 5 %4(,)", 6), ("1 5 %0(,)", 3)] {
        assert_eq!(rule(place, mask, number), wanted, "{place}");
    }
    for (mask, wanted) in [("1 5 %0(,)", 3), ("%3 %2()", 1), ("19 1 %4(:)", 2)] {
        assert_eq!(rule(place, mask, number), wanted, "{mask}");
    }
    for (number, wanted) in [("3 %1()", 3), ("3 4 %1(,)", 4)] {
        assert_eq!(rule(place, mask, number), wanted, "{number}");
    }
    // a before b before c.
    assert_eq!(rule("%4", "%3 %2()", "3 %1()"), 6);
    assert_eq!(rule(place, "%3 %2()", "3 %1()"), 1);
}

#[test]
fn a_for_writes_its_control_and_reads_its_numbers() {
    let rule = |control, numbers| broken(sample().looped(control, numbers, |body| body));
    // A reference as the control, and as each of the numbers.
    let parts = |it| {
        let numbers = [[it, "9", "2"], ["1", it, "2"], ["1", "9", it]];
        let read = numbers.map(|numbers| rule("%3", numbers));
        (rule(it, ["1", "%3", "2 %1()"]), read)
    };
    for (reference, wanted) in [
        ("%3", 0),
        ("2 %1()", 0),
        ("2 3 %1(,)", 0),
        ("%3 %1()", 1),
        ("5 %1()", 2),
        ("3 %1()", 3),
        ("3 4 %1(,)", 4),
    ] {
        assert_eq!(parts(reference), (wanted, [wanted; 3]), "{reference}");
    }
    assert_eq!(parts("1 2 %1(,)"), (5, [0; 3]));
    // The control before the start before the limit before the step.
    assert_eq!(rule("1 2 %1(,)", ["%3 %1()", "3 %1()", "3 4 %1(,)"]), 5);
    assert_eq!(rule("%3", ["%3 %1()", "3 %1()", "3 4 %1(,)"]), 1);
    assert_eq!(rule("%3", ["1", "3 %1()", "3 4 %1(,)"]), 3);
}

#[test]
fn the_first_rule_broken_is_answered() {
    // a before b, references left to right, the rules of each in their order.
    assert_eq!(broken(sample().set("%4", "%3 %1()")), 6);
    assert_eq!(broken(sample().set("%0", "3 %1() %3 %1() +")), 3);
    assert_eq!(broken(sample().set("%0", "%3 %1() 3 %1() +")), 1);
    assert_eq!(broken(sample().set("3 %1() %0()", "1")), 3);
    assert_eq!(read("0 %3 %1(,)"), 1);
    assert_eq!(read("9 0 %1(,)"), 2);
    assert_eq!(read("3 15 %1(,)"), 2);
    assert_eq!(read("3 9 %1(,)"), 3);
    assert_eq!(written("3 5 %1(,)"), 4);
    assert_eq!(written("5 19 %4(,)"), 2);
}

#[test]
fn a_bound_that_is_a_reference_keeps_the_rules_first() {
    // The inner reference is met first, and is no literal to the outer one.
    assert_eq!(read("3 %1() %1()"), 3);
    assert_eq!(read("1 %1() %1()"), 1);
}

#[test]
fn statements_without_references_keep_the_rules() {
    for statement in [code::GOTO, code::CALL, code::RETURN, code::STOP]
        .into_iter()
        .chain(code::LOOP_END..=code::OFFERROR)
    {
        assert_eq!(broken(sample().to(statement, 0)), 0);
    }
    assert_eq!(broken(sample().by(code::GOTO_IF_ZERO, "1 0 /", 0)), 0);
    let computed = |number| {
        sample()
            .by(code::COMPUTED_GOTO, number, 1)
            .to(code::GOTO, 0)
    };
    assert_eq!(broken(computed("1 %1()")), 0);
    assert_eq!(broken(computed("3 %1()")), 3);
}

#[test]
fn the_first_statement_is_named_reachable_or_not() {
    let unit = sample()
        .to(code::STOP, 0)
        .on(code::CLEAR, "%4")
        .on(code::CLEAR, "%3 %1()")
        .unit();
    assert_eq!(fence(&unit), Fence::No(1));
    let numbers = [0, 1, 2, 3, 9].map(|i| breach(&unit, i).map_or(0, Breach::number));
    assert_eq!(numbers, [0, 6, 1, 0, 0]);
}

#[test]
fn refused_units_are_refused() {
    let refused = |stop, place| Fence::Refused(Refusal { stop, place });
    assert_eq!(fence(b""), refused(1, 0));
    let unit = sample().on(code::CLEAR, "%4").to(code::GOTO, 2).unit();
    assert_eq!(fence(&unit), refused(5, 1));
    assert_eq!(breach(&unit, 0), None);
    let unit = sample().on(code::INCR, "%0").unit();
    assert_eq!(fence(&unit), refused(4, 0));
}

#[test]
fn every_reference_has_its_own_rule() {
    // A place of one item, then a source of 3 %1(), which ends at 11, and what follows.
    let source = "3 %1() %3 %1() + 1 6 %1(,) + 5 %1() - 1 %1() +";
    let wanted = [
        [0, 6, 1, 4, 2, 0, 18, 0],
        [0, 3, 0, 1, 3, 10, 3, 8],
        [0, 1, 0, 1, 3, 0, 0, 14],
        [0, 4, 0, 1, 4, 4, 6, 26],
        [0, 2, 0, 1, 3, 0, 0, 34],
    ];
    assert_eq!(rows(&sample().set("%4", source)), wanted);
    // What the place breaks is not asked of the source.
    assert_eq!(rows(&sample().set("%0", source)), wanted[1..]);
}

#[test]
fn what_stands_in_the_bounds_of_a_destination_is_read() {
    let wanted = [[0, 3, 0, 1, 3, 10, 3, 4], [0, 1, 1, 1, 3, 0, 0, 7]];
    assert_eq!(rows(&sample().on(code::CLEAR, "3 %1() %1()")), wanted);
    // A part that ends inside its element may be read.
    let wanted = [[0, 1, 1, 1, 3, 0, 0, 11]];
    assert_eq!(rows(&sample().on(code::INCR, "1 2 %1(,) %1()")), wanted);
}

#[test]
fn a_shared_reference_comes_for_each_use() {
    // The same expression in a CLEAR, a branch on zero and both parts of a SET.
    let shared = |place| {
        let mut sample = sample().on(code::CLEAR, place);
        sample.statements.push((code::GOTO_IF_ZERO, 0, 0, 0));
        sample.statements.push((code::SET, 0, 0, 0));
        rows(&sample)
    };
    let written = |i| [i, 5, 1, 1, 4, 4, 2, 8];
    assert_eq!(shared("1 2 %1(,)"), [written(0), written(2)]);
    let used = |i, written| [i, 3, written, 1, 3, 10, 3, 4];
    let wanted = [used(0, 1), used(1, 0), used(2, 1), used(2, 0)];
    assert_eq!(shared("3 %1()"), wanted);
}

#[test]
fn the_parts_of_a_formatted_move_and_of_a_for_come_in_their_order() {
    let format = sample().format("%4", "%3 %2()", "3 %1()");
    let wanted = [
        [0, 6, 1, 4, 2, 0, 18, 0],
        [0, 1, 0, 2, 3, 0, 0, 7],
        [0, 3, 0, 1, 3, 10, 3, 15],
    ];
    assert_eq!(rows(&format), wanted);
    let numbers = ["%3 %1()", "5 %1()", "3 4 %1(,)"];
    let looped = sample().looped("1 2 %1(,)", numbers, |body| body.on(code::CLEAR, "%4"));
    let wanted = [
        [0, 5, 1, 1, 4, 4, 2, 8],
        [0, 1, 0, 1, 3, 0, 0, 15],
        [0, 2, 0, 1, 3, 0, 0, 23],
        [0, 4, 0, 1, 4, 6, 2, 35],
        [1, 6, 1, 4, 2, 0, 18, 39],
    ];
    assert_eq!(rows(&looped), wanted);
}

#[test]
fn spans_are_told_where_the_bounds_fix_one() {
    let read = |reference| rows(&sample().by(code::GOTO_IF_ZERO, reference, 0));
    assert_eq!(read("1 2 neg %1(:)"), [[0, 3, 0, 1, 5, 3, 2, 9]]);
    assert_eq!(read("6 3 %1(:)"), [[0, 3, 0, 1, 5, 9, 3, 8]]);
    assert_eq!(read("4 2 neg %1(:)"), [[0, 4, 0, 1, 5, 6, 2, 9]]);
    assert_eq!(read("0 %1()"), [[0, 3, 0, 1, 3, 1, 3, 4]]);
    assert_eq!(read("7 14 %1(,)"), [[0, 3, 0, 1, 4, 10, 8, 8]]);
    // Rules 1 and 2 fix none, not even where all but one bound is known.
    assert_eq!(read("7 15 %1(,)"), [[0, 2, 0, 1, 4, 0, 0, 8]]);
    assert_eq!(read("4 %3 %1(,)"), [[0, 1, 0, 1, 4, 0, 0, 7]]);
    let written = |place| rows(&sample().on(code::CLEAR, place));
    assert_eq!(written("1 5 %4(,)"), [[0, 6, 1, 4, 4, 0, 5, 8]]);
    assert_eq!(written("1 %4()"), [[0, 6, 1, 4, 3, 0, 18, 4]]);
    assert_eq!(written("5 1 %5(:)"), [[0; 8]; 0]);
}

#[test]
fn a_unit_that_is_refused_has_no_breaking_reference() {
    let sound = sample().on(code::CLEAR, "%4").to(code::STOP, 0);
    assert_eq!(rows(&sound).len(), 1);
    let refused = sound.to(code::GOTO, 3).unit();
    assert_eq!(breaches(&refused).count(), 0);
    assert_eq!(breaches(b"").count(), 0);
}

#[test]
fn rules_are_numbered_in_order() {
    let rules = [
        Breach::BoundNotLiteral,
        Breach::BoundsWrong,
        Breach::LeavesField,
        Breach::OverElements,
        Breach::StopsMidElement,
        Breach::OnDecimal,
    ];
    assert_eq!(rules.map(Breach::number), [1, 2, 3, 4, 5, 6]);
}
