//! The binding against the linked library: exact answers, as a host sees them.

use dibol::{ffi, Breach, Broken, Field, Form, Kind, Loop, Parts, Refusal};
use dibol::{State, Stop, Trapped, Unit, Validity, Verdict};

/// The 42 bytes of document 01's example: INCR of "41", then STOP.
const EXAMPLE: [u8; 42] = *b"41\x01\0\0\0\0\x02\0\x01\x02\0\0\0\
    \x03\0\0\0\0\0\0\0\x0B\0\0\0\0\0\0\0\0\x02\0\x01\0\x04\0\0\0\x02DB";

const ALPHA: u8 = 0;
const DECIMAL: u8 = 1;
const RECORD: u8 = 2;

/// A field entry or a statement: its first byte and its three numbers.
type Entry = (u8, u16, u16, u16);

/// The coded unit of these parts.
fn coded(image: &[u8], fields: &[Entry], e: &[u8], p: &[u8], statements: &[Entry]) -> Vec<u8> {
    let entries = |entries: &[Entry]| -> Vec<u8> {
        let bytes = |&(first, x, y, z): &Entry| {
            let numbers = [x, y, z].map(u16::to_be_bytes).concat();
            [vec![first, 0], numbers].concat()
        };
        entries.iter().flat_map(bytes).collect()
    };
    let lengths = [
        image.len(),
        fields.len(),
        e.len(),
        p.len(),
        statements.len(),
    ];
    let trailer = lengths.map(|length| (length as u16).to_be_bytes()).concat();
    let (fields, statements) = (entries(fields), entries(statements));
    [image, &fields, e, p, &statements, &trailer, b"DB"].concat()
}

/// A unit of one statement over a decimal (field 0), an alpha (1) and a record over both (2), with
/// the literals `120` and `ab` and the mask `Z.X-`.
fn one(statement: Entry, expressions: &[u8]) -> Vec<u8> {
    let fields = [(DECIMAL, 0, 2, 2), (ALPHA, 4, 4, 1), (RECORD, 0, 8, 1)];
    let literals = b"120abZ.X-";
    coded(b"0102wxyz", &fields, expressions, literals, &[statement])
}

fn refusal(unit: &[u8]) -> Option<(u64, usize)> {
    let Refusal { stop, place } = Unit::check(unit).err()?;
    Some((stop.number(), place))
}

#[test]
fn the_state_has_the_librarys_length() {
    // SAFETY: the function takes nothing.
    assert_eq!(unsafe { ffi::dibol_state_len() }, 104);
    assert_eq!(<[u64; 104]>::from(State::START).len(), ffi::DIBOL_STATE_LEN);
    assert_eq!(dibol::version(), 400);
}

#[test]
fn the_papers_example() {
    let unit = Unit::check(&EXAMPLE).unwrap();
    assert_eq!((unit.bytes(), unit.image()), (&EXAMPLE[..], &b"41"[..]));
    assert_eq!(unit.statements(), 2);
    assert_eq!(unit.fence(), Verdict::Yes);
    let mut data = *b"41";
    let outcome = unit.run(&mut data, State::default(), 100_000);
    assert_eq!((outcome.stop, outcome.place), (Stop::End, 2));
    assert_eq!(outcome.count, 2);
    assert_eq!(outcome.state.statement(), 2);
    assert_eq!(data, *b"42");
}

#[test]
fn refusals_have_their_places() {
    assert_eq!(refusal(&EXAMPLE), None);
    for length in 0..EXAMPLE.len() {
        assert_eq!(refusal(&EXAMPLE[..length]), Some((1, 0)));
    }
    assert_eq!(refusal(b"\0\0\0\0\0\0\0\0\0\0DB"), Some((2, 0)));
    let stop = [(11, 0, 0, 0)];
    let fields = [(ALPHA, 0, 1, 1), (ALPHA, 1, 2, 1)];
    assert_eq!(
        refusal(&coded(b"ab", &fields, b"", b"", &stop)),
        Some((3, 1))
    );
    assert_eq!(refusal(&one((2, 9, 0, 0), b"")), Some((4, 0)));
    assert_eq!(refusal(&one((27, 0, 0, 0), b"")), Some((5, 0)));
}

#[test]
fn a_refused_run_changes_nothing() {
    let unit = Unit::check(&EXAMPLE).unwrap();
    let mut long = *b"411";
    let outcome = unit.run(&mut long, State::START, 9);
    assert_eq!((outcome.stop, outcome.count), (Stop::WrongSize, 0));
    assert_eq!((long, outcome.state), (*b"411", State::START));
    let calls = [(0, 3), (1, 51), (2, 1), (51, 1), (0, 65_536), (1, u64::MAX)];
    let loops = [
        (52, 1),
        (52, 17),
        (53, 1),
        (54, 1),
        (55, 1),
        (100, u64::MAX),
    ];
    let trapped = [
        (101, 3),
        (101, 65_536),
        (102, 24),
        (102, 256 + 22),
        (103, 1),
        (103, 65_536),
    ];
    for (entry, number) in calls.into_iter().chain(loops).chain(trapped) {
        let mut numbers = [0; 104];
        numbers[entry] = number;
        let state = State::from(numbers);
        let mut data = *b"41";
        let outcome = unit.run(&mut data, state, 9);
        assert_eq!((outcome.stop, outcome.place), (Stop::Unsound, 0));
        assert_eq!(
            (data, outcome.state),
            (*b"41", state),
            "{number} at {entry}"
        );
    }
}

/// A CALL to itself, so that every statement opens another call.
fn calls() -> Vec<u8> {
    coded(b"x", &[], b"", b"", &[(9, 0, 0, 0)])
}

#[test]
fn a_paused_run_is_one_run() {
    let bytes = calls();
    let unit = Unit::check(&bytes).unwrap();
    let mut data = *b"x";
    let whole = unit.run(&mut data, State::START, 1_000);
    assert_eq!(
        (whole.stop, whole.place, whole.count),
        (Stop::CallsFull, 0, 50)
    );
    assert_eq!(whole.state.open_calls(), 50);
    assert_eq!(whole.state.returns(), [1; 50]);
    for slice in 1..=51 {
        let mut count = 0;
        let mut outcome = unit.run(&mut data, State::START, slice);
        while outcome.stop == Stop::Spent {
            assert_eq!(outcome.count, slice);
            count += outcome.count;
            outcome = unit.run(&mut data, outcome.state, slice);
        }
        assert_eq!((outcome.stop, outcome.state), (whole.stop, whole.state));
        assert_eq!(count + outcome.count, whole.count);
    }
}

#[test]
fn a_run_error_leaves_the_data() {
    // SET field 0 from 120 / 0: the zero is the literal's last digit.
    let bytes = one((1, 0, 4, 0), b"\x02\0\0\0\x01\0\0\x03\x01\0\x02\x01\x13\0");
    let unit = Unit::check(&bytes).unwrap();
    let mut data = unit.image().to_vec();
    let outcome = unit.run(&mut data, State::START, 9);
    assert_eq!((outcome.stop, outcome.place), (Stop::ZeroDivisor, 0));
    assert_eq!((outcome.count, outcome.state), (0, State::START));
    assert_eq!(data, unit.image());
}

#[test]
fn a_formatted_move_stores_what_its_mask_shows() {
    // SET field 1 from minus field 0 with the mask, which is not the literal of its statement.
    let expressions = b"\x02\0\x01\0\x06\0\x05\0\x04\0\x02\0\0\x15\0";
    let bytes = one((13, 0, 4, 10), expressions);
    let unit = Unit::check(&bytes).unwrap();
    let mut data = unit.image().to_vec();
    let outcome = unit.run(&mut data, State::START, 9);
    assert_eq!((outcome.stop, outcome.place), (Stop::End, 1));
    assert_eq!(outcome.count, 1);
    assert_eq!(data, b"0102 .1-");
    assert!(unit.literal(0).is_empty());
}

/// The unit of a FOR over the one digit of its data, from 5 down to the limit -1 by the step -3, with
/// a loop end behind it.
fn downward() -> Vec<u8> {
    let numbers = b"\x01\0\0\x01\0\x01\0\x01\x01\x15\0\x01\0\x02\x01\x15\0";
    let expressions = [b"\x02\0\0\0", &numbers[..]].concat();
    let statements = [(14, 0, 4, 1), (15, 0, 0, 0)];
    coded(
        b"0",
        &[(DECIMAL, 0, 1, 1)],
        &expressions,
        b"513",
        &statements,
    )
}

#[test]
fn an_open_loop_stands_in_the_state() {
    let bytes = downward();
    let unit = Unit::check(&bytes).unwrap();
    assert_eq!(unit.fence(), Verdict::Yes);
    let mut data = *b"0";
    let half = unit.run(&mut data, State::START, 2);
    assert_eq!((half.stop, half.place, data), (Stop::Spent, 1, *b"2"));
    let (entry, limit, step) = (0, -1, -3);
    assert_eq!(half.state.open_loops(), 1);
    assert_eq!(half.state.loops()[0], Loop { entry, limit, step });
    let numbers: [u64; 104] = half.state.into();
    let kept = [1, 0, -1_i64 as u64, -3_i64 as u64];
    assert_eq!(
        (&numbers[52..56], &numbers[56..]),
        (&kept[..], &[0; 48][..])
    );
    let end = unit.run(&mut data, half.state, 9);
    assert_eq!((end.stop, end.place, end.count), (Stop::End, 2, 2));
    assert_eq!((end.state.open_loops(), data), (0, *b"t"));
    assert_eq!(end.state.loops(), State::START.loops());
}

#[test]
fn a_loop_end_without_a_loop_is_29() {
    let bytes = downward();
    let unit = Unit::check(&bytes).unwrap();
    let mut numbers = [0; 104];
    numbers[0] = 1;
    let mut data = *b"0";
    let outcome = unit.run(&mut data, State::from(numbers), 9);
    assert_eq!((outcome.stop, outcome.place), (Stop::NoLoop, 1));
    assert_eq!((outcome.count, data), (0, *b"0"));
}

/// An ONERROR to the STOP behind, between them an INCR of "q2", which is no number.
fn trapping() -> Vec<u8> {
    let fields = [(DECIMAL, 0, 2, 1)];
    let statements = [(18, 0, 0, 2), (3, 0, 0, 0), (11, 0, 0, 0)];
    coded(b"q2", &fields, b"\x02\0\0\0", b"", &statements)
}

#[test]
fn a_trapped_error_stands_in_the_state() {
    let bytes = trapping();
    let unit = Unit::check(&bytes).unwrap();
    assert_eq!(unit.fence(), Verdict::Yes);
    let mut data = *b"q2";
    let first = unit.run(&mut data, State::START, 1);
    assert_eq!((first.stop, first.place), (Stop::Spent, 1));
    assert_eq!(first.state.handler(), Some(2));
    assert_eq!(first.state.last_error(), None);
    let end = unit.run(&mut data, first.state, 9);
    assert_eq!((end.stop, end.place, end.count), (Stop::End, 3, 2));
    assert_eq!((end.state.handler(), data), (Some(2), *b"q2"));
    let (error, statement) = (Stop::BadDigit, 1);
    let trapped = end.state.last_error().unwrap();
    assert_eq!(trapped, Trapped { error, statement });
    assert_eq!(trapped.to_string(), "Bad digit encountered, at statement 1");
    let numbers: [u64; 104] = end.state.into();
    assert_eq!(numbers[101..], [3, 22, 1]);
}

#[test]
fn without_a_handler_the_same_error_stops_the_run() {
    let bytes = trapping();
    let unit = Unit::check(&bytes).unwrap();
    let mut numbers = [0; 104];
    numbers[0] = 1;
    let state = State::from(numbers);
    let mut data = *b"q2";
    let outcome = unit.run(&mut data, state, 9);
    assert_eq!((outcome.stop, outcome.place), (Stop::BadDigit, 1));
    assert_eq!((outcome.count, outcome.state), (0, state));
    assert_eq!(outcome.state.last_error(), None);
}

#[test]
fn saved_numbers_of_any_kind_can_be_looked_at() {
    let seen = |handler, error, statement| {
        let mut numbers = [0; 104];
        numbers[101..].copy_from_slice(&[handler, error, statement]);
        let state = State::from(numbers);
        (state.handler(), state.last_error())
    };
    assert_eq!(seen(0, 0, 0), (None, None));
    assert_eq!(seen(u64::MAX, 0, 9), (Some(u64::MAX - 1), None));
    let (error, statement) = (Stop::Other(99), u64::MAX);
    assert_eq!(
        seen(1, 99, u64::MAX),
        (Some(0), Some(Trapped { error, statement }))
    );
}

#[test]
fn an_allowance_of_0_is_30_and_at_the_end_0() {
    let unit = Unit::check(&EXAMPLE).unwrap();
    let mut data = *b"41";
    let before = unit.run(&mut data, State::START, 0);
    assert_eq!((before.stop, before.place), (Stop::Spent, 0));
    let end = unit.run(&mut data, State::START, u64::MAX);
    let after = unit.run(&mut data, end.state, 0);
    assert_eq!((after.stop, after.place, after.count), (Stop::End, 2, 0));
}

#[test]
fn a_finished_state_runs_nothing() {
    let unit = Unit::check(&EXAMPLE).unwrap();
    let mut data = *b"41";
    let half = unit.run(&mut data, State::START, 1);
    let end = unit.run(&mut data, half.state, 9);
    let at_end = [State::START, half.state, end.state].map(|state| state.is_end(&unit));
    assert_eq!(at_end, [false, false, true]);
    let again = unit.run(&mut data, end.state, 9);
    assert_eq!((again.stop, again.place, again.count), (Stop::End, 2, 0));
    assert_eq!((again.state, data), (end.state, *b"42"));
    let anew = unit.run(&mut data, State::START, 9);
    assert_eq!((anew.stop, anew.count, data), (Stop::End, 2, *b"43"));
}

#[test]
fn another_units_state_is_accepted_in_range() {
    let bytes = calls();
    let other = Unit::check(&bytes).unwrap();
    let state = other.run(&mut [b'x'], State::START, 3).state;
    let unit = Unit::check(&EXAMPLE).unwrap();
    let mut data = *b"41";
    let outcome = unit.run(&mut data, state, 1);
    assert_eq!(
        (outcome.stop, outcome.count, data),
        (Stop::Spent, 1, *b"42")
    );
    assert_eq!(outcome.state.open_calls(), 3);
}

#[test]
fn the_fence_names_statement_and_rule() {
    // UPCASE of the record, which covers the decimals.
    let bytes = one((5, 0, 0, 0), b"\x02\0\x02\0");
    let unit = Unit::check(&bytes).unwrap();
    let breach = Breach::OnDecimal;
    let verdict = Verdict::No {
        statement: 0,
        breach,
    };
    assert_eq!(unit.fence(), verdict);
    assert!(!verdict.is_yes());
    assert_eq!(unit.breach(0), Some(breach));
    assert_eq!(unit.breach(1), None);
    let words = "no 0: An alpha destination shares a byte with a decimal field";
    assert_eq!(verdict.to_string(), words);
}

#[test]
fn a_unit_tells_its_parts_and_fields() {
    let bytes = one((2, 0, 0, 0), b"\x02\0\x01\0");
    let unit = Unit::check(&bytes).unwrap();
    let parts = Parts {
        data: 8,
        fields: 3,
        expressions: 4,
        literals: 9,
        statements: 1,
        digits: 18,
    };
    assert_eq!((unit.parts(), unit.statements()), (parts, 1));
    let field = |kind, offset, size, count| Field {
        kind,
        offset,
        size,
        count,
        strict: false,
    };
    let fields = [
        field(Kind::Decimal, 0, 2, 2),
        field(Kind::Alpha, 4, 4, 1),
        field(Kind::Record, 0, 8, 1),
    ];
    assert_eq!(unit.fields().len(), 3);
    assert!(unit.fields().eq(fields));
    assert_eq!(fields.map(|field| field.bytes()), [0..4, 4..8, 0..8]);
    assert_eq!((unit.field(2), unit.field(3)), (Some(fields[2]), None));
    assert_eq!(unit.field(usize::MAX), None);
}

#[test]
fn a_strict_field_tells_that_it_is() {
    let mut bytes = one((2, 0, 0, 0), b"\x02\0\x01\0");
    bytes[8 + 8 + 1] = 0x80;
    let unit = Unit::check(&bytes).unwrap();
    let strict: Vec<bool> = unit.fields().map(|field| field.strict).collect();
    assert_eq!(strict, [false, true, false]);
}

#[test]
fn a_unit_without_fields_tells_none() {
    let bytes = calls();
    let unit = Unit::check(&bytes).unwrap();
    assert_eq!((unit.fields().count(), unit.parts().fields), (0, 0));
    assert!(unit.invalid(b"x").is_all_valid());
}

#[test]
fn data_is_valid_or_the_first_element_that_is_not_is_named() {
    let bytes = one((2, 0, 0, 0), b"\x02\0\x01\0");
    let unit = Unit::check(&bytes).unwrap();
    let invalid = |element, offset| Validity::Invalid {
        field: 0,
        element,
        offset,
    };
    assert_eq!(unit.invalid(unit.image()), Validity::AllValid);
    assert_eq!(unit.invalid(b"    \xFF\0\n "), Validity::AllValid);
    assert_eq!(unit.invalid(b"010P...."), invalid(2, 2));
    assert_eq!(unit.invalid(b"p10P...."), invalid(1, 0));
    assert_eq!(unit.invalid(b"1 02...."), invalid(1, 0));
    for length in (0..10).filter(|length| *length != 8) {
        let data = vec![b'?'; length];
        assert_eq!(unit.invalid(&data), Validity::WrongSize);
    }
    let words = "element 2 of field 0, at byte 2, is no number";
    assert_eq!(invalid(2, 2).to_string(), words);
}

#[test]
fn each_reference_that_breaks_a_rule_is_told_with_its_own() {
    // A SET of the record, which covers the decimals, from the alpha; then a SET of the decimal's first
    // character from the sum of its element 3 and of the one that its own value names.
    let expressions = b"\x02\0\x02\0\x02\0\x01\0\
        \x01\0\0\x01\x01\0\0\x01\x04\0\0\0\
        \x01\0\x03\x01\x03\0\0\x02\0\0\x03\0\0\x10\0";
    let statements = [(1, 0, 4, 0), (1, 8, 20, 0)];
    let fields = [(DECIMAL, 0, 2, 2), (ALPHA, 4, 4, 1), (RECORD, 0, 8, 1)];
    let bytes = coded(b"0102wxyz", &fields, expressions, b"1203", &statements);
    let unit = Unit::check(&bytes).unwrap();
    let row = |b: Broken| (b.statement, b.rule, b.written, b.field, b.form, b.item);
    let rows = [
        (0, Breach::OnDecimal, true, 2, Form::First, 0),
        (1, Breach::StopsMidElement, true, 0, Form::StartEnd, 16),
        (1, Breach::LeavesField, false, 0, Form::Subscript, 24),
        (1, Breach::BoundNotLiteral, false, 0, Form::Subscript, 30),
    ];
    let spans = [Some(0..8), Some(0..1), Some(4..6), None];
    assert_eq!(unit.breaches().len(), 4);
    assert!(unit.breaches().map(row).eq(rows));
    assert!(unit.breaches().map(|broken| broken.span).eq(spans));
    let words: Vec<String> = unit.breaches().map(|broken| broken.to_string()).collect();
    let told = [
        "statement 0, field 2 written, bytes 0 to 7: \
         An alpha destination shares a byte with a decimal field",
        "statement 1, field 0 written, byte 0: \
         A decimal destination ends inside its element",
        "statement 1, field 0 read, bytes 4 to 5: A span leaves its field",
        "statement 1, field 0 read: A bound is not a literal",
    ];
    assert_eq!(words, told);
}

#[test]
fn many_breaches_come_one_by_one() {
    // CLEAR of the record, over and over.
    let statements = [(2, 0, 0, 0); 100];
    let fields = [(DECIMAL, 0, 2, 1), (RECORD, 0, 2, 1)];
    let bytes = coded(b"01", &fields, b"\x02\0\x01\0", b"", &statements);
    let unit = Unit::check(&bytes).unwrap();
    let mut breaches = unit.breaches();
    for statement in 0..100 {
        assert_eq!(breaches.len(), 100 - statement);
        assert_eq!(breaches.next().unwrap().statement, statement);
    }
    assert_eq!((breaches.next(), breaches.next()), (None, None));
    let none = Unit::check(&EXAMPLE).unwrap();
    assert_eq!((none.breaches().len(), none.breaches().next()), (0, None));
}

#[test]
fn the_first_breach_is_that_of_the_verdict() {
    let bytes = one((5, 0, 0, 0), b"\x02\0\x02\0");
    let unit = Unit::check(&bytes).unwrap();
    let first = unit.breaches().next().unwrap();
    let (statement, breach) = (first.statement, first.rule);
    assert_eq!(unit.fence(), Verdict::No { statement, breach });
}

#[test]
fn a_literal_is_a_stretch_of_the_unit_itself() {
    // SET field 1 from the alpha literal `ab`.
    let bytes = one((1, 0, 4, 0), b"\x02\0\x01\0\x06\0\x03\0\x02\0");
    let unit = Unit::check(&bytes).unwrap();
    let literal = unit.literal(0);
    let start = 8 + 3 * 8 + 10 + 3;
    assert_eq!(literal, b"ab");
    assert_eq!(literal.as_ptr(), bytes[start..].as_ptr());
    assert!(unit.literal(1).is_empty());
    assert!(unit.literal(usize::MAX).is_empty());
}
