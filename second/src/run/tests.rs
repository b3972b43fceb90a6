//! Tests of runs.

use super::*;
use crate::sample::Sample;

mod traps;

/// A decimal D2 "07" (field 0), an alpha "aB1z" (1), a D2 array "1112" (2) and a record over
/// everything (3).
fn sample() -> Sample {
    Sample::over(
        "07aB1z1112",
        &[(1, 0, 2, 1), (0, 2, 4, 1), (1, 6, 2, 2), (2, 0, 10, 1)],
    )
}

/// What stands in decimals of these characters after a statement with each as its place.
fn after<const N: usize>(statement: u8, decimals: [&str; N]) -> [Result<String, u8>; N] {
    decimals.map(|characters| {
        let sample = Sample::over(characters, &[(1, 0, characters.len() as u16, 1)]);
        match sample.on(statement, "%0").ran() {
            (0, 1, 1, data) => Ok(data),
            (stop, place, count, data) => {
                assert_eq!((place, count, data.as_str()), (0, 0, characters));
                Err(stop)
            }
        }
    })
}

fn text(characters: &str) -> Result<String, u8> {
    Ok(characters.to_string())
}

/// The stop number of a SET to field 0 of the sample.
fn fault(source: &str) -> u8 {
    let (stop, place) = sample().set("%0", source).fault();
    assert_eq!(place, 0);
    stop
}

mod statements {
    use super::*;

    #[test]
    fn clear_writes_spaces_to_alpha_and_zeros_to_decimal() {
        let cleared = |place| sample().on(code::CLEAR, place).data();
        assert_eq!(cleared("%0"), "00aB1z1112");
        assert_eq!(cleared("%1"), "07    1112");
        assert_eq!(cleared("%2"), "07aB1z0012");
        assert_eq!(cleared("2 %2()"), "07aB1z1100");
        assert_eq!(cleared("%3"), "          ");
        assert_eq!(cleared("2 3 %1(,)"), "07a  z1112");
    }

    #[test]
    fn clear_of_a_substring_leaves_a_sign_outside() {
        let sample = Sample::over("12s", &[(1, 0, 3, 1)]);
        assert_eq!(sample.on(code::CLEAR, "1 2 %0(,)").data(), "00s");
    }

    #[test]
    fn incr_and_decr_store_as_a_number_move() {
        let more = after(code::INCR, ["41", "99", "0q", "0p", "1p"]);
        assert_eq!(more, ["42", "00", "00", "01", "0y"].map(text));
        let less = after(code::DECR, ["00", "10", "y", "9y"]);
        assert_eq!(less, ["0q", "09", "0", "00"].map(text));
        let lost = after(code::INCR, ["99999999999999999"]);
        assert_eq!(lost, ["00000000000000000"].map(text));
        assert_eq!(after(code::INCR, ["4x1"]), [Err(22)]);
        assert_eq!(after(code::DECR, ["1 "]), [Err(22)]);
    }

    #[test]
    fn incr_and_decr_of_a_blank_amount_write_zeros() {
        let more = after(code::INCR, ["   ", "  9", " q", " "]);
        assert_eq!(more, ["001", "010", "00", "1"].map(text));
        let less = after(code::DECR, ["   ", " 1"]);
        assert_eq!(less, ["00q", "00"].map(text));
        assert_eq!(after(code::INCR, [" 1 ", "\t1"]), [Err(22), Err(22)]);
    }

    #[test]
    fn incr_and_decr_keep_to_18_digits() {
        let (greatest, least) = ("999999999999999999", "99999999999999999y");
        assert_eq!(after(code::INCR, [greatest]), [Err(20)]);
        let less = after(code::DECR, [least, greatest]);
        assert_eq!(less, [Err(20), text("999999999999999998")]);
    }

    #[test]
    fn case_changes_letters_only() {
        assert_eq!(sample().on(code::UPCASE, "%1").data(), "07AB1Z1112");
        assert_eq!(sample().on(code::LOCASE, "%1").data(), "07ab1z1112");
        let all: Vec<u8> = (0..=255).collect();
        for (statement, from, to) in [(code::UPCASE, b'a', b'A'), (code::LOCASE, b'A', b'a')] {
            let mut sample = Sample::over("", &[(2, 0, 256, 1)]).on(statement, "%0");
            sample.image.clone_from(&all);
            let mut data = all.clone();
            run(&sample.unit(), &mut data, State::START, 1);
            for (before, after) in all.iter().zip(data) {
                let is_letter = (from..=from + 25).contains(before);
                let wanted = if is_letter {
                    before - from + to
                } else {
                    *before
                };
                assert_eq!(after, wanted, "{before:02X}");
            }
        }
    }

    #[test]
    fn a_cleared_record_leaves_amounts_that_read_0() {
        let cleared = sample().on(code::CLEAR, "%3");
        assert_eq!(cleared.clone().set("%1", "%0").data(), "     0    ");
        assert_eq!(cleared.on(code::INCR, "2 %2()").data(), "        01");
    }

    #[test]
    fn upcase_of_a_record_spoils_a_sign() {
        let refund = Sample::over("Ann  012s", &[(0, 0, 5, 1), (1, 5, 4, 1), (2, 0, 9, 1)]);
        let spoiled = refund.on(code::UPCASE, "%2");
        assert_eq!(spoiled.data(), "ANN  012S");
        assert_eq!(spoiled.on(code::INCR, "%1").fault(), (22, 1));
    }

    #[test]
    fn set_has_four_moves() {
        assert_eq!(sample().set("%0", "%2").data(), "11aB1z1112");
        assert_eq!(sample().set("%1", "%2").data(), "07  111112");
        assert_eq!(sample().set("%1", "3 4 %3(,)").data(), "07aB  1112");
        assert_eq!(sample().set("%0", "3 1 %1(:)").data(), "01aB1z1112");
        assert_eq!(sample().set("%0", "7 10 %3(,)").data(), "12aB1z1112");
        assert_eq!(sample().set("%0", "%1").fault(), (22, 0));
        assert_eq!(sample().set("%0", "\"__-5_\"").data(), "0uaB1z1112");
        assert_eq!(sample().set("%1", "\"xy\"").data(), "07xy  1112");
    }

    #[test]
    fn a_formatted_move_stores_what_the_mask_shows() {
        assert_eq!(sample().format("%1", "\"Z.X\"", "%0").data(), "07  .71112");
        assert_eq!(
            sample().format("%1", "\"-ZZZ.X\"", "1204 neg").data(),
            "0720.41112"
        );
        assert_eq!(
            sample().format("2 3 %1(,)", "\"X\"", "5").data(),
            "07a 5z1112"
        );
        assert_eq!(sample().format("%3", "\"Z/Z\"", "%0").data(), "        /7");
        let twice = sample().format("%1", "\"XX\"", "1").format("%1", "%1", "1");
        assert_eq!(twice.ran(), (0, 2, 2, "07  011112".to_string()));
    }

    #[test]
    fn mask_and_number_are_taken_before_the_store() {
        let fare = Sample::over(
            "-Z,ZZZ.XX0120450",
            &[(0, 0, 9, 1), (1, 9, 7, 1), (2, 0, 16, 1)],
        );
        let formatted = |place, mask, number| fare.clone().format(place, mask, number).data();
        assert_eq!(formatted("%0", "%0", "%1"), " 1,204.500120450");
        assert_eq!(formatted("%0", "%0", "%1 neg"), "-1,204.500120450");
        assert_eq!(formatted("%2", "\"ZZZZZZZ-\"", "%1"), "         120450 ");
        assert_eq!(formatted("2 9 %0(,)", "1 8 %0(,)", "5"), "-      .50120450");
        assert_eq!(formatted("1 8 %0(,)", "2 9 %0(,)", "5"), "     .05X0120450");
        assert_eq!(formatted("3 6 %0(,)", "%2", "%1"), "-Z0450.XX0120450");
    }

    #[test]
    fn a_destination_is_found_and_not_read() {
        let sample = Sample::over("??x1", &[(1, 0, 2, 1), (1, 2, 2, 1)]);
        assert_eq!(sample.clone().set("%0", "5").data(), "05x1");
        assert_eq!(sample.clone().on(code::CLEAR, "%1").data(), "??00");
        assert_eq!(sample.set("%0", "%1").fault(), (22, 0));
    }

    #[test]
    fn computed_goto_in_and_out_of_range() {
        // Each way sets field 0 to another digit; the last lies past the table.
        for (value, count, wanted) in [("1", 4, "1"), ("2", 4, "2"), ("3", 3, "9"), ("0", 3, "9")]
            .into_iter()
            .chain([("1 neg", 3, "9"), ("999999999999999999", 3, "9")])
            .chain([("65537", 3, "9"), ("4294967297", 3, "9")])
        {
            let sample = Sample::over("0", &[(1, 0, 1, 1)])
                .by(code::COMPUTED_GOTO, value, 2)
                .to(code::GOTO, 5)
                .to(code::GOTO, 7)
                .set("%0", "9")
                .to(code::STOP, 0)
                .set("%0", "1")
                .to(code::STOP, 0)
                .set("%0", "2")
                .to(code::STOP, 0);
            assert_eq!(sample.ran(), (0, 9, count, wanted.to_string()), "{value}");
        }
    }

    #[test]
    fn a_table_that_fills_the_unit_goes_on_at_the_end() {
        let sample = Sample::over("0", &[(1, 0, 1, 1)])
            .by(code::COMPUTED_GOTO, "%0", 1)
            .to(code::GOTO, 0);
        assert_eq!(sample.ran(), (0, 2, 1, "0".to_string()));
    }

    #[test]
    fn zero_goes_to_the_target() {
        for (number, goes) in [("0", true), ("0 neg", true), ("1", false), ("1 neg", false)] {
            let sample = Sample::over("0", &[(1, 0, 1, 1)])
                .by(code::GOTO_IF_ZERO, number, 2)
                .on(code::INCR, "%0")
                .to(code::STOP, 0);
            assert_eq!(sample.data() == "0", goes, "{number}");
        }
    }
}

mod errors {
    use super::*;

    #[test]
    fn each_run_error_changes_nothing() {
        assert_eq!(fault("999999999999999999 1 +"), 20);
        assert_eq!(fault("10 11 %0(,)"), 21);
        assert_eq!(fault("2 3 %0(,)"), 22);
        assert_eq!(fault("1 0 /"), 23);
        assert_eq!(fault("1 19 #"), 26);
        assert_eq!(sample().to(code::RETURN, 0).fault(), (25, 0));
        assert_eq!(sample().to(code::CALL, 0).fault(), (24, 0));
    }

    #[test]
    fn a_decimal_span_over_18_is_20_read_or_written() {
        let wide = Sample::over(&"0".repeat(24), &[(1, 0, 12, 2)]);
        assert_eq!(wide.clone().set("1 19 %0(,)", "1").fault(), (20, 0));
        assert_eq!(wide.clone().on(code::CLEAR, "1 19 %0(:)").fault(), (20, 0));
        assert_eq!(wide.clone().set("%0", "1 19 %0(,)").fault(), (20, 0));
        assert_eq!(wide.clone().set("1 25 %0(,)", "1").fault(), (21, 0));
        let written = wide.set("1 18 %0(,)", "5 neg").data();
        assert_eq!(written, "00000000000000000u000000");
    }

    #[test]
    fn spaces_count_for_the_length_of_a_span() {
        let blank = |image: &str| Sample::over(image, &[(1, 0, 10, 2)]);
        let (spaces, spoiled) = (" ".repeat(20), format!("1{}", " ".repeat(19)));
        assert_eq!(blank(&spaces).set("%0", "1 19 %0(,)").fault(), (20, 0));
        assert_eq!(blank(&spoiled).set("%0", "1 19 %0(,)").fault(), (20, 0));
        assert_eq!(blank(&spoiled).set("%0", "1 18 %0(,)").fault(), (22, 0));
        let read = blank(&spaces).set("%0", "1 18 %0(,)").data();
        assert_eq!(read, "0000000000          ");
    }

    #[test]
    fn the_spaces_are_those_of_the_span() {
        let read = |image: &str, part: &str| {
            let sample = Sample::over(image, &[(1, 0, 3, 1), (0, 3, 2, 1)]);
            let (stop, _, _, data) = sample.set("%1", part).ran();
            (stop, data[3..].to_string())
        };
        assert_eq!(read("1 2??", "2 3 %0(,)"), (0, " 2".to_string()));
        assert_eq!(read("1 2??", "1 1 %0(,)"), (0, " 1".to_string()));
        assert_eq!(read("1 2??", "2 2 %0(,)"), (0, " 0".to_string()));
        assert_eq!(read(" 12??", "1 1 %0(,)"), (0, " 0".to_string()));
        assert_eq!(read("1 2??", "1 2 %0(,)"), (22, "??".to_string()));
        assert_eq!(read("1 2??", "%0"), (22, "??".to_string()));
    }

    #[test]
    fn operands_are_all_worked() {
        assert_eq!(fault("0 1 0 / AND"), 23);
        assert_eq!(fault("1 1 0 / OR"), 23);
        assert_eq!(fault("0 1 99 # AND"), 26);
        assert_eq!(fault("999999999999999999 1 + 1 -"), 20);
    }

    #[test]
    fn a_goes_before_b() {
        let failing = |place, source| sample().set(place, source).fault().0;
        assert_eq!(failing("99 %2()", "1 0 /"), 21);
        assert_eq!(failing("1 0 / %2()", "99 %2()"), 23);
        assert_eq!(failing("2 3 %0(,) %2()", "1 0 /"), 22);
        assert_eq!(failing("%0", "\"x\""), 22);
        assert_eq!(failing("99 %2()", "\"x\""), 21);
    }

    #[test]
    fn a_formatted_move_works_out_place_mask_and_number() {
        let failing = |place, mask, number| sample().format(place, mask, number).fault();
        assert_eq!(failing("99 %1()", "1 0 / %1()", "1 19 #"), (21, 0));
        assert_eq!(failing("%1", "1 0 / %1()", "1 19 #"), (23, 0));
        assert_eq!(failing("%1", "99 %1()", "1 19 #"), (21, 0));
        assert_eq!(failing("%1", "2 3 %0(,) %1()", "1 19 #"), (22, 0));
        assert_eq!(
            failing("%1", "999999999999999999 1 + %1()", "1 19 #"),
            (20, 0)
        );
        assert_eq!(failing("%1", "1 19 # %1()", "1 0 /"), (26, 0));
        assert_eq!(failing("%1", "\"X\"", "1 19 #"), (26, 0));
        assert_eq!(failing("%1", "\"X\"", "2 3 %0(,)"), (22, 0));
        assert_eq!(failing("%1", "\"X\"", "99 %2()"), (21, 0));
        assert_eq!(failing("1 0 / %1()", "99 %1()", "1 19 #"), (23, 0));
    }

    #[test]
    fn items_go_left_to_right() {
        assert_eq!(fault("1 0 / 1 19 # +"), 23);
        assert_eq!(fault("1 19 # 1 0 / +"), 26);
        assert_eq!(fault("2 3 %0(,) 0 /"), 22);
        assert_eq!(fault("1 2 3 %0(,) #"), 22);
    }

    #[test]
    fn an_incr_place_is_found_then_read_then_summed() {
        let wide = |image: &str| Sample::over(image, &[(1, 0, 10, 2)]);
        let nines = "9".repeat(20);
        let spoiled = "x".repeat(20);
        let incr = |image, place| wide(image).on(code::INCR, place).fault().0;
        assert_eq!(incr(&spoiled, "3 21 %0(,)"), 21);
        assert_eq!(incr(&spoiled, "1 19 %0(,)"), 20);
        assert_eq!(incr(&spoiled, "1 18 %0(,)"), 22);
        assert_eq!(incr(&nines, "1 18 %0(,)"), 20);
        assert_eq!(wide(&nines).on(code::INCR, "1 17 %0(,)").ran().0, 0);
    }

    #[test]
    fn a_bad_digit_in_text_comes_before_too_many() {
        assert_eq!(fault("\"1234567890123456789x\""), 22);
        assert_eq!(fault("\"1234567890123456789\""), 20);
    }

    #[test]
    fn far_bounds_are_21() {
        for far in [
            "999999999999999999",
            "576460752303423489",
            "4294967297",
            "65537",
        ] {
            assert_eq!(fault(&format!("{far} %2()")), 21);
            assert_eq!(fault(&format!("{far} neg %2()")), 21);
            assert_eq!(fault(&format!("1 {far} %2(,)")), 21);
            assert_eq!(fault(&format!("{far} {far} %2(,)")), 21);
            assert_eq!(fault(&format!("{far} {far} %2(:)")), 21);
            assert_eq!(fault(&format!("{far} {far} neg %2(:)")), 21);
            assert_eq!(fault(&format!("1 {far} neg %2(:)")), 21);
        }
    }
}

mod strict_fields {
    use super::*;

    /// The sample with one strict field.
    fn with_strict(field: usize) -> Sample {
        let mut sample = sample();
        sample.choices = vec![0; field];
        sample.choices.push(0x80);
        sample
    }

    #[test]
    fn a_strict_place_keeps_to_its_field() {
        for code in [code::CLEAR, code::INCR, code::DECR] {
            let on = |place| with_strict(2).on(code, place).ran().0;
            assert_eq!([on("%2"), on("1 %2()"), on("2 %2()")], [0; 3]);
            assert_eq!([on("3 %2()"), on("0 %2()")], [21; 2]);
            assert_eq!([on("1 4 %2(,)"), on("4 4 neg %2(:)")], [0; 2]);
            assert_eq!([on("4 5 %2(,)"), on("1 2 neg %2(:)")], [21; 2]);
        }
        for code in [code::CLEAR, code::UPCASE, code::LOCASE] {
            let on = |field, place| with_strict(field).on(code, place).ran().0;
            assert_eq!([on(1, "%1"), on(1, "1 %1()"), on(1, "1 4 %1(,)")], [0; 3]);
            assert_eq!([on(1, "2 %1()"), on(1, "1 5 %1(,)")], [21; 2]);
            assert_eq!([on(0, "2 %1()"), on(0, "1 5 %1(,)")], [0; 2]);
            assert_eq!([on(3, "1 10 %3(,)"), on(3, "1 11 %3(,)")], [0, 21]);
        }
    }

    #[test]
    fn the_same_loose_runs_on() {
        let stored = |sample: Sample| sample.set("0 %2()", "5").ran();
        let (kept, written) = ("07aB1z1112".to_string(), "07aB051112".to_string());
        assert_eq!(stored(sample()), (0, 1, 1, written.clone()));
        assert_eq!(stored(with_strict(2)), (21, 0, 0, kept));
        assert_eq!(stored(with_strict(1)), (0, 1, 1, written));
        // A record over it may write it.
        let over = with_strict(1).set("3 6 %3(,)", "\"Eve\"").data();
        assert_eq!(over, "07Eve 1112");
    }

    #[test]
    fn strict_in_every_part() {
        let fault = |statement: fn(Sample) -> Sample| statement(sample().strict()).fault();
        let past = [
            fault(|sample| sample.set("3 %2()", "1 0 /")),
            fault(|sample| sample.set("%0", "0 %2()")),
            fault(|sample| sample.set("%1", "2 5 %1(,)")),
            fault(|sample| sample.set("%0", "1 3 %2() +")),
            fault(|sample| sample.set("0 %2() %2()", "1")),
            fault(|sample| sample.format("1 5 %1(,)", "\"X\"", "1 0 /")),
            fault(|sample| sample.format("%1", "1 5 %1(,)", "1 0 /")),
            fault(|sample| sample.format("%1", "\"X\"", "3 %2()")),
            fault(|sample| sample.by(code::GOTO_IF_ZERO, "3 %2()", 0)),
            fault(|sample| {
                sample
                    .by(code::COMPUTED_GOTO, "3 %2()", 1)
                    .to(code::GOTO, 0)
            }),
        ];
        assert_eq!(past, [(21, 0); 10]);
    }

    #[test]
    fn bounds_and_then_21_and_20_and_22() {
        let wide = |image: char| {
            let image: String = [image; 30].iter().collect();
            let mut wide = Sample::over(&image, &[(1, 5, 10, 2), (1, 25, 5, 1)]);
            wide.choices = vec![0x80];
            wide
        };
        let incr = |image, place| wide(image).on(code::INCR, place).ran().0;
        assert_eq!(incr('1', "1 0 / 21 %0(,)"), 23);
        assert_eq!(incr('1', "%1 21 %0(,)"), 21);
        assert_eq!(incr('x', "%1 21 %0(,)"), 22);
        assert_eq!(incr('x', "2 21 %0(,)"), 21);
        assert_eq!(incr('x', "2 20 %0(,)"), 20);
        assert_eq!(incr('x', "3 20 %0(,)"), 22);
        assert_eq!(incr('1', "3 20 %0(,)"), 0);
    }
}

mod states {
    use super::*;

    /// A run of the sample's unit over its image.
    fn outcome(sample: &Sample, state: State, allowance: u64) -> Outcome {
        let mut data = sample.image.clone();
        let outcome = run(&sample.unit(), &mut data, state, allowance);
        if outcome.count == 0 {
            assert_eq!(data, sample.image);
        }
        outcome
    }

    fn state(at: usize, returns: &[u16]) -> State {
        let mut state = State::START;
        state.at = at;
        state.depth = returns.len();
        state.returns[..returns.len()].copy_from_slice(returns);
        state
    }

    /// INCR, CALL of the last statement, INCR, STOP, RETURN.
    fn called() -> Sample {
        sample()
            .on(code::INCR, "%0")
            .to(code::CALL, 4)
            .on(code::INCR, "%2")
            .to(code::STOP, 0)
            .to(code::RETURN, 0)
    }

    #[test]
    fn unsound_states_are_7_and_handed_back() {
        let unsound = [
            state(6, &[]),
            state(usize::MAX, &[]),
            State {
                depth: 51,
                ..State::START
            },
            State {
                depth: usize::MAX,
                ..State::START
            },
            state(0, &[6]),
            state(0, &[1, 1, 65_535]),
            State {
                depth: 1,
                ..state(0, &[1, 1])
            },
            State {
                returns: [1; 50],
                ..State::START
            },
            State {
                depth: 49,
                ..state(0, &[1; 50])
            },
        ];
        for state in unsound {
            for allowance in [0, 1, u64::MAX] {
                let refused = Outcome {
                    stop: 7,
                    place: 0,
                    count: 0,
                    state,
                };
                assert_eq!(outcome(&called(), state, allowance), refused);
            }
        }
    }

    #[test]
    fn six_comes_before_seven_and_after_one_to_five() {
        let unsound = state(99, &[]);
        let unit = called().unit();
        for length in [0, 9, 11, 20_000] {
            let mut data = vec![b'x'; length];
            let refused = run(&unit, &mut data, unsound, 5);
            assert_eq!((refused.stop, refused.place, refused.count), (6, 0, 0));
            assert_eq!(refused.state, unsound);
            assert_eq!(data, vec![b'x'; length]);
            let refused = run(&unit[1..], &mut data, unsound, 5);
            assert_eq!((refused.stop, refused.place, refused.count), (1, 0, 0));
            assert_eq!(refused.state, unsound);
            let bad = called().to(code::GOTO, 9).unit();
            let refused = run(&bad, &mut data, unsound, 5);
            assert_eq!((refused.stop, refused.place, refused.count), (5, 5, 0));
        }
    }

    #[test]
    fn an_allowance_of_0_gives_30_or_0_at_the_end() {
        for at in 0..=5 {
            let answered = outcome(&called(), state(at, &[3]), 0);
            let stop = if at == 5 { END } else { ALLOWANCE_SPENT };
            assert_eq!((answered.stop, answered.place), (stop, at));
            assert_eq!((answered.count, answered.state), (0, state(at, &[3])));
        }
    }

    #[test]
    fn the_end_is_tested_before_the_allowance() {
        let whole = outcome(&called(), State::START, 1_000);
        assert_eq!((whole.stop, whole.place, whole.count), (0, 5, 5));
        assert_eq!(outcome(&called(), State::START, 5), whole);
        let short = outcome(&called(), State::START, 4);
        assert_eq!((short.stop, short.place, short.count), (30, 3, 4));
    }

    #[test]
    fn the_greatest_allowance_is_one() {
        let once = outcome(&sample().on(code::INCR, "%0"), State::START, u64::MAX);
        assert_eq!((once.stop, once.place, once.count), (0, 1, 1));
    }

    #[test]
    fn an_error_waits_for_its_statement() {
        let failing = sample().on(code::INCR, "%0").to(code::RETURN, 0);
        let spent = outcome(&failing, State::START, 1);
        assert_eq!((spent.stop, spent.place, spent.count), (30, 1, 1));
        let resumed = outcome(&failing, spent.state, 1);
        assert_eq!((resumed.stop, resumed.place, resumed.count), (25, 1, 0));
        assert_eq!(resumed.state, spent.state);
    }

    #[test]
    fn open_calls_are_kept_and_taken_back() {
        let after_call = outcome(&called(), State::START, 2);
        assert_eq!(after_call.state, state(4, &[2]));
        let after_return = outcome(&called(), State::START, 3);
        assert_eq!(after_return.state, state(2, &[]));
        let stopped = outcome(&called(), state(3, &[1, 2]), 9);
        assert_eq!((stopped.stop, stopped.place, stopped.count), (0, 5, 1));
        assert_eq!(stopped.state, state(5, &[1, 2]));
        let at_end = outcome(&called(), state(5, &[1, 2]), 9);
        assert_eq!((at_end.stop, at_end.place, at_end.count), (0, 5, 0));
        assert_eq!(at_end.state, state(5, &[1, 2]));
    }

    #[test]
    fn a_return_goes_where_the_entry_says() {
        let returned = outcome(&called(), state(4, &[3, 0]), 1);
        assert_eq!(returned.state, state(0, &[3]));
        let ended = outcome(&called(), state(4, &[3, 5]), 9);
        assert_eq!((ended.stop, ended.place, ended.count), (0, 5, 1));
        assert_eq!(ended.state, state(5, &[3]));
    }

    #[test]
    fn a_call_as_the_last_statement_returns_to_the_end() {
        let sample = sample()
            .to(code::GOTO, 2)
            .to(code::RETURN, 0)
            .to(code::CALL, 1);
        let outcome = outcome(&sample, State::START, 9);
        assert_eq!((outcome.stop, outcome.place, outcome.count), (0, 3, 3));
        assert_eq!(outcome.state, state(3, &[]));
    }

    #[test]
    fn fifty_calls_stay_open_at_24() {
        let outcome = outcome(&sample().to(code::CALL, 0), State::START, 1_000);
        assert_eq!((outcome.stop, outcome.place, outcome.count), (24, 0, 50));
        assert_eq!(outcome.state, state(0, &[1; 50]));
    }

    /// A loop with a call, a computed GOTO and a run error at its end.
    fn looping() -> Sample {
        sample()
            .to(code::CALL, 6)
            .by(code::COMPUTED_GOTO, "%0 3 -", 2)
            .to(code::GOTO, 0)
            .to(code::GOTO, 5)
            .to(code::GOTO, 0)
            .to(code::RETURN, 0)
            .on(code::DECR, "%0")
            .set("%1", "%0")
            .to(code::RETURN, 0)
    }

    #[test]
    fn m_statements_and_then_n_are_m_plus_n() {
        for sample in [called(), looping(), sample().to(code::CALL, 0)] {
            let unit = sample.unit();
            let ran = |data: &mut Vec<u8>, state, allowance| run(&unit, data, state, allowance);
            for m in 0..60 {
                for n in 0..60 {
                    let mut whole = sample.image.clone();
                    let at_once = ran(&mut whole, State::START, m + n);
                    let mut data = sample.image.clone();
                    let first = ran(&mut data, State::START, m);
                    let last = match first.stop {
                        ALLOWANCE_SPENT => ran(&mut data, first.state, n),
                        _ => Outcome { count: 0, ..first },
                    };
                    let resumed = Outcome {
                        count: first.count + last.count,
                        ..last
                    };
                    assert_eq!((resumed, data), (at_once, whole), "{m} and {n}");
                }
            }
        }
    }
}
