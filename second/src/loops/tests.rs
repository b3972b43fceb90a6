//! Tests of FOR loops.

use crate::bench::BENCH_ALLOWANCE;
use crate::run::{run, Outcome};
use crate::sample::Sample;
use crate::state::{Loop, State, LOOPS_MOST};
use crate::unit::code;

/// A D2 to count with (field 0), a D2 for the passes (1), a D2 array "0102" (2) and an alpha "x7"
/// (3).
fn sample() -> Sample {
    Sample::over(
        "55000102x7",
        &[(1, 0, 2, 1), (1, 2, 2, 1), (1, 4, 2, 2), (0, 8, 2, 1)],
    )
}

/// A loop whose body counts its passes.
fn counting(numbers: [&str; 3]) -> Sample {
    sample().looped("%0", numbers, |body| body.on(code::INCR, "%1"))
}

/// A loop with nothing in its body.
fn idle(control: &str, numbers: [&str; 3]) -> Sample {
    sample().looped(control, numbers, |body| body)
}

/// How a run from a state over some data stops, and the data after it.
fn ran(sample: &Sample, data: &str, state: State, allowance: u64) -> (Outcome, String) {
    let mut data = data.as_bytes().to_vec();
    let outcome = run(&sample.unit(), &mut data, state, allowance);
    (outcome, String::from_utf8(data).unwrap())
}

/// The same from the image and the start.
fn started(sample: &Sample, allowance: u64) -> (Outcome, String) {
    let image = String::from_utf8(sample.image.clone()).unwrap();
    ran(sample, &image, State::START, allowance)
}

fn open(entry: usize, limit: i64, step: i64) -> Loop {
    Loop { entry, limit, step }
}

/// The state at a statement with these loops open.
fn state(at: usize, loops: &[Loop]) -> State {
    let mut state = State {
        at,
        opened: loops.len(),
        ..State::START
    };
    state.loops[..loops.len()].copy_from_slice(loops);
    state
}

/// The stop number of a FOR that changes nothing.
fn fault(control: &str, numbers: [&str; 3]) -> u8 {
    let (stop, place) = idle(control, numbers).fault();
    assert_eq!(place, 0);
    stop
}

mod passes {
    use super::*;

    #[test]
    fn the_test_comes_before_each_pass() {
        // What is counted to, the passes, and the statements completed.
        for (numbers, wanted, passes, count) in [
            (["1", "9", "2"], "11", "05", 11),
            (["5", "1", "1"], "05", "00", 1),
            (["3", "1", "1 neg"], "00", "03", 7),
            (["1", "1", "1"], "02", "01", 3),
            (["1", "1", "1 neg"], "00", "01", 3),
            (["2", "1", "1"], "02", "00", 1),
            (["1", "2", "1 neg"], "01", "00", 1),
            (["1", "8", "2"], "09", "04", 9),
            (["1", "10", "2"], "11", "05", 11),
            (["0", "3 neg", "1 neg"], "0t", "04", 9),
            (["3 neg", "0", "1"], "01", "04", 9),
            (["9", "2", "3 neg"], "00", "03", 7),
            (["98", "99", "99 neg"], "98", "00", 1),
            (["99", "0", "99 neg"], "9y", "02", 5),
        ] {
            let data = format!("{wanted}{passes}0102x7");
            let (stop, place, found, left) = counting(numbers).ran();
            assert_eq!((stop, place, left), (0, 3, data), "{numbers:?}");
            assert_eq!(found, count, "{numbers:?}");
        }
    }

    #[test]
    fn limit_and_step_need_not_fit_and_are_worked_out_once() {
        let long = "999999999999999999";
        assert_eq!(
            counting(["1", "1", "0 99 -"]).data(),
            "9x010102x7",
            "1 - 99 is -98"
        );
        assert_eq!(
            counting(["1", &format!("{long} neg"), "1"]).data()[..4],
            *"0100"
        );
        assert_eq!(counting(["0", "0", long]).ran().0, 20);
        // The body changes what limit and step were worked out from.
        let changing = sample().looped("%0", ["1", "%1 3 +", "2 %2()"], |body| {
            body.on(code::INCR, "%1").set("2 %2()", "1 %2()")
        });
        assert_eq!(changing.data(), "05020101x7");
        // Start, limit and step are read before the start is stored.
        let own = counting(["%0 4 -", "%0", "%0 53 -"]);
        assert_eq!(own.data(), "57030102x7");
    }

    #[test]
    fn a_loop_is_opened_at_its_entry_and_closed_behind_its_end() {
        let sample = counting(["1", "3", "2"]);
        for (allowance, at, loops, data) in [
            (1, 1, &[open(0, 3, 2)][..], "01000102x7"),
            (2, 2, &[open(0, 3, 2)], "01010102x7"),
            (3, 1, &[open(0, 3, 2)], "03010102x7"),
            (4, 2, &[open(0, 3, 2)], "03020102x7"),
            (5, 3, &[], "05020102x7"),
        ] {
            let (outcome, left) = started(&sample, allowance);
            let stop = if at == 3 { 0 } else { 30 };
            assert_eq!((outcome.stop, outcome.count), (stop, allowance));
            assert_eq!((outcome.state, left.as_str()), (state(at, loops), data));
        }
        let (outcome, _) = started(&counting(["5", "1", "1"]), 1);
        assert_eq!((outcome.stop, outcome.state), (0, state(3, &[])));
    }

    #[test]
    fn a_sign_takes_no_place_and_zero_is_plain() {
        let one = |numbers| Sample::over("?", &[(1, 0, 1, 1)]).looped("%0", numbers, |body| body);
        assert_eq!(one(["9 neg", "8 neg", "1"]).data(), "w");
        assert_eq!(one(["1 neg", "1 neg", "1"]).data(), "0");
        assert_eq!(one(["0 neg", "1 neg", "1"]).data(), "0");
        assert_eq!(one(["10 neg", "0", "1"]).fault(), (20, 0));
        assert_eq!(one(["1", "9", "1"]).ran(), (20, 1, 9, "9".to_string()));
        let down = one(["1", "9 neg", "1 neg"]);
        assert_eq!(down.ran(), (20, 1, 11, "y".to_string()));
    }

    #[test]
    fn next_loop_is_a_loop_end() {
        // NEXTLOOP passes over the count of the passes where the control is 3.
        let sample = sample().looped("%0", ["1", "5", "1"], |body| {
            let body = body.by(code::GOTO_IF_ZERO, "%0 3 EQ", 3);
            body.to(code::NEXTLOOP, 0).on(code::INCR, "%1")
        });
        assert_eq!(sample.ran(), (0, 5, 15, "06040102x7".to_string()));
        // As the last it closes, and goes on behind the loop end.
        let last = ran(&sample, "05040102x7", state(2, &[open(0, 5, 1)]), 1);
        assert_eq!((last.0.stop, last.0.state), (0, state(5, &[])));
        assert_eq!(last.1, "06040102x7");
    }

    #[test]
    fn exit_loop_works_out_nothing_and_closes() {
        let sample = sample()
            .looped("99 %2()", ["1", "9", "1"], |body| {
                body.to(code::EXITLOOP, 0)
            })
            .to(code::STOP, 0);
        // The place of its control gives 21, which nobody asks for.
        let (outcome, data) = ran(&sample, "??000102x7", state(1, &[open(0, 9, 1)]), 1);
        assert_eq!((outcome.stop, outcome.count), (30, 1));
        assert_eq!(
            (outcome.state, data.as_str()),
            (state(3, &[]), "??000102x7")
        );
    }

    #[test]
    fn nested_loops_are_left_from_within() {
        // Three times two passes; the inner loop's control is an element of the array.
        let nested = |body: fn(Sample) -> Sample| {
            let inner = |outer: Sample| outer.looped("2 %2()", ["8", "7", "1 neg"], body);
            sample().looped("%0", ["1", "3", "1"], inner).ran()
        };
        let whole = nested(|body| body.on(code::INCR, "%1"));
        assert_eq!(whole, (0, 5, 19, "04060106x7".to_string()));
        // EXITLOOP in the inner one leaves that alone.
        let left = nested(|body| body.on(code::INCR, "%1").to(code::EXITLOOP, 0));
        assert_eq!(left, (0, 6, 13, "04030108x7".to_string()));
    }
}

mod ways_out {
    use super::*;

    #[test]
    fn every_way_out_goes_on_behind_the_end_that_the_entry_names() {
        // The FOR at 0 names the loop end at 4. The one at 2 stands before it, and closes it all
        // the same.
        for (statement, changed) in [
            (code::LOOP_END, "10"),
            (code::NEXTLOOP, "10"),
            (code::EXITLOOP, "09"),
        ] {
            let sample = sample()
                .repeated("%0", ["9", "9", "1"], 4)
                .on(code::INCR, "%1")
                .to(statement, 0)
                .to(code::STOP, 0)
                .to(code::LOOP_END, 0)
                .on(code::CLEAR, "%3")
                .to(code::STOP, 0);
            let data = format!("{changed}010102  ");
            assert_eq!(sample.ran(), (0, 7, 5, data), "{statement}");
        }
    }

    #[test]
    fn the_end_of_a_loop_may_be_the_last_statement() {
        for statement in [code::LOOP_END, code::NEXTLOOP, code::EXITLOOP] {
            let sample = sample().looped("%0", ["9", "9", "1"], |body| body.to(statement, 0));
            let (outcome, _) = started(&sample, 9);
            assert_eq!((outcome.stop, outcome.place, outcome.count), (0, 3, 2));
            assert_eq!(outcome.state, state(3, &[]));
        }
        let never = idle("%0", ["9", "8", "1"]);
        assert_eq!(never.ran(), (0, 2, 1, "09000102x7".to_string()));
    }

    #[test]
    fn two_entries_may_name_one_end() {
        // The inner loop, opened last, is closed at 3, and the run goes on behind it. The outer
        // one stays open.
        let sample = sample()
            .repeated("%0", ["1", "9", "1"], 3)
            .repeated("%1", ["4", "5", "1"], 3)
            .on(code::INCR, "2 %2()")
            .to(code::LOOP_END, 0);
        let (outcome, data) = started(&sample, 99);
        assert_eq!((outcome.stop, outcome.place, outcome.count), (0, 4, 6));
        assert_eq!(outcome.state, state(4, &[open(0, 9, 1)]));
        assert_eq!(data, "01060104x7");
    }

    #[test]
    fn jumps_leave_loops_open() {
        let out = |statement, target| {
            let before = sample().to(code::GOTO, 2).to(code::RETURN, 0);
            before.looped("%0", ["1", "9", "1"], |body| body.to(statement, target))
        };
        let opened = [open(2, 9, 1)];
        let (outcome, _) = started(&out(code::STOP, 0), 99);
        assert_eq!(outcome.state, state(5, &opened));
        let (outcome, _) = started(&out(code::GOTO, 0), 3);
        assert_eq!(outcome.state, state(0, &opened));
        let (outcome, _) = started(&out(code::CALL, 1), 3);
        assert_eq!(
            (outcome.state.depth, outcome.state.loops),
            (1, state(0, &opened).loops)
        );
        let (outcome, _) = started(&out(code::CALL, 1), 4);
        assert_eq!(outcome.state, state(4, &opened));
    }

    #[test]
    fn loops_are_not_tied_to_calls() {
        // A subroutine opens a loop and returns; the caller's loop end goes on in its body.
        let sample = sample()
            .to(code::CALL, 3)
            .to(code::LOOP_END, 0)
            .to(code::STOP, 0)
            .looped("%0", ["1", "2", "1"], |body| body.to(code::RETURN, 0));
        let (outcome, data) = started(&sample, 99);
        assert_eq!((outcome.stop, outcome.place, outcome.count), (25, 4, 4));
        assert_eq!(outcome.state, state(4, &[open(3, 2, 1)]));
        assert_eq!(data, "02000102x7");
    }

    #[test]
    fn a_loop_left_by_goto_is_what_a_later_loop_end_acts_on() {
        let sample = sample()
            .looped("%0", ["1", "9", "1"], |body| body.to(code::GOTO, 3))
            .to(code::EXITLOOP, 0)
            .to(code::STOP, 0);
        let (outcome, data) = started(&sample, 3);
        assert_eq!(
            (outcome.state, data.as_str()),
            (state(3, &[]), "01000102x7")
        );
        let (outcome, _) = started(&sample, 4);
        assert_eq!((outcome.stop, outcome.place, outcome.count), (29, 3, 3));
    }

    #[test]
    fn the_sixteenth_loop_is_opened_and_the_next_is_28() {
        // Each pass is left by GOTO and enters the loop again.
        let leaking = sample().looped("%0", ["1", "9", "1"], |body| body.to(code::GOTO, 0));
        let (outcome, data) = started(&leaking, 99);
        assert_eq!((outcome.stop, outcome.place, outcome.count), (28, 0, 32));
        assert_eq!(outcome.state, state(0, &[open(0, 9, 1); LOOPS_MOST]));
        assert_eq!(data, "01000102x7");
    }
}

mod controls {
    use super::*;

    #[test]
    fn a_body_may_change_the_control() {
        let sample = sample().looped("%0", ["1", "20", "1"], |body| {
            body.on(code::INCR, "%1").set("%0", "%0 2 *")
        });
        // 1, 3, 7 and 15, which becomes 30.
        assert_eq!(sample.ran(), (0, 4, 13, "31040102x7".to_string()));
    }

    #[test]
    fn the_control_place_is_found_again_at_each_pass() {
        // The control is the element that the passes count: after one pass it is another one.
        let count = |body: Sample| body.on(code::INCR, "%1");
        let moving = sample().looped("%1 1 + %2()", ["1", "2", "1"], count);
        // Element 1 is 1, then element 2, which was 2, becomes 3.
        assert_eq!(moving.ran(), (0, 3, 3, "55010103x7".to_string()));
        // The control is its own subscript, which is stored into the place found before.
        let change = |body: Sample| body.set("%0", "2");
        let own = sample().set("%0", "1");
        let own = own.looped("%0 %2()", ["2", "2", "1"], change);
        assert_eq!(own.ran(), (0, 4, 4, "02000203x7".to_string()));
    }

    #[test]
    fn the_control_may_overlap_anything() {
        // It is part of the start's field, and of its own bound's.
        let over = idle("1 1 %0(,)", ["1 %2()", "3", "1"]);
        assert_eq!(over.data(), "45000102x7");
        // It runs over into the next field, and outside its own one.
        let across = idle("2 3 %0(,)", ["9", "10", "1"]);
        assert_eq!(across.data(), "51100102x7");
        let before = idle("0 %2()", ["8", "8", "1"]);
        assert_eq!(before.data(), "55090102x7");
        // The body's field is the control's.
        let change = |body: Sample| body.set("%0", "%0 2 +");
        let shared = sample().looped("2 2 %0(,)", ["1", "6", "1"], change);
        assert_eq!(shared.ran(), (0, 3, 5, "57000102x7".to_string()));
    }

    #[test]
    fn the_same_entry_may_be_open_twice() {
        let sample = sample().looped("%0", ["%0 50 -", "9", "2"], |body| {
            let body = body.by(code::GOTO_IF_ZERO, "%0 55 LT", 0);
            body.on(code::INCR, "%1")
        });
        let twice = [open(0, 9, 2), open(0, 7, 4)];
        let (outcome, data) = ran(&sample, "04000102x7", state(3, &twice), 1);
        assert_eq!(
            (outcome.state, data.as_str()),
            (state(4, &twice[..1]), "08000102x7")
        );
        let (outcome, data) = ran(&sample, "04000102x7", state(3, &twice[..1]), 1);
        assert_eq!(
            (outcome.state, data.as_str()),
            (state(1, &twice[..1]), "06000102x7")
        );
    }

    #[test]
    fn a_blank_control_reads_0() {
        let sample = counting(["1", "9", "1"]);
        let (outcome, data) = ran(&sample, "  000102x7", state(2, &[open(0, 9, 1)]), 1);
        assert_eq!((outcome.stop, data.as_str()), (30, "01000102x7"));
    }
}

mod errors {
    use super::*;

    #[test]
    fn sixteen_open_come_before_anything_is_worked_out() {
        let full = [open(0, 9, 1); LOOPS_MOST];
        for (control, numbers) in [
            ("%0", ["1", "9", "1"]),
            ("%0", ["5", "1", "1"]),
            ("%0", ["1", "9", "0"]),
            ("%0", ["100", "9", "1"]),
            ("99 %2()", ["1 0 /", "1 19 #", "0"]),
        ] {
            let sample = idle(control, numbers);
            let (outcome, data) = ran(&sample, "55000102x7", state(0, &full), 9);
            assert_eq!((outcome.stop, outcome.place, outcome.count), (28, 0, 0));
            assert_eq!(
                (outcome.state, data.as_str()),
                (state(0, &full), "55000102x7")
            );
        }
    }

    #[test]
    fn a_fifteenth_open_loop_leaves_room() {
        let sample = counting(["1", "9", "1"]);
        let fifteen = [open(0, 9, 1); 15];
        let (outcome, _) = ran(&sample, "55000102x7", state(0, &fifteen), 1);
        assert_eq!((outcome.stop, outcome.state.opened), (30, 16));
    }

    #[test]
    fn the_control_place_comes_first() {
        let numbers = ["1 19 #", "2 3 %0(,)", "0"];
        assert_eq!(fault("99 %2()", numbers), 21);
        assert_eq!(fault("0 2 %0(,)", numbers), 21);
        assert_eq!(fault("1 0 / %2()", numbers), 23);
        assert_eq!(fault("9 10 %0(,) %2()", numbers), 22);
        assert_eq!(fault("999999999999999999 1 + %2()", numbers), 20);
        let wide = Sample::over(&"0".repeat(24), &[(1, 0, 12, 2)]);
        let entered = |control| {
            let sample = wide.clone();
            sample.looped(control, ["1", "2", "0"], |body| body).fault()
        };
        assert_eq!(entered("1 19 %0(,)"), (20, 0));
        assert_eq!(entered("1 25 %0(,)"), (21, 0));
        assert_eq!(entered("1 18 %0(,)"), (27, 0));
    }

    #[test]
    fn the_control_place_is_not_read_at_the_entry() {
        let sample = Sample::over("?y", &[(1, 0, 2, 1)]);
        let sample = sample.looped("%0", ["1", "0", "1"], |body| body);
        assert_eq!(sample.data(), "01");
    }

    #[test]
    fn start_limit_and_step_are_worked_out_in_this_order() {
        // Each gives an error of its own: 23, 26 and 21.
        let faulty = ["1 0 /", "1 19 #", "99 %2()"];
        assert_eq!(fault("%0", faulty), 23);
        assert_eq!(fault("%0", ["1", faulty[1], faulty[2]]), 26);
        assert_eq!(fault("%0", ["1", "2", faulty[2]]), 21);
        assert_eq!(fault("%0", [faulty[0], "2", faulty[2]]), 23);
        for (number, stop) in [
            ("999999999999999999 1 +", 20),
            ("1 19 %2(,)", 21),
            ("9 10 %0(,)", 22),
            ("1 0 /", 23),
            ("1 1 neg #", 26),
        ] {
            for part in 0..3 {
                let mut numbers = ["100", "2", "0"];
                numbers[part] = number;
                assert_eq!(fault("%0", numbers), stop, "{number} as part {part}");
            }
        }
    }

    #[test]
    fn a_zero_step_is_27_before_a_start_that_does_not_fit() {
        assert_eq!(fault("%0", ["1", "9", "0"]), 27);
        assert_eq!(fault("%0", ["5", "1", "0"]), 27);
        assert_eq!(fault("%0", ["1", "9", "0 neg"]), 27);
        assert_eq!(fault("%0", ["1", "9", "%1"]), 27);
        assert_eq!(fault("%0", ["100", "9", "0"]), 27);
        assert_eq!(fault("%0", ["100", "999", "1"]), 20);
        assert_eq!(fault("%0", ["100 neg", "9", "1"]), 20);
        // It must fit also where the loop never runs.
        assert_eq!(fault("%0", ["100", "9", "1"]), 20);
        assert_eq!(fault("2 2 %0(,)", ["10", "9", "1"]), 20);
        assert_eq!(counting(["99", "9", "1"]).data(), "99000102x7");
    }

    #[test]
    fn no_loop_open_is_29() {
        for statement in [code::LOOP_END, code::NEXTLOOP, code::EXITLOOP] {
            assert_eq!(sample().to(statement, 0).fault(), (29, 0), "{statement}");
            let behind = counting(["1", "2", "1"]).to(statement, 0);
            assert_eq!(behind.ran(), (29, 3, 5, "03020102x7".to_string()));
        }
    }

    /// How a loop end and a NEXTLOOP at 1 fail over some data, with the FOR at 0 open: they leave
    /// data and state as they are, and are named themselves.
    fn failing(control: &str, data: &str, step: i64) -> u8 {
        let stops = [code::LOOP_END, code::NEXTLOOP].map(|statement| {
            let mut sample =
                sample().looped(control, ["1", "9", "1"], |body| body.to(statement, 0));
            sample.image = data.as_bytes().to_vec();
            let before = state(1, &[open(0, 9, step)]);
            let (outcome, left) = ran(&sample, data, before, 9);
            assert_eq!((outcome.place, outcome.count), (1, 0));
            assert_eq!((outcome.state, left.as_str()), (before, data));
            outcome.stop
        });
        assert_eq!(stops[0], stops[1]);
        stops[0]
    }

    #[test]
    fn the_next_pass_finds_reads_adds_and_stores() {
        assert_eq!(failing("%1 %2()", "55500102x7", 1), 21);
        assert_eq!(failing("1 %1 / %2()", "55000102x7", 1), 23);
        assert_eq!(failing("%1 %2()", "55?00102x7", 1), 22);
        assert_eq!(failing("1 %1 # %2()", "55200102x7", 1), 26);
        assert_eq!(failing("%0", "5?000102x7", 1), 22);
        assert_eq!(failing("%0", "5 000102x7", 1), 22);
        assert_eq!(failing("%0", "99000102x7", 1), 20);
        assert_eq!(failing("%0", "9y000102x7", -1), 20);
        assert_eq!(failing("%0", "01000102x7", 99), 20);
        assert_eq!(failing("%0", "01000102x7", 999_999_999_999_999_999), 20);
        assert_eq!(failing("%0", "0q000102x7", -999_999_999_999_999_999), 20);
        let wide = "5".repeat(20);
        assert_eq!(failing("1 19 %0(,)", &wide, 1), 20);
    }

    #[test]
    fn a_strict_control_is_held_at_the_entry_and_at_each_pass() {
        let entered = |control| {
            sample()
                .strict()
                .looped(control, ["1", "9", "1"], |body| body)
        };
        assert_eq!(entered("3 %2()").fault(), (21, 0));
        assert_eq!(entered("0 %2()").fault(), (21, 0));
        let loose = sample().looped("0 %2()", ["1", "9", "1"], |body| body);
        assert_eq!(loose.data(), "55100102x7");
        // The subscript has run out of the table when the third pass is over.
        let numbers = ["1", "99", "1"];
        let mut runs_out = sample().looped("%1 %2()", numbers, |body| body.on(code::INCR, "%1"));
        runs_out = runs_out.strict();
        let (outcome, data) = ran(&runs_out, "55010102x7", State::START, 99);
        assert_eq!((outcome.stop, outcome.place, outcome.count), (21, 2, 4));
        assert_eq!(data, "55030103x7");
    }

    #[test]
    fn a_control_of_18_digits_keeps_to_the_range() {
        let nines = "9".repeat(18);
        let sample = Sample::over(&"?".repeat(18), &[(1, 0, 18, 1)]);
        let up = sample.looped("%0", [&nines, &nines, "1"], |body| body);
        assert_eq!(up.ran(), (20, 1, 1, nines));
    }

    #[test]
    fn d2_from_1_to_99_ends_in_20() {
        let (outcome, data) = started(&counting(["1", "99", "1"]), BENCH_ALLOWANCE);
        assert_eq!((outcome.stop, outcome.place, outcome.count), (20, 2, 198));
        assert_eq!(outcome.state, state(2, &[open(0, 99, 1)]));
        assert_eq!(data, "99990102x7");
    }

    #[test]
    fn an_error_can_be_put_right_and_resumed() {
        let sample = counting(["1", "99", "50"]);
        let (outcome, data) = started(&sample, 99);
        assert_eq!((outcome.stop, outcome.place, outcome.count), (20, 2, 4));
        assert_eq!(data, "51020102x7");
        let (outcome, data) = ran(&sample, "00020102x7", outcome.state, 1);
        assert_eq!((outcome.state.at, data.as_str()), (1, "50020102x7"));
    }
}

mod pauses {
    use super::*;

    /// Nested loops with a NEXTLOOP and an EXITLOOP, of which the outer one ends in 20.
    fn nested() -> Sample {
        sample()
            .repeated("%0", ["90", "99", "1"], 7)
            .repeated("2 %2()", ["5", "1", "2 neg"], 6)
            .by(code::GOTO_IF_ZERO, "2 %2() 3 EQ", 4)
            .to(code::NEXTLOOP, 0)
            .on(code::INCR, "%1")
            .to(code::GOTO, 6)
            .to(code::LOOP_END, 0)
            .to(code::LOOP_END, 0)
    }

    #[test]
    fn m_statements_and_then_n_are_m_plus_n() {
        for sample in [nested(), counting(["1", "9", "2"])] {
            let (whole, data) = started(&sample, 500);
            for m in 0..150 {
                let (first, paused) = started(&sample, m);
                if first.stop != 30 {
                    assert_eq!((first, paused), (whole, data.clone()));
                    continue;
                }
                let (rest, left) = ran(&sample, &paused, first.state, 500 - m);
                let count = first.count + rest.count;
                assert_eq!((Outcome { count, ..rest }, left), (whole, data.clone()));
            }
        }
    }

    #[test]
    fn an_allowance_of_0_leaves_loops_as_they_are() {
        for (at, stop) in [(0, 30), (2, 30), (3, 0)] {
            let before = state(at, &[open(0, 9, 1), open(0, -9, -1)]);
            let (outcome, _) = ran(&counting(["1", "9", "1"]), "55000102x7", before, 0);
            assert_eq!((outcome.stop, outcome.state), (stop, before));
        }
    }

    #[test]
    fn unsound_loops_are_7_and_handed_back() {
        let sample = counting(["1", "9", "1"]);
        let mut left_over = state(1, &[]);
        left_over.loops[3].limit = 1;
        for unsound in [
            State {
                opened: 17,
                ..state(1, &[open(0, 9, 1); 16])
            },
            state(1, &[open(3, 9, 1)]),
            state(1, &[open(2, 9, 1)]),
            state(1, &[open(0, 9, 0)]),
            state(1, &[open(0, 10_i64.pow(18), 1)]),
            state(1, &[open(0, 9, -10_i64.pow(18))]),
            left_over,
        ] {
            let (outcome, data) = ran(&sample, "55000102x7", unsound, 9);
            assert_eq!((outcome.stop, outcome.place, outcome.count), (7, 0, 0));
            assert_eq!((outcome.state, data.as_str()), (unsound, "55000102x7"));
        }
    }
}
