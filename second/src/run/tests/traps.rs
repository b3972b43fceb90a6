//! Tests of ONERROR and OFFERROR, and of errors that are trapped.

use super::*;
use crate::state::{LastError, Loop};

/// A number that gives each of the five errors that are trapped.
const FAULTY: [(&str, u8); 5] = [
    ("999999999999999999 1 +", 20),
    ("9 %2()", 21),
    ("1 3 %0(,)", 22),
    ("1 0 /", 23),
    ("1 19 #", 26),
];

/// A statement, with those that must stand behind it.
type Add<'a> = &'a dyn Fn(Sample) -> Sample;

fn caught(stop: u8, statement: usize) -> Option<LastError> {
    Some(LastError { stop, statement })
}

/// How a run from a state stops, and the data after it.
fn ran(sample: &Sample, state: State, allowance: u64) -> (Outcome, Vec<u8>) {
    let mut data = sample.image.clone();
    let outcome = run(&sample.unit(), &mut data, state, allowance);
    (outcome, data)
}

fn started(sample: &Sample, allowance: u64) -> Outcome {
    ran(sample, State::START, allowance).0
}

/// Holds that a statement of the sample gives an error over its image, without a handler and with one.
/// It stands at 1, behind an ONERROR or an OFFERROR, and the handler behind all that it brings.
fn hold(sample: Sample, stop: u8, add: Add) {
    let stopped = add(sample.clone().to(code::OFFERROR, 0)).to(code::STOP, 0);
    let (outcome, data) = ran(&stopped, State::START, 9);
    assert_eq!((outcome.stop, outcome.place, outcome.count), (stop, 1, 1));
    assert_eq!(data, sample.image);
    assert_eq!(
        outcome.state,
        State {
            at: 1,
            ..State::START
        }
    );

    let mut trapped = add(sample.clone().to(code::ONERROR, 0)).to(code::STOP, 0);
    let target = trapped.statements.len() - 1;
    trapped.statements[0].3 = target as u16;
    let (outcome, data) = ran(&trapped, State::START, 2);
    assert_eq!(
        (outcome.stop, outcome.place, outcome.count),
        (30, target, 2)
    );
    assert_eq!(data, sample.image);
    let wanted = State {
        at: target,
        handler: Some(target),
        last_error: caught(stop, 1),
        ..State::START
    };
    assert_eq!(outcome.state, wanted);
}

mod statements {
    use super::*;

    #[test]
    fn numbers_are_trapped_wherever_they_stand() {
        for (number, stop) in FAULTY {
            hold(sample(), stop, &|it| it.set("%0", number));
            hold(sample(), stop, &|it| it.set("%1", number));
            hold(sample(), stop, &|it| it.by(code::GOTO_IF_ZERO, number, 0));
            hold(sample(), stop, &|it| {
                it.by(code::COMPUTED_GOTO, number, 1).to(code::GOTO, 0)
            });
            hold(sample(), stop, &|it| it.format("%1", "\"X\"", number));
            for part in 0..3 {
                let mut numbers = ["1", "2", "1"];
                numbers[part] = number;
                hold(sample(), stop, &|it| it.looped("%0", numbers, |body| body));
            }
        }
    }

    #[test]
    fn bounds_are_trapped_in_places_sources_and_masks() {
        for (number, stop) in FAULTY {
            let decimal = &format!("{number} %2()")[..];
            let alpha = &format!("{number} %1()")[..];
            for place in [decimal, alpha] {
                hold(sample(), stop, &|it| it.set(place, "1"));
                hold(sample(), stop, &|it| it.set("%1", place));
                hold(sample(), stop, &|it| it.on(code::CLEAR, place));
            }
            hold(sample(), stop, &|it| it.on(code::INCR, decimal));
            hold(sample(), stop, &|it| it.on(code::DECR, decimal));
            hold(sample(), stop, &|it| it.on(code::UPCASE, alpha));
            hold(sample(), stop, &|it| it.on(code::LOCASE, alpha));
            hold(sample(), stop, &|it| it.format(alpha, "\"X\"", "1"));
            hold(sample(), stop, &|it| it.format("%1", alpha, "1"));
            hold(sample(), stop, &|it| {
                it.looped(decimal, ["1", "2", "1"], |body| body)
            });
        }
    }

    #[test]
    fn places_and_what_is_read_there_are_trapped() {
        for code in [code::INCR, code::DECR] {
            hold(sample(), 21, &|it| it.on(code, "9 %2()"));
            hold(sample(), 22, &|it| it.on(code, "1 3 %0(,)"));
        }
        for code in [code::UPCASE, code::LOCASE, code::CLEAR] {
            hold(sample(), 21, &|it| it.on(code, "9 %1()"));
        }
        let long = |text: &str| Sample::over(text, &[(1, 0, 18, 1), (0, 18, 1, 1)]);
        let (greatest, least) = ("999999999999999999?", "99999999999999999y?");
        hold(long(greatest), 20, &|it| it.on(code::INCR, "%0"));
        hold(long(least), 20, &|it| it.on(code::DECR, "%0"));
        hold(long(greatest), 20, &|it| it.on(code::CLEAR, "1 19 %0(,)"));
        hold(long(greatest), 20, &|it| it.set("%1", "1 19 %0(,)"));
    }

    #[test]
    fn alpha_text_is_trapped() {
        hold(sample(), 22, &|it| it.set("%0", "%1"));
        hold(sample(), 22, &|it| it.set("%0", "\"1--2\""));
        hold(sample(), 20, &|it| it.set("%0", "\"1234567890123456789\""));
    }

    #[test]
    fn an_entry_that_does_not_fit_stores_nothing_and_opens_nothing() {
        hold(sample(), 20, &|it| {
            it.looped("%0", ["100", "200", "1"], |body| body)
        });
        hold(sample(), 20, &|it| {
            it.looped("%0", ["100", "1", "1"], |body| body)
        });
    }

    #[test]
    fn handlers_give_no_error_and_go_on_behind_themselves() {
        for code in [code::ONERROR, code::OFFERROR] {
            let unit = sample().to(code, 0).to(code, 0).to(code::STOP, 0);
            let (outcome, data) = ran(&unit, State::START, 9);
            assert_eq!((outcome.stop, outcome.place, outcome.count), (0, 3, 3));
            assert_eq!(data, unit.image);
            let handler = (code == code::ONERROR).then_some(0);
            assert_eq!(
                (outcome.state.handler, outcome.state.last_error),
                (handler, None)
            );
        }
        let last = sample().to(code::ONERROR, 0);
        assert_eq!(last.ran(), (0, 1, 1, "07aB1z1112".to_string()));
    }
}

mod loops {
    use super::*;

    /// ONERROR, a loop over the D2 of the sample with a statement in its body, and a STOP to which
    /// the handler goes.
    fn looping(body: impl FnOnce(Sample) -> Sample) -> Sample {
        let mut sample = sample()
            .to(code::ONERROR, 0)
            .looped("%0", ["98", "99", "1"], body)
            .to(code::STOP, 0);
        sample.statements[0].3 = sample.statements.len() as u16 - 1;
        sample
    }

    /// The state at a statement with one loop open and a handler at the last statement.
    fn open(at: usize, handler: usize) -> State {
        let mut state = State {
            at,
            handler: Some(handler),
            ..State::START
        };
        state.open_loop(Loop {
            entry: 1,
            limit: 99,
            step: 1,
        });
        state
    }

    #[test]
    fn a_pass_that_fails_leaves_the_loop_and_its_control() {
        for code in [code::LOOP_END, code::NEXTLOOP] {
            let sample = looping(|body| body.to(code, 0));
            let (outcome, data) = ran(&sample, State::START, 5);
            assert_eq!((outcome.stop, outcome.place, outcome.count), (0, 5, 5));
            let wanted = State {
                last_error: caught(20, 2),
                ..open(5, 4)
            };
            assert_eq!(outcome.state, wanted, "{code}");
            assert_eq!(data, b"99aB1z1112");
        }
    }

    #[test]
    fn a_control_that_is_lost_or_spoiled_is_trapped() {
        // The control of the loop is found by a subscript in the data, and read there.
        for (data, stop) in [("99", 21), ("??", 22)] {
            let mut sample = sample()
                .to(code::ONERROR, 3)
                .looped("%0 %2()", ["1", "9", "1"], |body| body)
                .to(code::STOP, 0);
            sample.image[..2].copy_from_slice(data.as_bytes());
            let (outcome, left) = ran(&sample, open(2, 3), 1);
            assert_eq!((outcome.stop, outcome.place, outcome.count), (30, 3, 1));
            let wanted = State {
                last_error: caught(stop, 2),
                ..open(3, 3)
            };
            assert_eq!((outcome.state, left), (wanted, sample.image));
        }
    }

    #[test]
    fn an_error_in_a_body_leaves_the_loop_open_and_the_handler_goes_on_with_it() {
        // The handler is a NEXTLOOP behind the loop, so that the next pass follows.
        let mut sample = sample()
            .to(code::ONERROR, 0)
            .looped("%0", ["1", "3", "1"], |body| body.set("%1", "1 %0 2 - /"))
            .to(code::STOP, 0)
            .to(code::NEXTLOOP, 0)
            .to(code::STOP, 0);
        sample.statements[0].3 = 5;
        let (outcome, data) = ran(&sample, State::START, 99);
        assert_eq!((outcome.stop, outcome.count), (0, 9));
        assert_eq!(data, b"04   11112");
        assert_eq!(outcome.state.opened, 0);
        assert_eq!(outcome.state.last_error, caught(23, 2));
    }
}

mod calls {
    use super::*;

    #[test]
    fn an_error_in_a_subroutine_leaves_its_call_open() {
        // The handler is a RETURN.
        let sample = sample()
            .to(code::ONERROR, 5)
            .to(code::CALL, 4)
            .on(code::INCR, "%0")
            .to(code::STOP, 0)
            .set("%1", "1 0 /")
            .to(code::RETURN, 0);
        let paused = started(&sample, 3);
        assert_eq!((paused.stop, paused.place), (30, 5));
        assert_eq!((paused.state.depth, paused.state.returns[0]), (1, 2));
        let (outcome, data) = ran(&sample, State::START, 99);
        assert_eq!((outcome.stop, outcome.place, outcome.count), (0, 6, 6));
        assert_eq!(outcome.state.last_error, caught(23, 4));
        assert_eq!(data, b"08aB1z1112");
    }
}

mod untrapped {
    use super::*;

    /// Holds that a sample whose handler is at the last statement stops all the same.
    fn stopped(sample: Sample, stop: u8, place: usize) {
        let end = sample.statements.len();
        let handled = sample.to(code::STOP, 0);
        let state = State {
            handler: Some(end),
            last_error: caught(26, end),
            ..State::START
        };
        let (outcome, _) = ran(&handled, state, 999);
        assert_eq!((outcome.stop, outcome.place), (stop, place));
        assert_eq!(outcome.state.handler, Some(end));
        assert_eq!(outcome.state.last_error, caught(26, end));
    }

    #[test]
    fn calls_and_loops_that_are_wrong_stop() {
        stopped(sample().to(code::CALL, 0), 24, 0);
        stopped(sample().to(code::RETURN, 0), 25, 0);
        let step = |step| sample().looped("%0", ["1", "9", step], |body| body);
        stopped(step("0"), 27, 0);
        let leaking = sample().looped("%0", ["1", "9", "1"], |body| body.to(code::GOTO, 0));
        stopped(leaking, 28, 0);
        for code in [code::LOOP_END, code::EXITLOOP, code::NEXTLOOP] {
            stopped(sample().to(code, 0), 29, 0);
        }
    }

    #[test]
    fn a_zero_step_before_a_start_that_does_not_fit_is_27() {
        let sample = sample().looped("%0", ["100", "9", "0"], |body| body);
        stopped(sample, 27, 0);
    }

    #[test]
    fn without_a_handler_the_last_error_stays() {
        let sample = sample()
            .to(code::ONERROR, 2)
            .set("%0", "1 0 /")
            .to(code::OFFERROR, 0)
            .set("%0", "1 19 #");
        let outcome = started(&sample, 99);
        assert_eq!((outcome.stop, outcome.place, outcome.count), (26, 3, 3));
        assert_eq!(outcome.state.handler, None);
        assert_eq!(outcome.state.last_error, caught(23, 1));
    }
}

mod handlers {
    use super::*;

    #[test]
    fn another_onerror_replaces_the_handler() {
        let sample = sample()
            .to(code::ONERROR, 3)
            .to(code::ONERROR, 4)
            .set("%0", "1 0 /")
            .on(code::CLEAR, "%1")
            .to(code::STOP, 0);
        assert_eq!(sample.ran(), (0, 5, 4, "07aB1z1112".to_string()));
    }

    #[test]
    fn a_newer_error_replaces_the_last() {
        // The second error is that of the handler, which is then a STOP.
        let sample = sample()
            .to(code::ONERROR, 2)
            .set("%0", "1 0 /")
            .to(code::ONERROR, 4)
            .on(code::INCR, "1 3 %0(,)")
            .to(code::STOP, 0);
        let between = started(&sample, 3);
        assert_eq!(between.state.last_error, caught(23, 1));
        let outcome = started(&sample, 99);
        assert_eq!((outcome.stop, outcome.count), (0, 5));
        assert_eq!(outcome.state.last_error, caught(22, 3));
        assert_eq!(outcome.state.handler, Some(4));
    }

    #[test]
    fn a_handler_that_fails_spends_the_allowance() {
        for (failing, target) in [(1, 1), (2, 2)] {
            let mut sample = sample().to(code::ONERROR, target);
            while sample.statements.len() < failing + 1 {
                sample = sample.set("%0", "1 0 /");
            }
            let (outcome, data) = ran(&sample, State::START, 1_000);
            let place = usize::from(target);
            assert_eq!((outcome.stop, outcome.place), (30, place));
            assert_eq!(outcome.count, 1_000);
            assert_eq!(outcome.state.last_error, caught(23, place));
            assert_eq!(data, sample.image);
        }
    }

    #[test]
    fn stop_and_the_end_keep_handler_and_last_error() {
        let kept = State {
            handler: Some(0),
            last_error: caught(21, 1),
            ..State::START
        };
        for sample in [
            sample().on(code::CLEAR, "%0").to(code::STOP, 0),
            sample().on(code::CLEAR, "%0").on(code::CLEAR, "%1"),
        ] {
            let (outcome, _) = ran(&sample, kept, 99);
            assert_eq!(outcome.stop, 0);
            assert_eq!(outcome.state, State { at: 2, ..kept });
        }
    }
}

mod pauses {
    use super::*;

    #[test]
    fn with_an_allowance_of_0_nothing_is_trapped() {
        let sample = sample().set("%0", "1 0 /").to(code::STOP, 0);
        let armed = State {
            handler: Some(1),
            ..State::START
        };
        let (outcome, _) = ran(&sample, armed, 0);
        assert_eq!((outcome.stop, outcome.place, outcome.count), (30, 0, 0));
        assert_eq!(outcome.state, armed);
        let (outcome, _) = ran(&sample, armed, 1);
        assert_eq!((outcome.stop, outcome.place, outcome.count), (30, 1, 1));
        assert_eq!(outcome.state.last_error, caught(23, 0));
    }

    #[test]
    fn a_trap_to_the_last_statement_and_the_end_behind_it() {
        // The last statement fails, and its handler is the ONERROR before it.
        let sample = sample().to(code::ONERROR, 0).set("%0", "1 0 /");
        for (allowance, at) in [(1, 1), (2, 0), (3, 1), (4, 0)] {
            let outcome = started(&sample, allowance);
            assert_eq!((outcome.stop, outcome.place), (30, at));
            assert_eq!(outcome.count, allowance);
        }
    }

    #[test]
    fn m_statements_and_then_n_are_m_plus_n() {
        let mut sample = sample()
            .to(code::ONERROR, 0)
            .looped("%0", ["1", "3", "1"], |body| body.set("%1", "1 %0 2 - /"))
            .to(code::STOP, 0)
            .to(code::OFFERROR, 0)
            .to(code::NEXTLOOP, 0)
            .set("%0", "1 19 #");
        sample.statements[0].3 = 5;
        let (whole, left) = ran(&sample, State::START, 500);
        for m in 0..12 {
            let mut data = sample.image.clone();
            let first = run(&sample.unit(), &mut data, State::START, m);
            let rest = match first.stop {
                30 => run(&sample.unit(), &mut data, first.state, 500 - m),
                _ => Outcome { count: 0, ..first },
            };
            let count = first.count + rest.count;
            assert_eq!((Outcome { count, ..rest }, &data), (whole, &left), "{m}");
        }
    }

    #[test]
    fn unsound_handlers_and_errors_are_7_and_handed_back() {
        let sample = sample().to(code::ONERROR, 1).to(code::STOP, 0);
        let errors = [
            (0, 0),
            (19, 0),
            (24, 0),
            (25, 0),
            (27, 0),
            (28, 0),
            (29, 0),
            (30, 0),
            (255, 0),
            (22, 2),
            (22, 65_535),
        ];
        let errors = errors.map(|(stop, statement)| State {
            last_error: caught(stop, statement),
            ..State::START
        });
        let handlers = [2, 65_535].map(|handler| State {
            handler: Some(handler),
            ..State::START
        });
        for unsound in errors.into_iter().chain(handlers) {
            let (outcome, _) = ran(&sample, unsound, 9);
            assert_eq!((outcome.stop, outcome.place, outcome.count), (7, 0, 0));
            assert_eq!(outcome.state, unsound);
        }
    }
}
