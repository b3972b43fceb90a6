//! What FOR loops have reached, counted: how they are opened, go on and are left, where their control
//! lies, and what is open where a run begins, pauses and ends. What they are refused for and which
//! errors they give is counted in loop_faults.

use crate::decode::{bad_character, decimal_value, open_loops, shares, Open, Sound, LOOPS_MOST};
use crate::draft::{code, Statement};
use crate::loop_faults;
use crate::ways::Ways;
use std::ops::Range;

/// The ways of runs, in words, but for those of a statement that ends a pass.
const WAYS: [&str; 43] = [
    "opened upwards",
    "opened downwards",
    "never run upwards",
    "never run downwards",
    "never run, and on at the end",
    "opened as the first",
    "opened as the sixteenth",
    "opened inside another",
    "opened while it is open",
    "opened at a statement over 255",
    "closed, and on at 2,048",
    "start below 0",
    "start of the greatest length",
    "limit that does not fit",
    "step that does not fit",
    "numbers shared with another",
    "limit over 255 bytes behind the start",
    "control that could not be read",
    "control over its numbers",
    "control over its bounds",
    "control outside its field",
    "control with bounds that are read",
    "control that has moved",
    "control changed by the body",
    "control of blanks",
    "pass through 0",
    "pass to below 0",
    "end that two entries name",
    "inner one closed",
    "EXITLOOP of a control that is not found",
    "EXITLOOP of a control that cannot be read",
    "left by GOTO",
    "left by STOP",
    "open over a CALL",
    "open over a RETURN",
    "resumed with 0 open",
    "resumed with 1 open",
    "resumed with 15 open",
    "resumed with 16 open",
    "resumed inside a body",
    "paused",
    "open at the end",
    "open inside the fence",
];

/// The statements that act on the loop opened last, in words.
pub const ACTS: [&str; 3] = ["loop end", "EXITLOOP", "NEXTLOOP"];

/// The word for such a statement.
pub fn act(code: u8) -> &'static str {
    ACTS[usize::from(code - code::LOOP_END)]
}

/// All ways, in words.
fn ways() -> Vec<String> {
    let mut ways = WAYS.map(str::to_string).to_vec();
    for act in ACTS {
        let closes = ["closes upwards", "closes downwards", "goes on at the end"];
        ways.extend(closes.map(|what| format!("{act} {what}")));
        ways.push(format!("{act} of another text"));
        if act != "EXITLOOP" {
            ways.extend(["up", "down"].map(|to| format!("{act} goes on {to}wards")));
        }
    }
    ways.extend(loop_faults::ways());
    ways
}

/// Counts of what loops have reached.
#[derive(Clone)]
pub struct Loops(pub Ways);

impl Default for Loops {
    fn default() -> Loops {
        Loops(Ways::of(&ways()))
    }
}

/// A statement that was completed: its number, and data and state before and after it.
pub struct Turn<'a> {
    pub at: usize,
    pub before: (&'a [u8], &'a [u64]),
    pub after: (&'a [u8], &'a [u64]),
}

/// What is known of each open loop of a run: where its control was stored last, and what.
pub type Followed = Vec<Option<(Range<usize>, Vec<u8>)>>;

impl Loops {
    /// Adds what another thread has counted.
    pub fn add(&mut self, other: &Loops) {
        self.0.add(&other.0);
    }

    /// Each way with how often it was reached.
    pub fn reached(&self) -> impl Iterator<Item = (&str, u64)> {
        self.0.reached()
    }

    /// Counts the loops that were open where a run was begun which has completed some statements.
    pub fn begun(&mut self, unit: &Sound, state: &[u64]) {
        let open = open_loops(state);
        for count in [0, 1, 15, 16] {
            let way = format!("resumed with {count} open");
            self.0.count_if(open.len() == count, &way);
        }
        let is_inside = open
            .last()
            .is_some_and(|last| is_inside(unit, last, state[0] as usize));
        self.0.count_if(is_inside, "resumed inside a body");
    }

    /// Counts a run that has paused in a state.
    pub fn paused(&mut self, state: &[u64]) {
        self.0.count_if(!open_loops(state).is_empty(), "paused");
    }

    /// Counts a run that has reached the end in a state.
    pub fn ended(&mut self, state: &[u64]) {
        self.0
            .count_if(!open_loops(state).is_empty(), "open at the end");
    }

    /// Counts a run inside the fence that has begun or stopped in these states.
    pub fn fenced_run(&mut self, states: [&[u64]; 2]) {
        let is_open = |state: &[u64]| !open_loops(state).is_empty();
        self.0
            .count_if(states.into_iter().any(is_open), "open inside the fence");
    }

    /// Counts a statement that was completed. What is known of the open loops is what is known
    /// behind it from then on.
    pub fn completed(&mut self, unit: &Sound, turn: &Turn, followed: &mut Followed) {
        let statement = unit.statement(turn.at);
        let open = open_loops(turn.before.1);
        followed.resize(open.len(), None);
        match (statement.code, open.last()) {
            (code::FOR, _) => self.entered(unit, turn, &open),
            (code::LOOP_END | code::NEXTLOOP, Some(last)) => {
                self.left(unit, turn, &open, last);
                let known = followed.last().cloned().flatten();
                self.passed(unit, turn, last, known);
            }
            (code::EXITLOOP, Some(last)) => {
                self.left(unit, turn, &open, last);
                self.exited(unit, turn, last);
            }
            (_, Some(last)) => self.jumped(unit, turn, last),
            _ => {}
        }
        follow(unit, turn, followed);
    }

    /// A FOR.
    fn entered(&mut self, unit: &Sound, turn: &Turn, open: &[Open]) {
        let Statement { a, b, c, .. } = unit.statement(turn.at);
        let data = turn.before.0;
        let values = unit.numbers(b).map(|number| unit.value_over(number, data));
        let opened = open_loops(turn.after.1);
        let new = opened.get(open.len());
        let step = new.map(|new| new.step).or(values[2]);
        if let Some(step) = step {
            let how = if new.is_some() { "opened" } else { "never run" };
            let to = if step > 0 { "up" } else { "down" };
            self.0.count(&format!("{how} {to}wards"));
        }
        if new.is_some() {
            self.opened(turn.at, open);
        } else {
            let is_at_the_end = usize::from(c) + 1 == unit.statement_count();
            self.0
                .count_if(is_at_the_end, "never run, and on at the end");
        }
        self.row(unit, b);
        if let Some(span) = unit.span_over(a, data) {
            self.values(values, span.len());
            self.control(unit, turn.at, &span, data);
        }
    }

    /// Where the numbers of a FOR stand.
    fn row(&mut self, unit: &Sound, b: u16) {
        let fors = (0..unit.statement_count()).map(|i| unit.statement(i));
        let same = fors.filter(|other| other.code == code::FOR && other.b == b);
        self.0
            .count_if(same.count() > 1, "numbers shared with another");
        let [start, limit, _] = unit.numbers(b);
        let is_far = limit - start > 255;
        self.0
            .count_if(is_far, "limit over 255 bytes behind the start");
    }

    /// What is open where a loop is opened.
    fn opened(&mut self, entry: usize, open: &[Open]) {
        let is_other = |one: &Open| one.entry != entry;
        self.0.count_if(open.is_empty(), "opened as the first");
        self.0
            .count_if(open.len() + 1 == LOOPS_MOST, "opened as the sixteenth");
        self.0
            .count_if(open.iter().any(is_other), "opened inside another");
        self.0
            .count_if(!open.iter().all(is_other), "opened while it is open");
        self.0
            .count_if(entry > 255, "opened at a statement over 255");
    }

    /// Start, limit and step beside a control of some length.
    fn values(&mut self, [start, limit, step]: [Option<i64>; 3], length: usize) {
        let power = 10_u64.pow(length as u32);
        let is_over = |value: i64| value.unsigned_abs() >= power;
        self.0
            .count_if(start.is_some_and(|start| start < 0), "start below 0");
        let is_long = |start: i64| start.unsigned_abs() >= power / 10;
        self.0
            .count_if(start.is_some_and(is_long), "start of the greatest length");
        self.0
            .count_if(limit.is_some_and(is_over), "limit that does not fit");
        self.0
            .count_if(step.is_some_and(is_over), "step that does not fit");
    }

    /// Where the control of the FOR at `i` lies, and what stood there.
    fn control(&mut self, unit: &Sound, i: usize, span: &Range<usize>, data: &[u8]) {
        let statement = unit.statement(i);
        let is_bad = bad_character(&data[span.clone()]).is_some();
        self.0.count_if(is_bad, "control that could not be read");
        let is_over = |offset: u16, is_place: bool| {
            let references = unit.references(offset).into_iter();
            let read = references.filter(|read| !(is_place && read.is_last));
            let mut spans = read.filter_map(|read| read.span);
            spans.any(|read| shares(&read, span))
        };
        let numbers = unit.numbers(statement.b);
        let is_over_numbers = numbers.into_iter().any(|number| is_over(number, false));
        self.0.count_if(is_over_numbers, "control over its numbers");
        self.0
            .count_if(is_over(statement.a, true), "control over its bounds");
        let place = unit.place(statement.a).expect("a control is a place");
        let is_outside = span.start < place.field.start() || place.field.end() < span.end;
        self.0.count_if(is_outside, "control outside its field");
        self.0
            .count_if(place.span.is_none(), "control with bounds that are read");
    }

    /// A statement that ends a pass or a loop.
    fn left(&mut self, unit: &Sound, turn: &Turn, open: &[Open], last: &Open) {
        let act = act(unit.statement(turn.at).code);
        let to = if last.step > 0 { "up" } else { "down" };
        let is_closed = open_loops(turn.after.1).len() < open.len();
        let how = if is_closed { "closes" } else { "goes on" };
        self.0.count(&format!("{act} {how} {to}wards"));
        self.0
            .count_if(is_closed && open.len() > 1, "inner one closed");
        let end = unit.statement_count() as u64;
        let is_at_the_end = is_closed && turn.after.1[0] == end;
        self.0
            .count_if(is_at_the_end, &format!("{act} goes on at the end"));
        self.0
            .count_if(is_at_the_end && end == 2_048, "closed, and on at 2,048");
        let is_elsewhere = !is_inside(unit, last, turn.at);
        self.0
            .count_if(is_elsewhere, &format!("{act} of another text"));
        let statements = (0..unit.statement_count()).map(|i| unit.statement(i));
        let names = |other: &Statement| other.code == code::FOR && usize::from(other.c) == turn.at;
        self.0.count_if(
            statements.filter(names).count() > 1,
            "end that two entries name",
        );
    }

    /// An EXITLOOP, by the error that its control would give to another statement.
    fn exited(&mut self, unit: &Sound, turn: &Turn, last: &Open) {
        let (control, data) = (unit.statement(last.entry).a, turn.before.0);
        self.0.count_if(
            unit.is_lost_over(control, data),
            "EXITLOOP of a control that is not found",
        );
        let span = unit.span_over(control, data);
        let is_bad = span.is_some_and(|span| bad_character(&data[span]).is_some());
        self.0
            .count_if(is_bad, "EXITLOOP of a control that cannot be read");
    }

    /// A pass, by what is known of its control.
    fn passed(
        &mut self,
        unit: &Sound,
        turn: &Turn,
        last: &Open,
        known: Option<(Range<usize>, Vec<u8>)>,
    ) {
        let (before, after) = (turn.before.0, turn.after.0);
        let Some(span) = unit.span_over(unit.statement(last.entry).a, before) else {
            return;
        };
        let stored = &before[span.clone()];
        let [old, new] = [before, after].map(|data| decimal_value(&data[span.clone()]));
        self.0.count_if(stored[0] == b' ', "control of blanks");
        self.0.count_if(new == 0, "pass through 0");
        self.0.count_if(old >= 0 && new < 0, "pass to below 0");
        let Some((place, characters)) = known else {
            return;
        };
        self.0.count_if(place != span, "control that has moved");
        self.0.count_if(
            place == span && characters != stored,
            "control changed by the body",
        );
    }

    /// A statement of another sort while a loop is open.
    fn jumped(&mut self, unit: &Sound, turn: &Turn, last: &Open) {
        let to = turn.after.1[0] as usize;
        let is_out = is_inside(unit, last, turn.at) && !is_inside(unit, last, to);
        match unit.statement(turn.at).code {
            code::GOTO => self.0.count_if(is_out, "left by GOTO"),
            code::STOP => self.0.count("left by STOP"),
            code::CALL => self.0.count("open over a CALL"),
            code::RETURN => self.0.count("open over a RETURN"),
            _ => {}
        }
    }
}

/// Whether a statement stands in the body of a loop, its end included.
fn is_inside(unit: &Sound, open: &Open, at: usize) -> bool {
    let end = usize::from(unit.statement(open.entry).c);
    open.entry < at && at <= end
}

/// Keeps what is known of the open loops behind a statement: one that was opened or went on has its
/// control where it was found.
fn follow(unit: &Sound, turn: &Turn, followed: &mut Followed) {
    let open = open_loops(turn.after.1);
    let before = open_loops(turn.before.1).len();
    followed.resize(open.len(), None);
    let is_stored = match unit.statement(turn.at).code {
        code::FOR => open.len() > before,
        code::LOOP_END | code::NEXTLOOP => open.len() == before,
        _ => false,
    };
    if let (true, Some(last), Some(known)) = (is_stored, open.last(), followed.last_mut()) {
        let span = unit.span_over(unit.statement(last.entry).a, turn.before.0);
        *known = span.map(|span| (span.clone(), turn.after.0[span].to_vec()));
    }
}

#[cfg(test)]
mod tests {
    use super::*;
    use crate::draft::{Draft, Field, ALPHA, DECIMAL};

    /// The ways that are counted of a run from the start, one statement at a time.
    fn counted(draft: &Draft, steps: usize) -> Vec<String> {
        let unit = draft.unit();
        let sound = Sound::of(&unit);
        let (mut loops, mut followed) = (Loops::default(), Vec::new());
        let (mut data, mut state) = (draft.image.clone(), vec![0; second::STATE_LEN]);
        for _ in 0..steps {
            let (before, old) = (data.clone(), state.clone());
            let [_, _, count] = second::run_numbers(&unit, &mut data, &mut state, 1);
            assert_eq!(count, 1);
            let turn = Turn {
                at: old[0] as usize,
                before: (&before, &old),
                after: (&data, &state),
            };
            loops.completed(&sound, &turn, &mut followed);
        }
        loops.0.met()
    }

    /// FOR of D from 1 to 3 by 2, with a statement in its body, over an alpha A of two and D of two.
    /// At 0 of the expressions stands A, at 4 D, at 8 D(1,1), at 20 A's first byte by D; the numbers
    /// are at 30, 35 and 40, and 0 at 45.
    fn draft(control: u16, numbers: u16, body: Statement) -> Draft {
        Draft {
            image: b"??7?".to_vec(),
            fields: vec![Field::new(ALPHA, 0, 2, 1), Field::new(DECIMAL, 2, 2, 1)],
            expressions: [
                &b"\x02\0\0\0\x02\0\x01\0"[..],
                b"\x01\0\0\x01\x01\0\0\x01\x04\0\x01\0",
                b"\x02\0\x01\x01\0\0\x01\x04\0\0\0",
                b"\x01\0\0\x01\0\x01\0\x01\x01\0\x01\0\x02\x01\0\x01\0\x03\x01\0",
            ]
            .concat(),
            literals: b"1320".to_vec(),
            statements: vec![
                Statement::new(code::FOR, control, numbers, 2),
                body,
                Statement::new(code::LOOP_END, 0, 0, 0),
            ],
        }
    }

    #[test]
    fn passes_are_counted_by_how_they_end() {
        let plain = draft(4, 31, Statement::new(code::CLEAR, 0, 0, 0));
        assert!(second::check(&plain.unit()).is_ok());
        let opened = [
            "opened upwards",
            "opened as the first",
            "control that could not be read",
        ];
        assert_eq!(counted(&plain, 1), opened);
        assert_eq!(
            counted(&plain, 3),
            [&opened[..], &["loop end goes on upwards"]].concat()
        );
        let closed = ["loop end closes upwards", "loop end goes on at the end"];
        let all = counted(&plain, 5);
        assert!(closed.iter().all(|way| all.contains(&way.to_string())));
        assert_eq!(all.len(), 6);
    }

    #[test]
    fn bodies_are_counted_by_what_they_do() {
        let body = |statement, steps| {
            let mut ways = counted(&draft(4, 31, statement), steps);
            ways.retain(|way| !way.starts_with("opened") && !way.starts_with("control that could"));
            ways
        };
        let bare = |code, c| Statement::new(code, 0, 0, c);
        assert_eq!(
            body(bare(code::NEXTLOOP, 0), 2),
            ["NEXTLOOP goes on upwards"]
        );
        assert_eq!(
            body(bare(code::EXITLOOP, 0), 2),
            ["EXITLOOP closes upwards", "EXITLOOP goes on at the end"]
        );
        assert_eq!(body(bare(code::STOP, 0), 2), ["left by STOP"]);
        assert_eq!(body(bare(code::GOTO, 0), 2), ["left by GOTO"]);
        assert_eq!(body(bare(code::CALL, 0), 2), ["open over a CALL"]);
        assert_eq!(
            body(Statement::new(code::INCR, 4, 0, 0), 3),
            [
                "control changed by the body",
                "loop end closes upwards",
                "loop end goes on at the end"
            ]
        );
    }

    #[test]
    fn a_control_is_counted_by_where_it_has_moved() {
        let mut moving = Draft::counting_loop();
        // I is counted, by which T(I) is another place.
        moving.statements[1] = Statement::new(code::INCR, 7, 0, 0);
        moving.literals = b"91".to_vec();
        moving.expressions[20] = 0;
        moving.expressions.truncate(21);
        let ways = counted(&moving, 3);
        assert_eq!(
            ways,
            [
                "opened upwards",
                "opened as the first",
                "start of the greatest length",
                "control with bounds that are read",
                "control that has moved",
                "loop end goes on upwards"
            ]
        );
    }

    /// The state of `Draft::counting_loop` at its EXITLOOP, with the loop open.
    fn inside() -> Vec<u64> {
        let mut state = vec![0; second::STATE_LEN];
        (state[0], state[52], state[55]) = (1, 1, 1);
        state
    }

    #[test]
    fn an_exit_is_counted_by_what_its_control_would_give() {
        let unit = Draft::counting_loop().unit();
        for (data, way) in [
            (b"9003", "EXITLOOP of a control that is not found"),
            (b"20?3", "EXITLOOP of a control that cannot be read"),
        ] {
            let turn = Turn {
                at: 1,
                before: (data, &inside()),
                after: (data, &[0; second::STATE_LEN]),
            };
            let mut loops = Loops::default();
            loops.completed(&Sound::of(&unit), &turn, &mut Vec::new());
            assert_eq!(loops.0.met(), [way, "EXITLOOP closes upwards"]);
        }
    }

    #[test]
    fn runs_are_counted_by_what_is_open() {
        let unit = Draft::counting_loop().unit();
        let sound = Sound::of(&unit);
        let state = inside();
        let mut loops = Loops::default();
        loops.begun(&sound, &state);
        loops.paused(&state);
        loops.ended(&[0; second::STATE_LEN]);
        assert_eq!(
            loops.0.met(),
            ["resumed with 1 open", "resumed inside a body", "paused"]
        );
    }
}
