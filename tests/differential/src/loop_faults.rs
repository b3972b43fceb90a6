//! What loops are refused for, which errors they give and which come first, and which fence rules a
//! FOR breaks, counted.

use crate::decode::{open_loops, Sound, LOOPS_MOST};
use crate::draft::{code, Statement};
use crate::loops::{act, Loops, ACTS};
use crate::probes::{fault, passes, probed};
use crate::ways::{ways_of, FAULTS};

/// The ways in words, but for those of each part of a FOR and of each statement that ends a pass.
const WAYS: [&str; 23] = [
    "28 for one that would not run",
    "28 before another error",
    "28 at an entry that is open sixteen times",
    "27",
    "27 before a start that does not fit",
    "20 for a start that does not fit",
    "20 for the start of one that never runs",
    "an error of the step before a start that does not fit",
    "5 for an end not behind",
    "5 for an end not below N",
    "5 for an end of another code",
    "inside the fence",
    "7 for 17 open",
    "7 for a count over 65,535",
    "7 for an entry not below N",
    "7 for an entry that is no FOR",
    "7 for an entry over 65,535",
    "7 for a limit that is no value",
    "7 for a step that is no value",
    "7 for a step of 0",
    "7 for an entry left over",
    "7 for a limit left over",
    "7 for a step left over",
];

/// The parts of a FOR, in the order in which they are worked out.
const PARTS: [&str; 4] = ["control", "start", "limit", "step"];

/// The statements of loops, in words.
const WORDS: [&str; 4] = ["FOR", ACTS[0], ACTS[1], ACTS[2]];

fn word(code: u8) -> &'static str {
    WORDS[usize::from(code - code::FOR)]
}

/// All ways that are counted here, in words.
pub fn ways() -> Vec<String> {
    let mut ways = WAYS.map(str::to_string).to_vec();
    ways.extend(ways_of(&PARTS));
    for act in [ACTS[0], ACTS[2]] {
        ways.extend(FAULTS.map(|fault| format!("{act} finds {fault}")));
        let later = ["reads 22", "adds up to 20", "does not fit its 20"];
        ways.extend(later.map(|what| format!("{act} {what}")));
    }
    for word in WORDS {
        ways.push(format!("5 for the zero byte of {word}"));
        ways.push(format!("5 for {word} in a table"));
    }
    for act in ACTS {
        ways.push(format!("29 at {act}"));
        ways.extend(["a", "b", "c"].map(|part| format!("5 for {part} of {act}")));
    }
    ways.extend((1..=5).map(|rule| format!("rule {rule} broken by a control")));
    ways.extend((1..=4).map(|rule| format!("rule {rule} broken by a number")));
    ways
}

impl Loops {
    /// Counts the rule of the fence that statement `i` breaks, 0 for none, if it is a FOR.
    pub fn breach(&mut self, unit: &[u8], i: usize, rule: u64) {
        let sound = Sound::of(unit);
        if rule == 0 || !sound.is_code(i, code::FOR) {
            return;
        }
        let cleared = Statement::new(code::CLEAR, sound.statement(i).a, 0, 0);
        let by = match second::breach(&probed(unit, &sound, i, cleared), i) {
            Some(_) => "a control",
            None => "a number",
        };
        self.0.count(&format!("rule {rule} broken by {by}"));
    }

    /// Counts a unit that the fence says yes to, if it has a FOR.
    pub fn fenced(&mut self, unit: &Sound) {
        let mut all = 0..unit.statement_count();
        let has_one = all.any(|i| unit.is_code(i, code::FOR));
        self.0.count_if(has_one, "inside the fence");
    }

    /// Counts a state that was refused with 7, if one thing is wrong with its loops and nothing else.
    pub fn unsound(&mut self, unit: &Sound, state: &[u64]) {
        if let Some([wrong]) = unit.wrong_loops(state).as_deref() {
            let is_rest_sound =
                unit.are_calls_sound(state) && unit.wrong_traps(state) == Some(vec![]);
            let is_counted = is_rest_sound && *wrong != "a count over 17";
            self.0.count_if(is_counted, &format!("7 for {wrong}"));
        }
    }

    /// Counts statement `i`, which has ended in a run error, over this data and in this state.
    pub fn failed(&mut self, unit: &[u8], i: usize, data: &[u8], state: &[u64]) {
        let code = Sound::of(unit).statement(i).code;
        let is_open = !open_loops(state).is_empty();
        match code {
            code::FOR => self.not_entered(unit, i, data, state),
            code::LOOP_END | code::NEXTLOOP if is_open => self.not_passed(unit, i, data, state),
            code::LOOP_END..=code::NEXTLOOP => self.0.count(&format!("29 at {}", act(code))),
            _ => {}
        }
    }

    /// A FOR that has ended in a run error.
    fn not_entered(&mut self, unit: &[u8], i: usize, data: &[u8], state: &[u64]) {
        let sound = Sound::of(unit);
        let Statement { a, b, .. } = sound.statement(i);
        let numbers = sound.numbers(b);
        let probe = |statement| fault(&probed(unit, &sound, i, statement), i, data);
        let number = |b| probe(Statement::new(code::GOTO_IF_ZERO, 0, b, 0));
        let [start, limit, step] = numbers.map(number);
        let faults = [
            probe(Statement::new(code::CLEAR, a, 0, 0)),
            start,
            limit,
            step,
        ];
        let entry = Entry::over(&sound, i, data);
        if open_loops(state).len() == LOOPS_MOST {
            let is_faulty = faults.iter().any(Option::is_some);
            return self.no_slot(i, state, is_faulty, entry);
        }
        match self.0.count_faults(&PARTS, &faults) {
            Some("step") => self.0.count_if(
                entry.fits == Some(false),
                "an error of the step before a start that does not fit",
            ),
            Some(_) => {}
            None => self.wrong_number(entry),
        }
    }

    /// A FOR with 16 loops open.
    fn no_slot(&mut self, i: usize, state: &[u64], is_faulty: bool, entry: Entry) {
        let is_same = open_loops(state).iter().all(|open| open.entry == i);
        self.0
            .count_if(is_same, "28 at an entry that is open sixteen times");
        self.0.count_if(is_faulty, "28 before another error");
        let is_idle = !is_faulty && entry.runs == Some(false);
        self.0.count_if(is_idle, "28 for one that would not run");
    }

    /// A FOR whose parts can all be worked out.
    fn wrong_number(&mut self, entry: Entry) {
        let is_long = entry.fits == Some(false);
        if entry.step == Some(0) {
            self.0.count("27");
            self.0
                .count_if(is_long, "27 before a start that does not fit");
        } else if is_long {
            self.0.count("20 for a start that does not fit");
            self.0.count_if(
                entry.runs == Some(false),
                "20 for the start of one that never runs",
            );
        }
    }

    /// A loop end or a NEXTLOOP that has ended in a run error with a loop open.
    fn not_passed(&mut self, unit: &[u8], i: usize, data: &[u8], state: &[u64]) {
        let sound = Sound::of(unit);
        let act = act(sound.statement(i).code);
        let open = open_loops(state);
        let (entry, step) = open
            .last()
            .map(|last| (last.entry, last.step))
            .expect("one is open");
        let control = sound.statement(entry).a;
        // The FOR is the one that is replaced, for a FOR must have its loop end.
        let probe = |statement| fault(&probed(unit, &sound, entry, statement), entry, data);
        if let Some(stop) = probe(Statement::new(code::CLEAR, control, 0, 0)) {
            return self.0.count(&format!("{act} finds {stop}"));
        }
        if probe(Statement::new(code::GOTO_IF_ZERO, 0, control, 0)).is_some() {
            return self.0.count(&format!("{act} reads 22"));
        }
        if let Some(value) = sound.value_over(control, data) {
            let is_value = (value + step).unsigned_abs() < 10_u64.pow(18);
            let what = if is_value {
                "does not fit its 20"
            } else {
                "adds up to 20"
            };
            self.0.count(&format!("{act} {what}"));
        }
    }

    /// Counts a refusal by 4 or 5 of a loop's statement, or of a table that has one.
    pub fn refused(&mut self, unit: &[u8], stop: u8, place: usize) {
        let sound = Sound::of(unit);
        let statement = sound.statement(place);
        match (stop, statement.code) {
            (5, code::COMPUTED_GOTO) => {
                if let Some(code @ code::FOR..=code::NEXTLOOP) = sound.stray(place) {
                    self.0.count(&format!("5 for {} in a table", word(code)));
                }
            }
            (5, code::FOR..=code::NEXTLOOP) => self.wrong_statement(&sound, place),
            (4, code::FOR) => self.wrong_parts(unit, &sound, place),
            _ => {}
        }
    }

    /// What is wrong with a statement of a loop that is refused by 5, where it is one thing.
    fn wrong_statement(&mut self, unit: &Sound, i: usize) {
        let Statement {
            code,
            zero,
            a,
            b,
            c,
        } = unit.statement(i);
        let word = word(code);
        let end = usize::from(c);
        let count = unit.statement_count();
        let is_for = code == code::FOR;
        let wrong = [
            (zero != 0, format!("5 for the zero byte of {word}")),
            (!is_for && a != 0, format!("5 for a of {word}")),
            (!is_for && b != 0, format!("5 for b of {word}")),
            (!is_for && c != 0, format!("5 for c of {word}")),
            (
                is_for && end >= count,
                "5 for an end not below N".to_string(),
            ),
            (
                is_for && i < end && end < count && !unit.is_code(end, code::LOOP_END),
                "5 for an end of another code".to_string(),
            ),
            (
                is_for && end <= i && unit.is_code(end, code::LOOP_END),
                "5 for an end not behind".to_string(),
            ),
        ];
        let mut wrong = wrong.into_iter().filter(|(is_so, _)| *is_so);
        if let (Some((_, way)), None) = (wrong.next(), wrong.next()) {
            self.0.count(&way);
        }
    }

    /// The first part of a FOR that is refused by 4: whether it lies outside the expressions, or is
    /// well-formed and of another sort.
    fn wrong_parts(&mut self, unit: &[u8], sound: &Sound, i: usize) {
        let Statement { a, b, .. } = sound.statement(i);
        let serves = |statement| passes(&probed(unit, sound, i, statement), i);
        let is_number = |part| serves(Statement::new(code::GOTO_IF_ZERO, 0, part, 0));
        let is_place = |part| serves(Statement::new(code::INCR, part, 0, 0));
        let is_alpha = |part| serves(Statement::new(code::UPCASE, part, 0, 0));
        let is_outside = |part: u16| usize::from(part) >= sound.expressions_len();
        if !is_place(a) {
            let is_other = is_number(a) || is_alpha(a);
            self.0.count_if(is_outside(a), "4 for control outside");
            return self.0.count_if(is_other, "4 for control of another sort");
        }
        let mut part = b;
        for name in &PARTS[1..] {
            if !is_number(part) {
                self.0
                    .count_if(is_outside(part), &format!("4 for {name} outside"));
                return self
                    .0
                    .count_if(is_alpha(part), &format!("4 for {name} of another sort"));
            }
            part = sound.behind(part);
        }
    }
}

/// What is known of a FOR over some data.
struct Entry {
    /// Whether the start fits the control.
    fits: Option<bool>,
    step: Option<i64>,
    /// Whether the test would be passed.
    runs: Option<bool>,
}

impl Entry {
    /// The FOR at `i`, as far as its parts give no error.
    fn over(unit: &Sound, i: usize, data: &[u8]) -> Entry {
        let Statement { a, b, .. } = unit.statement(i);
        let [start, limit, step] = unit.numbers(b).map(|number| unit.value_over(number, data));
        let length = unit.span_over(a, data).map(|span| span.len().min(18));
        let fits = |(start, length): (i64, usize)| start.unsigned_abs() < 10_u64.pow(length as u32);
        let runs = |((start, limit), step): ((i64, i64), i64)| match step {
            1.. => start <= limit,
            _ => start >= limit,
        };
        Entry {
            fits: start.zip(length).map(fits),
            step,
            runs: start.zip(limit).zip(step).map(runs),
        }
    }
}

#[cfg(test)]
mod tests {
    use super::*;
    use crate::decode::OPENED;
    use crate::draft::Draft;

    /// The ways that were counted.
    fn counted(count: impl FnOnce(&mut Loops)) -> Vec<String> {
        let mut loops = Loops::default();
        count(&mut loops);
        loops.0.met()
    }

    /// A state at a statement in which the FOR at 0 is open so many times, by 9.
    fn state(at: u64, opened: usize) -> Vec<u64> {
        let mut state = vec![0; second::STATE_LEN];
        (state[0], state[OPENED]) = (at, opened as u64);
        for slot in state[OPENED + 1..].chunks_exact_mut(3).take(opened) {
            slot[2] = 9;
        }
        state
    }

    /// The ways of a statement of a unit that ends in this stop.
    fn failed(draft: &Draft, data: &[u8], state: &[u64], stop: u64) -> Vec<String> {
        let unit = draft.unit();
        let answer = second::run_numbers(&unit, &mut data.to_vec(), &mut state.to_vec(), 1);
        assert_eq!(answer, [stop, state[0], 0]);
        counted(|loops| loops.failed(&unit, state[0] as usize, data, state))
    }

    #[test]
    fn an_error_of_an_entry_is_that_of_its_part() {
        let mut draft = Draft::counting_loop();
        let start = state(0, 0);
        assert_eq!(failed(&draft, b"9003", &start, 21), ["control gives 21"]);
        assert_eq!(failed(&draft, b"?003", &start, 22), ["control gives 22"]);
        assert_eq!(
            failed(&draft, b"2003", &state(0, 16), 28),
            [
                "28 for one that would not run",
                "28 at an entry that is open sixteen times"
            ]
        );
        assert_eq!(
            failed(&draft, b"9003", &state(0, 16), 28),
            [
                "28 before another error",
                "28 at an entry that is open sixteen times"
            ]
        );
        // The step is 0, and the start I is as long as the control of one digit.
        draft.literals = b"90".to_vec();
        assert_eq!(failed(&draft, b"2003", &start, 27), ["27"]);
    }

    #[test]
    fn an_error_of_a_pass_is_that_of_finding_reading_adding_or_storing() {
        let mut draft = Draft::counting_loop();
        for code in [code::LOOP_END, code::NEXTLOOP] {
            draft.statements[1].code = code;
            let act = act(code);
            let ways = |data, stop| failed(&draft, data, &state(1, 1), stop);
            assert_eq!(ways(b"9003", 21), [format!("{act} finds 21")]);
            assert_eq!(ways(b"20?3", 22), [format!("{act} reads 22")]);
            assert_eq!(ways(b"2093", 20), [format!("{act} does not fit its 20")]);
            let none = failed(&draft, b"2003", &state(1, 0), 29);
            assert_eq!(none, [format!("29 at {act}")]);
        }
        let mut far = state(1, 1);
        far[OPENED + 3] = 10_u64.pow(18) - 1;
        assert_eq!(
            failed(&draft, b"2093", &far, 20),
            ["NEXTLOOP adds up to 20"]
        );
    }

    #[test]
    fn a_refusal_is_that_of_its_part() {
        let refused = |change: fn(&mut Draft)| {
            let mut draft = Draft::counting_loop();
            change(&mut draft);
            let unit = draft.unit();
            let refusal = second::check(&unit).unwrap_err();
            counted(|loops| loops.refused(&unit, refusal.stop, refusal.place))
        };
        let ways = [
            refused(|draft| draft.statements[0].c = 1),
            refused(|draft| draft.statements[0].c = 3),
            refused(|draft| {
                draft.statements[0].c = 0;
                draft.statements.swap(0, 2);
            }),
            refused(|draft| draft.statements[0].zero = 1),
            refused(|draft| draft.statements[1].b = 1),
            refused(|draft| draft.statements[2].zero = 1),
            refused(|draft| draft.statements[0].a = 11),
            refused(|draft| draft.statements[0].a = 22),
            refused(|draft| draft.statements[0].b = 11),
            refused(|draft| draft.statements[0].b = 16),
        ];
        let wanted = [
            &["5 for an end of another code"][..],
            &["5 for an end not below N"],
            &["5 for an end not behind"],
            &["5 for the zero byte of FOR"],
            &["5 for b of EXITLOOP"],
            &["5 for the zero byte of loop end"],
            &["4 for control of another sort"],
            &["4 for control outside"],
            &["4 for step outside"],
            &["4 for limit outside"],
        ];
        assert_eq!(ways, wanted);
    }

    #[test]
    fn an_unsound_state_is_counted_by_the_one_thing_that_is_wrong() {
        let unit = Draft::counting_loop().unit();
        let ways = |state: &[u64]| counted(|loops| loops.unsound(&Sound::of(&unit), state));
        let mut wrong = state(1, 16);
        wrong[OPENED] = 17;
        assert_eq!(ways(&wrong), ["7 for 17 open"]);
        wrong[0] = 99;
        assert_eq!(ways(&wrong), [""; 0]);
        let mut left = state(1, 1);
        left[100] = 1;
        assert_eq!(ways(&left), ["7 for a step left over"]);
        assert_eq!(ways(&left[..52]), [""; 0]);
    }
}
