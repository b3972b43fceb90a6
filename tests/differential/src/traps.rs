//! What ONERROR, OFFERROR and trapped errors have reached, counted: which error of which part was
//! trapped, or was not for want of a handler; where the handler stood and what was open; and with what a
//! run begins, pauses and ends. What they are refused for is counted in trap_faults.

use crate::decode::{handler, last_error, open_loops, Sound, LOOPS_MOST};
use crate::draft::{code, Statement};
use crate::probes::{fault, probed};
use crate::promises::Trap;
use crate::trap_faults;
use crate::ways::{Ways, FAULTS};

/// The ways of runs, in words, but for those of each part of a statement and of each error.
const WAYS: [&str; 44] = [
    "ONERROR with no handler before",
    "ONERROR in place of another",
    "ONERROR of the handler that there is",
    "ONERROR of itself",
    "ONERROR of statement 0",
    "ONERROR of the last statement",
    "ONERROR behind a trapped error",
    "OFFERROR with a handler",
    "OFFERROR with no handler",
    "OFFERROR behind a trapped error",
    "trapped as the first",
    "trapped behind another error",
    "trapped behind the same error elsewhere",
    "trapped behind the same error there",
    "trapped twice in a run",
    "trapped twenty times in a run",
    "handler that fails itself",
    "handler before the error",
    "handler right behind the error",
    "handler further behind the error",
    "handler at statement 0",
    "handler at the last statement",
    "handler over 255",
    "handler at 2,047",
    "trapped with 1 call open",
    "trapped with 50 calls open",
    "trapped with 1 loop open",
    "trapped with 15 loops open",
    "trapped with 16 loops open",
    "FOR trapped with 15 loops open",
    "begun with a handler",
    "begun with a handler at 0",
    "begun with a handler at N - 1",
    "begun with an error at N - 1",
    "begun with a handler and an error",
    "paused with a handler",
    "paused behind a trapped error",
    "resumed behind a trapped error",
    "paused before an error that would be trapped",
    "allowance of 0 before an error that would be trapped",
    "end reached with a handler",
    "end reached behind a trapped error",
    "stopped behind a trapped error",
    "21 trapped where a loose twin runs on",
];

/// The parts of statements that may give any of the five errors, in words.
const PARTS: [&str; 18] = [
    "place of SET",
    "source of SET",
    "CLEAR",
    "INCR",
    "DECR",
    "UPCASE",
    "LOCASE",
    "branch on zero",
    "computed GOTO",
    "place of a formatted move",
    "mask of a formatted move",
    "number of a formatted move",
    "control of FOR",
    "start of FOR",
    "limit of FOR",
    "step of FOR",
    "loop end",
    "NEXTLOOP",
];

/// A start that can be worked out, and does not fit its control.
const UNFIT: &str = "start that does not fit";

/// The errors that are not trapped, each with its statement in words.
const UNTRAPPED: [&str; 7] = [
    "24 at CALL",
    "25 at RETURN",
    "27 at FOR",
    "28 at FOR",
    "29 at loop end",
    "29 at EXITLOOP",
    "29 at NEXTLOOP",
];

/// The errors that a run inside the fence may trap.
const FENCED: [u8; 4] = [20, 22, 23, 26];

/// Of the errors that a run has trapped, so many are looked at for what gave them.
pub const LOOKED_AT: usize = 6;

/// All ways, in words.
fn ways() -> Vec<String> {
    let mut ways = WAYS.map(str::to_string).to_vec();
    for how in ["trapped", "not trapped"] {
        for part in PARTS {
            ways.extend(FAULTS.map(|stop| format!("{part}, {stop} {how}")));
        }
        ways.push(format!("{UNFIT}, 20 {how}"));
    }
    ways.extend(UNTRAPPED.map(|error| format!("{error} under a handler")));
    ways.extend(FAULTS.map(|stop| format!("begun with a last error {stop}")));
    ways.extend(FENCED.map(|stop| format!("{stop} trapped inside the fence")));
    ways.extend(trap_faults::ways());
    ways
}

/// Counts of what trapped errors have reached.
#[derive(Clone)]
pub struct Traps(pub Ways);

impl Default for Traps {
    fn default() -> Traps {
        Traps(Ways::of(&ways()))
    }
}

impl Traps {
    /// Adds what another thread has counted.
    pub fn add(&mut self, other: &Traps) {
        self.0.add(&other.0);
    }

    /// Each way with how often it was reached.
    pub fn reached(&self) -> impl Iterator<Item = (&str, u64)> {
        self.0.reached()
    }

    /// Counts a run that was begun in a state and has completed some statements.
    pub fn begun(&mut self, unit: &Sound, state: &[u64]) {
        let (handler, error) = (handler(state), last_error(state));
        let last = unit.statement_count() - 1;
        let mut count = |is_so, way: &str| self.0.count_if(is_so, way);
        count(handler.is_some(), "begun with a handler");
        count(handler == Some(0), "begun with a handler at 0");
        count(handler == Some(last), "begun with a handler at N - 1");
        let is_both = handler.is_some() && error.is_some();
        count(is_both, "begun with a handler and an error");
        if let Some((stop, statement)) = error {
            count(true, &format!("begun with a last error {stop}"));
            count(statement == last, "begun with an error at N - 1");
        }
    }

    /// Counts a run that has reached the end in a state.
    pub fn ended(&mut self, state: &[u64]) {
        let has_error = last_error(state).is_some();
        self.0
            .count_if(handler(state).is_some(), "end reached with a handler");
        self.0
            .count_if(has_error, "end reached behind a trapped error");
    }

    /// Counts a run with an allowance that has paused in a state: whether its last statement was one
    /// that was trapped, and which error the next one gives under the handler, if it gives one.
    pub fn paused(&mut self, allowance: u64, state: &[u64], is_behind: bool, next: Option<u64>) {
        self.0
            .count_if(handler(state).is_some(), "paused with a handler");
        self.0.count_if(is_behind, "paused behind a trapped error");
        if next.is_some() {
            self.0.count("paused before an error that would be trapped");
            let way = "allowance of 0 before an error that would be trapped";
            self.0.count_if(allowance == 0, way);
        }
    }

    /// Counts a run that goes on right behind an error that was trapped.
    pub fn resumed(&mut self) {
        self.0.count("resumed behind a trapped error");
    }

    /// Counts a 21 that was trapped where with loose fields the run comes to something else.
    pub fn twin(&mut self) {
        self.0.count("21 trapped where a loose twin runs on");
    }

    /// Counts an error that was trapped in a run inside the fence.
    pub fn fenced(&mut self, stop: u64) {
        self.0.count(&format!("{stop} trapped inside the fence"));
    }

    /// Counts statement `at`, which was completed in this state and has given no error.
    pub fn completed(&mut self, unit: &Sound, at: usize, state: &[u64]) {
        let Statement { code, c, .. } = unit.statement(at);
        let (before, target) = (handler(state), usize::from(c));
        let is_behind = last_error(state).is_some();
        let mut count = |is_so, way: &str| self.0.count_if(is_so, way);
        match code {
            code::ONERROR => {
                count(before.is_none(), "ONERROR with no handler before");
                let is_other = before.is_some_and(|before| before != target);
                count(is_other, "ONERROR in place of another");
                let is_same = before == Some(target);
                count(is_same, "ONERROR of the handler that there is");
                count(target == at, "ONERROR of itself");
                count(target == 0, "ONERROR of statement 0");
                let is_last = target + 1 == unit.statement_count();
                count(is_last, "ONERROR of the last statement");
                count(is_behind, "ONERROR behind a trapped error");
            }
            code::OFFERROR => {
                count(before.is_some(), "OFFERROR with a handler");
                count(before.is_none(), "OFFERROR with no handler");
                count(is_behind, "OFFERROR behind a trapped error");
            }
            _ => {}
        }
    }

    /// Counts the errors that a run of a unit has trapped.
    pub fn trapped(&mut self, unit: &[u8], traps: &[Trap]) {
        self.0.count_if(traps.len() > 1, "trapped twice in a run");
        self.0
            .count_if(traps.len() >= 20, "trapped twenty times in a run");
        for trap in traps.iter().take(LOOKED_AT) {
            let (at, data) = (trap.at(), trap.data.part());
            let part = part(unit, at, data);
            self.0.count(&format!("{part}, {} trapped", trap.stop));
            self.error(trap);
            self.handler(&Sound::of(unit), trap);
            self.open(&Sound::of(unit), trap);
        }
    }

    /// The error that was trapped beside the one before it.
    fn error(&mut self, trap: &Trap) {
        self.0.count(match last_error(trap.state.part()) {
            None => "trapped as the first",
            Some((stop, _)) if stop != trap.stop => "trapped behind another error",
            Some((_, at)) if at != trap.at() => "trapped behind the same error elsewhere",
            Some(_) => "trapped behind the same error there",
        });
    }

    /// Where the handler stands.
    fn handler(&mut self, unit: &Sound, trap: &Trap) {
        let at = trap.at();
        let handler = handler(trap.state.part()).expect("what is trapped has a handler");
        self.0.count(match handler {
            _ if handler == at => "handler that fails itself",
            _ if handler < at => "handler before the error",
            _ if handler == at + 1 => "handler right behind the error",
            _ => "handler further behind the error",
        });
        let is_last = handler + 1 == unit.statement_count();
        self.0.count_if(handler == 0, "handler at statement 0");
        self.0.count_if(is_last, "handler at the last statement");
        self.0.count_if(handler > 255, "handler over 255");
        self.0.count_if(handler == 2_047, "handler at 2,047");
    }

    /// What is open where an error is trapped.
    fn open(&mut self, unit: &Sound, trap: &Trap) {
        let state = trap.state.part();
        let (calls, loops) = (state[1], open_loops(state).len());
        self.0.count_if(calls == 1, "trapped with 1 call open");
        self.0.count_if(calls == 50, "trapped with 50 calls open");
        self.0.count_if(loops == 1, "trapped with 1 loop open");
        self.0.count_if(loops == 15, "trapped with 15 loops open");
        self.0
            .count_if(loops == LOOPS_MOST, "trapped with 16 loops open");
        let is_entry = unit.is_code(trap.at(), code::FOR);
        self.0
            .count_if(is_entry && loops == 15, "FOR trapped with 15 loops open");
    }

    /// Counts a run of a unit that an error has stopped, over the data and in the state that it has
    /// left. One of the five has had no handler, and any other may have had one.
    pub fn stopped(&mut self, unit: &[u8], stop: u64, data: &[u8], state: &[u64]) {
        let at = state[0] as usize;
        self.0.count_if(
            last_error(state).is_some(),
            "stopped behind a trapped error",
        );
        if FAULTS.map(u64::from).contains(&stop) {
            let part = part(unit, at, data);
            return self.0.count(&format!("{part}, {stop} not trapped"));
        }
        let error = match Sound::of(unit).statement(at).code {
            code::CALL => "24 at CALL",
            code::RETURN => "25 at RETURN",
            code::LOOP_END => "29 at loop end",
            code::EXITLOOP => "29 at EXITLOOP",
            code::NEXTLOOP => "29 at NEXTLOOP",
            _ if stop == 27 => "27 at FOR",
            _ => "28 at FOR",
        };
        let way = format!("{error} under a handler");
        self.0.count_if(handler(state).is_some(), &way);
    }
}

/// The part of statement `i` that gives one of the five errors over this data, in words.
fn part(unit: &[u8], i: usize, data: &[u8]) -> &'static str {
    let sound = Sound::of(unit);
    let Statement { code, a, b, c, .. } = sound.statement(i);
    let fails = |statement| fault(&probed(unit, &sound, i, statement), i, data).is_some();
    let is_lost = |place| fails(Statement::new(code::CLEAR, place, 0, 0));
    let is_bad = |number| fails(Statement::new(code::GOTO_IF_ZERO, 0, number, 0));
    match code {
        code::SET if is_lost(a) => "place of SET",
        code::SET => "source of SET",
        code::CLEAR => "CLEAR",
        code::INCR => "INCR",
        code::DECR => "DECR",
        code::UPCASE => "UPCASE",
        code::LOCASE => "LOCASE",
        code::GOTO_IF_ZERO => "branch on zero",
        code::COMPUTED_GOTO => "computed GOTO",
        code::FORMAT if is_lost(a) => "place of a formatted move",
        code::FORMAT if is_bad(c) && !is_lost(b) => "number of a formatted move",
        code::FORMAT => "mask of a formatted move",
        code::LOOP_END => "loop end",
        code::NEXTLOOP => "NEXTLOOP",
        _ if is_lost(a) => "control of FOR",
        _ => {
            let words = ["start of FOR", "limit of FOR", "step of FOR"];
            let mut numbers = words.into_iter().zip(sound.numbers(b));
            let faulty = numbers.find(|(_, number)| is_bad(*number));
            faulty.map_or(UNFIT, |(word, _)| word)
        }
    }
}

#[cfg(test)]
mod tests {
    use super::*;
    use crate::decode::HANDLER;
    use crate::draft::{Draft, Field, ALPHA, DECIMAL};
    use crate::library::Lent;

    /// Statements over A of two letters and D of two digits, which is spoiled. At 0 of the expressions
    /// stands D, at 4 A, at 8 1 / 0, at 18 A(9), and from 26 on in a row 9, 9, 1, 1 / 0, 9 and 1.
    fn draft(statements: &[(u8, u16, u16, u16)]) -> Draft {
        let statement = |&(code, a, b, c)| Statement::new(code, a, b, c);
        Draft {
            image: b"ab?7".to_vec(),
            fields: vec![Field::new(ALPHA, 0, 2, 1), Field::new(DECIMAL, 2, 2, 1)],
            expressions: [
                &b"\x02\0\x01\0\x02\0\0\0"[..],
                b"\x01\0\0\x01\x01\0\x01\x01\x13\0",
                b"\x01\0\x02\x01\x03\0\0\0",
                b"\x01\0\x02\x01\0\x01\0\x02\x01\0\x01\0\0\x01\0",
                b"\x01\0\0\x01\x01\0\x01\x01\x13\0",
                b"\x01\0\x02\x01\0\x01\0\0\x01\0",
            ]
            .concat(),
            literals: b"109".to_vec(),
            statements: statements.iter().map(statement).collect(),
        }
    }

    /// A state at a statement with a handler and a last error, in the numbers for them.
    fn state(at: u64, traps: [u64; 3]) -> Vec<u64> {
        let mut state = vec![0; second::STATE_LEN];
        state[0] = at;
        state[HANDLER..].copy_from_slice(&traps);
        state
    }

    /// The ways that were counted.
    fn counted(count: impl FnOnce(&mut Traps)) -> Vec<String> {
        let mut traps = Traps::default();
        count(&mut traps);
        traps.0.met()
    }

    /// These ways, in the order in which they are listed.
    fn listed(words: &[&str]) -> Vec<String> {
        let all = ways().into_iter();
        let met: Vec<String> = all.filter(|way| words.contains(&way.as_str())).collect();
        assert_eq!(met.len(), words.len());
        met
    }

    /// The part of a statement that gives an error, which the second interpreter gives as well.
    fn part_of(statement: (u8, u16, u16, u16), stop: u8) -> &'static str {
        let draft = draft(&[statement, (code::LOOP_END, 0, 0, 0), (code::STOP, 0, 0, 0)]);
        let (unit, start) = (draft.unit(), second::State::START);
        let outcome = second::run(&unit, &mut draft.image.clone(), start, 1);
        assert_eq!((outcome.stop, outcome.place), (stop, 0));
        part(&unit, 0, &draft.image)
    }

    #[test]
    fn an_error_is_that_of_its_part() {
        assert_eq!(part_of((code::SET, 18, 8, 0), 21), "place of SET");
        assert_eq!(part_of((code::SET, 4, 8, 0), 23), "source of SET");
        assert_eq!(part_of((code::SET, 4, 18, 0), 21), "source of SET");
        assert_eq!(part_of((code::CLEAR, 18, 0, 0), 21), "CLEAR");
        assert_eq!(part_of((code::INCR, 0, 0, 0), 22), "INCR");
        assert_eq!(part_of((code::LOCASE, 18, 0, 0), 21), "LOCASE");
        assert_eq!(part_of((code::GOTO_IF_ZERO, 0, 0, 0), 22), "branch on zero");
        let formatted = |a, b, c, stop| part_of((code::FORMAT, a, b, c), stop);
        assert_eq!(formatted(18, 18, 8, 21), "place of a formatted move");
        assert_eq!(formatted(4, 18, 8, 21), "mask of a formatted move");
        assert_eq!(formatted(4, 4, 8, 23), "number of a formatted move");
        let entered = |b| part_of((code::FOR, 0, b, 1), 23);
        assert_eq!(entered(41), "start of FOR");
        assert_eq!(entered(36), "limit of FOR");
        assert_eq!(entered(31), "step of FOR");
    }

    #[test]
    fn a_start_that_does_not_fit_is_told_apart() {
        let mut draft = draft(&[(code::FOR, 0, 26, 1), (code::LOOP_END, 0, 0, 0)]);
        draft.fields[1].size = 1;
        draft.literals = b"10999".to_vec();
        // The start is 999 now.
        draft.expressions[26..30].copy_from_slice(b"\x01\0\x02\x03");
        let (unit, start) = (draft.unit(), second::State::START);
        let stop = second::run(&unit, &mut draft.image.clone(), start, 1).stop;
        assert_eq!((stop, part(&unit, 0, &draft.image)), (20, UNFIT));
    }

    #[test]
    fn a_trap_is_counted_by_part_error_handler_and_what_is_open() {
        let unit = draft(&[(code::STOP, 0, 0, 0), (code::INCR, 0, 0, 0)]).unit();
        let trap = |traps| Trap {
            stop: 22,
            count: 0,
            data: Lent::bytes(b"ab?7"),
            state: Lent::numbers(&state(1, traps)),
        };
        let ways = |traps| counted(|counts| counts.trapped(&unit, &[trap(traps)]));
        let common = ["INCR, 22 trapped"];
        let wanted = |more: &[&str]| listed(&[&common[..], more].concat());
        assert_eq!(
            ways([1, 0, 0]),
            wanted(&[
                "trapped as the first",
                "handler before the error",
                "handler at statement 0"
            ])
        );
        assert_eq!(
            ways([2, 22, 1]),
            wanted(&[
                "trapped behind the same error there",
                "handler that fails itself",
                "handler at the last statement"
            ])
        );
        assert_eq!(
            ways([2, 22, 0]),
            wanted(&[
                "trapped behind the same error elsewhere",
                "handler that fails itself",
                "handler at the last statement"
            ])
        );
    }

    #[test]
    fn a_stop_is_counted_by_its_handler() {
        let unit = draft(&[(code::INCR, 0, 0, 0), (code::RETURN, 0, 0, 0)]).unit();
        let ways = |stop, at, traps| {
            counted(|counts| counts.stopped(&unit, stop, b"ab?7", &state(at, traps)))
        };
        assert_eq!(ways(22, 0, [0, 0, 0]), ["INCR, 22 not trapped"]);
        assert_eq!(ways(25, 1, [0, 0, 0]), [""; 0]);
        assert_eq!(ways(25, 1, [1, 0, 0]), ["25 at RETURN under a handler"]);
        assert_eq!(
            ways(25, 1, [1, 20, 1]),
            listed(&[
                "25 at RETURN under a handler",
                "stopped behind a trapped error"
            ])
        );
    }

    #[test]
    fn a_handler_is_counted_by_the_one_before() {
        let unit = draft(&[(code::ONERROR, 0, 0, 1), (code::OFFERROR, 0, 0, 0)]).unit();
        let sound = Sound::of(&unit);
        let ways =
            |at, traps| counted(|counts| counts.completed(&sound, at, &state(at as u64, traps)));
        let last = "ONERROR of the last statement";
        let wanted = |way| listed(&[way, last]);
        assert_eq!(ways(0, [0, 0, 0]), wanted("ONERROR with no handler before"));
        assert_eq!(ways(0, [1, 0, 0]), wanted("ONERROR in place of another"));
        assert_eq!(
            ways(0, [2, 0, 0]),
            wanted("ONERROR of the handler that there is")
        );
        assert_eq!(ways(1, [0, 0, 0]), ["OFFERROR with no handler"]);
        assert_eq!(
            ways(1, [1, 20, 0]),
            listed(&["OFFERROR with a handler", "OFFERROR behind a trapped error"])
        );
    }
}
