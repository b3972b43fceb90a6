//! One case on both sides: every answer of the C library beside that of the second interpreter.

use crate::breaking::{self, Row};
use crate::cases::Case;
use crate::decode::Sound;
use crate::entries;
use crate::library::{self, Given, Lent};
use crate::loops::{Followed, Turn};
use crate::promises::{self, Trap};
use crate::reached::Reached;
use crate::traps::LOOKED_AT;
use crate::validity;
use second::Fence;
use std::fmt::Debug;

/// Two answers that differ, or a promise that is not kept.
#[derive(Debug)]
pub struct Difference {
    pub what: String,
    pub library: String,
    pub wanted: String,
}

/// Compares an answer of the library with the one that is wanted.
pub fn same<T: Debug + PartialEq>(
    what: impl FnOnce() -> String,
    library: T,
    wanted: T,
) -> Result<(), Difference> {
    if library == wanted {
        return Ok(());
    }
    Err(Difference {
        what: what(),
        library: format!("{library:?}"),
        wanted: format!("{wanted:?}"),
    })
}

/// Of more statements or fields than this, only some are asked about.
const ASKED_MOST: usize = 40;

/// Compares all that can be asked about a case.
pub fn compare(case: &Case, reached: &mut Reached) -> Result<(), Difference> {
    let unit = &case.unit[..];
    let has_passed = check(case, reached)?;
    reached.case(case.kind, has_passed);
    fence(case, reached)?;
    entries::compare(case, &mut reached.entries)?;
    validity::compare(case, &mut reached.validities)?;
    let rows = breaking::compare(case, has_passed, &mut reached.breakings)?;
    promises::first_row(case, has_passed, &rows)?;
    let count = match has_passed {
        true => Sound::of(unit).statement_count(),
        false => 1,
    };
    for i in asked(case, count) {
        let rule = breach(unit, i, &rows, reached)?;
        if has_passed {
            reached.formats.breach(&Sound::of(unit), i, rule);
            reached.loops.breach(unit, i, rule);
            reached.stricts.breach(&Sound::of(unit), i, rule);
        }
        literal(case, i, reached)?;
    }
    let (data, state) = (Lent::bytes(&case.data), Lent::numbers(&case.state));
    let ran = run(case, (data, state), case.allowances[0], reached)?;
    let traps = match has_passed {
        true => promises::trapped(case, &ran)?,
        false => vec![],
    };
    if has_passed {
        count_states(case, &ran, reached);
        count_traps(case, &ran, &traps, reached);
    }
    let last = match ran.given.result {
        30 => &resume(case, &ran, reached)?,
        _ => &ran,
    };
    if last.given.result != 30 {
        allow_more(case, last, reached)?;
    }
    if has_passed && case.is_stepped {
        step(case, reached)?;
    }
    if has_passed {
        promises::loose_twin(case, &ran, &traps, reached)?;
    }
    promises::error_changed_nothing(case, &ran)?;
    promises::demand_3(case, &ran, &traps, reached)
}

/// Counts what is open and set in the state of a case, and in the one that it was left in.
fn count_states(case: &Case, ran: &Ran, reached: &mut Reached) {
    let unit = Sound::of(&case.unit);
    match ran.given.result {
        6 => {}
        7 => {
            reached.loops.unsound(&unit, &case.state);
            reached.traps.unsound(&unit, &case.state);
        }
        stop => {
            if ran.count > 0 {
                reached.loops.begun(&unit, &case.state);
                reached.traps.begun(&unit, &case.state);
            }
            if stop == 0 {
                reached.loops.ended(ran.state.part());
                reached.traps.ended(ran.state.part());
            }
        }
    }
}

/// Counts the errors that a run of a unit that passes has trapped, the one that has stopped it, and
/// where it has paused beside them.
fn count_traps(case: &Case, ran: &Ran, traps: &[Trap], reached: &mut Reached) {
    let (data, state) = (ran.data.part(), ran.state.part());
    reached.traps.trapped(&case.unit, traps);
    for trap in traps.iter().take(LOOKED_AT) {
        let (unit, data) = (Sound::of(&case.unit), trap.data.part());
        reached.blanks.failed(&unit, trap.at(), trap.stop, data);
    }
    match ran.given.result {
        stop @ 20..=29 => reached.traps.stopped(&case.unit, stop, data, state),
        30 => {
            let last = traps.last().map(|trap| trap.count + 1);
            let is_behind = last == Some(ran.count);
            let next = promises::trapped_next(case, &ran.data, &ran.state);
            let allowance = case.allowances[0];
            reached.traps.paused(allowance, state, is_behind, next);
            if is_behind && case.allowances[1] > 0 {
                reached.traps.resumed();
            }
        }
        _ => {}
    }
}

/// The statements or fields to ask about, of so many: all if they are few, some of many, and one that is
/// not there.
pub fn asked(case: &Case, count: usize) -> impl Iterator<Item = usize> {
    let step = count / ASKED_MOST + 1;
    let first = case.unit.len() % step;
    let there = (first..count).step_by(step);
    there.chain([case.absent.max(count)])
}

fn check(case: &Case, reached: &mut Reached) -> Result<bool, Difference> {
    let (stop, place, image) = match second::check(&case.unit) {
        Ok(parts) => (0, 0, parts.image.len() as u64),
        Err(refusal) => {
            if let stop @ 4..=5 = refusal.stop {
                reached.formats.refused(&case.unit, stop, refusal.place);
                reached.loops.refused(&case.unit, stop, refusal.place);
            }
            if refusal.stop == 5 {
                reached.traps.refused(&case.unit, refusal.place);
            }
            if refusal.stop == 3 {
                reached.stricts.refused(&case.unit, refusal.place);
            }
            (refusal.stop.into(), refusal.place as u64, 0)
        }
    };
    let expected = Given::expected(stop, &[stop, place, image], case.room);
    let given = library::check(&case.unit, case.room);
    same(|| "check".to_string(), given, expected)?;
    Ok(stop == 0)
}

fn fence(case: &Case, reached: &mut Reached) -> Result<(), Difference> {
    let unit = &case.unit[..];
    let (verdict, numbers) = match second::fence(unit) {
        Fence::Yes => (0, [0, 0]),
        Fence::No(i) => (1, [i as u64, second_breach(unit, i)]),
        Fence::Refused(refusal) => (2, [refusal.stop.into(), refusal.place as u64]),
    };
    let expected = Given::expected(verdict, &numbers, case.room);
    let given = library::fence(unit, case.room);
    reached.verdict(given.result.min(2));
    if given.result == 0 {
        reached.formats.fenced(&Sound::of(unit));
        reached.loops.fenced(&Sound::of(unit));
        reached.stricts.fenced(&Sound::of(unit));
        reached.traps.inside(&Sound::of(unit));
    }
    same(|| "fence".to_string(), given, expected)
}

fn second_breach(unit: &[u8], i: usize) -> u64 {
    second::breach(unit, i).map_or(0, |breach| breach.number().into())
}

/// Compares the rule that a statement breaks, which is that of its first row.
fn breach(unit: &[u8], i: usize, rows: &[Row], reached: &mut Reached) -> Result<u64, Difference> {
    let number = library::breach(unit, i);
    reached.breach(number.min(6));
    same(
        || format!("breach of statement {i}"),
        number,
        second_breach(unit, i),
    )?;
    let first = rows.iter().find(|row| row[0] == i as u64);
    same(
        || format!("breach of statement {i}, and of its first reference"),
        number,
        first.map_or(0, |row| row[1]),
    )?;
    Ok(number)
}

fn literal(case: &Case, i: usize, reached: &mut Reached) -> Result<(), Difference> {
    let unit = &case.unit[..];
    let range = second::literal_range(unit, i).unwrap_or(0..0);
    let (offset, length) = (range.start as u64, range.len() as u64);
    if length > 0 {
        reached.literal();
    }
    let expected = Given::expected(length, &[offset, length], case.room);
    let given = library::literal(unit, i, case.room);
    same(|| format!("literal of statement {i}"), given, expected)
}

/// A run of the library, as it left everything.
#[derive(Clone, Debug, PartialEq, Eq)]
pub struct Ran {
    pub given: Given,
    pub data: Lent<u8>,
    pub state: Lent<u64>,
    /// The number of statements completed.
    pub count: u64,
}

/// Runs a case on both sides and compares stop, place, count, state and every byte.
fn run(
    case: &Case,
    from: (Lent<u8>, Lent<u64>),
    allowance: u64,
    reached: &mut Reached,
) -> Result<Ran, Difference> {
    let (mut data, mut state) = from.clone();
    let answer = second::run_numbers(&case.unit, data.part_mut(), state.part_mut(), allowance);
    let [stop, place, count] = answer;
    let expected = Ran {
        given: Given::expected(stop, &answer, case.room),
        data,
        state,
        count,
    };
    let ran = library_run(case, from, allowance, count);
    reached.run(ran.given.result, count);
    same(
        || format!("run with allowance {allowance}"),
        &ran,
        &expected,
    )?;
    // A run error has left the data as its statement found it.
    if let 20..=29 = stop {
        let unit = Sound::of(&case.unit);
        let data = ran.data.part();
        reached.blanks.failed(&unit, place as usize, stop, data);
    }
    Ok(ran)
}

/// A run of the library alone. The count is told for a case that lends no room for it.
pub fn library_run(case: &Case, from: (Lent<u8>, Lent<u64>), allowance: u64, count: u64) -> Ran {
    let (mut data, mut state) = from;
    let given = library::run(&case.unit, &mut data, &mut state, allowance, case.room);
    Ran {
        given,
        data,
        state,
        count,
    }
}

/// Goes on where a run ended in 30, on both sides, and holds the library to the law of pausing: the
/// two runs come to what one run with both allowances comes to, which is given.
fn resume(case: &Case, first: &Ran, reached: &mut Reached) -> Result<Ran, Difference> {
    reached.resumed();
    reached.loops.paused(first.state.part());
    let [before, more] = case.allowances;
    let from = (first.data.clone(), first.state.clone());
    let mut joined = run(case, from, more, reached)?;
    joined.count += first.count;
    if case.room > 2 {
        *joined.given.answer_mut(2) = joined.count;
    }
    let start = (Lent::bytes(&case.data), Lent::numbers(&case.state));
    let whole = library_run(case, start, before + more, joined.count);
    let what = || format!("pausing: one run with {before} + {more}, and two");
    same(what, &whole, &joined)?;
    Ok(whole)
}

/// Gives a run that has ended a great allowance, on both sides, where the case has one: it comes to
/// the same.
fn allow_more(case: &Case, ended: &Ran, reached: &mut Reached) -> Result<(), Difference> {
    let Some(great) = case.great else {
        return Ok(());
    };
    reached.allowed_more();
    let start = (Lent::bytes(&case.data), Lent::numbers(&case.state));
    let ran = run(case, start, great, reached)?;
    let what = || format!("a run that has ended, and one with allowance {great}");
    same(what, &ran, ended)
}

/// The most statements of a run that is stepped.
const STEPS_MOST: usize = 24;

/// Runs a case one statement at a time on both sides, and counts the statements completed.
fn step(case: &Case, reached: &mut Reached) -> Result<(), Difference> {
    let unit = Sound::of(&case.unit);
    let mut from = (Lent::bytes(&case.data), Lent::numbers(&case.state));
    let mut followed = Followed::new();
    for _ in 0..STEPS_MOST {
        let at = from.1.part().first().map_or(0, |&at| at as usize);
        let (before, state) = from.clone();
        let (before, state) = (before.part(), state.part());
        let trapped = promises::trapped_next(case, &from.0, &from.1);
        let ran = run(case, from, 1, reached)?;
        let stop = ran.given.result;
        let error = Some(stop).filter(|stop| (20..=29).contains(stop));
        // The error that the statement has given, trapped or not.
        let error = error.or(trapped.filter(|_| ran.count == 1));
        if ran.count == 1 || error.is_some() {
            if let Some(is_lost) = reached.stricts.worked(&unit, at, before, state) {
                let what = || format!("whether a reference of statement {at} is 21");
                same(what, error == Some(21), is_lost)?;
            }
        }
        if ran.count == 1 && error.is_none() {
            reached.statement(&unit, at);
            let after = ran.data.part();
            reached.formats.completed(&unit, at, before, after);
            reached.blanks.completed(&unit, at, before);
            reached.letters.completed(&unit, at, before);
            let turn = Turn {
                at,
                before: (before, state),
                after: (after, ran.state.part()),
            };
            reached.loops.completed(&unit, &turn, &mut followed);
            reached.traps.completed(&unit, at, state);
        }
        if error.is_some() {
            reached.formats.failed(&case.unit, at, before);
            reached.loops.failed(&case.unit, at, before, state);
        }
        if stop != 30 {
            break;
        }
        from = (ran.data, ran.state);
    }
    Ok(())
}
