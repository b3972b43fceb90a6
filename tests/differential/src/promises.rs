//! Promises of the proved library that are held against its own answers, without the second
//! interpreter. The law of pausing is held where a case goes on after a 30.

use crate::breaking::Row;
use crate::cases::Case;
use crate::compare::{library_run, same, Difference, Ran};
use crate::decode::{Sound, HANDLER, TRAPPED};
use crate::draft::code;
use crate::library::{self, Given, Lent};
use crate::reached::Reached;

/// Demand 1: a statement that ends in a run error has changed nothing. A run that is allowed only
/// the statements before it leaves the same data and the same state.
pub fn error_changed_nothing(case: &Case, ran: &Ran) -> Result<(), Difference> {
    if !(20..=29).contains(&ran.given.result) {
        return Ok(());
    }
    let start = (Lent::bytes(&case.data), Lent::numbers(&case.state));
    let before = library_run(case, start, ran.count, ran.count);
    let what = || "a run error changed nothing: stop, data and state before it".to_string();
    let left = (30, &ran.data, &ran.state);
    same(
        what,
        (before.given.result, &before.data, &before.state),
        left,
    )
}

/// An error that was trapped: its number, how many statements the run had completed before it, and
/// data and state there.
pub struct Trap {
    pub stop: u64,
    pub count: u64,
    pub data: Lent<u8>,
    pub state: Lent<u64>,
}

impl Trap {
    /// The statement that gave the error.
    pub fn at(&self) -> usize {
        self.state.part()[0] as usize
    }
}

/// The error that the next statement gives under its handler, if it gives one that is trapped: the
/// one that it gives with the handler taken away.
pub fn trapped_next(case: &Case, data: &Lent<u8>, state: &Lent<u64>) -> Option<u64> {
    let (mut data, mut state) = (data.clone(), state.clone());
    let handler = state.part_mut().get_mut(HANDLER)?;
    if *handler == 0 {
        return None;
    }
    *handler = 0;
    let stop = library::run(&case.unit, &mut data, &mut state, 1, 0).result;
    TRAPPED.contains(&stop).then_some(stop)
}

/// The errors that a run of a unit that passes has trapped, in turn: its statements are run again one
/// at a time. Demand 1 for each: no byte has changed. The statement is completed, the state is at the
/// handler and has the error and its statement, and all else in it is as it was.
pub fn trapped(case: &Case, ran: &Ran) -> Result<Vec<Trap>, Difference> {
    let mut traps = Vec::new();
    if !may_trap(case) {
        return Ok(traps);
    }
    let (mut data, mut state) = (Lent::bytes(&case.data), Lent::numbers(&case.state));
    for count in 0..ran.count {
        let trap = trapped_next(case, &data, &state).map(|stop| Trap {
            stop,
            count,
            data: data.clone(),
            state: state.clone(),
        });
        let given = library::run(&case.unit, &mut data, &mut state, 1, 3);
        if let Some(trap) = trap {
            kept(&trap, (&given, &data, &state))?;
            traps.push(trap);
        }
    }
    let what = || "a run, and the same one statement at a time".to_string();
    same(what, (&data, &state), (&ran.data, &ran.state))?;
    Ok(traps)
}

/// Whether a run may trap something: its unit has an ONERROR, or its state a handler.
fn may_trap(case: &Case) -> bool {
    let unit = Sound::of(&case.unit);
    let is_armed = case.state.get(HANDLER).is_some_and(|&number| number > 0);
    is_armed || (0..unit.statement_count()).any(|i| unit.is_code(i, code::ONERROR))
}

/// Holds what a statement whose error was trapped has given and left.
fn kept(trap: &Trap, left: (&Given, &Lent<u8>, &Lent<u64>)) -> Result<(), Difference> {
    let mut state = trap.state.clone();
    let numbers = state.part_mut();
    let to = numbers[HANDLER] - 1;
    numbers[HANDLER + 1] = trap.stop;
    numbers[HANDLER + 2] = numbers[0];
    numbers[0] = to;
    let given = Given::expected(30, &[30, to, 1], 3);
    let what = || format!("what is left where statement {} is trapped", trap.at());
    same(what, left, (&given, &trap.data, &state))
}

/// A unit that passes with its strict fields made loose, if it has some.
fn loosened(unit: &[u8]) -> Option<Vec<u8>> {
    let sound = Sound::of(unit);
    let mut twin = unit.to_vec();
    for i in 0..sound.field_count() {
        twin[sound.image_len() + 8 * i + 1] = 0;
    }
    (twin != unit).then_some(twin)
}

/// The references that break a rule are none exactly for a yes of the fence, and the first of them has the
/// statement and the rule of its no.
pub fn first_row(case: &Case, has_passed: bool, rows: &[Row]) -> Result<(), Difference> {
    if !has_passed {
        return Ok(());
    }
    let told = match rows.first() {
        Some(&[i, rule, ..]) => Given::expected(1, &[i, rule], 2),
        None => Given::expected(0, &[0, 0], 2),
    };
    let what = || "fence, and the first of the breaches".to_string();
    same(what, library::fence(&case.unit, 2), told)
}

/// How many references break a rule, and the rows of the first of them.
fn breaches(unit: &[u8]) -> (u64, Lent<u64>) {
    let mut rows = Lent::room(80);
    (library::breaches(unit, 0, &mut rows), rows)
}

/// What strict fields change: the fence answers as it does for loose ones, with the same breaches, and a
/// run in which no 21 was given, trapped or not, comes to the same with them.
pub fn loose_twin(
    case: &Case,
    ran: &Ran,
    traps: &[Trap],
    reached: &mut Reached,
) -> Result<(), Difference> {
    let Some(twin) = loosened(&case.unit) else {
        return Ok(());
    };
    let [fence, loose] = [&case.unit, &twin].map(|unit| library::fence(unit, case.room));
    same(|| "fence, and with loose fields".to_string(), fence, loose)?;
    let [strict, loose] = [&case.unit, &twin].map(|unit| breaches(unit));
    let what = || "breaches, and with loose fields".to_string();
    same(what, strict, loose)?;
    let (mut data, mut state) = (Lent::bytes(&case.data), Lent::numbers(&case.state));
    let allowance = case.allowances[0];
    let given = library::run(&twin, &mut data, &mut state, allowance, case.room);
    let (strict, loose) = ((&ran.given, &ran.data, &ran.state), (&given, &data, &state));
    let is_same = strict == loose;
    let is_stopped = ran.given.result == 21;
    let is_trapped = traps.iter().any(|trap| trap.stop == 21);
    if !is_stopped && !is_trapped {
        same(|| "run, and with loose fields".to_string(), strict, loose)?;
        reached.stricts.twin(true);
    } else if !is_same && is_stopped {
        reached.stricts.twin(false);
    } else if !is_same {
        reached.traps.twin();
    }
    Ok(())
}

/// Demand 3, its premise being asked of the library: for a unit with a yes, data of which no decimal is
/// invalid and a sound state, no byte outside the destinations has changed, every decimal element is
/// valid, no 21 was given, and 22 only at a SET that moves alpha text to a decimal place. An error that was
/// trapped was given as well.
pub fn demand_3(
    case: &Case,
    ran: &Ran,
    traps: &[Trap],
    reached: &mut Reached,
) -> Result<(), Difference> {
    if library::fence(&case.unit, 0).result != 0 {
        return Ok(());
    }
    let unit = Sound::of(&case.unit);
    let invalid = library::invalid(&case.unit, &Lent::bytes(&case.data), 0).result;
    if invalid != 0 || !unit.is_sound_state(&case.state) {
        return Ok(());
    }
    reached.fenced_run();
    reached.blanks.fenced(&unit, &case.data);
    reached.loops.fenced_run([&case.state, ran.state.part()]);
    let (stop, data) = (ran.given.result, ran.data.part());
    let at = ran.state.part()[0] as usize;
    let trapped = traps.iter().map(|trap| (trap.stop, trap.at()));
    let given: Vec<(u64, usize)> = trapped.chain([(stop, at)]).collect();
    let told = |what: &'static str| move || format!("demand 3: {what}");
    let changed = changed_outside(&unit, &case.data, data);
    same(
        told("bytes changed outside the destinations"),
        changed,
        vec![],
    )?;
    same(told("decimals stay valid"), unit.is_valid(data), true)?;
    let has_21 = given.iter().any(|&(stop, _)| stop == 21);
    same(told("a 21 was given"), has_21, false)?;
    let is_astray = |&(stop, at): &(u64, usize)| stop == 22 && !unit.is_text_to_decimal(at);
    let astray = given.into_iter().find(is_astray);
    same(told("a 22 elsewhere than from alpha text"), astray, None)?;
    for trap in traps {
        reached.traps.fenced(trap.stop);
    }
    Ok(())
}

/// The places of the bytes that have changed outside the destinations.
fn changed_outside(unit: &Sound, before: &[u8], after: &[u8]) -> Vec<usize> {
    let destinations = unit.destinations();
    let is_inside = |i: &usize| destinations.iter().any(|span| span.contains(i));
    (0..before.len())
        .filter(|&i| before[i] != after[i])
        .filter(|i| !is_inside(i))
        .collect()
}
