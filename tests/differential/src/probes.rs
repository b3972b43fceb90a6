//! Units with one statement changed, to ask the second interpreter for an error of one part alone.

use crate::decode::Sound;
use crate::draft::Statement;
use second::State;

/// A unit with another statement in the place of statement `i`.
pub fn probed(unit: &[u8], sound: &Sound, i: usize, statement: Statement) -> Vec<u8> {
    let mut unit = unit.to_vec();
    let at = sound.place_of(i);
    unit[at..at + 2].copy_from_slice(&[statement.code, 0]);
    let numbers = [statement.a, statement.b, statement.c];
    for (number, bytes) in numbers.iter().zip(unit[at + 2..at + 8].chunks_mut(2)) {
        bytes.copy_from_slice(&number.to_be_bytes());
    }
    unit
}

/// The run error that statement `i` of a unit gives over this data, by the second interpreter.
pub fn fault(unit: &[u8], i: usize, data: &[u8]) -> Option<u8> {
    let state = State {
        at: i,
        ..State::START
    };
    let stop = second::run(unit, &mut data.to_vec(), state, 1).stop;
    (20..=26).contains(&stop).then_some(stop)
}

/// Whether statement `i` of a unit, the first that was refused, passes.
pub fn passes(unit: &[u8], i: usize) -> bool {
    second::check(unit).map_or_else(|refusal| refusal.place > i, |_| true)
}
