//! The cases: a unit with a data buffer, a resume state and allowances, all from a case's number.

use crate::damage::damaged;
use crate::data::{fill, make_strict, spoil, Quality};
use crate::decode::{HANDLER, LOOPS_MOST, OPENED, TRAPPED};
use crate::draft::Draft;
use crate::expressions::GREATEST;
use crate::library;
use crate::limits::limit_unit;
use crate::random::Random;
use crate::trap_limits::arm;
use crate::units::random_unit;

/// How a case's unit was made.
#[derive(Clone, Copy, Debug, PartialEq, Eq)]
pub enum Kind {
    Random,
    Fenced,
    Limit,
    Damaged,
}

pub const KINDS: [Kind; 4] = [Kind::Random, Kind::Fenced, Kind::Limit, Kind::Damaged];

/// One case.
pub struct Case {
    pub kind: Kind,
    pub unit: Vec<u8>,
    pub data: Vec<u8>,
    pub state: Vec<u64>,
    /// The allowance of the run, and of the run that goes on where it ended in 30.
    pub allowances: [u64; 2],
    /// A statement number to ask about that is not there, if it is past the last one: some would
    /// come back to a statement if bits of them were lost.
    pub absent: usize,
    /// How many numbers are lent for an answer.
    pub room: usize,
    /// Whether the case is also run one statement at a time.
    pub is_stepped: bool,
    /// An allowance that no run spends, which some cases are given once it is known that they end.
    pub great: Option<u64>,
    /// Data buffers to ask about, besides the image and that of the run.
    pub others: Vec<Vec<u8>>,
    /// How many numbers are lent for a longer answer.
    pub long_room: usize,
    /// Which references that break a rule are asked for.
    pub rows: Rows,
}

/// Which references that break a rule are asked for, and the room that is lent for them.
#[derive(Clone, Copy, Debug)]
pub struct Rows {
    /// How many are passed over; some would be few if bits of the number were lost.
    pub skip: usize,
    /// How many are passed over, counted from one less than there are.
    pub near: usize,
    /// How many numbers are lent.
    pub room: usize,
}

impl Case {
    /// The case of a number.
    pub fn of(seed: u64, number: u64) -> Case {
        let random = &mut Random::of_case(seed, number);
        let kind = random.weighed(&[
            (36, Kind::Random),
            (22, Kind::Fenced),
            (18, Kind::Limit),
            (28, Kind::Damaged),
        ]);
        let draft = draft(random, kind);
        let unit = match kind {
            Kind::Damaged => damaged(random, draft.clone()),
            _ => draft.unit(),
        };
        Case {
            kind,
            unit,
            data: data(random, &draft),
            state: state(random, &draft),
            allowances: [allowance(random), allowance(random)],
            absent: absent(random),
            room: random.weighed(&[(20, 3), (1, 0), (1, 1), (1, 2), (1, 4)]),
            is_stepped: random.chance(20),
            great: great(random),
            others: others(random, &draft),
            long_room: random.pick(&[0, 1, 2, 3, 4, 5, 6, 6, 7, 7, 7, 7, 7, 7, 7, 7]),
            rows: rows(random),
        }
    }
}

fn draft(random: &mut Random, kind: Kind) -> Draft {
    let fenced = random.chance(40);
    let mut draft = match kind {
        Kind::Random => random_unit(random, false),
        Kind::Fenced => random_unit(random, true),
        Kind::Limit => limit_unit(random),
        Kind::Damaged if random.chance(15) => limit_unit(random),
        Kind::Damaged => random_unit(random, fenced),
    };
    make_strict(random, &mut draft.fields);
    if random.chance(20) {
        arm(random, &mut draft);
    }
    draft
}

/// A data buffer: the image, or one filled anew; rarely of another length.
fn data(random: &mut Random, draft: &Draft) -> Vec<u8> {
    let mut data = draft.image.clone();
    if random.chance(3) {
        let length = data.len() + random.pick(&[0, 2, 9]);
        data.resize(length.saturating_sub(1), b'0');
    }
    let quality = random.weighed(&[
        (50, None),
        (34, Some(Quality::Valid)),
        (12, Some(Quality::Mixed)),
        (4, Some(Quality::Noise)),
    ]);
    if let Some(quality) = quality {
        fill(random, &draft.fields, &mut data, quality);
    }
    data
}

/// Other data buffers: one with characters of its decimals changed, and sometimes one of another length.
fn others(random: &mut Random, draft: &Draft) -> Vec<Vec<u8>> {
    let mut data = draft.image.clone();
    if random.chance(60) {
        fill(random, &draft.fields, &mut data, Quality::Valid);
    }
    for _ in 0..random.weighed(&[(1, 0), (10, 1), (3, 2)]) {
        spoil(random, &draft.fields, &mut data);
    }
    let length = data.len();
    let lengths = [
        length.saturating_sub(1),
        length + 1,
        0,
        2 * length,
        length + 65_536,
    ];
    let other = random.pick(&lengths);
    match random.chance(15) {
        true => vec![data.clone(), data.into_iter().cycle().take(other).collect()],
        false => vec![data],
    }
}

/// Which references that break a rule are asked for.
fn rows(random: &mut Random) -> Rows {
    let some = random.below(6);
    let wrapped = random.pick(&[1 << 16, 1 << 32, 1 << 61]) + some;
    Rows {
        skip: random.weighed(&[(4, 0), (6, some), (1, wrapped), (1, usize::MAX)]),
        near: random.below(3),
        room: random.pick(&[0, 1, 7, 8, 9, 15, 16, 17, 40, 80]),
    }
}

fn absent(random: &mut Random) -> usize {
    let wrapped = random.pick(&[1 << 16, 1 << 32, 1 << 61]) + random.below(4);
    random.weighed(&[(2, 0), (1, 2_049), (3, wrapped), (1, usize::MAX)])
}

fn allowance(random: &mut Random) -> u64 {
    let most = random.weighed(&[(1, 0), (3, 1), (5, 4), (12, 30), (3, 120)]);
    random.within(0..=most) as u64
}

/// An allowance that would be a small or a negative one if bits of it were lost.
fn great(random: &mut Random) -> Option<u64> {
    let allowance = random.pick(&[1 << 32, 1 << 63, u64::MAX]);
    random.chance(10).then_some(allowance)
}

/// A resume state for a unit: the start, another that is sound, or one that is not in some way.
fn state(random: &mut Random, draft: &Draft) -> Vec<u64> {
    let mut state = vec![0; library::state_len()];
    let roll = random.below(100);
    if roll < 40 {
        return state;
    }
    set_traps(random, draft, &mut state[HANDLER..]);
    if roll < 55 {
        return state;
    }
    sound_state(random, draft, &mut state);
    if roll < 85 {
        return state;
    }
    match random.below(8) {
        0 => {
            let whole = state.len();
            let length = random.pick(&[0, 1, 2, OPENED, HANDLER, whole - 1, whole + 1]);
            state.resize(length, 0);
        }
        1 => {
            let at = random.below(state.len());
            let wrap = random.pick(&[1 << 16, 1 << 32, 1 << 63, !0xFFFF]);
            state[at] = state[at].wrapping_add(wrap);
        }
        2 | 3 => unsound(random, draft, &mut state),
        4 | 5 => unsound_loops(random, draft, &mut state[OPENED..HANDLER]),
        _ => unsound_traps(random, draft, &mut state[HANDLER..]),
    }
    state
}

/// Fills in a sound state.
fn sound_state(random: &mut Random, draft: &Draft, state: &mut [u64]) {
    let count = draft.statements.len();
    let depth = random.weighed(&[(6, 0), (4, 1), (4, 3), (1, 48), (1, 49), (2, 50)]);
    state[0] = random.within(0..=count) as u64;
    state[1] = depth as u64;
    for back in &mut state[2..2 + depth] {
        *back = random.within(0..=count) as u64;
    }
    let entries = draft.entries();
    if !entries.is_empty() {
        open_loops(random, draft, &entries, state);
    }
}

/// Mostly sets a handler, and sometimes a last error, in the three numbers for them.
fn set_traps(random: &mut Random, draft: &Draft, traps: &mut [u64]) {
    let count = draft.statements.len().max(1);
    let [handler, statement] = [(); 2].map(|()| {
        let any = random.below(count);
        random.pick(&[any, any, 0, count - 1]) as u64
    });
    if random.chance(60) {
        traps[0] = handler + 1;
    }
    if random.chance(35) {
        traps[1] = random.pick(&TRAPPED);
        traps[2] = statement;
    }
}

/// Opens loops of these entries, and mostly goes on in the body of the one opened last.
fn open_loops(random: &mut Random, draft: &Draft, entries: &[usize], state: &mut [u64]) {
    let opened = random.weighed(&[(6, 0), (8, 1), (4, 2), (2, 15), (3, LOOPS_MOST)]);
    let mut last = random.pick(entries);
    let is_same = random.chance(30);
    let (numbers, slots) = state[..HANDLER].split_at_mut(OPENED + 1);
    numbers[OPENED] = opened as u64;
    for slot in slots.chunks_exact_mut(3).take(opened) {
        last = if is_same { last } else { random.pick(entries) };
        let (limit, step) = (loop_number(random), loop_number(random));
        let step = if step == 0 { 1 } else { step };
        slot.copy_from_slice(&[last as u64, limit as u64, step as u64]);
    }
    if opened > 0 && random.chance(70) {
        let end = usize::from(draft.statements[last].c);
        let at = random.within(last + 1..=end.max(last + 1));
        numbers[0] = random.pick(&[at, end]) as u64;
    }
}

/// A limit or a step: mostly a small one, sometimes one at the edge of the values.
fn loop_number(random: &mut Random) -> i64 {
    let greatest = GREATEST as i64;
    let small = random.below(13) as i64 - 3;
    let any = (random.next() % GREATEST) as i64;
    let value = random.weighed(&[(12, small), (1, any), (2, greatest), (1, greatest - 1)]);
    random.pick(&[value, value, -value])
}

/// Changes one number of a state, of the statement or the calls, to a wrong one or one at the edge.
fn unsound(random: &mut Random, draft: &Draft, state: &mut [u64]) {
    let past = draft.statements.len() as u64 + random.pick(&[0, 1, 2]);
    let wrong = random.pick(&[past, 65_535]);
    match random.below(4) {
        0 => state[0] = wrong,
        1 => state[1] = random.pick(&[state[1] + 1, 50, 51, 255, 65_535]),
        _ => {
            let at = random.within(2..=51);
            state[at] = random.pick(&[wrong, 1]);
        }
    }
}

/// Changes one number of the open loops to a wrong one or one at the edge.
fn unsound_loops(random: &mut Random, draft: &Draft, loops: &mut [u64]) {
    let (opened, slots) = loops.split_at_mut(1);
    let any = random.within(0..=LOOPS_MOST - 1);
    let last = (opened[0] as usize).saturating_sub(1);
    let slot = random.pick(&[last, last + 1, any]).min(LOOPS_MOST - 1);
    let slot = &mut slots[3 * slot..][..3];
    let past = draft.statements.len() as u64 + random.pick(&[0, 1]);
    let other = random.below(draft.statements.len().max(1)) as u64;
    let greatest = GREATEST as i64;
    let edge = random.pick(&[greatest + 1, -greatest - 1, greatest, i64::MAX, i64::MIN]);
    match random.below(5) {
        0 => {
            let count = opened[0];
            let counts = [count + 1, count + 1, 17, 255, 65_535, 65_536, 1 << 32];
            opened[0] = random.pick(&counts);
        }
        1 | 2 => slot[0] = random.pick(&[past, other, 65_535, 65_536]),
        3 => slot[1] = random.pick(&[edge, edge, 1]) as u64,
        _ => slot[2] = random.pick(&[edge, 0, 1]) as u64,
    }
}

/// Changes the handler, the last error or its statement to a wrong one or one at the edge.
fn unsound_traps(random: &mut Random, draft: &Draft, traps: &mut [u64]) {
    let count = draft.statements.len() as u64;
    let any = random.below(draft.statements.len().max(1)) as u64;
    let (last, wrapped) = (count.saturating_sub(1), 65_536 + any);
    let trapped = random.pick(&TRAPPED);
    let near = 256 + trapped;
    match random.below(3) {
        0 => {
            // One more than the handler.
            let [at, past] = [count + 1, count + 2];
            traps[0] = random.pick(&[count, at, past, 65_535, 65_536, wrapped, 1 << 32]);
        }
        1 => {
            let errors = [0, 1, 19, 24, 25, 27, 28, 29, 30, 34, 255, 256, near];
            traps[1] = random.pick(&errors);
            traps[2] = any;
        }
        _ => {
            traps[1] = random.pick(&[trapped, trapped, trapped, 0]);
            traps[2] = random.pick(&[last, count, count + 1, 65_535, 65_536, wrapped]);
        }
    }
}
