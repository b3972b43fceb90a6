//! Damaged units: good ones with a part changed, cut or moved, and bytes that were never a unit.

use crate::decode::Sound;
use crate::draft::{code, Draft, Statement};
use crate::random::Random;

/// A damaged unit of a draft.
pub fn damaged(random: &mut Random, mut draft: Draft) -> Vec<u8> {
    match random.below(24) {
        0..5 => edit_statement(random, &mut draft),
        5..8 => edit_field(random, &mut draft),
        8..13 => edit_bytes(random, &mut draft.expressions),
        13 => edit_bytes(random, &mut draft.literals),
        14..16 => edit_loop(random, &mut draft),
        16 => edit_table(random, &mut draft),
        17 => edit_handler(random, &mut draft),
        18..20 => return edit_trailer(random, draft.unit()),
        20 => return cut(random, draft.unit()),
        21..23 => return flip(random, draft.unit()),
        _ => return noise(random),
    }
    draft.unit()
}

/// A number that may stand where `now` stands: beside it, at an edge, or anything.
fn other(random: &mut Random, now: u16) -> u16 {
    let any = random.next() as u16;
    let edges = [0, 1, 2, 255, 256, 0x7FFF, 0x8000, 0xFFFF, any];
    match random.below(3) {
        0 => now.wrapping_add(1),
        1 => now.wrapping_sub(1),
        _ => random.pick(&edges),
    }
}

/// Changes a part of a statement, or has it name an expression of another.
fn edit_statement(random: &mut Random, draft: &mut Draft) {
    if draft.statements.is_empty() {
        return;
    }
    let shared = random.pick(&draft.statements);
    let parts = [shared.a, shared.b, shared.c];
    let count = draft.statements.len();
    let (i, j) = (random.below(count), random.below(count));
    let statement = &mut draft.statements[i];
    match random.below(12) {
        0 => statement.code = any_code(random),
        1 => statement.zero = random.pick(&[1, 0x80, 0xFF]),
        2 => statement.a = other(random, statement.a),
        3 => statement.b = other(random, statement.b),
        4 => statement.c = other(random, statement.c),
        5 => statement.a = random.pick(&parts),
        6 => statement.b = random.pick(&parts),
        7 => statement.c = random.pick(&parts),
        8 => (statement.a, statement.b) = (statement.b, statement.a),
        9 => (statement.b, statement.c) = (statement.c, statement.b),
        10 => (statement.a, statement.c) = (statement.c, statement.a),
        _ => draft.statements.swap(i, j),
    }
}

/// Changes where a FOR ends, or has its numbers begin with its limit or its step.
fn edit_loop(random: &mut Random, draft: &mut Draft) {
    let entries = draft.entries();
    if entries.is_empty() {
        return edit_statement(random, draft);
    }
    let i = random.pick(&entries);
    let count = draft.statements.len();
    let is_end = |i: &usize| draft.statements[*i].code == code::LOOP_END;
    let mut ends: Vec<usize> = (0..count).filter(is_end).collect();
    ends.extend([i, random.below(count), count, count + 1]);
    let [_, limit, step] = Sound::of(&draft.unit()).numbers(draft.statements[i].b);
    let statement = &mut draft.statements[i];
    match random.below(3) {
        0 => statement.c = random.pick(&ends) as u16,
        1 => statement.b = limit,
        _ => statement.b = step,
    }
}

/// Changes a part of an ONERROR or an OFFERROR, the target of the one to N or past it.
fn edit_handler(random: &mut Random, draft: &mut Draft) {
    let count = draft.statements.len() as u16;
    let is_one = |code: u8| code == code::ONERROR || code == code::OFFERROR;
    let statements = draft.statements.iter_mut();
    let mut handlers: Vec<&mut Statement> = statements.filter(|one| is_one(one.code)).collect();
    if handlers.is_empty() {
        return edit_statement(random, draft);
    }
    let i = random.below(handlers.len());
    match random.below(5) {
        0 => handlers[i].zero = random.pick(&[1, 0x80, 0xFF]),
        1 => handlers[i].a = random.pick(&[1, 256]),
        2 => handlers[i].b = random.pick(&[1, 256]),
        _ => handlers[i].c = random.pick(&[count, count, count + 1, 256, 65_535]),
    }
}

/// Gives the first GOTO of a table the code of a loop's statement, or of a handler's.
fn edit_table(random: &mut Random, draft: &mut Draft) {
    let mut codes = draft.statements.iter().map(|statement| statement.code);
    match codes.position(|code| code == code::COMPUTED_GOTO) {
        Some(i) if i + 1 < draft.statements.len() => {
            let code = random.within(usize::from(code::FOR)..=usize::from(code::OFFERROR));
            draft.statements[i + 1].code = code as u8;
        }
        _ => edit_statement(random, draft),
    }
}

/// A code that a statement may have, the one behind them, or another that none has.
fn any_code(random: &mut Random) -> u8 {
    let near = random.below(21) as u8;
    random.weighed(&[(8, near), (1, 27), (1, 255)])
}

fn edit_field(random: &mut Random, draft: &mut Draft) {
    let count = draft.fields.len();
    let Some(field) = draft.fields.get_mut(random.below(count.max(1))) else {
        return;
    };
    match random.below(6) {
        0 => field.kind = random.below(4) as u8,
        1 => {
            let any = random.byte();
            field.zero = random.pick(&[0x01, 0x40, 0x7F, 0x80, 0x81, 0xFF, any]);
        }
        2 => field.offset = other(random, field.offset),
        3 => field.size = other(random, field.size),
        4 => field.count = other(random, field.count),
        _ => {
            let other = random.below(count);
            draft.fields.swap(0, other);
        }
    }
}

/// Changes a byte, takes one out or puts one in.
fn edit_bytes(random: &mut Random, bytes: &mut Vec<u8>) {
    let byte = byte_of_expression(random);
    let at = random.within(0..=bytes.len());
    match random.below(4) {
        0 if at < bytes.len() => drop(bytes.remove(at)),
        1 => bytes.insert(at, byte),
        _ if at < bytes.len() => bytes[at] = byte,
        _ => bytes.push(byte),
    }
}

/// The code of an item, one beside them, or any byte.
fn byte_of_expression(random: &mut Random) -> u8 {
    match random.below(5) {
        0 => random.byte(),
        1 | 2 => random.within(0x00..=0x07) as u8,
        _ => random.within(0x0F..=0x20) as u8,
    }
}

/// Changes the mark, a length in the trailer, or two of them.
fn edit_trailer(random: &mut Random, mut unit: Vec<u8>) -> Vec<u8> {
    match random.below(4) {
        0 => {
            let at = unit.len() - random.within(1..=2);
            unit[at] = random.pick(&[0x42, 0x43, 0x44, 0]);
        }
        1 => {
            let i = random.below(5);
            let new = other(random, length(&unit, i));
            put_length(&mut unit, i, new);
        }
        _ => move_border(random, &mut unit),
    }
    unit
}

/// Makes one part a byte or an entry longer or shorter at the cost of another, so that the parts
/// still fill the unit and are cut at other places.
fn move_border(random: &mut Random, unit: &mut [u8]) {
    const WIDTHS: [u16; 5] = [1, 8, 1, 1, 8];
    let (i, j) = (random.below(5), random.pick(&[0, 2, 3]));
    let (more, less) = match random.below(2) {
        0 => (1, WIDTHS[i].wrapping_neg()),
        _ => (1_u16.wrapping_neg(), WIDTHS[i]),
    };
    let new = length(unit, i).wrapping_add(more);
    put_length(unit, i, new);
    let new = length(unit, j).wrapping_add(less);
    put_length(unit, j, new);
}

/// The length of part `i` in the trailer.
fn length(unit: &[u8], i: usize) -> u16 {
    let at = unit.len() - 12 + 2 * i;
    u16::from_be_bytes([unit[at], unit[at + 1]])
}

fn put_length(unit: &mut [u8], i: usize, number: u16) {
    let at = unit.len() - 12 + 2 * i;
    unit[at..at + 2].copy_from_slice(&number.to_be_bytes());
}

/// Takes bytes off at an end, or adds some.
fn cut(random: &mut Random, mut unit: Vec<u8>) -> Vec<u8> {
    let count = random.within(1..=unit.len().min(20));
    match random.below(4) {
        0 => unit.truncate(unit.len() - count),
        1 => drop(unit.drain(..count)),
        2 => unit.truncate(random.below(unit.len())),
        _ => unit.splice(0..0, vec![b'0'; count]).for_each(drop),
    }
    unit
}

/// Changes one to three bytes anywhere.
fn flip(random: &mut Random, mut unit: Vec<u8>) -> Vec<u8> {
    for _ in 0..random.within(1..=3) {
        let at = random.below(unit.len());
        let bit = 1 << random.below(8);
        unit[at] = if random.chance(50) {
            unit[at] ^ bit
        } else {
            random.byte()
        };
    }
    unit
}

/// Bytes that were never a unit, with a trailer or without, some of them longer than any unit.
fn noise(random: &mut Random) -> Vec<u8> {
    let length = match random.below(200) {
        0 => random.within(57_352..=57_355),
        _ => random.below(60),
    };
    let mut unit: Vec<u8> = (0..length).map(|_| random.byte()).collect();
    if length >= 12 {
        unit[length - 2..].copy_from_slice(b"DB");
        let (body, small) = (length - 12, random.chance(70));
        for i in (0..10).step_by(2).filter(|_| small) {
            unit[length - 12 + i] = 0;
            unit[length - 11 + i] = random.below(3) as u8;
        }
        // The image takes what the other parts leave.
        if small && body <= 60 {
            let part = |i: usize| usize::from(unit[length - 11 + 2 * i]);
            let rest = 8 * part(1) + part(2) + part(3) + 8 * part(4);
            unit[length - 11] = body.saturating_sub(rest) as u8;
        }
    }
    unit
}
