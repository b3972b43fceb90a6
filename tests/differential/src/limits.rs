//! Units at the limits of document 01, and one past them.

use crate::data::{amount, bad, decimal, digit, mask};
use crate::draft::{code, Draft, Field, Statement, ALPHA, DECIMAL, RECORD};
use crate::expressions::{Maker, GREATEST};
use crate::loop_limits::{control_edges, entry_errors, far, many_open, moving};
use crate::random::Random;
use crate::strict_limits::strict_edges;
use crate::trap_limits::{every_error, far_handler};
use crate::units::random_unit;

/// What makes a unit at one of the limits.
type Make = fn(&mut Random) -> Draft;

/// A unit at some limit.
pub fn limit_unit(random: &mut Random) -> Draft {
    let makers: [(usize, Make); 21] = [
        (1, sizes),
        (12, held),
        (10, nesting),
        (20, digits),
        (8, literals),
        (2, long_table),
        (14, spans),
        (12, amounts),
        (36, blanks),
        (12, masks),
        (2, long_masks),
        (10, mask_errors),
        (2, letters),
        (10, control_edges),
        (4, many_open),
        (45, moving),
        (30, entry_errors),
        (2, far),
        (60, strict_edges),
        (60, every_error),
        (3, far_handler),
    ];
    random.weighed(&makers)(random)
}

/// A random unit, filled up to the limits of some parts or one past one of them.
fn sizes(random: &mut Random) -> Draft {
    let mut draft = random_unit(random, false);
    let past = random.weighed(&[(5, usize::MAX), (1, 0), (1, 1), (1, 2), (1, 3), (1, 4)]);
    let is_full = random.chance(20);
    let mut length = |part: usize, now: usize, limit: usize| match random.below(3) {
        _ if part == past => limit + 1,
        _ if is_full => limit,
        0 => limit,
        1 => now.max(limit - 1),
        _ => now,
    };
    let lengths = [
        length(0, draft.image.len(), 16_383),
        length(1, draft.fields.len(), 512),
        length(2, draft.expressions.len(), 16_383),
        length(3, draft.literals.len(), 4_095),
        length(4, draft.statements.len(), 2_048),
    ];
    fill_up(random, &mut draft, lengths);
    if random.chance(4) {
        match random.below(2) {
            0 => draft.image.clear(),
            _ => draft.statements.clear(),
        }
    }
    draft
}

/// Makes the parts of a unit as long as these lengths, none of which is below what they have.
fn fill_up(random: &mut Random, draft: &mut Draft, lengths: [usize; 5]) {
    draft.image.resize(lengths[0], b'0');
    let record = Field::new(RECORD, draft.image.len() - 1, 1, 1);
    draft.fields.resize(lengths[1], record);
    draft.expressions.resize(lengths[2], 0);
    draft.literals.resize(lengths[3], b'7');
    let last = lengths[4] as u16 - 1;
    let statement = random.pick(&[
        Statement::new(code::RETURN, 0, 0, 0),
        Statement::new(code::GOTO, 0, 0, last),
        Statement::new(code::CALL, 0, 0, last),
    ]);
    draft.statements.resize(lengths[4], statement);
}

/// A decimal of 18 characters, an alpha, and an array of decimals over all that comes before.
pub fn base(random: &mut Random) -> Draft {
    let mut draft = Draft {
        image: b"000000000000000001          0102030405".to_vec(),
        fields: vec![
            Field::new(DECIMAL, 0, 18, 1),
            Field::new(ALPHA, 18, 10, 1),
            Field::new(DECIMAL, 28, 2, 5),
        ],
        ..Draft::default()
    };
    if random.chance(30) {
        draft.fields.insert(0, Field::new(RECORD, 0, 38, 1));
    }
    draft
}

/// The number of the 18-character decimal of `base`.
pub fn wide(draft: &Draft) -> usize {
    draft.fields.len() - 3
}

/// Adds SET of the 18-character decimal from the expression at `source`.
fn set_wide(maker: &mut Maker, source: u16) {
    let place = maker.draft.expressions.len() as u16;
    let field = wide(&maker.draft);
    maker.refer(2, field);
    maker.draft.expressions.push(0);
    let set = Statement::new(code::SET, place, source, 0);
    maker.draft.statements.push(set);
}

/// An expression that holds 14 to 18 values, with an item that takes some where the most are held.
fn held(random: &mut Random) -> Draft {
    let draft = base(random);
    let mut maker = Maker::new(random, draft, false);
    let most = maker.random.within(14..=18);
    for _ in 0..most {
        let value = maker.random.within(1..=3) as u64;
        maker.number_literal(value);
    }
    let left = most - item_at_the_most(&mut maker);
    let operators = left - 1 + usize::from(maker.random.chance(4));
    for _ in 0..operators {
        let operator = maker.random.pick(&[0x10, 0x11, 0x1E, 0x1F]);
        maker.draft.expressions.push(operator);
    }
    maker.draft.expressions.push(0);
    set_wide(&mut maker, 0);
    maker.draft
}

/// Adds an item, or none, and gives how many values fewer are held after it. A plain field holds
/// one more, which is counted as none fewer, so that such an expression leaves two.
fn item_at_the_most(maker: &mut Maker) -> usize {
    let array = wide(&maker.draft) + 2;
    match maker.random.below(6) {
        0 => {}
        1 => maker.draft.expressions.push(0x15),
        2 => maker.draft.expressions.push(0x1C),
        3 => maker.refer(2, array),
        4 => maker.refer(3, array),
        _ => {
            maker.refer(4, array);
            return 1;
        }
    }
    0
}

/// CALLs that open 47 to 53 calls, with RETURNs behind them.
fn nesting(random: &mut Random) -> Draft {
    let mut draft = base(random);
    let calls = random.within(47..=53);
    for i in 0..calls {
        let call = Statement::new(code::CALL, 0, 0, i as u16 + 1);
        draft.statements.push(call);
    }
    let returns = random.pick(&[0, 1, 2, 60]);
    for _ in 0..returns {
        let back = Statement::new(code::RETURN, 0, 0, 0);
        draft.statements.push(back);
    }
    let last = random.pick(&[code::STOP, code::RETURN]);
    draft.statements.push(Statement::new(last, 0, 0, 0));
    draft
}

/// Arithmetic on values near the greatest: sums, and products just inside and outside.
fn digits(random: &mut Random) -> Draft {
    let draft = base(random);
    let mut maker = Maker::new(random, draft, false);
    for _ in 0..maker.random.within(1..=3) {
        let offset = maker.draft.expressions.len() as u16;
        edge_values(&mut maker);
        maker.draft.expressions.push(0);
        set_wide(&mut maker, offset);
        let place = maker.draft.statements[maker.draft.statements.len() - 1].a;
        let change = maker.random.pick(&[code::INCR, code::DECR]);
        let change = Statement::new(change, place, 0, 0);
        maker.draft.statements.push(change);
    }
    maker.draft
}

/// Two values and an operator whose result lies near an edge of the range.
fn edge_values(maker: &mut Maker) {
    let operator = maker
        .random
        .pick(&[0x10, 0x11, 0x12, 0x12, 0x12, 0x13, 0x14]);
    let (x, y) = match operator {
        0x12 => {
            let most = maker
                .random
                .pick(&[9, 1_000, 1_000_000_000, GREATEST as usize]);
            let x = maker.random.within(1..=most) as u64;
            let near = maker.random.below(3) as u64;
            (
                x,
                ((GREATEST + 1) / x + near).saturating_sub(1).min(GREATEST),
            )
        }
        0x14 => (maker.edge() / 2, maker.random.below(20) as u64),
        _ => {
            let x = GREATEST - maker.random.below(3) as u64;
            (x, maker.random.below(4) as u64)
        }
    };
    for value in [x, y] {
        maker.number_literal(value);
        if maker.random.chance(40) {
            maker.draft.expressions.push(0x15);
        }
    }
    maker.draft.expressions.push(operator);
}

/// A number or alpha literal at the end of the literals, of a length at its limit.
fn literals(random: &mut Random) -> Draft {
    let draft = base(random);
    let mut maker = Maker::new(random, draft, false);
    let room = maker.random.within(1..=40);
    maker.draft.literals = vec![b'0'; room];
    if maker.random.chance(15) {
        let at = maker.random.below(room);
        maker.draft.literals[at] = maker.random.pick(b"/:p -");
    }
    let length = maker.random.pick(&[0, 1, 17, 18, 19, room, room + 1]);
    let place = (room + usize::from(maker.random.chance(20))).saturating_sub(length);
    if maker.random.chance(60) {
        maker.number_at(place, length);
    } else {
        maker.alpha_at(place, length);
    }
    maker.draft.expressions.push(0);
    set_wide(&mut maker, 0);
    maker.draft
}

/// A computed GOTO with a table of about 255 GOTOs, which ends with the unit or just before it.
fn long_table(random: &mut Random) -> Draft {
    let draft = base(random);
    let mut maker = Maker::new(random, draft, false);
    let n = maker.random.within(253..=257);
    let value = maker.random.within(n - 2..=n + 2) as u64;
    maker.number_literal(value);
    maker.draft.expressions.push(0);
    let head = Statement::new(code::COMPUTED_GOTO, n as u16, 0, 0);
    maker.draft.statements.push(head);
    let gotos = maker.random.pick(&[n - 1, n, n, n + 1]);
    for _ in 0..gotos {
        let target = maker.random.below(gotos) as u16;
        let goto = Statement::new(code::GOTO, 0, 0, target);
        maker.draft.statements.push(goto);
    }
    maker.draft
}

/// A reference whose span ends at an edge: of the data, of 18 characters, or of the bits of a
/// product.
fn spans(random: &mut Random) -> Draft {
    let draft = base(random);
    let mut maker = Maker::new(random, draft, false);
    let number = maker.random.below(maker.draft.fields.len());
    let field = maker.draft.fields[number];
    let form = maker.random.within(3..=5) as u8;
    for bound in edge_bounds(&mut maker, &field, form) {
        maker.constant(bound);
    }
    maker.refer(form, number);
    maker.draft.expressions.push(0);
    use_span(&mut maker, 0, field.is_decimal());
    maker.draft
}

/// The bounds of a reference of this form whose span ends at an edge or one byte beside it.
fn edge_bounds(maker: &mut Maker, field: &Field, form: u8) -> Vec<i64> {
    let (before, length) = (field.start() as i64, maker.draft.image.len() as i64);
    let (size, after) = (field.size() as i64, length - before);
    let near = maker.random.below(3) as i64 - 1;
    match form {
        3 => {
            let far = maker.wrapping(field.size());
            let edges = [-before / size + near, after / size + near, far, far];
            vec![maker.random.pick(&edges)]
        }
        4 => {
            let start = maker.random.pick(&[0, 1, after - 18, after - 17]).max(0);
            let ends = [start + 17, after, start];
            vec![start, maker.random.pick(&ends) + near]
        }
        _ => {
            let pos = maker.random.pick(&[0, 1, 2, after]);
            let lengths = [18, -18, -(before + pos), after - pos];
            vec![pos, maker.random.pick(&lengths) + near]
        }
    }
}

/// Adds a statement that uses a reference as a place or as a source.
fn use_span(maker: &mut Maker, offset: u16, is_decimal: bool) {
    let changed = if is_decimal { code::INCR } else { code::UPCASE };
    let used = maker.random.pick(&[code::CLEAR, changed, code::SET]);
    if used == code::SET {
        return set_wide(maker, offset);
    }
    let statement = Statement::new(used, offset, 0, 0);
    maker.draft.statements.push(statement);
}

/// Adds a formatted move to an alpha place from a number with a mask, by their offsets.
fn format(maker: &mut Maker, [place, mask, number]: [u16; 3]) {
    let format = Statement::new(code::FORMAT, place, mask, number);
    maker.draft.statements.push(format);
}

/// Adds an expression and gives its offset.
pub fn added(maker: &mut Maker, items: impl FnOnce(&mut Maker)) -> u16 {
    let offset = maker.draft.expressions.len() as u16;
    items(maker);
    maker.draft.expressions.push(0);
    offset
}

/// Formatted moves with a mask of about 18 places and with any, from a number that just fills the
/// places of the mask, or has one digit more, with a minus or without.
fn masks(random: &mut Random) -> Draft {
    let mut draft = base(random);
    let short = wide(&draft) + 1;
    let long = draft.fields.len();
    draft
        .fields
        .push(Field::new(ALPHA, draft.image.len(), 26, 1));
    draft.image.extend([b'?'; 26]);
    let mut maker = Maker::new(random, draft, false);
    for _ in 0..maker.random.within(1..=3) {
        let alpha = maker.random.pick(&[short, long]);
        let characters = match maker.random.below(3) {
            0 => vec![maker.random.pick(b"XZ*$"); maker.random.within(16..=21)],
            _ => mask(maker.random),
        };
        let places = characters
            .iter()
            .filter(|&character| b"XZ*$".contains(character));
        let power = 10_i64.pow(places.count().min(17) as u32);
        let change = maker.random.pick(&[-1, 0, 0, 1]);
        let value = maker
            .random
            .pick(&[power + change, -power - change, GREATEST as i64]);
        let place = added(&mut maker, |maker| maker.refer(2, alpha));
        let literal = maker.draft.literals.len();
        maker.draft.literals.extend(&characters);
        let mask = added(&mut maker, |maker| {
            maker.alpha_at(literal, characters.len())
        });
        let number = added(&mut maker, |maker| maker.constant(value));
        format(&mut maker, [place, mask, number]);
    }
    maker.draft
}

/// A formatted move of which any part may give a run error: the place by its subscript, the mask by
/// its own, and the number.
fn mask_errors(random: &mut Random) -> Draft {
    let draft = base(random);
    let decimal = wide(&draft);
    let alpha = decimal + 1;
    let mut maker = Maker::new(random, draft, false);
    let [place, mask] = [(); 2].map(|()| {
        added(&mut maker, |maker| {
            let form = maker.random.pick(&[2, 3, 3]);
            if form == 3 {
                faulty_number(maker, decimal);
            }
            maker.refer(form, alpha);
        })
    });
    let number = added(&mut maker, |maker| faulty_number(maker, decimal));
    format(&mut maker, [place, mask, number]);
    maker.draft
}

/// A number that is 1, is far away from any field, or gives 20, 21, 22, 23 or 26. What gives 22 is
/// a decimal that reaches into the alpha behind it.
pub fn faulty_number(maker: &mut Maker, decimal: usize) {
    let greatest = GREATEST as i64;
    let (x, y, item) = match maker.random.below(10) {
        0..3 => return maker.constant(1),
        3 => return maker.constant(9_999),
        4 | 5 => (greatest, 1, 0x10),
        6 => (1, 0, 0x13),
        7 => (1, 19, 0x14),
        8 => (17, 20, 0x04),
        _ => (9_999, 9_999, 0x04),
    };
    maker.constant(x);
    maker.constant(y);
    match item {
        0x04 => maker.refer(item, decimal),
        _ => maker.draft.expressions.push(item),
    }
}

/// Some UPCASEs and LOCASEs of all 256 bytes, begun at any of them.
fn letters(random: &mut Random) -> Draft {
    let first = random.byte();
    let count = random.within(1..=3);
    let code = |random: &mut Random| random.pick(&[code::UPCASE, code::LOCASE]);
    Draft {
        image: (0..=255).map(|i| first.wrapping_add(i)).collect(),
        fields: vec![Field::new(ALPHA, 0, 256, 1)],
        expressions: b"\x02\0\0\0".to_vec(),
        literals: Vec::new(),
        statements: (0..count)
            .map(|_| Statement::new(code(random), 0, 0, 0))
            .collect(),
    }
}

/// A formatted move within one field, as long as the data may be, whose bytes are the mask.
fn long_masks(random: &mut Random) -> Draft {
    let length = random.weighed(&[(3, 300), (1, 16_382), (1, 16_383)]);
    let pattern = mask(random);
    let mut image: Vec<u8> = pattern.into_iter().cycle().take(length).collect();
    if random.chance(50) {
        image.fill(random.pick(b"XZ*$"));
    }
    let draft = Draft {
        fields: vec![Field::new(ALPHA, 0, length, 1)],
        image,
        ..Draft::default()
    };
    let mut maker = Maker::new(random, draft, false);
    let start = maker.random.within(1..=length);
    let mask = added(&mut maker, |maker| maker.refer(2, 0));
    let place = added(&mut maker, |maker| {
        maker.constant(start as i64);
        maker.constant(length as i64);
        maker.refer(4, 0);
    });
    let number = added(&mut maker, |maker| maker.constant(-120_450));
    let place = maker.random.pick(&[place, mask]);
    format(&mut maker, [place, mask, number]);
    maker.draft
}

/// SETs of decimals from text with 17 to 20 digits, or from text with signs and bad characters.
fn amounts(random: &mut Random) -> Draft {
    let draft = base(random);
    let mut maker = Maker::new(random, draft, false);
    for _ in 0..maker.random.within(1..=3) {
        let text = amount(maker.random);
        let (offset, place) = (maker.draft.expressions.len(), maker.draft.literals.len());
        maker.draft.literals.extend(&text);
        maker.alpha_at(place, text.len().max(1));
        maker.draft.expressions.push(0);
        set_wide(&mut maker, offset as u16);
    }
    maker.draft
}

/// Reads of parts of up to 19 characters of decimals that are mostly spaces, in the place of the
/// array of `base`.
fn blanks(random: &mut Random) -> Draft {
    const LENGTH: usize = 36;
    let mut draft = base(random);
    let number = wide(&draft) + 2;
    let start = draft.fields[number].start();
    let size = random.pick(&[3, 12, 18]);
    draft.fields[number] = Field::new(DECIMAL, start, size, LENGTH / size);
    draft.image.truncate(start);
    draft.image.resize(start + LENGTH, b' ');
    if random.chance(75) {
        for element in draft.image[start..].chunks_mut(size) {
            padded(random, element);
        }
    }
    let mut maker = Maker::new(random, draft, false);
    for _ in 0..maker.random.within(1..=3) {
        let element = size * maker.random.below(LENGTH / size) + 1;
        let inside = maker.random.within(1..=LENGTH);
        let first = maker.random.pick(&[element, element + 1, inside]);
        let length = maker.random.pick(&[1, 2, size, size, 18, 19]);
        let last = LENGTH.min(first + length - 1);
        let part = added(&mut maker, |maker| {
            maker.constant(first as i64);
            maker.constant(last as i64);
            maker.refer(4, number);
        });
        use_span(&mut maker, part, true);
    }
    maker.draft
}

/// Writes a decimal behind some spaces, often with a digit in front of them or with a character that
/// does not belong there.
fn padded(random: &mut Random, element: &mut [u8]) {
    decimal(random, element);
    let last = element.len() - 1;
    let spaces = random.within(0..=element.len());
    element[..spaces].fill(b' ');
    if random.chance(30) {
        element[0] = digit(random);
    }
    if random.chance(40) {
        let anywhere = random.within(0..=last);
        let at = random.pick(&[spaces.min(last), anywhere]);
        element[at] = bad(random);
    }
}
