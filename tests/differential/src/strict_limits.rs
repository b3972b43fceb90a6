//! Units whose references end at the edges of fields that are mostly strict, or one byte beside them, in
//! every part of a statement where a reference may stand.

use crate::draft::{code, Draft, Field, Statement, ALPHA, DECIMAL, RECORD, STRICT};
use crate::expressions::{Maker, GREATEST};
use crate::limits::added;
use crate::random::Random;
use crate::units::name_ends;

/// The fields, by their numbers: a subscript, room before the tables, the tables, room behind them,
/// and a record that begins and ends inside of all this.
const INDEX: usize = 0;
const FRONT: usize = 1;
const TEXT: usize = 2;
const NUMBERS: usize = 3;
const PART: usize = 5;

/// The fields that are mostly strict.
const TABLES: [usize; 3] = [TEXT, NUMBERS, PART];

/// The unit: one to three statements, each with a reference at an edge.
pub fn strict_edges(random: &mut Random) -> Draft {
    let draft = tables(random);
    let mut maker = Maker::new(random, draft, false);
    for _ in 0..maker.random.within(1..=3) {
        statement(&mut maker);
    }
    name_ends(&mut maker);
    maker.draft
}

/// The fields over digits, of which one may be a bad one.
fn tables(random: &mut Random) -> Draft {
    let size = random.pick(&[1, 2, 2, 5, 12, 18]);
    let mut fields = Vec::new();
    let mut at = 0;
    for (kind, size, count) in [
        (DECIMAL, 2, 1),
        (ALPHA, 1, random.pick(&[1, 3, 20])),
        (ALPHA, random.within(1..=5), random.within(1..=4)),
        (DECIMAL, size, random.within(1..=3)),
        (ALPHA, 1, random.pick(&[1, 3, 20])),
    ] {
        let field = Field::new(kind, at, size, count);
        at = field.end() + random.pick(&[0, 0, 1]);
        fields.push(field);
    }
    let first = random.within(1..=at / 2);
    let length = random.within(1..=at - first - 1);
    fields.push(Field::new(RECORD, first, length, 1));
    for table in TABLES {
        if random.chance(75) {
            fields[table].zero = STRICT;
        }
    }
    let mut image: Vec<u8> = (0..at).map(|_| random.pick(b"0001123")).collect();
    let index = random.pick(&[1, 1, fields[NUMBERS].count as u8]);
    image[..2].copy_from_slice(&[b'0', b'0' + index]);
    if random.chance(20) {
        let bad = random.within(2..=at - 1);
        image[bad] = b'?';
    }
    Draft {
        image,
        fields,
        ..Draft::default()
    }
}

/// Adds a statement with a reference at an edge.
fn statement(maker: &mut Maker) {
    let any = maker.random.pick(&TABLES);
    let alpha = maker.random.pick(&[TEXT, PART]);
    let one = added(maker, |maker| maker.constant(1));
    let simple = |maker: &mut Maker, code, field| {
        let place = placed(maker, field);
        Statement::new(code, place, 0, 0)
    };
    let new = match maker.random.below(16) {
        0 => Statement::new(code::SET, placed(maker, any), one, 0),
        1 => {
            let place = added(maker, |maker| maker.refer(2, TEXT));
            Statement::new(code::SET, place, placed(maker, any), 0)
        }
        2 => simple(maker, code::CLEAR, any),
        3 => simple(maker, code::INCR, NUMBERS),
        4 => simple(maker, code::DECR, NUMBERS),
        5 => simple(maker, code::UPCASE, alpha),
        6 => simple(maker, code::LOCASE, alpha),
        7 => formatted(maker, alpha),
        8 => Statement::new(code::GOTO_IF_ZERO, 0, placed(maker, NUMBERS), 0),
        9 => return computed(maker),
        10 => return entered(maker),
        11 => return passes(maker),
        12 => {
            let place = added(maker, |maker| {
                edge(maker, NUMBERS);
                maker.refer(3, FRONT);
            });
            Statement::new(code::CLEAR, place, 0, 0)
        }
        13 => {
            let sum = added(maker, |maker| {
                edge(maker, NUMBERS);
                maker.constant(1);
                maker.draft.expressions.push(0x10);
            });
            Statement::new(code::GOTO_IF_ZERO, 0, sum, 0)
        }
        14 => {
            // A loose field beside the tables, or before them.
            let place = added(maker, |maker| {
                let far = maker.random.within(1..=40) as i64;
                maker.constant(far);
                maker.constant(1);
                maker.refer(5, FRONT);
            });
            Statement::new(code::SET, place, one, 0)
        }
        _ => {
            let place = added(maker, |maker| maker.refer(2, any));
            Statement::new(code::CLEAR, place, 0, 0)
        }
    };
    maker.draft.statements.push(new);
}

/// A formatted move of which one part lies at an edge.
fn formatted(maker: &mut Maker, alpha: usize) -> Statement {
    let mut parts = [TEXT, TEXT, NUMBERS].map(|field| added(maker, |maker| maker.refer(2, field)));
    let part = maker.random.below(3);
    parts[part] = placed(maker, if part == 2 { NUMBERS } else { alpha });
    let [place, mask, number] = parts;
    Statement::new(code::FORMAT, place, mask, number)
}

/// Adds a computed GOTO by a number at an edge, with one GOTO.
fn computed(maker: &mut Maker) {
    let number = placed(maker, NUMBERS);
    let statements = [
        Statement::new(code::COMPUTED_GOTO, 1, number, 0),
        Statement::new(code::GOTO, 0, 0, 0),
    ];
    maker.draft.statements.extend(statements);
}

/// Adds a loop of which the control, its bound or one of the numbers lies at an edge.
fn entered(maker: &mut Maker) {
    let part = maker.random.below(6);
    let control = added(maker, |maker| match part {
        0 | 1 => edge(maker, NUMBERS),
        2 => {
            edge(maker, NUMBERS);
            maker.refer(3, NUMBERS);
        }
        _ => maker.refer(2, INDEX),
    });
    let number = |maker: &mut Maker, own, value| {
        added(maker, |maker| match part {
            _ if part == own => edge(maker, NUMBERS),
            _ => maker.constant(value),
        })
    };
    let numbers = number(maker, 3, 1);
    number(maker, 4, 2);
    number(maker, 5, 1);
    looped(maker, control, numbers, None);
}

/// Adds a loop over an element of the table by a subscript, which its body changes.
fn passes(maker: &mut Maker) {
    let control = added(maker, |maker| {
        maker.refer(2, INDEX);
        maker.refer(3, NUMBERS);
    });
    let numbers = maker.row([1, GREATEST as i64, 1].map(Some));
    let index = added(maker, |maker| maker.refer(2, INDEX));
    let far = maker.random.pick(&[99, -99]);
    let far = added(maker, |maker| maker.constant(far));
    let body = maker.random.pick(&[
        Statement::new(code::INCR, index, 0, 0),
        Statement::new(code::INCR, index, 0, 0),
        Statement::new(code::DECR, index, 0, 0),
        Statement::new(code::SET, index, far, 0),
    ]);
    looped(maker, control, numbers, Some(body));
}

/// Adds a loop with its end, and before that some with a NEXTLOOP.
fn looped(maker: &mut Maker, control: u16, numbers: u16, body: Option<Statement>) {
    let entry = Statement::new(code::FOR, control, numbers, 0);
    let next = maker.random.chance(50).then_some(code::NEXTLOOP);
    let ends = next.into_iter().chain([code::LOOP_END]);
    let ends = ends.map(|code| Statement::new(code, 0, 0, 0));
    let statements = [entry].into_iter().chain(body).chain(ends);
    maker.draft.statements.extend(statements);
}

/// Adds an expression of such a reference alone, and gives its offset.
fn placed(maker: &mut Maker, field: usize) -> u16 {
    added(maker, |maker| edge(maker, field))
}

/// A reference with bounds to a field, which ends at an edge of it or of the data, or one beside it.
fn edge(maker: &mut Maker, number: usize) {
    let field = maker.draft.fields[number];
    if maker.random.chance(30) {
        let subscript = subscript(maker, &field);
        maker.constant(subscript);
        return maker.refer(3, number);
    }
    let (start, end) = stretch(maker, &field);
    let form = match start {
        0.. => maker.random.pick(&[4, 5, 6]),
        _ => 6,
    };
    let bounds = match form {
        4 => [start + 1, end],
        5 => [start + 1, end - start],
        _ => [end.max(1), start - end.max(1)],
    };
    for bound in bounds {
        maker.constant(bound);
    }
    maker.refer(form.min(5), number);
}

/// A subscript at an edge of the field or of the data, one beside it, or far away.
fn subscript(maker: &mut Maker, field: &Field) -> i64 {
    let (size, count) = (field.size() as i64, i64::from(field.count));
    let (before, data) = (field.start() as i64, maker.draft.image.len() as i64);
    let most = (data - before) / size;
    let far = maker.wrapping(field.size());
    let edges = [
        (4, 1),
        (4, count),
        (3, 0),
        (3, count + 1),
        (1, 1 - before / size),
        (2, -before / size),
        (1, most),
        (2, most + 1),
        (1, far),
        (1, GREATEST as i64),
    ];
    maker.random.weighed(&edges)
}

/// First byte and end of a stretch at such an edge, counted from the field's first byte.
fn stretch(maker: &mut Maker, field: &Field) -> (i64, i64) {
    let (length, before) = (field.length() as i64, field.start() as i64);
    let behind = maker.draft.image.len() as i64 - before;
    let some = maker.random.within(1..=20) as i64;
    match maker.random.below(12) {
        0 => (0, length),
        1 => (-1, length + 1),
        2..6 => {
            let start = maker.random.pick(&[0, 0, 1, -1, -1, -before, -before - 1]);
            (start, start + some)
        }
        _ => {
            let ends = [
                length,
                length,
                length - 1,
                length + 1,
                length + 1,
                behind,
                behind + 1,
            ];
            let end = maker.random.pick(&ends).max(1);
            ((end - some).max(0), end)
        }
    }
}
