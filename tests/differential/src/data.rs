//! Field tables, and bytes to fill data buffers with.

use crate::draft::{Field, ALPHA, DECIMAL, RECORD, STRICT};
use crate::random::Random;

/// How good the decimals of a data buffer are.
#[derive(Clone, Copy, Debug, PartialEq, Eq)]
pub enum Quality {
    /// Every element is valid.
    Valid,
    /// Some elements have a bad character.
    Mixed,
    /// All bytes are random.
    Noise,
}

/// A field table over `length` bytes: alphas and decimals in rising offset with gaps, arrays, and
/// records anywhere.
pub fn table(random: &mut Random, length: usize) -> Vec<Field> {
    let mut fields = Vec::new();
    let mut at = 0;
    while at < length {
        if random.chance(25) {
            at += random.within(1..=3);
            continue;
        }
        let field = entry(random, at, length);
        at = field.end();
        fields.push(field);
    }
    for _ in 0..random.weighed(&[(50, 0), (35, 1), (15, 2)]) {
        let start = random.below(length);
        let size = random.within(1..=length - start);
        let at = random.within(0..=fields.len());
        fields.insert(at, Field::new(RECORD, start, size, 1));
    }
    fields
}

/// An alpha or decimal entry at `at` that ends at `length` or before.
fn entry(random: &mut Random, at: usize, length: usize) -> Field {
    let kind = random.pick(&[ALPHA, DECIMAL]);
    let widest = if kind == DECIMAL { 18 } else { 24 };
    let room = length - at;
    let widest = random.weighed(&[(6, 5), (2, 10), (2, widest)]).min(room);
    let size = random.within(1..=widest);
    let most = (room / size).min(random.weighed(&[(6, 1), (3, 4), (1, 9)]));
    Field::new(kind, at, size, random.within(1..=most))
}

/// Makes about a third of some fields strict.
pub fn make_strict(random: &mut Random, fields: &mut [Field]) {
    for field in fields {
        if random.chance(33) {
            field.zero = STRICT;
        }
    }
}

/// Fills a data buffer: text for the alphas and gaps, numbers for the decimals.
pub fn fill(random: &mut Random, fields: &[Field], data: &mut [u8], quality: Quality) {
    if quality == Quality::Noise {
        data.fill_with(|| random.byte());
        return;
    }
    text(random, data);
    for field in fields {
        let Some(elements) = data.get_mut(field.start()..field.end()) else {
            continue;
        };
        match field.kind {
            DECIMAL => numbers(random, elements, field.size(), quality),
            ALPHA => text(random, elements),
            _ => {}
        }
    }
}

/// Changes a character of a decimal to another that mostly does not belong there: often the first or the
/// last one, of the first or the last element, of the first or the last such field.
pub fn spoil(random: &mut Random, fields: &[Field], data: &mut [u8]) {
    let decimals: Vec<&Field> = fields.iter().filter(|field| field.is_decimal()).collect();
    if decimals.is_empty() {
        return;
    }
    let field = decimals[often_an_end(random, decimals.len())];
    let element = often_an_end(random, field.count.into());
    let at = field.start() + element * field.size() + often_an_end(random, field.size());
    if let Some(character) = data.get_mut(at) {
        *character = bad(random);
    }
}

/// A number below `count`, often the first or the last.
fn often_an_end(random: &mut Random, count: usize) -> usize {
    let any = random.below(count);
    random.pick(&[0, count - 1, any])
}

/// Fills the elements of a decimal field.
fn numbers(random: &mut Random, elements: &mut [u8], size: usize, quality: Quality) {
    for element in elements.chunks_mut(size) {
        decimal(random, element);
        if quality == Quality::Mixed && random.chance(12) {
            let at = random.below(element.len());
            element[at] = bad(random);
        }
    }
}

/// Writes a valid decimal: mostly a small number, sometimes negative, sometimes "0p". Some have
/// spaces in front, or spaces alone.
pub fn decimal(random: &mut Random, element: &mut [u8]) {
    element.fill(b'0');
    let digits = match random.below(10) {
        0 => 0,
        1 => element.len(),
        2 => random.within(1..=element.len()),
        _ => element.len().min(2),
    };
    let start = element.len() - digits;
    let nines = random.chance(8);
    for character in &mut element[start..] {
        *character = if nines { b'9' } else { digit(random) };
    }
    if random.chance(25) {
        if let Some(last) = element.last_mut() {
            *last += b'p' - b'0';
        }
    }
    if random.chance(20) {
        let spaces = random.within(1..=element.len());
        element[..spaces].fill(b' ');
    }
}

pub fn digit(random: &mut Random) -> u8 {
    b'0' + random.below(10) as u8
}

/// A character that does not belong into a decimal, or not everywhere.
pub fn bad(random: &mut Random) -> u8 {
    let any = random.byte();
    random.pick(&[
        b' ', b' ', b'\t', 0, b'+', b'-', b'/', b':', b'o', b'p', b'y', b'z', b'P', any,
    ])
}

/// Fills bytes with text of some sort.
pub fn text(random: &mut Random, bytes: &mut [u8]) {
    const AMOUNT: &[u8] = b"0123456789      00 -+";
    const LETTERS: &[u8] = b"abcxyzpqyABCXYZPY @[`{/:0 9";
    let letters = match random.below(100) {
        0..40 => AMOUNT,
        40..75 => LETTERS,
        75..90 => mask_characters(random),
        _ => &[],
    };
    for byte in bytes {
        *byte = match letters {
            [] => random.byte(),
            letters => random.pick(letters),
        };
    }
}

/// Characters for a mask: all of the control characters with a space and a letter, or a few of them
/// that make one like those on paper.
fn mask_characters(random: &mut Random) -> &'static [u8] {
    random.pick(&[
        b"XZ*$-,. x",
        b"XZ*$-,. x",
        b"ZZZZ,.X",
        b"$$$$,.X",
        b"****,.X",
        b"XXXX,.-",
        b"$Z*X,",
    ])
}

/// A mask, mostly of some places and sometimes of more than a number has digits, with a minus at an
/// end or any byte somewhere.
pub fn mask(random: &mut Random) -> Vec<u8> {
    let most = random.weighed(&[(4, 3), (8, 9), (3, 24), (1, 60)]);
    let length = random.within(1..=most);
    let characters = mask_characters(random);
    let mut mask: Vec<u8> = (0..length).map(|_| random.pick(characters)).collect();
    if random.chance(10) {
        let place = random.pick(b"XZ*$");
        mask = vec![place; random.within(17..=24)];
    }
    for at in [0, mask.len() - 1] {
        if random.chance(25) {
            mask[at] = b'-';
        }
    }
    if random.chance(15) {
        let at = random.below(mask.len());
        mask[at] = random.byte();
    }
    mask
}

/// A number as text that is moved to decimals: spaces, signs and zeros between up to 20 digits.
pub fn amount(random: &mut Random) -> Vec<u8> {
    let digits = random.weighed(&[(6, 3), (2, 17), (3, 18), (3, 19), (1, 20)]);
    let mut text = Vec::new();
    for _ in 0..random.below(4) {
        text.push(random.pick(b" +0"));
    }
    for _ in 0..digits {
        text.push(digit(random));
        if random.chance(10) {
            text.push(random.pick(b"  +"));
        }
    }
    for _ in 0..random.weighed(&[(5, 0), (4, 1), (1, 2)]) {
        let at = random.within(0..=text.len());
        text.insert(at, random.pick(b"----x"));
    }
    text
}
