//! The bench program: a unit run from its image, and what is written of it.

use crate::check::check;
use crate::run::run;
use crate::state::State;
use crate::unit::LONGEST;
use std::io::{self, Read};

/// The statements that a run of the bench program may complete.
pub const BENCH_ALLOWANCE: u64 = 100_000;

/// Reads a unit. Of an input that is longer than any unit, only enough is read to tell so.
pub fn read_unit(input: impl Read) -> io::Result<Vec<u8>> {
    let mut unit = Vec::new();
    input.take(LONGEST as u64 + 1).read_to_end(&mut unit)?;
    Ok(unit)
}

/// What the bench program writes for a unit: stop number, place and completed count with single
/// spaces and a newline, then the data bytes and a newline. After 1 to 5 the second line is
/// absent.
pub fn bench(unit: &[u8]) -> Vec<u8> {
    let mut data = image(unit);
    let outcome = run(unit, &mut data, State::START, BENCH_ALLOWANCE);
    let line = format!("{} {} {}\n", outcome.stop, outcome.place, outcome.count);
    let mut output = line.into_bytes();
    if !(1..=5).contains(&outcome.stop) {
        output.extend(data);
        output.push(b'\n');
    }
    output
}

/// A data buffer that holds the unit's image, or an empty one for a unit that is refused.
pub fn image(unit: &[u8]) -> Vec<u8> {
    check(unit).map_or_else(|_| Vec::new(), |parts| parts.image.to_vec())
}

#[cfg(test)]
mod tests {
    use super::*;
    use crate::sample::Sample;
    use crate::unit::code;

    #[test]
    fn example_of_the_paper() {
        let unit = *b"41\x01\0\0\0\0\x02\0\x01\x02\0\0\0\x03\0\0\0\0\0\0\0\x0B\0\0\0\0\0\0\0\
            \0\x02\0\x01\0\x04\0\0\0\x02\x44\x42";
        assert_eq!(bench(&unit), b"0 2 2\n42\n");
        for length in 0..unit.len() {
            assert_eq!(bench(&unit[..length]), b"1 0 0\n");
        }
    }

    #[test]
    fn refusals_have_one_line() {
        assert_eq!(bench(b""), b"1 0 0\n");
        assert_eq!(bench(b"\0\0\0\0\0\0\0\0\0\0DB"), b"2 0 0\n");
        let mut sample = Sample::least();
        sample.fields.push((0, 0, 2, 1));
        assert_eq!(bench(&sample.unit()), b"3 0 0\n");
        let sample = Sample::least();
        assert_eq!(bench(&sample.clone().to(code::SET, 0).unit()), b"4 1 0\n");
        assert_eq!(bench(&sample.clone().to(code::GOTO, 2).unit()), b"5 1 0\n");
    }

    #[test]
    fn other_stops_have_two() {
        let sample = Sample::over("\n9", &[(1, 1, 1, 1)]);
        let run_error = sample.clone().set("%0", "1 0 /").unit();
        assert_eq!(bench(&run_error), b"23 0 0\n\n9\n");
        let endless = sample.to(code::GOTO, 0).unit();
        assert_eq!(bench(&endless), b"30 0 100000\n\n9\n");
    }

    #[test]
    fn input_longer_than_any_unit_is_1() {
        let read = |length| read_unit(io::repeat(0).take(length)).unwrap();
        assert_eq!(read(57_353).len(), 57_353);
        assert_eq!(bench(&read(57_354)), b"1 0 0\n");
        assert_eq!(read(10_000_000).len(), 57_354);
    }
}
