//! Batch lines: one question a line, one answer a line, for programs that compare interpreters.

use crate::bench::bench;
use crate::check::check;
use crate::fence::{breach, breaches, fence, Fence};
use crate::literal::literal_range;
use crate::numbers::{run_numbers, STATE_LEN};
use crate::stop::Refusal;
use crate::validity::invalid;
use std::str::FromStr;

/// How an empty row of bytes, or of numbers that are all zero, is written.
const EMPTY: &str = "-";

/// The answer to one line, or in words what is wrong with the line.
///
/// | Line | Answer |
/// |---|---|
/// | `check UNIT` | `STOP PLACE`, or `0 0` for a unit that passes |
/// | `run UNIT DATA STATE ALLOWANCE` | `STOP PLACE COUNT STATE DATA` |
/// | `bench UNIT` | what the bench program writes, in hex |
/// | `literal UNIT I` | `OFFSET LENGTH` in the unit, or `empty` |
/// | `fence UNIT` | `yes`, `no I`, or `refused STOP PLACE` |
/// | `breach UNIT I` | the number of the rule that statement I breaks, or 0 |
/// | `breaches UNIT` | the eight numbers of each reference that breaks a rule |
/// | `invalid UNIT DATA` | `valid`, `invalid FIELD ELEMENT OFFSET`, `wrong size`, or `refused STOP PLACE` |
///
/// Bytes are in hex, the numbers of a state and of a reference are joined by commas, those of a state
/// end with the last that is not zero, and `-` stands where there are none.
pub fn answer(line: &str) -> Result<String, String> {
    let words: Vec<&str> = line.split_whitespace().collect();
    match words[..] {
        ["check", unit] => Ok(check_answer(&bytes(unit)?)),
        ["run", unit, data, state, allowance] => {
            let (unit, data, state) = (bytes(unit)?, bytes(data)?, state_numbers(state)?);
            Ok(run_answer(&unit, data, state, number(allowance)?))
        }
        ["bench", unit] => Ok(hex(&bench(&bytes(unit)?))),
        ["literal", unit, i] => Ok(literal_answer(&bytes(unit)?, number(i)?)),
        ["fence", unit] => Ok(fence_answer(&bytes(unit)?)),
        ["breach", unit, i] => {
            let breach = breach(&bytes(unit)?, number(i)?);
            Ok(breach.map_or(0, |breach| breach.number()).to_string())
        }
        ["breaches", unit] => Ok(breaches_answer(&bytes(unit)?)),
        ["invalid", unit, data] => Ok(invalid(&bytes(unit)?, &bytes(data)?).to_string()),
        _ => Err("the line asks nothing that is known".to_string()),
    }
}

fn check_answer(unit: &[u8]) -> String {
    match check(unit) {
        Ok(_) => "0 0".to_string(),
        Err(Refusal { stop, place }) => format!("{stop} {place}"),
    }
}

fn run_answer(
    unit: &[u8],
    mut data: Vec<u8>,
    mut state: [u64; STATE_LEN],
    allowance: u64,
) -> String {
    let [stop, place, count] = run_numbers(unit, &mut data, &mut state, allowance);
    format!("{stop} {place} {count} {} {}", joined(&state), hex(&data))
}

fn literal_answer(unit: &[u8], i: usize) -> String {
    match literal_range(unit, i) {
        Some(range) => format!("{} {}", range.start, range.len()),
        None => "empty".to_string(),
    }
}

fn fence_answer(unit: &[u8]) -> String {
    match fence(unit) {
        Fence::Yes => "yes".to_string(),
        Fence::No(i) => format!("no {i}"),
        Fence::Refused(Refusal { stop, place }) => format!("refused {stop} {place}"),
    }
}

fn breaches_answer(unit: &[u8]) -> String {
    let rows: Vec<String> = breaches(unit)
        .map(|breaking| {
            breaking
                .numbers()
                .map(|number| number.to_string())
                .join(",")
        })
        .collect();
    match rows[..] {
        [] => EMPTY.to_string(),
        _ => rows.join(" "),
    }
}

fn number<T: FromStr>(text: &str) -> Result<T, String> {
    text.parse()
        .map_err(|_| format!("{text} is no number here"))
}

/// The bytes that are written in hex.
fn bytes(text: &str) -> Result<Vec<u8>, String> {
    if text == EMPTY {
        return Ok(Vec::new());
    }
    let byte = |pair: &[u8]| {
        let [high, low] = pair else { return None };
        let digit = |character: u8| char::from(character).to_digit(16);
        Some((digit(*high)? << 4 | digit(*low)?) as u8)
    };
    let bytes: Option<Vec<u8>> = text.as_bytes().chunks(2).map(byte).collect();
    bytes.ok_or_else(|| format!("{text} is not hex"))
}

fn hex(bytes: &[u8]) -> String {
    if bytes.is_empty() {
        return EMPTY.to_string();
    }
    bytes.iter().map(|byte| format!("{byte:02X}")).collect()
}

/// The numbers of a state that are written with commas; those left out are zero.
fn state_numbers(text: &str) -> Result<[u64; STATE_LEN], String> {
    let mut numbers = [0; STATE_LEN];
    if text != EMPTY {
        let mut entries = numbers.iter_mut();
        for word in text.split(',') {
            let entry = entries.next().ok_or("a state has no more numbers")?;
            *entry = number(word)?;
        }
    }
    Ok(numbers)
}

fn joined(numbers: &[u64]) -> String {
    let used = numbers.iter().rposition(|&number| number != 0);
    match used {
        None => EMPTY.to_string(),
        Some(last) => {
            let words: Vec<String> = numbers[..=last].iter().map(u64::to_string).collect();
            words.join(",")
        }
    }
}

#[cfg(test)]
mod tests {
    use super::answer;

    /// The 42 bytes of the paper's example.
    const EXAMPLE: &str = concat!(
        "3431",
        "0100000000020001",
        "02000000",
        "0300000000000000",
        "0B00000000000000",
        "000200010004000000024442"
    );

    /// A question about SET of a record (field 1) over a decimal (0) from the element of the decimal
    /// that it tells itself.
    const BREAKING: &str = concat!(
        "breaches ",
        "3431",
        "0100000000020001",
        "0200000000020001",
        "02000100",
        "02000003000000",
        "0100000000040000",
        "00020002000B000000014442"
    );

    /// The answer to a line, with the example for `UNIT`.
    fn answered(line: &str) -> Result<String, String> {
        answer(&line.replace("UNIT", EXAMPLE))
    }

    #[test]
    fn each_line_has_its_answer() {
        for (line, wanted) in [
            ("check UNIT", "0 0"),
            ("check -", "1 0"),
            ("check 000000000000000000004442", "2 0"),
            ("run UNIT 3431 - 100000", "0 2 2 2 3432"),
            ("run UNIT 3431 - 1", "30 1 1 1 3432"),
            ("run UNIT 3431 2,2,1,2 1", "0 2 0 2,2,1,2 3431"),
            ("run UNIT 3431 0,1,0,1 1", "7 0 0 0,1,0,1 3431"),
            ("run UNIT 3431 0,0,0 1", "30 1 1 1 3432"),
            ("run UNIT 34 - 1", "6 0 0 - 34"),
            ("run UNIT 3a31 - 1", "22 0 0 - 3A31"),
            ("run UNIT 3431 65536 1", "7 0 0 65536 3431"),
            ("run - - 9 1", "1 0 0 9 -"),
            ("bench UNIT", "30203220320A34320A"),
            ("bench -", "31203020300A"),
            ("literal UNIT 0", "empty"),
            ("fence UNIT", "yes"),
            ("fence -", "refused 1 0"),
            ("breach UNIT 0", "0"),
            ("breaches UNIT", "-"),
            ("breaches -", "-"),
            (BREAKING, "0,6,1,1,2,0,2,0 0,1,0,0,3,0,0,7"),
            ("invalid UNIT 3431", "valid"),
            ("invalid UNIT 2070", "valid"),
            ("invalid UNIT 343A", "invalid 0 1 0"),
            ("invalid UNIT 34", "wrong size"),
            ("invalid UNIT -", "wrong size"),
            ("invalid - -", "refused 1 0"),
        ] {
            assert_eq!(answered(line).as_deref(), Ok(wanted), "{line}");
        }
    }

    #[test]
    fn a_state_has_104_numbers() {
        let zeros = |count: usize| vec!["0"; count].join(",");
        let line = |count| format!("run UNIT 3431 {} 1", zeros(count));
        assert_eq!(answered(&line(104)).as_deref(), Ok("30 1 1 1 3432"));
        assert!(answered(&line(105)).is_err());
    }

    #[test]
    fn other_lines_are_told() {
        for line in [
            "",
            "check",
            "check 0",
            "check 0x",
            "check UNIT 1",
            "run UNIT 3431 - -1",
            "run UNIT 3431 -1 1",
            "run UNIT 3431 0 0 - 1",
            "run UNIT 3431 18446744073709551616 1",
            "literal UNIT x",
        ] {
            assert!(answered(line).is_err(), "{line}");
        }
    }
}
