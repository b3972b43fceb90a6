//! Loads a unit from a file, checks it, shows its fields, asks the fence and whether its data is
//! valid, and runs it in slices of a few statements, as a host does that has a terminal or a printer
//! to see to between them.
//!
//! After `make lib`, in bindings/rust:
//!
//!     DIBOL_LIB_DIR=$PWD/../../build/lib cargo run --example slices -- FILE [SLICE]

use dibol::{Field, Kind, Outcome, State, Stop, Trapped, Unit, Validity, Verdict};
use std::ffi::OsStr;
use std::os::unix::ffi::OsStrExt;
use std::process::ExitCode;
use std::{env, fs};

/// The statements that the whole run may complete.
const STATEMENTS_MOST: u64 = 100_000;

/// The breaches that are shown; of the others there is the number.
const BREACHES_MOST: usize = 5;

fn main() -> ExitCode {
    let words: Vec<_> = env::args_os().skip(1).collect();
    let told = match &words[..] {
        [file] => host(file, 7),
        [file, slice] => number(slice).and_then(|slice| host(file, slice)),
        _ => Err("usage: slices FILE [SLICE]".to_string()),
    };
    match told {
        Ok(()) => ExitCode::SUCCESS,
        Err(words) => {
            eprintln!("{words}");
            ExitCode::FAILURE
        }
    }
}

/// Checks the unit in a file, shows its fields, asks the fence, runs it over a copy of its image and
/// prints the data; or gives in words what is wrong.
fn host(file: &OsStr, slice: u64) -> Result<(), String> {
    let name = shown(file.as_bytes());
    let bytes = fs::read(file).map_err(|error| format!("{name}: {error}"))?;
    let unit = Unit::check(&bytes).map_err(|error| format!("{name}: {error}"))?;
    println!("unit {} bytes, data {}", bytes.len(), unit.image().len());
    for (number, field) in unit.fields().enumerate() {
        println!("field {number}: {}", told(field));
    }
    let mut data = unit.image().to_vec();
    print_fence(&unit, &data);
    let outcome = run_in_slices(&unit, &mut data, slice);
    let (number, place) = (outcome.stop.number(), outcome.place);
    println!("stop {number} at {place}: {}", outcome.stop);
    // A run that reached its end may have trapped errors.
    if let Some(Trapped { error, statement }) = outcome.state.last_error() {
        let number = error.number();
        println!("last trapped error {number} at {statement}: {error}");
    }
    println!("{}", shown(&data));
    Ok(())
}

/// A field in words.
fn told(field: Field) -> String {
    let kind = match field.kind {
        Kind::Alpha => "alpha",
        Kind::Decimal => "decimal",
        Kind::Record => "record",
        _ => "of another kind",
    };
    let strict = if field.strict { " strict" } else { "" };
    let Field {
        offset,
        size,
        count,
        ..
    } = field;
    format!("{kind}{strict}, at {offset}, size {size}, count {count}")
}

/// Prints what the fence says: for a yes whether the data is what it asks for, for a no what breaks
/// its rules.
fn print_fence(unit: &Unit, data: &[u8]) {
    let (valid, breaches) = (unit.invalid(data), unit.breaches());
    match unit.fence() {
        Verdict::Yes if valid == Validity::AllValid => println!("fence yes"),
        Verdict::Yes => println!("fence yes, but not for this data: {valid}"),
        Verdict::No { statement, breach } => {
            println!("fence no {statement}: rule {}", breach.number());
        }
    }
    let left = breaches.len().saturating_sub(BREACHES_MOST);
    for broken in breaches.take(BREACHES_MOST) {
        println!("{broken}");
    }
    if left > 0 {
        println!("and {left} more");
    }
}

fn number(word: &OsStr) -> Result<u64, String> {
    let number = word.to_str().and_then(|word| word.parse().ok());
    number.ok_or_else(|| format!("{} is no number here", shown(word.as_bytes())))
}

/// Bytes that come from outside, so that none of them commands a terminal: printable ASCII as it is,
/// but a backslash twice, and any other byte as \xHH.
fn shown(bytes: &[u8]) -> String {
    let mut text = String::new();
    for &byte in bytes {
        match byte {
            b'\\' => text.push_str("\\\\"),
            b' '..=b'~' => text.push(char::from(byte)),
            _ => text.push_str(&format!("\\x{byte:02X}")),
        }
    }
    text
}

/// Runs a unit over its data in slices, and prints how many there were.
fn run_in_slices(unit: &Unit, data: &mut [u8], slice: u64) -> Outcome {
    let (mut left, mut slices) = (STATEMENTS_MOST, 0);
    let mut state = State::START;
    loop {
        let allowance = slice.min(left);
        let outcome = unit.run(data, state, allowance);
        left -= outcome.count;
        slices += 1;
        if outcome.stop != Stop::Spent || allowance == 0 || left == 0 {
            println!(
                "statements: {} completed, in slices: {slices}",
                STATEMENTS_MOST - left
            );
            return outcome;
        }
        // The host does its own work here; data and state stay as they are until it goes on.
        state = outcome.state;
    }
}
