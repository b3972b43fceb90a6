//! The program `second`: the second interpreter's answers for units in files.

mod owner;
mod shown;
mod table;
mod timing;

use second::{
    answer, bench, breach, breaches, image, invalid, literal_range, read_unit, run, words,
};
use second::{LastError, Loop, State, BENCH_ALLOWANCE};
use shown::{named, shown};
use std::env::args_os;
use std::ffi::{OsStr, OsString};
use std::fs;
use std::io::{self, BufRead, BufWriter, Write};
use std::os::unix::ffi::OsStrExt;
use std::process::ExitCode;
use std::str::FromStr;

const USAGE: &str = "\
usage: second check FILES..            the table that `boxlever check` writes
       second fence FILES..            the fence check in the form of the `;=` lines
       second breach FILE I            why statement I breaks the fence rules
       second breaches FILE            every reference that breaks one, a row for each
       second invalid FILE [DATA]      the first decimal of the image, or of a file, that is invalid
       second literal FILE I           where the alpha literal of statement I stands
       second bench <FILE              the bench program
       second run FILE [ALLOWANCE]     a run from the image, told in words
       second time FILE N              how long N runs from the image take
       second batch                    an answer for each line of standard input";

fn main() -> ExitCode {
    let args: Vec<OsString> = args_os().skip(1).collect();
    let args: Vec<&OsStr> = args.iter().map(OsString::as_os_str).collect();
    match answer_to(&args) {
        Ok(()) => ExitCode::SUCCESS,
        Err(error) => {
            eprintln!("{error}");
            ExitCode::from(2)
        }
    }
}

fn answer_to(args: &[&OsStr]) -> io::Result<()> {
    let Some((word, rest)) = args.split_first() else {
        return Err(io::Error::other(USAGE));
    };
    match (word.to_str().unwrap_or_default(), rest) {
        ("check", files) => owner::check_files(files),
        ("fence", files) => table::fence_files(files),
        ("breach", [file, i]) => show_breach(file, i),
        ("breaches", [file]) => show_breaches(file),
        ("invalid", [file]) => {
            let unit = read_file(file)?;
            writeln!(io::stdout(), "{}", invalid(&unit, &image(&unit)))
        }
        ("invalid", [file, data]) => {
            let (unit, data) = (read_file(file)?, read_file(data)?);
            writeln!(io::stdout(), "{}", invalid(&unit, &data))
        }
        ("literal", [file, i]) => show_literal(file, i),
        ("bench", []) => io::stdout().write_all(&bench(&read_unit(io::stdin())?)),
        ("run", [file]) => show_run(file, BENCH_ALLOWANCE),
        ("run", [file, allowance]) => show_run(file, number(allowance)?),
        ("time", [file, runs]) => timing::time(&read_file(file)?, number(runs)?),
        ("batch", []) => batch(),
        _ => Err(io::Error::other(USAGE)),
    }
}

/// Prints how a run from the image stops, the calls and loops still open, the last trapped error and
/// the data.
fn show_run(file: &OsStr, allowance: u64) -> io::Result<()> {
    let unit = read_file(file)?;
    let mut data = image(&unit);
    let outcome = run(&unit, &mut data, State::START, allowance);
    let mut out = io::stdout().lock();
    writeln!(
        out,
        "stop {} at {} after {} statement{}: {}",
        outcome.stop,
        outcome.place,
        outcome.count,
        if outcome.count == 1 { "" } else { "s" },
        words(outcome.stop).unwrap_or_default()
    )?;
    let State {
        depth,
        returns,
        opened,
        loops,
        last_error,
        ..
    } = outcome.state;
    if depth > 0 {
        writeln!(out, "open calls, to return to {:?}", &returns[..depth])?;
    }
    for Loop { entry, limit, step } in &loops[..opened] {
        writeln!(out, "open loop of the FOR at {entry}, to {limit} by {step}")?;
    }
    if let Some(LastError { stop, statement }) = last_error {
        let words = words(stop).unwrap_or_default();
        writeln!(out, "last trapped error {stop} at {statement}: {words}")?;
    }
    if !data.is_empty() {
        writeln!(out, "{}", shown(&data))?;
    }
    Ok(())
}

/// Prints the number and the words of the rule that statement `i` breaks, or `0`.
fn show_breach(file: &OsStr, i: &OsStr) -> io::Result<()> {
    let mut out = io::stdout().lock();
    match breach(&read_file(file)?, number(i)?) {
        Some(breach) => writeln!(out, "{} {}", breach.number(), breach.words()),
        None => writeln!(out, "0"),
    }
}

/// Prints a row of eight numbers for each reference that breaks a rule.
fn show_breaches(file: &OsStr) -> io::Result<()> {
    let unit = read_file(file)?;
    let mut out = BufWriter::new(io::stdout().lock());
    for breaking in breaches(&unit) {
        let numbers = breaking.numbers().map(|number| number.to_string());
        writeln!(out, "{}", numbers.join(" "))?;
    }
    out.flush()
}

/// Prints offset and length of the alpha literal of statement `i`, or `empty`.
fn show_literal(file: &OsStr, i: &OsStr) -> io::Result<()> {
    let mut out = io::stdout().lock();
    match literal_range(&read_file(file)?, number(i)?) {
        Some(range) => writeln!(out, "{} {}", range.start, range.len()),
        None => writeln!(out, "empty"),
    }
}

/// Answers each line of standard input with a line, at once. A line that cannot be answered gives
/// `?` and what is wrong with it.
fn batch() -> io::Result<()> {
    let mut out = io::stdout().lock();
    for line in io::stdin().lock().lines() {
        let answer = answer(&line?).unwrap_or_else(|fault| format!("? {fault}"));
        writeln!(out, "{answer}")?;
        out.flush()?;
    }
    Ok(())
}

fn read_file(file: &OsStr) -> io::Result<Vec<u8>> {
    let told = |error| io::Error::other(format!("{}: {error}", named(file.as_bytes())));
    fs::read(file).map_err(told)
}

fn number<T: FromStr>(text: &OsStr) -> io::Result<T> {
    let number = text.to_str().and_then(|text| text.parse().ok());
    let told = || io::Error::other(format!("{} is no number here", named(text.as_bytes())));
    number.ok_or_else(told)
}
