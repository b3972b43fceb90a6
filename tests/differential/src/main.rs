//! The C library against the second interpreter.
//!
//!     differential N SEED [--reached]    cases 0 to N - 1 of a seed
//!     differential case SEED NUMBER      one case again, told in full
//!
//! The exit status is 0 when all answers are the same, 1 when some differ, and 2 when nothing was
//! asked. With --reached it is also 1 when a stop, a statement, an item, a fence answer, a breach, or
//! a way of a formatted move, of a blank-padded amount, of a loop, of a strict field, of a trapped error, of
//! a reference that breaks a rule, or of a question about validity, parts or fields was not reached.

mod blanks;
mod breaking;
mod cases;
mod compare;
mod damage;
mod data;
mod decode;
mod draft;
mod entries;
mod expressions;
mod formats;
mod letters;
mod library;
mod limits;
mod loop_faults;
mod loop_limits;
mod loops;
mod probes;
mod promises;
mod random;
mod reached;
mod report;
mod strict;
mod strict_limits;
mod threads;
mod trap_faults;
mod trap_limits;
mod traps;
mod units;
mod validity;
mod ways;

use std::env;
use std::process::ExitCode;

const USAGE: &str = "\
usage: differential N SEED [--reached]
       differential case SEED NUMBER";

fn main() -> ExitCode {
    let words: Vec<String> = env::args().skip(1).collect();
    let words: Vec<&str> = words.iter().map(String::as_str).collect();
    let number = |word: &str| word.parse::<u64>().ok();
    let threads = env::var("THREADS").ok();
    let done = match words[..] {
        ["case", seed, case] => number(seed)
            .zip(number(case))
            .map(|(seed, case)| Ok(one_case(seed, case))),
        [count, seed, ref rest @ ..] if rest.is_empty() || rest == ["--reached"] => number(count)
            .zip(number(seed))
            .map(|(count, seed)| all_cases(count, seed, threads.as_deref(), !rest.is_empty())),
        _ => None,
    };
    match done.unwrap_or(Err(USAGE)) {
        Ok(true) => ExitCode::SUCCESS,
        Ok(false) => ExitCode::FAILURE,
        Err(words) => {
            eprintln!("{words}");
            ExitCode::from(2)
        }
    }
}

/// Tries the cases of a seed, unless none would be tried, and tells whether all went well.
fn all_cases(
    count: u64,
    seed: u64,
    threads: Option<&str>,
    wants_all: bool,
) -> Result<bool, &'static str> {
    match (count, threads::thread_count(threads)) {
        (0, _) => Err("differential: N is 0, so nothing is tried"),
        (_, 0) => Err("differential: THREADS is no number over 0, so nothing is tried"),
        _ if library::state_len() != second::STATE_LEN => {
            Err("differential: the library's state has not the numbers of the second interpreter's")
        }
        (_, threads) => Ok(threads::all_cases(count, seed, threads, wants_all)),
    }
}

/// Tells one case in full, and whether its answers are the same.
fn one_case(seed: u64, case: u64) -> bool {
    println!("{}", report::told(seed, case));
    let found = threads::attempt(seed, case, &mut reached::Reached::default());
    match &found {
        Ok(()) => println!("all answers are the same"),
        Err(difference) => println!("{}", report::difference(difference)),
    }
    found.is_ok()
}

#[cfg(test)]
mod tests {
    use super::all_cases;

    #[test]
    fn nothing_tried_is_no_success() {
        assert!(all_cases(0, 1, None, false).is_err());
        assert!(all_cases(1, 1, Some("0"), false).is_err());
        assert_eq!(all_cases(1, 1, Some("1"), false), Ok(true));
    }
}
