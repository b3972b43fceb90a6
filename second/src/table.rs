//! What the fence check says of each file in the form of the `;=` lines: a row for each file and a
//! last line with the sums.

use crate::shown::named;
use second::{breach, fence, words, Fence, Refusal, LONGEST};
use std::ffi::OsStr;
use std::fs;
use std::io::{self, BufWriter, Write};
use std::os::unix::ffi::OsStrExt;

/// The sums that the answers count in.
const SUMS: [&str; 3] = ["yes", "no", "refused"];

/// Prints the table.
pub fn fence_files(files: &[&OsStr]) -> io::Result<()> {
    let mut out = BufWriter::new(io::stdout().lock());
    let mut counts = [0; SUMS.len()];
    let mut unread = 0;
    for file in files {
        let name = named(file.as_bytes());
        if let Ok(unit) = fs::read(file) {
            let (sum, words) = answer(&unit);
            counts[sum] += 1;
            writeln!(out, "{:>6}  {name} {words}", length(&unit))?;
        } else {
            unread += 1;
            writeln!(out, "unreadable {name}")?;
        }
    }
    let count: usize = counts.iter().sum();
    write!(out, "{count} unit{}:", if count == 1 { "" } else { "s" })?;
    for (i, (count, sum)) in counts.iter().zip(SUMS).enumerate() {
        write!(out, "{} {count} {sum}", if i > 0 { "," } else { "" })?;
    }
    if unread > 0 {
        write!(out, ", {unread} not read")?;
    }
    writeln!(out)?;
    out.flush()
}

/// The words for a unit, and which of the sums it counts in.
fn answer(unit: &[u8]) -> (usize, String) {
    match fence(unit) {
        Fence::Yes => (0, "yes".to_string()),
        Fence::No(i) => {
            let words = breach(unit, i).map_or("", |breach| breach.words());
            (1, format!("no {i}: {words}"))
        }
        Fence::Refused(Refusal { stop, place }) => {
            let words = words(stop).unwrap_or_default();
            (2, format!("refused {stop} at {place}: {words}"))
        }
    }
}

/// The length of a unit, or that it is longer than any that passes.
pub fn length(unit: &[u8]) -> String {
    if LONGEST < unit.len() {
        return format!(">{LONGEST}");
    }
    unit.len().to_string()
}
