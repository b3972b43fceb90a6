//! The table that `boxlever check` writes of units without names: a head, a row for each file and a
//! line of totals.

use crate::shown::{cut, named, quoted};
use crate::table::length;
use second::{breaches, fence, field_name, image, invalid, reference_text, words};
use second::{Breaking, Fence, Parts, Refusal, Validity};
use std::ffi::OsStr;
use std::fs;
use std::io::{self, BufWriter, Write};
use std::os::unix::ffi::OsStrExt;

/// The first column is as wide as the longest name, within these bounds.
const NAME_LEAST: usize = 4;
const NAME_MOST: usize = 40;

/// The columns from the beginning of an answer to the end of the number of breaches.
const ANSWER_TO_BREACHES: usize = 17;

/// The most columns of a reference and of a row; a longer one is cut.
const REFERENCE_MOST: usize = 60;
const ROW_MOST: usize = 600;

/// The most characters of a reference that is written out at all.
const WRITTEN_OUT_MOST: usize = 600;

/// What stands where there is no number.
const NONE: &str = "-";

/// A row without the name.
struct Row {
    length: String,
    answer: &'static str,
    breaches: String,
    first: String,
    reason: String,
}

#[derive(Default)]
struct Totals {
    yes: usize,
    no: usize,
    refused: usize,
    breaches: usize,
    warned: usize,
    unread: usize,
}

/// Prints the table.
pub fn check_files(files: &[&OsStr]) -> io::Result<()> {
    let names: Vec<String> = files.iter().map(|file| named(file.as_bytes())).collect();
    let longest = names.iter().map(String::len).max().unwrap_or_default();
    let width = longest.clamp(NAME_LEAST, NAME_MOST);
    let mut out = BufWriter::new(io::stdout().lock());
    let head = "bytes  answer   breaches  first  reason";
    writeln!(out, "{:width$}  {head}", "unit")?;
    let mut totals = Totals::default();
    for (file, name) in files.iter().zip(&names) {
        let row = match fs::read(file) {
            Ok(unit) => unit_row(&unit, &mut totals),
            Err(error) => unread_row(&error, &mut totals),
        };
        writeln!(out, "{}", line(width, name, &row))?;
    }
    writeln!(out, "{}", totals_line(&totals))?;
    out.flush()
}

/// The line of a row. A name that is wider than the first column shifts the others.
fn line(width: usize, name: &str, row: &Row) -> String {
    let width = width.max(name.len());
    let Row {
        length,
        answer,
        breaches,
        first,
        reason,
    } = row;
    let rest = ANSWER_TO_BREACHES - answer.len();
    let text = format!("{name:width$}{length:>7}  {answer}{breaches:>rest$}{first:>7}  {reason}");
    cut(text.trim_end(), ROW_MOST)
}

/// The row of a unit, which is counted in the totals.
fn unit_row(unit: &[u8], totals: &mut Totals) -> Row {
    let warning = warning(unit);
    let length = length(unit);
    match fence(unit) {
        Fence::Refused(refusal) => {
            totals.refused += 1;
            refused_row(length, refusal)
        }
        Fence::Yes => {
            totals.yes += 1;
            totals.warned += usize::from(warning.is_some());
            Row {
                length,
                answer: if warning.is_some() { "yes!" } else { "yes" },
                breaches: "0".to_string(),
                first: NONE.to_string(),
                reason: warning.map_or(String::new(), |words| format!("but {words}")),
            }
        }
        Fence::No(first) => {
            let count = breaches(unit).count();
            totals.no += 1;
            totals.breaches += count;
            let also = warning.map_or(String::new(), |words| format!("; and {words}"));
            Row {
                length,
                answer: "no",
                breaches: count.to_string(),
                first: first.to_string(),
                reason: first_breach(unit) + &also,
            }
        }
    }
}

/// The row of a refused unit. Only the refusals from 3 on name a field or a statement.
fn refused_row(length: String, Refusal { stop, place }: Refusal) -> Row {
    let words = words(stop).unwrap_or_default();
    Row {
        length,
        answer: "refused",
        breaches: NONE.to_string(),
        first: if stop < 3 {
            NONE.to_string()
        } else {
            place.to_string()
        },
        reason: format!("{stop}: {words}"),
    }
}

/// The row of a file that cannot be read, with the system's reason.
fn unread_row(error: &io::Error, totals: &mut Totals) -> Row {
    totals.unread += 1;
    let error = error.to_string();
    let words = error.split(" (os error").next().unwrap_or_default();
    Row {
        length: NONE.to_string(),
        answer: "unreadable",
        breaches: NONE.to_string(),
        first: NONE.to_string(),
        reason: words.to_string(),
    }
}

/// The first element of the image that is no number, in words, if there is one.
fn warning(unit: &[u8]) -> Option<String> {
    let image = image(unit);
    let Validity::Invalid {
        field: i,
        element,
        offset,
    } = invalid(unit, &image)
    else {
        return None;
    };
    let parts = Parts::of(unit)?;
    let field = parts.field(i)?;
    let mut name = field_name(&parts, i);
    if field.count > 1 {
        name += &format!("({element})");
    }
    let bytes = quoted(&image[offset..offset + field.size]);
    Some(format!("{name} of its own data is no number: {bytes}"))
}

/// The first reference that breaks a rule, and the rule.
fn first_breach(unit: &[u8]) -> String {
    let first = Parts::of(unit).zip(breaches(unit).next());
    first.map_or(String::new(), |(parts, breaking)| {
        let text = shown_reference(&parts, &breaking);
        let (number, words) = (breaking.rule.number(), breaking.rule.words());
        format!("{text}: rule {number}, {words}")
    })
}

/// The text of a reference, cut if it is long, and left out but for its field if it is far too long.
fn shown_reference(parts: &Parts, breaking: &Breaking) -> String {
    let text = reference_text(parts, breaking);
    if text.len() > WRITTEN_OUT_MOST {
        return field_name(parts, breaking.field) + "(..)";
    }
    cut(&text, REFERENCE_MOST)
}

/// The last line. Breaches, warnings and files that are not read stand there only if there are any.
fn totals_line(totals: &Totals) -> String {
    let Totals {
        yes, no, refused, ..
    } = totals;
    let units = yes + no + refused;
    let plural = if units == 1 { "" } else { "s" };
    let mut line = format!("{units} unit{plural}: {yes} yes, {no} no, {refused} refused");
    let breaches = if totals.breaches == 1 {
        "breach"
    } else {
        "breaches"
    };
    for (count, words) in [
        (totals.breaches, breaches),
        (totals.warned, "yes with a warning"),
        (totals.unread, "not read"),
    ] {
        if count > 0 {
            line += &format!("; {count} {words}");
        }
    }
    line
}
