//! The program as a whole, and runs in two parts over the stored units.
//! What the program says of the stored units is compared by tools/store-units.

use second::{image, run, Outcome, State};
use std::ffi::OsStr;
use std::fs;
use std::io::Write;
use std::os::unix::ffi::OsStrExt;
use std::path::{Path, PathBuf};
use std::process::{Command, Output, Stdio};

const TRIALS: &str = env!("CARGO_TARGET_TMPDIR");

/// The units in a folder, in the order of their names.
fn units(folder: &Path) -> Vec<PathBuf> {
    let entries = fs::read_dir(folder).unwrap();
    let mut files: Vec<PathBuf> = entries.map(|entry| entry.unwrap().path()).collect();
    files.retain(|file| file.extension() == Some(OsStr::new("unit")));
    files.sort();
    assert!(!files.is_empty());
    files
}

/// What the program writes, given some words and standard input. It has an answer.
fn program(words: &[&OsStr], input: &[u8]) -> Vec<u8> {
    let output = called(words, input);
    assert!(output.status.success());
    output.stdout
}

/// What comes of a call of the program with some words and standard input, in a folder for trials.
fn called(words: &[&OsStr], input: &[u8]) -> Output {
    let mut program = Command::new(env!("CARGO_BIN_EXE_second"))
        .args(words)
        .current_dir(TRIALS)
        .stdin(Stdio::piped())
        .stdout(Stdio::piped())
        .stderr(Stdio::piped())
        .spawn()
        .unwrap();
    // A program that has read enough may have closed its input before all of it was written.
    let _ = program.stdin.take().unwrap().write_all(input);
    program.wait_with_output().unwrap()
}

#[test]
fn input_that_is_too_long_is_1() {
    let bench = [OsStr::new("bench")];
    assert_eq!(program(&bench, &[b'0'; 57_354]), b"1 0 0\n");
    assert_eq!(program(&bench, &vec![b'0'; 1_000_000]), b"1 0 0\n");
}

#[test]
fn batch_answers_each_line() {
    let lines = b"check -\nnothing\n\nfence -\n";
    let answers = program(&[OsStr::new("batch")], lines);
    let answers = String::from_utf8(answers).unwrap();
    let answers: Vec<&str> = answers.lines().collect();
    assert_eq!(answers.len(), 4);
    assert_eq!((answers[0], answers[3]), ("1 0", "refused 1 0"));
    assert!(answers[1..3].iter().all(|answer| answer.starts_with('?')));
}

#[test]
fn names_and_data_are_shown_in_one_notation() {
    // A unit of one statement, CLEAR of its only byte, which is 1B at first, and one that breaks off.
    let clear = *b"\x1B\0\0\0\0\0\x01\0\x01\x02\0\0\0\x02\0\0\0\0\0\0\0\
        \0\x01\0\x01\0\x04\0\0\0\x01DB";
    let [sound, short, missing] = [
        &b"a\nb\x1B[31m\\.unit"[..],
        b"caf\xE9\x9B.unit",
        b"miss\x1B\xE9",
    ]
    .map(OsStr::from_bytes);
    fs::write(Path::new(TRIALS).join(sound), clear).unwrap();
    fs::write(Path::new(TRIALS).join(short), b"DB").unwrap();
    for (word, rows) in [
        (
            "fence",
            r"    33  a\x0Ab\x1B[31m\\.unit yes
     2  caf\xE9\x9B.unit refused 1 at 0: the length, the mark or the parts do not fit
unreadable miss\x1B\xE9
2 units: 1 yes, 0 no, 1 refused, 1 not read
",
        ),
        (
            "check",
            r"unit                   bytes  answer   breaches  first  reason
a\x0Ab\x1B[31m\\.unit     33  yes             0      -
caf\xE9\x9B.unit           2  refused         -      -  1: the length, the mark or the parts do not fit
miss\x1B\xE9               -  unreadable      -      -  No such file or directory
2 units: 1 yes, 0 no, 1 refused; 1 not read
",
        ),
    ] {
        let found = program(&[OsStr::new(word), sound, short, missing], b"");
        assert_eq!(String::from_utf8(found).unwrap(), rows, "{word}");
    }
    let run = |more: &[&OsStr]| called(&[&[OsStr::new("run")], more].concat(), b"");
    let found = run(&[sound, OsStr::new("0")]).stdout;
    let spent = "stop 30 at 0 after 0 statements: the allowance is spent before the end\n\\x1B\n";
    assert_eq!(String::from_utf8(found).unwrap(), spent);
    let found = run(&[sound]).stdout;
    let ended = "stop 0 at 1 after 1 statement: the end is reached\n \n";
    assert_eq!(String::from_utf8(found).unwrap(), ended);
    for (words, told) in [
        (
            &[missing][..],
            "miss\\x1B\\xE9: No such file or directory (os error 2)\n",
        ),
        (&[sound, missing], "miss\\x1B\\xE9 is no number here\n"),
    ] {
        let found = run(words);
        assert_eq!(found.status.code(), Some(2));
        assert_eq!(String::from_utf8(found.stderr).unwrap(), told);
    }
}

/// A unit of its five parts, without literals.
fn built(image: &[u8], fields: &[u8], expressions: &[u8], statements: &[u8]) -> Vec<u8> {
    let lengths = [
        image.len(),
        fields.len() / 8,
        expressions.len(),
        0,
        statements.len() / 8,
    ];
    let trailer = lengths.map(|length| (length as u16).to_be_bytes());
    let trailer = trailer.concat();
    [image, fields, expressions, statements, &trailer, b"DB"].concat()
}

/// The table of `check` of some units under names of their own.
fn table(units: &[(&str, Vec<u8>)]) -> String {
    for (name, unit) in units {
        fs::write(Path::new(TRIALS).join(name), unit).unwrap();
    }
    let names = units.iter().map(|(name, _)| OsStr::new(*name));
    let words: Vec<&OsStr> = [OsStr::new("check")].into_iter().chain(names).collect();
    String::from_utf8(program(&words, b"")).unwrap()
}

#[test]
fn the_table_has_every_answer() {
    // A D2 array of two under a record, a STOP, and a SET of the record from the decimal.
    let fields = b"\x01\0\0\0\0\x02\0\x02\x02\0\0\0\0\x04\0\x01";
    let expressions = b"\x02\0\x01\0\x02\0\0\0";
    let [stop, set, wrong] = [
        *b"\x0B\0\0\0\0\0\0\0",
        *b"\x01\0\0\0\0\x04\0\0",
        *b"\x01\0\0\x01\0\x04\0\0",
    ];
    let unit = |image: &[u8], statements: &[[u8; 8]]| {
        built(image, fields, expressions, statements.as_flattened())
    };
    let units = [
        ("table-a.unit", unit(b"0102", &[stop])),
        ("table-b.unit", unit(b"010\"", &[stop])),
        ("table-c.unit", unit(b"0102", &[stop, set, set])),
        ("table-d.unit", unit(b"\x80\\02", &[stop, set])),
        ("table-e.unit", unit(b"0102", &[stop, wrong])),
        ("table-f.unit", vec![b'0'; 57_354]),
        (
            "table-g.unit",
            built(b"AB", b"\x01\0\0\0\0\x02\0\x01", b"", &stop),
        ),
    ];
    let rows = r#"unit          bytes  answer   breaches  first  reason
table-a.unit     48  yes             0      -
table-b.unit     48  yes!            0      -  but D0(2) of its own data is no number: "0\""
table-c.unit     64  no              2      1  R1: rule 6, an alpha destination shares a byte with a decimal field
table-d.unit     56  no              1      1  R1: rule 6, an alpha destination shares a byte with a decimal field; and D0(1) of its own data is no number: "\x80\\"
table-e.unit     56  refused         -      1  4: an expression is badly formed or of the wrong sort
table-f.unit >57353  refused         -      -  1: the length, the mark or the parts do not fit
table-g.unit     30  yes!            0      -  but D0 of its own data is no number: "AB"
7 units: 3 yes, 2 no, 2 refused; 3 breaches; 2 yes with a warning
"#;
    assert_eq!(table(&units), rows);
    let one = r#"unit          bytes  answer   breaches  first  reason
table-a.unit     48  yes             0      -
1 unit: 1 yes, 0 no, 0 refused
"#;
    assert_eq!(table(&units[..1]), one);
    assert!(table(&units[3..4]).ends_with("\n1 unit: 0 yes, 1 no, 0 refused; 1 breach\n"));
    assert!(table(&[]).ends_with("\n0 units: 0 yes, 0 no, 0 refused\n"));
}

#[test]
fn long_references_are_cut() {
    // CLEAR of an element whose subscript is negated so often that the text has some length.
    let of_length = |length: usize| {
        let signs = vec![0x15; length - "D0(D0)".len()];
        let expressions = [&b"\x02\0\0"[..], &signs, b"\x03\0\0\0"].concat();
        let fields = b"\x01\0\0\0\0\x01\0\x01";
        built(b"1", fields, &expressions, b"\x02\0\0\0\0\0\0\0")
    };
    let signs = |count: usize| "-".repeat(count);
    for (length, text) in [
        (7, "D0(-D0)".to_string()),
        (60, format!("D0({}D0)", signs(54))),
        (61, format!("D0({}..", signs(55))),
        (600, format!("D0({}..", signs(55))),
        (601, "D0(..)".to_string()),
        (9_000, "D0(..)".to_string()),
    ] {
        let found = table(&[("long.unit", of_length(length))]);
        let row = found.lines().nth(1).unwrap();
        let wanted = format!("no              1      0  {text}: rule 1, a bound is not a literal");
        assert!(row.ends_with(&wanted), "{row}");
    }
}

#[test]
fn long_names_shift_and_cut_their_rows() {
    let stop = || built(b"0", b"", b"", b"\x0B\0\0\0\0\0\0\0");
    let [short, long, cut] = [3, 40, 590].map(|length| format!("{}s", "./".repeat(length / 2)));
    let units = [(&short[..], stop()), (&long, stop()), (&cut, stop())];
    let found = table(&units);
    let rows: Vec<&str> = found.lines().collect();
    let tail = "     21  yes             0      -";
    assert_eq!(
        rows[0],
        format!("{:40}  bytes  answer   breaches  first  reason", "unit")
    );
    assert_eq!(rows[1], format!("{short:40}{tail}"));
    assert_eq!(rows[2], format!("{long}{tail}"));
    assert_eq!(rows[3], format!("{}..", &format!("{cut}{tail}")[..598]));
    assert_eq!(rows.len(), 5);
    assert_eq!(
        table(&units[..1]).lines().next(),
        Some("unit  bytes  answer   breaches  first  reason")
    );
}

#[test]
fn open_calls_and_loops_are_told() {
    // A CALL of the FOR behind it, FOR from 1 to 1 by -9, STOP and the loop end.
    let unit = *b"0\x01\0\0\0\0\x01\0\x01\
        \x02\0\0\0\x01\0\0\x01\0\x01\0\0\x01\0\x01\0\x01\x01\x15\0\
        19\x09\0\0\0\0\0\0\x01\x0E\0\0\0\0\x04\0\x03\x0B\0\0\0\0\0\0\0\
        \x0F\0\0\0\0\0\0\0\0\x01\0\x01\0\x14\0\x02\0\x04DB";
    fs::write(Path::new(TRIALS).join("open.unit"), unit).unwrap();
    let found = program(&["run", "open.unit"].map(OsStr::new), b"");
    let told = "stop 0 at 4 after 3 statements: the end is reached
open calls, to return to [1]
open loop of the FOR at 1, to 1 by -9
1
";
    assert_eq!(String::from_utf8(found).unwrap(), told);
}

#[test]
fn a_last_trapped_error_is_told() {
    // ONERROR of the STOP, and an INCR of "?".
    let unit = *b"?\x01\0\0\0\0\x01\0\x01\x02\0\0\0\x12\0\0\0\0\0\0\x02\
        \x03\0\0\0\0\0\0\0\x0B\0\0\0\0\0\0\0\0\x01\0\x01\0\x04\0\0\0\x03DB";
    fs::write(Path::new(TRIALS).join("trapped.unit"), unit).unwrap();
    let found = program(&["run", "trapped.unit"].map(OsStr::new), b"");
    let told = "stop 0 at 3 after 3 statements: the end is reached
last trapped error 22 at 1: a bad digit
?
";
    assert_eq!(String::from_utf8(found).unwrap(), told);
}

#[test]
fn breaking_references_and_invalid_decimals_are_told() {
    // SET of a record over a decimal, which is invalid, from the element that the decimal tells.
    let unit = *b"4A\x01\0\0\0\0\x02\0\x01\x02\0\0\0\0\x02\0\x01\x02\0\x01\0\x02\0\0\x03\0\0\0\
        \x01\0\0\0\0\x04\0\0\0\x02\0\x02\0\x0B\0\0\0\x01DB";
    fs::write(Path::new(TRIALS).join("breaking.unit"), unit).unwrap();
    fs::write(Path::new(TRIALS).join("valid.data"), "4p").unwrap();
    fs::write(Path::new(TRIALS).join("short.data"), "4").unwrap();
    fs::write(Path::new(TRIALS).join("short.unit"), "DB").unwrap();
    for (words, told) in [
        (
            &["breaches", "breaking.unit"][..],
            "0 6 1 1 2 0 2 0\n0 1 0 0 3 0 0 7\n",
        ),
        (&["breaches", "short.unit"], ""),
        (&["invalid", "breaking.unit"], "invalid 0 1 0\n"),
        (&["invalid", "breaking.unit", "valid.data"], "valid\n"),
        (&["invalid", "breaking.unit", "short.data"], "wrong size\n"),
        (&["invalid", "short.unit"], "refused 1 0\n"),
    ] {
        let words: Vec<&OsStr> = words.iter().map(OsStr::new).collect();
        assert_eq!(String::from_utf8(program(&words, b"")).unwrap(), told);
    }
    let found = called(
        &["invalid", "breaking.unit", "none.data"].map(OsStr::new),
        b"",
    );
    let told = b"none.data: No such file or directory (os error 2)\n";
    assert_eq!(
        (found.status.code(), &found.stderr[..]),
        (Some(2), &told[..])
    );
}

/// A run in two parts, of at most `first` statements and then of the rest of `allowance`.
fn resumed(unit: &[u8], data: &mut [u8], first: u64, allowance: u64) -> Outcome {
    let before = run(unit, data, State::START, first);
    if before.stop != 30 {
        return before;
    }
    let after = run(unit, data, before.state, allowance - before.count);
    Outcome {
        count: before.count + after.count,
        ..after
    }
}

/// The folders of units: those stored for the check, and those that UNITS names.
fn folders() -> Vec<PathBuf> {
    let stored = Path::new(env!("CARGO_MANIFEST_DIR")).join("../crates/boxlever/data");
    let more = std::env::var_os("UNITS").map(PathBuf::from);
    [Some(stored), more].into_iter().flatten().collect()
}

#[test]
fn resumed_runs_are_one_run() {
    for folder in folders() {
        for file in units(&folder) {
            let unit = fs::read(&file).unwrap();
            let mut whole = image(&unit);
            let outcome = run(&unit, &mut whole, State::START, 1_000);
            for first in (0..20).chain([49, 50, 51, 52, 99, 100, 101, 102, 500, 999, 1_000]) {
                let mut data = image(&unit);
                let joined = resumed(&unit, &mut data, first, 1_000);
                assert_eq!(joined, outcome, "{} after {first}", file.display());
                assert!(data == whole, "{} after {first}", file.display());
            }
        }
    }
}
