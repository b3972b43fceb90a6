//! What the cases have reached, counted.

use crate::blanks::Blanks;
use crate::breaking::Breakings;
use crate::cases::{Kind, KINDS};
use crate::decode::Sound;
use crate::entries::Entries;
use crate::formats::Formats;
use crate::letters::Letters;
use crate::loops::Loops;
use crate::strict::Stricts;
use crate::traps::Traps;
use crate::validity::Validities;
use std::fmt;

/// The stops of document 01, and those of loops.
const STOPS: [usize; 19] = [
    0, 1, 2, 3, 4, 5, 6, 7, 20, 21, 22, 23, 24, 25, 26, 27, 28, 29, 30,
];

/// How many codes statements have, from 1 on.
const CODES: usize = 19;

/// The items of document 01, without the 00 that closes.
const ITEMS: [usize; 22] = [
    0x01, 0x02, 0x03, 0x04, 0x05, 0x06, 0x10, 0x11, 0x12, 0x13, 0x14, 0x15, 0x16, 0x17, 0x18, 0x19,
    0x1A, 0x1B, 0x1C, 0x1D, 0x1E, 0x1F,
];

/// Counts of what was reached.
#[derive(Clone, Default)]
pub struct Reached {
    /// Cases, and those whose unit passed the check, by kind.
    kinds: [[u64; 2]; 4],
    /// Runs, by stop.
    stops: [u64; 31],
    /// Statements completed one at a time, by code.
    codes: [u64; CODES + 1],
    /// Items in those statements, by code.
    items: [u64; 32],
    /// Answers of the fence check: yes, no, refused.
    verdicts: [u64; 3],
    /// Statements, by the rule that they break; 0 is for none.
    breaches: [u64; 7],
    /// Alpha literals found.
    literals: u64,
    /// Runs that went on after a 30.
    resumed: u64,
    /// Runs that were given a great allowance.
    allowed_more: u64,
    /// Runs that demand 3 speaks of: a yes, valid data and a sound state.
    fenced_runs: u64,
    /// Statements completed by all runs.
    completed: u64,
    /// What formatted moves have reached.
    pub formats: Formats,
    /// What reads of blank-padded amounts have reached.
    pub blanks: Blanks,
    /// The bytes that UPCASE and LOCASE have met.
    pub letters: Letters,
    /// What loops have reached.
    pub loops: Loops,
    /// What references to strict fields have reached.
    pub stricts: Stricts,
    /// What handlers and trapped errors have reached.
    pub traps: Traps,
    /// What references that break a rule have reached.
    pub breakings: Breakings,
    /// What questions for invalid decimals have reached.
    pub validities: Validities,
    /// What questions for parts and fields have reached.
    pub entries: Entries,
}

impl Reached {
    pub fn case(&mut self, kind: Kind, has_passed: bool) {
        let counts = &mut self.kinds[kind as usize];
        counts[0] += 1;
        counts[1] += u64::from(has_passed);
    }

    pub fn run(&mut self, stop: u64, count: u64) {
        if let Some(runs) = self.stops.get_mut(stop as usize) {
            *runs += 1;
        }
        self.completed += count;
    }

    /// Counts statement `i` of a sound unit, which was completed.
    pub fn statement(&mut self, unit: &Sound, i: usize) {
        let statement = unit.statement(i);
        self.codes[usize::from(statement.code)] += 1;
        for offset in unit.uses(&statement) {
            for item in unit.items(offset) {
                self.items[usize::from(item.code)] += 1;
            }
        }
    }

    pub fn verdict(&mut self, verdict: u64) {
        self.verdicts[verdict as usize] += 1;
    }

    pub fn breach(&mut self, number: u64) {
        self.breaches[number as usize] += 1;
    }

    pub fn literal(&mut self) {
        self.literals += 1;
    }

    pub fn resumed(&mut self) {
        self.resumed += 1;
    }

    pub fn allowed_more(&mut self) {
        self.allowed_more += 1;
    }

    pub fn fenced_run(&mut self) {
        self.fenced_runs += 1;
    }

    /// Adds what another thread has counted.
    pub fn add(&mut self, other: &Reached) {
        for (sum, more) in self.kinds.iter_mut().zip(other.kinds) {
            add_all(sum, &more);
        }
        add_all(&mut self.stops, &other.stops);
        add_all(&mut self.codes, &other.codes);
        add_all(&mut self.items, &other.items);
        add_all(&mut self.verdicts, &other.verdicts);
        add_all(&mut self.breaches, &other.breaches);
        self.literals += other.literals;
        self.resumed += other.resumed;
        self.allowed_more += other.allowed_more;
        self.fenced_runs += other.fenced_runs;
        self.completed += other.completed;
        self.formats.add(&other.formats);
        self.blanks.add(&other.blanks);
        self.letters.add(&other.letters);
        self.loops.add(&other.loops);
        self.stricts.add(&other.stricts);
        self.traps.add(&other.traps);
        self.breakings.add(&other.breakings);
        self.validities.add(&other.validities);
        self.entries.add(&other.entries);
    }

    /// The ways of each feature, each with how often it was reached, behind its words.
    pub fn ways(&self) -> Vec<(&'static str, Vec<(&str, u64)>)> {
        vec![
            ("formatted moves", self.formats.reached().collect()),
            ("blank-padded amounts", self.blanks.reached().collect()),
            ("loops", self.loops.reached().collect()),
            ("strict fields", self.stricts.reached().collect()),
            ("trapped errors", self.traps.reached().collect()),
            ("breaking references", self.breakings.reached().collect()),
            ("validity", self.validities.reached().collect()),
            ("parts and fields", self.entries.reached().collect()),
        ]
    }

    /// What was never reached.
    pub fn missing(&self) -> Vec<String> {
        let mut missing = Vec::new();
        let mut look = |what: &str, counts: &[u64], wanted: &[usize]| {
            for &i in wanted.iter().filter(|&&i| counts[i] == 0) {
                missing.push(format!("{what} {i}"));
            }
        };
        look("stop", &self.stops, &STOPS);
        look("statement code", &self.codes, &range::<CODES>(1));
        look("item", &self.items, &ITEMS);
        look("fence answer", &self.verdicts, &range::<3>(0));
        look("breach", &self.breaches, &range::<7>(0));
        let others = [
            self.literals,
            self.resumed,
            self.allowed_more,
            self.fenced_runs,
        ];
        look(
            "of literals, resumed runs, great allowances, fenced runs number",
            &others,
            &range::<4>(0),
        );
        for (what, ways) in self.ways() {
            let never = ways.iter().filter(|(_, count)| *count == 0);
            missing.extend(never.map(|(way, _)| format!("of {what}: {way}")));
        }
        for (name, bytes) in self.letters.unmet() {
            missing.extend(
                bytes
                    .iter()
                    .map(|byte| format!("{name} of byte {byte:02X}")),
            );
        }
        missing
    }
}

/// So many numbers from `first` on.
fn range<const N: usize>(first: usize) -> [usize; N] {
    std::array::from_fn(|i| first + i)
}

fn add_all(sums: &mut [u64], more: &[u64]) {
    for (sum, more) in sums.iter_mut().zip(more) {
        *sum += more;
    }
}

impl fmt::Display for Reached {
    fn fmt(&self, f: &mut fmt::Formatter<'_>) -> fmt::Result {
        write!(f, "units")?;
        for (kind, [cases, passed]) in KINDS.iter().zip(self.kinds) {
            write!(f, "  {kind:?} {cases}, {passed} passed")?;
        }
        let decimal = |i: usize| i.to_string();
        row(f, "stops", &self.stops, &STOPS, decimal)?;
        row(f, "statements", &self.codes, &range::<CODES>(1), decimal)?;
        row(f, "items", &self.items, &ITEMS, |i| format!("{i:02X}"))?;
        let verdict = |i: usize| ["yes", "no", "refused"][i].to_string();
        row(f, "fence", &self.verdicts, &range::<3>(0), verdict)?;
        row(f, "breaches", &self.breaches, &range::<7>(0), decimal)?;
        let Reached {
            literals,
            resumed,
            allowed_more,
            fenced_runs,
            completed,
            ..
        } = self;
        write!(f, "\nalso  {literals} literals, {resumed} runs resumed, ")?;
        write!(f, "{allowed_more} with a great allowance, ")?;
        write!(
            f,
            "{fenced_runs} runs inside the fence, {completed} statements completed"
        )?;
        for (what, ways) in self.ways() {
            write!(f, "\n{what}")?;
            for (way, count) in ways {
                write!(f, "  {way}: {count}")?;
            }
        }
        write!(f, "\nletters")?;
        for (name, bytes) in self.letters.unmet() {
            write!(f, "  {name} of {} bytes", 256 - bytes.len())?;
        }
        Ok(())
    }
}

/// One row of counts, each behind its name.
fn row(
    f: &mut fmt::Formatter<'_>,
    what: &str,
    counts: &[u64],
    shown: &[usize],
    name: impl Fn(usize) -> String,
) -> fmt::Result {
    write!(f, "\n{what}")?;
    for &i in shown {
        write!(f, "  {}: {}", name(i), counts[i])?;
    }
    Ok(())
}
