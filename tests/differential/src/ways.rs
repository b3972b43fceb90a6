//! Ways that cases may reach, each counted by its words.

/// The run errors that a part of a statement may give.
pub const FAULTS: [u8; 5] = [20, 21, 22, 23, 26];

/// The ways of a statement's parts, which are worked out in this order: which error one gives, before
/// another of which part, and how it is refused.
pub fn ways_of(parts: &[&str]) -> Vec<String> {
    let mut ways = Vec::new();
    for (i, part) in parts.iter().enumerate() {
        let behind = parts[i + 1..].iter();
        ways.extend(FAULTS.map(|fault| format!("{part} gives {fault}")));
        ways.extend(behind.map(|other| format!("{part} before another of {other}")));
        ways.extend(["outside", "of another sort"].map(|how| format!("4 for {part} {how}")));
    }
    ways
}

/// Each way, with how often it was reached.
#[derive(Clone)]
pub struct Ways(Vec<(String, u64)>);

impl Ways {
    /// These ways, none of them reached yet.
    pub fn of<Word: ToString>(words: &[Word]) -> Ways {
        Ways(words.iter().map(|way| (way.to_string(), 0)).collect())
    }

    pub fn count(&mut self, way: &str) {
        let known = self.0.iter_mut().find(|(known, _)| known == way);
        known.expect("the way is listed").1 += 1;
    }

    pub fn count_if(&mut self, is_so: bool, way: &str) {
        if is_so {
            self.count(way);
        }
    }

    /// Counts the first of some parts that gives an error, by that error and by the parts behind it
    /// that would give another. The answer is that part, if there is one.
    pub fn count_faults<'p>(
        &mut self,
        parts: &[&'p str],
        faults: &[Option<u8>],
    ) -> Option<&'p str> {
        let faulty = parts.iter().zip(faults);
        let faulty = faulty.filter_map(|(&part, &fault)| Some((part, fault?)));
        let faulty: Vec<(&str, u8)> = faulty.collect();
        let (&(part, stop), behind) = faulty.split_first()?;
        self.count(&format!("{part} gives {stop}"));
        for (other, _) in behind.iter().filter(|(_, other)| *other != stop) {
            self.count(&format!("{part} before another of {other}"));
        }
        Some(part)
    }

    /// Adds what another thread has counted.
    pub fn add(&mut self, other: &Ways) {
        for ((_, sum), (_, more)) in self.0.iter_mut().zip(&other.0) {
            *sum += more;
        }
    }

    /// Each way with how often it was reached.
    pub fn reached(&self) -> impl Iterator<Item = (&str, u64)> {
        self.0.iter().map(|(way, count)| (way.as_str(), *count))
    }

    /// The ways that were reached.
    #[cfg(test)]
    pub fn met(&self) -> Vec<String> {
        let met = self.reached().filter(|(_, count)| *count > 0);
        met.map(|(way, _)| way.to_string()).collect()
    }
}

#[cfg(test)]
mod tests {
    use super::Ways;
    use crate::reached::Reached;

    #[test]
    fn each_way_is_listed_once() {
        for (what, ways) in Reached::default().ways() {
            for (i, (way, _)) in ways.iter().enumerate() {
                let is_again = ways[..i].iter().any(|(other, _)| other == way);
                assert!(!is_again, "{what}: {way}");
            }
        }
    }

    #[test]
    fn ways_are_counted_and_added() {
        let mut ways = Ways::of(&["one", "other"]);
        ways.count("one");
        ways.count_if(false, "other");
        let mut sum = ways.clone();
        sum.count_if(true, "other");
        sum.add(&ways);
        let reached: Vec<(&str, u64)> = sum.reached().collect();
        assert_eq!(reached, [("one", 2), ("other", 1)]);
        assert_eq!(ways.met(), ["one"]);
    }
}
