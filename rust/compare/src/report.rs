//! What a comparison found: how often each answer was given, which were never
//! reached, and the first differences.

use std::{collections::BTreeMap, fmt};

use crate::{long_records::LONG, runs::Run};

/// So many differences are kept in full; the others are counted.
const KEPT: usize = 5;

/// A function and the answers that its cases have to reach.
#[derive(Clone, Debug)]
pub struct Domain {
    /// The function's name.
    pub function: &'static str,
    /// Its answers, or the kinds that they fall into.
    pub answers: Vec<&'static str>,
}

/// One case on which two answers differ.
#[derive(Clone, Debug)]
pub struct Difference {
    /// The function.
    pub function: &'static str,
    /// The seed of the comparison.
    pub seed: u64,
    /// The number of the case.
    pub case: u64,
    /// What was asked and where the answers part, each with its name.
    pub parts: Vec<(&'static str, String)>,
}

/// What was drawn and not compared: the token rules part on some of its records.
#[derive(Clone, Copy, Debug, Default, PartialEq, Eq)]
pub struct LeftOut {
    /// The calls.
    pub calls: usize,
    /// The records of their tables that only the published code takes for token
    /// accounts.
    pub records: usize,
}

/// Calls with a [long](LONG) record that were compared.
#[derive(Default)]
struct Long {
    calls: usize,
    /// The length of the longest record.
    longest: usize,
}

/// What came of a comparison. Of two the greater one counts: a difference more
/// than an answer that was never reached.
#[derive(Clone, Copy, Debug, PartialEq, Eq, PartialOrd, Ord)]
pub enum Outcome {
    /// Nothing differed, and every answer was reached.
    AsExpected,
    /// Nothing differed, and there were too few cases to reach every answer.
    TooFew,
    /// Something differed.
    Differs,
}

/// The result of a comparison.
pub struct Report {
    domains: Vec<Domain>,
    answered: BTreeMap<(&'static str, &'static str), u64>,
    left_out: BTreeMap<&'static str, LeftOut>,
    long: BTreeMap<&'static str, Long>,
    kept: Vec<Difference>,
    differences: u64,
    smallest: Option<Run>,
}

impl Report {
    /// Nothing compared yet.
    pub fn new(domains: Vec<Domain>) -> Self {
        Self {
            domains,
            answered: BTreeMap::new(),
            left_out: BTreeMap::new(),
            long: BTreeMap::new(),
            kept: Vec::new(),
            differences: 0,
            smallest: None,
        }
    }

    /// Counts an expected answer.
    pub fn count(&mut self, function: &'static str, answer: &'static str) {
        *self.answered.entry((function, answer)).or_default() += 1;
    }

    /// Counts calls that are left out, and the records that they are left out for.
    pub fn leave_out(&mut self, function: &'static str, calls: usize, records: usize) {
        let left_out = self.left_out.entry(function).or_default();
        left_out.calls += calls;
        left_out.records += records;
    }

    /// What was left out.
    pub fn left_out(&self, function: &'static str) -> LeftOut {
        self.left_out.get(function).copied().unwrap_or_default()
    }

    /// Counts a call with a long record, whose longest is this long.
    pub fn count_long(&mut self, function: &'static str, longest: usize) {
        let long = self.long.entry(function).or_default();
        long.calls += 1;
        long.longest = long.longest.max(longest);
    }

    /// Counts a difference, and keeps it if it is among the first.
    pub fn differ(&mut self, difference: impl FnOnce() -> Difference) {
        self.differences += 1;
        if self.kept.len() < KEPT {
            self.kept.push(difference());
        }
    }

    /// Keeps the smallest run of the first difference.
    pub fn keep_smallest(&mut self, find: impl FnOnce() -> Run) {
        self.smallest.get_or_insert_with(find);
    }

    /// The smallest run that was found to differ.
    pub fn smallest(&self) -> Option<&Run> {
        self.smallest.as_ref()
    }

    /// How many cases differed.
    pub fn differences(&self) -> u64 {
        self.differences
    }

    /// How often an answer was expected.
    pub fn answered(&self, function: &'static str, answer: &'static str) -> u64 {
        self.answered.get(&(function, answer)).copied().unwrap_or(0)
    }

    /// The answers that no case reached.
    pub fn missing(&self) -> Vec<(&'static str, &'static str)> {
        let all = self.domains.iter().flat_map(|domain| {
            let answers = domain.answers.iter();
            answers.map(|answer| (domain.function, *answer))
        });
        all.filter(|(function, answer)| self.answered(function, answer) == 0)
            .collect()
    }

    /// What came of it.
    pub fn outcome(&self) -> Outcome {
        match self.differences {
            0 if self.missing().is_empty() => Outcome::AsExpected,
            0 => Outcome::TooFew,
            _ => Outcome::Differs,
        }
    }

    /// Whether nothing differed and every answer was reached.
    pub fn passed(&self) -> bool {
        self.outcome() == Outcome::AsExpected
    }
}

impl fmt::Display for Report {
    fn fmt(&self, f: &mut fmt::Formatter) -> fmt::Result {
        for domain in &self.domains {
            writeln!(f, "{}", domain.function)?;
            for answer in &domain.answers {
                let times = self.answered(domain.function, answer);
                writeln!(f, "  {times:>10}  {answer}")?;
            }
            if let Some(Long { calls, longest }) = self.long.get(domain.function) {
                writeln!(
                    f,
                    "  {calls:>10}  of these with a long record, of {LONG} to {longest} bytes"
                )?;
            }
            if let Some(LeftOut { calls, records }) = self.left_out.get(domain.function) {
                writeln!(
                    f,
                    "  {calls:>10}  left out: the token rules part on {records} records"
                )?;
            }
        }
        for difference in &self.kept {
            write!(f, "{difference}")?;
        }
        let missing = self.missing();
        for (function, answer) in &missing {
            writeln!(f, "never reached: {function}, {answer}")?;
        }
        match self.outcome() {
            Outcome::AsExpected => writeln!(f, "no difference"),
            Outcome::TooFew => writeln!(
                f,
                "no difference, and too few cases: {} answers were never reached",
                missing.len()
            ),
            Outcome::Differs => {
                let (all, shown) = (self.differences, self.kept.len());
                let again = "a case is drawn again from its seed and number";
                writeln!(f, "{all} differences, {shown} shown; {again}")
            }
        }
    }
}

impl fmt::Display for Difference {
    fn fmt(&self, f: &mut fmt::Formatter) -> fmt::Result {
        let Self {
            function,
            seed,
            case,
            parts,
        } = self;
        writeln!(f, "difference: {function}, seed {seed}, case {case}")?;
        for (name, value) in parts {
            writeln!(f, "  {name:<24}{value}")?;
        }
        Ok(())
    }
}

#[cfg(test)]
mod tests {
    use super::*;

    #[test]
    fn long_records_are_told() {
        let mut report = Report::new(vec![Domain {
            function: "judge",
            answers: vec![],
        }]);
        assert_eq!(report.to_string(), "judge\nno difference\n");
        for longest in [70_000, 10_485_760, 65_535] {
            report.count_long("judge", longest);
        }
        let line = "         3  of these with a long record, of 65535 to 10485760 bytes\n";
        assert!(report.to_string().contains(line), "{report}");
    }
}
