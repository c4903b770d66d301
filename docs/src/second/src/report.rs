//! The report on a set of cases: how often each line occurs, in how many cases, for refused tables
//! at how many different entries, and what happens inside the runs.

use crate::cases::Case;
use crate::coverage::{Coverage, HAPPENINGS};
use std::collections::{BTreeMap, BTreeSet};
use std::fmt;

/// The lines that can occur. 9, 13 and 14 cannot: orcrun takes place 0 of a queue that is not
/// empty, 100,000 steps make no million calls, and a run keeps the rules.
const KINDS: [&str; 18] = [
    "call",
    "publish",
    "refused 10",
    "refused 11",
    "refused 12",
    "refused 15",
    "table 1",
    "table 2",
    "table 3",
    "table 4",
    "table 5",
    "table 6",
    "table 7",
    "table 8",
    "end",
    "limit",
    "short",
    "long",
];

/// 3 to 8 name an entry, and have to occur at several.
const FEWEST_ENTRIES: usize = 10;

#[derive(Default)]
pub struct Report {
    cases: usize,
    bytes: usize,
    lines_of: BTreeMap<String, usize>,
    cases_of: BTreeMap<String, usize>,
    entries_of: BTreeMap<String, BTreeSet<String>>,
    coverage: Coverage,
}

impl Report {
    pub fn of(cases: &[Case]) -> Report {
        let mut report = Report::default();
        for case in cases {
            report.cases += 1;
            report.bytes += case.input.len();
            report.add(&case.lines);
            report.coverage.add(&case.input);
        }
        report
    }

    fn add(&mut self, lines: &str) {
        let mut seen = BTreeSet::new();
        for line in lines.lines() {
            let kind = kind(line);
            *self.lines_of.entry(kind.clone()).or_default() += 1;
            if kind.starts_with("table") {
                let entry = line.rsplit(' ').next().unwrap_or_default();
                self.entries_of.entry(kind.clone()).or_default().insert(entry.to_string());
            }
            seen.insert(kind);
        }
        for kind in seen {
            *self.cases_of.entry(kind).or_default() += 1;
        }
    }

    fn entries(&self, kind: &str) -> usize {
        self.entries_of.get(kind).map_or(0, BTreeSet::len)
    }

    /// What can occur and does not, what cannot and does, and refusals at too few entries.
    pub fn missing(&self) -> Vec<String> {
        let mut missing = Vec::new();
        let lines = KINDS.iter().filter(|kind| !self.lines_of.contains_key(**kind));
        missing.extend(lines.map(|kind| kind.to_string()));
        let other = self.lines_of.keys().filter(|kind| !KINDS.contains(&kind.as_str()));
        missing.extend(other.map(|kind| format!("cases without {kind}, which cannot occur")));
        let named = KINDS.iter().filter(|kind| kind.starts_with("table") && **kind >= "table 3");
        let few = named.filter(|kind| self.entries(kind) < FEWEST_ENTRIES);
        missing.extend(few.map(|kind| format!("entries of {kind}")));
        let unseen = HAPPENINGS.iter().filter(|happening| self.coverage.count(happening) == 0);
        missing.extend(unseen.map(|happening| happening.to_string()));
        missing
    }
}

impl fmt::Display for Report {
    fn fmt(&self, out: &mut fmt::Formatter) -> fmt::Result {
        writeln!(out, "{} cases, {} bytes of input\n", self.cases, self.bytes)?;
        writeln!(out, "line          lines    cases  entries")?;
        for kind in KINDS {
            let of = |counts: &BTreeMap<String, usize>| counts.get(kind).copied().unwrap_or(0);
            let (lines, cases) = (of(&self.lines_of), of(&self.cases_of));
            write!(out, "{kind:<11} {lines:>7} {cases:>8}")?;
            match self.entries(kind) {
                0 => writeln!(out)?,
                entries => writeln!(out, " {entries:>8}")?,
            }
        }
        writeln!(out)?;
        for happening in HAPPENINGS {
            writeln!(out, "{happening:<46} {:>7}", self.coverage.count(happening))?;
        }
        Ok(())
    }
}

/// The first word, and the number behind `refused` or `table`.
fn kind(line: &str) -> String {
    let words = if line.starts_with("refused") || line.starts_with("table") { 2 } else { 1 };
    line.split(' ').take(words).collect::<Vec<&str>>().join(" ")
}
