//! Counts what was compared and shows the first differences.

use std::collections::BTreeMap;

/// How many differences are shown in a run.
const SHOWN: usize = 20;

#[derive(Default)]
struct Row {
    compared: usize,
    listed: usize,
    differ: usize,
}

pub struct Tally {
    /// By what was compared.
    rows: BTreeMap<String, Row>,
    differ: usize,
    /// How many differences may be shown.
    shown: usize,
}

impl Tally {
    pub fn new() -> Self {
        Self {
            rows: BTreeMap::new(),
            differ: 0,
            shown: SHOWN,
        }
    }

    /// One that only counts.
    pub fn silent() -> Self {
        Self {
            shown: 0,
            ..Self::new()
        }
    }

    /// Counts one comparison. `listed` is whether something else than purr's answer
    /// is meant; `request` is asked for only if it has to be shown.
    pub fn count(
        &mut self,
        kind: &str,
        listed: bool,
        difference: Option<String>,
        request: impl FnOnce() -> String,
    ) {
        let row = self.rows.entry(kind.to_string()).or_default();

        row.compared += 1;
        row.listed += usize::from(listed);

        if let Some(difference) = difference {
            row.differ += 1;
            self.differ += 1;

            if self.differ <= self.shown {
                println!("{}: {}\n    {}", kind, request(), difference);
            }
        }
    }

    /// How many comparisons found a difference.
    pub fn differ(&self) -> usize {
        self.differ
    }

    pub fn print(&self) {
        println!(
            "{:<28}{:>10}{:>10}{:>10}",
            "", "compared", "listed", "differ"
        );

        for (kind, row) in &self.rows {
            println!(
                "{:<28}{:>10}{:>10}{:>10}",
                kind, row.compared, row.listed, row.differ
            );
        }
    }
}
