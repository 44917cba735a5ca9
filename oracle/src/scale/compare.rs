//! Our exports' answers held against what is meant, an answer in the oracle's
//! form: the number, what it carries, and every cell that was lent.

use std::fmt::Debug;

use crate::form;
use crate::scale::exports::{self, Lent, Tables, REPORT_WORDS};
use crate::scale::words::Names;

/// What differs, in words.
pub type Difference = Option<String>;

/// How many cells are shown where they differ.
const SHOWN: usize = 6;

/// What purr has of a walk: for each number in walk order the atom, for each
/// atom that number, and the place of its entry back.
pub type Walk = [Vec<u32>; 3];

/// Whether an answer is no refusal.
pub fn is_done(answer: &str) -> bool {
    answer.starts_with("0 ")
}

/// The graph in an answer to `read`; none in a refusal.
pub fn graph_text(answer: &str) -> Option<&str> {
    answer.strip_prefix("0 ")?.splitn(3, ' ').nth(2)
}

/// The line in an answer to `write`; none in a refusal.
pub fn line_text(answer: &str) -> Option<String> {
    form::parse_text(answer.strip_prefix("0 ")?.split_once(' ')?.1)
}

/// A text read into tables of so many words.
pub fn read(names: &Names, text: &[u8], room: (usize, usize), meant: &str) -> Difference {
    let (atoms, bonds) = match graph_text(meant) {
        Some(text) => {
            let graph = form::parse_graph(text).expect("the oracle prints graphs that it parses");
            let tables = names.tables(&graph);

            (tables.atoms, tables.bonds)
        }
        None => (Vec::new(), Vec::new()),
    };
    let ours = exports::read(text, room.0, room.1);

    report(&ours.report, meant, 2)
        .or_else(|| cells("the atoms", &ours.atoms, &atoms))
        .or_else(|| cells("the bonds", &ours.bonds, &bonds))
}

/// A graph written into an output of so many bytes.
pub fn write(graph: &Tables, room: usize, meant: &str) -> Difference {
    let line = line_text(meant).unwrap_or_default();
    let ours = exports::write(graph, room);

    report(&ours.report, meant, 1).or_else(|| cells("the output", &ours.out, line.as_bytes()))
}

/// A graph's walk order, in tables of so many words. After a refusal `walk` is
/// empty.
pub fn order(graph: &Tables, room: usize, meant: &str, walk: &Walk) -> Difference {
    let ours = exports::order(graph, room);

    report(&ours.report, meant, 1)
        .or_else(|| cells("walked", &ours.walked, &walk[0]))
        .or_else(|| cells("number", &ours.number, &walk[1]))
        .or_else(|| cells("back", &ours.back, &walk[2]))
}

// The report of an answer; one that is no refusal carries so many values.
fn report(ours: &Lent<u64>, meant: &str, carried: usize) -> Difference {
    let words = if is_done(meant) {
        1 + carried
    } else {
        REPORT_WORDS
    };
    let mut report: Vec<u64> = meant
        .split(' ')
        .take(words)
        .map(|word| word.parse().expect("an answer begins with its numbers"))
        .collect();

    report.resize(REPORT_WORDS, 0);
    cells("the report", ours, &report)
}

/// Whether cells that were lent are these and then zeros.
pub fn cells<T>(what: &str, ours: &Lent<T>, meant: &[T]) -> Difference
where
    T: Copy + PartialEq + From<u8> + Debug,
{
    if ours.holds(meant) {
        return None;
    }

    let zero = T::from(0);
    let is_other = |&at: &usize| ours.cells()[at] != *meant.get(at).unwrap_or(&zero);
    let at = (0..ours.cells().len()).find(is_other);
    // Where all agree, a cell behind was touched, or there was no room.
    let at = at.unwrap_or_else(|| ours.cells().len());

    Some(format!(
        "{}, from cell {} of {}: {}, meant {}",
        what,
        at,
        ours.cells().len(),
        some(ours.cells(), at),
        some(meant, at)
    ))
}

// A few cells from a place on.
fn some<T: Debug>(cells: &[T], at: usize) -> String {
    let rest = cells.get(at..).unwrap_or_default();

    format!("{:?}", &rest[..rest.len().min(SHOWN)])
}
