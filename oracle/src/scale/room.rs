//! What is meant where less is lent than a job needs: numbers 13, 14 and 16 of
//! the scope, which purr does not have.

use crate::feature::{AtomKind, BondKind, Rnum};
use crate::read::{self, Trace};
use crate::scale::compare;
use crate::scale::exports::Tables;
use crate::scale::words::{ATOM_WORDS, BOND_WORDS};
use crate::walk::Follower;

/// What takes room when a line is read.
enum Taking {
    Root,
    Extend,
    Join,
}

#[derive(Default)]
struct Takings(Vec<Taking>);

impl Follower for Takings {
    fn root(&mut self, _: AtomKind) {
        self.0.push(Taking::Root)
    }

    fn extend(&mut self, _: BondKind, _: AtomKind) {
        self.0.push(Taking::Extend)
    }

    fn join(&mut self, _: BondKind, _: Rnum) {
        self.0.push(Taking::Join)
    }

    fn pop(&mut self, _: usize) {}
}

/// The refusal of a line of ASCII that purr reads, and builds, where so many
/// words are lent: 13 or 14 with the place of the first thing that has no room.
/// None if there is room for all.
pub fn refusal(text: &str, room: (usize, usize)) -> Option<String> {
    let mut takings = Takings::default();
    let mut trace = Trace::new();

    read::read(text, &mut takings, Some(&mut trace)).expect("a line that purr reads");

    let (atom_room, entry_room) = (room.0 / ATOM_WORDS, room.1 / BOND_WORDS);
    let (mut atoms, mut entries, mut joins) = (0, 0, 0);

    for taking in takings.0 {
        let (place, more) = match taking {
            Taking::Join => {
                joins += 1;
                (trace.rnum(joins - 1), 1)
            }
            Taking::Root | Taking::Extend => {
                atoms += 1;
                (
                    trace.atom(atoms - 1),
                    if let Taking::Root = taking { 0 } else { 2 },
                )
            }
        };
        let place = place
            .expect("the trace has each atom and ring number")
            .start;

        entries += more;

        if atoms > atom_room {
            return Some(format!("13 {}", place));
        }

        if entries > entry_room {
            return Some(format!("14 {}", place));
        }
    }

    None
}

/// What is meant where the graph's answer is this one and an output of so many
/// bytes is lent: 16 comes last.
pub fn written(graph: &Tables, room: usize, answer: &str) -> String {
    counted(graph).unwrap_or_else(|| match compare::line_text(answer) {
        Some(line) if room < line.len() => format!("16 {}", line.len()),
        _ => answer.to_string(),
    })
}

/// The like for a walk order in tables of so many words, which are room for atoms.
pub fn ordered(graph: &Tables, room: usize, answer: &str) -> String {
    if room < graph.n {
        return format!("13 {}", graph.n);
    }

    counted(graph).unwrap_or_else(|| answer.to_string())
}

// The refusal where fewer words are handed in than the counts say.
fn counted(graph: &Tables) -> Option<String> {
    if graph.atoms.len() / ATOM_WORDS < graph.n {
        return Some(format!("13 {}", graph.n));
    }

    if graph.bonds.len() / BOND_WORDS < graph.m {
        return Some(format!("14 {}", graph.m));
    }

    None
}
