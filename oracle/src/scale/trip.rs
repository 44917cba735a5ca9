//! The round trip, run: a plain graph written by our export and read back by it
//! is the graph renumbered in walk order, as docs/ROUNDTRIP.md states it. What is
//! asked of a graph, and the renumbering, are written here from that document.

use std::collections::BTreeMap;

use crate::feature::{AtomKind, BracketSymbol, Charge, Configuration, Element, VirtualHydrogen};
use crate::form;
use crate::graph::{Atom, Bond};
use crate::model;
use crate::scale::compare::{self, Difference};
use crate::scale::exports::{self, Ordered, Tables};
use crate::scale::tally::Tally;
use crate::scale::words::{Names, ATOM_WORDS, BOND_WORDS};
use crate::scale::LARGEST;
use crate::simple::is_simple;

// The reader's limits.
const TEXT: usize = 8192;
const ATOMS: usize = 1024;
const ENTRIES: usize = 2304;
const BRANCHES: usize = 128;

// Numbers of the report. Those of bonds: an unknown target, a bond to the atom itself,
// with one end, held twice, of kinds that do not match.
const RING_ENDS: u64 = 3;
const RING_OPEN: u64 = 4;
const OF_BONDS: std::ops::RangeInclusive<u64> = 5..=9;
const RING_NUMBERS: u64 = 11;

/// What came of the graphs of one source.
#[derive(Default)]
struct Row {
    graphs: usize,
    plain: usize,
    refused: usize,
    numbers: usize,
    beyond: usize,
    compared: usize,
}

#[derive(Default)]
pub struct Trips {
    rows: BTreeMap<String, Row>,
}

/// What came of one plain graph.
pub enum Trip {
    /// It is not simple.
    Refused,
    /// It needs a ring number over 99.
    Numbers,
    /// Its line is beyond the reader's limits.
    Beyond,
    Compared(Difference),
}

impl Trips {
    /// Takes a graph as it is and, if only its kinds are not plain, once more with
    /// these mended: random graphs are seldom plain.
    pub fn take(&mut self, kind: &str, mut graph: Vec<Atom>, names: &Names, tally: &mut Tally) {
        if self.count(kind, &graph, names, tally) {
            return;
        }

        if let Some(difference) = reread(names, &graph) {
            tally.count("reread", false, difference, || form::print_graph(&graph));
        }

        graph.iter_mut().for_each(|atom| mend(&mut atom.kind));
        self.count(&format!("{}, mended", kind), &graph, names, tally);
    }

    // Whether the graph is plain.
    fn count(&mut self, kind: &str, graph: &[Atom], names: &Names, tally: &mut Tally) -> bool {
        let row = self.rows.entry(kind.to_string()).or_default();

        row.graphs += 1;

        if !is_plain(graph) {
            return false;
        }

        row.plain += 1;

        match trip(names, graph) {
            Trip::Refused => row.refused += 1,
            Trip::Numbers => row.numbers += 1,
            Trip::Beyond => row.beyond += 1,
            Trip::Compared(difference) => {
                row.compared += 1;
                tally.count("round trip", false, difference, || form::print_graph(graph));
            }
        }

        true
    }

    pub fn print(&self) {
        println!(
            "{:<28}{:>10}{:>10}{:>12}{:>10}{:>10}{:>10}",
            "round trip of", "graphs", "plain", "not simple", "over 99", "too long", "compared"
        );

        for (kind, row) in &self.rows {
            println!(
                "{:<28}{:>10}{:>10}{:>12}{:>10}{:>10}{:>10}",
                kind, row.graphs, row.plain, row.refused, row.numbers, row.beyond, row.compared
            );
        }
    }
}

/// At least one atom, kinds that survive, and no configuration but TH1 or TH2.
pub fn is_plain(graph: &[Atom]) -> bool {
    !graph.is_empty() && graph.iter().all(|atom| is_plain_kind(&atom.kind))
}

fn is_plain_kind(kind: &AtomKind) -> bool {
    match kind {
        AtomKind::Bracket {
            symbol,
            configuration,
            hcount,
            charge,
            ..
        } => {
            symbol_survives(symbol)
                && configuration.as_ref().map_or(true, is_tetrahedral)
                && hcount.as_ref().map_or(true, hydrogens_survive)
                && charge.as_ref().map_or(true, charge_survives)
        }
        _ => true,
    }
}

// Caesium is written as actinium.
fn symbol_survives(symbol: &BracketSymbol) -> bool {
    *symbol != BracketSymbol::Element(Element::Cs)
}

fn is_tetrahedral(configuration: &Configuration) -> bool {
    matches!(configuration, Configuration::TH1 | Configuration::TH2)
}

// H0 is written as no hydrogens.
fn hydrogens_survive(hydrogens: &VirtualHydrogen) -> bool {
    !hydrogens.is_zero()
}

// 0 is written as no charge, +5 with a blank, and a charge of ten is not read.
fn charge_survives(charge: &Charge) -> bool {
    let charge: i8 = charge.into();

    ![0, 5, 10, -10].contains(&charge)
}

// Leaves out what is not plain.
fn mend(kind: &mut AtomKind) {
    if let AtomKind::Bracket {
        symbol,
        configuration,
        hcount,
        charge,
        ..
    } = kind
    {
        if !symbol_survives(symbol) {
            *symbol = BracketSymbol::Star;
        }

        *configuration = configuration.take().filter(is_tetrahedral);
        *hcount = hcount.take().filter(hydrogens_survive);
        *charge = charge.take().filter(charge_survives);
    }
}

/// The trip of a plain graph. What is written of them is simple, and what is simple is
/// refused for want of a ring number alone.
pub fn trip(names: &Names, graph: &[Atom]) -> Trip {
    let tables = names.tables(graph);
    let written = exports::write(&tables, longest(&tables));
    let report = written.report.cells();

    match (report[0], is_simple(graph)) {
        (0, true) => (),
        (RING_NUMBERS, _) => return Trip::Numbers,
        (number, false) if OF_BONDS.contains(&number) => return Trip::Refused,
        (_, simple) => {
            return Trip::Compared(Some(format!("answered {:?}, simple: {}", report, simple)))
        }
    }

    let line = &written.out.cells()[..report[1] as usize];

    if is_beyond(line, &tables) {
        return Trip::Beyond;
    }

    let ordered = exports::order(&tables, graph.len());

    Trip::Compared(
        misnumbers(graph, &ordered)
            .or_else(|| comes_back(names, line, &tables, &renumbered(graph, &ordered))),
    )
}

/// A line that our export writes, of any kinds, is never read as one whose ring numbers
/// do not agree or are not closed. None if it writes none.
pub fn reread(names: &Names, graph: &[Atom]) -> Option<Difference> {
    let tables = names.tables(graph);
    let written = exports::write(&tables, longest(&tables));
    let report = written.report.cells();

    if report[0] != 0 {
        return None;
    }

    Some(one_sided(&written.out.cells()[..report[1] as usize]))
}

/// What is wrong with the ring numbers of a line, if it is refused for them.
pub fn one_sided(line: &[u8]) -> Difference {
    let number = exports::read(line, LARGEST.0, LARGEST.1).report.cells()[0];

    Some(format!("the line is answered {}", number))
        .filter(|_| [RING_ENDS, RING_OPEN].contains(&number))
}

/// The bytes that a line has at most: 24 for each atom and 4 for each entry.
pub fn longest(graph: &Tables) -> usize {
    24 * graph.n + 4 * graph.m
}

fn is_beyond(line: &[u8], graph: &Tables) -> bool {
    line.len() > TEXT || graph.n > ATOMS || graph.m > ENTRIES || depth(line) > BRANCHES
}

// How many branches are open at once.
fn depth(line: &[u8]) -> usize {
    let (mut open, mut deepest) = (0, 0);

    for byte in line {
        match byte {
            b'(' => open += 1,
            b')' => open -= 1,
            _ => (),
        }

        deepest = deepest.max(open);
    }

    deepest
}

// A walk order numbers each atom once, and knows an entry back of each or none.
fn misnumbers(graph: &[Atom], order: &Ordered) -> Difference {
    let (walked, number) = (order.walked.cells(), order.number.cells());
    let undoes = |atom: usize| {
        walked.get(number[atom] as usize) == Some(&(atom as u32))
            && order.back.cells()[atom] as usize <= graph[atom].bonds.len()
    };

    if order.report.holds(&[0, graph.len() as u64, 0]) && (0..graph.len()).all(undoes) {
        return None;
    }

    Some(format!("walked as {:?}, numbered as {:?}", walked, number))
}

/// The graph renumbered: the atom v is the atom `walked[v]`, its parent's bond is
/// moved to the front, and its mark is toggled exactly if it bears hydrogen and
/// that bond was at an odd index.
pub fn renumbered(graph: &[Atom], order: &Ordered) -> Vec<Atom> {
    let place = |&atom: &u32| order.back.cells()[atom as usize] as usize;
    let entry = |bond: &Bond| Bond::new(bond.kind.clone(), order.number.cells()[bond.tid] as usize);

    order
        .walked
        .cells()
        .iter()
        .map(|atom| {
            let old = &graph[*atom as usize];
            let mut bonds: Vec<Bond> = old.bonds.iter().map(entry).collect();
            let mut kind = model::copied(&old.kind);

            // The place is counted from 1; a root has none.
            if let Some(index) = place(atom).checked_sub(1) {
                bonds[..=index].rotate_right(1);

                if index % 2 == 1 {
                    toggle(&mut kind);
                }
            }

            Atom { kind, bonds }
        })
        .collect()
}

fn toggle(kind: &mut AtomKind) {
    if let AtomKind::Bracket {
        configuration,
        hcount: Some(hydrogens),
        ..
    } = kind
    {
        if hydrogens.is_zero() {
            return;
        }

        *configuration = match configuration {
            Some(Configuration::TH1) => Some(Configuration::TH2),
            Some(Configuration::TH2) => Some(Configuration::TH1),
            _ => return,
        }
    }
}

/// The line is read as the graph renumbered, in no more room than that needs. That
/// graph is written as the same line; it is its own renumbering, so that two graphs
/// with one line come back as one.
pub fn comes_back(names: &Names, line: &[u8], graph: &Tables, renumbered: &[Atom]) -> Difference {
    let meant = names.tables(renumbered);
    let back = exports::read(line, ATOM_WORDS * graph.n, BOND_WORDS * graph.m);

    compare::cells(
        "the report",
        &back.report,
        &[0, graph.n as u64, graph.m as u64],
    )
    .or_else(|| compare::cells("the atoms", &back.atoms, &meant.atoms))
    .or_else(|| compare::cells("the bonds", &back.bonds, &meant.bonds))
    .or_else(|| {
        let again = exports::write(&meant, longest(&meant));

        compare::cells("the line again", &again.out, line)
    })
    .or_else(|| comes_back_as_itself(names, &meant, renumbered))
}

fn comes_back_as_itself(names: &Names, tables: &Tables, graph: &[Atom]) -> Difference {
    let order = exports::order(tables, graph.len());

    misnumbers(graph, &order).or_else(|| {
        let again = names.tables(&renumbered(graph, &order));

        Some("renumbered once more it differs".to_string())
            .filter(|_| again.atoms != tables.atoms || again.bonds != tables.bonds)
    })
}
