//! purr's graphs as the words of our tables, by docs/PACKING.md. Each graph has
//! exactly one table, so that tables can be compared word by word.

use crate::feature::{AtomKind, BracketSymbol, Charge};
use crate::form;
use crate::graph::Atom;
use crate::scale::exports::Tables;

pub const ATOM_WORDS: usize = 3;
pub const BOND_WORDS: usize = 2;

// The first kind of each sort of atom.
const STAR: u32 = 1;
const ALIPHATIC: u32 = 2;
const AROMATIC: u32 = 14;
const BRACKET: u32 = 20;

// How many numbers the fields below one another leave room for.
const KINDS: u32 = 256;
const ISOTOPES: u32 = 1001;
const CONFIGURATIONS: u32 = 58;
const CHARGES: u32 = 32;

// What stands for none; of a configuration it is 0.
const NO_NUMBER: u32 = 1000;
const NO_HYDROGENS: u32 = 10;
const NO_CHARGE: u32 = 31;

const NEUTRAL: i32 = 15;

/// The names in the order of a dictionary, the capital ones first: a symbol is
/// the place of its name.
pub struct Names(Vec<&'static str>);

impl Names {
    pub fn new() -> Self {
        let mut names = vec!["*"];

        names.extend(form::ELEMENTS);
        names.extend(form::BRACKET_AROMATICS);
        names.sort_unstable();

        Self(names)
    }

    pub fn tables(&self, graph: &[Atom]) -> Tables {
        let mut atoms = Vec::with_capacity(ATOM_WORDS * graph.len());
        let mut bonds = Vec::new();

        for atom in graph {
            let (first, second) = self.kind_words(&atom.kind);

            atoms.extend([first, second, atom.bonds.len() as u32]);

            for bond in &atom.bonds {
                bonds.extend([
                    1 + place(form::BONDS, form::print_bond(&bond.kind)),
                    bond.tid as u32,
                ]);
            }
        }

        Tables {
            n: graph.len(),
            m: bonds.len() / BOND_WORDS,
            atoms,
            bonds,
        }
    }

    fn kind_words(&self, kind: &AtomKind) -> (u32, u32) {
        match kind {
            AtomKind::Star => (STAR, 0),
            AtomKind::Aliphatic(aliphatic) => (
                ALIPHATIC + place(form::ALIPHATICS, form::print_aliphatic(aliphatic)),
                0,
            ),
            AtomKind::Aromatic(aromatic) => (
                AROMATIC + place(form::AROMATICS, form::print_aromatic(aromatic)),
                0,
            ),
            AtomKind::Bracket {
                isotope,
                symbol,
                configuration,
                hcount,
                charge,
                map,
            } => {
                let number = |number| u32::from(u16::from(number));
                let isotope = isotope.as_ref().map_or(NO_NUMBER, number);
                let configuration = configuration.as_ref().map_or(0, |value| {
                    1 + place(form::CONFIGURATIONS, form::print_configuration(value))
                });
                let hydrogens = hcount.as_ref().map_or(NO_HYDROGENS, |value| {
                    place(form::HYDROGENS, form::print_hydrogens(value))
                });
                let charge = charge.as_ref().map_or(NO_CHARGE, charge_number);
                let map = map.as_ref().map_or(NO_NUMBER, number);

                (
                    BRACKET
                        + self.symbol(symbol)
                        + KINDS
                            * (isotope + ISOTOPES * (configuration + CONFIGURATIONS * hydrogens)),
                    charge + CHARGES * map,
                )
            }
        }
    }

    fn symbol(&self, symbol: &BracketSymbol) -> u32 {
        place(&self.0, form::print_symbol(symbol))
    }
}

fn charge_number(charge: &Charge) -> u32 {
    let charge: i8 = charge.into();

    (i32::from(charge) + NEUTRAL) as u32
}

fn place(names: &[&str], name: &str) -> u32 {
    names
        .iter()
        .position(|&other| other == name)
        .expect("each name is in its table") as u32
}
