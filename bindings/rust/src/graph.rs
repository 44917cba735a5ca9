//! Graphs: the library's tables, their atoms and bonds, and what is made of them.
use crate::error::told;
use crate::exports::{mavisdrok_order, mavisdrok_read, mavisdrok_write};
use crate::{AtomKind, BondKind, Error};

/// The largest job: atoms and bond entries, and the words of each.
pub const ATOMS: usize = 1024;
pub const BONDS: usize = 2304;
pub const ATOM_WORDS: usize = 3;
pub const BOND_WORDS: usize = 2;

/// Where an atom's record says how many entries the atom has.
const DEGREE: usize = 2;

/// A graph, in the library's tables: three words an atom, two a bond entry (docs/PACKING.md). Every record stands for an atom
/// or an entry, and every entry is held by an atom; whether the two ends of a bond agree is for `write` and `walk` to say.
#[derive(Clone, Debug, PartialEq, Eq)]
pub struct Graph {
    atoms: Vec<u32>,
    bonds: Vec<u32>,
}

/// An atom of a graph.
#[derive(Clone, Copy, Debug)]
pub struct Atom<'a> {
    pub kind: AtomKind,
    entries: &'a [u32],
}

/// One of the two entries of a bond: its kind, and the number of the other atom.
#[derive(Clone, Copy, Debug, PartialEq, Eq, Hash)]
pub struct Bond {
    pub kind: BondKind,
    pub tid: usize,
}

/// The walk order of a graph.
#[derive(Clone, Debug, PartialEq, Eq)]
pub struct Order {
    /// For each number in walk order the atom.
    pub walked: Vec<u32>,
    /// For each atom its number in walk order.
    pub number: Vec<u32>,
    /// For each atom the place, from 1, of its entry back to the atom that it was reached from; 0 for a root.
    pub back: Vec<u32>,
}

/// Reads a line. As much room is lent as the text can need: an atom takes a byte, and so do two bond entries.
pub fn read(text: &[u8]) -> Result<Graph, Error> {
    let mut atoms = vec![0; text.len().min(ATOMS) * ATOM_WORDS];
    let mut bonds = vec![0; (2 * text.len()).min(BONDS) * BOND_WORDS];
    let mut report = [0; 3];
    // The slices are lent for the call alone, and it writes within them alone.
    unsafe {
        mavisdrok_read(
            text.as_ptr(), text.len(), atoms.as_mut_ptr(), atoms.len(), bonds.as_mut_ptr(), bonds.len(),
            report.as_mut_ptr(), report.len(),
        );
    }
    let (n, m) = told(report)?;
    Ok(Graph::held(atoms, n, bonds, m))
}

/// A line read and written.
pub fn rewrite(text: &[u8]) -> Result<String, Error> {
    read(text)?.write()
}

impl<'a> Atom<'a> {
    /// Its bonds, in their order.
    pub fn bonds(&self) -> impl Iterator<Item = Bond> + 'a {
        self.entries.chunks_exact(BOND_WORDS).map(|entry| Bond {
            kind: BondKind::try_from(entry[0]).expect("an entry of a graph is of a kind"),
            tid: entry[1] as usize,
        })
    }
}

impl Graph {
    /// The graph of n atoms and m entries that the library has laid into two tables.
    pub(crate) fn held(mut atoms: Vec<u32>, n: usize, mut bonds: Vec<u32>, m: usize) -> Graph {
        atoms.truncate(n * ATOM_WORDS);
        bonds.truncate(m * BOND_WORDS);
        Graph { atoms, bonds }
    }

    /// The graph that words stand for: three an atom, two a bond entry. The library judges them.
    pub fn from_words(atoms: Vec<u32>, bonds: Vec<u32>) -> Result<Graph, Error> {
        let (n, m) = (atoms.len() / ATOM_WORDS, bonds.len() / BOND_WORDS);
        // Words that are too few for a record stand for none.
        for (words, size, record) in [(&atoms, ATOM_WORDS, n), (&bonds, BOND_WORDS, n + m)] {
            if !words.chunks_exact(size).remainder().is_empty() {
                return Err(Error::BadTable(record));
            }
        }
        let graph = Graph { atoms, bonds };
        match graph.order() {
            Err(refusal @ (Error::AtomRoom(_) | Error::BondRoom(_) | Error::BadTable(_))) => Err(refusal),
            _ => Ok(graph),
        }
    }

    /// The words of the atoms and of the bond entries.
    pub fn words(&self) -> (&[u32], &[u32]) {
        (&self.atoms, &self.bonds)
    }

    /// How many atoms there are.
    pub fn len(&self) -> usize {
        self.atoms.len() / ATOM_WORDS
    }

    pub fn is_empty(&self) -> bool {
        self.atoms.is_empty()
    }

    /// The atoms, in their order.
    pub fn iter(&self) -> impl Iterator<Item = Atom<'_>> {
        let mut rest = &self.bonds[..];
        self.atoms.chunks_exact(ATOM_WORDS).map(move |record| {
            let (entries, after) = rest.split_at(record[DEGREE] as usize * BOND_WORDS);
            rest = after;
            Atom { kind: AtomKind::held([record[0], record[1]]), entries }
        })
    }

    /// An atom by its number. To look at all of them, `iter` is faster.
    pub fn atom(&self, id: usize) -> Option<Atom<'_>> {
        self.iter().nth(id)
    }

    /// Writes the graph. A line has at most 24 bytes for each atom and 4 for each bond entry. A graph that is written is
    /// simple: every bond leads to another atom, no two atoms have more than one, and each is held at both ends, of reversed
    /// kind. Where purr writes another graph, this refuses it.
    pub fn write(&self) -> Result<String, Error> {
        let (n, m) = (self.len(), self.bonds.len() / BOND_WORDS);
        let mut out = vec![0; 24 * n + 4 * m];
        let mut report = [0; 3];
        // As above.
        unsafe {
            mavisdrok_write(
                self.atoms.as_ptr(), self.atoms.len(), n, self.bonds.as_ptr(), self.bonds.len(), m, out.as_mut_ptr(),
                out.len(), report.as_mut_ptr(), report.len(),
            );
        }
        let (len, _) = told(report)?;
        out.truncate(len);
        Ok(String::from_utf8(out).expect("a line is ASCII"))
    }

    /// The order in which the atoms are written.
    pub fn order(&self) -> Result<Order, Error> {
        let (n, m) = (self.len(), self.bonds.len() / BOND_WORDS);
        let (mut walked, mut number, mut back) = (vec![0; n], vec![0; n], vec![0; n]);
        let mut report = [0; 3];
        // As above.
        unsafe {
            mavisdrok_order(
                self.atoms.as_ptr(), self.atoms.len(), n, self.bonds.as_ptr(), self.bonds.len(), m,
                walked.as_mut_ptr(), n, number.as_mut_ptr(), n, back.as_mut_ptr(), n, report.as_mut_ptr(), report.len(),
            );
        }
        told(report)?;
        Ok(Order { walked, number, back })
    }
}
