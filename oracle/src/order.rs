//! The order in which a walk meets the atoms. A Follower is not told which atom
//! an event is about, so it keeps track of the walk.

use crate::feature::{AtomKind, BondKind, Rnum};
use crate::graph::{Atom, Bond};
use crate::walk::Follower;

pub struct Order {
    /// The targets of each atom, in the order in which the walk takes them.
    targets: Vec<Vec<usize>>,
    /// How many of them the walk has taken.
    taken: Vec<usize>,
    visited: Vec<bool>,
    path: Vec<usize>,
    met: Vec<Met>,
    joins: Vec<(usize, Bond)>,
}

/// An atom that the walk has met.
struct Met {
    atom: usize,
    /// The place, from 1, of its entry back to the atom that it was reached from; 0
    /// for a root.
    #[cfg_attr(not(exports), allow(dead_code))]
    back: usize,
    /// Its text as it is written.
    text: String,
}

impl Order {
    pub fn new(graph: &[Atom]) -> Self {
        Self {
            targets: graph
                .iter()
                .map(|atom| atom.bonds.iter().map(|bond| bond.tid).collect())
                .collect(),
            taken: vec![0; graph.len()],
            visited: vec![false; graph.len()],
            path: Vec::new(),
            met: Vec::new(),
            joins: Vec::new(),
        }
    }

    /// The bonds that were given a ring number, each with its source, as the walk came
    /// to them.
    pub fn joins(&self) -> &[(usize, Bond)] {
        &self.joins
    }

    /// For each atom its number, its number in walk order and its text.
    pub fn text(self) -> String {
        self.met
            .iter()
            .enumerate()
            .map(|(number, met)| format!("{}:{}:{}", met.atom, number, met.text))
            .collect::<Vec<String>>()
            .join(";")
    }

    /// The atom of each number in walk order; of each atom that number, and the
    /// place of its entry back.
    #[cfg(exports)]
    pub fn tables(&self) -> [Vec<u32>; 3] {
        let size = self.met.len();
        let mut tables = [vec![0; size], vec![0; size], vec![0; size]];

        for (number, met) in self.met.iter().enumerate() {
            tables[0][number] = met.atom as u32;
            tables[1][met.atom] = number as u32;
            tables[2][met.atom] = met.back as u32;
        }

        tables
    }

    fn enter(&mut self, atom: usize, back: usize, kind: AtomKind) {
        self.visited[atom] = true;
        self.path.push(atom);
        self.met.push(Met {
            atom,
            back,
            text: kind.to_string(),
        });
    }

    fn head(&self) -> usize {
        *self.path.last().expect("the walk begins with a root")
    }

    fn next_target(&mut self) -> usize {
        let head = self.head();
        let target = self.targets[head][self.taken[head]];

        self.taken[head] += 1;
        target
    }
}

impl Follower for Order {
    fn root(&mut self, root: AtomKind) {
        // The walk begins each component at its lowest number.
        let atom = self
            .visited
            .iter()
            .position(|visited| !visited)
            .expect("a root is an atom not visited");

        self.path.clear();
        self.enter(atom, 0, root);
    }

    fn extend(&mut self, _: BondKind, atom_kind: AtomKind) {
        let parent = self.head();
        let child = self.next_target();
        let back = self.targets[child]
            .iter()
            .position(|&target| target == parent)
            .expect("a child has an entry back");

        // The walk does not go back to where it came from.
        self.targets[child].retain(|&target| target != parent);
        self.enter(child, 1 + back, atom_kind);
    }

    fn join(&mut self, bond_kind: BondKind, _: Rnum) {
        let source = self.head();
        let target = self.next_target();

        self.joins.push((source, Bond::new(bond_kind, target)));
    }

    fn pop(&mut self, depth: usize) {
        self.path.truncate(self.path.len() - depth);
    }
}
