//! What a walk asks of the bonds of a graph, of the whole graph at once.

use crate::graph::Atom;

/// Whether each bond leads to another atom of the graph, no two of an atom lead to
/// the same one, and each is held at both ends as the other's reverse.
pub fn is_simple(graph: &[Atom]) -> bool {
    (0..graph.len()).all(|atom| is_simple_at(graph, atom))
}

fn is_simple_at(graph: &[Atom], atom: usize) -> bool {
    let bonds = &graph[atom].bonds;

    bonds.iter().enumerate().all(|(index, bond)| {
        bond.tid < graph.len()
            && bond.tid != atom
            && bonds[..index].iter().all(|other| other.tid != bond.tid)
            && graph[bond.tid]
                .bonds
                .iter()
                .any(|back| back.tid == atom && back.kind == bond.kind.reverse())
    })
}
