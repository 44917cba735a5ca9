// Stands in for purr's graph/error.rs, which was not supplied: the two variants
// are those that the Builder makes.

/// What can be wrong with the ring bonds of a graph under construction.
#[derive(Debug, PartialEq)]
pub enum Error {
    /// The two ends of a ring bond do not agree: closing atom, opening atom.
    Join(usize, usize),
    /// A ring bond was never closed: which of the joins, counted from 0.
    Rnum(usize),
}
