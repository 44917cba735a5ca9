// Stands in for purr's read/error.rs, which was not supplied: the two variants
// are those that the reading functions make.

/// What can be wrong with a text. The number counts characters, not bytes.
#[derive(Debug, PartialEq)]
pub enum Error {
    EndOfLine,
    Character(usize),
}
