// Stands in for purr's write/mod.rs, which was not supplied.

mod writer;

pub use writer::Writer;
