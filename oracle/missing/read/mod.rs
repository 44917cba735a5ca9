// Stands in for purr's read/mod.rs, which was not supplied: written from the
// `use` lines of the other files. The reading functions are visible to the
// whole crate, because the oracle asks them one by one.

mod error;
mod missing_character;
mod read;
mod read_bond;
mod read_bracket;
mod read_charge;
mod read_configuration;
mod read_organic;
mod read_rnum;
mod read_symbol;
mod scanner;
mod trace;

pub use error::Error;
pub use read::read;
pub(crate) use read_bond::read_bond;
pub(crate) use read_bracket::read_bracket;
pub(crate) use read_organic::read_organic;
pub(crate) use read_rnum::read_rnum;
pub(crate) use scanner::Scanner;
pub use trace::Trace;

// Some of purr's files take these from here as functions, others go through
// the module of the same name; both work, since a module and a function may
// share a name.
use missing_character::missing_character;
use read_charge::read_charge;
use read_configuration::read_configuration;
use read_symbol::read_symbol;
