//! SMILES lines read, walked and written by a proved library: the read call, the write call and the walk order, and a builder
//! and a writer that are told event by event.
//!
//! ```
//! let graph = mavisdrok::read(b"C1CC[C@H]1F")?;
//! assert_eq!(graph.write()?, "C([C@@H](CC1)F)1");
//! assert_eq!(graph.order()?.walked, [0, 3, 2, 1, 4]);
//! let centre = graph.atom(3).unwrap();
//! assert_eq!((centre.kind.symbol(), centre.kind.configuration()), ("C", Some("TH2")));
//! assert_eq!(centre.bonds().map(|bond| bond.tid).collect::<Vec<_>>(), [2, 0, 4]);
//!
//! let refusal = mavisdrok::read(b"C)").unwrap_err();
//! assert_eq!(refusal, mavisdrok::Error::Character(1));
//! assert_eq!(refusal.to_string(), "2 Character: the character at place 1 cannot stand there");
//! # Ok::<(), Box<dyn std::error::Error>>(())
//! ```
//!
//! `read_into` and `Graph::walk` tell the events of a text and of a graph to a `Follower` of one's own.
//!
//! A call takes less than 256 KiB of stack: a line with 128 branches open takes 147 KiB on x86-64 and 192 on ARM, any other
//! line or call less than 40. A thread that is made with less stack than Rust's own 2 MiB has to leave that much. Too little
//! ends in a fault at the stack's guard page. Nothing else is asked of a caller: words that stand for nothing are refused by
//! name, and a refused event leaves the builder, the writer or the pool as it was.

mod error;
mod exports;
mod feature;
mod follower;
mod graph;
mod tell;

pub use error::Error;
pub use feature::{AtomKind, BondKind, Rnum};
pub use follower::{Builder, Follower, JoinPool, Writer};
pub use graph::{read, rewrite, Atom, Bond, Graph, Order, ATOMS, ATOM_WORDS, BONDS, BOND_WORDS};
pub use tell::read_into;

/// The version of the library that is linked.
pub fn version() -> &'static str {
    // The library holds it for as long as the program runs.
    unsafe { std::ffi::CStr::from_ptr(exports::mavisdrok_version()) }.to_str().expect("a version is ASCII")
}
