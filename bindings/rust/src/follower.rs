//! A builder, a writer and a pool, told event by event, under purr's names. Where purr panics, these answer a refusal, and a
//! refused event changes nothing.
use crate::exports::{
    mavisdrok_builder_build, mavisdrok_builder_extend, mavisdrok_builder_join, mavisdrok_builder_pop,
    mavisdrok_builder_root, mavisdrok_builder_start, mavisdrok_pool_hit, mavisdrok_writer_extend,
    mavisdrok_writer_join, mavisdrok_writer_pop, mavisdrok_writer_root,
};
use crate::error::told;
use crate::{AtomKind, BondKind, Error, Graph, Rnum, ATOMS, ATOM_WORDS, BONDS, BOND_WORDS};

/// The words of an entry in the making, of the open ring numbers and of a pool's table.
const ENTRY_WORDS: usize = 3;
const RINGS: usize = 100;
const PAIRS: usize = 300;

/// Which word of a builder's state counts the entries held.
const HELD: usize = 5;

/// The room that a writer begins with.
const LINE: usize = 256;

/// What can be told of a line, by `read_into`, by `Graph::walk` or by anyone. What a follower refuses ends the telling.
pub trait Follower {
    /// A first atom of a component.
    fn root(&mut self, root: AtomKind) -> Result<(), Error>;

    /// A new atom, bonded to the current one.
    fn extend(&mut self, bond_kind: BondKind, atom_kind: AtomKind) -> Result<(), Error>;

    /// A ring number at the current atom.
    fn join(&mut self, bond_kind: BondKind, rnum: Rnum) -> Result<(), Error>;

    /// So many atoms back.
    fn pop(&mut self, depth: usize) -> Result<(), Error>;
}

/// A `Follower` that builds a graph. Each event judges the whole state, so that its time grows with the atoms and bond entries
/// held; a line is read faster by `read`.
///
/// ```
/// use mavisdrok::{AtomKind, BondKind, Builder, Follower};
///
/// let star: AtomKind = "*".parse()?;
/// let mut builder = Builder::new();
/// builder.root(star)?;
/// builder.extend(BondKind::Double, star)?;
/// assert_eq!(builder.build()?.write()?, "*=*");
/// # Ok::<(), mavisdrok::Error>(())
/// ```
#[derive(Clone, Debug, PartialEq, Eq)]
pub struct Builder {
    atoms: Vec<u32>,
    entries: Vec<u32>,
    path: Vec<u32>,
    rings: Vec<u32>,
    state: [u64; 11],
}

impl Default for Builder {
    fn default() -> Builder {
        Builder::new()
    }
}

impl Builder {
    /// With room for the largest job.
    pub fn new() -> Builder {
        Builder::with_room(ATOMS, BONDS)
    }

    /// With room for so many atoms and bond entries, the largest job at most.
    pub fn with_room(atoms: usize, bonds: usize) -> Builder {
        let (places, slots) = (atoms.min(ATOMS), bonds.min(BONDS));
        let mut builder = Builder {
            atoms: vec![0; places * ATOM_WORDS],
            entries: vec![0; slots * ENTRY_WORDS],
            path: vec![0; places],
            rings: vec![0; RINGS],
            state: [0; 11],
        };
        let mut report = [0; 3];
        // The slices are lent for the call alone, and it writes within them alone.
        unsafe {
            mavisdrok_builder_start(
                builder.atoms.as_ptr(), builder.atoms.len(), builder.entries.as_ptr(), builder.entries.len(),
                builder.path.as_ptr(), builder.path.len(), builder.rings.as_mut_ptr(), RINGS,
                builder.state.as_mut_ptr(), builder.state.len(), report.as_mut_ptr(), report.len(),
            );
        }
        builder
    }

    /// The graph that was told.
    pub fn build(mut self) -> Result<Graph, Error> {
        let mut bonds = vec![0; self.state[HELD] as usize * BOND_WORDS];
        let mut report = [0; 3];
        // As above.
        unsafe {
            mavisdrok_builder_build(
                self.atoms.as_mut_ptr(), self.atoms.len(), bonds.as_mut_ptr(), bonds.len(), self.entries.as_ptr(),
                self.entries.len(), self.path.as_ptr(), self.path.len(), self.rings.as_ptr(), RINGS,
                self.state.as_ptr(), self.state.len(), report.as_mut_ptr(), report.len(),
            );
        }
        let (n, m) = told(report)?;
        Ok(Graph::held(self.atoms, n, bonds, m))
    }
}

impl Follower for Builder {
    fn root(&mut self, root: AtomKind) -> Result<(), Error> {
        let [first, second] = root.words();
        let mut report = [0; 3];
        // As above.
        unsafe {
            mavisdrok_builder_root(
                self.atoms.as_mut_ptr(), self.atoms.len(), self.entries.as_ptr(), self.entries.len(),
                self.path.as_mut_ptr(), self.path.len(), self.rings.as_ptr(), RINGS, self.state.as_mut_ptr(),
                self.state.len(), first, second, report.as_mut_ptr(), report.len(),
            );
        }
        told(report).map(|_| ())
    }

    fn extend(&mut self, bond_kind: BondKind, atom_kind: AtomKind) -> Result<(), Error> {
        let [first, second] = atom_kind.words();
        let mut report = [0; 3];
        // As above.
        unsafe {
            mavisdrok_builder_extend(
                self.atoms.as_mut_ptr(), self.atoms.len(), self.entries.as_mut_ptr(), self.entries.len(),
                self.path.as_mut_ptr(), self.path.len(), self.rings.as_ptr(), RINGS, self.state.as_mut_ptr(),
                self.state.len(), bond_kind as u32, first, second, report.as_mut_ptr(), report.len(),
            );
        }
        told(report).map(|_| ())
    }

    /// Kinds that do not agree are no refusal here: the build answers `Join`.
    fn join(&mut self, bond_kind: BondKind, rnum: Rnum) -> Result<(), Error> {
        let mut report = [0; 3];
        // As above.
        unsafe {
            mavisdrok_builder_join(
                self.atoms.as_ptr(), self.atoms.len(), self.entries.as_mut_ptr(), self.entries.len(),
                self.path.as_ptr(), self.path.len(), self.rings.as_mut_ptr(), RINGS, self.state.as_mut_ptr(),
                self.state.len(), bond_kind as u32, rnum.number().into(), report.as_mut_ptr(), report.len(),
            );
        }
        told(report).map(|_| ())
    }

    /// A pop beyond the path empties it.
    fn pop(&mut self, depth: usize) -> Result<(), Error> {
        let mut report = [0; 3];
        // As above.
        unsafe {
            mavisdrok_builder_pop(
                self.atoms.as_ptr(), self.atoms.len(), self.entries.as_ptr(), self.entries.len(), self.path.as_ptr(),
                self.path.len(), self.rings.as_ptr(), RINGS, self.state.as_mut_ptr(), self.state.len(), depth,
                report.as_mut_ptr(), report.len(),
            );
        }
        told(report).map(|_| ())
    }
}

/// A `Follower` that writes a line.
///
/// ```
/// use mavisdrok::{AtomKind, BondKind, Follower, Writer};
///
/// let star: AtomKind = "*".parse()?;
/// let mut writer = Writer::new();
/// writer.root(star)?;
/// writer.extend(BondKind::Double, star)?;
/// assert_eq!(writer.write(), "*=*");
/// # Ok::<(), mavisdrok::Error>(())
/// ```
#[derive(Clone, Debug, PartialEq, Eq)]
pub struct Writer {
    out: Vec<u8>,
    starts: Vec<u32>,
    state: [u64; 2],
    len: usize,
}

impl Default for Writer {
    fn default() -> Writer {
        Writer::new()
    }
}

impl Writer {
    pub fn new() -> Writer {
        Writer { out: vec![0; LINE], starts: vec![0; ATOMS], state: [0; 2], len: 0 }
    }

    /// The line that was told.
    pub fn write(self) -> String {
        self.out[..self.len].iter().map(|&byte| byte as char).collect()
    }

    /// An event. Where it finds too little room it changes nothing and says how much it needs: it is told again with that.
    fn tell(&mut self, event: impl Fn(&mut Writer, &mut [u64; 3])) -> Result<(), Error> {
        let mut report = [0; 3];
        event(self, &mut report);
        if let Err(Error::OutRoom(need)) = told(report) {
            self.out.resize(need.max(2 * self.out.len()), 0);
            event(self, &mut report);
        }
        self.len = told(report)?.0;
        Ok(())
    }
}

impl Follower for Writer {
    fn root(&mut self, root: AtomKind) -> Result<(), Error> {
        let [first, second] = root.words();
        // As above.
        self.tell(|w, report| unsafe {
            mavisdrok_writer_root(
                w.out.as_mut_ptr(), w.out.len(), w.starts.as_mut_ptr(), w.starts.len(), w.state.as_mut_ptr(),
                w.state.len(), first, second, report.as_mut_ptr(), report.len(),
            )
        })
    }

    fn extend(&mut self, bond_kind: BondKind, atom_kind: AtomKind) -> Result<(), Error> {
        let [first, second] = atom_kind.words();
        // As above.
        self.tell(|w, report| unsafe {
            mavisdrok_writer_extend(
                w.out.as_mut_ptr(), w.out.len(), w.starts.as_mut_ptr(), w.starts.len(), w.state.as_mut_ptr(),
                w.state.len(), bond_kind as u32, first, second, report.as_mut_ptr(), report.len(),
            )
        })
    }

    fn join(&mut self, bond_kind: BondKind, rnum: Rnum) -> Result<(), Error> {
        // As above.
        self.tell(|w, report| unsafe {
            mavisdrok_writer_join(
                w.out.as_mut_ptr(), w.out.len(), w.starts.as_mut_ptr(), w.starts.len(), w.state.as_mut_ptr(),
                w.state.len(), bond_kind as u32, rnum.number().into(), report.as_mut_ptr(), report.len(),
            )
        })
    }

    fn pop(&mut self, depth: usize) -> Result<(), Error> {
        // As above.
        self.tell(|w, report| unsafe {
            mavisdrok_writer_pop(
                w.out.as_mut_ptr(), w.out.len(), w.starts.as_mut_ptr(), w.starts.len(), w.state.as_mut_ptr(),
                w.state.len(), depth, report.as_mut_ptr(), report.len(),
            )
        })
    }
}

/// Ring numbers for pairs of atoms: the first call for a pair opens a number, the next closes it.
#[derive(Clone, Debug, PartialEq, Eq)]
pub struct JoinPool {
    pairs: Vec<u32>,
    state: [u64; 2],
}

impl Default for JoinPool {
    fn default() -> JoinPool {
        JoinPool::new()
    }
}

impl JoinPool {
    pub fn new() -> JoinPool {
        JoinPool { pairs: vec![0; PAIRS], state: [1, 0] }
    }

    pub fn hit(&mut self, sid: u32, tid: u32) -> Result<Rnum, Error> {
        let mut report = [0; 3];
        // As above.
        unsafe {
            mavisdrok_pool_hit(
                self.pairs.as_mut_ptr(), self.pairs.len(), self.state.as_mut_ptr(), self.state.len(), sid, tid,
                report.as_mut_ptr(), report.len(),
            );
        }
        let (number, _) = told(report)?;
        Rnum::try_from(number as u16)
    }
}
