//! The events of a text and of a graph, told to a follower of one's own. The library says first whether there is anything to
//! refuse, so that a follower is told either nothing or everything. It has no call that hands out events: they are put
//! together here, out of its calls for atoms and ring numbers, and a test holds them to what the library reads and writes.
use crate::{graph::read, AtomKind, Bond, BondKind, Error, Follower, Graph, JoinPool, Rnum};

/// Reads a text and tells its events, as purr's `read` does: each atom as a root or an extension, each ring number as a join,
/// and each end of a branch as a pop of as many atoms as the branch has in a row.
///
/// A ring number that is never closed, or whose ends disagree, is no refusal here, nor is a mark that cannot be turned: a
/// `Builder` answers these.
///
/// ```
/// use mavisdrok::{read_into, Writer};
///
/// let mut writer = Writer::new();
/// read_into(b"CC(=O)N", &mut writer)?;
/// assert_eq!(writer.write(), "CC(=O)N");
/// # Ok::<(), mavisdrok::Error>(())
/// ```
pub fn read_into(text: &[u8], follower: &mut impl Follower) -> Result<(), Error> {
    let judged = match read(text) {
        Err(Error::Inversion(_)) => read_unmarked(text),
        answer => answer,
    };
    match judged {
        Ok(_) | Err(Error::Join(..) | Error::Rnum(_)) => Telling { text, at: 0 }.tell(follower),
        Err(refusal) => Err(refusal),
    }
}

/// The answer to a text with a plain atom for each of its bracket atoms: where a mark could not be turned, this judges the
/// rest. Places are those of the text itself.
fn read_unmarked(text: &[u8]) -> Result<Graph, Error> {
    let (mut unmarked, mut places) = (Vec::new(), Vec::new());
    let mut at = 0;
    while at < text.len() {
        let bracket = if text[at] == b'[' { AtomKind::read(&text[at..]).ok() } else { None };
        unmarked.push(if bracket.is_some() { b'C' } else { text[at] });
        places.push(at);
        at += bracket.map_or(1, |(_, len)| len);
    }
    read(&unmarked).map_err(|refusal| match refusal {
        Error::Character(place) => Error::Character(places[place]),
        Error::AtomRoom(place) => Error::AtomRoom(places[place]),
        Error::BondRoom(place) => Error::BondRoom(places[place]),
        Error::Nesting(place) => Error::Nesting(places[place]),
        refusal => refusal,
    })
}

/// A text that the library has read, and how far it was told.
struct Telling<'a> {
    text: &'a [u8],
    at: usize,
}

impl Telling<'_> {
    fn tell(&mut self, follower: &mut impl Follower) -> Result<(), Error> {
        // The atoms in a row since each branch that is open was opened.
        let mut rows = vec![0];
        let mut bond = None;
        while let Some(&byte) = self.text.get(self.at) {
            match byte {
                b'(' => {
                    rows.push(0);
                    bond = Some(BondKind::Elided);
                    self.at += 1;
                }
                b')' => {
                    follower.pop(rows.pop().unwrap_or(0))?;
                    bond = Some(BondKind::Elided);
                    self.at += 1;
                }
                b'.' => {
                    bond = None;
                    self.at += 1;
                }
                b'0'..=b'9' | b'%' => {
                    follower.join(bond.unwrap_or(BondKind::Elided), self.rnum()?)?;
                    bond = Some(BondKind::Elided);
                }
                _ if bond_kind(byte).is_some() => {
                    bond = bond_kind(byte);
                    self.at += 1;
                }
                _ => {
                    self.atom(bond, follower)?;
                    *rows.last_mut().expect("the first row is never closed") += 1;
                    bond = Some(BondKind::Elided);
                }
            }
        }
        Ok(())
    }

    fn atom(&mut self, bond: Option<BondKind>, follower: &mut impl Follower) -> Result<(), Error> {
        let (kind, len) = AtomKind::read(&self.text[self.at..])?;
        self.at += len;
        match bond {
            Some(bond) => follower.extend(bond, kind),
            None => follower.root(kind),
        }
    }

    /// A ring number: a digit, or a per cent sign and two.
    fn rnum(&mut self) -> Result<Rnum, Error> {
        let digits = match self.text[self.at] {
            b'%' => &self.text[self.at + 1..self.at + 3],
            _ => &self.text[self.at..self.at + 1],
        };
        self.at += if digits.len() == 1 { 1 } else { 3 };
        Rnum::try_from(digits.iter().fold(0, |number, digit| 10 * number + u16::from(digit - b'0')))
    }
}

fn bond_kind(byte: u8) -> Option<BondKind> {
    Some(match byte {
        b'-' => BondKind::Single,
        b'=' => BondKind::Double,
        b'#' => BondKind::Triple,
        b'$' => BondKind::Quadruple,
        b':' => BondKind::Aromatic,
        b'/' => BondKind::Up,
        b'\\' => BondKind::Down,
        _ => return None,
    })
}

/// A walk: what is left to do, the atoms back to the root, and the atoms that were met.
struct Walk<'a, F> {
    atoms: Vec<(AtomKind, Vec<Bond>)>,
    follower: &'a mut F,
    stack: Vec<(usize, Bond)>,
    chain: Vec<usize>,
    met: Vec<bool>,
    pool: JoinPool,
}

impl Graph {
    /// Walks the graph and tells its events, as purr's `walk` does: the line that a `Writer` makes of them is that of `write`,
    /// and what `write` refuses is refused.
    ///
    /// ```
    /// let graph = mavisdrok::read(b"C1CC[C@H]1F")?;
    /// let mut writer = mavisdrok::Writer::new();
    /// graph.walk(&mut writer)?;
    /// assert_eq!(writer.write(), graph.write()?);
    /// # Ok::<(), mavisdrok::Error>(())
    /// ```
    pub fn walk(&self, follower: &mut impl Follower) -> Result<(), Error> {
        let order = self.order()?;
        let atoms = self.iter().map(|atom| (atom.kind, atom.bonds().collect())).collect();
        let mut walk = Walk {
            atoms,
            follower,
            stack: Vec::new(),
            chain: Vec::new(),
            met: vec![false; self.len()],
            pool: JoinPool::new(),
        };
        for (id, &back) in order.back.iter().enumerate() {
            if back == 0 {
                walk.root(id, &order.back)?;
            }
        }
        Ok(())
    }
}

impl<F: Follower> Walk<'_, F> {
    /// An atom is met: its entries, but the one back, are to be done, the first of them first.
    fn meet(&mut self, id: usize, back: Option<usize>) {
        self.met[id] = true;
        self.chain.push(id);
        for (place, bond) in self.atoms[id].1.iter().enumerate().rev() {
            if Some(place) != back {
                self.stack.push((id, *bond));
            }
        }
    }

    /// A component, from its root. An atom's entry back is the one that the library names, at a place from 1.
    fn root(&mut self, id: usize, backs: &[u32]) -> Result<(), Error> {
        self.follower.root(self.atoms[id].0)?;
        self.chain.clear();
        self.meet(id, None);
        while let Some((sid, bond)) = self.stack.pop() {
            self.pop_to(sid)?;
            if self.met[bond.tid] {
                let rnum = self.pool.hit(sid as u32, bond.tid as u32)?;
                self.follower.join(bond.kind, rnum)?;
                continue;
            }
            let back = backs[bond.tid] as usize - 1;
            let kind = self.atoms[bond.tid].0;
            self.follower.extend(bond.kind, if back % 2 == 0 { kind.turned() } else { kind })?;
            self.meet(bond.tid, Some(back));
        }
        Ok(())
    }

    /// Back along the chain to an atom.
    fn pop_to(&mut self, id: usize) -> Result<(), Error> {
        let depth = self.chain.iter().rev().position(|&on| on == id).expect("a bond's source is on the chain");
        if depth > 0 {
            self.follower.pop(depth)?;
            self.chain.truncate(self.chain.len() - depth);
        }
        Ok(())
    }
}
