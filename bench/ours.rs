//! Our exports, over tables and an output that are lent again for each line.

use crate::exports::{mavisdrok_read, mavisdrok_write};

const ATOM_WORDS: usize = 3;
const BOND_WORDS: usize = 2;
const ATOMS: usize = 1024;
const BONDS: usize = 2304;
/// More than any line that is measured needs.
const OUT: usize = 40_000;

/// How much is lent: as much as a line of this length can need (an atom has a byte, and two bond entries at most come with
/// a byte; an output of twice the line), or the largest tables.
#[derive(Clone, Copy)]
pub enum Room {
    Line,
    Largest,
}

pub struct Lent {
    atoms: Vec<u32>,
    bonds: Vec<u32>,
    out: Vec<u8>,
}

impl Lent {
    pub fn new() -> Lent {
        Lent { atoms: vec![0; ATOMS * ATOM_WORDS], bonds: vec![0; BONDS * BOND_WORDS], out: vec![0; OUT] }
    }

    fn sizes(line: &str, room: Room) -> (usize, usize, usize) {
        let (atoms, bonds, out) = match room {
            Room::Line => (line.len(), 2 * line.len(), 2 * line.len()),
            Room::Largest => (ATOMS, BONDS, OUT),
        };
        (atoms.min(ATOMS) * ATOM_WORDS, bonds.min(BONDS) * BOND_WORDS, out)
    }

    /// The numbers of atoms and bond entries.
    pub fn read(&mut self, line: &str, room: Room) -> (usize, usize) {
        let (atoms, bonds, _) = Lent::sizes(line, room);
        let mut report = [0u64; 3];
        unsafe {
            mavisdrok_read(
                line.as_ptr(), line.len(), self.atoms.as_mut_ptr(), atoms, self.bonds.as_mut_ptr(), bonds,
                report.as_mut_ptr(), report.len(),
            );
        }
        assert_eq!(report[0], 0, "{line}");
        (report[1] as usize, report[2] as usize)
    }

    pub fn rewrite(&mut self, line: &str, room: Room) -> &str {
        let (n, m) = self.read(line, room);
        let (atoms, bonds, out) = Lent::sizes(line, room);
        let mut report = [0u64; 3];
        unsafe {
            mavisdrok_write(
                self.atoms.as_ptr(), atoms, n, self.bonds.as_ptr(), bonds, m, self.out.as_mut_ptr(), out,
                report.as_mut_ptr(), report.len(),
            );
        }
        assert_eq!(report[0], 0, "{line}");
        std::str::from_utf8(&self.out[..report[1] as usize]).expect("a line is ASCII")
    }
}
