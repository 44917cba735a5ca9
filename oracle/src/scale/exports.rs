//! Our exports, called as bindings/c/mavisdrok.h declares them. What is lent is
//! filled with something else first, and has cells behind it that no call may
//! touch.

use crate::scale::declared::{mavisdrok_order, mavisdrok_read, mavisdrok_write};

/// The desk's number and the two values that it carries.
pub const REPORT_WORDS: usize = 3;

const FILL: u8 = 0xA5;
const GUARD: usize = 8;

/// Cells that are lent to a call.
pub struct Lent<T> {
    cells: Vec<T>,
    len: usize,
}

impl<T: Copy + PartialEq + From<u8>> Lent<T> {
    pub fn new(len: usize) -> Self {
        Self {
            cells: vec![T::from(FILL); len + GUARD],
            len,
        }
    }

    pub fn cells(&self) -> &[T] {
        &self.cells[..self.len]
    }

    /// Whether the cells are these and then zeros, and those behind them are
    /// untouched.
    pub fn holds(&self, first: &[T]) -> bool {
        let (lent, behind) = self.cells.split_at(self.len);

        first.len() <= self.len
            && lent[..first.len()] == *first
            && lent[first.len()..].iter().all(|&cell| cell == T::from(0))
            && behind.iter().all(|&cell| cell == T::from(FILL))
    }

    fn lend(&mut self) -> (*mut T, usize) {
        (self.cells.as_mut_ptr(), self.len)
    }
}

/// A graph as it is handed in: the words of its tables, and how many atoms and
/// bond entries are to be taken from them.
pub struct Tables {
    pub atoms: Vec<u32>,
    pub n: usize,
    pub bonds: Vec<u32>,
    pub m: usize,
}

pub struct Read {
    pub report: Lent<u64>,
    pub atoms: Lent<u32>,
    pub bonds: Lent<u32>,
}

pub struct Written {
    pub report: Lent<u64>,
    pub out: Lent<u8>,
}

pub struct Ordered {
    pub report: Lent<u64>,
    pub walked: Lent<u32>,
    pub number: Lent<u32>,
    pub back: Lent<u32>,
}

/// Reads into tables of so many words.
pub fn read(text: &[u8], atoms: usize, bonds: usize) -> Read {
    let mut lent = Read {
        report: Lent::new(REPORT_WORDS),
        atoms: Lent::new(atoms),
        bonds: Lent::new(bonds),
    };
    let (report, report_len) = lent.report.lend();
    let (atoms, atoms_len) = lent.atoms.lend();
    let (bonds, bonds_len) = lent.bonds.lend();

    // What is lent outlives the call, here and below.
    unsafe {
        mavisdrok_read(
            text.as_ptr(),
            text.len(),
            atoms,
            atoms_len,
            bonds,
            bonds_len,
            report,
            report_len,
        );
    }

    lent
}

/// Writes into an output of so many bytes.
pub fn write(graph: &Tables, out: usize) -> Written {
    let mut lent = Written {
        report: Lent::new(REPORT_WORDS),
        out: Lent::new(out),
    };
    let (report, report_len) = lent.report.lend();
    let (out, out_len) = lent.out.lend();

    unsafe {
        mavisdrok_write(
            graph.atoms.as_ptr(),
            graph.atoms.len(),
            graph.n,
            graph.bonds.as_ptr(),
            graph.bonds.len(),
            graph.m,
            out,
            out_len,
            report,
            report_len,
        );
    }

    lent
}

/// The walk order, in tables of so many words each.
pub fn order(graph: &Tables, words: usize) -> Ordered {
    let mut lent = Ordered {
        report: Lent::new(REPORT_WORDS),
        walked: Lent::new(words),
        number: Lent::new(words),
        back: Lent::new(words),
    };
    let (report, report_len) = lent.report.lend();
    let (walked, walked_len) = lent.walked.lend();
    let (number, number_len) = lent.number.lend();
    let (back, back_len) = lent.back.lend();

    unsafe {
        mavisdrok_order(
            graph.atoms.as_ptr(),
            graph.atoms.len(),
            graph.n,
            graph.bonds.as_ptr(),
            graph.bonds.len(),
            graph.m,
            walked,
            walked_len,
            number,
            number_len,
            back,
            back_len,
            report,
            report_len,
        );
    }

    lent
}
