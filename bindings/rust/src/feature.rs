//! Kinds of atoms and bonds, and ring numbers, under purr's names.
use std::fmt;
use std::str::FromStr;

use crate::exports::{mavisdrok_read_atom, mavisdrok_spell_atom, mavisdrok_spell_bond, mavisdrok_spell_rnum};
use crate::error::told;
use crate::Error;

/// No text of an atom, a bond or a ring number is longer.
const LONGEST: usize = 21;

/// The numbers of docs/PACKING.md: the first of each sort of atom, the room of each field but the last of a word, and what
/// stands for none.
const BRACKET: u32 = 20;
const KINDS: u32 = 256;
const NUMBERS: u32 = 1001;
const CONFIGURATION_ROOM: u32 = 58;
const CHARGES: u32 = 32;
const NO_NUMBER: u32 = 1000;
const NO_HYDROGENS: u32 = 10;
const NO_CHARGE: u32 = 31;
const CHARGE_ZERO: i8 = 15;
const TH1: u32 = 1;
const TH2: u32 = 2;

/// The atoms without brackets, the first of which is 1.
const PLAIN: [&str; 19] =
    ["*", "B", "C", "N", "O", "S", "P", "F", "Cl", "Br", "I", "At", "Ts", "b", "c", "n", "o", "p", "s"];

/// The symbols of bracket atoms, in the order of a dictionary.
const SYMBOLS: [&str; 127] = [
    "*", "Ac", "Ag", "Al", "Am", "Ar", "As", "At", "Au", "B", "Ba", "Be", "Bh", "Bi", "Bk", "Br", "C", "Ca", "Cd",
    "Ce", "Cf", "Cl", "Cm", "Cn", "Co", "Cr", "Cs", "Cu", "Db", "Ds", "Dy", "Er", "Es", "Eu", "F", "Fe", "Fl", "Fm",
    "Fr", "Ga", "Gd", "Ge", "H", "He", "Hf", "Hg", "Ho", "Hs", "I", "In", "Ir", "K", "Kr", "La", "Li", "Lr", "Lu",
    "Lv", "Mc", "Md", "Mg", "Mn", "Mo", "Mt", "N", "Na", "Nb", "Nd", "Ne", "Nh", "Ni", "No", "Np", "O", "Og", "Os",
    "P", "Pa", "Pb", "Pd", "Pm", "Po", "Pr", "Pt", "Pu", "Ra", "Rb", "Re", "Rf", "Rg", "Rh", "Rn", "Ru", "S", "Sb",
    "Sc", "Se", "Sg", "Si", "Sm", "Sn", "Sr", "Ta", "Tb", "Tc", "Te", "Th", "Ti", "Tl", "Tm", "Ts", "U", "V", "W",
    "Xe", "Y", "Yb", "Zn", "Zr", "as", "b", "c", "n", "o", "p", "s", "se",
];

/// The configurations, the first of which is 1.
const CONFIGURATIONS: [&str; 57] = [
    "TH1", "TH2", "AL1", "AL2", "SP1", "SP2", "SP3", "TB1", "TB2", "TB3", "TB4", "TB5", "TB6", "TB7", "TB8", "TB9",
    "TB10", "TB11", "TB12", "TB13", "TB14", "TB15", "TB16", "TB17", "TB18", "TB19", "TB20", "OH1", "OH2", "OH3",
    "OH4", "OH5", "OH6", "OH7", "OH8", "OH9", "OH10", "OH11", "OH12", "OH13", "OH14", "OH15", "OH16", "OH17", "OH18",
    "OH19", "OH20", "OH21", "OH22", "OH23", "OH24", "OH25", "OH26", "OH27", "OH28", "OH29", "OH30",
];

/// The text that a call lays into the bytes that it is lent.
fn spelt(call: impl FnOnce(*mut u8, usize, *mut u64, usize)) -> Result<String, Error> {
    let mut out = [0; LONGEST];
    let mut report = [0; 3];
    call(out.as_mut_ptr(), out.len(), report.as_mut_ptr(), report.len());
    let (len, _) = told(report)?;
    Ok(out[..len].iter().map(|&byte| byte as char).collect())
}

/// A kind of atom: the two words that it has in a table (docs/PACKING.md).
#[derive(Clone, Copy, Debug, PartialEq, Eq, Hash)]
pub struct AtomKind {
    first: u32,
    second: u32,
}

impl AtomKind {
    /// The atom that a text begins with, and the place after it.
    pub fn read(text: &[u8]) -> Result<(AtomKind, usize), Error> {
        let mut kind = [0; 2];
        let mut report = [0; 3];
        // The slices are lent for the call alone, and it writes within them alone.
        unsafe {
            mavisdrok_read_atom(
                text.as_ptr(), text.len(), kind.as_mut_ptr(), kind.len(), report.as_mut_ptr(), report.len(),
            );
        }
        let (next, _) = told(report)?;
        Ok((AtomKind { first: kind[0], second: kind[1] }, next))
    }

    /// The kind that two words stand for.
    pub fn from_words(words: [u32; 2]) -> Result<AtomKind, Error> {
        let kind = AtomKind { first: words[0], second: words[1] };
        kind.text().map(|_| kind)
    }

    pub fn words(&self) -> [u32; 2] {
        [self.first, self.second]
    }

    /// The kind of words that the library has laid.
    pub(crate) fn held(words: [u32; 2]) -> AtomKind {
        AtomKind { first: words[0], second: words[1] }
    }

    /// Whether it is in brackets. What is not has no isotope, configuration, hydrogens, charge or map.
    pub fn is_bracket(&self) -> bool {
        self.first >= BRACKET
    }

    /// `*`, an element, or as, b, c, n, o, p, s or se where it is aromatic.
    pub fn symbol(&self) -> &'static str {
        match self.is_bracket() {
            true => SYMBOLS[(self.first % KINDS - BRACKET) as usize],
            false => PLAIN[self.first as usize - 1],
        }
    }

    pub fn is_aromatic(&self) -> bool {
        self.symbol().starts_with(|letter: char| letter.is_ascii_lowercase())
    }

    fn isotope_word(&self) -> u32 {
        self.first / KINDS % NUMBERS
    }

    fn configuration_word(&self) -> u32 {
        self.first / KINDS / NUMBERS % CONFIGURATION_ROOM
    }

    fn hydrogens_word(&self) -> u32 {
        self.first / KINDS / NUMBERS / CONFIGURATION_ROOM
    }

    /// A field of a bracket atom, where it is there.
    fn field(&self, word: u32, none: u32) -> Option<u32> {
        (self.is_bracket() && word != none).then_some(word)
    }

    pub fn isotope(&self) -> Option<u16> {
        self.field(self.isotope_word(), NO_NUMBER).map(|word| word as u16)
    }

    /// Its configuration by name: TH1 for `@`, TH2 for `@@`, AL1 to OH30 for the others.
    pub fn configuration(&self) -> Option<&'static str> {
        self.field(self.configuration_word(), 0).map(|word| CONFIGURATIONS[word as usize - 1])
    }

    /// The hydrogens within the brackets. None is not the same as 0, which is written `H0`.
    pub fn hydrogens(&self) -> Option<u8> {
        self.field(self.hydrogens_word(), NO_HYDROGENS).map(|word| word as u8)
    }

    /// The charge. None is not the same as 0, which only a table can hold.
    pub fn charge(&self) -> Option<i8> {
        self.field(self.second % CHARGES, NO_CHARGE).map(|word| word as i8 - CHARGE_ZERO)
    }

    pub fn map(&self) -> Option<u16> {
        self.field(self.second / CHARGES, NO_NUMBER).map(|word| word as u16)
    }

    /// The kind with its mark turned, as a walk turns it: `@` and `@@` where it bears hydrogen, nothing else.
    pub(crate) fn turned(self) -> AtomKind {
        let unit = KINDS * NUMBERS;
        let first = match (self.hydrogens(), self.configuration_word()) {
            (Some(1..), TH1) => self.first + unit,
            (Some(1..), TH2) => self.first - unit,
            _ => self.first,
        };
        AtomKind { first, ..self }
    }

    fn text(&self) -> Result<String, Error> {
        // As above.
        spelt(|out, len, report, words| unsafe {
            mavisdrok_spell_atom(out, len, self.first, self.second, report, words)
        })
    }
}

/// Of a text that is one atom and nothing else.
impl FromStr for AtomKind {
    type Err = Error;

    fn from_str(text: &str) -> Result<AtomKind, Error> {
        match AtomKind::read(text.as_bytes())? {
            (kind, next) if next == text.len() => Ok(kind),
            (_, next) => Err(Error::Character(next)),
        }
    }
}

impl fmt::Display for AtomKind {
    fn fmt(&self, f: &mut fmt::Formatter) -> fmt::Result {
        f.write_str(&self.text().map_err(|_| fmt::Error)?)
    }
}

/// A kind of bond, by its number in a table.
#[derive(Clone, Copy, Debug, PartialEq, Eq, Hash)]
pub enum BondKind {
    Elided = 1,
    Single,
    Double,
    Triple,
    Quadruple,
    Aromatic,
    Up,
    Down,
}

impl BondKind {
    const ALL: [BondKind; 8] = [
        BondKind::Elided, BondKind::Single, BondKind::Double, BondKind::Triple, BondKind::Quadruple, BondKind::Aromatic,
        BondKind::Up, BondKind::Down,
    ];
}

/// The kind of a number in a table.
impl TryFrom<u32> for BondKind {
    type Error = Error;

    fn try_from(number: u32) -> Result<BondKind, Error> {
        BondKind::ALL.into_iter().find(|kind| *kind as u32 == number).ok_or(Error::BadTable(0))
    }
}

impl fmt::Display for BondKind {
    fn fmt(&self, f: &mut fmt::Formatter) -> fmt::Result {
        // As above.
        let text = spelt(|out, len, report, words| unsafe {
            mavisdrok_spell_bond(out, len, *self as u32, report, words)
        });
        f.write_str(&text.map_err(|_| fmt::Error)?)
    }
}

/// A ring number: 0 to 99.
#[derive(Clone, Copy, Debug, PartialEq, Eq, Hash, PartialOrd, Ord)]
pub struct Rnum(u16);

impl Rnum {
    pub fn number(self) -> u16 {
        self.0
    }

    fn text(&self) -> Result<String, Error> {
        // As above.
        spelt(|out, len, report, words| unsafe { mavisdrok_spell_rnum(out, len, self.0.into(), report, words) })
    }
}

impl TryFrom<u16> for Rnum {
    type Error = Error;

    fn try_from(number: u16) -> Result<Rnum, Error> {
        let rnum = Rnum(number);
        rnum.text().map(|_| rnum)
    }
}

impl fmt::Display for Rnum {
    fn fmt(&self, f: &mut fmt::Formatter) -> fmt::Result {
        f.write_str(&self.text().map_err(|_| fmt::Error)?)
    }
}
