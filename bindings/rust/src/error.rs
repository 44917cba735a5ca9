//! The desk's refusals.
use std::fmt;

/// A refusal, by the desk's name, with what it carries. The names are purr's where it has one.
#[derive(Clone, Copy, Debug, PartialEq, Eq, Hash)]
pub enum Error {
    EndOfLine,
    /// The place.
    Character(usize),
    /// The closing atom, then the opening one.
    Join(usize, usize),
    /// Which use of a ring number, from 0.
    Rnum(usize),
    /// An atom, and the target of its bond, which is no atom.
    UnknownTarget(usize, usize),
    /// An atom that is bonded to itself.
    Loop(usize),
    /// The source of a bond, and its target, which has no entry back. purr says it of new targets alone, not of ring bonds.
    HalfBond(usize, usize),
    /// Source, then target: one of the two has more than one entry for the other.
    DuplicateBond(usize, usize),
    /// Target, then source: their two entries for each other do not match.
    IncompatibleBond(usize, usize),
    Inversion(usize),
    RingNumbers(usize, usize),
    /// The length.
    TextTooLong(usize),
    /// The place, or the atoms held.
    AtomRoom(usize),
    /// The place, or the atoms held.
    BondRoom(usize),
    /// The place.
    Nesting(usize),
    /// The bytes needed.
    OutRoom(usize),
    /// The first record that stands for nothing: atoms first, then bond entries.
    BadTable(usize),
    NoAtom,
    /// A pop of as many pieces as are held, or more.
    Overpop,
}

impl Error {
    /// The desk's number.
    pub fn number(&self) -> u64 {
        match self {
            Error::EndOfLine => 1,
            Error::Character(_) => 2,
            Error::Join(..) => 3,
            Error::Rnum(_) => 4,
            Error::UnknownTarget(..) => 5,
            Error::Loop(_) => 6,
            Error::HalfBond(..) => 7,
            Error::DuplicateBond(..) => 8,
            Error::IncompatibleBond(..) => 9,
            Error::Inversion(_) => 10,
            Error::RingNumbers(..) => 11,
            Error::TextTooLong(_) => 12,
            Error::AtomRoom(_) => 13,
            Error::BondRoom(_) => 14,
            Error::Nesting(_) => 15,
            Error::OutRoom(_) => 16,
            Error::BadTable(_) => 17,
            Error::NoAtom => 18,
            Error::Overpop => 19,
        }
    }

    /// The desk's name.
    pub fn name(&self) -> &'static str {
        match self {
            Error::EndOfLine => "EndOfLine",
            Error::Character(_) => "Character",
            Error::Join(..) => "Join",
            Error::Rnum(_) => "Rnum",
            Error::UnknownTarget(..) => "UnknownTarget",
            Error::Loop(_) => "Loop",
            Error::HalfBond(..) => "HalfBond",
            Error::DuplicateBond(..) => "DuplicateBond",
            Error::IncompatibleBond(..) => "IncompatibleBond",
            Error::Inversion(_) => "Inversion",
            Error::RingNumbers(..) => "RingNumbers",
            Error::TextTooLong(_) => "TextTooLong",
            Error::AtomRoom(_) => "AtomRoom",
            Error::BondRoom(_) => "BondRoom",
            Error::Nesting(_) => "Nesting",
            Error::OutRoom(_) => "OutRoom",
            Error::BadTable(_) => "BadTable",
            Error::NoAtom => "NoAtom",
            Error::Overpop => "Overpop",
        }
    }
}

/// The number, the name and what it means: `2 Character: the character at place 1 cannot stand there`.
impl fmt::Display for Error {
    fn fmt(&self, f: &mut fmt::Formatter) -> fmt::Result {
        write!(f, "{} {}: ", self.number(), self.name())?;
        match self {
            Error::EndOfLine => write!(f, "the text ends where more has to follow"),
            Error::Character(place) => write!(f, "the character at place {place} cannot stand there"),
            Error::Join(a, b) => write!(f, "the two ends of the ring bond between atoms {a} and {b} disagree"),
            Error::Rnum(join) => write!(f, "a ring number is opened and never closed: the use numbered {join}"),
            Error::UnknownTarget(a, b) => write!(f, "atom {a} is bonded to atom {b}, which is not there"),
            Error::Loop(a) => write!(f, "atom {a} is bonded to itself"),
            Error::HalfBond(a, b) => write!(f, "atom {a} is bonded to atom {b}, and {b} not to {a}"),
            Error::DuplicateBond(a, b) => write!(f, "atoms {a} and {b} are bonded twice"),
            Error::IncompatibleBond(a, b) => write!(f, "the bond between atoms {a} and {b} has ends that disagree"),
            Error::Inversion(a) => {
                write!(f, "atom {a} bears hydrogen, so its mark had to be turned, and only @ and @@ can be")
            }
            Error::RingNumbers(a, b) => write!(f, "the ring bond between atoms {a} and {b} needs a number above 99"),
            Error::TextTooLong(len) => write!(f, "the text has {len} bytes: 8192 are the most"),
            Error::AtomRoom(at) => write!(f, "one atom too many for the room, at {at}"),
            Error::BondRoom(at) => write!(f, "one bond too many for the room, at {at}"),
            Error::Nesting(place) => write!(f, "one branch too many at place {place}: 128 may be open at once"),
            Error::OutRoom(need) => write!(f, "the output is too small: {need} bytes are needed"),
            Error::BadTable(record) => write!(f, "record {record} stands for nothing"),
            Error::NoAtom => write!(f, "there is no atom to bond to"),
            Error::Overpop => write!(f, "a pop of as many atoms as are held, or more"),
        }
    }
}

impl std::error::Error for Error {}

/// The values that 0 carries, or the refusal that a report tells of.
pub(crate) fn told(report: [u64; 3]) -> Result<(usize, usize), Error> {
    let (a, b) = (report[1] as usize, report[2] as usize);
    Err(match report[0] {
        0 => return Ok((a, b)),
        1 => Error::EndOfLine,
        2 => Error::Character(a),
        3 => Error::Join(a, b),
        4 => Error::Rnum(a),
        5 => Error::UnknownTarget(a, b),
        6 => Error::Loop(a),
        7 => Error::HalfBond(a, b),
        8 => Error::DuplicateBond(a, b),
        9 => Error::IncompatibleBond(a, b),
        10 => Error::Inversion(a),
        11 => Error::RingNumbers(a, b),
        12 => Error::TextTooLong(a),
        13 => Error::AtomRoom(a),
        14 => Error::BondRoom(a),
        15 => Error::Nesting(a),
        16 => Error::OutRoom(a),
        17 => Error::BadTable(a),
        18 => Error::NoAtom,
        19 => Error::Overpop,
        // The library has no other answer; an archive that does is not of this version.
        number => panic!("the library answered {number}, which names nothing"),
    })
}
