//! Random ring bonds, for lines and for events: which number is hit next and
//! with which bond, so that most rings are closed, and closed well.

use crate::form::BONDS;
use crate::random::Random;

/// One hit: a bond, by its name in the form, and a ring number.
pub type Hit = (&'static str, usize);

/// The rings that have been opened and not closed.
#[derive(Default)]
pub struct Rings {
    opens: Vec<Open>,
}

struct Open {
    bond: &'static str,
    number: usize,
    /// How many atoms there were.
    atoms: usize,
}

impl Rings {
    /// Opens a ring or closes one, after so many atoms. None if the number
    /// chosen is one that had better not be closed yet.
    pub fn hit(&mut self, random: &mut Random, atoms: usize) -> Option<Hit> {
        let number = if !self.opens.is_empty() && random.one_in(2) {
            self.opens[random.below(self.opens.len())].number
        } else {
            number(random)
        };

        match self.opens.iter().position(|open| open.number == number) {
            Some(index) if self.is_far(index, atoms) || random.one_in(20) => {
                Some(self.close(index, random))
            }
            Some(_) => None,
            None => Some(self.open(number, random, atoms)),
        }
    }

    pub fn is_empty(&self) -> bool {
        self.opens.is_empty()
    }

    /// Closes a ring that is still open, if there is one.
    pub fn close_last(&mut self, random: &mut Random) -> Option<Hit> {
        let last = self.opens.len().checked_sub(1)?;

        Some(self.close(last, random))
    }

    // A ring of two atoms or of one is read, but its graph cannot be written.
    fn is_far(&self, index: usize, atoms: usize) -> bool {
        atoms > self.opens[index].atoms + 1
    }

    fn open(&mut self, number: usize, random: &mut Random, atoms: usize) -> Hit {
        let bond = bond(random, 4);

        self.opens.push(Open {
            bond,
            number,
            atoms,
        });

        (bond, number)
    }

    fn close(&mut self, index: usize, random: &mut Random) -> Hit {
        let open = self.opens.swap_remove(index);

        (closing_bond(open.bond, random), open.number)
    }
}

/// A bond by its name; one in `rarity` is not elided.
pub fn bond(random: &mut Random, rarity: usize) -> &'static str {
    if random.one_in(rarity) {
        random.pick(BONDS)
    } else {
        "e"
    }
}

/// The name of a bond as seen from its other end.
pub fn reverse(bond: &'static str) -> &'static str {
    match bond {
        "/" => "\\",
        "\\" => "/",
        _ => bond,
    }
}

// One in sixty does not fit.
fn closing_bond(opening: &'static str, random: &mut Random) -> &'static str {
    if random.one_in(60) {
        random.pick(BONDS)
    } else if opening == "e" {
        bond(random, 6)
    } else {
        random.pick(&["e", reverse(opening)])
    }
}

// Mostly small, so that numbers are used again. 73 and 74 come often enough to
// meet, because purr takes them for one.
fn number(random: &mut Random) -> usize {
    match random.below(24) {
        0 => random.between(73, 74),
        1..=4 => random.between(10, 99),
        5 => 0,
        _ => random.between(1, 9),
    }
}
