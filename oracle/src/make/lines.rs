//! Random lines: valid ones with every feature of the language, and damaged
//! copies of such lines.

use crate::form;
use crate::make::atoms::{self, Care};
use crate::make::rings::{self, Hit, Rings};
use crate::random::Random;

const DEEPEST_BRANCH: usize = 10;

pub fn request(random: &mut Random) -> String {
    format!("read {}", form::print_text(&line(random)))
}

/// A tenth gets a doubtful bracket atom at its end instead of random damage,
/// which seldom goes so far into a line.
pub fn damaged_request(random: &mut Random) -> String {
    let line = line(random);
    let text = if random.one_in(10) {
        line + &atoms::bracket(random, Care::Loose)
    } else {
        atoms::damaged(random, &line)
    };

    format!("read {}", form::print_text(&text))
}

/// Bytes that need not be a text: a line of which a few are others, or others
/// only.
pub fn bytes_request(random: &mut Random) -> String {
    let mut bytes = line(random).into_bytes();

    if random.one_in(4) {
        bytes = vec![0; random.between(1, 8)];
        bytes.iter_mut().for_each(|byte| *byte = random.below(256) as u8);
    }

    for _ in 0..random.between(1, 3) {
        let place = random.below(bytes.len());

        bytes[place] = random.below(256) as u8;
    }

    format!("readbytes {}", form::print_bytes(&bytes))
}

fn line(random: &mut Random) -> String {
    let limit = if random.one_in(100) {
        random.between(200, 2000)
    } else {
        let most = random.between(1, 200);

        random.between(1, most)
    };
    let mut line = Line {
        random,
        text: String::new(),
        limit,
        atoms: 0,
        rings: Rings::default(),
    };

    line.chain(0);
    line.close_rings();

    line.text
}

/// A line under construction.
struct Line<'a> {
    random: &'a mut Random,
    text: String,
    /// The length from which on nothing but closings is added.
    limit: usize,
    atoms: usize,
    rings: Rings,
}

impl Line<'_> {
    fn chain(&mut self, depth: usize) {
        self.atom();

        while self.goes_on(depth) {
            match self.random.below(30) {
                0 => self.text.push('.'),
                1..=6 if depth < DEEPEST_BRANCH => {
                    self.branch(depth);
                    continue;
                }
                _ => self.bond(),
            }

            self.atom();
        }
    }

    fn goes_on(&mut self, depth: usize) -> bool {
        self.text.len() < self.limit && (depth == 0 || !self.random.one_in(4))
    }

    fn branch(&mut self, depth: usize) {
        self.text.push('(');

        if self.random.one_in(12) {
            self.text.push('.');
        } else {
            self.bond();
        }

        self.chain(depth + 1);
        self.text.push(')');
    }

    fn bond(&mut self) {
        let bond = rings::bond(self.random, 4);

        self.text.push_str(spelling(bond));
    }

    fn atom(&mut self) {
        self.bare_atom();

        while self.random.one_in(5) {
            if let Some(hit) = self.rings.hit(self.random, self.atoms) {
                self.join(hit);
            }
        }
    }

    fn bare_atom(&mut self) {
        self.atoms += 1;

        if self.random.one_in(3) {
            self.text
                .push_str(&atoms::bracket(self.random, Care::Valid));
        } else {
            self.text.push_str(atoms::organic(self.random));
        }
    }

    fn join(&mut self, (bond, number): Hit) {
        self.text.push_str(spelling(bond));

        if number < 10 && !self.random.one_in(10) {
            self.text.push_str(&number.to_string());
        } else {
            self.text.push_str(&format!("%{:02}", number));
        }
    }

    // One in fifty lines keeps what is open. The others close each ring, most
    // often at an atom of its own and away from where it was opened.
    fn close_rings(&mut self) {
        if self.rings.is_empty() || self.random.one_in(50) {
            return;
        }

        self.bare_atom();

        while let Some(hit) = self.rings.close_last(self.random) {
            if !self.random.one_in(6) {
                self.bare_atom();
            }

            self.join(hit);
        }
    }
}

// A bond as it is written in a line.
fn spelling(bond: &'static str) -> &'static str {
    match bond {
        "e" => "",
        _ => bond,
    }
}
