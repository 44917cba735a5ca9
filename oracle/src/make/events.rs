//! Random calls on a Builder, a Writer and a JoinPool: mostly sensible, now and
//! then wild.

use crate::make::atoms;
use crate::make::rings::{self, Hit, Rings};
use crate::random::Random;

pub fn builder_request(random: &mut Random) -> String {
    format!("builder {}", events(random))
}

pub fn writer_request(random: &mut Random) -> String {
    format!("writer {}", events(random))
}

fn events(random: &mut Random) -> String {
    let length = if random.one_in(20) {
        random.between(25, 200)
    } else {
        random.below(25)
    };
    let wild = random.one_in(6);
    let mut calls = Calls {
        random,
        wild,
        events: Vec::new(),
        depth: 0,
        atoms: 0,
        rings: Rings::default(),
    };

    for _ in 0..length {
        calls.add();
    }

    calls.close_rings();
    calls.events.join(";")
}

/// A sequence of calls under construction.
struct Calls<'a> {
    random: &'a mut Random,
    /// Whether calls may come that the Follower is not made for.
    wild: bool,
    events: Vec<String>,
    /// The length of the Follower's path.
    depth: usize,
    atoms: usize,
    rings: Rings,
}

impl Calls<'_> {
    fn add(&mut self) {
        let headless = self.depth == 0 && !(self.wild && self.random.one_in(3));

        match self.random.below(12) {
            0 => self.root(),
            _ if headless => self.root(),
            1..=6 => self.extend(),
            7..=9 => {
                if let Some(hit) = self.rings.hit(self.random, self.atoms) {
                    self.join(hit)
                }
            }
            _ => self.pop(),
        }
    }

    fn root(&mut self) {
        self.events
            .push(format!("r{}", atoms::kind(self.random, 200)));
        self.depth += 1;
        self.atoms += 1;
    }

    fn extend(&mut self) {
        let bond = rings::bond(self.random, 3);

        self.events
            .push(format!("x{}{}", bond, atoms::kind(self.random, 200)));
        self.depth += 1;
        self.atoms += 1;
    }

    fn join(&mut self, (bond, number): Hit) {
        self.events.push(format!("j{}{}", bond, number));
    }

    // A sensible pop leaves at least one atom on the path.
    fn pop(&mut self) {
        let limit = if self.wild {
            self.depth + 3
        } else {
            self.depth
        };
        let depth = self.random.below(limit);

        self.events.push(format!("p{}", depth));
        self.depth = self.depth.saturating_sub(depth);
    }

    // Most sequences close what they opened, or a Builder would seldom build.
    fn close_rings(&mut self) {
        if self.random.one_in(10) {
            return;
        }

        while let Some(hit) = self.rings.close_last(self.random) {
            if self.random.one_in(2) {
                self.extend();
            }

            self.join(hit);
        }
    }
}

/// Some sequences are so long that purr comes near its last ring number or
/// beyond it.
pub fn pool_request(random: &mut Random) -> String {
    let (length, openings) = if random.one_in(6) {
        (random.between(60, 250), 2)
    } else {
        (random.below(25), 1)
    };
    let mut open: Vec<(usize, usize)> = Vec::new();
    let mut pairs = Vec::new();

    for _ in 0..length {
        let pair = if !open.is_empty() && random.below(openings + 1) == 0 {
            closing_pair(random, &open)
        } else {
            (random.below(40), random.below(40))
        };

        toggle(&mut open, pair);
        pairs.push(format!("{}-{}", pair.0, pair.1));
    }

    format!("pool {}", pairs.join(","))
}

// One of the open pairs, in either order.
fn closing_pair(random: &mut Random, open: &[(usize, usize)]) -> (usize, usize) {
    let (left, right) = open[random.below(open.len())];

    if random.one_in(2) {
        (left, right)
    } else {
        (right, left)
    }
}

fn toggle(open: &mut Vec<(usize, usize)>, pair: (usize, usize)) {
    let (left, right) = pair;

    match open
        .iter()
        .position(|&known| known == pair || known == (right, left))
    {
        Some(index) => {
            open.swap_remove(index);
        }
        None => open.push(pair),
    }
}
