//! An independent walk, by the words of the project's scope, for the graphs at
//! which purr panics, writes 74 for 73 or does not look at the other end of a ring
//! bond. `differences.rs` holds it against purr's own answer wherever there is one.

use std::collections::HashMap;
use std::convert::TryFrom;

use crate::answer;
use crate::caught::caught;
use crate::feature::{AtomKind, Rnum};
use crate::form;
use crate::graph::{Atom, Bond};
use crate::order::Order;
use crate::walk::Follower;
use crate::write::Writer;

/// The Rnum that is meant for a number; made without purr's table for 73.
pub fn meant_rnum(number: u16) -> Rnum {
    match number {
        73 => Rnum::R73,
        _ => Rnum::try_from(number).expect("a ring number is at most 99"),
    }
}

/// The answer for a graph that is walked and written.
pub fn written(graph: &[Atom]) -> String {
    let mut writer = Writer::new();

    match walk(graph, &mut writer) {
        Ok(()) => answer::text_answer(&writer.write()),
        Err(refusal) => refusal,
    }
}

/// The answer for a graph whose walk order is asked for.
pub fn ordered(graph: &[Atom]) -> String {
    let mut order = Order::new(graph);

    match walk(graph, &mut order) {
        Ok(()) => answer::order_answer(graph.len(), order),
        Err(refusal) => refusal,
    }
}

/// An atom on the path, with its entries still ahead.
struct Place {
    atom: usize,
    /// The entry back to the atom before it on the path.
    back: Option<usize>,
    /// The next entry.
    next: usize,
}

struct Walk<'a, F> {
    graph: &'a [Atom],
    follower: &'a mut F,
    met: Vec<bool>,
    pool: Pool,
    path: Vec<Place>,
    /// How many atoms were left since the last event.
    left: usize,
}

/// Tells the follower a walk. The error is the refusal, as an answer.
pub fn walk<F: Follower>(graph: &[Atom], follower: &mut F) -> Result<(), String> {
    let mut walk = Walk {
        graph,
        follower,
        met: vec![false; graph.len()],
        pool: Pool::new(),
        path: Vec::new(),
        left: 0,
    };

    (0..graph.len()).try_for_each(|atom| walk.root(atom))
}

impl<F: Follower> Walk<'_, F> {
    fn root(&mut self, atom: usize) -> Result<(), String> {
        if self.met[atom] {
            return Ok(());
        }

        self.follower.root(copied(&self.graph[atom].kind));
        self.enter(atom, None);
        self.left = 0;

        while let Some(place) = self.path.last_mut() {
            let (source, index) = (place.atom, place.next);

            place.next += 1;

            match self.graph[source].bonds.get(index) {
                None => {
                    self.path.pop();
                    self.left += 1;
                }
                Some(_) if place.back == Some(index) => {}
                Some(bond) => self.follow(source, bond)?,
            }
        }

        Ok(())
    }

    fn enter(&mut self, atom: usize, back: Option<usize>) {
        self.met[atom] = true;
        self.path.push(Place {
            atom,
            back,
            next: 0,
        });
    }

    fn pop(&mut self) {
        if self.left > 0 {
            self.follower.pop(self.left);
            self.left = 0;
        }
    }

    fn follow(&mut self, source: usize, bond: &Bond) -> Result<(), String> {
        let target = bond.tid;

        if target >= self.graph.len() {
            return Err(format!("5 {} {}", source, target));
        }

        if target == source {
            return Err(format!("6 {}", source));
        }

        if self.met[target] {
            compare_ends(self.graph, source, bond)?;

            let number = self
                .pool
                .hit(source, target)
                .ok_or_else(|| format!("11 {} {}", source, target))?;

            self.pop();
            self.follower.join(bond.kind.clone(), meant_rnum(number));
        } else {
            let (kind, back) = entered(&self.graph[target], source, bond)?;

            self.pop();
            self.follower.extend(bond.kind.clone(), kind);
            self.enter(target, Some(back));
        }

        Ok(())
    }
}

/// A copy; purr's AtomKind is not Clone.
pub fn copied(kind: &AtomKind) -> AtomKind {
    form::parse_kind(&form::print_kind(kind)).expect("a kind as printed can be parsed")
}

/// Compares the two ends of a bond to an atom met before: each of the two atoms has
/// one entry for the other, of reversed kind. The error is the refusal, as an answer.
pub fn compare_ends(graph: &[Atom], source: usize, bond: &Bond) -> Result<(), String> {
    let target = bond.tid;
    let back = entries(graph, target, source);

    if back.is_empty() {
        return Err(format!("7 {} {}", source, target));
    }

    if back.len() > 1 || entries(graph, source, target).len() > 1 {
        return Err(format!("8 {} {}", source, target));
    }

    if back[0].kind != bond.kind.reverse() {
        return Err(format!("9 {} {}", target, source));
    }

    Ok(())
}

// The entries of an atom that lead to another.
fn entries(graph: &[Atom], atom: usize, other: usize) -> Vec<&Bond> {
    graph[atom]
        .bonds
        .iter()
        .filter(|entry| entry.tid == other)
        .collect()
}

// What a new atom is said as, and its entry back to the source.
fn entered(child: &Atom, source: usize, bond: &Bond) -> Result<(AtomKind, usize), String> {
    let target = bond.tid;
    let mut kind = copied(&child.kind);
    let mut found = None;

    for (index, _) in child
        .bonds
        .iter()
        .enumerate()
        .rev()
        .filter(|(_, entry)| entry.tid == source)
    {
        if index % 2 == 0 {
            caught(|| kind.invert_configuration()).map_err(|_| format!("10 {}", target))?;
        }

        if found.is_some() {
            return Err(format!("8 {} {}", source, target));
        }

        found = Some(index);
    }

    let back = found.ok_or_else(|| format!("7 {} {}", source, target))?;

    if child.bonds[back].kind == bond.kind.reverse() {
        Ok((kind, back))
    } else {
        Err(format!("9 {} {}", target, source))
    }
}

/// An independent model of purr's pool of ring numbers, which answers bare
/// numbers.
pub struct Pool {
    /// Wraps round like purr's, which is compiled without overflow checks.
    counter: u16,
    spare: Option<u16>,
    open: HashMap<(usize, usize), u16>,
}

impl Pool {
    pub fn new() -> Self {
        Self {
            counter: 1,
            spare: None,
            open: HashMap::new(),
        }
    }

    /// The ring number for a join of the pair, or None over 99, where purr
    /// panics.
    pub fn hit(&mut self, left: usize, right: usize) -> Option<u16> {
        let pair = (left.min(right), left.max(right));
        // purr takes a number before it knows whether it needs one. A closing
        // pair throws it away.
        let fresh = self.spare.take().unwrap_or_else(|| self.count());

        let number = match self.open.remove(&pair) {
            Some(number) => {
                self.spare = Some(number);
                number
            }
            None => {
                self.open.insert(pair, fresh);
                fresh
            }
        };

        Some(number).filter(|&number| number <= 99)
    }

    fn count(&mut self) -> u16 {
        let number = self.counter;

        self.counter = number.wrapping_add(1);
        number
    }
}
