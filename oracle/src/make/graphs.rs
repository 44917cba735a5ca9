//! Random graphs: sound ones, and ones with something broken.

use crate::answer;
use crate::make::{atoms, rings};
use crate::random::Random;

pub fn request(random: &mut Random) -> String {
    format!("write {}", sound(random).text())
}

pub fn broken_request(random: &mut Random) -> String {
    let mut sketch = sound(random);

    if sketch.atoms.is_empty() {
        sketch.add(atoms::organic(random).to_string());
    }

    for _ in 0..random.between(1, 2) {
        sketch.damage(random);
    }

    format!("write {}", sketch.text())
}

/// A graph, sound or broken, and an output around the length of its line.
pub fn room_request(random: &mut Random) -> String {
    let request = if random.one_in(4) {
        broken_request(random)
    } else {
        request(random)
    };
    let graph = &request["write ".len()..];
    let line = answer::answer(&request).unwrap_or_default();
    let length = line
        .strip_prefix("0 ")
        .and_then(|rest| rest.split(' ').next())
        .and_then(|bytes| bytes.parse().ok())
        .unwrap_or(40);
    let room = match random.below(6) {
        0 => 0,
        1 => length.max(1) - 1,
        2 => length,
        3 => length + 1,
        4 => random.below(length + 1),
        _ => random.below(33_793),
    };

    format!("writein {} {}", room, graph)
}

/// A graph in the words of the form.
#[derive(Default)]
struct Sketch {
    atoms: Vec<Atom>,
}

struct Atom {
    kind: String,
    entries: Vec<Entry>,
}

/// A bond's name and its target.
type Entry = (&'static str, usize);

fn sound(random: &mut Random) -> Sketch {
    let mut sketch = Sketch::default();
    let (size, ring_count) = measures(random);
    let mut numbers: Vec<usize> = (0..size).collect();

    if random.one_in(2) {
        random.shuffle(&mut numbers);
    }

    for _ in 0..size {
        sketch.add(atoms::kind(random, 200));
    }

    for index in 1..size {
        // One in twelve begins a component.
        if !random.one_in(12) {
            let parent = earlier(random, index);

            sketch.connect(random, numbers[index], numbers[parent]);
        }
    }

    for _ in 0..ring_count {
        sketch.add_ring(random);
    }

    for atom in &mut sketch.atoms {
        random.shuffle(&mut atom.entries);
    }

    sketch
}

// How many atoms and how many rings. Some graphs have so many rings that purr
// comes near its last ring number or beyond it.
fn measures(random: &mut Random) -> (usize, usize) {
    if random.one_in(20) {
        (random.between(41, 300), random.between(0, 150))
    } else {
        let size = random.below(41);

        (size, random.below(1 + size / 3))
    }
}

// An atom made before: mostly a near one, which makes chains.
fn earlier(random: &mut Random, index: usize) -> usize {
    if random.one_in(6) {
        random.below(index)
    } else {
        index - 1 - random.below(index.min(3))
    }
}

impl Sketch {
    fn add(&mut self, kind: String) {
        self.atoms.push(Atom {
            kind,
            entries: Vec::new(),
        });
    }

    fn connect(&mut self, random: &mut Random, left: usize, right: usize) {
        let bond = rings::bond(random, 3);

        self.atoms[left].entries.push((bond, right));
        self.atoms[right].entries.push((rings::reverse(bond), left));
    }

    // Nothing if the two atoms chosen cannot have a bond more.
    fn add_ring(&mut self, random: &mut Random) {
        let left = random.below(self.atoms.len());
        let right = random.below(self.atoms.len());
        let bound = self.atoms[left]
            .entries
            .iter()
            .any(|&(_, target)| target == right);

        if left != right && !bound {
            self.connect(random, left, right);
        }
    }

    fn damage(&mut self, random: &mut Random) {
        let size = self.atoms.len();
        let atom = random.below(size);
        let any_bond = rings::bond(random, 2);

        match random.below(7) {
            0 => self.insert(random, atom, (any_bond, atom)),
            1 => {
                // No atom has this number.
                let target = size + [0, 1, 4_000_000_000][random.below(3)];

                self.insert(random, atom, (any_bond, target))
            }
            2 => {
                // A bond at one end only.
                let target = random.below(size);

                self.insert(random, atom, (any_bond, target))
            }
            change => self.change_entry(random, atom, change),
        }
    }

    fn insert(&mut self, random: &mut Random, atom: usize, entry: Entry) {
        let entries = &mut self.atoms[atom].entries;

        entries.insert(random.below(entries.len() + 1), entry);
    }

    // Nothing if the atom has no entries.
    fn change_entry(&mut self, random: &mut Random, atom: usize, change: usize) {
        let size = self.atoms.len();
        let any_bond = rings::bond(random, 1);

        if self.atoms[atom].entries.is_empty() {
            return;
        }

        let index = random.below(self.atoms[atom].entries.len());
        let entry = self.atoms[atom].entries[index];

        match change {
            3 => {
                self.atoms[atom].entries.remove(index);
            }
            4 => self.insert(random, atom, entry),
            5 => self.atoms[atom].entries[index].0 = any_bond,
            _ => self.atoms[atom].entries[index].1 = random.below(size),
        }
    }

    fn text(&self) -> String {
        self.atoms
            .iter()
            .map(Atom::text)
            .collect::<Vec<String>>()
            .join(";")
    }
}

impl Atom {
    fn text(&self) -> String {
        let mut text = self.kind.clone();

        for (bond, target) in &self.entries {
            text.push_str(&format!(" {}{}", bond, target));
        }

        text
    }
}
