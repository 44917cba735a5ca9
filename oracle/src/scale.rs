//! The comparison at scale: our exports and the label program beside purr, on
//! random lines and graphs, and the round trip. It is part of the oracle only if
//! that is linked with the library of exports, as the script oracle/scale does.

mod check;
mod compare;
// All exports as bindings/rust declares them, of which three are called here.
#[allow(dead_code)]
mod declared;
mod exports;
mod label;
mod room;
mod tally;
mod trip;
mod words;

use std::fs;
use std::io;

use crate::answer;
use crate::differences;
use crate::form;
use crate::graph::Atom;
use crate::make;
use crate::random::Random;
use compare::Walk;
use exports::Tables;
use label::Label;
use tally::Tally;
use trip::Trips;
use words::{Names, ATOM_WORDS, BOND_WORDS};

pub const USAGE: &str = "usage: oracle scale SEED LINES GRAPHS LABEL FOLDER [CORPUS ..]";

/// The largest tables, in words.
const LARGEST: (usize, usize) = (1024 * ATOM_WORDS, 2304 * BOND_WORDS);

/// One in so many is done once more with little room.
const LITTLE: usize = 4;

/// The answer that is meant, and whether it is another than purr's.
#[derive(Clone)]
pub struct Meant {
    pub answer: String,
    pub listed: bool,
}

/// A line, and what is meant for it: read, written and walked.
pub struct Line {
    pub request: String,
    pub text: Vec<u8>,
    pub read: Meant,
    pub written: Meant,
    pub order: Meant,
}

struct Scale {
    random: Random,
    names: Names,
    label: Label,
    tally: Tally,
    trips: Trips,
}

/// Runs the whole comparison. True if nothing differs. None if an argument is
/// wrong.
pub fn run(words: &[&str]) -> Option<io::Result<bool>> {
    match words {
        [seed, lines, graphs, label, folder, corpora @ ..] => {
            let scale = Scale {
                random: Random::new(form::parse_number(seed)?),
                names: Names::new(),
                label: Label::new(label, folder),
                tally: Tally::new(),
                trips: Trips::default(),
            };

            Some(scale.run(
                seed,
                form::parse_number(lines)?,
                form::parse_number(graphs)?,
                corpora,
            ))
        }
        _ => None,
    }
}

impl Scale {
    fn run(
        mut self,
        seed: &str,
        lines: usize,
        graphs: usize,
        corpora: &[&str],
    ) -> io::Result<bool> {
        check::run(&self.names, &mut self.label)?;

        for corpus in corpora {
            let requests = corpus_requests(&fs::read_to_string(corpus)?);

            self.lines("corpora", requests.into_iter())?;
        }

        // Half of the lines are valid, a quarter each is damaged or bytes.
        for (generator, count) in &[
            ("lines", lines - lines / 2),
            ("damaged", lines / 2 - lines / 4),
            ("bytes", lines / 4),
        ] {
            self.lines(generator, made(generator, seed, *count))?;
        }

        for (generator, count) in &[("graphs", graphs - graphs / 2), ("broken", graphs / 2)] {
            for request in made(generator, seed, *count) {
                self.graph(generator, &request);
            }
        }

        self.tally.print();
        println!();
        self.trips.print();

        Ok(self.tally.differ() == 0)
    }

    fn lines(&mut self, kind: &str, requests: impl Iterator<Item = String>) -> io::Result<()> {
        for request in requests {
            let line = Line::new(request);

            self.line(kind, &line);
            self.label.take(line, &mut self.tally)?;
        }

        self.label.finish(&mut self.tally)
    }

    fn line(&mut self, kind: &str, line: &Line) {
        let shown = || line.request.clone();
        let difference = compare::read(&self.names, &line.text, LARGEST, &line.read.answer);

        self.tally.count(
            &format!("read {}", kind),
            line.read.listed,
            difference,
            shown,
        );

        if let Some(graph) = graph_read(&line.read) {
            let tables = self.names.tables(&graph);

            if self.random.one_in(LITTLE) {
                self.read_in_little(line, &tables);
            }

            self.rewrite(kind, line);
            self.trips.take(kind, graph, &self.names, &mut self.tally);
        }
    }

    // A line that is read, into tables from empty to just enough.
    fn read_in_little(&mut self, line: &Line, tables: &Tables) {
        let room = (
            self.random.below(ATOM_WORDS * (tables.n + 1)),
            self.random.below(BOND_WORDS * (tables.m + 1)),
        );
        let text = std::str::from_utf8(&line.text).expect("a line that is read is ASCII");
        let refusal = room::refusal(text, room);
        let meant = refusal.as_ref().unwrap_or(&line.read.answer);
        let difference = compare::read(&self.names, &line.text, room, meant);
        let shown = || format!("{:?} {}", room, line.request);

        self.tally.count(
            "read into little room",
            refusal.is_some(),
            difference,
            shown,
        );
    }

    // The tables that our reading leaves are handed on, with the zeros after them.
    fn rewrite(&mut self, kind: &str, line: &Line) {
        let read = exports::read(&line.text, LARGEST.0, LARGEST.1);
        let tables = Tables {
            atoms: read.atoms.cells().to_vec(),
            n: read.report.cells()[1] as usize,
            bonds: read.bonds.cells().to_vec(),
            m: read.report.cells()[2] as usize,
        };
        let walk = walk_of(&line.order.answer, graph_read(&line.read));
        let shown = || line.request.clone();
        let written = compare::write(&tables, trip::longest(&tables), &line.written.answer);
        let ordered = compare::order(&tables, tables.n, &line.order.answer, &walk);

        self.tally.count(
            &format!("rewrite {}", kind),
            line.written.listed,
            written,
            shown,
        );
        self.tally.count(
            &format!("order of {}", kind),
            line.order.listed,
            ordered,
            shown,
        );
    }

    fn graph(&mut self, kind: &str, request: &str) {
        let text = answer::split(request).1;
        let graph = || form::parse_graph(text).expect("a generator's graph can be parsed");
        let shown = || text.to_string();
        let written = meant(request);
        let ordered = meant(&format!("order {}", text));
        let walk = walk_of(&ordered.answer, Some(graph()));
        let mut tables = self.names.tables(&graph());

        if self.random.one_in(LITTLE) {
            self.graph_in_little(text, &written, &ordered);
        }

        // Words after those that count say nothing.
        tables
            .atoms
            .resize(tables.atoms.len() + self.random.below(4), 7);
        tables
            .bonds
            .resize(tables.bonds.len() + self.random.below(4), 7);

        let room = trip::longest(&tables) + self.random.below(40);
        let difference = compare::write(&tables, room, &written.answer);

        self.tally.count(
            &format!("write {}", kind),
            written.listed,
            difference,
            shown,
        );

        let room = tables.n + self.random.below(9);
        let difference = compare::order(&tables, room, &ordered.answer, &walk);

        self.tally.count(
            &format!("order of {}", kind),
            ordered.listed,
            difference,
            shown,
        );
        self.trips.take(kind, graph(), &self.names, &mut self.tally);
    }

    // The graph handed in with a table that may be too short for its counts, and
    // written and walked in little room.
    fn graph_in_little(&mut self, text: &str, written: &Meant, ordered: &Meant) {
        let graph = form::parse_graph(text).expect("a generator's graph can be parsed");
        let mut tables = self.names.tables(&graph);

        match self.random.below(3) {
            0 => tables
                .atoms
                .truncate(self.random.below(tables.atoms.len() + 1)),
            1 => tables
                .bonds
                .truncate(self.random.below(tables.bonds.len() + 1)),
            _ => (),
        }

        self.write_in_little(text, &tables, &written.answer);
        self.order_in_little(text, &tables, &ordered.answer);
    }

    fn write_in_little(&mut self, text: &str, tables: &Tables, answer: &str) {
        let needed = compare::line_text(answer).map_or(0, |line| line.len());
        let room = self.random.below(needed + 2);
        let meant = room::written(tables, room, answer);
        let difference = compare::write(tables, room, &meant);
        let shown = || format!("{} {}", room, text);

        self.tally
            .count("write into little room", meant != answer, difference, shown);
    }

    fn order_in_little(&mut self, text: &str, tables: &Tables, answer: &str) {
        let room = self.random.below(tables.n + 2);
        let meant = room::ordered(tables, room, answer);
        let walk = walk_of(&meant, form::parse_graph(text));
        let difference = compare::order(tables, room, &meant, &walk);
        let shown = || format!("{} {}", room, text);

        self.tally
            .count("order in little room", meant != answer, difference, shown);
    }
}

impl Line {
    pub fn new(request: String) -> Self {
        let text = form::parse_bytes(answer::split(&request).1).expect("a generator's text");
        let read = meant(&request);
        let of_graph = |operation| match compare::graph_text(&read.answer) {
            Some(graph) => {
                let told = meant(&format!("{} {}", operation, graph));

                Meant {
                    listed: told.listed || read.listed,
                    ..told
                }
            }
            None => read.clone(),
        };

        Self {
            written: of_graph("write"),
            order: of_graph("order"),
            text,
            read,
            request,
        }
    }
}

fn meant(request: &str) -> Meant {
    let rust = answer::answer(request).expect("a generator's request can be parsed");

    match differences::meant(request, &rust) {
        Some(answer) => Meant {
            answer,
            listed: true,
        },
        None => Meant {
            answer: rust,
            listed: false,
        },
    }
}

fn made(generator: &str, seed: &str, count: usize) -> impl Iterator<Item = String> {
    make::requests(&[generator, seed, &count.to_string()]).expect("a generator of the oracle's")
}

fn graph_read(read: &Meant) -> Option<Vec<Atom>> {
    compare::graph_text(&read.answer).and_then(form::parse_graph)
}

// purr's own walk; empty tables where a refusal is meant.
fn walk_of(meant: &str, graph: Option<Vec<Atom>>) -> Walk {
    graph
        .filter(|_| compare::is_done(meant))
        .and_then(|graph| answer::order_of(graph).ok())
        .map(|order| order.tables())
        .unwrap_or_default()
}

// The requests of a list to read or rewrite a text, or a tray's texts.
fn corpus_requests(corpus: &str) -> Vec<String> {
    let text = |line: &str| {
        let (first, rest) = line.split_once(|c| c == ' ' || c == '\t')?;

        match first {
            "read" | "rewrite" => rest.split('\t').next().map(str::to_string),
            _ if line.contains('\t') => None,
            _ => Some(form::print_text(first)),
        }
    };

    corpus
        .lines()
        .filter_map(text)
        .map(|text| format!("read {}", text))
        .collect()
}
