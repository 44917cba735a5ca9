//! The events of lines, as purr and as the crate of bindings/rust tell them to a follower: the lines are read from the standard
//! input, the first differences are printed, and then how many lines were compared. oracle/follower builds and runs it.
use std::io::{stdin, BufRead};
use std::panic::{catch_unwind, set_hook, AssertUnwindSafe};
use std::process::exit;

mod feature;
mod graph;
mod read;
mod simple;
mod walk;
mod write;

/// So many differences are shown.
const SHOWN: usize = 10;

/// What a follower was told, in words that are the same for both: atoms by their text, which both spell alike.
#[derive(Default)]
struct Notes(Vec<String>);

impl walk::Follower for Notes {
    fn root(&mut self, root: feature::AtomKind) {
        self.0.push(format!("root {root}"));
    }

    fn extend(&mut self, bond: feature::BondKind, atom: feature::AtomKind) {
        self.0.push(format!("extend {bond:?} {atom}"));
    }

    fn join(&mut self, bond: feature::BondKind, rnum: feature::Rnum) {
        self.0.push(format!("join {bond:?} {rnum:?}"));
    }

    fn pop(&mut self, depth: usize) {
        self.0.push(format!("pop {depth}"));
    }
}

impl mavisdrok::Follower for Notes {
    fn root(&mut self, root: mavisdrok::AtomKind) -> Result<(), mavisdrok::Error> {
        self.0.push(format!("root {root}"));
        Ok(())
    }

    fn extend(&mut self, bond: mavisdrok::BondKind, atom: mavisdrok::AtomKind) -> Result<(), mavisdrok::Error> {
        self.0.push(format!("extend {bond:?} {atom}"));
        Ok(())
    }

    fn join(&mut self, bond: mavisdrok::BondKind, rnum: mavisdrok::Rnum) -> Result<(), mavisdrok::Error> {
        self.0.push(format!("join {bond:?} R{}", rnum.number()));
        Ok(())
    }

    fn pop(&mut self, depth: usize) -> Result<(), mavisdrok::Error> {
        self.0.push(format!("pop {depth}"));
        Ok(())
    }
}

/// The events of a reading, or none where it is refused.
fn purr_reads(line: &str) -> Option<Vec<String>> {
    let mut notes = Notes::default();
    read::read(line, &mut notes, None).ok()?;
    Some(notes.0)
}

fn ours_reads(line: &str) -> Option<Vec<String>> {
    let mut notes = Notes::default();
    mavisdrok::read_into(line.as_bytes(), &mut notes).ok()?;
    Some(notes.0)
}

/// The events of a walk over what is read, or none where the line or the graph is refused; purr refuses some by a panic, and
/// does not refuse all that is not simple (docs/DIFFERENCES.md).
fn purr_walks(line: &str) -> Option<Vec<String>> {
    catch_unwind(AssertUnwindSafe(|| {
        let mut builder = graph::Builder::new();
        read::read(line, &mut builder, None).ok()?;
        let graph = builder.build().ok().filter(|graph| simple::is_simple(graph))?;
        let mut notes = Notes::default();
        walk::walk(graph, &mut notes).ok()?;
        Some(notes.0)
    }))
    .unwrap_or_default()
}

fn ours_walks(line: &str) -> Option<Vec<String>> {
    let mut notes = Notes::default();
    mavisdrok::read(line.as_bytes()).ok()?.walk(&mut notes).ok()?;
    Some(notes.0)
}

fn main() {
    set_hook(Box::new(|_| {}));
    let (mut compared, mut told, mut differences) = (0, 0, 0);
    for line in stdin().lock().lines() {
        let line = line.expect("a line of text");
        for (what, purr, ours) in
            [("read", purr_reads(&line), ours_reads(&line)), ("walk", purr_walks(&line), ours_walks(&line))]
        {
            compared += 1;
            told += usize::from(purr.is_some());
            if purr != ours {
                differences += 1;
                if differences <= SHOWN {
                    println!("{what} {line}\n  purr {purr:?}\n  ours {ours:?}");
                }
            }
        }
    }
    println!("{compared} readings and walks compared, {told} of them not refused, {differences} differ");
    exit(i32::from(differences > 0 || told == 0));
}
