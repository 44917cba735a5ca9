//! How fast lines are read, walked and written: our exports beside purr, in one program, on the same lines. Each figure is
//! the least of several rounds, taken in turns and in the processor's time, so that what else the machine does touches
//! neither, or both alike.
//!
//!     speed                        all rows
//!     speed row NAME               the drug-like lines alone, under a name
//!     speed pass WHO LINES TIMES   no figure: WHO, purr or ours, rewrites the lines so many times, for a counter of
//!                                  instructions; prints their bytes

use std::hint::black_box;

use crate::graph::{Atom, Builder};
use crate::read::read;
use crate::walk::walk;
use crate::write::Writer;

mod exports;
mod feature;
mod graph;
mod lines;
mod ours;
mod read;
mod walk;
mod write;

use ours::{Lent, Room};

/// Rounds of each measurement, and the bytes that one round has to pass through at least.
const ROUNDS: usize = 9;
const BYTES: usize = 400_000;

fn purr_read(line: &str) -> Vec<Atom> {
    let mut builder = Builder::new();
    read(line, &mut builder, None).expect("a line that reads");
    builder.build().expect("a line that builds")
}

fn purr_rewrite(line: &str) -> String {
    let mut writer = Writer::new();
    walk(purr_read(line), &mut writer).expect("a graph that is walked");
    writer.write()
}

extern "C" {
    /// The processor's time, in microseconds.
    fn clock() -> std::os::raw::c_long;
}

fn microseconds() -> i64 {
    unsafe { clock() as i64 }
}

/// Nanoseconds a byte that `work` takes for all lines, once.
fn once(lines: &[String], mut work: impl FnMut(&str)) -> f64 {
    let bytes: usize = lines.iter().map(String::len).sum();
    let times = 1.max(BYTES / bytes);
    let start = microseconds();
    for _ in 0..times {
        for line in lines {
            work(line);
        }
    }
    (microseconds() - start) as f64 * 1000.0 / (times * bytes) as f64
}

/// purr's and our time for reading, and for reading, walking and writing.
#[derive(Clone, Copy)]
struct Times {
    read: (f64, f64),
    all: (f64, f64),
}

fn measure(lines: &[String], room: Room) -> Times {
    let mut lent = Lent::new();
    for line in lines {
        assert_eq!(purr_rewrite(line), lent.rewrite(line, room), "{line}");
    }
    let mut least = Times { read: (f64::MAX, f64::MAX), all: (f64::MAX, f64::MAX) };
    for _ in 0..ROUNDS {
        least.read.0 = least.read.0.min(once(lines, |l| drop(black_box(purr_read(l)))));
        least.read.1 = least.read.1.min(once(lines, |l| drop(black_box(lent.read(l, room)))));
        least.all.0 = least.all.0.min(once(lines, |l| drop(black_box(purr_rewrite(l)))));
        least.all.1 = least.all.1.min(once(lines, |l| drop(black_box(lent.rewrite(l, room)))));
    }
    least
}

fn row(name: &str, lines: &[String], room: Room) -> Times {
    let t = measure(lines, room);
    println!(
        "{name:<34} {:8.2} {:8.2} {:6.1}    {:8.2} {:8.2} {:6.1}",
        t.read.0, t.read.1, t.read.0 / t.read.1, t.all.0, t.all.1, t.all.0 / t.all.1
    );
    t
}

fn growth(name: &str, make: impl Fn(usize) -> String, lengths: &[usize]) {
    let mut all = Vec::new();
    for &length in lengths {
        let line = make(length);
        let times = row(&format!("  {name}, {} bytes", line.len()), &[line], Room::Line);
        all.push(times.all.1);
    }
    let (least, most) = all.iter().fold((f64::MAX, 0f64), |(a, b), &t| (a.min(t), b.max(t)));
    println!("  {name}: from the least to the most a byte: {:.2}; the last to the first: {:.2}", most / least, all[all.len() - 1] / all[0]);
}

/// So many drug-like lines are measured, and so many are enough to count instructions.
const DRUGS: usize = 10_000;
const FEW_DRUGS: usize = 1_000;

fn heading() {
    println!("nanoseconds a byte                    read                         read, walk and write");
    println!("{:<34} {:>8} {:>8} {:>6}    {:>8} {:>8} {:>6}", "", "purr", "ours", "ratio", "purr", "ours", "ratio");
}

fn all() {
    heading();
    let drugs = lines::drugs(1, DRUGS);
    row("10,000 drug-like lines", &drugs, Room::Line);
    row("the same, the largest tables", &drugs, Room::Largest);
    row("real short lines", &lines::real(), Room::Line);
    row("a chain of 1,000 bytes", &[lines::chain(1_000)], Room::Line);
    row("a peptide of 7,000 bytes", &[lines::peptide(7_000)], Room::Line);
    println!("growth with length");
    growth("chain", lines::chain, &[80, 160, 320, 640, 1_000]);
    growth("drug-like", lines::drug_of, &[80, 160, 320, 640, 1_280]);
    growth("peptide", lines::peptide, &[80, 160, 320, 640, 1_280, 2_560, 5_120, 7_000]);
}

/// One of the two at work, and nothing else.
fn pass(who: &str, which: &str, times: usize) {
    let lines = match which {
        "drugs" => lines::drugs(1, FEW_DRUGS),
        "real" => lines::real(),
        "chain" => vec![lines::chain(1_000)],
        _ => vec![lines::peptide(7_000)],
    };
    let mut lent = Lent::new();
    for _ in 0..times {
        for line in &lines {
            match who {
                "purr" => drop(black_box(purr_rewrite(line))),
                _ => drop(black_box(lent.rewrite(line, Room::Line))),
            }
        }
    }
    println!("{}", lines.iter().map(String::len).sum::<usize>());
}

fn main() {
    let words: Vec<String> = std::env::args().skip(1).collect();
    match words.iter().map(String::as_str).collect::<Vec<_>>()[..] {
        [] => all(),
        ["row", name] => drop(row(name, &lines::drugs(1, DRUGS), Room::Line)),
        ["pass", who, which, times] => pass(who, which, times.parse().expect("a number")),
        _ => panic!("speed [row NAME | pass WHO LINES TIMES]"),
    }
}
