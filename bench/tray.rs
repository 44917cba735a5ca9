//! A plain program over purr that does what `label` does: each line of a tray read, walked and written. It is what one would
//! write at the desk with the Rust crate, with buffers for what is read and written.
//!
//!     tray make COUNT    drug-like lines with names
//!     tray FILE          NUMBER, a tab, the line as it is written, a tab, the name

use std::io::{BufRead, BufReader, BufWriter, Write};

use crate::graph::Builder;
use crate::read::read;
use crate::walk::walk;
use crate::write::Writer;

mod feature;
mod graph;
#[allow(dead_code)]
mod lines;
mod read;
mod walk;
mod write;

/// The bytes of each buffer, as many as `label` has.
const BUFFER: usize = 65536;
const SEED: u64 = 1;

fn rewrite(text: &str) -> Option<String> {
    let mut builder = Builder::new();
    read(text, &mut builder, None).ok()?;
    let mut writer = Writer::new();
    walk(builder.build().ok()?, &mut writer).ok()?;
    Some(writer.write())
}

fn answer(path: &str, out: &mut impl Write) -> std::io::Result<()> {
    let mut file = BufReader::with_capacity(BUFFER, std::fs::File::open(path)?);
    let mut line = String::new();
    while file.read_line(&mut line)? > 0 {
        let (text, name) = line.trim_end_matches('\n').split_once(' ').unwrap_or((line.trim_end(), ""));
        match rewrite(text) {
            Some(written) => writeln!(out, "0\t{written}\t{name}")?,
            None => writeln!(out, "2\t\t{name}")?,
        }
        line.clear();
    }
    Ok(())
}

fn main() -> std::io::Result<()> {
    let words: Vec<String> = std::env::args().skip(1).collect();
    let mut out = BufWriter::with_capacity(BUFFER, std::io::stdout());
    match words.as_slice() {
        [make, count] if make == "make" => {
            for (number, line) in lines::drugs(SEED, count.parse().unwrap_or(0)).iter().enumerate() {
                writeln!(out, "{line} vial {number}")?;
            }
        }
        [path] => answer(path, &mut out)?,
        _ => eprintln!("usage: tray make COUNT | tray FILE"),
    }
    out.flush()
}
