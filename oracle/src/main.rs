//! The oracle: runs the Rust crate purr, unchanged, and prints its answers in
//! a plain text form. This file holds the commands; oracle/README.md describes
//! them and the form.

// Only `oracle/scale` sets `exports`.
#![allow(unknown_lints, unexpected_cfgs)]

mod answer;
mod caught;
mod differences;
mod form;
mod make;
mod model;
mod order;
mod random;
mod simple;
// The comparison with our exports, which the oracle alone does without.
#[cfg(exports)]
mod scale;

// purr's own modules: what the oracle does not use of them is no fault.
#[allow(dead_code, unused_imports)]
mod feature;
#[allow(dead_code, unused_imports)]
mod graph;
#[allow(dead_code, unused_imports)]
mod read;
#[allow(dead_code, unused_imports)]
mod walk;
#[allow(dead_code, unused_imports)]
mod write;

use std::fs::File;
use std::io::{self, BufRead, BufReader, BufWriter, Write};
use std::process;
use std::thread;

const USAGE: &str = "usage: oracle answer [FILE]
       oracle make [--requests] [--as OPERATION] NAME [ARGUMENT ..]
names: features | atoms SEED COUNT | short ALPHABET MAXLEN | lines SEED COUNT
       damaged SEED COUNT | bytes SEED COUNT | graphs SEED COUNT
       broken SEED COUNT | builder SEED COUNT | writer SEED COUNT
       pool SEED COUNT | rooms SEED COUNT";

/// purr's reader calls itself for every atom of a chain, so a long line needs
/// much more than the usual stack.
const STACK: usize = 1 << 30;

fn main() {
    let arguments: Vec<String> = std::env::args().skip(1).collect();

    caught::install_hook();

    let worker = thread::Builder::new()
        .stack_size(STACK)
        .spawn(move || run(&arguments))
        .expect("a thread for the work");

    process::exit(match worker.join() {
        Ok(Ok(true)) => 0,
        Ok(Ok(false)) => 1,
        Ok(Err(message)) => {
            eprintln!("oracle: {}", message);
            2
        }
        // The panic has been reported by the hook.
        Err(_) => 3,
    })
}

/// Runs the command. True if every request could be parsed.
fn run(arguments: &[String]) -> Result<bool, String> {
    let words: Vec<&str> = arguments.iter().map(String::as_str).collect();
    let mut output = BufWriter::new(io::stdout());

    let outcome = match words.as_slice() {
        ["answer"] => answer_all(io::stdin().lock(), &mut output),
        ["answer", file] => {
            let input = File::open(file).map_err(|error| format!("{}: {}", file, error))?;

            answer_all(BufReader::new(input), &mut output)
        }
        ["make", rest @ ..] => {
            let (only_requests, rest) = match rest {
                ["--requests", rest @ ..] => (true, rest),
                rest => (false, rest),
            };
            let requests = match rest {
                ["--as", operation, generator @ ..] => make::requests_as(operation, generator),
                generator => make::requests(generator),
            }
            .ok_or(USAGE)?;

            if only_requests {
                print_requests(requests, &mut output)
            } else {
                print_answers(requests, &mut output)
            }
        }
        #[cfg(exports)]
        ["scale", rest @ ..] => scale::run(rest).ok_or(scale::USAGE)?,
        _ => return Err(USAGE.to_string()),
    };

    outcome
        .and_then(|readable| output.flush().map(|()| readable))
        .map_err(|error| error.to_string())
}

fn answer_all(input: impl BufRead, output: &mut impl Write) -> io::Result<bool> {
    let mut readable = true;

    for line in input.split(b'\n') {
        let line = line?;
        let end = line
            .iter()
            .position(|&byte| byte == b'\t')
            .unwrap_or(line.len());

        readable &= print_answer(&line[..end], output)?;
    }

    Ok(readable)
}

fn print_answers(
    requests: impl Iterator<Item = String>,
    output: &mut impl Write,
) -> io::Result<bool> {
    let mut readable = true;

    for request in requests {
        readable &= print_answer(request.as_bytes(), output)?;
    }

    Ok(readable)
}

fn print_requests(
    requests: impl Iterator<Item = String>,
    output: &mut impl Write,
) -> io::Result<bool> {
    for request in requests {
        writeln!(output, "{}", request)?;
    }

    Ok(true)
}

// The request is echoed byte by byte, also where it is not even UTF-8. False
// if it cannot be parsed.
fn print_answer(request: &[u8], output: &mut impl Write) -> io::Result<bool> {
    let columns = std::str::from_utf8(request).ok().and_then(answer_columns);

    output.write_all(request)?;
    writeln!(output, "\t{}", columns.as_deref().unwrap_or("unreadable"))?;

    Ok(columns.is_some())
}

// What follows the request on its line: purr's answer and, where something
// else is meant, that.
fn answer_columns(request: &str) -> Option<String> {
    let rust = answer::answer(request)?;

    Some(match differences::meant(request, &rust) {
        Some(ours) => format!("{}\t{}", rust, ours),
        None => rust,
    })
}
