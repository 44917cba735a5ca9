//! The label program, run on files of lines. Each line gets a name, which has
//! to come back.

use std::fs;
use std::io;
use std::path::PathBuf;
use std::process::Command;

use crate::scale::compare;
use crate::scale::tally::Tally;
use crate::scale::{Line, Meant};

/// How many lines are handed over at a time.
const BATCH: usize = 20_000;

/// The names of the refusals that a line can get; `docs/LABEL.md`.
const NAMES: &[(&str, &str)] = &[
    ("1", "EndOfLine"),
    ("2", "Character"),
    ("3", "Join"),
    ("4", "Rnum"),
    ("6", "Loop"),
    ("8", "DuplicateBond"),
    ("10", "Inversion"),
    ("11", "RingNumbers"),
];

/// A command of the program, which part of a line's answers it tells and how.
struct Told {
    command: &'static str,
    kind: &'static str,
    meant: fn(&Line) -> &Meant,
    done: fn(&str) -> String,
}

const COMMANDS: &[Told] = &[
    Told {
        command: "rewrite",
        kind: "label rewrite",
        meant: |line| &line.written,
        done: |answer| compare::line_text(answer).expect("a line that is written"),
    },
    Told {
        command: "order",
        kind: "label order",
        meant: |line| &line.order,
        done: |answer| after_blanks(answer, 2).to_string(),
    },
    Told {
        command: "graph",
        kind: "label graph",
        meant: |line| &line.read,
        done: |answer| after_blanks(answer, 1).to_string(),
    },
];

fn after_blanks(text: &str, count: usize) -> &str {
    text.splitn(1 + count, ' ').last().unwrap_or_default()
}

pub struct Label {
    program: PathBuf,
    /// The file that the lines are handed over in.
    file: PathBuf,
    lines: Vec<Line>,
    named: usize,
}

impl Label {
    pub fn new(program: &str, folder: &str) -> Self {
        Self {
            program: PathBuf::from(program),
            file: PathBuf::from(folder).join("lines.smi"),
            lines: Vec::new(),
            named: 0,
        }
    }

    /// Takes a line, unless its text would end too early in a file.
    pub fn take(&mut self, line: Line, tally: &mut Tally) -> io::Result<()> {
        if line.text.iter().any(|byte| b" \t\n\r".contains(byte)) {
            return Ok(());
        }

        self.lines.push(line);

        if self.lines.len() < BATCH {
            return Ok(());
        }

        self.finish(tally)
    }

    /// Has all lines answered that were taken since the last time.
    pub fn finish(&mut self, tally: &mut Tally) -> io::Result<()> {
        let mut input = Vec::new();

        for (index, line) in self.lines.iter().enumerate() {
            input.extend_from_slice(&line.text);
            input.extend_from_slice(format!(" {}\n", self.name(index)).as_bytes());
        }

        fs::write(&self.file, input)?;

        for told in COMMANDS {
            self.compare(told, tally)?;
        }

        self.named += self.lines.len();
        self.lines.clear();

        Ok(())
    }

    fn name(&self, index: usize) -> String {
        format!("vial {}", self.named + index)
    }

    fn compare(&self, told: &Told, tally: &mut Tally) -> io::Result<()> {
        let output = Command::new(&self.program)
            .arg(told.command)
            .arg(&self.file)
            .output()?;
        let mut answers = output.stdout.split(|&byte| byte == b'\n');
        let mut refused = 0;

        for (index, line) in self.lines.iter().enumerate() {
            let meant = (told.meant)(line);
            let expected = format!("{}\t{}", told.answer(&meant.answer), self.name(index));
            let answer = answers.next().unwrap_or_default();
            let difference = Some(answer)
                .filter(|&answer| answer != expected.as_bytes())
                .map(|answer| format!("{}, meant {}", String::from_utf8_lossy(answer), expected));

            refused += usize::from(!compare::is_done(&meant.answer));
            tally.count(told.kind, meant.listed, difference, || line.request.clone());
        }

        let rest: Vec<&[u8]> = answers.collect();
        // Its last line counts; what comes before it, and after these counts, is about atoms that are not kept and about what
        // refused lines look like.
        let counted = format!("label: {} lines, {} refused", self.lines.len(), refused);
        let status = i32::from(refused > 0);
        let said = String::from_utf8_lossy(&output.stderr);
        let last = said.lines().last().unwrap_or_default();
        let is_counted = last == counted || last.starts_with(&(counted.clone() + ", "));
        let ends_well = rest == [b""] && is_counted && output.status.code() == Some(status);
        let difference = Some(last)
            .filter(|_| !ends_well)
            .map(|said| format!("{}, {}, meant {}, {}", said, output.status, counted, status));

        tally.count("label, its count of a file", false, difference, || {
            told.command.to_string()
        });
        Ok(())
    }
}

impl Told {
    // The number and what follows it, without the name.
    fn answer(&self, meant: &str) -> String {
        if compare::is_done(meant) {
            return format!("0\t{}", (self.done)(meant));
        }

        let (number, carried) = meant.split_once(' ').unwrap_or((meant, ""));
        let name = NAMES
            .iter()
            .find(|&&(other, _)| other == number)
            .expect("a refusal of a line")
            .1;

        match carried {
            "" => format!("{}\t{}", number, name),
            carried => format!("{}\t{} {}", number, name, carried),
        }
    }
}
