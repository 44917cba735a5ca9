//! Where Mavisdrok is meant to answer something else than purr, and what: the
//! OURS column of a list. Each rule says why.

use std::cell::Cell;

use crate::answer;
use crate::caught::caught;
use crate::feature::{AtomKind, BondKind, Rnum};
use crate::form::{self, Event};
use crate::graph::{Atom, Builder};
use crate::model::{self, meant_rnum, Pool};
use crate::order::Order;
use crate::read;
use crate::simple::is_simple;
use crate::walk::{walk, Follower};

/// What is meant instead of purr's answer `rust`, if anything.
pub fn meant(request: &str, rust: &str) -> Option<String> {
    let (operation, arguments) = answer::split(request);
    let ours = match operation {
        "atom" => atom(&form::parse_text(arguments)?, rust),
        "rnum" => rnum(&form::parse_text(arguments)?),
        "spellrnum" if arguments == "73" => Some("%73".to_string()),
        "invert" => invert(rust),
        "read" => read(&form::parse_text(arguments)?, rust),
        "readbytes" => {
            let text = form::parse_latin(arguments)?;
            let plain = answer::graph_answer(answer::graph_of(&text));

            read(&text, &plain).map(|ours| answer::in_characters(&text, ours))
        }
        "rewrite" => rewrite(&form::parse_text(arguments)?, rust),
        "write" => Some(written(&form::parse_graph(arguments)?, rust)),
        "writein" => written_in(arguments, rust),
        "order" => Some(ordered(&form::parse_graph(arguments)?, rust)),
        "builder" => builder(arguments),
        "writer" => writer(arguments),
        "pool" => Some(pool(&form::parse_pairs(arguments)?)),
        _ => None,
    };

    // Rule 3, panics: something is meant in each one's place.
    assert!(ours.iter().all(|ours| !ours.starts_with("panic")));

    ours.filter(|ours| ours != rust)
}

// Rule 1, ring number 73. purr's conversion from a number makes 73 into R74, a
// slip in its table: %73 and %74 are one ring number when read, and no line is
// ever written with %73. Meant is that 73 is 73.

fn rnum(text: &str) -> Option<String> {
    text.strip_prefix("%73").map(|_| "rnum 73 3".to_string())
}

// purr cannot be made to read 73 as 73, but any other ring number does the
// same, if the line does not use it: the new text is as long, so every place
// stays where it was. None if no such number is left.
fn without_73(text: &str) -> Option<String> {
    if !text.contains("%73") {
        return Some(text.to_string());
    }

    (10..=72)
        .chain(75..=99)
        .map(|number| format!("%{}", number))
        .find(|spelling| !text.contains(spelling.as_str()))
        .map(|spelling| text.replace("%73", &spelling))
}

// Whether one of the rules about reading could be about the text.
fn is_special(text: &str) -> bool {
    text.contains("%73") || !text.is_ascii()
}

// A written line may have 73 in it only if purr's has %74 in its place.
fn hides_73(rust: &str) -> bool {
    rust.contains("%74")
}

fn graph_of(text: &str) -> Option<Result<Vec<Atom>, String>> {
    let outcome = answer::graph_of(&without_73(text)?);

    Some(outcome.map_err(|refusal| early(text, &refusal, "1", "2").unwrap_or(refusal)))
}

fn read(text: &str, rust: &str) -> Option<String> {
    let ours = if is_special(text) {
        answer::graph_answer(graph_of(text)?)
    } else {
        rust.to_string()
    };

    Some(if ours.starts_with("panic") {
        format!("10 {}", uninverted(&without_73(text)?))
    } else {
        ours
    })
}

// A Builder panics where an event finds no current atom, and where a mark
// cannot be inverted: the event is refused, by 18 or by 10 and the atom's number.
fn builder(arguments: &str) -> Option<String> {
    let ours = answer::builder(form::parse_events(arguments)?, meant_rnum);
    let events = form::parse_events(arguments)?;
    let index: usize = match ours.strip_prefix("panic ").and_then(|rest| rest.split(' ').next()) {
        Some(index) => index.parse().expect("an event of a Builder panics, its build never"),
        None => return Some(ours),
    };

    Some(if ours.contains("inversion") {
        format!("refused {} 10 {}", index, atoms_of(&events[..index]))
    } else {
        format!("refused {} 18", index)
    })
}

fn atoms_of(events: &[Event]) -> usize {
    let is_atom = |event: &&Event| matches!(event, Event::Root(..) | Event::Extend(..));

    events.iter().filter(is_atom).count()
}

// The number of the atom whose mark purr could not invert: reading panics
// there, so it is how many atoms the builder had taken before.
fn uninverted(text: &str) -> usize {
    let taken = Cell::new(0);
    let outcome = caught(|| {
        let mut counted = Counted {
            builder: Builder::new(),
            taken: &taken,
        };

        read::read(text, &mut counted, None).is_ok()
    });

    debug_assert!(outcome.is_err());

    taken.get()
}

/// Counts the atoms that a Builder has taken.
struct Counted<'a> {
    builder: Builder,
    taken: &'a Cell<usize>,
}

impl Counted<'_> {
    fn count(&self) {
        self.taken.set(self.taken.get() + 1)
    }
}

impl Follower for Counted<'_> {
    fn root(&mut self, root: AtomKind) {
        self.builder.root(root);
        self.count()
    }

    fn extend(&mut self, bond_kind: BondKind, atom_kind: AtomKind) {
        self.builder.extend(bond_kind, atom_kind);
        self.count()
    }

    fn join(&mut self, bond_kind: BondKind, rnum: Rnum) {
        self.builder.join(bond_kind, rnum)
    }

    fn pop(&mut self, depth: usize) {
        self.builder.pop(depth)
    }
}

fn rewrite(text: &str, rust: &str) -> Option<String> {
    match graph_of(text)? {
        Ok(graph) if is_special(text) => Some(model::written(&graph)),
        Ok(graph) => Some(written(&graph, rust)),
        Err(refusal) if refusal.starts_with("panic") => read(text, &refusal),
        Err(refusal) => Some(refusal),
    }
}

// What is meant for a graph that purr writes as `rust`.
fn written(graph: &[Atom], rust: &str) -> String {
    walked(graph, rust, model::written(graph))
}

// The same for the order of a walk.
fn ordered(graph: &[Atom], rust: &str) -> String {
    walked(graph, rust, model::ordered(graph))
}

// Rule 5, rings with one end. purr compares the two ends of a bond only where it
// leads to a new atom. Meant is that they are compared where it leads to an atom met
// before as well, before a ring number is asked for: the walk is refused at the first
// ring bond of purr's own walk whose ends do not agree, and nowhere else. Where purr
// comes to the end of a graph, that is so exactly if the graph is not simple.
//
// Elsewhere a walk is refused where purr panics, by 10 or by 11, and where purr's
// answer is kept, `ours`, the answer of the walk that is meant, has to be the same.
fn walked(graph: &[Atom], rust: &str, ours: String) -> String {
    let refusal = first_one_sided(graph);

    if rust.starts_with("0 ") {
        assert_eq!(refusal.is_none(), is_simple(graph), "what purr writes is simple, or refused");
    }

    if let Some(refusal) = refusal {
        assert_eq!(ours, refusal, "the model compares the ends of each ring bond");
    } else if !rust.starts_with("panic") && !hides_73(rust) {
        assert_eq!(ours, rust, "the model walks as purr does");
    }

    ours
}

// The refusal of the first ring bond of purr's walk whose ends do not agree, however
// that walk ends.
fn first_one_sided(graph: &[Atom]) -> Option<String> {
    let mut order = Order::new(graph);
    let copy = form::parse_graph(&form::print_graph(graph)).expect("a graph as printed");
    let _ = caught(|| walk(copy, &mut order));

    order
        .joins()
        .iter()
        .find_map(|(source, bond)| model::compare_ends(graph, *source, bond).err())
}

// An output that is too short is refused with the bytes that the line needs;
// purr has none that is.
fn written_in(arguments: &str, rust: &str) -> Option<String> {
    let (room, graph) = form::parse_room(arguments)?;
    let ours = written(&graph, rust);
    let bytes: Option<usize> = ours
        .strip_prefix("0 ")
        .and_then(|rest| rest.split(' ').next())
        .and_then(|bytes| bytes.parse().ok());

    Some(match bytes {
        Some(bytes) if room < bytes => format!("16 {}", bytes),
        _ => ours,
    })
}

// A Writer panics where a join finds no piece and where a pop takes all pieces
// or more: the event is refused, by 18 or by 19.
fn writer(arguments: &str) -> Option<String> {
    let ours = answer::writer(form::parse_events(arguments)?, meant_rnum);
    let index = match ours.strip_prefix("panic ").and_then(|rest| rest.split(' ').next()) {
        Some(index) => index,
        None => return Some(ours),
    };

    Some(if ours.contains("overpop") {
        format!("refused {} 19", index)
    } else {
        format!("refused {} 18", index)
    })
}

// By rules 1 and 3: the numbers as counted, and a refusal for a panic.
fn pool(pairs: &[(usize, usize)]) -> String {
    let mut pool = Pool::new();
    let mut numbers = Vec::new();

    for &(left, right) in pairs {
        match pool.hit(left, right) {
            Some(number) => numbers.push(number.to_string()),
            None => {
                numbers.push("refused".to_string());
                break;
            }
        }
    }

    answer::numbers(&numbers)
}

// Rule 2, a character that is not ASCII right after @TB or @OH. purr takes the
// character there before it judges it, so it names the place after it, or the
// end of the line. For an ASCII character this is kept; for any other the
// place meant is that of the character itself, because Mavisdrok reads bytes
// and would name a place inside the character.

fn atom(text: &str, rust: &str) -> Option<String> {
    early(text, rust, "end", "character")
}

// The answer with the place of the character, if `answer` is about such a
// character. `end` and `character` are the names of the two refusals.
fn early(text: &str, answer: &str, end: &str, character: &str) -> Option<String> {
    let late = if answer == end {
        text.len()
    } else {
        answer
            .strip_prefix(character)?
            .strip_prefix(' ')?
            .parse()
            .ok()?
    };
    let taken = text[..late]
        .chars()
        .next_back()
        .filter(|taken| !taken.is_ascii())?;
    let place = late - taken.len_utf8();
    let before = &text[..place];

    if before.ends_with("@TB") || before.ends_with("@OH") {
        Some(format!("{} {}", character, place))
    } else {
        None
    }
}

// Rule 3 again: a configuration that purr cannot invert is refused.
fn invert(rust: &str) -> Option<String> {
    Some("refused".to_string()).filter(|_| rust == "panic")
}
