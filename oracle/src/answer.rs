//! purr's answer to each request. The RUST column of a list is what `answer`
//! returns; the other public functions serve the differences as well.

use std::cell::Cell;
use std::convert::TryFrom;

use crate::caught::caught;
use crate::feature::{AtomKind, BondKind, Rnum};
use crate::form::{self, Event};
use crate::graph::{self, reconcile, Atom, Builder, JoinPool};
use crate::order::Order;
use crate::read::{self, read, read_bond, read_bracket, read_organic, read_rnum, Scanner};
use crate::walk::{self, walk, Follower};
use crate::write::Writer;

/// The operation of a request and its arguments. An argument may be the empty
/// string, so the blank may be missing as well.
pub fn split(request: &str) -> (&str, &str) {
    request.split_once(' ').unwrap_or((request, ""))
}

/// purr's answer to the request, or None if it cannot be parsed.
pub fn answer(request: &str) -> Option<String> {
    let (operation, arguments) = split(request);

    Some(match operation {
        "atom" => atom(&form::parse_text(arguments)?),
        "rnum" => rnum(&form::parse_text(arguments)?),
        "bond" => bond(&form::parse_text(arguments)?),
        "spell" => form::print_text(&form::parse_kind(arguments)?.to_string()),
        "spellrnum" => {
            form::print_text(&purr_rnum(form::parse_ring_number(arguments)?).to_string())
        }
        "spellbond" => form::print_text(&form::parse_bond(arguments)?.to_string()),
        "invert" => invert(form::parse_kind(arguments)?),
        "targets" => targets(&form::parse_kind(arguments)?),
        "aromatic" => yes_or_no(form::parse_kind(arguments)?.is_aromatic()),
        "reverse" => form::print_bond(&form::parse_bond(arguments)?.reverse()).to_string(),
        "reconcile" => {
            let (left, right) = arguments.split_once(' ')?;

            reconciled(form::parse_bond(left)?, form::parse_bond(right)?)
        }
        "read" => graph_answer(graph_of(&form::parse_text(arguments)?)),
        "readbytes" => {
            let text = form::parse_latin(arguments)?;

            in_characters(&text, graph_answer(graph_of(&text)))
        }
        "rewrite" => match graph_of(&form::parse_text(arguments)?) {
            Ok(graph) => written(graph),
            Err(refusal) => refusal,
        },
        "write" => written(form::parse_graph(arguments)?),
        "writein" => {
            let (_, graph) = form::parse_room(arguments)?;

            written(graph)
        }
        "order" => order(form::parse_graph(arguments)?),
        "builder" => builder(form::parse_events(arguments)?, purr_rnum),
        "writer" => writer(form::parse_events(arguments)?, purr_rnum),
        "pool" => pool(&form::parse_pairs(arguments)?),
        _ => return None,
    })
}

/// The Rnum that purr makes of a ring number, which must not be over 99.
fn purr_rnum(number: u16) -> Rnum {
    Rnum::try_from(number).expect("the form admits ring numbers from 0 to 99 only")
}

// The same three calls as purr's read_atom, which is private to its file.
fn atom(text: &str) -> String {
    let mut scanner = Scanner::new(text);
    let outcome = read_organic(&mut scanner).and_then(|organic| match organic {
        Some(kind) => Ok(Some(kind)),
        None => read_bracket(&mut scanner),
    });

    match outcome {
        Ok(Some(kind)) => {
            format!(
                "atom {} {}",
                form::print_kind(&kind),
                byte_offset(text, scanner.cursor())
            )
        }
        Ok(None) if scanner.peek() == Some(&'*') => "atom * 1".to_string(),
        Ok(None) => "none".to_string(),
        Err(error) => feature_refusal(text, error),
    }
}

fn rnum(text: &str) -> String {
    let mut scanner = Scanner::new(text);

    match read_rnum(&mut scanner) {
        Ok(Some(rnum)) => {
            format!(
                "rnum {} {}",
                form::ring_number(&rnum),
                byte_offset(text, scanner.cursor())
            )
        }
        Ok(None) => "none".to_string(),
        Err(error) => feature_refusal(text, error),
    }
}

fn bond(text: &str) -> String {
    let mut scanner = Scanner::new(text);
    let kind = read_bond(&mut scanner);

    format!(
        "bond {} {}",
        form::print_bond(&kind),
        byte_offset(text, scanner.cursor())
    )
}

fn feature_refusal(text: &str, error: read::Error) -> String {
    match error {
        read::Error::EndOfLine => "end".to_string(),
        read::Error::Character(index) => format!("character {}", byte_offset(text, index)),
    }
}

// purr counts characters, the form counts bytes.
fn byte_offset(text: &str, index: usize) -> usize {
    text.char_indices()
        .nth(index)
        .map_or(text.len(), |(offset, _)| offset)
}

fn invert(mut kind: AtomKind) -> String {
    match caught(|| kind.invert_configuration()) {
        Ok(()) => form::print_kind(&kind),
        Err(_) => "panic".to_string(),
    }
}

fn targets(kind: &AtomKind) -> String {
    numbers(kind.targets())
}

fn joined<T: ToString>(items: &[T]) -> String {
    items
        .iter()
        .map(T::to_string)
        .collect::<Vec<String>>()
        .join(",")
}

fn yes_or_no(value: bool) -> String {
    if value { "yes" } else { "no" }.to_string()
}

fn reconciled(left: BondKind, right: BondKind) -> String {
    match reconcile(left, right) {
        Some((left, right)) => {
            format!("{} {}", form::print_bond(&left), form::print_bond(&right))
        }
        None => "fails".to_string(),
    }
}

/// The graph that purr reads from the text, or its refusal as an answer.
pub fn graph_of(text: &str) -> Result<Vec<Atom>, String> {
    let outcome = caught(|| {
        let mut builder = Builder::new();

        read(text, &mut builder, None).map_err(|error| read_refusal(text, error))?;
        builder.build().map_err(graph_refusal)
    });

    outcome.unwrap_or_else(|message| Err(format!("panic {}", message)))
}

fn read_refusal(text: &str, error: read::Error) -> String {
    match error {
        read::Error::EndOfLine => "1".to_string(),
        read::Error::Character(index) => format!("2 {}", byte_offset(text, index)),
    }
}

/// An answer to a text, with the place of a wrong character counted in
/// characters.
pub fn in_characters(text: &str, answer: String) -> String {
    match answer.strip_prefix("2 ").and_then(|offset| offset.parse().ok()) {
        Some(offset) => {
            let before: &str = &text[..offset];

            format!("2 {}", before.chars().count())
        }
        None => answer,
    }
}

fn graph_refusal(error: graph::Error) -> String {
    match error {
        graph::Error::Join(sid, tid) => format!("3 {} {}", sid, tid),
        graph::Error::Rnum(rid) => format!("4 {}", rid),
    }
}

pub fn graph_answer(outcome: Result<Vec<Atom>, String>) -> String {
    match outcome {
        Ok(graph) => {
            let entries: usize = graph.iter().map(|atom| atom.bonds.len()).sum();

            format!(
                "0 {} {} {}",
                graph.len(),
                entries,
                form::print_graph(&graph)
            )
        }
        Err(refusal) => refusal,
    }
}

fn written(graph: Vec<Atom>) -> String {
    match walked(graph, Writer::new()) {
        Ok(writer) => text_answer(&writer.write()),
        Err(refusal) => refusal,
    }
}

fn order(graph: Vec<Atom>) -> String {
    let size = graph.len();

    match order_of(graph) {
        Ok(order) => order_answer(size, order),
        Err(refusal) => refusal,
    }
}

pub fn order_answer(size: usize, order: Order) -> String {
    format!("0 {} {}", size, order.text())
}

/// The order of purr's walk over the graph, or its refusal as an answer.
pub fn order_of(graph: Vec<Atom>) -> Result<Order, String> {
    let order = Order::new(&graph);

    walked(graph, order)
}

// The follower after a walk, or the walk's refusal as an answer.
fn walked<F: Follower>(graph: Vec<Atom>, mut follower: F) -> Result<F, String> {
    match caught(|| walk(graph, &mut follower)) {
        Ok(Ok(())) => Ok(follower),
        Ok(Err(error)) => Err(walk_refusal(error)),
        Err(message) => Err(format!("panic {}", message)),
    }
}

pub fn text_answer(text: &str) -> String {
    format!("0 {} {}", text.len(), form::print_text(text))
}

fn walk_refusal(error: walk::Error) -> String {
    match error {
        walk::Error::UnknownTarget(sid, tid) => format!("5 {} {}", sid, tid),
        walk::Error::Loop(sid) => format!("6 {}", sid),
        walk::Error::HalfBond(sid, tid) => format!("7 {} {}", sid, tid),
        walk::Error::DuplicateBond(sid, tid) => format!("8 {} {}", sid, tid),
        walk::Error::IncompatibleBond(left, right) => format!("9 {} {}", left, right),
    }
}

/// The answer of a Builder that gets the events, with the ring numbers made
/// into Rnums by `rnum`.
pub fn builder(events: Vec<Event>, rnum: fn(u16) -> Rnum) -> String {
    let mut builder = Builder::new();

    if let Err(panic) = follow(events, rnum, &mut builder) {
        return panic;
    }

    match caught(|| builder.build()) {
        Ok(outcome) => graph_answer(outcome.map_err(graph_refusal)),
        Err(message) => format!("panic b {}", message),
    }
}

/// The like of a Writer.
pub fn writer(events: Vec<Event>, rnum: fn(u16) -> Rnum) -> String {
    let mut writer = Writer::new();

    match follow(events, rnum, &mut writer) {
        Ok(()) => text_answer(&writer.write()),
        Err(panic) => panic,
    }
}

// The error is the answer for a panic, with the index of its event.
fn follow<F: Follower>(
    events: Vec<Event>,
    rnum: fn(u16) -> Rnum,
    follower: &mut F,
) -> Result<(), String> {
    let current = Cell::new(0);

    caught(|| {
        for (index, event) in events.into_iter().enumerate() {
            current.set(index);
            call(event, rnum, follower);
        }
    })
    .map_err(|message| format!("panic {} {}", current.get(), message))
}

fn call<F: Follower>(event: Event, rnum: fn(u16) -> Rnum, follower: &mut F) {
    match event {
        Event::Root(kind) => follower.root(kind),
        Event::Extend(bond, kind) => follower.extend(bond, kind),
        Event::Join(bond, number) => follower.join(bond, rnum(number)),
        Event::Pop(depth) => follower.pop(depth),
    }
}

fn pool(pairs: &[(usize, usize)]) -> String {
    let mut pool = JoinPool::new();
    let mut numbers = Vec::new();

    for &(sid, tid) in pairs {
        match caught(|| pool.hit(sid, tid)) {
            Ok(rnum) => numbers.push(form::ring_number(&rnum).to_string()),
            Err(_) => {
                numbers.push("panic".to_string());
                break;
            }
        }
    }

    self::numbers(&numbers)
}

/// Numbers joined, or `-` for none.
pub fn numbers<T: ToString>(numbers: &[T]) -> String {
    match numbers {
        [] => "-".to_string(),
        numbers => joined(numbers),
    }
}
