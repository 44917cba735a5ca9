//! The plain text form of texts, atom kinds, bonds, graphs and events: each
//! has a function that parses it and one that prints it. oracle/README.md
//! describes the form.

use std::convert::TryFrom;
use std::str::FromStr;

use crate::feature::{
    Aliphatic, Aromatic, AtomKind, BondKind, BracketAromatic, BracketSymbol, Charge, Configuration,
    Element, Number, Rnum, VirtualHydrogen,
};
use crate::graph::{Atom, Bond};

/// Makes the table of an enum's names and the functions from name to variant
/// and back. purr's Display is of no use here: it writes some variants like
/// others.
macro_rules! named {
    ($enum:ident, $names:ident, $parse:ident, $print:ident: $($variant:ident $name:literal)*) => {
        pub const $names: &[&str] = &[$($name),*];

        pub fn $parse(name: &str) -> Option<$enum> {
            match name {
                $($name => Some($enum::$variant),)*
                _ => None,
            }
        }

        pub fn $print(value: &$enum) -> &'static str {
            match value {
                $($enum::$variant => $name),*
            }
        }
    };
}

named! {
    Element, ELEMENTS, parse_element, print_element:
    H "H" He "He" Li "Li" Be "Be" B "B" C "C" N "N" O "O" F "F" Ne "Ne"
    Na "Na" Mg "Mg" Al "Al" Si "Si" P "P" S "S" Cl "Cl" Ar "Ar" K "K" Ca "Ca"
    Sc "Sc" Ti "Ti" V "V" Cr "Cr" Mn "Mn" Fe "Fe" Co "Co" Ni "Ni" Cu "Cu" Zn "Zn"
    Ga "Ga" Ge "Ge" As "As" Se "Se" Br "Br" Kr "Kr" Rb "Rb" Sr "Sr" Y "Y" Zr "Zr"
    Nb "Nb" Mo "Mo" Tc "Tc" Ru "Ru" Rh "Rh" Pd "Pd" Ag "Ag" Cd "Cd" In "In" Sn "Sn"
    Sb "Sb" Te "Te" I "I" Xe "Xe" Cs "Cs" Ba "Ba" La "La" Ce "Ce" Pr "Pr" Nd "Nd"
    Pm "Pm" Sm "Sm" Eu "Eu" Gd "Gd" Tb "Tb" Dy "Dy" Ho "Ho" Er "Er" Tm "Tm" Yb "Yb"
    Lu "Lu" Hf "Hf" Ta "Ta" W "W" Re "Re" Os "Os" Ir "Ir" Pt "Pt" Au "Au" Hg "Hg"
    Tl "Tl" Pb "Pb" Bi "Bi" Po "Po" At "At" Rn "Rn" Fr "Fr" Ra "Ra" Ac "Ac" Th "Th"
    Pa "Pa" U "U" Np "Np" Pu "Pu" Am "Am" Cm "Cm" Bk "Bk" Cf "Cf" Es "Es" Fm "Fm"
    Md "Md" No "No" Lr "Lr" Rf "Rf" Db "Db" Sg "Sg" Bh "Bh" Hs "Hs" Mt "Mt" Ds "Ds"
    Rg "Rg" Cn "Cn" Nh "Nh" Fl "Fl" Mc "Mc" Lv "Lv" Ts "Ts" Og "Og"
}

named! {
    BracketAromatic, BRACKET_AROMATICS, parse_bracket_aromatic, print_bracket_aromatic:
    B "b" C "c" N "n" O "o" S "s" P "p" Se "se" As "as"
}

named! {
    Aliphatic, ALIPHATICS, parse_aliphatic, print_aliphatic:
    B "B" C "C" N "N" O "O" S "S" P "P" F "F" Cl "Cl" Br "Br" I "I" At "At" Ts "Ts"
}

named! {
    Aromatic, AROMATICS, parse_aromatic, print_aromatic:
    B "b" C "c" N "n" O "o" P "p" S "s"
}

named! {
    Configuration, CONFIGURATIONS, parse_configuration, print_configuration:
    TH1 "TH1" TH2 "TH2" AL1 "AL1" AL2 "AL2" SP1 "SP1" SP2 "SP2" SP3 "SP3"
    TB1 "TB1" TB2 "TB2" TB3 "TB3" TB4 "TB4" TB5 "TB5" TB6 "TB6" TB7 "TB7"
    TB8 "TB8" TB9 "TB9" TB10 "TB10" TB11 "TB11" TB12 "TB12" TB13 "TB13" TB14 "TB14"
    TB15 "TB15" TB16 "TB16" TB17 "TB17" TB18 "TB18" TB19 "TB19" TB20 "TB20"
    OH1 "OH1" OH2 "OH2" OH3 "OH3" OH4 "OH4" OH5 "OH5" OH6 "OH6" OH7 "OH7"
    OH8 "OH8" OH9 "OH9" OH10 "OH10" OH11 "OH11" OH12 "OH12" OH13 "OH13" OH14 "OH14"
    OH15 "OH15" OH16 "OH16" OH17 "OH17" OH18 "OH18" OH19 "OH19" OH20 "OH20" OH21 "OH21"
    OH22 "OH22" OH23 "OH23" OH24 "OH24" OH25 "OH25" OH26 "OH26" OH27 "OH27" OH28 "OH28"
    OH29 "OH29" OH30 "OH30"
}

named! {
    VirtualHydrogen, HYDROGENS, parse_hydrogens, print_hydrogens:
    H0 "0" H1 "1" H2 "2" H3 "3" H4 "4" H5 "5" H6 "6" H7 "7" H8 "8" H9 "9"
}

named! {
    BondKind, BONDS, parse_bond, print_bond:
    Elided "e" Single "-" Double "=" Triple "#" Quadruple "$" Aromatic ":" Up "/" Down "\\"
}

/// One call on a Follower. The ring number is not yet an Rnum, because which
/// one it becomes is a question of its own (see differences.rs).
pub enum Event {
    Root(AtomKind),
    Extend(BondKind, AtomKind),
    Join(BondKind, u16),
    Pop(usize),
}

/// A TEXT argument. None also for bytes that are not UTF-8, which purr cannot
/// be asked about.
pub fn parse_text(source: &str) -> Option<String> {
    String::from_utf8(parse_bytes(source)?).ok()
}

/// A TEXT argument of any bytes, each as the character of its number.
pub fn parse_latin(source: &str) -> Option<String> {
    Some(parse_bytes(source)?.into_iter().map(char::from).collect())
}

/// The bytes of a TEXT argument.
pub fn parse_bytes(source: &str) -> Option<Vec<u8>> {
    if source == "!-" {
        return Some(Vec::new());
    }

    let mut bytes = Vec::with_capacity(source.len());
    let mut rest = source.bytes();

    while let Some(byte) = rest.next() {
        bytes.push(match byte {
            b'!' => 16 * hex_digit(rest.next()?)? + hex_digit(rest.next()?)?,
            33..=126 => byte,
            _ => return None,
        });
    }

    if bytes.is_empty() {
        return None;
    }

    Some(bytes)
}

fn hex_digit(byte: u8) -> Option<u8> {
    match byte {
        b'0'..=b'9' => Some(byte - b'0'),
        b'a'..=b'f' => Some(byte - b'a' + 10),
        _ => None,
    }
}

pub fn print_text(text: &str) -> String {
    print_bytes(text.as_bytes())
}

pub fn print_bytes(bytes: &[u8]) -> String {
    if bytes.is_empty() {
        return "!-".to_string();
    }

    let mut result = String::with_capacity(bytes.len());

    for byte in bytes {
        match *byte {
            33..=126 if *byte != b'!' => result.push(*byte as char),
            _ => result.push_str(&format!("!{:02x}", byte)),
        }
    }

    result
}

pub fn parse_kind(text: &str) -> Option<AtomKind> {
    if text == "*" {
        return Some(AtomKind::Star);
    }

    if let Some(aliphatic) = parse_aliphatic(text) {
        return Some(AtomKind::Aliphatic(aliphatic));
    }

    if let Some(aromatic) = parse_aromatic(text) {
        return Some(AtomKind::Aromatic(aromatic));
    }

    parse_bracket(text)
}

fn parse_bracket(text: &str) -> Option<AtomKind> {
    let inside = text.strip_prefix('[')?.strip_suffix(']')?;
    let fields: Vec<&str> = inside.split(',').collect();

    match fields.as_slice() {
        [isotope, symbol, configuration, hydrogens, charge, map] => Some(AtomKind::Bracket {
            isotope: parse_field(isotope, parse_small_number)?,
            symbol: parse_symbol(symbol)?,
            configuration: parse_field(configuration, parse_configuration)?,
            hcount: parse_field(hydrogens, parse_hydrogens)?,
            charge: parse_field(charge, parse_charge)?,
            map: parse_field(map, parse_small_number)?,
        }),
        _ => None,
    }
}

// The outer None is a field that cannot be parsed, the inner one is `~`.
fn parse_field<T>(text: &str, parse: fn(&str) -> Option<T>) -> Option<Option<T>> {
    if text == "~" {
        Some(None)
    } else {
        parse(text).map(Some)
    }
}

fn parse_symbol(text: &str) -> Option<BracketSymbol> {
    if text == "*" {
        return Some(BracketSymbol::Star);
    }

    parse_element(text)
        .map(BracketSymbol::Element)
        .or_else(|| parse_bracket_aromatic(text).map(BracketSymbol::Aromatic))
}

/// A plain number. FromStr alone would let a plus sign pass.
pub fn parse_number<T: FromStr>(text: &str) -> Option<T> {
    if text.bytes().all(|byte| byte.is_ascii_digit()) {
        text.parse().ok()
    } else {
        None
    }
}

fn parse_small_number(text: &str) -> Option<Number> {
    Number::try_from(parse_number::<u16>(text)?).ok()
}

fn parse_charge(text: &str) -> Option<Charge> {
    let charge: i8 = match text.strip_prefix('-') {
        Some(size) => -parse_number::<i8>(size)?,
        None => parse_number(text)?,
    };

    Charge::try_from(charge).ok()
}

pub fn print_kind(kind: &AtomKind) -> String {
    match kind {
        AtomKind::Star => "*".to_string(),
        AtomKind::Aliphatic(aliphatic) => print_aliphatic(aliphatic).to_string(),
        AtomKind::Aromatic(aromatic) => print_aromatic(aromatic).to_string(),
        AtomKind::Bracket {
            isotope,
            symbol,
            configuration,
            hcount,
            charge,
            map,
        } => format!(
            "[{},{},{},{},{},{}]",
            print_field(isotope, |number| u16::from(number).to_string()),
            print_symbol(symbol),
            print_field(configuration, |value| print_configuration(value)
                .to_string()),
            print_field(hcount, |value| print_hydrogens(value).to_string()),
            print_field(charge, print_charge),
            print_field(map, |number| u16::from(number).to_string()),
        ),
    }
}

fn print_field<T>(field: &Option<T>, print: fn(&T) -> String) -> String {
    field.as_ref().map_or_else(|| "~".to_string(), print)
}

pub fn print_symbol(symbol: &BracketSymbol) -> &'static str {
    match symbol {
        BracketSymbol::Star => "*",
        BracketSymbol::Element(element) => print_element(element),
        BracketSymbol::Aromatic(aromatic) => print_bracket_aromatic(aromatic),
    }
}

fn print_charge(charge: &Charge) -> String {
    let number: i8 = charge.into();

    number.to_string()
}

// A bond is always one byte, so it is known where what follows it begins.
fn split_bond(text: &str) -> Option<(BondKind, &str)> {
    Some((parse_bond(text.get(..1)?)?, &text[1..]))
}

pub fn parse_graph(text: &str) -> Option<Vec<Atom>> {
    if text.is_empty() {
        Some(Vec::new())
    } else {
        text.split(';').map(parse_atom).collect()
    }
}

/// How many bytes an output has, and the graph to be written into it.
pub fn parse_room(text: &str) -> Option<(usize, Vec<Atom>)> {
    let (room, graph) = text.split_once(' ')?;

    Some((parse_number(room)?, parse_graph(graph)?))
}

fn parse_atom(text: &str) -> Option<Atom> {
    let mut parts = text.split(' ');
    let kind = parse_kind(parts.next()?)?;
    let bonds = parts.map(parse_entry).collect::<Option<Vec<Bond>>>()?;

    Some(Atom { kind, bonds })
}

fn parse_entry(text: &str) -> Option<Bond> {
    let (kind, target) = split_bond(text)?;

    Some(Bond::new(kind, parse_number(target)?))
}

pub fn print_graph(graph: &[Atom]) -> String {
    graph
        .iter()
        .map(print_atom)
        .collect::<Vec<String>>()
        .join(";")
}

fn print_atom(atom: &Atom) -> String {
    let mut result = print_kind(&atom.kind);

    for bond in &atom.bonds {
        result.push_str(&format!(" {}{}", print_bond(&bond.kind), bond.tid));
    }

    result
}

pub fn parse_events(text: &str) -> Option<Vec<Event>> {
    if text.is_empty() {
        Some(Vec::new())
    } else {
        text.split(';').map(parse_event).collect()
    }
}

fn parse_event(text: &str) -> Option<Event> {
    let rest = text.get(1..)?;

    match text.as_bytes()[0] {
        b'r' => Some(Event::Root(parse_kind(rest)?)),
        b'x' => {
            let (bond, kind) = split_bond(rest)?;

            Some(Event::Extend(bond, parse_kind(kind)?))
        }
        b'j' => {
            let (bond, number) = split_bond(rest)?;

            Some(Event::Join(bond, parse_ring_number(number)?))
        }
        b'p' => Some(Event::Pop(parse_number(rest)?)),
        _ => None,
    }
}

/// A ring number, from 0 to 99.
pub fn parse_ring_number(text: &str) -> Option<u16> {
    parse_number(text).filter(|&number| number <= 99)
}

/// The number of an Rnum. Its Debug form is R and the number; its Display has
/// a percent sign.
pub fn ring_number(rnum: &Rnum) -> u16 {
    format!("{:?}", rnum)[1..]
        .parse()
        .expect("an Rnum is called R and its number")
}

/// The pairs of a `pool` request.
pub fn parse_pairs(text: &str) -> Option<Vec<(usize, usize)>> {
    if text.is_empty() {
        Some(Vec::new())
    } else {
        text.split(',').map(parse_pair).collect()
    }
}

fn parse_pair(text: &str) -> Option<(usize, usize)> {
    let (first, second) = text.split_once('-')?;

    Some((parse_number(first)?, parse_number(second)?))
}
