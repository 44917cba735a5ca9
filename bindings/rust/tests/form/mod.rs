//! The text form of the lists of purr's stored answers: oracle/README.md.
// Not every test uses all of it.
#![allow(dead_code)]
use mavisdrok::{AtomKind, BondKind, Error, Graph, Rnum};

/// A charge of none and a charge of 0 in an atom's second word.
const NO_CHARGE: i32 = 31;
const CHARGE_ZERO: i32 = 15;

const BONDS: [(char, BondKind); 8] = [
    ('e', BondKind::Elided), ('-', BondKind::Single), ('=', BondKind::Double), ('#', BondKind::Triple),
    ('$', BondKind::Quadruple), (':', BondKind::Aromatic), ('/', BondKind::Up), ('\\', BondKind::Down),
];

/// The rows of a list whose request is of one sort: what is asked, and the answer, ours where we differ from purr.
pub fn rows(name: &str, sort: &str) -> Vec<(String, String)> {
    let path = format!("{}/../../crates/replay/data/{name}.txt", env!("CARGO_MANIFEST_DIR"));
    let list = std::fs::read_to_string(path).expect("a list");
    let sort = format!("{sort} ");
    let rows: Vec<(String, String)> = list
        .lines()
        .filter_map(|line| {
            let (request, answers) = line.split_once('\t').expect("an answer");
            let asked = request.strip_prefix(&sort)?;
            Some((asked.to_string(), answers.split('\t').next_back().unwrap().to_string()))
        })
        .collect();
    assert!(rows.len() >= 80, "only {} rows of {sort}in {name}", rows.len());
    rows
}

/// The bytes of a text: `!hh` is a byte, `!-` the empty text.
pub fn bytes(text: &str) -> Vec<u8> {
    let mut parts = text.split('!');
    let mut bytes = parts.next().unwrap().as_bytes().to_vec();
    for part in parts.filter(|part| *part != "-") {
        bytes.push(u8::from_str_radix(&part[..2], 16).expect(text));
        bytes.extend(&part.as_bytes()[2..]);
    }
    bytes
}

/// A line as a text: a blank as `!20`, nothing as `!-`.
pub fn text(line: &str) -> String {
    if line.is_empty() { "!-".to_string() } else { line.replace(' ', "!20") }
}

/// The parts of a row, which may have none.
pub fn parts(row: &str, mark: char) -> impl Iterator<Item = &str> {
    row.split(mark).filter(|part| !part.is_empty())
}

/// An atom: `C`, or `[isotope,symbol,configuration,hydrogens,charge,map]` with `~` for none. A charge is set in the words,
/// since not every charge is read.
pub fn kind(form: &str) -> AtomKind {
    let Some(inner) = form.strip_prefix('[') else { return form.parse().expect(form) };
    let fields: Vec<&str> = inner.trim_end_matches(']').split(',').collect();
    let part = |mark: &str, field: &str| if field == "~" { String::new() } else { format!("{mark}{field}") };
    let text = format!(
        "[{}{}{}{}{}]",
        part("", fields[0]), fields[1], part("@", fields[2]), part("H", fields[3]), part(":", fields[5])
    );
    let [first, second] = text.parse::<AtomKind>().expect(form).words();
    let charge = fields[4].parse().map_or(NO_CHARGE, |charge: i32| charge + CHARGE_ZERO);
    AtomKind::from_words([first, second - NO_CHARGE as u32 + charge as u32]).expect(form)
}

pub fn bond(form: char) -> BondKind {
    BONDS.into_iter().find(|(letter, _)| *letter == form).expect("a bond").1
}

pub fn number(form: &str) -> Rnum {
    Rnum::try_from(form.parse::<u16>().unwrap()).expect(form)
}

/// An atom's form, out of its fields.
pub fn kind_form(kind: AtomKind) -> String {
    if !kind.is_bracket() {
        return kind.symbol().to_string();
    }
    fn field(value: Option<impl ToString>) -> String {
        value.map_or("~".to_string(), |value| value.to_string())
    }
    format!(
        "[{},{},{},{},{},{}]",
        field(kind.isotope()), kind.symbol(), field(kind.configuration()), field(kind.hydrogens()), field(kind.charge()),
        field(kind.map())
    )
}

pub fn bond_form(kind: BondKind) -> char {
    BONDS.into_iter().find(|(_, of)| *of == kind).expect("a bond").0
}

/// A graph's form: each atom, then its bonds.
pub fn graph_form(graph: &Graph) -> String {
    let atoms: Vec<String> = graph
        .iter()
        .map(|atom| {
            let bonds: String = atom.bonds().map(|bond| format!(" {}{}", bond_form(bond.kind), bond.tid)).collect();
            kind_form(atom.kind) + &bonds
        })
        .collect();
    atoms.join(";")
}

/// The graph of a form.
pub fn graph(form: &str) -> Graph {
    let (mut atoms, mut bonds) = (Vec::new(), Vec::new());
    for atom in parts(form, ';') {
        let mut words = atom.split(' ');
        atoms.extend(kind(words.next().unwrap()).words());
        let before = bonds.len();
        for entry in words {
            let mut rest = entry.chars();
            bonds.push(bond(rest.next().unwrap()) as u32);
            bonds.push(rest.as_str().parse().unwrap());
        }
        atoms.push(((bonds.len() - before) / 2) as u32);
    }
    Graph::from_words(atoms, bonds).expect(form)
}

/// A refusal's form: its number and what it carries.
pub fn refused(error: Error) -> String {
    let carried = match error {
        Error::EndOfLine | Error::NoAtom | Error::Overpop => String::new(),
        Error::Join(a, b)
        | Error::UnknownTarget(a, b)
        | Error::HalfBond(a, b)
        | Error::DuplicateBond(a, b)
        | Error::IncompatibleBond(a, b)
        | Error::RingNumbers(a, b) => format!(" {a} {b}"),
        Error::Character(a)
        | Error::Rnum(a)
        | Error::Loop(a)
        | Error::Inversion(a)
        | Error::TextTooLong(a)
        | Error::AtomRoom(a)
        | Error::BondRoom(a)
        | Error::Nesting(a)
        | Error::OutRoom(a)
        | Error::BadTable(a) => format!(" {a}"),
    };
    format!("{}{}", error.number(), carried)
}
