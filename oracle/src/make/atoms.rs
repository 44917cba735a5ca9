//! Random atoms: as SMILES text, with good and bad spellings, and in the form.
//! Also the damage that turns a good text into a bad one.

use crate::form::{
    self, ALIPHATICS, AROMATICS, BRACKET_AROMATICS, CONFIGURATIONS, ELEMENTS, HYDROGENS,
};
use crate::random::Random;

/// How a bracket atom is spelled.
#[derive(Clone, Copy, PartialEq)]
pub enum Care {
    /// purr reads it.
    Valid,
    /// Now and then something out of range.
    Loose,
}

/// Characters that mean something somewhere in a line.
const TELLING: &str = "0123456789@HTBOLASP+-:[]*%()=#$/\\.CNcnso!";
/// Characters of two, three and four bytes.
const FOREIGN: &str = "éß€中😀";
const COMMON: &[&str] = &["C", "N", "O", "S", "P", "c", "n", "o", "s", "se"];

/// An atom, ring number or kind to ask about.
pub fn request(random: &mut Random) -> String {
    if random.one_in(8) {
        let operation = random.pick(&["spell", "invert", "targets", "aromatic"]);

        format!("{} {}", operation, kind(random, 4))
    } else if random.one_in(16) {
        format!("rnum {}", form::print_text(&ring_text(random)))
    } else {
        format!("atom {}", form::print_text(&atom_text(random)))
    }
}

fn ring_text(random: &mut Random) -> String {
    let mut text = ring_number(random);

    follow(random, &mut text);

    if random.one_in(3) {
        text = damaged(random, &text);
    }

    text
}

fn atom_text(random: &mut Random) -> String {
    let mut text = if random.one_in(6) {
        organic(random).to_string()
    } else {
        bracket(random, Care::Loose)
    };

    follow(random, &mut text);

    if random.one_in(2) {
        text = damaged(random, &text);
    }

    text
}

fn follow(random: &mut Random, text: &mut String) {
    for _ in 0..random.below(4) {
        text.push(any_character(random));
    }
}

fn any_character(random: &mut Random) -> char {
    match random.below(12) {
        0 => random.below(128) as u8 as char,
        1 => nth(FOREIGN, random),
        _ => nth(TELLING, random),
    }
}

fn nth(characters: &str, random: &mut Random) -> char {
    let count = characters.chars().count();

    characters
        .chars()
        .nth(random.below(count))
        .expect("a place below the count")
}

/// The text with one to three edits, each at a character, so that it stays
/// UTF-8.
pub fn damaged(random: &mut Random, text: &str) -> String {
    let mut characters: Vec<char> = text.chars().collect();

    for _ in 0..random.between(1, 3) {
        edit(random, &mut characters);
    }

    characters.into_iter().collect()
}

fn edit(random: &mut Random, characters: &mut Vec<char>) {
    if characters.is_empty() {
        characters.push(any_character(random));
        return;
    }

    let place = random.below(characters.len());

    match random.below(6) {
        0 | 1 => characters[place] = any_character(random),
        2 => {
            characters.remove(place);
        }
        3 => characters.truncate(place),
        4 => {
            let other = random.below(characters.len());

            characters.swap(place, other)
        }
        _ => characters.insert(place, any_character(random)),
    }
}

// A ring number as it is written in a line, of any kind.
fn ring_number(random: &mut Random) -> String {
    if random.one_in(2) {
        random.below(10).to_string()
    } else {
        format!("%{:02}", random.below(100))
    }
}

pub fn organic(random: &mut Random) -> &'static str {
    match random.below(3) {
        0 => random.pick(AROMATICS),
        1 => random.pick(ALIPHATICS),
        _ => random.pick(&["C", "C", "N", "O", "*"]),
    }
}

pub fn bracket(random: &mut Random, care: Care) -> String {
    let (configuration, invertible) = configuration(random, care);

    format!(
        "[{}{}{}{}{}{}]",
        isotope(random, care),
        symbol(random, care),
        configuration,
        hydrogens(random, care, invertible),
        charge(random, care),
        map(random, care)
    )
}

fn slips(random: &mut Random, care: Care) -> bool {
    care == Care::Loose && random.one_in(25)
}

fn digits(random: &mut Random, care: Care) -> String {
    if slips(random, care) {
        return random.below(10000).to_string();
    }

    match random.below(4) {
        0 => random.below(10).to_string(),
        1 => random.below(1000).to_string(),
        2 => format!("{:03}", random.below(1000)),
        _ => format!("{:02}", random.below(100)),
    }
}

fn isotope(random: &mut Random, care: Care) -> String {
    if random.one_in(3) {
        digits(random, care)
    } else {
        String::new()
    }
}

fn symbol(random: &mut Random, care: Care) -> String {
    if slips(random, care) {
        return format!(
            "{}{}",
            nth("ABCDEFGHIJKLMNOPQRSTUVWXYZ", random),
            nth("abehlnosty", random)
        );
    }

    match random.below(4) {
        0 => random.pick(ELEMENTS),
        1 => random.pick(BRACKET_AROMATICS),
        2 => random.pick(&["*", "H", "Cl", "Br", "Fe", "Pt", "Co", "Cs"]),
        _ => random.pick(COMMON),
    }
    .to_string()
}

// Also tells whether purr can invert it.
fn configuration(random: &mut Random, care: Care) -> (String, bool) {
    if slips(random, care) {
        return (wrong_configuration(random), false);
    }

    match random.below(8) {
        0 => ("@".to_string(), true),
        1 => ("@@".to_string(), true),
        2 => (format!("@TH{}", random.between(1, 2)), true),
        3 => (format!("@{}", random.pick(CONFIGURATIONS)), false),
        _ => (String::new(), true),
    }
}

fn wrong_configuration(random: &mut Random) -> String {
    let class = random.pick(&["TH", "AL", "SP", "TB", "OH", "T", "A", "S", "O", ""]);

    // purr judges what is not ASCII later after TB and OH than elsewhere.
    if random.one_in(4) {
        format!("@{}{}", class, nth(FOREIGN, random))
    } else {
        format!("@{}{}", class, random.below(45))
    }
}

// purr panics when it inverts other configurations than TH1 and TH2, which it
// does only where there are hydrogens. A valid atom has both seldom.
fn hydrogens(random: &mut Random, care: Care, invertible: bool) -> String {
    if slips(random, care) {
        return format!("H{}", random.below(100));
    }

    if care == Care::Valid && !invertible && !random.one_in(100) {
        return random.pick(&["", "", "H0"]).to_string();
    }

    match random.below(6) {
        0 | 1 => "H".to_string(),
        2 => format!("H{}", random.below(10)),
        _ => String::new(),
    }
}

fn charge(random: &mut Random, care: Care) -> String {
    let sign = random.pick(&["+", "-"]);

    if slips(random, care) {
        return format!("{}{}", sign, random.below(20));
    }

    match random.below(8) {
        0 => sign.to_string(),
        1 => format!("{}{}", sign, sign),
        2 => format!("{}{}", sign, random.between(1, 9)),
        // purr reads no charge of ten, because it tries 11 to 15 only.
        3 => format!("{}{}", sign, random.between(11, 15)),
        _ => String::new(),
    }
}

fn map(random: &mut Random, care: Care) -> String {
    if random.one_in(4) {
        format!(":{}", digits(random, care))
    } else {
        String::new()
    }
}

/// A kind in the form. One in `rarely` of those that purr cannot invert and
/// that have a configuration has hydrogens, where purr may panic.
pub fn kind(random: &mut Random, rarely: usize) -> String {
    if random.one_in(3) {
        return organic(random).to_string();
    }

    let configuration = match random.below(4) {
        0 => random.pick(&["TH1", "TH2"]),
        1 => random.pick(CONFIGURATIONS),
        _ => "~",
    };
    let invertible = configuration == "~" || configuration.starts_with("TH");
    let hydrogens = if random.one_in(2) && (invertible || random.one_in(rarely)) {
        random.pick(HYDROGENS)
    } else {
        "~"
    };

    format!(
        "[{},{},{},{},{},{}]",
        optional(random, |random| random.below(1000) as i64),
        kind_symbol(random),
        configuration,
        hydrogens,
        optional(random, |random| random.below(31) as i64 - 15),
        optional(random, |random| random.below(1000) as i64)
    )
}

fn kind_symbol(random: &mut Random) -> &'static str {
    match random.below(4) {
        0 => random.pick(ELEMENTS),
        1 => random.pick(BRACKET_AROMATICS),
        2 => "*",
        _ => random.pick(COMMON),
    }
}

fn optional(random: &mut Random, number: fn(&mut Random) -> i64) -> String {
    if random.one_in(3) {
        number(random).to_string()
    } else {
        "~".to_string()
    }
}
