//! The systematic list: every spelling of every feature, and the texts next to
//! them that are wrong.

use std::collections::HashSet;

use crate::form::{
    self, ALIPHATICS, AROMATICS, BONDS, BRACKET_AROMATICS, CONFIGURATIONS, ELEMENTS, HYDROGENS,
};

/// Valid bracket atoms, with many features between them.
const MODELS: &[&str] = &[
    "[13C@@H2+2:7]",
    "[235U@OH25H2-15:999]",
    "[se@SP1H+]",
    "[Xe@TB20]",
    "[O@AL2H3--:01]",
];
/// Symbols with valence targets of their own, and one without.
const CHARGED: &[&str] = &[
    "B", "C", "N", "O", "P", "S", "As", "Se", "F", "b", "c", "n", "o", "p", "s", "as", "se", "*",
];
const FOREIGN: &[&str] = &["é", "€", "😀"];

pub fn requests() -> Vec<String> {
    let mut list = List::default();

    symbols(&mut list);
    configurations(&mut list);
    charges(&mut list);
    hydrogens(&mut list);
    isotopes_and_maps(&mut list);
    MODELS.iter().for_each(|model| edits(&mut list, model));
    foreign(&mut list);
    ring_numbers(&mut list);
    bonds(&mut list);
    kinds(&mut list);

    list.requests
}

/// Requests in the order in which they were first added.
#[derive(Default)]
struct List {
    requests: Vec<String>,
    known: HashSet<String>,
}

impl List {
    fn add(&mut self, request: String) {
        if self.known.insert(request.clone()) {
            self.requests.push(request);
        }
    }

    fn text(&mut self, operation: &str, text: &str) {
        self.add(format!("{} {}", operation, form::print_text(text)));
    }

    fn atom(&mut self, text: &str) {
        self.text("atom", text);
    }

    /// The bracket atom with something after its symbol, also without its end
    /// and with hydrogens after it.
    fn after_symbol(&mut self, something: &str) {
        self.atom(&format!("[C{}]", something));
        self.atom(&format!("[C{}", something));
        self.atom(&format!("[C{}H]", something));
    }

    fn kind(&mut self, kind: &str) {
        for operation in &["spell", "invert", "targets", "aromatic"] {
            self.add(format!("{} {}", operation, kind));
        }
    }
}

fn letters() -> Vec<char> {
    ('A'..='Z').chain('a'..='z').collect()
}

fn ascii() -> impl Iterator<Item = char> {
    (0..128u8).map(char::from)
}

fn symbols(list: &mut List) {
    list.atom("");
    list.atom("*");
    list.atom("[");
    list.atom("[]");
    list.atom("[*]");
    list.atom("[*");

    for first in letters() {
        list.atom(&first.to_string());
        list.atom(&format!("[{}]", first));
        list.atom(&format!("[{}", first));

        for second in letters() {
            list.atom(&format!("{}{}", first, second));
            list.atom(&format!("[{}{}]", first, second));
        }
    }
}

fn configurations(list: &mut List) {
    let mut spellings: Vec<String> = vec!["@@@".to_string()];

    for (class, last) in &[("TH", 3), ("AL", 3), ("SP", 4), ("TB", 31), ("OH", 41)] {
        for number in 0..=*last {
            spellings.push(format!("@{}{}", class, number));
            spellings.push(format!("@{}{:02}", class, number));
        }
    }

    for spelling in spellings {
        for length in 1..=spelling.len() {
            list.after_symbol(&spelling[..length]);
        }
    }
}

fn charges(list: &mut List) {
    for first in &["+", "-"] {
        list.after_symbol(first);

        for second in &["+", "-"] {
            list.after_symbol(&format!("{}{}", first, second));

            for third in &["+", "-", "1"] {
                list.after_symbol(&format!("{}{}{}", first, second, third));
            }
        }

        for number in 0..=20 {
            list.after_symbol(&format!("{}{}", first, number));
            list.after_symbol(&format!("{}0{}", first, number));
        }

        for number in &["00", "010", "015", "100", "150"] {
            list.after_symbol(&format!("{}{}", first, number));
        }
    }
}

fn hydrogens(list: &mut List) {
    list.after_symbol("H");
    list.after_symbol("HH");

    for number in 0..=10 {
        list.after_symbol(&format!("H{}", number));
        list.after_symbol(&format!("H0{}", number));
    }
}

fn isotopes_and_maps(list: &mut List) {
    let mut numbers: Vec<String> = (0..=1001).map(|number: u32| number.to_string()).collect();

    for number in &[0, 1, 7, 10, 99, 100, 999] {
        for width in 2..=4 {
            numbers.push(format!("{:0width$}", number, width = width));
        }
    }

    list.after_symbol(":");

    for number in numbers {
        list.atom(&format!("[{}C]", number));
        list.atom(&format!("[{}", number));
        list.after_symbol(&format!(":{}", number));
    }
}

// Every text that is one edit away from the model, and its beginnings.
fn edits(list: &mut List, model: &str) {
    let replacements: Vec<String> = ascii()
        .map(String::from)
        .chain(["é", "€", ""].iter().map(|text| text.to_string()))
        .collect();

    list.atom(model);

    for place in 0..model.len() {
        let (before, after) = model.split_at(place);

        list.atom(before);

        for replacement in &replacements {
            list.atom(&format!("{}{}{}", before, replacement, &after[1..]));
        }
    }

    for place in 0..=model.len() {
        let (before, after) = model.split_at(place);

        for insertion in &["0", "1", "@", "H", "+", "-", ":", "]", "[", "é"] {
            list.atom(&format!("{}{}{}", before, insertion, after));
        }
    }
}

// purr judges a character after @TB and @OH later than elsewhere.
fn foreign(list: &mut List) {
    for foreign in FOREIGN {
        for before in &[
            "", "[", "[C", "[C@", "[C@T", "[C@TH", "[C@AL", "[C@SP", "[C@TB", "[C@TB1", "[C@TB2",
            "[C@TB3", "[C@OH", "[C@OH1", "[C@OH2", "[C@OH3", "[C@OH4", "[C:", "[C:1", "[CH", "[C+",
            "[C+1", "[1", "C", "A", "*",
        ] {
            for after in &["", "]", "1]", "C", "é", "é]"] {
                list.atom(&format!("{}{}{}", before, foreign, after));
            }
        }
    }
}

fn ring_numbers(list: &mut List) {
    let digits: Vec<char> = ('0'..='9').chain("%a".chars()).collect();

    list.text("rnum", "");

    for first in ascii() {
        list.text("rnum", &first.to_string());
        list.text("rnum", &format!("%{}", first));
        list.text("rnum", &format!("%7{}", first));
    }

    for first in &digits {
        for second in &digits {
            list.text("rnum", &format!("{}{}", first, second));
            list.text("rnum", &format!("%{}{}", first, second));
            list.text("rnum", &format!("%{}{}1", first, second));
        }
    }

    for foreign in FOREIGN {
        for before in &["", "%", "%1", "%12", "1"] {
            list.text("rnum", &format!("{}{}", before, foreign));
        }
    }

    for number in 0..100 {
        list.add(format!("spellrnum {}", number));
    }
}

fn bonds(list: &mut List) {
    list.text("bond", "");
    FOREIGN
        .iter()
        .for_each(|foreign| list.text("bond", foreign));

    for character in ascii() {
        list.text("bond", &character.to_string());
        list.text("bond", &format!("{}C", character));
    }

    for left in BONDS {
        list.add(format!("reverse {}", left));
        list.add(format!("spellbond {}", left));

        for right in BONDS {
            list.add(format!("reconcile {} {}", left, right));
        }
    }
}

fn kinds(list: &mut List) {
    list.kind("*");

    for symbol in ALIPHATICS.iter().chain(AROMATICS) {
        list.kind(symbol);
    }

    for symbol in ELEMENTS.iter().chain(BRACKET_AROMATICS).chain(&["*"]) {
        list.kind(&format!("[~,{},~,~,~,~]", symbol));
    }

    for configuration in CONFIGURATIONS.iter().chain(&["~"]) {
        for hydrogens in HYDROGENS.iter().chain(&["~"]) {
            list.kind(&format!("[~,C,{},{},~,~]", configuration, hydrogens));
        }
    }

    for symbol in CHARGED {
        for charge in -15..=15 {
            list.kind(&format!("[~,{},~,~,{},~]", symbol, charge));
        }
    }

    for number in 0..1000 {
        list.kind(&format!("[{},C,~,~,~,~]", number));
        list.kind(&format!("[~,C,~,~,~,{}]", number));
    }
}
