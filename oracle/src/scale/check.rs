//! The comparison's own test: a comparison that finds no difference where there
//! is one is worth nothing elsewhere. So before all else each is handed what is
//! right, and then what is wrong in one thing.

use std::io;

use crate::form;
use crate::graph::Atom;
use crate::scale::compare::{self, Walk};
use crate::scale::exports;
use crate::scale::label::Label;
use crate::scale::tally::Tally;
use crate::scale::trip::{self, Trip};
use crate::scale::words::Names;
use crate::scale::{Line, LARGEST};
use crate::simple::is_simple;

/// Graphs that are not plain, each for another reason, and are written all the
/// same: docs/ROUNDTRIP.md. They do not come back.
const NOT_PLAIN: &[&str] = &[
    "",
    "[~,Cs,~,~,~,~]",
    "[~,C,AL1,~,~,~]",
    "[~,C,~,0,~,~]",
    "[~,C,~,~,0,~]",
    "[~,C,~,~,5,~]",
    "[~,C,~,~,10,~]",
];

/// Graphs that are not simple, each for another reason.
const NOT_SIMPLE: &[&str] = &[
    "C e1",
    "C e0",
    "C e1;C",
    "*;* e0",
    "C e1 e1;C e0 e0",
    "C e1 e1;C e0",
    "C e1 /2;C e0 e2;C /0 e1",
];

/// Panics if a comparison is not to be trusted.
pub fn run(names: &Names, label: &mut Label) -> io::Result<()> {
    check_read(names);
    check_write(names);
    check_order(names);
    check_trip(names);
    check_label(label)
}

fn graph(text: &str) -> Vec<Atom> {
    form::parse_graph(text).expect("a graph in the form")
}

fn check_read(names: &Names) {
    let differs = |text: &[u8], meant| compare::read(names, text, LARGEST, meant).is_some();

    assert!(!differs(b"CCO", "0 3 4 C e1;C e0 e2;O e1"));
    assert!(!differs(b"CC(", "1"));

    for wrong in &[
        "0 3 4 C e1;C e0 e2;N e1",
        "0 3 4 C e1;C e0 e2;O =1",
        "0 3 4 C e1;C e2 e0;O e1",
        "0 3 5 C e1;C e0 e2;O e1",
        "0 2 4 C e1;C e0 e2;O e1",
        "0 3 4 C e1;C e0 e2",
        "1",
        "2 3",
    ] {
        assert!(differs(b"CCO", wrong), "{}", wrong);
    }

    for wrong in &["2 3", "3 0 1", "0 2 2 C e1;C e0"] {
        assert!(differs(b"CC(", wrong), "{}", wrong);
    }
}

fn check_write(names: &Names) {
    let tables = names.tables(&graph("C e1;O e0"));
    let differs = |room, meant| compare::write(&tables, room, meant).is_some();

    assert!(!differs(5, "0 2 CO"));
    assert!(!differs(1, "16 2"));
    assert!(differs(1, "0 2 CO"));

    for wrong in &["0 2 CN", "0 3 CO", "0 1 C", "16 2", "7 0 1"] {
        assert!(differs(5, wrong), "{}", wrong);
    }
}

fn check_order(names: &Names) {
    let tables = names.tables(&graph("C e1;O e0"));
    let right: Walk = [vec![0, 1], vec![0, 1], vec![0, 1]];
    let differs = |meant, walk: &Walk| compare::order(&tables, 3, meant, walk).is_some();

    assert!(!differs("0 2 ", &right));
    assert!(differs("0 1 ", &right));
    assert!(differs("11 0 1", &Walk::default()));

    for table in 0..right.len() {
        let mut wrong = right.clone();

        wrong[table][1] = 2;
        assert!(differs("0 2 ", &wrong), "{:?}", wrong);
    }
}

// The vial of docs/LABEL.md, and graphs that do not come back.
fn check_trip(names: &Names) {
    let vial = graph("C e3 e1;C e0 e2;C e1 e3;[~,C,TH2,1,~,~] e2 e0 e4;F e3");
    let tables = names.tables(&vial);
    let line = b"C([C@@H](CC1)F)1";
    let right = trip::renumbered(&vial, &exports::order(&tables, vial.len()));
    let turned = graph(&form::print_graph(&right).replace("TH1", "TH2"));
    let differs = |meant: &[Atom]| trip::comes_back(names, line, &tables, meant).is_some();
    let returns = |graph: &[Atom]| matches!(trip::trip(names, graph), Trip::Compared(None));

    assert!(trip::is_plain(&vial) && is_simple(&vial) && returns(&vial));
    assert!(!differs(&right));
    assert!(differs(&vial));
    assert!(differs(&turned));

    for text in NOT_PLAIN {
        assert!(
            !trip::is_plain(&graph(text)) && !returns(&graph(text)),
            "{}",
            text
        );
    }

    for text in NOT_SIMPLE {
        let graph = graph(text);

        assert!(!is_simple(&graph), "{}", text);
        assert!(matches!(trip::trip(names, &graph), Trip::Refused), "{}", text);
    }

    assert!(trip::one_sided(b"C1CC1").is_none());
    assert!(trip::one_sided(b"C1CC").is_some());
    assert!(trip::one_sided(b"C=1CC#1").is_some());
}

// One line's answers are right, the other's are all wrong. The count of those that
// are refused is then wrong for one of the three commands.
fn check_label(label: &mut Label) -> io::Result<()> {
    let mut tally = Tally::silent();
    let mut wrong = Line::new("read CCO".to_string());

    wrong.written.answer = "0 3 CCN".to_string();
    wrong.order.answer = "0 3 0:0:C;1:1:C;2:2:N".to_string();
    wrong.read.answer = "2 1".to_string();
    label.take(Line::new("read C1CC[C@H]1F".to_string()), &mut tally)?;
    label.take(wrong, &mut tally)?;
    label.finish(&mut tally)?;
    assert_eq!(tally.differ(), 4);

    Ok(())
}
