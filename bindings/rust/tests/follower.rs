// The events that are told to a follower of one's own: as the lists have them, and as a builder and a writer understand them.
use mavisdrok::{read, read_into, AtomKind, BondKind, Builder, Error, Follower, Rnum, Writer};

mod form;
use form::{bond_form, bytes, graph, kind_form, refused, rows};

/// A follower that notes what it is told, in the lists' form of events; it can refuse to hear more than so many.
#[derive(Default)]
struct Notes {
    events: Vec<String>,
    atoms: Vec<AtomKind>,
    most: Option<usize>,
}

impl Notes {
    fn note(&mut self, event: String) -> Result<(), Error> {
        if self.most == Some(self.events.len()) {
            return Err(Error::AtomRoom(self.events.len()));
        }
        self.events.push(event);
        Ok(())
    }
}

impl Follower for Notes {
    fn root(&mut self, root: AtomKind) -> Result<(), Error> {
        self.atoms.push(root);
        self.note(format!("r{}", kind_form(root)))
    }

    fn extend(&mut self, bond: BondKind, atom: AtomKind) -> Result<(), Error> {
        self.atoms.push(atom);
        self.note(format!("x{}{}", bond_form(bond), kind_form(atom)))
    }

    fn join(&mut self, bond: BondKind, rnum: Rnum) -> Result<(), Error> {
        self.note(format!("j{}{}", bond_form(bond), rnum.number()))
    }

    fn pop(&mut self, depth: usize) -> Result<(), Error> {
        self.note(format!("p{depth}"))
    }
}

fn noted(text: &[u8]) -> Result<String, Error> {
    let mut notes = Notes::default();
    read_into(text, &mut notes)?;
    Ok(notes.events.join(";"))
}

/// As purr's `read` and `walk` tell them.
#[test]
fn events_are_purrs() {
    let read_events = [
        ("C", "rC"),
        ("CC(=O)N", "rC;xeC;x=O;p1;xeN"),
        ("C1CC[C@H]1F", "rC;je1;xeC;xeC;xe[~,C,TH1,1,~,~];je1;xeF"),
        ("C(.N(C)C)=O.[Na+]", "rC;rN;xeC;p1;xeC;p2;x=O;r[~,Na,~,~,1,~]"),
        ("F/C=C\\F", "rF;x/C;x=C;x\\F"),
        ("C%42=1$C:%42", "rC;je42;j=1;x$C;j:42"),
        ("C(C(C)C)(C)", "rC;xeC;xeC;p1;xeC;p2;xeC;p1"),
        ("C1CC", "rC;je1;xeC;xeC"),
        ("N[P@OH26H-2]O", "rN;xe[~,P,OH26,1,-2,~];xeO"),
    ];
    for (text, events) in read_events {
        assert_eq!(noted(text.as_bytes()).as_deref(), Ok(events), "{text}");
    }
    let walk_events = [
        ("C1CC[C@H]1F", "rC;xe[~,C,TH2,1,~,~];xeC;xeC;je1;p2;xeF;p2;je1"),
        ("C.O", "rC;rO"),
    ];
    for (text, events) in walk_events {
        let mut notes = Notes::default();
        read(text.as_bytes()).unwrap().walk(&mut notes).unwrap();
        assert_eq!(notes.events.join(";"), events, "{text}");
    }
}

#[test]
fn a_builder_that_is_told_a_text_builds_what_is_read() {
    for name in ["lines", "damaged", "short"] {
        for (asked, _) in rows(name, "read") {
            let text = bytes(&asked);
            let mut builder = Builder::new();
            let told = read_into(&text, &mut builder).and_then(|()| builder.build());
            let inverted = matches!(read(&text), Err(Error::Inversion(_)));
            assert!(told == read(&text) || inverted && told.is_err(), "{asked}: {told:?}");
        }
    }
}

#[test]
fn a_writer_that_is_told_a_walk_writes_what_is_written() {
    for (name, sort) in [("graphs", "write"), ("broken", "write"), ("rings", "write"), ("order", "order")] {
        for (asked, _) in rows(name, sort) {
            let graph = graph(&asked);
            let mut writer = Writer::new();
            let told = graph.walk(&mut writer).map(|()| writer.write());
            assert_eq!(told, graph.write(), "{asked}");
        }
    }
}

/// The list has each atom in walk order, its number in that order, and its text, which the events tell.
#[test]
fn a_walk_meets_the_atoms_in_their_order() {
    for (asked, expected) in rows("order", "order") {
        let graph = graph(&asked);
        let mut notes = Notes::default();
        let told = graph.walk(&mut notes).and_then(|()| graph.order()).map_or_else(refused, |order| {
            let met: Vec<String> = order
                .walked
                .iter()
                .zip(&notes.atoms)
                .map(|(&id, atom)| format!("{id}:{}:{atom}", order.number[id as usize]))
                .collect();
            format!("0 {} {}", order.walked.len(), met.join(";"))
        });
        assert_eq!(told, expected, "{asked}");
    }
}

#[test]
fn a_refused_text_or_graph_tells_nothing() {
    let mut notes = Notes::default();
    assert_eq!(read_into(b"CCC)", &mut notes), Err(Error::Character(3)));
    assert_eq!(read_into(b"N[P@OH26H-2]O)", &mut notes), Err(Error::Character(13)));
    assert_eq!(read_into(b"N[P@OH26H-2][C", &mut notes), Err(Error::EndOfLine));
    let graph = read(b"C1C1").unwrap();
    assert_eq!(graph.walk(&mut notes), graph.write().map(|_| ()));
    assert!(graph.write().is_err());
    assert_eq!(notes.events.len(), 0);
}

#[test]
fn what_a_follower_refuses_ends_the_telling() {
    let mut notes = Notes { most: Some(2), ..Notes::default() };
    assert_eq!(read_into(b"CCCC", &mut notes), Err(Error::AtomRoom(2)));
    assert_eq!(notes.events, ["rC", "xeC"]);
}
