// Compares with the stored answers of purr: the lists of events told to a builder and to a writer, and of calls to the pool.
// Where there is no answer, they have `-`.
use mavisdrok::{AtomKind, BondKind, Builder, Error, Follower, JoinPool, Rnum, Writer};

mod form;
use form::{bond, graph, kind, number, parts, rows, text};

/// Tells an event: a root `rC`, an extend `x=C`, a join `je1` or a pop `p1`.
fn tell(follower: &mut impl Follower, event: &str) -> Result<(), Error> {
    let mut rest = event.chars();
    match rest.next().expect("an event") {
        'r' => follower.root(kind(rest.as_str())),
        'x' => follower.extend(bond(rest.next().unwrap()), kind(rest.as_str())),
        'j' => follower.join(bond(rest.next().unwrap()), number(rest.as_str())),
        _ => follower.pop(rest.as_str().parse().unwrap()),
    }
}

/// Tells a row of events to the first that is refused, by its place in the row, in the lists' form.
fn tell_all(follower: &mut impl Follower, events: &str) -> Result<(), String> {
    for (at, event) in parts(events, ';').enumerate() {
        tell(follower, event).map_err(|error| match error {
            Error::Inversion(atom) => format!("refused {at} 10 {atom}"),
            error => format!("refused {at} {}", error.number()),
        })?;
    }
    Ok(())
}

#[test]
fn a_writer_writes_as_listed() {
    for (events, expected) in rows("writer", "writer") {
        let mut writer = Writer::new();
        let answer = match tell_all(&mut writer, &events) {
            Ok(()) => {
                let line = writer.write();
                format!("0 {} {}", line.len(), text(&line))
            }
            Err(refused) => refused,
        };
        assert_eq!(answer, expected, "{events}");
    }
}

#[test]
fn a_builder_builds_as_listed() {
    for (events, expected) in rows("builder", "builder") {
        let mut builder = Builder::new();
        if let Err(refused) = tell_all(&mut builder, &events) {
            assert_eq!(refused, expected, "{events}");
            continue;
        }
        match builder.build() {
            Ok(built) => assert_eq!(built, graph(expected.splitn(4, ' ').nth(3).expect("a graph")), "{events}"),
            Err(Error::Join(closing, opening)) => assert_eq!(format!("3 {closing} {opening}"), expected, "{events}"),
            Err(Error::Rnum(join)) => assert_eq!(format!("4 {join}"), expected, "{events}"),
            Err(error) => panic!("{events}: {error:?}"),
        }
    }
}

#[test]
fn a_pool_hands_out_as_listed() {
    for (calls, expected) in rows("pool", "pool") {
        let mut pool = JoinPool::new();
        let mut answers = Vec::new();
        for call in parts(&calls, ',') {
            let (a, b) = call.split_once('-').expect("a pair");
            let (a, b) = (a.parse().unwrap(), b.parse().unwrap());
            match pool.hit(a, b) {
                Ok(rnum) => answers.push(rnum.number().to_string()),
                Err(error) => {
                    assert_eq!(error, Error::RingNumbers(a as usize, b as usize));
                    answers.push("refused".to_string());
                    break;
                }
            }
        }
        let answer = if answers.is_empty() { "-".to_string() } else { answers.join(",") };
        assert_eq!(answer, expected, "{calls}");
    }
}

#[test]
fn a_refused_event_changes_nothing() {
    let carbon: AtomKind = "C".parse().unwrap();
    let mut builder = Builder::with_room(1, 2);
    builder.root(carbon).unwrap();
    let before = builder.clone();
    assert_eq!(builder.root(carbon), Err(Error::AtomRoom(1)));
    assert_eq!(builder.extend(BondKind::Single, carbon), Err(Error::AtomRoom(1)));
    assert_eq!(builder, before);
    let mut writer = Writer::new();
    writer.root(carbon).unwrap();
    let before = writer.clone();
    assert_eq!(writer.pop(1), Err(Error::Overpop));
    assert_eq!(writer, before);
}

#[test]
fn a_line_grows_beyond_its_first_room() {
    let atom: AtomKind = "[235U+2:92]".parse().unwrap();
    let mut writer = Writer::new();
    writer.root(atom).unwrap();
    for _ in 1..mavisdrok::ATOMS {
        writer.extend(BondKind::Single, atom).unwrap();
    }
    assert_eq!(writer.extend(BondKind::Single, atom), Err(Error::AtomRoom(mavisdrok::ATOMS)));
    assert_eq!(writer.write().len(), 12 * mavisdrok::ATOMS - 1);
}

#[test]
fn texts_are_read_and_spelt() {
    assert_eq!(AtomKind::read(b"Cl1"), AtomKind::read(b"Cl").map(|(kind, _)| (kind, 2)));
    assert_eq!(AtomKind::read(b"[C"), Err(Error::EndOfLine));
    assert_eq!("CC".parse::<AtomKind>(), Err(Error::Character(1)));
    assert_eq!("[13CH3-:7]".parse::<AtomKind>().unwrap().to_string(), "[13CH3-:7]");
    assert_eq!(AtomKind::from_words([0, 0]), Err(Error::BadTable(0)));
    assert_eq!(BondKind::Down.to_string(), "\\");
    assert_eq!(number("42").to_string(), "%42");
    assert_eq!(Rnum::try_from(100), Err(Error::BadTable(0)));
}
