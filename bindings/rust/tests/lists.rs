// Compares with the stored answers of purr: lines read, with every field of their atoms and bonds, and lines and graphs written.
use mavisdrok::{read, rewrite, Error, Graph};

mod form;
use form::{bytes, graph, graph_form, refused, rows, text};

fn written(line: Result<String, Error>) -> String {
    line.map_or_else(refused, |line| format!("0 {} {}", line.len(), text(&line)))
}

fn graph_answer(graph: &Graph) -> String {
    let entries: usize = graph.iter().map(|atom| atom.bonds().count()).sum();
    format!("0 {} {entries} {}", graph.len(), graph_form(graph))
}

#[test]
fn lines_are_read_as_listed() {
    for name in ["lines", "damaged", "short"] {
        for (asked, expected) in rows(name, "read") {
            let answer = read(&bytes(&asked)).as_ref().map_or_else(|&error| refused(error), graph_answer);
            assert_eq!(answer, expected, "{asked}");
        }
    }
}

#[test]
fn lines_are_rewritten_as_listed() {
    for (asked, expected) in rows("rewrite", "rewrite") {
        assert_eq!(written(rewrite(&bytes(&asked))), expected, "{asked}");
    }
}

#[test]
fn graphs_are_written_as_listed() {
    for name in ["graphs", "broken", "rings"] {
        for (asked, expected) in rows(name, "write") {
            assert_eq!(written(graph(&asked).write()), expected, "{asked}");
        }
    }
}

#[test]
fn words_that_stand_for_nothing_are_refused() {
    assert_eq!(Graph::from_words(vec![], vec![]).unwrap().write().unwrap(), "");
    assert_eq!(Graph::from_words(vec![7; 6], vec![]), Err(Error::BadTable(0)));
    assert_eq!(Graph::from_words(vec![3, 0, 0, 3], vec![]), Err(Error::BadTable(1)));
    assert_eq!(Graph::from_words(vec![3, 0, 0], vec![1, 0]), Err(Error::BadTable(1)));
    assert_eq!(Graph::from_words(vec![u32::MAX; 300], vec![u32::MAX; 300]), Err(Error::BadTable(0)));
    assert_eq!(Graph::from_words([3, 0, 0].repeat(1025), vec![]), Err(Error::AtomRoom(1025)));
    let alone = Graph::from_words(vec![3, 0, 1], vec![1, 7]).unwrap();
    assert_eq!(alone.write(), Err(Error::UnknownTarget(0, 7)));
}

#[test]
fn a_refusal_is_an_error_with_its_number_its_name_and_its_place() {
    fn labelled(line: &str) -> Result<String, Box<dyn std::error::Error>> {
        Ok(read(line.as_bytes())?.write()?)
    }
    assert_eq!(labelled("OCC").unwrap(), "OCC");
    assert_eq!(labelled("C)").unwrap_err().to_string(), "2 Character: the character at place 1 cannot stand there");
    assert_eq!(labelled("C1C1").unwrap_err().to_string(), "8 DuplicateBond: atoms 0 and 1 are bonded twice");
}
