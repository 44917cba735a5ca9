//! The generators: each makes requests, the same ones on every machine.

mod atoms;
mod events;
mod features;
mod graphs;
mod lines;
mod rings;
mod short;

use crate::answer;
use crate::form;
use crate::random::Random;

/// The requests of the generator that is called by these words: its name and
/// its arguments. None if there is no such generator or an argument is wrong.
pub fn requests(words: &[&str]) -> Option<Box<dyn Iterator<Item = String>>> {
    match words {
        ["features"] => Some(Box::new(features::requests().into_iter())),
        ["short", alphabet, longest] => {
            let alphabet = form::parse_text(alphabet)?.chars().collect();

            Some(Box::new(short::requests(
                alphabet,
                form::parse_number(longest)?,
            )))
        }
        [name, seed, count] => {
            let request = random_request(name)?;
            let mut random = Random::new(form::parse_number(seed)?);
            let count: usize = form::parse_number(count)?;

            Some(Box::new((0..count).map(move |_| request(&mut random))))
        }
        _ => None,
    }
}

/// The like with another operation of the same arguments. Those that it cannot
/// take are left out.
pub fn requests_as(operation: &str, words: &[&str]) -> Option<Box<dyn Iterator<Item = String>>> {
    let operation = operation.to_string();
    let changed = requests(words)?
        .map(move |request| format!("{} {}", operation, answer::split(&request).1))
        .filter(|request| answer::answer(request).is_some());

    Some(Box::new(changed))
}

fn random_request(name: &str) -> Option<fn(&mut Random) -> String> {
    Some(match name {
        "atoms" => atoms::request,
        "lines" => lines::request,
        "damaged" => lines::damaged_request,
        "bytes" => lines::bytes_request,
        "graphs" => graphs::request,
        "broken" => graphs::broken_request,
        "builder" => events::builder_request,
        "writer" => events::writer_request,
        "pool" => events::pool_request,
        "rooms" => graphs::room_request,
        _ => return None,
    })
}
