//! All short texts over an alphabet.

use crate::form;

/// `read` requests for every text over the alphabet, the empty one included,
/// up to the longest length; shorter texts come first.
pub fn requests(alphabet: Vec<char>, longest: u32) -> impl Iterator<Item = String> {
    (0..=longest).flat_map(move |length| {
        let alphabet = alphabet.clone();

        (0..alphabet.len().pow(length))
            .map(move |index| format!("read {}", form::print_text(&text(&alphabet, length, index))))
    })
}

// The texts of one length are the numbers of so many digits, the letters of
// the alphabet being the digits.
fn text(alphabet: &[char], length: u32, index: usize) -> String {
    (0..length)
        .rev()
        .map(|digit| alphabet[index / alphabet.len().pow(digit) % alphabet.len()])
        .collect()
}
