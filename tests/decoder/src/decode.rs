//! The reader's whole reply to a bulletin.

use crate::grammar::Parser;
use crate::words::{cut, Word};

#[derive(Debug, PartialEq)]
pub struct Reply {
    pub number: u8,
    pub place: usize,
    /// Of what is refused; that of the word for 4 to 12, the `=` being a word.
    pub length: usize,
    /// The canonical text; empty where the bulletin is refused.
    pub canonical: Vec<u8>,
}

impl Reply {
    /// Number, place and length, as the programs print them.
    pub fn numbers(&self) -> String {
        format!("{} {} {}", self.number, self.place, self.length)
    }
}

fn refused(number: u8, place: usize, length: usize) -> Reply {
    Reply { number, place, length, canonical: Vec::new() }
}

pub fn decode(bulletin: &[u8]) -> Reply {
    let words = match cut(bulletin) {
        Ok(words) => words,
        Err((number, place, length)) => return refused(number, place, length),
    };
    let mut parser = Parser::new();
    for word in &words {
        if let Err(number) = parser.take(word.text) {
            return refused(number, word.place, word.text.len());
        }
    }
    Reply { number: 0, place: 0, length: 0, canonical: canonical(&words, parser.corrected) }
}

/// All parts are kept as written, so only the blanks change.
fn canonical(words: &[Word], corrected: bool) -> Vec<u8> {
    let heading = if corrected { 4 } else { 3 };
    let first_line = heading + 6;
    let mut text = String::new();
    for (i, word) in words.iter().enumerate() {
        text.push_str(match i {
            0 => "",
            _ if i == heading || i == first_line => "\r\n",
            _ if word.text == "=" => "",
            _ => " ",
        });
        text.push_str(word.text);
    }
    text.into_bytes()
}
