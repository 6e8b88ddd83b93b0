//! Scripts for the program `replay`, carried out with the decoder and the history (docs/REPLAY.md has the grammar).

use crate::decode::decode;
use crate::history::{History, Message};

pub const MOST: usize = 1_048_576;

pub enum Command<'a> {
    Post { clock: u32, bulletin: &'a [u8] },
    List { time: u32, room: usize },
}

/// A line up to its LF, and what follows.
fn line(script: &[u8]) -> Option<(&[u8], &[u8])> {
    let end = script.iter().position(|&b| b == b'\n')?;
    Some((&script[..end], &script[end + 1..]))
}

fn number(word: &str) -> Option<u32> {
    let digits = !word.is_empty() && word.bytes().all(|b| b.is_ascii_digit());
    let value = word.trim_start_matches('0');
    match value {
        _ if !digits => None,
        "" => Some(0),
        _ => value.parse().ok(),
    }
}

/// The first command of a script, and what follows; nothing where it is not well-formed.
pub fn command(script: &[u8]) -> Option<(Command<'_>, &[u8])> {
    let (head, rest) = line(script)?;
    let words: Vec<&str> = std::str::from_utf8(head).ok()?.split(' ').collect();
    let [letter, first, second] = words[..] else { return None };
    let (first, second) = (number(first)?, number(second)? as usize);
    match letter {
        "L" if second <= 2_000 => Some((Command::List { time: first, room: second }, rest)),
        "P" if rest.get(second) == Some(&b'\n') => {
            Some((Command::Post { clock: first, bulletin: &rest[..second] }, &rest[second + 1..]))
        }
        _ => None,
    }
}

/// The line that a command prints.
fn carried_out(history: &mut History, command: &Command) -> String {
    match *command {
        Command::Post { clock, bulletin } => {
            let reply = decode(bulletin);
            if reply.number > 0 {
                return format!("r {}\n", reply.numbers());
            }
            format!("p {}\n", history.post(clock, &Message::of(&reply.canonical)))
        }
        Command::List { time, room } => match history.list(time, room) {
            Ok(bytes) => {
                let hex: String = bytes.iter().map(|b| format!("{b:02x}")).collect();
                format!("l 0 {} {hex}\n", bytes.len())
            }
            Err(number) => format!("l {number} 0\n"),
        },
    }
}

/// The lines that a script prints, each with the place where its command begins.
pub fn replay(script: &[u8]) -> Vec<(usize, String)> {
    if script.len() > MOST {
        return vec![(0, "?\n".to_string())];
    }
    let mut history = History::default();
    let mut lines = Vec::new();
    let mut rest = script;
    while !rest.is_empty() {
        let at = script.len() - rest.len();
        let Some((next, after)) = command(rest) else {
            lines.push((at, "?\n".to_string()));
            break;
        };
        lines.push((at, carried_out(&mut history, &next)));
        rest = after;
    }
    lines
}
