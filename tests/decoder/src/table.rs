//! Tables of the program `examples`, which reads a whole one in one run: bulletins with their replies, written here and read here.

use crate::decode::{decode, Reply};
use crate::generate::{bulletin, CLASSES};
use crate::turns;

/// Bytes of a table, within the room that `examples` has.
const ROOM: usize = 250_000;

/// Bytes as `examples` takes them: `\s` for 128 spaces, `\xHH` for what is no ASCII and for the two signs that the table itself has.
fn escaped(text: &[u8]) -> String {
    let mut out = String::new();
    let mut i = 0;
    while i < text.len() {
        let b = text[i];
        if text.len() - i >= 128 && text[i..i + 128].iter().all(|&x| x == b' ') {
            out.push_str("\\s");
            i += 128;
            continue;
        }
        match b {
            b'\r' => out.push_str("\\r"),
            b'\n' => out.push_str("\\n"),
            b' '..=b'~' if b != b'\\' && b != b'|' => out.push(b as char),
            _ => out.push_str(&format!("\\x{b:02x}")),
        }
        i += 1;
    }
    out
}

/// The texts of a row: the bulletin, and its canonical text where it has one and that is another.
fn texts(bulletin: &[u8], reply: &Reply) -> String {
    if reply.number != 0 || reply.canonical == bulletin {
        return escaped(bulletin);
    }
    format!("{}|{}", escaped(bulletin), escaped(&reply.canonical))
}

fn named(name: &str, text: &[u8]) -> String {
    let reply = decode(text);
    format!("{name} {} {}\n", reply.numbers(), texts(text, &reply))
}

/// The row of this random bulletin.
pub fn row(seed: u64, index: u64) -> String {
    let (class, text) = bulletin(seed, index);
    named(&format!("{}-{index}", CLASSES[class]), &text)
}

/// The rows of the bulletins of this length, with what stands at the ends of turns.
fn rows(length: usize) -> impl Iterator<Item = String> {
    let texts = turns::bulletins(length).into_iter().enumerate();
    texts.map(move |(k, text)| named(&format!("length-{length}-{k}"), &text))
}

/// Writes these rows to the tables FOLDER/0, FOLDER/1, …
fn write(rows: impl Iterator<Item = String>, folder: &str) -> std::io::Result<()> {
    let (mut table, mut number) = (String::new(), 0);
    for line in rows {
        if table.len() + line.len() > ROOM {
            std::fs::write(format!("{folder}/{number}"), &table)?;
            table.clear();
            number += 1;
        }
        table.push_str(&line);
    }
    std::fs::write(format!("{folder}/{number}"), &table)
}

/// Tables of this many random bulletins.
pub fn random(seed: u64, count: u64, folder: &str) -> std::io::Result<()> {
    write((0..count).map(|index| row(seed, index)), folder)
}

/// Tables of bulletins of every length, up to the first that is too long.
pub fn turns(folder: &str) -> std::io::Result<()> {
    write((0..=2049).flat_map(rows), folder)
}

/// What stands for a byte in a table, and how long that is.
fn piece(text: &str) -> (Vec<u8>, usize) {
    let mark = text.as_bytes().get(1);
    match (text.as_bytes()[0], mark) {
        (b'\\', Some(b'r')) => (vec![b'\r'], 2),
        (b'\\', Some(b'n')) => (vec![b'\n'], 2),
        (b'\\', Some(b's')) => (vec![b' '; 128], 2),
        (b'\\', Some(b'x')) => (vec![u8::from_str_radix(&text[2..4], 16).expect("two digits")], 4),
        (byte, _) => (vec![byte], 1),
    }
}

fn unescaped(mut text: &str) -> Vec<u8> {
    let mut out = Vec::new();
    while !text.is_empty() {
        let (bytes, length) = piece(text);
        out.extend(bytes);
        text = &text[length..];
    }
    out
}

/// What `examples` prints for a row: its reply here, and whether that and the canonical text are the expected ones.
fn judged(row: &str) -> String {
    let parts: Vec<&str> = row.splitn(5, ' ').collect();
    let texts = parts.get(4).copied().unwrap_or("");
    let (bulletin, canonical) = texts.split_once('|').unwrap_or((texts, texts));
    let reply = decode(&unescaped(bulletin));
    let given = reply.numbers();
    let same = given == parts[1..4].join(" ") && (reply.number != 0 || reply.canonical == unescaped(canonical));
    format!("{}: {given} {}\n", parts[0], if same { "ok" } else { "WRONG" })
}

/// What `examples` prints for a table where the decoder is right.
pub fn judge(table: &str) -> String {
    let rows = table.lines().filter(|row| !row.is_empty() && !row.starts_with('#'));
    let mut out: String = rows.map(judged).collect();
    let (ok, all) = (out.lines().filter(|line| line.ends_with(" ok")).count(), out.lines().count());
    out.push_str(&format!("{ok} ok, {} wrong\n", all - ok));
    out
}
