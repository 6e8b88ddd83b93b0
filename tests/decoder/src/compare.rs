//! The comparison with another program, bulletin by bulletin.

use crate::decode::{decode, Reply};
use crate::generate::{bulletin, CLASSES};
use std::io::Write;
use std::process::{Command, Output, Stdio};
use std::sync::atomic::{AtomicU64, Ordering};
use std::sync::Mutex;

#[derive(Default)]
struct Tally {
    tried: [[u64; 13]; CLASSES.len()],
    disagreements: u64,
    failure: Option<String>,
}

const MOST: u64 = 20;

/// What the program prints for a reply, canonical text included.
pub fn printed(reply: &Reply) -> Vec<u8> {
    let mut out = format!("{}\n", reply.numbers()).into_bytes();
    if reply.number == 0 {
        out.extend(&reply.canonical);
        out.push(b'\n');
    }
    out
}

fn run(program: &str, words: &[&str], text: &[u8]) -> std::io::Result<Output> {
    let mut command = Command::new(program);
    command.args(words).stdin(Stdio::piped()).stdout(Stdio::piped()).stderr(Stdio::piped());
    let mut child = command.spawn()?;
    // A program that has seen enough may close its end: no matter.
    let _ = child.stdin.take().unwrap().write_all(text);
    child.wait_with_output()
}

/// Every byte printed must agree; no death by a signal.
fn agrees(output: &Output, reply: &Reply) -> bool {
    output.status.code().is_some() && output.stdout == printed(reply)
}

/// Compares `count` bulletins; true where all agree.
pub fn compare(program: &str, words: &[&str], seed: u64, count: u64) -> bool {
    let next = AtomicU64::new(0);
    let tally = Mutex::new(Tally::default());
    let work = || loop {
        let index = next.fetch_add(1, Ordering::Relaxed);
        if index >= count {
            return;
        }
        let (class, text) = bulletin(seed, index);
        let reply = decode(&text);
        let result = run(program, words, &text);
        let mut tally = tally.lock().unwrap();
        if tally.disagreements >= MOST || tally.failure.is_some() {
            return;
        }
        match result {
            Err(error) => tally.failure = Some(error.to_string()),
            Ok(output) => {
                tally.tried[class][reply.number as usize] += 1;
                if !agrees(&output, &reply) {
                    tally.disagreements += 1;
                    println!("DISAGREEMENT: seed {seed}, index {index}, class {}", CLASSES[class]);
                    println!("  bulletin: b\"{}\"", text.escape_ascii());
                    println!("  decoder:  \"{}\"", printed(&reply).escape_ascii());
                    println!("  program:  \"{}\" ({})", output.stdout.escape_ascii(), output.status);
                }
            }
        }
    };
    std::thread::scope(|scope| {
        for _ in 0..2 {
            scope.spawn(work);
        }
    });
    let tally = tally.into_inner().unwrap();
    report(&tally);
    tally.disagreements == 0 && tally.failure.is_none()
}

fn report(tally: &Tally) {
    print!("{:10}{:>8}", "class", "all");
    (0..13).for_each(|n| print!("{n:>7}"));
    println!();
    let row = |name: &str, counts: &[u64; 13]| {
        print!("{name:10}{:>8}", counts.iter().sum::<u64>());
        counts.iter().for_each(|n| print!("{n:>7}"));
        println!();
    };
    let mut all = [0; 13];
    for (name, counts) in CLASSES.iter().zip(&tally.tried) {
        row(name, counts);
        (0..13).for_each(|n| all[n] += counts[n]);
    }
    row("all", &all);
    println!("canonical texts compared: {}", all[0]);
    println!("disagreements: {}", tally.disagreements);
    if let Some(failure) = &tally.failure {
        println!("the program could not be run: {failure}");
    }
}
