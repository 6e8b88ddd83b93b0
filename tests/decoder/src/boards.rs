//! The comparison of `replay` with the history, script by script and line by line.

use crate::script::{command, replay, Command};
use crate::scripts::script;
use std::collections::BTreeMap;
use std::io::Write;
use std::process::{Command as Process, Stdio};

const MOST: usize = 10;

fn run(program: &str, words: &[&str], text: &[u8]) -> std::io::Result<Vec<u8>> {
    let mut child = Process::new(program).args(words).stdin(Stdio::piped()).stdout(Stdio::piped()).spawn()?;
    let mut input = child.stdin.take().unwrap();
    let output = std::thread::scope(|scope| {
        scope.spawn(move || {
            let _ = input.write_all(text);
        });
        child.wait_with_output()
    })?;
    Ok(output.stdout)
}

/// The command at a place of a script, for a reader.
fn shown(script: &[u8], at: usize) -> String {
    match command(&script[at..]) {
        Some((Command::Post { clock, bulletin }, _)) => format!("P {clock} \"{}\"", bulletin.escape_ascii()),
        Some((Command::List { time, room }, _)) => format!("L {time} {room}"),
        None => format!("no command: \"{}\"", script[at..].iter().take(80).copied().collect::<Vec<u8>>().escape_ascii()),
    }
}

/// Compares `count` scripts; true where every line agrees.
pub fn compare(program: &str, words: &[&str], seed: u64, count: u64) -> bool {
    let mut tally: BTreeMap<String, u64> = BTreeMap::new();
    let (mut wrong, mut bytes, mut longest, mut lines) = (0, 0, 0, 0);
    for index in 0..count {
        let script = script(seed, index);
        let expected = replay(&script);
        let said = match run(program, words, &script) {
            Ok(said) => said,
            Err(error) => {
                println!("the program could not be run: {error}");
                return false;
            }
        };
        let said = String::from_utf8_lossy(&said);
        let mut got = said.split_inclusive('\n');
        for (at, line) in &expected {
            let key: Vec<&str> = line.trim_end().split(' ').take(2).collect();
            *tally.entry(key.join(" ")).or_default() += 1;
            if line.starts_with("l 0") {
                longest = longest.max(line.len());
            }
            let other = got.next().unwrap_or("");
            if other != line && wrong < MOST {
                wrong += 1;
                println!("DISAGREEMENT: seed {seed}, script {index}, at byte {at}: {}", shown(&script, *at));
                println!("  history: {}", line.trim_end());
                println!("  program: {}", other.trim_end());
            }
        }
        if got.next().is_some() {
            wrong += 1;
            println!("DISAGREEMENT: seed {seed}, script {index}: more lines than commands");
        }
        bytes += script.len();
        lines += expected.len();
    }
    for (key, times) in &tally {
        println!("{key:6}{times:>9}");
    }
    println!("{count} scripts, {bytes} bytes, {lines} lines; the longest listing has {} bytes", longest.saturating_sub(9) / 2);
    println!("disagreements: {wrong}");
    wrong == 0
}
