//! decoder [read] | generate SEED COUNT | outlines SEED COUNT | tables SEED COUNT FOLDER | turns FOLDER | judge
//! | compare SEED COUNT PROGRAM [ARGUMENT...] | replay | script SEED INDEX | boards SEED COUNT PROGRAM [ARGUMENT...]

mod boards;
mod compare;
mod decode;
mod generate;
mod good;
mod grammar;
mod history;
mod instants;
mod outlines;
mod rng;
mod script;
mod scripts;
mod shapes;
mod table;
#[cfg(test)]
mod tests;
mod turns;
mod words;

use std::io::{Read, Write};
use std::process::exit;

fn main() {
    let args: Vec<String> = std::env::args().skip(1).collect();
    let args: Vec<&str> = args.iter().map(String::as_str).collect();
    let number = |text: &str| text.parse::<u64>().unwrap_or_else(|_| usage());
    match args[..] {
        // Without arguments it stands in for the program, to try the comparison.
        [] | ["read"] => {
            let mut text = Vec::new();
            std::io::stdin().take(2049).read_to_end(&mut text).expect("standard input");
            let reply = decode::decode(&text);
            std::io::stdout().write_all(&compare::printed(&reply)).expect("standard output");
        }
        ["generate", seed, count] => {
            for index in 0..number(count) {
                let (class, text) = generate::bulletin(number(seed), index);
                println!("{:8} b\"{}\"", generate::CLASSES[class], text.escape_ascii());
            }
        }
        ["outlines", seed, count] => print!("{}", outlines::table(number(seed), number(count))),
        ["tables", seed, count, folder] => table::random(number(seed), number(count), folder).expect("the folder"),
        ["turns", folder] => table::turns(folder).expect("the folder"),
        ["judge"] => print!("{}", table::judge(&std::io::read_to_string(std::io::stdin()).expect("standard input"))),
        ["compare", seed, count, program, ref rest @ ..] => {
            if !compare::compare(program, rest, number(seed), number(count)) {
                exit(1);
            }
        }
        // Stands in for the program `replay`.
        ["replay"] => {
            let mut script = Vec::new();
            std::io::stdin().read_to_end(&mut script).expect("standard input");
            script::replay(&script).iter().for_each(|(_, line)| print!("{line}"));
        }
        ["script", seed, index] => {
            std::io::stdout().write_all(&scripts::script(number(seed), number(index))).expect("standard output");
        }
        ["boards", seed, count, program, ref rest @ ..] => {
            if !boards::compare(program, rest, number(seed), number(count)) {
                exit(1);
            }
        }
        _ => usage(),
    }
}

fn usage() -> ! {
    eprintln!("usage: decoder [read] | generate SEED COUNT | outlines SEED COUNT | tables SEED COUNT FOLDER | turns FOLDER | judge");
    eprintln!("               | compare SEED COUNT PROGRAM [ARGUMENT...] | replay | script SEED INDEX | boards SEED COUNT PROGRAM [ARGUMENT...]");
    exit(2)
}
