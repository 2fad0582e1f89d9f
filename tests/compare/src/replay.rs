//! A script of standard input played by library and model side by side, to the first difference.

use crate::report::{must, Report};
use crate::runs::Pair;
use crate::script::event_of;
use model::NODES;
use std::io::Read;

/// The number in a line of one word and a number.
fn number_in(line: Option<&&str>, word: &str) -> Option<u64> {
    line?.strip_prefix(word)?.strip_prefix(' ')?.parse().ok()
}

fn refuse(why: &str) -> ! {
    eprintln!("not a script: {why}");
    std::process::exit(2)
}

/// Prints what the rehearsal program prints for each line, from the library's states.
pub fn replay() {
    let mut text = String::new();
    std::io::stdin().read_to_string(&mut text).expect("a script");
    let lines: Vec<&str> = text.lines().collect();
    let size = number_in(lines.first(), "nodes").filter(|size| (1..=u64::from(NODES)).contains(size));
    let size = size.unwrap_or_else(|| refuse(&format!("the first line is not 'nodes P' with P from 1 to {NODES}")));
    let mut pair = Pair::new(size as u32);
    let mut report = Report::default();
    println!("node answer phase pass dim flag busy");
    for line in lines.iter().skip(1) {
        let event = event_of(&pair.board, line).unwrap_or_else(|| refuse(line));
        let acted = must(pair.step(&mut report, event));
        let Some((at, answer)) = acted else {
            println!("{line}: no call");
            continue;
        };
        let state = &pair.states[at as usize];
        println!("{at} {answer} {} {} {} {} {}", state[2], state[4], state[5], state[6], state[3]);
    }
    println!("library and model agree");
}
