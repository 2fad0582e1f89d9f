//! Holds the libraries to the plain model, through the C functions: `compare [SEED [SCALE]]`, or `compare replay` with a
//! script on standard input.
//!
//! It prints how many cases of each kind it compared, how often each answer came, what was wrong with recordings and
//! which clauses failed at once, and ends with a failure at the first difference: for a call by itself with the call in
//! C, for a run with a script that `compare replay` plays.

mod calls;
mod clauses;
mod frames;
mod library;
mod orders;
mod recording_calls;
mod recording_limits;
mod recordings;
mod replay;
mod report;
mod runs;
mod script;
mod sums;
mod trees;

use model::random::Random;
use report::Report;

/// Answers that each call must have given at least once.
const WANTED: [(&str, &[u32]); 16] = [
    ("dimension", &[0, 1]),
    ("place", &[0, 1, 2, 10]),
    ("distance", &[0, 1, 2, 3]),
    ("frame writer", &[0, 1, 2, 10, 14]),
    ("frame reader", &[0, 1, 2, 9, 10]),
    ("fresh", &[0, 1, 2, 13]),
    ("send", &[0, 2, 3, 4, 5, 13]),
    ("take", &[0, 2, 3, 6, 7, 8, 13]),
    ("take note", &[0, 2, 3, 6, 7, 8, 13]),
    ("idle", &[0, 13]),
    ("frame in", &[0, 2, 3, 7, 8, 9, 10, 11, 13, 24]),
    ("barrier", &[12, 13, 14, 20, 21, 22, 23]),
    ("clause", &[0, 1, 2, 3, 4, 5, 6]),
    (recording_calls::READER, &[0, 14, 18]),
    (recording_calls::WRITER, &[0, 14, 18]),
    (recording_calls::REPLAY, &[0, 18, 19]),
];

/// How many pairs of refusals of a call the cases bring due at once, the earlier being given. For frame in and the frame
/// reader the number is what the cases reach, not one derived from rule R3; fewer means poorer cases.
const PAIRS: [(&str, usize); 13] = [
    ("place", 2),
    ("distance", 3),
    ("fresh", 3),
    ("send", 9),
    ("take", 13),
    ("take note", 13),
    ("barrier", 3),
    ("frame in", 38),
    ("frame reader", 12),
    ("frame writer", 10),
    (recording_calls::READER, 3),
    (recording_calls::WRITER, 1),
    (recording_calls::REPLAY, 1),
];

fn main() {
    if std::env::args().nth(1).is_some_and(|word| word == "replay") {
        return replay::replay();
    }
    let mut arguments = std::env::args().skip(1).map(|word| word.parse::<u64>().expect("a number"));
    let seed = arguments.next().unwrap_or(1);
    let scale = arguments.next().unwrap_or(1);
    let mut random = Random::new(seed);
    let mut report = Report::default();
    trees::compare(&mut report);
    frames::compare(&mut report, &mut random, 20_000 * scale);
    calls::fresh(&mut report);
    orders::compare(&mut report);
    sums::compare(&mut report);
    clauses::compare(&mut report, &mut Random::new(seed));
    for _ in 0..20_000 * scale {
        let words = calls::noise(&mut random);
        calls::every(&mut report, &mut random, &words, &[]);
    }
    runs::compare(&mut report, &mut random, scale);
    recording_limits::compare(&mut report);
    recordings::compare(&mut report, &mut Random::new(seed), scale);
    report.print();
    check_reach(&report);
    println!("seed {seed}, scale {scale}: library and model agree");
}

/// Ends the program where an answer, two refusals due at once, clauses that fail at once, a fault of a recording, or a
/// taker of notes never came.
fn check_reach(report: &Report) {
    let mut missed = clauses::missed(report);
    missed.extend(recording_calls::missed(report));
    let takers = calls::TAKERS.iter().filter(|taker| !report.counted(taker));
    missed.extend(takers.map(|taker| format!("no {taker}")));
    for (call, answers) in WANTED {
        let never = answers.iter().filter(|&&answer| !report.seen(call, answer));
        missed.extend(never.map(|answer| format!("{call} never answered {answer}")));
    }
    for (call, pairs) in PAIRS {
        if report.pairs(call) != pairs {
            missed.push(format!("{call}: {} of {pairs} pairs of refusals due at once", report.pairs(call)));
        }
    }
    if !missed.is_empty() {
        eprintln!("{}", missed.join("\n"));
        std::process::exit(1);
    }
}
