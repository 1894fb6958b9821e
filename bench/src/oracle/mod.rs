//! An implementation of its own of sheets, tasks and verdicts, written from the documents, and the comparison of the
//! proved library with it. What a proof cannot see is whether the definitions say what was meant; this can.
mod calls;
mod costs;
mod damage;
mod heuristic;
mod invent;
mod marking;
mod marks;
mod random;
mod readers;
mod rules;
mod sheet;
mod sheets;
mod tally;
mod task;
mod world;
mod writer;

use std::process::ExitCode;
use tally::Tally;

const SHEETS: u64 = 1_000_000;
const TASKS: u64 = 100_000;
const SEED: u64 = 20_240_229;

/// `bench oracle [SHEETS] [TASKS] [SEED]`; fails if there was a difference.
pub fn command(words: &[String]) -> ExitCode {
    let mut numbers = [SHEETS, TASKS, SEED];
    for (number, word) in numbers.iter_mut().zip(words) {
        match word.replace('_', "").parse() {
            Ok(told) => *number = told,
            Err(_) => {
                eprintln!("not a number: {word}");
                return ExitCode::from(2);
            }
        }
    }
    let [sheets, tasks, seed] = numbers;
    let mut tally = Tally::default();
    println!("seed {seed}");
    for index in 0..sheets {
        sheets::compare(&mut tally, seed, index);
    }
    for index in 0..tasks {
        marks::compare(&mut tally, seed, index);
    }
    readers::texts(&mut tally);
    tally.print();
    ExitCode::from(u8::from(tally.differences > 0))
}
