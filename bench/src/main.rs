//! Compares and measures the proved library from outside: one subcommand for each purpose.
mod oracle;
mod proved;
mod reader;
mod speed;

use std::process::ExitCode;

const USAGE: &str = "usage: bench oracle [SHEETS] [TASKS] [SEED] | bench speed";

fn main() -> ExitCode {
    let words: Vec<String> = std::env::args().skip(1).collect();
    match words.first().map(String::as_str) {
        Some("oracle") => oracle::command(&words[1..]),
        Some("speed") => speed::command(&words[1..]),
        _ => {
            eprintln!("{USAGE}");
            ExitCode::from(2)
        }
    }
}
