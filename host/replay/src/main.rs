//! paper-replay: a recorded pass from standard input, or from the file named as the first argument.

#![forbid(unsafe_code)]

use std::fs::File;
use std::io::{self, BufReader, BufWriter};
use std::process::ExitCode;

fn main() -> ExitCode {
    let output = BufWriter::new(io::stdout().lock());
    let outcome = match std::env::args_os().nth(1) {
        Some(name) => File::open(name).and_then(|file| paper_replay::replay(BufReader::new(file), output)),
        None => paper_replay::replay(io::stdin().lock(), output),
    };
    match outcome {
        Ok(()) => ExitCode::SUCCESS,
        Err(what) => {
            eprintln!("paper-replay: {what}");
            ExitCode::FAILURE
        }
    }
}
