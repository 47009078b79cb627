#![forbid(unsafe_code)]

use plain::program::{run_program, Streams};
use plain::spool::OpenGate;
use std::env;
use std::io;
use std::process::ExitCode;

fn main() -> ExitCode {
    // A word that is no text is no word of any command.
    let words: Vec<String> = env::args_os().skip(1).map(|word| word.into_string().unwrap_or_default()).collect();
    let mut streams =
        Streams { input: io::stdin().lock(), report: io::stdout().lock(), journal: io::stderr(), notes: io::stderr() };
    ExitCode::from(run_program(&words, &mut streams, &OpenGate).exit())
}
