//! `shiulbart`: shapes in files, judged, shown, filled and joined by the proved calls.
//!
//! The program takes no shape, sheet or table apart itself. What it says of one comes from a call of
//! the safe crate, and what a call refuses it refuses, in the call's words. It puts bytes together in
//! one place only, `commands/sheet.rs`, and there the proved check has the last word.

#![forbid(unsafe_code)]

mod args;
mod commands;
mod dump;
mod help;
mod hex;
mod input;
mod json;
mod outcome;
mod output;
mod refused;
mod tree;
mod words;

use args::Request;
use std::io::{self, Write};
use std::process::ExitCode;

/// Why there is neither an answer nor a refusal: one line for standard error, and exit status 2.
#[derive(Debug, PartialEq, Eq)]
struct Trouble(String);

impl Trouble {
    /// Trouble with a file, or with what else has a name.
    fn with(name: &str, what: impl std::fmt::Display) -> Trouble {
        Trouble(format!("{name}: {what}"))
    }
}

const ANSWERED: u8 = 0;
const REFUSED: u8 = 1;
const BAD_USE: u8 = 2;

fn main() -> ExitCode {
    let done = args::request(std::env::args_os().skip(1)).and_then(serve);
    ExitCode::from(done.unwrap_or_else(|Trouble(line)| {
        // where standard error is closed too, the exit status alone can tell
        let _ = writeln!(io::stderr(), "shiulbart: {line}");
        BAD_USE
    }))
}

fn serve(request: Request) -> Result<u8, Trouble> {
    match request {
        Request::Help(topic) => output::print(help::page(topic).as_bytes()).map(|()| ANSWERED),
        Request::Version => {
            let line = format!("shiulbart {}\n", env!("CARGO_PKG_VERSION"));
            output::print(line.as_bytes()).map(|()| ANSWERED)
        }
        Request::Run(command, options) => {
            let outcome = commands::run(&command, &options)?;
            outcome.deliver(command.name(), &options)?;
            Ok(if outcome.answered { ANSWERED } else { REFUSED })
        }
    }
}
