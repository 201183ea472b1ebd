//! Prints the report on a capture, read from the file named or else from standard input.
//!
//! The verdict stands in the report only: the exit status tells whether the capture could be read.

use second::run::Run;
use std::ffi::OsString;
use std::fs::File;
use std::io::{self, Write};
use std::process::ExitCode;

/// A file that cannot be opened is a read that fails: nothing is measured.
fn follow(run: &mut Run, name: Option<OsString>) -> io::Result<()> {
    match name {
        None => run.follow(io::stdin().lock()),
        Some(name) => run.follow(File::open(name)?),
    }
}

fn main() -> ExitCode {
    let mut arguments = std::env::args_os().skip(1);
    let name = arguments.next();
    if arguments.next().is_some() {
        eprintln!("usage: examine [file of a capture]");
        return ExitCode::from(2);
    }
    let mut run = Run::new();
    let read = follow(&mut run, name);
    let printed = io::stdout().write_all(run.report().as_bytes());
    match read.and(printed) {
        Ok(()) => ExitCode::SUCCESS,
        Err(error) => {
            eprintln!("examine: {error}");
            ExitCode::FAILURE
        }
    }
}
