//! Runs a program with a file on its standard input that comes in parts, to its end or to a read that fails.
//!
//! The input is a stream socket. If its other end is closed with a byte left unread there, a read gives what was sent, and then an
//! error.

use std::ffi::OsString;
use std::fs;
use std::io::{self, Write};
use std::os::fd::OwnedFd;
use std::os::unix::net::UnixStream;
use std::process::{Command, ExitCode, Stdio};
use std::thread;
use std::time::Duration;

/// Long enough for the program to have read what came before.
const PAUSE: Duration = Duration::from_millis(2);

fn send(mut to: UnixStream, bytes: &[u8], part: usize) -> io::Result<()> {
    for part in bytes.chunks(part) {
        to.write_all(part)?;
        thread::sleep(PAUSE);
    }
    Ok(())
}

fn run(
    part: usize,
    fails: bool,
    mut rest: impl Iterator<Item = OsString>,
) -> Option<io::Result<bool>> {
    let (file, program) = (rest.next()?, rest.next()?);
    Some((|| {
        let bytes = fs::read(file)?;
        let (mut near, far) = UnixStream::pair()?;
        if fails {
            near.write_all(&[0])?;
        }
        let sending = thread::spawn(move || send(far, &bytes, part));
        let status = Command::new(program)
            .args(rest)
            .stdin(Stdio::from(OwnedFd::from(near)))
            .status()?;
        // a program that stops early reads no more: that is no failure here
        let _ = sending.join();
        Ok(status.success())
    })())
}

fn main() -> ExitCode {
    let mut arguments = std::env::args_os().skip(1);
    let part = arguments
        .next()
        .and_then(|n| n.to_str()?.parse().ok())
        .filter(|&n| n > 0);
    let fails = match arguments.next() {
        Some(end) if end == "ends" => Some(false),
        Some(end) if end == "fails" => Some(true),
        _ => None,
    };
    let done = match (part, fails) {
        (Some(part), Some(fails)) => run(part, fails, arguments),
        _ => None,
    };
    match done {
        Some(Ok(true)) => ExitCode::SUCCESS,
        Some(Ok(false)) => ExitCode::FAILURE,
        Some(Err(error)) => {
            eprintln!("feed: {error}");
            ExitCode::FAILURE
        }
        None => {
            eprintln!("usage: feed BYTES-AT-A-TIME ends|fails FILE PROGRAM [ARGUMENT..]");
            ExitCode::from(2)
        }
    }
}
