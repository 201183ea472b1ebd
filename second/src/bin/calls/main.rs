//! Writes calls of every function of the archive that host/adderbloom.h declares, and what each must answer and
//! leave, as binary records to standard output for host/replay.c, which says how a record is laid
//! out. Seeded, so that the same count and seed give the same bytes.
//!
//! What is written whatever the count: 01's run figures with every pair and triple of flips, every
//! refusal and those that can occur together, entries, records, places, runs, reports, whole
//! captures, test traffic and searches for a frame's start. Then so many frames of each direction.

mod accounts;
mod examined;
mod figures;
mod frames;
mod hunt;
mod lengths;
mod out;
mod records;
mod reports;
mod runs;
mod traffic;
mod verdicts;

use out::Calls;
use second::xorshift::Xorshift;
use std::io::{self, BufWriter};
use std::process::ExitCode;

const SEED: u64 = 0x5280_2880_6144_0384;

fn write_calls(count: u64, seed: u64) -> io::Result<()> {
    let mut random = Xorshift::new(seed);
    let random = &mut random;
    let mut calls = Calls::new(BufWriter::new(io::stdout().lock()));
    let calls = &mut calls;
    figures::write(calls, random)?;
    lengths::write(calls, random)?;
    accounts::write(calls, random)?;
    verdicts::write(calls, random)?;
    records::write(calls, random)?;
    runs::write(calls, random)?;
    reports::write(calls, random)?;
    examined::write(calls, random)?;
    traffic::write(calls, random)?;
    hunt::write(calls, random)?;
    frames::write(calls, random, count)?;
    calls.end()
}

fn main() -> ExitCode {
    let arguments: Vec<_> = std::env::args().skip(1).collect();
    let numbers: Option<Vec<u64>> = arguments.iter().map(|text| text.parse().ok()).collect();
    let written = match numbers.as_deref() {
        Some([count]) => write_calls(*count, SEED),
        Some([count, seed]) => write_calls(*count, *seed),
        _ => {
            eprintln!("usage: calls FRAMES [SEED]");
            return ExitCode::from(2);
        }
    };
    match written {
        Ok(()) => ExitCode::SUCCESS,
        Err(error) => {
            eprintln!("calls: {error}");
            ExitCode::FAILURE
        }
    }
}

#[cfg(test)]
mod tests {
    use super::*;

    #[test]
    fn the_same_seed_gives_the_same_calls() {
        let written = |seed| {
            let mut bytes = vec![];
            let mut calls = Calls::new(&mut bytes);
            frames::write(&mut calls, &mut Xorshift::new(seed), 20).unwrap();
            bytes
        };
        assert!(written(1) == written(1));
        assert!(written(1) != written(2));
    }
}
