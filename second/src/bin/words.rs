//! Prints test vectors of the word code, one a line:
//! hi lo parity decoded-hi decoded-lo flag place place
//!
//! Flag and places (bit numbers 0..125) are decimal, all else is hex; a place is - where none.
//! Of every eight lines, seven are code words with 0 to 6 flips and one is a random word.

use second::word::{encode, join, only_bit, parity, split, Decoder, Mend};
use second::xorshift::Xorshift;
use std::io::{self, BufWriter, Write};
use std::process::ExitCode;

const SEED: u64 = 0x0126_0110_0001_4EAB;

fn vector(random: &mut Xorshift, line: u64) -> u128 {
    let (hi, lo) = (random.next_u64(), random.next_u64());
    let flips = (line % 8) as u32;
    if flips == 7 {
        return join(hi, lo);
    }
    let (hi, lo) = encode(hi, lo);
    let mut pattern = 0u128;
    while pattern.count_ones() < flips {
        pattern |= only_bit(random.below(126) as u8);
    }
    join(hi, lo) ^ pattern
}

fn print(count: u64) -> io::Result<()> {
    let decoder = Decoder::new();
    let mut random = Xorshift::new(SEED);
    let mut out = BufWriter::new(io::stdout().lock());
    for line in 0..count {
        let word = vector(&mut random, line);
        let (taken, mend) = decoder.decode(word);
        let (hi, lo) = split(word);
        let (taken_hi, taken_lo) = split(taken);
        let places = match mend {
            Mend::Clean | Mend::Flagged => "- -".to_string(),
            Mend::One(a) => format!("{a} -"),
            Mend::Two(a, b) => format!("{a} {b}"),
        };
        let parity = parity(word >> 16);
        let flag = mend.flag();
        writeln!(
            out,
            "{hi:016x} {lo:016x} {parity:04x} {taken_hi:016x} {taken_lo:016x} {flag} {places}"
        )?;
    }
    out.flush()
}

fn main() -> ExitCode {
    let count = match std::env::args().nth(1) {
        None => 1000,
        Some(text) => match text.parse() {
            Ok(count) => count,
            Err(_) => {
                eprintln!("usage: words [number of lines]");
                return ExitCode::from(2);
            }
        },
    };
    match print(count) {
        Ok(()) => ExitCode::SUCCESS,
        Err(error) => {
            eprintln!("words: {error}");
            ExitCode::FAILURE
        }
    }
}
