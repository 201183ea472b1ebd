//! Frames of both directions.
//!
//! Of every eight calls of sending six continue one run from a fresh store, one has a random store,
//! and one has wrong lengths, in turn of the input, the store, both, the output, and so on to all.
//!
//! Of every eight calls of receiving six continue one run from a fresh store over the frames of the
//! sender's run: clean, two flips in every word, up to two, twice up to six, and up to six with
//! wrong pilots. One has in turn a random store, random payload, random symbols without lock, or
//! both a random store and random payload; and one has wrong lengths in all 15 ways, in turn of a
//! frame and of random symbols.

use crate::lengths::wrong_length;
use crate::out::Calls;
use second::lanes::{LANES_BYTES, STORE_BYTES};
use second::send::send;
use second::symbols::{bit_place, FRAME_SYMBOLS, PILOTS, PILOT_COUNT, ROW_SYMBOLS};
use second::word::{FRAME_WORDS, WORD_BITS};
use second::xorshift::Xorshift;
use std::io::{self, Write};

pub type Symbols = [u8; FRAME_SYMBOLS];

/// How many pilots are wrong, in turn.
const WRONG_PILOTS: [usize; 7] = [0, 1, 23, 24, 25, 26, PILOT_COUNT];

/// The next frame of a sender's run over random lanes, of which no call is written.
pub fn sent(random: &mut Xorshift, store: &mut [u8]) -> Symbols {
    let mut symbols = [0; FRAME_SYMBOLS];
    assert_eq!(send(&random.bytes(LANES_BYTES), store, &mut symbols), 0);
    symbols
}

pub fn flip(frame: &mut [u8], word: usize, numbers: &[usize]) {
    for &number in numbers {
        let (symbol, bit) = bit_place(word / 32, word % 32, number);
        frame[symbol] ^= bit;
    }
}

pub fn flip_any(random: &mut Xorshift, frame: &mut [u8], word: usize, count: usize) {
    flip(frame, word, &random.choose(usize::from(WORD_BITS), count));
}

/// Flips from `least` to `most` bits of every word.
pub fn damage_words(random: &mut Xorshift, frame: &mut [u8], least: u64, most: u64) {
    for word in 0..FRAME_WORDS {
        let count = least + random.below(most - least + 1);
        flip_any(random, frame, word, count as usize);
    }
}

pub fn damage_pilots(random: &mut Xorshift, frame: &mut [u8], count: usize) {
    for number in random.choose(PILOT_COUNT, count) {
        frame[ROW_SYMBOLS * number] ^= 1 + random.below(255) as u8;
    }
}

fn random_payload(random: &mut Xorshift) -> Vec<u8> {
    let mut frame = random.bytes(FRAME_SYMBOLS);
    for (row, pilot) in frame.chunks_exact_mut(ROW_SYMBOLS).zip(PILOTS) {
        row[0] = pilot;
    }
    frame
}

/// The stores of the two runs, and the last frame of the sender's.
struct Runs {
    sender: Vec<u8>,
    sent: Vec<u8>,
    receiver: Vec<u8>,
}

/// The right lengths, but a wrong one where the set has a bit.
fn lengths<const N: usize>(random: &mut Xorshift, right: [usize; N], wrong: u64) -> [usize; N] {
    let mut lengths = right;
    for (which, length) in lengths.iter_mut().enumerate() {
        if wrong >> which & 1 == 1 {
            *length = wrong_length(random, *length);
        }
    }
    lengths
}

fn write_sending<W: Write>(
    calls: &mut Calls<W>,
    random: &mut Xorshift,
    runs: &mut Runs,
    call: u64,
) -> io::Result<()> {
    let wrong = if call % 8 == 7 { call / 8 % 7 + 1 } else { 0 };
    let random_store = call % 8 == 3;
    let lengths = lengths(random, [LANES_BYTES, STORE_BYTES, FRAME_SYMBOLS], wrong);
    let input = random.bytes(lengths[0]);
    let mut store = random.bytes(lengths[1]);
    if !random_store && lengths[1] == STORE_BYTES {
        store.clone_from(&runs.sender);
    }
    let mut output = random.bytes(lengths[2]);
    calls.send(&input, &mut store, &mut output)?;
    if !random_store && wrong == 0 {
        (runs.sender, runs.sent) = (store, output);
    }
    Ok(())
}

fn write_receiving<W: Write>(
    calls: &mut Calls<W>,
    random: &mut Xorshift,
    runs: &mut Runs,
    call: u64,
) -> io::Result<()> {
    let round = call / 8;
    let mut input = runs.sent.clone();
    let mut wrong = 0;
    let mut random_store = false;
    match call % 8 {
        0 => {}
        1 => damage_words(random, &mut input, 2, 2),
        2 => damage_words(random, &mut input, 0, 2),
        5 => {
            damage_words(random, &mut input, 0, 6);
            damage_pilots(random, &mut input, WRONG_PILOTS[round as usize % 7]);
        }
        3 => {
            random_store = matches!(round % 4, 0 | 3);
            match round % 4 {
                0 => damage_words(random, &mut input, 0, 6),
                2 => input = random.bytes(FRAME_SYMBOLS),
                _ => input = random_payload(random),
            }
        }
        7 => {
            wrong = round % 15 + 1;
            if round % 2 == 1 {
                input = random.bytes(FRAME_SYMBOLS);
            }
        }
        _ => damage_words(random, &mut input, 0, 6),
    }
    let right = [FRAME_SYMBOLS, STORE_BYTES, LANES_BYTES, FRAME_WORDS];
    let lengths = lengths(random, right, wrong);
    input.resize(lengths[0], 0);
    let mut store = random.bytes(lengths[1]);
    if !random_store && lengths[1] == STORE_BYTES {
        store.clone_from(&runs.receiver);
    }
    let mut output = random.bytes(lengths[2]);
    let mut flags = random.bytes(lengths[3]);
    calls.receive(&input, &mut store, &mut output, &mut flags)?;
    if call % 8 != 3 && call % 8 != 7 {
        runs.receiver = store;
    }
    Ok(())
}

pub fn write<W: Write>(calls: &mut Calls<W>, random: &mut Xorshift, count: u64) -> io::Result<()> {
    let mut runs = Runs {
        sender: vec![0; STORE_BYTES],
        sent: vec![],
        receiver: vec![0; STORE_BYTES],
    };
    for call in 0..count {
        write_sending(calls, random, &mut runs, call)?;
        write_receiving(calls, random, &mut runs, call)?;
    }
    Ok(())
}
