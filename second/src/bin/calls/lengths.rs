//! Sending and receiving with every buffer of every length that is near, and with every set of
//! refusals that can occur together.

use crate::frames::{damage_pilots, sent};
use crate::out::Calls;
use second::lanes::{LANES_BYTES, STORE_BYTES};
use second::symbols::{FRAME_SYMBOLS, NO_LOCK};
use second::word::FRAME_WORDS;
use second::xorshift::Xorshift;
use std::io::{self, Write};

/// None, near misses, and the lengths of the other buffers.
pub fn wrong_lengths(right: usize) -> Vec<usize> {
    let others = [LANES_BYTES, STORE_BYTES, FRAME_SYMBOLS, FRAME_WORDS];
    [0, 1, right - 1, right + 1, 2 * right]
        .into_iter()
        .chain(others)
        .filter(|&length| length != right)
        .collect()
}

/// One of them, or any.
pub fn wrong_length(random: &mut Xorshift, right: usize) -> usize {
    let any = random.below(10_000) as usize;
    let lengths = wrong_lengths(right);
    match random.below(lengths.len() as u64 + 1) as usize {
        which if which < lengths.len() => lengths[which],
        _ if any != right => any,
        _ => right + 1,
    }
}

const SENDING: [usize; 3] = [LANES_BYTES, STORE_BYTES, FRAME_SYMBOLS];
const RECEIVING: [usize; 4] = [FRAME_SYMBOLS, STORE_BYTES, LANES_BYTES, FRAME_WORDS];

fn send<W: Write>(
    calls: &mut Calls<W>,
    random: &mut Xorshift,
    lengths: [usize; 3],
) -> io::Result<u32> {
    let [input, mut store, mut output] = lengths.map(|length| random.bytes(length));
    calls.send(&input, &mut store, &mut output)
}

/// With 24 wrong pilots, or 25.
fn receive<W: Write>(
    calls: &mut Calls<W>,
    random: &mut Xorshift,
    lock: bool,
    lengths: [usize; 4],
) -> io::Result<u32> {
    let [_, mut store, mut output, mut flags] = lengths.map(|length| random.bytes(length));
    let mut input = sent(random, &mut [0; STORE_BYTES]).to_vec();
    damage_pilots(random, &mut input, NO_LOCK - usize::from(lock));
    input.resize(lengths[0], 0);
    calls.receive(&input, &mut store, &mut output, &mut flags)
}

/// The right lengths, each beside all that are wrong for it.
fn each_wrong<const N: usize>(right: [usize; N]) -> Vec<(u32, [usize; N])> {
    let mut cases = vec![];
    for (which, number) in (0..N).zip(1..) {
        for length in wrong_lengths(right[which]) {
            let mut lengths = right;
            lengths[which] = length;
            cases.push((number, lengths));
        }
    }
    cases
}

/// Every set of wrong lengths, with the lowest number that applies, 0 of none.
fn every_set<const N: usize>(random: &mut Xorshift, right: [usize; N]) -> Vec<(u32, [usize; N])> {
    let mut cases = vec![];
    for set in 0u32..1 << N {
        let mut lengths = right;
        for which in (0..N).filter(|which| set >> which & 1 == 1) {
            lengths[which] = wrong_length(random, right[which]);
        }
        let lowest = if set == 0 {
            0
        } else {
            set.trailing_zeros() + 1
        };
        cases.push((lowest, lengths));
    }
    cases
}

pub fn write<W: Write>(calls: &mut Calls<W>, random: &mut Xorshift) -> io::Result<()> {
    let sets = every_set(random, SENDING);
    for (number, lengths) in each_wrong(SENDING).into_iter().chain(sets) {
        assert_eq!(send(calls, random, lengths)?, number);
    }
    for lock in [true, false] {
        let sets = every_set(random, RECEIVING);
        for (number, lengths) in each_wrong(RECEIVING).into_iter().chain(sets) {
            let number = if number == 0 && !lock { 5 } else { number };
            assert_eq!(receive(calls, random, lock, lengths)?, number);
        }
    }
    Ok(())
}
