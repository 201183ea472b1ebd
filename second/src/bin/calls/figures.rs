//! 01's run figures: 24 bad pilots accepted and 25 refused; two flips mended and any three flagged,
//! every pair and every triple; number 0 after 4294967295 in order; the same number twice late.

use crate::accounts::STARTS;
use crate::frames::{damage_pilots, flip, sent};
use crate::out::Calls;
use crate::records::order;
use second::account::{opened, PASS};
use second::capture::frame_record;
use second::kept::{Kept, GOING, STOPPED};
use second::lanes::{LANES_BYTES, STORE_BYTES};
use second::receive::receive;
use second::symbols::{FRAME_SYMBOLS, NO_LOCK, PILOT_COUNT, ROW_SYMBOLS};
use second::word::{FRAME_WORDS, INFORMATION_BITS, WORD_BITS};
use second::xorshift::Xorshift;
use std::io::{self, Write};

fn pilots<W: Write>(calls: &mut Calls<W>, random: &mut Xorshift) -> io::Result<()> {
    for wrong in [0, 1, 23, 24, 25, 26, 95, 96] {
        let clean = sent(random, &mut [0; STORE_BYTES]);
        let [mut first, mut last, mut any] = [clean; 3];
        // Bytes are counted, not bits: one wrong bit each, and all eight.
        for pilot in 0..wrong {
            first[ROW_SYMBOLS * pilot] ^= 1 << random.below(8);
            last[ROW_SYMBOLS * (PILOT_COUNT - 1 - pilot)] ^= 0xFF;
        }
        damage_pilots(random, &mut any, wrong);
        for frame in [first, last, any] {
            let mut store = random.bytes(STORE_BYTES);
            let (mut lanes, mut flags) = (random.bytes(LANES_BYTES), random.bytes(FRAME_WORDS));
            let number = calls.receive(&frame, &mut store, &mut lanes, &mut flags)?;
            assert_eq!(number, if wrong < NO_LOCK { 0 } else { 5 });
        }
    }
    Ok(())
}

/// Every pair, then every triple, of the places of a word.
fn patterns() -> Vec<Vec<usize>> {
    let places = 0..usize::from(WORD_BITS);
    let mut pairs = vec![];
    let mut triples = vec![];
    for a in places.clone() {
        for b in a + 1..places.end {
            pairs.push(vec![a, b]);
            triples.extend((b + 1..places.end).map(|c| vec![a, b, c]));
        }
    }
    pairs.append(&mut triples);
    pairs
}

/// What stands in the lanes and the store after receiving.
fn received(frame: &[u8], store: &[u8]) -> Vec<u8> {
    let mut store = store.to_vec();
    let mut lanes = [0; LANES_BYTES];
    assert_eq!(
        receive(frame, &mut store, &mut lanes, &mut [0; FRAME_WORDS]),
        0
    );
    [&lanes[..], &store].concat()
}

fn flips<W: Write>(calls: &mut Calls<W>, random: &mut Xorshift) -> io::Result<()> {
    let (mut sender, mut receiver) = ([0; STORE_BYTES], [0; STORE_BYTES]);
    for patterns in patterns().chunks(FRAME_WORDS) {
        let mut frame = sent(random, &mut sender);
        let undamaged = received(&frame, &receiver);
        for (word, numbers) in patterns.iter().enumerate() {
            flip(&mut frame, word, numbers);
        }
        let (mut lanes, mut flags) = (random.bytes(LANES_BYTES), random.bytes(FRAME_WORDS));
        assert_eq!(
            calls.receive(&frame, &mut receiver, &mut lanes, &mut flags)?,
            0
        );
        // Two are mended, and of three those in the information bits pass on.
        let mut passed = 0;
        for (numbers, flag) in patterns.iter().zip(&flags) {
            assert_eq!(numbers.len(), usize::from(*flag));
            if numbers.len() == 3 {
                passed += numbers
                    .iter()
                    .filter(|&&n| n < usize::from(INFORMATION_BITS))
                    .count();
            }
        }
        let returned = lanes.iter().chain(&receiver);
        let differ: u32 = returned
            .zip(&undamaged)
            .map(|(a, b)| (a ^ b).count_ones())
            .sum();
        assert_eq!(differ as usize, passed);
    }
    Ok(())
}

fn numbers<W: Write>(calls: &mut Calls<W>, random: &mut Xorshift) -> io::Result<()> {
    let flags = [0; FRAME_WORDS];
    let last = u32::MAX;
    let mut account = opened(1);
    calls.account_open(&mut account, last)?;
    assert_eq!(calls.account_enter(&mut account, last, &flags)?, 0);
    assert_eq!(calls.account_lose(&mut account.clone(), 0)?, 0);
    assert_eq!(calls.account_enter(&mut account, 0, &flags)?, 0);
    assert_eq!((account.accepted, account.missing), (2, 0));
    for start in STARTS {
        for lost in [false, true] {
            calls.account_open(&mut account, start)?;
            let first = match lost {
                false => calls.account_enter(&mut account, start, &flags)?,
                true => calls.account_lose(&mut account, start)?,
            };
            assert_eq!(first, 0);
            assert_eq!(calls.account_enter(&mut account, start, &flags)?, 10);
            assert_eq!(calls.account_lose(&mut account, start)?, 10);
        }
    }
    let mut run = Kept::new();
    let mut sender = [0; STORE_BYTES];
    let [first, second]: [[u8; FRAME_SYMBOLS]; 2] = [(); 2].map(|()| sent(random, &mut sender));
    for record in [
        order(last, 2, 0),
        frame_record(last, &first),
        frame_record(0, &second),
    ] {
        assert_eq!(calls.run_step(&mut run, &record)?, 0);
    }
    assert_eq!((run.phase, calls.run_verdict(&run)?), (GOING, PASS));
    let twice = frame_record(0, &second);
    assert_eq!(calls.run_step(&mut run, &twice)?, 10);
    assert_eq!(run.phase, STOPPED);
    Ok(())
}

pub fn write<W: Write>(calls: &mut Calls<W>, random: &mut Xorshift) -> io::Result<()> {
    pilots(calls, random)?;
    flips(calls, random)?;
    numbers(calls, random)
}

#[cfg(test)]
mod tests {
    use super::*;
    use std::collections::BTreeSet;

    #[test]
    fn every_pair_and_every_triple() {
        let patterns = patterns();
        assert_eq!(patterns.iter().filter(|p| p.len() == 2).count(), 7_875);
        assert_eq!(patterns.iter().filter(|p| p.len() == 3).count(), 325_500);
        let different = |p: &[usize]| p.windows(2).all(|pair| pair[0] < pair[1]);
        assert!(patterns
            .iter()
            .all(|p| different(p) && p[p.len() - 1] < 126));
        assert_eq!(
            patterns.iter().collect::<BTreeSet<_>>().len(),
            patterns.len()
        );
        assert_eq!(patterns.chunks(FRAME_WORDS).len(), 869);
    }
}
