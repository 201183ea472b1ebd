//! Verdicts on numbers, and the same numbers as those of a run.
//!
//! Of every 22 three pass with as many flagged words as allowed and three fail by one more; twelve
//! miss a condition by as little as can be, by words of fill, or by 2^32 or 2^64; one is of two frames
//! with nearly every word flagged or allowed; one has an arbitrary allowance, one is of no frame, of
//! one or of two without tallies, and one of arbitrary numbers.

use crate::out::Calls;
use second::account::account;
use second::kept::{Kept, GOING, STOPPED, UNORDERED};
use second::xorshift::Xorshift;
use std::io::{self, Write};

const COUNT: u64 = 3_000;

/// Any number, each size of it as likely as another.
pub fn any(random: &mut Xorshift) -> u64 {
    random.next_u64() >> random.below(64)
}

/// What a verdict is asked of: asked, allowed and stopped, and accepted, missing and the tallies.
type Asked = ([u32; 3], [u64; 6]);

/// A measured run with as many flagged words as allowed, or so many more.
fn measured(random: &mut Xorshift, more: u64) -> Asked {
    let asked = match random.below(3) {
        0 => 2 + random.below(3),
        1 => 2 + random.below(999_999),
        _ => 2 + random.below(u64::from(u32::MAX) - 1),
    };
    let total = 384 * asked - 448;
    let most = (total - more).min(u32::MAX.into());
    let allowed = match random.below(6) {
        0 => 0,
        1 => most,
        _ => random.below(most + 1),
    };
    let flagged = allowed + more;
    let clean = random.below(total - flagged + 1);
    let one = random.below(total - flagged - clean + 1);
    let two = total - flagged - clean - one;
    let numbers = [asked, 0, clean, one, two, flagged];
    ([asked as u32, allowed as u32, 0], numbers)
}

fn some_verdict(random: &mut Xorshift, call: u64) -> Asked {
    let (mut order, mut numbers) = measured(random, (call + call / 22) % 2);
    let either = random.pick(&[1, u64::MAX]);
    let tally = 2 + random.below(4) as usize;
    match call % 22 {
        0..=5 => {}
        6 => (order[0], numbers) = (0, [0; 6]),
        7 => order[0] = 0,
        8 => order[0] = order[0].wrapping_add(either as u32),
        9 => numbers[0] = numbers[0].wrapping_add(either),
        10 => numbers[1] = 1,
        11 | 12 => numbers[tally] = numbers[tally].wrapping_add(either),
        13 => {
            // Two of the first three tallies take 2^64 between them.
            let part = (1 << 62) + random.below(1 << 48) * (1 << 15);
            let without = 2 + random.below(3) as usize;
            let mut parts = [part, part.wrapping_neg()].into_iter();
            for place in (2..5).filter(|&place| place != without) {
                numbers[place] += parts.next().unwrap();
            }
        }
        14 => order[2] = random.pick(&[1, 2, 1 << 8, 1 << 31, u32::MAX]),
        15 => match random.below(4) {
            0 => numbers[1] = 1 << 32,
            1 => numbers[tally] += 1 << 32,
            2 => numbers[0] += 1 << 32,
            _ => {
                numbers[0] += 1 << 32;
                numbers[2] += 384 << 32;
            }
        },
        16 => order[1] = any(random) as u32,
        // As if fill were tallied, or left out twice.
        17 => {
            let words = random.pick(&[63u64, 64, 65, 128, 320, 384, 447, 448, 449, 512, 896]);
            let by = random.pick(&[words, words.wrapping_neg()]);
            numbers[tally] = numbers[tally].wrapping_add(by);
        }
        // So few frames have no right total, but for 2^64 or where a difference stops at 0.
        18 => {
            let few = random.below(2);
            let right = (384 * few).wrapping_sub(448);
            let total = random.pick(&[0, 1, 63, 64, 320, 384, 448, 704, right, right, right]);
            (order[0], numbers) = (few as u32, [few, 0, 0, 0, 0, 0]);
            numbers[2 + random.below(4) as usize] = total;
            order[1] = random.pick(&[0, 1, order[1], u32::MAX]);
        }
        19 => {
            let few = random.below(3);
            (order[0], numbers) = (few as u32, [few, 0, 0, 0, 0, 0]);
        }
        20 => {
            let flagged = random.pick(&[0, 1, 319, 320]);
            let allowed = random.pick(&[0, 1, 318, 319, 320, 321, u32::MAX]);
            order = [2, allowed, 0];
            numbers = [2, 0, 320 - flagged, 0, 0, flagged];
        }
        _ => {
            order = order.map(|_| any(random) as u32);
            numbers = numbers.map(|_| any(random));
        }
    }
    (order, numbers)
}

pub fn write<W: Write>(calls: &mut Calls<W>, random: &mut Xorshift) -> io::Result<()> {
    for call in 0..COUNT {
        let (order, numbers) = some_verdict(random, call);
        calls.verdict(order, numbers)?;
        let [accepted, missing, clean, one, two, flagged] = numbers;
        // A number for stopped is one for a phase: what is not stopped is going on.
        let phase = match order[2] {
            0 => GOING,
            1 => random.pick(&[UNORDERED, STOPPED]),
            stopped => stopped,
        };
        calls.run_verdict(&Kept {
            phase,
            asked: order[0],
            allowed: order[1],
            account: account(
                any(random) as u32,
                any(random) as u32,
                [accepted, missing, clean, one, two, flagged],
            ),
        })?;
    }
    Ok(())
}
