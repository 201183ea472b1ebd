//! Test traffic: states after every kind of count, frames by their numbers and on from any state,
//! and recovered frames, undamaged and damaged, some of which went through sending and receiving.

use crate::frames::{damage_words, flip as flip_word};
use crate::lengths::wrong_lengths;
use crate::out::Calls;
use crate::verdicts::any;
use second::lanes::{LANES, LANES_BYTES, LANE_BYTES, STORE_BYTES};
use second::symbols::FRAME_SYMBOLS;
use second::traffic::{frame_by_rule, moved, FRAME_BITS, PERIOD, SEED};
use second::word::{FRAME_WORDS, INFORMATION_BITS};
use second::xorshift::Xorshift;
use std::io::{self, Write};

/// A lane of a recovered frame begins with the last three blocks of the frame before the last.
const OLDER_BYTES: usize = 15;
const LANE_BITS: usize = 8 * LANE_BYTES;

/// Frame numbers at which something changes: the first, powers of two, where the stream has gone
/// round, the last.
fn numbers(random: &mut Xorshift) -> Vec<u32> {
    let round = (PERIOD / FRAME_BITS) as u32;
    let mut numbers = vec![0, 1, 2, 3, 4, 5, 6, round, round + 1, round + 2];
    for digit in 3..32 {
        numbers.push(1 << digit);
        numbers.push((1 << digit) - 1);
    }
    numbers.extend([u32::MAX - 2, u32::MAX - 1, u32::MAX]);
    numbers.extend((0..12).map(|_| any(random) as u32));
    numbers
}

fn states<W: Write>(calls: &mut Calls<W>, random: &mut Xorshift) -> io::Result<()> {
    for bits in 0..=70 {
        assert_eq!(calls.traffic_state(bits)?, moved(SEED, bits));
    }
    for bits in [320, 1_000, FRAME_BITS, 46_080, 2 * FRAME_BITS] {
        for near in bits - 1..=bits + 1 {
            calls.traffic_state(near)?;
        }
    }
    for digit in 6..64 {
        let power = 1u64 << digit;
        for near in [power - 1, power, power + 1] {
            calls.traffic_state(near)?;
        }
    }
    // Whole rounds, as few and as many as there can be.
    for rounds in [1, 2, 3, 1 << 16, 1 << 31, 1 << 32, u64::MAX / PERIOD] {
        let bits = rounds * PERIOD;
        for near in [bits - 1, bits, bits + 1] {
            calls.traffic_state(near)?;
        }
        assert_eq!(calls.traffic_state(bits)?, SEED);
    }
    for bits in [u64::MAX - 1, u64::MAX] {
        calls.traffic_state(bits)?;
    }
    for number in numbers(random) {
        calls.traffic_state(FRAME_BITS * u64::from(number))?;
    }
    for _ in 0..300 {
        // So many bits, and from there on more.
        let (bits, more) = (any(random) / 2, any(random) / 2);
        let state = calls.traffic_state(bits)?;
        assert_eq!(calls.traffic_state(bits + more)?, moved(state, more));
    }
    Ok(())
}

fn by_number<W: Write>(calls: &mut Calls<W>, random: &mut Xorshift) -> io::Result<()> {
    for number in numbers(random) {
        let refusal = calls.traffic_frame(number, &mut random.bytes(LANES_BYTES))?;
        assert_eq!(refusal, 0);
    }
    for length in wrong_lengths(LANES_BYTES) {
        for number in [0, 1, any(random) as u32, u32::MAX] {
            let refusal = calls.traffic_frame(number, &mut random.bytes(length))?;
            assert_eq!(refusal, 3);
        }
    }
    Ok(())
}

/// From states of every kind, refused on the way and not, and in runs of which each frame is also
/// asked for by its number.
fn going_on<W: Write>(calls: &mut Calls<W>, random: &mut Xorshift) -> io::Result<()> {
    let mut states = vec![0, SEED, 1, 1 << 30, 0x5555_5555, 0x2AAA_AAAA, 7, !7 & SEED];
    states.extend((0..8).map(|_| random.below(1 << 31) as u32));
    for state in states {
        for top in [0, 1 << 31] {
            let mut state = state | top;
            let length = random.pick(&wrong_lengths(LANES_BYTES));
            let refusal = calls.traffic_next(&mut state, &mut random.bytes(length))?;
            assert_eq!(refusal, 3);
            for _ in 0..2 {
                let right = moved(state & SEED, FRAME_BITS);
                let refusal = calls.traffic_next(&mut state, &mut random.bytes(LANES_BYTES))?;
                assert_eq!((refusal, state), (0, right));
            }
        }
    }
    for length in wrong_lengths(LANES_BYTES) {
        for before in [0, SEED, u32::MAX] {
            let mut state = before;
            let refusal = calls.traffic_next(&mut state, &mut random.bytes(length))?;
            assert_eq!((refusal, state), (3, before));
        }
    }
    let some = random.below(1 << 31) as u32;
    for (first, last) in [
        (0, 15),
        (50_838, 50_843),
        (some, some + 5),
        (u32::MAX - 5, u32::MAX),
    ] {
        let mut state = calls.traffic_state(FRAME_BITS * u64::from(first))?;
        for number in first..=last {
            let [mut one, mut other] = [(); 2].map(|()| random.bytes(LANES_BYTES));
            assert_eq!(calls.traffic_next(&mut state, &mut one)?, 0);
            assert_eq!(calls.traffic_frame(number, &mut other)?, 0);
            assert!(one == other);
        }
    }
    Ok(())
}

/// What comes back undamaged as a frame: each lane 36 blocks late, so the end of the frame before the
/// last and the beginning of the last; zeros before the first.
fn recovered(number: u32) -> Vec<u8> {
    let sent = |ago: u32| {
        let mut lanes = vec![0; LANES_BYTES];
        if let Some(number) = number.checked_sub(ago) {
            assert_eq!(frame_by_rule(number, &mut lanes), 0);
        }
        lanes
    };
    let (last, older) = (sent(1), sent(2));
    let lanes = last.chunks(LANE_BYTES).zip(older.chunks(LANE_BYTES));
    lanes
        .flat_map(|(last, older)| {
            let (first, end) = (LANE_BYTES - OLDER_BYTES, OLDER_BYTES);
            [&older[LANE_BYTES - end..], &last[..first]].concat()
        })
        .collect()
}

/// How many bits at the beginning of each lane are fill.
fn fill(number: u32) -> usize {
    match number {
        0 => LANE_BITS,
        1 => 8 * OLDER_BYTES,
        _ => 0,
    }
}

/// Counts that the call finds there and that must not matter.
fn odd_counts(random: &mut Xorshift, length: usize) -> Vec<u32> {
    (0..length).map(|_| random.next_u64() as u32).collect()
}

fn check<W: Write>(
    calls: &mut Calls<W>,
    random: &mut Xorshift,
    number: u32,
    lanes: &[u8],
) -> io::Result<Vec<u32>> {
    let mut wrong = odd_counts(random, LANES);
    assert_eq!(calls.traffic_check(number, lanes, &mut wrong)?, 0);
    Ok(wrong)
}

fn flip(lanes: &mut [u8], lane: usize, bit: usize) {
    lanes[LANE_BYTES * lane + bit / 8] ^= 0x80 >> (bit % 8);
}

/// Undamaged, all turned, and single flips at both ends of a lane and on both sides of the fill.
fn checked<W: Write>(
    calls: &mut Calls<W>,
    random: &mut Xorshift,
    number: u32,
    all: bool,
) -> io::Result<()> {
    let right = recovered(number);
    let fill = fill(number);
    assert_eq!(check(calls, random, number, &right)?, [0; LANES]);
    let turned: Vec<u8> = right.iter().map(|byte| !byte).collect();
    let wrong = check(calls, random, number, &turned)?;
    assert_eq!(wrong, [(LANE_BITS - fill) as u32; LANES]);
    let edges = match all {
        true => vec![0, 1, 118, 119, 120, 121, 1_199, 1_200, 1_318, 1_319],
        false => vec![0, 119, 120, 1_319],
    };
    for bit in edges {
        let lane = random.pick(&[0, 1, 15, 16, 30, 31]);
        let mut lanes = right.clone();
        flip(&mut lanes, lane, bit);
        let mut wrong = [0; LANES];
        wrong[lane] = u32::from(bit >= fill);
        assert_eq!(check(calls, random, number, &lanes)?, wrong);
    }
    // Another number of flips in each lane.
    let mut lanes = right.clone();
    let mut wrong = [0; LANES];
    for (lane, wrong) in wrong.iter_mut().enumerate() {
        for bit in random.choose(LANE_BITS, lane * lane % 37) {
            flip(&mut lanes, lane, bit);
            *wrong += u32::from(bit >= fill);
        }
    }
    assert_eq!(check(calls, random, number, &lanes)?, wrong);
    Ok(())
}

fn checks<W: Write>(calls: &mut Calls<W>, random: &mut Xorshift) -> io::Result<()> {
    for number in 0..4 {
        checked(calls, random, number, true)?;
    }
    let (round, some) = ((PERIOD / FRAME_BITS) as u32, any(random) as u32);
    for number in [4, round + 1, round + 2, 1 << 31, some, u32::MAX] {
        checked(calls, random, number, false)?;
    }
    for number in numbers(random) {
        assert_eq!(
            check(calls, random, number, &recovered(number))?,
            [0; LANES]
        );
    }
    for number in [0, 1, 2, 3, any(random) as u32, u32::MAX] {
        let other = recovered(number.wrapping_add(1));
        let any = random.bytes(LANES_BYTES);
        for lanes in [other, any, vec![0; LANES_BYTES], vec![0xFF; LANES_BYTES]] {
            check(calls, random, number, &lanes)?;
        }
    }
    Ok(())
}

/// Each length beside the other's right one and beside wrong ones: 1 comes before 3.
fn refused<W: Write>(calls: &mut Calls<W>, random: &mut Xorshift) -> io::Result<()> {
    let counts = [0, 1, 31, 33, 64, 128, 384, LANES_BYTES];
    for number in [0, 1, 2, u32::MAX] {
        let right = recovered(number);
        for &length in &counts {
            let mut wrong = odd_counts(random, length);
            assert_eq!(calls.traffic_check(number, &right, &mut wrong)?, 3);
        }
        for length in wrong_lengths(LANES_BYTES) {
            let mut lanes = right.clone();
            lanes.resize(length, 0);
            for count in [LANES, random.pick(&counts)] {
                let mut wrong = odd_counts(random, count);
                assert_eq!(calls.traffic_check(number, &lanes, &mut wrong)?, 1);
            }
        }
    }
    Ok(())
}

/// Sent, hit, received and checked: what is mended is not wrong, and what is not mended comes out.
fn through_the_line<W: Write>(calls: &mut Calls<W>, random: &mut Xorshift) -> io::Result<()> {
    let (mut sender, mut receiver) = (vec![0; STORE_BYTES], vec![0; STORE_BYTES]);
    let (mut state, mut wrong) = (SEED, vec![]);
    for number in 0..14 {
        let (mut lanes, mut symbols) = (random.bytes(LANES_BYTES), random.bytes(FRAME_SYMBOLS));
        assert_eq!(calls.traffic_next(&mut state, &mut lanes)?, 0);
        assert_eq!(calls.send(&lanes, &mut sender, &mut symbols)?, 0);
        match number {
            1 | 3 => damage_words(random, &mut symbols, 2, 2),
            // One word that is flagged, and then every word.
            4 => flip_word(
                &mut symbols,
                200,
                &random.choose(INFORMATION_BITS.into(), 3),
            ),
            7 => damage_words(random, &mut symbols, 3, 3),
            8 => damage_words(random, &mut symbols, 0, 6),
            _ => damage_words(random, &mut symbols, 0, 2),
        }
        let mut flags = random.bytes(FRAME_WORDS);
        let refusal = calls.receive(&symbols, &mut receiver, &mut lanes, &mut flags)?;
        assert_eq!(refusal, 0);
        let counts = check(calls, random, number, &lanes)?;
        wrong.push(counts.iter().sum::<u32>());
        // By the number of another frame.
        check(calls, random, number + 1, &lanes)?;
    }
    // A frame comes out with the two behind it.
    assert!(wrong[..4].iter().all(|&wrong| wrong == 0));
    assert_eq!(wrong[4..7].iter().sum::<u32>(), 3);
    assert!(wrong[7..11].iter().sum::<u32>() > 1_000);
    assert!(wrong[11..].iter().all(|&wrong| wrong == 0));
    Ok(())
}

pub fn write<W: Write>(calls: &mut Calls<W>, random: &mut Xorshift) -> io::Result<()> {
    states(calls, random)?;
    by_number(calls, random)?;
    going_on(calls, random)?;
    checks(calls, random)?;
    refused(calls, random)?;
    through_the_line(calls, random)
}

#[cfg(test)]
mod tests {
    use super::*;
    use second::receive::receive;
    use second::send::send;
    use second::traffic::next;

    #[test]
    fn what_comes_back_is_36_blocks_late_behind_zeros() {
        let (mut sender, mut receiver) = ([0; STORE_BYTES], [0; STORE_BYTES]);
        let mut state = SEED;
        for number in 0..6 {
            let (mut lanes, mut symbols) = ([0; LANES_BYTES], [0; FRAME_SYMBOLS]);
            assert_eq!(next(&mut state, &mut lanes), 0);
            assert_eq!(send(&lanes, &mut sender, &mut symbols), 0);
            let flags = &mut [0; FRAME_WORDS];
            assert_eq!(receive(&symbols, &mut receiver, &mut lanes, flags), 0);
            assert!(lanes == recovered(number)[..]);
            for lane in lanes.chunks(LANE_BYTES) {
                assert!(lane[..fill(number) / 8].iter().all(|&byte| byte == 0));
            }
        }
    }

    #[test]
    fn the_calls_are_made_and_what_they_must_answer_holds() {
        let mut bytes = vec![];
        let mut calls = Calls::new(&mut bytes);
        write(&mut calls, &mut Xorshift::new(7)).unwrap();
        assert!(bytes.len() > 1_000_000);
    }
}
